// What every call turns down first: rows of another length (1), settings out of range (2), a memory that is no tree (3).
// What a refusal keeps is §11.7: all, but that after 3 the marks are 0.
use crate::calls::{Call, UNWRITTEN};
use crate::krakvinge::{Grid, Patch, Rows, ALL_INKS};
use crate::lists::short;
use crate::original::NONE;
use crate::port::{count, set_count};
use crate::random::Random;

const ROUNDS: u32 = 3_000;
const KINDS: usize = 13;

fn call(rows: &mut Rows, kind: usize, words: &mut [u32], ids: &mut [u32], numbers: &mut [i32]) -> u64 {
    match kind {
        0 => rows.insert(1, [1, 1, 2, 2], 3, words),
        1 => rows.remove(1, [1, 1, 2, 2], words),
        2 => rows.cleanup(words),
        3 => rows.query([0, 0, 9, 9], ALL_INKS, ids, words),
        4 => rows.leaves(numbers, words),
        5 => rows.all(ids, words),
        6 => rows.references(words),
        7 => rows.grid(&Grid { x: 0, y: 0, width: 4, height: 4, columns: 2, rows: 3 }, ids, words),
        8 => rows.patch(&Patch { x: 0, y: 0, columns: 1, rows: 1, tint: 2, first_id: 9 }, words),
        9 => rows.ask(1, [1, 1, 2, 2], 3, &mut ids[..8], words),
        // with a count that is not the tree's: 15 comes later
        10 => rows.place(&[1, 1, 1, 2, 2, 3, 7, 7], words),
        11 => rows.collect_ids(ids, words),
        _ => rows.batch(&[0, 1, 1, 1, 2, 2, 3, 1, 1, 1, 1, 2, 2, 3], words),
    }
}

// One thing made wrong; the refusal that follows, and the length of the answer row.
fn damage(random: &mut Random, rows: &mut Rows) -> (u64, usize) {
    match random.below(15) {
        0 => rows.state.truncate(random.below(12) as usize),
        1 => rows.state.push(0),
        2 => return (1, 0),
        3 => return (1, 1),
        4 => return (1, 3),
        5 => rows.nodes.push(0),
        6 => rows.dots.push(0),
        7 => rows.rects.push(0),
        8 => rows.marks.push(0),
        9 => return out_of_range(rows, 4, 256),
        10 => return out_of_range(rows, 5, 0),
        11 => return out_of_range(rows, 2, u32::MAX),
        // two words a place
        12 => rows.dots.truncate(rows.dots.len() / 3 * 2),
        13 => {
            rows.state[9] += 1;
            return (3, 2);
        }
        _ => {
            rows.nodes[1] = rows.nodes[1].wrapping_add(1);
            return (3, 2);
        }
    }
    (1, 2)
}

fn out_of_range(rows: &mut Rows, at: usize, word: u32) -> (u64, usize) {
    rows.state[at] = word;
    (2, 2)
}

// A call that must be turned down, with an answer row of so many words.
fn refused(random: &mut Random, mut rows: Rows, kind: usize, refusal: u64, words: usize) -> Result<(), String> {
    rows.marks.iter_mut().for_each(|m| *m = random.next() as u8);
    let mut wanted = rows.clone();
    if refusal == 3 {
        wanted.marks.fill(0);
    }
    let (mut answer, mut ids, mut numbers) = (vec![UNWRITTEN; words], vec![UNWRITTEN; 64], vec![77; 600]);
    let result = call(&mut rows, kind, &mut answer, &mut ids, &mut numbers);
    let kept = answer.iter().chain(&ids).all(|w| *w == UNWRITTEN) && numbers.iter().all(|w| *w == 77);
    if result != refusal || rows != wanted || !kept {
        return Err(format!("call {kind}: {result}, wanted {refusal}; rows kept: {}, answers kept: {kept}", rows == wanted));
    }
    Ok(())
}

fn round(random: &mut Random, counts: &mut [u64; 4], inks: &mut [u64; 3]) -> Result<(), String> {
    let list = short(random);
    let mut tree = Rows::new(&list.settings, list.groups, list.places);
    tree.make();
    for c in list.calls.iter().take(60) {
        if let Call::Insert(id, rect, ink) = c {
            tree.insert(*id, *rect, *ink, &mut [0; 2]);
        }
    }
    for kind in 0..KINDS {
        let mut rows = tree.clone();
        let (refusal, words) = damage(random, &mut rows);
        counts[refusal as usize] += 1;
        refused(random, rows, kind, refusal, words).map_err(|text| format!("{}: {text}", list.head()))?;
    }
    other_inks(random, &tree, inks).map_err(|text| format!("{}: {text}", list.head()))?;
    broken_records(&tree, counts)?;
    broken_tickets(&tree, counts)?;
    set_count(&mut tree, random.next());
    if tree.check() != 0 {
        return Err(format!("{}: the count {} is refused", list.head(), count(&tree)));
    }
    Ok(())
}

// The places that are free.
pub fn free(rows: &Rows) -> Vec<usize> {
    let (mut at, mut free) = (rows.state[8], vec![]);
    while at != NONE {
        free.push(at as usize);
        at = rows.dots[3 * at as usize + 1];
    }
    free
}

// Each place with another ink: a dot may have any from 0 to 15, a free place 0 alone. `inks` counts good ones, bad ones of dots, of free places.
fn other_inks(random: &mut Random, tree: &Rows, inks: &mut [u64; 3]) -> Result<(), String> {
    let free = free(tree);
    for p in 0..tree.rects.len() / 4 {
        let mut rows = tree.clone();
        let is_free = free.contains(&p);
        let ink = if is_free { random.pick(&[1, 15, 16, u32::MAX]) } else { random.pick(&[0, 1, 7, 14, 15, 16, 17, 32, u32::MAX]) };
        rows.dots[3 * p + 2] = ink;
        if !is_free && ink <= 15 {
            inks[0] += 1;
            if rows.check() != 0 {
                return Err(format!("the ink {ink} in place {p} is refused"));
            }
        } else {
            inks[1 + is_free as usize] += 1;
            let kind = random.below(KINDS as u64) as usize;
            refused(random, rows, kind, 3, 2).map_err(|text| format!("the ink {ink} in place {p}: {text}"))?;
        }
    }
    Ok(())
}

// Rows of records that are not whole.
fn broken_records(tree: &Rows, counts: &mut [u64; 4]) -> Result<(), String> {
    for words in [1, 6, 8, 12, 13, 15] {
        let (mut rows, mut answers) = (tree.clone(), vec![UNWRITTEN; words / 7]);
        let result = rows.batch(&vec![0; words], &mut answers);
        counts[1] += 1;
        if result != 1 || rows != *tree || answers.iter().any(|w| *w != UNWRITTEN) {
            return Err(format!("a batch of {words} words: {result}, wanted 1"));
        }
    }
    Ok(())
}

// Rows of tickets that are too short or too long.
fn broken_tickets(tree: &Rows, counts: &mut [u64; 4]) -> Result<(), String> {
    for words in [0, 1, 7, 9] {
        let (mut rows, mut ticket, mut answer) = (tree.clone(), vec![UNWRITTEN; words], [UNWRITTEN; 2]);
        let results = [rows.ask(1, [1, 1, 2, 2], 3, &mut ticket, &mut answer), rows.place(&ticket, &mut answer)];
        counts[1] += 2;
        if results != [1; 2] || rows != *tree || ticket.iter().chain(&answer).any(|w| *w != UNWRITTEN) {
            return Err(format!("a ticket of {words} words: {results:?}, wanted 1"));
        }
    }
    Ok(())
}

pub fn turned_down() -> bool {
    let (mut random, mut counts, mut inks) = (Random(5), [0; 4], [0; 3]);
    for _ in 0..ROUNDS {
        if let Err(text) = round(&mut random, &mut counts, &mut inks) {
            println!("differential: DIFFERENCE from the specification: {text}");
            return false;
        }
    }
    println!("differential: calls turned down as the specification says: {} refused 1, {} refused 2, {} refused 3", counts[1], counts[2], counts[3]);
    println!("differential: inks changed: {} good ones taken, {} of dots and {} of free places refused 3", inks[0], inks[1], inks[2]);
    counts[1..].iter().chain(&inks).all(|n| *n > 1000)
}
