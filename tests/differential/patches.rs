// Patches against the original: the same dots, inserted into it one by one. Where one of them is refused, or they pass the largest count of changes, the
// original is made anew without them.
use crate::calls::{Answer, Call, List, Rect, Settings, UNWRITTEN};
use crate::compare;
use crate::faults::Fault;
use crate::krakvinge::{Patch, Rows};
use crate::lists;
use crate::original::{Original, NONE};
use crate::patch_faults::{Planted, PLANTED};
use crate::port::{count, Port};
use crate::random::Random;

const LISTS: u32 = 8_000;
const SEED: u64 = 256;
// Patches that are recorded after each list.
const RECORDED: u32 = 4;

// The threshold at a column and a row of a matrix of this size, by the recursive rule (§20.2).
fn threshold(size: u32, column: u32, row: u32) -> u32 {
    if size == 1 {
        return 0;
    }
    let half = size / 2;
    let quarter = match (column / half, row / half) {
        (0, 0) => 0,
        (1, 0) => 2,
        (0, 1) => 3,
        _ => 1,
    };
    4 * threshold(half, column % half, row % half) + quarter
}

// §20.1.
pub fn fits(p: &Patch) -> bool {
    (1..=64).contains(&p.columns) && (1..=64).contains(&p.rows) && p.tint <= 256
}

// The dots' columns and rows in the patch's order.
pub fn places(p: &Patch) -> impl Iterator<Item = (u32, u32)> + '_ {
    let row = |row| (0..16 * p.columns).map(move |column| (column, row));
    (0..16 * p.rows).flat_map(row).filter(|&(column, row)| threshold(16, column % 16, row % 16) < p.tint)
}

// An insert of the patch; none where its id or a coordinate fits no word.
pub fn insert(p: &Patch, number: usize, (column, row): (u32, u32)) -> Option<Call> {
    let id = u32::try_from(p.first_id as u64 + number as u64).ok()?;
    let (x, y) = (p.x as i64 + column as i64, p.y as i64 + row as i64);
    let word = |n: i64| i32::try_from(n).ok();
    let rect: Rect = [word(x)?, word(y)?, word(x + 1)?, word(y + 1)?];
    Some(Call::Insert(id, rect, 0))
}

// Mostly a few tiles and dots over the film; now and then many, at its edges, at the ends of the ranges.
fn any(random: &mut Random, s: &Settings) -> Patch {
    let tiles = |random: &mut Random| match random.below(30) {
        0 => random.pick(&[0, 65, u32::MAX]),
        1 => 64,
        2..=6 => random.between(2, 5) as u32,
        _ => 1,
    };
    let corner = |random: &mut Random, low: i32, size: i32| match random.below(12) {
        0 => random.pick(&lists::EXTREMES) as i32,
        1 => (random.pick(&lists::EXTREMES) - random.between(0, 20)).clamp(i32::MIN as i64, i32::MAX as i64) as i32,
        2 | 3 => (low as i64 + size as i64 - random.between(0, 20)) as i32,
        4 => low - random.between(1, 16) as i32,
        _ => low + random.between(0, (size as i64 / 2).min(40)) as i32,
    };
    let tint = match random.below(20) {
        0 => random.pick(&[257, 512, u32::MAX]),
        1 => 0,
        2 => random.pick(&[255, 256]),
        3 | 4 => random.between(1, 256) as u32,
        _ => random.between(1, 12) as u32,
    };
    let first_id = match random.below(6) {
        0 => u32::MAX - random.below(14) as u32,
        1 => random.next() as u32,
        _ => random.below(200) as u32,
    };
    let (columns, rows) = (tiles(random), tiles(random));
    Patch { x: corner(random, s.left, s.width), y: corner(random, s.top, s.height), columns, rows, tint, first_id }
}

// Both sides, and a third tree that gets single inserts.
struct Sides<'a> {
    list: &'a List,
    original: Original,
    port: Port,
    single: Port,
}

// How a patch ended on the original: its dots; or those before the one that is refused, and the number of that refusal, 0 for a dot that fits no word;
// or dots that pass the largest count of changes.
pub enum Ended {
    Laid(Vec<Call>),
    Refused(Vec<Call>, u64),
    Passes(Vec<Call>),
}

impl Sides<'_> {
    fn new(list: &List) -> Sides {
        let port = || Port::new(list, Fault::None);
        Sides { list, original: Original::new(list), port: port(), single: port() }
    }

    fn change(&mut self, call: &Call) -> bool {
        let answer = self.original.answer(call);
        answer == self.port.answer(call) && answer == self.single.answer(call)
    }

    // Each dot in its turn, as if the count had no end.
    fn lay(&mut self, p: &Patch) -> Ended {
        let (made, changes) = (self.original.made(), std::mem::take(&mut self.original.changes));
        let (mut laid, mut refused) = (vec![], None);
        for (number, place) in places(p).enumerate() {
            let call = insert(p, number, place);
            let result = call.map_or(0, |call| self.original.answer(&call).result);
            if call.is_none() || result != 0 {
                refused = Some(result);
                break;
            }
            laid.extend(call);
        }
        let ended = match (refused, changes.checked_add(laid.len() as u64)) {
            (None, Some(changes)) => {
                self.original.changes = changes;
                return Ended::Laid(laid);
            }
            (None, None) => Ended::Passes(laid),
            (Some(number), _) => Ended::Refused(laid, number),
        };
        self.original.back_to(made, changes);
        ended
    }

    // One patch on both sides: the answer, and every word. Tells the result.
    fn patch(&mut self, p: &Patch, planted: Planted, counts: &mut Counts) -> Result<u64, String> {
        let seed = self.original.made();
        self.port.rows.marks.iter_mut().enumerate().for_each(|(i, m)| *m = (seed + 7 * i + 1) as u8);
        let before = self.port.rows.clone();
        let mut ours = answered(&mut self.port.rows, &planted.spoil_asked(p));
        if !fits(p) {
            planted.spoil(p, None, &before, &mut self.port.rows, &mut ours);
            counts.refused[13] += 1;
            let same = ours == refused(13) && self.port.rows == before;
            self.port.rows = before;
            self.port.rows.marks.fill(0);
            return if same { Ok(13) } else { Err(format!("{p:?}: {ours:?}, wanted 13 and every row as it was")) };
        }
        let ended = self.lay(p);
        planted.spoil(p, Some(&ended), &before, &mut self.port.rows, &mut ours);
        let theirs = match &ended {
            Ended::Laid(calls) => Answer::accepted([calls.len() as u32, 0]),
            Ended::Refused(..) => refused(14),
            Ended::Passes(_) => refused(16),
        };
        if let Ended::Laid(calls) = &ended {
            calls.iter().for_each(|call| assert_eq!(self.single.answer(call).result, 0));
        }
        // the marks that the single inserts met are another matter
        self.single.rows.marks.fill(0);
        counts.tell(&ended, &self.port.rows);
        let text = (ours != theirs).then(|| format!("the original's inserts: {theirs:?}, the port: {ours:?}"));
        let text = text.or_else(|| (self.port.rows != self.single.rows).then(|| "other words than after the single inserts".to_string()));
        let text = text.or_else(|| compare::memory_differs(self.list, &self.original, &self.port.rows));
        text.map_or(Ok(theirs.result), |text| Err(format!("{p:?}: {text}")))
    }
}

pub fn answered(rows: &mut Rows, p: &Patch) -> Answer {
    let mut words = [UNWRITTEN; 2];
    let result = rows.patch(p, &mut words);
    Answer { result, words, row: vec![] }
}

pub fn refused(number: u64) -> Answer {
    Answer { result: number, words: [UNWRITTEN; 2], row: vec![] }
}

// How the patches ended; those refused as 14 by the number that their last dot has.
#[derive(Default)]
struct Counts {
    accepted: u64,
    dots: u64,
    empty: u64,
    // Patches that took the last free group, and refused ones that laid some dots first on the original.
    last_group: u64,
    late: u64,
    // Patches that reached the largest count.
    last_count: u64,
    refused: [u64; 17],
}

impl Counts {
    fn tell(&mut self, ended: &Ended, rows: &Rows) {
        match ended {
            Ended::Laid(calls) => {
                self.accepted += 1;
                self.dots += calls.len() as u64;
                self.empty += calls.is_empty() as u64;
                self.last_group += (rows.state[7] == NONE && !calls.is_empty()) as u64;
                self.last_count += (count(rows) == u64::MAX && !calls.is_empty()) as u64;
            }
            Ended::Passes(_) => self.refused[16] += 1,
            Ended::Refused(laid, number) => {
                self.late += !laid.is_empty() as u64;
                self.refused[*number as usize] += 1;
            }
        }
    }

    fn print(&self) -> bool {
        let of = |number: usize| self.refused[number];
        println!(
            "differential: {} patches of {} dots as the original's inserts (floors 10000 and 200000): {} without a dot (500), {} to the last group (300), \
             {} to the largest count (50); refused 13 {} (5000), 16 {} (500); 14 for 4 {} (1000), 5 {} (5000), 6 {} (1000), 7 {} (1000), \
             a number that fits no word {} (500), after some dots {} (5000)",
            self.accepted, self.dots, self.empty, self.last_group, self.last_count, of(13), of(16), of(4), of(5), of(6), of(7), of(0), self.late
        );
        self.accepted >= 10_000 && self.dots >= 200_000 && self.empty >= 500 && self.last_group >= 300 && self.last_count >= 50
            && of(16) >= 500 && of(13) >= 5_000 && of(4) >= 1_000 && of(5) >= 5_000 && of(6) >= 1_000 && of(7) >= 1_000 && of(0) >= 500 && self.late >= 5_000
    }
}

// A list in a memory of any size, most films wide enough for a tile; some near the largest count.
fn list(random: &mut Random) -> List {
    let (places, groups) = (random.pick(&[8, 40, 300, 2000, 2000]), random.pick(&[0, 1, 3, 8, 40, 200, 600, 600]));
    let length = random.between(5, 60) as usize;
    let mut list = lists::list(random, places, groups, length);
    if random.one_in(2) {
        let s = &mut list.settings;
        (s.left, s.top, s.width, s.height) = (random.between(-60, 60) as i32, random.between(-60, 60) as i32, random.between(15, 140) as i32, random.between(15, 140) as i32);
    }
    list.changes = lists::count(random);
    list
}

fn differ(list: &List, random: &mut Random, planted: Planted, counts: &mut Counts) -> Option<String> {
    let mut sides = Sides::new(list);
    for call in list.calls.iter().filter(|call| call.room() == 0) {
        if !sides.change(call) {
            return Some(format!("{}: {call}", list.head()));
        }
        if random.one_in(2) {
            let p = any(random, &list.settings);
            if let Err(text) = sides.patch(&p, planted, counts) {
                return Some(format!("{}: after {} changes: {text}", list.head(), sides.original.made()));
            }
        }
    }
    None
}

fn find(planted: Planted) -> bool {
    let mut random = Random(SEED);
    let found = (0..LISTS).any(|_| differ(&list(&mut random), &mut random, planted, &mut Counts::default()).is_some());
    if !found {
        println!("differential: {planted:?}, planted in a patch, was NOT FOUND");
    }
    found
}

// Patches after a list's calls, each with the ids that are then in the tree, as lines with the original's answers.
pub fn recorded(list: &List, random: &mut Random) -> Result<String, String> {
    let mut sides = Sides::new(list);
    if !list.calls.iter().filter(|call| call.room() == 0).all(|call| sides.change(call)) {
        return Err("a difference before the patches".to_string());
    }
    let mut text = String::new();
    for _ in 0..RECORDED {
        let p = any(random, &list.settings);
        let before = sides.original.live();
        let result = sides.patch(&p, Planted::Nothing, &mut Counts::default())?;
        let Patch { x, y, columns, rows, tint, first_id } = p;
        text += &format!("patch {x} {y} {columns} {rows} {tint} {first_id} = ");
        let laid = sides.original.live() - before;
        text += &if result == 0 { format!("0 {laid} 0\n") } else { format!("{result}\n") };
        let all = Call::All(list.places);
        let answer = sides.original.answer(&all);
        text += &format!("{all} = {}{}\n", answer.result, crate::recorded(&all, &answer));
    }
    Ok(text)
}

pub fn as_inserts() -> bool {
    let (mut random, mut counts) = (Random(SEED), Counts::default());
    for _ in 0..LISTS {
        let list = list(&mut random);
        if let Some(text) = differ(&list, &mut random, Planted::Nothing, &mut counts) {
            println!("differential: DIFFERENCE between a patch and the original's inserts: {text}");
            return false;
        }
    }
    let found = PLANTED.into_iter().filter(|planted| find(*planted)).count();
    println!("differential: {found} of {} faults planted in a patch found", PLANTED.len());
    counts.print() && found == PLANTED.len()
}
