// Runs make, the check and references on random and damaged memories, against the requirements in plain Rust.
mod exports;
#[path = "../../host/rust/krakvinge.rs"]
#[allow(dead_code)]
mod krakvinge;
mod plain;
#[allow(dead_code)]
#[path = "../random.rs"]
mod random;

use plain::{Memory, Rect, Settings, BRANCH, NONE};
use random::Random;

const ROUNDS: u64 = 400000;

fn settings(random: &mut Random) -> Settings {
    let size = [0, 1, 2, 7, 16, 64, 1000, 2147483646][random.below(8) as usize];
    let low = if size > 1000 { -1073741824 } else { random.between(-70, 70) };
    let width = if random.one_in(6) { random.between(0, 3) } else { size };
    let height = if random.one_in(6) { random.between(0, 3) } else { size };
    let mut s = Settings {
        left: low as i32,
        top: low as i32,
        width: width as i32,
        height: height as i32,
        depth_limit: [0, 1, 2, 3, 5, 8, 255][random.below(7) as usize],
        leaf_limit: [1, 1, 2, 3, 4, 4294967295][random.below(6) as usize],
        smallest_cell: [1, 1, 1, 2, 5, 2147483647][random.below(6) as usize],
    };
    if random.one_in(20) {
        match random.below(8) {
            0 => s.left = -1073741825,
            1 => s.width = -1,
            2 => s.height = 2147483647,
            3 => s.depth_limit = 256,
            4 => s.leaf_limit = 0,
            5 => s.smallest_cell = 0,
            6 => s.smallest_cell = 2147483648,
            _ => s.top = 1073741823 - s.height + 1,
        }
    }
    s
}

fn rect(random: &mut Random, s: &Settings) -> Rect {
    let mut axis = |low: i32, size: i32| {
        let first = random.between(low as i64 - 2, low as i64 + size as i64 + 2);
        let extent = if random.one_in(3) { 0 } else { random.between(0, 1 + size as i64 / 4) };
        (first as i32, (first + extent).min(2147483647) as i32)
    };
    let (x1, x2) = axis(s.left, s.width);
    let (y1, y2) = axis(s.top, s.height);
    [x1, y1, x2, y2]
}

// A memory of any contents, its lengths mostly of the stated form.
fn garbage(random: &mut Random) -> Memory {
    let s = settings(random);
    let (groups, places) = (random.below(30) as usize, random.below(50) as usize);
    let mut m = Memory { changes: changes(random), ..Memory::fresh(s, groups, places) };
    m.nodes.iter_mut().for_each(|w| *w = random.next() as u32);
    m.dots.iter_mut().for_each(|w| *w = random.next() as u32);
    m.rects.iter_mut().for_each(|w| *w = random.next() as i32);
    m.marks.iter_mut().for_each(|w| *w = random.next() as u8);
    if random.one_in(10) {
        match random.below(6) {
            0 => m.nodes.push(0),
            1 => m.dots.push(0),
            2 => m.rects.push(0),
            3 => m.marks.push(0),
            // two words a place
            4 => m.dots.truncate(2 * places),
            _ => m.nodes.truncate(1),
        }
    }
    m
}

// A node's number, a place's, or another word worth trying.
fn word(random: &mut Random, m: &Memory) -> u32 {
    match random.below(7) {
        0 => NONE,
        1 => 0,
        2 => random.below(m.places() as u64 + 2) as u32,
        3 => 1 + 5 * random.below(m.groups() as u64 + 1) as u32,
        4 => random.below(5 * m.groups() as u64 + 3) as u32,
        5 => random.below(4) as u32,
        _ => random.next() as u32,
    }
}

// An ink at or near an end of the range, or any word.
fn ink(random: &mut Random) -> u32 {
    if random.one_in(8) { random.next() as u32 } else { random.pick(&[0, 1, 5, 14, 15, 16, 17, 31, NONE]) }
}

// A count of changes: of a tree that is new, at an end of a word, or any.
fn changes(random: &mut Random) -> u64 {
    if random.one_in(3) { random.next() } else { random.pick(&[0, 1, 4294967295, 4294967296, u64::MAX - 1, u64::MAX]) }
}

// One damage: of any word, or of one of the kinds that a check may miss.
fn damage(random: &mut Random, m: &mut Memory) {
    let (nodes, dots, rects, places) = (m.nodes.len() as u64, m.dots.len() as u64, m.rects.len() as u64, m.places() as u64);
    let w = word(random, m);
    let node = |random: &mut Random| 2 * random.below(nodes / 2) as usize;
    match random.below(16) {
        0 => m.nodes[random.below(nodes) as usize] = w,
        1 if dots > 0 => m.dots[random.below(dots) as usize] = w,
        2 if rects > 0 => m.rects[random.below(rects) as usize] = random.between(-70, 70) as i32,
        3 => m.free_group = w,
        4 => m.free_place = w,
        5 => m.live = if random.one_in(2) { m.live.wrapping_add(1) } else { w },
        6 => {
            let a = node(random);
            m.nodes[a + 1] = if random.one_in(2) { m.nodes[a + 1].wrapping_add(1) } else { m.nodes[a + 1].wrapping_sub(1) };
        }
        7 => {
            let a = node(random);
            m.nodes[a + 1] = BRANCH;
        }
        // two nodes share a chain or a group, or change theirs
        8 => {
            let (a, b) = (node(random), node(random));
            let words = [m.nodes[a], m.nodes[a + 1]];
            if random.one_in(2) {
                m.nodes.swap(a, b);
                m.nodes.swap(a + 1, b + 1);
            } else {
                m.nodes[b..b + 2].copy_from_slice(&words);
            }
        }
        // two places change their dots
        9 if places > 0 => {
            let (p, q) = (random.below(places) as usize, random.below(places) as usize);
            m.dots.swap(3 * p, 3 * q);
            m.dots.swap(3 * p + 2, 3 * q + 2);
            for i in 0..4 {
                m.rects.swap(4 * p + i, 4 * q + i);
            }
        }
        10 if places > 0 => {
            let (p, q) = (random.below(places) as usize, random.below(places) as usize);
            m.set_next(p, m.next(q));
        }
        11 => m.free_place = m.nodes[node(random)],
        12 => m.free_group = m.nodes[node(random)],
        13 if places > 0 => m.set_ink(random.below(places) as usize, ink(random)),
        14 if places > 0 => {
            let (p, q) = (random.below(places) as usize, random.below(places) as usize);
            m.dots.swap(3 * p + 2, 3 * q + 2);
        }
        // a leaf loses the head of its chain, which becomes free
        _ => {
            let a = node(random);
            if m.nodes[a + 1] > 0 && m.nodes[a + 1] != BRANCH && (m.nodes[a] as usize) < m.places() {
                let p = m.nodes[a] as usize;
                m.nodes[a] = m.next(p);
                m.nodes[a + 1] -= 1;
                m.set_next(p, m.free_place);
                m.free_place = p as u32;
                m.live = m.live.wrapping_sub(1);
            }
        }
    }
}

// The check and references against the plain rules, which say the refusal: the answer, the marks, and that nothing else is written.
fn compare(random: &mut Random, m: &Memory, counts: &mut [u64; 4]) -> u64 {
    let expected = m.refusal();
    counts[expected as usize] += 1;
    let state = m.state();
    let mut lent = m.clone();
    lent.marks.iter_mut().for_each(|b| *b = random.next() as u8);
    let mut wanted = lent.clone();
    if expected == 0 || expected == 3 {
        wanted.marks.fill(0);
    }
    let mut again = lent.clone();
    let answer = exports::check(&state, &mut lent);
    assert!(answer == expected, "check says {answer}, the rules {expected}: {m:?}");
    assert!(lent == wanted, "check wrote: {m:?}");
    let mut count = [7; 2];
    let answer = exports::references(&state, &mut again, &mut count);
    assert!(answer == expected, "references says {answer}, the rules {expected}: {m:?}");
    assert!(again == wanted, "references wrote: {m:?}");
    assert!(count == if expected == 0 { [m.live, 0] } else { [7; 2] }, "references counts {count:?}: {m:?}");
    expected
}

// A tree with another ink in one place: whether that is a tree, a dot's ink out of range, or an ink in a free place.
fn other_ink(random: &mut Random, m: &Memory, counts: &mut [u64; 4], inks: &mut [u64; 3]) {
    let (mut changed, place, ink) = (m.clone(), random.below(m.places() as u64) as usize, ink(random));
    changed.set_ink(place, ink);
    let refused = compare(random, &changed, counts) == 3;
    let is_free = m.free_places().contains(&place);
    assert!(refused == if is_free { ink != 0 } else { ink > 15 }, "the plain model and the ink {ink} at {place}: {m:?}");
    inks[if refused { 1 + is_free as usize } else { 0 }] += 1;
}

fn round(random: &mut Random, made: &mut [u64; 4], counts: &mut [u64; 4], inks: &mut [u64; 3]) {
    let mut lent = garbage(random);
    let before = lent.clone();
    let mut state = before.state();
    let answer = exports::make(&mut state, &mut lent);
    let fresh = Memory::fresh(before.settings, before.groups(), before.places());
    let expected = match fresh.refusal() {
        _ if before.refusal() == 1 => 1,
        answer => answer,
    };
    made[expected as usize] += 1;
    assert!(answer == expected, "make says {answer}, the rules {expected}: {before:?}");
    if expected != 0 {
        assert!(lent == before && state == before.state(), "a refused make wrote: {before:?}");
        compare(random, &before, counts);
        return;
    }
    assert!(state == fresh.state(), "the state after make: {before:?}");
    let mut m = Memory { free_group: state[7], free_place: state[8], live: state[9], changes: 0, ..lent };
    assert!(m == fresh, "the words after make: {before:?}");
    m.changes = changes(random);
    let mut kept = vec![];
    for _ in 0..random.below(90) {
        if random.one_in(4) && !kept.is_empty() {
            let (id, r): (u32, Rect) = kept[random.below(kept.len() as u64) as usize];
            m.remove(id, r);
        } else if random.one_in(12) {
            m.cleanup(0);
        } else {
            let (id, r, ink) = (random.below(20) as u32, rect(random, &m.settings), random.below(17) as u32);
            if m.insert(id, r, ink) {
                kept.push((id, r));
            }
        }
    }
    assert!(m.refusal() == 0, "the plain model left no tree: {m:?}");
    compare(random, &m, counts);
    if m.places() > 0 {
        other_ink(random, &m, counts, inks);
    }
    for _ in 0..6 {
        let mut damaged = m.clone();
        for _ in 0..1 + random.below(3) {
            damage(random, &mut damaged);
        }
        compare(random, &damaged, counts);
    }
}

// The largest rows, and both numbers 0.
fn edges(made: &mut [u64; 4], counts: &mut [u64; 4]) {
    let mut random = Random(11);
    let s = Settings { left: 0, top: 0, width: 4096, height: 4096, depth_limit: 9, leaf_limit: 4, smallest_cell: 1 };
    for (groups, places) in [(0, 0), (16384, 0), (0, 65536), (16384, 65536), (16385, 0), (0, 65537)] {
        let mut m = Memory::fresh(s, groups, places);
        let fresh = m.clone();
        m.nodes.fill(3);
        m.dots.fill(3);
        m.rects.fill(-3);
        m.marks.fill(3);
        let mut state = m.state();
        state[7..].fill(3);
        let answer = exports::make(&mut state, &mut m);
        let refused = groups > 16384 || places > 65536;
        assert!(answer == refused as u64, "make says {answer} for G = {groups}, N = {places}");
        made[answer as usize] += 1;
        assert!(refused || (m == fresh && state == fresh.state()), "the words after make for G = {groups}, N = {places}");
        compare(&mut random, &fresh, counts);
    }
}

fn main() {
    let (mut made, mut counts, mut inks) = ([0; 4], [0; 4], [0; 3]);
    edges(&mut made, &mut counts);
    let mut random = Random(0x9e3779b97f4a7c15);
    for _ in 0..ROUNDS {
        round(&mut random, &mut made, &mut counts, &mut inks);
    }
    println!("make: {} accepted, {} refused 1, {} refused 2", made[0], made[1], made[2]);
    println!("check and references: {} trees, {} refused 1, {} refused 2, {} refused 3", counts[0], counts[1], counts[2], counts[3]);
    println!("one ink changed: {} trees, {} of dots and {} of free places refused 3", inks[0], inks[1], inks[2]);
    assert!(made[0] > ROUNDS / 2 && made[1] > ROUNDS / 50 && made[2] > ROUNDS / 50, "too few of a kind");
    assert!(counts[0] > ROUNDS / 2 && counts[1] > ROUNDS / 50 && counts[2] > ROUNDS / 50 && counts[3] > ROUNDS * 2, "too few of a kind");
    assert!(inks.iter().all(|&n| n > ROUNDS / 50), "too few of a kind");
}
