// Random and adversarial lists.
use crate::calls::{Call, List, Rect, Settings};
use crate::geometry::Cell;
use crate::krakvinge::ALL_INKS;
use crate::random::Random;

const LOWEST: i64 = -1073741824;
const HIGHEST: i64 = 1073741823;
pub const EXTREMES: [i64; 10] =
    [i32::MIN as i64, i32::MIN as i64 + 1, LOWEST - 1, LOWEST, LOWEST + 1, HIGHEST - 1, HIGHEST, HIGHEST + 1, i32::MAX as i64 - 1, i32::MAX as i64];

fn axis(random: &mut Random) -> (i64, i64) {
    match random.below(12) {
        0 => (random.between(-5, 5), 0),
        1 => (random.between(-5, 5), random.between(1, 3)),
        2 => (LOWEST, HIGHEST - LOWEST),
        3 => (random.pick(&[LOWEST, 0, HIGHEST]), 0),
        4..=6 => (random.between(-2000, 2000), random.between(100, 5000)),
        7 => (-8, 16),
        _ => (0, random.pick(&[4, 15, 16, 17, 31, 64])),
    }
}

pub fn settings(random: &mut Random) -> Settings {
    let (left, width) = axis(random);
    let (top, height) = if random.one_in(3) { axis(random) } else { (left, width) };
    Settings {
        left: left as i32,
        top: top as i32,
        width: width as i32,
        height: height as i32,
        depth_limit: random.pick(&[0, 1, 2, 3, 4, 5, 6, 8, 31, 255, 255]),
        leaf_limit: random.pick(&[1, 1, 1, 1, 2, 2, 2, 3, 4, 8, 4294967295]),
        smallest_cell: random.pick(&[1, 1, 1, 1, 1, 1, 2, 3, 8, 1000, 2147483647]),
    }
}

// Coordinates that a rectangle begins or ends at: centres of cells, edges of the root, anywhere inside, extremes.
struct Places<'a> {
    settings: &'a Settings,
    far: u64,
}

impl Places<'_> {
    fn spot(&self, random: &mut Random) -> (i64, i64) {
        let s = self.settings;
        let (left, top) = (s.left as i64, s.top as i64);
        let (right, bottom) = (left + s.width as i64, top + s.height as i64);
        if random.one_in(self.far) {
            return (random.pick(&EXTREMES), random.pick(&EXTREMES));
        }
        match random.below(10) {
            0..=4 => (random.between(left, right), random.between(top, bottom)),
            5 => (random.pick(&[left - 1, left, right, right + 1]), random.pick(&[top - 1, top, bottom, bottom + 1])),
            6 => (random.pick(&[left, right]), random.between(top, bottom)),
            _ => {
                let mut cell = Cell::root(s);
                for _ in 0..random.below(5) {
                    cell = cell.child(1 + random.below(4) as u32);
                }
                (cell.x + random.between(-1, 1).max(0), cell.y + random.between(-1, 1).max(0))
            }
        }
    }

    fn rect(&self, random: &mut Random, inverted: u64) -> Rect {
        let (x, y) = self.spot(random);
        let (w, h) = (1 + self.settings.width as i64 / 8, 1 + self.settings.height as i64 / 8);
        let (x2, y2) = match random.below(7) {
            0 | 1 => (x, y),
            2 => (x + random.between(0, w), y),
            3 => (x, y + random.between(0, h)),
            4 => self.spot(random),
            _ => (x + random.between(0, w), y + random.between(0, h)),
        };
        let clip = |z: i64| z.clamp(i32::MIN as i64, i32::MAX as i64) as i32;
        let (mut a, mut b) = ([clip(x), clip(y)], [clip(x2), clip(y2)]);
        if !random.one_in(inverted) {
            for i in 0..2 {
                (a[i], b[i]) = (a[i].min(b[i]), a[i].max(b[i]));
            }
        }
        [a[0], a[1], b[0], b[1]]
    }
}

// The inks of a list's dots.
struct Inks(Vec<u32>);

impl Inks {
    // 0 alone, two of them, all of 0 to 15.
    fn new(random: &mut Random) -> Inks {
        match random.below(5) {
            0 => Inks(vec![0]),
            1 => Inks(vec![random.below(16) as u32, random.below(16) as u32]),
            _ => Inks::all(),
        }
    }

    fn all() -> Inks {
        Inks((0..16).collect())
    }

    // One of them; where there are more than one, now and then one above 15.
    fn pick(&self, random: &mut Random) -> u32 {
        if self.0.len() > 1 && random.one_in(20) {
            return random.pick(&[16, 17, 31, 32, 65536, 2147483648, u32::MAX]);
        }
        random.pick(&self.0)
    }

    // None of them, all, one, all but one, any.
    fn mask(&self, random: &mut Random) -> u16 {
        match random.below(10) {
            0 => 0,
            1 => ALL_INKS,
            2..=4 => 1 << random.pick(&self.0),
            5 | 6 => !(1 << random.pick(&self.0)),
            _ => random.next() as u16,
        }
    }
}

// What a list does most: fills the tree, changes it, empties it, asks it.
struct Habit {
    insert: u64,
    remove: u64,
    cleanup: u64,
    ask: u64,
}

// A question; half of the queries are asked again by a mask.
fn ask(random: &mut Random, places: &Places, inks: &Inks, room: usize, given: &[(u32, Rect)]) -> Vec<Call> {
    let room = if random.one_in(4) { random.below(6) as usize } else { room + random.below(3) as usize };
    let rect = match random.below(10) {
        0 => return vec![Call::Leaves(if random.one_in(3) { room } else { 6 * (room + 64) })],
        1 => return vec![Call::CollectIds(room), Call::All(room)],
        2 => return vec![Call::References],
        3 if !given.is_empty() => random.pick(given).1,
        _ => places.rect(random, 12),
    };
    let mut calls = vec![Call::Query(rect, ALL_INKS, room)];
    if random.one_in(2) {
        calls.push(Call::Query(rect, inks.mask(random), room));
    }
    calls
}

// Takes a dot that was given, by its rectangle or another's; or one that never was.
fn remove(random: &mut Random, places: &Places, given: &mut Vec<(u32, Rect)>) -> Call {
    if given.is_empty() || random.one_in(10) {
        return Call::Remove(random.below(40) as u32, places.rect(random, 12));
    }
    let at = random.below(given.len() as u64) as usize;
    let (id, rect) = given[at];
    if random.one_in(6) {
        let other = if random.one_in(2) { random.pick(given).1 } else { places.rect(random, 12) };
        return Call::Remove(id, other);
    }
    given.swap_remove(at);
    Call::Remove(id, rect)
}

pub fn list(random: &mut Random, places: usize, groups: usize, length: usize) -> List {
    let settings = settings(random);
    let spots = Places { settings: &settings, far: random.pick(&[10, 100, 400]) };
    let (ids, inks) = (random.pick(&[3, 30, 1 << 32]), Inks::new(random));
    let mut habit = Habit { insert: 10, remove: 1, cleanup: 1, ask: 4 };
    let (mut calls, mut given) = (vec![], vec![]);
    while calls.len() < length {
        if random.one_in(1 + length as u64 / 5) {
            habit = match random.below(3) {
                0 => Habit { insert: 20, remove: 1, cleanup: 1, ask: 4 },
                1 => Habit { insert: 0, remove: 20, cleanup: 6, ask: 3 },
                _ => Habit { insert: 1 + random.below(12), remove: random.below(14), cleanup: random.below(3), ask: 1 + random.below(8) },
            };
        }
        let at = random.below(habit.insert + habit.remove + habit.cleanup + habit.ask);
        if at < habit.insert {
            let (id, rect) = (random.below(ids) as u32, spots.rect(random, 60));
            calls.push(Call::Insert(id, rect, inks.pick(random)));
            given.push((id, rect));
        } else if at < habit.insert + habit.remove {
            calls.push(remove(random, &spots, &mut given));
        } else if at < habit.insert + habit.remove + habit.cleanup {
            calls.push(Call::Cleanup);
        } else {
            calls.extend(ask(random, &spots, &inks, places, &given));
        }
    }
    List { settings, groups, places, changes: 0, calls }
}

// The count that a list begins with: 0, or one that its changes take over the end of the low word, or to the largest.
pub fn count(random: &mut Random) -> u64 {
    match random.below(8) {
        0 => u32::MAX as u64 - random.below(60),
        1 | 2 => u64::MAX - random.below(60),
        _ => 0,
    }
}

// A short list in a small memory.
pub fn short(random: &mut Random) -> List {
    let places = random.between(8, 64) as usize;
    let groups = random.pick(&[0, 1, 2, 3, 5, 8, 16, 32, 64, 64, 64, 64]);
    let length = random.between(40, 400) as usize;
    list(random, places, groups, length)
}

// A short list that may begin near an end of the count.
pub fn counted(random: &mut Random) -> List {
    let list = short(random);
    List { changes: count(random), ..list }
}

// A list with thousands of dots: mostly inserts at first, then changes and questions, then removes and cleanups.
pub fn long(random: &mut Random) -> List {
    let leaf_limit = 1 + random.below(16) as u32;
    let settings = Settings { left: -2048, top: -2048, width: 4096, height: 4096, depth_limit: 10, leaf_limit, smallest_cell: 1 };
    let (spots, inks) = (Places { settings: &settings, far: 4000 }, Inks::all());
    let (mut calls, mut given) = (vec![], vec![]);
    for step in 0..12000u64 {
        match random.below(20) {
            0 => calls.extend(ask(random, &spots, &inks, 4096, &given)),
            1 if step > 4000 => calls.push(Call::Cleanup),
            2..=9 if step > 4000 => calls.push(remove(random, &spots, &mut given)),
            10..=14 if step > 8000 => calls.push(remove(random, &spots, &mut given)),
            _ => {
                let (id, rect) = (step as u32, spots.rect(random, 1000));
                given.push((id, rect));
                calls.push(Call::Insert(id, rect, inks.pick(random)));
            }
        }
    }
    List { settings, groups: 4096, places: 4096, changes: 0, calls }
}
