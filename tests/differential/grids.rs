// The grid report against the original: the count of a window is the number of ids that the original lists for its rectangle.
use crate::calls::{halves, Answer, Call, List, Rect, Settings, UNWRITTEN};
use crate::faults::Fault;
use crate::grid_faults::{Planted, PLANTED};
use crate::krakvinge::{Grid, Rows};
use crate::lists;
use crate::original::Original;
use crate::port::Port;
use crate::quadtree::AABB;
use crate::random::Random;
use std::fmt;

const LISTS: u32 = 8_000;
const LONG: u32 = 2;
const SEED: u64 = 64;
const HIGHEST: i64 = 1073741823;
// Grids that are recorded after each list.
const RECORDED: u32 = 5;

// A grid, and the words of the row that is lent.
pub struct Asked {
    pub grid: Grid,
    pub room: usize,
}

impl fmt::Display for Asked {
    fn fmt(&self, f: &mut fmt::Formatter) -> fmt::Result {
        let Grid { x, y, width, height, columns, rows } = self.grid;
        write!(f, "grid {x} {y} {width} {height} {columns} {rows} {}", self.room)
    }
}

fn number(random: &mut Random) -> i64 {
    match random.below(100) {
        0 | 1 => random.pick(&[0, -1, 65, i32::MIN as i64, i32::MAX as i64]),
        2..=9 => random.between(1, 64),
        10..=12 => 64,
        _ => random.between(1, 5),
    }
}

// Where the windows begin, and their size: over the film, from one of its dots on, beyond it, from 0 on, at the ends of the range, anywhere.
fn axis(random: &mut Random, number: i64, low: i64, size: i64, dot: i64) -> (i64, i64) {
    let (small, before) = (random.between(1, 4), random.between(0, number.clamp(0, 64)));
    let large = random.between(1, 2 + size / 2);
    match random.below(12) {
        0..=3 => (low + random.between(-1, 1), size / number.max(1) + random.between(0, 1)),
        4 | 5 => (dot - before * small, small),
        6 => (dot - before * large, large),
        7 => (low - before * (size + 1), size + 1),
        8 => (-before * small, small),
        9 if random.one_in(2) => (random.pick(&lists::EXTREMES), random.pick(&[1, 50331647, 50331648, 1610612735, 1610612736, i32::MAX as i64])),
        _ => (low + random.between(-large, size), large),
    }
}

impl Asked {
    fn any(random: &mut Random, s: &Settings, dots: &[Rect]) -> Asked {
        let dot = if dots.is_empty() { [0; 4] } else { random.pick(dots) };
        let (columns, rows) = (number(random), number(random));
        let (x, width) = axis(random, columns, s.left as i64, s.width as i64, dot[0] as i64);
        let (y, height) = axis(random, rows, s.top as i64, s.height as i64, dot[1] as i64);
        let [x, y, width, height, columns, rows] = [x, y, width, height, columns, rows].map(|n| n.clamp(i32::MIN as i64, i32::MAX as i64) as i32);
        let grid = Grid { x, y, width, height, columns, rows };
        let windows = if sizes_fit(&grid) { columns as i64 * rows as i64 } else { 4 };
        let room = if random.one_in(12) { random.below(windows as u64) as i64 } else { windows + random.between(0, 3) };
        Asked { grid, room: room as usize }
    }

    // The windows, rows downward and columns rising within a row. The grid is in range.
    pub fn windows(&self) -> Vec<Rect> {
        let g = self.grid;
        let window = |row: i32, column: i32| {
            let (x, y) = (g.x as i64 + column as i64 * g.width as i64, g.y as i64 + row as i64 * g.height as i64);
            [x, y, x + g.width as i64, y + g.height as i64].map(|n| n as i32)
        };
        (0..g.rows).flat_map(|row| (0..g.columns).map(move |column| window(row, column))).collect()
    }

    // All windows as one. The grid is in range.
    pub fn whole(&self) -> Rect {
        let (g, windows) = (self.grid, self.windows());
        let last = windows[windows.len() - 1];
        [g.x, g.y, last[2], last[3]]
    }

    fn refused(&self, number: u64) -> Answer {
        Answer { result: number, words: [UNWRITTEN; 2], row: vec![UNWRITTEN as i64; self.room] }
    }
}

pub fn sizes_fit(g: &Grid) -> bool {
    g.width >= 1 && g.height >= 1 && (1..=64).contains(&g.columns) && (1..=64).contains(&g.rows)
}

pub fn corner_fits(g: &Grid) -> bool {
    let end = |first: i32, size: i32, number: i32| first as i64 + size as i64 * number as i64;
    end(g.x, g.width, g.columns) <= HIGHEST && end(g.y, g.height, g.rows) <= HIGHEST
}

// The original's answer: a query for each window. The refusals are those of §19.
fn wanted(original: &Original, asked: &Asked) -> Answer {
    if !sizes_fit(&asked.grid) {
        return asked.refused(11);
    }
    if !corner_fits(&asked.grid) {
        return asked.refused(12);
    }
    let windows = asked.windows();
    if windows.len() > asked.room {
        return asked.refused(8 + 256 * windows.len() as u64);
    }
    let mut answer = asked.refused(0);
    let mut total = 0;
    for (window, word) in windows.iter().zip(&mut answer.row) {
        let count = original.tree.intersect_aabb(&AABB::from(*window)).len();
        *word = count as i64;
        total += count as u64;
    }
    answer.words = halves(total);
    answer
}

fn answered(rows: &mut Rows, asked: &Asked) -> Answer {
    let (mut row, mut words) = (vec![UNWRITTEN; asked.room], [UNWRITTEN; 2]);
    let result = rows.grid(&asked.grid, &mut row, &mut words);
    Answer { result, words, row: row.into_iter().map(i64::from).collect() }
}

// One grid on both sides: the answer, and the rows, which are kept but for the marks.
fn ask(original: &Original, rows: &mut Rows, asked: &Asked, planted: Planted) -> Result<Answer, String> {
    let theirs = wanted(original, asked);
    let mut before = rows.clone();
    rows.marks.iter_mut().enumerate().for_each(|(i, m)| *m = (i * 7 + 1) as u8);
    let mut ours = answered(rows, &planted.spoil_asked(asked));
    planted.spoil(asked, rows, &mut ours);
    before.marks.fill(0);
    if ours != theirs || *rows != before {
        return Err(format!("{asked}: the original: {theirs:?}, the port: {ours:?}; rows kept: {}", *rows == before));
    }
    Ok(theirs)
}

// How the grids ended.
#[derive(Default)]
struct Counts {
    accepted: u64,
    windows: u64,
    total: u64,
    // Grids with a dot that is counted in more than one window.
    shared: u64,
    refused: [u64; 13],
}

impl Counts {
    fn tell(&mut self, original: &Original, asked: &Asked, answer: &Answer) {
        if answer.result != 0 {
            self.refused[(answer.result % 256) as usize] += 1;
            return;
        }
        self.accepted += 1;
        self.windows += asked.windows().len() as u64;
        self.total += answer.words[0] as u64;
        self.shared += (original.tree.intersect_aabb(&AABB::from(asked.whole())).len() < answer.words[0] as usize) as u64;
    }

    fn print(&self) -> bool {
        let of = |number: usize| self.refused[number];
        println!(
            "differential: {} grids of {} windows as the original's queries (floors 80000 and 3000000): {} dots counted (1200000), \
             {} grids with a dot in several windows (30000), refused 8 {} (5000), 11 {} (5000), 12 {} (5000)",
            self.accepted, self.windows, self.total, self.shared, of(8), of(11), of(12)
        );
        self.accepted >= 80_000 && self.windows >= 3_000_000 && self.total >= 1_200_000 && self.shared >= 30_000
            && of(8) >= 5_000 && of(11) >= 5_000 && of(12) >= 5_000
    }
}

// The list's changes on both sides; now and then a grid.
fn differ(list: &List, random: &mut Random, planted: Planted, counts: &mut Counts) -> Option<String> {
    let (mut original, mut port) = (Original::new(list), Port::new(list, Fault::None));
    let (mut dots, every) = (vec![], 1 + list.calls.len() as u64 / 24);
    for call in list.calls.iter().filter(|call| call.room() == 0) {
        if original.answer(call) != port.answer(call) {
            return Some(format!("{}: {call}", list.head()));
        }
        if let Call::Insert(_, rect, _) = call {
            dots.push(*rect);
        }
        if random.one_in(every) {
            let asked = Asked::any(random, &list.settings, &dots);
            match ask(&original, &mut port.rows, &asked, planted) {
                Ok(answer) => counts.tell(&original, &asked, &answer),
                Err(text) => return Some(format!("{}: {text}", list.head())),
            }
        }
    }
    None
}

fn find(planted: Planted) -> bool {
    let mut random = Random(SEED);
    let found = (0..LISTS).any(|_| differ(&lists::short(&mut random), &mut random, planted, &mut Counts::default()).is_some());
    if !found {
        println!("differential: {planted:?}, planted in a grid report, was NOT FOUND");
    }
    found
}

pub fn as_queries() -> bool {
    let (mut random, mut counts) = (Random(SEED), Counts::default());
    for number in 0..LISTS + LONG {
        let list = if number < LISTS { lists::short(&mut random) } else { lists::long(&mut random) };
        if let Some(text) = differ(&list, &mut random, Planted::Nothing, &mut counts) {
            println!("differential: DIFFERENCE between a grid report and the original's queries: {text}");
            return false;
        }
    }
    let found = PLANTED.into_iter().filter(|planted| find(*planted)).count();
    println!("differential: {found} of {} faults planted in a grid report found", PLANTED.len());
    counts.print() && found == PLANTED.len()
}

// Grids after a list's calls, as lines with the original's answers.
pub fn recorded(list: &List, random: &mut Random) -> Result<String, String> {
    let (mut original, mut port, mut dots) = (Original::new(list), Port::new(list, Fault::None), vec![]);
    for call in &list.calls {
        original.answer(call);
        port.answer(call);
        if let Call::Insert(_, rect, _) = call {
            dots.push(*rect);
        }
    }
    let mut text = String::new();
    for _ in 0..RECORDED {
        let asked = Asked::any(random, &list.settings, &dots);
        let answer = ask(&original, &mut port.rows, &asked, Planted::Nothing)?;
        text += &format!("{asked} = {}", answer.result);
        if answer.result == 0 {
            let [low, high] = answer.words;
            let counts: String = answer.row[..asked.windows().len()].iter().map(|count| format!(" {count}")).collect();
            text += &format!(" {low} {high}{counts}");
        }
        text += "\n";
    }
    Ok(text)
}
