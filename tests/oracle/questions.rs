// What both are asked: settings, cells by a path of children, and rectangles.
use crate::original;
use crate::random::Random;
use std::fmt;

pub type Rect = [i32; 4];

#[derive(Clone, Copy)]
pub struct Settings {
    pub root: Rect,
    pub depth_limit: u32,
    pub leaf_limit: u32,
    pub smallest_cell: u32,
}

// Each with the numbers of its answer.
pub enum Question {
    // Whether the settings are in range.
    Settings(Settings),
    // D.
    Deepest(Settings),
    // Whether a rectangle is accepted (refusals 4 and 5).
    Accepts(Settings, Rect),
    // At the end of the path: centre x, centre y, half width, half height, depth, whether a leaf may split.
    Node(Settings, Vec<u32>),
    // At the end of the path: the child that the rectangle goes to, and for children 0 to 4 whether it opens them as a query.
    Dot(Settings, Vec<u32>, Rect),
    Intersects(Rect, Rect),
    // Whether a root contains a rectangle.
    Contains(Rect, Rect),
}

impl Question {
    pub fn rectangles(&self) -> u64 {
        match self {
            Question::Settings(_) | Question::Deepest(_) | Question::Node(..) => 0,
            Question::Accepts(..) | Question::Dot(..) | Question::Contains(..) => 1,
            Question::Intersects(..) => 2,
        }
    }
}

pub fn numbers<T: fmt::Display>(row: &[T]) -> String {
    row.iter().map(T::to_string).collect::<Vec<_>>().join(" ")
}

impl fmt::Display for Settings {
    fn fmt(&self, f: &mut fmt::Formatter) -> fmt::Result {
        write!(f, "{} {} {} {}", numbers(&self.root), self.depth_limit, self.leaf_limit, self.smallest_cell)
    }
}

// A path's children as digits after a '/'.
fn digits(path: &[u32]) -> String {
    path.iter().fold(String::from("/"), |text, child| text + &child.to_string())
}

impl fmt::Display for Question {
    fn fmt(&self, f: &mut fmt::Formatter) -> fmt::Result {
        match self {
            Question::Settings(s) => write!(f, "settings {s}"),
            Question::Deepest(s) => write!(f, "deepest {s}"),
            Question::Accepts(s, r) => write!(f, "accepts {s} {}", numbers(r)),
            Question::Node(s, path) => write!(f, "node {s} {}", digits(path)),
            Question::Dot(s, path, r) => write!(f, "dot {s} {} {}", digits(path), numbers(r)),
            Question::Intersects(a, b) => write!(f, "intersects {} {}", numbers(a), numbers(b)),
            Question::Contains(a, b) => write!(f, "contains {} {}", numbers(a), numbers(b)),
        }
    }
}

const LOW: i32 = -1073741824;
const HIGH: i32 = 1073741823;

// Roots at the ends of the ranges, tiny, without width, odd, largest.
const ROOTS: [Rect; 14] = [
    [0, 0, 16, 16],
    [0, 0, 0, 0],
    [0, 0, 1, 0],
    [-1, -1, 1, 1],
    [5, -7, 0, 9],
    [-3, -3, 7, 5],
    [0, 0, 17, 33],
    [-100, 40, 1000, 3],
    [LOW, LOW, i32::MAX, i32::MAX],
    [LOW, HIGH, i32::MAX, 0],
    [LOW, LOW, 0, 0],
    [HIGH, HIGH, 0, 0],
    [0, 0, HIGH, HIGH],
    [LOW, 0, 1, HIGH],
];
const DEPTHS: [u32; 6] = [0, 1, 2, 7, 31, 255];
const CELLS: [u32; 8] = [1, 2, 3, 7, 1000, 536870912, 1073741823, 2147483647];

impl Random {
    // Any number from low to high.
    fn number(&mut self, low: i32, high: i32) -> i32 {
        self.between(low as i64, high as i64) as i32
    }

    fn root(&mut self) -> Rect {
        if self.below(2) == 0 {
            return self.pick(&ROOTS);
        }
        let reach = self.pick(&[4, 100, 1 << 20, HIGH]);
        let (left, top) = (self.number(-reach, reach), self.number(-reach, reach));
        let size = |low: i32| (HIGH as i64 - low as i64).min(2 * reach as i64) as i32;
        [left, top, self.number(0, size(left)), self.number(0, size(top))]
    }

    fn settings(&mut self) -> Settings {
        Settings {
            root: self.root(),
            depth_limit: self.pick(&DEPTHS),
            leaf_limit: self.pick(&[1, 2, u32::MAX]),
            smallest_cell: self.pick(&CELLS),
        }
    }

    // Settings with numbers at and beyond the ends of their ranges.
    fn edge_settings(&mut self) -> Settings {
        let ends = [LOW - 1, LOW, -1, 0, 1, HIGH, HIGH + 1, i32::MIN, i32::MAX];
        Settings {
            root: [self.pick(&ends), self.pick(&ends), self.pick(&ends), self.pick(&ends)],
            depth_limit: self.pick(&[0, 255, 256, u32::MAX]),
            leaf_limit: self.pick(&[0, 1, u32::MAX]),
            smallest_cell: self.pick(&[0, 1, 2147483647, 2147483648, u32::MAX]),
        }
    }

    // Down to two levels below the deepest, a few steps into child 0 among them.
    fn path(&mut self, settings: &Settings) -> Vec<u32> {
        let length = self.below(original::deepest(settings) as u64 + 3);
        (0..length).map(|_| self.pick(&[1, 2, 3, 4, 1, 2, 3, 4, 1, 2, 3, 4, 0])).collect()
    }

    // A coordinate at a cell's centre or an edge, one beside it, an end of the range, or any.
    fn coordinate(&mut self, center: i32, half: i32) -> i32 {
        let near = match self.below(8) {
            0..=2 => center,
            3 => center - half,
            4 => center + half,
            5 => self.number(center - half, center + half),
            6 => return self.pick(&[LOW, LOW + 1, -1, 0, 1, HIGH - 1, HIGH]),
            _ => return self.number(LOW, HIGH),
        };
        (near + self.number(-1, 1)).clamp(LOW, HIGH)
    }

    // Rectangles of any kind: points, lines and inverted ones are common.
    fn rect(&mut self, cell: &Rect) -> Rect {
        let [x, y, w, h] = *cell;
        let r = [self.coordinate(x, w), self.coordinate(y, h), self.coordinate(x, w), self.coordinate(y, h)];
        match self.below(8) {
            0 => [r[0], r[1], r[0], r[1]],
            1 => [r[0], r[1], r[0], r[3]],
            2 => [r[0], r[1], r[2], r[1]],
            3 => r,
            _ => [r[0].min(r[2]), r[1].min(r[3]), r[0].max(r[2]), r[1].max(r[3])],
        }
    }
}

// Every edge root with all limits, then random rounds.
pub fn ask(rounds: u32, mut put: impl FnMut(Question)) {
    let mut random = Random(88172645463325252);
    for root in ROOTS {
        for depth_limit in DEPTHS {
            for smallest_cell in CELLS {
                put(Question::Deepest(Settings { root, depth_limit, leaf_limit: 1, smallest_cell }));
            }
        }
    }
    for _ in 0..rounds {
        let settings = random.settings();
        put(Question::Settings(settings));
        put(Question::Settings(random.edge_settings()));
        put(Question::Deepest(settings));
        let path = random.path(&settings);
        let cell = original::cell(&settings, &path);
        put(Question::Node(settings, path.clone()));
        for _ in 0..4 {
            let (a, b) = (random.rect(&cell), random.rect(&cell));
            put(Question::Dot(settings, path.clone(), a));
            put(Question::Intersects(a, b));
            put(Question::Contains(settings.root, b));
        }
        let far = [i32::MIN, LOW - 1, HIGH + 1, i32::MAX];
        let mut rect = random.rect(&cell);
        if random.below(4) == 0 {
            rect[random.below(4) as usize] = random.pick(&far);
        }
        put(Question::Accepts(settings, rect));
    }
}
