// Single queries of square windows, of all inks: the original's, the port's walk alone, the port's call with the check.
use crate::field::{Order, Screen};
use crate::krakvinge::{Record, Rect, Rows, Settings, ALL_INKS};
use crate::original;
use crate::port;
use crate::quadtree::AABB;
use crate::random::Random;
use crate::time::{Best, Ratios};
use std::hint::black_box;

const REPETITIONS: usize = 7;
const LEAF_LIMITS: [u32; 4] = [4, 8, 16, 64];
const CELLS: [i32; 4] = [1, 10, 30, 100];
const WINDOWS: usize = 100;

type Query = fn(&mut Rows, Rect, u16, &mut [u32], &mut [u32]) -> u64;

// Windows of one size, and the times of all of them.
struct Questions {
    cells: i32,
    windows: Vec<Rect>,
    hits: usize,
    original: Best,
    walk: Best,
    checked: Best,
}

impl Questions {
    fn new(cells: i32, pitch: i32, side: i32) -> Questions {
        let (mut random, size) = (Random(cells as u64), cells * pitch);
        let mut corner = || random.below((side - size) as u64 + 1) as i32;
        let windows = (0..WINDOWS).map(|_| [corner(), corner()]).map(|[x, y]| [x, y, x + size, y + size]).collect();
        Questions { cells, windows, hits: 0, original: Best::none(), walk: Best::none(), checked: Best::none() }
    }

    // All windows, by each side in turn: once for the answers, once for the time.
    fn ask(&mut self, tree: &original::Tree, rows: &mut Rows, ids: &mut [u32]) {
        let boxes: Vec<AABB> = self.windows.iter().map(AABB::from).collect();
        let wanted: Vec<_> = boxes.iter().map(|window| tree.intersect_aabb(window)).collect();
        self.hits = wanted.iter().map(Vec::len).sum();
        self.original.time(|| {
            for window in &boxes {
                black_box(tree.intersect_aabb(window));
            }
        });
        for (query, best) in [(port::query_unchecked as Query, &mut self.walk), (Rows::query, &mut self.checked)] {
            let mut answer = [0; 2];
            for (&window, wanted) in self.windows.iter().zip(&wanted) {
                assert_eq!(query(rows, window, ALL_INKS, ids, &mut answer), 0);
                assert!(ids[..answer[0] as usize] == wanted[..], "other ids in {window:?}");
            }
            best.time(|| {
                for &window in &self.windows {
                    black_box(query(rows, window, ALL_INKS, ids, &mut answer));
                }
            });
        }
    }

    fn print(&self) {
        let each = |best: Best| best.micros() / WINDOWS as f64;
        let (walk, checked) = (self.walk.over(self.original), self.checked.over(self.original));
        println!(
            "  {:>5}  {:>6.1}  {:>11.2}  {:>7.2}  {walk:>5.2}  {:>13.2}  {checked:>7.1}",
            self.cells, self.hits as f64 / WINDOWS as f64, each(self.original), each(self.walk), each(self.checked)
        );
    }
}

fn measure(settings: &Settings, dots: &[Record], pitch: i32) -> Vec<Questions> {
    let elements = original::elements(dots);
    let sizes = CELLS.into_iter().filter(|cells| cells * pitch <= settings.width);
    let mut questions: Vec<_> = sizes.map(|cells| Questions::new(cells, pitch, settings.width)).collect();
    for _ in 0..REPETITIONS {
        let mut tree = original::fresh(settings);
        assert!(original::insert_all(&mut tree, &elements));
        let mut rows = port::fresh(settings, port::groups_for(dots.len()), dots.len());
        let mut ids = vec![0; dots.len()];
        assert_eq!(rows.batch(Record::words(dots), &mut ids), 0);
        for asked in &mut questions {
            asked.ask(&tree, &mut rows, &mut ids);
        }
    }
    questions
}

// Answers the walk's ratios at leaf limit 16.
pub fn print(dots: usize, screen: &Screen, orders: &[Order]) -> Ratios {
    println!("\nsingle queries: {dots} dots, {}, a mean of {WINDOWS} windows", screen.name);
    println!("leaf limit  order   cells    hits  original us  walk us  ratio  with check us    ratio");
    let field = screen.field(dots);
    let mut ratios = Ratios::default();
    for leaf_limit in LEAF_LIMITS {
        for &order in orders {
            for asked in measure(&field.settings(leaf_limit, 1), &field.ordered(order), screen.pitch) {
                print!("{leaf_limit:>10}  {:<6}", format!("{order:?}"));
                asked.print();
                if leaf_limit == 16 {
                    ratios.0.push(asked.walk.over(asked.original));
                }
            }
        }
    }
    ratios
}
