// A tint patch against the batch of the same inserts, both with the check, on films that are empty at first.
use crate::krakvinge::{Patch, Record, Rows, Settings};
use crate::port;
use crate::time::{Best, Ratios};

const REPETITIONS: usize = 15;
const LEAF_LIMITS: [u32; 4] = [4, 8, 16, 64];
const GROUPS: usize = 16384;
// Columns and rows of tiles, and the tint: 60,000 dots or a little less, from dense to sparse.
const PATCHES: [(u32, u32, u32); 4] = [(16, 16, 234), (25, 40, 60), (60, 50, 20), (64, 62, 15)];

// The dots of the patch in their order, as they stand in a tree without a split.
fn dots(p: &Patch, settings: &Settings) -> Vec<Record> {
    let number = (p.columns * p.rows * p.tint) as usize;
    let mut rows = port::fresh(&Settings { leaf_limit: u32::MAX, ..*settings }, 0, number);
    assert_eq!(rows.patch(p, &mut [0; 2]), 0);
    let rect = |place: usize| [0, 1, 2, 3].map(|i| rows.rects[4 * place + i]);
    (0..number).map(|place| Record::insert(rows.dots[3 * place], rect(place), 0)).collect()
}

// The times of the batch and the patch; nothing where the groups run out.
fn measure(settings: &Settings, p: &Patch, dots: &[Record]) -> Option<(Best, Best)> {
    let fresh = || port::fresh(settings, GROUPS, dots.len());
    let (mut batch, mut patch) = (Best::none(), Best::none());
    for _ in 0..REPETITIONS {
        let (mut singly, mut answers): (Rows, _) = (fresh(), vec![0; dots.len()]);
        assert_eq!(batch.time(|| singly.batch(Record::words(dots), &mut answers)), 0);
        let (mut rows, mut answer) = (fresh(), [0; 2]);
        let result = patch.time(|| rows.patch(p, &mut answer));
        if answers.iter().any(|&word| Record::refusal(word) == Some(7)) {
            assert!(result == 14 && rows == fresh(), "a patch that has no groups");
            return None;
        }
        assert!(result == 0 && rows == singly, "other words than after the batch");
    }
    Some((batch, patch))
}

pub fn print() -> Ratios {
    println!("\npatches: G = {GROUPS}");
    println!("tiles    tint   dots  leaf limit  batch us  patch us  ratio");
    let mut ratios = Ratios::default();
    for (columns, rows, tint) in PATCHES {
        let side = 16 * columns.max(rows) as i32;
        let p = Patch { x: 0, y: 0, columns, rows, tint, first_id: 0 };
        let settings = |leaf_limit| Settings { left: 0, top: 0, width: side, height: side, depth_limit: 255, leaf_limit, smallest_cell: 1 };
        let dots = dots(&p, &settings(1));
        for leaf_limit in LEAF_LIMITS {
            print!("{columns:>2} by {rows:>2}  {tint:>4}  {:>5}  {leaf_limit:>10}", dots.len());
            match measure(&settings(leaf_limit), &p, &dots) {
                None => println!("  skipped: the groups run out"),
                Some((batch, patch)) => {
                    println!("  {:>8.0}  {:>8.0}  {:>5.2}", batch.micros(), patch.micros(), patch.over(batch));
                    ratios.0.push(patch.over(batch));
                }
            }
        }
    }
    ratios
}
