// The check alone: its time, in passes over the same words, and as a ratio to the original's inserts of the same dots.
use crate::field::{Order, DIAGONAL};
use crate::inserts;
use crate::krakvinge::{Record, Rows, Settings};
use crate::original;
use crate::port;
use crate::random::Random;
use crate::time::Best;
use std::hint::black_box;

const REPETITIONS: usize = 15;
const PLACES: usize = 65536;
const GROUPS: usize = 16384;

fn pass(rows: &Rows) -> u64 {
    let words = rows.nodes.iter().chain(&rows.dots).map(|&w| w as u64).sum::<u64>();
    let rects = rows.rects.iter().map(|&w| w as u64).fold(0, u64::wrapping_add);
    let marks = rows.marks.iter().map(|&b| b as u64).sum::<u64>();
    words.wrapping_add(rects).wrapping_add(marks)
}

fn measure(settings: &Settings, dots: &[Record], groups: usize, places: usize) {
    let elements = original::elements(dots);
    let (mut inserted, mut sum, mut check) = (Best::none(), Best::none(), Best::none());
    let mut used = 0;
    for _ in 0..REPETITIONS {
        let mut tree = original::fresh(settings);
        assert!(inserted.time(|| original::insert_all(&mut tree, &elements)));
        let mut rows = port::fresh(settings, groups, places);
        let mut answers = vec![0; dots.len()];
        assert_eq!(rows.batch(Record::words(dots), &mut answers), 0);
        inserts::compare(&tree, &mut rows, &answers);
        // each once before it is timed
        black_box(pass(&rows));
        sum.time(|| pass(black_box(&rows)));
        assert_eq!(rows.check(), 0);
        check.time(|| rows.check());
        used = original::groups(&tree);
    }
    println!(
        "{:>10}  {:>6}  {:>6}  {:>6}  {:>6}  {:>7.0}  {:>8.0}  {:>6.1}  {:>19.0}  {:>5.2}",
        settings.leaf_limit, dots.len(), places, used, groups, sum.micros(), check.micros(), check.over(sum), inserted.micros(), check.over(inserted)
    );
}

// Dots at random until no place is left, or no group for the splits that they need.
fn full(settings: &Settings) -> Vec<Record> {
    let mut random = Random(7);
    let mut corner = || random.below(1 << 20) as i32;
    let tried: Vec<_> = (0..2 * PLACES as u32).map(|id| (id, corner(), corner())).map(|(id, x, y)| Record::insert(id, [x, y, x + 8, y + 8], id % 16)).collect();
    let mut answers = vec![0; tried.len()];
    assert_eq!(port::fresh(settings, GROUPS, PLACES).batch(Record::words(&tried), &mut answers), 0);
    tried.into_iter().zip(answers).filter(|&(_, answer)| Record::refusal(answer).is_none()).map(|(insert, _)| insert).collect()
}

pub fn print(counts: &[usize]) {
    println!("\nthe check alone: a screen at 45 degrees in random order; then the largest rows, full");
    println!("leaf limit    dots       N  groups       G  pass us  check us  passes  original inserts us  ratio");
    for &count in counts {
        let field = DIAGONAL.field(count);
        let dots = field.ordered(Order::Random);
        for leaf_limit in [4, 8, 16, 64] {
            measure(&field.settings(leaf_limit, 1), &dots, port::groups_for(count), count);
        }
    }
    for leaf_limit in [2, 3, 4, 8, 16] {
        let settings = Settings { left: 0, top: 0, width: 1 << 20, height: 1 << 20, depth_limit: 255, leaf_limit, smallest_cell: 1 };
        measure(&settings, &full(&settings), GROUPS, PLACES);
    }
}
