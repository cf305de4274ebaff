// All beside collect_ids and the original's: the walks alone, and the calls with their check. Every dot of the field lies on the film, so all list the same.
use crate::field::{Order, DIAGONAL};
use crate::krakvinge::{Record, Rows, Settings, ALL_INKS};
use crate::original;
use crate::port;
use crate::time::{Best, Ratios};
use std::hint::black_box;

const REPETITIONS: usize = 15;
const LEAF_LIMITS: [u32; 4] = [4, 8, 16, 64];
pub const DOTS: usize = 60_000;

type Listing = fn(&mut Rows, &mut [u32], &mut [u32]) -> u64;

fn collect_unchecked(rows: &mut Rows, ids: &mut [u32], answer: &mut [u32]) -> u64 {
    let [left, top, width, height] = [0, 1, 2, 3].map(|i| rows.state[i] as i32);
    port::query_unchecked(rows, [left, top, left + width, top + height], ALL_INKS, ids, answer)
}

const LISTINGS: [Listing; 4] = [port::all_unchecked, collect_unchecked, Rows::all, Rows::collect_ids];

// Answers the ratio of all's walk to the original's collect_ids.
fn measure(settings: &Settings, order: Order, dots: &[Record]) -> f64 {
    let elements = original::elements(dots);
    let (mut theirs, mut ours) = (Best::none(), [Best::none(); 4]);
    for _ in 0..REPETITIONS {
        let mut tree = original::fresh(settings);
        assert!(original::insert_all(&mut tree, &elements));
        let mut rows = port::fresh(settings, port::groups_for(dots.len()), dots.len());
        let (mut ids, mut answer) = (vec![0; dots.len()], [0; 2]);
        assert_eq!(rows.batch(Record::words(dots), &mut ids), 0);
        // each once before it is timed
        let wanted = tree.collect_ids();
        assert_eq!(wanted.len(), dots.len());
        theirs.time(|| black_box(tree.collect_ids()));
        for (listing, best) in LISTINGS.iter().zip(&mut ours) {
            ids.fill(0);
            assert!(listing(&mut rows, &mut ids, &mut answer) == 0 && ids == wanted, "other ids");
            best.time(|| listing(&mut rows, &mut ids, &mut answer));
        }
    }
    let [all, collect, all_checked, collect_checked] = ours;
    println!(
        "{:>10}  {:<6}  {:>11.0}  {:>6.0}  {:>5.2}  {:>14.0}  {:>5.2}  {:>8.0}  {:>5.2}  {:>16.0}  {:>5.2}",
        settings.leaf_limit, format!("{order:?}"), theirs.micros(), all.micros(), all.over(theirs), collect.micros(), all.over(collect),
        all_checked.micros(), all_checked.over(theirs), collect_checked.micros(), all_checked.over(collect_checked)
    );
    all.over(theirs)
}

pub fn print() -> Ratios {
    println!("\nall: {DOTS} dots on a screen at 45 degrees; walks, then calls with the check; ratios to the original, and of all to collect_ids");
    println!("leaf limit  order   original us  all us  ratio  collect_ids us  ratio  with check  ratio  collect_ids w. c.  ratio");
    let field = DIAGONAL.field(DOTS);
    let mut ratios = Ratios::default();
    for leaf_limit in LEAF_LIMITS {
        for order in [Order::Rows, Order::Random] {
            ratios.0.push(measure(&field.settings(leaf_limit, 1), order, &field.ordered(order)));
        }
    }
    ratios
}
