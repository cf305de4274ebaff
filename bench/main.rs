// The port's times as ratios to the original's, in the same run: inserts by batch, single queries with and without the check, both on a dense tint too,
// all and collect_ids, grid reports, the check alone; and a tint patch's as a ratio to the batch of the same inserts. Both take turns on trees built
// anew, the best of several counts, and their answers must be the same.
mod alls;
mod checks;
mod field;
mod grids;
mod inserts;
#[path = "../host/rust/krakvinge.rs"]
#[allow(dead_code)]
mod krakvinge;
mod original;
mod patches;
mod port;
mod queries;
#[allow(dead_code)]
#[path = "../tests/random.rs"]
mod random;
mod time;

use field::{Order, DIAGONAL, ORDERS, TINT, UPRIGHT};

include!(concat!(env!("ORIGINAL"), "/modules.rs"));

const DOTS: [usize; 3] = [1_000, 10_000, 60_000];

fn main() {
    let inserted = DOTS.map(|dots| inserts::print(dots, &[UPRIGHT, DIAGONAL], &ORDERS));
    let walked = DOTS.map(|dots| queries::print(dots, &DIAGONAL, &[Order::Rows, Order::Random]));
    let tinted = DOTS.map(|dots| inserts::print(dots, &[TINT], &[Order::Random]));
    let tint_walked = DOTS.map(|dots| queries::print(dots, &TINT, &[Order::Random]));
    let listed = alls::print();
    let counted = grids::DOTS.map(grids::print);
    let patched = patches::print();
    checks::print(&DOTS);
    println!("\ntargets: inserts by batch of 60000 at most 0.4, the query's walk at leaf limit 16 of 60000 at most 1.0,");
    println!("all's walk at most 1.0, a patch at most 1.5 of its batch");
    for (name, inserted, walked) in [("screens", inserted, walked), ("dense tint", tinted, tint_walked)] {
        for (dots, (inserts, walks)) in DOTS.iter().zip(inserted.iter().zip(&walked)) {
            println!("{dots:>5} dots, {name}: inserts by batch {inserts}; the walk at leaf limit 16 {walks}");
        }
    }
    println!("{:>5} dots: the walk of all, of the original's collect_ids {listed}", alls::DOTS);
    for (dots, counts) in grids::DOTS.iter().zip(&counted) {
        println!("{dots:>5} dots: grid reports {counts}");
    }
    println!("60000 dots: patches, of the batch of the same inserts {patched}");
}
