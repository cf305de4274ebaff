// Inserts by one batch, against as many inserts into the original.
use crate::field::{Order, Screen};
use crate::krakvinge::{Record, Rows, Settings};
use crate::original;
use crate::port;
use crate::time::{Best, Ratios};

const REPETITIONS: usize = 15;
// Leaf limit, smallest cell.
const SETTINGS: [(u32, u32); 5] = [(4, 1), (8, 1), (16, 1), (64, 1), (4, 40)];

// All ids in the query's order, and the number of groups.
pub fn compare(tree: &original::Tree, rows: &mut Rows, answers: &[u32]) {
    let (mut ids, mut answer) = (vec![0; answers.len()], [0; 2]);
    assert_eq!(rows.all(&mut ids, &mut answer), 0);
    ids.truncate(answer[0] as usize);
    assert!(ids == tree.collect_ids(), "the trees list other ids");
    assert_eq!(answers.iter().sum::<u32>() as usize, original::groups(tree));
}

// The times of the original and the port; nothing where the groups run out.
fn measure(settings: &Settings, dots: &[Record], groups: usize) -> Option<(Best, Best)> {
    let elements = original::elements(dots);
    let (mut theirs, mut ours) = (Best::none(), Best::none());
    for _ in 0..REPETITIONS {
        let mut tree = original::fresh(settings);
        assert!(theirs.time(|| original::insert_all(&mut tree, &elements)));
        let mut rows = port::fresh(settings, groups, dots.len());
        let mut answers = vec![0; dots.len()];
        assert_eq!(ours.time(|| rows.batch(Record::words(dots), &mut answers)), 0);
        if answers.iter().any(|&answer| Record::refusal(answer) == Some(7)) {
            return None;
        }
        compare(&tree, &mut rows, &answers);
    }
    Some((theirs, ours))
}

pub fn print(dots: usize, screens: &[Screen], orders: &[Order]) -> Ratios {
    let groups = port::groups_for(dots);
    println!("\ninserts by batch: {dots} dots, N = {dots}, G = {groups}");
    println!("screen      leaf limit  smallest cell  order      original us  port us  ratio");
    let mut ratios = Ratios::default();
    for screen in screens {
        let field = screen.field(dots);
        for (leaf_limit, smallest_cell) in SETTINGS {
            for &order in orders {
                print!("{:<10}  {leaf_limit:>10}  {smallest_cell:>13}  {:<9}", screen.name, format!("{order:?}"));
                match measure(&field.settings(leaf_limit, smallest_cell), &field.ordered(order), groups) {
                    None => println!("  skipped: the groups run out"),
                    Some((theirs, ours)) => {
                        println!("  {:>11.0}  {:>7.0}  {:>5.2}", theirs.micros(), ours.micros(), ours.over(theirs));
                        ratios.0.push(ours.over(theirs));
                    }
                }
            }
        }
    }
    ratios
}
