// The grid report, its check included, against a query of the original for each window: 64 by 64 windows over the film.
use crate::field::{Order, DIAGONAL};
use crate::krakvinge::{Grid, Record, Rect, Settings};
use crate::original;
use crate::port;
use crate::quadtree::AABB;
use crate::time::{Best, Ratios};
use std::hint::black_box;

const REPETITIONS: usize = 7;
const LEAF_LIMITS: [u32; 4] = [4, 8, 16, 64];
const SIDE: i32 = 64;
pub const DOTS: [usize; 2] = [1_024, 60_000];

// The windows' rectangles, in the order of the counts.
fn windows(g: &Grid) -> Vec<Rect> {
    let corners = (0..g.rows).flat_map(|row| (0..g.columns).map(move |column| [g.x + column * g.width, g.y + row * g.height]));
    corners.map(|[x, y]| [x, y, x + g.width, y + g.height]).collect()
}

// Answers the ratio.
fn measure(settings: &Settings, dots: &[Record]) -> f64 {
    let size = (settings.width + SIDE - 1) / SIDE;
    let grid = Grid { x: settings.left, y: settings.top, width: size, height: size, columns: SIDE, rows: SIDE };
    let boxes: Vec<AABB> = windows(&grid).iter().map(AABB::from).collect();
    let elements = original::elements(dots);
    let (mut counts, mut answer) = (vec![0; boxes.len()], [0; 2]);
    let (mut theirs, mut ours) = (Best::none(), Best::none());
    for _ in 0..REPETITIONS {
        let mut tree = original::fresh(settings);
        assert!(original::insert_all(&mut tree, &elements));
        let mut rows = port::fresh(settings, port::groups_for(dots.len()), dots.len());
        assert_eq!(rows.batch(Record::words(dots), &mut vec![0; dots.len()]), 0);
        // each once before it is timed
        let wanted: Vec<u32> = boxes.iter().map(|window| tree.intersect_aabb(window).len() as u32).collect();
        assert_eq!(rows.grid(&grid, &mut counts, &mut answer), 0);
        assert!(counts == wanted && answer == [wanted.iter().sum(), 0], "other counts");
        theirs.time(|| boxes.iter().map(|window| black_box(tree.intersect_aabb(window)).len()).sum::<usize>());
        ours.time(|| rows.grid(&grid, &mut counts, &mut answer));
    }
    println!(
        "{:>10}  {:>6}  {size:>6}  {:>6}  {:>11.0}  {:>7.0}  {:>5.3}",
        settings.leaf_limit, dots.len(), answer[0], theirs.micros(), ours.micros(), ours.over(theirs)
    );
    ours.over(theirs)
}

pub fn print(count: usize) -> Ratios {
    println!("\ngrid reports: {count} dots on a screen at 45 degrees in random order, {SIDE} by {SIDE} windows, with the check");
    println!("leaf limit    dots  window   total  original us  grid us  ratio");
    let field = DIAGONAL.field(count);
    let dots = field.ordered(Order::Random);
    Ratios(LEAF_LIMITS.map(|leaf_limit| measure(&field.settings(leaf_limit, 1), &dots)).into())
}
