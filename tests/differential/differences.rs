// The rows of docs/DIFFERENCES.md, each by its smallest input on both sides.
use crate::calls::{Rect, Settings};
use crate::krakvinge::{Refused, Rows, Tree, ALL_INKS};
use crate::port::set_count;
use crate::quadtree::quad_rect::QuadRect;
use crate::quadtree::quadtree::{QuadTree, QuadTreeElement};
use crate::quadtree::AABB;

const ROOT: Settings = Settings { left: -8, top: -8, width: 16, height: 16, depth_limit: 3, leaf_limit: 1, smallest_cell: 1 };

fn original(s: &Settings) -> QuadTree<u32> {
    QuadTree::new(QuadRect::new(s.left, s.top, s.width, s.height), s.depth_limit as u8, s.leaf_limit, s.smallest_cell)
}

fn takes(tree: &mut QuadTree<u32>, id: u32, rect: Rect) -> bool {
    tree.insert(QuadTreeElement::new(id, AABB::from(rect))).is_ok()
}

fn refused_insert(rect: Rect) -> u32 {
    let mut tree = Tree::new(&ROOT, 4, 4).expect("the settings are in range");
    tree.insert(1, rect, 0).map_or_else(|refused| refused.number, |_| 0)
}

fn refused_make(s: &Settings) -> u64 {
    Rows::new(s, 1, 1).make()
}

// Four in, four out, four in.
fn freed_places() -> bool {
    let (mut theirs, mut ours) = (original(&ROOT), Tree::new(&ROOT, 4, 4).expect("the settings are in range"));
    let rect = |id: u32| [id as i32, 1, id as i32, 1];
    let mut accepted = true;
    for round in 0..3 {
        for id in 0..4 {
            if round == 1 {
                accepted &= theirs.remove(&QuadTreeElement::new(id, AABB::from(rect(id)))) && ours.remove(id, rect(id)) == Ok(true);
            } else {
                accepted &= takes(&mut theirs, id, rect(id)) && ours.insert(id, rect(id), 0).is_ok();
            }
        }
    }
    accepted && theirs.place_number() == 7
}

fn inverted_dot() -> bool {
    let mut theirs = original(&ROOT);
    let taken = takes(&mut theirs, 1, [1, 0, 0, 0]) && takes(&mut theirs, 2, [1, 1, 2, 2]);
    taken && theirs.count_element_references() == 1 && refused_insert([1, 0, 0, 0]) == 4
}

fn far_coordinate() -> bool {
    let far = [2147483647, 0, 2147483647, 0];
    takes(&mut original(&ROOT), 1, far) && refused_insert(far) == 4
}

fn limits_of_0() -> bool {
    let hook = std::panic::take_hook();
    std::panic::set_hook(Box::new(|_| {}));
    let bad = [Settings { leaf_limit: 0, ..ROOT }, Settings { smallest_cell: 0, ..ROOT }];
    let both = bad.iter().all(|s| std::panic::catch_unwind(|| original(s)).is_err() && refused_make(s) == 2);
    std::panic::set_hook(hook);
    both
}

// Cells of half sizes 0 go on splitting.
fn large_smallest_cell() -> bool {
    let s = Settings { left: 0, top: 0, width: 1, height: 1, smallest_cell: 2147483648, ..ROOT };
    let mut theirs = original(&s);
    let taken = takes(&mut theirs, 1, [0, 0, 0, 0]) && takes(&mut theirs, 2, [0, 0, 0, 0]);
    taken && theirs.node_number() == 1 + 5 * s.depth_limit as usize && refused_make(&s) == 2
}

fn far_edge() -> bool {
    let s = Settings { left: 1073741823, width: 1, ..ROOT };
    let taken = takes(&mut original(&s), 1, [1073741823, 0, 1073741823, 0]);
    let wrapped = !takes(&mut original(&s), 1, [1073741824, 0, 1073741824, 0]);
    taken && wrapped && refused_make(&s) == 2 && refused_make(&Settings { width: 0, ..s }) == 0
}

// The original's depth limit is a byte: 256 cannot be said there.
fn depth_limit() -> bool {
    refused_make(&Settings { depth_limit: 256, ..ROOT }) == 2 && refused_make(&Settings { depth_limit: 255, ..ROOT }) == 0
}

fn number<A>(answer: Result<A, Refused>) -> u32 {
    answer.map_or_else(|refused| refused.number, |_| 0)
}

// No place at all: the original makes one.
fn no_place() -> bool {
    let mut ours = Tree::new(&ROOT, 0, 0).expect("the settings are in range");
    takes(&mut original(&ROOT), 1, [1, 1, 2, 2]) && number(ours.insert(1, [1, 1, 2, 2], 0)) == 6
}

// No group at all, and a second dot in a leaf that holds one.
fn no_group() -> bool {
    let (mut theirs, mut ours) = (original(&ROOT), Tree::new(&ROOT, 0, 2).expect("the settings are in range"));
    let first = takes(&mut theirs, 1, [1, 1, 2, 2]) && ours.insert(1, [1, 1, 2, 2], 0) == Ok(0);
    first && takes(&mut theirs, 2, [1, 1, 2, 2]) && number(ours.insert(2, [1, 1, 2, 2], 0)) == 7
}

// A row of no words, and one dot to list.
fn short_row() -> bool {
    let (mut theirs, mut ours) = (original(&ROOT), Tree::new(&ROOT, 0, 1).expect("the settings are in range"));
    let first = takes(&mut theirs, 1, [1, 1, 2, 2]) && ours.insert(1, [1, 1, 2, 2], 0) == Ok(0);
    first && theirs.intersect_aabb(&AABB::from([1, 1, 2, 2])).len() == 1 && ours.query([1, 1, 2, 2], ALL_INKS, &mut []) == Err(Refused { number: 8, wanted: 1 })
}

// A dot that begins on the right edge: the original has no call that lists every dot.
fn on_the_edge() -> bool {
    let s = Settings { left: 0, top: 0, ..ROOT };
    let (mut theirs, mut ours, mut ids) = (original(&s), Tree::new(&s, 0, 1).expect("the settings are in range"), [0; 1]);
    let taken = takes(&mut theirs, 1, [16, 1, 17, 2]) && ours.insert(1, [16, 1, 17, 2], 0) == Ok(0);
    let collected = theirs.collect_ids().is_empty() && ours.collect_ids(&mut []).is_ok_and(|listed| listed.hits == 0);
    taken && collected && ours.all(&mut ids) == Ok(1) && ids == [1]
}

// The original has no inks.
fn ink_above_15() -> bool {
    let mut ours = Tree::new(&ROOT, 0, 1).expect("the settings are in range");
    takes(&mut original(&ROOT), 1, [1, 1, 2, 2]) && number(ours.insert(1, [1, 1, 2, 2], 16)) == 10 && ours.insert(1, [1, 1, 2, 2], 15) == Ok(0)
}

// The original does not count its changes.
fn largest_count() -> bool {
    let mut ours = Rows::new(&ROOT, 0, 1);
    let made = ours.make() == 0;
    set_count(&mut ours, u64::MAX);
    made && takes(&mut original(&ROOT), 1, [1, 1, 2, 2]) && ours.insert(1, [1, 1, 2, 2], 0, &mut [0; 2]) == 16
}

pub fn as_documented() -> bool {
    let rows: [(&str, fn() -> bool); 13] = [
        ("freed places", freed_places),
        ("an inverted dot", inverted_dot),
        ("a coordinate beyond 2^30", far_coordinate),
        ("a leaf limit or smallest cell of 0", limits_of_0),
        ("a smallest cell of 2147483648", large_smallest_cell),
        ("a root whose far edge passes 1073741823", far_edge),
        ("a depth limit of 256", depth_limit),
        ("no free place", no_place),
        ("no free group", no_group),
        ("a row that is too short", short_row),
        ("all, and a dot on the edge", on_the_edge),
        ("an ink above 15", ink_above_15),
        ("the largest count of changes", largest_count),
    ];
    let wrong: Vec<&str> = rows.iter().filter(|(_, holds)| !holds()).map(|(name, _)| *name).collect();
    println!("differential: {} documented differences hold, of {}{}", rows.len() - wrong.len(), rows.len(), wrong.iter().map(|w| format!("; NOT: {w}")).collect::<String>());
    wrong.is_empty()
}
