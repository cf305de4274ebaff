// The port's answers, by the static library.
use crate::questions::{Question, Rect, Settings};

#[rustfmt::skip]
extern "C" {
    fn geometry_intersects(x1: i32, y1: i32, x2: i32, y2: i32, u1: i32, v1: i32, u2: i32, v2: i32) -> bool;
    fn geometry_contains(left: i32, top: i32, width: i32, height: i32, x1: i32, y1: i32, x2: i32, y2: i32) -> bool;
    fn geometry_in_range(l: i32, t: i32, w: i32, h: i32, depth: u32, leaf: u32, cell: u32) -> bool;
    fn geometry_deepest(l: i32, t: i32, w: i32, h: i32, depth: u32, leaf: u32, cell: u32) -> u32;
    fn geometry_accepts(l: i32, t: i32, w: i32, h: i32, depth: u32, leaf: u32, cell: u32, x1: i32, y1: i32, x2: i32, y2: i32) -> bool;
    fn geometry_cell(l: i32, t: i32, w: i32, h: i32, depth: u32, leaf: u32, cell: u32, path: *const u32, steps: usize, place: u32) -> i32;
    fn geometry_depth(l: i32, t: i32, w: i32, h: i32, depth: u32, leaf: u32, cell: u32, path: *const u32, steps: usize) -> u32;
    fn geometry_may_split(l: i32, t: i32, w: i32, h: i32, depth: u32, leaf: u32, cell: u32, path: *const u32, steps: usize) -> bool;
    fn geometry_route(l: i32, t: i32, w: i32, h: i32, depth: u32, leaf: u32, cell: u32, path: *const u32, steps: usize, x1: i32, y1: i32, x2: i32, y2: i32) -> u32;
    fn geometry_opens(l: i32, t: i32, w: i32, h: i32, depth: u32, leaf: u32, cell: u32, path: *const u32, steps: usize, x1: i32, y1: i32, x2: i32, y2: i32, child: u32) -> bool;
}

fn node(s: &Settings, path: &[u32]) -> Vec<i32> {
    let [l, t, w, h] = s.root;
    let (d, k, c) = (s.depth_limit, s.leaf_limit, s.smallest_cell);
    unsafe {
        let mut row: Vec<i32> = (0..4).map(|place| geometry_cell(l, t, w, h, d, k, c, path.as_ptr(), path.len(), place)).collect();
        row.push(geometry_depth(l, t, w, h, d, k, c, path.as_ptr(), path.len()) as i32);
        row.push(geometry_may_split(l, t, w, h, d, k, c, path.as_ptr(), path.len()) as i32);
        row
    }
}

fn dot(s: &Settings, path: &[u32], r: &Rect) -> Vec<i32> {
    let [l, t, w, h] = s.root;
    let [x1, y1, x2, y2] = *r;
    let (d, k, c) = (s.depth_limit, s.leaf_limit, s.smallest_cell);
    let (at, n) = (path.as_ptr(), path.len());
    unsafe {
        let mut row = vec![geometry_route(l, t, w, h, d, k, c, at, n, x1, y1, x2, y2) as i32];
        row.extend((0..5).map(|child| geometry_opens(l, t, w, h, d, k, c, at, n, x1, y1, x2, y2, child) as i32));
        row
    }
}

pub fn answer(question: &Question) -> Vec<i32> {
    let limits = |s: &Settings| (s.depth_limit, s.leaf_limit, s.smallest_cell);
    match question {
        Question::Settings(s) => {
            let ([l, t, w, h], (d, k, c)) = (s.root, limits(s));
            vec![unsafe { geometry_in_range(l, t, w, h, d, k, c) } as i32]
        }
        Question::Deepest(s) => {
            let ([l, t, w, h], (d, k, c)) = (s.root, limits(s));
            vec![unsafe { geometry_deepest(l, t, w, h, d, k, c) } as i32]
        }
        Question::Accepts(s, r) => {
            let ([l, t, w, h], (d, k, c)) = (s.root, limits(s));
            vec![unsafe { geometry_accepts(l, t, w, h, d, k, c, r[0], r[1], r[2], r[3]) } as i32]
        }
        Question::Node(s, path) => node(s, path),
        Question::Dot(s, path, r) => dot(s, path, r),
        Question::Intersects(a, b) => vec![unsafe { geometry_intersects(a[0], a[1], a[2], a[3], b[0], b[1], b[2], b[3]) } as i32],
        Question::Contains(a, b) => vec![unsafe { geometry_contains(a[0], a[1], a[2], a[3], b[0], b[1], b[2], b[3]) } as i32],
    }
}
