// The port's rows, and the query and all without the check (crates/query_export).
use crate::krakvinge::{Rect, Rows, Settings};

extern "C" {
    #[rustfmt::skip]
    fn krakvinge_all_unchecked(s: *const u32, sn: usize, n: *const u32, nn: usize, d: *const u32, dn: usize, i: *mut u32, il: usize, a: *mut u32, an: usize) -> u64;
    #[rustfmt::skip]
    fn krakvinge_query_unchecked(s: *const u32, sn: usize, n: *const u32, nn: usize, d: *const u32, dn: usize, r: *const i32, rn: usize, x1: i32, y1: i32, x2: i32, y2: i32, inks: u16, i: *mut u32, il: usize, a: *mut u32, an: usize) -> u64;
}

// Groups for so many dots, in the proportion of 16384 to 60,000.
pub fn groups_for(dots: usize) -> usize {
    (dots * 16384).div_ceil(60_000)
}

// Rows filled anew, a fresh tree.
pub fn fresh(s: &Settings, groups: usize, places: usize) -> Rows {
    let mut rows = Rows::new(s, groups, places);
    assert_eq!(rows.make(), 0);
    rows
}

// The rows must be a tree.
pub fn query_unchecked(rows: &mut Rows, [x1, y1, x2, y2]: Rect, inks: u16, ids: &mut [u32], a: &mut [u32]) -> u64 {
    let Rows { state: s, nodes: n, dots: d, rects: r, .. } = rows;
    unsafe {
        krakvinge_query_unchecked(
            s.as_ptr(), s.len(), n.as_ptr(), n.len(), d.as_ptr(), d.len(), r.as_ptr(), r.len(),
            x1, y1, x2, y2, inks, ids.as_mut_ptr(), ids.len(), a.as_mut_ptr(), a.len(),
        )
    }
}

// The rows must be a tree.
pub fn all_unchecked(rows: &mut Rows, ids: &mut [u32], a: &mut [u32]) -> u64 {
    let Rows { state: s, nodes: n, dots: d, .. } = rows;
    unsafe { krakvinge_all_unchecked(s.as_ptr(), s.len(), n.as_ptr(), n.len(), d.as_ptr(), d.len(), ids.as_mut_ptr(), ids.len(), a.as_mut_ptr(), a.len()) }
}
