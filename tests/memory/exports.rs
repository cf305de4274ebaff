// The proved calls, by the exports of crates/krakvinge.
use crate::krakvinge::raw::{krakvinge_check, krakvinge_make, krakvinge_references};
use crate::plain::Memory;

pub fn make(state: &mut [u32], m: &mut Memory) -> u64 {
    unsafe {
        krakvinge_make(
            state.as_mut_ptr(), state.len(), m.nodes.as_mut_ptr(), m.nodes.len(), m.dots.as_mut_ptr(), m.dots.len(),
            m.rects.as_mut_ptr(), m.rects.len(), m.marks.as_mut_ptr(), m.marks.len(),
        )
    }
}

pub fn check(state: &[u32], m: &mut Memory) -> u64 {
    unsafe {
        krakvinge_check(
            state.as_ptr(), state.len(), m.nodes.as_ptr(), m.nodes.len(), m.dots.as_ptr(), m.dots.len(),
            m.rects.as_ptr(), m.rects.len(), m.marks.as_mut_ptr(), m.marks.len(),
        )
    }
}

pub fn references(state: &[u32], m: &mut Memory, answer: &mut [u32]) -> u64 {
    unsafe {
        krakvinge_references(
            state.as_ptr(), state.len(), m.nodes.as_ptr(), m.nodes.len(), m.dots.as_ptr(), m.dots.len(),
            m.rects.as_ptr(), m.rects.len(), m.marks.as_mut_ptr(), m.marks.len(), answer.as_mut_ptr(), answer.len(),
        )
    }
}
