// The cells of docs/SPECIFICATION.md §3 and §4 in whole numbers, for what the original does not count: splits needed and nodes opened.
use crate::calls::{Rect, Settings};

#[derive(Clone, Copy)]
pub struct Cell {
    pub x: i64,
    pub y: i64,
    pub half_width: i64,
    pub half_height: i64,
    pub depth: u32,
    pub is_child_0: bool,
}

impl Cell {
    pub fn root(s: &Settings) -> Cell {
        let (w, h) = (s.width as i64 / 2, s.height as i64 / 2);
        Cell { x: s.left as i64 + w, y: s.top as i64 + h, half_width: w, half_height: h, depth: 0, is_child_0: false }
    }

    pub fn child(&self, i: u32) -> Cell {
        if i == 0 {
            return Cell { is_child_0: true, ..*self };
        }
        let (w, h) = (self.half_width / 2, self.half_height / 2);
        let x = if i % 2 == 0 { self.x + self.half_width - w } else { self.x - w };
        let y = if i > 2 { self.y + self.half_height - h } else { self.y - h };
        Cell { x, y, half_width: w, half_height: h, depth: self.depth + 1, is_child_0: false }
    }

    pub fn may_split(&self, s: &Settings) -> bool {
        let smallest = s.smallest_cell as i64;
        !self.is_child_0 && self.depth < s.depth_limit && (self.half_width >= smallest || self.half_height >= smallest)
    }

    // left, right, top, bottom
    fn tests(&self, r: Rect) -> [bool; 4] {
        [r[0] as i64 <= self.x, r[2] as i64 > self.x, r[1] as i64 <= self.y, r[3] as i64 > self.y]
    }

    pub fn opens(&self, r: Rect, child: u32) -> bool {
        let [left, right, top, bottom] = self.tests(r);
        [true, left & top, right & top, left & bottom, right & bottom][child as usize]
    }

    pub fn route(&self, r: Rect) -> u32 {
        match self.tests(r) {
            [true, false, true, false] => 1,
            [false, true, true, false] => 2,
            [true, false, false, true] => 3,
            [false, true, false, true] => 4,
            _ => 0,
        }
    }
}

// Refusal 4: inverted, or a coordinate out of range.
pub fn is_refused_4(r: Rect) -> bool {
    r[2] < r[0] || r[3] < r[1] || r.iter().any(|c| !(-1073741824..=1073741823).contains(c))
}

// Refusal 5: the root contains the middle, ends included.
pub fn contains(s: &Settings, r: Rect) -> bool {
    let inside = |a: i32, b: i32, low: i32, size: i32| {
        let middle = (a as i64 + b as i64).div_euclid(2);
        low as i64 <= middle && middle <= low as i64 + size as i64
    };
    inside(r[0], r[2], s.left, s.width) && inside(r[1], r[3], s.top, s.height)
}
