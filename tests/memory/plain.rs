// docs/SPECIFICATION.md in plain Rust: the lent memory with make, insert, remove and cleanup on its words, and when it is a tree (§2.12).
// It shares no code with the crates and takes no care of speed; the settings are the wrapper's.
pub use crate::krakvinge::{Rect, Settings};

pub const NONE: u32 = 4294967295;
pub const BRANCH: u32 = 4294967295;

#[derive(Clone, PartialEq, Debug)]
pub struct Memory {
    pub settings: Settings,
    pub free_group: u32,
    pub free_place: u32,
    pub live: u32,
    // The count of changes: any is good.
    pub changes: u64,
    pub nodes: Vec<u32>,
    pub dots: Vec<u32>,
    pub rects: Vec<i32>,
    pub marks: Vec<u8>,
}

#[derive(Clone, Copy)]
pub struct Cell {
    x: i64,
    y: i64,
    half_width: i64,
    half_height: i64,
    depth: u32,
    is_child_0: bool,
}

impl Settings {
    pub fn in_range(&self) -> bool {
        let axis = |low: i32, size: i32| low >= -1073741824 && size >= 0 && low as i64 + size as i64 <= 1073741823;
        axis(self.left, self.width)
            && axis(self.top, self.height)
            && self.depth_limit <= 255
            && self.leaf_limit >= 1
            && (1..=2147483647).contains(&self.smallest_cell)
    }

    pub fn accepts(&self, r: Rect) -> bool {
        let inverted = r[2] < r[0] || r[3] < r[1];
        let far = r.iter().any(|&c| !(-1073741824..=1073741823).contains(&c));
        let middle = |a: i32, b: i32| (a as i64 + b as i64).div_euclid(2);
        let (x, y) = (middle(r[0], r[2]), middle(r[1], r[3]));
        let (left, top) = (self.left as i64, self.top as i64);
        let holds = left <= x && x <= left + self.width as i64 && top <= y && y <= top + self.height as i64;
        !inverted && !far && holds
    }

    fn may_split(&self, c: &Cell) -> bool {
        let k = self.smallest_cell as i64;
        !c.is_child_0 && c.depth < self.depth_limit && (c.half_width >= k || c.half_height >= k)
    }

    fn root(&self) -> Cell {
        let (w, h) = (self.width as i64 / 2, self.height as i64 / 2);
        Cell { x: self.left as i64 + w, y: self.top as i64 + h, half_width: w, half_height: h, depth: 0, is_child_0: false }
    }
}

impl Cell {
    fn child(&self, i: u32) -> Cell {
        if i == 0 {
            return Cell { is_child_0: true, ..*self };
        }
        let (w, h) = (self.half_width / 2, self.half_height / 2);
        let x = if i == 2 || i == 4 { self.x + self.half_width - w } else { self.x - w };
        let y = if i >= 3 { self.y + self.half_height - h } else { self.y - h };
        Cell { x, y, half_width: w, half_height: h, depth: self.depth + 1, is_child_0: false }
    }

    fn route(&self, r: Rect) -> u32 {
        let (left, right) = (r[0] as i64 <= self.x, r[2] as i64 > self.x);
        let (top, bottom) = (r[1] as i64 <= self.y, r[3] as i64 > self.y);
        match (left, right, top, bottom) {
            (true, false, true, false) => 1,
            (false, true, true, false) => 2,
            (true, false, false, true) => 3,
            (false, true, false, true) => 4,
            _ => 0,
        }
    }
}

impl Memory {
    // Rows of the stated lengths, fresh.
    pub fn fresh(settings: Settings, groups: usize, places: usize) -> Memory {
        let mut nodes = vec![NONE, 0];
        for k in 0..groups {
            let next = if k + 1 < groups { (1 + 5 * (k + 1)) as u32 } else { NONE };
            nodes.extend([next, 0, NONE, 0, NONE, 0, NONE, 0, NONE, 0]);
        }
        let mut dots = vec![];
        for p in 0..places {
            dots.extend([0, if p + 1 < places { p as u32 + 1 } else { NONE }, 0]);
        }
        Memory {
            settings,
            free_group: if groups == 0 { NONE } else { 1 },
            free_place: if places == 0 { NONE } else { 0 },
            live: 0,
            changes: 0,
            nodes,
            dots,
            rects: vec![0; 4 * places],
            marks: vec![0; places + groups],
        }
    }

    pub fn groups(&self) -> usize {
        self.nodes.len() / 10
    }

    pub fn places(&self) -> usize {
        self.dots.len() / 3
    }

    fn id(&self, p: usize) -> u32 {
        self.dots[3 * p]
    }

    pub fn next(&self, p: usize) -> u32 {
        self.dots[3 * p + 1]
    }

    pub fn ink(&self, p: usize) -> u32 {
        self.dots[3 * p + 2]
    }

    pub fn set_next(&mut self, p: usize, next: u32) {
        self.dots[3 * p + 1] = next;
    }

    pub fn set_ink(&mut self, p: usize, ink: u32) {
        self.dots[3 * p + 2] = ink;
    }

    pub fn rect(&self, p: usize) -> Rect {
        [self.rects[4 * p], self.rects[4 * p + 1], self.rects[4 * p + 2], self.rects[4 * p + 3]]
    }

    fn first(&self, a: usize) -> u32 {
        self.nodes[2 * a]
    }

    fn count(&self, a: usize) -> u32 {
        self.nodes[2 * a + 1]
    }

    fn set(&mut self, a: usize, first: u32, count: u32) {
        self.nodes[2 * a] = first;
        self.nodes[2 * a + 1] = count;
    }

    fn push(&mut self, a: usize, p: u32) {
        self.set_next(p as usize, self.first(a));
        let count = self.count(a) + 1;
        self.set(a, p, count);
    }

    // The free groups that the list has.
    pub fn free_groups(&self) -> usize {
        let (mut link, mut n) = (self.free_group, 0);
        while link != NONE {
            link = self.first(link as usize);
            n += 1;
        }
        n
    }

    // The free places of a tree, the head first.
    pub fn free_places(&self) -> Vec<usize> {
        let (mut link, mut places) = (self.free_place, vec![]);
        while link != NONE {
            places.push(link as usize);
            link = self.next(link as usize);
        }
        places
    }

    // The splits that an insert of r makes with groups enough.
    fn splits_needed(&self, r: Rect) -> usize {
        let (mut a, mut cell, mut splits) = (0usize, self.settings.root(), 0);
        while self.count(a) == BRANCH {
            let i = cell.route(r);
            a = self.first(a) as usize + i as usize;
            cell = cell.child(i);
        }
        let (mut chain, mut link) = (vec![], self.first(a));
        while link != NONE {
            chain.push(self.rect(link as usize));
            link = self.next(link as usize);
        }
        while chain.len() >= self.settings.leaf_limit as usize && self.settings.may_split(&cell) {
            splits += 1;
            let i = cell.route(r);
            chain.retain(|&d| cell.route(d) == i);
            cell = cell.child(i);
        }
        splits
    }

    // An insert, if it is accepted.
    pub fn insert(&mut self, id: u32, r: Rect, ink: u32) -> bool {
        if !self.settings.accepts(r) || ink > 15 || self.free_place == NONE {
            return false;
        }
        let needed = self.splits_needed(r);
        if needed > 0 && needed > self.free_groups() {
            return false;
        }
        let p = self.free_place;
        self.free_place = self.next(p as usize);
        self.dots[3 * p as usize] = id;
        self.set_ink(p as usize, ink);
        self.rects[4 * p as usize..4 * p as usize + 4].copy_from_slice(&r);
        self.live += 1;
        let (mut a, mut cell) = (0usize, self.settings.root());
        loop {
            if self.count(a) == BRANCH {
                let i = cell.route(r);
                a = self.first(a) as usize + i as usize;
                cell = cell.child(i);
                continue;
            }
            if self.count(a) < self.settings.leaf_limit || !self.settings.may_split(&cell) {
                self.push(a, p);
                return true;
            }
            let g = self.free_group;
            self.free_group = self.first(g as usize);
            self.set(g as usize, NONE, 0);
            let mut link = self.first(a);
            while link != NONE {
                let next = self.next(link as usize);
                let i = cell.route(self.rect(link as usize));
                self.push(g as usize + i as usize, link);
                link = next;
            }
            self.set(a, g, BRANCH);
        }
    }

    pub fn remove(&mut self, id: u32, r: Rect) -> bool {
        let (mut a, mut cell) = (0usize, self.settings.root());
        while self.count(a) == BRANCH {
            let i = cell.route(r);
            a = self.first(a) as usize + i as usize;
            cell = cell.child(i);
        }
        let (mut before, mut link) = (NONE, self.first(a));
        while link != NONE && self.id(link as usize) != id {
            before = link;
            link = self.next(link as usize);
        }
        if link == NONE {
            return false;
        }
        let (p, next) = (link as usize, self.next(link as usize));
        let count = self.count(a) - 1;
        if before == NONE {
            self.set(a, next, count);
        } else {
            self.set_next(before as usize, next);
            let first = self.first(a);
            self.set(a, first, count);
        }
        self.dots[3 * p..3 * p + 3].copy_from_slice(&[0, self.free_place, 0]);
        self.rects[4 * p..4 * p + 4].fill(0);
        self.free_place = link;
        self.live -= 1;
        true
    }

    // A branch before its child branches 4 to 1.
    pub fn cleanup(&mut self, a: usize) {
        if self.count(a) != BRANCH {
            return;
        }
        let g = self.first(a) as usize;
        if (0..5).all(|i| self.count(g + i) == 0) {
            self.set(a, NONE, 0);
            let head = self.free_group;
            self.set(g, head, 0);
            self.free_group = g as u32;
        } else {
            for i in (1..5).rev() {
                self.cleanup(g + i);
            }
        }
    }

    // Refusals 1 to 3, or 0: the rules of docs/SPECIFICATION.md §11, one after another.
    pub fn refusal(&self) -> u64 {
        let (groups, places) = (self.groups(), self.places());
        let lengths = self.nodes.len() == 2 * (1 + 5 * groups)
            && groups <= 16384
            && self.dots.len() == 3 * places
            && places <= 65536
            && self.rects.len() == 4 * places
            && self.marks.len() == places + groups;
        if !lengths {
            return 1;
        }
        if !self.settings.in_range() {
            return 2;
        }
        let mut seen = Seen { groups: vec![false; groups], places: vec![false; places], chained: 0 };
        let mut path = vec![];
        let tree = self.node_is_right(0, self.settings.root(), &mut path, &mut seen)
            && self.free_groups_are_right(&mut seen)
            && self.free_places_are_right(&mut seen)
            && seen.groups.iter().all(|&s| s)
            && seen.places.iter().all(|&s| s)
            && self.live as u64 == seen.chained;
        if tree { 0 } else { 3 }
    }

    fn node_is_right(&self, a: usize, cell: Cell, path: &mut Vec<(Cell, u32)>, seen: &mut Seen) -> bool {
        if self.count(a) == BRANCH {
            let Some(g) = self.group_at(self.first(a)) else { return false };
            if !self.settings.may_split(&cell) || seen.groups[g] {
                return false;
            }
            seen.groups[g] = true;
            return (0..5).all(|i| {
                path.push((cell, i));
                let right = self.node_is_right(1 + 5 * g + i as usize, cell.child(i), path, seen);
                path.pop();
                right
            });
        }
        if self.settings.may_split(&cell) && self.count(a) > self.settings.leaf_limit {
            return false;
        }
        let mut link = self.first(a);
        for _ in 0..self.count(a) {
            let p = link as usize;
            if p >= self.places() || seen.places[p] {
                return false;
            }
            seen.places[p] = true;
            seen.chained += 1;
            let r = self.rect(p);
            if !self.settings.accepts(r) || self.ink(p) > 15 || path.iter().any(|&(c, i)| c.route(r) != i) {
                return false;
            }
            link = self.next(p);
        }
        link == NONE
    }

    fn group_at(&self, first: u32) -> Option<usize> {
        (0..self.groups()).find(|&g| 1 + 5 * g == first as usize)
    }

    fn free_groups_are_right(&self, seen: &mut Seen) -> bool {
        let mut link = self.free_group;
        while link != NONE {
            let Some(g) = self.group_at(link) else { return false };
            let others = (1..5).all(|i| self.first(1 + 5 * g + i) == NONE && self.count(1 + 5 * g + i) == 0);
            if seen.groups[g] || self.count(1 + 5 * g) != 0 || !others {
                return false;
            }
            seen.groups[g] = true;
            link = self.first(1 + 5 * g);
        }
        true
    }

    fn free_places_are_right(&self, seen: &mut Seen) -> bool {
        let mut link = self.free_place;
        while link != NONE {
            let p = link as usize;
            if p >= self.places() || seen.places[p] || self.id(p) != 0 || self.ink(p) != 0 || self.rect(p) != [0; 4] {
                return false;
            }
            seen.places[p] = true;
            link = self.next(p);
        }
        true
    }

    // The state as the exports take it.
    pub fn state(&self) -> Vec<u32> {
        let s = &self.settings;
        let limits = [s.depth_limit, s.leaf_limit, s.smallest_cell];
        let numbers = [s.left as u32, s.top as u32, s.width as u32, s.height as u32];
        let count = [self.changes as u32, (self.changes >> 32) as u32];
        [&numbers[..], &limits[..], &[self.free_group, self.free_place, self.live][..], &count[..]].concat()
    }
}

struct Seen {
    groups: Vec<bool>,
    places: Vec<bool>,
    chained: u64,
}
