// The original's answers, in the interface's words. What it does not have comes from the rules of docs/SPECIFICATION.md over its own tree. Inks are
// carried by the ids of a second tree of the original's, which gets the same calls. What would pass the largest count of changes is carried out to see
// whether it is a change; then the trees are made anew without it.
use crate::calls::{Answer, Call, List, Rect, Settings};
use crate::geometry::{contains, is_refused_4, Cell};
use crate::inked::Inked;
use crate::quadtree::quad_rect::QuadRect;
use crate::quadtree::quadtree::{ElementIdType, QuadTree, QuadTreeElement};
use crate::quadtree::AABB;

pub const NONE: u32 = u32::MAX;
pub const BRANCH: u32 = u32::MAX;

pub struct Original {
    pub tree: QuadTree<u32>,
    inked: QuadTree<Inked>,
    settings: Settings,
    groups: usize,
    places: usize,
    live: usize,
    // The count of changes, and the changes made.
    pub changes: u64,
    done: Vec<Call>,
    // The dots that the last query met and its mask left out.
    hidden: usize,
}

fn fresh<Id: ElementIdType>(s: &Settings) -> QuadTree<Id> {
    QuadTree::new(QuadRect::new(s.left, s.top, s.width, s.height), s.depth_limit as u8, s.leaf_limit, s.smallest_cell)
}

impl Original {
    pub fn new(list: &List) -> Original {
        Original::with(list.settings, list.groups, list.places, list.changes)
    }

    fn with(s: Settings, groups: usize, places: usize, changes: u64) -> Original {
        Original { tree: fresh(&s), inked: fresh(&s), settings: s, groups, places, live: 0, changes, done: vec![], hidden: 0 }
    }

    // How many changes were made.
    pub fn made(&self) -> usize {
        self.done.len()
    }

    // Made anew with the first so many of the changes, and a count.
    pub fn back_to(&mut self, made: usize, changes: u64) {
        let done = std::mem::take(&mut self.done);
        *self = Original::with(self.settings, self.groups, self.places, 0);
        for call in &done[..made] {
            self.answer(call);
        }
        self.changes = changes;
    }

    // A change is counted, or refused 16.
    fn counted(&mut self, call: &Call, words: [u32; 2]) -> Answer {
        self.done.push(*call);
        match self.changes.checked_add(1) {
            Some(changes) => {
                self.changes = changes;
                Answer::accepted(words)
            }
            None => {
                self.back_to(self.done.len() - 1, self.changes);
                Answer::refused(16, call)
            }
        }
    }

    pub fn live(&self) -> usize {
        self.live
    }

    pub fn hidden(&self) -> usize {
        self.hidden
    }

    // A leaf's dots with their inks, head first.
    pub fn chain(&self, leaf: u32) -> Vec<(u32, Rect, u32)> {
        let (plain, inked) = (self.tree.chain(leaf), self.inked.chain(leaf));
        assert!(plain.iter().map(|dot| dot.0).eq(inked.iter().map(|dot| dot.0.id)), "the original's trees have other chains");
        plain.into_iter().zip(inked).map(|((id, rect), (dot, _))| (id, rect, dot.ink)).collect()
    }

    // The groups in use.
    fn used(&self) -> usize {
        (self.tree.node_number() - 1) / 5 - self.tree.free_groups().len()
    }

    // The group that the next split takes.
    pub fn free_group(&self) -> u32 {
        let next = self.tree.node_number();
        match self.tree.free_groups().first() {
            Some(group) => *group,
            None if next < 1 + 5 * self.groups => next as u32,
            None => NONE,
        }
    }

    // Refusal 7: the splits that an insert would make, by the leaf that it routes to and the chain there.
    fn splits_needed(&self, rect: Rect) -> usize {
        let (mut cell, mut node) = (Cell::root(&self.settings), 0);
        while self.tree.words(node)[1] == BRANCH {
            let child = cell.route(rect);
            node = self.tree.words(node)[0] + child;
            cell = cell.child(child);
        }
        let mut chain: Vec<Rect> = self.tree.chain(node).into_iter().map(|(_, r)| r).collect();
        let mut splits = 0;
        while chain.len() as u64 >= self.settings.leaf_limit as u64 && cell.may_split(&self.settings) {
            let child = cell.route(rect);
            chain.retain(|r| cell.route(*r) == child);
            cell = cell.child(child);
            splits += 1;
        }
        splits
    }

    // The nodes that a query opens, root included.
    fn opened(&self, rect: Rect) -> u32 {
        let mut waiting = vec![(0, Cell::root(&self.settings))];
        let mut opened = 0;
        while let Some((node, cell)) = waiting.pop() {
            opened += 1;
            let [first, count] = self.tree.words(node);
            if count == BRANCH {
                waiting.extend((0..5).filter(|&i| cell.opens(rect, i)).map(|i| (first + i, cell.child(i))));
            }
        }
        opened
    }

    fn insert(&mut self, dot: Inked, rect: Rect, call: &Call) -> Answer {
        if is_refused_4(rect) {
            return Answer::refused(4, call);
        }
        if dot.ink > 15 {
            return Answer::refused(10, call);
        }
        let element = QuadTreeElement::new(dot.id, AABB::from(rect));
        // refusal 5 is the original's OutOfBounds (§11.1)
        if !contains(&self.settings, rect) {
            return if self.tree.insert(element).is_err() { Answer::refused(5, call) } else { Answer::accepted([0, 0]) };
        }
        if self.live == self.places {
            return Answer::refused(6, call);
        }
        let (needed, used) = (self.splits_needed(rect), self.used());
        if needed > self.groups - used {
            return Answer::refused(7, call);
        }
        if self.tree.insert(element).is_err() {
            return Answer::refused(5, call);
        }
        assert!(self.inked.insert(QuadTreeElement::new(dot, AABB::from(rect))).is_ok(), "the original's trees take other dots");
        self.live += 1;
        self.counted(call, [(self.used() - used) as u32, 0])
    }

    fn yes_or_no(&mut self, call: &Call, yes: bool) -> Answer {
        if yes { self.counted(call, [1, 0]) } else { Answer::accepted([0, 0]) }
    }

    fn remove(&mut self, id: u32, rect: Rect, call: &Call) -> Answer {
        let yes = self.tree.remove(&QuadTreeElement::new(id, AABB::from(rect)));
        let dot = Inked { id, ink: 0 };
        assert_eq!(yes, self.inked.remove(&QuadTreeElement::new(dot, AABB::from(rect))), "the original's trees lose other dots");
        self.live -= yes as usize;
        self.yes_or_no(call, yes)
    }

    fn cleanup(&mut self, call: &Call) -> Answer {
        let yes = self.tree.cleanup();
        assert_eq!(yes, self.inked.cleanup(), "the original's trees are cleaned up differently");
        self.yes_or_no(call, yes)
    }

    // All that the rectangle meets, in the original's order; of these, the ids of the inks in the mask.
    fn query(&mut self, rect: Rect, inks: u16, call: &Call) -> Answer {
        let (all, dots) = (self.tree.intersect_aabb(&AABB::from(rect)), self.inked.intersect_aabb(&AABB::from(rect)));
        assert!(all.iter().eq(dots.iter().map(|dot| &dot.id)), "the original's trees list other ids");
        let shown: Vec<u32> = dots.iter().filter(|dot| dot.is_shown(inks)).map(|dot| dot.id).collect();
        self.hidden = all.len() - shown.len();
        self.listed(shown, rect, call)
    }

    fn listed(&self, ids: Vec<u32>, rect: Rect, call: &Call) -> Answer {
        let hits = ids.len() as u32;
        Answer::listed(ids.into_iter().map(i64::from).collect(), [hits, self.opened(rect)], call)
    }

    fn collect_ids(&mut self, call: &Call) -> Answer {
        let (s, ids) = (&self.settings, self.tree.collect_ids());
        self.hidden = self.live - ids.len();
        self.listed(ids, [s.left, s.top, s.left + s.width, s.top + s.height], call)
    }

    // A query of a rectangle around every coordinate that a dot may have lists every dot, in the order of the walk over all children.
    fn all(&self, call: &Call) -> Answer {
        let ids = self.tree.intersect_aabb(&AABB::from([-1073741825, -1073741825, 1073741824, 1073741824]));
        assert_eq!(ids.len(), self.live, "the original's query of everything leaves a dot out");
        let number = ids.len() as u32;
        Answer::listed(ids.into_iter().map(i64::from).collect(), [number, 0], call)
    }

    fn leaves(&self, call: &Call) -> Answer {
        let mut row = vec![];
        self.tree.visit_leaves(|leaf| {
            let c = leaf.nd.crect;
            row.extend([c.center_x as i64, c.center_y as i64, c.half_width as i64, c.half_height as i64, leaf.depth() as i64, leaf.element_count as i64]);
        });
        let number = row.len() as u32 / 6;
        Answer::listed(row, [number, 0], call)
    }

    pub fn answer(&mut self, call: &Call) -> Answer {
        match *call {
            Call::Insert(id, rect, ink) => self.insert(Inked { id, ink }, rect, call),
            Call::Remove(id, rect) => self.remove(id, rect, call),
            Call::Cleanup => self.cleanup(call),
            Call::Query(rect, inks, _) => self.query(rect, inks, call),
            Call::Leaves(_) => self.leaves(call),
            Call::All(_) => self.all(call),
            Call::CollectIds(_) => self.collect_ids(call),
            Call::References => Answer::accepted([self.tree.count_element_references() as u32, 0]),
        }
    }
}
