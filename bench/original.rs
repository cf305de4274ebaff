// The original's tree.
use crate::krakvinge::{Record, Settings};
use crate::quadtree::quad_rect::QuadRect;
use crate::quadtree::quadtree::{QuadTree, QuadTreeElement};
use crate::quadtree::AABB;

pub type Tree = QuadTree<u32>;
pub type Element = QuadTreeElement<u32>;

pub fn fresh(s: &Settings) -> Tree {
    QuadTree::new(QuadRect::new(s.left, s.top, s.width, s.height), s.depth_limit as u8, s.leaf_limit, s.smallest_cell)
}

pub fn elements(dots: &[Record]) -> Vec<Element> {
    dots.iter().map(|dot| QuadTreeElement::new(dot.id, AABB::from(dot.rect))).collect()
}

// Whether all were inserted.
pub fn insert_all(tree: &mut Tree, elements: &[Element]) -> bool {
    elements.iter().all(|&element| tree.insert(element).is_ok())
}

// The groups that were split off.
pub fn groups(tree: &Tree) -> usize {
    (tree.node_number() - 1) / 5
}
