// The original's answers. What docs/SPECIFICATION.md adds to it, the ranges of settings (§1.4) and refusal 4 (§11.1), is said here in whole numbers.
use crate::intersections::IntersectsWith;
use crate::quadtree::quadtree::{opened, routed};
use crate::quadtree::{aabb::AABB, node_data::NodeData, quad_rect::QuadRect, quadrants::Quadrants};
use crate::questions::{Question, Rect, Settings};

fn root(r: &Rect) -> QuadRect {
    QuadRect::new(r[0], r[1], r[2], r[3])
}

// The node at the end of the path, each step by the original's own descent.
fn node(settings: &Settings, path: &[u32]) -> NodeData {
    path.iter().fold(NodeData::new_from_root(&root(&settings.root), true), |node, &child| {
        let mut children = opened(&node, Quadrants::all());
        loop {
            let next = children.pop_back();
            if next.index == child {
                return next;
            }
        }
    })
}

pub fn cell(settings: &Settings, path: &[u32]) -> Rect {
    let cell = node(settings, path).crect;
    [cell.center_x, cell.center_y, cell.half_width, cell.half_height]
}

fn may_split(settings: &Settings, node: &NodeData) -> bool {
    node.can_split_further(settings.smallest_cell, settings.depth_limit as u8)
}

// How many steps into child 1 lead to a node that may not split.
pub fn deepest(settings: &Settings) -> u32 {
    let mut path = Vec::new();
    while may_split(settings, &node(settings, &path)) {
        path.push(1);
    }
    path.len() as u32
}

fn in_range(s: &Settings) -> bool {
    let axis = |low: i32, size: i32| low >= -1073741824 && size >= 0 && low as i64 + size as i64 <= 1073741823;
    axis(s.root[0], s.root[2])
        && axis(s.root[1], s.root[3])
        && s.depth_limit <= 255
        && s.leaf_limit >= 1
        && (1..=2147483647).contains(&s.smallest_cell)
}

fn accepts(settings: &Settings, r: &Rect) -> bool {
    let inverted = r[2] < r[0] || r[3] < r[1];
    let near = r.iter().all(|z| (-1073741824..=1073741823).contains(z));
    near && !inverted && root(&settings.root).contains(&AABB::from(r))
}

pub fn answer(question: &Question) -> Vec<i32> {
    match question {
        Question::Settings(s) => vec![in_range(s) as i32],
        Question::Deepest(s) => vec![deepest(s) as i32],
        Question::Accepts(s, r) => vec![accepts(s, r) as i32],
        Question::Node(s, path) => {
            let node = node(s, path);
            let mut row = cell(s, path).to_vec();
            row.extend([node.depth as i32, may_split(s, &node) as i32]);
            row
        }
        Question::Dot(s, path, r) => {
            let node = node(s, path);
            let tests = || node.crect.explore_quadrants_aabb(&AABB::from(r));
            let mut row = vec![routed(&node, tests()).index as i32, 0, 0, 0, 0, 0];
            let mut children = opened(&node, tests());
            while !children.is_empty() {
                row[1 + children.pop_back().index as usize] = 1;
            }
            row
        }
        Question::Intersects(a, b) => vec![AABB::from(a).intersects_with(&AABB::from(b)) as i32],
        Question::Contains(a, b) => vec![root(a).contains(&AABB::from(b)) as i32],
    }
}
