// The original's files as modules, with the accessors that harnesses read by. Stands beside them; a harness includes it at its root.
pub mod intersections {
    pub mod intersects_with;
    pub use intersects_with::IntersectsWith;
}

#[allow(dead_code)]
pub mod quadtree {
    pub mod aabb;
    pub mod centered_aabb;
    pub mod error;
    pub mod free_list;
    pub mod node;
    pub mod node_data;
    pub mod node_info;
    pub mod node_list;
    pub mod point;
    pub mod quad_rect;
    pub mod quadrants;
    pub mod quadtree_element;
    pub use aabb::AABB;
    pub use point::Point;
    pub mod quadtree {
        include!("quadtree/quadtree.rs");

        // The children that a query explores, and the one that a mutation goes to.
        pub fn opened(node: &NodeData, quadrants: Quadrants) -> NodeList {
            let mut list = NodeList::default();
            QuadTree::<u32>::collect_relevant_quadrants(&mut list, node, 0, quadrants, FindLeafHint::Query);
            list
        }

        pub fn routed(node: &NodeData, quadrants: Quadrants) -> NodeData {
            let mut list = NodeList::default();
            QuadTree::<u32>::collect_relevant_quadrants(&mut list, node, 0, quadrants, FindLeafHint::Mutate);
            list.pop_back()
        }

        impl<Id: ElementIdType> QuadTree<Id> {
            pub fn node_number(&self) -> usize {
                self.nodes.len()
            }

            // Places that were ever made.
            pub fn place_number(&self) -> usize {
                self.element_ids.capacity()
            }

            pub fn words(&self, node: u32) -> [u32; 2] {
                let node = &self.nodes[node as usize];
                [node.first_child_or_element, node.element_count]
            }

            // The free groups' first nodes, head first.
            pub fn free_groups(&self) -> Vec<u32> {
                let (mut at, mut groups) = (self.free_node, vec![]);
                while at != free_list::SENTINEL {
                    groups.push(at);
                    at = self.nodes[at as usize].first_child_or_element;
                }
                groups
            }

            // A leaf's dots, head first.
            pub fn chain(&self, leaf: u32) -> Vec<(Id, [i32; 4])> {
                let (mut at, mut chain) = (self.nodes[leaf as usize].first_child_or_element, vec![]);
                while at != free_list::SENTINEL {
                    let node = unsafe { *self.element_nodes.at(at) };
                    let (id, rect) = unsafe { (*self.element_ids.at(node.element_idx), *self.element_rects.at(node.element_idx)) };
                    chain.push((id, rect.into()));
                    at = node.next;
                }
                chain
            }
        }
    }
}
