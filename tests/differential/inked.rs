// An id that carries its dot's ink. Two are the same if their ids are, so that the original makes of them the tree that it makes of plain ids.
use std::hash::{Hash, Hasher};

#[derive(Clone, Copy, Default, Debug)]
pub struct Inked {
    pub id: u32,
    pub ink: u32,
}

impl Inked {
    // Whether the ink's bit is set in the mask.
    pub fn is_shown(&self, inks: u16) -> bool {
        inks & (1 << self.ink) != 0
    }
}

impl PartialEq for Inked {
    fn eq(&self, other: &Inked) -> bool {
        self.id == other.id
    }
}

impl Eq for Inked {}

impl Hash for Inked {
    fn hash<H: Hasher>(&self, state: &mut H) {
        self.id.hash(state)
    }
}
