// Lists of calls: what both sides are asked.
use std::fmt;

pub type Rect = [i32; 4];
pub use crate::krakvinge::Settings;

// An insert ends in its ink. A query has a mask of inks; the room of a call that lists is the length of the row that is lent, in words.
#[derive(Clone, Copy, PartialEq, Debug)]
pub enum Call {
    Insert(u32, Rect, u32),
    Remove(u32, Rect),
    Cleanup,
    Query(Rect, u16, usize),
    Leaves(usize),
    All(usize),
    References,
    CollectIds(usize),
}

pub const KINDS: [&str; 8] = ["insert", "remove", "cleanup", "query", "leaves", "all", "references", "collect_ids"];

impl Call {
    pub fn kind(&self) -> usize {
        match self {
            Call::Insert(..) => 0,
            Call::Remove(..) => 1,
            Call::Cleanup => 2,
            Call::Query(..) => 3,
            Call::Leaves(_) => 4,
            Call::All(_) => 5,
            Call::References => 6,
            Call::CollectIds(_) => 7,
        }
    }

    // The words of the row that is lent.
    pub fn room(&self) -> usize {
        match self {
            Call::Query(_, _, room) | Call::Leaves(room) | Call::All(room) | Call::CollectIds(room) => *room,
            _ => 0,
        }
    }
}

impl fmt::Display for Call {
    fn fmt(&self, f: &mut fmt::Formatter) -> fmt::Result {
        let kind = KINDS[self.kind()];
        match self {
            Call::Insert(id, [x1, y1, x2, y2], ink) => write!(f, "{kind} {id} {x1} {y1} {x2} {y2} {ink}"),
            Call::Remove(id, [x1, y1, x2, y2]) => write!(f, "{kind} {id} {x1} {y1} {x2} {y2}"),
            Call::Query([x1, y1, x2, y2], inks, room) => write!(f, "{kind} {x1} {y1} {x2} {y2} {inks} {room}"),
            Call::Leaves(room) | Call::All(room) | Call::CollectIds(room) => write!(f, "{kind} {room}"),
            Call::Cleanup | Call::References => write!(f, "{kind}"),
        }
    }
}

// A fresh tree with its settings and room, the count of changes that it begins with, and the calls on it.
#[derive(Clone)]
pub struct List {
    pub settings: Settings,
    pub groups: usize,
    pub places: usize,
    pub changes: u64,
    pub calls: Vec<Call>,
}

impl List {
    // The tree as a line; a count that is not 0 as another.
    pub fn head(&self) -> String {
        let (s, [low, high]) = (&self.settings, halves(self.changes));
        let count = if self.changes == 0 { String::new() } else { format!("\nrecounted {low} {high}") };
        format!(
            "tree {} {} {} {} {} {} {} {} {}{count}",
            s.left, s.top, s.width, s.height, s.depth_limit, s.leaf_limit, s.smallest_cell, self.groups, self.places
        )
    }
}

// A number of 64 bits as two words, the low one first.
pub fn halves(number: u64) -> [u32; 2] {
    [number as u32, (number >> 32) as u32]
}

// What a call leaves, as the interface hands it over: the result, the answer row, the row that was lent.
#[derive(Clone, PartialEq, Debug)]
pub struct Answer {
    pub result: u64,
    pub words: [u32; 2],
    pub row: Vec<i64>,
}

// What rows hold before a call, so that a word that is written shows.
pub const UNWRITTEN: u32 = 77777;

impl Answer {
    pub fn refused(number: u64, call: &Call) -> Answer {
        Answer { result: number, words: [UNWRITTEN; 2], row: vec![UNWRITTEN as i64; call.room()] }
    }

    pub fn accepted(words: [u32; 2]) -> Answer {
        Answer { result: 0, words, row: vec![] }
    }

    // The words of a row, its tail kept; or refusal 8.
    pub fn listed(found: Vec<i64>, words: [u32; 2], call: &Call) -> Answer {
        let mut answer = Answer::refused(8 + 256 * words[0] as u64, call);
        if found.len() <= call.room() {
            answer.row[..found.len()].copy_from_slice(&found);
            answer.result = 0;
            answer.words = words;
        }
        answer
    }
}
