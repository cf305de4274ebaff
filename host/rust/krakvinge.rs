//! Krakvinge for a Rust host: a tree that owns its rows, over the proved calls. Link target/staticlib/libkrakvinge.a (host/build_library krakvinge).
//! host/krakvinge.h says what each row holds and what each refusal means.

pub type Rect = [i32; 4];

/// The mask of a query that lists every ink: bit k is for ink k, 0 to 15.
pub const ALL_INKS: u16 = 65535;

#[derive(Clone, Copy, PartialEq, Eq, Debug)]
pub struct Settings {
    pub left: i32,
    pub top: i32,
    pub width: i32,
    pub height: i32,
    pub depth_limit: u32,
    pub leaf_limit: u32,
    pub smallest_cell: u32,
}

/// Why a call was turned down; `wanted` is how many answers there are, for refusal 8 alone (a leaf is one answer, of six words).
#[derive(Clone, Copy, PartialEq, Eq, Debug)]
pub struct Refused {
    pub number: u32,
    pub wanted: u32,
}

impl std::fmt::Display for Refused {
    fn fmt(&self, f: &mut std::fmt::Formatter) -> std::fmt::Result {
        let why = match self.number {
            1 => "a row has the wrong length",
            2 => "the settings are out of range",
            3 => "the rows and the state are no tree",
            4 => "the rectangle is inverted or out of range",
            5 => "the root does not contain the rectangle",
            6 => "no place is free",
            7 => "the splits need more groups than are free",
            8 => return write!(f, "refusal 8: the row is too short for {} answers", self.wanted),
            10 => "the ink is above 15",
            11 => "the windows' size or number is out of range",
            12 => "the grid's far corner is out of range",
            13 => "the patch's tint or number of tiles is out of range",
            14 => "a dot of the patch would be refused, or its ids run out",
            15 => "the ticket's count of changes is not the tree's",
            16 => "the count of changes cannot rise further",
            _ => "no refusal of this library",
        };
        write!(f, "refusal {}: {why}", self.number)
    }
}

impl std::error::Error for Refused {}

/// What a query found: how many words of the row are ids, and the nodes opened.
#[derive(Clone, Copy, PartialEq, Eq, Debug)]
pub struct Listed {
    pub hits: usize,
    pub opened: u32,
}

/// The windows of a report: the first one's corner, the size of each, and how many columns and rows there are, 1 to 64 of each.
#[derive(Clone, Copy, PartialEq, Eq, Debug)]
pub struct Grid {
    pub x: i32,
    pub y: i32,
    pub width: i32,
    pub height: i32,
    pub columns: i32,
    pub rows: i32,
}

/// A tint patch: its first corner, its tiles each way (1 to 64), its tint (0 to 256), its first id.
#[derive(Clone, Copy, PartialEq, Eq, Debug)]
pub struct Patch {
    pub x: i32,
    pub y: i32,
    pub columns: u32,
    pub rows: u32,
    pub tint: u32,
    pub first_id: u32,
}

/// What an ask hands out: the dot, and the count of changes that a placing wants. Plain values: one that no ask gave is placed or refused likewise.
#[derive(Clone, Copy, PartialEq, Eq, Debug)]
pub struct Ticket {
    pub id: u32,
    pub rect: Rect,
    pub ink: u32,
    pub changes: u64,
}

impl Ticket {
    /// The words of its row.
    pub fn words(&self) -> [u32; 8] {
        let [x1, y1, x2, y2] = self.rect.map(|number| number as u32);
        [self.id, x1, y1, x2, y2, self.ink, self.changes as u32, (self.changes >> 32) as u32]
    }

    pub fn of(words: &[u32; 8]) -> Ticket {
        let [id, x1, y1, x2, y2, ink, low, high] = *words;
        Ticket { id, rect: [x1, y1, x2, y2].map(|word| word as i32), ink, changes: wide(low, high) }
    }
}

/// A number of 64 bits by its two words.
fn wide(low: u32, high: u32) -> u64 {
    (high as u64) << 32 | low as u64
}

/// A record of a batch, as its seven 32-bit words. A cleanup's id and rectangle mean nothing, nor does the ink of a record that is no insert.
#[repr(C)]
#[derive(Clone, Copy, PartialEq, Eq, Debug)]
pub struct Record {
    pub kind: u32,
    pub id: u32,
    pub rect: Rect,
    pub ink: u32,
}

impl Record {
    pub fn insert(id: u32, rect: Rect, ink: u32) -> Record {
        Record { kind: 0, id, rect, ink }
    }

    pub fn remove(id: u32, rect: Rect) -> Record {
        Record { kind: 1, id, rect, ink: 0 }
    }

    pub fn cleanup() -> Record {
        Record { kind: 2, id: 0, rect: [0; 4], ink: 0 }
    }

    /// The words of a row of records.
    pub fn words(records: &[Record]) -> &[u32] {
        // a record is seven 32-bit words without padding, aligned as they are
        unsafe { std::slice::from_raw_parts(records.as_ptr().cast(), 7 * records.len()) }
    }

    /// The refusal in an answer word; else the word is the splits, or 1 or 0.
    pub fn refusal(word: u32) -> Option<u32> {
        (word > 4294967040).then(|| word - 4294967040)
    }
}

/// The calls as the library exports them.
#[rustfmt::skip]
pub mod raw {
    extern "C" {
        pub fn krakvinge_make(s: *mut u32, sn: usize, n: *mut u32, nn: usize, d: *mut u32, dn: usize, r: *mut i32, rn: usize, m: *mut u8, mn: usize) -> u64;
        pub fn krakvinge_insert(s: *mut u32, sn: usize, n: *mut u32, nn: usize, d: *mut u32, dn: usize, r: *mut i32, rn: usize, m: *mut u8, mn: usize, id: u32, x1: i32, y1: i32, x2: i32, y2: i32, ink: u32, a: *mut u32, an: usize) -> u64;
        pub fn krakvinge_ask(s: *const u32, sn: usize, n: *const u32, nn: usize, d: *const u32, dn: usize, r: *const i32, rn: usize, m: *mut u8, mn: usize, id: u32, x1: i32, y1: i32, x2: i32, y2: i32, ink: u32, t: *mut u32, tn: usize, a: *mut u32, an: usize) -> u64;
        pub fn krakvinge_place(s: *mut u32, sn: usize, n: *mut u32, nn: usize, d: *mut u32, dn: usize, r: *mut i32, rn: usize, m: *mut u8, mn: usize, t: *const u32, tn: usize, a: *mut u32, an: usize) -> u64;
        pub fn krakvinge_remove(s: *mut u32, sn: usize, n: *mut u32, nn: usize, d: *mut u32, dn: usize, r: *mut i32, rn: usize, m: *mut u8, mn: usize, id: u32, x1: i32, y1: i32, x2: i32, y2: i32, a: *mut u32, an: usize) -> u64;
        pub fn krakvinge_cleanup(s: *mut u32, sn: usize, n: *mut u32, nn: usize, d: *const u32, dn: usize, r: *const i32, rn: usize, m: *mut u8, mn: usize, a: *mut u32, an: usize) -> u64;
        pub fn krakvinge_batch(s: *mut u32, sn: usize, n: *mut u32, nn: usize, d: *mut u32, dn: usize, r: *mut i32, rn: usize, m: *mut u8, mn: usize, w: *const u32, wn: usize, a: *mut u32, an: usize) -> u64;
        pub fn krakvinge_patch(s: *mut u32, sn: usize, n: *mut u32, nn: usize, d: *mut u32, dn: usize, r: *mut i32, rn: usize, m: *mut u8, mn: usize, x: i32, y: i32, columns: u32, rows: u32, tint: u32, first_id: u32, a: *mut u32, an: usize) -> u64;
        pub fn krakvinge_query(s: *const u32, sn: usize, n: *const u32, nn: usize, d: *const u32, dn: usize, r: *const i32, rn: usize, m: *mut u8, mn: usize, x1: i32, y1: i32, x2: i32, y2: i32, inks: u16, i: *mut u32, il: usize, a: *mut u32, an: usize) -> u64;
        pub fn krakvinge_collect_ids(s: *const u32, sn: usize, n: *const u32, nn: usize, d: *const u32, dn: usize, r: *const i32, rn: usize, m: *mut u8, mn: usize, i: *mut u32, il: usize, a: *mut u32, an: usize) -> u64;
        pub fn krakvinge_all(s: *const u32, sn: usize, n: *const u32, nn: usize, d: *const u32, dn: usize, r: *const i32, rn: usize, m: *mut u8, mn: usize, i: *mut u32, il: usize, a: *mut u32, an: usize) -> u64;
        pub fn krakvinge_leaves(s: *const u32, sn: usize, n: *const u32, nn: usize, d: *const u32, dn: usize, r: *const i32, rn: usize, m: *mut u8, mn: usize, w: *mut i32, wn: usize, a: *mut u32, an: usize) -> u64;
        pub fn krakvinge_references(s: *const u32, sn: usize, n: *const u32, nn: usize, d: *const u32, dn: usize, r: *const i32, rn: usize, m: *mut u8, mn: usize, a: *mut u32, an: usize) -> u64;
        pub fn krakvinge_grid(s: *const u32, sn: usize, n: *const u32, nn: usize, d: *const u32, dn: usize, r: *const i32, rn: usize, m: *mut u8, mn: usize, x: i32, y: i32, width: i32, height: i32, columns: i32, rows: i32, c: *mut u32, cn: usize, a: *mut u32, an: usize) -> u64;
        pub fn krakvinge_check(s: *const u32, sn: usize, n: *const u32, nn: usize, d: *const u32, dn: usize, r: *const i32, rn: usize, m: *mut u8, mn: usize) -> u64;
    }
}

/// The rows of a tree, of any lengths and contents: each call on them is defined and safe.
#[derive(Clone, PartialEq, Eq, Debug)]
pub struct Rows {
    pub state: Vec<u32>,
    pub nodes: Vec<u32>,
    pub dots: Vec<u32>,
    pub rects: Vec<i32>,
    pub marks: Vec<u8>,
}

impl Rows {
    pub fn new(s: &Settings, groups: usize, places: usize) -> Rows {
        let root = [s.left as u32, s.top as u32, s.width as u32, s.height as u32];
        let mut state = root.to_vec();
        state.extend([s.depth_limit, s.leaf_limit, s.smallest_cell, 0, 0, 0, 0, 0]);
        Rows { state, nodes: vec![0; 2 + 10 * groups], dots: vec![0; 3 * places], rects: vec![0; 4 * places], marks: vec![0; places + groups] }
    }

    pub fn make(&mut self) -> u64 {
        let Rows { state: s, nodes: n, dots: d, rects: r, marks: m } = self;
        unsafe { raw::krakvinge_make(s.as_mut_ptr(), s.len(), n.as_mut_ptr(), n.len(), d.as_mut_ptr(), d.len(), r.as_mut_ptr(), r.len(), m.as_mut_ptr(), m.len()) }
    }

    pub fn insert(&mut self, id: u32, [x1, y1, x2, y2]: Rect, ink: u32, a: &mut [u32]) -> u64 {
        let Rows { state: s, nodes: n, dots: d, rects: r, marks: m } = self;
        unsafe {
            raw::krakvinge_insert(
                s.as_mut_ptr(), s.len(), n.as_mut_ptr(), n.len(), d.as_mut_ptr(), d.len(), r.as_mut_ptr(), r.len(), m.as_mut_ptr(), m.len(),
                id, x1, y1, x2, y2, ink, a.as_mut_ptr(), a.len(),
            )
        }
    }

    /// The ticket's eight words are written to its row.
    pub fn ask(&mut self, id: u32, [x1, y1, x2, y2]: Rect, ink: u32, ticket: &mut [u32], a: &mut [u32]) -> u64 {
        let Rows { state: s, nodes: n, dots: d, rects: r, marks: m } = self;
        unsafe {
            raw::krakvinge_ask(
                s.as_ptr(), s.len(), n.as_ptr(), n.len(), d.as_ptr(), d.len(), r.as_ptr(), r.len(), m.as_mut_ptr(), m.len(),
                id, x1, y1, x2, y2, ink, ticket.as_mut_ptr(), ticket.len(), a.as_mut_ptr(), a.len(),
            )
        }
    }

    pub fn place(&mut self, ticket: &[u32], a: &mut [u32]) -> u64 {
        let Rows { state: s, nodes: n, dots: d, rects: r, marks: m } = self;
        unsafe {
            raw::krakvinge_place(
                s.as_mut_ptr(), s.len(), n.as_mut_ptr(), n.len(), d.as_mut_ptr(), d.len(), r.as_mut_ptr(), r.len(), m.as_mut_ptr(), m.len(),
                ticket.as_ptr(), ticket.len(), a.as_mut_ptr(), a.len(),
            )
        }
    }

    pub fn remove(&mut self, id: u32, [x1, y1, x2, y2]: Rect, a: &mut [u32]) -> u64 {
        let Rows { state: s, nodes: n, dots: d, rects: r, marks: m } = self;
        unsafe {
            raw::krakvinge_remove(
                s.as_mut_ptr(), s.len(), n.as_mut_ptr(), n.len(), d.as_mut_ptr(), d.len(), r.as_mut_ptr(), r.len(), m.as_mut_ptr(), m.len(),
                id, x1, y1, x2, y2, a.as_mut_ptr(), a.len(),
            )
        }
    }

    pub fn cleanup(&mut self, a: &mut [u32]) -> u64 {
        let Rows { state: s, nodes: n, dots: d, rects: r, marks: m } = self;
        unsafe { raw::krakvinge_cleanup(s.as_mut_ptr(), s.len(), n.as_mut_ptr(), n.len(), d.as_ptr(), d.len(), r.as_ptr(), r.len(), m.as_mut_ptr(), m.len(), a.as_mut_ptr(), a.len()) }
    }

    /// The records as words, seven each.
    pub fn batch(&mut self, w: &[u32], a: &mut [u32]) -> u64 {
        let Rows { state: s, nodes: n, dots: d, rects: r, marks: m } = self;
        unsafe {
            raw::krakvinge_batch(
                s.as_mut_ptr(), s.len(), n.as_mut_ptr(), n.len(), d.as_mut_ptr(), d.len(), r.as_mut_ptr(), r.len(), m.as_mut_ptr(), m.len(),
                w.as_ptr(), w.len(), a.as_mut_ptr(), a.len(),
            )
        }
    }

    pub fn patch(&mut self, p: &Patch, a: &mut [u32]) -> u64 {
        let Rows { state: s, nodes: n, dots: d, rects: r, marks: m } = self;
        unsafe {
            raw::krakvinge_patch(
                s.as_mut_ptr(), s.len(), n.as_mut_ptr(), n.len(), d.as_mut_ptr(), d.len(), r.as_mut_ptr(), r.len(), m.as_mut_ptr(), m.len(),
                p.x, p.y, p.columns, p.rows, p.tint, p.first_id, a.as_mut_ptr(), a.len(),
            )
        }
    }

    pub fn query(&mut self, [x1, y1, x2, y2]: Rect, inks: u16, ids: &mut [u32], a: &mut [u32]) -> u64 {
        let Rows { state: s, nodes: n, dots: d, rects: r, marks: m } = self;
        unsafe {
            raw::krakvinge_query(
                s.as_ptr(), s.len(), n.as_ptr(), n.len(), d.as_ptr(), d.len(), r.as_ptr(), r.len(), m.as_mut_ptr(), m.len(),
                x1, y1, x2, y2, inks, ids.as_mut_ptr(), ids.len(), a.as_mut_ptr(), a.len(),
            )
        }
    }

    pub fn collect_ids(&mut self, ids: &mut [u32], a: &mut [u32]) -> u64 {
        let Rows { state: s, nodes: n, dots: d, rects: r, marks: m } = self;
        unsafe {
            raw::krakvinge_collect_ids(
                s.as_ptr(), s.len(), n.as_ptr(), n.len(), d.as_ptr(), d.len(), r.as_ptr(), r.len(), m.as_mut_ptr(), m.len(),
                ids.as_mut_ptr(), ids.len(), a.as_mut_ptr(), a.len(),
            )
        }
    }

    pub fn all(&mut self, ids: &mut [u32], a: &mut [u32]) -> u64 {
        let Rows { state: s, nodes: n, dots: d, rects: r, marks: m } = self;
        unsafe {
            raw::krakvinge_all(
                s.as_ptr(), s.len(), n.as_ptr(), n.len(), d.as_ptr(), d.len(), r.as_ptr(), r.len(), m.as_mut_ptr(), m.len(),
                ids.as_mut_ptr(), ids.len(), a.as_mut_ptr(), a.len(),
            )
        }
    }

    pub fn leaves(&mut self, row: &mut [i32], a: &mut [u32]) -> u64 {
        let Rows { state: s, nodes: n, dots: d, rects: r, marks: m } = self;
        unsafe {
            raw::krakvinge_leaves(
                s.as_ptr(), s.len(), n.as_ptr(), n.len(), d.as_ptr(), d.len(), r.as_ptr(), r.len(), m.as_mut_ptr(), m.len(),
                row.as_mut_ptr(), row.len(), a.as_mut_ptr(), a.len(),
            )
        }
    }

    pub fn references(&mut self, a: &mut [u32]) -> u64 {
        let Rows { state: s, nodes: n, dots: d, rects: r, marks: m } = self;
        unsafe { raw::krakvinge_references(s.as_ptr(), s.len(), n.as_ptr(), n.len(), d.as_ptr(), d.len(), r.as_ptr(), r.len(), m.as_mut_ptr(), m.len(), a.as_mut_ptr(), a.len()) }
    }

    pub fn grid(&mut self, g: &Grid, counts: &mut [u32], a: &mut [u32]) -> u64 {
        let Rows { state: s, nodes: n, dots: d, rects: r, marks: m } = self;
        unsafe {
            raw::krakvinge_grid(
                s.as_ptr(), s.len(), n.as_ptr(), n.len(), d.as_ptr(), d.len(), r.as_ptr(), r.len(), m.as_mut_ptr(), m.len(),
                g.x, g.y, g.width, g.height, g.columns, g.rows, counts.as_mut_ptr(), counts.len(), a.as_mut_ptr(), a.len(),
            )
        }
    }

    pub fn check(&mut self) -> u64 {
        let Rows { state: s, nodes: n, dots: d, rects: r, marks: m } = self;
        unsafe { raw::krakvinge_check(s.as_ptr(), s.len(), n.as_ptr(), n.len(), d.as_ptr(), d.len(), r.as_ptr(), r.len(), m.as_mut_ptr(), m.len()) }
    }
}

/// A tree with room for a number of groups and of dots.
pub struct Tree {
    rows: Rows,
    answer: [u32; 2],
}

impl Tree {
    pub fn new(settings: &Settings, groups: usize, places: usize) -> Result<Tree, Refused> {
        if groups > 16384 || places > 65536 {
            return Err(Refused { number: 1, wanted: 0 });
        }
        let mut tree = Tree { rows: Rows::new(settings, groups, places), answer: [0, 0] };
        let result = tree.rows.make();
        tree.accepted(result)?;
        Ok(tree)
    }

    /// The dots in the tree.
    pub fn live(&self) -> u32 {
        self.rows.state[9]
    }

    /// How many changes were made since the tree was new: accepted inserts, placings and dots of patches, removes and cleanups that said yes.
    pub fn changes(&self) -> u64 {
        wide(self.rows.state[10], self.rows.state[11])
    }

    /// Answers the number of splits. An ink is from 0 to 15.
    pub fn insert(&mut self, id: u32, rect: Rect, ink: u32) -> Result<u32, Refused> {
        let result = self.rows.insert(id, rect, ink, &mut self.answer);
        Ok(self.accepted(result)?[0])
    }

    /// Answers the number of splits that the insert would make, and a ticket for it; changes nothing, and is refused as the insert would be.
    pub fn ask(&mut self, id: u32, rect: Rect, ink: u32) -> Result<(u32, Ticket), Refused> {
        let mut words = [0; 8];
        let result = self.rows.ask(id, rect, ink, &mut words, &mut self.answer);
        Ok((self.accepted(result)?[0], Ticket::of(&words)))
    }

    /// Inserts the ticket's dot, if the tree has not changed since the ask; answers the number of splits, as told.
    pub fn place(&mut self, ticket: &Ticket) -> Result<u32, Refused> {
        let result = self.rows.place(&ticket.words(), &mut self.answer);
        Ok(self.accepted(result)?[0])
    }

    pub fn remove(&mut self, id: u32, rect: Rect) -> Result<bool, Refused> {
        let result = self.rows.remove(id, rect, &mut self.answer);
        Ok(self.accepted(result)?[0] == 1)
    }

    pub fn cleanup(&mut self) -> Result<bool, Refused> {
        let result = self.rows.cleanup(&mut self.answer);
        Ok(self.accepted(result)?[0] == 1)
    }

    /// Carries out the records in order; a row as long has a word for each.
    pub fn batch(&mut self, records: &[Record], answers: &mut [u32]) -> Result<(), Refused> {
        let result = self.rows.batch(Record::words(records), answers);
        self.accepted(result)?;
        Ok(())
    }

    /// Lays the patch whole, each dot as an insert, or nothing of it; answers the number of dots.
    pub fn patch(&mut self, patch: &Patch) -> Result<u32, Refused> {
        let result = self.rows.patch(patch, &mut self.answer);
        Ok(self.accepted(result)?[0])
    }

    /// Lists the dots of the inks in the mask, bit k for ink k.
    pub fn query(&mut self, rect: Rect, inks: u16, ids: &mut [u32]) -> Result<Listed, Refused> {
        let result = self.rows.query(rect, inks, ids, &mut self.answer);
        let [hits, opened] = self.accepted(result)?;
        Ok(Listed { hits: hits as usize, opened })
    }

    /// The original's: a query of all inks with the root's rectangle, which does not list a dot that begins on its right or lower edge and lies outside.
    pub fn collect_ids(&mut self, ids: &mut [u32]) -> Result<Listed, Refused> {
        let result = self.rows.collect_ids(ids, &mut self.answer);
        let [hits, opened] = self.accepted(result)?;
        Ok(Listed { hits: hits as usize, opened })
    }

    /// Lists every dot, of all inks and wherever it lies; answers their number, which is `live`.
    pub fn all(&mut self, ids: &mut [u32]) -> Result<usize, Refused> {
        let result = self.rows.all(ids, &mut self.answer);
        Ok(self.accepted(result)?[0] as usize)
    }

    /// Answers the number of leaves, six words each.
    pub fn leaves(&mut self, row: &mut [i32]) -> Result<usize, Refused> {
        let result = self.rows.leaves(row, &mut self.answer);
        Ok(self.accepted(result)?[0] as usize)
    }

    pub fn references(&mut self) -> Result<u32, Refused> {
        let result = self.rows.references(&mut self.answer);
        Ok(self.accepted(result)?[0])
    }

    /// Counts the dots in each window, rows downward and columns rising within a row; answers the counts' total.
    pub fn grid(&mut self, grid: &Grid, counts: &mut [u32]) -> Result<u64, Refused> {
        let result = self.rows.grid(grid, counts, &mut self.answer);
        let [low, high] = self.accepted(result)?;
        Ok(wide(low, high))
    }

    fn accepted(&self, result: u64) -> Result<[u32; 2], Refused> {
        match result {
            0 => Ok(self.answer),
            _ => Err(Refused { number: (result % 256) as u32, wanted: (result / 256) as u32 }),
        }
    }
}
