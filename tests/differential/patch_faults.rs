// Faults to plant in a patch.
use crate::calls::{Answer, Call};
use crate::krakvinge::{Patch, Rows};
use crate::original::NONE;
use crate::patches::{insert, places, refused, Ended};
use crate::port::{count, set_count};

#[derive(Clone, Copy, PartialEq, Debug)]
pub enum Planted {
    Nothing,
    LaysUntilRefused,
    ColumnsBeforeRows,
    TileByTile,
    TilesSwapped,
    ThresholdAtMost,
    IdsFromTheNext,
    OneId,
    InkOfTheNumber,
    NumberOfTheTiles,
    LastGroupRefused,
    LastPlaceRefused,
    LastIdRefused,
    RefusedAsTheDot,
    MarksLeft,
    MarksClearedBy13,
    CountedOnce,
    CountAs14,
    CountTestedFirst,
    CountWraps,
    LastCountRefused,
}

pub const PLANTED: [Planted; 20] = {
    use Planted::*;
    [
        LaysUntilRefused, ColumnsBeforeRows, TileByTile, TilesSwapped, ThresholdAtMost, IdsFromTheNext, OneId, InkOfTheNumber, NumberOfTheTiles,
        LastGroupRefused, LastPlaceRefused, LastIdRefused, RefusedAsTheDot, MarksLeft, MarksClearedBy13, CountedOnce, CountAs14, CountTestedFirst,
        CountWraps, LastCountRefused,
    ]
};

// The rows with these inserts, one by one.
fn with(before: &Rows, calls: impl Iterator<Item = Call>) -> Rows {
    let mut rows = before.clone();
    for call in calls {
        if let Call::Insert(id, rect, ink) = call {
            rows.insert(id, rect, ink, &mut [0; 2]);
        }
    }
    rows.marks.fill(0);
    rows
}

impl Planted {
    // Of what the library is asked.
    pub fn spoil_asked(self, p: &Patch) -> Patch {
        match self {
            Planted::TilesSwapped => Patch { columns: p.rows, rows: p.columns, ..*p },
            Planted::ThresholdAtMost if p.tint < 256 => Patch { tint: p.tint + 1, ..*p },
            Planted::IdsFromTheNext => Patch { first_id: p.first_id.wrapping_add(1), ..*p },
            _ => *p,
        }
    }

    // The dots in another order, with ids in that order.
    fn reordered(self, p: &Patch) -> Vec<Call> {
        let mut dots: Vec<(u32, u32)> = places(p).collect();
        match self {
            Planted::ColumnsBeforeRows => dots.sort(),
            _ => dots.sort_by_key(|&(column, row)| (row / 16, column / 16, row, column)),
        }
        dots.into_iter().enumerate().filter_map(|(number, place)| insert(p, number, place)).collect()
    }

    // Of an answer and the rows. A patch of another tint or tile number has no end.
    pub fn spoil(self, p: &Patch, ended: Option<&Ended>, before: &Rows, rows: &mut Rows, answer: &mut Answer) {
        match (self, ended) {
            (Planted::MarksClearedBy13, None) => rows.marks.fill(0),
            (Planted::MarksLeft, Some(_)) => rows.marks.clone_from(&before.marks),
            (Planted::LaysUntilRefused, Some(Ended::Refused(laid, _))) => *rows = with(before, laid.iter().copied()),
            (Planted::RefusedAsTheDot, Some(Ended::Refused(_, number))) => answer.result = *number,
            (Planted::ColumnsBeforeRows | Planted::TileByTile, Some(Ended::Laid(_))) => *rows = with(before, self.reordered(p).into_iter()),
            (Planted::CountedOnce, Some(Ended::Laid(calls))) if !calls.is_empty() => set_count(rows, count(before) + 1),
            (Planted::CountAs14, Some(Ended::Passes(_))) => answer.result = 14,
            (Planted::CountTestedFirst, Some(Ended::Refused(..))) if places(p).count() as u64 > u64::MAX - count(before) => answer.result = 16,
            (Planted::CountWraps, Some(Ended::Passes(calls))) => {
                let mut start = before.clone();
                set_count(&mut start, 0);
                *rows = with(&start, calls.iter().copied());
                set_count(rows, count(before).wrapping_add(calls.len() as u64));
                *answer = Answer::accepted([calls.len() as u32, 0]);
            }
            (Planted::NumberOfTheTiles, Some(Ended::Laid(_))) => answer.words[0] = p.columns * p.rows,
            (Planted::OneId, Some(Ended::Laid(calls))) => {
                let same = calls.iter().map(|call| if let Call::Insert(_, rect, ink) = *call { Call::Insert(p.first_id, rect, ink) } else { *call });
                *rows = with(before, same);
            }
            (Planted::InkOfTheNumber, Some(Ended::Laid(calls))) => {
                let inked = calls.iter().zip(0..).map(|(call, n)| if let Call::Insert(id, rect, _) = *call { Call::Insert(id, rect, n % 16) } else { *call });
                *rows = with(before, inked);
            }
            (_, Some(Ended::Laid(calls))) if !calls.is_empty() && self.is_early(p, calls, rows) => {
                *rows = before.clone();
                rows.marks.fill(0);
                *answer = refused(14);
            }
            _ => {}
        }
    }

    // Whether a patch that just fits is refused.
    fn is_early(self, p: &Patch, calls: &[Call], rows: &Rows) -> bool {
        match self {
            Planted::LastGroupRefused => rows.state[7] == NONE,
            Planted::LastPlaceRefused => rows.state[8] == NONE,
            Planted::LastCountRefused => count(rows) == u64::MAX,
            Planted::LastIdRefused => p.first_id as u64 + calls.len() as u64 == 1 << 32,
            _ => false,
        }
    }
}
