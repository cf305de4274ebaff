// Faults to plant, each one that a wrong port could have. Those that only inks show are the last fifteen (ink_faults.rs has what they do).
use crate::calls::{Answer, Call};
use crate::krakvinge::Rows;

#[derive(Clone, Copy, PartialEq, Debug)]
pub enum Fault {
    None,
    OneSplitMore,
    NoPlaceEarly,
    NoGroupEarly,
    Refusal4As5,
    RemoveAlwaysYes,
    RemoveAlwaysNo,
    CleanupAlwaysNo,
    CleanupAlwaysYes,
    QueryDropsLast,
    QuerySwapsTwo,
    QueryReversed,
    QueryDoublesFirst,
    OpenedLess,
    AnswerWordsSwapped,
    RowFullRefused,
    WantedLess,
    TailWritten,
    LeafMissing,
    LeafDepth,
    AllDropsFirst,
    AllReversed,
    AllAsCollectIds,
    AllTellsOpened,
    CollectIdsAsAll,
    ReferencesMore,
    NodeWord,
    ChainOrder,
    DotRectangle,
    FreeGroup,
    LiveAfterRefusal,
    MarkLeft,
    MaskOffByOne,
    MaskIgnored,
    MaskShowsInk0,
    AllOfInk0,
    OpenedByMask,
    RoomForAllInks,
    InkDropped,
    Ink15Refused,
    Ink16Taken,
    InkTestedBefore4,
    InkTestedLast,
    RemoveOfInk0,
    RemoveLeavesInk,
    SplitLosesInks,
    InksSwapped,
}

pub const FAULTS: [Fault; 46] = {
    use Fault::*;
    [
        OneSplitMore, NoPlaceEarly, NoGroupEarly, Refusal4As5, RemoveAlwaysYes, RemoveAlwaysNo, CleanupAlwaysNo, CleanupAlwaysYes, QueryDropsLast,
        QuerySwapsTwo, QueryReversed, QueryDoublesFirst, OpenedLess, AnswerWordsSwapped, RowFullRefused, WantedLess, TailWritten, LeafMissing, LeafDepth,
        AllDropsFirst, AllReversed, AllAsCollectIds, AllTellsOpened, CollectIdsAsAll, ReferencesMore, NodeWord, ChainOrder, DotRectangle, FreeGroup,
        LiveAfterRefusal, MarkLeft, MaskOffByOne, MaskIgnored, MaskShowsInk0, AllOfInk0, OpenedByMask, RoomForAllInks, InkDropped, Ink15Refused,
        Ink16Taken, InkTestedBefore4, InkTestedLast, RemoveOfInk0, RemoveLeavesInk, SplitLosesInks, InksSwapped,
    ]
};

// The nodes that collect_ids opens.
fn opened(rows: &Rows) -> u32 {
    let (mut ids, mut words) = (vec![0; rows.state[9] as usize], [0; 2]);
    assert_eq!(rows.clone().collect_ids(&mut ids, &mut words), 0);
    words[1]
}

impl Fault {
    // Of an answer.
    pub fn spoil(self, call: &Call, before: &Rows, answer: &mut Answer, rows: &mut Rows) {
        self.spoil_inks(call, before, answer, rows);
        let accepted = answer.result == 0;
        match (self, call) {
            (Fault::OneSplitMore, Call::Insert(..)) if accepted && answer.words[0] > 0 => answer.words[0] += 1,
            (Fault::NoPlaceEarly, Call::Insert(..)) if accepted && 4 * (before.state[9] as usize + 1) == rows.rects.len() => *answer = Answer::refused(6, call),
            (Fault::NoGroupEarly, Call::Insert(..)) if accepted && answer.words[0] > 0 && rows.state[7] == u32::MAX => *answer = Answer::refused(7, call),
            (Fault::Refusal4As5, Call::Insert(..)) if answer.result == 4 => answer.result = 5,
            (Fault::RemoveAlwaysYes, Call::Remove(..)) => answer.words[0] = 1,
            (Fault::RemoveAlwaysNo, Call::Remove(..)) => answer.words[0] = 0,
            (Fault::CleanupAlwaysNo, Call::Cleanup) => answer.words[0] = 0,
            (Fault::CleanupAlwaysYes, Call::Cleanup) => answer.words[0] = 1,
            (Fault::LeafMissing, Call::Leaves(_)) if accepted && answer.words[0] > 1 => answer.words[0] -= 1,
            (Fault::LeafDepth, Call::Leaves(_)) if accepted && answer.words[0] > 1 => answer.row[10] += 1,
            (Fault::AllDropsFirst, Call::All(_)) if accepted && answer.words[0] > 0 => answer.row[0] = answer.row[answer.words[0] as usize - 1] + 1,
            (Fault::AllReversed, Call::All(_)) if accepted => answer.row[..answer.words[0] as usize].reverse(),
            (Fault::AllAsCollectIds, Call::All(_)) if accepted => answer.words[1] = 0,
            (Fault::AllTellsOpened, Call::All(_)) if accepted => answer.words[1] = opened(before),
            (Fault::CollectIdsAsAll, Call::CollectIds(_)) if accepted => answer.words[1] = opened(before),
            (Fault::ReferencesMore, Call::References) => answer.words[0] += 1,
            (Fault::LiveAfterRefusal, Call::Insert(..)) if !accepted => rows.state[9] += 1,
            (Fault::MarkLeft, Call::Query(..)) if accepted && !rows.marks.is_empty() => rows.marks[0] = 1,
            (_, Call::Query(..)) => self.spoil_query(call, answer),
            _ => {}
        }
    }

    fn spoil_query(self, call: &Call, answer: &mut Answer) {
        let (accepted, hits) = (answer.result == 0, answer.words[0] as usize);
        match self {
            Fault::QueryDropsLast if accepted && hits > 0 => answer.words[0] -= 1,
            Fault::QuerySwapsTwo if accepted && hits > 1 => answer.row.swap(0, 1),
            Fault::QueryReversed if accepted => answer.row[..hits].reverse(),
            Fault::QueryDoublesFirst if accepted && hits > 1 => answer.row[1] = answer.row[0],
            Fault::OpenedLess if accepted && answer.words[1] > 1 => answer.words[1] -= 1,
            Fault::AnswerWordsSwapped if accepted => answer.words.swap(0, 1),
            Fault::RowFullRefused if accepted && hits == call.room() => *answer = Answer::refused(8 + 256 * hits as u64, call),
            Fault::WantedLess if !accepted => answer.result -= 256,
            Fault::TailWritten if accepted && hits < call.room() => answer.row[hits] = 0,
            _ => {}
        }
    }

    // Of what the library is asked.
    pub fn spoil_call(self, call: &Call, rows: &Rows) -> Call {
        match (self, *call) {
            (Fault::AllAsCollectIds, Call::All(room)) => Call::CollectIds(room),
            (Fault::CollectIdsAsAll, Call::CollectIds(room)) => Call::All(room),
            _ => self.spoil_inks_asked(call, rows),
        }
    }

    // Of the words that the tree is read from.
    pub fn spoil_rows(self, rows: &mut Rows) {
        let chained = (0..rows.nodes.len() / 2).find(|n| rows.nodes[2 * n + 1] > 1 && rows.nodes[2 * n + 1] != u32::MAX);
        match (self, chained) {
            (Fault::NodeWord, Some(node)) => rows.nodes[2 * node + 1] -= 1,
            (Fault::ChainOrder, Some(node)) => {
                let head = rows.nodes[2 * node] as usize;
                let next = rows.dots[3 * head + 1] as usize;
                rows.dots.swap(3 * head, 3 * next);
                rows.dots.swap(3 * head + 2, 3 * next + 2);
                for i in 0..4 {
                    rows.rects.swap(4 * head + i, 4 * next + i);
                }
            }
            (Fault::InksSwapped, Some(node)) => {
                let head = rows.nodes[2 * node] as usize;
                let next = rows.dots[3 * head + 1] as usize;
                rows.dots.swap(3 * head + 2, 3 * next + 2);
            }
            (Fault::DotRectangle, Some(node)) => rows.rects[4 * rows.nodes[2 * node] as usize + 2] += 1,
            (Fault::FreeGroup, _) if rows.state[7] != u32::MAX => rows.nodes[2 * rows.state[7] as usize] = u32::MAX,
            _ => {}
        }
    }
}
