// The faults that only inks show.
use crate::calls::{Answer, Call};
use crate::faults::Fault;
use crate::krakvinge::{Rows, ALL_INKS};
use crate::original::{BRANCH, NONE};

impl Fault {
    // Of what the library is asked.
    pub fn spoil_inks_asked(self, call: &Call, rows: &Rows) -> Call {
        match (self, *call) {
            (Fault::MaskOffByOne, Call::Query(rect, inks, room)) => Call::Query(rect, inks.rotate_left(1), room),
            (Fault::MaskIgnored, Call::Query(rect, _, room)) => Call::Query(rect, ALL_INKS, room),
            (Fault::MaskShowsInk0, Call::Query(rect, inks, room)) => Call::Query(rect, inks | 1, room),
            (Fault::AllOfInk0, Call::All(room)) => Call::Query([-1073741825, -1073741825, 1073741824, 1073741824], 1, room),
            (Fault::AllOfInk0, Call::CollectIds(room)) => {
                let [left, top, width, height] = [0, 1, 2, 3].map(|i| rows.state[i] as i32);
                Call::Query([left, top, left + width, top + height], 1, room)
            }
            (Fault::InkDropped, Call::Insert(id, rect, 1..=15)) => Call::Insert(id, rect, 0),
            (Fault::Ink15Refused, Call::Insert(id, rect, 15)) => Call::Insert(id, rect, 16),
            (Fault::Ink16Taken, Call::Insert(id, rect, 16)) => Call::Insert(id, rect, 15),
            _ => *call,
        }
    }

    // Of an answer, or of what a call leaves.
    pub fn spoil_inks(self, call: &Call, before: &Rows, answer: &mut Answer, rows: &mut Rows) {
        let (accepted, number) = (answer.result == 0, answer.words[0]);
        // after a remove: where the ink stood, in the first of the free places
        let freed = 3 * rows.state[8] as usize + 2;
        match (self, *call) {
            (Fault::OpenedByMask, Call::Query(_, 0, _)) if accepted => answer.words[1] = 1,
            (Fault::AllOfInk0, Call::All(_)) if accepted => answer.words[1] = 0,
            (Fault::RoomForAllInks, Call::Query(rect, _, room)) => {
                let result = rows.clone().query(rect, ALL_INKS, &mut vec![0; room], &mut [0; 2]);
                if result != 0 {
                    *answer = Answer::refused(result, call);
                }
            }
            (Fault::InkTestedBefore4, Call::Insert(_, _, 16..)) if answer.result == 4 => answer.result = 10,
            (Fault::InkTestedLast, Call::Insert(id, rect, 16..)) if answer.result == 10 => {
                let result = rows.clone().insert(id, rect, 0, &mut [0; 2]);
                answer.result = if result == 0 { 10 } else { result };
            }
            (Fault::RemoveOfInk0, Call::Remove(..)) if number == 1 && before.dots[freed] != 0 => answer.words[0] = 0,
            (Fault::RemoveLeavesInk, Call::Remove(..)) if number == 1 => rows.dots[freed] = before.dots[freed],
            (Fault::SplitLosesInks, Call::Insert(..)) if accepted && number > 0 => lose_inks(before, rows),
            _ => {}
        }
    }
}

// The dots that a split dealt to the leaves of its group, the first of the free groups before; the new dot is at the first of the free places.
fn lose_inks(before: &Rows, rows: &mut Rows) {
    let group = before.state[7] as usize;
    for child in group..group + 5 {
        let mut at = if rows.nodes[2 * child + 1] == BRANCH { NONE } else { rows.nodes[2 * child] };
        while at != NONE {
            let place = 3 * at as usize;
            if at != before.state[8] {
                rows.dots[place + 2] = 0;
            }
            at = rows.dots[place + 1];
        }
    }
}
