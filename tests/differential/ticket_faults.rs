// Faults to plant in an ask, in a placing, and in the count of changes.
use crate::calls::{Answer, Call, UNWRITTEN};
use crate::krakvinge::{Rows, Ticket};
use crate::port::{count, set_count};
use crate::tickets::{insert, Turn};

#[derive(Clone, Copy, PartialEq, Debug)]
pub enum Planted {
    Nothing,
    // of an ask
    AskWritesWord,
    AskLeavesMark,
    AskTellsNone,
    AskTellsOneMore,
    AskPlaces,
    AskNeverFull,
    TicketOfNextCount,
    TicketWithoutInk,
    TicketTurned,
    TicketOnRefusal,
    // of a placing
    StalePlaced,
    AheadPlaced,
    LowWordTested,
    StaleTestedLast,
    FullBeforeStale,
    PlaceTellsNone,
    PlaceLosesInk,
    // of the count
    NoCounted,
    RefusalCounted,
    QueryCounted,
    AskCounted,
    InsertUncounted,
    PlaceUncounted,
    PlaceCountedTwice,
    RemoveUncounted,
    CleanupUncounted,
    CarryLost,
    HighWordLost,
    // of its end
    FullBefore7,
    FullForNo,
    FullEarly,
    InsertWraps,
    RemoveUncountedAtEnd,
    CleanupUncountedAtEnd,
}

pub const PLANTED: [Planted; 34] = {
    use Planted::*;
    [
        AskWritesWord, AskLeavesMark, AskTellsNone, AskTellsOneMore, AskPlaces, AskNeverFull, TicketOfNextCount, TicketWithoutInk, TicketTurned,
        TicketOnRefusal, StalePlaced, AheadPlaced, LowWordTested, StaleTestedLast, FullBeforeStale, PlaceTellsNone, PlaceLosesInk, NoCounted, RefusalCounted,
        QueryCounted, AskCounted, InsertUncounted, PlaceUncounted, PlaceCountedTwice, RemoveUncounted, CleanupUncounted, CarryLost, HighWordLost,
        FullBefore7, FullForNo, FullEarly, InsertWraps, RemoveUncountedAtEnd, CleanupUncountedAtEnd,
    ]
};

// A call on these rows as if the count were 0; the count is then this.
fn carried_out(rows: &mut Rows, call: &Call, changes: u64) -> Answer {
    let mut words = [UNWRITTEN; 2];
    set_count(rows, 0);
    let result = match *call {
        Call::Insert(id, rect, ink) => rows.insert(id, rect, ink, &mut words),
        Call::Remove(id, rect) => rows.remove(id, rect, &mut words),
        _ => rows.cleanup(&mut words),
    };
    set_count(rows, changes);
    Answer { result, words, row: vec![] }
}

impl Planted {
    // Of what the library is asked.
    pub fn spoil_turn(self, turn: &Turn, rows: &Rows) -> Turn {
        let Turn::Place(ticket) = *turn else {
            return *turn;
        };
        let changes = count(rows);
        let placed = match self {
            Planted::StalePlaced => true,
            Planted::AheadPlaced => ticket.changes > changes,
            Planted::LowWordTested => ticket.changes as u32 == changes as u32,
            _ => false,
        };
        match self {
            _ if placed => Turn::Place(Ticket { changes, ..ticket }),
            Planted::PlaceLosesInk if ticket.ink <= 15 => Turn::Place(Ticket { ink: 0, ..ticket }),
            _ => *turn,
        }
    }

    // Of an answer and the rows.
    pub fn spoil(self, turn: &Turn, before: &Rows, answer: &mut Answer, rows: &mut Rows) {
        match turn {
            Turn::Ask(..) => self.spoil_ask(turn, answer, rows),
            Turn::Place(ticket) => self.spoil_place(ticket, before, answer),
            Turn::Call(_) => {}
        }
        self.spoil_count(turn, before, answer, rows);
        self.spoil_end(turn, before, answer, rows);
    }

    fn spoil_ask(self, turn: &Turn, answer: &mut Answer, rows: &mut Rows) {
        let (accepted, Turn::Ask(id, rect, ink)) = (answer.result == 0, *turn) else {
            return;
        };
        match self {
            Planted::AskWritesWord if accepted => rows.rects[0] += 1,
            Planted::AskLeavesMark => rows.marks[0] = 1,
            Planted::AskTellsNone if accepted => answer.words[0] = 0,
            Planted::AskTellsOneMore if accepted && answer.words[0] > 0 => answer.words[0] += 1,
            Planted::AskPlaces if accepted => {
                rows.insert(id, rect, ink, &mut [0; 2]);
            }
            Planted::AskNeverFull if answer.result == 16 => *answer = Answer { result: 0, words: [0; 2], row: answer.row.clone() },
            Planted::AskCounted if accepted => set_count(rows, count(rows).wrapping_add(1)),
            Planted::TicketOfNextCount if accepted => answer.row[6] += 1,
            Planted::TicketWithoutInk if accepted => answer.row[5] = 0,
            Planted::TicketTurned if accepted => answer.row.swap(1, 2),
            Planted::TicketOnRefusal if !accepted => answer.row[0] = id as i64,
            _ => {}
        }
    }

    fn spoil_place(self, ticket: &Ticket, before: &Rows, answer: &mut Answer) {
        let stale = answer.result == 15;
        match self {
            Planted::StaleTestedLast if stale => {
                let number = carried_out(&mut before.clone(), &insert(ticket), 0).result;
                answer.result = if number == 0 { 15 } else { number };
            }
            Planted::FullBeforeStale if stale && count(before) == u64::MAX => answer.result = 16,
            Planted::PlaceTellsNone if answer.result == 0 => answer.words[0] = 0,
            _ => {}
        }
    }

    fn spoil_count(self, turn: &Turn, before: &Rows, answer: &Answer, rows: &mut Rows) {
        let (accepted, yes, was) = (answer.result == 0, answer.words[0] == 1, count(before));
        let changed = count(rows) != was;
        match (self, turn) {
            (Planted::NoCounted, Turn::Call(Call::Remove(..) | Call::Cleanup)) if accepted && !yes => set_count(rows, was.wrapping_add(1)),
            (Planted::RefusalCounted, Turn::Call(Call::Insert(..))) if !accepted => set_count(rows, was.wrapping_add(1)),
            (Planted::QueryCounted, Turn::Call(Call::Query(..))) => set_count(rows, was.wrapping_add(1)),
            (Planted::InsertUncounted, Turn::Call(Call::Insert(..))) => set_count(rows, was),
            (Planted::PlaceUncounted, Turn::Place(_)) => set_count(rows, was),
            (Planted::PlaceCountedTwice, Turn::Place(_)) if accepted => set_count(rows, was.wrapping_add(2)),
            (Planted::RemoveUncounted, Turn::Call(Call::Remove(..))) => set_count(rows, was),
            (Planted::CleanupUncounted, Turn::Call(Call::Cleanup)) => set_count(rows, was),
            (Planted::CarryLost, _) => rows.state[11] = before.state[11],
            (Planted::HighWordLost, _) if changed => rows.state[11] = 0,
            _ => {}
        }
    }

    fn spoil_end(self, turn: &Turn, before: &Rows, answer: &mut Answer, rows: &mut Rows) {
        let (full, was) = (answer.result == 16, count(before));
        match (self, turn) {
            (Planted::FullBefore7, _) if answer.result == 7 && was == u64::MAX => answer.result = 16,
            (Planted::FullForNo, Turn::Call(Call::Remove(..) | Call::Cleanup)) if answer.result == 0 && was == u64::MAX => {
                *answer = Answer { result: 16, words: [UNWRITTEN; 2], row: vec![] };
            }
            (Planted::FullEarly, Turn::Call(call)) if was == u64::MAX - 1 && count(rows) == u64::MAX => {
                *rows = before.clone();
                rows.marks.fill(0);
                *answer = Answer::refused(16, call);
            }
            (Planted::InsertWraps, Turn::Call(call @ Call::Insert(..))) if full => *answer = carried_out(rows, call, 0),
            (Planted::RemoveUncountedAtEnd, Turn::Call(call @ Call::Remove(..))) if full => *answer = carried_out(rows, call, was),
            (Planted::CleanupUncountedAtEnd, Turn::Call(call @ Call::Cleanup)) if full => *answer = carried_out(rows, call, was),
            _ => {}
        }
    }
}
