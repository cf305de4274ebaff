// How asks, placings and the calls that change a tree ended, each figure with its floor.
use crate::calls::{Answer, Call};
use crate::tickets::Turn;

const KINDS: [&str; 6] = ["ask", "place", "insert", "remove", "cleanup", "other calls"];

fn kind(turn: &Turn) -> usize {
    match turn {
        Turn::Ask(..) => 0,
        Turn::Place(_) => 1,
        Turn::Call(Call::Insert(..)) => 2,
        Turn::Call(Call::Remove(..)) => 3,
        Turn::Call(Call::Cleanup) => 4,
        Turn::Call(_) => 5,
    }
}

#[derive(Clone, Copy, PartialEq)]
enum Ended {
    Accepted,
    // Accepted with an answer of more than 0: splits, or yes.
    More,
    Refused(u64),
    // Not refused though the count is the largest.
    AtTheEnd,
    // Changes that take the count to the largest, and over the end of its low word.
    ToTheEnd,
    Carried,
}

use Ended::{Accepted, AtTheEnd, Carried, More, Refused, ToTheEnd};

const FLOORS: [(usize, Ended, u64); 36] = [
    (0, Accepted, 50_000),
    (0, More, 3_000),
    (0, Refused(4), 8_000),
    (0, Refused(5), 10_000),
    (0, Refused(6), 20_000),
    (0, Refused(7), 8_000),
    (0, Refused(10), 4_000),
    (0, Refused(16), 10_000),
    (1, Accepted, 40_000),
    (1, More, 2_500),
    (1, Refused(4), 6_000),
    (1, Refused(5), 8_000),
    (1, Refused(6), 15_000),
    (1, Refused(7), 7_000),
    (1, Refused(10), 3_000),
    (1, Refused(15), 100_000),
    (1, Refused(16), 8_000),
    (1, ToTheEnd, 120),
    (1, Carried, 60),
    (2, Accepted, 50_000),
    (2, More, 3_000),
    (2, Refused(16), 10_000),
    (2, ToTheEnd, 150),
    (2, Carried, 60),
    (3, Accepted, 150_000),
    (3, More, 40_000),
    (3, Refused(16), 6_000),
    (3, AtTheEnd, 15_000),
    (3, ToTheEnd, 120),
    (3, Carried, 60),
    (4, Accepted, 50_000),
    (4, More, 1_200),
    (4, Refused(16), 100),
    (4, AtTheEnd, 6_000),
    (4, ToTheEnd, 3),
    (5, AtTheEnd, 15_000),
];

impl Ended {
    // Of a turn that met this count. What changes the tree answers more than 0, or is an insert.
    fn is(self, turn: &Turn, answer: &Answer, count: u64) -> bool {
        let accepted = answer.result == 0;
        let changed = accepted && (matches!(kind(turn), 1 | 2) || (matches!(kind(turn), 3 | 4) && answer.words[0] == 1));
        match self {
            Accepted => accepted,
            More => accepted && answer.words[0] > 0,
            Refused(number) => answer.result % 256 == number,
            AtTheEnd => accepted && count == u64::MAX,
            ToTheEnd => changed && count == u64::MAX - 1,
            Carried => changed && count == u32::MAX as u64,
        }
    }

    fn text(self) -> String {
        match self {
            Accepted => "accepted".to_string(),
            More => "splits or yes".to_string(),
            Refused(number) => format!("refused {number}"),
            AtTheEnd => "accepted at the largest count".to_string(),
            ToTheEnd => "to the largest count".to_string(),
            Carried => "over the end of the low word".to_string(),
        }
    }
}

#[derive(Default)]
pub struct Counts {
    turns: u64,
    figures: Vec<u64>,
}

impl Counts {
    pub fn tell(&mut self, turn: &Turn, answer: &Answer, count: u64) {
        self.turns += 1;
        self.figures.resize(FLOORS.len(), 0);
        for (figure, (row, ended, _)) in self.figures.iter_mut().zip(FLOORS) {
            *figure += (row == kind(turn) && ended.is(turn, answer, count)) as u64;
        }
    }

    // Each figure with its floor; whether all reach it.
    pub fn print(&self) -> bool {
        println!("differential: {} calls with asks and placings, and the count after each, as the original's changes", self.turns);
        for (row, name) in KINDS.iter().enumerate() {
            let shown = FLOORS.iter().zip(&self.figures).filter(|(floor, _)| floor.0 == row);
            let parts: Vec<String> = shown.map(|((_, ended, floor), figure)| format!("{} {figure} (floor {floor})", ended.text())).collect();
            println!("  {name}: {}", parts.join(", "));
        }
        let short = FLOORS.iter().zip(&self.figures).find(|((_, _, floor), figure)| *figure < floor);
        if let Some(((row, ended, _), _)) = short {
            println!("differential: too few of a kind: {} {}", KINDS[*row], ended.text());
        }
        short.is_none()
    }
}
