// How often each kind of call ended how, each figure with its floor. Queries whose mask leaves inks out are a kind of their own.
use crate::calls::{Answer, Call, KINDS};
use crate::krakvinge::ALL_INKS;

#[derive(Clone, Copy, PartialEq)]
enum Ended {
    Accepted,
    Refused(u64),
    // A remove or cleanup that said so, a query that found something.
    Yes,
    Split,
    SplitAgain,
    // A query that listed some of the dots that it met, and left others out; a collect_ids that left out dots on the edge.
    Partly,
}

use Ended::{Accepted, Partly, Refused, Split, SplitAgain, Yes};

const MASKED: usize = KINDS.len();

fn kind(call: &Call) -> usize {
    match call {
        Call::Query(_, inks, _) if *inks != ALL_INKS => MASKED,
        _ => call.kind(),
    }
}

fn name(kind: usize) -> &'static str {
    if kind == MASKED { "query by a mask" } else { KINDS[kind] }
}

// Kind, how it ended, and of a million calls at least how many.
const FLOORS: [(usize, Ended, u64); 29] = [
    (0, Accepted, 100_000),
    (0, Refused(4), 12_000),
    (0, Refused(5), 20_000),
    (0, Refused(6), 50_000),
    (0, Refused(7), 15_000),
    (0, Refused(10), 8_000),
    (0, Split, 6_000),
    (0, SplitAgain, 500),
    (1, Accepted, 150_000),
    (1, Yes, 50_000),
    (2, Accepted, 45_000),
    (2, Yes, 1_500),
    (3, Accepted, 60_000),
    (3, Refused(8), 4_000),
    (3, Yes, 30_000),
    (4, Accepted, 7_000),
    (4, Refused(8), 1_500),
    (5, Accepted, 7_000),
    (5, Refused(8), 1_500),
    (5, Yes, 6_000),
    (6, Accepted, 9_000),
    (7, Accepted, 7_000),
    (7, Refused(8), 1_500),
    (7, Yes, 6_000),
    (7, Partly, 1_000),
    (MASKED, Accepted, 30_000),
    (MASKED, Refused(8), 800),
    (MASKED, Yes, 8_000),
    (MASKED, Partly, 3_500),
];
// Live dots at once, at least in one list.
const MOST_LIVE: u64 = 2_000;
// Below this many calls no floor is asked.
const ENOUGH: u64 = 200_000;

#[derive(Default)]
pub struct Counts {
    pub calls: u64,
    most_live: u64,
    figures: [u64; FLOORS.len()],
}

impl Ended {
    fn is(self, answer: &Answer, hidden: usize) -> bool {
        let (accepted, number) = (answer.result == 0, answer.words[0]);
        match self {
            Accepted => accepted,
            Refused(k) => answer.result % 256 == k,
            Yes | Split => accepted && number > 0,
            SplitAgain => accepted && number > 1,
            Partly => accepted && number > 0 && hidden > 0,
        }
    }

    fn text(self) -> String {
        match self {
            Accepted => "accepted".to_string(),
            Refused(k) => format!("refused {k}"),
            Yes => "yes".to_string(),
            Split => "split".to_string(),
            SplitAgain => "split more than once".to_string(),
            Partly => "some listed and some left out".to_string(),
        }
    }
}

impl Counts {
    pub fn tell(&mut self, call: &Call, answer: &Answer, hidden: usize) {
        self.calls += 1;
        for (i, (row, ended, _)) in FLOORS.iter().enumerate() {
            self.figures[i] += (*row == kind(call) && ended.is(answer, hidden)) as u64;
        }
    }

    pub fn tell_live(&mut self, live: u64) {
        self.most_live = self.most_live.max(live);
    }

    fn floor(&self, i: usize) -> u64 {
        if self.calls < ENOUGH { 0 } else { FLOORS[i].2 * self.calls / 1_000_000 }
    }

    // Each figure with its floor; whether all reach it.
    pub fn print(&self) -> bool {
        for row in 0..=MASKED {
            let shown = (0..FLOORS.len()).filter(|i| FLOORS[*i].0 == row);
            let parts: Vec<String> = shown.map(|i| format!("{} {} (floor {})", FLOORS[i].1.text(), self.figures[i], self.floor(i))).collect();
            println!("  {}: {}", name(row), parts.join(", "));
        }
        println!("  live dots at once: up to {} (floor {MOST_LIVE})", self.most_live);
        let short = (0..FLOORS.len()).find(|i| self.figures[*i] < self.floor(*i));
        if let Some(i) = short {
            println!("differential: too few of a kind: {} {}", name(FLOORS[i].0), FLOORS[i].1.text());
        }
        short.is_none() && (self.most_live >= MOST_LIVE || self.calls < ENOUGH)
    }
}
