// Asks, placings and the count of changes against the original: an ask tells what the original's insert of the dot then answers, a placing is that insert,
// and the count after each call is that of the changes that the original made.
use crate::calls::{halves, Answer, Call, List, Rect, UNWRITTEN};
use crate::compare;
use crate::faults::Fault;
use crate::krakvinge::Ticket;
use crate::lists;
use crate::original::Original;
use crate::port::{count, Port};
use crate::random::Random;
use crate::ticket_counts::Counts;
use crate::ticket_faults::{Planted, PLANTED};
use std::fmt;

const LISTS: u32 = 4_000;
const SEED: u64 = 15;
// Calls of a list that is recorded.
const RECORDED: usize = 12;

// What both sides are asked: a call of the list, an ask for a dot, a placing.
#[derive(Clone, Copy, PartialEq, Debug)]
pub enum Turn {
    Call(Call),
    Ask(u32, Rect, u32),
    Place(Ticket),
}

impl fmt::Display for Turn {
    fn fmt(&self, f: &mut fmt::Formatter) -> fmt::Result {
        match self {
            Turn::Call(call) => write!(f, "{call}"),
            Turn::Ask(id, [x1, y1, x2, y2], ink) => write!(f, "ask {id} {x1} {y1} {x2} {y2} {ink}"),
            Turn::Place(Ticket { id, rect: [x1, y1, x2, y2], ink, changes }) => {
                let [low, high] = halves(*changes);
                write!(f, "place {id} {x1} {y1} {x2} {y2} {ink} {low} {high}")
            }
        }
    }
}

pub fn insert(ticket: &Ticket) -> Call {
    Call::Insert(ticket.id, ticket.rect, ticket.ink)
}

fn refused(number: u64) -> Answer {
    Answer { result: number, words: [UNWRITTEN; 2], row: vec![] }
}

// Another count than this one: beside it, another in its high word alone, any.
fn other(random: &mut Random, changes: u64) -> u64 {
    match random.below(5) {
        0 => changes.wrapping_sub(1),
        1 => changes.wrapping_add(1),
        2 => changes ^ 1 << (32 + random.below(32)),
        3 => changes ^ 1 << random.below(32),
        _ => random.next(),
    }
}

// Both sides, and the tickets that asks gave, each with the splits that were told.
struct Sides<'a> {
    list: &'a List,
    original: Original,
    port: Port,
    given: Vec<(Ticket, u32)>,
    planted: Planted,
}

impl<'a> Sides<'a> {
    fn new(list: &'a List, planted: Planted) -> Sides<'a> {
        Sides { list, original: Original::new(list), port: Port::new(list, Fault::None), given: vec![], planted }
    }

    // The original's answer; the row of an ask is the ticket.
    fn wanted(&mut self, turn: &Turn) -> Answer {
        match *turn {
            Turn::Call(call) => self.original.answer(&call),
            Turn::Place(ticket) if ticket.changes != self.original.changes => refused(15),
            Turn::Place(ticket) => self.original.answer(&insert(&ticket)),
            Turn::Ask(id, rect, ink) => {
                let (made, changes) = (self.original.made(), self.original.changes);
                let ticket = Ticket { id, rect, ink, changes };
                let mut answer = self.original.answer(&insert(&ticket));
                let mut words = [UNWRITTEN; 8];
                if self.original.made() > made {
                    self.original.back_to(made, changes);
                    words = ticket.words();
                }
                answer.row = words.map(i64::from).to_vec();
                answer
            }
        }
    }

    fn answered(&mut self, turn: &Turn) -> Answer {
        let mut words = [UNWRITTEN; 2];
        match *turn {
            Turn::Call(call) => self.port.answer(&call),
            Turn::Place(ticket) => {
                self.port.soil();
                let result = self.port.rows.place(&ticket.words(), &mut words);
                Answer { result, words, row: vec![] }
            }
            Turn::Ask(id, rect, ink) => {
                self.port.soil();
                let mut ticket = [UNWRITTEN; 8];
                let result = self.port.rows.ask(id, rect, ink, &mut ticket, &mut words);
                Answer { result, words, row: ticket.map(i64::from).to_vec() }
            }
        }
    }

    // The splits of a placing that is accepted are those that the ask told.
    fn is_as_told(&mut self, turn: &Turn, answer: &Answer) -> bool {
        match *turn {
            _ if answer.result != 0 => true,
            Turn::Ask(id, rect, ink) => {
                self.given.push((Ticket { id, rect, ink, changes: self.original.changes }, answer.words[0]));
                true
            }
            Turn::Place(ticket) => self.given.iter().filter(|given| given.0 == ticket).all(|given| given.1 == answer.words[0]),
            Turn::Call(_) => true,
        }
    }

    // One turn on both sides: the answer, and every word; where nothing changes, all but the marks are as they were.
    fn turn(&mut self, turn: Turn, counts: &mut Counts) -> Result<Answer, String> {
        let (mut before, made) = (self.port.rows.clone(), self.original.made());
        let mut ours = self.answered(&self.planted.spoil_turn(&turn, &before));
        self.planted.spoil(&turn, &before, &mut ours, &mut self.port.rows);
        let theirs = self.wanted(&turn);
        counts.tell(&turn, &theirs, count(&before));
        before.marks.fill(0);
        let text = if ours != theirs {
            Some(format!("the original: {theirs:?}, the port: {ours:?}"))
        } else if !self.is_as_told(&turn, &ours) {
            Some(format!("{ours:?}, and other splits were told"))
        } else if self.original.made() > made {
            compare::memory_differs(self.list, &self.original, &self.port.rows)
        } else {
            (self.port.rows != before).then(|| format!("a word was written: {:?}, before {before:?}", self.port.rows))
        };
        text.map_or(Ok(theirs), |text| Err(format!("{turn}: {text}")))
    }
}

// The turns for a call of the list. An insert is asked for, or placed by its ticket or one made up, or both; before another call a ticket of an earlier
// ask may be placed.
fn turns(random: &mut Random, sides: &Sides, call: &Call) -> Vec<Turn> {
    let Call::Insert(id, rect, ink) = *call else {
        let earlier = if random.one_in(4) && !sides.given.is_empty() { vec![Turn::Place(random.pick(&sides.given).0)] } else { vec![] };
        return [earlier, vec![Turn::Call(*call)]].concat();
    };
    let (ask, ticket) = (Turn::Ask(id, rect, ink), Ticket { id, rect, ink, changes: sides.original.changes });
    let wrong = Ticket { changes: other(random, ticket.changes), ..ticket };
    match random.below(8) {
        0 => vec![ask, Turn::Call(*call)],
        1 | 2 => vec![ask, Turn::Place(ticket)],
        3 => vec![ask],
        4 => vec![Turn::Place(ticket)],
        5 => vec![Turn::Place(wrong), Turn::Call(*call)],
        _ => vec![Turn::Call(*call)],
    }
}

fn differ(list: &List, random: &mut Random, planted: Planted, counts: &mut Counts) -> Option<String> {
    let mut sides = Sides::new(list, planted);
    for call in &list.calls {
        for turn in turns(random, &sides, call) {
            if let Err(text) = sides.turn(turn, counts) {
                return Some(format!("{}\nafter {} changes: {text}", list.head(), sides.original.made()));
            }
        }
    }
    None
}

fn find(planted: Planted) -> bool {
    let mut random = Random(SEED);
    let found = (0..LISTS).any(|_| differ(&lists::counted(&mut random), &mut random, planted, &mut Counts::default()).is_some());
    if !found {
        println!("differential: {planted:?}, planted in a ticket or the count, was NOT FOUND");
    }
    found
}

// A short list with its asks and placings, and the count after each, as lines with the original's answers. A count near an end is 3 before it at most.
pub fn recorded(random: &mut Random) -> Result<String, String> {
    let mut list = lists::counted(random);
    list.calls.truncate(RECORDED);
    if list.changes != 0 {
        list.changes |= 0x3c;
    }
    let (mut sides, mut text) = (Sides::new(&list, Planted::Nothing), list.head() + "\n");
    for call in &list.calls {
        for turn in turns(random, &sides, call) {
            let answer = sides.turn(turn, &mut Counts::default())?;
            let words = match (turn, answer.result) {
                (Turn::Call(call), _) => crate::recorded(&call, &answer),
                (_, 0) => format!(" {} 0{}", answer.words[0], answer.row.iter().map(|word| format!(" {word}")).collect::<String>()),
                _ => String::new(),
            };
            let [low, high] = halves(sides.original.changes);
            text += &format!("{turn} = {}{words}\nchanges = {low} {high}\n", answer.result);
        }
    }
    Ok(text)
}

pub fn as_inserts() -> bool {
    let (mut random, mut counts) = (Random(SEED), Counts::default());
    for _ in 0..LISTS {
        let list = lists::counted(&mut random);
        if let Some(text) = differ(&list, &mut random, Planted::Nothing, &mut counts) {
            println!("differential: DIFFERENCE between a ticket or the count and the original's inserts: {text}");
            return false;
        }
    }
    let found = PLANTED.into_iter().filter(|planted| find(*planted)).count();
    println!("differential: {found} of {} faults planted in tickets and the count found", PLANTED.len());
    counts.print() && found == PLANTED.len()
}
