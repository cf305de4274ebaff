// Batches against single calls: the same changes one at a time on one tree, and in batches of any size on another.
use crate::calls::{Answer, Call, List, UNWRITTEN};
use crate::faults::Fault;
use crate::krakvinge::{Record, Rows};
use crate::lists;
use crate::port::{count, set_count, Port};
use crate::random::Random;

const LISTS: u32 = 4_000;
const SEED: u64 = 31;
const REFUSED: u32 = 4294967040;

// Faults to plant in a batch.
#[derive(Clone, Copy, PartialEq, Debug)]
enum Planted {
    Nothing,
    StopsAtRefusal,
    RefusalOffByOne,
    OtherKindAccepted,
    NothingStored,
    AnswersReversed,
    MarkLeft,
    InkAlwaysTested,
    InkLost,
    CountLost,
    EveryRecordCounted,
}

const PLANTED: [Planted; 10] = {
    use Planted::*;
    [StopsAtRefusal, RefusalOffByOne, OtherKindAccepted, NothingStored, AnswersReversed, MarkLeft, InkAlwaysTested, InkLost, CountLost, EveryRecordCounted]
};

impl Planted {
    fn spoil(self, records: &[Record], answers: &mut [u32], before: &Rows, rows: &mut Rows) {
        let refused = answers.iter().position(|word| *word > REFUSED);
        let inked = (0..rows.dots.len() / 3).find(|p| rows.dots[3 * p + 2] != 0);
        let bad_ink = records.iter().position(|record| record.kind != 0 && record.ink > 15);
        match (self, refused) {
            (Planted::StopsAtRefusal, Some(at)) => answers[at + 1..].fill(UNWRITTEN),
            (Planted::RefusalOffByOne, Some(at)) => answers[at] += 1,
            (Planted::OtherKindAccepted, Some(at)) if answers[at] == REFUSED + 9 => answers[at] = 0,
            (Planted::NothingStored, _) => *rows = before.clone(),
            (Planted::AnswersReversed, _) => answers.reverse(),
            (Planted::MarkLeft, _) if !rows.marks.is_empty() => rows.marks[0] = 1,
            (Planted::InkAlwaysTested, _) => bad_ink.into_iter().for_each(|at| answers[at] = REFUSED + 10),
            (Planted::CountLost, _) => set_count(rows, count(before)),
            (Planted::EveryRecordCounted, _) => set_count(rows, count(before).wrapping_add(records.len() as u64)),
            (Planted::InkLost, _) => inked.into_iter().for_each(|p| rows.dots[3 * p + 2] = 0),
            _ => {}
        }
    }
}

// How the records ended: accepted with 0, with more, refused by number.
#[derive(Default)]
struct Counts {
    batches: u64,
    records: u64,
    zero: u64,
    more: u64,
    refused: [u64; 17],
    // Records that are no insert, with an ink above 15.
    other_inks: u64,
}

impl Counts {
    fn tell(&mut self, records: &[Record], words: &[u32]) {
        self.batches += 1;
        self.records += words.len() as u64;
        self.other_inks += records.iter().filter(|record| record.kind != 0 && record.ink > 15).count() as u64;
        for word in words {
            match word.checked_sub(REFUSED) {
                Some(number) => self.refused[number as usize] += 1,
                None if *word == 0 => self.zero += 1,
                None => self.more += 1,
            }
        }
    }

    fn print(&self) -> bool {
        let of = |number: usize| self.refused[number];
        println!(
            "differential: {} records in {} batches as the single calls (floors 200000 and 15000): {} answered 0 (100000), {} splits or yes (20000), refused 4 {} (2000), 5 {} (5000), 6 {} (10000), 7 {} (2000), 9 {} (5000), 10 {} (5000), 16 {} (5000); no inserts with an ink above 15 {} (50000)",
            self.records, self.batches, self.zero, self.more, of(4), of(5), of(6), of(7), of(9), of(10), of(16), self.other_inks
        );
        self.records >= 200_000 && self.batches >= 15_000 && self.zero >= 100_000 && self.more >= 20_000
            && of(4) >= 2_000 && of(5) >= 5_000 && of(6) >= 10_000 && of(7) >= 2_000 && of(9) >= 5_000
            && of(10) >= 5_000 && of(16) >= 5_000 && self.other_inks >= 50_000
    }
}

// A record that is no insert may have any ink.
fn record(call: &Call, random: &mut Random) -> Option<Record> {
    let ink = if random.one_in(2) { random.below(32) as u32 } else { random.next() as u32 };
    match *call {
        Call::Insert(id, rect, ink) => Some(Record::insert(id, rect, ink)),
        Call::Remove(id, rect) => Some(Record { ink, ..Record::remove(id, rect) }),
        Call::Cleanup => Some(Record { ink, ..Record::cleanup() }),
        _ => None,
    }
}

// A record's word, by the single call's answer.
fn word(answer: &Answer) -> u32 {
    if answer.result == 0 { answer.words[0] } else { REFUSED + answer.result as u32 }
}

// The list's changes on both trees; records of another kind are strewn in.
fn differ(list: &List, random: &mut Random, planted: Planted, counts: &mut Counts) -> Option<String> {
    let (mut single, mut rows) = (Port::new(list, Fault::None), Port::new(list, Fault::None).rows);
    let (mut records, mut wanted, mut room) = (vec![], vec![], 0);
    for (at, call) in list.calls.iter().enumerate() {
        if let Some(record) = record(call, random) {
            wanted.push(word(&single.answer(call)));
            records.push(record);
        }
        if random.one_in(12) {
            wanted.push(REFUSED + 9);
            let (kind, ink) = (random.pick(&[3, 4, 9, u32::MAX]), random.below(32) as u32);
            records.push(Record { kind, ink, ..Record::remove(at as u32, [1, 1, 2, 2]) });
        }
        if records.len() >= room || at + 1 == list.calls.len() {
            let (before, mut answers) = (rows.clone(), vec![UNWRITTEN; records.len()]);
            let result = rows.batch(Record::words(&records), &mut answers);
            planted.spoil(&records, &mut answers, &before, &mut rows);
            if result != 0 || answers != wanted || rows != single.rows {
                return Some(format!("{}: after call {at}: {result}, {records:?}: {answers:?}, wanted {wanted:?}; rows the same: {}", list.head(), rows == single.rows));
            }
            counts.tell(&records, &wanted);
            (records, wanted, room) = (vec![], vec![], random.below(30) as usize);
        }
    }
    None
}

fn find(planted: Planted) -> bool {
    let mut random = Random(SEED);
    let found = (0..LISTS).any(|_| differ(&lists::counted(&mut random), &mut random, planted, &mut Counts::default()).is_some());
    if !found {
        println!("differential: {planted:?}, planted in a batch, was NOT FOUND");
    }
    found
}

pub fn as_single_calls() -> bool {
    let (mut random, mut counts) = (Random(SEED), Counts::default());
    for _ in 0..LISTS {
        let list = lists::counted(&mut random);
        if let Some(text) = differ(&list, &mut random, Planted::Nothing, &mut counts) {
            println!("differential: DIFFERENCE between a batch and single calls: {text}");
            return false;
        }
    }
    let found = PLANTED.into_iter().filter(|planted| find(*planted)).count();
    println!("differential: {found} of {} faults planted in a batch found", PLANTED.len());
    counts.print() && found == PLANTED.len()
}
