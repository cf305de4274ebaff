// Holds the port against the original on lists of calls, through the host's interface.
//     differential [CALLS [SEED]]     random and adversarial lists; prints the figures, and fails below their floors
//     differential --faults           plants faults, and fails where one is not found
//     differential --record           writes a fixed list with the original's answers
//     differential --differences      where the two differ on purpose (docs/DIFFERENCES.md)
//     differential --batches          batches against single calls
//     differential --grids            grid reports against the original's queries
//     differential --patches          patches against the original's inserts
//     differential --tickets          asks, placings and the count of changes against the original's inserts
//     differential --damaged          rows of wrong lengths, settings out of range and damaged trees, which every call turns down
mod batches;
mod calls;
mod compare;
mod counts;
mod damaged;
mod differences;
mod faults;
mod geometry;
mod grid_faults;
mod grids;
mod ink_faults;
mod inked;
#[path = "../../host/rust/krakvinge.rs"]
#[allow(dead_code)]
mod krakvinge;
mod lists;
mod original;
mod patch_faults;
mod patches;
mod port;
#[path = "../random.rs"]
mod random;
mod ticket_counts;
mod ticket_faults;
mod tickets;

include!(concat!(env!("ORIGINAL"), "/modules.rs"));

use calls::{Answer, Call, List};
use counts::Counts;
use faults::{Fault, FAULTS};
use random::Random;

const CALLS: u64 = 3_000_000;
const SEED: u64 = 20_000;
const LONG_EVERY: u64 = 500_000;
const FAULT_LISTS: u32 = 3_000;

fn compare_lists(calls: u64, seed: u64) -> bool {
    let (mut random, mut counts, mut lists, mut long) = (Random(seed), Counts::default(), 0u64, 0u64);
    while counts.calls < calls {
        let list = if counts.calls >= long * LONG_EVERY { lists::long(&mut random) } else { lists::short(&mut random) };
        let is_long = list.places > 1000;
        long += is_long as u64;
        lists += 1;
        let mut live = 0;
        let difference = compare::differ(&list, Fault::None, if is_long { 400 } else { 8 }, |call, answer, hidden| {
            counts.tell(call, answer, hidden);
            live += (call.kind() == 0 && answer.result == 0) as u64;
            live -= (call.kind() == 1 && answer.words[0] == 1) as u64;
            counts.tell_live(live);
        });
        if difference.is_some() {
            println!("differential: DIFFERENCE, list {lists} of seed {seed}, made smaller:\n{}", compare::show(&list, Fault::None));
            return false;
        }
    }
    println!("differential: {} calls in {lists} lists, {long} of them with thousands of dots, no difference from the original (seed {seed})", counts.calls);
    counts.print()
}

// Lists until one differs.
fn find(fault: Fault) -> Option<(u32, List)> {
    let mut random = Random(SEED);
    (1..=FAULT_LISTS).map(|n| (n, lists::short(&mut random))).find(|(_, list)| compare::differ(list, fault, 8, |_, _, _| {}).is_some())
}

fn find_faults() -> bool {
    let mut found = 0;
    for fault in FAULTS {
        match find(fault) {
            Some((lists, list)) => {
                let (small, _) = compare::shrink(&list, fault);
                println!("  {fault:?}: found by list {lists}, made smaller to {} calls", small.calls.len());
                found += 1;
            }
            None => println!("  {fault:?}: NOT FOUND in {FAULT_LISTS} lists"),
        }
    }
    println!("differential: {found} of {} planted faults found", FAULTS.len());
    found == FAULTS.len()
}

// The words of an accepted answer, and those that it listed.
pub fn recorded(call: &Call, answer: &Answer) -> String {
    if answer.result != 0 {
        return String::new();
    }
    let [first, second] = answer.words;
    let listed = if matches!(call, Call::Leaves(_)) { 6 * first as usize } else { (first as usize).min(answer.row.len()) };
    let row: String = answer.row[..listed].iter().map(|w| format!(" {w}")).collect();
    format!(" {first} {second}{row}")
}

// Short lists in turn until the text is long enough; after each grids, patches, and a list with tickets.
fn record() -> bool {
    let (mut random, mut chance, mut tints, mut asks) = (Random(7), Random(64), Random(256), Random(15));
    let mut size = 0;
    while size < 300_000 {
        let mut list = lists::short(&mut random);
        list.calls.truncate(150);
        let mut text = list.head() + "\n";
        let difference = compare::differ(&list, Fault::None, 150, |call, answer, _| {
            text += &format!("{call} = {}{}\n", answer.result, recorded(call, answer));
        });
        if difference.is_some() {
            println!("{}", compare::show(&list, Fault::None));
            return false;
        }
        size += text.len();
        print!("{text}");
        for recorded in [grids::recorded(&list, &mut chance), patches::recorded(&list, &mut tints), tickets::recorded(&mut asks)] {
            match recorded {
                Ok(text) => print!("{text}"),
                Err(text) => {
                    println!("{}\n{text}", list.head());
                    return false;
                }
            }
        }
    }
    true
}

fn main() {
    let args: Vec<String> = std::env::args().skip(1).collect();
    let number = |i: usize, default: u64| args.get(i).map_or(default, |a| a.parse().expect("a number"));
    let passed = match args.first().map(String::as_str) {
        Some("--faults") => find_faults(),
        Some("--record") => record(),
        Some("--batches") => batches::as_single_calls(),
        Some("--grids") => grids::as_queries(),
        Some("--patches") => patches::as_inserts(),
        Some("--tickets") => tickets::as_inserts(),
        Some("--damaged") => damaged::turned_down(),
        Some("--differences") => differences::as_documented(),
        _ => compare_lists(number(0, CALLS), number(1, SEED)),
    };
    if !passed {
        std::process::exit(1);
    }
}
