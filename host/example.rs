// A worked example for a Rust host: a film of 16 by 16, three dots of two inks, a window, a grid of windows, a tint patch, a ticket, and what
// is refused.
#[path = "rust/krakvinge.rs"]
#[allow(dead_code)]
mod krakvinge;

use krakvinge::{Grid, Patch, Record, Refused, Settings, Tree, ALL_INKS};

fn grid(film: &mut Tree) -> Result<(), Refused> {
    let (windows, mut counts) = (Grid { x: 0, y: 0, width: 8, height: 8, columns: 2, rows: 2 }, [0; 4]);
    let total = film.grid(&windows, &mut counts)?;
    println!("grid: counts {counts:?}, total {total}");
    if let Err(refused) = film.grid(&Grid { columns: 65, rows: 1, ..windows }, &mut counts) {
        println!("grid: {refused}");
    }
    Ok(())
}

// Asks, places by the ticket, and once more, when the tree has changed.
fn ticket(film: &mut Tree) -> Result<(), Refused> {
    let (splits, given) = film.ask(7, [3, 3, 3, 3], 3)?;
    println!("ask 7: {splits} splits, after {} changes", given.changes);
    for _ in 0..2 {
        match film.place(&given) {
            Ok(splits) => println!("place 7: {splits} splits"),
            Err(refused) => println!("place 7: {refused}"),
        }
    }
    println!("changes: {}", film.changes());
    Ok(())
}

fn run() -> Result<(), Refused> {
    let settings = Settings { left: 0, top: 0, width: 16, height: 16, depth_limit: 2, leaf_limit: 2, smallest_cell: 1 };
    let mut film = Tree::new(&settings, 4, 8)?;
    for (id, rect, ink) in [(1, [1, 1, 2, 2], 0), (2, [9, 1, 10, 2], 0), (3, [7, 7, 9, 9], 3)] {
        println!("insert {id}: {} splits", film.insert(id, rect, ink)?);
    }
    for (rect, ink) in [([16, 16, 18, 18], 3), ([1, 1, 2, 2], 16)] {
        if let Err(refused) = film.insert(4, rect, ink) {
            println!("insert 4: {refused}");
        }
    }
    let mut ids = [0; 8];
    for inks in [ALL_INKS, 1 << 3] {
        let listed = film.query([0, 0, 8, 8], inks, &mut ids)?;
        println!("query: ids {:?}, {} nodes opened", &ids[..listed.hits], listed.opened);
    }
    if let Err(refused) = film.query([0, 0, 8, 8], ALL_INKS, &mut ids[..1]) {
        println!("query: {refused}");
    }
    grid(&mut film)?;
    let mut row = [0; 24];
    let leaves = film.leaves(&mut row)?;
    println!("leaves: {leaves}, the first {:?}", &row[..6]);
    // a dot that begins on the right edge
    println!("insert 8: {} splits", film.insert(8, [16, 1, 17, 2], 0)?);
    let collected = film.collect_ids(&mut ids)?;
    println!("collect_ids: {} ids, {} nodes opened", collected.hits, collected.opened);
    println!("all: {} ids", film.all(&mut ids)?);
    println!("remove 8: {}", film.remove(8, [16, 1, 17, 2])?);
    println!("remove 3: {}", film.remove(3, [7, 7, 9, 9])?);
    println!("cleanup: {}", film.cleanup()?);
    println!("references: {}", film.references()?);
    println!("live: {}", film.live());
    let records = [Record::insert(5, [3, 3, 4, 4], 3), Record::insert(6, [-1, -1, 0, 0], 3), Record::remove(5, [3, 3, 4, 4]), Record::cleanup()];
    let mut answers = [0; 4];
    film.batch(&records, &mut answers)?;
    for (i, word) in answers.into_iter().enumerate() {
        match Record::refusal(word) {
            Some(number) => println!("record {i}: refused {number}"),
            None => println!("record {i}: {word}"),
        }
    }
    for tint in [4, 200, 257] {
        match film.patch(&Patch { x: 0, y: 0, columns: 1, rows: 1, tint, first_id: 10 }) {
            Ok(dots) => println!("patch of tint {tint}: {dots} dots"),
            Err(refused) => println!("patch of tint {tint}: {refused}"),
        }
    }
    ticket(&mut film)
}

fn main() {
    if let Err(refused) = run() {
        println!("{refused}");
        std::process::exit(1);
    }
}
