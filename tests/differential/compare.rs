// A list on both sides: every answer after every call, and the tree now and then. A list that differs is made smaller.
use crate::calls::{halves, Answer, Call, List, Rect};
use crate::faults::Fault;
use crate::krakvinge::Rows;
use crate::original::{Original, BRANCH, NONE};
use crate::port::Port;

// What differs, and after how many calls.
pub struct Difference {
    pub at: usize,
    pub text: String,
}

// Every reachable node's words and every leaf's chain of ids, rectangles and inks. Group numbers agree; place numbers may not.
fn trees_differ(original: &Original, rows: &Rows) -> Option<String> {
    let mut waiting = vec![0];
    let mut left = rows.nodes.len() / 2;
    while let Some(node) = waiting.pop() {
        if left == 0 || 2 * node as usize + 1 >= rows.nodes.len() {
            return Some(format!("node {node} is out of reach"));
        }
        left -= 1;
        let theirs = original.tree.words(node);
        let ours = [rows.nodes[2 * node as usize], rows.nodes[2 * node as usize + 1]];
        let same = theirs[1] == ours[1] && (theirs == ours || (theirs[1] != BRANCH && theirs[1] > 0));
        if !same {
            return Some(format!("node {node}: the original holds {theirs:?}, the port {ours:?}"));
        }
        if theirs[1] == BRANCH {
            waiting.extend((0..5).map(|i| theirs[0] + i));
            continue;
        }
        let (chain, mine) = (original.chain(node), chain(rows, ours[0]));
        if chain != mine {
            return Some(format!("the chain at node {node}: the original holds {chain:?}, the port {mine:?}"));
        }
    }
    None
}

fn chain(rows: &Rows, head: u32) -> Vec<(u32, Rect, u32)> {
    let (mut at, mut chain) = (head, vec![]);
    while at != NONE && chain.len() <= rows.dots.len() {
        let p = at as usize;
        let (dot, r) = (&rows.dots[3 * p..3 * p + 3], &rows.rects[4 * p..4 * p + 4]);
        chain.push((dot[0], [r[0], r[1], r[2], r[3]], dot[2]));
        at = dot[1];
    }
    chain
}

// The free groups in their order: the original's, then those that it has not made yet.
fn free_groups_differ(original: &Original, rows: &Rows) -> Option<String> {
    let mut theirs = original.tree.free_groups();
    theirs.extend((original.tree.node_number()..rows.nodes.len() / 2).step_by(5).map(|g| g as u32));
    let (mut at, mut ours) = (rows.state[7], vec![]);
    while at != NONE && ours.len() <= theirs.len() {
        ours.push(at);
        at = rows.nodes[2 * at as usize];
    }
    (theirs != ours).then(|| format!("free groups: the original's are {theirs:?}, the port's {ours:?}"))
}

// The free places: as many as the live dots leave, and nothing in them.
fn free_places_differ(original: &Original, rows: &Rows) -> Option<String> {
    let places = rows.rects.len() / 4;
    let (mut at, mut left) = (rows.state[8], places - original.live());
    while (at as usize) < places && left > 0 {
        let p = at as usize;
        let (dot, rect) = (&rows.dots[3 * p..3 * p + 3], &rows.rects[4 * p..4 * p + 4]);
        if dot[0] != 0 || dot[2] != 0 || *rect != [0; 4] {
            return Some(format!("the free place {at} holds {dot:?} and {rect:?}"));
        }
        at = dot[1];
        left -= 1;
    }
    (at != NONE || left > 0).then(|| format!("the free places end at {at}, {left} early"))
}

// The state's words but the free place, and the marks.
fn state_differs(list: &List, original: &Original, rows: &Rows) -> Option<String> {
    let fresh = Rows::new(&list.settings, 0, 0).state;
    let (free, live, count) = (original.free_group(), original.live() as u32, original.changes);
    if rows.state[..7] != fresh[..7] || rows.state[7] != free || rows.state[9] != live || rows.state[10..] != halves(count) {
        return Some(format!("the state is {:?}, wanted free group {free}, live {live}, changes {count}", rows.state));
    }
    rows.marks.iter().any(|m| *m != 0).then(|| "a mark is left".to_string())
}

// All that the memory holds.
pub fn memory_differs(list: &List, original: &Original, rows: &Rows) -> Option<String> {
    let text = state_differs(list, original, rows).or_else(|| trees_differ(original, rows));
    text.or_else(|| free_groups_differ(original, rows)).or_else(|| free_places_differ(original, rows))
}

// Both sides through a list. `tell` hears each call with its answer and how many dots a query's mask, or a collect_ids, left out.
pub fn differ(list: &List, fault: Fault, every: usize, mut tell: impl FnMut(&Call, &Answer, usize)) -> Option<Difference> {
    let (mut original, mut port) = (Original::new(list), Port::new(list, fault));
    for (at, call) in list.calls.iter().enumerate() {
        let (theirs, ours) = (original.answer(call), port.answer(call));
        tell(call, &theirs, original.hidden());
        let whole = at % every == 0 || at + 1 == list.calls.len();
        let mut text = (theirs != ours).then(|| format!("the original: {theirs:?}, the port: {ours:?}"));
        text = text.or_else(|| state_differs(list, &original, &port.rows));
        if whole && text.is_none() {
            let mut rows = port.rows.clone();
            fault.spoil_rows(&mut rows);
            text = memory_differs(list, &original, &rows);
        }
        if let Some(text) = text {
            return Some(Difference { at, text });
        }
    }
    None
}

// Calls are taken out, many at once at first, while the list still differs.
pub fn shrink(list: &List, fault: Fault) -> (List, Difference) {
    let mut small = list.clone();
    let mut last = differ(&small, fault, 1, |_, _, _| {}).expect("the list differs");
    small.calls.truncate(last.at + 1);
    let mut size = small.calls.len() / 2;
    while size > 0 {
        let mut from = 0;
        while from < small.calls.len() {
            let mut fewer = small.clone();
            fewer.calls.drain(from..(from + size).min(small.calls.len()));
            match differ(&fewer, fault, 1, |_, _, _| {}) {
                Some(difference) => {
                    fewer.calls.truncate(difference.at + 1);
                    (small, last) = (fewer, difference);
                }
                None => from += size,
            }
        }
        size /= 2;
    }
    (small, last)
}

// A list that differs, as small as it gets.
pub fn show(list: &List, fault: Fault) -> String {
    let (small, difference) = shrink(list, fault);
    let calls: Vec<String> = small.calls.iter().map(Call::to_string).collect();
    format!("{}\n{}\n{}", small.head(), calls.join("\n"), difference.text)
}
