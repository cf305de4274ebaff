// The port's answers, through the host's interface. A fault can be planted between the library and the comparison.
use crate::calls::{halves, Answer, Call, List, UNWRITTEN};
use crate::faults::Fault;
use crate::krakvinge::Rows;

// The count of changes in the state row.
pub fn count(rows: &Rows) -> u64 {
    (rows.state[11] as u64) << 32 | rows.state[10] as u64
}

pub fn set_count(rows: &mut Rows, changes: u64) {
    rows.state[10..].copy_from_slice(&halves(changes));
}

pub struct Port {
    pub rows: Rows,
    fault: Fault,
    calls: u32,
}

impl Port {
    pub fn new(list: &List, fault: Fault) -> Port {
        let mut rows = Rows::new(&list.settings, list.groups, list.places);
        set_count(&mut rows, u64::MAX);
        let result = rows.make();
        assert!(result == 0 && count(&rows) == 0, "make refuses {result}, or leaves a count: {}", list.head());
        set_count(&mut rows, list.changes);
        Port { rows, fault, calls: 0 }
    }

    // Marks may hold anything before a call.
    pub fn soil(&mut self) {
        self.calls += 1;
        let seed = self.calls;
        if seed % 3 == 0 {
            self.rows.marks.iter_mut().enumerate().for_each(|(i, m)| *m = (seed as usize * 31 + i * 7) as u8);
        }
    }

    fn asked(&mut self, call: &Call) -> Answer {
        let mut words = [UNWRITTEN; 2];
        let mut ids = vec![UNWRITTEN; call.room()];
        let mut numbers = vec![UNWRITTEN as i32; call.room()];
        let rows = &mut self.rows;
        let result = match *call {
            Call::Insert(id, rect, ink) => rows.insert(id, rect, ink, &mut words),
            Call::Remove(id, rect) => rows.remove(id, rect, &mut words),
            Call::Cleanup => rows.cleanup(&mut words),
            Call::Query(rect, inks, _) => rows.query(rect, inks, &mut ids, &mut words),
            Call::Leaves(_) => rows.leaves(&mut numbers, &mut words),
            Call::All(_) => rows.all(&mut ids, &mut words),
            Call::References => rows.references(&mut words),
            Call::CollectIds(_) => rows.collect_ids(&mut ids, &mut words),
        };
        let row = match call {
            Call::Leaves(_) => numbers.into_iter().map(i64::from).collect(),
            _ => ids.into_iter().map(i64::from).collect(),
        };
        Answer { result, words, row }
    }

    pub fn answer(&mut self, call: &Call) -> Answer {
        self.soil();
        if self.fault == Fault::None {
            return self.asked(call);
        }
        let before = self.rows.clone();
        let mut answer = self.asked(&self.fault.spoil_call(call, &before));
        self.fault.spoil(call, &before, &mut answer, &mut self.rows);
        answer
    }
}
