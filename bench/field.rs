// Halftone fields, and the orders in which their dots are inserted.
use crate::krakvinge::{Record, Settings};
use crate::random::Random;

// Square dots of the size `dot`: in a row they lie `step` apart, the rows `rise`; every other row is shifted. `pitch` is a cell's side.
pub struct Screen {
    pub name: &'static str,
    pub pitch: i32,
    dot: i32,
    step: i32,
    rise: i32,
    shift: i32,
}

pub const UPRIGHT: Screen = Screen { name: "upright", pitch: 10, dot: 6, step: 10, rise: 10, shift: 0 };
// At 45 degrees; 14 / √2 is about 10.
pub const DIAGONAL: Screen = Screen { name: "diagonal", pitch: 10, dot: 6, step: 14, rise: 7, shift: 7 };
// Every second cell of a checkerboard, full.
pub const TINT: Screen = Screen { name: "dense tint", pitch: 1, dot: 1, step: 2, rise: 1, shift: 1 };

// A square film and its dots, each as the record of its insert, by rows; the inks in turn.
pub struct Field {
    side: i32,
    dots: Vec<Record>,
}

impl Screen {
    // The smallest film that so many dots fit on.
    pub fn field(&self, count: usize) -> Field {
        let rows = |columns: i32| columns * self.step / self.rise;
        let columns = (1..).find(|&c| (c * rows(c)) as usize >= count).expect("a film");
        let places = (0..rows(columns)).flat_map(|j| (0..columns).map(move |i| (self.step * i + j % 2 * self.shift, self.rise * j)));
        let dots = places.zip(0..count as u32).map(|((x, y), id)| Record::insert(id, [x, y, x + self.dot, y + self.dot], id % 16)).collect();
        Field { side: columns * self.step, dots }
    }
}

#[derive(Clone, Copy, Debug)]
pub enum Order {
    Rows,
    Random,
    Diagonals,
}

pub const ORDERS: [Order; 3] = [Order::Rows, Order::Random, Order::Diagonals];

impl Field {
    pub fn ordered(&self, order: Order) -> Vec<Record> {
        let mut dots = self.dots.clone();
        match order {
            Order::Rows => {}
            Order::Random => {
                let mut random = Random(7);
                (1..dots.len()).rev().for_each(|i| dots.swap(i, random.below(i as u64 + 1) as usize));
            }
            Order::Diagonals => dots.sort_by_key(|dot| (dot.rect[0] + dot.rect[1], dot.rect[0])),
        }
        dots
    }

    pub fn settings(&self, leaf_limit: u32, smallest_cell: u32) -> Settings {
        Settings { left: 0, top: 0, width: self.side, height: self.side, depth_limit: 255, leaf_limit, smallest_cell }
    }
}
