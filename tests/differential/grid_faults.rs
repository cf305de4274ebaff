// Faults to plant in a grid report.
use crate::calls::{halves, Answer, Rect};
use crate::damaged::free;
use crate::grids::{corner_fits, Asked};
use crate::krakvinge::{Grid, Rows, ALL_INKS};

#[derive(Clone, Copy, PartialEq, Debug)]
pub enum Planted {
    Nothing,
    ColumnsAndRowsSwapped,
    EdgeDotOnce,
    FreePlacesCounted,
    TotalOfDots,
    TailWritten,
    CornerTestedFirst,
}

pub const PLANTED: [Planted; 6] = {
    use Planted::*;
    [ColumnsAndRowsSwapped, EdgeDotOnce, FreePlacesCounted, TotalOfDots, TailWritten, CornerTestedFirst]
};

impl Planted {
    // Of what the library is asked.
    pub fn spoil_asked(self, asked: &Asked) -> Asked {
        let Grid { columns, rows, .. } = asked.grid;
        match self {
            Planted::ColumnsAndRowsSwapped => Asked { grid: Grid { columns: rows, rows: columns, ..asked.grid }, room: asked.room },
            _ => Asked { ..*asked },
        }
    }

    // Of an answer.
    pub fn spoil(self, asked: &Asked, rows: &Rows, answer: &mut Answer) {
        let accepted = answer.result == 0;
        match self {
            Planted::EdgeDotOnce if accepted => {
                let dots = live(rows);
                change(asked, answer, |at, window| -(dots.iter().filter(|dot| is_next(asked, at, window, dot)).count() as i64));
            }
            Planted::FreePlacesCounted if accepted => {
                let free = free(rows).len() as i64;
                change(asked, answer, |_, window| if touches(window, &[0; 4]) { free } else { 0 });
            }
            Planted::TotalOfDots if accepted => {
                let mut ids = vec![0; rows.state[9] as usize];
                rows.clone().query(asked.whole(), ALL_INKS, &mut ids, &mut answer.words);
                answer.words[1] = 0;
            }
            Planted::TailWritten if accepted && answer.row.len() > asked.windows().len() => answer.row[asked.windows().len()] = 0,
            Planted::CornerTestedFirst if answer.result == 11 && !corner_fits(&asked.grid) => answer.result = 12,
            _ => {}
        }
    }
}

// Each count by so much more, and the total.
fn change(asked: &Asked, answer: &mut Answer, more: impl Fn(usize, &Rect) -> i64) {
    let windows = asked.windows();
    for (at, window) in windows.iter().enumerate() {
        answer.row[at] += more(at, window);
    }
    answer.words = halves(answer.row[..windows.len()].iter().sum::<i64>() as u64);
}

// The dots' rectangles.
fn live(rows: &Rows) -> Vec<Rect> {
    let free = free(rows);
    let rect = |p: usize| [0, 1, 2, 3].map(|i| rows.rects[4 * p + i]);
    (0..rows.rects.len() / 4).filter(|p| !free.contains(p)).map(rect).collect()
}

fn touches(window: &Rect, dot: &Rect) -> bool {
    dot[0] <= window[2] && window[0] <= dot[2] && dot[1] <= window[3] && window[1] <= dot[3]
}

// Whether a point or a line touches the window, and the next window on the right or below begins where it does.
fn is_next(asked: &Asked, at: usize, window: &Rect, dot: &Rect) -> bool {
    let Grid { columns, rows, .. } = asked.grid;
    let (row, column) = (at as i32 / columns, at as i32 % columns);
    let is_flat = dot[0] == dot[2] || dot[1] == dot[3];
    is_flat && touches(window, dot) && ((dot[0] == window[2] && column + 1 < columns) || (dot[1] == window[3] && row + 1 < rows))
}
