//! The walk over moves, and the serpentine of the filter.

use crate::frame::Frame;
use crate::store::{Way, BLOCK_LEVELS};
use crate::window::Window;

/// The answer to a move that would leave the picture.
pub const OFF_PICTURE: u16 = 65_534;
/// The answer to a byte that is no move.
pub const UNKNOWN_MOVE: u16 = 65_533;
/// Move bytes.
pub const RIGHT: u8 = 0;
pub const LEFT: u8 = 1;
pub const DOWN: u8 = 2;
pub const UP: u8 = 3;

/// A walk, reckoned from frame, start and list alone.
#[derive(Clone, Debug, PartialEq, Eq)]
pub struct Walk {
    /// One answer for the start and one for each move byte: a level, no reading, or a mark.
    pub answers: Vec<u16>,
    /// Sum of the level distances over all windows: the count of ways 1 to 3.
    pub shifts: u64,
    /// Way 4's own count.
    pub coarse_shifts: u64,
    /// The cut point after the last window.
    pub cut: u16,
    /// The pixels whose windows answered, in turn; at the last one the walk stands.
    pub visited: Vec<(usize, usize)>,
    /// Whether the window at each of them is hollow.
    pub hollow: Vec<bool>,
    /// Whether it has no reading.
    pub empty: Vec<bool>,
}

/// Whether an answer is the mark of a byte that moves nothing.
pub fn is_mark(answer: u16) -> bool {
    answer == OFF_PICTURE || answer == UNKNOWN_MOVE
}

impl Walk {
    /// Stands at the start: cut and shift count are 0, and the start window adds first.
    fn start(frame: &Frame, column: usize, row: usize) -> Walk {
        let (answers, visited, hollow, empty) = (Vec::new(), Vec::new(), Vec::new(), Vec::new());
        let mut walk = Walk { answers, shifts: 0, coarse_shifts: 0, cut: 0, visited, hollow, empty };
        walk.arrive(frame, column, row);
        walk
    }

    /// The last pixel.
    pub fn last(&self) -> (usize, usize) {
        self.visited[self.visited.len() - 1]
    }

    /// The shift count of a way.
    pub fn shifts_by(&self, way: Way) -> u64 {
        match way {
            Way::Joint | Way::Columns | Way::Chain => self.shifts,
            Way::Coarse => self.coarse_shifts,
        }
    }

    /// Answers for the window at a pixel and lets it add to both counts; an empty one adds nothing and keeps the cut.
    fn arrive(&mut self, frame: &Frame, column: usize, row: usize) {
        let window = Window::at(frame, column, row);
        let answer = window.answer();
        self.answers.push(answer);
        self.visited.push((column, row));
        self.hollow.push(window.hollow());
        self.empty.push(window.empty());
        if window.empty() {
            return;
        }
        let from = if window.steady() { self.cut } else { 0 };
        self.shifts += u64::from(answer.abs_diff(from));
        let by_blocks = answer / BLOCK_LEVELS + answer % BLOCK_LEVELS;
        self.coarse_shifts += u64::from(if window.steady() { by_blocks } else { answer });
        self.cut = answer;
    }

    /// Takes one move byte.
    fn step(&mut self, frame: &Frame, byte: u8) {
        match target(self.last(), byte) {
            Target::Unknown => self.answers.push(UNKNOWN_MOVE),
            Target::Pixel(Some(column), Some(row)) if frame.has(column, row) => self.arrive(frame, column, row),
            Target::Pixel(..) => self.answers.push(OFF_PICTURE),
        }
    }
}

/// Where a byte leads; `None` is before the first column or row.
enum Target {
    Pixel(Option<usize>, Option<usize>),
    Unknown,
}

fn target((column, row): (usize, usize), byte: u8) -> Target {
    match byte {
        RIGHT => Target::Pixel(Some(column + 1), Some(row)),
        LEFT => Target::Pixel(column.checked_sub(1), Some(row)),
        DOWN => Target::Pixel(Some(column), Some(row + 1)),
        UP => Target::Pixel(Some(column), row.checked_sub(1)),
        _ => Target::Unknown,
    }
}

/// Walks from a pixel of the picture along the whole list.
pub fn walk(frame: &Frame, column: usize, row: usize, moves: &[u8]) -> Walk {
    let mut walk = Walk::start(frame, column, row);
    for &byte in moves {
        walk.step(frame, byte);
    }
    walk
}

/// The filter's moves: row 0 rightward, down, row 1 leftward, and so on.
pub fn serpentine(width: u16, height: u16) -> Vec<u8> {
    let mut moves = Vec::new();
    for row in 0..height {
        if row > 0 {
            moves.push(DOWN);
        }
        let sideways = if row % 2 == 0 { RIGHT } else { LEFT };
        moves.extend((1..width).map(|_| sideways));
    }
    moves
}

/// The filtered plane, row by row, and the serpentine walk it came from.
pub fn filter(frame: &Frame) -> (Vec<u16>, Walk) {
    let (width, height) = (frame.settings.width, frame.settings.height);
    let walk = walk(frame, 0, 0, &serpentine(width, height));
    (plane(frame, &walk), walk)
}

/// The answers of the serpentine, row by row.
pub fn plane(frame: &Frame, walk: &Walk) -> Vec<u16> {
    turned(&walk.answers, frame.settings.width)
}

/// Every other row of a plane turned round: from the serpentine's order to row by row, and back.
pub fn turned(plane: &[u16], width: u16) -> Vec<u16> {
    let mut plane = plane.to_vec();
    for (row, line) in plane.chunks_mut(usize::from(width)).enumerate() {
        if row % 2 == 1 {
            line.reverse();
        }
    }
    plane
}
