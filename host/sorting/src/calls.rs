//! The calls on a frame: each makes checks 1 to 7 on the bytes it is handed, then its own.

use crate::explain::Explanation;
use crate::frame::{open, Frame};
use crate::refusal::{check, Refusal};
use crate::store::{balance_box, stores, Lengths, Stores, Way, BOX_CELLS};
use crate::walk::{self, Walk};
use crate::window::Window;

/// The longest list of moves.
pub const MOVES_MOST: usize = 1_048_576;

/// What a call that walks leaves.
#[derive(Clone, Debug, PartialEq, Eq)]
pub struct Walked {
    /// The walk's answers, or the filter's output plane.
    pub answers: Vec<u16>,
    pub shifts: u64,
    pub cut: u16,
    /// The balance box of way 1; zeros for the other ways.
    pub balance_box: [i16; BOX_CELLS],
    pub stores: Stores,
    /// Whether each window on the way was hollow, in turn, and whether it was empty; no call gives this away.
    pub hollow: Vec<bool>,
    pub empty: Vec<bool>,
    /// The pixels of these windows.
    pub visited: Vec<(usize, usize)>,
}

impl Walked {
    /// What a walk leaves by a way, its answers as the call hands them out.
    pub fn of(frame: &Frame, way: Way, walk: &Walk, answers: Vec<u16>) -> Walked {
        let balance_box = match way {
            Way::Joint => balance_box(frame, walk),
            Way::Columns | Way::Chain | Way::Coarse => [0; BOX_CELLS],
        };
        let stores = stores(frame, way, walk);
        let Walk { cut, hollow, empty, visited, .. } = walk.clone();
        Walked { answers, shifts: walk.shifts_by(way), cut, balance_box, stores, hollow, empty, visited }
    }
}

/// Checks 1 to 8.
fn open_for(file: &[u8], way: u32) -> Result<(Frame, Way), Refusal> {
    let frame = open(file)?;
    let way = Way::serving(way, frame.settings.kind).ok_or(Refusal::of(8))?;
    Ok((frame, way))
}

/// Check 11 for a call that walks and gives `answers` answers.
fn check_lengths(frame: &Frame, way: Way, answers: usize, lent: &Lengths) -> Result<(), Refusal> {
    let needed = Lengths { answers, ..Lengths::of_stores(way, &frame.settings) };
    check(11, !lent.suffice(&needed))
}

/// A walk with buffers of the lengths `lent`: checks 1 to 11.
pub fn walk(
    file: &[u8],
    way: u32,
    (column, row): (usize, usize),
    moves: &[u8],
    lent: &Lengths,
) -> Result<Walked, Refusal> {
    let (frame, way) = open_for(file, way)?;
    check(9, !frame.has(column, row))?;
    check(10, moves.len() > MOVES_MOST)?;
    check_lengths(&frame, way, 1 + moves.len(), lent)?;
    let walk = walk::walk(&frame, column, row, moves);
    let answers = walk.answers.clone();
    Ok(Walked::of(&frame, way, &walk, answers))
}

/// The filter with buffers of the lengths `lent`: checks 1 to 8 and 11.
pub fn filter(file: &[u8], way: u32, lent: &Lengths) -> Result<Walked, Refusal> {
    let (frame, way) = open_for(file, way)?;
    check_lengths(&frame, way, frame.settings.pixels(), lent)?;
    let (plane, walk) = walk::filter(&frame);
    Ok(Walked::of(&frame, way, &walk, plane))
}

/// The balance at a level of the window at a pixel: checks 1 to 7 and 9.
pub fn balance(file: &[u8], (column, row): (usize, usize), level: u32) -> Result<i64, Refusal> {
    let frame = open(file)?;
    check(9, !frame.has(column, row) || level >= u32::from(frame.settings.levels))?;
    Ok(Window::at(&frame, column, row).balance(level as u16))
}

/// Why the window at a pixel has its level: checks 1 to 7 and 9.
pub fn explain(file: &[u8], (column, row): (usize, usize)) -> Result<Explanation, Refusal> {
    let frame = open(file)?;
    check(9, !frame.has(column, row))?;
    Ok(Explanation::of(&Window::at(&frame, column, row)))
}
