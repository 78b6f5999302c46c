//! The library's calls through the C interface, every lent result poisoned before the call: a refusal must
//! leave it so, but for the offset with number 7, and success must write all but the offset.

use crate::buffers::Buffers;
use crate::cameras::Batch;
use crate::tolerance::Two;
use crate::{same, Check};
use icemedian::raw::{self, Explained};
use icemedian::WalkEnd;
use sorting_filter::calls::Walked;
use sorting_filter::cameras::Cameras;
use sorting_filter::explain::Explanation;
use sorting_filter::frame::Asked;
use sorting_filter::refusal::Refusal;
use sorting_filter::store::BOX_CELLS;
use sorting_filter::tolerance::Tolerated;

/// Results before a call: numbers that no call gives.
const OFFSET: u64 = 0xA5A5_A5A5_A5A5_A5A5;
const SHIFTS: u64 = 0x5A5A_5A5A_5A5A_5A5A;
const BOTH_SHIFTS: (u64, u64) = (SHIFTS + 1, SHIFTS + 2);
const GRANTS: u64 = SHIFTS + 3;
const BALANCE: i64 = -0x5A5A_5A5A_5A5A_5A5A;
const LENGTH: usize = usize::MAX - 0x5A5A;

const EXPLAINED: Explained = Explained {
    pixels: LENGTH,
    total: BALANCE,
    level: 0xA5A5,
    below: BALANCE + 1,
    reached: BALANCE + 2,
    cause: 0x5A5A_5A5A,
};

fn end_before() -> WalkEnd {
    WalkEnd { shifts: SHIFTS, cut: 0xA5A5, balance_box: [0x5A5A; BOX_CELLS] }
}

/// Status and offset of a call.
#[derive(Clone, Copy, Debug, PartialEq, Eq)]
pub struct Status {
    pub status: u32,
    pub offset: u64,
}

impl Status {
    /// A call that is not refused.
    pub const ACCEPTED: Status = Status { status: 0, offset: OFFSET };

    /// What the sorting filter's result asks for.
    pub fn of<T>(result: &Result<T, Refusal>) -> Status {
        match result {
            Ok(_) => Status::ACCEPTED,
            Err(Refusal { number: 7, offset }) => Status { status: 7, offset: *offset as u64 },
            Err(refusal) => Status { status: refusal.number.into(), offset: OFFSET },
        }
    }
}

pub fn check(file: &[u8]) -> Status {
    let mut offset = OFFSET;
    let status = raw::check(file, &mut offset);
    Status { status, offset }
}

pub fn walk(file: &[u8], way: u32, start: (usize, usize), moves: &[u8], lent: &mut Buffers) -> (Status, WalkEnd) {
    let (mut end, mut offset) = (end_before(), OFFSET);
    let status = raw::walk(file, way, start, moves, lent.lend(), &mut end, &mut offset);
    (Status { status, offset }, end)
}

/// Compares a walk's results with the sorting filter's.
pub fn compare_walk(what: &str, library: (Status, WalkEnd), expected: &Result<Walked, Refusal>) -> Check {
    let end = expected.as_ref().map_or_else(
        |_| end_before(),
        |walked| WalkEnd { shifts: walked.shifts, cut: walked.cut, balance_box: walked.balance_box },
    );
    same(what, &library, &(Status::of(expected), end))
}

/// The filter: its status and its shift count.
pub fn filter(file: &[u8], way: u32, lent: &mut Buffers) -> (Status, u64) {
    let (mut shifts, mut offset) = (SHIFTS, OFFSET);
    let status = raw::filter(file, way, lent.lend(), &mut shifts, &mut offset);
    (Status { status, offset }, shifts)
}

/// Compares a filter's results with the sorting filter's.
pub fn compare_filter(what: &str, library: (Status, u64), expected: &Result<Walked, Refusal>) -> Check {
    let shifts = expected.as_ref().map_or(SHIFTS, |walked| walked.shifts);
    same(what, &library, &(Status::of(expected), shifts))
}

/// The filter with upper levels: its status, and the shift counts of the least and of the greatest.
pub fn tolerance(file: &[u8], upper: &[u16], lent: &mut Two) -> (Status, (u64, u64)) {
    let ((mut least, mut greatest), mut offset) = (BOTH_SHIFTS, OFFSET);
    let status = raw::tolerance(file, upper, lent.lend(), &mut least, &mut greatest, &mut offset);
    (Status { status, offset }, (least, greatest))
}

/// Compares both counts with the sorting filter's.
pub fn compare_tolerance(what: &str, library: (Status, (u64, u64)), expected: &Result<Tolerated, Refusal>) -> Check {
    let counts = |bounds: &Tolerated| (bounds.least_shifts, bounds.greatest_shifts);
    same(what, &library, &(Status::of(expected), expected.as_ref().map_or(BOTH_SHIFTS, counts)))
}

/// Several files: the status and the number of grants.
pub fn cameras(batch: &Batch, lent: &mut Buffers) -> (Status, u64) {
    let (mut grants, mut offset) = (GRANTS, OFFSET);
    let Batch { files, lengths, limits } = batch;
    let status = raw::cameras(files, lengths, limits, lent.lend_parts(), &mut grants, &mut offset);
    (Status { status, offset }, grants)
}

/// Compares the number of grants with the sorting filter's.
pub fn compare_cameras(what: &str, library: (Status, u64), expected: &Result<Cameras, Refusal>) -> Check {
    let grants = expected.as_ref().map_or(GRANTS, |cameras| cameras.served.len() as u64);
    same(what, &library, &(Status::of(expected), grants))
}

pub fn balance(file: &[u8], pixel: (usize, usize), level: u32) -> (Status, i64) {
    let (mut balance, mut offset) = (BALANCE, OFFSET);
    let status = raw::balance(file, pixel, level, &mut balance, &mut offset);
    (Status { status, offset }, balance)
}

/// Compares a balance call with the sorting filter's.
pub fn compare_balance(what: &str, library: (Status, i64), expected: &Result<i64, Refusal>) -> Check {
    same(what, &library, &(Status::of(expected), expected.unwrap_or(BALANCE)))
}

pub fn explain(file: &[u8], pixel: (usize, usize)) -> (Status, Explained) {
    let (mut explained, mut offset) = (EXPLAINED, OFFSET);
    let status = raw::explain(file, pixel, &mut explained, &mut offset);
    (Status { status, offset }, explained)
}

/// The sorting filter's explanation as the call gives it.
pub fn explained(why: &Explanation) -> Explained {
    let &Explanation { pixels, total, level, below, reached, cause } = why;
    Explained { pixels, total, level, below, reached, cause: cause.number() }
}

/// Compares an explanation with the sorting filter's.
pub fn compare_explain(what: &str, library: (Status, Explained), expected: &Result<Explanation, Refusal>) -> Check {
    same(what, &library, &(Status::of(expected), expected.as_ref().map_or(EXPLAINED, explained)))
}

/// The writer: its status and the file's length.
pub fn write(asked: &Asked, values: &[u16], guide: &[u16], table: &[u16], output: &mut [u8]) -> (Status, usize) {
    let (mut length, mut offset) = (LENGTH, OFFSET);
    let header = raw::Header {
        width: asked.width,
        height: asked.height,
        levels: asked.levels,
        guides: asked.guides,
        kind: asked.kind,
        radius: asked.radius,
        smoothing: asked.smoothing,
    };
    let status = raw::write(&header, values, guide, table, output, &mut length, &mut offset);
    (Status { status, offset }, length)
}

/// Compares a writer's results with the sorting filter's.
pub fn compare_write(what: &str, library: (Status, usize), expected: &Result<Vec<u8>, Refusal>) -> Check {
    same(what, &library, &(Status::of(expected), expected.as_ref().map_or(LENGTH, Vec::len)))
}

pub fn split(file: &[u8], output: &mut [u8]) -> Status {
    let mut offset = OFFSET;
    let status = raw::split(file, output, &mut offset);
    Status { status, offset }
}

/// Has no offset to write.
pub fn join(file: &[u8], output: &mut [u8]) -> Status {
    Status { status: raw::join(file, output), offset: OFFSET }
}
