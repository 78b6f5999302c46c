//! The C interface of `include/icemedian.h` over slices: numbers in, a status out. The crate's other
//! calls give these numbers types; tests use them to hand over numbers that no type allows.

use crate::WalkEnd;

mod c {
    extern "C" {
        pub fn icemedian_check(file: *const u8, file_length: usize, offset: *mut u64) -> u32;

        pub fn icemedian_filter(
            file: *const u8,
            file_length: usize,
            way: u32,
            counts: *mut u16,
            counts_length: usize,
            words: *mut u64,
            words_length: usize,
            numbers: *mut u32,
            numbers_length: usize,
            summary: *mut i64,
            summary_length: usize,
            output: *mut u16,
            output_length: usize,
            shifts: *mut u64,
            offset: *mut u64,
        ) -> u32;

        pub fn icemedian_tolerance(
            file: *const u8,
            file_length: usize,
            upper: *const u16,
            upper_length: usize,
            counts: *mut u16,
            counts_length: usize,
            words: *mut u64,
            words_length: usize,
            least: *mut u16,
            least_length: usize,
            greatest: *mut u16,
            greatest_length: usize,
            least_shifts: *mut u64,
            greatest_shifts: *mut u64,
            offset: *mut u64,
        ) -> u32;

        pub fn icemedian_cameras(
            files: *const u8,
            files_length: usize,
            lengths: *const usize,
            file_count: usize,
            limits: *const u32,
            period_count: usize,
            counts: *mut u16,
            counts_length: usize,
            words: *mut u64,
            words_length: usize,
            answers: *mut u16,
            answers_length: usize,
            grants: *mut u64,
            offset: *mut u64,
        ) -> u32;

        pub fn icemedian_walk(
            file: *const u8,
            file_length: usize,
            way: u32,
            column: usize,
            row: usize,
            moves: *const u8,
            moves_length: usize,
            counts: *mut u16,
            counts_length: usize,
            words: *mut u64,
            words_length: usize,
            numbers: *mut u32,
            numbers_length: usize,
            summary: *mut i64,
            summary_length: usize,
            answers: *mut u16,
            answers_length: usize,
            shifts: *mut u64,
            cut: *mut u16,
            balance_box: *mut [i16; 256],
            offset: *mut u64,
        ) -> u32;

        pub fn icemedian_balance(
            file: *const u8,
            file_length: usize,
            column: usize,
            row: usize,
            level: u32,
            balance: *mut i64,
            offset: *mut u64,
        ) -> u32;

        pub fn icemedian_explain(
            file: *const u8,
            file_length: usize,
            column: usize,
            row: usize,
            pixels: *mut usize,
            total: *mut i64,
            level: *mut u16,
            below: *mut i64,
            reached: *mut i64,
            cause: *mut u32,
            offset: *mut u64,
        ) -> u32;

        pub fn icemedian_write(
            width: u32,
            height: u32,
            levels: u32,
            guides: u32,
            kind: u32,
            radius: u32,
            smoothing: u32,
            values: *const u16,
            values_length: usize,
            guide: *const u16,
            guide_length: usize,
            table: *const u16,
            table_length: usize,
            output: *mut u8,
            output_length: usize,
            length: *mut usize,
            offset: *mut u64,
        ) -> u32;

        pub fn icemedian_split(
            file: *const u8,
            file_length: usize,
            output: *mut u8,
            output_length: usize,
            offset: *mut u64,
        ) -> u32;

        pub fn icemedian_join(file: *const u8, file_length: usize, output: *mut u8, output_length: usize) -> u32;
    }
}

/// The stores of a call and its answer buffer or output plane.
#[derive(Debug)]
pub struct Lent<'a> {
    pub counts: &'a mut [u16],
    pub words: &'a mut [u64],
    pub numbers: &'a mut [u32],
    pub summary: &'a mut [i64],
    pub answers: &'a mut [u16],
}

/// Way 1's stores and the two output planes of `icemedian_tolerance`.
#[derive(Debug)]
pub struct LentTwo<'a> {
    pub counts: &'a mut [u16],
    pub words: &'a mut [u64],
    pub least: &'a mut [u16],
    pub greatest: &'a mut [u16],
}

/// Way 1's stores and the answers of `icemedian_cameras`, which the parts of its files share.
#[derive(Debug)]
pub struct LentParts<'a> {
    pub counts: &'a mut [u16],
    pub words: &'a mut [u64],
    pub answers: &'a mut [u16],
}

/// The results of `icemedian_explain`, the cause by its number.
#[derive(Clone, Copy, Debug, Default, PartialEq, Eq)]
pub struct Explained {
    pub pixels: usize,
    pub total: i64,
    pub level: u16,
    pub below: i64,
    pub reached: i64,
    pub cause: u32,
}

/// The settings of a frame to write: wider than the trailer's numbers, since the library checks them.
#[derive(Clone, Copy, Debug)]
pub struct Header {
    pub width: u32,
    pub height: u32,
    pub levels: u32,
    pub guides: u32,
    pub kind: u32,
    pub radius: u32,
    pub smoothing: u32,
}

/// `icemedian_check`.
pub fn check(file: &[u8], offset: &mut u64) -> u32 {
    // SAFETY: pointer and length are the slice's; `offset` is lent for the call.
    unsafe { c::icemedian_check(file.as_ptr(), file.len(), offset) }
}

/// `icemedian_filter`.
pub fn filter(file: &[u8], way: u32, lent: Lent, shifts: &mut u64, offset: &mut u64) -> u32 {
    // SAFETY: each pointer and length belong to one slice; a mutable slice overlaps no other.
    unsafe {
        c::icemedian_filter(
            file.as_ptr(),
            file.len(),
            way,
            lent.counts.as_mut_ptr(),
            lent.counts.len(),
            lent.words.as_mut_ptr(),
            lent.words.len(),
            lent.numbers.as_mut_ptr(),
            lent.numbers.len(),
            lent.summary.as_mut_ptr(),
            lent.summary.len(),
            lent.answers.as_mut_ptr(),
            lent.answers.len(),
            shifts,
            offset,
        )
    }
}

/// `icemedian_tolerance`.
pub fn tolerance(
    file: &[u8],
    upper: &[u16],
    lent: LentTwo,
    least_shifts: &mut u64,
    greatest_shifts: &mut u64,
    offset: &mut u64,
) -> u32 {
    // SAFETY: each pointer and length belong to one slice; a mutable slice overlaps no other.
    unsafe {
        c::icemedian_tolerance(
            file.as_ptr(),
            file.len(),
            upper.as_ptr(),
            upper.len(),
            lent.counts.as_mut_ptr(),
            lent.counts.len(),
            lent.words.as_mut_ptr(),
            lent.words.len(),
            lent.least.as_mut_ptr(),
            lent.least.len(),
            lent.greatest.as_mut_ptr(),
            lent.greatest.len(),
            least_shifts,
            greatest_shifts,
            offset,
        )
    }
}

/// `icemedian_cameras`.
pub fn cameras(
    files: &[u8],
    lengths: &[usize],
    limits: &[u32],
    lent: LentParts,
    grants: &mut u64,
    offset: &mut u64,
) -> u32 {
    // SAFETY: each pointer and length belong to one slice; a mutable slice overlaps no other.
    unsafe {
        c::icemedian_cameras(
            files.as_ptr(),
            files.len(),
            lengths.as_ptr(),
            lengths.len(),
            limits.as_ptr(),
            limits.len(),
            lent.counts.as_mut_ptr(),
            lent.counts.len(),
            lent.words.as_mut_ptr(),
            lent.words.len(),
            lent.answers.as_mut_ptr(),
            lent.answers.len(),
            grants,
            offset,
        )
    }
}

/// `icemedian_walk`.
pub fn walk(
    file: &[u8],
    way: u32,
    (column, row): (usize, usize),
    moves: &[u8],
    lent: Lent,
    end: &mut WalkEnd,
    offset: &mut u64,
) -> u32 {
    // SAFETY: each pointer and length belong to one slice; a mutable slice overlaps no other.
    unsafe {
        c::icemedian_walk(
            file.as_ptr(),
            file.len(),
            way,
            column,
            row,
            moves.as_ptr(),
            moves.len(),
            lent.counts.as_mut_ptr(),
            lent.counts.len(),
            lent.words.as_mut_ptr(),
            lent.words.len(),
            lent.numbers.as_mut_ptr(),
            lent.numbers.len(),
            lent.summary.as_mut_ptr(),
            lent.summary.len(),
            lent.answers.as_mut_ptr(),
            lent.answers.len(),
            &mut end.shifts,
            &mut end.cut,
            &mut end.balance_box,
            offset,
        )
    }
}

/// `icemedian_balance`.
pub fn balance(file: &[u8], (column, row): (usize, usize), level: u32, balance: &mut i64, offset: &mut u64) -> u32 {
    // SAFETY: pointer and length are the slice's; the results are lent for the call.
    unsafe { c::icemedian_balance(file.as_ptr(), file.len(), column, row, level, balance, offset) }
}

/// `icemedian_explain`.
pub fn explain(file: &[u8], (column, row): (usize, usize), explained: &mut Explained, offset: &mut u64) -> u32 {
    // SAFETY: pointer and length are the slice's; the results are lent for the call.
    unsafe {
        c::icemedian_explain(
            file.as_ptr(),
            file.len(),
            column,
            row,
            &mut explained.pixels,
            &mut explained.total,
            &mut explained.level,
            &mut explained.below,
            &mut explained.reached,
            &mut explained.cause,
            offset,
        )
    }
}

/// `icemedian_write`.
pub fn write(
    header: &Header,
    values: &[u16],
    guide: &[u16],
    table: &[u16],
    output: &mut [u8],
    length: &mut usize,
    offset: &mut u64,
) -> u32 {
    // SAFETY: each pointer and length belong to one slice; the output overlaps no other.
    unsafe {
        c::icemedian_write(
            header.width,
            header.height,
            header.levels,
            header.guides,
            header.kind,
            header.radius,
            header.smoothing,
            values.as_ptr(),
            values.len(),
            guide.as_ptr(),
            guide.len(),
            table.as_ptr(),
            table.len(),
            output.as_mut_ptr(),
            output.len(),
            length,
            offset,
        )
    }
}

/// `icemedian_split`.
pub fn split(file: &[u8], output: &mut [u8], offset: &mut u64) -> u32 {
    // SAFETY: each pointer and length belong to one slice; the output overlaps no other.
    unsafe { c::icemedian_split(file.as_ptr(), file.len(), output.as_mut_ptr(), output.len(), offset) }
}

/// `icemedian_join`.
pub fn join(file: &[u8], output: &mut [u8]) -> u32 {
    // SAFETY: each pointer and length belong to one slice; the output overlaps no other.
    unsafe { c::icemedian_join(file.as_ptr(), file.len(), output.as_mut_ptr(), output.len()) }
}
