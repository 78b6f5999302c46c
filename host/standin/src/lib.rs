//! The C interface of `include/icemedian.h` over the sorting filter. It tests the wrapper and the
//! tests themselves: with `STANDIN_FAULT` set to one of the names in [`fault`], [`coarse`], [`hollow`], [`dead`],
//! [`explain`], [`tolerance`], [`byte_planes`] and [`cameras`], it makes that mistake, and the tests must notice.

mod byte_planes;
mod cameras;
mod coarse;
mod dead;
mod explain;
mod fault;
mod hollow;
mod tolerance;

use fault::{makes, narrowed, set_on_refusal};
use hollow::Call;
use sorting_filter::calls::{self, Walked};
use sorting_filter::frame::{locate, open, Asked};
use sorting_filter::refusal::Refusal;
use sorting_filter::store::{ChainEntry, Lengths, Stores, BOX_CELLS};
use sorting_filter::{walk, writer};
use std::{ptr, slice};

/// The stores and the answer buffer that a call lends.
struct Lent<'a> {
    counts: &'a mut [u16],
    words: &'a mut [u64],
    numbers: &'a mut [u32],
    summary: &'a mut [i64],
    answers: &'a mut [u16],
}

impl Lent<'_> {
    fn lengths(&self) -> Lengths {
        Lengths {
            counts: self.counts.len(),
            words: self.words.len(),
            numbers: self.numbers.len(),
            summary: if makes("short_summary") { usize::MAX } else { self.summary.len() },
            answers: self.answers.len(),
        }
    }

    fn put(&mut self, walked: &Walked) {
        front(self.answers, &walked.answers);
        match &walked.stores {
            Stores::Joint { counts, words } => {
                front(self.counts, counts);
                front(self.words, words);
            }
            Stores::Columns { numbers } => front(self.numbers, numbers),
            Stores::Chain { entries } => front(self.numbers, &chain_numbers(entries)),
            Stores::Coarse { counts, words, summary } => {
                front(self.counts, counts);
                front(self.words, words);
                fault::put_summary(self.summary, summary);
            }
        }
        fault::in_stores(self, walked);
    }
}

/// Writes to a buffer's first places.
fn front<T: Copy>(buffer: &mut [T], content: &[T]) {
    buffer[..content.len()].copy_from_slice(content);
}

/// The chain as nodes, here in descending places, since places are free.
fn chain_numbers(entries: &[ChainEntry]) -> Vec<u32> {
    let node = |index: usize| (entries.len() - index) as u32;
    let mut numbers = vec![0; 1 + 4 * entries.len()];
    numbers[0] = if entries.is_empty() { 0 } else { node(0) };
    for (index, entry) in entries.iter().enumerate() {
        let next = if index + 1 < entries.len() { node(index + 1) } else { 0 };
        let place = 4 * node(index) as usize - 3;
        numbers[place..place + 4].copy_from_slice(&[entry.level, entry.count, entry.guide_sum, next]);
    }
    numbers
}

/// The offset of number 7, and the status of any refusal.
fn report<T>(result: Result<T, Refusal>, offset: &mut u64) -> Result<T, u32> {
    match &result {
        Err(Refusal { number: 7, offset: place }) => *offset = *place as u64 + if makes("offset") { 2 } else { 0 },
        Err(_) => set_on_refusal(offset, 0, "refusal_offset"),
        Ok(_) if makes("success_offset") => *offset = 0,
        Ok(_) => {}
    }
    result.map_err(|refusal| refusal.number.into())
}

/// Gives a result to the caller, unless the mistake `left` is asked for.
fn give<T>(result: &mut T, value: T, left: &str) {
    if !makes(left) {
        *result = value;
    }
}

/// A pointer may be NULL where its length is 0.
unsafe fn read<'a, T>(pointer: *const T, length: usize) -> &'a [T] {
    if length == 0 && !(makes("null_read") && pointer.is_null()) {
        return &[];
    }
    // As a library might that looks before it counts.
    ptr::read_volatile(pointer);
    slice::from_raw_parts(pointer, length)
}

unsafe fn lend<'a, T>(pointer: *mut T, length: usize) -> &'a mut [T] {
    if length == 0 && !(makes("null_lent") && pointer.is_null()) {
        return &mut [];
    }
    ptr::read_volatile(pointer);
    slice::from_raw_parts_mut(pointer, length)
}

/// The file as the mistakes read it.
fn as_read(file: &[u8]) -> Vec<u8> {
    fault::as_read(&dead::as_read(file))
}

/// Checks 1 to 7.
fn check(file: &[u8]) -> Result<(), Refusal> {
    if fault::refuses(file) {
        return Err(Refusal::of(6));
    }
    let (_, places) = locate(file)?;
    fault::limits(&open(file)?.table, places.table.unwrap_or(0), "limit_left")
}

/// # Safety
/// As the header says.
#[no_mangle]
pub unsafe extern "C" fn icemedian_check(file: *const u8, file_length: usize, offset: &mut u64) -> u32 {
    report(check(&dead::as_read(read(file, file_length))), offset).err().unwrap_or(0)
}

/// # Safety
/// As the header says.
#[no_mangle]
pub unsafe extern "C" fn icemedian_filter(
    file: *const u8,
    file_length: usize,
    way: u32,
    counts: *mut u16,
    counts_length: usize,
    words: *mut u64,
    words_length: usize,
    numbers: *mut u32,
    numbers_length: usize,
    summary: *mut i64,
    summary_length: usize,
    output: *mut u16,
    output_length: usize,
    shifts: &mut u64,
    offset: &mut u64,
) -> u32 {
    let mut lent = Lent {
        counts: lend(counts, counts_length),
        words: lend(words, words_length),
        numbers: lend(numbers, numbers_length),
        summary: lend(summary, summary_length),
        answers: lend(output, output_length),
    };
    let file = as_read(read(file, file_length));
    let way = fault::way(&file, narrowed(way, 8, "filter_way_cut"));
    let mut result = calls::filter(&file, way, &lent.lengths());
    if let Ok(walked) = &mut result {
        fault::in_plane(&file, &mut walked.answers);
        coarse::spoil(&file, walked, |frame| walk::filter(frame).1);
        hollow::spoil(&file, Call::Filter, walked, |frame| walk::filter(frame).1);
        dead::spoil(&file, Call::Filter, walked, |frame| walk::filter(frame).1);
    }
    finish(result, &mut lent, shifts, offset).err().unwrap_or(0)
}

/// # Safety
/// As the header says.
#[no_mangle]
pub unsafe extern "C" fn icemedian_tolerance(
    file: *const u8,
    file_length: usize,
    upper: *const u16,
    upper_length: usize,
    counts: *mut u16,
    counts_length: usize,
    words: *mut u64,
    words_length: usize,
    least: *mut u16,
    least_length: usize,
    greatest: *mut u16,
    greatest_length: usize,
    least_shifts: &mut u64,
    greatest_shifts: &mut u64,
    offset: &mut u64,
) -> u32 {
    let mut lent = tolerance::Lent {
        counts: lend(counts, counts_length),
        words: lend(words, words_length),
        least: lend(least, least_length),
        greatest: lend(greatest, greatest_length),
    };
    let (file, mut plane) = (as_read(read(file, file_length)), read(upper, upper_length).to_vec());
    if makes("tolerance_bytes_swapped") {
        plane.iter_mut().for_each(|level| *level = level.swap_bytes());
    }
    write_to_read(upper, upper_length, |level| !level, "tolerance_upper_written");
    match report(tolerance::tolerance(&file, &plane, &lent), offset) {
        Ok(bounds) => {
            lent.put(&bounds);
            give(least_shifts, bounds.least_shifts, "least_shifts_left");
            give(greatest_shifts, bounds.greatest_shifts, "greatest_shifts_left");
            0
        }
        Err(status) => {
            lent.on_refusal(status, &file);
            set_on_refusal(least_shifts, 0, "refusal_least_shifts");
            set_on_refusal(greatest_shifts, 0, "refusal_greatest_shifts");
            status
        }
    }
}

/// # Safety
/// As the header says.
#[no_mangle]
pub unsafe extern "C" fn icemedian_cameras(
    files: *const u8,
    files_length: usize,
    lengths: *const usize,
    file_count: usize,
    limits: *const u32,
    period_count: usize,
    counts: *mut u16,
    counts_length: usize,
    words: *mut u64,
    words_length: usize,
    answers: *mut u16,
    answers_length: usize,
    grants: &mut u64,
    offset: &mut u64,
) -> u32 {
    let mut lent = cameras::Lent {
        counts: lend(counts, counts_length),
        words: lend(words, words_length),
        answers: lend(answers, answers_length),
    };
    let (file_bytes, file_lengths) = (read(files, files_length).to_vec(), read(lengths, file_count).to_vec());
    let period_limits = read(limits, period_count).to_vec();
    let batch = cameras::Batch { files: &file_bytes, lengths: &file_lengths, limits: &period_limits };
    write_to_read(files, files_length, |byte| !byte, "cameras_files_written");
    write_to_read(lengths, file_count, |length| !length, "cameras_lengths_written");
    write_to_read(limits, period_count, |limit| !limit, "cameras_limits_written");
    match report(cameras::make(&batch, &mut lent), offset) {
        Ok(number) => {
            give(grants, number, "cameras_grants_left");
            0
        }
        Err(status) => {
            set_on_refusal(grants, 0, "refusal_grants");
            status
        }
    }
}

/// Changes the first of what is only lent to be read, by the mistake of that name.
unsafe fn write_to_read<T: Copy>(pointer: *const T, length: usize, change: impl Fn(T) -> T, name: &str) {
    if makes(name) && length > 0 {
        ptr::write_volatile(pointer.cast_mut(), change(*pointer));
    }
}

/// # Safety
/// As the header says.
#[no_mangle]
pub unsafe extern "C" fn icemedian_walk(
    file: *const u8,
    file_length: usize,
    way: u32,
    column: usize,
    row: usize,
    moves: *const u8,
    moves_length: usize,
    counts: *mut u16,
    counts_length: usize,
    words: *mut u64,
    words_length: usize,
    numbers: *mut u32,
    numbers_length: usize,
    summary: *mut i64,
    summary_length: usize,
    answers: *mut u16,
    answers_length: usize,
    shifts: &mut u64,
    cut: &mut u16,
    balance_box: &mut [i16; BOX_CELLS],
    offset: &mut u64,
) -> u32 {
    let mut lent = Lent {
        counts: lend(counts, counts_length),
        words: lend(words, words_length),
        numbers: lend(numbers, numbers_length),
        summary: lend(summary, summary_length),
        answers: lend(answers, answers_length),
    };
    let (file, moves) = (as_read(read(file, file_length)), read(moves, moves_length));
    let way = fault::way(&file, narrowed(way, 8, "walk_way_cut"));
    let mut result = calls::walk(&file, way, (column, row), moves, &lent.lengths());
    if let Ok(walked) = &mut result {
        coarse::spoil(&file, walked, |frame| walk::walk(frame, column, row, moves));
        hollow::spoil(&file, Call::Walk, walked, |frame| walk::walk(frame, column, row, moves));
        dead::spoil(&file, Call::Walk, walked, |frame| walk::walk(frame, column, row, moves));
    }
    match finish(result, &mut lent, shifts, offset) {
        Ok(mut walked) => {
            fault::in_results(&mut walked);
            give(cut, walked.cut, "cut_left");
            give(balance_box, walked.balance_box, "box_left");
            0
        }
        Err(status) => {
            set_on_refusal(cut, 0, "refusal_cut");
            set_on_refusal(balance_box, [0; BOX_CELLS], "refusal_box");
            status
        }
    }
}

/// Fills the buffers and the shift count of a call that walks.
fn finish(result: Result<Walked, Refusal>, lent: &mut Lent, shifts: &mut u64, offset: &mut u64) -> Result<Walked, u32> {
    let result = report(result, offset);
    match &result {
        Ok(walked) => {
            lent.put(walked);
            let more = u64::from(makes("shifts") && walked.shifts > 0);
            give(shifts, walked.shifts + more, "shifts_left");
        }
        Err(_) => {
            fault::on_refusal(lent);
            set_on_refusal(shifts, 0, "refusal_shifts");
        }
    }
    result
}

/// # Safety
/// As the header says.
#[no_mangle]
pub unsafe extern "C" fn icemedian_balance(
    file: *const u8,
    file_length: usize,
    column: usize,
    row: usize,
    level: u32,
    balance: &mut i64,
    offset: &mut u64,
) -> u32 {
    let level = narrowed(level, 16, "level_cut");
    let file = as_read(read(file, file_length));
    match report(calls::balance(&file, (column, row), level), offset) {
        Ok(mut value) => {
            fault::in_balance(&file, (column, row), level, &mut value);
            hollow::in_balance(&file, (column, row), level, &mut value);
            dead::in_balance(&file, (column, row), level, &mut value);
            give(balance, if makes("balance") { -value } else { value }, "balance_left");
            0
        }
        Err(status) => {
            set_on_refusal(balance, 0, "refusal_balance");
            status
        }
    }
}

/// # Safety
/// As the header says.
#[no_mangle]
pub unsafe extern "C" fn icemedian_explain(
    file: *const u8,
    file_length: usize,
    column: usize,
    row: usize,
    pixels: &mut usize,
    total: &mut i64,
    level: &mut u16,
    below: &mut i64,
    reached: &mut i64,
    cause: &mut u32,
    offset: &mut u64,
) -> u32 {
    let file = as_read(read(file, file_length));
    match report(explain::explain(&file, (column, row)), offset) {
        Ok(why) => {
            give(pixels, why.pixels, "pixels_left");
            give(total, why.total, "total_left");
            give(level, why.level, "level_left");
            give(below, why.below, "below_left");
            give(reached, why.reached, "reached_left");
            // A number that no cause has.
            let past = if makes("cause_past") { 5 } else { 0 };
            give(cause, why.cause.number() + past, "cause_left");
            0
        }
        Err(status) => {
            set_on_refusal(pixels, 0, "refusal_pixels");
            set_on_refusal(total, 0, "refusal_total");
            set_on_refusal(level, 0, "refusal_level");
            set_on_refusal(below, 0, "refusal_below");
            set_on_refusal(reached, 0, "refusal_reached");
            set_on_refusal(cause, 0, "refusal_cause");
            status
        }
    }
}

/// # Safety
/// As the header says.
#[no_mangle]
pub unsafe extern "C" fn icemedian_write(
    width: u32,
    height: u32,
    levels: u32,
    guides: u32,
    kind: u32,
    radius: u32,
    smoothing: u32,
    values: *const u16,
    values_length: usize,
    guide: *const u16,
    guide_length: usize,
    table: *const u16,
    table_length: usize,
    output: *mut u8,
    output_length: usize,
    length: &mut usize,
    offset: &mut u64,
) -> u32 {
    let asked = Asked {
        width: narrowed(width, 16, "width_cut"),
        height: narrowed(height, 16, "height_cut"),
        levels: narrowed(levels, 16, "levels_cut"),
        guides: narrowed(guides, 16, "guides_cut"),
        kind: narrowed(kind, 8, "kind_cut"),
        radius: narrowed(radius, 8, "radius_cut"),
        smoothing: narrowed(smoothing, 16, "smoothing_cut"),
    };
    let (values, guide) = (read(values, values_length), read(guide, guide_length));
    let (table, output) = (read(table, table_length), lend(output, output_length));
    let cut = |&weight: &u16| narrowed(weight.into(), 15, "written_weight_cut") as u16;
    let table: Vec<u16> = table.iter().map(cut).collect();
    let (values, guide) = dead::as_written(values, guide);
    let limits = |file| fault::limits(&table, 4 * values.len(), "written_limit_left").map(|()| file);
    match report(writer::write(&asked, &values, &guide, &table, output.len()).and_then(limits), offset) {
        Ok(file) => {
            front(output, &file);
            fault::in_file(output, file.len());
            give(length, file.len(), "length_left");
            0
        }
        Err(status) => {
            output.first_mut().into_iter().for_each(|byte| set_on_refusal(byte, !*byte, "refusal_output"));
            set_on_refusal(length, 0, "refusal_length");
            status
        }
    }
}

/// # Safety
/// As the header says.
#[no_mangle]
pub unsafe extern "C" fn icemedian_split(
    file: *const u8,
    file_length: usize,
    output: *mut u8,
    output_length: usize,
    offset: &mut u64,
) -> u32 {
    let (bytes, output) = (read(file, file_length), lend(output, output_length));
    let result = byte_planes::make(byte_planes::Call::Split, bytes, output);
    byte_planes::set_offset(bytes, result, offset);
    if byte_planes::writes_file(byte_planes::Call::Split) && file_length > 0 {
        ptr::write_volatile(file.cast_mut(), !*file);
    }
    result.map_or_else(|refusal| refusal.number.into(), |()| 0)
}

/// # Safety
/// As the header says.
#[no_mangle]
pub unsafe extern "C" fn icemedian_join(
    file: *const u8,
    file_length: usize,
    output: *mut u8,
    output_length: usize,
) -> u32 {
    let (bytes, output) = (read(file, file_length), lend(output, output_length));
    let result = byte_planes::make(byte_planes::Call::Join, bytes, output);
    if byte_planes::writes_file(byte_planes::Call::Join) && file_length > 0 {
        ptr::write_volatile(file.cast_mut(), !*file);
    }
    result.map_or_else(|refusal| refusal.number.into(), |()| 0)
}
