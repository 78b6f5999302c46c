//! Mistakes of a call over several files: in its checks and their order, in whose turn it is, in where the parts lie and
//! in what they hold.

use crate::fault::{makes, spoil, CHOSEN};
use sorting_filter::cameras::{room_for, room_of, Camera, Cameras, FILES_MOST, LIMIT_MOST};
use sorting_filter::frame::{locate, open, Frame, NO_READING};
use sorting_filter::refusal::{check, Refusal};
use sorting_filter::store::{stores, Lengths, Stores, Way};
use sorting_filter::walk;
use sorting_filter::window::Window;

/// What the call is handed.
pub struct Batch<'a> {
    pub files: &'a [u8],
    pub lengths: &'a [usize],
    pub limits: &'a [u32],
}

/// The stores and the answers that the call lends.
pub struct Lent<'a> {
    pub counts: &'a mut [u16],
    pub words: &'a mut [u64],
    pub answers: &'a mut [u16],
}

/// The call with the mistake, if one of these is asked for: how many grants it says.
pub fn make(batch: &Batch, lent: &mut Lent) -> Result<u64, Refusal> {
    let frames = batch.checked(lent).inspect_err(|refusal| lent.on_refusal(batch, refusal.number))?;
    let pixels: Vec<usize> = frames.iter().map(pixels_taken).collect();
    let served = served(&pixels, batch.limits);
    let grants = grants_said(&served, &pixels, batch.limits);
    let mut cameras = Cameras::served(as_filtered(frames), served.into_iter().filter_map(|turn| turn.pixel).collect());
    cameras.cameras.iter_mut().for_each(spoil_camera);
    lent.put(&cameras.cameras);
    Ok(grants)
}

impl Batch<'_> {
    /// The files, each as long as it says or as long as there are bytes.
    fn files(&self) -> Vec<&[u8]> {
        let mut rest = self.files;
        let mut cut = |&length: &usize| {
            let (file, behind) = rest.split_at(length.min(rest.len()));
            rest = behind;
            file
        };
        let count = if makes("cameras_files_cut") { self.lengths.len() & 0xFF } else { self.lengths.len() };
        self.lengths[..count].iter().map(&mut cut).collect()
    }

    /// All checks, in the order that the mistake has.
    fn checked(&self, lent: &Lent) -> Result<Vec<Frame>, Refusal> {
        // Where check 15 looks at the files and lengths, and at the limits: before the files' checks, after them or last.
        let (files_at, limits_at) = match CHOSEN.as_str() {
            "cameras_batch_after_files" => (1, 1),
            "cameras_limits_after_files" => (0, 1),
            "cameras_batch_last" => (2, 2),
            "cameras_limits_last" => (0, 2),
            _ => (0, 0),
        };
        let check_15 = |place: u8| {
            let files = files_at == place && (self.too_many() || self.wrong_lengths());
            self.check_15(files || limits_at == place && self.wrong_limits())
        };
        check_15(0)?;
        self.room_before_files(lent)?;
        let frames = self.opened()?;
        check_15(1)?;
        check(11, short(&frames, self, lent))?;
        check_15(2)?;
        Ok(frames)
    }

    fn check_15(&self, fires: bool) -> Result<(), Refusal> {
        match CHOSEN.as_str() {
            "cameras_number_of_program" => check(12, fires),
            "cameras_number_of_overlap" => check(14, fires),
            "cameras_number_of_file" => check(1, fires),
            "cameras_as_contents" if fires => Err(Refusal::contents(0)),
            _ => check(15, fires),
        }
    }

    fn too_many(&self) -> bool {
        let count = self.lengths.len();
        match CHOSEN.as_str() {
            "cameras_nine_files" => count > FILES_MOST + 1,
            "cameras_files_unchecked" => false,
            "cameras_eight_refused" => count >= FILES_MOST,
            "cameras_none_refused" => count == 0 || count > FILES_MOST,
            "cameras_files_cut" => count & 0xFF > FILES_MOST,
            "cameras_files_counted_by_length" => self.lengths.iter().filter(|&&length| length > 0).count() > FILES_MOST,
            _ => count > FILES_MOST,
        }
    }

    fn wrong_lengths(&self) -> bool {
        let (lengths, bytes) = (self.lengths, self.files.len());
        let wrapped = lengths.iter().fold(0, |sum: usize, &length| sum.wrapping_add(length));
        let sum: u128 = lengths.iter().map(|&length| length as u128).sum();
        match CHOSEN.as_str() {
            "cameras_lengths_unchecked" => false,
            "cameras_sum_wraps" => wrapped != bytes,
            "cameras_sum_cut" => wrapped as u32 != bytes as u32,
            "cameras_sum_cut_short" => wrapped as u16 != bytes as u16,
            "cameras_longer_buffer" => sum > bytes as u128,
            "cameras_shorter_buffer" => sum < bytes as u128,
            "cameras_last_length_unused" => {
                let last = lengths.last().map_or(0, |&last| last as u128);
                lengths.is_empty() && bytes > 0 || sum - last > bytes as u128
            }
            "cameras_no_files_any_bytes" => !lengths.is_empty() && sum != bytes as u128,
            "cameras_zero_length_refused" => lengths.contains(&0) || sum != bytes as u128,
            _ => sum != bytes as u128,
        }
    }

    fn wrong_limits(&self) -> bool {
        let limits = self.limits;
        let above = |limit: &u32| *limit > LIMIT_MOST;
        match CHOSEN.as_str() {
            "cameras_limit_passes" => limits.iter().any(|&limit| limit > LIMIT_MOST + 1),
            "cameras_limit_refused" => limits.iter().any(|&limit| limit >= LIMIT_MOST),
            "cameras_limits_unchecked" => false,
            "cameras_first_limit_alone" => limits.first().is_some_and(above),
            "cameras_last_limit_alone" => limits.last().is_some_and(above),
            "cameras_last_limit_unchecked" => limits.split_last().is_some_and(|(_, others)| others.iter().any(above)),
            "cameras_limit_cut" => limits.iter().any(|&limit| u32::from(limit as u16) > LIMIT_MOST),
            "cameras_limit_signed" => limits.iter().any(|&limit| limit as i32 > LIMIT_MOST as i32),
            "cameras_limits_summed" => limits.iter().map(|&limit| u64::from(limit)).sum::<u64>() > LIMIT_MOST.into(),
            "cameras_zero_refused" => limits.iter().any(|limit| above(limit) || *limit == 0),
            "cameras_no_period_refused" => limits.is_empty() || limits.iter().any(above),
            "cameras_limits_of_no_file_pass" => !self.lengths.is_empty() && limits.iter().any(above),
            _ => limits.iter().any(above),
        }
    }

    /// Checks 1 to 7 of all files.
    fn opened(&self) -> Result<Vec<Frame>, Refusal> {
        let files = self.files();
        let results: Vec<Result<Frame, Refusal>> = files.iter().map(|file| open(file)).collect();
        let first = results.iter().position(Result::is_err);
        let number = |file: &usize| results[*file].as_ref().map_or_else(|refusal| refusal.number, |_| u8::MAX);
        let firing = match CHOSEN.as_str() {
            // The first check that fires for any file.
            "cameras_check_by_check" => (0..files.len()).min_by_key(number).filter(|file| results[*file].is_err()),
            "cameras_last_file_first" => results.iter().rposition(Result::is_err),
            "cameras_contents_after_all" => first.map(|first| {
                let early = (0..files.len()).find(|file| number(file) < 7);
                early.unwrap_or(first)
            }),
            "cameras_others_unchecked" => first.filter(|&file| file == 0),
            "cameras_last_unchecked" => first.filter(|&file| file + 1 < files.len()),
            "cameras_eighth_unchecked" => first.filter(|&file| file != 7),
            "cameras_empty_file_passes" => {
                (0..files.len()).find(|&file| !files[file].is_empty() && results[file].is_err())
            }
            _ => first,
        };
        match firing {
            Some(file) => Err(results[file].clone().map_err(|refusal| self.placed(file, refusal)).unwrap_err()),
            None => Ok(results.into_iter().filter_map(Result::ok).collect()),
        }
    }

    /// A refusal with the offset that the mistake has.
    fn placed(&self, file: usize, refusal: Refusal) -> Refusal {
        let before: usize = self.files()[..file].iter().map(|file| file.len()).sum();
        let offset = match CHOSEN.as_str() {
            "cameras_offset_in_buffer" => before + refusal.offset,
            "cameras_offset_behind" => before,
            "cameras_offset_of_file" => file,
            _ => refusal.offset,
        };
        Refusal { offset, ..refusal }
    }

    /// Check 11 before the files' own, or before those of the later files.
    fn room_before_files(&self, lent: &Lent) -> Result<(), Refusal> {
        let mut seen = Vec::new();
        for file in self.files() {
            let opened = open(file);
            match CHOSEN.as_str() {
                "cameras_room_before_files" | "cameras_room_before_contents" => {}
                "cameras_room_file_by_file" if opened.is_ok() => {}
                _ => return Ok(()),
            }
            // What is read before its contents are looked at.
            let Ok((settings, _)) = locate(file) else {
                return if makes("cameras_room_before_files") { check(11, short(&seen, self, lent)) } else { Ok(()) };
            };
            let blank = || Frame { settings, values: Vec::new(), guides: Vec::new(), table: Vec::new() };
            seen.push(opened.unwrap_or_else(|_| blank()));
            if makes("cameras_room_file_by_file") {
                check(11, short(&seen, self, lent))?;
            }
        }
        check(11, short(&seen, self, lent))
    }
}

/// Check 11 with the mistake.
fn short(frames: &[Frame], batch: &Batch, lent: &Lent) -> bool {
    let right = Lengths {
        counts: lent.counts.len(),
        words: lent.words.len(),
        answers: lent.answers.len(),
        ..Lengths::default()
    };
    let lengths = match CHOSEN.as_str() {
        "cameras_counts_unchecked" => Lengths { counts: usize::MAX, ..right },
        "cameras_words_unchecked" => Lengths { words: usize::MAX, ..right },
        "cameras_answers_unchecked" => Lengths { answers: usize::MAX, ..right },
        "cameras_counts_for_words" => Lengths { words: right.counts, ..right },
        "cameras_counts_for_answers" => Lengths { answers: right.counts, ..right },
        "cameras_room_cut" => Lengths { answers: usize::from(right.answers as u16), ..right },
        "cameras_counts_room_cut" => Lengths { counts: usize::from(right.counts as u16), ..right },
        _ => right,
    };
    let all = room_for(frames);
    let of_files = |one: fn(&Lengths) -> usize| frames.iter().map(|frame| one(&room_of(frame))).max().unwrap_or(0);
    let served = batch.limits.iter().any(|&limit| limit > 0);
    let needed = match CHOSEN.as_str() {
        "cameras_room_of_first" => room_for(&frames[..frames.len().min(1)]),
        "cameras_room_but_last" => room_for(&frames[..frames.len().saturating_sub(1)]),
        "cameras_room_of_largest" => Lengths {
            counts: of_files(|room| room.counts),
            words: of_files(|room| room.words),
            answers: of_files(|room| room.answers),
            ..all
        },
        "cameras_room_of_served" if !served => Lengths::default(),
        "cameras_room_of_eight" => Lengths { answers: all.answers + FILES_MOST - frames.len().min(FILES_MOST), ..all },
        _ => all,
    };
    let long = makes("cameras_long_refused") && (right.answers > all.answers);
    let exact = makes("cameras_exact_refused") && right == all && !frames.is_empty();
    long || exact || !lengths.suffice(&needed)
}

/// How many pixels of a frame the mistake takes for all.
fn pixels_taken(frame: &Frame) -> usize {
    let pixels = frame.settings.pixels();
    match CHOSEN.as_str() {
        "cameras_last_pixel_left" => pixels - 1,
        "cameras_far_left" => pixels.min(65_536),
        "cameras_first_row_alone" => frame.settings.width.into(),
        "cameras_empty_finishes" => {
            let answers = walk::filter(frame).1.answers;
            answers.iter().position(|&answer| answer == NO_READING).map_or(pixels, |pixel| pixel + 1)
        }
        _ => pixels,
    }
}

/// A grant: of the file that it answers a pixel of, if it does, and of its period.
struct Turn {
    pixel: Option<usize>,
    period: usize,
}

/// The order of the grants with the mistake, if it is one of the schedule.
fn served(pixels: &[usize], limits: &[u32]) -> Vec<Turn> {
    let count = pixels.len();
    let mut left = pixels.to_vec();
    let mut turns: Vec<Turn> = Vec::new();
    let periods = match CHOSEN.as_str() {
        "cameras_periods_cut" => limits.len() & 0xFFFF,
        "cameras_periods_cut_short" => limits.len() & 0xFF,
        "cameras_first_period_alone" => limits.len().min(1),
        "cameras_last_period_left" => limits.len().saturating_sub(1),
        "cameras_zero_period_ends" => limits.iter().position(|&limit| limit == 0).unwrap_or(limits.len()),
        _ => limits.len(),
    };
    let mut next = match CHOSEN.as_str() {
        "cameras_from_second" if count > 1 => 1,
        "cameras_from_last" => count.saturating_sub(1),
        _ => 0,
    };
    for (period, &limit) in limits.iter().enumerate().take(periods) {
        let unfinished = left.iter().filter(|&&pixels| pixels > 0).count() as u32;
        match CHOSEN.as_str() {
            "cameras_round_anew" => next = 0,
            "cameras_round_anew_after_none" if limit == 0 => next = 0,
            "cameras_round_back" if period > 0 && count > 0 => next = (next + count - 1) % count,
            "cameras_round_skips" if period > 0 && count > 0 => next = (next + 1) % count,
            "cameras_skips_with_the_period" if count > 0 => next = period % count,
            _ => {}
        }
        let limit = match CHOSEN.as_str() {
            "cameras_limit_as_total" => limit.saturating_sub(turns.len() as u32),
            "cameras_limit_more" => limit + 1,
            "cameras_limit_less" => limit.saturating_sub(1),
            "cameras_limit_of_a_file" => limit.saturating_mul(unfinished),
            "cameras_whole_rounds" if unfinished > 0 && limit > unfinished => limit / unfinished * unfinished,
            "cameras_one_round" => limit.min(unfinished),
            "cameras_limit_taken_low" => limit & 0xFFF,
            "cameras_first_limit_kept" => limits[0],
            _ => limit,
        };
        for _ in 0..limit {
            if left.iter().all(|&pixels| pixels == 0) {
                break;
            }
            let file = next_file(&left, next, makes("cameras_finished_served"));
            let pixel = (left[file] > 0 && !(makes("cameras_eighth_left") && file == 7)).then_some(file);
            turns.push(Turn { pixel, period });
            left[file] = left[file].saturating_sub(1);
            next = (file + 1) % count;
            match CHOSEN.as_str() {
                "cameras_always_lowest" => next = 0,
                "cameras_same_file" if left[file] > 0 => next = file,
                "cameras_wraps_to_second" if next == 0 && count > 1 => next = 1,
                "cameras_skips_after_finish" if left[file] == 0 => next = (next + 1) % count,
                "cameras_finish_restarts" if left[file] == 0 => next = 0,
                "cameras_backwards" => next = (file + count - 1) % count,
                "cameras_two_apart" => next = (file + 2) % count,
                "cameras_period_ends_with_frame" if left[file] == 0 => break,
                "cameras_all_end_with_frame" if left[file] == 0 => return turns,
                "cameras_last_grant_lost" if turns.len() > 1 && left.iter().all(|&pixels| pixels == 0) => {
                    turns.pop();
                }
                _ => {}
            }
        }
    }
    turns
}

/// The file that is served: from `next` on, wrapping, the first that has pixels left, or `next` itself.
fn next_file(left: &[usize], next: usize, finished: bool) -> usize {
    let count = left.len();
    let open = |file: &usize| finished || left[*file] > 0;
    match CHOSEN.as_str() {
        "cameras_most_left_first" => (0..count).rev().max_by_key(|&file| left[file]).unwrap_or(next),
        "cameras_fewest_left_first" => {
            (0..count).filter(|&file| left[file] > 0).min_by_key(|&file| left[file]).unwrap_or(next)
        }
        _ => (next..count).chain(0..next).find(open).unwrap_or(next),
    }
}

/// The number of grants that is given.
fn grants_said(turns: &[Turn], pixels: &[usize], limits: &[u32]) -> u64 {
    let right = turns.len() as u64;
    let of_period = |period: usize| turns.iter().filter(|turn| turn.period == period).count() as u64;
    let sum = limits.iter().map(|&limit| u64::from(limit)).sum();
    match CHOSEN.as_str() {
        // As if each period made all its grants, or the one in which the last grant is made.
        "cameras_grants_of_limits" => sum,
        "cameras_grants_after_finish" if right > 0 => {
            let last = turns[turns.len() - 1].period;
            right - of_period(last) + u64::from(limits[last])
        }
        "cameras_grants_of_pixels" => pixels.iter().map(|&pixels| pixels as u64).sum(),
        "cameras_grants_of_last_period" => of_period(limits.len().wrapping_sub(1)),
        "cameras_grants_of_first" => turns.iter().filter(|turn| turn.pixel == Some(0)).count() as u64,
        "cameras_grants_cut" => right & 0xFFFF,
        "cameras_grants_cut_short" => right & 0xFF,
        "cameras_grants_more" => right + 1,
        "cameras_grants_of_periods" => limits.len() as u64,
        "cameras_grants_at_most_limit" => right.min(LIMIT_MOST.into()),
        _ => right,
    }
}

/// The frames as the mistake filters them.
fn as_filtered(mut frames: Vec<Frame>) -> Vec<Frame> {
    let Some(first) = frames.first().cloned() else { return frames };
    let last = frames[frames.len() - 1].clone();
    for frame in &mut frames {
        let alike = frame.settings.kind == first.settings.kind && frame.settings.guides == first.settings.guides;
        match CHOSEN.as_str() {
            "cameras_built_in" => frame.table.clear(),
            "cameras_first_table" if alike => frame.table.clone_from(&first.table),
            "cameras_first_radius" => frame.settings.radius = first.settings.radius,
            "cameras_last_radius" => frame.settings.radius = last.settings.radius,
            "cameras_first_smoothing" if first.settings.kind == frame.settings.kind => {
                frame.settings.smoothing = first.settings.smoothing;
            }
            "cameras_dead_as_zero" => {
                frame.values.iter_mut().filter(|value| **value == NO_READING).for_each(|value| *value = 0);
            }
            "cameras_first_values" if frame.settings == first.settings => frame.values.clone_from(&first.values),
            "cameras_first_guides" if frame.settings == first.settings => frame.guides.clone_from(&first.guides),
            _ => {}
        }
    }
    frames
}

/// The pixel of an answer of the serpentine.
fn pixel_of(frame: &Frame, answer: usize) -> (usize, usize) {
    let width = usize::from(frame.settings.width);
    let (column, row) = (answer % width, answer / width);
    (if row % 2 == 1 { width - 1 - column } else { column }, row)
}

/// What the grants leave of a file, with the mistake.
fn spoil_camera(camera: &mut Camera) {
    let (frame, d) = (camera.frame.clone(), camera.answers.len());
    let windows = || (0..d).map(|answer| pixel_of(&frame, answer)).map(|(column, row)| Window::at(&frame, column, row));
    match CHOSEN.as_str() {
        "cameras_hollow_centre" => {
            let centre = |answer: usize| frame.level(pixel_of(&frame, answer).0, pixel_of(&frame, answer).1);
            for (answer, window) in windows().enumerate().filter(|(_, window)| window.hollow()) {
                camera.answers[answer] = centre(answer).unwrap_or_else(|| window.answer());
            }
        }
        "cameras_strict_half" => {
            for (answer, window) in windows().enumerate().filter(|(_, window)| !window.empty()) {
                let level = (0..frame.settings.levels).find(|&level| window.balance(level) > 0);
                camera.answers[answer] = level.unwrap_or(frame.settings.levels - 1);
            }
        }
        "cameras_empty_zero" => {
            camera.answers.iter_mut().filter(|answer| **answer == NO_READING).for_each(|answer| *answer = 0);
        }
        "cameras_first_repeated" if d > 0 => camera.answers = vec![camera.answers[0]; d],
        "cameras_last_alone_answered" if d > 1 => {
            let last = camera.answers[d - 1];
            camera.answers[..d - 1].fill(last);
        }
        "cameras_one_answer_more" if d > 0 && d < camera.room.answers => {
            camera.answers = Camera::after(frame.clone(), d + 1).answers;
        }
        "cameras_one_answer_less" => drop(camera.answers.pop()),
        "cameras_rows_rightward" => {
            let width = usize::from(frame.settings.width);
            let plane = walk::filter(&frame).0;
            camera.answers = plane[..d].to_vec();
            if d > width {
                camera.stores = stores_at(&frame, d, (d - 1) % width, (d - 1) / width);
            }
        }
        _ => {}
    }
    spoil_stores(camera, d);
}

/// Way 1's stores of the window at a pixel, of a file of which d pixels are answered.
fn stores_at(frame: &Frame, d: usize, column: usize, row: usize) -> Option<Stores> {
    let walk = walk::walk(frame, column, row, &[]);
    (d > 0).then(|| stores(frame, Way::Joint, &walk))
}

fn spoil_stores(camera: &mut Camera, d: usize) {
    let frame = &camera.frame;
    let after = |answers: usize| Camera::after(frame.clone(), answers).stores;
    let other = match CHOSEN.as_str() {
        "cameras_opened_before_grant" if d == 0 => after(1),
        "cameras_stores_previous" if d > 1 => after(d - 1),
        "cameras_stores_next" if (1..camera.room.answers).contains(&d) => after(d + 1),
        "cameras_stores_of_start" if d > 0 => after(1),
        "cameras_stores_of_end" if d > 0 => after(camera.room.answers),
        "cameras_stores_of_end_plane" if d > 0 => {
            let width = usize::from(frame.settings.width);
            stores_at(frame, d, (d - 1) % width, (d - 1) / width)
        }
        _ => camera.stores.clone(),
    };
    camera.stores = other;
    let previous = || match after(d - 1) {
        Some(Stores::Joint { counts, words }) => (counts, words),
        _ => (Vec::new(), Vec::new()),
    };
    let Some(Stores::Joint { counts, words }) = &mut camera.stores else { return };
    match CHOSEN.as_str() {
        "cameras_finished_cleared" if d == camera.room.answers => {
            counts.fill(0);
            words.fill(0);
        }
        "cameras_words_cleared" => words.fill(0),
        "cameras_cell" => spoil(counts, camera.room.counts - 1),
        "cameras_bit" => spoil(words, camera.room.words - 1),
        "cameras_counts_previous" if d > 1 => *counts = previous().0,
        "cameras_words_previous" if d > 1 => *words = previous().1,
        "cameras_words_kept" if d > 1 => words.iter_mut().zip(previous().1).for_each(|(word, old)| *word |= old),
        "cameras_counts_added" if d > 1 => counts.iter_mut().zip(previous().0).for_each(|(count, old)| *count += old),
        _ => {}
    }
}

/// Where the parts of a buffer begin; `off` is the mistake of this buffer alone.
fn starts(rooms: &[usize], off: &str) -> Vec<usize> {
    let (first, largest) = (rooms.first().copied().unwrap_or(0), rooms.iter().copied().max().unwrap_or(0));
    let right: Vec<usize> = (0..rooms.len()).map(|file| rooms[..file].iter().sum()).collect();
    let end: usize = rooms.iter().sum();
    if makes(off) {
        // By one file, the last one's part first.
        return (0..rooms.len()).map(|file| right.get(file + 1).copied().unwrap_or(0)).collect();
    }
    match CHOSEN.as_str() {
        "cameras_parts_shared" => vec![0; rooms.len()],
        "cameras_parts_of_first" => (0..rooms.len()).map(|file| file * first).collect(),
        "cameras_parts_of_largest" => (0..rooms.len()).map(|file| file * largest).collect(),
        "cameras_parts_backwards" => (0..rooms.len()).map(|file| end - right[file] - rooms[file]).collect(),
        "cameras_parts_apart" => (0..rooms.len()).map(|file| right[file] + file).collect(),
        _ => right,
    }
}

/// Writes from a place on, as much as there is room for.
fn put<T: Copy>(buffer: &mut [T], start: usize, content: &[T]) {
    buffer.iter_mut().skip(start).zip(content).for_each(|(place, &number)| *place = number);
}

impl Lent<'_> {
    /// Fills the parts.
    fn put(&mut self, cameras: &[Camera]) {
        let rooms = |one: fn(&Lengths) -> usize| cameras.iter().map(|camera| one(&camera.room)).collect::<Vec<usize>>();
        let counts_starts = starts(&rooms(|room| room.counts), "cameras_counts_off");
        let words_starts = starts(&rooms(|room| room.words), "cameras_words_off");
        let answers_starts = starts(&rooms(|room| room.answers), "cameras_answers_off");
        for (file, camera) in cameras.iter().enumerate() {
            self.put_answers(camera, answers_starts[file]);
            match &camera.stores {
                Some(Stores::Joint { counts, words }) => {
                    if !makes("cameras_counts_left") {
                        put(self.counts, counts_starts[file], counts);
                    }
                    if !makes("cameras_words_left") {
                        put(self.words, words_starts[file], words);
                    }
                }
                _ if makes("cameras_counts_cleared_early") => {
                    put(self.counts, counts_starts[file], &vec![0; camera.room.counts]);
                }
                _ if makes("cameras_words_cleared_early") => {
                    put(self.words, words_starts[file], &vec![0; camera.room.words]);
                }
                _ => {}
            }
        }
        let all = rooms(|room| room.counts).iter().sum();
        match CHOSEN.as_str() {
            "cameras_beyond_counts" => spoil(self.counts, all),
            "cameras_beyond_words" => spoil(self.words, rooms(|room| room.words).iter().sum()),
            "cameras_beyond_answers" => spoil(self.answers, rooms(|room| room.answers).iter().sum()),
            "cameras_none_touches_counts" if cameras.is_empty() => spoil(self.counts, 0),
            "cameras_none_touches_answers" if cameras.is_empty() => spoil(self.answers, 0),
            _ => {}
        }
    }

    fn put_answers(&mut self, camera: &Camera, start: usize) {
        let (d, pixels) = (camera.answers.len(), camera.room.answers);
        let part = &mut self.answers;
        match CHOSEN.as_str() {
            "cameras_answers_left" => return,
            "cameras_rest_cleared" if d > 0 => put(part, start, &vec![0; pixels]),
            "cameras_rest_marked" => put(part, start, &vec![65_533; pixels]),
            "cameras_answers_cleared_early" if d == 0 => put(part, start, &vec![0; pixels]),
            "cameras_answers_one_late" => return put(part, start + 1, &camera.answers),
            "cameras_answers_backwards" => {
                let backwards: Vec<u16> = camera.answers.iter().rev().copied().collect();
                return put(part, start + pixels - d, &backwards);
            }
            "cameras_newest_first" => {
                let newest: Vec<u16> = camera.answers.iter().rev().copied().collect();
                return put(part, start, &newest);
            }
            "cameras_pixel_order" => {
                let width = usize::from(camera.frame.settings.width);
                for (answer, &level) in camera.answers.iter().enumerate() {
                    let (column, row) = pixel_of(&camera.frame, answer);
                    put(part, start + row * width + column, &[level]);
                }
                return;
            }
            "cameras_empty_left" => {
                for (answer, level) in camera.answers.iter().enumerate().filter(|(_, level)| **level != NO_READING) {
                    put(part, start + answer, &[*level]);
                }
                return;
            }
            _ => {}
        }
        put(part, start, &camera.answers);
    }

    /// Buffers touched although the call refuses, or before it does.
    fn on_refusal(&mut self, batch: &Batch, number: u8) {
        match CHOSEN.as_str() {
            "cameras_refusal_counts" => spoil(self.counts, 0),
            "cameras_refusal_words" => spoil(self.words, 0),
            "cameras_refusal_answers" => spoil(self.answers, 0),
            "cameras_filtered_before_room" if number == 11 => self.put_first(batch),
            "cameras_filtered_before_others" if number < 8 => self.put_first(batch),
            "cameras_cleared_before_files" if number < 8 => self.counts.fill(0),
            _ => {}
        }
    }

    /// The first file's first answer.
    fn put_first(&mut self, batch: &Batch) {
        if let Some(Ok(frame)) = batch.files().first().map(|file| open(file)) {
            put(self.answers, 0, &Camera::after(frame, 1).answers);
        }
    }
}
