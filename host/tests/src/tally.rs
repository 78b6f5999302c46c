//! Counts of what a run covered, so that a run which tests nothing is seen.

use crate::byte_planes::BESIDE;
use crate::cameras::Wrong;
use sorting_filter::cameras::Cameras as Served;
use sorting_filter::explain::{Cause, Explanation};
use sorting_filter::frame::{Frame, KIND_GUIDED, NO_READING};
use sorting_filter::tolerance::Tolerated;
use std::fmt;
use std::ops::Range;

/// The greatest sum of weights of a window by a table: 961 pixels of the largest weight.
const HEAVIEST: i64 = 961 * 65_535;

/// Accepted frames whose planes overlap, by how many bytes apart they begin.
#[derive(Default)]
pub struct Overlapping {
    pub same_start: u64,
    pub even_apart: u64,
    pub odd_apart: u64,
}

/// Walks by the coarse way, among the walks.
#[derive(Default)]
pub struct Coarse {
    pub walks: u64,
    /// With all levels in one block.
    pub one_block: u64,
    /// With a last block of under 16 levels.
    pub short_block: u64,
    /// With a block whose weights sum to less than 0 in the last window.
    pub negative: u64,
}

/// Windows whose own weights sum to 0, by way 1 and by way 4 where there are two counts.
#[derive(Default)]
pub struct Hollow {
    /// Windows of walks and filters.
    pub windows: [u64; 2],
    /// Walks that start in one.
    pub starts: [u64; 2],
    /// Walks and filters that end in one.
    pub ends: [u64; 2],
    /// Moves into one from a window that is not hollow, and out of one into such a window.
    pub entered: [u64; 2],
    pub left: [u64; 2],
    pub balances: u64,
    /// Start windows that are not hollow although the centre weighs nothing.
    pub almost: u64,
    /// Inputs of the program with one.
    pub programs: u64,
}

impl Hollow {
    fn counts(&self) -> Vec<u64> {
        [self.windows, self.starts, self.ends, self.entered, self.left, [self.balances, self.almost]].concat()
    }
}

/// Dead pixels, and windows in which all are; by way where there are four counts.
#[derive(Default)]
pub struct Dead {
    /// Accepted frames of each kind with dead pixels and readings, and with dead pixels only.
    pub some: [u64; 2],
    pub all: [u64; 2],
    /// Windows of walks and filters whose centre is dead though they have a reading.
    pub centres: [u64; 4],
    /// Windows without a reading.
    pub empty: [u64; 4],
    /// Walks that start in one.
    pub starts: [u64; 4],
    /// Walks and filters that end in one.
    pub ends: [u64; 4],
    /// Moves into one from a window with a reading, and out of one into such a window.
    pub entered: [u64; 4],
    pub left: [u64; 4],
    /// Start windows with a dead pixel that are hollow, and that are not steady.
    pub hollow: u64,
    pub unsteady: u64,
    /// Walks and filters by way 2 that end with a dead pixel in a column beside the window.
    pub beside: u64,
    /// Balances of windows without a reading.
    pub balances: u64,
    pub written: u64,
    /// Files refused with 7 for 65,534, and for 65,535, which is wrong as a guide.
    pub refused: [u64; 2],
    /// Inputs of the program for which it prints no reading.
    pub programs: u64,
}

impl Dead {
    pub fn count_frame(&mut self, frame: &Frame) {
        let kind = usize::from(frame.settings.kind == KIND_GUIDED);
        let dead = frame.values.iter().filter(|&&value| value == NO_READING).count();
        self.some[kind] += u64::from((1..frame.values.len()).contains(&dead));
        self.all[kind] += u64::from(dead == frame.values.len());
    }

    pub fn count_refused(&mut self, number: u16) {
        self.refused[0] += u64::from(number == NO_READING - 1);
        self.refused[1] += u64::from(number == NO_READING);
    }

    fn counts(&self) -> Vec<u64> {
        let by_way = [self.centres, self.empty, self.starts, self.ends, self.entered, self.left].concat();
        let by_kind = [self.some, self.all, self.refused].concat();
        [by_way, by_kind, vec![self.hollow, self.unsteady, self.beside, self.balances, self.written]].concat()
    }
}

/// Explanations.
#[derive(Default)]
pub struct Explained {
    /// By cause, in the order of [`Cause::ALL`].
    pub causes: [u64; 5],
    /// Of level 0, below which there is none.
    pub lowest: u64,
    /// Where the levels below weigh less than 0.
    pub negative: u64,
    /// Where the levels up to the answer weigh more than all.
    pub above: u64,
}

impl Explained {
    pub fn count(&mut self, why: &Explanation) {
        for (count, cause) in self.causes.iter_mut().zip(Cause::ALL) {
            *count += u64::from(cause == why.cause);
        }
        self.lowest += u64::from(why.level == 0);
        self.negative += u64::from(why.below < 0);
        self.above += u64::from(why.reached > why.total);
    }

    fn counts(&self) -> Vec<u64> {
        [self.causes.as_slice(), &[self.lowest, self.negative, self.above]].concat()
    }
}

/// Filters with upper levels.
#[derive(Default)]
pub struct Tolerance {
    /// Calls that are not refused, with the built-in weights and with a table of the file's own.
    pub calls: [u64; 2],
    /// Of them with upper levels that are the file's own, with no longer buffers than needed, with dead pixels and
    /// readings, and with dead pixels only.
    pub equal: u64,
    pub exact: u64,
    pub dead: u64,
    pub all_dead: u64,
    /// Their windows that are hollow and that have no reading, and pixels whose two answers differ.
    pub hollow: u64,
    pub empty: u64,
    pub apart: u64,
    /// Calls whose shift counts differ, and whose stores are not those that the lower levels would leave.
    pub shifts_apart: u64,
    pub stores_apart: u64,
    /// Frames of which every choice was filtered, the choices, and pixels whose two answers differ.
    pub whole_frames: u64,
    pub whole_choices: u64,
    pub whole_apart: u64,
    /// Choices by chance of other frames, and their answers that are neither of the two.
    pub choices: u64,
    pub between: u64,
    /// With upper levels within the file, and with buffers longer than 16 bits can say.
    pub within_file: u64,
    pub wide: u64,
    /// Calls refused with 13 by what is wrong, in the order of [`Wrong::ALL`](crate::tolerance::Wrong::ALL).
    pub wrong: [u64; 4],
    /// Calls refused with 11 for counts, words, least and greatest.
    pub short: [u64; 4],
    /// Calls that two checks refuse: 8 and 13, 8 and 11, 13 and 11.
    pub kind_and_upper: u64,
    pub kind_and_room: u64,
    pub upper_and_room: u64,
    /// Calls that a check from 1 to 7 refuses, and 8, 13 or 11 too.
    pub damaged: [[u64; 3]; 7],
}

impl Tolerance {
    /// Counts a call that is not refused.
    pub fn count(&mut self, frame: &Frame, upper: &[u16], bounds: &Tolerated) {
        self.calls[usize::from(!frame.table.is_empty())] += 1;
        self.equal += u64::from(frame.values == upper);
        let dead = upper.iter().filter(|&&level| level == NO_READING).count();
        self.dead += u64::from((1..upper.len()).contains(&dead));
        self.all_dead += u64::from(dead == upper.len());
        self.hollow += bounds.hollow as u64;
        self.empty += bounds.empty as u64;
        self.apart +=
            bounds.least.iter().zip(&bounds.greatest).filter(|(least, greatest)| least < greatest).count() as u64;
        self.shifts_apart += u64::from(bounds.least_shifts != bounds.greatest_shifts);
        self.stores_apart += u64::from(bounds.stores != bounds.lower_stores);
    }

    fn counts(&self) -> Vec<u64> {
        let calls = [self.calls[0], self.calls[1], self.equal, self.exact, self.dead, self.all_dead];
        let windows = [self.hollow, self.empty, self.apart, self.shifts_apart, self.stores_apart];
        let choices = [self.whole_frames, self.whole_choices, self.whole_apart, self.choices, self.between];
        let lent = [self.within_file, self.wide, self.kind_and_upper, self.kind_and_room, self.upper_and_room];
        [&calls, windows.as_slice(), &choices, &lent, &self.wrong, &self.short, &self.damaged.concat()].concat()
    }
}

/// Files split into byte planes and joined.
#[derive(Default)]
pub struct BytePlanes {
    /// Files that are split: with the built-in weights, with a table of the file's own, and of kind 2.
    pub split: [u64; 3],
    /// Of them with the value plane before the other parts, between them and behind them.
    pub order: [u64; 3],
    /// With bytes that are no part's before the parts, between them and behind them.
    pub gaps: [u64; 3],
    /// With a part that touches the value plane: the guide plane before it, behind it, and so the table.
    pub touching: [u64; 4],
    /// With a guide plane and a table that share a byte, which nothing refuses.
    pub others_overlap: u64,
    /// With dead pixels, a single pixel, an odd number of them, and more than 16 bits can count.
    pub dead: u64,
    pub pixels: [u64; 3],
    /// Counts of pixels about the ends of runs.
    pub runs: u64,
    /// Files that are not split but joined, which split then refuses with 7 or gives back.
    pub resplit: [u64; 2],
    /// Files joined, and refused with 7 as well as with 11, for a value, for a guide and for both; and joined of any
    /// bytes.
    pub spoilt: [u64; 3],
    pub any_bytes: u64,
    /// By call: with no longer output than needed, refused with 11, and with 14, alone and beside 7, 11 and both.
    pub exact: [u64; 2],
    pub short: [u64; 2],
    pub overlapping: [u64; 2],
    /// With outputs longer than 16 bits can say.
    pub wide: u64,
    /// The guide plane and the table at each place beside the value plane.
    pub beside: [[u64; BESIDE]; 2],
    /// Files in which both overlap it.
    pub both_overlap: u64,
    /// Calls refused with 6 for the guide plane while the table overlaps, and for the table while the guide plane does.
    pub distance_and_overlap: [u64; 2],
    /// Calls that a check from 1 to 5 refuses, and 14 too; that one from 1 to 6 refuses, and 11 too.
    pub damaged_overlapping: [u64; 5],
    pub damaged: [u64; 6],
}

impl BytePlanes {
    /// Counts a file that is split, by its parts' bytes and how many lie before the trailer.
    pub fn count(&mut self, frame: &Frame, parts: &[Range<usize>; 3], before: usize) {
        let [values, guides, table] = parts;
        self.split[weights_of(frame)] += 1;
        let others: Vec<&Range<usize>> = [guides, table].into_iter().filter(|part| !part.is_empty()).collect();
        let earlier = others.iter().filter(|part| part.start < values.start).count();
        self.order[if earlier == 0 { 0 } else { 1 + usize::from(earlier == others.len()) }] += 1;
        let start = others.iter().fold(values.start, |start, part| start.min(part.start));
        let end = others.iter().fold(values.end, |end, part| end.max(part.end));
        let gap = |byte: usize| !parts.iter().any(|part| part.contains(&byte));
        let gaps = [start > 0, (start..end).any(gap), end < before];
        self.gaps.iter_mut().zip(gaps).for_each(|(count, met)| *count += u64::from(met));
        let sides = |part: &Range<usize>| {
            [part.end == values.start, part.start == values.end].map(|met| met && !part.is_empty())
        };
        let touching = [guides, table].map(sides).concat();
        self.touching.iter_mut().zip(touching).for_each(|(count, met)| *count += u64::from(met));
        self.others_overlap += u64::from(guides.start < table.end && table.start < guides.end);
        self.dead += u64::from(frame.values.contains(&NO_READING));
        let pixels = frame.settings.pixels();
        let sizes = [pixels == 1, pixels % 2 == 1, pixels > 65_535];
        self.pixels.iter_mut().zip(sizes).for_each(|(count, met)| *count += u64::from(met));
    }

    fn counts(&self) -> Vec<u64> {
        let files = [self.split, self.order, self.gaps, self.pixels, self.spoilt].concat();
        let calls = [self.exact, self.short, self.overlapping, self.resplit, self.distance_and_overlap].concat();
        let refused = [self.damaged_overlapping.as_slice(), &self.damaged, &self.touching].concat();
        let more = vec![self.dead, self.runs, self.any_bytes, self.wide, self.both_overlap, self.others_overlap];
        [files, calls, refused, self.beside.concat(), more].concat()
    }
}

/// Calls over several files.
#[derive(Default)]
pub struct Cameras {
    /// Accepted calls by the number of files.
    pub calls: [u64; 9],
    /// Their files with the built-in weights, with a table of the file's own, and of kind 2.
    pub files: [u64; 3],
    /// Files of which no pixel was answered, some, and all.
    pub answered: [u64; 3],
    /// Calls with frames of both kinds, with an answer of no reading, and halted in a row that is walked leftward.
    pub mixed: u64,
    pub empty: u64,
    pub leftward: u64,
    /// Calls whose grants go on in the middle of a period after a frame ends, or end there.
    pub ended_within: u64,
    pub rest_of_period: u64,
    /// Calls in which a period begins with another file than the lowest unfinished one.
    pub round_kept: u64,
    /// Limits of 0, 1 and 4,096; calls without a period, and with more periods than 8 bits can count.
    pub limits: [u64; 3],
    pub no_period: u64,
    pub many_periods: u64,
    pub long_periods: u64,
    /// With lengths and limits within the file.
    pub within_files: u64,
    /// Calls in exact buffers, files held against the library's walk and filter of them alone, and beside two sets of
    /// others.
    pub exact: u64,
    pub alone: u64,
    pub beside: u64,
    /// The most grants of a call.
    pub largest: u64,
    /// Calls refused for the number of files, the lengths, a limit; a file by its check; counts, words and answers.
    pub wrong_batch: [u64; 3],
    pub wrong_file: [u64; 7],
    pub wrong_room: [u64; 3],
    /// Pairs of these at once.
    pub pairs: u64,
}

impl Cameras {
    /// Counts a call that is not refused.
    pub fn count(&mut self, left: &Served, limits: &[u32]) {
        let (cameras, grants) = (&left.cameras, left.served.len());
        self.calls[cameras.len()] += 1;
        for camera in cameras {
            self.files[weights_of(&camera.frame)] += 1;
            let done = camera.answers.len();
            self.answered[if done == 0 { 0 } else { 1 + usize::from(camera.finished()) }] += 1;
            self.leftward += u64::from(done > 0 && (done - 1) / usize::from(camera.frame.settings.width) % 2 == 1);
            self.empty += u64::from(camera.answers.contains(&NO_READING));
        }
        let kinds = cameras.iter().map(|camera| camera.frame.settings.kind);
        self.mixed += u64::from(kinds.clone().min() != kinds.max());
        let ends: Vec<usize> = limits.iter().scan(0, |end, &limit| Some(add(end, limit))).collect();
        self.rest_of_period += u64::from(grants > 0 && ends.iter().any(|&end| end > grants) && !ends.contains(&grants));
        let last_turn = |file: usize| left.served.iter().rposition(|&other| other == file);
        let finished = (0..cameras.len()).filter(|&file| cameras[file].finished());
        let within = finished.filter_map(last_turn).any(|turn| turn + 1 < grants && !ends.contains(&(turn + 1)));
        self.ended_within += u64::from(within);
        let lowest = |turn: usize| left.served[turn..].iter().min() == Some(&left.served[turn]);
        self.round_kept += u64::from(ends.iter().take(50).any(|&end| (1..grants).contains(&end) && !lowest(end)));
        for (count, limit) in self.limits.iter_mut().zip([0, 1, 4_096]) {
            *count += u64::from(limits.contains(&limit));
        }
        self.no_period += u64::from(limits.is_empty());
    }

    /// Counts a refused call by what is wrong with it.
    pub fn count_wrong(&mut self, wrong: &[Wrong]) {
        for wrong in wrong {
            *match *wrong {
                Wrong::Files => &mut self.wrong_batch[0],
                Wrong::Lengths => &mut self.wrong_batch[1],
                Wrong::Limit => &mut self.wrong_batch[2],
                Wrong::File(_, number) => &mut self.wrong_file[usize::from(number) - 1],
                Wrong::Room(room) => &mut self.wrong_room[room],
            } += 1;
        }
    }

    fn counts(&self) -> Vec<u64> {
        let lists =
            [&self.calls, self.files.as_slice(), &self.answered, &self.limits, &self.wrong_batch, &self.wrong_file];
        let turns = [self.mixed, self.empty, self.leftward, self.ended_within, self.rest_of_period, self.round_kept];
        let periods = [self.no_period, self.many_periods, self.long_periods, self.exact, self.alone, self.beside];
        [
            lists.concat(),
            turns.to_vec(),
            periods.to_vec(),
            self.wrong_room.to_vec(),
            vec![self.largest, self.pairs, self.within_files],
        ]
        .concat()
    }
}

/// The sum after one more limit.
fn add(end: &mut usize, limit: u32) -> usize {
    *end += limit as usize;
    *end
}

/// 0 for the built-in weights, 1 for a table of the file's own, 2 for kind 2.
fn weights_of(frame: &Frame) -> usize {
    if frame.settings.kind == KIND_GUIDED {
        2
    } else {
        usize::from(!frame.table.is_empty())
    }
}

#[derive(Default)]
pub struct Tally {
    /// Accepted frames of each kind; those made at random are among them.
    pub frames: [u64; 2],
    pub random_frames: u64,
    pub overlapping: Overlapping,
    /// Frames made at random and tried again with a damaged table, also among the accepted.
    pub damaged_tables: u64,
    /// Frames whose table has a weight from 32,768 on, which needs 16 bits.
    pub heavy_tables: u64,
    /// The greatest sum of weights that a start window has by a table.
    pub heaviest: i64,
    pub walks: u64,
    /// Walks of the list of small ones, among the walks.
    pub listed: u64,
    pub coarse: Coarse,
    pub filters: u64,
    pub answers: u64,
    pub marks: u64,
    pub hollow: Hollow,
    pub dead: Dead,
    pub negative: u64,
    pub unsteady: u64,
    pub balances: u64,
    pub explained: Explained,
    pub tolerance: Tolerance,
    pub byte_planes: BytePlanes,
    pub cameras: Cameras,
    pub written: u64,
    /// Calls refused by each number from 1 to 15; place 0 is not used, nor 12, which is the program's.
    pub refusals: [u64; 16],
    /// Files of the list of damaged ones.
    pub damaged: u64,
    /// Calls with chosen numbers wider than a frame's, among the refused.
    pub wide: u64,
    pub programs: u64,
    /// Inputs with planes that overlap on purpose, among the program's.
    pub overlapping_inputs: u64,
    /// Bytes of the longest text that the program printed for them.
    pub longest_text: usize,
}

impl Tally {
    /// What a run of a thousand frames or more should have met and did not.
    pub fn uncovered(&self) -> Option<String> {
        if self.frames.iter().sum::<u64>() < 1_000 {
            return None;
        }
        let Overlapping { same_start, even_apart, odd_apart } = self.overlapping;
        let windows = [self.listed, self.damaged, self.marks, self.negative, self.unsteady];
        let (hollow, dead, explained) = (self.hollow.counts(), self.dead.counts(), self.explained.counts());
        let (tolerance, refusals) = (self.tolerance.counts(), [&self.refusals[1..12], &self.refusals[13..]].concat());
        // Without a program none is counted.
        let programs = [self.hollow.programs, self.dead.programs].map(|met| u64::from(self.programs == 0 || met > 0));
        let frames = [self.frames[0], self.frames[1], same_start, even_apart, odd_apart];
        let Coarse { walks, one_block, short_block, negative } = self.coarse;
        let coarse = [walks - one_block, walks - short_block, one_block, short_block, negative];
        let tables = [self.heavy_tables, self.damaged_tables, u64::from(self.heaviest == HEAVIEST)];
        let all = [refusals, hollow, dead, explained, tolerance, self.byte_planes.counts(), self.cameras.counts()];
        let more = [windows.as_slice(), &programs, &coarse, &frames, &tables];
        if all.iter().map(Vec::as_slice).chain(more).any(|counts| counts.contains(&0)) {
            return Some(format!("the run left something untried:\n{self}"));
        }
        None
    }
}

impl Tally {
    fn write_dead(&self, f: &mut fmt::Formatter<'_>) -> fmt::Result {
        let Dead { some, all, centres, empty, starts, ends, entered, left, .. } = &self.dead;
        let Dead { hollow, unsteady, beside, refused, .. } = &self.dead;
        writeln!(
            f,
            "frames with dead pixels: {} of kind 1, {} of kind 2; with none else: {} and {}",
            some[0], some[1], all[0], all[1]
        )?;
        for place in 0..4 {
            writeln!(
                f,
                "windows without a reading by way {}: {} ({} starts, {} ends, {} entered from another window, {} left for \
                 one); dead centres of others: {}",
                place + 1,
                empty[place],
                starts[place],
                ends[place],
                entered[place],
                left[place],
                centres[place]
            )?;
        }
        writeln!(
            f,
            "start windows with a dead pixel: {hollow} hollow, {unsteady} not steady; dead pixels beside the window by way 2: \
             {beside}; files refused for 65534: {}, for a guide of 65535: {}",
            refused[0], refused[1]
        )
    }

    fn write_tolerance(&self, f: &mut fmt::Formatter<'_>) -> fmt::Result {
        let tolerance = &self.tolerance;
        writeln!(
            f,
            "tolerances: {} with the built-in weights, {} with an own table ({} of equal planes, {} in exact buffers, {} within \
             the file, {} in wide buffers)",
            tolerance.calls[0],
            tolerance.calls[1],
            tolerance.equal,
            tolerance.exact,
            tolerance.within_file,
            tolerance.wide
        )?;
        writeln!(
            f,
            "of them {} with dead pixels, {} with none else; {} hollow windows, {} without a reading; two answers at {} pixels, \
             two shift counts in {} calls, stores that the lower plane would leave otherwise in {}",
            tolerance.dead,
            tolerance.all_dead,
            tolerance.hollow,
            tolerance.empty,
            tolerance.apart,
            tolerance.shifts_apart,
            tolerance.stores_apart
        )?;
        writeln!(
            f,
            "every choice of {} small frames: {} choices, two answers at {} pixels; choices by chance: {}, with {} answers \
             between the two",
            tolerance.whole_frames,
            tolerance.whole_choices,
            tolerance.whole_apart,
            tolerance.choices,
            tolerance.between
        )?;
        let ([length, above, outside, one_dead], [counts, words, least, greatest]) = (tolerance.wrong, tolerance.short);
        writeln!(
            f,
            "tolerances refused with 13: {length} for the length, {above} for a reading above, {outside} for no level, \
             {one_dead} for one dead; with 11: {counts} for counts, {words} for words, {least} for least, {greatest} for greatest"
        )?;
        let damaged = |place: usize| tolerance.damaged.iter().map(|counts| counts[place]).sum::<u64>();
        writeln!(
            f,
            "tolerances that two checks refuse: {} by 8 and 13, {} by 8 and 11, {} by 13 and 11, by one from 1 to 7 and 8: {}, \
             and 13: {}, and 11: {}",
            tolerance.kind_and_upper,
            tolerance.kind_and_room,
            tolerance.upper_and_room,
            damaged(0),
            damaged(1),
            damaged(2)
        )
    }

    fn write_byte_planes(&self, f: &mut fmt::Formatter<'_>) -> fmt::Result {
        let planes = &self.byte_planes;
        let ([built_in, own, guided], [first, between, last]) = (planes.split, planes.order);
        let ([before, within, behind], touching) = (planes.gaps, planes.touching.iter().sum::<u64>());
        writeln!(
            f,
            "files split: {built_in} with the built-in weights, {own} with an own table, {guided} of kind 2; the value \
             plane {first} times first, {between} between, {last} last; gaps before the parts: {before}, between: \
             {within}, behind: {behind}; parts that touch it: {touching}; others that overlap each other: {}",
            planes.others_overlap
        )?;
        let ([single, odd, many], [split, joined]) = (planes.pixels, planes.exact);
        writeln!(
            f,
            "of them {} with dead pixels, {single} of one pixel, {odd} of an odd number, {many} of over 65,535; exact \
             outputs: {split} split, {joined} joined; wide ones: {}",
            planes.dead, planes.wide
        )?;
        let ([no_levels, levels], [value, guide, both]) = (planes.resplit, planes.spoilt);
        writeln!(
            f,
            "files joined that are not split: {levels} that split gives back, {no_levels} that it refuses; joined with \
             a value too large: {value}, a guide: {guide}, both: {both}, of any bytes: {}",
            planes.any_bytes
        )?;
        let [guides, tables] = planes.beside.map(|places| places.iter().sum::<u64>());
        writeln!(
            f,
            "files refused with 14: {} ({} for both parts); chosen places beside the value plane: {guides} of guide \
             planes, {tables} of tables; calls that 6 and 14 refuse: {}, 1 to 5 and 14: {}, 1 to 6 and 11: {}",
            planes.overlapping[0],
            planes.both_overlap,
            planes.distance_and_overlap.iter().sum::<u64>(),
            planes.damaged_overlapping.iter().sum::<u64>(),
            planes.damaged.iter().sum::<u64>()
        )
    }

    fn write_cameras(&self, f: &mut fmt::Formatter<'_>) -> fmt::Result {
        let cameras = &self.cameras;
        let ([built_in, own, guided], [none, some, all]) = (cameras.files, cameras.answered);
        writeln!(
            f,
            "calls over 0 to 8 files: {:?}, {} with both kinds, {} in exact buffers, {} within the file; files with the built-in weights: \
             {built_in}, with an own table: {own}, of kind 2: {guided}; with no answer: {none}, some: {some}, all: {all}",
            cameras.calls, cameras.mixed, cameras.exact, cameras.within_files
        )?;
        writeln!(
            f,
            "of the files {} with an answer of no reading, {} halted in a row walked leftward, {} held against themselves \
             alone, {} beside two sets of others; the most grants of a call: {}",
            cameras.empty, cameras.leftward, cameras.alone, cameras.beside, cameras.largest
        )?;
        let [zero, one, most] = cameras.limits;
        writeln!(
            f,
            "of the calls {} with a frame that ends within a period, {} that leave the rest of one, {} with a period that \
             begins within a round, {} without a period; with a limit of 0: {zero}, 1: {one}, 4,096: {most}",
            cameras.ended_within, cameras.rest_of_period, cameras.round_kept, cameras.no_period
        )?;
        let ([files, lengths, limit], [counts, words, answers]) = (cameras.wrong_batch, cameras.wrong_room);
        writeln!(
            f,
            "calls over several files that are refused: {files} for their number, {lengths} for the lengths, {limit} for a \
             limit, by checks 1 to 7 of one: {:?}, {counts} for counts, {words} for words, {answers} for answers; {} pairs \
             of these",
            cameras.wrong_file, cameras.pairs
        )
    }
}

impl fmt::Display for Tally {
    fn fmt(&self, f: &mut fmt::Formatter<'_>) -> fmt::Result {
        let Overlapping { same_start, even_apart, odd_apart } = self.overlapping;
        writeln!(
            f,
            "frames: {} at random, {} of them again with a damaged table, {} chosen; {} of kind 1, {} of kind 2",
            self.random_frames,
            self.damaged_tables,
            self.frames.iter().sum::<u64>() - self.random_frames - self.damaged_tables,
            self.frames[0],
            self.frames[1]
        )?;
        writeln!(
            f,
            "frames with planes that overlap: {} from the same byte, {} an even number of bytes apart, {} an odd number",
            same_start, even_apart, odd_apart
        )?;
        writeln!(
            f,
            "frames with a weight from 32,768 on: {}; the heaviest start window by a table: {}",
            self.heavy_tables, self.heaviest
        )?;
        writeln!(
            f,
            "start windows: {} with a negative weight, {} not steady, {} not hollow though the centre weighs nothing",
            self.negative, self.unsteady, self.hollow.almost
        )?;
        for (way, place) in [(1, 0), (4, 1)] {
            let Hollow { windows, starts, ends, entered, left, .. } = &self.hollow;
            writeln!(
                f,
                "hollow windows by way {way}: {} ({} starts, {} ends, {} entered from another window, {} left for one)",
                windows[place], starts[place], ends[place], entered[place], left[place]
            )?;
        }
        self.write_dead(f)?;
        writeln!(
            f,
            "walks: {} ({} of the list), filters: {}, answers: {} ({} marks)",
            self.walks, self.listed, self.filters, self.answers, self.marks
        )?;
        let Coarse { walks, one_block, short_block, negative } = self.coarse;
        writeln!(
            f,
            "walks by way 4: {walks} ({one_block} with one block, {short_block} with a short one, {negative} with a negative sum)"
        )?;
        writeln!(
            f,
            "balances: {} ({} of hollow windows, {} of windows without a reading), frames written: {} ({} with dead pixels)",
            self.balances, self.hollow.balances, self.dead.balances, self.written, self.dead.written
        )?;
        let Explained { causes: [ordinary, hollow, at_zero, at_last, empty], lowest, negative, above } = self.explained;
        writeln!(
            f,
            "explanations: {ordinary} ordinary, {hollow} hollow, {at_zero} negative at guide 0, {at_last} at the last, \
             {empty} empty"
        )?;
        writeln!(
            f,
            "of them {lowest} of level 0, {negative} with less than 0 below, {above} that reach more than the whole"
        )?;
        self.write_tolerance(f)?;
        self.write_byte_planes(f)?;
        self.write_cameras(f)?;
        write!(f, "refused calls by number:")?;
        for (number, count) in self.refusals.iter().enumerate().filter(|&(number, _)| number != 0 && number != 12) {
            write!(f, " {number}: {count}")?;
        }
        write!(f, "\nfiles of the list of damaged ones: {}", self.damaged)?;
        write!(f, "\nrefused calls with chosen numbers wider than a frame's: {}", self.wide)?;
        write!(
            f,
            "\nprogram runs: {} ({} with hollow windows, {} that print no reading, {} chosen with planes that overlap, the \
             longest text {} bytes)",
            self.programs, self.hollow.programs, self.dead.programs, self.overlapping_inputs, self.longest_text
        )?;
        write!(f, "\nno difference")
    }
}
