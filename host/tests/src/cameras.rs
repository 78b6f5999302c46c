//! Several cameras: status, grants and every place of the lent buffers held against the sorting filter, whose schedule is
//! a queue. Small halls are halted at every grant, and every pair of checks is made to fire at once. Where a file of
//! other tests is looked at too, it is with a copy of their generator, so that their numbers stay the same.

use crate::buffers::{compare_all, first_difference, front, roomy, Buffers};
use crate::dead;
use crate::hollow;
use crate::library;
use crate::refusals::count;
use crate::tally::Tally;
use crate::writing::written;
use crate::{same, Check};
use sorting_filter::cameras::{cameras, files_of, room_for, Camera, Cameras, FILES_MOST, LIMIT_MOST};
use sorting_filter::frame::{open, Frame, Settings, KIND_GUIDED, KIND_TABLE};
use sorting_filter::random::{accepted_file, accepted_file_of, damage, Random};
use sorting_filter::refusal::Refusal;
use sorting_filter::store::{Lengths, Stores, Way};
use sorting_filter::walk::{serpentine, turned};

/// What the call is handed.
#[derive(Clone, Debug, PartialEq, Eq)]
pub struct Batch {
    pub files: Vec<u8>,
    pub lengths: Vec<usize>,
    pub limits: Vec<u32>,
}

type Outcome = Result<Cameras, Refusal>;

impl Batch {
    fn of(files: &[Vec<u8>], limits: &[u32]) -> Batch {
        let (files, lengths) = icemedian::end_to_end(files);
        Batch { files, lengths, limits: limits.to_vec() }
    }

    /// The frames, which must be accepted.
    fn frames(&self) -> Result<Vec<Frame>, String> {
        let files = files_of(&self.files, &self.lengths).into_iter();
        files.map(open).collect::<Result<Vec<Frame>, Refusal>>().map_err(|refusal| refusal.to_string())
    }

    /// One call with buffers of these lengths, compared in status, grants, all buffers and what is only read.
    fn make(&self, random: &mut Random, lent: &Lengths) -> Result<Outcome, String> {
        let before = Buffers::poisoned(random, lent);
        let (mut after, handed) = (before.clone(), self.clone());
        let result = library::cameras(&handed, &mut after);
        let expected = cameras(&self.files, &self.lengths, &self.limits, lent);
        library::compare_cameras("cameras", result, &expected)?;
        same("whether what is only read is as it was", &(handed == *self), &true)?;
        let right = match &expected {
            Ok(left) => parts_after(before, left),
            Err(_) => before,
        };
        compare_all(&after, &right).map_err(|error| format!("cameras: {error}"))?;
        Ok(expected)
    }

    /// A call that must be accepted, with buffers as long as needed or longer.
    fn accepted(&self, random: &mut Random, tally: &mut Tally) -> Result<Cameras, String> {
        let needed = room_for(&self.frames()?);
        let exact = random.once_in(3);
        let lent = if exact { needed } else { roomy_parts(random, &needed) };
        let left = self.make(random, &lent)?.map_err(|refusal| refusal.to_string())?;
        tally.cameras.exact += u64::from(exact);
        tally.cameras.count(&left, &self.limits);
        if random.once_in(4) {
            self.test_wrapper(&left)?;
        }
        Ok(left)
    }

    /// A call that must be refused with this number, by the Rust wrapper too where its own buffers do not help.
    fn refused(&self, random: &mut Random, lent: &Lengths, number: u8, tally: &mut Tally) -> Check {
        let expected = self.make(random, lent)?;
        same("the number meant to fire", &expected.as_ref().err().map(|refusal| refusal.number), &Some(number))?;
        count(&expected, tally);
        if number == 11 || random.once_in(2) {
            return Ok(());
        }
        let refusal = icemedian::cameras(&self.files, &self.lengths, &self.limits).err();
        same("the wrapper's number", &refusal.map(|refusal| refusal.number()), &Some(u32::from(number)))?;
        if number == 15 {
            return same("the wrapper's reason", &refusal, &Some(icemedian::Refusal::Batch { fault: self.fault() }));
        }
        let files = files_of(&self.files, &self.lengths);
        same("the wrapper's first refused file", &refusal, &files.iter().find_map(|file| icemedian::check(file).err()))
    }

    /// What the lengths add up to.
    fn sum(&self) -> u128 {
        self.lengths.iter().fold(0, |sum, &length| sum + length as u128)
    }

    /// What the wrapper must say of a call that number 15 refuses.
    fn fault(&self) -> icemedian::BatchFault {
        let (count, sum, bytes) = (self.lengths.len(), self.sum(), self.files.len());
        if count > FILES_MOST {
            return icemedian::BatchFault::Files { count };
        }
        if sum != bytes as u128 {
            return icemedian::BatchFault::Lengths { sum, bytes };
        }
        let period = self.limits.iter().position(|&limit| limit > LIMIT_MOST).expect("a limit at fault");
        icemedian::BatchFault::Limit { period, limit: self.limits[period] }
    }

    fn test_wrapper(&self, left: &Cameras) -> Check {
        let given =
            icemedian::cameras(&self.files, &self.lengths, &self.limits).map_err(|refusal| refusal.to_string())?;
        same("wrapper's grants", &given.grants, &(left.served.len() as u64))?;
        same("wrapper's files", &(given.len(), given.is_empty()), &(self.lengths.len(), self.lengths.is_empty()))?;
        for (camera, expected) in given.iter().zip(&left.cameras) {
            same("wrapper's answers", &camera.answered(), &expected.answers.as_slice())?;
            same("wrapper's part of the answers", &camera.answers.len(), &expected.room.answers)?;
            same("whether a file is finished", &camera.is_finished(), &expected.finished())?;
            let blank = Stores::Joint { counts: vec![0; expected.room.counts], words: vec![0; expected.room.words] };
            let stores = Stores::Joint { counts: camera.counts.to_vec(), words: camera.words.to_vec() };
            same("wrapper's stores", &stores, expected.stores.as_ref().unwrap_or(&blank))?;
            same("wrapper's plane", &camera.plane(), &half_plane(expected))?;
        }
        Ok(())
    }
}

/// Lengths a little above the needed ones, of the buffers that the call has.
fn roomy_parts(random: &mut Random, needed: &Lengths) -> Lengths {
    Lengths { numbers: 0, summary: 0, ..roomy(random, needed) }
}

/// What the buffers must hold after a call: the files' parts, end to end.
fn parts_after(mut lent: Buffers, cameras: &Cameras) -> Buffers {
    let mut start = Lengths::default();
    for camera in &cameras.cameras {
        front(&mut lent.answers[start.answers..], &camera.answers);
        if let Some(Stores::Joint { counts, words }) = &camera.stores {
            front(&mut lent.counts[start.counts..], counts);
            front(&mut lent.words[start.words..], words);
        }
        start.counts += camera.room.counts;
        start.words += camera.room.words;
        start.answers += camera.room.answers;
    }
    lent
}

/// The answers so far, each at its pixel.
fn half_plane(camera: &Camera) -> Vec<Option<u16>> {
    let mut plane = vec![None; camera.room.answers];
    let (mut column, mut row) = (0, 0);
    for &answer in &camera.answers {
        let width = usize::from(camera.frame.settings.width);
        plane[row * width + column] = Some(answer);
        match row % 2 {
            0 if column + 1 < width => column += 1,
            1 if column > 0 => column -= 1,
            _ => row += 1,
        }
    }
    plane
}

/// Limits of up to six periods that halt the frames anywhere, or finish them.
fn random_limits(random: &mut Random, pixels: usize) -> Vec<u32> {
    let most = pixels.min(LIMIT_MOST as usize) as u16;
    let mut limit = || match random.below(6) {
        0 => 0,
        1 => random.within(0, 3),
        2 => 4_096,
        3 => most,
        _ => random.within(0, most),
    };
    let limits: Vec<u32> = (0..6).map(|_| limit().into()).collect();
    limits[random.below(7)..].to_vec()
}

/// Up to eight files, the given one among them; the others are small.
fn random_hall(random: &mut Random, file: &[u8]) -> (Vec<Vec<u8>>, usize) {
    let others = random.below(FILES_MOST);
    let mut files: Vec<Vec<u8>> = (0..others).map(|_| accepted_file(random, 4)).collect();
    // Files alike but for their planes, now and then.
    if let (Some(first), true) = (files.first(), random.once_in(3)) {
        if let Ok(frame) = open(first) {
            let last = files.len() - 1;
            files[last] = accepted_file_of(random, &frame.settings);
        }
    }
    let place = random.below(files.len() + 1);
    files.insert(place, file.to_vec());
    (files, place)
}

/// An accepted file among others, halted and finished, its part held against the library's own calls on it alone.
pub fn test(random: &Random, file: &[u8], frame: &Frame, tally: &mut Tally) -> Check {
    let random = &mut random.clone();
    // The whole of a long frame takes long to sort.
    if frame.settings.pixels() > 5_000 {
        return Ok(());
    }
    let (files, place) = random_hall(random, file);
    let mut batch = Batch::of(&files, &[]);
    let pixels = batch.frames()?.iter().map(|frame| frame.settings.pixels()).sum();
    batch.limits = random_limits(random, pixels);
    let left = batch.accepted(random, tally)?;
    if random.once_in(3) {
        test_alone(random, file, &left.cameras[place], tally)?;
        let (others, other_place) = random_hall(random, file);
        let beside = Batch::of(&others, &batch.limits).accepted(random, tally)?;
        let [one, other] = [&left.cameras[place].answers, &beside.cameras[other_place].answers];
        let common = one.len().min(other.len());
        first_difference("answers beside other files", &one[..common], &other[..common])?;
        tally.cameras.beside += 1;
    }
    Ok(())
}

/// The part of a file is what the library leaves of the file alone: by its walk of as many moves, and by its filter.
fn test_alone(random: &mut Random, file: &[u8], camera: &Camera, tally: &mut Tally) -> Check {
    let Some(Stores::Joint { counts, words }) = &camera.stores else { return Ok(()) };
    let settings = &camera.frame.settings;
    let moves = serpentine(settings.width, settings.height);
    let mut lent = Buffers::poisoned(random, &camera.room);
    library::walk(file, Way::Joint.number(), (0, 0), &moves[..camera.answers.len() - 1], &mut lent);
    first_difference("answers of the walk alone", &lent.answers, &camera.answers)?;
    first_difference("counts of the walk alone", &lent.counts, counts)?;
    first_difference("words of the walk alone", &lent.words, words)?;
    library::filter(file, Way::Joint.number(), &mut lent);
    first_difference("answers of the filter alone", &turned(&lent.answers, settings.width), &camera.answers)?;
    tally.cameras.alone += 1;
    Ok(())
}

/// Document 01's A, B and D.
fn bench() -> Result<Vec<Vec<u8>>, String> {
    let row = |kind: u8, guides: u16, radius: u8, values: &[u16], guide: &[u16], table: &[u16]| {
        let (width, smoothing) = (values.len() as u16, u16::from(kind == KIND_GUIDED));
        let settings = Settings { width, height: 1, levels: 8, guides, kind, radius, smoothing };
        written(&settings, values, guide, table)
    };
    Ok(vec![
        row(KIND_GUIDED, 4, 1, &[5, 1, 3], &[0, 0, 2], &[])?,
        row(KIND_GUIDED, 16, 2, &[1, 2, 5, 3, 4], &[7, 7, 15, 7, 0], &[])?,
        row(KIND_TABLE, 2, 1, &[2, 6], &[0, 0], &[0; 4])?,
    ])
}

/// Request 9's hall, and the same with every list of up to three limits from 0 to 4.
pub fn test_bench(random: &mut Random, tally: &mut Tally) -> Check {
    let files = bench()?;
    let turns = [0, 1, 2, 0, 1, 2, 0, 1, 1, 1];
    let rows = [(vec![4, 0, 3], 7, [3, 2, 2]), (vec![4_096], 10, [3, 5, 2]), (vec![2], 2, [1, 1, 0])];
    for (limits, grants, answered) in rows {
        let left = Batch::of(&files, &limits).accepted(random, tally)?;
        same("the bench's turns", &left.served.as_slice(), &&turns[..grants])?;
        let answers: Vec<&[u16]> = left.cameras.iter().map(|camera| camera.answers.as_slice()).collect();
        let filtered = [[1, 3, 3].as_slice(), &[2, 2, 3, 3, 4], &[2, 2]];
        let expected: Vec<&[u16]> = filtered.iter().zip(answered).map(|(all, answered)| &all[..answered]).collect();
        same("the bench's answers", &answers, &expected)?;
    }
    for number in 0..5 * 25 {
        let limits = [number % 5, number / 5 % 5, number / 25];
        for periods in 0..=3 {
            Batch::of(&files, &limits[..periods]).accepted(random, tally)?;
        }
    }
    Ok(())
}

/// Width, height, level count and guide count of small frames.
const SHAPES: [(u16, u16, u16, u16); 7] =
    [(1, 1, 2, 2), (2, 1, 8, 3), (1, 2, 3, 65), (3, 1, 17, 2), (2, 2, 4, 64), (3, 2, 9, 5), (2, 4, 2, 129)];

/// A small frame of either kind, now and then with dead pixels or hollow windows.
fn small_file(random: &mut Random, (width, height, levels, guides): (u16, u16, u16, u16)) -> Result<Vec<u8>, String> {
    let (kind, smoothing) = random.pick(&[(KIND_TABLE, 0), (KIND_GUIDED, 9)]);
    let radius = random.within(0, 2) as u8;
    let settings = Settings { width, height, levels, guides, kind, radius, smoothing };
    match random.below(3) {
        0 if kind == KIND_TABLE => hollow::file(random, &settings).map(|(file, _)| file),
        1 => dead::file(random, &settings).map(|(file, _)| file),
        _ => Ok(accepted_file_of(random, &settings)),
    }
}

fn small_files(random: &mut Random, count: usize) -> Result<Vec<Vec<u8>>, String> {
    let shapes: Vec<_> = (0..count).map(|_| random.pick(&SHAPES)).collect();
    shapes.into_iter().map(|shape| small_file(random, shape)).collect()
}

/// Every pair of shapes and halls of every number of files, halted at each grant: in one period, and in several.
pub fn test_shapes(random: &mut Random, tally: &mut Tally) -> Check {
    let mut halls: Vec<Vec<usize>> = (0..49).map(|pair| vec![pair / 7, pair % 7]).collect();
    for files in (0..=FILES_MOST).chain([3, 3, 4, 5, 8, 8]) {
        halls.push((0..files).map(|_| random.below(SHAPES.len())).collect());
    }
    // Frames that end in one round, in rounds of their own, and by falling number.
    halls.extend([vec![0; 8], (0..7).collect(), (0..7).rev().collect(), vec![0, 6, 0, 6, 0, 6, 0, 6]]);
    for hall in halls {
        let files = hall.iter().map(|&shape| small_file(random, SHAPES[shape])).collect::<Result<Vec<_>, _>>()?;
        let pixels: usize = Batch::of(&files, &[]).frames()?.iter().map(|frame| frame.settings.pixels()).sum();
        for grants in 0..=pixels as u32 + 1 {
            let mut limits = vec![grants];
            Batch::of(&files, &limits).accepted(random, tally)?;
            for _ in 0..random.below(4) {
                let (place, part) = (random.below(limits.len()), random.below(grants as usize + 1) as u32);
                limits.insert(place, part.min(limits[place]));
                limits[place + 1] -= limits[place];
            }
            Batch::of(&files, &limits)
                .accepted(random, tally)
                .map_err(|error| format!("{hall:?}, {limits:?}: {error}"))?;
        }
    }
    Ok(())
}

/// Long periods and many of them: frames that one period does not finish, or exactly, and lists of limits that more than
/// 8 or 16 bits count.
pub fn test_periods(random: &mut Random, tally: &mut Tally) -> Check {
    for (width, height) in [(25, 25), (32, 16)] {
        let shape = (width, height, 9, 3);
        let files = (0..FILES_MOST).map(|_| small_file(random, shape)).collect::<Result<Vec<_>, _>>()?;
        let lists = [vec![4_096], vec![4_096; 2], vec![4_095, 1, 4_096], vec![4_095], vec![4_096, 0, 1], vec![1; 300]];
        for limits in lists {
            Batch::of(&files, &limits).accepted(random, tally)?;
        }
        tally.cameras.long_periods += 1;
    }
    let files = bench()?;
    for periods in [255, 256, 257, 65_535, 65_536, 65_537] {
        for place in [0, periods / 2, periods - 1] {
            let mut limits = vec![0; periods];
            limits[place] = 4;
            Batch::of(&files, &limits).accepted(random, tally)?;
            // A limit is wrong wherever it is, also where all frames are finished long before.
            limits[0] = 4_096;
            limits[place] = 4_097;
            Batch::of(&files, &limits).refused(random, &room_for(&[]), 15, tally)?;
        }
        tally.cameras.many_periods += 1;
    }
    Ok(())
}

/// The largest frame before small ones, halted behind pixel 65,536 and finished: its parts are longer than 16 bits can
/// say, and so is its file.
pub fn test_largest(random: &mut Random, tally: &mut Tally) -> Check {
    let settings =
        Settings { width: 1024, height: 256, levels: 1024, guides: 256, kind: KIND_TABLE, radius: 0, smoothing: 0 };
    let mut plane = |most: u16| -> Vec<u16> { (0..settings.pixels()).map(|_| random.within(0, most)).collect() };
    let (values, guides) = (plane(1023), plane(255));
    let large = written(&settings, &values, &guides, &[])?;
    let files = [vec![large], bench()?].concat();
    for periods in [17, 65] {
        let left = Batch::of(&files, &vec![4_096; periods]).accepted(random, tally)?;
        tally.cameras.largest = tally.cameras.largest.max(left.served.len() as u64);
        same("whether the largest frame is past 16 bits", &(left.cameras[0].answers.len() > 65_536), &true)?;
    }
    let batch = Batch::of(&files, &[1]);
    let needed = room_for(&batch.frames()?);
    for room in 0..3 {
        let mut lent = needed;
        *room_at(&mut lent, room) -= 1;
        batch.refused(random, &lent, 11, tally)?;
        // A length that is the needed one in its low 16 bits.
        let length = room_at(&mut lent, room);
        *length = (*length + 1).saturating_sub(65_536);
        batch.refused(random, &lent, 11, tally)?;
    }
    Ok(())
}

/// The lengths and the limits lie in the file's own first bytes, which no part of it uses.
pub fn test_within_files(random: &mut Random, tally: &mut Tally) -> Check {
    let file = bench()?.swap_remove(0);
    for (first, second) in [(0, 2), (2, 4_096), (1, 1), (0, 4_097)] {
        let bytes =
            [[16 + file.len()].map(usize::to_ne_bytes).concat(), [first, second].map(u32::to_ne_bytes).concat()];
        let bytes = [bytes.concat(), file.clone()].concat();
        let words: Vec<u64> =
            bytes.chunks_exact(8).map(|word| u64::from_ne_bytes(word.try_into().expect("8 bytes"))).collect();
        // SAFETY: the numbers of these words, which are only read.
        let (files, lengths, limits) = unsafe {
            (
                std::slice::from_raw_parts(words.as_ptr().cast::<u8>(), bytes.len()),
                std::slice::from_raw_parts(words.as_ptr().cast::<usize>(), 1),
                std::slice::from_raw_parts(words[1..].as_ptr().cast::<u32>(), 2),
            )
        };
        let given = icemedian::cameras(files, lengths, limits).map(|cameras| cameras.camera(0).answered().to_vec());
        let apart = Batch::of(&[bytes], &[first, second]);
        let expected = apart.make(random, &room_for(&apart.frames()?))?;
        let answers = expected.as_ref().map(|left| left.cameras[0].answers.clone()).map_err(|_| apart.fault());
        same("a hall within its own file", &given, &answers.map_err(|fault| icemedian::Refusal::Batch { fault }))?;
        tally.cameras.within_files += 1;
    }
    Ok(())
}

/// The counts, the words or the answers.
fn room_at(lent: &mut Lengths, room: usize) -> &mut usize {
    match room {
        0 => &mut lent.counts,
        1 => &mut lent.words,
        _ => &mut lent.answers,
    }
}

/// Calls with no file: nothing is granted and nothing is needed, but limits and bytes are looked at.
pub fn test_none(random: &mut Random, tally: &mut Tally) -> Check {
    for limits in [vec![], vec![0], vec![4_096; 3]] {
        let none = Batch::of(&[], &limits);
        none.make(random, &Lengths::default())?.map_err(|refusal| refusal.to_string())?;
        none.accepted(random, tally)?;
    }
    let wrong = |files: &[u8], lengths: &[usize], limits: &[u32]| Batch {
        files: files.to_vec(),
        lengths: lengths.to_vec(),
        limits: limits.to_vec(),
    };
    let (none, room) = (Lengths::default(), Lengths { counts: 9, words: 9, answers: 9, ..Lengths::default() });
    for lent in [none, room] {
        wrong(&[], &[], &[4_097]).refused(random, &lent, 15, tally)?;
        wrong(&[1], &[], &[]).refused(random, &lent, 15, tally)?;
        wrong(&[], &[1], &[]).refused(random, &lent, 15, tally)?;
        wrong(&[], &[0; 9], &[]).refused(random, &lent, 15, tally)?;
        wrong(&[], &[usize::MAX, 1], &[]).refused(random, &lent, 15, tally)?;
        // Files of no byte are files.
        for files in 1..=FILES_MOST {
            wrong(&[], &vec![0; files], &[1]).refused(random, &lent, 1, tally)?;
        }
    }
    Ok(())
}

/// What can be wrong with a call: number 15 for the files, their lengths or the limits; a check from 1 to 7 of a file;
/// 11 for counts, words or answers.
#[derive(Clone, Copy, Debug, PartialEq, Eq)]
pub enum Wrong {
    Files,
    Lengths,
    Limit,
    File(usize, u8),
    Room(usize),
}

/// A call, some of it wrong.
struct Attempt {
    files: Vec<Vec<u8>>,
    batch: Batch,
    needed: Lengths,
    lent: Lengths,
}

impl Attempt {
    /// A call that nothing refuses.
    fn right(random: &mut Random, files: Vec<Vec<u8>>) -> Result<Attempt, String> {
        let mut batch = Batch::of(&files, &[]);
        let needed = room_for(&batch.frames()?);
        batch.limits = random_limits(random, needed.answers);
        Ok(Attempt { files, batch, needed, lent: roomy_parts(random, &needed) })
    }

    /// Makes the call wrong in all these ways; the number that must fire.
    fn spoil(&mut self, random: &mut Random, wrong: &[Wrong]) -> u8 {
        let mut firing: Vec<(usize, u8)> = Vec::new();
        for &wrong in wrong {
            if let Wrong::File(file, number) = wrong {
                // Of two checks the earlier one is damaged last.
                if !firing.iter().any(|&(other, earlier)| other == file + 1 && earlier <= number) {
                    damage(random, &mut self.files[file], number);
                    firing.push((file + 1, number));
                }
            }
        }
        let limits = std::mem::take(&mut self.batch.limits);
        self.batch = Batch::of(&self.files, &limits);
        for &wrong in wrong {
            match wrong {
                Wrong::Files => self.spoil_files(random),
                Wrong::Lengths => self.spoil_lengths(random),
                Wrong::Limit => self.spoil_limits(random),
                Wrong::Room(room) => *room_at(&mut self.lent, room) = self.short(random, room),
                Wrong::File(..) => continue,
            }
            firing.push(if let Wrong::Room(_) = wrong { (usize::MAX, 11) } else { (0, 15) });
        }
        firing.into_iter().min().map_or(0, |(_, number)| number)
    }

    /// One place too few, none, or enough for all files but the last.
    fn short(&self, random: &mut Random, room: usize) -> usize {
        let needed = *room_at(&mut self.needed.clone(), room);
        let but_last = self.files.split_last().and_then(|(_, others)| Batch::of(others, &[]).frames().ok());
        let but_last = but_last.map_or(0, |frames| *room_at(&mut room_for(&frames), room));
        random.pick(&[0, needed - 1, needed - 1, but_last])
    }

    /// Nine files or more: all of them right, or lengths of 0 that add nothing, as many as 8 or 16 bits would cut to 8.
    fn spoil_files(&mut self, random: &mut Random) {
        let lengths = &mut self.batch.lengths;
        if random.once_in(2) {
            let first = self.files[0].clone();
            let more = (FILES_MOST + 1).saturating_sub(lengths.len()) + random.below(3);
            lengths.extend(vec![first.len(); more]);
            self.batch.files.extend(first.repeat(more));
        } else {
            let count =
                random.pick(&[FILES_MOST + 1, FILES_MOST + 1, 256, 256 + lengths.len(), 65_536 + lengths.len()]);
            lengths.resize(count, 0);
        }
    }

    /// Lengths that do not add up, among them some whose sum would if it were cut to 64, 32 or 16 bits.
    fn spoil_lengths(&mut self, random: &mut Random) {
        if self.batch.sum() != self.batch.files.len() as u128 {
            return;
        }
        let (bytes, lengths) = (self.batch.files.len(), &mut self.batch.lengths);
        let (any, last) = (random.below(lengths.len()), lengths.len() - 1);
        match random.below(12) {
            0 => lengths[last] += 1,
            1 => lengths[any] = lengths[any].wrapping_sub(1),
            2 => lengths[0] += 1,
            3 => drop(lengths.pop()),
            4 => lengths.clear(),
            5 => self.batch.files.push(0),
            6 => drop(self.batch.files.pop()),
            7 => lengths[any] += 1 << 32,
            8 => lengths[any] += 1 << 16,
            // Sums that are right but for 2^64 or twice that.
            9 if last > 0 => {
                lengths[0] = lengths[0].wrapping_add(1 << 63);
                lengths[last] = lengths[last].wrapping_add(1 << 63);
            }
            10 if last > 1 => {
                lengths[..2].fill(usize::MAX);
                let others: usize = lengths[2..last].iter().sum();
                lengths[last] = (bytes + 2).wrapping_sub(others);
            }
            _ => *lengths = vec![usize::MAX, bytes + 1],
        }
        // A length of 0 that is taken off changes no sum.
        if self.batch.sum() == self.batch.files.len() as u128 {
            self.batch.files.push(0);
        }
    }

    fn spoil_limits(&mut self, random: &mut Random) {
        let limits = &mut self.batch.limits;
        let limit = random.pick(&[4_097, 4_097, 4_098, 8_192, 65_535, 65_536, 65_540, 1 << 31, u32::MAX]);
        let place = random.below(limits.len() + 1);
        limits.insert(random.pick(&[0, place, limits.len()]), limit);
    }
}

/// Every pair of what can be wrong, on halls of three files; and every check of each of eight.
pub fn test_pairs(random: &mut Random, tally: &mut Tally) -> Check {
    let of_file = |file: usize| (1..8).map(move |number| Wrong::File(file, number));
    let batch = [Wrong::Files, Wrong::Lengths, Wrong::Limit];
    let room = (0..3).map(Wrong::Room);
    let all: Vec<Wrong> = batch.into_iter().chain((0..3).flat_map(of_file)).chain(room).collect();
    for one in &all {
        for other in &all {
            let files = small_files(random, 3)?;
            try_wrong(random, files, &[*one, *other], tally)
                .map_err(|error| format!("{one:?} and {other:?}: {error}"))?;
            tally.cameras.pairs += 1;
        }
    }
    for wrong in (0..FILES_MOST).flat_map(of_file) {
        let files = small_files(random, FILES_MOST)?;
        try_wrong(random, files, &[wrong], tally).map_err(|error| format!("{wrong:?}: {error}"))?;
    }
    Ok(())
}

fn try_wrong(random: &mut Random, files: Vec<Vec<u8>>, wrong: &[Wrong], tally: &mut Tally) -> Check {
    let mut attempt = Attempt::right(random, files)?;
    let number = attempt.spoil(random, wrong);
    attempt.batch.refused(random, &attempt.lent, number, tally)?;
    tally.cameras.count_wrong(wrong);
    Ok(())
}

/// A file among others, and one or two things wrong: with any of them, or with the call.
pub fn test_refused(random: &Random, file: &[u8], tally: &mut Tally) -> Check {
    let random = &mut random.clone();
    for _ in 0..3 {
        let (files, place) = random_hall(random, file);
        let other = random.below(files.len());
        let mut wrong = || match random.below(6) {
            0 => Wrong::Files,
            1 => Wrong::Lengths,
            2 => Wrong::Limit,
            3 => Wrong::File(random.pick(&[place, other]), 1 + random.below(7) as u8),
            _ => Wrong::Room(random.below(3)),
        };
        let both = [wrong(), wrong()];
        let count = 1 + random.below(2);
        try_wrong(random, files, &both[..count], tally).map_err(|error| format!("{both:?}: {error}"))?;
    }
    Ok(())
}

/// A file of the list of damaged ones behind its whole file and before it; it may be accepted.
pub fn test_listed(random: &Random, whole: &[u8], damaged: &[u8], tally: &mut Tally) -> Check {
    let random = &mut random.clone();
    let twice = Batch::of(&[whole.to_vec(), whole.to_vec()], &[]);
    let room = roomy_parts(random, &room_for(&twice.frames()?));
    for files in [[whole, damaged], [damaged, whole]] {
        let batch = Batch::of(&files.map(<[u8]>::to_vec), &[3, 4_096]);
        count(&batch.make(random, &room)?, tally);
    }
    Ok(())
}
