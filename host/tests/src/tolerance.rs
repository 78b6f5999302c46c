//! Levels known within a tolerance: both planes, both counts and the stores held against the sorting filter. Every choice
//! of levels of small frames, and choices by chance of all others, show that the two are the least and the greatest answer.

use crate::buffers::first_difference;
use crate::library;
use crate::refusals::count;
use crate::tally::Tally;
use crate::writing::written;
use crate::{same, Check};
use icemedian::raw::LentTwo;
use sorting_filter::frame::{bytes_of, open, trailer_bytes, Frame, Settings, KIND_GUIDED, KIND_TABLE, NO_READING};
use sorting_filter::random::{damage, kill, random_classes, random_guides, random_table, random_values, Random};
use sorting_filter::refusal::Refusal;
use sorting_filter::store::Stores;
use sorting_filter::tolerance::{tolerance, Lengths, Tolerated};
use sorting_filter::walk::filter;

/// The buffers of the call: filled with arbitrary bits before it, compared as a whole after it.
#[derive(Clone)]
pub struct Two {
    counts: Vec<u16>,
    words: Vec<u64>,
    least: Vec<u16>,
    greatest: Vec<u16>,
}

impl Two {
    fn poisoned(random: &mut Random, lengths: &Lengths) -> Two {
        let mut numbers = |length: usize| (0..length).map(|_| random.bits() as u16).collect();
        let (counts, least, greatest) = (numbers(lengths.counts), numbers(lengths.least), numbers(lengths.greatest));
        Two { counts, words: (0..lengths.words).map(|_| random.bits()).collect(), least, greatest }
    }

    /// All buffers, for one call.
    pub fn lend(&mut self) -> LentTwo<'_> {
        LentTwo {
            counts: &mut self.counts,
            words: &mut self.words,
            least: &mut self.least,
            greatest: &mut self.greatest,
        }
    }

    /// What the buffers must hold after a call that leaves `bounds`.
    fn after(mut self, bounds: &Tolerated) -> Two {
        if let Stores::Joint { counts, words } = &bounds.stores {
            self.counts[..counts.len()].copy_from_slice(counts);
            self.words[..words.len()].copy_from_slice(words);
        }
        self.least[..bounds.least.len()].copy_from_slice(&bounds.least);
        self.greatest[..bounds.greatest.len()].copy_from_slice(&bounds.greatest);
        self
    }
}

fn compare_all(library: &Two, expected: &Two) -> Check {
    first_difference("least", &library.least, &expected.least)?;
    first_difference("greatest", &library.greatest, &expected.greatest)?;
    first_difference("counts", &library.counts, &expected.counts)?;
    first_difference("words", &library.words, &expected.words)
}

/// Lengths a little above the needed ones.
fn roomy(random: &mut Random, needed: &Lengths) -> Lengths {
    let mut more = |length: usize| length + 1 + random.below(9);
    Lengths {
        counts: more(needed.counts),
        words: more(needed.words),
        least: more(needed.least),
        greatest: more(needed.greatest),
    }
}

/// One call with buffers of these lengths, compared with the sorting filter in status, counts and all buffers; what it
/// gives, with the library's own planes.
fn call(
    random: &mut Random,
    file: &[u8],
    upper: &[u16],
    lengths: &Lengths,
) -> Result<Result<Tolerated, Refusal>, String> {
    let before = Two::poisoned(random, lengths);
    let (mut after, lent) = (before.clone(), upper.to_vec());
    let result = library::tolerance(file, upper, &mut after);
    let mut expected = tolerance(file, &lent, lengths);
    library::compare_tolerance("tolerance", result, &expected)?;
    same("the upper levels after the call", &upper, &lent.as_slice())?;
    let right = match &expected {
        Ok(bounds) => before.after(bounds),
        Err(_) => before,
    };
    compare_all(&after, &right).map_err(|error| format!("tolerance: {error}"))?;
    if let Ok(bounds) = &mut expected {
        let pixels = bounds.least.len();
        bounds.least.copy_from_slice(&after.least[..pixels]);
        bounds.greatest.copy_from_slice(&after.greatest[..pixels]);
    }
    Ok(expected)
}

/// Upper levels of a frame: its own, one or two above, the last for all or for some, a few raised, or any.
fn random_upper(random: &mut Random, frame: &Frame) -> Vec<u16> {
    let last = frame.settings.levels - 1;
    let sort = random.below(7);
    let mut raise = |level: u16| match sort {
        0 => level,
        1 => level + random.within(1, 2).min(last - level),
        2 => last,
        3 => random.pick(&[level, last]),
        4 if !random.once_in(8) => level,
        5 => random.within(level, level + (last - level).min(20)),
        _ => random.within(level, last),
    };
    frame.values.iter().map(|&value| if value == NO_READING { value } else { raise(value) }).collect()
}

/// A choice of levels between two planes: each by chance, each at one end, or all at the lower end but for one.
fn random_choice(random: &mut Random, lower: &[u16], upper: &[u16]) -> Vec<u16> {
    let (sort, one) = (random.below(4), random.below(lower.len()));
    let mut choose = |pixel: usize, low: u16, high: u16| match sort {
        0 => random.pick(&[low, high]),
        1 if pixel == one => high,
        1 => low,
        _ => random.within(low, high),
    };
    lower.iter().zip(upper).enumerate().map(|(pixel, (&low, &high))| choose(pixel, low, high)).collect()
}

/// An accepted frame of kind 1 with upper levels by chance, or one of kind 2, which is refused.
pub fn test(random: &mut Random, file: &[u8], frame: &Frame, tally: &mut Tally) -> Check {
    let upper = random_upper(random, frame);
    if frame.settings.kind == KIND_GUIDED {
        let lengths = roomy(random, &Lengths::needed(&frame.settings));
        return try_refused(random, file, &upper, &lengths, 8, tally);
    }
    let bounds = test_upper(random, file, frame, &upper, tally)?;
    test_choices(random, frame, &upper, &bounds, tally)
}

fn test_upper(
    random: &mut Random,
    file: &[u8],
    frame: &Frame,
    upper: &[u16],
    tally: &mut Tally,
) -> Result<Tolerated, String> {
    let needed = Lengths::needed(&frame.settings);
    let exact = random.once_in(3);
    let lengths = if exact { needed } else { roomy(random, &needed) };
    let bounds = call(random, file, upper, &lengths)?.map_err(|refusal| refusal.to_string())?;
    tally.tolerance.exact += u64::from(exact);
    tally.tolerance.count(frame, upper, &bounds);
    if random.once_in(4) {
        test_wrapper(file, upper, &bounds)?;
    }
    Ok(bounds)
}

fn test_wrapper(file: &[u8], upper: &[u16], bounds: &Tolerated) -> Check {
    let given = icemedian::tolerance(file, upper).map_err(|refusal| refusal.to_string())?;
    same("wrapper's least", &given.least, &bounds.least)?;
    same("wrapper's greatest", &given.greatest, &bounds.greatest)?;
    let none = |&least: &u16| least == NO_READING;
    let without = given.readings().filter(Option::is_none).count();
    same("wrapper's windows without a reading", &without, &bounds.least.iter().filter(|least| none(least)).count())?;
    let shifts = (bounds.least_shifts, bounds.greatest_shifts);
    same("wrapper's shifts", &(given.least_shifts, given.greatest_shifts), &shifts)
}

/// Choices by chance lie between the library's planes at every pixel.
fn test_choices(random: &mut Random, frame: &Frame, upper: &[u16], bounds: &Tolerated, tally: &mut Tally) -> Check {
    for _ in 0..2 {
        let choice = random_choice(random, &frame.values, upper);
        for (pixel, answer) in filter(&frame.with_values(&choice)).0.into_iter().enumerate() {
            let (least, greatest) = (bounds.least[pixel], bounds.greatest[pixel]);
            if answer < least || greatest < answer {
                return Err(format!("a choice answers {answer} at pixel {pixel}, outside {least} to {greatest}"));
            }
            tally.tolerance.between += u64::from(least < answer && answer < greatest);
        }
        tally.tolerance.choices += 1;
    }
    Ok(())
}

/// Request 7's row.
pub fn test_row(random: &mut Random, tally: &mut Tally) -> Check {
    let settings = Settings { width: 5, height: 1, levels: 8, guides: 4, kind: KIND_TABLE, radius: 1, smoothing: 0 };
    let file = written(&settings, &[5, 1, 3, 2, 7], &[0, 0, 2, 1, 3], &[])?;
    let frame = open(&file).map_err(|refusal| refusal.to_string())?;
    let upper = vec![6, 1, 5, 4, 7];
    let bounds = test_upper(random, &file, &frame, &upper, tally)?;
    same("request 7's least", &(bounds.least, bounds.least_shifts), &(vec![1, 3, 2, 3, 7], 9))?;
    same("request 7's greatest", &(bounds.greatest, bounds.greatest_shifts), &(vec![1, 5, 4, 5, 7], 9))?;
    // Cut to 16 bits these lengths would be too short for a buffer, and one would be right for the upper levels.
    for length in [65_536, 65_540, 65_541, 131_072] {
        let lengths = Lengths { counts: length, words: length, least: length, greatest: length };
        call(random, &file, &upper, &lengths)?.map_err(|refusal| refusal.to_string())?;
        tally.tolerance.wide += 1;
        try_refused(random, &file, &vec![7; length], &lengths, 13, tally)?;
    }
    Ok(())
}

/// Width, height, level count, guide count and radius of frames of which every choice is filtered: single pixels, rows,
/// columns, windows clipped on all sides and none, of themselves alone and of the whole picture.
const SHAPES: [(u16, u16, u16, u16, u8); 12] = [
    (1, 1, 8, 2, 1),
    (2, 1, 1024, 2, 1),
    (5, 1, 8, 4, 1),
    (9, 1, 3, 2, 1),
    (1, 6, 8, 3, 1),
    (7, 1, 33, 65, 2),
    (2, 2, 17, 256, 1),
    (3, 2, 8, 64, 0),
    (3, 3, 5, 3, 1),
    (3, 3, 1024, 4, 15),
    (4, 3, 2, 2, 1),
    (5, 4, 8, 3, 2),
];
/// Frames of each shape, and the most choices of one.
const FRAMES: usize = 10;
const CHOICES_MOST: usize = 1_200;

/// Small frames, every choice of each.
pub fn test_all_choices(random: &mut Random, tally: &mut Tally) -> Check {
    for (width, height, levels, guides, radius) in SHAPES {
        let settings = Settings { width, height, levels, guides, kind: KIND_TABLE, radius, smoothing: 0 };
        for number in 0..FRAMES {
            test_every_choice(random, &settings, number, tally).map_err(|error| format!("{settings:?}: {error}"))?;
        }
    }
    Ok(())
}

/// The built-in weights, a table of its own, or guides and weights that leave hollow windows.
fn random_weights(random: &mut Random, settings: &Settings, number: usize) -> (Vec<u16>, Vec<u16>) {
    match number % 3 {
        0 => (random_guides(random, settings), Vec::new()),
        1 => (random_guides(random, settings), random_table(random, settings)),
        _ => random_classes(random, settings),
    }
}

/// Upper levels by single steps, for as long as there are not too many choices; and how many there are.
fn few_choices(random: &mut Random, frame: &Frame) -> (Vec<u16>, usize) {
    let (mut upper, mut choices) = (frame.values.clone(), 1);
    for _ in 0..40 {
        let pixel = random.below(upper.len());
        let width = usize::from(upper[pixel] - frame.values[pixel]) + 1;
        let more = choices / width * (width + 1);
        if upper[pixel] < frame.settings.levels - 1 && more <= CHOICES_MOST {
            upper[pixel] += 1;
            choices = more;
        }
    }
    (upper, choices)
}

/// The next choice, the first pixel moving fastest; false after the last.
fn step(choice: &mut [u16], lower: &[u16], upper: &[u16]) -> bool {
    for (pixel, level) in choice.iter_mut().enumerate() {
        if *level < upper[pixel] {
            *level += 1;
            return true;
        }
        *level = lower[pixel];
    }
    false
}

fn test_every_choice(random: &mut Random, settings: &Settings, number: usize, tally: &mut Tally) -> Check {
    let mut values = random_values(random, settings);
    if number % 5 == 4 {
        kill(random, settings, &mut values);
    }
    let (guides, table) = random_weights(random, settings, number);
    let file = written(settings, &values, &guides, &table)?;
    let frame = open(&file).map_err(|refusal| refusal.to_string())?;
    let (upper, choices) = few_choices(random, &frame);
    let bounds = test_upper(random, &file, &frame, &upper, tally)?;
    let (mut choice, mut met) = (values.clone(), 0);
    let (mut least, mut greatest) = (vec![NO_READING; values.len()], vec![0; values.len()]);
    loop {
        let answers = filter(&frame.with_values(&choice)).0;
        least.iter_mut().zip(&answers).for_each(|(least, &answer)| *least = answer.min(*least));
        greatest.iter_mut().zip(&answers).for_each(|(greatest, &answer)| *greatest = answer.max(*greatest));
        met += 1;
        if !step(&mut choice, &values, &upper) {
            break;
        }
    }
    same("how many choices there are", &met, &choices)?;
    same("the least over every choice", &bounds.least, &least)?;
    same("the greatest over every choice", &bounds.greatest, &greatest)?;
    tally.tolerance.whole_frames += 1;
    tally.tolerance.whole_choices += met as u64;
    tally.tolerance.whole_apart +=
        least.iter().zip(&greatest).filter(|(least, greatest)| least < greatest).count() as u64;
    Ok(())
}

/// The largest frame, with two answers at most pixels, and upper levels that are wrong at its first pixel, its last or any.
pub fn test_largest(random: &mut Random, tally: &mut Tally) -> Check {
    let settings =
        Settings { width: 1024, height: 256, levels: 1024, guides: 256, kind: KIND_TABLE, radius: 1, smoothing: 0 };
    let mut plane = |most: u16| -> Vec<u16> { (0..settings.pixels()).map(|_| random.within(0, most)).collect() };
    let (values, guides) = (plane(1022), plane(255));
    let file = written(&settings, &values, &guides, &[])?;
    let frame = open(&file).map_err(|refusal| refusal.to_string())?;
    let upper: Vec<u16> = values.iter().map(|&value| random.within(value + 1, 1023)).collect();
    let bounds = test_upper(random, &file, &frame, &upper, tally)?;
    let apart = bounds.least.iter().zip(&bounds.greatest).filter(|(least, greatest)| least < greatest).count();
    same("whether most of the largest frame's pixels have two answers", &(2 * apart > settings.pixels()), &true)?;
    let lengths = Lengths::needed(&settings);
    for wrong in Wrong::ALL.into_iter().cycle().take(12) {
        let mut upper = upper.clone();
        same("whether the largest frame can be wrong", &wrong.spoil(random, &frame, &mut upper), &true)?;
        try_refused(random, &file, &upper, &lengths, 13, tally)?;
    }
    Ok(())
}

/// The upper levels lie in the file itself, whose numbers then stand where 16-bit numbers may: between its planes, where
/// no part is, or where its values are, whose two bytes are alike.
pub fn test_within_file(random: &mut Random, tally: &mut Tally) -> Check {
    for number in 0..20 {
        let (width, height) = (random.within(1, 9), random.within(1, 9));
        let settings = Settings { width, height, levels: 1024, guides: 4, kind: KIND_TABLE, radius: 1, smoothing: 0 };
        let pixels = settings.pixels();
        let values: Vec<u16> = (0..pixels).map(|_| random.pick(&[0, 257, 514, 771, NO_READING])).collect();
        let guides = random_guides(random, &settings);
        let raise = |&value: &u16| if value == NO_READING { value } else { random.within(value, 1023) };
        let upper: Vec<u16> = values.iter().map(raise).collect();
        let between: Vec<u8> = upper.iter().flat_map(|level| level.to_ne_bytes()).collect();
        let trailer = trailer_bytes(&settings, [6 * pixels, 2 * pixels, 0]);
        let bytes = [bytes_of(&values), between, bytes_of(&guides), trailer].concat();
        let numbers: Vec<u16> = bytes.chunks_exact(2).map(|two| u16::from_ne_bytes([two[0], two[1]])).collect();
        // SAFETY: the bytes of these numbers, which are only read.
        let file = unsafe { std::slice::from_raw_parts(numbers.as_ptr().cast::<u8>(), 2 * numbers.len()) };
        let frame = open(file).map_err(|refusal| refusal.to_string())?;
        let place = if number % 2 == 0 { pixels } else { 0 };
        test_upper(random, file, &frame, &numbers[place..place + pixels], tally)?;
        tally.tolerance.within_file += 1;
    }
    Ok(())
}

/// What can be wrong with upper levels.
#[derive(Clone, Copy, Debug, PartialEq, Eq)]
pub enum Wrong {
    Length,
    Above,
    Outside,
    OneDead,
}

impl Wrong {
    pub const ALL: [Wrong; 4] = [Wrong::Length, Wrong::Above, Wrong::Outside, Wrong::OneDead];

    /// Makes upper levels wrong in this one way; false where the frame has no pixel for it.
    fn spoil(self, random: &mut Random, frame: &Frame, upper: &mut Vec<u16>) -> bool {
        let levels = frame.settings.levels;
        if self == Wrong::Length {
            let length = random.pick(&[0, upper.len() - 1, upper.len() + 1, 2 * upper.len(), upper.len() + 65_536]);
            let last = upper[upper.len() - 1];
            upper.resize(length, last);
            return true;
        }
        let able = |&pixel: &usize| {
            let reading = frame.values[pixel];
            pixel < upper.len()
                && (self == Wrong::OneDead || reading != NO_READING)
                && (self != Wrong::Above || reading > 0)
        };
        let pixels: Vec<usize> = (0..frame.values.len()).filter(able).collect();
        let (Some(&first), Some(&last)) = (pixels.first(), pixels.last()) else { return false };
        let any = random.pick(&pixels);
        let pixel = random.pick(&[first, last, any, any]);
        let reading = frame.values[pixel];
        upper[pixel] = match self {
            Wrong::Above => random.ranged(&[(0, 0), (0, reading - 1), (reading - 1, reading - 1)]),
            Wrong::Outside => {
                random.pick(&[levels, levels, levels + 1, 1024, 32_768, 65_279, 65_533, 65_534]).max(levels)
            }
            _ if reading != NO_READING => NO_READING,
            _ => random.pick(&[0, levels - 1, levels, 65_534]),
        };
        true
    }
}

/// Makes one buffer one place too short, or empty; its place among the four.
fn shorten(random: &mut Random, frame: &Frame, lengths: &mut Lengths) -> usize {
    let needed = Lengths::needed(&frame.settings);
    let index = random.below(4);
    let (length, needed) = [
        (&mut lengths.counts, needed.counts),
        (&mut lengths.words, needed.words),
        (&mut lengths.least, needed.least),
        (&mut lengths.greatest, needed.greatest),
    ]
    .into_iter()
    .nth(index)
    .expect("one of four");
    *length = random.pick(&[0, needed - 1]);
    index
}

/// Every wrong argument, alone and with one that a later check looks at.
pub fn test_refused(random: &mut Random, file: &[u8], tally: &mut Tally) -> Check {
    let frame = open(file).map_err(|refusal| refusal.to_string())?;
    let right = random_upper(random, &frame);
    let lengths = roomy(random, &Lengths::needed(&frame.settings));
    let guided = frame.settings.kind == KIND_GUIDED;
    for wrong in Wrong::ALL {
        let (mut upper, mut lengths) = (right.clone(), lengths);
        if !wrong.spoil(random, &frame, &mut upper) {
            continue;
        }
        tally.tolerance.wrong[wrong as usize] += u64::from(!guided);
        tally.tolerance.kind_and_upper += u64::from(guided);
        if random.once_in(3) {
            shorten(random, &frame, &mut lengths);
            tally.tolerance.upper_and_room += u64::from(!guided);
        } else if random.once_in(3) && wrong != Wrong::Length {
            let more = random.pick(&Wrong::ALL);
            more.spoil(random, &frame, &mut upper);
        }
        try_refused(random, file, &upper, &lengths, if guided { 8 } else { 13 }, tally)?;
    }
    let mut short = lengths;
    let index = shorten(random, &frame, &mut short);
    tally.tolerance.short[index] += u64::from(!guided);
    tally.tolerance.kind_and_room += u64::from(guided);
    try_refused(random, file, &right, &short, if guided { 8 } else { 11 }, tally)
}

/// A damaged file with upper levels or buffers that are wrong too.
pub fn test_damaged(random: &mut Random, file: &[u8], tally: &mut Tally) -> Check {
    let frame = open(file).map_err(|refusal| refusal.to_string())?;
    let (mut upper, mut lengths) = (random_upper(random, &frame), roomy(random, &Lengths::needed(&frame.settings)));
    let number = 1 + random.below(7) as u8;
    let wrong = random.pick(&Wrong::ALL);
    // The place of the later check among 8, 13 and 11.
    let later = match random.below(3) {
        _ if frame.settings.kind == KIND_GUIDED => Some(0),
        0 | 1 if wrong.spoil(random, &frame, &mut upper) => Some(1),
        2 => {
            shorten(random, &frame, &mut lengths);
            Some(2)
        }
        _ => None,
    };
    later.into_iter().for_each(|place| tally.tolerance.damaged[usize::from(number) - 1][place] += 1);
    let mut damaged = file.to_vec();
    damage(random, &mut damaged, number);
    try_refused(random, &damaged, &upper, &lengths, number, tally)
}

/// A file of the list of damaged ones, with the whole file's own values as upper levels; it may be accepted.
pub fn test_listed(random: &mut Random, whole: &[u8], damaged: &[u8], tally: &mut Tally) -> Check {
    let frame = open(whole).map_err(|refusal| refusal.to_string())?;
    let lengths = roomy(random, &Lengths::needed(&frame.settings));
    let expected = call(random, damaged, &frame.values, &lengths)?;
    count(&expected, tally);
    Ok(())
}

/// A call that must be refused with this number, by the Rust wrapper too where its own buffers do not help.
fn try_refused(
    random: &mut Random,
    file: &[u8],
    upper: &[u16],
    lengths: &Lengths,
    number: u8,
    tally: &mut Tally,
) -> Check {
    let expected = call(random, file, upper, lengths)?;
    same("the number meant to fire", &expected.as_ref().err().map(|refusal| refusal.number), &Some(number))?;
    count(&expected, tally);
    if number == 11 || random.once_in(2) {
        return Ok(());
    }
    let refusal = icemedian::tolerance(file, upper).err();
    same("the wrapper's number", &refusal.map(|refusal| refusal.number()), &Some(u32::from(number)))?;
    if number == 13 {
        let frame = open(file).map_err(|refusal| refusal.to_string())?;
        same("the wrapper's reason", &refusal, &Some(reason(&frame, upper)))?;
    }
    Ok(())
}

/// What the wrapper must say: a wrong length, or the first pixel at fault.
fn reason(frame: &Frame, upper: &[u16]) -> icemedian::Refusal {
    if upper.len() != frame.values.len() {
        return icemedian::Refusal::UpperLength { length: upper.len(), wanted: frame.values.len() };
    }
    let pixel = (0..upper.len()).find(|&pixel| !frame.spans(frame.values[pixel], upper[pixel]));
    let pixel = pixel.expect("a pixel at fault");
    icemedian::Refusal::UpperLevel { pixel, reading: frame.values[pixel], upper: upper[pixel] }
}
