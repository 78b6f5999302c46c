//! Refused calls: the number, the offset, and that no buffer and no result is touched.

use crate::buffers::{compare_all, roomy, Buffers};
use crate::library::{self, Status};
use crate::tally::Tally;
use crate::{same, Check};
use sorting_filter::calls::{self, MOVES_MOST};
use sorting_filter::frame::{number16, open, Frame};
use sorting_filter::random::{damage, moves, start, Random};
use sorting_filter::refusal::Refusal;
use sorting_filter::store::{Lengths, Way};

/// The arguments of a walk, some of them wrong.
struct Attempt {
    way: u32,
    start: (usize, usize),
    moves: Vec<u8>,
    lengths: Lengths,
}

impl Attempt {
    /// Arguments that nothing refuses on an accepted frame.
    fn right(random: &mut Random, frame: &Frame) -> Attempt {
        let serving: Vec<Way> = Way::ALL.into_iter().filter(|way| way.serves(frame.settings.kind)).collect();
        let way = random.pick(&serving);
        let moves = moves(random, &frame.settings, 6);
        let needed = Lengths { answers: 1 + moves.len(), ..Lengths::of_stores(way, &frame.settings) };
        Attempt { way: way.number(), start: start(random, &frame.settings), moves, lengths: roomy(random, &needed) }
    }

    /// Makes check `number`, from 8 to 11, fire.
    fn spoil(&mut self, random: &mut Random, frame: &Frame, number: u8) {
        match number {
            8 => {
                let other_kind = if frame.settings.kind == 1 { random.pick(&[2, 3]) } else { 5 };
                let wide = self.way | random.pick(&[1 << 8, 1 << 16, 1 << 24, 1 << 31]);
                self.way = random.pick(&[0, 5, 255, other_kind, wide, u32::MAX]);
            }
            9 if random.once_in(2) => self.start.0 = outside(random, frame.settings.width),
            9 => self.start.1 = outside(random, frame.settings.height),
            10 => self.moves = random.bytes(MOVES_MOST + 1),
            _ => self.shorten(random, frame),
        }
    }

    /// Makes one buffer that the way uses one place too short, or empty.
    fn shorten(&mut self, random: &mut Random, frame: &Frame) {
        let way = Way::serving(self.way, frame.settings.kind).unwrap_or(Way::Joint);
        let needed = Lengths::of_stores(way, &frame.settings);
        let lent = &mut self.lengths;
        let mut used = vec![
            (&mut lent.answers, 1 + self.moves.len()),
            (&mut lent.counts, needed.counts),
            (&mut lent.words, needed.words),
            (&mut lent.numbers, needed.numbers),
            (&mut lent.summary, needed.summary),
        ];
        used.retain(|&(_, needed)| needed > 0);
        let index = random.below(used.len());
        let (length, needed) = &mut used[index];
        **length = random.pick(&[0, *needed - 1]);
    }
}

/// A place past the last.
fn outside(random: &mut Random, size: u16) -> usize {
    random.pick(&[usize::from(size), usize::from(size) + 1, 65_536, usize::MAX])
}

/// One wrong argument, or two that neighbouring checks look at.
pub fn test_calls(random: &mut Random, file: &[u8], tally: &mut Tally) -> Check {
    let frame = open(file).map_err(|refusal| refusal.to_string())?;
    for number in 8..=11 {
        // A list that is too long is long: try it seldom.
        if number == 10 && !random.once_in(40) {
            continue;
        }
        let mut attempt = Attempt::right(random, &frame);
        attempt.spoil(random, &frame, number);
        // A second mistake, that a later check looks at, must not show.
        if random.once_in(3) {
            attempt.spoil(random, &frame, if number == 8 { 9 } else { 11 });
        }
        try_walk(random, file, &attempt, number, tally)?;
        // The filter has no start and no list. A walk's answers are seldom enough for its plane; with room
        // for that, only way and stores refuse.
        if number == 8 || number == 11 {
            try_filter(random, file, &attempt, tally)?;
            attempt.lengths.answers += frame.settings.pixels();
            try_filter(random, file, &attempt, tally)?;
        }
    }
    test_places(random, file, &frame, tally)
}

/// A damaged file, by one check or two, for every call.
pub fn test_damaged(random: &mut Random, file: &[u8], tally: &mut Tally) -> Check {
    let frame = open(file).map_err(|refusal| refusal.to_string())?;
    let number = 1 + random.below(7) as u8;
    let mut damaged = file.to_vec();
    let mut attempt = Attempt::right(random, &frame);
    if number < 7 && random.once_in(2) {
        damage(random, &mut damaged, number + 1);
    } else if random.once_in(2) {
        let own_check = random.pick(&[8, 9, 11]);
        attempt.spoil(random, &frame, own_check);
    }
    damage(random, &mut damaged, number);
    let opened = open(&damaged);
    if let Err(Refusal { number: 7, offset }) = opened {
        tally.dead.count_refused(number16(&damaged, offset));
    }
    same("check of a damaged file", &library::check(&damaged), &Status::of(&opened))?;
    test_wrapper(&damaged, number)?;
    try_walk(random, &damaged, &attempt, number, tally)?;
    try_filter(random, &damaged, &attempt, tally)?;
    try_balance(&damaged, attempt.start, 0, tally)?;
    try_explain(&damaged, attempt.start, tally)
}

/// The Rust wrapper gives the number, and for 6 a part whose distance is outside.
fn test_wrapper(damaged: &[u8], number: u8) -> Check {
    let refusal = icemedian::check(damaged).err();
    same("the wrapper's number", &refusal.map(|refusal| refusal.number()), &Some(u32::from(number)))?;
    same("the wrapper's refused explanation", &icemedian::explain(damaged, (0, 0)).err(), &refusal)?;
    match refusal {
        Some(icemedian::Refusal::Distance { distance, least, most, .. }) => {
            same("a distance within", &(least..=most).contains(&(distance as usize)), &false)
        }
        _ => Ok(()),
    }
}

fn try_walk(random: &mut Random, file: &[u8], attempt: &Attempt, number: u8, tally: &mut Tally) -> Check {
    let before = Buffers::poisoned(random, &attempt.lengths);
    let mut after = before.clone();
    let result = library::walk(file, attempt.way, attempt.start, &attempt.moves, &mut after);
    let expected = calls::walk(file, attempt.way, attempt.start, &attempt.moves, &attempt.lengths);
    same("the number meant to fire", &expected.as_ref().err().map(|refusal| refusal.number), &Some(number))?;
    library::compare_walk("refused walk", result, &expected)?;
    count(&expected, tally);
    compare_all(&after, &before).map_err(|error| format!("refused walk: {error}"))
}

/// The filter with a walk's arguments, where it refuses them too.
fn try_filter(random: &mut Random, file: &[u8], attempt: &Attempt, tally: &mut Tally) -> Check {
    let expected = calls::filter(file, attempt.way, &attempt.lengths);
    if expected.is_ok() {
        return Ok(());
    }
    let before = Buffers::poisoned(random, &attempt.lengths);
    let mut after = before.clone();
    let result = library::filter(file, attempt.way, &mut after);
    library::compare_filter("refused filter", result, &expected)?;
    count(&expected, tally);
    compare_all(&after, &before).map_err(|error| format!("refused filter: {error}"))
}

/// Balances and explanations of a column, a row or both outside, and a balance of a level outside.
fn test_places(random: &mut Random, file: &[u8], frame: &Frame, tally: &mut Tally) -> Check {
    let (column, row) = start(random, &frame.settings);
    let far = (outside(random, frame.settings.width), outside(random, frame.settings.height));
    for place in [(far.0, row), (column, far.1), far] {
        try_balance(file, place, 0, tally)?;
        try_explain(file, place, tally)?;
    }
    let level = u32::from(frame.settings.levels);
    try_balance(file, (column, row), random.pick(&[level, level + 1, 65_535, 65_536, 65_535 + level, u32::MAX]), tally)
}

fn try_balance(file: &[u8], place: (usize, usize), level: u32, tally: &mut Tally) -> Check {
    let expected = calls::balance(file, place, level);
    library::compare_balance("refused balance", library::balance(file, place, level), &expected)?;
    count(&expected, tally);
    Ok(())
}

fn try_explain(file: &[u8], place: (usize, usize), tally: &mut Tally) -> Check {
    let expected = calls::explain(file, place);
    library::compare_explain("refused explanation", library::explain(file, place), &expected)?;
    count(&expected, tally);
    Ok(())
}

/// Counts a refusal.
pub fn count<T>(result: &Result<T, Refusal>, tally: &mut Tally) {
    if let Err(refusal) = result {
        tally.refusals[usize::from(refusal.number)] += 1;
    }
}
