//! Explanations of accepted frames, held against the sorting filter, the library's own balances on both sides of half
//! and its filtered plane.

use crate::frames::{lonely, place, test_accepted, tries};
use crate::library;
use crate::tally::Tally;
use crate::{same, Check};
use icemedian::raw::Explained;
use sorting_filter::explain::{Cause, Explanation};
use sorting_filter::frame::{Frame, NO_READING};
use sorting_filter::random::Random;
use sorting_filter::window::Window;

/// Every pixel of a small frame, a few of another; `plane` is what the library filters it to.
pub fn test(random: &mut Random, file: &[u8], frame: &Frame, plane: &[u16], tally: &mut Tally) -> Check {
    for pixel in tries(random, frame.settings.pixels()) {
        let place = place(&frame.settings, pixel);
        let level = test_at(file, frame, place, tally)?;
        same(&format!("the level explained and the one filtered at {place:?}"), &level, &plane[pixel])?;
        if random.once_in(4) {
            test_wrapper(file, frame, place)?;
        }
    }
    Ok(())
}

/// Frames whose windows are seldom steady, with few levels and many: weights below 0 under an answer and above it.
pub fn test_lonely(random: &mut Random, tally: &mut Tally) -> Check {
    for levels in [2, 3, 4, 8, 17, 1024] {
        for radius in [1, 1, 1, 2, 2, 3] {
            let (_, file) = lonely(random, levels, radius)?;
            test_accepted(random, &file, tally)
                .map_err(|error| format!("{levels} levels, radius {radius}: {error}"))?;
        }
    }
    Ok(())
}

/// One pixel's explanation; its level.
pub fn test_at(file: &[u8], frame: &Frame, place: (usize, usize), tally: &mut Tally) -> Result<u16, String> {
    let why = Explanation::of(&Window::at(frame, place.0, place.1));
    library::compare_explain(&format!("explanation at {place:?}"), library::explain(file, place), &Ok(why))?;
    let balance = |level: u16, sum: i64| {
        let what = format!("balance at {place:?} and level {level}, by its explanation");
        library::compare_balance(&what, library::balance(file, place, level.into()), &Ok(2 * sum - why.total))
    };
    if why.cause == Cause::Empty {
        // No level is the answer: the balance is 0 at all.
        balance(0, why.below)?;
        balance(frame.settings.levels - 1, why.reached)?;
    } else {
        balance(why.level, why.reached)?;
        if why.level > 0 {
            balance(why.level - 1, why.below)?;
        }
    }
    tally.explained.count(&why);
    Ok(why.level)
}

/// The Rust wrapper's explanation, its cause by name.
fn test_wrapper(file: &[u8], frame: &Frame, place: (usize, usize)) -> Check {
    let why = icemedian::explain(file, place).map_err(|refusal| refusal.to_string())?;
    let icemedian::Explanation { pixels, total, level, below, reached, cause } = why;
    let expected = Explanation::of(&Window::at(frame, place.0, place.1));
    same("whether the wrapper's explanation has a level", &level.is_none(), &(expected.cause == Cause::Empty))?;
    let level = level.unwrap_or(NO_READING);
    let given = Explained { pixels, total, level, below, reached, cause: cause as u32 };
    same("wrapper's explanation", &given, &library::explained(&expected))?;
    same("wrapper's cause", &format!("{cause:?}"), &format!("{:?}", expected.cause))
}
