//! Mistakes about hollow windows, in which every pixel counts 1: in what they answer, add, leave and balance, and
//! ones counted in windows that are not hollow.

use crate::coarse::by_blocks;
use crate::fault::{table_frame, CHOSEN};
use sorting_filter::calls::Walked;
use sorting_filter::frame::{Frame, KIND_GUIDED, NO_READING};
use sorting_filter::store::{self, Stores, Way};
use sorting_filter::walk::{is_mark, plane, Walk};
use sorting_filter::window::Window;

/// How the names of these mistakes begin; for another no window need be looked at again.
const NAMES: [&str; 2] = ["hollow_", "ones_"];

fn chosen() -> Option<&'static str> {
    Some(CHOSEN.as_str()).filter(|chosen| NAMES.iter().any(|name| chosen.starts_with(name)))
}

/// A call that walks.
#[derive(Clone, Copy, PartialEq, Eq)]
pub enum Call {
    Walk,
    Filter,
}

/// A window, and what a mistake looks at beside it.
pub struct Place<'a> {
    frame: &'a Frame,
    pixel: (usize, usize),
    pub window: Window,
}

impl Place<'_> {
    pub fn at(frame: &Frame, pixel: (usize, usize)) -> Place<'_> {
        Place { frame, pixel, window: Window::at(frame, pixel.0, pixel.1) }
    }

    pub fn centre_level(&self) -> u16 {
        self.frame.level(self.pixel.0, self.pixel.1).unwrap_or(NO_READING)
    }

    /// Not hollow, though the centre itself weighs nothing by the table.
    pub fn full_around_the_centre(&self) -> bool {
        let guide = self.frame.guide(self.pixel.0, self.pixel.1);
        !self.window.hollow() && self.frame.table_weight(guide, guide) == 0
    }

    /// Whether the table's whole row is 0, and not only the weights of the window's pixels.
    pub fn row_of_zeros(&self) -> bool {
        let guide = self.frame.guide(self.pixel.0, self.pixel.1);
        (0..self.frame.settings.guides).all(|other| self.frame.table_weight(guide, other) == 0)
    }

    /// The window with every pixel's weight 1.
    fn ones(&self) -> Window {
        let mut window = self.window.clone();
        window.pixels.iter_mut().for_each(|pixel| pixel.own_weight = 1);
        window
    }

    /// The pixels of a window that the boards do not clip.
    pub fn whole_square(&self) -> i64 {
        let side = 2 * i64::from(self.frame.settings.radius) + 1;
        side * side
    }

    /// Whether the weights are kind 2's.
    pub fn guided(&self) -> bool {
        self.frame.settings.kind == KIND_GUIDED
    }

    /// The last guide.
    pub fn last_guide(&self) -> u16 {
        self.frame.settings.guides - 1
    }

    /// The lowest level at which `reached` holds, or the last.
    pub fn lowest(&self, reached: impl Fn(u16) -> bool) -> u16 {
        let last = self.frame.settings.levels - 1;
        (0..last).find(|&level| reached(level)).unwrap_or(last)
    }
}

/// Where in a walk a window stands.
struct Stage {
    way: Way,
    call: Call,
    start: bool,
    after_hollow: bool,
    cut: u16,
}

/// The window's answer with the mistake.
fn answer(chosen: &str, place: &Place, stage: &Stage) -> u16 {
    let window = &place.window;
    if !window.hollow() {
        let ones = match chosen {
            "ones_at_balance_zero" => window.balance(stage.cut) == 0,
            "ones_at_centre_zero" => place.full_around_the_centre(),
            "ones_after_hollow" => stage.after_hollow,
            _ => false,
        };
        return if ones { place.ones().answer() } else { window.answer() };
    }
    match chosen {
        "hollow_old_rule" => place.centre_level(),
        "hollow_centre" => place.centre_level(),
        "hollow_centre_joint" if stage.way == Way::Joint => place.centre_level(),
        "hollow_centre_coarse" if stage.way == Way::Coarse => place.centre_level(),
        "hollow_centre_walk" if stage.call == Call::Walk => place.centre_level(),
        "hollow_centre_filter" if stage.call == Call::Filter => place.centre_level(),
        "hollow_centre_start" if stage.start => place.centre_level(),
        // Half of no weight is reached at once.
        "hollow_level_zero" => 0,
        "hollow_by_row" if !place.row_of_zeros() => 0,
        "hollow_strict_half" => place.lowest(|level| window.balance(level) > 0),
        "hollow_whole_square" => place.lowest(|level| 2 * window.cumulative(level) >= place.whole_square()),
        _ => window.answer(),
    }
}

/// The walk again with the mistake; the cut before its last window.
fn walk_wrongly(chosen: &str, frame: &Frame, way: Way, call: Call, walk: &mut Walk) -> u16 {
    let Walk { answers, shifts, coarse_shifts, cut, visited, hollow, empty } = walk;
    (*shifts, *coarse_shifts, *cut) = (0, 0, 0);
    let mut before = 0;
    let levels = answers.iter_mut().filter(|answer| !is_mark(**answer));
    for (number, (level, &pixel)) in levels.zip(visited.iter()).enumerate() {
        let place = Place::at(frame, pixel);
        before = *cut;
        if empty[number] {
            continue;
        }
        let after_hollow = number > 0 && hollow[number - 1];
        *level = answer(chosen, &place, &Stage { way, call, start: number == 0, after_hollow, cut: before });
        *cut = *level;
        let (mut added, mut blocks) = (level.abs_diff(before), by_blocks(*level));
        if hollow[number] {
            match chosen {
                "hollow_old_rule" => (added, blocks, *cut) = (0, 0, before),
                "hollow_keeps_cut" => *cut = before,
                "hollow_adds_nothing" => added = 0,
                "hollow_coarse_adds_nothing" => blocks = 0,
                "hollow_not_steady" => (added, blocks) = (*level, *level),
                _ => {}
            }
        }
        *shifts += u64::from(added);
        *coarse_shifts += u64::from(blocks);
    }
    before
}

/// Makes the mistake in what a call on a frame of kind 1 leaves after a walk, which `walk` makes again.
pub fn spoil(file: &[u8], call: Call, walked: &mut Walked, walk: impl FnOnce(&Frame) -> Walk) {
    let (Some(chosen), Some(frame)) = (chosen(), table_frame(file)) else { return };
    let way = if matches!(walked.stores, Stores::Coarse { .. }) { Way::Coarse } else { Way::Joint };
    let mut walk = walk(&frame);
    let before = walk_wrongly(chosen, &frame, way, call, &mut walk);
    let answers = match call {
        Call::Walk => walk.answers.clone(),
        Call::Filter => plane(&frame, &walk),
    };
    *walked = Walked::of(&frame, way, &walk, answers);
    let last = Place::at(&frame, walk.last());
    match (&mut walked.stores, chosen) {
        (Stores::Coarse { summary, .. }, "hollow_old_rule") if last.window.hollow() => summary.fill(0),
        (Stores::Coarse { summary, .. }, "hollow_summary_own") if last.window.hollow() => summary.fill(0),
        (Stores::Coarse { summary, .. }, "ones_summary_at_centre_zero") if last.full_around_the_centre() => {
            *summary = store::summary(&frame, &last.ones());
        }
        (Stores::Joint { .. }, "hollow_box_left") if last.window.hollow() => {
            walked.balance_box = store::balance_box(&frame, &Walk { cut: before, ..walk });
        }
        _ => {}
    }
}

/// Makes the mistake in a balance.
pub fn in_balance(file: &[u8], pixel: (usize, usize), level: u32, balance: &mut i64) {
    let (Some(chosen), Some(frame)) = (chosen(), table_frame(file)) else { return };
    let (place, level) = (Place::at(&frame, pixel), level as u16);
    match chosen {
        "hollow_old_rule" if place.window.hollow() => *balance = 0,
        "hollow_balance_zero" if place.window.hollow() => *balance = 0,
        "hollow_balance_twice" if place.window.hollow() => *balance = 2 * place.window.cumulative(level),
        "hollow_balance_square" if place.window.hollow() => {
            *balance = 2 * place.window.cumulative(level) - place.whole_square();
        }
        "ones_balance_at_centre_zero" if place.full_around_the_centre() => *balance = place.ones().balance(level),
        _ => {}
    }
}
