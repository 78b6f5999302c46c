//! From a picture's values to the steps of a frame and back.

use icemedian::{reading, NO_READING};

/// An even division of the values that occur into at most so many steps. It loses nothing where the
/// values span no more than that. One value may be no reading, which has no step.
#[derive(Clone, Copy, Debug, PartialEq, Eq)]
pub struct Scale {
    dead: Option<u16>,
    least: u32,
    span: u32,
    /// How many steps there are, 2 at least.
    pub steps: u16,
}

impl Scale {
    /// The scale of these values, `dead` being no reading, with at most `steps_most` steps.
    pub fn of(values: &[u16], dead: Option<u16>, steps_most: u16) -> Scale {
        let live = || values.iter().copied().filter(|&value| Some(value) != dead);
        let least = live().min().map_or(0, u32::from);
        let greatest = live().max().map_or(0, u32::from);
        let span = (greatest - least + 1).max(2);
        Scale { dead, least, span, steps: span.min(u32::from(steps_most)) as u16 }
    }

    /// Whether every value has a step of its own.
    pub fn exact(&self) -> bool {
        self.span == u32::from(self.steps)
    }

    /// The step of a value that occurs, or [`NO_READING`].
    pub fn step(&self, value: u16) -> u16 {
        if self.dead == Some(value) {
            return NO_READING;
        }
        ((u32::from(value) - self.least) * u32::from(self.steps) / self.span) as u16
    }

    /// The value in the middle of a step, or that of dead pixels where there is no reading.
    pub fn value(&self, step: u16) -> u16 {
        if let (None, Some(dead)) = (reading(step), self.dead) {
            return dead;
        }
        (self.least + (2 * u32::from(step) + 1) * self.span / (2 * u32::from(self.steps))) as u16
    }

    /// Whether a value is rounded to that of dead pixels, so that nobody could tell them apart.
    pub fn confuses(&self, values: &[u16]) -> bool {
        values.iter().any(|&value| Some(value) != self.dead && Some(self.value(self.step(value))) == self.dead)
    }
}

#[cfg(test)]
mod tests {
    use super::{Scale, NO_READING};

    #[test]
    fn a_small_span_loses_nothing() {
        let scale = Scale::of(&[29_000, 30_023], None, 1024);
        assert!(scale.exact());
        for value in 29_000..=30_023 {
            assert_eq!(scale.value(scale.step(value)), value);
        }
    }

    #[test]
    fn a_large_span_stays_within_half_a_step() {
        let scale = Scale::of(&[0, 65_535], None, 1024);
        assert_eq!((scale.steps, scale.step(0), scale.step(65_535)), (1024, 0, 1023));
        for value in 0..=65_535 {
            assert!(scale.value(scale.step(value)).abs_diff(value) <= 32);
        }
    }

    #[test]
    fn a_flat_picture_has_two_steps() {
        let scale = Scale::of(&[7, 7], None, 256);
        assert_eq!((scale.steps, scale.step(7), scale.value(0)), (2, 0, 7));
    }

    #[test]
    fn dead_pixels_are_no_part_of_the_span() {
        let scale = Scale::of(&[0, 29_000, 0, 30_023], Some(0), 1024);
        assert!(scale.exact());
        assert_eq!([0, 29_000, 30_023].map(|value| scale.step(value)), [NO_READING, 0, 1023]);
        assert_eq!([NO_READING, 0, 1023].map(|step| scale.value(step)), [0, 29_000, 30_023]);
        let all = Scale::of(&[65_535; 2], Some(65_535), 1024);
        assert_eq!((all.steps, all.step(65_535), all.value(NO_READING)), (2, NO_READING, 65_535));
    }

    #[test]
    fn a_value_that_is_rounded_to_the_dead_one_is_confused_with_it() {
        // Steps of 64 values: those from 64 on become 96.
        let values = |value: u16| [0, 65_535, value, 96];
        let confuses = |value: u16| Scale::of(&values(value), Some(96), 1024).confuses(&values(value));
        assert_eq!([63, 64, 95, 97, 127, 128].map(confuses), [false, true, true, true, true, false]);
        // Where nothing is rounded, every value but the dead one is itself.
        let near = [95, 96, 97];
        assert!(!Scale::of(&near, Some(96), 1024).confuses(&near));
    }
}
