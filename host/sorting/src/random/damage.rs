//! Damaged files: each change makes one check from 1 to 7 fire and touches no earlier one, or is in the table,
//! which no check refuses for what it holds.

use super::Random;
use crate::frame::{locate, Places, Settings, KIND_GUIDED, NO_READING, TRAILER};

/// Makes check `number` fire on a file that no check from 1 to `number` refuses. To damage a file
/// twice, damage it for the later check first.
pub fn damage(random: &mut Random, file: &mut Vec<u8>, number: u8) {
    match number {
        1 => damage_mark(random, file),
        2 => damage_size(random, file),
        3 => damage_counts(random, file),
        4 => damage_kind(random, file),
        5 => put(file, 9, &[random.pick(&[16, 17, 255])]),
        6 => damage_distances(random, file),
        7 => damage_contents(random, file),
        _ => panic!("no damage for check {number}"),
    }
}

/// Writes bytes at a place of the trailer.
fn put(file: &mut [u8], place: usize, bytes: &[u8]) {
    let start = file.len() - TRAILER + place;
    file[start..start + bytes.len()].copy_from_slice(bytes);
}

fn put16(file: &mut [u8], place: usize, number: u16) {
    put(file, place, &number.to_be_bytes());
}

/// Writes the distance of the value plane, of the guide plane or of the table: part 0, 1 or 2.
pub fn put_distance(file: &mut [u8], part: usize, distance: usize) {
    put(file, 12 + 4 * part, &(distance as u32).to_be_bytes());
}

fn located(file: &[u8]) -> (Settings, Places) {
    locate(file).expect("checks 1 to 6 accept the file")
}

fn damage_mark(random: &mut Random, file: &mut Vec<u8>) {
    if random.once_in(3) {
        let kept = random.below(TRAILER);
        file.drain(..file.len() - kept);
    } else {
        let place = file.len() - 1 - random.below(4);
        file[place] ^= 1 << random.below(8);
    }
}

fn damage_size(random: &mut Random, file: &mut [u8]) {
    match random.below(4) {
        0 => put16(file, 0, random.pick(&[0, 1025, 65_535])),
        1 => put16(file, 2, random.pick(&[0, 1025, 65_535])),
        _ => {
            let (width, height) = random.pick(&[(1024, 257), (257, 1024), (512, 513), (1024, 1024)]);
            put16(file, 0, width);
            put16(file, 2, height);
        }
    }
}

fn damage_counts(random: &mut Random, file: &mut [u8]) {
    if random.once_in(2) {
        put16(file, 4, random.pick(&[0, 1, 1025, 65_535]));
    } else {
        put16(file, 6, random.pick(&[0, 1, 257, 65_535]));
    }
}

fn damage_kind(random: &mut Random, file: &mut [u8]) {
    let kind = file[file.len() - TRAILER + 8];
    if random.once_in(2) {
        put(file, 8, &[random.pick(&[0, 3, 255])]);
    } else if kind == KIND_GUIDED {
        put16(file, 10, random.pick(&[0, 65_026, 65_535]));
    } else {
        put16(file, 10, random.pick(&[1, 64, 65_535]));
    }
}

fn damage_distances(random: &mut Random, file: &mut [u8]) {
    let (settings, _) = located(file);
    let before_file = file.len() - TRAILER + 1;
    let part = random.below(3);
    let short = match part {
        2 if settings.kind == KIND_GUIDED => random.pick(&[1, 8, 131_072]),
        2 => 2 * settings.table_weights() - 1,
        _ => random.pick(&[0, 2 * settings.pixels() - 1]),
    };
    let distance = random.pick(&[short, before_file, u32::MAX as usize]);
    put_distance(file, part, distance);
}

fn damage_contents(random: &mut Random, file: &mut [u8]) {
    let (settings, places) = located(file);
    // A value of 65,535 is no reading, a guide of it is wrong.
    let planes = [(places.values, settings.levels, NO_READING - 1), (places.guides, settings.guides, u16::MAX)];
    let (place, least, most) = random.pick(&planes);
    let offset = place + 2 * random.below(settings.pixels());
    let number = random.ranged(&[(least, least), (least, most), (most, most)]);
    file[offset..offset + 2].copy_from_slice(&number.to_be_bytes());
}

/// Damages the table of an accepted file, which stays accepted: arbitrary bytes, often many alike, in a table
/// that shares none with a plane, or any other place for it before the trailer. False where there is no table.
pub fn damage_table(random: &mut Random, file: &mut [u8]) -> bool {
    let (settings, places) = located(file);
    let Some(place) = places.table else { return false };
    let (length, plane) = (2 * settings.table_weights(), 2 * settings.pixels());
    let apart = |start: usize| start + plane <= place || place + length <= start;
    if apart(places.values) && apart(places.guides) && !random.once_in(3) {
        let alike = random.pick(&[None, Some(0), Some(127), Some(128), Some(255)]);
        for byte in &mut file[place..place + length] {
            *byte = alike.filter(|_| !random.once_in(8)).unwrap_or(random.bits() as u8);
        }
    } else {
        let before = file.len() - TRAILER;
        put_distance(file, 2, length + random.below(before - length + 1));
    }
    true
}

#[cfg(test)]
mod tests {
    use super::super::{accepted_file, Random};
    use super::{damage, damage_table};
    use crate::frame::{locate, open, NO_READING};

    #[test]
    fn random_files_are_accepted() {
        let mut random = Random::new(1);
        for _ in 0..2_000 {
            open(&accepted_file(&mut random, 12)).expect("an accepted frame");
        }
    }

    #[test]
    fn random_files_have_dead_pixels_from_none_to_all() {
        let mut random = Random::new(5);
        let (mut none, mut some, mut all) = (0, 0, 0);
        for _ in 0..2_000 {
            let frame = open(&accepted_file(&mut random, 12)).unwrap();
            let dead = frame.values.iter().filter(|&&value| value == NO_READING).count();
            none += u32::from(dead == 0);
            some += u32::from((1..frame.values.len()).contains(&dead));
            all += u32::from(dead == frame.values.len());
        }
        assert!(none > 500 && some > 500 && all > 50, "{none} {some} {all}");
    }

    #[test]
    fn each_damage_is_refused_by_its_own_number() {
        let mut random = Random::new(2);
        for round in 0..2_100 {
            let number = 1 + (round % 7) as u8;
            let mut file = accepted_file(&mut random, 8);
            damage(&mut random, &mut file, number);
            assert_eq!(open(&file).unwrap_err().number, number);
        }
    }

    #[test]
    fn a_damaged_table_is_accepted() {
        let mut random = Random::new(4);
        let (mut heavy, mut overlapping) = (0, 0);
        for _ in 0..2_000 {
            let mut file = accepted_file(&mut random, 8);
            let before = open(&file).unwrap();
            assert_eq!(damage_table(&mut random, &mut file), !before.table.is_empty());
            let after = open(&file).expect("an accepted frame");
            assert_eq!((&after.values, &after.guides), (&before.values, &before.guides));
            heavy += u32::from(after.table.iter().any(|&weight| weight > 256));
            let (settings, places) = locate(&file).unwrap();
            let (length, plane) = (2 * settings.table_weights(), 2 * settings.pixels());
            let over_values = |place| place < places.values + plane && places.values < place + length;
            overlapping += u32::from(places.table.is_some_and(over_values));
        }
        assert!(heavy > 100 && overlapping > 100, "{heavy} {overlapping}");
    }

    #[test]
    fn of_two_damages_the_earlier_check_decides() {
        let mut random = Random::new(3);
        for round in 0..2_100 {
            let earlier = 1 + (round % 6) as u8;
            let later = earlier + 1 + random.below(usize::from(7 - earlier)) as u8;
            let mut file = accepted_file(&mut random, 8);
            damage(&mut random, &mut file, later);
            damage(&mut random, &mut file, earlier);
            assert_eq!(open(&file).unwrap_err().number, earlier, "with {later}");
        }
    }
}
