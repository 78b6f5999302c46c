//! Number 6 names the part at fault and what it must be.

use icemedian::{check, write, Part, Refusal, Settings, Weights};

fn settings(weights: Weights) -> Settings {
    Settings { width: 3, height: 1, levels: 8, guides: 4, weights, radius: 1 }
}

const GUIDED: Weights = Weights::Guided { smoothing: 1 };
const PLANE: [u16; 3] = [0; 3];

/// A frame's refusal with one of the trailer's distances changed.
fn refused(weights: Weights, table: &[u16], place: usize, distance: u32) -> Refusal {
    let mut file = write(&settings(weights), &PLANE, &PLANE, table).unwrap();
    let start = file.len() - 28 + place;
    file[start..start + 4].copy_from_slice(&distance.to_be_bytes());
    check(&file).unwrap_err()
}

#[test]
fn a_distance_outside() {
    let outside = |part, distance, least, most| Refusal::Distance { part, distance, least, most };
    assert_eq!(refused(GUIDED, &[], 12, 5), outside(Part::Values, 5, 6, 12));
    assert_eq!(refused(GUIDED, &[], 12, u32::MAX), outside(Part::Values, u32::MAX, 6, 12));
    assert_eq!(refused(GUIDED, &[], 16, 13), outside(Part::Guide, 13, 6, 12));
    assert_eq!(refused(GUIDED, &[], 20, 12), outside(Part::Table, 12, 0, 0));
    assert_eq!(refused(Weights::Table, &[0; 16], 20, 31), outside(Part::Table, 31, 32, 44));
    assert_eq!(refused(Weights::Table, &[], 20, 12), outside(Part::Table, 12, 32, 12));
}

#[test]
fn a_length_that_is_wrong() {
    let refused =
        |weights, values: &[u16], guide: &[u16], table: &[u16]| write(&settings(weights), values, guide, table).err();
    let wrong = |part, length, wanted| Some(Refusal::Length { part, length, wanted });
    assert_eq!(refused(GUIDED, &[0; 4], &PLANE, &[]), wrong(Part::Values, 4, 3));
    assert_eq!(refused(GUIDED, &PLANE, &[], &[]), wrong(Part::Guide, 0, 3));
    assert_eq!(refused(GUIDED, &PLANE, &PLANE, &[0; 16]), wrong(Part::Table, 16, 0));
    assert_eq!(refused(Weights::Table, &PLANE, &PLANE, &[0; 15]), wrong(Part::Table, 15, 16));
    assert_eq!(refused(Weights::Table, &PLANE, &PLANE, &[0; 16]), None);
}

#[test]
fn messages_say_what_is_wanted() {
    let said = |refusal: Refusal, words: &str| assert_eq!(refusal.to_string(), format!("refused 6: the {words}"));
    said(refused(GUIDED, &[], 16, 13), "guide plane's distance is 13, and must be 6 to 12");
    said(refused(GUIDED, &[], 20, 12), "table's distance is 12, and must be 0");
    said(refused(Weights::Table, &[0; 16], 20, 31), "table's distance is 31, and must be 32 to 44 or 0");
    said(refused(Weights::Table, &[], 20, 12), "table takes 32 bytes, and before the trailer the file has 12");
    let length = |part, length, wanted| Refusal::Length { part, length, wanted };
    said(length(Part::Values, 4, 3), "value plane has 4 numbers, and must have 3");
    said(length(Part::Table, 15, 16), "table has 15 numbers, and must have 16 or none");
    said(length(Part::Table, 16, 0), "table has 16 numbers, and must have 0");
}
