//! Frames of one row, which several tests look at.

// No test uses them all.
#![allow(dead_code)]

use icemedian::{write, Settings, Weights};

pub const GUIDED: Weights = Weights::Guided { smoothing: 1 };

pub fn row(
    levels: u16,
    guides: u16,
    weights: Weights,
    radius: u8,
    values: &[u16],
    guide: &[u16],
    table: &[u16],
) -> Vec<u8> {
    let settings = Settings { width: values.len() as u16, height: 1, levels, guides, weights, radius };
    write(&settings, values, guide, table).unwrap()
}

/// Document 01's bench windows A and B.
pub fn frame_a() -> Vec<u8> {
    row(8, 4, GUIDED, 1, &[5, 1, 3], &[0, 0, 2], &[])
}

pub fn frame_b() -> Vec<u8> {
    b_with(&[1, 2, 5, 3, 4])
}

/// B with other levels.
pub fn b_with(values: &[u16]) -> Vec<u8> {
    row(8, 16, GUIDED, 2, values, &[7, 7, 15, 7, 0], &[])
}

/// Up to 7 levels under two guides and a table of its own, radius 1.
pub fn tabled(values: &[u16], guide: &[u16], table: &[u16; 4]) -> Vec<u8> {
    row(8, 2, Weights::Table, 1, values, guide, table)
}

/// Bench window D, as document 02's request 3 has it.
pub fn frame_d() -> Vec<u8> {
    tabled(&[2, 6], &[0, 0], &[0; 4])
}

/// Only the middle window has nothing that weighs: its guide's row of the table is 0.
pub fn middle() -> Vec<u8> {
    tabled(&[7, 2, 4], &[0, 1, 0], &[1, 1, 0, 0])
}

/// A lamp's reflection alone in its guide class, which has no weight even for itself.
pub fn lamp() -> Vec<u8> {
    tabled(&[2, 7, 4], &[0, 1, 0], &[1, 0, 0, 0])
}
