//! High bytes first, low bytes after: request 8 of document 02. The value plane is split into its high bytes and its low
//! bytes, or joined from them, and every other byte of the file is copied.

use crate::frame::{locate, open};
use crate::refusal::{check, Refusal};
use std::ops::Range;

/// The high bytes of a plane's numbers, then their low bytes.
pub fn split_plane(plane: &[u8]) -> Vec<u8> {
    let bytes_from = |first: usize| plane.iter().skip(first).step_by(2);
    bytes_from(0).chain(bytes_from(1)).copied().collect()
}

/// The plane that splits into this one: each high byte followed by its low byte.
pub fn join_plane(split: &[u8]) -> Vec<u8> {
    let (high, low) = split.split_at(split.len() / 2);
    high.iter().zip(low).flat_map(|(&high, &low)| [high, low]).collect()
}

/// Checks 1 to 6, then 14: the bytes of the value plane, of which no other part has one.
fn own_bytes(file: &[u8]) -> Result<Range<usize>, Refusal> {
    let (settings, places) = locate(file)?;
    let [values, guides, table] = places.bytes(&settings);
    check(14, values.clone().any(|byte| guides.contains(&byte) || table.contains(&byte)))?;
    Ok(values)
}

/// The file with another value plane.
fn with_plane(file: &[u8], values: Range<usize>, plane: fn(&[u8]) -> Vec<u8>) -> Vec<u8> {
    let mut output = file.to_vec();
    output[values.clone()].copy_from_slice(&plane(&file[values]));
    output
}

/// The split file for an output of `lent` bytes: checks 1 to 6, 14, 7 and 11, in this order.
pub fn split(file: &[u8], lent: usize) -> Result<Vec<u8>, Refusal> {
    let values = own_bytes(file)?;
    open(file)?;
    check(11, lent < file.len())?;
    Ok(with_plane(file, values, split_plane))
}

/// The file that was split, for an output of `lent` bytes: checks 1 to 6, 14 and 11, in this order. The moved plane holds
/// no levels, so check 7 is not made.
pub fn join(file: &[u8], lent: usize) -> Result<Vec<u8>, Refusal> {
    let values = own_bytes(file)?;
    check(11, lent < file.len())?;
    Ok(with_plane(file, values, join_plane))
}
