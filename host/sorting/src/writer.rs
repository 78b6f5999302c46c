//! The writer: value plane, guide plane, table, trailer, without gaps.

use crate::frame::{bytes_of, check_planes, trailer_bytes, Asked, Settings, KIND_TABLE};
use crate::refusal::{check, Refusal};

/// Check 6: the lengths of the planes and the table.
fn check_parts(settings: &Settings, values: &[u16], guides: &[u16], table: &[u16]) -> Result<(), Refusal> {
    let plane = settings.pixels();
    let table_fits = table.is_empty() || (settings.kind == KIND_TABLE && table.len() == settings.table_weights());
    check(6, values.len() != plane || guides.len() != plane || !table_fits)
}

/// Writes a frame for an output of `lent` bytes: checks 2 to 7 and 11, then the file's bytes.
pub fn write(asked: &Asked, values: &[u16], guides: &[u16], table: &[u16], lent: usize) -> Result<Vec<u8>, Refusal> {
    let settings = asked.settings()?;
    check_parts(&settings, values, guides, table)?;
    check_planes(&settings, (values, 0), (guides, 2 * values.len()))?;
    let mut file = bytes_of(&[values, guides, table].concat());
    let (all, plane) = (file.len(), 2 * values.len());
    file.extend(trailer_bytes(&settings, [all, all - plane, all - 2 * plane]));
    check(11, lent < file.len())?;
    Ok(file)
}
