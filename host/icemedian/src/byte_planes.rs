//! The value plane as byte planes: all high bytes, then all low bytes.

use crate::{raw, Refusal};

/// The file with its value plane split: the high bytes of all values first, then the low bytes. Slowly moving bytes then
/// lie together and pack better. Every other byte stays in its place, and [`join`] gives the very file back. Until then
/// the plane holds no levels, and no other call should be handed the split file.
///
/// ```
/// use icemedian::{join, split, write, Refusal, Settings, Weights};
///
/// let settings = Settings { width: 3, height: 1, levels: 1024, guides: 2, weights: Weights::Table, radius: 1 };
/// let file = write(&settings, &[0x0102, 0x0304, 0x0203], &[0, 1, 0], &[])?;
/// let moved = split(&file)?;
/// assert_eq!((&file[..6], &moved[..6]), ([1, 2, 3, 4, 2, 3].as_slice(), [1, 3, 2, 2, 4, 3].as_slice()));
/// assert_eq!(file[6..], moved[6..]);
/// assert_eq!(join(&moved)?, file);
/// # Ok::<(), Refusal>(())
/// ```
///
/// Document 01 lets the parts of a frame overlap, but a value plane that shares a byte cannot be moved alone:
///
/// ```
/// use icemedian::{join, split, write, Part, Refusal, Settings};
///
/// let settings = Settings { width: 2, height: 1, levels: 4, guides: 4, ..Settings::default() };
/// let mut file = write(&settings, &[3, 0], &[1, 2], &[])?;
/// // The guide plane's distance: one byte more, and it begins with the last value's low byte.
/// let distance = file.len() - 9;
/// file[distance] += 1;
/// let refusal = split(&file).unwrap_err();
/// assert_eq!((refusal, refusal.number()), (Refusal::Overlap { part: Part::Guide }, 14));
/// assert_eq!(refusal.to_string(), "refused 14: the guide plane has a byte in common with the value plane");
/// assert_eq!(join(&file), Err(refusal));
/// # Ok::<(), Refusal>(())
/// ```
pub fn split(file: &[u8]) -> Result<Vec<u8>, Refusal> {
    let mut output = vec![0; file.len()];
    split_into(file, &mut output)?;
    Ok(output)
}

/// The same to the first bytes of a lent output, which needs as many as the file has.
///
/// ```
/// use icemedian::{split_into, write, Refusal, Settings};
///
/// let settings = Settings { width: 2, height: 1, levels: 1024, guides: 4, ..Settings::default() };
/// let file = write(&settings, &[0x0102, 0x0304], &[0, 1], &[])?;
/// let mut output = [9; 37];
/// assert_eq!(split_into(&file, &mut output[..35]), Err(Refusal::Room));
/// assert_eq!(output, [9; 37]);
/// split_into(&file, &mut output)?;
/// assert_eq!((&output[..4], output[36]), ([1, 3, 2, 4].as_slice(), 9));
/// # Ok::<(), Refusal>(())
/// ```
pub fn split_into(file: &[u8], output: &mut [u8]) -> Result<(), Refusal> {
    let mut offset = 0;
    let status = raw::split(file, output, &mut offset);
    Refusal::of_byte_planes(status, offset, file)
}

/// The file that [`split`] was handed, from the file that it gave. Only the trailer is looked at, not what the planes
/// hold: a file that is not split is rearranged all the same.
///
/// ```
/// use icemedian::{join, write, Refusal, Settings};
///
/// let settings = Settings { width: 3, height: 1, levels: 1024, guides: 4, ..Settings::default() };
/// let mut file = write(&settings, &[0; 3], &[0; 3], &[])?;
/// file[..6].copy_from_slice(&[1, 3, 2, 2, 4, 3]);
/// assert_eq!(join(&file)?[..6], [1, 2, 3, 4, 2, 3]);
/// assert_eq!(join(&file[1..]).unwrap_err().number(), 6);
/// # Ok::<(), Refusal>(())
/// ```
pub fn join(file: &[u8]) -> Result<Vec<u8>, Refusal> {
    let mut output = vec![0; file.len()];
    join_into(file, &mut output)?;
    Ok(output)
}

/// The same to the first bytes of a lent output, which needs as many as the file has.
///
/// ```
/// use icemedian::{join_into, write, Refusal, Settings};
///
/// let settings = Settings { width: 2, height: 1, levels: 1024, guides: 4, ..Settings::default() };
/// let file = write(&settings, &[0x0103, 0x0204], &[0, 1], &[])?;
/// let mut output = [9; 37];
/// assert_eq!(join_into(&file, &mut output[..35]), Err(Refusal::Room));
/// assert_eq!(output, [9; 37]);
/// join_into(&file, &mut output)?;
/// assert_eq!((&output[..4], output[36]), ([1, 2, 3, 4].as_slice(), 9));
/// # Ok::<(), Refusal>(())
/// ```
pub fn join_into(file: &[u8], output: &mut [u8]) -> Result<(), Refusal> {
    let status = raw::join(file, output);
    Refusal::of_byte_planes(status, 0, file)
}
