//! The trailer of a written frame, byte by byte as document 01 lists it; and number 7 at every place of a plane, written
//! and read.

use icemedian::{check, write, Refusal, Settings, Weights};

/// The last 28 bytes of a frame of 258 by 3 pixels with 772 levels, all its pixels 0.
fn trailer(guides: u16, weights: Weights, table: &[u16]) -> Vec<u8> {
    let settings = Settings { width: 0x0102, height: 3, levels: 0x0304, guides, weights, radius: 9 };
    let plane = [0; 0x0102 * 3];
    let file = write(&settings, &plane, &plane, table).unwrap();
    assert_eq!(file.len(), 4 * plane.len() + 2 * table.len() + 28);
    file[file.len() - 28..].to_vec()
}

#[test]
fn each_number_stands_in_its_place() {
    let guided = [
        [0x01, 0x02, 0x00, 0x03], // width, height
        [0x03, 0x04, 0x01, 0x00], // level count, guide count
        [0x02, 0x09, 0x05, 0x06], // kind, radius, smoothing
        [0x00, 0x00, 0x0c, 0x18], // the value plane begins 3,096 bytes before the trailer
        [0x00, 0x00, 0x06, 0x0c], // the guide plane 1,548
        [0x00, 0x00, 0x00, 0x00], // no table
        [0x49, 0x43, 0x45, 0x31],
    ];
    assert_eq!(trailer(256, Weights::Guided { smoothing: 0x0506 }, &[]), guided.concat());
}

#[test]
fn a_table_moves_the_planes_back() {
    let table = [
        [0x01, 0x02, 0x00, 0x03],
        [0x03, 0x04, 0x01, 0x00],
        [0x01, 0x09, 0x00, 0x00], // kind 1 has no smoothing
        [0x00, 0x02, 0x0c, 0x18], // 131,072 bytes of weights lie behind the planes
        [0x00, 0x02, 0x06, 0x0c],
        [0x00, 0x02, 0x00, 0x00],
        [0x49, 0x43, 0x45, 0x31],
    ];
    assert_eq!(trailer(256, Weights::Table, &vec![1; 256 * 256]), table.concat());
    // The built-in weights are no table of the file's.
    let built_in = trailer(256, Weights::Table, &[]);
    assert_eq!(built_in[12..24], [0, 0, 0x0c, 0x18, 0, 0, 0x06, 0x0c, 0, 0, 0, 0]);
}

/// Check 7 looks at 64 numbers at a time: planes that end about such a run, a number too large at each place in turn,
/// alone and before another one.
#[test]
fn a_number_too_large_at_every_place() {
    let refused = |place: usize| Err(Refusal::Contents { offset: 2 * place as u64 });
    for width in [1, 63, 64, 65, 127, 128, 129, 200] {
        let settings = Settings { width, height: 1, levels: 300, guides: 64, ..Settings::default() };
        let pixels = usize::from(width);
        let (values, guide) = (vec![299; pixels], vec![63; pixels]);
        let file = write(&settings, &values, &guide, &[]).unwrap();
        assert_eq!(check(&file).map(drop), Ok(()));
        for place in 0..2 * pixels {
            let (mut planes, mut damaged) = ([values.clone(), guide.clone()].concat(), file.clone());
            for second in [place, 2 * pixels - 1] {
                let limit: u16 = if second < pixels { 300 } else { 64 };
                planes[second] = limit;
                damaged[2 * second..2 * second + 2].copy_from_slice(&limit.to_be_bytes());
                let (values, guide) = planes.split_at(pixels);
                assert_eq!(write(&settings, values, guide, &[]).map(drop), refused(place), "{width} {place} {second}");
                assert_eq!(check(&damaged).map(drop), refused(place), "{width} {place} {second}");
            }
        }
    }
}
