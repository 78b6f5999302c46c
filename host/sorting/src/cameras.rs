//! Eight cameras, one processor: request 9 of document 02. The files of up to eight frames lie end to end, and the grants
//! of control periods go round the frames that are not finished, a pixel each.

use crate::frame::{open, Frame};
use crate::refusal::{check, Refusal};
use crate::store::{stores, Lengths, Stores, Way};
use crate::walk::{self, serpentine};
use std::collections::VecDeque;

/// The most files of a call.
pub const FILES_MOST: usize = 8;
/// The most grants of a period.
pub const LIMIT_MOST: u32 = 4_096;

/// What the call leaves of one file.
#[derive(Clone, Debug, PartialEq, Eq)]
pub struct Camera {
    pub frame: Frame,
    /// How long the file's part of each buffer is.
    pub room: Lengths,
    /// The answers so far, in the order of the filter's walk.
    pub answers: Vec<u16>,
    /// Way 1's stores for the pixel of the last answer; none before the first grant.
    pub stores: Option<Stores>,
}

/// What the call leaves.
#[derive(Clone, Debug, PartialEq, Eq)]
pub struct Cameras {
    /// Which file each grant went to, in turn: the call gives their number alone.
    pub served: Vec<usize>,
    pub cameras: Vec<Camera>,
}

/// Which file each grant goes to, in turn, by the files' pixels and the periods' limits. The files that are not finished
/// stand in a queue: the first one is served and goes to the back. It lasts from period to period.
pub fn schedule(pixels: &[usize], limits: &[u32]) -> Vec<usize> {
    let mut left = pixels.to_vec();
    let mut queue: VecDeque<usize> = (0..pixels.len()).collect();
    let mut served = Vec::new();
    for &limit in limits {
        for _ in 0..limit {
            let Some(file) = queue.pop_front() else { break };
            served.push(file);
            left[file] -= 1;
            if left[file] > 0 {
                queue.push_back(file);
            }
        }
    }
    served
}

/// The files of a buffer, whose bytes these lengths add up to.
pub fn files_of<'a>(mut files: &'a [u8], lengths: &[usize]) -> Vec<&'a [u8]> {
    let mut cut = |&length: &usize| {
        let (file, rest) = files.split_at(length);
        files = rest;
        file
    };
    lengths.iter().map(&mut cut).collect()
}

/// Check 15. The sum of the lengths is the true one, which more than 64 bits may be needed for.
pub fn check_batch(files: &[u8], lengths: &[usize], limits: &[u32]) -> Result<(), Refusal> {
    let sum: u128 = lengths.iter().map(|&length| length as u128).sum();
    let limit = limits.iter().any(|&limit| limit > LIMIT_MOST);
    check(15, lengths.len() > FILES_MOST || sum != files.len() as u128 || limit)
}

/// How long a frame's part of each buffer is.
pub fn room_of(frame: &Frame) -> Lengths {
    Lengths { answers: frame.settings.pixels(), ..Lengths::of_stores(Way::Joint, &frame.settings) }
}

/// How long all parts are together.
pub fn room_for(frames: &[Frame]) -> Lengths {
    frames.iter().map(room_of).fold(Lengths::default(), |sum, room| Lengths {
        counts: sum.counts + room.counts,
        words: sum.words + room.words,
        answers: sum.answers + room.answers,
        ..sum
    })
}

/// The call with buffers of the lengths `lent`: check 15, checks 1 to 7 file by file, then check 11.
pub fn cameras(files: &[u8], lengths: &[usize], limits: &[u32], lent: &Lengths) -> Result<Cameras, Refusal> {
    check_batch(files, lengths, limits)?;
    let frames = files_of(files, lengths).into_iter().map(open).collect::<Result<Vec<Frame>, Refusal>>()?;
    check(11, !lent.suffice(&room_for(&frames)))?;
    let pixels: Vec<usize> = frames.iter().map(|frame| frame.settings.pixels()).collect();
    Ok(Cameras::served(frames, schedule(&pixels, limits)))
}

impl Cameras {
    /// What these grants leave.
    pub fn served(frames: Vec<Frame>, served: Vec<usize>) -> Cameras {
        let grants = |file: usize| served.iter().filter(|&&other| other == file).count();
        let cameras = frames.into_iter().enumerate().map(|(file, frame)| Camera::after(frame, grants(file)));
        Cameras { cameras: cameras.collect(), served }
    }
}

impl Camera {
    /// Whether every pixel is answered.
    pub fn finished(&self) -> bool {
        self.answers.len() == self.room.answers
    }

    /// What so many grants leave of a frame: the filter's walk up to this pixel.
    pub fn after(frame: Frame, grants: usize) -> Camera {
        let room = room_of(&frame);
        if grants == 0 {
            return Camera { frame, room, answers: Vec::new(), stores: None };
        }
        let moves = serpentine(frame.settings.width, frame.settings.height);
        let walk = walk::walk(&frame, 0, 0, &moves[..grants - 1]);
        let stores = Some(stores(&frame, Way::Joint, &walk));
        Camera { frame, room, answers: walk.answers, stores }
    }
}
