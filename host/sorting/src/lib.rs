//! Document 01's weighted median filter, with the weights of document 02's request 1, the coarse way of its request 2,
//! the hollow windows of its request 3, the explanations of its request 4, the dead pixels of its request 6, the
//! tolerances of its request 7, the byte planes of its request 8 and the cameras of its request 9, written from these
//! documents and sharing no code with the proved library: every window is gathered anew, its pixels are sorted by level,
//! and weights are added until they reach half of the whole.
//!
//! It is slow on purpose. Nothing is carried from one window to the next, so a mistake in carrying
//! a histogram, an occupancy word, a balance box or a cut point cannot be made here.
//!
//! | Module | Document 01 |
//! |---|---|
//! | [`refusal`] | the numbers 1 to 15 |
//! | [`frame`] | the frame's bytes and checks 1 to 7 |
//! | [`window`] | window, weights, cumulative weight, median, balance |
//! | [`explain`] | why a window has its level: request 4 of document 02 |
//! | [`walk`] | the walk, its marks, cut point and shift counts; the serpentine |
//! | [`store`] | what each way's stores hold, and how long they are |
//! | [`calls`] | walk, filter, balance and explanation with their checks 8 to 11 |
//! | [`tolerance`] | the filter of two value planes: request 7 of document 02 |
//! | [`byte_planes`] | the value plane split into bytes and joined again: request 8 of document 02 |
//! | [`cameras`] | up to eight files by turns: request 9 of document 02 |
//! | [`writer`] | the writer |
//! | [`program`] | the printed text and check 12 |
//! | [`cases`] | the list of small walks that test programs print |
//! | [`random`] | random and damaged frames |

pub mod byte_planes;
pub mod calls;
pub mod cameras;
pub mod cases;
pub mod explain;
pub mod frame;
pub mod program;
pub mod random;
pub mod refusal;
pub mod store;
pub mod tolerance;
pub mod walk;
pub mod window;
pub mod writer;

#[cfg(test)]
mod bench_windows;
