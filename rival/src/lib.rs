//! A second program for the board of Z80 PIOs, written from the documents alone and apart from the
//! product, so that random sessions of the two can be compared.
//!
//! The rules are in `port`, `board` and `step`, in that order, and `wave` prints a recording. They are
//! plain on purpose: after every event every place is visited, and nothing is remembered that could be
//! looked up.

pub mod board;
pub mod cases;
pub mod generator;
pub mod port;
pub mod random;
pub mod step;
pub mod wave;

#[cfg(feature = "compare")]
mod agreement;
#[cfg(feature = "compare")]
pub mod bench;
#[cfg(feature = "compare")]
pub mod library;
#[cfg(feature = "mirror")]
mod mirror;
#[cfg(feature = "compare")]
pub mod recordings;
#[cfg(feature = "compare")]
pub mod sessions;

#[cfg(all(feature = "library", feature = "mirror"))]
compile_error!("`library` and `mirror` both give the functions of the library: choose one");

pub use board::{Board, PLACES};
pub use port::Port;
pub use step::{driven, fresh, run, step};
pub use wave::wave;
