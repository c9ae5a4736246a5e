//! Seeded inputs for every part of document 01 and of requests (i), (iii) to (vi) and (viii): grammars, logs, ticks,
//! grammar files, standard input, lists of words, texts and lent buffers. Equal seeds give equal inputs.

pub mod buffers;
pub mod chains;
pub mod desk;
pub mod draft;
pub mod edges;
pub mod families;
pub mod file;
pub mod grammar;
pub mod input;
pub mod list;
pub mod log;
pub mod marks;
pub mod random;
pub mod restarts;
pub mod text;
pub mod ties;
pub mod units;

pub use draft::Draft;
pub use input::{Input, Source};
pub use random::Random;
pub use restarts::Header;
