//! An implementation of document 01, and of requests (i) to (iv), (vi) and (viii) of document 02, that shares nothing
//! with the proved one, and what is needed to compare implementations with each other.
//!
//! * [`answer`]: what every implementation answers, and the trait they share;
//! * [`plain`]: the plain implementation, a sentence of the documents at a time;
//! * [`tuned`]: the same answers, made for speed;
//! * [`library`]: the proved implementation, behind its C interface;
//! * `linked`: the same, linked into the benchmark;
//! * [`implementations`]: the list of those that are compared and measured;
//! * [`generate`]: seeded inputs of every kind;
//! * [`differ`]: runs one input on implementations and tells the first difference;
//! * [`seven`]: what a run tells of the inputs with a seven-word header;
//! * [`hundredths`]: what a run tells of the inputs with unit 1;
//! * [`examples`]: the bench examples of document 01 and those of requests (i) to (iv), (vi) and (viii), expected
//!   results written by hand;
//! * [`telling`]: inputs shaped by hand, each to tell a wrong reading apart;
//! * [`steps`]: the stored calls of the test programs;
//! * [`stored`]: the plain implementation on all that the programs in the gate have stored.

pub mod answer;
pub mod differ;
pub mod examples;
pub mod generate;
pub mod hundredths;
pub mod implementations;
pub mod library;
#[cfg(feature = "linked")]
pub mod linked;
pub mod plain;
pub mod seven;
pub mod steps;
pub mod stored;
pub mod telling;
pub mod tuned;
