//! The implementations that are compared and measured.

use crate::answer::{Implementation, Prints};
use crate::library::Library;
use crate::plain::Plain;
use crate::tuned::Tuned;

/// Where the plain and the tuned implementation stand in [`all`]. The comparison holds every
/// other one against the plain one, the benchmark gives ratios to the tuned one.
pub const PLAIN: usize = 0;
pub const TUNED: usize = 1;

/// All implementations: the proved one too, where the environment names its processes.
pub fn all() -> Vec<Box<dyn Prints>> {
    let mut all: Vec<Box<dyn Prints>> = vec![Box::new(Plain), Box::new(Tuned::default())];
    if let Some(library) = Library::from_environment() {
        all.push(Box::new(library));
    }
    all
}

/// The columns of the benchmark: the proved one too, where it is linked.
pub fn measured() -> Vec<Box<dyn Implementation>> {
    vec![
        Box::new(Plain),
        Box::new(Tuned::default()),
        #[cfg(feature = "linked")]
        Box::new(crate::linked::Linked),
    ]
}
