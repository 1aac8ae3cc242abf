//! The bindings' tree in print, as the original's is printed.

use crate::kinds;
use asciimath::borrowed::tree;
#[path = "../oracle/print.rs"]
mod print;
pub use print::printed;
