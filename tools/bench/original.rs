//! The original's tree in print.

use crate::kinds;
use asciimath_parser::tree;
#[path = "../oracle/print.rs"]
mod print;
pub use print::printed;
