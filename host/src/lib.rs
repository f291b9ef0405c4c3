//! Views of texts that can be edited and put back.
//!
//! A [`View`] says how the sources of one kind look, as a catalogue on a page, and how a changed look is put back into its
//! source. It does so for clear views alone, whose texts can be cut in one way only; then what is put back is what one sees,
//! and putting back what one sees changes no byte.
//!
//! ```
//! use pirkunna::{Verdict, View};
//!
//! // Digits are shown, the letter behind them is hidden; where there was no source it is an x.
//! let view = View::parse(b"copy ('0'..'9')* hide 'a'..'z' new \"x\"")?;
//! assert_eq!(view.judge(), Verdict::Plain);
//! assert_eq!(view.show(b"12a")?, b"12");
//! assert_eq!(view.make(b"1")?, b"1x");
//! assert_eq!(view.put(b"12a", b"1")?, b"1a");
//! # Ok::<(), pirkunna::Refusal>(())
//! ```
//!
//! The work is done by calls that are proved (crate `calls` of this repository); what is here sizes their memory and turns
//! their answers into Rust's. [`calls`] has them as they are, on lent memory.

pub mod calls;
mod memory;
mod refusal;
pub mod replace;
mod view;

pub use refusal::{Fault, Refusal};
pub use view::{Verdict, View};
