//! Safe functions over the proved stripe code library: a locally repairable erasure code.
//!
//! A [`Code`] spreads a message of k symbols over n drive slots. One lost slot is repaired from its
//! small group; up to [`Code::guarantee`] lost slots, whichever they are, the message is decoded.
//! [`Code::with_wiring`] spreads the groups over the slots, so that a lost shelf of drives takes no
//! group as a whole. The last group may be short, so that n need be no multiple of r + 1.
//!
//! The promise is about lost drives that are marked. Wrong bytes on a drive that claims to be sound
//! are not covered: an unmarked wrong symbol can decode to another message. Keep a checksum beside
//! each drive's bytes, and mark the drive where it fails. What no codeword has is refused: mates by
//! repair, a word by decode.
//!
//! ```
//! use latsefidy::Code;
//!
//! // Thirteen symbols, groups of 2 + 1 slots, nine slots, messages of four symbols.
//! let code = Code::new(0, 2, 9, 4)?;
//! let mut word = [0; 9];
//! code.encode(&[1, 1, 1, 1], &mut word)?;
//! assert_eq!(word, [4, 8, 7, 1, 11, 2, 0, 0, 0]);
//!
//! // Slot 0 is lost: its mates, slots 1 and 2, give it back.
//! let mates: Vec<u8> = code.mates(0)?.map(|slot| word[slot as usize]).collect();
//! assert_eq!(mates, [8, 7]);
//! assert_eq!(code.repair(0, &mates)?, 4);
//!
//! // Slots 0 to 3 are lost, as many as the guarantee: the rest decodes.
//! assert_eq!(code.guarantee(), 4);
//! let marks = [1, 1, 1, 1, 0, 0, 0, 0, 0];
//! word[..4].fill(99); // what a lost slot holds does not matter
//! let (mut message, mut work) = ([0; 4], vec![0; code.work_len()]);
//! code.decode(&word, &marks, &mut message, &mut work)?;
//! assert_eq!(message, [1, 1, 1, 1]);
//!
//! // Not covered: 5 is encoded to 5 5 5, slots 1 and 2 are lost, and slot 0 says 6, unmarked.
//! let code = Code::new(0, 2, 3, 1)?;
//! let (mut message, mut work) = ([0; 1], vec![0; code.work_len()]);
//! code.decode(&[6, 0, 0], &[0, 1, 1], &mut message, &mut work)?;
//! assert_eq!(message, [6]);
//! # Ok::<(), latsefidy::Refusal>(())
//! ```
//!
//! Symbols are bytes, below q: 13 in field 0, 256 in field 1. Marks are a byte a slot, 0 kept and 1
//! lost. The caller lends every buffer; nothing is allocated or kept from call to call, so calls on
//! several threads do not meet.
//!
//! The library tests all that it is handed and refuses with a number, a [`Refusal`]; every buffer is
//! then as it was, but for work under 9 and 10. So these functions only pass slices on. Which
//! questions each asks, and in which order, is in `include/latsefidy.h`.

#![deny(missing_docs)]

mod calls;
mod code;
mod raw;
mod record;
mod refusal;
mod sheet;

pub use code::Code;
pub use record::{Outcome, Preview, Record};
pub use refusal::Refusal;
pub use sheet::{preview_sheet, read_sheet, report};

/// Length of the weights of a slot: one a mate and then zeros.
pub const WEIGHTS: usize = 16;
/// Most symbols of one strip.
pub const STRIP_MOST: usize = 4096;
/// Least length of the word and the marks that a sheet is read into.
pub const SHEET_LEAST: usize = 255;
/// Least length of the report's text buffer.
pub const REPORT_TEXT: usize = 1032;
/// Least length of the text buffer of a sheet's previews.
pub const PREVIEW_TEXT: usize = 8420;
