//! Blocks, time tags, parity, the Sounder's status, the watch, recordings and their salvage, written a second time from
//! the specification so that a library can be compared with it. Plain code comes before quick code everywhere here.

pub mod block;
pub mod check;
pub mod compare;
pub mod compare_fills;
pub mod compare_leaps;
pub mod compare_salvages;
pub mod compare_status;
pub mod compare_words;
pub mod document;
pub mod document_status;
pub mod fills;
pub mod header;
pub mod inputs;
pub mod leaps;
pub mod library;
pub mod parity;
pub mod placement;
#[cfg(feature = "library")]
pub mod real;
pub mod recording;
pub mod rows;
pub mod salvage;
pub mod sounder_blocks;
pub mod status;
pub mod tags;
pub mod tapes;
pub mod watch;
pub mod words;
pub mod wrong;
pub mod wrong_fills;
pub mod wrong_leaps;
pub mod wrong_salvage;
pub mod wrong_status;
