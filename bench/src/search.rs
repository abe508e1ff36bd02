//! The search for blocks among junk: the library's and plain C's, called alike.

use independent::salvage::rooms;
use rahmisve_sys::rahmisve_salvage;

/// What `rahmisve_salvage` takes and answers.
type Salvage = unsafe extern "C" fn(
    input: *const u8,
    input_length: usize,
    recording: *mut u8,
    recording_length: usize,
    report: *mut usize,
    report_length: usize,
    scratch: *mut u16,
    scratch_length: usize,
    bytes: *mut usize,
    entries: *mut usize,
    blocks: *mut usize,
) -> u8;

extern "C" {
    fn plain_salvage(
        input: *const u8,
        input_length: usize,
        recording: *mut u8,
        recording_length: usize,
        report: *mut usize,
        report_length: usize,
        scratch: *mut u16,
        scratch_length: usize,
        bytes: *mut usize,
        entries: *mut usize,
        blocks: *mut usize,
    ) -> u8;
}

pub struct Search {
    pub name: &'static str,
    salvage: Salvage,
}

pub const LIBRARY: Search = Search { name: "library", salvage: rahmisve_salvage };
pub const PLAIN: Search = Search { name: "plain C", salvage: plain_salvage };

/// What is lent for a search, and what it left there and answered. Two that found the same are equal.
#[derive(Clone, Debug, PartialEq, Eq)]
pub struct Rooms {
    pub recording: Vec<u8>,
    pub report: Vec<usize>,
    pub scratch: Vec<u16>,
    pub answer: u8,
    pub bytes: usize,
    pub entries: usize,
    pub blocks: usize,
}

impl Rooms {
    /// As much as an input of so many bytes asks for, full of a pattern.
    pub fn new(length: usize) -> Rooms {
        let [bytes, numbers, words] = rooms(length);
        Rooms {
            recording: vec![0xAA; bytes],
            report: vec![0xAAAA; numbers],
            scratch: vec![0xAAAA; words],
            answer: 0xAA,
            bytes: 0xAAAA,
            entries: 0xAAAA,
            blocks: 0xAAAA,
        }
    }

    pub fn search(&mut self, search: &Search, input: &[u8]) {
        let Rooms { recording, report, scratch, answer, bytes, entries, blocks } = self;
        // SAFETY: the pointers are those of slices as long as is said, and of three variables, of which none overlaps
        // another.
        *answer = unsafe {
            (search.salvage)(
                input.as_ptr(),
                input.len(),
                recording.as_mut_ptr(),
                recording.len(),
                report.as_mut_ptr(),
                report.len(),
                scratch.as_mut_ptr(),
                scratch.len(),
                bytes,
                entries,
                blocks,
            )
        };
    }
}
