//! The functions of the archive librahmisve.a as they are declared for C. Their manual is include/rahmisve.h: what each
//! one answers, and what it asks of pointers. The crate `rahmisve` has the same as safe functions.
//!
//! The archive is taken from the folder that RAHMISVE_ARCHIVE_DIR names when this crate is built. A folder that does
//! not begin with a slash counts from the folder that cargo runs in then.
//!
//! # Safety
//!
//! What include/rahmisve.h asks of a caller, for every function here:
//!
//! - The archive is of the version that these declarations are: where [`rahmisve_version`] is not `RAHMISVE_VERSION` of
//!   that file, nothing else is called.
//! - A pointer leads to as many elements as its length says, or as its type says, aligned as their type asks. Where the
//!   length is 0 it may be null.
//! - A place for an answer, a watch and a time are never null.
//! - What a call writes overlaps nothing else that is lent to it, and no other thread uses it meanwhile.
//!
//! There is no number, no length and no content that is not allowed.
#![no_std]
#![warn(missing_docs)]

// tests/c.test holds these lines to the source that is proved.
extern "C" {
    /// The version of the archive.
    pub fn rahmisve_version() -> u32;
    /// Reads a block, to the front of the room.
    pub fn rahmisve_read(
        block: *const u8,
        block_length: usize,
        room: *mut u16,
        room_length: usize,
        header: *mut [u8; 28],
        copies: *mut [u8; 3],
        word_count: *mut usize,
    ) -> u8;
    /// What a header asks for.
    pub fn rahmisve_plan(
        header: *const u8,
        header_length: usize,
        block: *mut u8,
        version: *mut u8,
        size: *mut u8,
        records: *mut u8,
        word_count: *mut usize,
        field_bytes: *mut usize,
    ) -> u8;
    /// Writes a block, to the front of the room.
    pub fn rahmisve_write(
        header: *const u8,
        header_length: usize,
        words: *const u16,
        words_length: usize,
        room: *mut u8,
        room_length: usize,
        bytes: *mut usize,
    ) -> u8;
    /// Where a record lies among the words of its block.
    pub fn rahmisve_record(
        header: *const u8,
        header_length: usize,
        word_count: usize,
        record: u32,
        start: *mut usize,
        length: *mut usize,
    ) -> u8;
    /// Which channel and detector a record holds.
    pub fn rahmisve_place(block: u32, version: u32, record: u32, channel: *mut u8, detector: *mut u8) -> u8;
    /// Judges the parity sections of block 1 of the Imager spacelook set.
    pub fn rahmisve_parity_imager(words: *const u16, words_length: usize, holds: *mut [u8; 4]) -> u8;
    /// Judges those of block 1 of the Sounder spacelook set.
    pub fn rahmisve_parity_sounder(words: *const u16, words_length: usize, holds: *mut [u8; 2]) -> u8;
    /// Reads a time tag.
    pub fn rahmisve_read_tag(
        tag: *const u8,
        tag_length: usize,
        leap_days: *const u32,
        leap_days_length: usize,
        time: *mut [u32; 7],
    ) -> u8;
    /// Writes the tag of a time.
    pub fn rahmisve_write_tag(
        time: *const [u32; 7],
        leap_days: *const u32,
        leap_days_length: usize,
        tag: *mut [u8; 8],
    ) -> u8;
    /// Milliseconds from one tag to another.
    pub fn rahmisve_elapsed(
        from: *const u8,
        from_length: usize,
        to: *const u8,
        to_length: usize,
        leap_days: *const u32,
        leap_days_length: usize,
        ms: *mut i64,
    ) -> u8;
    /// Judges a Sounder documentation block: its suspect detectors, counts and frame fields, and each of its tags.
    pub fn rahmisve_sounder_status(
        words: *const u16,
        words_length: usize,
        leap_days: *const u32,
        leap_days_length: usize,
        status: *mut [u32; 13],
        tags: *mut [[u32; 8]; 15],
    ) -> u8;
    /// Whether one detector of such a block is suspect.
    pub fn rahmisve_sounder_suspect(
        words: *const u16,
        words_length: usize,
        leap_days: *const u32,
        leap_days_length: usize,
        channel: u32,
        detector: u32,
        word: *mut u32,
        suspect: *mut u8,
    ) -> u8;
    /// Begins an idle watch.
    pub fn rahmisve_watch_begin(limit: u32, watch: *mut [u32; 11]) -> u8;
    /// Offers a block, its data valid word and its tag to a watch.
    pub fn rahmisve_watch_offer(
        watch: *mut [u32; 11],
        block: u32,
        valid: u32,
        tag: *const u8,
        tag_length: usize,
        leap_days: *const u32,
        leap_days_length: usize,
        verdict: *mut u8,
        fill: *mut u32,
        count: *mut u32,
    ) -> u8;
    /// What stands in a recording from a byte on: returns what it found.
    pub fn rahmisve_next_field(
        recording: *const u8,
        recording_length: usize,
        at: usize,
        tag: *mut u8,
        start: *mut usize,
        length: *mut usize,
    ) -> u8;
    /// The listing's line of a field.
    pub fn rahmisve_line(
        before: u64,
        tag: u32,
        body: *const u8,
        body_length: usize,
        room: *mut u16,
        room_length: usize,
        seq: *mut u64,
        block: *mut u8,
        version: *mut u8,
        word_count: *mut usize,
    ) -> u8;
    /// The first line of a listing, to the front of the room.
    pub fn rahmisve_first_text(room: *mut u8, room_length: usize, bytes: *mut usize) -> u8;
    /// The text of a line, to the front of the room.
    pub fn rahmisve_line_text(
        seq: u64,
        block: u32,
        version: u32,
        word_count: usize,
        answer: u32,
        room: *mut u8,
        room_length: usize,
        bytes: *mut usize,
    ) -> u8;
    /// The last line of a listing, to the front of the room.
    pub fn rahmisve_last_text(cut: u32, fields: u64, room: *mut u8, room_length: usize, bytes: *mut usize) -> u8;
    /// Finds the blocks in an input without boundaries: a recording and a report, each to the front of its room.
    pub fn rahmisve_salvage(
        input: *const u8,
        input_length: usize,
        recording: *mut u8,
        recording_length: usize,
        report: *mut usize,
        report_length: usize,
        scratch: *mut u16,
        scratch_length: usize,
        bytes: *mut usize,
        entries: *mut usize,
        blocks: *mut usize,
    ) -> u8;
    /// The check word of a message.
    pub fn rahmisve_check_word(message: *const u8, message_length: usize) -> u16;
    /// Takes words out of a field, to the front of the room.
    pub fn rahmisve_take_words(
        field: *const u8,
        field_length: usize,
        size: u32,
        count: usize,
        room: *mut u16,
        room_length: usize,
    ) -> u8;
    /// Puts words into a field, with zeros behind them.
    pub fn rahmisve_put_words(
        words: *const u16,
        words_length: usize,
        size: u32,
        field: *mut u8,
        field_length: usize,
    ) -> u8;
}
