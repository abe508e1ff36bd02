//! The ways that are timed beside each other: plain C, good C and idiomatic Rust, each with the five functions of
//! baseline.h, and the library in the same form; the search for blocks of plain C and of the library; and all four with
//! time tags and the scan watch, and with the Sounder's status.

pub mod agree_sounder;
pub mod agree_tags;
pub mod idiomatic;
pub mod idiomatic_sounder;
pub mod idiomatic_tags;
pub mod search;
pub mod sounder;
pub mod tags;

use idiomatic::c::*;
use rahmisve_sys::*;

/// The five functions of one way. Each pointer leads to as many elements as is said, and what is written overlaps
/// nothing.
pub struct Way {
    pub name: &'static str,
    pub check: unsafe extern "C" fn(bytes: *const u8, len: usize) -> u16,
    pub unpack: unsafe extern "C" fn(field: *const u8, field_len: usize, size: usize, words: *mut u16, count: usize),
    pub pack: unsafe extern "C" fn(words: *const u16, count: usize, size: usize, field: *mut u8, field_len: usize),
    pub read:
        unsafe extern "C" fn(block: *const u8, len: usize, room: *mut u16, room_len: usize, header: *mut u8) -> usize,
    pub write: unsafe extern "C" fn(
        header: *const u8,
        header_len: usize,
        words: *const u16,
        count: usize,
        dest: *mut u8,
        dest_len: usize,
    ) -> usize,
}

macro_rules! in_c {
    ($check:ident, $unpack:ident, $pack:ident, $read:ident, $write:ident) => {
        extern "C" {
            fn $check(bytes: *const u8, len: usize) -> u16;
            fn $unpack(field: *const u8, field_len: usize, size: usize, words: *mut u16, count: usize);
            fn $pack(words: *const u16, count: usize, size: usize, field: *mut u8, field_len: usize);
            fn $read(block: *const u8, len: usize, room: *mut u16, room_len: usize, header: *mut u8) -> usize;
            fn $write(
                header: *const u8,
                header_len: usize,
                words: *const u16,
                count: usize,
                dest: *mut u8,
                dest_len: usize,
            ) -> usize;
        }
    };
}
in_c!(plain_check, plain_unpack, plain_pack, plain_read, plain_write);
in_c!(good_check, good_unpack, good_pack, good_read, good_write);

pub const BASELINES: [Way; 3] = [
    Way {
        name: "plain C",
        check: plain_check,
        unpack: plain_unpack,
        pack: plain_pack,
        read: plain_read,
        write: plain_write,
    },
    Way { name: "good C", check: good_check, unpack: good_unpack, pack: good_pack, read: good_read, write: good_write },
    Way {
        name: "idiomatic Rust",
        check: idiomatic_check,
        unpack: idiomatic_unpack,
        pack: idiomatic_pack,
        read: idiomatic_read,
        write: idiomatic_write,
    },
];

pub const LIBRARY: Way = Way {
    name: "library",
    check: rahmisve_check_word,
    unpack: library_unpack,
    pack: library_pack,
    read: library_read,
    write: library_write,
};

unsafe extern "C" fn library_unpack(field: *const u8, field_len: usize, size: usize, words: *mut u16, count: usize) {
    assert_eq!(rahmisve_take_words(field, field_len, size as u32, count, words, count), 0);
}

unsafe extern "C" fn library_pack(words: *const u16, count: usize, size: usize, field: *mut u8, field_len: usize) {
    assert_eq!(rahmisve_put_words(words, count, size as u32, field, field_len), 0);
}

unsafe extern "C" fn library_read(
    block: *const u8,
    len: usize,
    room: *mut u16,
    room_len: usize,
    header: *mut u8,
) -> usize {
    let (mut copies, mut word_count) = ([0; 3], 0);
    rahmisve_read(block, len, room, room_len, header.cast(), &mut copies, &mut word_count).into()
}

unsafe extern "C" fn library_write(
    header: *const u8,
    header_len: usize,
    words: *const u16,
    count: usize,
    dest: *mut u8,
    dest_len: usize,
) -> usize {
    let mut bytes = 0;
    rahmisve_write(header, header_len, words, count, dest, dest_len, &mut bytes).into()
}

/// How the library is against another way, in words.
pub fn against(own: f64, other: f64) -> String {
    let (ratio, word) = if own <= other { (other / own, "quicker") } else { (own / other, "slower") };
    if ratio < 1.05 {
        return "as quick".into();
    }
    format!("{ratio:.1} x {word}")
}
