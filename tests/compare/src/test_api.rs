//! The proved functions, called from Rust. Nothing checks these declarations against the Rattle source, so they are few.

use second::{Answer, Class};

extern "C" {
    fn probe_lookup(t: *const u8, t_len: usize, key: *const u8, key_len: usize) -> u64;
    fn probe_hinted(t: *const u8, t_len: usize, key: *const u8, key_len: usize) -> u64;
    fn probe_meaning(number: u8, out: *mut u8, out_len: usize) -> u64;
    fn probe_class(byte: u8) -> u64;
    fn probe_check(a: *const u8, a_len: usize, l: *const u8, l_len: usize, p: *const u8, p_len: usize) -> u64;
}

/// Found, start, length.
fn found(r: u64) -> (bool, usize, usize) {
    (r & 1 == 1, (r >> 1 & 0x7FFF_FFFF) as usize, (r >> 32) as usize)
}

pub fn lookup(t: &[u8], key: &[u8]) -> (bool, usize, usize) {
    found(unsafe { probe_lookup(t.as_ptr(), t.len(), key.as_ptr(), key.len()) })
}

/// The same by hints; right of tables whose rows ascend.
pub fn hinted(t: &[u8], key: &[u8]) -> (bool, usize, usize) {
    found(unsafe { probe_hinted(t.as_ptr(), t.len(), key.as_ptr(), key.len()) })
}

pub fn check(a: &[u8], l: &[u8], p: &[u8]) -> Answer {
    let r = unsafe { probe_check(a.as_ptr(), a.len(), l.as_ptr(), l.len(), p.as_ptr(), p.len()) };
    Answer {
        number: (r & 0xFF) as u8,
        table: (r >> 8 & 0xFF) as u8,
        place: (r >> 16 & 0xFFFF) as usize,
        ..Answer::default()
    }
}

/// Writes the words of a number at the front, and gives their length; 0 where fewer than 80 bytes are lent.
pub fn meaning(number: u8, out: &mut [u8]) -> usize {
    unsafe { probe_meaning(number, out.as_mut_ptr(), out.len()) as usize }
}

/// What a byte is.
pub fn class(byte: u8) -> Class {
    match unsafe { probe_class(byte) } {
        0 => Class::None,
        1 => Class::Small,
        2 => Class::Capital,
        3 => Class::Digit,
        4 => Class::Separator,
        code => panic!("no class: {code}"),
    }
}
