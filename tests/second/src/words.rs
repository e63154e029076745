//! What the numbers mean, in words, and text shown safely.

/// The words of a number.
pub fn meaning(number: u8) -> &'static str {
    match number {
        0 => "done",
        1 => "no bytes",
        2 => "over 255 bytes",
        3 => "a byte that is no letter, digit, - or _",
        4 => "a subtag of 0 or over 8 bytes",
        5 => "a first subtag that is no language, script or root",
        6 => "a repeated singleton, variant or t key",
        7 => "a singleton or t key with nothing behind it",
        8 => "no row of the likely table fits it",
        9 => "its canonical or maximised form is over 255 bytes",
        10 => "the output is too short",
        11 => "a table over 32,768 bytes",
        12 => "a row of wrong shape",
        13 => "a row not above the one before",
        14 => "a row that clashes with another",
        15 => "a subtag that can't stand there, before any extension",
        16 => "a subtag that can't stand there, in an extension",
        17 => "over 512 keys",
        18 => "over 1,000,000 lines",
        _ => "no such number",
    }
}

/// The most bytes of a text that a row shows.
pub const SHOWN: usize = 255;

/// The first bytes of a text, at most so many, with `...` where there are more.
/// A byte from 20 to 7E but `\` stands for itself, any other is `\xNN`.
pub fn shown(text: &[u8], most: usize) -> Vec<u8> {
    let mut safe = Vec::new();
    for &byte in text.iter().take(most) {
        match byte {
            b'\\' => safe.extend_from_slice(br"\x5C"),
            b' '..=b'~' => safe.push(byte),
            _ => safe.extend_from_slice(format!("\\x{byte:02X}").as_bytes()),
        }
    }
    if text.len() > most {
        safe.extend_from_slice(b"...");
    }
    safe
}

/// A text as a row shows it: `-` where it is empty.
pub(crate) fn field(text: &[u8]) -> Vec<u8> {
    if text.is_empty() {
        return b"-".to_vec();
    }
    shown(text, SHOWN)
}
