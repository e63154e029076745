//! The words of the numbers, and text shown safely.

use second::{meaning, shown};

#[test]
fn words_of_the_numbers() {
    let words = [
        "done",
        "no bytes",
        "over 255 bytes",
        "a byte that is no letter, digit, - or _",
        "a subtag of 0 or over 8 bytes",
        "a first subtag that is no language, script or root",
        "a repeated singleton, variant or t key",
        "a singleton or t key with nothing behind it",
        "no row of the likely table fits it",
        "its canonical or maximised form is over 255 bytes",
        "the output is too short",
        "a table over 32,768 bytes",
        "a row of wrong shape",
        "a row not above the one before",
        "a row that clashes with another",
        "a subtag that can't stand there, before any extension",
        "a subtag that can't stand there, in an extension",
        "over 512 keys",
        "over 1,000,000 lines",
    ];
    for (number, words) in (0..).zip(words) {
        assert_eq!(meaning(number), words);
    }
    for number in 19..=255 {
        assert_eq!(meaning(number), "no such number", "{number}");
    }
    // Plain text that needs no escapes and fits into the 80 bytes that callers lend.
    for number in 0..=255 {
        let words = meaning(number).as_bytes();
        assert!(!words.is_empty() && words.len() <= 80 && shown(words, 80) == words, "{number}");
    }
}

#[test]
fn single_bytes() {
    for byte in 0..=255u8 {
        let wanted = match byte {
            0x20..=0x5B | 0x5D..=0x7E => vec![byte],
            _ => format!("\\x{byte:02X}").into_bytes(),
        };
        assert_eq!(shown(&[byte], 255), wanted, "{byte}");
    }
    assert_eq!(shown(b"\0", 1), br"\x00");
    assert_eq!(shown(b"\t\r", 2), br"\x09\x0D");
    assert_eq!(shown(b"\\", 1), br"\x5C");
    assert_eq!(shown(b"\x7F\x80\xFF", 3), br"\x7F\x80\xFF");
    assert_eq!(shown(b" ~", 2), b" ~");
}

#[test]
fn more_bytes_than_are_shown() {
    assert_eq!(shown(b"", 0), b"");
    assert_eq!(shown(b"a", 0), b"...");
    assert_eq!(shown(b"ab", 2), b"ab");
    assert_eq!(shown(b"abc", 2), b"ab...");
    assert_eq!(shown(b"\0\0\0", 2), br"\x00\x00...");
    assert_eq!(shown(b"...", 3), b"...");
    // Bytes of the text are counted, not those that show them.
    assert_eq!(shown(&[0xFF; 255], 255), r"\xFF".repeat(255).as_bytes());
    assert_eq!(shown(&[0xFF; 256], 255), (r"\xFF".repeat(255) + "...").as_bytes());
}
