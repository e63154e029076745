//! Document 01, "A set of examples", with the numbers of document 02, T-03, and
//! cases of T-03.

use crate::*;

pub const ALIASES: &[u8] = b"language\tiw\the\n\
    language\tsh\tsr-Latn\n\
    region\tBU\tMM\n\
    variant\theploc\talalc97\n";

pub const LIKELY: &[u8] = b"de\tde-Latn-DE\n\
    en\ten-Latn-US\n\
    he\the-Hebr-IL\n\
    sr\tsr-Cyrl-RS\n\
    sr-ME\tsr-Latn-ME\n\
    und\ten-Latn-US\n\
    und-Hant\tzh-Hant-TW\n\
    und-US\ten-Latn-US\n\
    zh\tzh-Hans-CN\n\
    zh-Hant\tzh-Hant-TW\n\
    zh-TW\tzh-Hant-TW\n";

pub const PARENTS: &[u8] = b"en-AU\ten-001\n\
    zh-Hant\tund\n";

#[derive(Clone, Copy, Debug, PartialEq, Eq)]
pub enum Operation {
    Canonicalise,
    Maximise,
    Minimise,
    Chain,
}

use Operation::*;

/// Operation, identifier and what is written.
const DONE: &[(Operation, &str, &str)] = &[
    (Canonicalise, "IW_il", "he-IL"),
    (Canonicalise, "sh-Arab-AQ", "sr-Arab-AQ"),
    (Canonicalise, "sh", "sr-Latn"),
    (Canonicalise, "en-US-u-KN-true-ca-gregory", "en-US-u-ca-gregory-kn"),
    (Canonicalise, "latn_us", "und-Latn-US"),
    (Canonicalise, "root", "und"),
    (Canonicalise, "ja-Latn-heploc-alalc97", "ja-Latn-alalc97"),
    (Maximise, "zh-TW", "zh-Hant-TW"),
    (Maximise, "und-Hant-US", "zh-Hant-US"),
    (Maximise, "en-Zzzz-GB", "en-Latn-GB"),
    (Maximise, "fr-Latn-FR", "fr-Latn-FR"),
    (Minimise, "zh-Hant-TW", "zh-TW"),
    (Minimise, "sr-Latn-ME", "sr-ME"),
    (Minimise, "und", "en"),
    (Chain, "en-AU-u-ca-gregory", "en-AU\nen-001\nen\nund\n"),
    (Chain, "zh-Hant-TW", "zh-Hant-TW\nzh-Hant\nund\n"),
    // "Mistakes people make here".
    (Canonicalise, "sh-Arab", "sr-Arab"),
];

/// Operation, identifier, number and place of a refusal.
const REFUSED: &[(Operation, &str, u8, usize)] = &[
    (Canonicalise, "en-US-Latn", 15, 6),
    (Canonicalise, "en-1994-1994", 6, 8),
    (Canonicalise, "en-u", 7, 3),
    (Maximise, "fr", 8, 0),
    // "How an identifier is read".
    (Canonicalise, "root-US", 15, 5),
    // T-03: the first subtag, whatever it is.
    (Canonicalise, "u-ca-abc", 5, 0),
    (Canonicalise, "x-abc", 5, 0),
    (Canonicalise, "a", 5, 0),
    (Canonicalise, "1994", 5, 0),
    // A later one before any singleton.
    (Canonicalise, "en-abc-u-ca", 15, 3),
    (Canonicalise, "Latn-en-US-x-a", 15, 8),
    (Canonicalise, "en-1994-US", 15, 8),
    // One after a singleton, in the language part of `t` too.
    (Canonicalise, "en-t-en-us-latn", 16, 11),
    (Canonicalise, "en-t-latn", 16, 5),
    (Canonicalise, "en-t-k0-ab", 16, 8),
    (Canonicalise, "en-u-ca-12", 16, 8),
    (Canonicalise, "root-a-bc-u-12", 16, 12),
    // 6 and 7 stay, and so does the order.
    (Canonicalise, "en-t-en-1994-1994", 6, 13),
    (Canonicalise, "en-t-k0-m0-abc", 7, 5),
    (Canonicalise, "en-US-Latn-u", 15, 6),
    (Canonicalise, "en-u-t-latn", 7, 3),
    (Canonicalise, "root-US-", 4, 8),
    (Maximise, "fr-US-Latn", 15, 6),
    (Minimise, "fr-u-12", 16, 5),
    (Chain, "123-US-Latn", 5, 0),
];

/// `front`, 27 times `aaaaaaaa-`, then so many letters.
pub fn long(front: &str, letters: usize) -> Vec<u8> {
    format!("{front}{}{}", "aaaaaaaa-".repeat(27), "a".repeat(letters)).into_bytes()
}

/// An operation over the tables of the examples. Gives the answer and the lent
/// output afterwards.
pub fn call(operation: Operation, id: &[u8], lent: usize) -> (Answer, Vec<u8>) {
    let mut out = vec![b'.'; lent];
    let answer = match operation {
        Canonicalise => canonicalise(id, ALIASES, &mut out),
        Maximise => maximise(id, ALIASES, LIKELY, &mut out),
        Minimise => minimise(id, ALIASES, LIKELY, &mut out),
        Chain => chain(id, ALIASES, PARENTS, &mut out),
    };
    (answer, out)
}

/// Each example with whether it came out as it should.
pub fn run() -> Vec<(String, bool)> {
    let mut results = vec![(
        "the tables pass the check".to_string(),
        check(ALIASES, LIKELY, PARENTS) == Answer::default(),
    )];
    for &(operation, id, expected) in DONE {
        results.push((format!("{operation:?} {id}"), writes(operation, id.as_bytes(), expected)));
    }
    for &(operation, id, number, place) in REFUSED {
        let refused = refuses(operation, id.as_bytes(), number, place);
        results.push((format!("{operation:?} {id}: {number}"), refused));
    }

    let (accepted, over) = (long("en-x-", 7), long("en-x-", 8));
    let itself = String::from_utf8_lossy(&accepted).into_owned();
    results.push((
        "255 bytes are accepted".to_string(),
        accepted.len() == 255
            && read(&accepted).number == 0
            && writes(Canonicalise, &accepted, &itself),
    ));
    results.push((
        "256 bytes: 2".to_string(),
        over.len() == 256 && read(&over).number == 2 && refuses(Canonicalise, &over, 2, 0),
    ));
    let grows = long("Latn-x-", 5);
    results.push((
        "255 bytes, canonical 259: 9".to_string(),
        grows.len() == 255 && read(&grows).number == 0 && refuses(Canonicalise, &grows, 9, 0),
    ));

    let printed = keys(b"iw_IL\nfr\n", ALIASES, LIKELY);
    let expected = b"asked\tnumber\tkept\niw_IL\t0\the\nfr\t8\t-\n";
    results.push(("the program keys".to_string(), printed == expected));
    results
}

/// Number 0 with the result at the front, bytes behind it as they were; and 10,
/// with nothing written, where one byte is wanting.
fn writes(operation: Operation, id: &[u8], expected: &str) -> bool {
    let length = expected.len();
    let steps = match operation {
        Chain => expected.lines().count() - 1,
        _ => 0,
    };
    let (answer, out) = call(operation, id, length + 3);
    let (short, untouched) = call(operation, id, length - 1);
    answer == Answer { length, steps, ..Answer::default() }
        && out == format!("{expected}...").as_bytes()
        && short == Answer { number: 10, ..Answer::default() }
        && untouched == vec![b'.'; length - 1]
}

/// The number at the place, also with no output lent, and nothing written.
fn refuses(operation: Operation, id: &[u8], number: u8, place: usize) -> bool {
    let expected = Answer { number, place, ..Answer::default() };
    call(operation, id, 300) == (expected, vec![b'.'; 300])
        && call(operation, id, 0) == (expected, vec![])
}
