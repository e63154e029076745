//! "Chain of parents".

use second::*;

const ALIASES: &str = "language\tiw\the\nscript\tQaai\tZinh\nvariant\tposix\t1994\n";
const PARENTS: &str = "aa\tbb\n\
    bb\tcc\n\
    cc\tdd\n\
    dd\tee\n\
    ee\tff\n\
    en-AU\ten-001\n\
    en-Shaw\tund\n\
    ff\tgg-Latn\n\
    nb\tno\n\
    no\tund-Latn\n\
    und-Arab\tund\n\
    und-Latn-US\tnb\n\
    zh-Hant\tund\n\
    zh-Hant-MO\tzh-Hant-HK\n";

fn lines(id: &str) -> (Vec<String>, usize) {
    let mut out = vec![b'.'; 4000];
    let answer = chain(id.as_bytes(), ALIASES.as_bytes(), PARENTS.as_bytes(), &mut out);
    let Answer { length, steps, .. } = answer;
    assert_eq!(answer, Answer { length, steps, ..Answer::default() }, "{id}");
    assert!(out[length..].iter().all(|&b| b == b'.'));
    // One byte too few is 10; just enough is done.
    let mut exact = vec![0; length];
    let call = |out: &mut [u8]| chain(id.as_bytes(), ALIASES.as_bytes(), PARENTS.as_bytes(), out);
    assert_eq!(call(&mut exact), answer);
    assert_eq!(exact, &out[..length]);
    let mut short = vec![7; length - 1];
    assert_eq!(call(&mut short), Answer { number: 10, ..Answer::default() });
    assert!(short.iter().all(|&b| b == 7));
    let text = String::from_utf8(exact).unwrap();
    assert!(text.ends_with("und\n"));
    (text.lines().map(String::from).collect(), steps)
}

#[test]
fn listings() {
    for (id, expected) in [
        ("und", "und"),
        ("root-x-a", "und"),
        ("EN", "en und"),
        ("en_au", "en-AU en-001 en und"),
        ("en-AU-1994", "en-AU-1994 en-AU en-001 en und"),
        ("en-Shaw-AU", "en-Shaw-AU en-Shaw und"),
        ("en-Latn-AU", "en-Latn-AU en-Latn en und"),
        ("zh-Hant-MO", "zh-Hant-MO zh-Hant-HK zh-Hant und"),
        ("nb-NO-u-ca-gregory", "nb-NO nb no und-Latn und"),
        ("latn-us", "und-Latn-US nb no und-Latn und"),
        ("und-1994", "und-1994 und"),
        ("und-Latn-1abc", "und-Latn-1abc und-Latn und"),
        // From the canonical form; `Zzzz` and `ZZ` stay.
        ("iw-Qaai", "he-Zinh he und"),
        ("en-Zzzz-ZZ", "en-Zzzz-ZZ en-Zzzz en und"),
        ("en-rozaj-posix-1994-alalc97", "en-1994-alalc97-rozaj en-1994-alalc97 en-1994 en und"),
        // v + 10 steps: one variant, two drops, six rows, two drops.
        ("aa-Latn-US-1abc", "aa-Latn-US-1abc aa-Latn-US aa-Latn aa bb cc dd ee ff gg-Latn gg und"),
    ] {
        let (found, steps) = lines(id);
        assert_eq!(found.join(" "), expected, "{id}");
        assert_eq!(steps, found.len() - 1, "{id}");
    }
}

/// A listing may be longer than 255 bytes; a canonical form may not.
#[test]
fn long_listings() {
    let variants: Vec<String> = (10_000_000..10_000_027).map(|n| n.to_string()).collect();
    let id = format!("en-US-{}", variants.join("-"));
    assert_eq!(id.len(), 248);
    let (found, steps) = lines(&id);
    assert_eq!((found.len(), steps), (30, 29));
    let id = format!("Latn-{}-abcdef", variants.join("-"));
    assert_eq!((id.len(), read(id.as_bytes()).variants), (254, 28));
    let answer = chain(id.as_bytes(), b"", b"", &mut [0; 9000]);
    assert_eq!(answer, Answer { number: 9, ..Answer::default() });
    // Extensions don't stand in the listing, but count for number 9.
    let id = format!("Latn-x-{}-abcd", variants.join("-"));
    assert_eq!(id.len(), 254);
    assert_eq!(chain(id.as_bytes(), b"", b"", &mut [0; 9000]).number, 9);
}

/// A walk of exactly v + 10 steps.
#[test]
fn the_longest_walk() {
    let parents = b"aa\tbb\nbb\tcc\ncc\tdd\ndd\tee\nee\tff\nff\tgg\ngg\thh\nhh\tund\n";
    let answer = chain(b"aa-Latn-US-1994-posix", b"", parents, &mut [0; 400]);
    assert_eq!((answer.number, answer.steps), (0, 12));
}
