//! "Canonical form".

use second::gen::{self, Rng};
use second::*;

const ALIASES: &str = "language\tiw\the\n\
    language\tmo\tro-Qaai-BU\n\
    language\tsh\tsr-Latn\n\
    region\tBU\tMM\n\
    script\tQaai\tZinh\n\
    variant\theploc\talalc97\n\
    variant\tpolyton\t1abc\n";

fn canonical(id: &str) -> String {
    let mut out = [b'.'; 255];
    let answer = canonicalise(id.as_bytes(), ALIASES.as_bytes(), &mut out);
    assert_eq!(answer, Answer { length: answer.length, ..Answer::default() }, "{id}");
    assert!(out[answer.length..].iter().all(|&b| b == b'.'));
    String::from_utf8(out[..answer.length].to_vec()).unwrap()
}

#[test]
fn forms() {
    for (id, form) in [
        ("ROOT", "und"),
        ("root_u_ca", "und-u-ca"),
        ("Latn", "und-Latn"),
        ("lATN_bu", "und-Latn-MM"),
        ("UND", "und"),
        // A language alias brings in what there isn't yet, which then goes
        // through the script and region aliases.
        ("mo", "ro-Zinh-MM"),
        ("mo-Latn", "ro-Latn-MM"),
        ("mo-US", "ro-Zinh-US"),
        ("mo-Zzzz-ZZ", "ro-Zzzz-ZZ"),
        ("mo-Qaai-BU", "ro-Zinh-MM"),
        ("sh-Arab", "sr-Arab"),
        ("sh-ME", "sr-Latn-ME"),
        // Variants: order after the aliases; equal results merge.
        ("en-posix-heploc", "en-alalc97-posix"),
        ("en-polyton-heploc-alalc97-1ABC", "en-1abc-alalc97"),
        ("en-heploc-1994", "en-1994-alalc97"),
        // Extensions.
        ("en-x-B-a-z-u-ca-b", "en-x-b-a-z-u-ca-b"),
        ("en-z-zz-aa-u-ca-0-bb-t-de-9-11-x-a", "en-0-bb-9-11-t-de-u-ca-z-zz-aa-x-a"),
        ("en-u-foo-BAR-foo-abc", "en-u-abc-bar-foo"),
        ("en-u-ca-ca-gregory", "en-u-ca"),
        ("en-u-ca-buddhist-ca-gregory", "en-u-ca-buddhist"),
        ("en-u-kn-TRUE-ca-true-true", "en-u-ca-true-true-kn"),
        ("en-u-kn-true-kn-false", "en-u-kn"),
        ("en-u-true-kn-yes", "en-u-true-kn-yes"),
        ("en-u-nu-latn-true-1a-true", "en-u-1a-nu-latn-true"),
        // Aliases don't touch extensions; all is in lower case there.
        ("en-t-IW-Qaai-BU-polyton-heploc", "en-t-iw-qaai-bu-heploc-polyton"),
        ("en-t-sh-heploc-1994-m0-true-K0-Abc-abc", "en-t-sh-1994-heploc-k0-abc-abc-m0-true"),
        ("en-t-z1-abc-a9-abc", "en-t-a9-abc-z1-abc"),
        ("en-a-ZZ-aa-ZZ", "en-a-zz-aa-zz"),
    ] {
        assert_eq!(canonical(id), form, "{id}");
        assert_eq!(canonical(form), form, "twice: {id}");
    }
}

/// 9 is judged after merging and dropping.
#[test]
fn number_9() {
    let fill = |front: &str, length: usize| -> String {
        let mut id = format!("{front}-x");
        while id.len() < length {
            let room = length - id.len() - 1;
            id = format!("{id}-{}", "b".repeat(if room > 8 { room.min(10) - 2 } else { room }));
        }
        assert_eq!(id.len(), length);
        id
    };
    let number = |id: &str| canonicalise(id.as_bytes(), ALIASES.as_bytes(), &mut [0; 300]).number;
    assert_eq!(number(&fill("Latn", 251)), 0);
    assert_eq!(number(&fill("Latn", 252)), 9);
    assert_eq!(number(&fill("Latn-u-kn-true", 255)), 0);
    assert_eq!(number(&fill("Latn-u-abc-abc", 255)), 0);
    assert_eq!(number(&fill("Latn-u-ab-ab", 254)), 0);
    assert_eq!(number(&fill("Latn-u-ab-ab", 255)), 9);
    assert_eq!(number(&fill("Latn-heploc-alalc97", 255)), 0);
    // `mo` brings in 8 bytes; `Zzzz` and `ZZ` count.
    assert_eq!(number(&fill("mo", 247)), 0);
    assert_eq!(number(&fill("mo", 248)), 9);
    assert_eq!(number(&fill("mo-Zzzz-ZZ", 255)), 0);
    assert_eq!(number(&fill("zzzz-ZZ", 252)), 9);
}

/// Case and separators have no meaning; the canonical form is its own.
#[test]
fn laws() {
    let mut rng = Rng::new(7);
    for _ in 0..20_000 {
        let (aliases, _, _) = gen::tables(&mut rng);
        let id = gen::identifier(&mut rng);
        let call = |id: &[u8]| {
            let mut out = [0; 255];
            (canonicalise(id, &aliases, &mut out), out)
        };
        let first = call(&id);
        let other: Vec<u8> = id
            .iter()
            .map(|&b| match b {
                b'-' | b'_' => rng.pick(b"-_"),
                _ if rng.chance(1, 2) => b.to_ascii_uppercase(),
                _ => b.to_ascii_lowercase(),
            })
            .collect();
        assert_eq!(call(&other), first);
        if first.0.number == 0 {
            assert_eq!(call(&first.1[..first.0.length]), first);
        }
    }
}
