//! "How an identifier is read", the numbers 1 to 7, and 15 and 16 of document 02,
//! T-03.

use second::gen::{self, Rng};
use second::read;

fn number_and_place(id: &str) -> (u8, usize) {
    let report = read(id.as_bytes());
    if report.number != 0 {
        assert!(report.language.is_empty() && report.script.is_empty());
        assert!(report.region.is_empty());
        assert_eq!((report.variants, report.extensions), (0, 0));
    }
    (report.number, report.place)
}

#[test]
fn refusals() {
    for (id, number, place) in [
        ("", 1, 0),
        ("en US", 3, 2),
        ("en-\u{e9}", 3, 3),
        (".-", 3, 0),
        ("a--.", 3, 3), // 3 before 4
        ("-", 4, 0),
        ("en-", 4, 3),
        ("en_", 4, 3),
        ("-en", 4, 0),
        ("en--US", 4, 3),
        ("abcdefghi", 4, 0),
        ("en-abcdefghi", 4, 3),
        ("x-", 4, 2),
        ("en-u-x-abcdefghi-", 4, 7), // 4 before 5 to 7, 15 and 16, also after x
        ("en-US-Latn-x-", 4, 13),
        // First subtag.
        ("u", 5, 0),
        ("x-abc", 5, 0),
        ("u-ca", 5, 0),
        ("1", 5, 0),
        ("12", 5, 0),
        ("e1", 5, 0),
        ("123", 5, 0),
        ("1994", 5, 0),
        ("lat1", 5, 0),
        ("abcd1", 5, 0),
        ("a", 5, 0),
        ("u-ca-abc", 5, 0),
        ("t-en-us-latn", 5, 0),
        ("1994-1994", 5, 0),
        ("x-x-x", 5, 0),
        ("a-a", 5, 0),
        ("12-US-Latn", 5, 0), // leftmost
        // After `root`.
        ("root-US", 15, 5),
        ("root-latn", 15, 5),
        ("root-1994", 15, 5),
        ("root_root", 15, 5),
        ("ROOT-u", 7, 5),
        // Order.
        ("en-US-Latn", 15, 6),
        ("en-Latn-Cyrl", 15, 8),
        ("Latn-Cyrl", 15, 5),
        ("Latn-en-US", 15, 8),
        ("en-US-GB", 15, 6),
        ("en-1994-US", 15, 8),
        ("en-1994-Latn", 15, 8),
        ("en-abc", 15, 3),
        ("en-a12", 15, 3),
        ("en-12", 15, 3),
        ("en-a123", 15, 3),
        ("en-US-Latn-u", 15, 6), // leftmost
        ("en-abc-u-12", 15, 3),
        ("Latn-us-us-x-a", 15, 8),
        // Repeats.
        ("en-1994-1994", 6, 8),
        ("en-1994-POSIX-posix-1994", 6, 14),
        ("en-a-bb-A-cc", 6, 8),
        ("en-u-ca-u", 6, 8), // 6 before 7 at one subtag
        ("en-u-ca-u-ca", 6, 8),
        ("en-t-de-1994-1994", 6, 13),
        ("en-t-k0-abc-K0-abc", 6, 12),
        ("en-t-k0-abc-k0", 6, 12),
        ("en-t-k0-abc-k0-ab", 6, 12),
        // Singletons and keys without anything.
        ("en-u", 7, 3),
        ("en-x", 7, 3),
        ("en-0", 7, 3),
        ("en-u-t-de", 7, 3),
        ("en-u-u-ca", 7, 3), // leftmost
        ("en-t-x-a", 7, 3),
        ("en-a-x-a", 7, 3),
        ("en-t-k0", 7, 5),
        ("en-t-k0-u-ca", 7, 5),
        ("en-t-k0-m0-abc", 7, 5),
        ("en-t-k0-k0-abc", 7, 5),
        ("en-t-de-k0-x-abc", 7, 8),
        // Wrong content.
        ("en-u-a1", 16, 5),
        ("en-u-12", 16, 5),
        ("en-u-ca-a1", 16, 8),
        ("en-u-foo-a1", 16, 9),
        ("en-t-root", 16, 5),
        ("en-t-latn", 16, 5),
        ("en-t-1994", 16, 5),
        ("en-t-1a", 16, 5),
        ("en-t-12", 16, 5),
        ("en-t-a1b", 16, 5),
        ("en-t-k0-ab", 16, 8),
        ("en-t-k0-1a", 16, 8),
        ("en-t-k0-abc-ab", 16, 12),
        ("en-t-de-latn-cyrl", 16, 13),
        ("en-t-de-us-gb", 16, 11),
        ("en-t-de-abc", 16, 8),
        ("en-t-en-us-latn", 16, 11),
        ("en-t-de-1994-us", 16, 13),
        ("en-u-ca-12", 16, 8),
        ("en-u-ca-abc-1a-12", 16, 15),
        ("root-u-12", 16, 7),
        ("Latn-a-bc-u-12", 16, 12),
        ("en-0-ab-t-us-us-us", 16, 16),
        ("en-u-12-u-12", 16, 5), // leftmost
    ] {
        assert_eq!(number_and_place(id), (number, place), "{id}");
    }
    assert_eq!(number_and_place(&"a".repeat(256)), (2, 0));
    assert_eq!(number_and_place(&".".repeat(256)), (2, 0));
    assert_eq!(number_and_place(&"a".repeat(255)), (4, 0));
}

#[test]
fn reports() {
    for (id, language, script, region, variants, extensions) in [
        ("EN", "en", "", "", 0, 0),
        ("root", "und", "", "", 0, 0),
        ("ROOT-x-u", "und", "", "", 0, 1),
        ("und", "und", "", "", 0, 0),
        ("lATN_us", "und", "Latn", "US", 0, 0),
        ("Latn-1994", "und", "Latn", "", 1, 0),
        ("zzzz", "und", "Zzzz", "", 0, 0),
        ("IW_il", "iw", "", "IL", 0, 0),
        ("en-root", "en", "Root", "", 0, 0),
        ("abcde-abcde-abcdef", "abcde", "", "", 2, 0),
        ("en-LATN-419-1994-1ABC-posix", "en", "Latn", "419", 3, 0),
        ("en-u-ca", "en", "", "", 0, 1),
        ("en-u-foo", "en", "", "", 0, 1),
        ("en-u-ca-ca-gregory-foo-foo-ca", "en", "", "", 0, 1),
        ("en-u-1a-true", "en", "", "", 0, 1),
        ("en-1-abc-a-12-bb", "en", "", "", 0, 2),
        ("en-1994-t-de-latn-us-1994-posix-k0-abc-abc-m0-2007", "en", "", "", 1, 1),
        ("en-t-de-u-ca-0-bb-x-x-u-a-1-k0", "en", "", "", 0, 4),
        ("en-x-a-x", "en", "", "", 0, 1),
        ("en-a-12-ab-abcdefgh", "en", "", "", 0, 1),
    ] {
        let report = read(id.as_bytes());
        assert_eq!((report.number, report.place), (0, 0), "{id}");
        assert_eq!(report.language, language.as_bytes(), "{id}");
        assert_eq!(report.script, script.as_bytes(), "{id}");
        assert_eq!(report.region, region.as_bytes(), "{id}");
        assert_eq!((report.variants, report.extensions), (variants, extensions), "{id}");
    }
}

/// All 36 singletons at once.
#[test]
fn every_singleton() {
    let mut id = "en".to_string();
    for singleton in ('0'..='9').chain('a'..='z').filter(|&s| s != 'x') {
        id += &format!("-{singleton}-abc");
    }
    id += "-x-a";
    assert_eq!(read(id.as_bytes()).extensions, 36);
}

// The grammar once more, as sets of ends: `f(subtags, starts)` gives where a
// part that begins at one of the starts can end.

type Ends = std::collections::BTreeSet<usize>;
type Shape = fn(&str) -> bool;

fn one(subtags: &[&str], starts: &Ends, shape: Shape) -> Ends {
    starts.iter().filter(|&&s| s < subtags.len() && shape(subtags[s])).map(|s| s + 1).collect()
}

fn optional(subtags: &[&str], starts: &Ends, shape: Shape) -> Ends {
    starts.union(&one(subtags, starts, shape)).copied().collect()
}

fn any(starts: Ends, more: impl Fn(&Ends) -> Ends) -> Ends {
    let mut ends = starts.clone();
    let mut last = starts;
    while !last.is_empty() {
        last = more(&last);
        ends.extend(&last);
    }
    ends
}

fn some(starts: &Ends, more: impl Fn(&Ends) -> Ends) -> Ends {
    any(more(starts), more)
}

fn alpha(s: &str) -> bool {
    s.bytes().all(|b| b.is_ascii_alphabetic())
}

fn digit(s: &str) -> bool {
    s.bytes().all(|b| b.is_ascii_digit())
}

const LANGUAGE: Shape = |s| alpha(s) && [2, 3, 5, 6, 7, 8].contains(&s.len());
const SCRIPT: Shape = |s| alpha(s) && s.len() == 4;
const REGION: Shape = |s| s.len() == 2 && alpha(s) || s.len() == 3 && digit(s);
const VARIANT: Shape = |s| s.len() >= 5 || s.len() == 4 && digit(&s[..1]);
const UKEY: Shape = |s| s.len() == 2 && alpha(&s[1..]);
const TKEY: Shape = |s| s.len() == 2 && alpha(&s[..1]) && digit(&s[1..]);
const LONG: Shape = |s| s.len() >= 3;

fn after_language(subtags: &[&str], starts: &Ends) -> Ends {
    let script = optional(subtags, starts, SCRIPT);
    after_script(subtags, &script)
}

fn after_script(subtags: &[&str], starts: &Ends) -> Ends {
    let region = optional(subtags, starts, REGION);
    any(region, |s| one(subtags, s, VARIANT))
}

fn extension(subtags: &[&str], starts: &Ends) -> Ends {
    let u = one(subtags, starts, |s| s == "u");
    let attributes = some(&u, |s| one(subtags, s, LONG));
    let keywords =
        |from: &Ends| some(from, |s| any(one(subtags, s, UKEY), |s| one(subtags, s, LONG)));
    let mut ends = keywords(&u);
    ends.extend(keywords(&attributes));
    ends.extend(attributes);

    let t = one(subtags, starts, |s| s == "t");
    let language = after_language(subtags, &one(subtags, &t, LANGUAGE));
    let fields =
        |from: &Ends| some(from, |s| some(&one(subtags, s, TKEY), |s| one(subtags, s, LONG)));
    ends.extend(fields(&t));
    ends.extend(fields(&language));
    ends.extend(language);

    let other = one(subtags, starts, |s| s.len() == 1 && !["u", "t", "x"].contains(&s));
    ends.extend(some(&other, |s| one(subtags, s, |s| s.len() >= 2)));
    ends
}

fn main_part(subtags: &[&str]) -> Ends {
    let first = Ends::from([0]);
    let mut main = one(subtags, &first, |s| s == "root");
    main.extend(after_language(subtags, &one(subtags, &first, LANGUAGE)));
    main.extend(after_script(subtags, &one(subtags, &first, |s| SCRIPT(s) && s != "root")));
    main
}

fn fits_grammar(subtags: &[&str]) -> bool {
    let mut ends = any(main_part(subtags), |s| extension(subtags, s));
    let private = one(subtags, &ends, |s| s == "x");
    ends.extend(some(&private, |s| one(subtags, s, |_| true)));
    ends.contains(&subtags.len())
}

/// No singleton, no variant of one language part and no `t` key twice.
fn no_repeat(subtags: &[&str]) -> bool {
    fn unlike<'a>(subtags: impl Iterator<Item = &'a &'a str>) -> bool {
        let mut earlier = std::collections::BTreeSet::new();
        subtags.into_iter().all(|subtag| earlier.insert(subtag))
    }
    let until =
        |list: &[&str], stop: Shape| list.iter().position(|s| stop(s)).unwrap_or(list.len());
    let singleton: Shape = |s| s.len() == 1;
    let private = until(subtags, |s| s == "x");
    let main = &subtags[..until(subtags, singleton)];
    let t = &subtags[..private][(until(&subtags[..private], |s| s == "t") + 1).min(private)..];
    let t = &t[..until(t, singleton)];
    let t_language = &t[..until(t, TKEY)];
    unlike(subtags[..private].iter().filter(|s| singleton(s)))
        && unlike(main.iter().skip(1).filter(|s| VARIANT(s)))
        && unlike(t_language.iter().skip(1).filter(|s| VARIANT(s)))
        && unlike(t.iter().filter(|s| TKEY(s)))
}

/// The number of a subtag that can't stand there (document 02, T-03), by what is
/// complete in front of it: nothing, a main part alone, or that and more.
fn misplaced(subtags: &[&str], at: usize) -> u8 {
    match at {
        0 => 5,
        _ if main_part(subtags).contains(&at) => 15,
        _ => 16,
    }
}

/// The number, and the subtag it is about, found by trying which beginnings can
/// be completed; `abc` completes whatever can be.
fn by_completion(subtags: &[&str]) -> (u8, usize) {
    let with = |end: usize| [&subtags[..end], &["abc"]].concat();
    let accepted = |list: &[&str]| fits_grammar(list) && no_repeat(list);
    for at in 0..subtags.len() {
        let (here, more) = (&subtags[..=at], with(at + 1));
        if accepted(here) || accepted(&more) {
            continue;
        }
        let waiting = at > 0 && !accepted(&subtags[..at]);
        if waiting && (subtags[at].len() == 1 || TKEY(subtags[at]) && TKEY(subtags[at - 1])) {
            return (7, at - 1);
        }
        let repeats = fits_grammar(here) || fits_grammar(&more);
        return (if repeats { 6 } else { misplaced(subtags, at) }, at);
    }
    if accepted(subtags) {
        (0, 0)
    } else {
        (7, subtags.len() - 1)
    }
}

#[test]
fn refusals_are_at_the_first_subtag_that_spoils_it() {
    let mut rng = Rng::new(5);
    let mut seen = [0; 17];
    for _ in 0..60_000 {
        let id = gen::identifier(&mut rng);
        let report = read(&id);
        if (1..=4).contains(&report.number) {
            continue;
        }
        let text = String::from_utf8(id).unwrap().to_lowercase().replace('_', "-");
        let subtags: Vec<&str> = text.split('-').collect();
        let (number, at) = by_completion(&subtags);
        let place = subtags[..at].iter().map(|s| s.len() + 1).sum::<usize>();
        assert_eq!((report.number, report.place), (number, place), "{text}");
        seen[number as usize] += 1;
    }
    println!("{seen:?}");
    assert!([5, 6, 7, 15, 16].iter().all(|&number| seen[number] > 1_000), "{seen:?}");
}

/// Every list of up to 5 subtags over a telling few.
#[test]
fn short_identifiers_all_together() {
    let pool = ["en", "latn", "root", "001", "1994", "abcde", "u", "t", "x", "0", "k0", "1a"];
    let mut lists: Vec<Vec<&str>> = vec![vec![]];
    for _ in 0..5 {
        lists = lists
            .iter()
            .flat_map(|list| pool.iter().map(move |&s| [&list[..], &[s]].concat()))
            .collect();
        for list in &lists {
            let (number, at) = by_completion(list);
            let place = list[..at].iter().map(|s| s.len() + 1).sum::<usize>();
            assert_eq!(number_and_place(&list.join("-")), (number, place), "{list:?}");
        }
        // Longer lists only of a share, to keep the test short.
        let mut rng = Rng::new(lists.len() as u64);
        lists.retain(|_| rng.chance(1, 2));
    }
}
