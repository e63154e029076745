//! "The three tables" and the numbers 11 to 14.

use second::gen::{self, Rng};
use second::*;

fn bad(number: u8, table: u8, place: usize) -> Answer {
    Answer { number, table, place, ..Answer::default() }
}

const GOOD: Answer = Answer { number: 0, table: 0, place: 0, length: 0, steps: 0 };

#[test]
fn lookups() {
    for (table, key, found) in [
        ("", "", (false, 0, 0)),
        ("", "a", (false, 0, 0)),
        ("a\tb\n", "a", (true, 2, 1)),
        ("a\tb", "a", (true, 2, 1)),
        ("a\t", "a", (true, 2, 0)),
        ("a\t\n", "a", (true, 2, 0)),
        ("a\n", "a", (false, 0, 0)),
        ("ab\tc\na\td\n", "a", (true, 7, 1)),
        ("a\tb\tc\n", "a", (true, 2, 3)),
        ("a\tb\tc\n", "a\tb", (true, 4, 1)),
        ("a\tb\tc\n", "b", (false, 0, 0)),
        ("a\tb\na\tc\n", "a", (true, 2, 1)),
        ("x\n\tb\n", "", (true, 3, 1)),
        ("\n\n", "", (false, 0, 0)),
        ("a\nb\tc\n", "a\nb", (false, 0, 0)),
        ("a\n\tc\n", "a\n", (false, 0, 0)),
        ("a\tb\r\n", "a", (true, 2, 2)),
    ] {
        assert_eq!(lookup(table.as_bytes(), key.as_bytes()), found, "{table:?} {key:?}");
    }
}

/// By all places where a line could begin.
#[test]
fn lookups_over_all_bytes() {
    let mut rng = Rng::new(11);
    for _ in 0..50_000 {
        let length = rng.below(14);
        let table: Vec<u8> = (0..length).map(|_| rng.pick(b"ab\t\t\n\xFF")).collect();
        let length = rng.below(4);
        let key: Vec<u8> = (0..length).map(|_| rng.pick(b"aab\t\n")).collect();
        let starts = (0..=table.len()).filter(|&i| i == 0 || table[i - 1] == b'\n');
        let sought = [&key[..], b"\t"].concat();
        let expected = match starts.into_iter().find(|&i| table[i..].starts_with(&sought)) {
            Some(start) if !key.contains(&b'\n') => {
                let start = start + sought.len();
                let rest = &table[start..];
                let length = rest.iter().position(|&b| b == b'\n').unwrap_or(rest.len());
                (true, start, length)
            }
            _ => (false, 0, 0),
        };
        assert_eq!(lookup(&table, &key), expected, "{table:?} {key:?}");
    }
}

#[test]
fn alias_rows() {
    for good in [
        "",
        "language\tiw\the\n",
        "language\tabcdefgh\taa-Latn\n",
        "language\tiw\the-IL\n",
        "language\tiw\the-Hebr-001\n",
        "language\tiw\the-Zzzz-ZZ\n",
        "script\tQaai\tZinh\n",
        "script\tZzzz\tRoot\n",
        "region\t172\tRU\n",
        "region\tBU\t001\n",
        "variant\t1abc\tabcde\n",
        "variant\theploc\t1994\n",
        "language\tiw\the\nlanguage\tsh\tsr\nregion\tBU\tMM\nscript\tQaai\tZinh\nvariant\tposix\t1994\n",
    ] {
        assert_eq!(check(good.as_bytes(), b"", b""), GOOD, "{good:?}");
    }
    for wrong in [
        "\n",
        "\r\n",
        "language\tiw\the", // no 0A
        "language\tiw\the\r\n",
        "language\tiw\n",
        "language\tiw\t\n",
        "language\t\the\n",
        "language\tiw\the\t\n",
        "language\t\tiw\the\n",
        "\tlanguage\tiw\the\n",
        "language iw he\n",
        "Language\tiw\the\n",
        "lang\tiw\the\n",
        "grandfathered\tiw\the\n",
        "language\tIW\the\n",
        "language\tiw\tHe\n",
        "language\tiw\the-hebr\n",
        "language\tiw\the-Hebr-il\n",
        "language\tiw\the_Hebr\n",
        "language\tiw\the-IL-Hebr\n",
        "language\tiw\the-1994\n",
        "language\tiw\the-Hebr-IL-1994\n",
        "language\tiw\the-\n",
        "language\tiw-IL\the\n",
        "language\tund\the\n",
        "language\tiw\tund\n",
        "language\tiw\tund-Latn\n",
        "language\troot\the\n",
        "language\tiw\troot\n",
        "language\tiw\tHebr\n",
        "script\tQaai\tzinh\n",
        "script\tQAAI\tZinh\n",
        "script\tQaai\tZinh-US\n",
        "script\tQaa\tZinh\n",
        "region\tbu\tMM\n",
        "region\tBU\tmm\n",
        "region\t12\tMM\n",
        "region\tBU\tMM-001\n",
        "region\tBUR\tMM\n",
        "variant\tHeploc\talalc97\n",
        "variant\theploc\tAlalc97\n",
        "variant\tabcd\talalc97\n",
        "variant\theploc\talalc97-1994\n",
        "variant\theploc\tabcdefghi\n",
        "language\tiw\th\u{e9}\n",
        "language\tiw\the \n",
    ] {
        assert_eq!(check(wrong.as_bytes(), b"", b""), bad(12, 1, 0), "{wrong:?}");
        let second = format!("language\taa\taf\n{wrong}");
        assert_eq!(check(second.as_bytes(), b"", b""), bad(12, 1, 15), "{second:?}");
    }
}

#[test]
fn likely_rows() {
    for good in [
        "",
        "und\ten-Latn-US\n",
        "und-Zzzz-ZZ\ten-Latn-US\n",
        "en-US\ten-Latn-001\n",
        "en-Latn\tabcdefgh-Root-US\n",
        "en\tde-Latn-US\n",
        "sr\tsr-Cyrl-RS\nsr-ME\tsr-Latn-ME\nsrb\tsr-Cyrl-RS\n",
    ] {
        assert_eq!(check(b"", good.as_bytes(), b""), GOOD, "{good:?}");
    }
    for wrong in [
        "\n",
        "en\ten-Latn-US",
        "en\ten-Latn-US\r\n",
        "en\ten-Latn\n",
        "en\ten-US\n",
        "en\ten\n",
        "en\t\n",
        "\ten-Latn-US\n",
        "en\ten-Latn-US\ta\n",
        "en\tund-Latn-US\n",
        "en\ten-Zzzz-US\n",
        "en\ten-Latn-ZZ\n",
        "en\ten-Latn-US-1994\n",
        "en-1994\ten-Latn-US\n",
        "en_US\ten-Latn-US\n",
        "En\ten-Latn-US\n",
        "Latn\ten-Latn-US\n",
        "root\ten-Latn-US\n",
        "en-US-Latn\ten-Latn-US\n",
    ] {
        assert_eq!(check(b"", wrong.as_bytes(), b""), bad(12, 2, 0), "{wrong:?}");
    }
}

#[test]
fn parent_rows() {
    for good in [
        "",
        "en-AU\ten-001\n",
        "en\tund\n",
        "en\tund-Latn\n",
        "und-Hant\tund\n",
        "en-Zzzz\ten-ZZ\n",
        "und-Latn-US\tund-US\n",
    ] {
        assert_eq!(check(b"", b"", good.as_bytes()), GOOD, "{good:?}");
    }
    for wrong in [
        "\n",
        "und\ten\n",
        "und\tund\n",
        "en\t\n",
        "en\tund",
        "en\troot\n",
        "en\tLatn\n",
        "en\tund\tund\n",
        "en-1994\tund\n",
        "en\tde-1994\n",
        "en-au\tund\n",
    ] {
        assert_eq!(check(b"", b"", wrong.as_bytes()), bad(12, 3, 0), "{wrong:?}");
    }
}

#[test]
fn rows_ascend_strictly() {
    let likely = |text: &str| check(b"", text.as_bytes(), b"");
    let (en, us, de) = ("en\ten-Latn-US\n", "en-US\ten-Latn-US\n", "de\tde-Latn-DE\n");
    assert_eq!(likely(&format!("{de}{en}{us}")), GOOD);
    assert_eq!(likely(&format!("{en}{en}")), bad(13, 2, en.len()));
    assert_eq!(likely(&format!("{us}{en}")), bad(13, 2, us.len()));
    assert_eq!(likely(&format!("{de}{us}{en}")), bad(13, 2, de.len() + us.len()));
    // 12 before 13 at one row, and row by row.
    assert_eq!(likely(&format!("{en}de\tde\n{de}")), bad(12, 2, en.len()));
    assert_eq!(likely(&format!("{en}{de}de\n")), bad(13, 2, en.len()));
    // Same key, another value.
    assert_eq!(likely("en\ten-Latn-US\nen\ten-Latn-ZW\n"), bad(13, 2, 14));
    // By kind, tab, key.
    let aliases = |text: &str| check(text.as_bytes(), b"", b"");
    assert_eq!(aliases("region\tBU\tMM\nlanguage\tiw\the\n"), bad(13, 1, 13));
    assert_eq!(aliases("region\t172\tRU\nregion\tBU\tMM\nscript\tQaai\tZinh\n"), GOOD);
    assert_eq!(aliases("language\tiw\the\nlanguage\tiw\tsr\n"), bad(13, 1, 15));
    assert_eq!(check(b"", b"", b"en\tund\nde\tund\n"), bad(13, 3, 7));
}

#[test]
fn clashes() {
    let aliases = |text: &str| check(text.as_bytes(), b"", b"");
    assert_eq!(aliases("language\tiw\tiw\n"), bad(14, 1, 0));
    assert_eq!(aliases("language\taa\tbb\nlanguage\tbb\tcc\n"), bad(14, 1, 0));
    assert_eq!(aliases("language\tbb\tcc\nlanguage\tdd\tbb-Latn\n"), bad(14, 1, 15));
    assert_eq!(aliases("script\tAaaa\tBbbb\nscript\tBbbb\tCccc\n"), bad(14, 1, 0));
    assert_eq!(aliases("region\tAA\tBB\nregion\tBB\tCC\n"), bad(14, 1, 0));
    assert_eq!(aliases("variant\taaaaa\tbbbbb\nvariant\tbbbbb\tccccc\n"), bad(14, 1, 0));
    // Only the row's own kind counts.
    assert_eq!(aliases("language\taa\tbb-Qaai-BU\nregion\tBU\tMM\nscript\tQaai\tZinh\n"), GOOD);
    assert_eq!(aliases("language\taaaaa\tbbbbb\nvariant\tbbbbb\taaaaa\n"), GOOD);

    let all = b"language\tiw\the\nregion\tBU\tMM\nscript\tQaai\tZinh\nvariant\taaaaa\tbbbbb\n";
    for value in ["iw-Latn-US", "en-Qaai-US", "en-Latn-BU"] {
        let likely = format!("en\ten-Latn-US\nfr\t{value}\n");
        assert_eq!(check(all, likely.as_bytes(), b""), bad(14, 2, 14));
        let parents = format!("en\tund\nfr\t{value}\n");
        assert_eq!(check(all, b"", parents.as_bytes()), bad(14, 3, 7));
        assert_eq!(check(b"", likely.as_bytes(), parents.as_bytes()), GOOD);
    }
    // A variant alias is no language alias; keys may hold what is replaced.
    assert_eq!(check(all, b"en\taaaaa-Latn-US\n", b""), GOOD);
    assert_eq!(check(all, b"iw\ten-Latn-US\niw-Qaai-BU\ten-Latn-US\n", b"iw-BU\ten\n"), GOOD);
}

/// A parent key from which the walk is at `und` within 8 steps, or not.
#[test]
fn the_walk_of_parents() {
    let parents = |text: &str| check(b"", b"", text.as_bytes());
    assert_eq!(parents("en\ten\n"), bad(14, 3, 0));
    assert_eq!(parents("en\ten-US\n"), bad(14, 3, 0));
    assert_eq!(parents("aa\tbb\nbb\taa\n"), bad(14, 3, 0));
    assert_eq!(parents("und-Latn\tund-Latn-US\n"), bad(14, 3, 0));
    assert_eq!(parents("aa\tund\nbb\tcc\ncc\tbb\n"), bad(14, 3, 7));
    // Eight rows are eight steps; a ninth is one too many.
    let line = |rows: &[&str]| -> String {
        rows.windows(2).map(|pair| format!("{}\t{}\n", pair[0], pair[1])).collect()
    };
    let names = ["aa", "bb", "cc", "dd", "ee", "ff", "gg", "hh", "ii", "und"];
    assert_eq!(parents(&line(&names[1..])), GOOD);
    assert_eq!(parents(&line(&names)), bad(14, 3, 0));
    // Drops cost steps too: five rows lead to gg, then three steps are left.
    let to = |value: &'static str| line(&["aa", "bb", "cc", "dd", "ee", value]);
    assert_eq!(parents(&to("gg-Latn-US")), GOOD);
    assert_eq!(parents(&format!("{}gg\thh\n", to("gg-Latn-US"))), bad(14, 3, 0));
    assert_eq!(parents(&format!("{}gg\tund-US\n", to("gg-US"))), GOOD);
    assert_eq!(parents(&format!("{}gg\tund-Latn-US\n", to("gg-US"))), bad(14, 3, 0));
    // The walk starts at the key itself and uses rows, not drops, where it can.
    assert_eq!(parents("en\tund\nen-US\ten\n"), GOOD);
}

#[test]
fn table_by_table() {
    let over = vec![b'\n'; 32_769];
    let (shape, order) = (&b"x\n"[..], &b"en\tund\nde\tund\n"[..]);
    // 11 for all tables, before any 12.
    assert_eq!(check(&over, &over, &over), bad(11, 1, 0));
    assert_eq!(check(shape, &over, &over), bad(11, 2, 0));
    assert_eq!(check(shape, shape, &over), bad(11, 3, 0));
    // 12 and 13 table by table.
    assert_eq!(check(b"", b"en\n", order), bad(12, 2, 0));
    assert_eq!(check(b"", b"", order), bad(13, 3, 7));
    assert_eq!(check(b"region\tBU\tMM\nregion\tAA\tBB\n", shape, shape), bad(13, 1, 13));
    // 14 only after 12 and 13 of all.
    let clash = &b"language\tiw\tiw\n"[..];
    assert_eq!(check(clash, b"", order), bad(13, 3, 7));
    assert_eq!(check(clash, b"en\tiw-Latn-US\n", b"en\tiw\n"), bad(14, 1, 0));
    let iw = &b"language\tiw\the\n"[..];
    assert_eq!(check(iw, b"en\tiw-Latn-US\n", b"en\tiw\n"), bad(14, 2, 0));
    assert_eq!(check(iw, b"", b"en\tiw\n"), bad(14, 3, 0));
    // Only the tables that the operation uses, and before the identifier.
    let mut out = [0; 9];
    assert_eq!(canonicalise(b"", clash, &mut out), bad(14, 1, 0));
    assert_eq!(maximise(b"", iw, shape, &mut out), bad(12, 2, 0));
    assert_eq!(minimise(b"", iw, shape, &mut out), bad(12, 2, 0));
    assert_eq!(chain(b"", iw, order, &mut out), bad(13, 3, 7));
    assert_eq!(chain(b"", &over, order, &mut out), bad(11, 1, 0));
    assert_eq!(chain(b"", b"", &over, &mut out), bad(11, 3, 0));
    assert_eq!(canonicalise(b"", iw, &mut out), bad(1, 0, 0));
}

/// A good table of 32,768 bytes passes; one byte more is 11.
#[test]
fn the_largest_table() {
    let mut table = "region\tBU\tMM\n".to_string();
    for n in 0..1488 {
        table += &format!("variant\t{n:05}\t0abcd12\n");
    }
    table += "variant\tzzzzz\t0abc\n";
    assert_eq!(table.len(), 32_768);
    assert_eq!(check(table.as_bytes(), b"", b""), GOOD);
    assert_eq!(canonicalise(b"en-BU-01487", table.as_bytes(), &mut [0; 13]).length, 13);
    table.push('\n');
    assert_eq!(check(table.as_bytes(), b"", b""), bad(11, 1, 0));
}

/// The check once more, by plain lookups over the rows as text.
fn clash_by_lookup(tables: [&str; 3]) -> Answer {
    let is_key = |kind: &str, subtag: &str| {
        lookup(tables[0].as_bytes(), format!("{kind}\t{subtag}").as_bytes()).0
    };
    let mut place = 0;
    for row in tables[0].split_inclusive('\n') {
        let fields: Vec<&str> = row.trim_end().split('\t').collect();
        if is_key(fields[0], fields[2].split('-').next().unwrap()) {
            return bad(14, 1, place);
        }
        place += row.len();
    }
    for table in [2, 3] {
        let mut place = 0;
        for row in tables[table - 1].split_inclusive('\n') {
            let (key, value) = row.trim_end().split_once('\t').unwrap();
            let mut subtags = value.split('-');
            let replaced = is_key("language", subtags.next().unwrap())
                || subtags.any(|s| is_key(if s.len() == 4 { "script" } else { "region" }, s));
            let mut at = key.to_string();
            for _ in 0..8 {
                at = match lookup(tables[2].as_bytes(), at.as_bytes()) {
                    (true, start, length) => tables[2][start..start + length].to_string(),
                    _ if at == "und" => break,
                    _ => at.rsplit_once('-').map_or("und", |(front, _)| front).to_string(),
                };
            }
            if replaced || table == 3 && at != "und" {
                return bad(14, table as u8, place);
            }
            place += row.len();
        }
    }
    GOOD
}

#[test]
fn clashes_as_by_lookup() {
    let mut rng = Rng::new(14);
    let mut seen = [0; 4];
    for _ in 0..20_000 {
        // Tables that were not made for one another.
        let (aliases, _, mut parents) = gen::good_tables(&mut rng);
        let (_, likely, _) =
            if rng.chance(1, 2) { gen::good_tables(&mut rng) } else { (vec![], vec![], vec![]) };
        if rng.chance(1, 2) {
            parents = gen::good_tables(&mut rng).2;
        }
        if rng.chance(1, 2) {
            parents = gen::bad_table(&mut rng, parents);
        }
        let answer = check(&aliases, &likely, &parents);
        if (11..=13).contains(&answer.number) {
            continue;
        }
        let text = |table: &[u8]| String::from_utf8(table.to_vec()).unwrap();
        let (a, l, p) = (text(&aliases), text(&likely), text(&parents));
        assert_eq!(answer, clash_by_lookup([&a, &l, &p]), "{a}\n{l}\n{p}");
        seen[answer.table as usize] += 1;
    }
    assert!(seen[0] > 100 && seen[2] > 100 && seen[3] > 100, "{seen:?}");
}

/// Random tables pass; damaged ones mostly don't; and each operation's tables
/// are tested as by the check with zero bytes for the rest.
#[test]
fn random_tables() {
    let mut rng = Rng::new(13);
    let (mut damaged, mut refused) = (0, 0);
    for _ in 0..10_000 {
        let (mut a, mut l, mut p) = gen::good_tables(&mut rng);
        assert_eq!(check(&a, &l, &p), GOOD);
        let chosen = [&mut a, &mut l, &mut p].into_iter().nth(rng.below(3)).unwrap();
        *chosen = gen::bad_table(&mut rng, std::mem::take(chosen));
        damaged += 1;
        refused += usize::from(check(&a, &l, &p).number != 0);
        let test = |tables: Result<Tables, Answer>| tables.err().unwrap_or_default();
        assert_eq!(test(Tables::aliases(&a)), check(&a, b"", b""));
        assert_eq!(test(Tables::likely(&a, &l)), check(&a, &l, b""));
        assert_eq!(test(Tables::parents(&a, &p)), check(&a, b"", &p));
    }
    assert!(refused * 10 > damaged * 7, "{refused} of {damaged}");
}
