//! The monthly bill: document 02, T-01.

use second::examples::{long, ALIASES, LIKELY};
use second::gen::{self, Rng};
use second::*;
use std::collections::BTreeSet;
use std::io::Write;
use std::process::{Command, Stdio};

const HEADER: &str = "key\tmembers\tdeliveries\n";

fn run(input: impl AsRef<[u8]>) -> String {
    String::from_utf8(bill(input.as_ref(), ALIASES, LIKELY)).unwrap()
}

/// The bill with these rows and so many refused lines.
fn printed(rows: &[&str], refused: usize) -> String {
    let rows: String = rows.iter().map(|row| format!("{row}\n")).collect();
    format!("{HEADER}{rows}-\t0\t{refused}\n")
}

/// An identifier with a key of its own.
fn own(number: usize) -> String {
    let letter = |n: usize| char::from(b'a' + (n % 26) as u8);
    format!("q{}{}-Latn-US", letter(number / 26), letter(number))
}

#[test]
fn header_rows_and_last_row() {
    assert_eq!(run(""), printed(&[], 0));
    assert_eq!(run("1\ten\n"), printed(&["en\t1\t1"], 0));
    assert_eq!(run("x\n"), printed(&[], 1));
    let input = "1\tiw_IL\n2\the\n2\tHE-hebr\nx\n1\tzh-Hant-TW\n1\ten\n";
    assert_eq!(run(input), printed(&["en\t1\t1", "he\t2\t3", "zh-TW\t1\t1"], 1));
}

#[test]
fn lines_end_as_in_keys() {
    assert_eq!(run("\n"), printed(&[], 1));
    assert_eq!(run("\n\n"), printed(&[], 2));
    assert_eq!(run("1\ten"), printed(&["en\t1\t1"], 0));
    assert_eq!(run("1\ten\n\n2\ten"), printed(&["en\t2\t2"], 1));
    assert_eq!(run("1\ten\r\n2\ten\r"), printed(&[], 2));
    // Lines of any length, and what comes after them.
    let far = "1\ten-x-".to_string() + &"a".repeat(100_000);
    assert_eq!(run(format!("{far}\n1\ten\n{far}")), printed(&["en\t1\t1"], 2));
    let far = "1".repeat(100_000) + "\ten";
    assert_eq!(run(format!("{far}\n1\ten\n{far}")), printed(&["en\t1\t1"], 2));
}

#[test]
fn member_numbers() {
    for member in 1..=64 {
        assert_eq!(run(format!("{member}\ten")), printed(&["en\t1\t1"], 0), "{member}");
    }
    for wrong in [
        "0",
        "65",
        "66",
        "69",
        "70",
        "99",
        "100",
        "640",
        "01",
        "064",
        "00",
        "001",
        "",
        " ",
        " 1",
        "1 ",
        "+1",
        "-1",
        "1.",
        "1a",
        "a",
        "1\0",
        "1\r",
        "0x1",
        "257",
        "4294967297",
        "18446744073709551617",
        "\u{661}",
        "\u{b9}",
        "1-",
        "1/",
        "1:",
        "/",
        ":",
    ] {
        assert_eq!(run(format!("{wrong}\ten")), printed(&[], 1), "{wrong}");
    }
    for byte in 0..=255 {
        let right = (b'1'..=b'9').contains(&byte);
        let input = [byte, b'\t', b'e', b'n'];
        let expected = if right { printed(&["en\t1\t1"], 0) } else { printed(&[], 1) };
        if byte != b'\n' {
            assert_eq!(run(input), expected, "{byte}");
        }
    }
}

#[test]
fn shapes_of_lines() {
    for wrong in [
        "en", "1", "1 en", "1en", "1\t", "\t", "\ten", "1\t\ten", "1\ten\t", "1\ten\t2", "\t1\ten",
        "en\t1", "1\t1\ten", "1\t en", "1\ten ", " 1\ten", "1,en", "1\0en",
    ] {
        assert_eq!(run(wrong), printed(&[], 1), "{wrong}");
        assert_eq!(run(format!("{wrong}\n3\tde\n")), printed(&["de\t1\t1"], 1), "{wrong}");
    }
}

#[test]
fn members_are_counted_once_a_key() {
    let all: String = (1..=64).map(|member| format!("{member}\ten\n")).collect();
    assert_eq!(run(&all), printed(&["en\t64\t64"], 0));
    assert_eq!(run(all.repeat(3)), printed(&["en\t64\t192"], 0));
    assert_eq!(run("7\ten\n7\tde\n7\ten\n"), printed(&["de\t1\t1", "en\t1\t2"], 0));
    assert_eq!(run("1\ten\n64\ten\n1\ten-US\n64\tund\n"), printed(&["en\t2\t4"], 0));
    // A refused line is no use of a key.
    assert_eq!(run("1\ten\n2\ten-u\n65\ten\n"), printed(&["en\t1\t1"], 2));
}

#[test]
fn keys_are_of_the_minimised_form() {
    for (id, key) in [
        ("en-Latn-US", "en"),
        ("en-GB-1994-posix-u-kn-x-a", "en-GB"),
        ("root-x-a", "en"),
        ("und-Hant-US", "zh-Hant-US"),
        ("zh_hant", "zh-TW"),
        ("sh", "sr-Latn"),
        ("sh-ME", "sr-ME"),
        ("sr-BU", "sr-MM"),
        ("en-Zzzz-ZZ", "en"),
        ("fr-Latn-FR", "fr-Latn-FR"),
        ("FR_latn_fr_1994_t_de", "fr-Latn-FR"),
    ] {
        let row = format!("{key}\t1\t1");
        assert_eq!(run(format!("5\t{id}")), printed(&[row.as_str()], 0), "{id}");
    }
}

#[test]
fn rows_in_byte_order() {
    let input = "1\tzh\n1\tsr-ME\n1\tsr-Latn\n1\tsr\n1\tsr-001\n1\tsra-Latn-US\n1\ten-GB\n1\ten\n";
    let rows = ["en", "en-GB", "sr", "sr-001", "sr-Latn", "sr-ME", "sra-Latn-US", "zh"];
    let rows = rows.map(|key| format!("{key}\t1\t1"));
    let rows: Vec<&str> = rows.iter().map(String::as_str).collect();
    assert_eq!(run(input), printed(&rows, 0));
    let backwards: String = input.lines().rev().map(|line| format!("{line}\n")).collect();
    assert_eq!(run(backwards), printed(&rows, 0));
}

#[test]
fn every_refusal_of_an_identifier() {
    let texts: Vec<(Vec<u8>, u8)> = vec![
        (b"".to_vec(), 1),
        (vec![b'a'; 256], 2),
        (long("en-x-", 8), 2),
        (b"en US".to_vec(), 3),
        (b"en\xFF".to_vec(), 3),
        (b"en--US".to_vec(), 4),
        (b"en-".to_vec(), 4),
        (b"abcdefghi".to_vec(), 4),
        (b"u-ca-abc".to_vec(), 5),
        (b"en-US-Latn".to_vec(), 15),
        (b"root-US".to_vec(), 15),
        (b"en-u-ca-12".to_vec(), 16),
        (b"en-1994-1994".to_vec(), 6),
        (b"en-u-kn-u-kn".to_vec(), 6),
        (b"en-u".to_vec(), 7),
        (b"fr".to_vec(), 8),
        (long("Latn-x-", 5), 9),
        (long("en-x-", 7), 9),
    ];
    let mut all = b"64\tde\n".to_vec();
    for (id, number) in &texts {
        assert_eq!(minimise(id, ALIASES, LIKELY, &mut [0; 255]).number, *number);
        let line = [b"64\t", &id[..]].concat();
        assert_eq!(run(&line), printed(&[], 1), "{number}");
        all.extend_from_slice(&line);
        all.push(b'\n');
    }
    assert_eq!(run(all), printed(&["de\t1\t1"], texts.len()));
    // Behind `64` and a tab, 255 bytes are accepted, 256 refused.
    let fill = |length| {
        let mut id = b"qq-Latn-US-x".to_vec();
        while id.len() < length {
            let size = (length - id.len() - 1).min(8);
            // No separator may be left over at the end.
            let size = if length - id.len() - 1 - size == 1 { size - 1 } else { size };
            id.push(b'-');
            id.extend(vec![b'a'; size]);
        }
        id
    };
    for (length, expected) in [(255, printed(&["qq-Latn-US\t1\t1"], 0)), (256, printed(&[], 1))] {
        let id = fill(length);
        assert_eq!((id.len(), id.last()), (length, Some(&b'a')));
        assert_eq!(run([b"64\t", &id[..]].concat()), expected, "{length}");
    }
}

#[test]
fn keys_512_and_513() {
    let lines: Vec<String> = (0..513).map(|number| format!("1\t{}\n", own(number))).collect();
    let rows: Vec<String> = (0..513).map(|number| format!("{}\t1\t1", own(number))).collect();
    let rows: Vec<&str> = rows.iter().map(String::as_str).collect();
    assert_eq!(run(lines[..512].concat()), printed(&rows[..512], 0));
    assert_eq!(run(lines[1..].concat()), printed(&rows[1..], 0));
    assert_eq!(run(lines.concat()), "17\n");
    // Without its 0A too, and whatever follows.
    assert_eq!(run(lines.concat().trim_end()), "17\n");
    assert_eq!(run(lines.concat() + "1\ten\n\n"), "17\n");
    // Keys again, and refused lines, are no more keys.
    let again = lines[..512].concat().repeat(2) + "x\n1\tfr\n65\ten\n0\tde\n1\ten\tde\n";
    let rows: Vec<String> = rows[..512].iter().map(|row| row.replace("\t1\t1", "\t1\t2")).collect();
    let rows: Vec<&str> = rows.iter().map(String::as_str).collect();
    assert_eq!(run(&again), printed(&rows, 5));
    assert_eq!(run(again + "1\ten"), "17\n");
    // Spellings of one key, 513 of them, are one key.
    let spellings: String = (0..513).map(|n| format!("1\ten-x-{n}\n")).collect();
    assert_eq!(run(spellings), printed(&["en\t1\t513"], 0));
}

#[test]
fn lines_1_000_000_and_1_000_001() {
    let million = "9\ten\n".repeat(1_000_000);
    assert_eq!(run(million.trim_end()), printed(&["en\t1\t1000000"], 0));
    assert_eq!(run(million + "x"), "18\n");
    // Most of the lines empty, which takes less time.
    let million = "9\ten\n8\tde\n".to_string() + &"\n".repeat(999_997) + "9\ten\n";
    assert_eq!(run(&million), printed(&["de\t1\t1", "en\t1\t2"], 999_997));
    for more in ["\n", "x", "9\ten", "9\ten\n", "9\tde\n", "\n9\ten\n"] {
        assert_eq!(run(million.clone() + more), "18\n", "{more:?}");
    }
    let refused = "\n".repeat(1_000_000);
    assert_eq!(run(&refused), printed(&[], 1_000_000));
    assert_eq!(run(refused + "\n"), "18\n");
}

/// 512 keys, empty lines, and one more key as line `at`, then `after` lines.
fn one_key_more(at: usize, after: usize) -> String {
    let keys: String = (0..512).map(|number| format!("1\t{}\n", own(number))).collect();
    keys + &"\n".repeat(at - 513) + "1\ten\n" + &"\n".repeat(after)
}

#[test]
fn the_first_line_decides() {
    for (at, after, number) in [
        (999_999, 0, "17\n"),
        (999_999, 5, "17\n"),
        (1_000_000, 0, "17\n"),
        (1_000_000, 1, "17\n"),
        (1_000_000, 9, "17\n"),
        // Both at one line: 18 before 17.
        (1_000_001, 0, "18\n"),
        (1_000_001, 3, "18\n"),
        (1_000_002, 0, "18\n"),
        (513, 1_000_000, "17\n"),
    ] {
        assert_eq!(run(one_key_more(at, after)), number, "{at} {after}");
    }
}

#[test]
fn bad_tables() {
    let months = ["", "1\ten\n", &one_key_more(513, 0), &"\n".repeat(1_000_001)];
    let too_long = [b'\n'; 32_769];
    for (aliases, likely, line) in [
        (&b"x\n"[..], &b"y"[..], "table\t12\t1\t0\n"),
        (b"", b"en\ten-Latn-US\nde\tde-Latn-DE\n", "table\t13\t2\t14\n"),
        (b"language\tiw\the\n", b"he\tiw-Hebr-IL\n", "table\t14\t2\t0\n"),
        (b"region\tAA\tBB\nregion\tBB\tCC\n", b"", "table\t14\t1\t0\n"),
        (b"", &too_long, "table\t11\t2\t0\n"),
        (&too_long, b"x", "table\t11\t1\t0\n"),
    ] {
        for month in months {
            let found = String::from_utf8(bill(month.as_bytes(), aliases, likely)).unwrap();
            assert_eq!(found, line);
        }
        // It is the line of `keys`.
        let keys = String::from_utf8(keys(b"", aliases, likely)).unwrap();
        assert_eq!(keys, format!("asked\tnumber\tkept\n{line}"));
    }
    // Tables of zero bytes are good.
    let found = bill(b"1\ten\n1\ten-Latn-US", b"", b"");
    assert_eq!(String::from_utf8(found).unwrap(), printed(&["en-Latn-US\t1\t1"], 1));
}

/// The different maximised triples among the accepted lines, by the public
/// functions alone.
fn triples(input: &[u8], aliases: &[u8], likely: &[u8]) -> BTreeSet<[Vec<u8>; 3]> {
    let tables = Tables::likely(aliases, likely).unwrap();
    let good: Vec<String> = (1..=64).map(|member| member.to_string()).collect();
    let mut found = BTreeSet::new();
    for line in input.split(|&byte| byte == b'\n') {
        let mut parts = line.splitn(2, |&byte| byte == b'\t');
        let member = parts.next().unwrap();
        let Some(id) = parts.next() else { continue };
        let mut out = [0; 255];
        let answer = tables.maximise(id, &mut out);
        if answer.number == 0 && good.iter().any(|text| text.as_bytes() == member) {
            let report = read(&out[..answer.length]);
            found.insert([report.language, report.script, report.region]);
        }
    }
    found
}

/// Sums, keys and orders of random months, over the examples' tables and over
/// small ones.
#[test]
fn laws_of_random_months() {
    let mut seen = [0; 3];
    for seed in 100..200 {
        let month = months::month(seed, ALIASES, LIKELY);
        let aliases = month.aliases.unwrap_or_default();
        let likely = month.likely.unwrap_or_default();
        let first = bill(&month.orders[0], &aliases, &likely);
        let first = String::from_utf8(first).unwrap();
        for order in &month.orders {
            let found = bill(order, &aliases, &likely);
            assert_eq!(String::from_utf8(found).unwrap(), first, "{seed}");
        }
        if first.starts_with("table\t") {
            seen[0] += 1;
            continue;
        }
        let input = &month.orders[0];
        let keys = triples(input, &aliases, &likely).len();
        if first == "17\n" {
            assert!(keys > 512, "{seed}");
            seen[1] += 1;
            continue;
        }
        seen[2] += 1;
        let rows: Vec<Vec<&str>> = first.lines().map(|row| row.split('\t').collect()).collect();
        assert!(rows.iter().all(|row| row.len() == 3));
        assert_eq!(rows.len(), keys + 2, "{seed}");
        let rows = &rows[1..];
        let lines = input.iter().filter(|&&byte| byte == b'\n').count()
            + usize::from(input.last().is_some_and(|&byte| byte != b'\n'));
        let number = |text: &str| text.parse::<usize>().unwrap();
        assert_eq!(rows.iter().map(|row| number(row[2])).sum::<usize>(), lines, "{seed}");
        let (last, rows) = rows.split_last().unwrap();
        assert_eq!(last[..2], ["-", "0"]);
        assert!(rows.windows(2).all(|pair| pair[0][0].as_bytes() < pair[1][0].as_bytes()));
        for row in rows {
            let (members, deliveries) = (number(row[1]), number(row[2]));
            assert!(1 <= members && members <= deliveries.min(64), "{seed}");
        }
    }
    assert!(seen.iter().all(|&times| times > 4), "{seen:?}");
}

#[test]
fn any_order_of_random_lines() {
    let rng = &mut Rng::new(71);
    for _ in 0..50 {
        let (aliases, likely, _) = gen::good_tables(rng);
        let mut lines: Vec<Vec<u8>> = (0..rng.below(60))
            .map(|_| {
                let id = gen::identifier(rng);
                let mut line = format!("{}\t", rng.below(67)).into_bytes();
                line.extend(id.into_iter().filter(|&byte| byte != b'\n'));
                line.push(b'\n');
                line
            })
            .collect();
        let first = bill(&lines.concat(), &aliases, &likely);
        for _ in 0..5 {
            for last in (1..lines.len()).rev() {
                lines.swap(last, rng.below(last + 1));
            }
            assert_eq!(bill(&lines.concat(), &aliases, &likely), first);
        }
    }
}

fn command(arguments: &[&str], input: &[u8]) -> (Vec<u8>, bool) {
    let mut child = Command::new(env!("CARGO_BIN_EXE_second"))
        .args(arguments)
        .stdin(Stdio::piped())
        .stdout(Stdio::piped())
        .stderr(Stdio::null())
        .spawn()
        .unwrap();
    child.stdin.take().unwrap().write_all(input).unwrap();
    let output = child.wait_with_output().unwrap();
    (output.stdout, output.status.success())
}

#[test]
fn subcommands() {
    let folder = std::env::temp_dir().join(format!("second-bill-{}", std::process::id()));
    std::fs::create_dir_all(&folder).unwrap();
    let name = folder.to_str().unwrap();
    let text = |(printed, good): (Vec<u8>, bool)| (String::from_utf8(printed).unwrap(), good);
    let input = b"1\tiw_IL\n2\tfr\n";
    // Files that can't be opened count as zero bytes.
    assert_eq!(text(command(&["bill", name], input)), (printed(&[], 2), true));
    std::fs::write(folder.join("aliases.tsv"), ALIASES).unwrap();
    std::fs::write(folder.join("likely.tsv"), LIKELY).unwrap();
    assert_eq!(text(command(&["bill", name], input)), (printed(&["he\t1\t1"], 1), true));
    // The parents are not opened.
    std::fs::write(folder.join("parents.tsv"), b"x").unwrap();
    assert_eq!(text(command(&["bill", name], input)), (printed(&["he\t1\t1"], 1), true));
    // Months are the same every time.
    let into = folder.join("months");
    let into = into.to_str().unwrap();
    let mut made = Vec::new();
    for _ in 0..2 {
        assert!(command(&["months", name, into, "9"], b"").1);
        let month = std::path::Path::new(into).join("0008");
        made.push([0, 1, 2, 3].map(|n| std::fs::read(month.join(format!("lines.{n}"))).unwrap()));
    }
    assert_eq!(made[0], made[1]);
    assert!(!command(&["months", into, into, "1"], b"").1);
    std::fs::remove_dir_all(&folder).unwrap();
}
