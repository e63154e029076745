//! The program `tables_check`.

use second::examples::{ALIASES, LIKELY, PARENTS};
use second::*;

fn run(tables: [&[u8]; 3]) -> String {
    String::from_utf8(tables_check(tables[0], tables[1], tables[2])).unwrap()
}

/// Table 1, 2 or 3 alone; the other two have zero bytes.
fn alone(table: usize, bytes: impl AsRef<[u8]>) -> String {
    let mut tables = [&b""[..]; 3];
    tables[table - 1] = bytes.as_ref();
    run(tables)
}

/// The words after 12 for one row in a table of its own.
fn shape(table: usize, row: impl AsRef<[u8]>) -> String {
    let line = alone(table, &row);
    let front = format!("table\t12\t{table}\t0\t1\t");
    let fields = line.strip_prefix(&front).unwrap_or_else(|| panic!("{line}"));
    let (_, words) = fields.trim_end().split_once('\t').unwrap();
    words.strip_prefix("a row of wrong shape: ").unwrap().to_string()
}

#[test]
fn good_and_too_long() {
    assert_eq!(run([ALIASES, LIKELY, PARENTS]), "table\t0\t0\t0\t0\t-\tdone\n");
    assert_eq!(run([b"", b"", b""]), "table\t0\t0\t0\t0\t-\tdone\n");
    for table in 1..=3 {
        assert_eq!(
            alone(table, [b'\n'; 32_769]),
            format!("table\t11\t{table}\t0\t0\t-\ta table over 32,768 bytes\n")
        );
    }
}

#[test]
fn line_row_and_place() {
    let wrong = "a row of wrong shape";
    assert_eq!(alone(2, "x"), format!("table\t12\t2\t0\t1\tx\t{wrong}: no line end\n"));
    assert_eq!(alone(2, "\n"), format!("table\t12\t2\t0\t1\t-\t{wrong}: an empty line\n"));
    assert_eq!(alone(2, "-\n"), format!("table\t12\t2\t0\t1\t-\t{wrong}: no tab\n"));
    assert_eq!(
        alone(2, "en\ten-Latn-US\nfr\nx\ty"),
        format!("table\t12\t2\t14\t2\tfr\t{wrong}: no tab\n")
    );
    assert_eq!(
        alone(3, "de\tund\nen\tund\nfr\\\0\u{e9}\tund\r\n\n"),
        format!(
            "table\t12\t3\t14\t3\tfr\\x5C\\x00\\xC3\\xA9\\x09und\\x0D\t{wrong}: CR at the end\n"
        )
    );
    // 255 bytes of a row are shown.
    let a = "a".repeat(255);
    assert_eq!(alone(1, format!("{a}\n")), format!("table\t12\t1\t0\t1\t{a}\t{wrong}: no tab\n"));
    for more in [1, 2, 5, 6, 2_000] {
        let row = format!("{a}{}", "b".repeat(more));
        assert_eq!(
            alone(1, format!("{row}\n")),
            format!("table\t12\t1\t0\t1\t{a}...\t{wrong}: no tab\n")
        );
        assert_eq!(alone(1, row), format!("table\t12\t1\t0\t1\t{a}...\t{wrong}: no line end\n"));
    }
    // What is wrong is looked for in the whole row.
    let row = format!("language\tiw\the{a}_\n");
    assert!(alone(1, row)
        .ends_with(&format!("...\t{wrong}: a byte that is no letter, digit, - or tab\n")));
}

#[test]
fn what_is_wrong_with_a_row() {
    for table in 1..=3 {
        let good = ["language\tiw\the", "en\ten-Latn-US", "en-AU\ten-001"][table - 1];
        assert_eq!(alone(table, format!("{good}\n")), "table\t0\t0\t0\t0\t-\tdone\n");
        assert_eq!(shape(table, good), "no line end");
        assert_eq!(shape(table, "\n"), "an empty line");
        assert_eq!(shape(table, format!("{good}\r\n")), "CR at the end");
        assert_eq!(shape(table, "\r\n"), "CR at the end");
        assert_eq!(shape(table, "en\n"), "no tab");
        assert_eq!(shape(table, good.replace('\t', " ") + "\n"), "no tab");
        assert_eq!(shape(table, format!("{good}\t\n")), "a tab too many");
        assert_eq!(shape(table, format!("\t{good}\n")), "a tab too many");
        assert_eq!(shape(table, good.replace('\t', "\t\t") + "\n"), "a tab too many");
        // Any byte at the row's end; CR there has words of its own.
        for byte in (0..=255u8).filter(|&byte| byte != b'\n') {
            let row = [&good.as_bytes()[..good.len() - 1], &[byte, b'\n']].concat();
            let other = !byte.is_ascii_alphanumeric() && !matches!(byte, b'-' | b'\t' | b'\r');
            let found = alone(table, &row);
            let words = ": a byte that is no letter, digit, - or tab\n";
            assert_eq!(found.ends_with(words), other, "{byte} {found}");
        }
        let last = good.len();
        let inner = format!("{}\r{}\n", &good[..last - 1], &good[last - 1..]);
        assert_eq!(shape(table, inner), "a byte that is no letter, digit, - or tab");
    }
    assert_eq!(shape(1, "language\tiw\n"), "a tab too few");
    assert_eq!(shape(1, "iw\the\n"), "a tab too few");
    assert_eq!(shape(1, "\t\n"), "a tab too few");
    for row in [
        "Language\tiw\the\n",
        "languages\tiw\the\n",
        "\tiw\the\n",
        "type\tca\tab\n",
        "\t\t\n",
        "SCRIPT\tQaai\tZinh\n",
    ] {
        assert_eq!(shape(1, row), "unknown kind", "{row:?}");
    }
    assert_eq!(shape(2, "\t\n"), "a key or value that can't stand there");
}

/// The first that applies.
#[test]
fn several_faults_of_a_row() {
    assert_eq!(shape(1, "x\r"), "no line end");
    assert_eq!(shape(1, "\r"), "no line end");
    assert_eq!(shape(1, "a_\r\n"), "CR at the end");
    assert_eq!(shape(1, "a_\n"), "no tab");
    assert_eq!(shape(1, "a_\tb\n"), "a tab too few");
    assert_eq!(shape(1, "a_\tb\tc\td\n"), "a tab too many");
    assert_eq!(shape(1, "kind\tb_\tc\n"), "a byte that is no letter, digit, - or tab");
    assert_eq!(shape(1, "Language\tIW\the\n"), "unknown kind");
    assert_eq!(shape(1, "language\tIW\the-\n"), "a key or value that can't stand there");
}

#[test]
fn wrong_case() {
    for (table, row) in [
        (1, "language\tIW\the"),
        (1, "language\tiw\tHE"),
        (1, "language\tsh\tsr-latn"),
        (1, "language\tsh\tSR-LATN-rs"),
        (1, "script\tqaai\tZinh"),
        (1, "script\tQaai\tZINH"),
        (1, "region\tbu\tMM"),
        (1, "region\tBU\tmm"),
        (1, "variant\tHeploc\talalc97"),
        (1, "variant\theploc\tALALC97"),
        (1, "variant\t1ABC\talalc97"),
        (2, "En\ten-Latn-US"),
        (2, "UND\ten-Latn-US"),
        (2, "en-latn\ten-Latn-US"),
        (2, "en-us\ten-Latn-US"),
        (2, "und-ZZZZ-zz\ten-Latn-US"),
        (2, "en\tEN-latn-us"),
        (3, "en-au\ten-001"),
        (3, "en-AU\tEn-001"),
        (3, "en-AU\tUND"),
        (3, "und-hant\tund"),
    ] {
        assert_eq!(shape(table, format!("{row}\n")), "wrong case", "{row:?}");
    }
    // These have no right shape in any case.
    for (table, row) in [
        (1, "language\tUND\the"),
        (1, "language\tiw\tUnd"),
        (1, "language\tund\the"),
        (1, "language\tiw\t"),
        (1, "language\t\the"),
        (1, "language\tiw-Latn\the"),
        (1, "language\tiw\tlatn"),
        (1, "language\tIW\the-1994"),
        (1, "language\tiw\the-US-Latn"),
        (1, "script\tQaaia\tZinh"),
        (1, "script\tQaai\t"),
        (1, "region\tBU\tMMM"),
        (1, "region\tBU\tMM-US"),
        (1, "variant\tabc\tabcde"),
        (1, "variant\tabcd\tabcde"),
        (2, "en\ten"),
        (2, "en\tEN-LATN-zz"),
        (2, "en\ten-ZZZZ-US"),
        (2, "en\tUND-Latn-US"),
        (2, "en\ten-Latn-US-1994"),
        (2, "-\ten-Latn-US"),
        (2, "en-\ten-Latn-US"),
        (2, "LATN\ten-Latn-US"),
        (2, "abcdefghi\ten-Latn-US"),
        (3, "und\ten"),
        (3, "UND\ten"),
        (3, "en\troot"),
        (3, "en\t"),
        (3, "en--US\ten"),
    ] {
        let words = shape(table, format!("{row}\n"));
        assert_eq!(words, "a key or value that can't stand there", "{row:?}");
    }
}

#[test]
fn rows_not_above_the_one_before() {
    let below = "a row not above the one before";
    assert_eq!(
        alone(2, "en\ten-Latn-US\nde\tde-Latn-DE\n"),
        format!("table\t13\t2\t14\t2\tde\\x09de-Latn-DE\t{below}: not in byte order\n")
    );
    assert_eq!(
        alone(2, "en\ten-Latn-US\nen\ten-Latn-ZW\n"),
        format!("table\t13\t2\t14\t2\ten\\x09en-Latn-ZW\t{below}: the same key again\n")
    );
    assert_eq!(
        alone(3, "aa\tund\nen-AU\ten\nen-AU\ten\n"),
        format!("table\t13\t3\t16\t3\ten-AU\\x09en\t{below}: the same key again\n")
    );
    // The key again, but not at once.
    assert_eq!(
        alone(3, "aa\tund\nbb\tund\naa\tund\n"),
        format!("table\t13\t3\t14\t3\taa\\x09und\t{below}: not in byte order\n")
    );
    assert_eq!(
        alone(1, "language\tiw\the\nlanguage\tiw\tsr-Latn\n"),
        format!("table\t13\t1\t15\t2\tlanguage\\x09iw\\x09sr-Latn\t{below}: the same key again\n")
    );
    assert_eq!(
        alone(1, "region\tBU\tMM\nlanguage\tiw\the\n"),
        format!("table\t13\t1\t13\t2\tlanguage\\x09iw\\x09he\t{below}: not in byte order\n")
    );
}

#[test]
fn clashes() {
    let clash = "a row that clashes with another";
    assert_eq!(
        alone(1, "language\taa\taf\nlanguage\tiw\tiw\n"),
        format!("table\t14\t1\t15\t2\tlanguage\\x09iw\\x09iw\t{clash}\n")
    );
    assert_eq!(
        run([b"language\tiw\the\n", b"en\tiw-Latn-US\n", b""]),
        format!("table\t14\t2\t0\t1\ten\\x09iw-Latn-US\t{clash}\n")
    );
    assert_eq!(
        alone(3, "de\tund\nen\ten-US\n"),
        format!("table\t14\t3\t7\t2\ten\\x09en-US\t{clash}\n")
    );
}

/// The first four fields are what the check answers; line and row belong to
/// the place; every reason occurs, for each table that can have it.
#[test]
fn random_tables() {
    let tables = [ALIASES.to_vec(), LIKELY.to_vec(), PARENTS.to_vec()];
    let mut seen = std::collections::BTreeMap::new();
    for seed in 0..3_000 {
        let tables = trials::trial(seed, &tables).tables.map(Option::unwrap_or_default);
        let [a, l, p] = tables.each_ref().map(Vec::as_slice);
        let line = run([a, l, p]);
        let fields: Vec<&str> = line.trim_end_matches('\n').split('\t').collect();
        let answer = check(a, l, p);
        assert_eq!(
            fields[..4].join("\t"),
            format!("table\t{}\t{}\t{}", answer.number, answer.table, answer.place)
        );
        assert_eq!(fields.len(), 7, "{line}");
        if (12..=14).contains(&answer.number) {
            let bytes = &tables[usize::from(answer.table) - 1];
            let at: usize = fields[4].parse().unwrap();
            let rows: Vec<&[u8]> = bytes.split(|&byte| byte == b'\n').collect();
            assert_eq!(rows[..at - 1].iter().map(|row| row.len() + 1).sum::<usize>(), answer.place);
            let row = shown(rows[at - 1], 255);
            assert_eq!(fields[5].as_bytes(), if row.is_empty() { b"-" } else { &row[..] });
        } else {
            assert_eq!(fields[4..6], ["0", "-"]);
        }
        *seen.entry((answer.table, fields[6].to_string())).or_insert(0) += 1;
    }
    println!("{seen:#?}");
    // 10 reasons for 12 among aliases, 8 for the others, 2 for 13; 14 and 11; and 0.
    assert_eq!(seen.len(), 10 + 8 + 8 + 3 * 4 + 1);
    assert!(seen.values().all(|&count| count >= 5));
}
