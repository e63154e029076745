//! The program `refused`.

use second::examples::{long, ALIASES, LIKELY, PARENTS};
use second::gen::Rng;
use second::*;

const HEADER: &str = "line\tmember\tnumber\tplace\tidentifier\tmeaning\n";

fn run(input: impl AsRef<[u8]>) -> String {
    String::from_utf8(refused(input.as_ref(), ALIASES, LIKELY)).unwrap()
}

fn printed(rows: &[&str]) -> String {
    let rows: String = rows.iter().map(|row| format!("{row}\n")).collect();
    format!("{HEADER}{rows}")
}

#[test]
fn header_and_lines() {
    assert_eq!(run(""), printed(&[]));
    assert_eq!(run("1\ten\n64\tIW_il"), printed(&[]));
    let no_tab = "no tab between member and identifier";
    assert_eq!(run("\n"), printed(&[&format!("1\t-\t-\t0\t-\t{no_tab}")]));
    assert_eq!(
        run("1\ten\n\nen\n2\ten\nx y"),
        printed(&[
            &format!("2\t-\t-\t0\t-\t{no_tab}"),
            &format!("3\ten\t-\t0\t-\t{no_tab}"),
            &format!("5\tx y\t-\t0\t-\t{no_tab}"),
        ])
    );
    // The last line with and without its 0A.
    assert_eq!(run("1\ten\nen\n"), run("1\ten\nen"));
    assert_eq!(run("en\n\n"), format!("{}2\t-\t-\t0\t-\t{no_tab}\n", run("en")));
}

#[test]
fn members() {
    let fault = |member: &str| {
        let output = run(format!("{member}\ten"));
        let row = output.strip_prefix(HEADER).unwrap().to_string();
        let Some(row) = row.strip_suffix('\n') else { return row };
        let fields: Vec<&str> = row.split('\t').collect();
        assert_eq!((fields[0], fields[2], fields[3], fields[4]), ("1", "-", "0", "en"), "{row}");
        assert_eq!(fields[1], if member.is_empty() { "-" } else { fields[1] });
        fields[5].to_string()
    };
    for good in 1..=64 {
        assert_eq!(fault(&good.to_string()), "");
    }
    assert_eq!(fault(""), "no member number");
    for wrong in [
        "a", "1a", "a1", " ", " 1", "1 ", "+1", "-1", "1.", "0x1", "0a", "1\r", "1\0", "/", ":",
        "\u{661}",
    ] {
        assert_eq!(fault(wrong), "the member is no number", "{wrong}");
    }
    for wrong in ["00", "01", "064", "000", "065", &"0".repeat(200)] {
        assert_eq!(fault(wrong), "the member begins with 0", "{wrong}");
    }
    for wrong in [
        "0",
        "65",
        "99",
        "100",
        "640",
        "257",
        "4294967297",
        "18446744073709551617",
        &"9".repeat(200),
    ] {
        assert_eq!(fault(wrong), "the member is not 1 to 64", "{wrong}");
    }
}

/// The fault of the line is said before the identifier's.
#[test]
fn which_fault_first() {
    assert_eq!(
        run("0\ten-u\n\ten-u\n00\t\nx\t\n1\t\n\t\n"),
        printed(&[
            "1\t0\t-\t0\ten-u\tthe member is not 1 to 64",
            "2\t-\t-\t0\ten-u\tno member number",
            "3\t00\t-\t0\t-\tthe member begins with 0",
            "4\tx\t-\t0\t-\tthe member is no number",
            "5\t1\t1\t2\t-\tno bytes",
            "6\t-\t-\t0\t-\tno member number",
        ])
    );
}

/// Each number that minimising refuses an identifier with; the place is that
/// in the line.
#[test]
fn numbers_of_identifiers() {
    let long_form = String::from_utf8(long("Latn-x-", 5)).unwrap();
    let over = "a".repeat(256);
    for (line, row) in [
        ("1\t", "1\t1\t2\t-\tno bytes"),
        ("64\t", "64\t1\t3\t-\tno bytes"),
        ("1\ten US", "1\t3\t4\ten US\ta byte that is no letter, digit, - or _"),
        ("64\ten US", "64\t3\t5\ten US\ta byte that is no letter, digit, - or _"),
        ("1\ten\t", "1\t3\t4\ten\\x09\ta byte that is no letter, digit, - or _"),
        ("1\t\ten", "1\t3\t2\t\\x09en\ta byte that is no letter, digit, - or _"),
        ("1\ten\r", "1\t3\t4\ten\\x0D\ta byte that is no letter, digit, - or _"),
        ("1\te\0n", "1\t3\t3\te\\x00n\ta byte that is no letter, digit, - or _"),
        ("1\ten\\", "1\t3\t4\ten\\x5C\ta byte that is no letter, digit, - or _"),
        ("1\th\u{e9}", "1\t3\t3\th\\xC3\\xA9\ta byte that is no letter, digit, - or _"),
        ("1\ten-", "1\t4\t5\ten-\ta subtag of 0 or over 8 bytes"),
        ("12\t-en", "12\t4\t3\t-en\ta subtag of 0 or over 8 bytes"),
        ("1\tabcdefghi", "1\t4\t2\tabcdefghi\ta subtag of 0 or over 8 bytes"),
        ("1\tx-abc", "1\t5\t2\tx-abc\ta first subtag that is no language, script or root"),
        ("64\t12", "64\t5\t3\t12\ta first subtag that is no language, script or root"),
        (
            "1\ten-US-Latn",
            "1\t15\t8\ten-US-Latn\ta subtag that can't stand there, before any extension",
        ),
        ("1\troot-US", "1\t15\t7\troot-US\ta subtag that can't stand there, before any extension"),
        ("1\ten-u-12", "1\t16\t7\ten-u-12\ta subtag that can't stand there, in an extension"),
        (
            "64\ten-t-en-us-latn",
            "64\t16\t14\ten-t-en-us-latn\ta subtag that can't stand there, in an extension",
        ),
        ("10\ten-1994-1994", "10\t6\t11\ten-1994-1994\ta repeated singleton, variant or t key"),
        ("1\ten-u", "1\t7\t5\ten-u\ta singleton or t key with nothing behind it"),
        ("1\tfr", "1\t8\t2\tfr\tno row of the likely table fits it"),
        ("64\tfr-u-ca", "64\t8\t3\tfr-u-ca\tno row of the likely table fits it"),
    ] {
        assert_eq!(run(line), printed(&[&format!("1\t{row}")]), "{line:?}");
    }
    assert_eq!(
        run(format!("7\t{long_form}")),
        printed(&[&format!(
            "1\t7\t9\t2\t{long_form}\tits canonical or maximised form is over 255 bytes"
        )])
    );
    let shown = "a".repeat(255);
    assert_eq!(
        run(format!("64\t{over}")),
        printed(&[&format!("1\t64\t2\t3\t{shown}...\tover 255 bytes")])
    );
}

/// Of a line the first 260 bytes are looked at, of a text 255 are shown.
#[test]
fn long_lines() {
    let row = |line: String| {
        let output = run(&line);
        let row = output.strip_prefix(HEADER).unwrap().trim_end().to_string();
        row.split('\t').map(String::from).collect::<Vec<_>>()
    };
    let a = |count: usize| "a".repeat(count);
    let (no_tab, no_number) = ("no tab between member and identifier", "the member is no number");
    for (length, member) in
        [(255, a(255)), (256, a(255) + "..."), (260, a(255) + "..."), (5_000, a(255) + "...")]
    {
        assert_eq!(row(a(length)), ["1", &member, "-", "0", "-", no_tab]);
        // A tab among the first 260 bytes is found, one behind them isn't.
        let fault = if length < 260 { no_number } else { no_tab };
        let identifier = if length + 2 < 260 { "en-" } else { "e" };
        let line = format!("{}\t{}", a(length), identifier);
        let seen = &line[..line.len().min(260)];
        let identifier = seen.split_once('\t').map_or("", |(_, identifier)| identifier);
        let identifier = if identifier.is_empty() { "-" } else { identifier };
        assert_eq!(row(line.clone()), ["1", &member, "-", "0", identifier, fault], "{length}");
    }
    assert_eq!(row(a(259) + "\ten")[4..], ["-", no_number]);
    assert_eq!(row(a(258) + "\ten")[4..], ["e", no_number]);
    assert_eq!(row(a(257) + "\ten")[4..], ["en", no_number]);
    assert_eq!(row(a(257) + "\tend")[4..], ["en", no_number]);
    // Three bytes of member and tab leave 257 of the identifier.
    for (length, identifier) in
        [(255, a(255)), (256, a(255) + "..."), (257, a(255) + "..."), (900, a(255) + "...")]
    {
        let number = if length > 255 { "2" } else { "4" };
        assert_eq!(row(format!("64\t{}", a(length)))[1..5], ["64", number, "3", &identifier]);
    }
    // Seven leave 253, which are all that is seen of any longer one.
    for length in [253, 254, 255, 256, 1_000] {
        assert_eq!(row(format!("123456\t{}", a(length)))[4], a(253));
    }
    assert_eq!(row(format!("12345\t{}", a(254)))[4], a(254));
    assert_eq!(row(format!("1234\t{}", a(255)))[4], a(255));
    assert_eq!(row(format!("123\t{}", a(256)))[4], a(255) + "...");
}

#[test]
fn bad_tables() {
    let run = |aliases: &[u8], likely: &[u8]| {
        String::from_utf8(refused(b"1\ten\nx\n", aliases, likely)).unwrap()
    };
    let en = "1\t1\t8\t2\ten\tno row of the likely table fits it\n";
    let x = "2\tx\t-\t0\t-\tno tab between member and identifier\n";
    assert_eq!(run(b"", b""), format!("{HEADER}{en}{x}"));
    assert_eq!(run(b"x\n", b"y"), format!("{HEADER}table\t12\t1\t0\n"));
    assert_eq!(run(b"", &[b'\n'; 32_769]), format!("{HEADER}table\t11\t2\t0\n"));
    assert_eq!(
        run(b"", b"en\ten-Latn-US\nde\tde-Latn-DE\n"),
        format!("{HEADER}table\t13\t2\t14\n")
    );
    assert_eq!(run(b"language\tiw\tiw\n", b""), format!("{HEADER}table\t14\t1\t0\n"));
}

/// 17 and 18 refuse the bill, and not this program.
#[test]
fn more_keys_and_lines_than_a_bill_has() {
    let letter = |n: usize| char::from(b'a' + (n % 26) as u8);
    let mut input: String =
        (0..600).map(|n| format!("1\tq{}{}-Latn-US\n", letter(n / 26), letter(n))).collect();
    input += "0\ten\n";
    assert_eq!(bill(input.as_bytes(), ALIASES, LIKELY), b"17\n");
    assert_eq!(run(&input), printed(&["601\t0\t-\t0\ten\tthe member is not 1 to 64"]));
    let input = "1\ten\n".repeat(1_000_001) + "00\ten";
    assert_eq!(bill(input.as_bytes(), ALIASES, LIKELY), b"18\n");
    assert_eq!(run(&input), printed(&["1000002\t00\t-\t0\ten\tthe member begins with 0"]));
}

#[test]
fn notes() {
    let utf_16 = "the input is UTF-16";
    let mark = "the input begins with a byte order mark";
    let mark_cr_lf = "the input begins with a byte order mark, and its lines end in CR LF";
    let mark_cr = "the input begins with a byte order mark, and its first line has CR in it";
    let cr_lf = "the lines end in CR LF";
    let cr = "the first line has CR in it, as where lines end in CR alone";
    for (input, said) in [
        (&b"\xFF\xFE1\0"[..], utf_16),
        (b"\xFE\xFF", utf_16),
        (b"\0", utf_16),
        (b"1\0\t\0", utf_16),
        (b"\0\r\0\n", utf_16),
        (b"\r\0\n\0", utf_16),
        (b"\n\0", utf_16),
        (b"\xEF\0\xBB\xBF", utf_16),
        (b"\xEF\xBB\xBF", mark),
        (b"\xEF\xBB\xBF\n", mark),
        (b"\xEF\xBB\xBF1\ten\n2\ten\n", mark),
        (b"\xEF\xBB\xBF1\ten\n2\ten\r\n", mark),
        (b"\xEF\xBB\xBF\0", mark),
        (b"\xEF\xBB\xBF\xFF\xFE", mark),
        (b"\xEF\xBB\xBF1\ten\r\n", mark_cr_lf),
        (b"\xEF\xBB\xBF\r\n", mark_cr_lf),
        (b"\xEF\xBB\xBF1\r2\r\n", mark_cr_lf),
        (b"\xEF\xBB\xBF1\ten\r2\ten\r", mark_cr),
        (b"\xEF\xBB\xBF\r", mark_cr),
        (b"\xEF\xBB\xBF1\ten\r \n2\ten\r\n", mark_cr),
        (b"\r\n", cr_lf),
        (b"1\ten\r\n2\ten\n", cr_lf),
        (b"1\te\rn\r\n", cr_lf),
        (b"\r\r\n", cr_lf),
        (b"1\ten\r\n2\ten\r3", cr_lf),
        (b"\r", cr),
        (b"\r\r", cr),
        (b"1\ten\r", cr),
        (b"1\ten\r2\ten\r", cr),
        (b"1\ten\r2\ten", cr),
        (b"1\ten\r \n", cr),
        (b"\r1\ten\n2\ten\r\n", cr),
        (b"\xEF\xBB\r", cr),
        (b"\xFF\r\xFE\n", cr),
        (b"", ""),
        (b"1", ""),
        (b"\n", ""),
        (b"\xEF\xBB", ""),
        (b"\xEF\xBB\n\xBF\r\n", ""),
        (b"\n\xEF\xBB\xBF\r\n", ""),
        (b"\xFF", ""),
        (b"12\0", ""),
        (b"1\ten\n2\ten\r\n", ""),
        (b"1\ten\n2\te\rn\n", ""),
        (b"1\ten\n\r", ""),
        (b"\n\r\n", ""),
    ] {
        assert_eq!(second::refused::note(input).unwrap_or_default(), said, "{input:?}");
    }
    // A CR among the first 260 bytes of the first line is seen, one behind them
    // isn't; a mark is part of them.
    for (before, seen) in [(100, true), (258, true), (259, true), (260, false), (5_000, false)] {
        for (start, with_cr_lf, with_cr, without) in
            [(&b""[..], cr_lf, cr, ""), (b"\xEF\xBB\xBF", mark_cr_lf, mark_cr, mark)]
        {
            let line = [start, &vec![b'a'; before - start.len()][..]].concat();
            for (end, said) in [(&b"\r\n"[..], with_cr_lf), (b"\r", with_cr), (b"\n\r", without)] {
                let input = [&line, end].concat();
                let said = if seen { said } else { without };
                assert_eq!(second::refused::note(&input).unwrap_or_default(), said, "{before}");
            }
        }
    }
}

/// There are as many rows as lines that the bill counts as refused, in order,
/// each with plain text; and a line alone has the row that it has among others.
#[test]
fn rows_are_the_refused_lines_of_the_bill() {
    let tables = [ALIASES.to_vec(), LIKELY.to_vec(), PARENTS.to_vec()];
    let (mut rows, mut bills) = (0, 0);
    let mut rng = Rng::new(31);
    for seed in 0..400 {
        let trial = trials::trial(seed, &tables);
        let [aliases, likely, _] = trial.tables.map(Option::unwrap_or_default);
        let output = refused(&trial.usage, &aliases, &likely);
        assert!(output.iter().all(|byte| matches!(byte, b'\t' | b'\n' | b' '..=b'~')), "{seed}");
        let output = String::from_utf8(output).unwrap();
        let found: Vec<&str> = output.lines().skip(1).collect();
        let bill = String::from_utf8(bill(&trial.usage, &aliases, &likely)).unwrap();
        if bill.starts_with("table") {
            assert_eq!(output, format!("{HEADER}{bill}"), "{seed}");
            continue;
        }
        if let Some(last) = bill.lines().last().and_then(|last| last.strip_prefix("-\t0\t")) {
            bills += 1;
            assert_eq!(last, found.len().to_string(), "{seed}");
        }
        rows += found.len();
        let lines: Vec<&[u8]> = trial.usage.split(|&byte| byte == b'\n').collect();
        for _ in 0..found.len().min(20) {
            let row = found[rng.below(found.len())];
            assert_eq!(row.split('\t').count(), 6, "{row}");
            let (line, rest) = row.split_once('\t').unwrap();
            let line = [lines[line.parse::<usize>().unwrap() - 1], b"\n"].concat();
            let alone = String::from_utf8(refused(&line, &aliases, &likely)).unwrap();
            assert_eq!(alone, format!("{HEADER}1\t{rest}\n"));
        }
    }
    println!("{rows} rows, {bills} bills");
    assert!(rows > 10_000 && bills > 100, "{rows} {bills}");
}
