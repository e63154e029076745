//! The programs `keys` and `inspect`, and the command.

use second::examples::{ALIASES, LIKELY};
use second::*;
use std::io::Write;
use std::process::{Command, Stdio};

#[test]
fn lines_of_keys() {
    let header = "asked\tnumber\tkept\n";
    let run = |input: &[u8]| String::from_utf8(keys(input, ALIASES, LIKELY)).unwrap();
    assert_eq!(run(b""), header);
    assert_eq!(run(b"\n"), format!("{header}\t1\t-\n"));
    assert_eq!(run(b"\nen\n\n"), format!("{header}\t1\t-\nen\t0\ten\n\t1\t-\n"));
    assert_eq!(run(b"en\r\n"), format!("{header}-\t3\t-\n"));
    assert_eq!(run(b"e\tn\nZH_tw"), format!("{header}-\t3\t-\nZH_tw\t0\tzh-TW\n"));
    assert_eq!(run(b"\xFF"), format!("{header}-\t3\t-\n"));
    assert_eq!(run("a".repeat(256).as_bytes()), format!("{header}-\t2\t-\n"));
    let (long, dashes) = ("a".repeat(255), "-".repeat(255));
    assert_eq!(
        run(format!("{long}\n{dashes}").as_bytes()),
        format!("{header}{long}\t4\t-\n{dashes}\t4\t-\n")
    );
    assert_eq!(run(b"root-US\nen-u\n"), format!("{header}root-US\t15\t-\nen-u\t7\t-\n"));
    assert_eq!(run(b"x-abc\nfr-t-k0-ab"), format!("{header}x-abc\t5\t-\nfr-t-k0-ab\t16\t-\n"));
}

#[test]
fn bad_tables_of_keys() {
    let run = |aliases: &[u8], likely: &[u8]| {
        String::from_utf8(keys(b"en\nde\n", aliases, likely)).unwrap()
    };
    let header = "asked\tnumber\tkept\n";
    assert_eq!(run(b"", b""), format!("{header}en\t8\t-\nde\t8\t-\n"));
    assert_eq!(run(b"x\n", b"y"), format!("{header}table\t12\t1\t0\n"));
    let likely = b"en\ten-Latn-US\nde\tde-Latn-DE\n";
    assert_eq!(run(b"", likely), format!("{header}table\t13\t2\t14\n"));
    assert_eq!(run(b"", &[b'\n'; 32_769]), format!("{header}table\t11\t2\t0\n"));
}

const VIEW: &str =
    "asked\tnumber\tplace\tlanguage\tscript\tregion\tvariants\textensions\tmeaning\n";

#[test]
fn lines_of_inspect() {
    let run = |input: &[u8]| String::from_utf8(inspect(input, None)).unwrap();
    assert_eq!(run(b""), VIEW);
    let none = "-\t-\t-\t0\t0";
    let expected = format!(
        "{VIEW}iw_latn_il\t0\t0\tiw\tLatn\tIL\t0\t0\tdone\n\
        \t1\t0\t{none}\tno bytes\n\
        -\t3\t2\t{none}\ta byte that is no letter, digit, - or _\n\
        en-US-Latn\t15\t6\t{none}\ta subtag that can't stand there, before any extension\n\
        en-1994-x-a\t0\t0\ten\t-\t-\t1\t1\tdone\n"
    );
    assert_eq!(run(b"iw_latn_il\n\nen US\nen-US-Latn\nen-1994-x-a"), expected);
    let expected = format!(
        "{VIEW}-\t2\t0\t{none}\tover 255 bytes\n\
        en-\t4\t3\t{none}\ta subtag of 0 or over 8 bytes\n\
        en-1994-1994\t6\t8\t{none}\ta repeated singleton, variant or t key\n\
        en-u\t7\t3\t{none}\ta singleton or t key with nothing behind it\n\
        x-abc\t5\t0\t{none}\ta first subtag that is no language, script or root\n\
        en-t-k0-ab\t16\t8\t{none}\ta subtag that can't stand there, in an extension\n\
        fr\t0\t0\tfr\t-\t-\t0\t0\tdone\n"
    );
    let more = "en-\nen-1994-1994\nen-u\nx-abc\nen-t-k0-ab\nfr\n";
    let input = format!("{}\n{more}", "a".repeat(256));
    assert_eq!(run(input.as_bytes()), expected);
}

#[test]
fn lines_of_inspect_over_tables() {
    let run = |input: &[u8], aliases: &[u8], likely: &[u8]| {
        String::from_utf8(inspect(input, Some((aliases, likely)))).unwrap()
    };
    let long = String::from_utf8(examples::long("Latn-x-", 5)).unwrap();
    let expected = format!(
        "{VIEW}iw_IL\t0\t0\tiw\t-\tIL\t0\t0\tdone\n\
        fr\t0\t0\tfr\t-\t-\t0\t0\tas a key 8: no row of the likely table fits it\n\
        fr-Latn-FR\t0\t0\tfr\tLatn\tFR\t0\t0\tdone\n\
        {long}\t0\t0\tund\tLatn\t-\t0\t1\tas a key 9: its canonical or maximised form is over 255 bytes\n\
        fr-u\t7\t3\t-\t-\t-\t0\t0\ta singleton or t key with nothing behind it\n\
        fr-u-12\t16\t5\t-\t-\t-\t0\t0\ta subtag that can't stand there, in an extension\n"
    );
    let input = format!("iw_IL\nfr\nfr-Latn-FR\n{long}\nfr-u\nfr-u-12");
    assert_eq!(run(input.as_bytes(), ALIASES, LIKELY), expected);
    assert_eq!(
        run(b"en", b"", b""),
        format!("{VIEW}en\t0\t0\ten\t-\t-\t0\t0\tas a key 8: no row of the likely table fits it\n")
    );
    assert_eq!(run(b"en", b"x\n", b""), format!("{VIEW}table\t12\t1\t0\n"));
    assert_eq!(run(b"", b"", &[b'a'; 32_769]), format!("{VIEW}table\t11\t2\t0\n"));
}

fn command(arguments: &[&str], input: &[u8]) -> (Vec<u8>, bool) {
    let mut child = Command::new(env!("CARGO_BIN_EXE_second"))
        .args(arguments)
        .stdin(Stdio::piped())
        .stdout(Stdio::piped())
        .stderr(Stdio::null())
        .spawn()
        .unwrap();
    child.stdin.take().unwrap().write_all(input).unwrap();
    let output = child.wait_with_output().unwrap();
    (output.stdout, output.status.success())
}

fn hex(bytes: &[u8]) -> String {
    bytes.iter().map(|byte| format!("{byte:02x}")).collect()
}

#[test]
fn cases() {
    let aliases = hex(ALIASES);
    let likely = hex(LIKELY);
    let parents = hex(examples::PARENTS);
    for (case, answer) in [
        (format!("read\t{}", hex(b"latn_us-x-a")), "0\t0\tund\tLatn\tUS\t0\t1".to_string()),
        ("read\t".to_string(), "1\t0\t-\t-\t-\t0\t0".to_string()),
        (format!("read\t{}", hex(b"a")), "5\t0\t-\t-\t-\t0\t0".to_string()),
        (format!("read\t{}", hex(b"root-US")), "15\t5\t-\t-\t-\t0\t0".to_string()),
        (format!("read\t{}", hex(b"en-u-ca-12")), "16\t8\t-\t-\t-\t0\t0".to_string()),
        ("class\t7a".to_string(), "small".to_string()),
        ("class\t5A".to_string(), "capital".to_string()),
        ("class\t39".to_string(), "digit".to_string()),
        ("class\t5f".to_string(), "separator".to_string()),
        ("class\t00".to_string(), "none".to_string()),
        (format!("lookup\t{likely}\t{}", hex(b"en")), "1\t17\t10".to_string()),
        ("lookup\t\t".to_string(), "0\t0\t0".to_string()),
        (format!("check\t{aliases}\t{likely}\t{parents}"), "0\t0\t0\t0\t0".to_string()),
        (format!("check\t\t\t{}", hex(b"x")), "12\t3\t0\t0\t0".to_string()),
        (
            format!("canonicalise\t{}\t{aliases}\t7", hex(b"IW_il")),
            format!("0\t0\t0\t5\t0\t{}", hex(b"he-IL..")),
        ),
        (
            format!("canonicalise\t{}\t{aliases}\t4", hex(b"IW_il")),
            "10\t0\t0\t0\t0\t2e2e2e2e".to_string(),
        ),
        (
            format!("canonicalise\t{}\t{aliases}\t2", hex(b"en-US-Latn")),
            "15\t0\t6\t0\t0\t2e2e".to_string(),
        ),
        (
            format!("maximise\t{}\t{aliases}\t{likely}\t0", hex(b"zh-TW")),
            "10\t0\t0\t0\t0\t".to_string(),
        ),
        (
            format!("minimise\t{}\t{aliases}\t{likely}\t5", hex(b"zh-Hant-TW")),
            format!("0\t0\t0\t5\t0\t{}", hex(b"zh-TW")),
        ),
        (
            format!("chain\t{}\t{aliases}\t{parents}\t20", hex(b"en-AU-u-ca-gregory")),
            format!("0\t0\t0\t20\t3\t{}", hex(b"en-AU\nen-001\nen\nund\n")),
        ),
    ] {
        let (printed, good) = command(&[], case.as_bytes());
        assert!(good, "{case}");
        assert_eq!(String::from_utf8(printed).unwrap(), format!("{answer}\n"), "{case}");
    }
    for wrong in ["read\t0", "read\tzz", "read", "sing\t00", "chain\t\t\t\t-1", "\n"] {
        assert!(!command(&[], wrong.as_bytes()).1, "{wrong}");
    }
    for wrong in ["class", "class\t", "class\t6", "class\t6162", "class\tzz", "class\t61\t62"] {
        assert!(!command(&[], wrong.as_bytes()).1, "{wrong}");
    }
    assert_eq!(command(&[], b""), (vec![], true));
}

/// Each byte as the case `class`.
#[test]
fn classes() {
    let cases: String = (0..=255).map(|byte| format!("class\t{byte:02x}\n")).collect();
    let answers: String = (0..=255).map(|byte| format!("{:?}\n", class_of(byte))).collect();
    let (printed, good) = command(&[], cases.as_bytes());
    assert!(good);
    assert_eq!(String::from_utf8(printed).unwrap(), answers.to_lowercase());
}

#[test]
fn subcommands() {
    let folder = std::env::temp_dir().join(format!("second-keys-{}", std::process::id()));
    std::fs::create_dir_all(&folder).unwrap();
    let name = folder.to_str().unwrap();
    let run = |program: &str, input: &[u8]| {
        let (printed, good) = command(&[program, name], input);
        assert!(good);
        printed
    };
    // Files that can't be opened count as zero bytes.
    assert_eq!(run("keys", b"iw_IL\nfr\n"), b"asked\tnumber\tkept\niw_IL\t8\t-\nfr\t8\t-\n");
    assert_eq!(run("refused", b"1\ten\n"), refused(b"1\ten\n", b"", b""));
    assert_eq!(run("tables_check", b""), b"table\t0\t0\t0\t0\t-\tdone\n");
    // The parents are no table that inspect uses.
    std::fs::write(folder.join("parents.tsv"), "x\n").unwrap();
    assert_eq!(run("inspect", b"fr\n"), inspect(b"fr\n", None));
    assert_eq!(run("tables_check", b""), tables_check(b"", b"", b"x\n"));
    std::fs::write(folder.join("aliases.tsv"), ALIASES).unwrap();
    assert_eq!(run("inspect", b"fr\nen\n"), inspect(b"fr\nen\n", Some((ALIASES, b""))));
    std::fs::write(folder.join("likely.tsv"), LIKELY).unwrap();
    assert_eq!(run("inspect", b"fr\nen\n"), inspect(b"fr\nen\n", Some((ALIASES, LIKELY))));
    assert_eq!(run("keys", b"iw_IL\nfr\n"), b"asked\tnumber\tkept\niw_IL\t0\the\nfr\t8\t-\n");
    assert_eq!(run("refused", b"1\ten\n2\tfr"), refused(b"1\ten\n2\tfr", ALIASES, LIKELY));
    std::fs::remove_file(folder.join("aliases.tsv")).unwrap();
    assert_eq!(run("inspect", b"fr\niw\n"), inspect(b"fr\niw\n", Some((b"", LIKELY))));
    std::fs::remove_dir_all(&folder).unwrap();

    let (printed, good) = command(&["examples"], b"");
    assert!(good && printed.ends_with(b" passed, 0 failed\n"));
    assert!(!command(&["other"], b"").1);
}
