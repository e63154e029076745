//! What a byte is (document 02, T-05), and what goes by it.

use second::*;

/// What each byte is, 16 a row: small, capital, digit, `-` for a separator, else
/// a dot.
const MAP: [&str; 16] = [
    "................", // 00
    "................", // 10
    ".............-..", // 20
    "dddddddddd......", // 30
    ".ccccccccccccccc", // 40
    "ccccccccccc....-", // 50
    ".sssssssssssssss", // 60
    "sssssssssss.....", // 70
    "................", // 80
    "................", // 90
    "................", // A0
    "................", // B0
    "................", // C0
    "................", // D0
    "................", // E0
    "................", // F0
];

fn mapped(byte: u8) -> char {
    let (row, column) = (usize::from(byte) / 16, usize::from(byte) % 16);
    char::from(MAP[row].as_bytes()[column])
}

fn is_letter(byte: u8) -> bool {
    matches!(mapped(byte), 's' | 'c')
}

fn is_digit(byte: u8) -> bool {
    mapped(byte) == 'd'
}

fn pairs() -> impl Iterator<Item = (u8, u8)> {
    (0..=255).flat_map(|first| (0..=255).map(move |second| (first, second)))
}

#[test]
fn all_bytes() {
    for byte in 0..=255 {
        let wanted = match mapped(byte) {
            's' => Class::Small,
            'c' => Class::Capital,
            'd' => Class::Digit,
            '-' => Class::Separator,
            '.' => Class::None,
            other => panic!("{other} in the map"),
        };
        assert_eq!(class_of(byte), wanted, "{byte}");
        assert_eq!(class_of(byte).is_letter(), is_letter(byte), "{byte}");
        // And as the standard library has it.
        assert_eq!(class_of(byte) == Class::Small, byte.is_ascii_lowercase(), "{byte}");
        assert_eq!(class_of(byte) == Class::Capital, byte.is_ascii_uppercase(), "{byte}");
        assert_eq!(class_of(byte).is_letter(), byte.is_ascii_alphabetic(), "{byte}");
        assert_eq!(class_of(byte) == Class::Digit, byte.is_ascii_digit(), "{byte}");
        assert_eq!(class_of(byte) == Class::Separator, byte == 0x2D || byte == 0x5F, "{byte}");
    }
}

#[test]
fn counts() {
    let count = |class| (0..=255).filter(|&byte| class_of(byte) == class).count();
    let classes = [Class::Small, Class::Capital, Class::Digit, Class::Separator, Class::None];
    assert_eq!(classes.map(count), [26, 26, 10, 2, 192]);
    assert_eq!((0..=255).filter(|&byte| class_of(byte).is_letter()).count(), 52);
    assert_eq!(classes.map(Class::is_letter), [true, true, false, false, false]);
}

#[test]
fn ends_of_ranges_and_their_neighbours() {
    for (bytes, class) in [
        (&b"az"[..], Class::Small),
        (b"AZ", Class::Capital),
        (b"09", Class::Digit),
        (b"-_", Class::Separator),
        (b"/:@[`{.,^", Class::None),
        (&[0, 127, 128, 255], Class::None),
        // The ends with their highest bit set.
        (&[0xE1, 0xFA, 0xC1, 0xDA, 0xB0, 0xB9, 0xAD, 0xDF], Class::None),
        (b"\t\n\r \x0B\x1F", Class::None),
    ] {
        for &byte in bytes {
            assert_eq!(class_of(byte), class, "{byte}");
        }
    }
}

fn number_and_place(id: &[u8]) -> (u8, usize) {
    let report = read(id);
    (report.number, report.place)
}

/// Each byte in front of, behind and within a text, and in the place of each of
/// its bytes.
#[test]
fn reading_refuses_class_none_with_3() {
    for text in ["enUS", "EN", "e", "latn", "abcdefgh", "en-US", "en_US", "en-Latn-US-1994-x-a"] {
        for byte in 0..=255 {
            let test = |id: &[u8], place: usize| {
                let (number, at) = number_and_place(id);
                if class_of(byte) == Class::None {
                    assert_eq!((number, at), (3, place), "{text} {byte}");
                } else {
                    assert_ne!(number, 3, "{text} {byte} {place}");
                }
            };
            for place in 0..=text.len() {
                let mut id = text.as_bytes().to_vec();
                id.insert(place, byte);
                test(&id, place);
            }
            for place in 0..text.len() {
                let mut id = text.as_bytes().to_vec();
                id[place] = byte;
                test(&id, place);
            }
        }
    }
    for byte in 0..=255 {
        let wanted = match mapped(byte) {
            '.' => (3, 0),
            '-' => (4, 0),
            _ => (5, 0),
        };
        assert_eq!(number_and_place(&[byte]), wanted, "{byte}");
    }
}

/// Only a separator parts subtags.
#[test]
fn separators() {
    for byte in 0..=255 {
        let report = read(&[b'e', b'n', byte, b'U', b'S']);
        let (number, place, language, region) = match mapped(byte) {
            '-' => (0, 0, "en".to_string(), "US"),
            '.' => (3, 2, String::new(), ""),
            'd' => (5, 0, String::new(), ""),
            _ => (0, 0, format!("en{}us", char::from(byte).to_lowercase()), ""),
        };
        assert_eq!((report.number, report.place), (number, place), "{byte}");
        assert_eq!(report.language, language.as_bytes(), "{byte}");
        assert_eq!(report.region, region.as_bytes(), "{byte}");
    }
}

/// Every pair of bytes, in a subtag of each shape that asks what a byte is.
#[test]
fn shapes_of_subtags() {
    for (a, b) in pairs() {
        let letters = is_letter(a) && is_letter(b);
        let digits = is_digit(a) && is_digit(b);
        let (first, part, extension) = (5, 15, 16); // document 02, T-03
        let only_if =
            |good: bool, number: u8, place: usize| if good { (0, 0) } else { (number, place) };
        for (front, behind, wanted) in [
            // A language.
            ("", "", only_if(letters, first, 0)),
            ("", "bcdef", only_if(letters, first, 0)),
            // A script, or a digit and 3 letters or digits.
            ("en-", "cd", only_if(is_digit(a) || letters, part, 3)),
            ("en-t-de-", "cd", only_if(is_digit(a) || letters, extension, 8)),
            // A region.
            ("en-", "", only_if(letters, part, 3)),
            ("en-", "7", only_if(digits, part, 3)),
            ("en-t-de-", "7", only_if(digits, extension, 8)),
            // A variant.
            ("en-", "cde", (0, 0)),
            // The key of a keyword, an attribute, and the key of a field.
            ("en-u-", "", only_if(is_letter(b), extension, 5)),
            ("en-u-ca-", "", only_if(is_letter(b), extension, 8)),
            ("en-u-", "c", (0, 0)),
            (
                "en-t-",
                "-abc",
                match (is_letter(a), is_digit(b)) {
                    (true, true) => (0, 0),
                    // A language, and then no subtag that can stand there.
                    (true, false) => (extension, 8),
                    (false, _) => (extension, 5),
                },
            ),
        ] {
            let id = [front.as_bytes(), &[a, b], behind.as_bytes()].concat();
            let answer = number_and_place(&id);
            let one_of = |kind| [a, b].iter().position(|&byte| mapped(byte) == kind);
            match (one_of('.'), one_of('-')) {
                (Some(place), _) => assert_eq!(answer, (3, front.len() + place), "{id:?}"),
                (None, Some(_)) => assert_ne!(answer.0, 3, "{id:?}"),
                (None, None) => assert_eq!(answer, wanted, "{id:?}"),
            }
        }
    }
}

/// Case has no meaning: each letter, small and capital, gets the case of the
/// place where it stands.
#[test]
fn case_of_each_letter() {
    let canonical = |id: &str| {
        let mut out = [0; 40];
        let answer = canonicalise(id.as_bytes(), b"", &mut out);
        assert_eq!(answer.number, 0, "{id}");
        String::from_utf8(out[..answer.length].to_vec()).unwrap()
    };
    let (small, capital) = ("abcdefghijklmnopqrstuvwxyz", "ABCDEFGHIJKLMNOPQRSTUVWXYZ");
    for (s, c) in small.chars().zip(capital.chars()) {
        for x in [s, c] {
            let report = read(format!("{x}{x}_{x}{x}{x}{x}-{x}{x}").as_bytes());
            assert_eq!(report.language, format!("{s}{s}").as_bytes());
            assert_eq!(report.script, format!("{c}{s}{s}{s}").as_bytes());
            assert_eq!(report.region, format!("{c}{c}").as_bytes());
            for (id, wanted) in [
                (
                    format!("{x}{x}-{x}{x}{x}{x}_{x}{x}-1{x}{x}{x}-x-{x}_1{x}"),
                    format!("{s}{s}-{c}{s}{s}{s}-{c}{c}-1{s}{s}{s}-x-{s}-1{s}"),
                ),
                (
                    format!("en-T-{x}{x}_{x}{x}{x}{x}-{x}{x}-{x}0-{x}{x}{x}"),
                    format!("en-t-{s}{s}-{s}{s}{s}{s}-{s}{s}-{s}0-{s}{s}{s}"),
                ),
                (format!("en-{x}-{x}{x}{x}"), format!("en-{s}-{s}{s}{s}")),
                (format!("en-U-{x}{x}-{x}{x}{x}"), format!("en-u-{s}{s}-{s}{s}{s}")),
            ] {
                assert_eq!(canonical(&id), wanted, "{id}");
            }
            // Any other word of 4 letters is a script.
            for place in 0..4 {
                let mut word = "root".to_string();
                word.replace_range(place..=place, &x.to_string());
                let is_root = word.to_lowercase() == "root";
                assert_eq!(read(word.as_bytes()).script.is_empty(), is_root, "{word}");
            }
        }
    }
}

/// Rows have subtags in canonical case, with `-` between them.
#[test]
fn rows_of_tables() {
    for byte in 0..=255 {
        let kind = mapped(byte);
        for (front, behind, wanted) in [
            ("e", "\ten-Latn-US\n", 's'),
            ("en\te", "-Latn-US\n", 's'),
            ("en\ten-", "atn-US\n", 'c'),
            ("en\ten-Lat", "-US\n", 's'),
            ("en\ten-Latn-U", "\n", 'c'),
            ("en\ten-Latn-00", "\n", 'd'),
        ] {
            let row = [front.as_bytes(), &[byte], behind.as_bytes()].concat();
            let number = if kind == wanted { 0 } else { 12 };
            assert_eq!(check(b"", &row, b"").number, number, "{front}{byte}{behind}");
        }
        let row = [b"en".as_slice(), &[byte], b"US\ten-Latn-US\n"].concat();
        let number = if byte == b'-' { 0 } else { 12 };
        assert_eq!(check(b"", &row, b"").number, number, "{byte}");

        let row = [&[byte], b"en\ten-Latn-US\n".as_slice()].concat();
        let words = String::from_utf8(tables_check(b"", &row, b"")).unwrap();
        let unknown = (kind == '.' && byte != b'\t' && byte != b'\n') || byte == b'_';
        let said = words.ends_with(": a byte that is no letter, digit, - or tab\n");
        assert_eq!(said, unknown, "{byte} {words}");
    }
}

const LIKELY: &[u8] = b"en\ten-Latn-US\n";

/// A line of usage for each pair of bytes as its member. A 0A would make two
/// lines of it.
#[test]
fn digits_of_a_member() {
    let members: Vec<String> = (1..=64).map(|member| member.to_string()).collect();
    let is_member = |text: &[u8]| members.iter().any(|member| member.as_bytes() == text);
    let accepted = b"key\tmembers\tdeliveries\nen\t1\t1\n-\t0\t0\n";
    let counted = b"key\tmembers\tdeliveries\n-\t0\t1\n";
    let test = |member: &[u8]| {
        let line = [member, b"\ten"].concat();
        let wanted = if is_member(member) { &accepted[..] } else { counted };
        assert_eq!(bill(&line, b"", LIKELY), wanted, "{member:?}");

        // A tab ends the member.
        if member.contains(&b'\t') {
            return;
        }
        let wanted = if !member.iter().all(|&byte| is_digit(byte)) {
            "\tthe member is no number\n"
        } else if member.len() > 1 && member[0] == b'0' {
            "\tthe member begins with 0\n"
        } else if !is_member(member) {
            "\tthe member is not 1 to 64\n"
        } else {
            "\tmeaning\n"
        };
        let output = String::from_utf8(refused(&line, b"", LIKELY)).unwrap();
        assert!(output.ends_with(wanted), "{member:?} {output}");
        assert_eq!(output.lines().count(), if is_member(member) { 1 } else { 2 }, "{output}");
    };
    for byte in (0..=255).filter(|&byte| byte != b'\n') {
        test(&[byte]);
    }
    for (a, b) in pairs().filter(|&(a, b)| a != b'\n' && b != b'\n') {
        test(&[a, b]);
    }
}
