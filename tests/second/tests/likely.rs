//! "Maximising and minimising".

use second::*;

const ALIASES: &str = "language\tiw\the\nlanguage\tsh\tsr-Latn\nregion\tBU\tMM\n";
const LIKELY: &str = "de\tde-Latn-DE\n\
    de-Cyrl\tde-Cyrl-KZ\n\
    de-Cyrl-DE\tde-Cyrl-DE\n\
    de-KZ\tde-Latn-KZ\n\
    ff-Adlm\tff-Adlm-GN\n\
    he\the-Hebr-IL\n\
    iw\tde-Latn-DE\n\
    sr\tsr-Cyrl-RS\n\
    sr-ME\tsr-Latn-ME\n\
    und\ten-Latn-US\n\
    und-Arab-US\tar-Arab-EG\n\
    und-Cyrl\tru-Cyrl-RU\n\
    und-KZ\tkk-Cyrl-KZ\n\
    und-Zzzz\tde-Latn-DE\n\
    xx\tyy-Arab-EG\n";

fn forms(id: &str) -> Result<(String, String), u8> {
    let (aliases, likely) = (ALIASES.as_bytes(), LIKELY.as_bytes());
    let (mut long, mut short) = ([0; 255], [0; 255]);
    let most = maximise(id.as_bytes(), aliases, likely, &mut long);
    let least = minimise(id.as_bytes(), aliases, likely, &mut short);
    assert_eq!((most.number, most.place), (least.number, least.place), "{id}");
    assert_eq!((most.table, most.steps, least.table, least.steps), (0, 0, 0, 0));
    if most.number != 0 {
        assert_eq!((most.length, least.length), (0, 0));
        return Err(most.number);
    }
    let text =
        |out: &[u8], answer: Answer| String::from_utf8(out[..answer.length].to_vec()).unwrap();
    Ok((text(&long, most), text(&short, least)))
}

#[test]
fn most_and_least() {
    for (id, most, least) in [
        ("de", "de-Latn-DE", "de"),
        ("DE_latn", "de-Latn-DE", "de"),
        ("de-Zzzz-ZZ", "de-Latn-DE", "de"),
        ("de-AT", "de-Latn-AT", "de-AT"),
        ("de-Arab", "de-Arab-DE", "de-Arab"),
        // Language-script before language-region.
        ("de-Cyrl", "de-Cyrl-KZ", "de-Cyrl"),
        ("de-Cyrl-AT", "de-Cyrl-AT", "de-Cyrl-AT"),
        ("de-KZ", "de-Latn-KZ", "de-KZ"),
        // All three there: no lookup, also with no row for the language.
        ("qq-Latn-US", "qq-Latn-US", "qq-Latn-US"),
        ("de-Cyrl-DE", "de-Cyrl-DE", "de-Cyrl-DE"),
        // `ff` has no row: the trials of `ff` and `ff-GN` count as different.
        ("ff-Adlm", "ff-Adlm-GN", "ff-Adlm"),
        ("ff-Adlm-GN", "ff-Adlm-GN", "ff-Adlm"),
        // `und`, also with script and region.
        ("und", "en-Latn-US", "en-Latn-US"),
        ("root", "en-Latn-US", "en-Latn-US"),
        ("und-Arab-US", "ar-Arab-US", "ar-Arab-US"),
        ("Cyrl-KZ", "ru-Cyrl-KZ", "ru-Cyrl-KZ"),
        ("und-KZ", "kk-Cyrl-KZ", "kk-Cyrl-KZ"),
        ("und-DE", "en-Latn-DE", "en-Latn-DE"),
        // `Zzzz` is removed first, so a key with it is never looked up.
        ("und-Zzzz", "en-Latn-US", "en-Latn-US"),
        ("und-Zzzz-KZ", "kk-Cyrl-KZ", "kk-Cyrl-KZ"),
        // The language is the identifier's, whatever the row has.
        ("xx", "xx-Arab-EG", "xx"),
        // Aliases come first.
        ("iw", "he-Hebr-IL", "he"),
        ("sh", "sr-Latn-RS", "sr-Latn"),
        ("sh-ME", "sr-Latn-ME", "sr-ME"),
        ("sr-BU", "sr-Cyrl-MM", "sr-MM"),
        ("sh-Zzzz", "sr-Cyrl-RS", "sr"),
        // Variants and extensions as they were.
        ("de-Posix-1994-x-A-u-Kn", "de-Latn-DE-1994-posix-x-a-u-kn", "de-1994-posix-x-a-u-kn"),
        ("iw-u-kn-true-t-iw", "he-Hebr-IL-t-iw-u-kn", "he-t-iw-u-kn"),
    ] {
        assert_eq!(forms(id), Ok((most.to_string(), least.to_string())), "{id}");
    }
    for (id, number) in [
        ("", 1),
        ("fr", 8),
        ("fr-Latn", 8),
        ("fr-FR", 8),
        ("fr-Latn-ZZ", 8),
        ("fr-Zzzz-FR", 8),
        ("ff", 8),
        ("ff-GN", 8),
        ("1994", 5),
        ("root-US", 15),
        ("fr-u-12", 16),
        ("de-a", 7),
    ] {
        assert_eq!(forms(id), Err(number), "{id}");
    }
}

/// 9 for the canonical form, 8, 9 for the result, 10, in this order.
#[test]
fn order_of_numbers() {
    let fill = |front: &str, length: usize| -> Vec<u8> {
        let mut id = format!("{front}-x-{}", "aaaaaaa-".repeat(32));
        id.truncate(length);
        let end = if id.ends_with('-') { "-a" } else { "" };
        id.truncate(length - end.len());
        id = id.trim_end_matches('-').to_string() + end;
        while id.contains("--") {
            id = id.replace("--", "-b");
        }
        assert_eq!(id.len(), length);
        assert_eq!(read(id.as_bytes()).number, 0, "{id}");
        id.into_bytes()
    };
    let both = |id: &[u8], lent: usize| {
        let mut out = vec![0; lent];
        let most = maximise(id, ALIASES.as_bytes(), LIKELY.as_bytes(), &mut out).number;
        let least = minimise(id, ALIASES.as_bytes(), LIKELY.as_bytes(), &mut out).number;
        (most, least)
    };
    // No row, though the maximised form would be too long as well.
    assert_eq!(both(&fill("fr", 255), 0), (8, 8));
    assert_eq!(both(&fill("Latn", 255), 0), (9, 9));
    // The canonical form with `Zzzz` is too long, though without it would fit.
    assert_eq!(both(&fill("zzzz", 255), 300), (9, 9));
    // The maximised form has 8 bytes more: 255 or 256.
    assert_eq!(both(&fill("de", 247), 300), (0, 0));
    assert_eq!(both(&fill("de", 248), 300), (9, 9));
    assert_eq!(both(&fill("de", 248), 0), (9, 9));
    assert_eq!(both(&fill("de", 247), 254), (10, 0));
    assert_eq!(both(&fill("de", 247), 246), (10, 10));
    assert_eq!(both(&fill("de-Latn-DE", 255), 255), (0, 0));
    assert_eq!(both(&fill("de-Zzzz-ZZ", 255), 255), (0, 0));
    assert_eq!(both(b"de", 2), (10, 0));
    assert_eq!(both(b"de", 1), (10, 10));
    assert_eq!(both(b"fr", 0), (8, 8));
}
