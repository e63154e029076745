//! Subtags: their shapes, their case, and the three subtags that aliases,
//! likely rows and parents are about.

use crate::bytes::{class_of, lower, upper, Class};

/// Up to 8 letters or digits, padded with zero bytes, so that the derived
/// order is ascending byte order.
#[derive(Clone, Copy, Debug, PartialEq, Eq, PartialOrd, Ord)]
pub struct Subtag([u8; 8]);

impl Subtag {
    pub const UND: Subtag = Subtag(*b"und\0\0\0\0\0");
    pub const ROOT: Subtag = Subtag(*b"root\0\0\0\0");
    pub const TRUE: Subtag = Subtag(*b"true\0\0\0\0");
    pub const ZZZZ: Subtag = Subtag(*b"Zzzz\0\0\0\0");
    pub const ZZ: Subtag = Subtag(*b"ZZ\0\0\0\0\0\0");

    /// The subtag with its case as it is.
    pub fn exact(text: &[u8]) -> Subtag {
        let mut padded = [0; 8];
        padded[..text.len()].copy_from_slice(text);
        Subtag(padded)
    }

    pub fn lower(text: &[u8]) -> Subtag {
        Subtag(Subtag::exact(text).0.map(lower))
    }

    pub fn upper(text: &[u8]) -> Subtag {
        Subtag(Subtag::exact(text).0.map(upper))
    }

    pub fn title(text: &[u8]) -> Subtag {
        let mut subtag = Subtag::lower(text);
        subtag.0[0] = upper(subtag.0[0]);
        subtag
    }

    pub fn bytes(&self) -> &[u8] {
        let length = self.0.iter().position(|&byte| byte == 0).unwrap_or(8);
        &self.0[..length]
    }
}

// The shapes of "How an identifier is read". Case has no meaning here.

fn letters(text: &[u8]) -> bool {
    text.iter().all(|&byte| class_of(byte).is_letter())
}

fn digits(text: &[u8]) -> bool {
    text.iter().all(|&byte| class_of(byte) == Class::Digit)
}

fn letters_or_digits(text: &[u8]) -> bool {
    text.iter().all(|&byte| class_of(byte).is_letter_or_digit())
}

/// Language: 2, 3 or 5 to 8 letters.
pub fn is_language(text: &[u8]) -> bool {
    matches!(text.len(), 2 | 3 | 5..=8) && letters(text)
}

/// Script: 4 letters.
pub fn is_script(text: &[u8]) -> bool {
    text.len() == 4 && letters(text)
}

/// Region: 2 letters or 3 digits.
pub fn is_region(text: &[u8]) -> bool {
    text.len() == 2 && letters(text) || text.len() == 3 && digits(text)
}

/// Variant: 5 to 8 letters or digits, or a digit and 3 letters or digits.
pub fn is_variant(text: &[u8]) -> bool {
    letters_or_digits(text)
        && (matches!(text.len(), 5..=8) || text.len() == 4 && digits(&text[..1]))
}

/// Key of a `u` keyword: a letter or digit, then a letter.
pub fn is_keyword_key(text: &[u8]) -> bool {
    text.len() == 2 && letters_or_digits(&text[..1]) && letters(&text[1..])
}

/// Key of a `t` field: a letter, then a digit.
pub fn is_field_key(text: &[u8]) -> bool {
    text.len() == 2 && letters(&text[..1]) && digits(&text[1..])
}

// The same in canonical case, as the tables have them ("The three tables").

pub fn is_cased_language(text: &[u8]) -> bool {
    is_language(text) && text == Subtag::lower(text).bytes()
}

pub fn is_cased_script(text: &[u8]) -> bool {
    is_script(text) && text == Subtag::title(text).bytes()
}

pub fn is_cased_region(text: &[u8]) -> bool {
    is_region(text) && text == Subtag::upper(text).bytes()
}

pub fn is_cased_variant(text: &[u8]) -> bool {
    is_variant(text) && text == Subtag::lower(text).bytes()
}

/// Language, script and region, in canonical case.
#[derive(Clone, Copy, Debug, PartialEq, Eq)]
pub struct Core {
    pub language: Subtag,
    pub script: Option<Subtag>,
    pub region: Option<Subtag>,
}

impl Core {
    /// The subtags with `-` between them.
    pub fn text(&self) -> Vec<u8> {
        let mut text = self.language.bytes().to_vec();
        for subtag in [self.script, self.region].iter().flatten() {
            text.push(b'-');
            text.extend_from_slice(subtag.bytes());
        }
        text
    }

    /// "The three tables": language, perhaps script, perhaps region, all in
    /// canonical case; nothing for any other text.
    pub fn from_table(text: &[u8]) -> Option<Core> {
        let mut subtags = text.split(|&byte| byte == b'-').peekable();
        let mut take = |shape: fn(&[u8]) -> bool| subtags.next_if(|s| shape(s)).map(Subtag::exact);
        let language = take(is_cased_language)?;
        let (script, region) = (take(is_cased_script), take(is_cased_region));
        let core = Core { language, script, region };
        subtags.next().is_none().then_some(core)
    }
}
