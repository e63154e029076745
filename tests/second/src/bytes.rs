//! Document 02, T-05: what a byte is. Every rule that asks whether a byte is a
//! letter, a digit or a separator goes by `class_of`.

/// What a byte is. A letter is small or capital.
#[derive(Debug, Clone, Copy, PartialEq, Eq)]
pub enum Class {
    Small,
    Capital,
    Digit,
    Separator,
    None,
}

impl Class {
    pub fn is_letter(self) -> bool {
        matches!(self, Class::Small | Class::Capital)
    }

    pub(crate) fn is_letter_or_digit(self) -> bool {
        self.is_letter() || self == Class::Digit
    }
}

/// The bytes of each class, written out. A byte that isn't here is none of them.
const LISTS: [(Class, &[u8]); 4] = [
    (Class::Small, b"abcdefghijklmnopqrstuvwxyz"),
    (Class::Capital, b"ABCDEFGHIJKLMNOPQRSTUVWXYZ"),
    (Class::Digit, b"0123456789"),
    (Class::Separator, b"-_"),
];

/// The class of each byte, from the lists.
static CLASSES: [Class; 256] = {
    let mut classes = [Class::None; 256];
    let mut list = 0;
    while list < LISTS.len() {
        let (class, mut rest) = LISTS[list];
        while let [byte, behind @ ..] = rest {
            classes[*byte as usize] = class;
            rest = behind;
        }
        list += 1;
    }
    classes
};

/// The class of a byte.
pub fn class_of(byte: u8) -> Class {
    CLASSES[usize::from(byte)]
}

/// The value of a digit; nothing for any other byte.
pub(crate) fn digit_value(byte: u8) -> Option<u32> {
    (class_of(byte) == Class::Digit).then(|| u32::from(byte - b'0'))
}

/// A capital made small; any other byte as it is.
pub(crate) fn lower(byte: u8) -> u8 {
    match class_of(byte) {
        Class::Capital => byte - b'A' + b'a',
        _ => byte,
    }
}

/// A small letter made a capital; any other byte as it is.
pub(crate) fn upper(byte: u8) -> u8 {
    match class_of(byte) {
        Class::Small => byte - b'a' + b'A',
        _ => byte,
    }
}

/// A text in lower case.
pub(crate) fn lower_text(text: &[u8]) -> Vec<u8> {
    text.iter().map(|&byte| lower(byte)).collect()
}

/// A text in capitals.
pub(crate) fn upper_text(text: &[u8]) -> Vec<u8> {
    text.iter().map(|&byte| upper(byte)).collect()
}
