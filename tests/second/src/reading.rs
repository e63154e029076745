//! Document 01, "How an identifier is read", with the numbers 1 to 7, and document
//! 02, T-03, which parts number 5 into 5, 15 and 16.

use crate::bytes::{class_of, lower, Class};
use crate::subtag::*;
use crate::{Answer, Report};

/// The most bytes an identifier may have (numbers 2 and 9).
pub const LONGEST: usize = 255;

/// Language, script, region and variants.
#[derive(Clone, Debug, PartialEq, Eq)]
pub struct LanguagePart {
    pub core: Core,
    pub variants: Vec<Subtag>,
}

/// A `u` keyword with its type, or a `t` field with its value.
#[derive(Clone, Debug, PartialEq, Eq)]
pub struct Keyed {
    pub key: Subtag,
    pub values: Vec<Subtag>,
}

#[derive(Clone, Debug, PartialEq, Eq)]
pub enum Content {
    Unicode { attributes: Vec<Subtag>, keywords: Vec<Keyed> },
    Transformed { language: Option<LanguagePart>, fields: Vec<Keyed> },
    Plain(Vec<Subtag>),
}

#[derive(Clone, Debug, PartialEq, Eq)]
pub struct Extension {
    pub singleton: u8,
    pub content: Content,
}

/// An identifier as it was read: all subtags in canonical case, else as asked.
#[derive(Clone, Debug, PartialEq, Eq)]
pub struct Identifier {
    pub main: LanguagePart,
    pub extensions: Vec<Extension>,
}

/// Reads an identifier, or refuses it with a number from 1 to 7, 15 or 16.
pub fn identifier(id: &[u8]) -> Result<Identifier, Answer> {
    let mut subtags = Subtags { all: part(id)?, next: 0 };
    let main = main_part(&mut subtags)?;
    let extensions = extensions(&mut subtags)?;
    Ok(Identifier { main, extensions })
}

/// The report of reading. A refusal has no subtags and counts 0.
pub fn report(id: &[u8]) -> Report {
    match identifier(id) {
        Ok(Identifier { main, extensions }) => {
            let text = |subtag: Option<Subtag>| subtag.map_or(vec![], |s| s.bytes().to_vec());
            Report {
                number: 0,
                place: 0,
                language: text(Some(main.core.language)),
                script: text(main.core.script),
                region: text(main.core.region),
                variants: main.variants.len(),
                extensions: extensions.len(),
            }
        }
        Err(answer) => Report { number: answer.number, place: answer.place, ..Report::default() },
    }
}

/// A subtag and the place of its first byte.
type Placed<'a> = (usize, &'a [u8]);

/// "Numbers given back", 1 to 4, in this order; 4 over all subtags, also those
/// after `x`. Gives the subtags, each of 1 to 8 letters or digits.
fn part(id: &[u8]) -> Result<Vec<Placed<'_>>, Answer> {
    if id.is_empty() {
        return Err(Answer::refusal(1, 0));
    }
    if id.len() > LONGEST {
        return Err(Answer::refusal(2, 0));
    }
    if let Some(place) = id.iter().position(|&byte| class_of(byte) == Class::None) {
        return Err(Answer::refusal(3, place));
    }
    let mut subtags = Vec::new();
    let mut place = 0;
    for subtag in id.split(|&byte| class_of(byte) == Class::Separator) {
        if !(1..=8).contains(&subtag.len()) {
            return Err(Answer::refusal(4, place));
        }
        subtags.push((place, subtag));
        place += subtag.len() + 1;
    }
    Ok(subtags)
}

/// The subtags not yet read.
struct Subtags<'a> {
    all: Vec<Placed<'a>>,
    next: usize,
}

impl<'a> Subtags<'a> {
    fn peek(&self) -> Option<Placed<'a>> {
        self.all.get(self.next).copied()
    }

    /// Reads the next subtag if it has the shape asked for.
    fn take(&mut self, shape: impl Fn(&[u8]) -> bool) -> Option<Placed<'a>> {
        let found = self.peek().filter(|(_, subtag)| shape(subtag))?;
        self.next += 1;
        Some(found)
    }

    /// Reads subtags, in lower case, as long as they have the shape.
    fn take_all(&mut self, shape: impl Fn(&[u8]) -> bool) -> Vec<Subtag> {
        let mut taken = Vec::new();
        while let Some((_, subtag)) = self.take(&shape) {
            taken.push(Subtag::lower(subtag));
        }
        taken
    }

    /// Number 7: the end or a one-byte subtag comes next.
    fn at_end_or_singleton(&self) -> bool {
        self.peek().is_none_or(|(_, subtag)| subtag.len() == 1)
    }

    /// Refuses the next subtag, which can't stand there, by those before it
    /// (document 02, T-03): 5 where there are none, 16 after a singleton, else 15.
    fn misplaced(&self, place: usize) -> Answer {
        let number = match &self.all[..self.next] {
            [] => 5,
            before if before.iter().any(|(_, subtag)| subtag.len() == 1) => 16,
            _ => 15,
        };
        Answer::refusal(number, place)
    }
}

/// "First: language, or script, or the word `root`", then script, region and
/// variants; nothing of these after `root`.
fn main_part(subtags: &mut Subtags) -> Result<LanguagePart, Answer> {
    if subtags.take(|subtag| Subtag::lower(subtag) == Subtag::ROOT).is_some() {
        let core = Core { language: Subtag::UND, script: None, region: None };
        return Ok(LanguagePart { core, variants: vec![] });
    }
    if let Some((_, language)) = subtags.take(is_language) {
        return language_part(language, subtags);
    }
    match subtags.peek() {
        Some((_, script)) if is_script(script) => language_part(b"und", subtags),
        _ => Err(subtags.misplaced(0)),
    }
}

/// Script, region and variants after a language, "each optional and in this
/// order". No variant of one language part may come twice (number 6).
fn language_part(language: &[u8], subtags: &mut Subtags) -> Result<LanguagePart, Answer> {
    let core = Core {
        language: Subtag::lower(language),
        script: subtags.take(is_script).map(|(_, script)| Subtag::title(script)),
        region: subtags.take(is_region).map(|(_, region)| Subtag::upper(region)),
    };
    let mut variants = Vec::new();
    while let Some((place, variant)) = subtags.take(is_variant) {
        let variant = Subtag::lower(variant);
        if variants.contains(&variant) {
            return Err(Answer::refusal(6, place));
        }
        variants.push(variant);
    }
    Ok(LanguagePart { core, variants })
}

/// "Then extensions, each begun by a one-byte subtag (singleton)." What no
/// extension has taken and is no singleton can't stand there.
fn extensions(subtags: &mut Subtags) -> Result<Vec<Extension>, Answer> {
    let mut extensions: Vec<Extension> = Vec::new();
    while let Some((place, subtag)) = subtags.peek() {
        if subtag.len() != 1 {
            return Err(subtags.misplaced(place));
        }
        subtags.next += 1;
        let singleton = lower(subtag[0]);
        // 6 before 7 at one subtag.
        if extensions.iter().any(|earlier| earlier.singleton == singleton) {
            return Err(Answer::refusal(6, place));
        }
        // Only after `x` may a one-byte subtag follow.
        let lone = match singleton {
            b'x' => subtags.peek().is_none(),
            _ => subtags.at_end_or_singleton(),
        };
        if lone {
            return Err(Answer::refusal(7, place));
        }
        let content = match singleton {
            b'u' => unicode(subtags),
            b't' => transformed(subtags)?,
            b'x' => Content::Plain(subtags.take_all(|_| true)),
            _ => Content::Plain(subtags.take_all(|subtag| subtag.len() >= 2)),
        };
        extensions.push(Extension { singleton, content });
    }
    Ok(extensions)
}

/// An attribute, or a subtag of a type or of a field's value: 3 to 8 bytes.
fn is_long(subtag: &[u8]) -> bool {
    subtag.len() >= 3
}

/// `u`: attributes, then keywords. Where there is neither, the subtag after
/// the singleton is left over and refused.
fn unicode(subtags: &mut Subtags) -> Content {
    let attributes = subtags.take_all(is_long);
    let mut keywords = Vec::new();
    while let Some((_, key)) = subtags.take(is_keyword_key) {
        keywords.push(Keyed { key: Subtag::lower(key), values: subtags.take_all(is_long) });
    }
    Content::Unicode { attributes, keywords }
}

/// `t`: a language part (neither `root` nor script first), then fields. Where
/// there is neither, the subtag after the singleton is left over and refused.
fn transformed(subtags: &mut Subtags) -> Result<Content, Answer> {
    let language = match subtags.take(is_language) {
        Some((_, language)) => Some(language_part(language, subtags)?),
        None => None,
    };
    let mut fields: Vec<Keyed> = Vec::new();
    while let Some((place, key)) = subtags.take(is_field_key) {
        let key = Subtag::lower(key);
        // 6 before 7 at one subtag.
        if fields.iter().any(|earlier| earlier.key == key) {
            return Err(Answer::refusal(6, place));
        }
        // 7: the end, a one-byte subtag, or a `t` key after a `t` key.
        if subtags.at_end_or_singleton() || subtags.peek().is_some_and(|(_, s)| is_field_key(s)) {
            return Err(Answer::refusal(7, place));
        }
        // Any other subtag of two bytes is left over and refused.
        fields.push(Keyed { key, values: subtags.take_all(is_long) });
    }
    Ok(Content::Transformed { language, fields })
}
