//! Document 01, "The three tables", with the numbers 11 to 14.

use crate::chain::ends_within;
use crate::subtag::*;
use crate::Answer;
use std::ops::Range;

/// The most bytes a table may have (number 11).
pub const LARGEST: usize = 32_768;

/// The steps in which the walk from a parent key must be at `und` (number 14).
const WALK: usize = 8;

/// The lookup of one row, over all bytes: the first line that begins with the
/// key and a tab; its value reaches from there to its 0A or the end. Else a no
/// and the empty part at the table's front.
pub fn lookup(table: &[u8], key: &[u8]) -> (bool, usize, usize) {
    let mut place = 0;
    for line in table.split(|&byte| byte == b'\n') {
        if line.starts_with(key) && line.get(key.len()) == Some(&b'\t') {
            return (true, place + key.len() + 1, line.len() - key.len() - 1);
        }
        place += line.len() + 1;
    }
    (false, 0, 0)
}

/// The kinds of alias.
#[derive(Clone, Copy, Debug, PartialEq, Eq)]
pub enum Kind {
    Language,
    Script,
    Region,
    Variant,
}

impl Kind {
    fn name(self) -> &'static [u8] {
        match self {
            Kind::Language => b"language",
            Kind::Script => b"script",
            Kind::Region => b"region",
            Kind::Variant => b"variant",
        }
    }

    pub(crate) fn named(name: &[u8]) -> Option<Kind> {
        [Kind::Language, Kind::Script, Kind::Region, Kind::Variant]
            .into_iter()
            .find(|kind| kind.name() == name)
    }

    /// One subtag of the kind, in canonical case; `und` is no alias's language.
    fn fits(self, text: &[u8]) -> bool {
        match self {
            Kind::Language => is_cased_language(text) && text != b"und",
            Kind::Script => is_cased_script(text),
            Kind::Region => is_cased_region(text),
            Kind::Variant => is_cased_variant(text),
        }
    }
}

/// A table of good shape and order, with the parts of its rows.
#[derive(Clone, Debug, Default)]
pub struct Table {
    bytes: Vec<u8>,
    rows: Vec<Row>,
}

/// A row: its key (with the kind and a tab in front, among aliases) starts at
/// the row's first byte; one tab lies between key and value.
#[derive(Clone, Debug)]
struct Row {
    key: Range<usize>,
    value: Range<usize>,
}

impl Table {
    /// Row by row, shape (12) before order (13).
    fn test(bytes: &[u8], name: u8) -> Result<Table, Answer> {
        let shape = SHAPES[usize::from(name) - 1];
        let mut rows: Vec<Row> = Vec::new();
        let mut place = 0;
        while place < bytes.len() {
            let wrong = |number| Answer { number, table: name, place, ..Answer::default() };
            // Each line is ended by 0A, the last one too.
            let length = bytes[place..].iter().position(|&byte| byte == b'\n').ok_or(wrong(12))?;
            let end = place + length;
            let key = place..place + shape(&bytes[place..end]).ok_or(wrong(12))?;
            // Rows ascend strictly, by unsigned bytes.
            if rows.last().is_some_and(|last| bytes[last.key.clone()] >= bytes[key.clone()]) {
                return Err(wrong(13));
            }
            rows.push(Row { value: key.end + 1..end, key });
            place = end + 1;
        }
        Ok(Table { bytes: bytes.to_vec(), rows })
    }

    fn key(&self, row: &Row) -> &[u8] {
        &self.bytes[row.key.clone()]
    }

    fn value(&self, row: &Row) -> &[u8] {
        &self.bytes[row.value.clone()]
    }

    /// The value of the row with this key. As the keys ascend strictly, this is
    /// what `lookup` finds.
    pub fn find(&self, key: &[u8]) -> Option<&[u8]> {
        let row = self.rows.binary_search_by(|row| self.key(row).cmp(key)).ok()?;
        Some(self.value(&self.rows[row]))
    }

    /// Number 14, row by row, at the first row that clashes.
    fn clash(&self, name: u8, clashes: impl Fn(&[u8], &[u8]) -> bool) -> Result<(), Answer> {
        match self.rows.iter().find(|row| clashes(self.key(row), self.value(row))) {
            Some(row) => {
                Err(Answer { number: 14, table: name, place: row.key.start, ..Answer::default() })
            }
            None => Ok(()),
        }
    }
}

/// The length of the key of a line, if the line has the right shape.
type Shape = fn(&[u8]) -> Option<usize>;

/// The shapes of the rows of aliases, likely and parents.
pub(crate) const SHAPES: [Shape; 3] = [alias_shape, likely_shape, parent_shape];

/// The fields of a row, parted by one tab; nothing if there are more or fewer.
fn fields<const N: usize>(line: &[u8]) -> Option<[&[u8]; N]> {
    let mut fields = line.split(|&byte| byte == b'\t');
    let mut found = [&b""[..]; N];
    for field in &mut found {
        *field = fields.next()?;
    }
    fields.next().is_none().then_some(found)
}

/// Aliases: kind, key, value.
fn alias_shape(line: &[u8]) -> Option<usize> {
    let [kind, key, value] = fields(line)?;
    let kind_of_row = Kind::named(kind)?;
    let good_value = match kind_of_row {
        Kind::Language => Core::from_table(value).is_some_and(|core| core.language != Subtag::UND),
        _ => kind_of_row.fits(value),
    };
    (kind_of_row.fits(key) && good_value).then_some(kind.len() + 1 + key.len())
}

/// Likely: any key; a value of all three, never `und`, `Zzzz` or `ZZ`.
fn likely_shape(line: &[u8]) -> Option<usize> {
    let [key, value] = fields(line)?;
    Core::from_table(key)?;
    let Core { language, script, region } = Core::from_table(value)?;
    let good_value = language != Subtag::UND
        && script.is_some_and(|script| script != Subtag::ZZZZ)
        && region.is_some_and(|region| region != Subtag::ZZ);
    good_value.then_some(key.len())
}

/// Parents: a key other than `und` alone; a value likewise, or `und`.
fn parent_shape(line: &[u8]) -> Option<usize> {
    let [key, value] = fields(line)?;
    Core::from_table(key)?;
    Core::from_table(value)?;
    (key != b"und").then_some(key.len())
}

/// Tables that were tested once, for any number of calls. Those that an
/// operation doesn't use are of zero bytes, which is a good table.
#[derive(Clone, Debug, Default)]
pub struct Tables {
    aliases: Table,
    likely: Table,
    pub(crate) parents: Table,
}

impl Tables {
    /// What canonicalising uses.
    pub fn aliases(aliases: &[u8]) -> Result<Tables, Answer> {
        Tables::test(aliases, b"", b"")
    }

    /// What maximising and minimising use.
    pub fn likely(aliases: &[u8], likely: &[u8]) -> Result<Tables, Answer> {
        Tables::test(aliases, likely, b"")
    }

    /// What the chain uses.
    pub fn parents(aliases: &[u8], parents: &[u8]) -> Result<Tables, Answer> {
        Tables::test(aliases, b"", parents)
    }

    /// "Numbers given back", order: 11 for each table; then 12 and 13 table by
    /// table; then 14 likewise.
    pub fn test(aliases: &[u8], likely: &[u8], parents: &[u8]) -> Result<Tables, Answer> {
        for (name, bytes) in [(1, aliases), (2, likely), (3, parents)] {
            if bytes.len() > LARGEST {
                return Err(Answer { number: 11, table: name, ..Answer::default() });
            }
        }
        let tables = Tables {
            aliases: Table::test(aliases, 1)?,
            likely: Table::test(likely, 2)?,
            parents: Table::test(parents, 3)?,
        };
        tables.aliases.clash(1, |key, value| tables.alias_clashes(key, value))?;
        tables.likely.clash(2, |_, value| tables.is_replaced(value))?;
        tables.parents.clash(3, |key, value| {
            tables.is_replaced(value) || !ends_within(key, WALK, &tables.parents)
        })?;
        Ok(tables)
    }

    /// 14: a value whose subtag of the row's own kind is a key of that kind.
    fn alias_clashes(&self, kind_and_key: &[u8], value: &[u8]) -> bool {
        let kind = kind_and_key.split(|&byte| byte == b'\t').next().and_then(Kind::named);
        // Only a language value has more than one subtag, the language first.
        let own = value.split(|&byte| byte == b'-').next();
        kind.zip(own).is_some_and(|(kind, own)| self.alias_row(kind, Subtag::exact(own)).is_some())
    }

    /// 14: a value with a language, script or region that aliases replace.
    fn is_replaced(&self, value: &[u8]) -> bool {
        let core = tested(value);
        [
            (Kind::Language, Some(core.language)),
            (Kind::Script, core.script),
            (Kind::Region, core.region),
        ]
        .into_iter()
        .any(|(kind, subtag)| subtag.is_some_and(|s| self.alias_row(kind, s).is_some()))
    }

    fn alias_row(&self, kind: Kind, subtag: Subtag) -> Option<&[u8]> {
        self.aliases.find(&[kind.name(), subtag.bytes()].join(&b'\t'))
    }

    /// What an alias makes of a script, region or variant.
    pub(crate) fn alias(&self, kind: Kind, subtag: Subtag) -> Subtag {
        self.alias_row(kind, subtag).map_or(subtag, Subtag::exact)
    }

    /// What an alias makes of a language.
    pub(crate) fn language_alias(&self, language: Subtag) -> Option<Core> {
        self.alias_row(Kind::Language, language).map(tested)
    }

    /// The value of the likely row with this key.
    pub(crate) fn likely_row(&self, key: Core) -> Option<Core> {
        self.likely.find(&key.text()).map(tested)
    }
}

/// The subtags of a value whose shape was tested.
fn tested(value: &[u8]) -> Core {
    Core::from_table(value).expect("the shape was tested")
}
