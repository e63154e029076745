//! Seeded damages to good tables, so that the check refuses them in every way.

use crate::gen::{self, Rng};
use crate::table::LARGEST;

/// Rows with their 0A.
type Rows = Vec<Vec<u8>>;

/// Damages to a row without its 0A.
const TO_A_ROW: [fn(&mut Rng, &mut Vec<u8>); 7] =
    [end_in_cr, lose_tabs, add_tabs, other_byte, other_case, other_field, lengthen];

/// Damages to all rows of a table.
const TO_A_TABLE: [fn(&mut Rng, &mut Rows); 6] =
    [cut_end, empty_line, same_key, move_row, reverse, too_long];

/// The ways in which `damaged` does it.
pub const WAYS: usize = 18;

/// A copy of a table (0 to 2), of two rows or more, damaged in one of the ways.
pub fn damaged(rng: &mut Rng, way: usize, table: usize, tables: &[Vec<u8>; 3]) -> Vec<u8> {
    let mut rows: Rows =
        tables[table].split_inclusive(|&byte| byte == b'\n').map(Vec::from).collect();
    let (at, other) = (rng.below(rows.len()), rng.below(rows.len()));
    match way {
        0..=6 => damage_row(rng, way, &mut rows[at]),
        7..=12 => TO_A_TABLE[way - 7](rng, &mut rows),
        // Two damages to one row, of which one comes first, and to two rows.
        13 | 14 => {
            for at in [at, if way == 13 { at } else { other }] {
                let way = rng.below(TO_A_ROW.len());
                damage_row(rng, way, &mut rows[at]);
            }
        }
        15 | 16 => {
            let value = clashing(rng, table, &tables[0], &rows[at]);
            rows[at].pop();
            set_field(&mut rows[at], 0, &value);
            rows[at].push(b'\n');
        }
        _ => {
            let once = gen::bad_table(rng, rows.concat());
            return gen::bad_table(rng, once);
        }
    }
    rows.concat()
}

/// Damages a row, which keeps its 0A.
fn damage_row(rng: &mut Rng, way: usize, row: &mut Vec<u8>) {
    row.pop();
    TO_A_ROW[way](rng, row);
    row.push(b'\n');
}

/// CR at the end, perhaps twice, or alone.
fn end_in_cr(rng: &mut Rng, row: &mut Vec<u8>) {
    match rng.below(4) {
        0 => *row = b"\r".to_vec(),
        1 => row.extend_from_slice(b"\r\r"),
        _ => row.push(b'\r'),
    }
}

/// No tab, or one fewer.
fn lose_tabs(rng: &mut Rng, row: &mut Vec<u8>) {
    let first = row.iter().position(|&byte| byte == b'\t');
    match (rng.below(6), first) {
        (0, _) => row.retain(|&byte| byte != b'\t'),
        (1, _) => row.iter_mut().filter(|byte| **byte == b'\t').for_each(|byte| *byte = b' '),
        (2, _) => *row = rng.pick(&["en", "#", "language iw he", "\0", "-"]).into(),
        (_, Some(first)) => {
            row.remove(first);
        }
        _ => {}
    }
}

fn add_tabs(rng: &mut Rng, row: &mut Vec<u8>) {
    for _ in 0..rng.pick(&[1, 1, 1, 2, 9]) {
        row.insert(rng.below(row.len() + 1), b'\t');
    }
}

/// A byte that no field has, put in or in place of another.
fn other_byte(rng: &mut Rng, row: &mut Vec<u8>) {
    let byte = rng.pick(b"_ .,:/\\@[`{~\0\x01\x1F\x7F\x80\xC3\xFF\r");
    let place = rng.below(row.len() + 1);
    match row.get_mut(place) {
        Some(old) if *old != b'\t' && rng.chance(1, 2) => *old = byte,
        _ => row.insert(place, byte),
    }
}

/// One letter, some or all in the other case, mostly none of an alias's kind.
#[allow(clippy::ptr_arg)]
fn other_case(rng: &mut Rng, row: &mut Vec<u8>) {
    let kind = if is_alias(row) { row.iter().position(|&byte| byte == b'\t') } else { None };
    let start = kind.filter(|_| rng.chance(5, 6)).unwrap_or(0);
    let letters: Vec<usize> =
        (start..row.len()).filter(|&at| row[at].is_ascii_alphabetic()).collect();
    let one = rng.below(letters.len());
    let most = rng.below(3);
    for (number, &at) in letters.iter().enumerate() {
        if number == one || most == 1 && rng.chance(1, 2) || most == 2 {
            row[at] ^= 0x20;
        }
    }
}

/// Texts that can't stand in some field.
const TEXTS: &str = "|-|und|UND|a|root|Latn|US|en-|-en|en--US|en-US-Latn|1994|en-1994|en-Latn-US-1994\
    |en-Zzzz-US|en-Latn-ZZ|en-zzzz-us|EN-LATN-ZZ|en-Latn|en-u-ca|abcdefghi|und-Latn-US|heploc-a|12|1234\
    |LATN|latn|us|4190";

/// Kinds that no alias has.
const KINDS: &str = "|type|Language|languages|lang|REGION|territory|en";

/// A kind, key or value that can't stand there.
fn other_field(rng: &mut Rng, row: &mut Vec<u8>) {
    if is_alias(row) && rng.chance(1, 2) {
        let kind = one_of(rng, KINDS);
        set_field(row, 2, kind.as_bytes());
    } else {
        let (field, text) = (rng.below(2), one_of(rng, TEXTS));
        set_field(row, field, text.as_bytes());
    }
}

/// Filled up to a length about that which is shown, or far over it.
fn lengthen(rng: &mut Rng, row: &mut Vec<u8>) {
    let length = rng.pick(&[253, 254, 255, 256, 257, 258, 259, 260, 261, 300, 2_000]);
    let filler = rng.pick(b"a-Z0\t\0\xFF\\");
    let place = rng.below(row.len() + 1);
    row.splice(place..place, vec![filler; length.max(row.len()) - row.len()]);
}

/// The last row lacks its 0A, perhaps more; one byte of it stays.
fn cut_end(rng: &mut Rng, rows: &mut Rows) {
    if let Some(last) = rows.last_mut() {
        let less = if rng.chance(1, 2) { 0 } else { rng.below(last.len() - 1) };
        last.truncate(last.len() - 1 - less);
    }
}

fn empty_line(rng: &mut Rng, rows: &mut Rows) {
    let at = rng.below(rows.len() + 1);
    rows.insert(at, b"\n".to_vec());
}

/// A row twice, mostly at once, at times with another row's value.
fn same_key(rng: &mut Rng, rows: &mut Rows) {
    let at = rng.below(rows.len());
    let other = if rng.chance(1, 2) { at } else { rng.below(rows.len()) };
    let value = rows[other].rsplit(|&byte| byte == b'\t').next().unwrap_or_default().to_vec();
    let mut row = rows[at].clone();
    set_field(&mut row, 0, &value);
    let behind = if rng.chance(1, 3) { rng.below(rows.len() - at) } else { 0 };
    rows.insert(at + 1 + behind, row);
}

/// A row further to the front.
fn move_row(rng: &mut Rng, rows: &mut Rows) {
    let from = 1 + rng.below(rows.len() - 1);
    let row = rows.remove(from);
    rows.insert(rng.below(from), row);
}

fn reverse(_: &mut Rng, rows: &mut Rows) {
    rows.reverse();
}

/// Number 11.
fn too_long(_: &mut Rng, rows: &mut Rows) {
    let once = rows.concat();
    *rows = vec![once.clone(); LARGEST / once.len() + 1];
}

/// A value that may clash: among aliases a key of the row's kind, else one with
/// a subtag that aliases replace, or one from which parents lead round.
fn clashing(rng: &mut Rng, table: usize, aliases: &[u8], row: &[u8]) -> Vec<u8> {
    let fields = |row: &[u8]| -> Rows { row.split(|&byte| byte == b'\t').map(Vec::from).collect() };
    let own = fields(row);
    let aliases: Vec<Rows> =
        aliases.split(|&byte| byte == b'\n').filter(|row| !row.is_empty()).map(fields).collect();
    if table == 0 {
        let same: Vec<_> = aliases.iter().filter(|alias| alias[0] == own[0]).collect();
        return same[rng.below(same.len())][1].clone();
    }
    match aliases.get(rng.below(aliases.len())) {
        Some(alias) if table == 1 || rng.chance(1, 2) => match &alias[0][..] {
            b"language" => [&alias[1][..], b"-Latn-US"].concat(),
            b"script" => [b"en-", &alias[1][..], b"-US"].concat(),
            _ => [b"en-Latn-", &alias[1][..]].concat(),
        },
        _ => [&own[0], rng.pick(&["", "-Latn", "-US"]).as_bytes()].concat(),
    }
}

/// Whether a row has a kind in front, as by its tabs.
fn is_alias(row: &[u8]) -> bool {
    row.iter().filter(|&&byte| byte == b'\t').count() == 2
}

/// Puts another field into a row; field 0 is the last one, and the first stands
/// for those that aren't there.
fn set_field(row: &mut Vec<u8>, from_last: usize, text: &[u8]) {
    let mut fields: Rows = row.split(|&byte| byte == b'\t').map(Vec::from).collect();
    let field = (fields.len() - 1).saturating_sub(from_last);
    fields[field] = text.to_vec();
    *row = fields.join(&b'\t');
}

/// One of the texts that `|` parts.
pub(crate) fn one_of(rng: &mut Rng, texts: &'static str) -> &'static str {
    let texts: Vec<&str> = texts.split('|').collect();
    rng.pick(&texts)
}
