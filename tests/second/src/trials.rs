//! Seeded random folders for `refused`, `inspect` and `tables_check`: tables
//! good, damaged or missing, usage lines, and identifiers.

use crate::damages::{damaged, one_of, WAYS};
use crate::gen::{self, Rng};
use crate::months;
use std::io;
use std::path::Path;

/// The three tables, of which a file may be missing, and the inputs.
pub struct Trial {
    pub tables: [Option<Vec<u8>>; 3],
    pub usage: Vec<u8>,
    pub identifiers: Vec<u8>,
}

/// One in 4 has good tables, perhaps with files missing; the others go round
/// the damages and the three tables. One in 8 is over the tables given.
pub fn trial(seed: u64, published: &[Vec<u8>; 3]) -> Trial {
    let rng = &mut Rng::new(seed ^ 0x7E57);
    let number = (seed - seed / 4) as usize;
    let (way, table) = (number % WAYS, number / WAYS % 3);
    let mut tables = if rng.chance(1, 8) { published.clone() } else { small(rng, table) };
    let (usage, identifiers) = (usage(rng, seed, &tables), identifiers(rng, &tables));
    if seed.is_multiple_of(4) {
        let missing = rng.chance(1, 3);
        let tables = tables.map(|table| Some(table).filter(|_| !(missing && rng.chance(1, 2))));
        return Trial { tables, usage, identifiers };
    }
    tables[table] = damaged(rng, way, table, &tables);
    Trial { tables: tables.map(Some), usage, identifiers }
}

impl Trial {
    /// Writes the tables that there are, `usage` and `identifiers`.
    pub fn write(&self, folder: &Path) -> io::Result<()> {
        std::fs::create_dir_all(folder)?;
        for (name, table) in ["aliases.tsv", "likely.tsv", "parents.tsv"].iter().zip(&self.tables) {
            if let Some(table) = table {
                std::fs::write(folder.join(name), table)?;
            }
        }
        std::fs::write(folder.join("usage"), &self.usage)?;
        std::fs::write(folder.join("identifiers"), &self.identifiers)
    }
}

/// Small good tables; the one named has at least 3 rows.
fn small(rng: &mut Rng, table: usize) -> [Vec<u8>; 3] {
    loop {
        let (aliases, likely, parents) = gen::good_tables(rng);
        let tables = [aliases, likely, parents];
        if tables[table].iter().filter(|&&byte| byte == b'\n').count() >= 3 {
            return tables;
        }
    }
}

/// So many lines, perhaps without the last 0A.
fn input(rng: &mut Rng, count: usize, line: impl Fn(&mut Rng) -> Vec<u8>) -> Vec<u8> {
    let mut bytes = Vec::new();
    for _ in 0..count {
        bytes.extend_from_slice(&line(rng));
        bytes.push(b'\n');
    }
    if rng.chance(1, 2) {
        bytes.pop();
    }
    bytes
}

/// Identifiers, one a line.
fn identifiers(rng: &mut Rng, tables: &[Vec<u8>; 3]) -> Vec<u8> {
    let rows = rows(tables);
    let count = rng.pick(&[0, 1, 5, 40, 80]);
    input(rng, count, |rng| identifier(rng, &rows))
}

/// Usage lines; some thousands of them in one trial of 32. Some inputs begin
/// with bytes, or have line ends, that another system writes.
fn usage(rng: &mut Rng, seed: u64, tables: &[Vec<u8>; 3]) -> Vec<u8> {
    let rows = rows(tables);
    let count = match seed % 32 {
        0 => 3_000 + rng.below(3_000),
        _ => rng.pick(&[0, 1, 2, 20, 60, 150]),
    };
    let usage = input(rng, count, |rng| usage_line(rng, &rows));
    let starts: &[&[u8]] =
        &[b"\xEF\xBB\xBF", b"\xFF\xFE", b"\xFE\xFF", b"\0", b"1\0", b"12\0", b"\xEF\xBB"];
    match rng.below(12) {
        0 => [rng.pick(starts), &usage].concat(),
        1 => usage.split(|&byte| byte == b'\n').collect::<Vec<_>>().join(&b"\r\n"[..]),
        _ => usage,
    }
}

/// The rows of aliases and likely.
fn rows(tables: &[Vec<u8>; 3]) -> Vec<&[u8]> {
    tables[..2].iter().flat_map(|table| table.split(|&byte| byte == b'\n')).collect()
}

/// Lengths about those at which something is cut off or refused.
const LENGTHS: &[usize] =
    &[253, 254, 255, 256, 257, 258, 259, 260, 261, 262, 263, 300, 515, 520, 1_000, 5_000];

/// An identifier, two in three times as months have it, else with odd bytes or
/// of an odd length.
fn identifier(rng: &mut Rng, rows: &[&[u8]]) -> Vec<u8> {
    let mut id = months::identifier(rng, rows);
    match rng.below(12) {
        0 => id.push(b'\r'),
        1 => {
            for _ in 0..1 + rng.below(4) {
                let byte = rng.pick(b"\r\0\\\x1B\x1F ~\x7F\x80\xC3\xA9\xFE\xFF\"'");
                id.insert(rng.below(id.len() + 1), byte);
            }
        }
        2 => {
            let (length, filler) = (rng.pick(LENGTHS), rng.pick(b"a-_ 1\\\0\xFF\t"));
            id.resize(length, filler);
        }
        3 => id = nearly_too_long(rng),
        _ => {}
    }
    id
}

/// An identifier of 247 to 256 bytes, whose canonical or maximised form may be
/// over 255.
fn nearly_too_long(rng: &mut Rng) -> Vec<u8> {
    let mut id = one_of(rng, "Latn-x|latn-US-x|root-x|en-x|und-x").as_bytes().to_vec();
    let length = 248 + rng.below(9);
    while id.len() + 2 <= length {
        id.push(b'-');
        let size = (length - id.len()).min(8);
        id.extend_from_slice(&b"abcdefgh"[..size]);
    }
    id
}

/// Members that are none.
const WRONG_MEMBERS: &str =
    "|0|00|01|064|000|0a|65|66|99|100|640|a|1a|-|+1|-1| | 1|1 |1.0|1,|/|:|\\|1\0\
    |\0|1\r|\u{feff}1|\u{661}|257|320|4294967297|18446744073709551617";

/// A usage line; some have a member or a shape that is wrong.
fn usage_line(rng: &mut Rng, rows: &[&[u8]]) -> Vec<u8> {
    let id = identifier(rng, rows);
    let member = (1 + rng.below(64)).to_string().into_bytes();
    match rng.below(18) {
        0..=2 => [one_of(rng, WRONG_MEMBERS).as_bytes(), b"\t", &id].concat(),
        // No tab, one at the front or the end only, two of them.
        3 => match rng.below(6) {
            0 => vec![],
            1 => id,
            2 => [&member, one_of(rng, "| |,|-|\\t").as_bytes(), &id].concat(),
            3 => [b"\t", &member[..], b"\t", &id].concat(),
            4 => [&member[..], b"\t\t", &id].concat(),
            _ => [&member, one_of(rng, "\t|\t\t|\t\r|").as_bytes()].concat(),
        },
        // A member of an odd length, before a tab or not.
        4 => {
            let member = vec![rng.pick(b"0159a\\\0\xFF "); rng.pick(LENGTHS)];
            [&member, one_of(rng, "|\t|\t\t").as_bytes(), &id].concat()
        }
        _ => [&member[..], b"\t", &id].concat(),
    }
}
