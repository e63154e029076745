//! Seeded random months for the bill: tables, and the same lines in several
//! orders.

use crate::gen::{self, Rng};
use std::io;
use std::path::Path;

/// Tables, of which a file may be missing, and inputs of the same lines.
pub struct Month {
    pub aliases: Option<Vec<u8>>,
    pub likely: Option<Vec<u8>>,
    /// As made, backwards, sorted and shuffled. At times the last 0A is missing.
    pub orders: [Vec<u8>; 4],
}

/// A month over the tables given, or over small good ones, or, one in 4, over
/// tables that are bad or missing.
pub fn month(seed: u64, aliases: &[u8], likely: &[u8]) -> Month {
    let rng = &mut Rng::new(seed ^ 0xB111);
    let (mut aliases, mut likely) = (aliases.to_vec(), likely.to_vec());
    if seed % 2 == 1 {
        (aliases, likely, _) = gen::good_tables(rng);
    }
    let lines = lines(rng, seed, &aliases, &likely);
    let (mut aliases, mut likely) = (Some(aliases), Some(likely));
    if seed % 8 >= 6 {
        for table in [&mut aliases, &mut likely] {
            *table = match rng.below(3) {
                0 => None,
                1 => table.take().map(|table| gen::bad_table(rng, table)),
                _ => table.take(),
            };
        }
    }
    Month { aliases, likely, orders: orders(rng, lines) }
}

impl Month {
    /// Writes `aliases.tsv`, `likely.tsv` and `lines.0` to `lines.3`.
    pub fn write(&self, folder: &Path) -> io::Result<()> {
        std::fs::create_dir_all(folder)?;
        for (name, table) in [("aliases.tsv", &self.aliases), ("likely.tsv", &self.likely)] {
            if let Some(table) = table {
                std::fs::write(folder.join(name), table)?;
            }
        }
        for (number, lines) in self.orders.iter().enumerate() {
            std::fs::write(folder.join(format!("lines.{number}")), lines)?;
        }
        Ok(())
    }
}

fn orders(rng: &mut Rng, lines: Vec<Vec<u8>>) -> [Vec<u8>; 4] {
    let (mut backwards, mut sorted, mut shuffled) = (lines.clone(), lines.clone(), lines.clone());
    backwards.reverse();
    sorted.sort();
    for last in (1..shuffled.len()).rev() {
        shuffled.swap(last, rng.below(last + 1));
    }
    [lines, backwards, sorted, shuffled].map(|order| {
        let mut input: Vec<u8> =
            order.iter().flat_map(|line| [&line[..], b"\n"].concat()).collect();
        // After an empty line the 0A must stay, or there is no line.
        if order.last().is_some_and(|last| !last.is_empty()) && rng.chance(1, 2) {
            input.pop();
        }
        input
    })
}

/// The lines of a month: of all kinds, or with about 512 keys, or with few
/// keys, or, seldom, very many.
fn lines(rng: &mut Rng, seed: u64, aliases: &[u8], likely: &[u8]) -> Vec<Vec<u8>> {
    let rows = [aliases, likely].concat();
    let rows: Vec<&[u8]> = rows.split(|&byte| byte == b'\n').collect();
    let mut lines = Vec::new();
    let style = if seed % 61 == 16 { 4 } else { rng.below(4) };
    match style {
        // A pool of identifiers, drawn many times.
        0 | 4 => {
            let pool: Vec<_> = (0..1 + rng.below(30)).map(|_| identifier(rng, &rows)).collect();
            let most = if style == 4 { 40_000 } else { 1_500 };
            for _ in 0..most / 2 + rng.below(most / 2) {
                let id = pool[rng.below(pool.len())].clone();
                lines.push(line(rng, id));
            }
        }
        // 507 to 518 keys made up, each with a line or a few, and refused lines.
        1 => {
            for number in 0..507 + rng.below(12) {
                for _ in 0..1 + rng.below(3) {
                    let id = made_up(rng, number);
                    lines.push([member(rng).as_bytes(), b"\t", &id].concat());
                }
            }
            for _ in 0..rng.below(40) {
                let place = rng.below(lines.len());
                let id = rng.pick(&["en-u", "en-US-Latn", "a", "", "en-1994-1994"]);
                lines.insert(place, format!("{}\t{id}", member(rng)).into_bytes());
            }
        }
        _ => {
            let most = rng.pick(&[0, 1, 5, 50, 300, 2_000]);
            for _ in 0..most {
                let id = identifier(rng, &rows);
                lines.push(line(rng, id));
            }
        }
    }
    // Bytes put in at random may have been 0A.
    lines.iter().flat_map(|line| line.split(|&byte| byte == b'\n')).map(Vec::from).collect()
}

/// An accepted identifier with a key of its own: no alias or likely row has
/// its language, and no alias its script or region.
fn made_up(rng: &mut Rng, number: usize) -> Vec<u8> {
    let letter = |n: usize| char::from(b'a' + (n % 26) as u8);
    let language = format!("q{}{}", letter(number / 26), letter(number));
    let end = rng.pick(&["", "", "-1994", "-x-a", "-u-kn", "-posix-t-en"]);
    spell(rng, format!("{language}-Latn-US{end}").into_bytes())
}

/// Any identifier, one with the subtags of a row, or one made up.
pub(crate) fn identifier(rng: &mut Rng, rows: &[&[u8]]) -> Vec<u8> {
    let row = rng.pick(rows);
    let fields: Vec<&[u8]> = row.split(|&byte| byte == b'\t').collect();
    match rng.below(8) {
        0..=2 => gen::identifier(rng),
        3 => {
            let number = rng.below(40);
            made_up(rng, number)
        }
        // A field of a row, with more at its end.
        _ => {
            let mut id = rng.pick(&fields).to_vec();
            for more in
                ["-Latn", "-US", "-1994", "-posix", "-u-ca-gregory", "-t-de-m0-true", "-x-a"]
            {
                if rng.chance(1, 8) {
                    id.extend_from_slice(more.as_bytes());
                }
            }
            spell(rng, id)
        }
    }
}

/// The same identifier, at times in another spelling.
fn spell(rng: &mut Rng, mut id: Vec<u8>) -> Vec<u8> {
    if rng.chance(1, 2) {
        for byte in &mut id {
            if byte.is_ascii_alphabetic() && rng.chance(1, 2) {
                *byte ^= 0x20;
            } else if *byte == b'-' && rng.chance(1, 2) {
                *byte = b'_';
            }
        }
    }
    id
}

fn member(rng: &mut Rng) -> String {
    let most = rng.pick(&[3, 64]);
    (1 + rng.below(most)).to_string()
}

/// A usage line, mostly of the right shape.
fn line(rng: &mut Rng, id: Vec<u8>) -> Vec<u8> {
    let mut good = [member(rng).as_bytes(), b"\t", &id].concat();
    if !rng.chance(1, 10) {
        return good;
    }
    let wrong_members = [
        "0",
        "65",
        "01",
        "",
        "+1",
        "-1",
        " 1",
        "1 ",
        "1a",
        "a",
        "99",
        "100",
        "064",
        "640",
        "00",
        "257",
        "1.0",
        "0x1",
        "4294967297",
        "18446744073709551617",
        "\u{661}",
        "1\r",
        "1\0",
    ];
    let member = member(rng);
    let member = member.as_bytes();
    match rng.below(9) {
        0..=2 => [rng.pick(&wrong_members).as_bytes(), b"\t", &id].concat(),
        // No tab, two of them, one in front, the wrong way round.
        3 => [member, rng.pick(&[&b" "[..], b"", b",", b"-"]), &id].concat(),
        4 => [member, b"\t\t", &id].concat(),
        5 => [member, b"\t", &id, rng.pick(&[&b"\t"[..], b"\t1", b"\r", b" "])].concat(),
        6 => [b"\t", member, b"\t", &id].concat(),
        7 => [&id, &b"\t"[..], member].concat(),
        // A long line, before or behind what would be a good one.
        _ => {
            let filler = rng.pick(b"a1-\t\0");
            let length = rng.pick(&[200, 245, 250, 255, 256, 260, 1_000, 4_096, 20_000]);
            let place = rng.pick(&[0, good.len()]);
            good.splice(place..place, vec![filler; length]);
            good
        }
    }
}
