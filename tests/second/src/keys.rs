//! The program `keys` of document 01, and `inspect`, which prints what reading
//! reports.

use crate::reading::LONGEST;
use crate::{meaning, read, Answer, Report, Tables};

/// The lines of an input. Bytes after the last 0A are a line unless there are
/// none.
pub(crate) fn lines(input: &[u8]) -> Vec<&[u8]> {
    let mut lines: Vec<&[u8]> = input.split(|&byte| byte == b'\n').collect();
    if lines.last().is_some_and(|line| line.is_empty()) {
        lines.pop();
    }
    lines
}

/// After 2 or 3, asked is `-`.
fn asked(line: &[u8], number: u8) -> &[u8] {
    match number {
        2 | 3 => b"-",
        _ => line,
    }
}

pub(crate) fn print(output: &mut Vec<u8>, fields: &[&[u8]]) {
    output.extend_from_slice(&fields.join(&b'\t'));
    output.push(b'\n');
}

/// The line for a bad table: `table`, number, table, place.
pub(crate) fn table_line(bad: Answer) -> Vec<u8> {
    format!("table\t{}\t{}\t{}\n", bad.number, bad.table, bad.place).into_bytes()
}

/// The whole output of the program `keys`.
pub fn keys(input: &[u8], aliases: &[u8], likely: &[u8]) -> Vec<u8> {
    let mut output = b"asked\tnumber\tkept\n".to_vec();
    let tables = match Tables::likely(aliases, likely) {
        Ok(tables) => tables,
        Err(bad) => {
            output.extend_from_slice(&table_line(bad));
            return output;
        }
    };
    for line in lines(input) {
        let mut kept = [0; LONGEST];
        let answer = tables.minimise(line, &mut kept);
        let kept = if answer.number == 0 { &kept[..answer.length] } else { b"-" };
        let number = answer.number.to_string();
        print(&mut output, &[asked(line, answer.number), number.as_bytes(), kept]);
    }
    output
}

/// The whole output of the program `inspect`: for each line what reading
/// reports, with `-` for a subtag that isn't there, and what it means. Over
/// aliases and likely rows, if there are any, the meaning is also whether an
/// accepted identifier has a key.
pub fn inspect(input: &[u8], tables: Option<(&[u8], &[u8])>) -> Vec<u8> {
    let mut output =
        b"asked\tnumber\tplace\tlanguage\tscript\tregion\tvariants\textensions\tmeaning\n".to_vec();
    let tables = match tables.map(|(aliases, likely)| Tables::likely(aliases, likely)).transpose() {
        Ok(tables) => tables,
        Err(bad) => {
            output.extend_from_slice(&table_line(bad));
            return output;
        }
    };
    for line in lines(input) {
        let Report { number, place, language, script, region, variants, extensions } = read(line);
        let unkeyed = tables.as_ref().and_then(|tables| tables.key(line).err());
        let words = match unkeyed {
            Some(refusal) if number == 0 => {
                format!("as a key {}: {}", refusal.number, meaning(refusal.number))
            }
            _ => meaning(number).to_string(),
        };
        print(
            &mut output,
            &[
                asked(line, number),
                number.to_string().as_bytes(),
                place.to_string().as_bytes(),
                or_dash(&language),
                or_dash(&script),
                or_dash(&region),
                variants.to_string().as_bytes(),
                extensions.to_string().as_bytes(),
                words.as_bytes(),
            ],
        );
    }
    output
}

/// A subtag, or `-` where there is none.
pub fn or_dash(subtag: &[u8]) -> &[u8] {
    if subtag.is_empty() {
        b"-"
    } else {
        subtag
    }
}
