//! The program `tables_check`: what the check of the three tables answers, the
//! row that it refuses, and why.

use crate::bytes::{class_of, lower_text, upper, upper_text};
use crate::keys::print;
use crate::table::{Kind, SHAPES};
use crate::words::{field, meaning};
use crate::{check, Answer};

/// The whole output of the program `tables_check`.
pub fn tables_check(aliases: &[u8], likely: &[u8], parents: &[u8]) -> Vec<u8> {
    let Answer { number, table, place, .. } = check(aliases, likely, parents);
    let mut words = meaning(number).to_string();
    let (mut line, mut row) = (0, &b""[..]);
    if (12..=14).contains(&number) {
        let bytes = [aliases, likely, parents][usize::from(table) - 1];
        line = 1 + bytes[..place].iter().filter(|&&byte| byte == b'\n').count();
        row = first_row(&bytes[place..]);
        let ended = place + row.len() < bytes.len();
        match number {
            12 => words = format!("{words}: {}", wrong_shape(table, row, ended)),
            13 => words = format!("{words}: {}", wrong_order(&bytes[..place], row)),
            _ => {}
        }
    }
    let mut output = Vec::new();
    let [number, table, place] = [usize::from(number), usize::from(table), place];
    let [number, table, place, line] = [number, table, place, line].map(|n| n.to_string());
    print(
        &mut output,
        &[
            b"table",
            number.as_bytes(),
            table.as_bytes(),
            place.as_bytes(),
            line.as_bytes(),
            &field(row),
            words.as_bytes(),
        ],
    );
    output
}

/// The bytes up to the first 0A, or all where there is none.
fn first_row(bytes: &[u8]) -> &[u8] {
    bytes.split(|&byte| byte == b'\n').next().unwrap_or_default()
}

/// What is wrong with the shape of a row, the first that applies.
fn wrong_shape(table: u8, row: &[u8], ended: bool) -> &'static str {
    let tabs = row.iter().filter(|&&byte| byte == b'\t').count();
    let wanted = if table == 1 { 2 } else { 1 };
    let is_known = |&byte: &u8| class_of(byte).is_letter_or_digit() || matches!(byte, b'-' | b'\t');
    if !ended {
        "no line end"
    } else if row.is_empty() {
        "an empty line"
    } else if row.ends_with(b"\r") {
        "CR at the end"
    } else if tabs == 0 {
        "no tab"
    } else if tabs < wanted {
        "a tab too few"
    } else if tabs > wanted {
        "a tab too many"
    } else if !row.iter().all(is_known) {
        "a byte that is no letter, digit, - or tab"
    } else if table == 1 && kind(row).is_none() {
        "unknown kind"
    } else if SHAPES[usize::from(table) - 1](&in_canonical_case(table, row)).is_some() {
        "wrong case"
    } else {
        "a key or value that can't stand there"
    }
}

/// The kind that a row of the aliases begins with.
fn kind(row: &[u8]) -> Option<Kind> {
    row.split(|&byte| byte == b'\t').next().and_then(Kind::named)
}

/// The row with each of its fields but the kind in canonical case.
fn in_canonical_case(table: u8, row: &[u8]) -> Vec<u8> {
    let kind = if table == 1 { kind(row) } else { None };
    let recased = |(number, field): (usize, &[u8])| match kind {
        Some(_) if number == 0 => field.to_vec(),
        Some(Kind::Script) => title(field),
        Some(Kind::Region) => upper_text(field),
        Some(Kind::Variant) => lower_text(field),
        Some(Kind::Language) | None => core_case(field),
    };
    let fields: Vec<Vec<u8>> = row.split(|&byte| byte == b'\t').enumerate().map(recased).collect();
    fields.join(&b'\t')
}

fn title(text: &[u8]) -> Vec<u8> {
    let mut cased = lower_text(text);
    if let Some(first) = cased.first_mut() {
        *first = upper(*first);
    }
    cased
}

/// Language in lower case; what follows in title case where it has the length
/// of a script, else in capitals.
fn core_case(text: &[u8]) -> Vec<u8> {
    let subtags = text.split(|&byte| byte == b'-').enumerate();
    let cased: Vec<Vec<u8>> = subtags
        .map(|(number, subtag)| match (number, subtag.len()) {
            (0, _) => lower_text(subtag),
            (_, 4) => title(subtag),
            _ => upper_text(subtag),
        })
        .collect();
    cased.join(&b'-')
}

/// In which way a row of right shape is not above the one before it.
fn wrong_order(before: &[u8], row: &[u8]) -> &'static str {
    let last = before.split_inclusive(|&byte| byte == b'\n').next_back().unwrap_or_default();
    if key(last) == key(row) {
        "the same key again"
    } else {
        "not in byte order"
    }
}

/// What rows ascend by: all before the last tab.
fn key(row: &[u8]) -> &[u8] {
    row.rsplitn(2, |&byte| byte == b'\t').nth(1).unwrap_or_default()
}
