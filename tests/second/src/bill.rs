//! Document 02, T-01: the monthly bill.

use crate::bytes::digit_value;
use crate::keys::{lines, print, table_line};
use crate::Tables;
use std::collections::BTreeMap;

/// The most lines that a bill has: the next one is refused with 18.
pub const MOST_LINES: usize = 1_000_000;

/// The most keys that a bill has: the next one is refused with 17.
pub const MOST_KEYS: usize = 512;

/// Member numbers are 1 to this one.
pub const MOST_MEMBERS: u32 = 64;

/// What a month's lines come to.
#[derive(Default)]
struct Month {
    /// By key, in byte order.
    uses: BTreeMap<Vec<u8>, Use>,
    refused: usize,
}

/// What the accepted lines of one key come to.
#[derive(Default)]
struct Use {
    /// One bit for each member that used the key.
    members: u64,
    deliveries: usize,
}

/// The whole output of the program `bill`.
pub fn bill(input: &[u8], aliases: &[u8], likely: &[u8]) -> Vec<u8> {
    match Tables::likely(aliases, likely) {
        Ok(tables) => match count(input, &tables) {
            Ok(month) => month.print(),
            Err(number) => format!("{number}\n").into_bytes(),
        },
        Err(bad) => table_line(bad),
    }
}

/// Line by line; the first line that is one too many, or has one key too many,
/// refuses the bill.
fn count(input: &[u8], tables: &Tables) -> Result<Month, u8> {
    let mut month = Month::default();
    for (before, line) in lines(input).into_iter().enumerate() {
        // 18 before 17 at one line, whatever the line is.
        if before == MOST_LINES {
            return Err(18);
        }
        let Some((member, key)) = usage(line, tables) else {
            month.refused += 1;
            continue;
        };
        if month.uses.len() == MOST_KEYS && !month.uses.contains_key(&key) {
            return Err(17);
        }
        let used = month.uses.entry(key).or_default();
        used.members |= 1 << (member - 1);
        used.deliveries += 1;
    }
    Ok(month)
}

/// The member and the key of a line; nothing where it has the wrong shape or
/// its identifier is refused. All behind the first tab is the identifier.
fn usage(line: &[u8], tables: &Tables) -> Option<(u32, Vec<u8>)> {
    let tab = line.iter().position(|&byte| byte == b'\t')?;
    let member = member(&line[..tab])?;
    let key = tables.key(&line[tab + 1..]).ok()?;
    Some((member, key))
}

/// A member number: decimal, 1 to 64, no leading zero.
fn member(text: &[u8]) -> Option<u32> {
    let number = match *text {
        [b'0', ..] => return None,
        [ones] => digit_value(ones)?,
        [tens, ones] => 10 * digit_value(tens)? + digit_value(ones)?,
        _ => return None,
    };
    (number <= MOST_MEMBERS).then_some(number)
}

impl Month {
    /// The header, a row for each key, and the row of the refused lines.
    fn print(&self) -> Vec<u8> {
        let mut output = Vec::new();
        print(&mut output, &[b"key", b"members", b"deliveries"]);
        for (key, used) in &self.uses {
            let (members, deliveries) = (used.members.count_ones(), used.deliveries);
            let (members, deliveries) = (members.to_string(), deliveries.to_string());
            print(&mut output, &[key, members.as_bytes(), deliveries.as_bytes()]);
        }
        print(&mut output, &[b"-", b"0", self.refused.to_string().as_bytes()]);
        output
    }
}
