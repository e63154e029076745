//! The program `refused`: each line that the bill counts as refused, and why.

use crate::bill::MOST_MEMBERS;
use crate::bytes::digit_value;
use crate::keys::{lines, print, table_line};
use crate::words::{field, meaning};
use crate::Tables;

/// Only so many bytes of a line are looked at.
pub const KEPT: usize = 260;

/// Why a line is refused. A fault of its shape has no number, and place 0.
struct Fault {
    number: Option<u8>,
    place: usize,
    meaning: &'static str,
}

/// The whole output of the program `refused`.
pub fn refused(input: &[u8], aliases: &[u8], likely: &[u8]) -> Vec<u8> {
    let mut output = b"line\tmember\tnumber\tplace\tidentifier\tmeaning\n".to_vec();
    let tables = match Tables::likely(aliases, likely) {
        Ok(tables) => tables,
        Err(bad) => {
            output.extend_from_slice(&table_line(bad));
            return output;
        }
    };
    for (before, line) in lines(input).into_iter().enumerate() {
        let line = &line[..line.len().min(KEPT)];
        let Some(fault) = fault(line, &tables) else { continue };
        let (member, identifier) = parts(line);
        print(
            &mut output,
            &[
                (before + 1).to_string().as_bytes(),
                &field(member),
                fault.number.map_or("-".to_string(), |number| number.to_string()).as_bytes(),
                fault.place.to_string().as_bytes(),
                &field(identifier.unwrap_or_default()),
                fault.meaning.as_bytes(),
            ],
        );
    }
    output
}

/// The bytes before the first tab, and those after it; the whole line where
/// there is none.
fn parts(line: &[u8]) -> (&[u8], Option<&[u8]>) {
    match line.iter().position(|&byte| byte == b'\t') {
        Some(tab) => (&line[..tab], Some(&line[tab + 1..])),
        None => (line, None),
    }
}

/// The first fault of a line; nothing where it is accepted.
fn fault(line: &[u8], tables: &Tables) -> Option<Fault> {
    let shape = |meaning| Some(Fault { number: None, place: 0, meaning });
    let (member, identifier) = parts(line);
    let Some(identifier) = identifier else {
        return shape("no tab between member and identifier");
    };
    if let Some(wrong) = member_fault(member) {
        return shape(wrong);
    }
    let refusal = tables.key(identifier).err()?;
    let start = line.len() - identifier.len();
    Some(Fault {
        number: Some(refusal.number),
        place: start + refusal.place,
        meaning: meaning(refusal.number),
    })
}

/// What is wrong with a member: it is decimal, 1 to 64, no leading zero.
fn member_fault(member: &[u8]) -> Option<&'static str> {
    if member.is_empty() {
        return Some("no member number");
    }
    let digits: Option<Vec<u32>> = member.iter().map(|&byte| digit_value(byte)).collect();
    let Some(digits) = digits else {
        return Some("the member is no number");
    };
    if digits.len() > 1 && digits[0] == 0 {
        return Some("the member begins with 0");
    }
    let value =
        digits.iter().fold(0u32, |value, &digit| value.saturating_mul(10).saturating_add(digit));
    (!(1..=MOST_MEMBERS).contains(&value)).then_some("the member is not 1 to 64")
}

/// What `bill` and `refused` say on standard error about an input that was
/// written in another way than theirs. Of its first line, the mark included,
/// only the bytes that are kept count.
pub fn note(input: &[u8]) -> Option<&'static str> {
    let utf_16 = input.starts_with(b"\xFF\xFE") || input.starts_with(b"\xFE\xFF");
    if utf_16 || input.iter().take(2).any(|&byte| byte == 0) {
        return Some("the input is UTF-16");
    }
    let end = input.iter().position(|&byte| byte == b'\n');
    let line = &input[..end.unwrap_or(input.len()).min(KEPT)];
    let cr_lf = end.is_some() && line.ends_with(b"\r");
    let cr = line.contains(&b'\r');
    if line.starts_with(b"\xEF\xBB\xBF") {
        return Some(if cr_lf {
            "the input begins with a byte order mark, and its lines end in CR LF"
        } else if cr {
            "the input begins with a byte order mark, and its first line has CR in it"
        } else {
            "the input begins with a byte order mark"
        });
    }
    if cr_lf {
        return Some("the lines end in CR LF");
    }
    cr.then_some("the first line has CR in it, as where lines end in CR alone")
}
