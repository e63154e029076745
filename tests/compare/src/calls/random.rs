//! Random calls of the four functions against the second program's: number, table, place, length, steps, the whole
//! output and guard bytes around it.

use crate::draw::{self, Published};
use crate::c_api::{Operation, Set, OPERATIONS};
use compare::Tally;
use second::gen::{self, Rng};
use second::Answer;

pub const GUARD: usize = 24;

/// The answer and all bytes afterwards: those lent, and the guards before and behind them.
pub fn lent(len: usize, call: impl FnOnce(&mut [u8]) -> Answer) -> (Answer, Vec<u8>) {
    let mut bytes: Vec<u8> = (0..len + 2 * GUARD).map(|i| (i * 37 + len) as u8).collect();
    let answer = call(&mut bytes[GUARD..GUARD + len]);
    (answer, bytes)
}

/// Which outputs are lent for a result of so many bytes.
enum Lengths {
    Every,
    Some(usize),
}

fn compare_one(tally: &mut Tally, set: &Set, operation: Operation, id: &[u8], len: usize) {
    let ours = lent(len, |out| set.ours(operation, id, out));
    let theirs = lent(len, |out| set.theirs(operation, id, out));
    *tally.numbers.entry(theirs.0.number).or_default() += 1;
    let [a, l, p] = &set.tables;
    tally.note(&format!("{operation:?}, {len} lent"), ours, theirs, &[id, a, l, p]);
}

fn compare_lengths(tally: &mut Tally, rng: &mut Rng, set: &Set, operation: Operation, id: &[u8], lengths: Lengths) {
    // No listing is longer: 51 variants, 61 lines.
    let mut room = [0; 1 << 14];
    let needed = set.theirs(operation, id, &mut room).length;
    match lengths {
        Lengths::Every => (0..=needed + 1).for_each(|len| compare_one(tally, set, operation, id, len)),
        Lengths::Some(count) => {
            for _ in 0..count {
                let len = match rng.below(6) {
                    0 | 1 => needed,
                    2 => needed.saturating_sub(1),
                    3 => needed + 1,
                    4 => rng.below(needed + 1),
                    _ => needed + rng.below(300),
                };
                compare_one(tally, set, operation, id, len);
            }
        }
    }
}

/// Several identifiers through the four operations over each of so many sets of tables.
pub fn small_tables(tally: &mut Tally, sets: usize) {
    let mut rng = Rng::new(20_261_117);
    for _ in 0..sets {
        let set = if rng.chance(1, 8) { draw::damaged_set(&mut rng) } else { draw::good_set(&mut rng) };
        for _ in 0..8 {
            let id = draw::identifier(&mut rng);
            for operation in OPERATIONS {
                let lengths = if rng.chance(1, 128) { Lengths::Every } else { Lengths::Some(2) };
                compare_lengths(tally, &mut rng, &set, operation, &id, lengths);
            }
        }
    }
}

/// The same over large tables.
pub fn large_tables(tally: &mut Tally, sets: usize) {
    let mut rng = Rng::new(20_261_121);
    for _ in 0..sets {
        let set = draw::large_set(&mut rng);
        for _ in 0..100 {
            let id = draw::large_identifier(&mut rng);
            for operation in OPERATIONS {
                compare_lengths(tally, &mut rng, &set, operation, &id, Lengths::Some(1));
            }
        }
    }
}

/// The same over CLDR's tables, which every call tests.
pub fn published_tables(tally: &mut Tally, published: &Published, identifiers: usize) {
    let mut rng = Rng::new(20_261_118);
    for _ in 0..identifiers {
        let id = if rng.chance(1, 8) { gen::identifier(&mut rng) } else { published.identifier(&mut rng) };
        for operation in OPERATIONS {
            compare_lengths(tally, &mut rng, &published.set, operation, &id, Lengths::Some(1));
        }
    }
}

/// Every byte at every place of some identifiers, which have subtags of all kinds between them.
pub fn every_byte(tally: &mut Tally) {
    let mut rng = Rng::new(20_261_123);
    let set = draw::good_set(&mut rng);
    let ids = [
        &b"a"[..],
        b"root-x-a",
        b"latn-001-abcde",
        b"en-Latn-US-1994",
        b"de_AT_u_foo_ca_buddhist_t_sr_cyrl_k0_abc_a_bc_x_y_z",
    ];
    for id in ids {
        for at in 0..id.len() {
            for byte in 0..=255 {
                let mut id = id.to_vec();
                id[at] = byte;
                for operation in OPERATIONS {
                    compare_lengths(tally, &mut rng, &set, operation, &id, Lengths::Some(1));
                }
            }
        }
    }
}

/// 50 variants that become one, and 50 that become others of 8 bytes; each with every output's length.
pub fn variants(tally: &mut Tally) {
    let keys: Vec<String> = (10..60).map(|n| format!("1a{n}")).collect();
    let id = format!("en-{}", keys.join("-")).into_bytes();
    let set = |value: fn(usize) -> String| {
        let rows: String = keys.iter().enumerate().map(|(n, key)| format!("variant\t{key}\t{}\n", value(n))).collect();
        Set::new(rows.into_bytes(), b"en\ten-Latn-US\n".to_vec(), Vec::new())
    };
    let (one, many) = (set(|_| "abcdefgh".to_string()), set(|n| format!("abcdef{}", n + 10)));
    let answer = |set: &Set| lent(300, |out| set.ours(Operation::Canonicalise, &id, out)).0;
    tally.note("one variant", answer(&one), Answer { length: 11, ..Answer::default() }, &[&id]);
    tally.note("50 variants", answer(&many), Answer { number: 9, ..Answer::default() }, &[&id]);
    let mut rng = Rng::new(0);
    for operation in OPERATIONS {
        compare_lengths(tally, &mut rng, &one, operation, &id, Lengths::Every);
        compare_lengths(tally, &mut rng, &many, operation, &id, Lengths::Some(10));
    }
}
