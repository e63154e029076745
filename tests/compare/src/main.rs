//! Holds the proved functions against the second program on many inputs. Seeded, bounded, repeatable; the last line is
//! `N passed, M failed`.

mod files;
mod test_api;

use compare::Tally;
use second::gen::{self, Rng};

/// A key: one that a row has, a part of one, another table's, or any bytes.
fn key(rng: &mut Rng, table: &[u8]) -> Vec<u8> {
    let lines: Vec<&[u8]> = table.split(|b| *b == 10).collect();
    let line = lines[rng.below(lines.len())];
    let tabs: Vec<usize> = (0..line.len()).filter(|i| line[*i] == 9).collect();
    match rng.below(8) {
        0 => line.to_vec(),
        1 => line[..rng.below(line.len() + 1)].to_vec(),
        2 => b"und-Latn".to_vec(),
        3 => (0..rng.below(4)).map(|_| rng.next() as u8).collect(),
        4 => Vec::new(),
        _ if tabs.is_empty() => line.to_vec(),
        _ => line[..tabs[rng.below(tabs.len())]].to_vec(),
    }
}

/// Tables that no generator makes: lengths at the limit, no 0A, only 0A, tabs, high bytes.
fn odd_tables(rng: &mut Rng) -> Vec<Vec<u8>> {
    let mut tables =
        vec![Vec::new(), vec![10], vec![9], vec![0xFF], vec![10; 40], vec![9; 40], b"en\ten-Latn-US".to_vec()];
    for n in [32767, 32768, 32769, 32770] {
        tables.push(vec![b'a'; n]);
        tables.push(vec![10; n]);
        let mut rows: Vec<u8> = Vec::new();
        let mut k = 0;
        while rows.len() + 20 < n {
            let name = [b'a' + (k / 676 % 26) as u8, b'a' + (k / 26 % 26) as u8, b'a' + (k % 26) as u8];
            rows.extend_from_slice(&name);
            rows.extend_from_slice(b"\txx-Latn-US\n");
            k += 1;
        }
        while rows.len() + 1 < n {
            rows.push(b'z');
        }
        rows.push(10);
        tables.push(rows);
    }
    for _ in 0..200 {
        tables.push((0..rng.below(60)).map(|_| *b"\t\n-_aeuz09AZ\xFF".get(rng.below(13)).unwrap()).collect());
    }
    tables
}

/// What each of the 256 bytes is.
fn compare_bytes(tally: &mut Tally) {
    for byte in 0..=255 {
        tally.note("byte", test_api::class(byte), second::class_of(byte), &[&[byte]]);
    }
}

/// The words of all numbers, with outputs of several lengths: the length, the whole output, and guard bytes around it.
fn compare_words(tally: &mut Tally) {
    const GUARD: usize = 24;
    for number in 0..=255 {
        let words = second::meaning(number).as_bytes();
        for len in [0, 1, words.len(), 79, 80, 81, 100, 255, 4096] {
            let mut bytes: Vec<u8> = (0..len + 2 * GUARD).map(|i| (i * 37 + len) as u8).collect();
            let mut wanted = bytes.clone();
            let written = if len < 80 { &b""[..] } else { words };
            wanted[GUARD..][..written.len()].copy_from_slice(written);
            if len >= 80 {
                // The end of the row that the words close.
                wanted[GUARD + written.len()] = b'\n';
            }
            let ours = test_api::meaning(number, &mut bytes[GUARD..GUARD + len]);
            tally.note(&format!("words, {len} lent"), (ours, bytes), (written.len(), wanted), &[&[number], words]);
        }
    }
}

fn compare_tables(tally: &mut Tally, rounds: usize) {
    let mut rng = Rng::new(20_261_115);
    for round in 0..rounds {
        let (mut a, mut l, mut p) = if rng.chance(1, 2) { gen::good_tables(&mut rng) } else { gen::tables(&mut rng) };
        if rng.chance(1, 2) {
            match rng.below(3) {
                0 => a = gen::bad_table(&mut rng, a),
                1 => l = gen::bad_table(&mut rng, l),
                _ => p = gen::bad_table(&mut rng, p),
            }
        }
        let theirs = second::check(&a, &l, &p);
        *tally.numbers.entry(theirs.number).or_default() += 1;
        let passed = theirs.number == 0;
        tally.note("check", test_api::check(&a, &l, &p), theirs, &[&a, &l, &p]);
        let t = [&a, &l, &p][round % 3];
        let k = key(&mut rng, t);
        tally.note("lookup", test_api::lookup(t, &k), second::lookup(t, &k), &[t, &k]);
        if passed {
            tally.note("lookup by hints", test_api::hinted(t, &k), second::lookup(t, &k), &[t, &k]);
        }
    }
    let odd = odd_tables(&mut rng);
    let (a, l, p) = gen::good_tables(&mut rng);
    for t in &odd {
        tally.note("check", test_api::check(t, &l, &p), second::check(t, &l, &p), &[t]);
        tally.note("check", test_api::check(&a, t, &p), second::check(&a, t, &p), &[t]);
        tally.note("check", test_api::check(&a, &l, t), second::check(&a, &l, t), &[t]);
        for _ in 0..4 {
            let k = key(&mut rng, t);
            tally.note("lookup", test_api::lookup(t, &k), second::lookup(t, &k), &[t, &k]);
        }
    }
}

fn main() {
    let arguments: Vec<String> = std::env::args().skip(1).collect();
    match &arguments.iter().map(String::as_str).collect::<Vec<_>>()[..] {
        ["identifiers"] => files::print_identifiers(),
        ["folders", into] => files::write_folders(into, 300).expect("written"),
        _ => {
            let mut tally = Tally::default();
            compare_bytes(&mut tally);
            compare_words(&mut tally);
            compare_tables(&mut tally, 100_000);
            tally.end(&[0, 12, 13, 14])
        }
    }
}
