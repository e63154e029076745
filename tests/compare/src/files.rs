//! Input for the programs: identifiers, and folders of tables.

use second::gen::{self, Rng};
use std::io::Write;

/// Identifiers for the programs, one a line: all strings up to 5 telling bytes, random ones, and every change of one
/// byte of valid ones.
pub fn print_identifiers() {
    let mut out = std::io::BufWriter::new(std::io::stdout().lock());
    let mut put = |id: &[u8]| {
        if !id.contains(&10) {
            out.write_all(id).and_then(|_| out.write_all(b"\n")).expect("written");
        }
    };
    let bytes = b"aZ1-_utx@";
    for len in 0..=5u32 {
        for n in 0..bytes.len().pow(len) {
            put(&(0..len).map(|k| bytes[n / bytes.len().pow(k) % bytes.len()]).collect::<Vec<u8>>());
        }
    }
    let mut rng = Rng::new(20_261_116);
    for _ in 0..1_000_000 {
        put(&gen::identifier(&mut rng));
    }
    let mut changed = 0;
    while changed < 200 {
        let id = gen::identifier(&mut rng);
        if id.len() > 30 || second::read(&id).number != 0 {
            continue;
        }
        changed += 1;
        for i in 0..id.len() {
            for b in 0..=255 {
                let mut other = id.clone();
                other[i] = b;
                put(&other);
            }
        }
    }
}

/// Lines of identifiers, now and then a long one or an empty one; half of the inputs don't end in 0A.
fn input(rng: &mut Rng) -> Vec<u8> {
    let mut bytes = Vec::new();
    for _ in 0..rng.below(60) {
        match rng.below(20) {
            0 => {}
            1 => bytes.resize(bytes.len() + rng.pick(&[254, 255, 256, 257, 4096, 70_000]), b'a'),
            2 => bytes.extend_from_slice(b"en\r"),
            _ => bytes.extend_from_slice(&gen::identifier(rng)),
        }
        bytes.push(10);
    }
    if rng.chance(1, 2) {
        bytes.pop();
    }
    bytes
}

/// A table over or at the limit of 32,768 bytes, of rows in order.
fn long_table(rng: &mut Rng) -> Vec<u8> {
    let len = rng.pick(&[32_767, 32_768, 32_769, 40_000, 100_000]);
    let rows = (0..len / 15 + 1).map(|n: usize| {
        let letter = |k: usize| (b'a' + (n / 26usize.pow(k as u32) % 26) as u8) as char;
        format!("{}{}{}\taa-Latn-US\n", letter(2), letter(1), letter(0))
    });
    let mut table = rows.collect::<String>().into_bytes();
    table.truncate(len);
    table
}

/// Folders with `aliases.tsv` and `likely.tsv`, good, damaged, too long or missing, and an `input`.
pub fn write_folders(into: &str, count: usize) -> std::io::Result<()> {
    let mut rng = Rng::new(20_261_120);
    for n in 0..count {
        let folder = std::path::Path::new(into).join(n.to_string());
        std::fs::create_dir_all(&folder)?;
        let (mut aliases, mut likely, _) = gen::good_tables(&mut rng);
        match rng.below(8) {
            0 | 1 => aliases = gen::bad_table(&mut rng, aliases),
            2 | 3 => likely = gen::bad_table(&mut rng, likely),
            4 => likely = long_table(&mut rng),
            _ => {}
        }
        for (name, table) in [("aliases.tsv", aliases), ("likely.tsv", likely)] {
            if !rng.chance(1, 12) {
                std::fs::write(folder.join(name), table)?;
            }
        }
        std::fs::write(folder.join("input"), input(&mut rng))?;
    }
    Ok(())
}
