//! Seeded random tables and identifiers beside those of `second::gen`: crowded ones, and ones over CLDR's tables.

use crate::c_api::Set;
use second::gen::{self, Rng};
use std::collections::BTreeMap;

/// Variants of 4 bytes that crowded identifiers have and crowded aliases replace.
pub fn crowd() -> Vec<String> {
    (0..60).map(|n| format!("{}{}{}z", n % 10, (b'a' + n / 10) as char, n % 7)).collect()
}

/// Good tables; half of them with many aliases of variants, to few or many values of up to 8 bytes.
pub fn good_set(rng: &mut Rng) -> Set {
    let (mut aliases, likely, parents) = gen::good_tables(rng);
    if rng.chance(1, 2) {
        aliases = aliases
            .split_inclusive(|b| *b == 10)
            .filter(|row| !row.starts_with(b"variant"))
            .collect::<Vec<_>>()
            .concat();
        let (share, values) = (1 + rng.below(4), rng.pick(&[1, 5, 60]));
        let mut keys: Vec<String> = crowd().into_iter().filter(|_| rng.chance(share, 4)).collect();
        keys.sort();
        for key in keys {
            let value = format!("v{:06}x", rng.below(values));
            aliases.extend_from_slice(format!("variant\t{key}\t{}\n", &value[..rng.pick(&[8, 8, 7])]).as_bytes());
        }
    }
    assert_eq!(second::check(&aliases, &likely, &parents).number, 0, "made to be good");
    Set::new(aliases, likely, parents)
}

/// Good tables, one of them damaged.
pub fn damaged_set(rng: &mut Rng) -> Set {
    let (mut aliases, mut likely, mut parents) = gen::good_tables(rng);
    match rng.below(3) {
        0 => aliases = gen::bad_table(rng, aliases),
        1 => likely = gen::bad_table(rng, likely),
        _ => parents = gen::bad_table(rng, parents),
    }
    Set::new(aliases, likely, parents)
}

/// Valid, damaged, crowded or any bytes.
pub fn identifier(rng: &mut Rng) -> Vec<u8> {
    if rng.chance(1, 5) {
        crowded(rng)
    } else {
        gen::identifier(rng)
    }
}

/// Many subtags of one kind, up to about 255 bytes; attributes and keywords come twice.
fn crowded(rng: &mut Rng) -> Vec<u8> {
    let room = rng.pick(&[30, 90, 180, 248, 255, 257]);
    let mut id = rng.pick(gen::LANGUAGES).to_string();
    let kind = rng.below(6);
    let mut left: Vec<String> = match kind {
        0 | 1 => crowd(),
        2 => (0..90).map(|_| format!("a{}", rng.below(100) + 10)).collect(),
        3 => (0..70).map(|_| keyword(rng)).collect(),
        4 => (0..50).map(|n| format!("{}{}-abc{}", (b'a' + n % 26) as char, n / 26, rng.below(1000))).collect(),
        _ => (0..36).filter(|n| *n != 33).map(|n| other_extension(rng, n)).collect(),
    };
    id.push_str(["", "-t-en", "-u", "-u-abc", "-t", ""][kind]);
    while !left.is_empty() {
        let next = left.swap_remove(rng.below(left.len()));
        if id.len() + 1 + next.len() > room {
            break;
        }
        id = format!("{id}-{next}");
    }
    if rng.chance(1, 3) {
        id.to_uppercase().replace('-', "_").into_bytes()
    } else {
        id.into_bytes()
    }
}

fn keyword(rng: &mut Rng) -> String {
    let key = format!("{}{}", rng.pick(&["a", "b", "k", "0"]), rng.pick(&["a", "n", "z"]));
    key + rng.pick(&["", "-true", "-true-true", "-abc", "-abc-true", "-12345678"])
}

/// An extension with the n-th of 36 singletons, `x` not among them.
fn other_extension(rng: &mut Rng, n: u8) -> String {
    let singleton = (if n < 10 { b'0' + n } else { b'a' + n - 10 }) as char;
    match singleton {
        't' => "t-k0-abc".to_string(),
        'u' => "u-kn-true".to_string(),
        _ => format!("{singleton}-{}", rng.pick(&["ab", "zz-ab", "12345678", "b1-a1"])),
    }
}

/// A code of so many letters. Aliases replace codes that begin with a to m, and no others.
fn code(rng: &mut Rng, letters: usize, kept: bool) -> String {
    let first = if kept { b'n' } else { rng.pick(b"an") } + rng.below(13) as u8;
    let rest = (1..letters).map(|_| b'a' + rng.below(13) as u8);
    String::from_utf8([first].into_iter().chain(rest).collect()).expect("letters")
}

fn script(rng: &mut Rng, kept: bool) -> String {
    let small = code(rng, 4, kept);
    small[..1].to_uppercase() + &small[1..3] + "o"
}

fn region(rng: &mut Rng, kept: bool) -> String {
    code(rng, 2, kept).to_uppercase()
}

/// Language, and script and region each at so many chances of 8.
fn codes(rng: &mut Rng, kept: bool, chances: usize) -> String {
    let mut text = code(rng, 3, kept);
    for part in [script, region] {
        if rng.chance(chances, 8) {
            text = format!("{text}-{}", part(rng, kept));
        }
    }
    text
}

/// Good tables of hundreds of rows each, with many keys that look alike.
pub fn large_set(rng: &mut Rng) -> Set {
    let [mut aliases, mut likely, mut parents] = [(); 3].map(|()| BTreeMap::new());
    for _ in 0..300 {
        aliases.insert(format!("language\t{}", code(rng, 3, false)), codes(rng, true, 2));
        aliases.insert(format!("script\t{}", script(rng, false)), script(rng, true));
        aliases.insert(format!("region\t{}", region(rng, false)), region(rng, true));
        let letters = 5 + rng.below(4);
        aliases.insert(format!("variant\t{}", code(rng, 5, false)), code(rng, letters, true));
    }
    aliases.retain(|row, _| row.split('\t').nth(1).is_some_and(|key| key.to_lowercase().as_str() < "n"));
    for _ in 0..800 {
        likely.insert(codes(rng, false, 1), codes(rng, true, 8));
        // A parent has fewer subtags than its key, so that each walk ends.
        let (key, kept) = (codes(rng, false, 4), codes(rng, true, 8));
        let fewer = kept.split('-').take(key.split('-').count() - 1).collect::<Vec<_>>().join("-");
        parents.insert(key, if fewer.is_empty() { "und".to_string() } else { fewer });
    }
    let [aliases, likely, parents] = [aliases, likely, parents].map(|table: BTreeMap<String, String>| {
        table.iter().flat_map(|(key, value)| format!("{key}\t{value}\n").into_bytes()).collect::<Vec<u8>>()
    });
    assert_eq!(second::check(&aliases, &likely, &parents).number, 0, "made to be good");
    Set::new(aliases, likely, parents)
}

/// An identifier over the codes of large tables.
pub fn large_identifier(rng: &mut Rng) -> Vec<u8> {
    let chances = rng.below(8);
    let mut id = codes(rng, false, chances);
    for _ in 0..rng.below(4) {
        id = format!("{id}-{}", code(rng, 5, false));
    }
    id.into_bytes()
}

/// CLDR's tables and what their rows name.
pub struct Published {
    pub set: Set,
    aliases: Vec<[String; 2]>,
    known: Vec<String>,
}

impl Published {
    pub fn read() -> Published {
        let file =
            |name: &str| std::fs::read(format!("{}/../../tables/{name}.tsv", env!("CARGO_MANIFEST_DIR"))).expect(name);
        let set = Set::new(file("aliases"), file("likely"), file("parents"));
        assert_eq!(second::check(&set.tables[0], &set.tables[1], &set.tables[2]).number, 0, "the tables pass");
        let fields = |table: usize| -> Vec<Vec<String>> {
            let text = String::from_utf8_lossy(&set.tables[table]).into_owned();
            text.lines().map(|row| row.split('\t').map(String::from).collect()).collect()
        };
        let aliases = fields(0).iter().map(|row| [row[0].clone(), row[1].clone()]).collect();
        let known = [1, 2].into_iter().flat_map(fields).flatten().collect();
        Published { set, aliases, known }
    }

    /// A key or value of a row, or an old code, with more behind it: perhaps old regions and variants, extensions.
    pub fn identifier(&self, rng: &mut Rng) -> Vec<u8> {
        let old = |rng: &mut Rng, kind: &str| loop {
            let [k, key] = &self.aliases[rng.below(self.aliases.len())];
            if k == kind {
                return key.clone();
            }
        };
        let mut id =
            if rng.chance(1, 3) { old(rng, "language") } else { self.known[rng.below(self.known.len())].clone() };
        if rng.chance(1, 4) {
            id = format!("{}-{}", id.split('-').next().unwrap_or(""), old(rng, "region"));
        }
        if rng.chance(1, 6) {
            id = format!("{id}-{}", old(rng, "variant"));
        }
        if rng.chance(1, 4) {
            let extensions: Vec<String> =
                gen::well_formed(rng).into_iter().skip_while(|subtag| subtag.len() > 1).collect();
            id = [&[id][..], &extensions[..]].concat().join("-");
        }
        if rng.chance(1, 4) {
            id.to_lowercase().replace('-', "_").into_bytes()
        } else {
            id.into_bytes()
        }
    }
}
