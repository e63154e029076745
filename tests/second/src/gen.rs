//! Seeded random identifiers and tables, over the same small pools of subtags,
//! so that rows are often hit.

use crate::subtag::is_field_key;
use crate::table::{Tables, LARGEST};
use std::collections::BTreeMap;

/// A splitmix64 generator.
#[derive(Clone, Debug)]
pub struct Rng(u64);

impl Rng {
    pub fn new(seed: u64) -> Rng {
        Rng(seed)
    }

    #[allow(clippy::should_implement_trait)]
    pub fn next(&mut self) -> u64 {
        self.0 = self.0.wrapping_add(0x9E37_79B9_7F4A_7C15);
        let mut mixed = self.0;
        mixed = (mixed ^ (mixed >> 30)).wrapping_mul(0xBF58_476D_1CE4_E5B9);
        mixed = (mixed ^ (mixed >> 27)).wrapping_mul(0x94D0_49BB_1331_11EB);
        mixed ^ (mixed >> 31)
    }

    /// A number under `n`; 0 where `n` is 0.
    pub fn below(&mut self, n: usize) -> usize {
        (self.next() % n.max(1) as u64) as usize
    }

    /// True `num` times of `den`.
    pub fn chance(&mut self, num: usize, den: usize) -> bool {
        self.below(den) < num
    }

    /// One of the pool.
    pub fn pick<T: Copy>(&mut self, pool: &[T]) -> T {
        pool[self.below(pool.len())]
    }
}

type Pool = [&'static str];

pub const LANGUAGES: &Pool = &[
    "und", "en", "de", "fr", "zh", "sr", "he", "iw", "sh", "es", "nb", "aaa", "abcde", "qqqqqqqq",
];
pub const SCRIPTS: &Pool =
    &["Latn", "Cyrl", "Hant", "Hans", "Arab", "Qaai", "Zinh", "Zzzz", "Root"];
pub const REGIONS: &Pool = &["US", "GB", "TW", "CN", "ME", "BU", "MM", "001", "419", "172", "ZZ"];
pub const VARIANTS: &Pool =
    &["1994", "1996", "heploc", "alalc97", "posix", "rozaj", "1abc", "polyton", "abcdefgh"];
const ATTRIBUTES: &Pool = &["foo", "bar", "abc12", "001", "true", "attribut"];
const KEYWORD_KEYS: &Pool = &["ca", "kn", "co", "nu", "1a", "zz", "aa"];
const TYPES: &Pool = &["gregory", "true", "islamic", "civil", "latn", "yes", "000", "standard"];
const FIELD_KEYS: &Pool = &["k0", "m0", "h0", "t0", "a9", "z1"];
const VALUES: &Pool = &["und", "ungegn", "hybrid", "true", "prprname", "2007"];
const OTHERS: &Pool = &["a", "b", "r", "z", "0", "9"];
const ANYTHING: &Pool = &[
    "ab", "a1", "1a", "12", "abc", "123", "a12", "abcd", "1234", "12ab", "root", "true", "latn",
    "abcde", "a1b2c", "12345678", "u", "t", "x", "q", "7", "k0", "ca", "US", "en", "1994",
];
/// Subtags that can stand in few places of `u` and `t`.
const MISFITS: &Pool = &["12", "90", "1a", "a1", "us", "latn"];

/// A random identifier, mostly one that is accepted, with case and separators
/// mixed, of any length up to a little over 255 bytes.
pub fn identifier(rng: &mut Rng) -> Vec<u8> {
    if rng.chance(1, 40) {
        return junk(rng);
    }
    let mut subtags = well_formed(rng);
    if rng.chance(2, 5) {
        disturb(rng, &mut subtags);
    }
    if rng.chance(1, 8) {
        lengthen(rng, &mut subtags);
    }
    let mut bytes = join(rng, &subtags);
    if rng.chance(1, 8) {
        for _ in 0..1 + rng.below(2) {
            damage(rng, &mut bytes);
        }
    }
    bytes
}

/// The subtags of an identifier that is accepted, unless it is too long.
pub fn well_formed(rng: &mut Rng) -> Vec<String> {
    let mut subtags = Vec::new();
    match rng.below(20) {
        0 => subtags.push("root".to_string()),
        1 | 2 => {
            subtags.push(rng.pick(&SCRIPTS[..8]).to_string());
            after_script(rng, &mut subtags);
        }
        _ => language_part(rng, &mut subtags),
    }
    if rng.chance(1, 2) {
        let mut singletons = vec!["u", "t"];
        singletons.extend(OTHERS);
        for _ in 0..1 + rng.below(3) {
            let singleton = singletons.remove(if rng.chance(2, 3) {
                rng.below(2)
            } else {
                rng.below(singletons.len())
            });
            extension(rng, singleton, &mut subtags);
        }
        if rng.chance(1, 4) {
            extension(rng, "x", &mut subtags);
        }
    }
    subtags
}

fn language_part(rng: &mut Rng, subtags: &mut Vec<String>) {
    subtags.push(rng.pick(LANGUAGES).to_string());
    if rng.chance(2, 5) {
        subtags.push(rng.pick(SCRIPTS).to_string());
    }
    after_script(rng, subtags);
}

fn after_script(rng: &mut Rng, subtags: &mut Vec<String>) {
    if rng.chance(1, 2) {
        subtags.push(rng.pick(REGIONS).to_string());
    }
    if rng.chance(1, 3) {
        let most = if rng.chance(1, 8) { VARIANTS.len() } else { 3 };
        for variant in some_of(rng, VARIANTS, most) {
            subtags.push(variant.to_string());
        }
    }
}

/// 1 to `most` different members of a pool, in random order.
fn some_of(rng: &mut Rng, pool: &Pool, most: usize) -> Vec<&'static str> {
    let mut left = pool.to_vec();
    (0..1 + rng.below(most)).map(|_| left.swap_remove(rng.below(left.len()))).collect()
}

/// An extension of good shape. `u` attributes and keys may come twice.
fn extension(rng: &mut Rng, singleton: &str, subtags: &mut Vec<String>) {
    subtags.push(singleton.to_string());
    let mut add = |pool: &Pool, rng: &mut Rng| subtags.push(rng.pick(pool).to_string());
    match singleton {
        "u" => {
            let attributes = if rng.chance(1, 3) { 1 + rng.below(3) } else { 0 };
            for _ in 0..attributes {
                add(ATTRIBUTES, rng);
            }
            for _ in 0..rng.below(4).max(usize::from(attributes == 0)) {
                add(KEYWORD_KEYS, rng);
                for _ in 0..rng.pick(&[0, 1, 1, 1, 2]) {
                    add(TYPES, rng);
                }
            }
        }
        "t" => {
            let with_language = rng.chance(1, 2);
            if with_language {
                language_part(rng, subtags);
            }
            let keys = some_of(rng, FIELD_KEYS, 3);
            for key in keys.into_iter().skip(usize::from(with_language && rng.chance(1, 2))) {
                subtags.push(key.to_string());
                for _ in 0..1 + rng.below(2) {
                    subtags.push(rng.pick(VALUES).to_string());
                }
            }
        }
        "x" => (0..1 + rng.below(3)).for_each(|_| add(ANYTHING, rng)),
        _ => {
            for _ in 0..1 + rng.below(3) {
                let long: Vec<_> = ANYTHING.iter().copied().filter(|s| s.len() > 1).collect();
                add(&long, rng);
            }
        }
    }
}

/// Wrong orders, repeats, and subtags missing or too many.
fn disturb(rng: &mut Rng, subtags: &mut Vec<String>) {
    let place = rng.below(subtags.len());
    let other = rng.below(subtags.len());
    match rng.below(10) {
        0 => subtags.swap(place, other),
        // Repeats: anywhere, at once, or of a singleton or key with what follows.
        1 => subtags.insert(other, subtags[place].clone()),
        2 => subtags.insert(place + 1, subtags[place].clone()),
        3 | 4 => {
            let short =
                subtags.iter().skip(1).position(|s| s.len() == 1 || is_field_key(s.as_bytes()));
            let from = short.map_or(place, |short| (short + 1).max(place));
            subtags.extend_from_within(from..);
        }
        5 => {
            subtags.remove(place);
        }
        6 => subtags.insert(other, rng.pick(ANYTHING).to_string()),
        7 => subtags[place] = rng.pick(ANYTHING).to_string(),
        8 => misfit(rng, subtags),
        _ => subtags.push(rng.pick(ANYTHING).to_string()),
    }
}

/// A subtag put in somewhere behind a singleton, for which an extension is added
/// where there is none.
fn misfit(rng: &mut Rng, subtags: &mut Vec<String>) {
    let end = subtags.len();
    let singleton = subtags.iter().position(|subtag| subtag.len() == 1);
    let first = singleton.unwrap_or_else(|| {
        let added = rng.pick(&["u", "t"]);
        extension(rng, added, subtags);
        end
    });
    let place = first + 1 + rng.below(subtags.len() - first);
    subtags.insert(place, rng.pick(MISFITS).to_string());
}

/// Fills up with subtags after `x` to a length about 255.
fn lengthen(rng: &mut Rng, subtags: &mut Vec<String>) {
    let target = 241 + rng.below(17);
    let mut length = subtags.join("-").len();
    if !subtags.iter().any(|subtag| subtag == "x") {
        subtags.push("x".to_string());
        length += 2;
    }
    while length + 2 <= target {
        let size = (target - length - 1).min(8);
        subtags.push("filler78"[8 - size..].to_string());
        length += size + 1;
    }
}

/// The subtags with `-` or `_` between them, in canonical or any case.
fn join(rng: &mut Rng, subtags: &[String]) -> Vec<u8> {
    let (mix_case, mix_separators) = (rng.chance(1, 3), rng.chance(1, 4));
    let mut bytes = subtags.join("-").into_bytes();
    for byte in &mut bytes {
        if *byte == b'-' && mix_separators && rng.chance(1, 2) {
            *byte = b'_';
        } else if mix_case && rng.chance(1, 2) {
            *byte ^= if byte.is_ascii_alphabetic() { 0x20 } else { 0 };
        }
    }
    bytes
}

/// One byte changed, put in, or taken away, or the end cut off.
pub fn damage(rng: &mut Rng, bytes: &mut Vec<u8>) {
    let new = rng.pick(b"--__aZ019ux.\t\n\r\0\xFF");
    let place = rng.below(bytes.len());
    match rng.below(4) {
        0 if !bytes.is_empty() => bytes[place] = new,
        1 if !bytes.is_empty() => {
            bytes.remove(place);
        }
        2 => bytes.truncate(place),
        _ => bytes.insert(place, new),
    }
}

/// No bytes, or a few of any kind.
fn junk(rng: &mut Rng) -> Vec<u8> {
    let length = rng.pick(&[0, 0, 1, 2, 5, 12, 300]);
    let telling = rng.chance(1, 2);
    (0..length)
        .map(|_| if telling { rng.pick(b"-_aAuUtTxX01zZ") } else { rng.next() as u8 })
        .collect()
}

/// Small random tables: aliases, likely and parents. Mostly good; one in 16 has
/// a damaged table among them.
pub fn tables(rng: &mut Rng) -> (Vec<u8>, Vec<u8>, Vec<u8>) {
    let (mut aliases, mut likely, mut parents) = good_tables(rng);
    if rng.chance(1, 16) {
        let chosen = [&mut aliases, &mut likely, &mut parents].into_iter().nth(rng.below(3));
        let chosen = chosen.expect("one of three");
        *chosen = bad_table(rng, std::mem::take(chosen));
    }
    (aliases, likely, parents)
}

/// Small random tables that pass the check.
pub fn good_tables(rng: &mut Rng) -> (Vec<u8>, Vec<u8>, Vec<u8>) {
    let share = rng.below(6); // of 12 subtags, how many are alias keys
    let mut part = |pool: &Pool, spared: &[&str]| -> (Vec<&'static str>, Vec<&'static str>) {
        pool.iter().copied().partition(|s| !spared.contains(s) && rng.chance(share, 12))
    };
    // For each kind, the subtags that aliases replace, and those they keep.
    let (languages, kept_languages) = part(LANGUAGES, &["und", "en"]);
    let (scripts, kept_scripts) = part(SCRIPTS, &["Latn"]);
    let (regions, kept_regions) = part(REGIONS, &["US"]);
    let (variants, kept_variants) = part(VARIANTS, &["1994"]);
    let kept = Kept { languages: kept_languages, scripts: kept_scripts, regions: kept_regions };

    let mut aliases = BTreeMap::new();
    for key in languages {
        // A language alias may bring in a script or region that is replaced.
        let value = core(rng, &without(&kept.languages, "und"), SCRIPTS, REGIONS);
        aliases.insert(format!("language\t{key}"), value);
    }
    for (kind, keys, values) in [
        ("script", scripts, &kept.scripts),
        ("region", regions, &kept.regions),
        ("variant", variants, &kept_variants),
    ] {
        for key in keys {
            aliases.insert(format!("{kind}\t{key}"), rng.pick(values).to_string());
        }
    }
    let aliases = rows(&aliases);
    let likely = rows(&kept.likely(rng));
    let mut parents = rows(&kept.parents(rng));
    // Rows from which the walk is too long are taken out.
    while let Err(clash) = Tables::parents(&aliases, &parents) {
        assert_eq!((clash.number, clash.table), (14, 3), "made to be good");
        let length = parents[clash.place..].iter().position(|&b| b == b'\n').expect("a row");
        parents.drain(clash.place..=clash.place + length);
    }
    (aliases, likely, parents)
}

/// The subtags that no alias replaces.
struct Kept {
    languages: Vec<&'static str>,
    scripts: Vec<&'static str>,
    regions: Vec<&'static str>,
}

impl Kept {
    /// Rows for many languages, and some for longer keys.
    fn likely(&self, rng: &mut Rng) -> BTreeMap<String, String> {
        let pools = [
            without(&self.languages, "und"),
            without(&self.scripts, "Zzzz"),
            without(&self.regions, "ZZ"),
        ];
        let mut table = BTreeMap::new();
        if rng.chance(1, 16) {
            return table;
        }
        let mut keys: Vec<String> =
            LANGUAGES.iter().filter(|_| rng.chance(4, 5)).map(|l| l.to_string()).collect();
        for _ in 0..rng.below(24) {
            keys.push(core(rng, LANGUAGES, SCRIPTS, REGIONS));
        }
        for key in keys {
            let value = pools.each_ref().map(|pool| {
                // Mostly the value has the key's own subtags.
                let own = pool.iter().find(|&&own| key.split('-').any(|subtag| subtag == own));
                own.filter(|_| rng.chance(7, 8)).copied().unwrap_or_else(|| rng.pick(pool))
            });
            table.insert(key, value.join("-"));
        }
        table
    }

    /// Some rows, and at times a long line of parents that ends in `und`.
    fn parents(&self, rng: &mut Rng) -> BTreeMap<String, String> {
        let mut table = BTreeMap::new();
        for _ in 0..rng.below(24) {
            let key = core(rng, LANGUAGES, SCRIPTS, REGIONS);
            table.insert(key, core(rng, &self.languages, &self.scripts, &self.regions));
        }
        if rng.chance(1, 2) {
            let mut value = "und".to_string();
            for _ in 0..2 + rng.below(7) {
                let key = core(rng, &self.languages, &self.scripts, &self.regions);
                table.insert(key.clone(), value);
                value = key;
            }
        }
        table.remove("und");
        table
    }
}

fn without(pool: &[&'static str], never: &str) -> Vec<&'static str> {
    pool.iter().copied().filter(|&subtag| subtag != never).collect()
}

/// Language, perhaps script, perhaps region.
fn core(rng: &mut Rng, languages: &[&str], scripts: &[&str], regions: &[&str]) -> String {
    let mut text = rng.pick(languages).to_string();
    for pool in [scripts, regions] {
        if rng.chance(2, 5) {
            text = format!("{text}-{}", rng.pick(pool));
        }
    }
    text
}

fn rows(table: &BTreeMap<String, String>) -> Vec<u8> {
    table.iter().flat_map(|(key, value)| format!("{key}\t{value}\n").into_bytes()).collect()
}

/// A damaged copy of a table. Now and then the damage does no harm.
pub fn bad_table(rng: &mut Rng, table: Vec<u8>) -> Vec<u8> {
    let mut lines: Vec<Vec<u8>> = table.split_inclusive(|&b| b == b'\n').map(Vec::from).collect();
    if lines.is_empty() {
        lines.push(rng.pick(&[&b"en"[..], b"en\ten\n", b"\n", b"und\tund\n", b"x\ty\tz\n"]).into());
    }
    let row = rng.below(lines.len());
    let end = lines[row].len() - 1;
    match rng.below(12) {
        // The last 0A is missing.
        0 => {
            lines.last_mut().expect("a line").pop();
        }
        // Two rows are swapped.
        1 => {
            let other = rng.below(lines.len());
            lines.swap(row, other);
        }
        // A row twice.
        2 => lines.insert(row, lines[row].clone()),
        // A carriage return, an empty line, an extra tab.
        3 => lines[row].insert(end, b'\r'),
        4 => lines.insert(row, b"\n".to_vec()),
        5 => {
            let place = rng.below(end + 1);
            lines[row].insert(place, b'\t');
        }
        // Wrong capitals.
        6 => {
            let place = rng.below(end + 1);
            lines[row][place] ^= 0x20;
        }
        // A field of wrong shape.
        7 => {
            let wrong = rng.pick(&["-", "_US", "-Latn", "-1994", "a", "-US-US", "\t", "-x-a"]);
            lines[row].splice(end..end, wrong.bytes());
        }
        // Junk bytes.
        8 => damage(rng, &mut lines[row]),
        // Too many bytes.
        9 => {
            let once = lines.concat();
            lines = vec![once.clone(); LARGEST / once.len() + 1];
        }
        // Clashes: a value that is its own key or another row's, or a subtag
        // that may be replaced.
        10 => {
            let other = rng.below(lines.len());
            let key = key_of(&lines[other]);
            set_value(&mut lines[row], &key);
        }
        _ => {
            let other = rng.pick(&["iw", "sh-Latn", "zh-Qaai-US", "en-Latn-BU", "nb-Zinh-001"]);
            set_value(&mut lines[row], other.as_bytes());
        }
    }
    lines.concat()
}

/// The last field but one of a line.
fn key_of(line: &[u8]) -> Vec<u8> {
    line.split(|&b| b == b'\t').rev().nth(1).unwrap_or(line).to_vec()
}

/// Puts another value behind the last tab of a line.
fn set_value(line: &mut Vec<u8>, value: &[u8]) {
    let front = line.iter().rposition(|&b| b == b'\t').map_or(0, |tab| tab + 1);
    line.truncate(front);
    line.extend_from_slice(value);
    line.push(b'\n');
}
