//! unic-langid as a peer of the benchmark: nanoseconds per identifier for parsing
//! and printing, with maximising or minimising between them. Takes a file with one
//! identifier a line; `--print` prints the three results of each instead of
//! measuring. Identifiers that it refuses (those with extensions) aren't measured;
//! how many there are is said on standard error. `--keys` reads identifiers from
//! standard input and prints each with its minimised form, as `keys` does.

use std::fmt::Write;
use std::hint::black_box;
use std::io::{BufRead, Write as _};
use std::process::ExitCode;
use unic_langid::LanguageIdentifier;

type Operation = fn(&mut LanguageIdentifier);

extern "C" {
    /// C's: microseconds of the processor, the clock that ours has too.
    fn clock() -> std::ffi::c_long;
}

/// Seconds of the processor since the program started.
fn now() -> f64 {
    // It reads and writes nothing of ours.
    unsafe { clock() as f64 / 1e6 }
}

/// The first is parsing and printing alone: there are no aliases in unic-langid.
const OPERATIONS: [(&str, Operation); 3] = [
    ("canonicalise", |_| {}),
    ("maximise", |id| {
        id.maximize();
    }),
    ("minimise", |id| {
        id.minimize();
    }),
];

/// Writes the result over `out`; false where the identifier is refused.
#[inline(always)]
fn make(identifier: &[u8], operation: impl Fn(&mut LanguageIdentifier), out: &mut String) -> bool {
    let Ok(mut parsed) = LanguageIdentifier::from_bytes(identifier) else {
        return false;
    };
    operation(&mut parsed);
    out.clear();
    write!(out, "{parsed}").is_ok()
}

/// Seconds for so many passes over the identifiers.
fn seconds(
    identifiers: &[&[u8]],
    operation: impl Fn(&mut LanguageIdentifier) + Copy,
    passes: u64,
) -> f64 {
    let mut out = String::with_capacity(512);
    let start = now();
    for _ in 0..passes {
        for identifier in identifiers {
            make(black_box(identifier), operation, &mut out);
            black_box(&out);
        }
    }
    now() - start
}

/// One measure of about a second.
fn nanoseconds(identifiers: &[&[u8]], operation: impl Fn(&mut LanguageIdentifier) + Copy) -> f64 {
    seconds(identifiers, operation, 10);
    let passes = (1.0 / (seconds(identifiers, operation, 10) / 10.0)) as u64 + 1;
    seconds(identifiers, operation, passes) * 1e9 / (passes as f64 * identifiers.len() as f64)
}

/// Asked and the three results, parted by tabs; `-` where it is refused.
fn print(identifiers: &[&[u8]]) {
    for identifier in identifiers {
        print!("{}", String::from_utf8_lossy(identifier));
        for (_, operation) in OPERATIONS {
            let mut out = String::new();
            let made = make(identifier, operation, &mut out);
            print!("\t{}", if made { &out } else { "-" });
        }
        println!();
    }
}

/// Lines of any number, with large reads and writes; `-` where one is refused.
fn keys() -> std::io::Result<()> {
    let mut input = std::io::BufReader::with_capacity(1 << 16, std::io::stdin().lock());
    let mut output = std::io::BufWriter::with_capacity(1 << 16, std::io::stdout().lock());
    let (mut line, mut kept) = (Vec::new(), String::with_capacity(512));
    output.write_all(b"asked\tkept\n")?;
    while input.read_until(b'\n', &mut line)? > 0 {
        let asked = line.strip_suffix(b"\n").unwrap_or(&line);
        let made = make(asked, OPERATIONS[2].1, &mut kept);
        output.write_all(asked)?;
        output.write_all(b"\t")?;
        output.write_all(if made { kept.as_bytes() } else { b"-" })?;
        output.write_all(b"\n")?;
        line.clear();
    }
    output.flush()
}

fn measure(identifiers: &[&[u8]]) {
    let accepts = |id: &&&[u8]| LanguageIdentifier::from_bytes(id).is_ok();
    let accepted: Vec<&[u8]> = identifiers.iter().filter(accepts).copied().collect();
    eprintln!(
        "unic-langid: accepts {} of {} identifiers",
        accepted.len(),
        identifiers.len()
    );
    for (name, operation) in OPERATIONS {
        println!("{name}\t{:.1}", nanoseconds(&accepted, operation));
    }
}

fn main() -> ExitCode {
    let arguments: Vec<String> = std::env::args().skip(1).collect();
    let arguments: Vec<&str> = arguments.iter().map(String::as_str).collect();
    let (run, path): (fn(&[&[u8]]), &str) = match arguments[..] {
        ["--keys"] => return if keys().is_ok() { ExitCode::SUCCESS } else { ExitCode::FAILURE },
        ["--print", path] => (print, path),
        [path] => (measure, path),
        _ => {
            eprintln!("usage: peer_unic [--print] FILE | --keys");
            return ExitCode::FAILURE;
        }
    };
    let Ok(text) = std::fs::read(path) else {
        eprintln!("no file {path}");
        return ExitCode::FAILURE;
    };
    let lines = text
        .split(|&byte| byte == b'\n')
        .filter(|line| !line.is_empty());
    run(&lines.collect::<Vec<_>>());
    ExitCode::SUCCESS
}
