//! The command: answers cases from standard input, or runs a program over the
//! tables of a folder, the examples, or a generator.

use second::keys::or_dash;
use second::*;
use std::io::{self, BufRead, BufWriter, Read, Write};
use std::path::Path;
use std::process::ExitCode;

fn main() -> ExitCode {
    let arguments: Vec<String> = std::env::args().skip(1).collect();
    let arguments: Vec<&str> = arguments.iter().map(String::as_str).collect();
    let done = match arguments[..] {
        [] => cases(),
        ["examples"] => run_examples(),
        ["months", tables, into, count] => run_months(tables, into, count),
        ["trials", tables, into, count] => run_trials(tables, into, count),
        [program] => run_program(program, "."),
        [program, folder] => run_program(program, folder),
        _ => Err(USAGE.to_string()),
    };
    match done {
        Ok(()) => ExitCode::SUCCESS,
        Err(message) => {
            eprintln!("{message}");
            ExitCode::FAILURE
        }
    }
}

const USAGE: &str = "usage: second [(keys | bill | refused | inspect | tables_check) [DIR] \
    | examples | (months | trials) TABLES INTO COUNT]";

fn standard_input() -> Result<Vec<u8>, String> {
    let mut input = Vec::new();
    io::stdin().lock().read_to_end(&mut input).map_err(|error| error.to_string())?;
    Ok(input)
}

fn print(output: &[u8]) -> Result<(), String> {
    let mut stdout = io::stdout().lock();
    stdout.write_all(output).and_then(|()| stdout.flush()).map_err(|error| error.to_string())
}

/// A program over standard input and the tables of a folder. A file that can't
/// be opened counts as zero bytes.
fn run_program(program: &str, folder: &str) -> Result<(), String> {
    let path = |name: &str| Path::new(folder).join(name);
    let file = |name| std::fs::read(path(name)).unwrap_or_default();
    let (aliases, likely) = (file("aliases.tsv"), file("likely.tsv"));
    match program {
        "keys" => print(&keys(&standard_input()?, &aliases, &likely)),
        "bill" | "refused" => {
            let input = standard_input()?;
            if let Some(note) = refused::note(&input) {
                eprintln!("{program}: {note}");
            }
            let run = if program == "bill" { bill } else { refused };
            print(&run(&input, &aliases, &likely))
        }
        "inspect" => {
            let in_use = path("aliases.tsv").exists() || path("likely.tsv").exists();
            print(&inspect(&standard_input()?, in_use.then_some((&aliases[..], &likely[..]))))
        }
        "tables_check" => print(&tables_check(&aliases, &likely, &file("parents.tsv"))),
        _ => Err(USAGE.to_string()),
    }
}

/// Random months, a folder each: the tables, and the lines in several orders.
fn run_months(tables: &str, into: &str, count: &str) -> Result<(), String> {
    let count = count.parse().map_err(|_| "no count".to_string())?;
    let file = |name| std::fs::read(Path::new(tables).join(name)).map_err(|e| e.to_string());
    let (aliases, likely) = (file("aliases.tsv")?, file("likely.tsv")?);
    for seed in 0..count {
        let folder = Path::new(into).join(format!("{seed:04}"));
        let month = months::month(seed, &aliases, &likely);
        month.write(&folder).map_err(|error| error.to_string())?;
    }
    Ok(())
}

/// Random trials, a folder each: the tables, usage lines and identifiers.
fn run_trials(tables: &str, into: &str, count: &str) -> Result<(), String> {
    let count = count.parse().map_err(|_| "no count".to_string())?;
    let file = |name| std::fs::read(Path::new(tables).join(name)).map_err(|e| e.to_string());
    let tables = [file("aliases.tsv")?, file("likely.tsv")?, file("parents.tsv")?];
    for seed in 0..count {
        let folder = Path::new(into).join(format!("{seed:04}"));
        trials::trial(seed, &tables).write(&folder).map_err(|error| error.to_string())?;
    }
    Ok(())
}

fn run_examples() -> Result<(), String> {
    let results = examples::run();
    for (name, passed) in &results {
        println!("{}\t{name}", if *passed { "passed" } else { "FAILED" });
    }
    let failed = results.iter().filter(|(_, passed)| !passed).count();
    println!("{} passed, {failed} failed", results.len() - failed);
    if failed > 0 {
        return Err("an example failed".to_string());
    }
    Ok(())
}

/// One case a line, one answer a line.
fn cases() -> Result<(), String> {
    let mut stdout = BufWriter::new(io::stdout().lock());
    for (number, line) in io::stdin().lock().lines().enumerate() {
        let line = line.map_err(|error| error.to_string())?;
        let answer = case(&line).ok_or_else(|| format!("line {}: no case", number + 1))?;
        writeln!(stdout, "{answer}").map_err(|error| error.to_string())?;
    }
    stdout.flush().map_err(|error| error.to_string())
}

/// The answer to a case, or nothing where the line isn't one.
fn case(line: &str) -> Option<String> {
    let fields: Vec<&str> = line.split('\t').collect();
    let (&operation, fields) = fields.split_first()?;
    match (operation, fields) {
        ("class", [byte]) => {
            let [byte] = from_hex(byte)?[..] else { return None };
            let word = match class_of(byte) {
                Class::Small => "small",
                Class::Capital => "capital",
                Class::Digit => "digit",
                Class::Separator => "separator",
                Class::None => "none",
            };
            Some(word.to_string())
        }
        ("read", [id]) => {
            let report = read(&from_hex(id)?);
            let text = |subtag: &[u8]| String::from_utf8_lossy(or_dash(subtag)).into_owned();
            Some(format!(
                "{}\t{}\t{}\t{}\t{}\t{}\t{}",
                report.number,
                report.place,
                text(&report.language),
                text(&report.script),
                text(&report.region),
                report.variants,
                report.extensions
            ))
        }
        ("lookup", [table, key]) => {
            let (found, start, length) = lookup(&from_hex(table)?, &from_hex(key)?);
            Some(format!("{}\t{start}\t{length}", u8::from(found)))
        }
        ("check", [aliases, likely, parents]) => {
            let answer = check(&from_hex(aliases)?, &from_hex(likely)?, &from_hex(parents)?);
            Some(numbers(answer))
        }
        ("canonicalise", [id, aliases, lent]) => {
            let (id, aliases) = (from_hex(id)?, from_hex(aliases)?);
            over(lent, |out| canonicalise(&id, &aliases, out))
        }
        ("maximise" | "minimise" | "chain", [id, aliases, table, lent]) => {
            let (id, aliases, table) = (from_hex(id)?, from_hex(aliases)?, from_hex(table)?);
            let call = match operation {
                "maximise" => maximise,
                "minimise" => minimise,
                _ => chain,
            };
            over(lent, |out| call(&id, &aliases, &table, out))
        }
        _ => None,
    }
}

/// Lends so many bytes 2E, and prints the answer and the output afterwards.
fn over(lent: &str, call: impl Fn(&mut [u8]) -> Answer) -> Option<String> {
    let mut out = vec![0x2E; lent.parse().ok()?];
    let answer = call(&mut out);
    let hex: String = out.iter().map(|byte| format!("{byte:02x}")).collect();
    Some(format!("{}\t{hex}", numbers(answer)))
}

fn numbers(answer: Answer) -> String {
    let Answer { number, table, place, length, steps } = answer;
    format!("{number}\t{table}\t{place}\t{length}\t{steps}")
}

fn from_hex(text: &str) -> Option<Vec<u8>> {
    let digits: Vec<u8> =
        text.chars().map(|c| c.to_digit(16).map(|d| d as u8)).collect::<Option<_>>()?;
    let pairs = digits.chunks_exact(2);
    pairs.remainder().is_empty().then(|| pairs.map(|pair| pair[0] << 4 | pair[1]).collect())
}
