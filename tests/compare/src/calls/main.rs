//! Holds the four exported functions against the second program's and against demand 3. Seeded, bounded, repeatable;
//! the last line is `N passed, M failed`. `calls cases` answers cases of the four as the second program does.

mod draw;
mod lists;
mod random;
mod c_api;

use compare::Tally;
use c_api::Operation;

/// The bytes of a hex text.
fn bytes(hex: &str) -> Vec<u8> {
    let digit = |at: usize| u8::from_str_radix(&hex[at..at + 2], 16).expect("hex");
    (0..hex.len() / 2).map(|k| digit(2 * k)).collect()
}

/// Operation, identifier and tables in hex, length of the lent output; its bytes are 2E.
fn answer(case: &str) -> String {
    let fields: Vec<&str> = case.split('\t').collect();
    let [operation, id, tables @ .., lent] = &fields[..] else { panic!("no case: {case}") };
    let operation = match *operation {
        "canonicalise" => Operation::Canonicalise,
        "maximise" => Operation::Maximise,
        "minimise" => Operation::Minimise,
        _ => Operation::Chain,
    };
    let mut out = vec![0x2E; lent.parse().expect("a length")];
    let other = bytes(tables.get(1).unwrap_or(&""));
    let a = c_api::call(operation, &bytes(id), &bytes(tables[0]), &other, &mut out);
    let hex: String = out.iter().map(|b| format!("{b:02x}")).collect();
    format!("{}\t{}\t{}\t{}\t{}\t{hex}", a.number, a.table, a.place, a.length, a.steps)
}

fn main() {
    if std::env::args().nth(1).as_deref() == Some("cases") {
        std::io::stdin().lines().for_each(|case| println!("{}", answer(&case.expect("a line"))));
        return;
    }
    let mut tally = Tally::default();
    random::variants(&mut tally);
    random::every_byte(&mut tally);
    random::small_tables(&mut tally, 14_000);
    random::large_tables(&mut tally, 50);
    random::published_tables(&mut tally, &draw::Published::read(), 8_000);
    let calls = tally.numbers.values().sum::<usize>();
    println!("{calls} calls compared");
    assert!(calls >= 1_000_000, "too few calls");
    lists::demand3(&mut tally, 2_000);
    tally.end(&(0..=16).collect::<Vec<u8>>());
}
