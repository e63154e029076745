//! Every example of document 01, and those of document 02, T-03.

use second::examples::{self, call, long, Operation, ALIASES, LIKELY, PARENTS};
use second::*;

#[test]
fn all_examples_pass() {
    let results = examples::run();
    assert!(results.len() > 45);
    for (name, passed) in results {
        assert!(passed, "{name}");
    }
}

#[test]
fn the_tables_are_those_of_the_document() {
    assert_eq!(check(ALIASES, LIKELY, PARENTS), Answer::default());
    assert_eq!(ALIASES.iter().filter(|&&b| b == b'\n').count(), 4);
    assert_eq!(LIKELY.iter().filter(|&&b| b == b'\n').count(), 11);
    assert_eq!(PARENTS, b"en-AU\ten-001\nzh-Hant\tund\n");
    assert!(!ALIASES.contains(&b' ') && !LIKELY.contains(&b' '));
}

#[test]
fn steps_are_the_lines_less_one() {
    let (answer, out) = call(Operation::Chain, b"en-AU-u-ca-gregory", 40);
    assert_eq!(answer, Answer { length: 20, steps: 3, ..Answer::default() });
    assert_eq!(out, b"en-AU\nen-001\nen\nund\n....................");
    assert_eq!(call(Operation::Chain, b"zh-Hant-TW", 40).0.steps, 2);
}

#[test]
fn bytes_up_to_255() {
    let id = long("en-x-", 7);
    assert_eq!((id.len(), read(&id).number), (255, 0));
    assert_eq!(
        call(Operation::Canonicalise, &id, 255),
        (Answer { length: 255, ..Answer::default() }, id.clone(),)
    );
    // Its maximised form is over 255, so minimising is refused too.
    for operation in [Operation::Maximise, Operation::Minimise] {
        assert_eq!(call(operation, &id, 300).0, Answer { number: 9, ..Answer::default() });
    }
    let id = long("en-x-", 8);
    assert_eq!((id.len(), read(&id).number), (256, 2));
    let id = long("Latn-x-", 5);
    let report = read(&id);
    assert_eq!((id.len(), report.number, report.extensions), (255, 0, 1));
    assert_eq!(call(Operation::Canonicalise, &id, 300).0.number, 9);
    assert_eq!(call(Operation::Chain, &id, 300).0.number, 9);
    // One letter more than fits, and just as many as fit.
    assert_eq!(call(Operation::Canonicalise, &long("Latn-x-", 1), 300).0.length, 255);
    assert_eq!(call(Operation::Canonicalise, &long("Latn-x-", 2), 300).0.number, 9);
}

#[test]
fn the_program_keys() {
    let expected = "asked\tnumber\tkept\niw_IL\t0\the\nfr\t8\t-\n";
    assert_eq!(keys(b"iw_IL\nfr\n", ALIASES, LIKELY), expected.as_bytes());
    assert_eq!(keys(b"iw_IL\nfr", ALIASES, LIKELY), expected.as_bytes());
}
