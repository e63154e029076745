//! The random calls meet every number.

use second::gen::{self, Rng};
use second::*;

#[test]
fn every_number_occurs() {
    let mut rng = Rng::new(2);
    let mut seen = [0; 17];
    let mut by_table = [[0; 4]; 17];
    for _ in 0..4_000 {
        let (mut aliases, mut likely, mut parents) = gen::tables(&mut rng);
        if rng.chance(1, 4) {
            let tables = [&mut aliases, &mut likely, &mut parents];
            let table = tables.into_iter().nth(rng.below(3)).unwrap();
            *table = gen::bad_table(&mut rng, std::mem::take(table));
        }
        for _ in 0..5 {
            let id = gen::identifier(&mut rng);
            let mut out = vec![0; if rng.chance(1, 8) { rng.below(12) } else { 2_000 }];
            let answer = match rng.below(5) {
                0 => canonicalise(&id, &aliases, &mut out),
                1 => maximise(&id, &aliases, &likely, &mut out),
                2 => minimise(&id, &aliases, &likely, &mut out),
                3 => chain(&id, &aliases, &parents, &mut out),
                _ => check(&aliases, &likely, &parents),
            };
            seen[answer.number as usize] += 1;
            by_table[answer.number as usize][answer.table as usize] += 1;
        }
    }
    println!("{seen:?}");
    assert!(seen.iter().all(|&count| count >= 20), "{seen:?}");
    for number in 11..=14 {
        assert!(by_table[number][1..].iter().all(|&count| count > 0), "{number} {by_table:?}");
    }
}

#[test]
fn most_identifiers_are_accepted() {
    let mut rng = Rng::new(20);
    let mut seen = [0; 17];
    for _ in 0..50_000 {
        seen[read(&gen::identifier(&mut rng)).number as usize] += 1;
    }
    println!("{seen:?}");
    assert!((30_000..=35_000).contains(&seen[0]), "{seen:?}");
    assert!(seen[1..=7].iter().all(|&count| count > 200), "{seen:?}");
    assert!([5, 15, 16].iter().all(|&number| seen[number] > 1_000), "{seen:?}");
    assert_eq!(seen[8..15], [0; 7], "{seen:?}");
}

/// The identifiers of trials, and those of their usage lines, meet every number
/// of reading.
#[test]
fn every_number_of_reading_occurs_in_trials() {
    let tables = [examples::ALIASES, examples::LIKELY, examples::PARENTS].map(Vec::from);
    let (mut identifiers, mut usage) = ([0; 17], [0; 17]);
    for seed in 0..400 {
        let trial = trials::trial(seed, &tables);
        for line in trial.identifiers.split(|&byte| byte == b'\n') {
            identifiers[read(line).number as usize] += 1;
        }
        for line in trial.usage.split(|&byte| byte == b'\n') {
            if let Some(tab) = line.iter().position(|&byte| byte == b'\t') {
                usage[read(&line[tab + 1..]).number as usize] += 1;
            }
        }
    }
    println!("{identifiers:?} {usage:?}");
    for number in (0..=7).chain(15..=16) {
        assert!(identifiers[number] >= 50 && usage[number] >= 200, "{identifiers:?} {usage:?}");
    }
}

/// Aliases, likely rows and parents are often hit.
#[test]
fn rows_are_hit() {
    let mut rng = Rng::new(21);
    let (mut accepted, mut aliased, mut maximised, mut grew, mut jumped) = (0, 0, 0, 0, 0);
    for _ in 0..10_000 {
        let (aliases, likely, parents) = gen::good_tables(&mut rng);
        let id = gen::identifier(&mut rng);
        let form = |call: &dyn Fn(&mut [u8]) -> Answer| {
            let mut out = vec![0; 20_000];
            let answer = call(&mut out);
            out.truncate(answer.length);
            (answer.number == 0).then_some(out)
        };
        let plain = form(&|out| canonicalise(&id, b"", out));
        let Some(canonical) = form(&|out| canonicalise(&id, &aliases, out)) else {
            continue;
        };
        accepted += 1;
        aliased += usize::from(plain.as_ref() != Some(&canonical));
        if let Some(most) = form(&|out| maximise(&id, &aliases, &likely, out)) {
            maximised += 1;
            grew += usize::from(most.len() > canonical.len());
        }
        jumped += usize::from(
            form(&|out| chain(&id, &aliases, b"", out))
                != form(&|out| chain(&id, &aliases, &parents, out)),
        );
    }
    println!("{accepted} {aliased} {maximised} {grew} {jumped}");
    assert!(aliased * 5 > accepted && grew * 2 > accepted && jumped * 10 > accepted);
}
