//! "The words of demand 3", over random tables, and what all answers share.

use second::gen::{self, Rng};
use second::*;
use std::collections::{BTreeMap, BTreeSet};

#[derive(Clone, Copy, Debug, PartialEq)]
enum Operation {
    Canonicalise,
    Maximise,
    Minimise,
    Chain,
}

use Operation::*;

/// The tables of a run, tested once.
struct Given {
    aliases: Vec<u8>,
    likely: Vec<u8>,
    parents: Vec<u8>,
    with_likely: Result<Tables, Answer>,
    with_parents: Result<Tables, Answer>,
    with_aliases: Result<Tables, Answer>,
}

impl Given {
    fn new((aliases, likely, parents): (Vec<u8>, Vec<u8>, Vec<u8>)) -> Given {
        Given {
            with_aliases: Tables::aliases(&aliases),
            with_likely: Tables::likely(&aliases, &likely),
            with_parents: Tables::parents(&aliases, &parents),
            aliases,
            likely,
            parents,
        }
    }

    /// The answer and the whole output afterwards.
    fn call(&self, operation: Operation, id: &[u8], lent: usize) -> (Answer, Vec<u8>) {
        let mut out = vec![b'.'; lent];
        let tables = match operation {
            Canonicalise => &self.with_aliases,
            Maximise | Minimise => &self.with_likely,
            Chain => &self.with_parents,
        };
        let answer = match (tables, operation) {
            (Err(bad), _) => *bad,
            (Ok(tables), Canonicalise) => tables.canonicalise(id, &mut out),
            (Ok(tables), Maximise) => tables.maximise(id, &mut out),
            (Ok(tables), Minimise) => tables.minimise(id, &mut out),
            (Ok(tables), Chain) => tables.chain(id, &mut out),
        };
        (answer, out)
    }

    fn plain(&self, operation: Operation, id: &[u8], lent: usize) -> (Answer, Vec<u8>) {
        let mut out = vec![b'.'; lent];
        let answer = match operation {
            Canonicalise => canonicalise(id, &self.aliases, &mut out),
            Maximise => maximise(id, &self.aliases, &self.likely, &mut out),
            Minimise => minimise(id, &self.aliases, &self.likely, &mut out),
            Chain => chain(id, &self.aliases, &self.parents, &mut out),
        };
        (answer, out)
    }

    /// The form: the bytes that 0 writes, or the refusal.
    fn form(&self, operation: Operation, id: &[u8]) -> Result<Vec<u8>, Answer> {
        let (answer, mut out) = self.call(operation, id, 20_000);
        if answer.number != 0 {
            return Err(answer);
        }
        out.truncate(answer.length);
        Ok(out)
    }
}

fn any_length(rng: &mut Rng) -> usize {
    if rng.chance(1, 3) {
        rng.below(30)
    } else {
        rng.below(400)
    }
}

/// A refusal writes nothing and has length and steps 0; number 0 writes at the
/// front and leaves the rest; 10 is exactly for outputs that are too short.
#[test]
fn every_answer() {
    let mut rng = Rng::new(1);
    for _ in 0..2_000 {
        let given = Given::new(gen::tables(&mut rng));
        for _ in 0..10 {
            let id = gen::identifier(&mut rng);
            for operation in [Canonicalise, Maximise, Minimise, Chain] {
                let lent = any_length(&mut rng);
                let (answer, out) = given.call(operation, &id, lent);
                assert_eq!(given.plain(operation, &id, lent), (answer, out.clone()));
                let Answer { number, table, place, length, steps } = answer;
                let by_reading = matches!(number, 1..=7 | 15 | 16);
                assert_eq!(table != 0, (11..=14).contains(&number));
                assert!(!matches!(number, 0 | 1 | 2 | 5 | 8..=11) || place == 0);
                assert!(!by_reading || place <= id.len());
                match given.form(operation, &id) {
                    Err(refusal) => assert_eq!(answer, refusal),
                    Ok(form) => assert_eq!(number, if form.len() > lent { 10 } else { 0 }),
                }
                if number == 0 {
                    assert_eq!(&out[..length], given.form(operation, &id).unwrap());
                    assert!(out[length..].iter().all(|&b| b == b'.'));
                    assert!(length <= 255 || operation == Chain);
                    let lines = out[..length].iter().filter(|&&b| b == b'\n').count();
                    assert_eq!(steps, lines.saturating_sub(1));
                } else {
                    assert_eq!((length, steps), (0, 0));
                    assert_eq!(out, vec![b'.'; lent]);
                }
                // Without a bad table the identifier is refused as in reading.
                let report = read(&id);
                if table == 0 {
                    let refused = if by_reading { (number, place) } else { (0, 0) };
                    assert_eq!((report.number, report.place), refused);
                }
            }
        }
    }
}

/// A list of calls from any bytes: maximising and minimising what is left
/// answer as on the first input; canonicalising too, until maximising or
/// minimising is done, and from then on it gives back what it got.
#[test]
fn lists_of_calls() {
    let mut rng = Rng::new(3);
    let mut changed = 0;
    for _ in 0..3_000 {
        let given = Given::new(gen::tables(&mut rng));
        let first = gen::identifier(&mut rng);
        let mut left = first.clone();
        let (mut any_done, mut likely_done) = (false, false);
        for _ in 0..rng.below(12) {
            let operation = rng.pick(&[Canonicalise, Maximise, Minimise]);
            let (answer, out) = given.call(operation, &left, any_length(&mut rng));
            if answer.number == 0 {
                left = out[..answer.length].to_vec();
                any_done = true;
                likely_done |= operation != Canonicalise;
            }
            let lent = any_length(&mut rng);
            for operation in [Maximise, Minimise] {
                assert_eq!(given.call(operation, &left, lent), given.call(operation, &first, lent));
            }
            if !likely_done {
                for operation in [Canonicalise, Chain] {
                    assert_eq!(
                        given.call(operation, &left, lent),
                        given.call(operation, &first, lent)
                    );
                }
            }
            if any_done {
                assert_eq!(given.form(Canonicalise, &left), Ok(left.clone()));
                let number = if left.len() > lent { 10 } else { 0 };
                assert_eq!(given.call(Canonicalise, &left, lent).0.number, number);
            }
        }
        changed += usize::from(left != first);
    }
    assert!(changed > 1_000, "{changed}");
}

fn subtags(id: &[u8]) -> usize {
    1 + id.iter().filter(|&&b| b == b'-').count()
}

/// Maximised and minimised forms are canonical and stay in their kind; one
/// maximised form goes with one minimised form; it has the fewest subtags of
/// all canonical identifiers of a language with that maximised form.
#[test]
fn forms() {
    let mut rng = Rng::new(4);
    let (mut refused, mut shorter) = (0, 0);
    for _ in 0..1_500 {
        let given = Given::new(gen::good_tables(&mut rng));
        let mut least_of: BTreeMap<Vec<u8>, Vec<u8>> = BTreeMap::new();
        let mut most_of: BTreeMap<Vec<u8>, Vec<u8>> = BTreeMap::new();
        for _ in 0..40 {
            let id = gen::identifier(&mut rng);
            let (most, least) = (given.form(Maximise, &id), given.form(Minimise, &id));
            let (Ok(most), Ok(least)) = (&most, &least) else {
                assert_eq!(most, least);
                refused += 1;
                continue;
            };
            let canonical = given.form(Canonicalise, &id).unwrap();
            for form in [&canonical, most, least] {
                assert_eq!(given.form(Canonicalise, form).as_ref(), Ok(form));
                assert_eq!(given.form(Maximise, form).as_ref(), Ok(most));
                assert_eq!(given.form(Minimise, form).as_ref(), Ok(least));
            }
            let report = read(most);
            assert!(report.language != b"und" && report.script.len() == 4);
            assert!(!report.region.is_empty());
            assert!(report.script != b"Zzzz" && report.region != b"ZZ");
            assert!(least.len() <= most.len() && subtags(least) <= subtags(most));
            if !canonical.starts_with(b"und") {
                assert!(subtags(least) <= subtags(&canonical));
                shorter += usize::from(subtags(least) < subtags(&canonical));
            }
            assert_eq!(least_of.entry(most.clone()).or_insert(least.clone()), least);
            assert_eq!(most_of.entry(least.clone()).or_insert(most.clone()), most);
        }
    }
    assert!(refused > 1_000 && shorter > 1_000, "{refused} {shorter}");
}

/// The minimised form against the definition, by whole calls for each trial.
#[test]
fn trials() {
    let mut rng = Rng::new(8);
    for _ in 0..20_000 {
        let given = Given::new(gen::good_tables(&mut rng));
        for _ in 0..4 {
            let id = gen::identifier(&mut rng);
            let Ok(most) = given.form(Maximise, &id) else {
                continue;
            };
            let three = |id: &[u8]| {
                let report = read(id);
                (report.language, report.script, report.region)
            };
            let (language, script, region) = three(&most);
            let core = [&language[..], &script, &region].join(&b'-');
            let rest = &most[core.len()..];
            let least = [
                language.clone(),
                [&language[..], &region].join(&b'-'),
                [&language[..], &script].join(&b'-'),
            ]
            .into_iter()
            .find(|trial| given.form(Maximise, trial).is_ok_and(|m| three(&m) == three(&most)))
            .unwrap_or(core);
            assert_eq!(given.form(Minimise, &id), Ok([&least[..], rest].concat()));
        }
    }
}

/// The maximised form against the definition, by plain lookups.
#[test]
fn rows_by_lookup() {
    let mut rng = Rng::new(9);
    for _ in 0..10_000 {
        let given = Given::new(gen::good_tables(&mut rng));
        for _ in 0..4 {
            let id = gen::identifier(&mut rng);
            let Ok(canonical) = given.form(Canonicalise, &id) else {
                continue;
            };
            let text = String::from_utf8(canonical.clone()).unwrap();
            let report = read(&canonical);
            let subtag = |bytes: Vec<u8>| String::from_utf8(bytes).unwrap();
            let language = subtag(report.language);
            let (mut script, mut region) = (subtag(report.script), subtag(report.region));
            let old = [&language[..], &script, &region];
            let old: Vec<&str> = old.into_iter().filter(|s| !s.is_empty()).collect();
            let rest = text[old.join("-").len()..].to_string();
            if script == "Zzzz" {
                script.clear();
            }
            if region == "ZZ" {
                region.clear();
            }
            let mut three = [language.clone(), script.clone(), region.clone()];
            let mut found = language != "und" && !script.is_empty() && !region.is_empty();
            if !found {
                for form in [
                    vec![&language, &script, &region],
                    vec![&language, &script],
                    vec![&language, &region],
                    vec![&language],
                ] {
                    if form.iter().any(|s| s.is_empty()) {
                        continue;
                    }
                    let key: Vec<&str> = form.iter().map(|s| s.as_str()).collect();
                    let (hit, start, length) = lookup(&given.likely, key.join("-").as_bytes());
                    if hit {
                        let value = String::from_utf8_lossy(&given.likely[start..start + length]);
                        for (mine, theirs) in three.iter_mut().zip(value.split('-')) {
                            if mine.is_empty() || mine == "und" {
                                *mine = theirs.to_string();
                            }
                        }
                        found = true;
                        break;
                    }
                }
            }
            let result = format!("{}{rest}", three.join("-"));
            match given.form(Maximise, &id) {
                Ok(most) => assert_eq!(String::from_utf8(most).unwrap(), result),
                Err(refusal) => {
                    assert_eq!(refusal.number, if found { 9 } else { 8 });
                    assert!(!found || result.len() > 255);
                }
            }
        }
    }
}

/// A chain is at `und` within v + 10 steps and lists nothing twice; each line
/// after the first is the parent of the one before.
#[test]
fn chains() {
    let mut rng = Rng::new(6);
    let (mut rows, mut longest) = (0, 0);
    for _ in 0..5_000 {
        let given = Given::new(gen::good_tables(&mut rng));
        for _ in 0..8 {
            let id = gen::identifier(&mut rng);
            let Ok(canonical) = given.form(Canonicalise, &id) else {
                assert_eq!(given.form(Chain, &id), given.form(Canonicalise, &id));
                continue;
            };
            let (answer, out) = given.call(Chain, &id, 20_000);
            let text = String::from_utf8(out[..answer.length].to_vec()).unwrap();
            assert!(text.ends_with('\n'));
            let lines: Vec<&str> = text.lines().collect();
            assert_eq!(answer.steps, lines.len() - 1);
            assert!(answer.steps <= read(&canonical).variants + 10);
            assert_eq!(lines.iter().position(|&line| line == "und"), Some(answer.steps));
            assert_eq!(lines.iter().collect::<BTreeSet<_>>().len(), lines.len());
            let first = lines[0].as_bytes();
            assert!(canonical.starts_with(first) && read(first).extensions == 0);
            assert!(
                canonical.len() == first.len() || read(&canonical[..first.len() + 2]).number == 7
            );
            for pair in lines.windows(2) {
                let expected = match lookup(&given.parents, pair[0].as_bytes()) {
                    (true, start, length) => {
                        rows += 1;
                        String::from_utf8(given.parents[start..start + length].to_vec()).unwrap()
                    }
                    _ => pair[0].rsplit_once('-').map_or("und", |(front, _)| front).to_string(),
                };
                assert_eq!(pair[1], expected);
            }
            longest = longest.max(answer.steps - read(first).variants.min(answer.steps));
        }
    }
    assert!(rows > 3_000 && longest >= 8, "{rows} {longest}");
}
