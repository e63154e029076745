//! Demand 3 on the compiled code: lists of calls, each on what the last one left; forms of pairs; chains.

use crate::draw;
use crate::random::{lent, GUARD};
use crate::c_api::{Operation, Set};
use compare::Tally;
use second::gen::{self, Rng};
use second::Answer;
use std::collections::BTreeSet;
use Operation::*;

const ROOM: usize = 1 << 14;

/// The form that an operation gives, where it answers 0 over enough room.
fn form(set: &Set, operation: Operation, id: &[u8]) -> Option<Vec<u8>> {
    let mut out = [0; ROOM];
    let answer = set.ours(operation, id, &mut out);
    (answer.number == 0).then(|| out[..answer.length].to_vec())
}

/// What a call answers that gives back what it got.
fn given_back(id: &[u8], out: &mut [u8]) -> Answer {
    match out.get_mut(..id.len()) {
        Some(front) => {
            front.copy_from_slice(id);
            Answer { length: id.len(), ..Answer::default() }
        }
        None => Answer { number: 10, ..Answer::default() },
    }
}

/// "After any list of calls, each on what the last one left, maximising and minimising answer as on the first input;
/// canonicalising too if neither of those was done, else it gives back what it got."
fn list(tally: &mut Tally, rng: &mut Rng, set: &Set, first: &[u8]) {
    let mut left = first.to_vec();
    let mut done = false;
    for _ in 0..1 + rng.below(12) {
        let operation = rng.pick(&[Canonicalise, Maximise, Minimise]);
        let len = rng.pick(&[0, 3, left.len().saturating_sub(1), left.len(), left.len() + 12, 255, 300]);
        let now = lent(len, |out| set.ours(operation, &left, out));
        let wanted = lent(len, |out| match operation {
            Canonicalise if done => given_back(&left, out),
            _ => set.ours(operation, first, out),
        });
        if now.0.number == 0 {
            left = now.1[GUARD..][..now.0.length].to_vec();
            done |= operation != Canonicalise;
        }
        tally.note(&format!("{operation:?} in a list"), now, wanted, &[first, &set.tables[0], &set.tables[1]]);
    }
}

/// Identifiers with one tail and two languages, scripts and regions, of which many have the same forms.
fn family(rng: &mut Rng) -> Vec<Vec<u8>> {
    let two = |rng: &mut Rng, pool: &[&'static str]| ["", rng.pick(pool), rng.pick(pool)];
    let (languages, scripts, regions) = (two(rng, gen::LANGUAGES), two(rng, gen::SCRIPTS), two(rng, gen::REGIONS));
    let tail = gen::well_formed(rng).into_iter().skip_while(|s| s.len() > 1).collect::<Vec<_>>().join("-");
    let mut ids = Vec::new();
    for language in &languages[1..] {
        for script in scripts {
            for region in regions {
                let parts = [language, script, region, tail.as_str()];
                ids.push(
                    parts.iter().filter(|part| !part.is_empty()).copied().collect::<Vec<_>>().join("-").into_bytes(),
                );
            }
        }
    }
    ids
}

fn subtags(id: &[u8]) -> Vec<&[u8]> {
    id.split(|b| *b == b'-').collect()
}

/// "Same minimised form exactly when same maximised form", over all pairs of a family; "minimised forms are shortest".
fn pairs(tally: &mut Tally, set: &Set, ids: &[Vec<u8>]) {
    let forms: Vec<_> = ids.iter().map(|id| [Canonicalise, Maximise, Minimise].map(|o| form(set, o, id))).collect();
    for (id, [_, maximised, minimised]) in ids.iter().zip(&forms) {
        tally.note("maximises and minimises", minimised.is_some(), maximised.is_some(), &[id]);
        let (Some(m), Some(n)) = (maximised, minimised) else { continue };
        for [canonical, other_m, other_n] in &forms {
            let (Some(c), Some(other_m), Some(other_n)) = (canonical, other_m, other_n) else { continue };
            tally.note("same forms", n == other_n, m == other_m, &[id, c, &set.tables[0], &set.tables[1]]);
            if m == other_m && subtags(c)[0] == subtags(n)[0] {
                tally.note(
                    "shortest",
                    subtags(n).len() <= subtags(c).len(),
                    true,
                    &[id, c, &set.tables[0], &set.tables[1]],
                );
            }
        }
    }
}

/// "A chain reaches `und` in at most v + 10 steps and lists nothing twice"; it answers 0 or 10 exactly where
/// canonicalising does.
fn chain(tally: &mut Tally, rng: &mut Rng, set: &Set, id: &[u8]) {
    let input: &[&[u8]] = &[id, &set.tables[0], &set.tables[2]];
    let (short, enough) = (rng.below(30), vec![0; ROOM]);
    let number = lent(short, |out| set.ours(Chain, id, out)).0.number;
    let canonical = form(set, Canonicalise, id);
    tally.note("chain answers 0 or 10", matches!(number, 0 | 10), canonical.is_some(), input);
    let mut out = enough;
    let answer = set.ours(Chain, id, &mut out);
    tally.note("chain answers 0", answer.number == 0, canonical.is_some(), input);
    let Some(canonical) = canonical.filter(|_| answer.number == 0) else { return };
    let listing = &out[..answer.length];
    let lines: Vec<&[u8]> = listing.split(|b| *b == 10).collect();
    let (last, lines) = lines.split_last().expect("a part");
    tally.note("chain's last lines", (lines.last(), last), (Some(&&b"und"[..]), &&b""[..]), input);
    tally.note("chain's steps", answer.steps + 1, lines.len(), input);
    tally.note("v + 10 steps", answer.steps <= second::read(&canonical).variants + 10, true, input);
    tally.note("nothing twice", lines.iter().collect::<BTreeSet<_>>().len(), lines.len(), input);
}

/// Lists of calls, families and chains over so many sets of good tables.
pub fn demand3(tally: &mut Tally, sets: usize) {
    let mut rng = Rng::new(20_261_119);
    for _ in 0..sets {
        let set = draw::good_set(&mut rng);
        for _ in 0..4 {
            let first = draw::identifier(&mut rng);
            list(tally, &mut rng, &set, &first);
            chain(tally, &mut rng, &set, &first);
        }
        let ids = family(&mut rng);
        pairs(tally, &set, &ids);
        ids.iter().for_each(|id| chain(tally, &mut rng, &set, id));
    }
}
