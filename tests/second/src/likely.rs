//! Document 01, "Maximising and minimising", for the three subtags of a
//! canonical identifier. Variants and extensions stay as they were.

use crate::canonical::replace;
use crate::subtag::{Core, Subtag};
use crate::table::Tables;

/// The three subtags of the maximised form, or nothing where no row is found
/// (number 8).
pub fn maximal(canonical: Core, tables: &Tables) -> Option<Core> {
    let language = canonical.language;
    // Script `Zzzz` and region `ZZ` are removed.
    let script = canonical.script.filter(|&script| script != Subtag::ZZZZ);
    let region = canonical.region.filter(|&region| region != Subtag::ZZ);
    if language != Subtag::UND && script.is_some() && region.is_some() {
        return Some(Core { language, script, region });
    }
    // First match wins, skipping a form that names a missing subtag.
    let full = Core { language, script, region };
    let row = [
        full.script.and(full.region).map(|_| full),
        full.script.map(|_| Core { region: None, ..full }),
        full.region.map(|_| Core { script: None, ..full }),
        Some(Core { script: None, region: None, ..full }),
    ]
    .into_iter()
    .flatten()
    .find_map(|form| tables.likely_row(form))?;
    // From the identifier where present and not `und`, else from the row.
    Some(Core {
        language: if language == Subtag::UND { row.language } else { language },
        script: script.or(row.script),
        region: region.or(row.region),
    })
}

/// The three subtags of the minimised form, from those of the maximised one:
/// language, language-region, language-script, else all three.
pub fn minimal(m: Core, tables: &Tables) -> Core {
    let trials = [
        Core { script: None, region: None, ..m },
        Core { script: None, ..m },
        Core { region: None, ..m },
    ];
    // A trial's maximised form is by the definition, so it is canonicalised
    // first. A trial with no row counts as different.
    let same = |trial: &Core| maximal(replace(*trial, tables), tables) == Some(m);
    trials.into_iter().find(same).unwrap_or(m)
}
