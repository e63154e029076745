//! A second, independent implementation of the rules of document 01: reading,
//! the canonical form, maximising, minimising, the chain of parents, the check
//! of the three tables, and the programs over them; and, of document 02, of the
//! monthly bill (T-01), with the list of the lines that it refuses, of the
//! numbers that say which part was wrong (T-03), and of what a byte is (T-05).

pub mod bill;
pub mod bytes;
pub mod canonical;
pub mod chain;
pub mod damages;
pub mod examples;
pub mod gen;
pub mod keys;
pub mod likely;
pub mod months;
pub mod reading;
pub mod refused;
pub mod subtag;
pub mod table;
pub mod tables_check;
pub mod trials;
pub mod words;

pub use bill::bill;
pub use bytes::{class_of, Class};
pub use keys::{inspect, keys};
pub use refused::refused;
pub use table::{lookup, Tables};
pub use tables_check::tables_check;
pub use words::{meaning, shown};

use reading::{Identifier, LONGEST};
use subtag::Core;

/// What an operation gives back. Number 0 has the length of the result; steps
/// are 0 but for a chain; the table is 0 but for numbers 11 to 14.
#[derive(Clone, Copy, Debug, PartialEq, Eq, Default)]
pub struct Answer {
    pub number: u8,
    pub table: u8,
    pub place: usize,
    pub length: usize,
    pub steps: usize,
}

impl Answer {
    /// A refusal that names no table: length and steps are 0.
    pub(crate) fn refusal(number: u8, place: usize) -> Answer {
        Answer { number, place, ..Answer::default() }
    }

    /// Number 0 writes the result at the front, and bytes behind it stay; a
    /// lent output that is too short is number 10, and nothing is written.
    fn give(result: &[u8], steps: usize, out: &mut [u8]) -> Answer {
        let Some(front) = out.get_mut(..result.len()) else {
            return Answer::refusal(10, 0);
        };
        front.copy_from_slice(result);
        Answer { length: result.len(), steps, ..Answer::default() }
    }
}

/// What reading reports. A refusal has empty subtags and counts 0.
#[derive(Clone, Debug, PartialEq, Eq, Default)]
pub struct Report {
    pub number: u8,
    pub place: usize,
    pub language: Vec<u8>,
    pub script: Vec<u8>,
    pub region: Vec<u8>,
    pub variants: usize,
    pub extensions: usize,
}

/// The operations, over tables that were tested. Their answers are those of
/// the functions of the same names.
impl Tables {
    pub fn canonicalise(&self, id: &[u8], out: &mut [u8]) -> Answer {
        let result = self.canonical(id).map(|canonical| canonical.text());
        result.map_or_else(|refusal| refusal, |text| Answer::give(&text, 0, out))
    }

    pub fn maximise(&self, id: &[u8], out: &mut [u8]) -> Answer {
        let result = self.maximal(id).map(|maximal| maximal.text());
        result.map_or_else(|refusal| refusal, |text| Answer::give(&text, 0, out))
    }

    /// Refused exactly when maximising is, before number 10.
    pub fn minimise(&self, id: &[u8], out: &mut [u8]) -> Answer {
        let result = self.minimal(id).map(|minimal| minimal.text());
        result.map_or_else(|refusal| refusal, |text| Answer::give(&text, 0, out))
    }

    /// Language, script and region of the minimised form, as text.
    pub fn key(&self, id: &[u8]) -> Result<Vec<u8>, Answer> {
        self.minimal(id).map(|minimal| minimal.main.core.text())
    }

    pub fn chain(&self, id: &[u8], out: &mut [u8]) -> Answer {
        match self.canonical(id) {
            Ok(Identifier { main, .. }) => {
                let (lines, steps) =
                    chain::listing(&main.text(), main.variants.len(), &self.parents);
                Answer::give(&lines, steps, out)
            }
            Err(refusal) => refusal,
        }
    }

    /// The canonical form, or a refusal: that of reading, then 9.
    fn canonical(&self, id: &[u8]) -> Result<Identifier, Answer> {
        fitting(canonical::canonical(reading::identifier(id)?, self))
    }

    /// The maximised form, or a refusal: that of the canonical form, then 8,
    /// then 9.
    fn maximal(&self, id: &[u8]) -> Result<Identifier, Answer> {
        let canonical = self.canonical(id)?;
        let core = likely::maximal(canonical.main.core, self).ok_or(Answer::refusal(8, 0))?;
        fitting(with_core(canonical, core))
    }

    /// The minimised form, or the refusal of the maximised one.
    fn minimal(&self, id: &[u8]) -> Result<Identifier, Answer> {
        let maximal = self.maximal(id)?;
        let core = likely::minimal(maximal.main.core, self);
        Ok(with_core(maximal, core))
    }
}

/// Number 9: over 255 bytes, extensions included.
fn fitting(id: Identifier) -> Result<Identifier, Answer> {
    if id.text().len() > LONGEST {
        return Err(Answer::refusal(9, 0));
    }
    Ok(id)
}

fn with_core(mut id: Identifier, core: Core) -> Identifier {
    id.main.core = core;
    id
}

/// Reads an identifier.
pub fn read(id: &[u8]) -> Report {
    reading::report(id)
}

/// Tests the three tables.
pub fn check(aliases: &[u8], likely: &[u8], parents: &[u8]) -> Answer {
    Tables::test(aliases, likely, parents).err().unwrap_or_default()
}

/// Writes the canonical form.
pub fn canonicalise(id: &[u8], aliases: &[u8], out: &mut [u8]) -> Answer {
    match Tables::aliases(aliases) {
        Ok(tables) => tables.canonicalise(id, out),
        Err(bad) => bad,
    }
}

/// Writes the maximised form.
pub fn maximise(id: &[u8], aliases: &[u8], likely: &[u8], out: &mut [u8]) -> Answer {
    match Tables::likely(aliases, likely) {
        Ok(tables) => tables.maximise(id, out),
        Err(bad) => bad,
    }
}

/// Writes the minimised form.
pub fn minimise(id: &[u8], aliases: &[u8], likely: &[u8], out: &mut [u8]) -> Answer {
    match Tables::likely(aliases, likely) {
        Ok(tables) => tables.minimise(id, out),
        Err(bad) => bad,
    }
}

/// Writes the chain of parents, one identifier a line.
pub fn chain(id: &[u8], aliases: &[u8], parents: &[u8], out: &mut [u8]) -> Answer {
    match Tables::parents(aliases, parents) {
        Ok(tables) => tables.chain(id, out),
        Err(bad) => bad,
    }
}
