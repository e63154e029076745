//! The four exported functions, called from Rust, over tables of which the second program has tested its own copy.

use second::{Answer, Tables};

extern "C" {
    fn altazhbey_canonicalise(
        id: *const u8,
        id_len: usize,
        a: *const u8,
        a_len: usize,
        out: *mut u8,
        out_len: usize,
    ) -> u64;
}

type Call = unsafe extern "C" fn(*const u8, usize, *const u8, usize, *const u8, usize, *mut u8, usize) -> u64;
macro_rules! exported {
    ($($name:ident)*) => {
        extern "C" {
            $(fn $name(
                id: *const u8, id_len: usize, a: *const u8, a_len: usize, other: *const u8, other_len: usize, out: *mut u8, out_len: usize,
            ) -> u64;)*
        }
    };
}
exported!(altazhbey_maximise altazhbey_minimise altazhbey_chain);

#[derive(Clone, Copy, Debug, PartialEq)]
pub enum Operation {
    Canonicalise,
    Maximise,
    Minimise,
    Chain,
}

use Operation::*;
pub const OPERATIONS: [Operation; 4] = [Canonicalise, Maximise, Minimise, Chain];

/// The bytes of the packed answer: number, table, place in two, length in three, steps.
fn unpacked(r: u64) -> Answer {
    Answer {
        number: r as u8,
        table: (r >> 8) as u8,
        place: (r >> 16) as u16 as usize,
        length: (r >> 32 & 0xFF_FFFF) as usize,
        steps: (r >> 56) as usize,
    }
}

/// The aliases and the table beside them that an operation uses.
pub fn call(operation: Operation, id: &[u8], aliases: &[u8], other: &[u8], out: &mut [u8]) -> Answer {
    let (o, o_len) = (out.as_mut_ptr(), out.len());
    let with = |f: Call| unsafe {
        f(id.as_ptr(), id.len(), aliases.as_ptr(), aliases.len(), other.as_ptr(), other.len(), o, o_len)
    };
    unpacked(match operation {
        Canonicalise => unsafe {
            altazhbey_canonicalise(id.as_ptr(), id.len(), aliases.as_ptr(), aliases.len(), o, o_len)
        },
        Maximise => with(altazhbey_maximise),
        Minimise => with(altazhbey_minimise),
        Chain => with(altazhbey_chain),
    })
}

/// Three tables, and what the second program's tests of them gave, for each operation's own.
pub struct Set {
    pub tables: [Vec<u8>; 3],
    tested: [Result<Tables, Answer>; 3],
}

impl Set {
    pub fn new(aliases: Vec<u8>, likely: Vec<u8>, parents: Vec<u8>) -> Set {
        let tested =
            [Tables::aliases(&aliases), Tables::likely(&aliases, &likely), Tables::parents(&aliases, &parents)];
        Set { tables: [aliases, likely, parents], tested }
    }

    fn other(&self, operation: Operation) -> &[u8] {
        match operation {
            Canonicalise => b"",
            Maximise | Minimise => &self.tables[1],
            Chain => &self.tables[2],
        }
    }

    pub fn ours(&self, operation: Operation, id: &[u8], out: &mut [u8]) -> Answer {
        call(operation, id, &self.tables[0], self.other(operation), out)
    }

    pub fn theirs(&self, operation: Operation, id: &[u8], out: &mut [u8]) -> Answer {
        let (tested, made): (_, fn(&Tables, &[u8], &mut [u8]) -> Answer) = match operation {
            Canonicalise => (&self.tested[0], Tables::canonicalise),
            Maximise => (&self.tested[1], Tables::maximise),
            Minimise => (&self.tested[1], Tables::minimise),
            Chain => (&self.tested[2], Tables::chain),
        };
        tested.as_ref().map_or_else(|bad| *bad, |tables| made(tables, id, out))
    }
}
