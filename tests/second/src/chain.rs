//! Document 01, "Chain of parents".

use crate::table::Table;

/// The parent of an identifier other than `und`: the table's value if there is
/// a row; else the last subtag is dropped; a language alone has parent `und`.
pub fn parent<'a>(id: &'a [u8], parents: &'a Table) -> &'a [u8] {
    if let Some(value) = parents.find(id) {
        return value;
    }
    match id.iter().rposition(|&byte| byte == b'-') {
        Some(last) => &id[..last],
        None => b"und",
    }
}

/// Whether the walk from `id` is at `und` within so many steps. Rows and drops
/// cost one step each.
pub fn ends_within(id: &[u8], steps: usize, parents: &Table) -> bool {
    id == b"und" || steps > 0 && ends_within(parent(id, parents), steps - 1, parents)
}

/// The listing, one identifier a line, and its steps: the lines less one.
pub fn listing(id: &[u8], variants: usize, parents: &Table) -> (Vec<u8>, usize) {
    let allowed = variants + 10;
    let (mut lines, mut steps, mut at) = (Vec::new(), 0, id);
    loop {
        lines.extend_from_slice(at);
        lines.push(b'\n');
        if at == b"und" {
            return (lines, steps);
        }
        // Can't fail over a table without clash: at most variants + 2 drops
        // lead to a parent key, and 8 steps from there to `und`.
        assert!(steps < allowed, "a walk of more than v + 10 steps");
        at = parent(at, parents);
        steps += 1;
    }
}
