//! Words for what more than one comparison tells.

use second::desk::reason_name;

/// Who knows an answer beforehand.
pub fn known_by(generated: bool) -> &'static str {
    if generated {
        "foretold"
    } else {
        "written by hand"
    }
}

/// A reason by its name, or by its number if it has none.
pub fn reason_words(reason: u32) -> String {
    reason_name(reason).map_or(format!("reason {reason}"), str::to_string)
}

/// How many bytes of what was lent differ, and the first of them; the lengths are equal, since both had it lent.
pub fn other_bytes(what: &str, one: &str, left: &[u8], other: &str, right: &[u8]) -> Vec<String> {
    if left == right {
        return Vec::new();
    }
    let differ: Vec<usize> = (0..left.len()).filter(|at| left[*at] != right[*at]).collect();
    let Some(at) = differ.first() else { return Vec::new() };
    vec![
        format!("bytes of the {what} that differ: {}, the first at {at}", differ.len()),
        format!("{one}: byte {}", left[*at]),
        format!("{other}: byte {}", right[*at]),
    ]
}

/// What was counted too seldom.
pub fn rare(what: &str, named: impl Iterator<Item = (&'static str, usize)>, floor: usize) -> Vec<String> {
    let few = named.filter(|(_, count)| *count < floor);
    few.map(|(name, count)| format!("{what}: {name} came only {count} times, {floor} are wanted")).collect()
}

/// Names, each with its count.
pub fn counts_words(named: impl Iterator<Item = (&'static str, usize)>) -> String {
    named.map(|(name, count)| format!("{name} {count}")).collect::<Vec<_>>().join(", ")
}
