//! Where a list of operations breaks, by the clauses alone: nothing is shared with the port.

/// Where the first operation of a command stands (RULES 10.1).
const FIRST: usize = 3;

/// Whether octets are one whole operation and nothing else (RULES 10.4 to 10.8, 10.15 to 10.18). In
/// profile 03 there are no codes above 5.
fn is_operation(profile: u8, octets: &[u8]) -> bool {
    match octets {
        [1] | [2 | 4 | 5, _, _] => true,
        [6..=9, ..] if profile == 3 => false,
        [3 | 6..=9, _, _, high, low, value @ ..] => {
            value.len() == usize::from(*high) * 256 + usize::from(*low)
        }
        _ => false,
    }
}

/// The ends of the whole operations of a list, 0 in front of them, found by trying every way to part
/// the list.
fn ends(profile: u8, list: &[u8]) -> Vec<usize> {
    let mut ends = vec![0];
    for end in 1..=list.len() {
        // The parts before the last end cannot be parted otherwise, but that is not relied on.
        let whole = |start: &usize| is_operation(profile, &list[*start..end]);
        if ends.iter().any(whole) {
            ends.push(end);
        }
    }
    ends
}

/// The whole operations at the front of a list.
pub fn operations_by_clauses(profile: u8, list: &[u8]) -> Vec<&[u8]> {
    let ends = ends(profile, list);
    let pairs = ends.windows(2).map(|pair| &list[pair[0]..pair[1]]);
    pairs.collect()
}

/// The position at which the command of a list breaks: that of what stands behind the whole
/// operations. None where these are all of it.
pub fn position_by_clauses(profile: u8, list: &[u8]) -> Option<usize> {
    let last = ends(profile, list).last().copied().unwrap_or(0);
    (last < list.len()).then_some(FIRST + last)
}
