//! Blocks: the values of 0004 to 0007 joined, how they fit, and the two sums of a commit.

/// Octets of one list entry.
pub const LIST_ENTRY: usize = 7;
/// Octets before the list in a block: base time and list length.
const BEFORE_LIST: usize = 14;
/// Octets after the list in a block: the cycle time.
const AFTER_LIST: usize = 8;
/// Octets of a block beside its list.
pub const BESIDE_LIST: usize = BEFORE_LIST + AFTER_LIST;

/// The four values of a block, in the order of their names.
pub struct Block<'a>(pub [&'a [u8]; 4]);

impl<'a> Block<'a> {
    /// Cuts joined octets into the four values; `None` where they are too few.
    pub fn split(octets: &'a [u8]) -> Option<Block<'a>> {
        let list_end = octets.len().checked_sub(AFTER_LIST)?;
        let (front, cycle_time) = octets.split_at(list_end);
        let (base_time, rest) = front.split_at_checked(BEFORE_LIST - 4)?;
        let (list_length, list) = rest.split_at_checked(4)?;
        Some(Block([base_time, list_length, list, cycle_time]))
    }

    /// Whether the list has the told, not empty, number of entries and lasts no longer than the
    /// cycle. The values' own rules must hold already.
    pub fn fits(&self) -> bool {
        let [_, list_length, list, cycle_time] = self.0;
        let count = (list.len() / LIST_ENTRY) as u64;
        count > 0
            && last_four(list_length).map(u64::from) == Some(count)
            && cycle_nanoseconds(cycle_time).is_some_and(|cycle| list_nanoseconds(list) <= cycle)
    }

    /// The two sums over the joined values.
    pub fn sums(&self) -> [u8; 4] {
        let mut sums = Sums::default();
        for part in self.0 {
            sums.add(part);
        }
        sums.octets()
    }
}

/// The last four octets of `value` as a number.
pub fn last_four(value: &[u8]) -> Option<u32> {
    value.last_chunk().map(|four| u32::from_be_bytes(*four))
}

/// Whether `list` consists of whole and proper entries.
pub fn is_list(list: &[u8]) -> bool {
    let entries = list.chunks_exact(LIST_ENTRY);
    let whole = entries.remainder().is_empty();
    // No early end: lists are nearly always good, and this way the loop has no branches.
    entries.fold(whole, |good, entry| {
        good & (entry[0] <= 2) & (entry[1] == 5) & (interval(entry) != 0)
    })
}

/// The interval of a list entry in nanoseconds.
pub fn interval(entry: &[u8]) -> u32 {
    last_four(entry).unwrap_or(0)
}

/// At most 64 intervals of 32 bits: far from filling 64 bits.
fn list_nanoseconds(list: &[u8]) -> u64 {
    let entries = list.chunks_exact(LIST_ENTRY);
    entries.map(|entry| u64::from(interval(entry))).sum()
}

/// The cycle in nanoseconds, rounded down. Comparing with this quotient decides the same as
/// comparing products, which could pass 64 bits; the numerator's product cannot.
pub fn cycle_nanoseconds(cycle_time: &[u8]) -> Option<u64> {
    let numerator = u32::from_be_bytes(*cycle_time.first_chunk()?);
    let denominator = last_four(cycle_time)?;
    (u64::from(numerator) * 1_000_000_000).checked_div(u64::from(denominator))
}

/// The two running sums of a commit.
#[derive(Default)]
struct Sums {
    first: u16,
    second: u16,
}

impl Sums {
    /// Adds octets to both sums. Taken one by one, an octet would enter the second sum once for
    /// itself and once for each octet after it; weighing it by that count gives the same sum
    /// from additions that do not wait for one another.
    fn add(&mut self, octets: &[u8]) {
        let mut plain = 0_u16;
        let mut weighed = 0_u16;
        for (octet, before) in octets.iter().zip(0_u16..) {
            plain = plain.wrapping_add(u16::from(*octet));
            weighed = weighed.wrapping_add(u16::from(*octet).wrapping_mul(before));
        }
        self.first = self.first.wrapping_add(plain);
        // Every octet so far counts for each of the new ones, less those that came before it.
        let counted = self.first.wrapping_mul(octets.len() as u16);
        self.second = self.second.wrapping_add(counted).wrapping_sub(weighed);
    }

    fn octets(&self) -> [u8; 4] {
        let [a, b] = self.first.to_be_bytes();
        let [c, d] = self.second.to_be_bytes();
        [a, b, c, d]
    }
}
