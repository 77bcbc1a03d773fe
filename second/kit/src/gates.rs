//! Which gates are open, by the clauses alone: nothing is shared with the port.

/// Where the cell and the room of 8001 begin (RULES 3.10).
const CELL: usize = 108;
const ROOM: usize = 1_630;

/// The running block of sound memory, taken apart. Numbers of 128 bits hold all that is made of them.
#[derive(Clone, Debug)]
pub struct Running {
    /// The gate states and the interval of each entry.
    pub entries: Vec<(u8, i128)>,
    /// The cycle in nanoseconds.
    pub cycle: i128,
    /// The remainder that was dropped of it (RULES 8.5).
    pub dropped: i128,
}

fn number(octets: &[u8]) -> i128 {
    let octets = octets.iter();
    octets.fold(0, |number, octet| number * 256 + i128::from(*octet))
}

impl Running {
    /// The block that runs in sound memory, if one does.
    pub fn of(memory: &[u8]) -> Option<Running> {
        let length = number(&memory[CELL + 4..CELL + 6]) as usize;
        if memory[CELL + 2] % 2 == 0 {
            return None;
        }
        let (before, cycle) = memory[ROOM..ROOM + length].split_at(length - 8);
        let entry = |entry: &[u8]| (entry[2], number(&entry[3..]));
        let product = number(&cycle[..4]) * 1_000_000_000;
        let denominator = number(&cycle[4..]);
        Some(Running {
            entries: before[14..].chunks(7).map(entry).collect(),
            cycle: product / denominator,
            dropped: product % denominator,
        })
    }

    /// All intervals together.
    pub fn total(&self) -> i128 {
        self.entries.iter().map(|entry| entry.1).sum()
    }

    /// Where each entry begins in a cycle, and behind them where the cycle ends.
    pub fn begins(&self) -> Vec<i128> {
        let mut begins = vec![0];
        for (_, interval) in &self.entries[..self.entries.len() - 1] {
            begins.push(begins.last().unwrap() + interval);
        }
        begins.push(self.cycle);
        begins
    }

    /// The states, the number and the nanoseconds at an instant; none before the base time. Of all
    /// entries there has to be one between whose beginning and the next one's the time lies.
    pub fn told(&self, instant: i64) -> Option<(u8, usize, u64)> {
        let instant = i128::from(instant);
        if instant < 0 {
            return None;
        }
        let time = instant - instant / self.cycle * self.cycle;
        let begins = self.begins();
        let holds = |entry: &usize| begins[*entry] <= time && time < begins[entry + 1];
        let found: Vec<usize> = (0..self.entries.len()).filter(holds).collect();
        let [entry] = found[..] else {
            panic!("{found:?} at {instant}");
        };
        let left = begins[entry + 1] - time;
        Some((self.entries[entry].0, entry, left.try_into().unwrap()))
    }
}
