//! Which gates are open, held against two plain readings of the rules on random schedules, and what has
//! to hold of any answers.

use kit::{entries, schedule_of, sets, Bench, Chance, Running};

/// Instants up to this one are within the range.
const LAST: i128 = i64::MAX as i128;

/// A schedule that runs in a port, and what it is by the clauses.
struct Schedule {
    running: Running,
    bench: Bench,
}

impl Schedule {
    /// None where the entries last longer than the cycle.
    fn new(told: &[(u8, u32)], cycle: [u32; 2]) -> Option<Schedule> {
        let mut bench = Bench::fresh();
        bench.done(&sets(&schedule_of(entries(told), cycle)));
        let total: i128 = told.iter().map(|entry| i128::from(entry.1)).sum();
        let [numerator, denominator] = cycle.map(i128::from);
        let fits = total * denominator <= numerator * 1_000_000_000;
        let running = Running::of(&bench.memory);
        assert_eq!(running.is_some(), fits, "{told:?} {cycle:?}");
        assert_eq!(bench.gates(0).0, if fits { 0 } else { 15 });
        running.map(|running| Schedule { running, bench })
    }

    /// What the port tells of an instant from 0 on: states, entry, nanoseconds.
    fn told(&self, instant: i128) -> (u8, usize, u64) {
        let (number, told) = self.bench.gates(instant.try_into().unwrap());
        assert_eq!(number, 0);
        told.unwrap()
    }

    fn count(&self) -> usize {
        self.running.entries.len()
    }

    /// For short cycles another reading: nanosecond by nanosecond, which entry it is.
    fn by_nanoseconds(&self) -> Vec<usize> {
        let mut nanoseconds = Vec::new();
        for (number, (_, interval)) in self.running.entries.iter().enumerate() {
            nanoseconds.extend((0..*interval).map(|_| number));
        }
        nanoseconds.resize(self.running.cycle as usize, self.count() - 1);
        nanoseconds
    }

    /// An instant from 0 on: around an edge in any cycle, or anywhere.
    fn instant(&self, chance: &mut Chance) -> i128 {
        let any = i128::from(u64::from_be_bytes(chance.octets(8).try_into().unwrap()) >> 1);
        let begins = self.running.begins();
        let edge = [begins[chance.below(begins.len())], self.running.total()][chance.below(2)];
        let rounds = LAST / self.running.cycle;
        let round = [0, 1, chance.below(1_000) as i128, rounds, any][chance.below(5)];
        let begin = round % (rounds + 1) * self.running.cycle;
        let instant = match chance.below(6) {
            0 => any,
            1 => any >> chance.below(63),
            2 => begin + any % self.running.cycle,
            _ => begin + edge + chance.below(3) as i128 - 1,
        };
        instant.clamp(0, LAST)
    }
}

fn interval(chance: &mut Chance) -> u32 {
    match chance.below(8) {
        0 => 1,
        1 => 1 + chance.below(4) as u32,
        2 => u32::MAX - chance.below(2) as u32,
        3 => (1 << 31) - 1 + chance.below(3) as u32,
        4 => 1 + chance.below(u32::MAX as usize) as u32,
        _ => 1 + chance.below(1_000) as u32,
    }
}

/// Few entries or many, with all intervals alike or each of any size, and often states like those before.
fn random_entries(chance: &mut Chance, short: bool) -> Vec<(u8, u32)> {
    let count = [1, 2, 3, 1 + chance.below(10), 63, 64][chance.below(6)];
    let alike = (chance.below(3) == 0).then(|| interval(chance));
    let mut told: Vec<(u8, u32)> = Vec::new();
    for _ in 0..count {
        let before = told.last().map_or(0, |entry| entry.0);
        let states = [before, chance.octet()][chance.below(2)];
        let any = alike.unwrap_or_else(|| interval(chance));
        told.push((states, if short { 1 + any % 9 } else { any }));
    }
    told
}

/// A schedule whose entries fill the cycle, nearly do, or do not by far; the cycle often has a
/// remainder that is dropped.
fn random_schedule(chance: &mut Chance, short: bool) -> Schedule {
    loop {
        let told = random_entries(chance, short);
        let total: u128 = told.iter().map(|entry| u128::from(entry.1)).sum();
        let any = 1 + chance.below(u32::MAX as usize - 1) as u32;
        let denominator = [1_000_000_000, 1, 1 + any % 2_000, any][chance.below(4)];
        let needed = (total * u128::from(denominator)).div_ceil(1_000_000_000);
        let further = [0, 0, 1, chance.below(30), any as usize][chance.below(5)];
        let further = if short { further % 30 } else { further };
        let numerator = (needed + further as u128).min(u32::MAX.into()) as u32;
        let found = Schedule::new(&told, [numerator, denominator]);
        if let Some(schedule) = found.filter(|s| !short || s.running.cycle < 10_000) {
            return schedule;
        }
    }
}

/// Calls something with random schedules, and with instants of each.
fn on_random(seed: u64, schedules: usize, mut tried: impl FnMut(&mut Chance, &Schedule, i128)) {
    let mut chance = Chance::new(seed);
    for _ in 0..schedules {
        let schedule = random_schedule(&mut chance, false);
        for _ in 0..20 {
            let instant = schedule.instant(&mut chance);
            tried(&mut chance, &schedule, instant);
        }
    }
}

#[test]
fn random_schedules_against_the_entries() {
    let (mut last, mut stretch, mut later) = (0, 0, 0);
    on_random(41, 4_000, |_, schedule, instant| {
        let told = schedule.told(instant);
        assert_eq!(
            Some(told),
            schedule.running.told(instant as i64),
            "{instant}"
        );
        last += usize::from(told.1 + 1 == schedule.count());
        stretch += usize::from(instant % schedule.running.cycle >= schedule.running.total());
        later += usize::from(instant >= schedule.running.cycle);
    });
    for count in [
        last,
        stretch,
        later,
        80_000 - last,
        80_000 - stretch,
        80_000 - later,
    ] {
        assert!(count > 8_000, "{last} {stretch} {later}");
    }
}

#[test]
fn short_cycles_against_each_nanosecond() {
    let mut chance = Chance::new(42);
    for _ in 0..600 {
        let schedule = random_schedule(&mut chance, true);
        let nanoseconds = schedule.by_nanoseconds();
        let round = schedule.running.cycle * chance.below(1_000_000) as i128;
        for (time, &entry) in nanoseconds.iter().enumerate() {
            let same = nanoseconds[time..].iter().take_while(|&&e| e == entry);
            let expected = (
                schedule.running.entries[entry].0,
                entry,
                same.count() as u64,
            );
            assert_eq!(schedule.told(time as i128), expected);
            assert_eq!(schedule.told(round + time as i128), expected);
        }
    }
}

#[test]
fn instants_below_0_on_random_schedules() {
    on_random(43, 500, |_, schedule, instant| {
        let below = (-1 - instant) as i64;
        assert_eq!(schedule.bench.gates(below), (0, None), "{below}");
    });
}

/// RULES 22.10.
#[test]
fn the_nanoseconds_are_1_to_the_cycle() {
    let (mut least, mut most) = (0, 0);
    on_random(44, 1_500, |_, schedule, instant| {
        let (_, entry, left) = schedule.told(instant);
        assert!(entry < schedule.count());
        assert!(1 <= left && i128::from(left) <= schedule.running.cycle);
        least += usize::from(left == 1);
        most += usize::from(i128::from(left) == schedule.running.cycle);
    });
    assert!(least > 100 && most > 100, "{least} {most}");
}

/// RULES 22.11.
#[test]
fn a_cycle_more_changes_nothing() {
    let mut within = 0;
    on_random(45, 1_500, |_, schedule, instant| {
        if instant + schedule.running.cycle <= LAST {
            within += 1;
            assert_eq!(
                schedule.told(instant),
                schedule.told(instant + schedule.running.cycle)
            );
        }
    });
    assert!(within > 10_000, "{within}");
}

/// RULES 22.12.
#[test]
fn until_the_change_only_the_nanoseconds_go_down() {
    on_random(46, 1_500, |chance, schedule, instant| {
        let (states, entry, left) = schedule.told(instant);
        let any = u64::from_be_bytes(chance.octets(8).try_into().unwrap());
        for passed in [0, 1, any, left - 1].map(|passed| passed % left) {
            let later = instant + i128::from(passed);
            if later <= LAST {
                assert_eq!(schedule.told(later), (states, entry, left - passed));
            }
        }
    });
}

/// RULES 22.13.
#[test]
fn at_the_change_the_next_entry_is_told() {
    let mut round = 0;
    on_random(47, 1_500, |_, schedule, instant| {
        let (_, entry, left) = schedule.told(instant);
        let change = instant + i128::from(left);
        if change <= LAST {
            let next = (entry + 1) % schedule.count();
            assert_eq!(schedule.told(change).1, next, "{instant}");
            round += usize::from(next == 0);
        }
    });
    assert!(round > 1_000, "{round}");
}

/// RULES 22.14.
#[test]
fn a_cycle_has_each_entry_once_in_order() {
    let mut chance = Chance::new(48);
    for _ in 0..3_000 {
        let schedule = random_schedule(&mut chance, false);
        let mut at = 0;
        for (number, (states, _)) in schedule.running.entries.iter().enumerate() {
            let (told, entry, left) = schedule.told(at);
            assert_eq!((told, entry), (*states, number));
            at += i128::from(left);
        }
        assert_eq!(at, schedule.running.cycle);
    }
}
