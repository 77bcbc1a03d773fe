//! Messages for the tests: octets from text, operations, commands and schedules.

/// Octets from hexadecimal digits; blanks are for the reader.
pub fn hex(text: &str) -> Vec<u8> {
    let digits: Vec<u32> = text.chars().filter_map(|c| c.to_digit(16)).collect();
    assert_eq!(digits.len() % 2, 0, "odd number of digits in {text}");
    digits.chunks(2).map(|d| (d[0] * 16 + d[1]) as u8).collect()
}

/// The command that carries operations.
pub fn command(operations: &[u8]) -> Vec<u8> {
    let [high, low] = (operations.len() as u16).to_be_bytes();
    [&[1, high, low], operations].concat()
}

/// The operation read.
pub fn read(name: u16) -> Vec<u8> {
    named(2, name)
}

/// The operation set.
pub fn set(name: u16, value: &[u8]) -> Vec<u8> {
    valued(3, name, value)
}

/// The operation subscribe.
pub fn subscribe(name: u16) -> Vec<u8> {
    named(4, name)
}

/// The operation unsubscribe.
pub fn unsubscribe(name: u16) -> Vec<u8> {
    named(5, name)
}

/// The operation selective read.
pub fn selective_read(name: u16, value: &[u8]) -> Vec<u8> {
    valued(6, name, value)
}

/// The operation selective subscribe.
pub fn selective_subscribe(name: u16, value: &[u8]) -> Vec<u8> {
    valued(7, name, value)
}

/// The operation selective unsubscribe.
pub fn selective_unsubscribe(name: u16, value: &[u8]) -> Vec<u8> {
    valued(8, name, value)
}

/// The operation delete entry.
pub fn delete_entry(name: u16, value: &[u8]) -> Vec<u8> {
    valued(9, name, value)
}

/// Any code with the layout of a set.
pub fn valued(code: u8, name: u16, value: &[u8]) -> Vec<u8> {
    let mut operation = named(code, name);
    operation.extend((value.len() as u16).to_be_bytes());
    operation.extend(value);
    operation
}

fn named(code: u8, name: u16) -> Vec<u8> {
    let [high, low] = name.to_be_bytes();
    vec![code, high, low]
}

/// A list of equal entries with the given interval.
pub fn list(count: usize, interval: u32) -> Vec<u8> {
    entries(&[(0xFF, interval)]).repeat(count)
}

/// A list of entries with the given gate states and intervals.
pub fn entries(told: &[(u8, u32)]) -> Vec<u8> {
    let entry = |(states, interval): &(u8, u32)| {
        let [a, b, c, d] = interval.to_be_bytes();
        [0, 5, *states, a, b, c, d]
    };
    told.iter().flat_map(entry).collect()
}

/// The two sums over octets, one octet after another.
pub fn sums(block: &[u8]) -> Vec<u8> {
    let (mut first, mut second) = (0_u32, 0_u32);
    for octet in block {
        first = (first + u32::from(*octet)) % 65_536;
        second = (second + first) % 65_536;
    }
    vec![
        (first >> 8) as u8,
        first as u8,
        (second >> 8) as u8,
        second as u8,
    ]
}

/// The four values of a schedule of equal entries, with their sums: 0004 to 0007, then 8001.
pub fn schedule(count: usize, interval: u32, cycle: [u32; 2]) -> [(u16, Vec<u8>); 5] {
    schedule_of(list(count, interval), cycle)
}

/// The four values of a schedule of any list, with their sums.
pub fn schedule_of(list: Vec<u8>, cycle: [u32; 2]) -> [(u16, Vec<u8>); 5] {
    let base_time = vec![0; 10];
    let length = (list.len() as u32 / 7).to_be_bytes().to_vec();
    let cycle = [cycle[0].to_be_bytes(), cycle[1].to_be_bytes()].concat();
    let block = [&base_time[..], &length, &list, &cycle].concat();
    let sums = sums(&block);
    [
        (0x0004, base_time),
        (0x0005, length),
        (0x0006, list),
        (0x0007, cycle),
        (0x8001, sums),
    ]
}

/// Operations that set the given values.
pub fn sets(values: &[(u16, Vec<u8>)]) -> Vec<u8> {
    values
        .iter()
        .flat_map(|(name, value)| set(*name, value))
        .collect()
}
