//! What captured messages are put together from: elements, and the records in them.

/// The type of a reply.
pub const COMPLETE: u8 = 0x02;
/// The type of a notification.
pub const NOTIFY: u8 = 0x03;
/// The elements that are known: names, reads, sets.
pub const KNOWN: [u8; 3] = [0x70, 0x71, 0x72];

/// Octets of the length that stands behind an identifier.
pub fn width(identifier: u8) -> usize {
    match identifier {
        0x80.. => 0,
        0x70..0x80 => 2,
        ..0x70 => 1,
    }
}

/// The last octets of a length, as many as it has on the wire.
pub fn length(octets: usize, width: usize) -> Vec<u8> {
    (octets as u32).to_be_bytes()[4 - width..].to_vec()
}

/// An element; of one that is one octet in all there are no contents.
pub fn element(identifier: u8, contents: &[u8]) -> Vec<u8> {
    let width = width(identifier);
    let kept = if width == 0 { &[] } else { contents };
    [vec![identifier], length(kept.len(), width), kept.to_vec()].concat()
}

/// A COMPLETE of some elements.
pub fn complete(elements: &[Vec<u8>]) -> Vec<u8> {
    [&[COMPLETE], elements.concat().as_slice()].concat()
}

/// A NOTIFY with the given contents.
pub fn notify(contents: &[u8]) -> Vec<u8> {
    [vec![NOTIFY], length(contents.len(), 2), contents.to_vec()].concat()
}

/// A record of a value, whose length has so many octets.
pub fn value(name: u16, width: usize, value: &[u8]) -> Vec<u8> {
    let name = name.to_be_bytes().to_vec();
    [name, length(value.len(), width), value.to_vec()].concat()
}

/// A record of an error.
pub fn error(name: u16, cause: u8) -> Vec<u8> {
    [&name.to_be_bytes()[..], &[cause]].concat()
}

/// Records behind their number.
pub fn counted(records: &[Vec<u8>]) -> Vec<u8> {
    [&[records.len() as u8], records.concat().as_slice()].concat()
}

/// Records of long updates behind their length.
pub fn long(records: &[Vec<u8>]) -> Vec<u8> {
    let octets = records.concat();
    [length(octets.len(), 2), octets].concat()
}

/// The elements of a COMPLETE, by their sizes; none where one is cut short, or it is no COMPLETE.
pub fn elements(message: &[u8]) -> Option<Vec<Vec<u8>>> {
    let (&COMPLETE, mut rest) = message.split_first()? else {
        return None;
    };
    let mut elements = Vec::new();
    while let Some(identifier) = rest.first() {
        let told = rest.get(1..1 + width(*identifier))?;
        let octets = told
            .iter()
            .fold(0, |n, octet| n * 256 + usize::from(*octet));
        let (element, behind) = rest.split_at_checked(1 + told.len() + octets)?;
        elements.push(element.to_vec());
        rest = behind;
    }
    Some(elements)
}
