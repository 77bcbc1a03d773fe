//! A reader of replies that shares nothing with the port.

/// A reply taken apart.
#[derive(Debug, Default, PartialEq, Eq)]
pub struct Reply {
    /// Names of element 70.
    pub capabilities: Option<Vec<u8>>,
    /// Values of element 71.
    pub values: Vec<(u16, Vec<u8>)>,
    /// Errors of element 71.
    pub read_errors: Vec<(u16, u8)>,
    /// Values up to 255 octets of element 72.
    pub updates: Vec<(u16, Vec<u8>)>,
    /// Errors of element 72.
    pub update_errors: Vec<(u16, u8)>,
    /// Longer values of element 72.
    pub long_updates: Vec<(u16, Vec<u8>)>,
}

impl Reply {
    /// Reads a COMPLETE; panics where its form is not right.
    pub fn parse(reply: &[u8]) -> Reply {
        let mut parsed = Reply::default();
        let mut reader = Reader(reply);
        assert_eq!(reader.number(1), 2);
        let mut last = 0;
        while !reader.0.is_empty() {
            let identifier = reader.number(1);
            assert!(identifier > last, "elements out of order");
            last = identifier;
            let length = reader.number(2);
            let mut contents = Reader(reader.take(length));
            match identifier {
                0x70 => parsed.capabilities = Some(contents.take(length).to_vec()),
                0x71 => {
                    parsed.values = contents.counted_values(2);
                    parsed.read_errors = contents.counted_errors();
                }
                0x72 => {
                    parsed.updates = contents.counted_values(1);
                    parsed.update_errors = contents.counted_errors();
                    parsed.long_updates = contents.long_values();
                }
                _ => panic!("element {identifier:02x}"),
            }
            assert!(
                contents.0.is_empty(),
                "octets left in element {identifier:02x}"
            );
        }
        parsed
    }

    /// Adds the records of a later reply.
    pub fn join(&mut self, later: Reply) {
        self.capabilities = self.capabilities.take().or(later.capabilities);
        self.values.extend(later.values);
        self.read_errors.extend(later.read_errors);
        self.updates.extend(later.updates);
        self.update_errors.extend(later.update_errors);
        self.long_updates.extend(later.long_updates);
    }
}

/// Reads octets from the front.
struct Reader<'a>(&'a [u8]);

impl<'a> Reader<'a> {
    fn take(&mut self, count: usize) -> &'a [u8] {
        let (taken, rest) = self.0.split_at(count);
        self.0 = rest;
        taken
    }

    fn number(&mut self, width: usize) -> usize {
        let octets = self.take(width).iter();
        octets.fold(0, |number, octet| number * 256 + usize::from(*octet))
    }

    fn value(&mut self, width: usize) -> (u16, Vec<u8>) {
        let name = self.number(2) as u16;
        let length = self.number(width);
        (name, self.take(length).to_vec())
    }

    fn counted_values(&mut self, width: usize) -> Vec<(u16, Vec<u8>)> {
        (0..self.number(1)).map(|_| self.value(width)).collect()
    }

    fn counted_errors(&mut self) -> Vec<(u16, u8)> {
        let count = self.number(1);
        (0..count)
            .map(|_| (self.number(2) as u16, self.number(1) as u8))
            .collect()
    }

    fn long_values(&mut self) -> Vec<(u16, Vec<u8>)> {
        let mut values = Vec::new();
        if !self.0.is_empty() {
            let length = self.number(2);
            assert_eq!(length, self.0.len(), "length of the long updates");
            while !self.0.is_empty() {
                values.push(self.value(2));
            }
            assert!(!values.is_empty());
            assert!(values.iter().all(|(_, value)| value.len() > 255));
        }
        values
    }
}
