//! Records of comma separated values: fields may be in double quotes, records end in a line feed, a carriage return or both, and empty
//! lines are none.

/// The fields of a record, one after the other, where each ends, and whether the input ended within quotes.
#[derive(Default)]
pub struct Record {
    bytes: Vec<u8>,
    ends: Vec<usize>,
    is_open: bool,
}

impl Record {
    fn clear(&mut self) {
        self.bytes.clear();
        self.ends.clear();
        self.is_open = false;
    }

    /// Whether the input ended within quotes.
    pub fn is_open(&self) -> bool {
        self.is_open
    }

    /// The fields, where they are four.
    pub fn four_fields(&self) -> Option<[&[u8]; 4]> {
        let [a, b, c, d] = *self.ends.as_slice() else {
            return None;
        };
        Some([
            &self.bytes[..a],
            &self.bytes[a..b],
            &self.bytes[b..c],
            &self.bytes[c..d],
        ])
    }
}

/// What is left of an input.
pub struct Records<'a> {
    rest: &'a [u8],
}

impl<'a> Records<'a> {
    /// The records of an input, whose byte order mark is taken off.
    pub fn of(input: &'a [u8]) -> Records<'a> {
        Records {
            rest: input.strip_prefix(b"\xef\xbb\xbf").unwrap_or(input),
        }
    }

    /// Reads the next record; false where there is none.
    pub fn read(&mut self, record: &mut Record) -> bool {
        record.clear();
        while let [b'\n' | b'\r', rest @ ..] = self.rest {
            self.rest = rest;
        }
        if self.rest.is_empty() {
            return false;
        }
        while self.read_field(record) {}
        true
    }

    /// Takes what is left up to the first byte that is an end, or all of it.
    fn take_to(&mut self, is_end: impl Fn(&u8) -> bool) -> &'a [u8] {
        let length = self.rest.iter().position(is_end).unwrap_or(self.rest.len());
        let (taken, rest) = self.rest.split_at(length);
        self.rest = rest;
        taken
    }

    /// Takes the next byte.
    fn next(&mut self) -> Option<u8> {
        let (first, rest) = self.rest.split_first()?;
        self.rest = rest;
        Some(*first)
    }

    /// Reads a field, and tells whether another follows in the record.
    fn read_field(&mut self, record: &mut Record) -> bool {
        if self.rest.first() == Some(&b'"') {
            self.next();
            self.read_quoted(record);
        }
        record
            .bytes
            .extend_from_slice(self.take_to(|byte| matches!(byte, b',' | b'\n' | b'\r')));
        record.ends.push(record.bytes.len());
        self.next() == Some(b',')
    }

    /// Reads up to the closing quote of a field, in which two quotes are one. A quote that is still open at the end is closed there.
    fn read_quoted(&mut self, record: &mut Record) {
        loop {
            record
                .bytes
                .extend_from_slice(self.take_to(|byte| *byte == b'"'));
            record.is_open = self.next().is_none();
            if self.rest.first() != Some(&b'"') {
                return;
            }
            self.next();
            record.bytes.push(b'"');
        }
    }
}
