//! Big-endian numbers written and read one after the other, and bytes in hex.

#[derive(Default)]
pub struct Writer {
    bytes: Vec<u8>,
}

impl Writer {
    pub fn bytes(&mut self, bytes: &[u8]) {
        self.bytes.extend_from_slice(bytes);
    }

    pub fn u8(&mut self, n: u8) {
        self.bytes.push(n);
    }

    pub fn u16(&mut self, n: u16) {
        self.bytes(&n.to_be_bytes());
    }

    pub fn i16(&mut self, n: i16) {
        self.bytes(&n.to_be_bytes());
    }

    pub fn u32(&mut self, n: u32) {
        self.bytes(&n.to_be_bytes());
    }

    pub fn i32(&mut self, n: i32) {
        self.bytes(&n.to_be_bytes());
    }

    pub fn floats(&mut self, floats: &[f32]) {
        floats.iter().for_each(|x| self.u32(x.to_bits()));
    }

    /// What is written, as a record of this version.
    pub fn record(self, version: u8) -> Vec<u8> {
        record(version, &self.bytes)
    }
}

/// Rows with the record's length and version before them.
pub fn record(version: u8, rows: &[u8]) -> Vec<u8> {
    let length = rows.len() as u32 + 1;
    [&length.to_be_bytes()[..], &[version], rows].concat()
}

/// Of a record that is whole; one that ends early is a fault.
pub struct Reader<'a> {
    pub rest: &'a [u8],
}

impl Reader<'_> {
    pub fn array<const N: usize>(&mut self) -> [u8; N] {
        let (taken, rest) = self.rest.split_first_chunk().expect("a whole record");
        self.rest = rest;
        *taken
    }
}

pub fn hex(bytes: &[u8]) -> String {
    bytes.iter().map(|b| format!("{b:02x}")).collect()
}
