//! Our boundary, called as it is, and the binding.

use widrekas::{Header, Value};
use widrekas_sys::{self as boundary, Asked, Remark, Told, PLACES};

/// Room for any text.
const ROOM: usize = 58_320;

/// Decodes a tile whole; answers the refusal's number.
pub fn decode(tile: &[u8], nblock: usize, bits: usize, pixels: &mut [i32]) -> u8 {
    boundary::decode(tile, pixels.len(), nblock, bits, pixels, &mut 0)
}

/// Memory that is lent again and again, as a program would.
pub struct Lent {
    first: [usize; PLACES],
    last: [usize; PLACES],
    times: [usize; PLACES],
    count: usize,
    column: usize,
    text: Vec<u8>,
    comment: Vec<u8>,
    told: Told,
    said: Remark,
}

impl Lent {
    pub fn new() -> Self {
        let (text, comment) = (vec![0; ROOM], vec![0; ROOM]);
        let (told, said) = (Told::default(), Remark::default());
        let [first, last, times] = [[0; PLACES]; 3];
        Lent { first, last, times, count: 0, column: 0, text, comment, told, said }
    }

    /// Lists a header.
    pub fn list(&mut self, header: &[u8]) -> u8 {
        let Lent { first, last, times, count, column, .. } = self;
        boundary::list(header, first, last, times, count, column)
    }

    /// Lists a header and reads all its values.
    pub fn values(&mut self, header: &[u8]) -> u8 {
        let mut answer = self.list(header);
        for &last in self.last.iter().take(self.count) {
            answer |= boundary::entry_value(header, last, &mut self.text, &mut self.told);
        }
        answer
    }

    /// Lists a header and reads all its entries, both halves of each.
    pub fn entries(&mut self, header: &[u8]) -> u8 {
        let mut answer = self.values(header);
        for &last in self.last.iter().take(self.count) {
            answer |= boundary::entry_comment(header, last, &mut self.comment, &mut self.said);
        }
        answer
    }

    /// Looks a name's value up.
    pub fn lookup(&mut self, header: &[u8], name: &str) -> u8 {
        boundary::lookup_value(header, name.as_bytes(), &mut self.text, &mut self.told)
    }

    /// Looks both halves up.
    pub fn lookup_both(&mut self, header: &[u8], name: &str) -> u8 {
        self.lookup(header, name) | boundary::lookup_comment(header, name.as_bytes(), &mut self.comment, &mut self.said)
    }

    /// The minus and the digits of the decimal that was read last; its power is the integer.
    pub fn decimal(&self) -> (bool, &[u8]) {
        (self.told.out[2] != 0, &self.told.digits[..self.told.out[4]])
    }

    /// The comment that was read last.
    pub fn comment(&self) -> &[u8] {
        &self.comment[..self.said.length]
    }

    /// The integer and the text that were read last, and how many names the list has.
    pub fn told(&self) -> (i64, &[u8], usize) {
        (self.told.number, &self.text[..self.told.out[3]], self.count)
    }
}

/// Writes a value's cards, without a comment where it is empty; answers how many there are.
pub fn write(name: &[u8], value: Asked, comment: &[u8], block: &mut [u8]) -> usize {
    let mut count = 0;
    assert!(
        boundary::write(name, value, (!comment.is_empty()).then_some(comment), block, &mut count) == 0,
        "our writing of a value"
    );
    count
}

/// A header through the binding.
pub fn header(bytes: &[u8]) -> Header {
    Header::parse(bytes).expect("our reading of a header")
}

/// A value through the binding.
pub fn value(header: &Header, name: &str) -> Value {
    header.get(name).expect("our value")
}
