//! The published sources, compiled as they are, behind the few doors that the comparison needs.
#![allow(dead_code, unused_imports, unused_macros, unexpected_cfgs, clippy::all)]

#[macro_use]
extern crate quick_error;

include!(concat!(env!("OUT_DIR"), "/tree.rs"));

use async_trait::async_trait;
use hdu::header::{Header, ValueMap, Xtension};
use std::io::Read;

/// A kind of header that asks for no keyword.
#[derive(Debug, Clone, PartialEq)]
pub struct Any;

#[async_trait(?Send)]
impl Xtension for Any {
    fn get_num_bytes_data_block(&self) -> u64 {
        0
    }

    fn parse(_: &ValueMap) -> Result<Self, error::Error> {
        Ok(Any)
    }
}

/// The values of a header's cards.
pub fn header(cards: Vec<card::Card>) -> Result<Header<Any>, error::Error> {
    Header::parse(cards)
}

enum Inner<'a> {
    Eight(rice::RICEDecoder<&'a [u8], u8>),
    Sixteen(rice::RICEDecoder<&'a [u8], i16>),
    ThirtyTwo(rice::RICEDecoder<&'a [u8], i32>),
}

/// A tile decoder of one of the three widths.
pub struct Decoder<'a>(Inner<'a>);

impl<'a> Decoder<'a> {
    /// A decoder over a tile of a width of 8, 16 or 32 bits.
    pub fn new(tile: &'a [u8], width: usize, nblock: i32, nx: i32) -> Self {
        Decoder(match width {
            8 => Inner::Eight(rice::RICEDecoder::new(tile, nblock, nx)),
            16 => Inner::Sixteen(rice::RICEDecoder::new(tile, nblock, nx)),
            _ => Inner::ThirtyTwo(rice::RICEDecoder::new(tile, nblock, nx)),
        })
    }

    /// Reads pixels, in the machine's order of bytes.
    pub fn read(&mut self, out: &mut [u8]) -> std::io::Result<usize> {
        match &mut self.0 {
            Inner::Eight(d) => d.read(out),
            Inner::Sixteen(d) => d.read(out),
            Inner::ThirtyTwo(d) => d.read(out),
        }
    }

    /// How many bytes of the tile are left.
    pub fn left(&self) -> usize {
        match &self.0 {
            Inner::Eight(d) => d.reader.len(),
            Inner::Sixteen(d) => d.reader.len(),
            Inner::ThirtyTwo(d) => d.reader.len(),
        }
    }
}
