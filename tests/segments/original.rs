//! The Rust original's segment records: reads cases in the form of the program test_segments, and prints what that prints.

// The sources are used as they are; what they don't use isn't ours to mend.
#![allow(dead_code, unused_imports, clippy::all)]

// `bitstream_utils` names the crate `log`; this crate stands in for it.
extern crate self as log;

#[macro_export]
macro_rules! error {
    ($($arg:tt)*) => { eprintln!($($arg)*) };
}

#[path = "bitstream_utils.rs"]
mod bitstream_utils;

mod codec {
    // Stubs: `bitstream_utils` names these two types, nothing here uses them.
    pub mod h264 {
        pub mod parser {
            pub struct Nalu<'a> {
                pub data: std::borrow::Cow<'a, [u8]>,
            }
            impl<'a> Nalu<'a> {
                pub fn next(_: &mut std::io::Cursor<&'a [u8]>) -> Result<Self, String> {
                    Err(String::from("stub"))
                }
            }
        }
    }
    pub mod h265 {
        pub mod parser {
            pub struct Nalu<'a> {
                pub data: std::borrow::Cow<'a, [u8]>,
            }
            impl<'a> Nalu<'a> {
                pub fn next(_: &mut std::io::Cursor<&'a [u8]>) -> Result<Self, String> {
                    Err(String::from("stub"))
                }
            }
        }
    }
    pub mod vp9 {
        pub mod lookups;
        pub mod parser;
    }
}

use codec::vp9::parser::{BitDepth, Header, Segmentation, MAX_SEGMENTS};
use std::io::{Read, Write};

/// What is left of the input.
struct Input<'a>(&'a [u8]);

impl Input<'_> {
    fn byte(&mut self) -> u8 {
        let (first, rest) = self.0.split_first().expect("a case is cut short");
        self.0 = rest;
        *first
    }

    fn flag(&mut self) -> bool {
        self.byte() == 1
    }

    /// A sign, and a magnitude of `bytes` bytes, high byte first; sign 2 is `least`.
    fn signed(&mut self, bytes: usize, least: i32) -> i32 {
        let sign = self.byte();
        let magnitude = (0..bytes).fold(0, |n, _| n * 256 + i32::from(self.byte()));
        match sign {
            0 => magnitude,
            1 => -magnitude,
            _ => least,
        }
    }

    fn signed_byte(&mut self) -> i8 {
        self.signed(1, i8::MIN.into()) as i8
    }

    fn signed_short(&mut self) -> i16 {
        self.signed(2, i16::MIN.into()) as i16
    }

    fn segment(&mut self) -> Segmentation {
        let mut s = Segmentation::default();
        for row in &mut s.lvl_lookup {
            *row = [self.byte(), self.byte()];
        }
        s.luma_ac_quant_scale = self.signed_short();
        s.luma_dc_quant_scale = self.signed_short();
        s.chroma_ac_quant_scale = self.signed_short();
        s.chroma_dc_quant_scale = self.signed_short();
        s.reference_frame_enabled = self.flag();
        s.reference_frame = self.signed_short();
        s.reference_skip_enabled = self.flag();
        s
    }

    fn header(&mut self) -> Header {
        let mut h = Header::default();
        h.bit_depth = match self.byte() {
            0 => BitDepth::Depth8,
            1 => BitDepth::Depth10,
            _ => BitDepth::Depth12,
        };
        h.lf.level = self.byte();
        h.lf.delta_enabled = self.flag();
        for delta in h.lf.ref_deltas.iter_mut().chain(&mut h.lf.mode_deltas) {
            *delta = self.signed_byte();
        }
        h.quant.base_q_idx = self.byte();
        h.quant.delta_q_y_dc = self.signed_byte();
        h.quant.delta_q_uv_dc = self.signed_byte();
        h.quant.delta_q_uv_ac = self.signed_byte();
        h.seg.enabled = self.flag();
        h.seg.abs_or_delta_update = self.flag();
        for enabled in h.seg.feature_enabled.iter_mut().flatten() {
            *enabled = self.flag();
        }
        for data in h.seg.feature_data.iter_mut().flatten() {
            *data = self.signed_short();
        }
        h
    }
}

fn print(out: &mut impl Write, s: &Segmentation) -> std::io::Result<()> {
    for level in s.lvl_lookup.iter().flatten() {
        write!(out, " {level}")?;
    }
    writeln!(
        out,
        " {} {} {} {} {} {} {}",
        s.luma_ac_quant_scale,
        s.luma_dc_quant_scale,
        s.chroma_ac_quant_scale,
        s.chroma_dc_quant_scale,
        u8::from(s.reference_frame_enabled),
        s.reference_frame,
        u8::from(s.reference_skip_enabled)
    )
}

fn main() -> std::io::Result<()> {
    let mut given = Vec::new();
    std::io::stdin().read_to_end(&mut given)?;
    let mut input = Input(&given);
    let mut out = std::io::BufWriter::new(std::io::stdout().lock());
    let mut segments: [Segmentation; MAX_SEGMENTS] = Default::default();
    while !input.0.is_empty() {
        let kind = input.byte();
        if kind == 1 {
            segments = std::array::from_fn(|_| input.segment());
        }
        let header = input.header();
        if kind != 2 {
            Segmentation::update_segmentation(&mut segments, &header);
        }
        for s in &segments {
            print(&mut out, s)?;
        }
    }
    out.flush()
}
