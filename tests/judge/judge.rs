//! The Rust original as a judge: reads chunks, prints all it says about them.
//! The format of the output is in README.md beside this file.

// The sources are used as they are; what they don't use isn't ours to mend.
#![allow(dead_code, unused_imports, clippy::all)]

// `bitstream_utils` names the crate `log`; this crate stands in for it.
extern crate self as log;

#[macro_export]
macro_rules! error {
    ($($arg:tt)*) => { eprintln!($($arg)*) };
}

#[path = "bitstream_utils.rs"]
mod bitstream_utils;

mod codec {
    // Stubs: `bitstream_utils` names these two types, the judge never uses them.
    pub mod h264 {
        pub mod parser {
            pub use crate::stub::Nalu264 as Nalu;
        }
    }
    pub mod h265 {
        pub mod parser {
            pub use crate::stub::Nalu265 as Nalu;
        }
    }
    // Found by their default paths, codec/vp9/lookups.rs and codec/vp9/parser.rs.
    pub mod vp9 {
        pub mod lookups;
        pub mod parser;
    }
}

mod stub {
    use std::borrow::Cow;
    use std::io::Cursor;

    // Two types, not one: each has its own `impl Iterator`.
    pub struct Nalu264<'a> {
        pub data: Cow<'a, [u8]>,
    }
    pub struct Nalu265<'a> {
        pub data: Cow<'a, [u8]>,
    }

    impl<'a> Nalu264<'a> {
        pub fn next(_: &mut Cursor<&'a [u8]>) -> Result<Self, String> {
            Err(String::from("stub"))
        }
    }
    impl<'a> Nalu265<'a> {
        pub fn next(_: &mut Cursor<&'a [u8]>) -> Result<Self, String> {
            Err(String::from("stub"))
        }
    }
}

use bitstream_utils::{BitReader, IvfIterator};
use codec::vp9::parser::{
    BitDepth, ColorRange, ColorSpace, Frame, FrameType, Header, InterpolationFilter, LoopFilterParams, Parser, Profile,
    QuantizationParams, ReferenceFrameType, Segmentation, SegmentationParams, MAX_SEGMENTS,
};
use std::fmt;
use std::hint::black_box;
use std::io::{self, BufRead, BufWriter, Read, Write};
use std::panic::{catch_unwind, AssertUnwindSafe};

type Segments = [Segmentation; MAX_SEGMENTS];

/// One accepted frame: its place, its header and the segment records after it.
struct Seen {
    offset: usize,
    size: usize,
    header: Header,
    segments: Segments,
}

enum Verdict {
    Accepted(Vec<Seen>),
    Error(String),
    Panic,
}

/// All that is carried from chunk to chunk.
#[derive(Clone, Default)]
struct Memory {
    parser: Parser,
    segments: Segments,
}

/// Reads one chunk; may panic where the Rust does.
fn read_chunk(parser: &mut Parser, segments: &mut Segments, chunk: &[u8]) -> Result<Vec<Seen>, String> {
    let mut seen = Vec::new();
    for frame in parser.parse_chunk(chunk)? {
        // Offset and size are private; the lent part tells both.
        let part = frame.as_ref();
        let offset = part.as_ptr() as usize - chunk.as_ptr() as usize;
        let size = part.len();
        Segmentation::update_segmentation(segments, &frame.header);
        seen.push(Seen { offset, size, segments: segments.clone(), header: frame.header });
    }
    Ok(seen)
}

/// Reads one chunk; the memory is what the Rust leaves, also on an error or a panic.
fn left(memory: &mut Memory, chunk: &[u8]) -> Verdict {
    let Memory { parser, segments } = memory;
    match catch_unwind(AssertUnwindSafe(|| read_chunk(parser, segments, chunk))) {
        Ok(Ok(seen)) => Verdict::Accepted(seen),
        Ok(Err(message)) => Verdict::Error(message),
        Err(_) => Verdict::Panic,
    }
}

/// Reads one chunk with the memory put back on an error or a panic.
fn judge(memory: &mut Memory, chunk: &[u8]) -> Verdict {
    let before = memory.clone();
    let verdict = left(memory, chunk);
    if !matches!(verdict, Verdict::Accepted(_)) {
        *memory = before;
    }
    verdict
}

#[derive(Clone, Copy, PartialEq)]
enum Input {
    Hex,
    Ivf,
}

struct Options {
    input: Input,
    trace: bool,
    list: bool,
    digest: bool,
    packets: bool,
    numbers: bool,
    frames: bool,
    bits: bool,
    records: bool,
    state: bool,
    keep: bool,
    restore: bool,
    file: Option<String>,
}

const USAGE: &str = "usage: judge [--brief | --quiet-state] (--hex [--keep] | --ivf) [FILE]
       judge (--trace | --list | --packets | --numbers | --frames | --bits | --digest [--restore]) [FILE]
FILE is - or left out for standard input; --trace, --list and --packets take an IVF
file, --numbers a number a line, --frames OFFSET SIZE HEX, --bits HEX WIDTH.., --digest
the records of tests/reader/DIGEST.md";

fn read_options() -> Option<Options> {
    let mut options = Options {
        input: Input::Hex,
        trace: false,
        list: false,
        digest: false,
        packets: false,
        numbers: false,
        frames: false,
        bits: false,
        records: true,
        state: true,
        keep: false,
        restore: false,
        file: None,
    };
    for arg in std::env::args().skip(1) {
        match arg.as_str() {
            "--hex" => options.input = Input::Hex,
            "--ivf" => options.input = Input::Ivf,
            "--trace" => {
                options.trace = true;
                options.input = Input::Ivf;
            }
            "--list" => options.list = true,
            "--digest" => options.digest = true,
            "--packets" => options.packets = true,
            "--numbers" => options.numbers = true,
            "--frames" => options.frames = true,
            "--bits" => options.bits = true,
            "--keep" => options.keep = true,
            "--restore" => options.restore = true,
            "--brief" => {
                options.records = false;
                options.state = false;
            }
            "--quiet-state" => options.state = false,
            "-" => {}
            _ if arg.starts_with("--") || options.file.is_some() => return None,
            _ => options.file = Some(arg),
        }
    }
    Some(options)
}

fn print_records(out: &mut impl Write, seen: &Seen) -> io::Result<()> {
    writeln!(out, "  {:?}", seen.header)?;
    for (i, record) in seen.segments.iter().enumerate() {
        writeln!(out, "  seg {} {:?}", i, record)?;
    }
    Ok(())
}

/// Prints one chunk in the judge's own form.
fn print_chunk(
    out: &mut impl Write,
    options: &Options,
    number: u64,
    verdict: &Verdict,
    memory: &Memory,
) -> io::Result<()> {
    match verdict {
        Verdict::Accepted(frames) => {
            writeln!(out, "chunk {} accepted {}", number, frames.len())?;
            for (i, seen) in frames.iter().enumerate() {
                writeln!(out, "frame {} {} {}", i, seen.offset, seen.size)?;
                if options.records {
                    print_records(out, seen)?;
                }
            }
        }
        Verdict::Error(message) => writeln!(out, "chunk {} error {}", number, message)?,
        Verdict::Panic => writeln!(out, "chunk {} panic", number)?,
    }
    if options.state {
        writeln!(out, "state {:?}", memory.parser)?;
    }
    Ok(())
}

fn kind(header: &Header) -> &'static str {
    if header.show_existing_frame {
        "show"
    } else if header.frame_type == FrameType::KeyFrame {
        "key"
    } else if header.intra_only {
        "intra"
    } else {
        "inter"
    }
}

/// Prints the line of an accepted frame.
fn print_line(
    out: &mut impl Write,
    chunk: u64,
    number: usize,
    (offset, size): (usize, usize),
    header: &Header,
) -> io::Result<()> {
    writeln!(
        out,
        "{} {} {} {} {} {} {} {} {}",
        chunk,
        number,
        kind(header),
        offset,
        size,
        header.width,
        header.height,
        header.refresh_frame_flags,
        header.uncompressed_header_size_in_bytes
    )
}

/// Prints one accepted frame as the long form of the listing has it.
fn print_listed(out: &mut impl Write, chunk: u64, number: usize, seen: &Seen) -> io::Result<()> {
    print_line(out, chunk, number, (seen.offset, seen.size), &seen.header)?;
    print_records(out, seen)
}

/// How an IVF file goes on at a place.
enum Record<'a> {
    Data(&'a [u8]),
    End,
    Cut,
}

const FILE_HEADER: usize = 32;
const RECORD_HEADER: usize = 12;
/// The listing refuses records over this with 9.
const LARGEST_RECORD: usize = 65536;

fn is_ivf(file: &[u8]) -> bool {
    file.len() >= FILE_HEADER
        && &file[0..4] == b"DKIF"
        && file[6..8] == [32, 0]
        && &file[8..12] == b"VP90"
}

/// The record at `place`. Read here and not by `IvfIterator`, which panics on a cut record.
fn record_at(file: &[u8], place: usize) -> Record<'_> {
    let rest = &file[place..];
    if rest.is_empty() {
        return Record::End;
    }
    if rest.len() < RECORD_HEADER {
        return Record::Cut;
    }
    let length = u32::from_le_bytes([rest[0], rest[1], rest[2], rest[3]]) as usize;
    match rest[RECORD_HEADER..].get(..length) {
        Some(data) => Record::Data(data),
        None => Record::Cut,
    }
}

fn read_all(file: &Option<String>) -> io::Result<Vec<u8>> {
    let mut bytes = Vec::new();
    match file {
        Some(name) => std::fs::File::open(name)?.read_to_end(&mut bytes)?,
        None => io::stdin().lock().read_to_end(&mut bytes)?,
    };
    Ok(bytes)
}

/// Gives each record to `each`; tells whether the file's end is whole.
fn walk_ivf(file: &[u8], mut each: impl FnMut(u64, &[u8]) -> io::Result<()>) -> io::Result<bool> {
    let mut place = FILE_HEADER;
    let mut number = 0;
    loop {
        match record_at(file, place) {
            Record::End => return Ok(true),
            Record::Cut => return Ok(false),
            Record::Data(data) => {
                each(number, data)?;
                number += 1;
                place += RECORD_HEADER + data.len();
            }
        }
    }
}

fn run_ivf(options: &Options, out: &mut impl Write) -> io::Result<()> {
    let file = read_all(&options.file)?;
    if !is_ivf(&file) {
        return writeln!(out, "file refused 7");
    }
    let mut memory = Memory::default();
    let whole = walk_ivf(&file, |number, data| {
        let verdict = judge(&mut memory, data);
        print_chunk(out, options, number, &verdict, &memory)
    })?;
    if !whole {
        writeln!(out, "file refused 8")?;
    }
    Ok(())
}

/// The plain listing as a caller of the Rust would write it, for bench/run: nothing is cloned, no panic is caught.
fn run_list(options: &Options, out: &mut impl Write) -> io::Result<()> {
    let file = read_all(&options.file)?;
    writeln!(out, "chunk frame kind at size width height refresh hdr")?;
    let mut parser = Parser::default();
    let (mut chunks, mut refused) = (0u64, 0u64);
    walk_ivf(&file, |number, data| {
        chunks += 1;
        match parser.parse_chunk(data) {
            Ok(frames) => frames.iter().enumerate().try_for_each(|(i, frame)| {
                let part: &[u8] = frame.as_ref();
                let offset = part.as_ptr() as usize - data.as_ptr() as usize;
                print_line(out, number, i, (offset, part.len()), &frame.header)
            }),
            Err(_) => {
                refused += 1;
                writeln!(out, "{} refused ? frame ?", number)
            }
        }
    })?;
    writeln!(out, "{} chunks {} refused", chunks, refused)
}

fn run_trace(options: &Options, out: &mut impl Write) -> io::Result<()> {
    let file = read_all(&options.file)?;
    if !is_ivf(&file) {
        return writeln!(out, "file refused 7");
    }
    writeln!(out, "chunk frame kind at size width height refresh hdr")?;
    let mut memory = Memory::default();
    let mut chunks = 0u64;
    let mut refused = 0u64;
    let whole = walk_ivf(&file, |number, data| {
        chunks += 1;
        if data.len() > LARGEST_RECORD {
            refused += 1;
            return writeln!(out, "{} refused 9 frame 0", number);
        }
        match judge(&mut memory, data) {
            Verdict::Accepted(frames) => {
                for (i, seen) in frames.iter().enumerate() {
                    print_listed(out, number, i, seen)?;
                }
                Ok(())
            }
            // The Rust has no numbers, so neither is known here.
            _ => {
                refused += 1;
                writeln!(out, "{} refused ? frame ?", number)
            }
        }
    })?;
    if !whole {
        writeln!(out, "file refused 8")?;
    }
    writeln!(out, "{} chunks {} refused", chunks, refused)
}

/// A digest of numbers in a row, as tests/reader/DIGEST.md has it.
#[derive(Clone, Copy, Default)]
struct Digest(u64);

impl Digest {
    fn number(&mut self, x: impl Into<u64>) {
        self.0 = (self.0 * 1000003 + x.into()) % 2147483647;
    }

    fn signed(&mut self, n: impl Into<i64>) {
        self.number((n.into() + 65536) as u64);
    }

    fn numbers<T: Into<u64>>(&mut self, row: impl IntoIterator<Item = T>) {
        row.into_iter().for_each(|x| self.number(x));
    }

    fn signed_numbers<T: Into<i64>>(&mut self, row: impl IntoIterator<Item = T>) {
        row.into_iter().for_each(|n| self.signed(n));
    }

    fn loop_filter(&mut self, lf: &LoopFilterParams) {
        self.numbers([lf.level, lf.sharpness]);
        self.numbers([lf.delta_enabled, lf.delta_update]);
        self.numbers(lf.update_ref_delta);
        self.signed_numbers(lf.ref_deltas);
        self.numbers(lf.update_mode_delta);
        self.signed_numbers(lf.mode_deltas);
    }

    fn quantization(&mut self, quant: &QuantizationParams) {
        self.number(quant.base_q_idx);
        self.signed_numbers([quant.delta_q_y_dc, quant.delta_q_uv_dc, quant.delta_q_uv_ac]);
    }

    fn segmentation(&mut self, seg: &SegmentationParams) {
        self.numbers([seg.enabled, seg.update_map]);
        self.numbers(seg.tree_probs);
        self.numbers(seg.pred_probs);
        self.numbers([seg.temporal_update, seg.update_data, seg.abs_or_delta_update]);
        self.numbers(seg.feature_enabled.into_iter().flatten());
        self.signed_numbers(seg.feature_data.into_iter().flatten());
    }

    fn header(&mut self, h: &Header) {
        self.numbers([h.profile as u32, h.bit_depth as u32]);
        self.numbers([h.subsampling_x, h.subsampling_y]);
        self.numbers([h.color_space as u32, h.color_range as u32]);
        self.number(h.show_existing_frame);
        self.numbers([h.frame_to_show_map_idx, h.frame_type as u8]);
        self.numbers([h.show_frame, h.error_resilient_mode]);
        self.numbers([h.width, h.height]);
        self.number(h.render_and_frame_size_different);
        self.numbers([h.render_width, h.render_height]);
        self.number(h.intra_only);
        self.numbers([h.reset_frame_context, h.refresh_frame_flags]);
        self.numbers(h.ref_frame_idx);
        self.numbers(h.ref_frame_sign_bias);
        self.number(h.allow_high_precision_mv);
        self.number(h.interpolation_filter as u32);
        self.numbers([h.refresh_frame_context, h.frame_parallel_decoding_mode]);
        self.number(h.frame_context_idx);
        self.loop_filter(&h.lf);
        self.quantization(&h.quant);
        self.segmentation(&h.seg);
        self.numbers([h.tile_cols_log2, h.tile_rows_log2]);
        self.number(h.lossless);
        self.numbers([h.header_size_in_bytes, h.uncompressed_header_size_in_bytes]);
    }

    fn segments(&mut self, segments: &Segments) {
        for s in segments {
            self.numbers(s.lvl_lookup.into_iter().flatten());
            self.signed_numbers([s.luma_ac_quant_scale, s.luma_dc_quant_scale]);
            self.signed_numbers([s.chroma_ac_quant_scale, s.chroma_dc_quant_scale]);
            self.number(s.reference_frame_enabled);
            self.signed(s.reference_frame);
            self.number(s.reference_skip_enabled);
        }
    }

    fn of_segments(segments: &Segments) -> Digest {
        let mut digest = Digest::default();
        digest.segments(segments);
        digest
    }

    fn frame(&mut self, seen: &Seen) {
        self.numbers([seen.offset as u64, seen.size as u64]);
        self.header(&seen.header);
        self.segments(&seen.segments);
    }
}

/// Takes in the text of a parser, whose fields are private: a word that names no field or record is a value.
#[derive(Default)]
struct StateDigest {
    digest: Digest,
    word: String,
    signed: bool,
    skipped: bool,
}

impl StateDigest {
    fn of(parser: &Parser) -> Digest {
        let mut state = StateDigest::default();
        fmt::write(&mut state, format_args!("{parser:?}")).expect("nothing fails");
        state.digest
    }

    fn name(&mut self) {
        self.signed = matches!(self.word.as_str(), "ref_deltas" | "mode_deltas" | "feature_data");
        // The block counts, which docs/RULES.md's state doesn't hold.
        self.skipped = matches!(self.word.as_str(), "mi_cols" | "mi_rows" | "sb64_cols" | "sb64_rows");
        self.word.clear();
    }

    fn value(&mut self) {
        if !self.skipped && !self.word.is_empty() {
            match self.word.parse::<i64>() {
                Ok(n) if self.signed => self.digest.signed(n),
                Ok(n) => self.digest.number(n as u64),
                Err(_) => self.digest.number(variant_number(&self.word)),
            }
        }
        self.word.clear();
    }
}

impl fmt::Write for StateDigest {
    fn write_str(&mut self, text: &str) -> fmt::Result {
        for c in text.chars() {
            match c {
                ':' => self.name(),
                // A record's name.
                '{' => self.word.clear(),
                ' ' => {}
                ',' | '[' | ']' | '}' => self.value(),
                _ => self.word.push(c),
            }
        }
        Ok(())
    }
}

fn variant_number(word: &str) -> u64 {
    match word {
        "false" | "Unknown" | "StudioSwing" => 0,
        "true" | "Bt601" | "FullSwing" => 1,
        "Bt709" => 2,
        "Smpte170" => 3,
        "Smpte240" => 4,
        "Bt2020" => 5,
        "Reserved2" => 6,
        "CsSrgb" => 7,
        "Depth8" => 8,
        "Depth10" => 10,
        "Depth12" => 12,
        _ => panic!("no number for {word}"),
    }
}

/// One parse by a caller of the Rust. `black_box` keeps the compiler from leaving out what isn't looked at.
fn parse<'a>(parser: &mut Parser, chunk: &'a [u8], restore: bool) -> Result<Vec<Frame<'a>>, String> {
    if !restore {
        return parser.parse_chunk(black_box(chunk));
    }
    let before = parser.clone();
    let parsed = parser.parse_chunk(black_box(chunk));
    if parsed.is_err() {
        *parser = before;
    }
    parsed
}

/// What is carried from chunk to chunk, with its two digests.
#[derive(Clone)]
struct Digested {
    memory: Memory,
    segments: Digest,
    state: Digest,
}

impl Digested {
    fn of(memory: Memory) -> Self {
        let segments = Digest::of_segments(&memory.segments);
        let state = StateDigest::of(&memory.parser);
        Digested { memory, segments, state }
    }

    /// Reads a chunk and remembers what it changes. Answers the line's first three words and the first header.
    fn read(&mut self, chunk: &[u8]) -> (String, Header) {
        match judge(&mut self.memory, chunk) {
            Verdict::Accepted(frames) => {
                let mut digest = Digest::default();
                frames.iter().for_each(|seen| digest.frame(seen));
                *self = Digested::of(std::mem::take(&mut self.memory));
                let words = format!("0 {} {}", frames.len(), digest.0);
                (words, frames.into_iter().next().map(|seen| seen.header).unwrap_or_default())
            }
            // The Rust has no numbers, so neither is known here.
            _ => (String::from("? ? 0"), Header::default()),
        }
    }

    fn print(&self, out: &mut impl Write, words: &str) -> io::Result<()> {
        writeln!(out, "{} {} {}", words, self.segments.0, self.state.0)
    }

    fn answer(&mut self, out: &mut impl Write, chunk: &[u8]) -> io::Result<()> {
        let (words, _) = self.read(chunk);
        self.print(out, &words)
    }

    /// Parses the chunk n times, as a caller does, and answers the last time. For benchmarks.
    fn answer_parses(mut self, out: &mut impl Write, chunk: &[u8], n: u32, restore: bool) -> io::Result<()> {
        if n == 0 {
            return self.print(out, "0 0 0");
        }
        let parser = &mut self.memory.parser;
        let _ = catch_unwind(AssertUnwindSafe(|| {
            (1..n).for_each(|_| drop(black_box(parse(parser, chunk, restore))));
        }));
        self.answer(out, chunk)
    }

    /// Answers the chunk with the records that n steps on its first header leave. For benchmarks.
    fn answer_steps(mut self, out: &mut impl Write, chunk: &[u8], n: u32) -> io::Result<()> {
        let mut segments = self.memory.segments.clone();
        let (words, header) = self.read(chunk);
        for _ in 0..n {
            Segmentation::update_segmentation(black_box(&mut segments), black_box(&header));
        }
        self.segments = Digest::of_segments(&segments);
        self.print(out, &words)
    }
}

fn read_number(input: &mut impl Read) -> io::Result<u32> {
    let mut bytes = [0; 4];
    input.read_exact(&mut bytes)?;
    Ok(u32::from_le_bytes(bytes))
}

/// What ends the run as the input's end does.
fn ended() -> io::Error {
    io::ErrorKind::UnexpectedEof.into()
}

fn read_data(input: &mut impl Read, chunk: &mut Vec<u8>) -> io::Result<()> {
    let length = read_number(input)? as usize;
    if length > LARGEST_RECORD {
        return Err(ended());
    }
    chunk.resize(length, 0);
    input.read_exact(chunk)
}

/// Reads one record and answers it.
fn digest_record(
    input: &mut impl Read,
    out: &mut impl Write,
    fresh: &Digested,
    carried: &mut Digested,
    chunk: &mut Vec<u8>,
    restore: bool,
) -> io::Result<()> {
    let mut kind = [0];
    input.read_exact(&mut kind)?;
    match kind[0] {
        0 => *carried = fresh.clone(),
        1 => {
            read_data(input, chunk)?;
            carried.answer(out, chunk)?;
        }
        kind @ (4 | 5) => {
            let count = read_number(input)?;
            read_data(input, chunk)?;
            let copy = carried.clone();
            if kind == 4 {
                copy.answer_parses(out, chunk, count, restore)?;
            } else {
                copy.answer_steps(out, chunk, count)?;
            }
        }
        3 => {
            let message = "record 3: the Rust's state is private";
            return Err(io::Error::new(io::ErrorKind::Unsupported, message));
        }
        _ => return Err(ended()),
    }
    Ok(())
}

fn run_digest(options: &Options, out: &mut impl Write) -> io::Result<()> {
    let mut input = open(options)?;
    let fresh = Digested::of(Memory::default());
    let mut carried = fresh.clone();
    let mut chunk = Vec::new();
    loop {
        if let Err(error) = digest_record(&mut input, out, &fresh, &mut carried, &mut chunk, options.restore) {
            return if error.kind() == io::ErrorKind::UnexpectedEof { Ok(()) } else { Err(error) };
        }
    }
}

fn hex_digit(byte: u8) -> Option<u8> {
    match byte {
        b'0'..=b'9' => Some(byte - b'0'),
        b'a'..=b'f' => Some(byte - b'a' + 10),
        b'A'..=b'F' => Some(byte - b'A' + 10),
        _ => None,
    }
}

/// Reads a line of hex digit pairs, blanks between pairs allowed, into `chunk`.
fn hex_line(line: &[u8], chunk: &mut Vec<u8>) -> Option<()> {
    chunk.clear();
    let mut i = 0;
    while i < line.len() {
        if line[i] == b' ' || line[i] == b'\t' {
            i += 1;
            continue;
        }
        let high = hex_digit(line[i])?;
        let low = hex_digit(*line.get(i + 1)?)?;
        chunk.push(high << 4 | low);
        i += 2;
    }
    Some(())
}

fn trim_end(line: &[u8]) -> &[u8] {
    let end = line.iter().rposition(|b| !b.is_ascii_whitespace()).map_or(0, |i| i + 1);
    &line[..end]
}

fn open(options: &Options) -> io::Result<Box<dyn BufRead>> {
    Ok(match &options.file {
        Some(name) => Box::new(io::BufReader::with_capacity(1 << 16, std::fs::File::open(name)?)),
        None => Box::new(io::stdin().lock()),
    })
}

fn run_hex(options: &Options, out: &mut impl Write) -> io::Result<()> {
    let mut input = open(options)?;
    let mut memory = Memory::default();
    let mut number = 0u64;
    let mut line_number = 0u64;
    let mut line = Vec::new();
    let mut chunk = Vec::new();
    loop {
        line.clear();
        if input.read_until(b'\n', &mut line)? == 0 {
            return Ok(());
        }
        line_number += 1;
        let text = trim_end(&line);
        if text.first() == Some(&b'#') {
            continue;
        }
        if text == b"fresh" {
            memory = Memory::default();
            number = 0;
            writeln!(out, "fresh")?;
            continue;
        }
        if hex_line(text, &mut chunk).is_none() {
            let message = format!("line {} is not hex", line_number);
            return Err(io::Error::new(io::ErrorKind::InvalidData, message));
        }
        let verdict = if options.keep { left(&mut memory, &chunk) } else { judge(&mut memory, &chunk) };
        print_chunk(out, options, number, &verdict, &memory)?;
        number += 1;
    }
}

/// Prints where the data of each record starts and ends, as the crate's own iterator has it, and how that stops.
fn run_packets(options: &Options, out: &mut impl Write) -> io::Result<()> {
    let file = read_all(&options.file)?;
    let mut packets = IvfIterator::new(&file);
    loop {
        match catch_unwind(AssertUnwindSafe(|| packets.next())) {
            Ok(Some(packet)) => {
                let start = packet.as_ptr() as usize - file.as_ptr() as usize;
                writeln!(out, "{} {}", start, start + packet.len())?;
            }
            Ok(None) => return writeln!(out, "end"),
            Err(_) => return writeln!(out, "panic"),
        }
    }
}

/// The number of the variant that `try_from` gives, or - for an error.
fn tried<T, E>(answer: Result<T, E>, number: impl Fn(T) -> u32) -> String {
    answer.map_or(String::from("-"), |variant| number(variant).to_string())
}

/// Prints what each `try_from` answers to the number of each line.
fn run_numbers(options: &Options, out: &mut impl Write) -> io::Result<()> {
    for line in open(options)?.lines() {
        let line = line?;
        let n: u32 = line.parse().map_err(|_| io::Error::new(io::ErrorKind::InvalidData, line))?;
        let answers = [
            tried(InterpolationFilter::try_from(n), |v| v as u32),
            tried(ReferenceFrameType::try_from(n), |v| v as u32),
            tried(FrameType::try_from(n as u8), |v| v as u32),
            tried(Profile::try_from(n), |v| v as u32),
            tried(BitDepth::try_from(n), |v| v as u32),
            tried(ColorSpace::try_from(n), |v| v as u32),
            tried(ColorRange::try_from(n), |v| v as u32),
        ];
        writeln!(out, "{}", answers.join(" "))?;
    }
    Ok(())
}

/// The words of a line, the one at `place` being hex.
fn hex_word(line: &str, place: usize) -> io::Result<(Vec<&str>, Vec<u8>)> {
    let words: Vec<&str> = line.split(' ').collect();
    let mut bytes = Vec::new();
    words.get(place).and_then(|word| hex_line(word.as_bytes(), &mut bytes)).ok_or_else(|| not_read(line))?;
    Ok((words, bytes))
}

fn not_read(line: &str) -> io::Error {
    io::Error::new(io::ErrorKind::InvalidData, line)
}

fn number(word: &str) -> io::Result<usize> {
    word.parse().map_err(|_| not_read(word))
}

/// Prints what `parse_frame` of a fresh parser answers to OFFSET SIZE HEX, and how long the frame's part is.
fn run_frames(options: &Options, out: &mut impl Write) -> io::Result<()> {
    for line in open(options)?.lines() {
        let line = line?;
        let (words, bytes) = hex_word(&line, 2)?;
        let (offset, size) = (number(words[0])?, number(words[1])?);
        let parsed = catch_unwind(|| {
            let frame = Parser::default().parse_frame(&bytes, offset, size)?;
            let part = catch_unwind(AssertUnwindSafe(|| frame.as_ref().len()));
            Ok::<_, String>(part.map_or(String::from("panic"), |length| length.to_string()))
        });
        match parsed {
            Ok(Ok(part)) => writeln!(out, "accepted {part}")?,
            Ok(Err(message)) => writeln!(out, "error {message}")?,
            Err(_) => writeln!(out, "panic")?,
        }
    }
    Ok(())
}

/// Prints what one `BitReader` over HEX answers to each WIDTH in turn, - for an error.
fn run_bits(options: &Options, out: &mut impl Write) -> io::Result<()> {
    for line in open(options)?.lines() {
        let line = line?;
        let (words, bytes) = hex_word(&line, 0)?;
        let mut reader = BitReader::new(&bytes, false);
        let answers: io::Result<Vec<String>> =
            words[1..].iter().map(|word| Ok(tried(reader.read_bits::<u32>(number(word)?), |v| v))).collect();
        writeln!(out, "{}", answers?.join(" "))?;
    }
    Ok(())
}

fn run(options: &Options) -> io::Result<()> {
    let mut out = BufWriter::with_capacity(1 << 16, io::stdout().lock());
    if options.packets {
        return run_packets(options, &mut out).and_then(|()| out.flush());
    }
    if options.numbers {
        return run_numbers(options, &mut out).and_then(|()| out.flush());
    }
    if options.frames {
        return run_frames(options, &mut out).and_then(|()| out.flush());
    }
    if options.bits {
        return run_bits(options, &mut out).and_then(|()| out.flush());
    }
    if options.list {
        return run_list(options, &mut out).and_then(|()| out.flush());
    }
    if options.digest {
        return run_digest(options, &mut out).and_then(|()| out.flush());
    }
    match (options.trace, options.input) {
        (true, _) => run_trace(options, &mut out)?,
        (false, Input::Ivf) => run_ivf(options, &mut out)?,
        (false, Input::Hex) => run_hex(options, &mut out)?,
    }
    out.flush()
}

fn main() {
    let Some(options) = read_options() else {
        eprintln!("{USAGE}");
        std::process::exit(2);
    };
    // Panics are verdicts here, so they say nothing themselves.
    std::panic::set_hook(Box::new(|_| {}));
    if let Err(error) = run(&options) {
        eprintln!("judge: {error}");
        std::process::exit(2);
    }
}
