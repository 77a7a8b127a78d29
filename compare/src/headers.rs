//! Reading beside reading: replies, bits, and what the rows mean.
use crate::make::{self, Bits, Rng};
use crate::ported::{self, Entry, Meaning};
use crate::report::{hex, Report};
use dequant::{Reply, ROW, ROWS};
use standins::{half, Error};

const MARK: u16 = 0xabcd;

/// What reading came to, raw kinds passed over.
#[derive(Debug, PartialEq, Clone, Copy)]
pub enum Read {
    Done(u64),
    Short(usize, u64, u64),
    Mode(usize, u64),
    Float(usize, u64),
    Other(Reply),
}

/// Ours: after RAW the next kind is read from the bit that RAW names.
pub fn ours(bytes: &[u8], bit: u64, kind: usize, rows: &mut [u16]) -> Read {
    let (mut bit, mut kind) = (bit, kind);
    loop {
        return match dequant::read_header(bytes, bit, kind, rows) {
            Reply::Done(next) => Read::Done(next),
            Reply::Raw { kind: 16, next } => Read::Done(next),
            Reply::Raw { kind: at, next } => {
                (bit, kind) = (next, at + 1);
                continue;
            }
            Reply::Short { kind, bit, lacks } => Read::Short(kind, bit, lacks),
            Reply::Mode { kind, bit } => Read::Mode(kind, bit),
            Reply::Float { kind, bit } => Read::Float(kind, bit),
            other => Read::Other(other),
        };
    }
}

fn theirs(kind: usize, entries: &[Entry], end: Result<u64, Error>) -> Read {
    let at = kind + entries.len();
    match end {
        Ok(next) => Read::Done(next),
        Err(Error::Short(bit, lacks)) => Read::Short(at, bit, lacks),
        Err(Error::Float(bit)) => Read::Float(at, bit),
        Err(Error::ValidationFailed(_)) => Read::Mode(at, standins::last_field()),
    }
}

/// What a row means, by document 01: the numbers as read, those that are scaled times 64.
pub fn row_meaning(kind: usize, row: &[u16]) -> Meaning {
    let mode = row[0];
    if mode == 0 {
        return Entry::default(kind).meaning();
    }
    let fixed = [0, 9, 18, 6, 3, 27, 0, 1][mode as usize];
    let counts = [row[1] as usize, row[2] as usize];
    let all = fixed + 3 * counts[0] + 3 * counts[1];
    let scaled = |i: usize| match i.checked_sub(fixed) {
        None => mode == 5 && i % 9 < 6,
        Some(j) if j < 3 * counts[0] => j % counts[0] == 0,
        Some(j) => (j - 3 * counts[0]) % counts[1] == 0,
    };
    let value = |i: usize| half(row[3 + i]).unwrap() * if scaled(i) { 64.0 } else { 1.0 };
    Meaning { mode, counts, numbers: (0..all).map(|i| value(i).to_bits()).collect() }
}

fn shape(row: &[u16]) -> bool {
    let fixed = [0, 9, 18, 6, 3, 27, 0, 1][row[0] as usize];
    row[3 + fixed + 3 * (row[1] + row[2]) as usize..].iter().all(|&v| v == 0)
}

/// One header from a kind on. Where the Rust's reading is refused, its own public call is held against it too.
pub fn compare(report: &mut Report, bytes: &[u8], bit: u64, kind: usize) {
    let input = || format!("{} bit {bit} kind {kind}", hex(bytes));
    standins::give([]);
    let mut rows = [MARK; ROWS];
    let mine = ours(bytes, bit, kind, &mut rows);
    let (entries, end) = ported::read_from(bytes, bit, kind);
    let other = theirs(kind, &entries, end);
    report.check(mine == other, "replies of reading", || format!("{} ours {mine:?} theirs {other:?}", input()));
    if mine != other {
        return;
    }
    match mine {
        Read::Done(_) => report.count("headers read to the end by both", 1),
        Read::Short(..) => report.count("headers SHORT in both", 1),
        Read::Mode(..) => report.count("headers MODE in both", 1),
        Read::Float(..) => report.count("headers FLOAT in both", 1),
        Read::Other(_) => report.failure("a reply that reading does not give".into(), input()),
    }
    let all_default = kind == 0 && rows[126] == 1;
    for (i, entry) in entries.iter().enumerate() {
        let row = &mut rows[(kind + i) * ROW..][..ROW];
        if all_default && i == 0 {
            row[126] = 0;
        }
        let same = shape(row) && row_meaning(kind + i, row) == entry.meaning();
        report.check(same, "what a row means", || format!("{} row {}", input(), kind + i));
    }
    report.count("rows whose meaning is the same", entries.len() as u64);
    let untouched = rows[..kind * ROW].iter().chain(&rows[(kind + entries.len()) * ROW..]);
    report.check(untouched.clone().all(|&v| v == MARK), "rows not read are unchanged", input);
    if kind == 0 && end.is_err() {
        let (set, _) = ported::parse_set(bytes, bit);
        report.check(set.err() == end.err(), "the Rust's set call refuses as its parts do", input);
    }
}

/// All headers of up to two bytes, from every kind; with `bits`, from every bit too.
pub fn short_ones(report: &mut Report, bits: bool) {
    for len in 0..=2usize {
        for value in 0..1u32 << (8 * len) {
            let bytes = value.to_le_bytes();
            for kind in 0..17 {
                let last = if bits || len < 2 { 8 * len as u64 + 1 } else { 0 };
                for bit in 0..=last {
                    compare(report, &bytes[..len], bit, kind);
                }
            }
        }
    }
}

/// The longest header, cut to every length; and start bits far past the end.
pub fn limits(report: &mut Report, rng: &mut Rng) {
    let bits = make::longest(rng);
    report.check(bits.len == 20_400, "the longest header has 20,400 bits", || bits.len.to_string());
    for len in 0..=bits.bytes.len() {
        compare(report, &bits.bytes[..len], 0, 0);
    }
    for bit in [u64::MAX, u64::MAX - 2, u64::MAX - 15, 1 << 61, 1 << 63] {
        for kind in 0..17 {
            compare(report, &bits.bytes, bit, kind);
        }
    }
    for (bytes, expected) in [
        (&[0x01u8][..], Read::Done(1)),
        (&[0; 7], Read::Done(52)),
        (&[0; 6], Read::Short(15, 46, 1)),
        (&[0x00, 0x20], Read::Mode(4, 13)),
    ] {
        let got = ours(bytes, 0, 0, &mut [0; ROWS]);
        report.check(got == expected, "numbers to hold of reading", || format!("{} {got:?}", hex(bytes)));
    }
}

fn damage(rng: &mut Rng, bits: &mut Bits, first: usize) {
    match rng.below(4) {
        0 => {}
        1 => bits.bytes.truncate(rng.below(bits.bytes.len() as u64 + 1) as usize),
        2 => {
            for _ in 0..1 + rng.below(4) {
                let at = first + rng.below((bits.len - first) as u64) as usize;
                bits.bytes[at / 8] ^= 1 << (at % 8);
            }
        }
        _ => {
            let more = rng.below(5) as usize;
            bits.bytes.extend((0..more).map(|_| rng.next() as u8));
        }
    }
}

/// A random header: made to be read, damaged, cut, or any bytes at all; from the flag or from a kind's mode.
pub fn random(report: &mut Report, rng: &mut Rng) {
    if rng.below(4) == 0 {
        let len = [4, 40, 400, 2600][rng.below(4) as usize];
        let bytes: Vec<u8> = (0..rng.below(len)).map(|_| rng.next() as u8 & rng.next() as u8).collect();
        let bit = rng.below(8 * len / 4);
        let kind = rng.below(17) as usize;
        return compare(report, &bytes, bit, kind);
    }
    let before = rng.below(40) as usize;
    let mut bits = make::header(rng, before, false);
    damage(rng, &mut bits, before);
    compare(report, &bits.bytes, before as u64, 0);
}
