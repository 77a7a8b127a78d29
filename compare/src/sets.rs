//! Whole sets: expansion of all kinds, lookup in both orders by every name, JPEG values.
use crate::kinds::NAMES;
use crate::make::{self, Rng};
use crate::ported::{self, DequantMatrixSet};
use crate::report::{self, hex, Report};
use crate::weights;
use dequant::{Order, Reply, ARENA, ROW, ROWS, SIZES};
use standins::half;

/// A description read by ours, with samples for its raw kinds, and room to expand it.
pub struct Set {
    rows: Vec<u16>,
    samples: Vec<i32>,
    straight: Vec<f32>,
    transposed: Vec<f32>,
}

impl Set {
    fn read(bytes: &[u8], bit: u64, mut samples_of: impl FnMut(usize, u16) -> Vec<i32>) -> Self {
        let mut rows = vec![0; ROWS];
        crate::headers::ours(bytes, bit, 0, &mut rows);
        let raw = |k: usize| rows[k * ROW] == 7;
        let mut samples = vec![0; if (0..17).any(raw) { ARENA } else { 0 }];
        for k in (0..17).filter(|&k| raw(k)) {
            let own = samples_of(k, rows[k * ROW + 3]);
            samples[dequant::start(k)..][..own.len()].copy_from_slice(&own);
        }
        Set { rows, samples, straight: vec![7.0; ARENA], transposed: vec![7.0; ARENA] }
    }

    fn row(&self, kind: usize) -> &[u16] {
        &self.rows[kind * ROW..][..ROW]
    }

    fn own_samples(&self, kind: usize) -> &[i32] {
        if self.row(kind)[0] == 7 { &self.samples[dequant::start(kind)..][..dequant::places(kind)] } else { &[] }
    }

    fn give(&self) {
        let raw = (0..17).filter(|&k| self.row(k)[0] == 7);
        standins::give(raw.map(|k| weights::channels(k, self.own_samples(k))));
    }
}

fn turned(width: usize, height: usize, straight: &[f32], transposed: &[f32]) -> bool {
    straight.len() == transposed.len()
        && (0..straight.len()).all(|p| straight[p].to_bits() == transposed[p % width * height + p / width].to_bits())
}

/// Every matrix of an accepted set, by every name and in every order.
fn matrices(report: &mut Report, set: &Set, theirs: &DequantMatrixSet, input: &dyn Fn() -> String) {
    for (kind, names) in NAMES.iter().enumerate() {
        let (width, height) = SIZES[kind];
        for channel in 0..3 {
            let look = |order| dequant::lookup(&set.straight, &set.transposed, kind, channel, order);
            let (mine, other) = (look(Order::Straight), look(Order::Transposed));
            report.check(look(Order::Unnamed).as_ptr() == other.as_ptr(), "no order named is transposed", input);
            report.check(turned(width, height, mine, other), "our transpose", input);
            let (straight, transposed) = (theirs.get(channel, names[0]), theirs.get_transposed(channel, names[0]));
            weights::channel(report, kind, set.row(kind), mine, straight, input);
            report.check(turned(width, height, straight, transposed), "the Rust's transpose", input);
            report.count("transposed weights compared", transposed.len() as u64);
            for &name in &names[1..] {
                let same = theirs.get(channel, name).as_ptr() == straight.as_ptr()
                    && theirs.get_transposed(channel, name).as_ptr() == transposed.as_ptr();
                report.check(same, "another name of a kind shows the same", input);
            }
        }
    }
}

/// The JPEG values of every channel; with no set there, only whether there are any here.
fn jpeg(report: &mut Report, set: &Set, theirs: Option<&DequantMatrixSet>, input: &dyn Fn() -> String) {
    for channel in 0..3 {
        let mine = dequant::jpeg_quant_values(&set.rows, &set.samples, channel);
        match (mine, theirs.map(|s| s.jpeg_quant_values(channel))) {
            (Ok(mine), Some(Some(theirs))) => {
                report.check(mine == theirs, "JPEG values", input);
                report.count("channels of JPEG values the same", 1);
            }
            (Err(Reply::None), Some(None)) => report.count("channels without JPEG values in both", 1),
            (Ok(_), None) => report.class(report::D, input()),
            (Err(Reply::None), None) => {}
            _ => report.failure("JPEG values".into(), input()),
        }
    }
}

/// One header in hand: read, expanded and looked up by both.
pub fn compare(report: &mut Report, bytes: &[u8], bit: u64, mut set: Set) {
    let input = || format!("{} bit {bit}", hex(bytes));
    let input: &dyn Fn() -> String = &input;
    set.give();
    let (theirs, _) = ported::parse_set(bytes, bit);
    let reply = dequant::expand(&set.rows, &set.samples, &mut set.straight, &mut set.transposed);
    jpeg(report, &set, theirs.as_ref().ok(), input);
    if let Some(kind) = (0..17).find(|&k| weights::odd(set.row(k))) {
        report.check(reply == Reply::Denom { kind }, "DENOM with the lowest kind of a denominator of zero or below", input);
        report.check(set.straight.iter().chain(&set.transposed).all(|&w| w == 7.0), "DENOM changes no arena", input);
        return report.class(if theirs.is_ok() { report::E } else { report::F }, input());
    }
    if let (Reply::Done(_), Ok(theirs)) = (reply, &theirs) {
        report.count("sets accepted by both", 1);
        return matrices(report, &set, theirs, input);
    }
    // kind by kind to the first that one of the two refuses
    report.count("sets that one or both refuse", 1);
    set.give();
    let (entries, _) = ported::read_from(bytes, bit, 0);
    for (kind, entry) in entries.into_iter().enumerate() {
        let own = |r: &mut Report, entry| weights::kind(r, kind, set.row(kind), set.own_samples(kind), entry, input);
        let (mine, other) = own(report, entry);
        if mine != Reply::Done(0) {
            report.check(reply == mine, "the set's reply is that of the first kind refused", input);
        }
        if mine != Reply::Done(0) || !other {
            return;
        }
    }
    report.failure("a set refused, and no kind of it".into(), input());
}

pub fn random(report: &mut Report, rng: &mut Rng) {
    let before = rng.below(8) as usize;
    let bits = make::header(rng, before, true);
    let set = Set::read(&bits.bytes, before as u64, |kind, denominator| {
        let d = half(denominator).unwrap();
        let most = if d == 0.0 { 1.0 } else { (9.9e7 / d.abs()).clamp(1.0, 2e9) };
        let sign = if d < 0.0 { -1 } else { 1 };
        (0..dequant::places(kind)).map(|_| sign * (1 + rng.below(most as u64) as i32)).collect()
    });
    compare(report, &bits.bytes, before as u64, set);
}

/// JPEG values in kind 0, and kind 1 refused: there is no set there. And kind 4 of denominator bc00 with samples -5, which cancel there.
pub fn known(report: &mut Report) {
    for (odd, denominator, sample) in [(1, 0, 1), (4, 0xbc00, -5)] {
        let mut denominators = [0x3c00; 17];
        (denominators[0], denominators[odd]) = (0x1004, denominator);
        let bits = make::all_raw(denominators);
        let set = Set::read(&bits.bytes, 0, |kind, _| vec![if kind == odd { sample } else { 1 }; dequant::places(kind)]);
        compare(report, &bits.bytes, 0, set);
    }
}

/// Sets all raw, with a denominator in kind 0: those whose values are JPEG's.
pub fn denominators(report: &mut Report, all: impl Iterator<Item = u16>) {
    for d in all.filter(|&d| half(d).is_some()) {
        let mut denominators = [0x3c00; 17];
        denominators[0] = d;
        let bits = make::all_raw(denominators);
        let sign = if d >> 15 == 1 { -1 } else { 1 };
        let set = Set::read(&bits.bytes, 0, |kind, _| {
            (0..dequant::places(kind)).map(|p| if kind == 0 { sign * (1 + p as i32) } else { 1 }).collect()
        });
        set.give();
        let (theirs, _) = ported::parse_set(&bits.bytes, 0);
        jpeg(report, &set, theirs.as_ref().ok(), &|| hex(&bits.bytes));
        report.count("denominators tried for JPEG values", 1);
    }
}
