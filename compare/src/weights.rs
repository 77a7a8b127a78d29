//! Expansion beside expansion, one kind at a time.
use crate::make::{self, Bits, Rng, STYLES};
use crate::ported;
use crate::report::{self, hex, Report};
use dequant::{Reply, ROW, ROWS, SIZES};
use standins::{half, Error, Samples};
use std::rc::Rc;

const NEAR: f64 = 2e-6;

/// The mode and band counts that a row stands for, the defaults' own for mode 0.
fn rule(kind: usize, row: &[u16]) -> (u16, u16, u16) {
    match (row[0], kind) {
        (0, 1 | 2) => (kind as u16, 0, 0),
        (0, 3) => (3, 4, 0),
        (0, 9) => (4, 4, 0),
        (0, 10) => (5, 4, 4),
        (0, _) => (6, 8, 0),
        (mode, _) => (mode, row[1], row[2]),
    }
}

/// Whether the weight at a place is interpolated.
fn interpolated(rule: (u16, u16, u16), place: usize) -> bool {
    let (mode, n, m) = rule;
    match mode {
        3 | 4 | 6 => n > 1,
        5 => match (place / 8 % 2, place % 2) {
            (1, _) => n > 1 && place != 8,
            (0, 1) => m > 1 && place != 1,
            _ => ![0, 2, 16, 18].contains(&place),
        },
        _ => false,
    }
}

fn near(x: f64, limit: f64) -> bool {
    (x - limit).abs() <= NEAR * limit
}

/// Whether a weight, or the number that it is the reciprocal of, is near a limit of domain (b).
fn at_a_limit(w: f32) -> bool {
    near(w as f64, 1e8) || near(1.0 / w as f64, f32::MAX as f64) || w == 0.0
}

/// The channel, band and value of the first band that document 01 refuses: first lists before second.
fn first_fault(row: &[u16]) -> Option<(usize, usize, f32)> {
    let fixed = [0, 0, 0, 6, 3, 27, 0, 0][row[0] as usize];
    let counts = [row[1] as usize, row[2] as usize];
    for channel in 0..3 {
        for (list, &n) in counts.iter().enumerate() {
            let first = 3 + fixed + list * 3 * counts[0] + channel * n;
            let mut band = 0.0;
            for i in 0..n {
                let x = half(row[first + i]).unwrap();
                let mult = if x > 0.0 { 1.0 + x } else { 1.0 / (1.0 - x) };
                band = if i == 0 { x * 64.0 } else { band * mult };
                if i > 0 && (band <= 0.0 || band.is_infinite()) {
                    return Some((channel, i, band));
                }
            }
        }
    }
    None
}

/// Compares accepted weights of one channel: bit for bit, or near where they are interpolated.
pub fn channel(report: &mut Report, kind: usize, row: &[u16], mine: &[f32], other: &[f32], input: &dyn Fn() -> String) {
    let rule = rule(kind, row);
    let (mut exact, mut close) = (0, 0);
    for (place, (&m, &o)) in mine.iter().zip(other).enumerate() {
        if m.to_bits() == o.to_bits() {
            exact += 1;
            continue;
        }
        let distance = (m as f64 - o as f64).abs() / m as f64;
        if !interpolated(rule, place) || distance.is_nan() || distance > NEAR {
            report.failure("a weight".into(), format!("{} place {place} ours {m:e} theirs {o:e}", input()));
            continue;
        }
        close += 1;
        report.ulps = report.ulps.max(m.to_bits().abs_diff(o.to_bits()));
        if distance > report.worst {
            report.worst = distance;
            report.worst_at = format!("{} place {place} ours {m:e} theirs {o:e}", input());
        }
    }
    report.count("weights compared", mine.len() as u64);
    report.count("weights the same bit for bit", exact);
    report.count("interpolated weights near", close);
}

fn transposed(kind: usize, straight: &[f32], turned: &[f32]) -> bool {
    let (width, height) = SIZES[kind];
    (0..3 * width * height).all(|p| {
        let (c, q) = (p / (width * height), p % (width * height));
        let (r, x) = (q / width, q % width);
        straight[p].to_bits() == turned[c * width * height + x * height + r].to_bits()
    })
}

/// Whether a row is raw with a denominator of zero or below: outside the domain of comparison.
pub fn odd(row: &[u16]) -> bool {
    row[0] == 7 && half(row[3]).unwrap() <= 0.0
}

/// One accepted or refused kind; `input` says where it is from. Gives our reply, and whether the Rust accepts.
pub fn kind(
    report: &mut Report, kind: usize, row: &[u16], samples: &[i32], entry: ported::Entry, input: &dyn Fn() -> String,
) -> (Reply, bool) {
    let (width, height) = SIZES[kind];
    let area = width * height;
    let mut straight = vec![7.0; 3 * area];
    let mut turned = vec![7.0; 3 * area];
    let reply = dequant::expand_kind(kind, row, samples, &mut straight, &mut turned);
    let theirs = entry.into_matrix();
    let said = || format!("{} reply {reply:?} theirs {:?} noted {:?}", input(), theirs.as_ref().map(|_| ()), standins::noted());
    if odd(row) {
        report.check(reply == Reply::Denom { kind }, "DENOM for a denominator of zero or below", said);
        report.check(straight.iter().chain(&turned).all(|&w| w == 7.0), "DENOM changes nothing", said);
        report.class(if theirs.is_ok() { report::E } else { report::F }, said());
        return (reply, theirs.is_ok());
    }
    if !matches!(reply, Reply::Done(_)) {
        let zero = straight.iter().chain(&turned).all(|w| w.to_bits() == 0);
        report.check(zero, "a refusal leaves zeros", said);
    }
    match (reply, &theirs) {
        (Reply::Done(_), Ok(theirs)) => {
            report.count("kinds accepted by both", 1);
            for c in 0..3 {
                channel(report, kind, row, &straight[c * area..][..area], &theirs[c], input);
            }
            report.check(transposed(kind, &straight, &turned), "the transpose", said);
        }
        (Reply::Done(_), Err(_)) if straight.iter().any(|&w| at_a_limit(w)) => report.class(report::B, said()),
        (Reply::Weight { channel, place, .. }, Ok(theirs)) if at_a_limit(theirs[channel][place]) => {
            report.class(report::B, said())
        }
        (Reply::Weight { channel, place, .. }, Err(Error::ValidationFailed(text))) if text.starts_with("Dequant") => {
            report.count("kinds WEIGHT in both", 1);
            if row[0] == 7 {
                let w = samples[channel * area + place] as f32 * half(row[3]).unwrap();
                let same = Some(w.to_bits()) == standins::noted().map(f32::to_bits);
                report.check(same, "the raw weight that is refused first", said);
            }
        }
        (Reply::Band { channel, band, .. }, _) => match (first_fault(row), &theirs) {
            (Some((c, i, value)), _) if (c, i) != (channel, band) => {
                report.failure("the band that is refused first".into(), format!("{} expected {c} {i} {value:e}", said()))
            }
            (Some((_, _, value)), Err(Error::ValidationFailed(text))) if value <= 0.0 && text.starts_with("DCT") => {
                report.count("kinds BAND in both", 1)
            }
            (Some((_, _, value)), Ok(theirs)) if value.is_infinite() && theirs.iter().flatten().any(|w| w.is_nan()) => {
                report.class(report::A, said())
            }
            (Some((_, _, value)), Err(_)) if value.is_infinite() => report.class(report::C, said()),
            _ => report.failure("a band".into(), said()),
        },
        _ => report.failure("replies of expansion".into(), said()),
    }
    (reply, theirs.is_ok())
}

/// Samples of a raw kind, of every sort.
pub fn samples(rng: &mut Rng, kind: usize, denominator: u16) -> Vec<i32> {
    let d = half(denominator).unwrap() as f64;
    let sort = rng.below(6);
    (0..dequant::places(kind))
        .map(|_| match sort {
            0 => 1 + rng.below(255) as i32,
            1 => 1 + rng.below(65_535) as i32,
            2 => ((1e8 / d.abs().max(1e-9)).min(2e9) * rng.between(0.5, 1.0)) as i32,
            3 if rng.below(64) > 0 => 1 + rng.below(1 << 24) as i32,
            4 if rng.below(256) > 0 => ((1e8 / d.abs().max(1e-9)).min(2e9) * rng.between(0.999_999, 1.000_000_1)) as i32,
            _ => rng.next() as i32 >> rng.below(32),
        })
        .map(|s| if d < 0.0 { s.wrapping_neg() } else { s })
        .collect()
}

pub fn channels(kind: usize, samples: &[i32]) -> Samples {
    let area = SIZES[kind].0 * SIZES[kind].1;
    std::array::from_fn(|c| Rc::new(samples[c * area..][..area].to_vec()))
}

/// Inputs of the classes that chance seldom meets.
pub fn known(report: &mut Report, rng: &mut Rng) {
    // our weight is 100,000,000 at place 63, the Rust's 99,999,992
    let b = [0x2c, 0x22, 0x07, 0x47, 0xd5, 0xf6, 0xef, 0, 0x3c, 0, 0x3c, 0, 0x3c, 0, 0x3c, 0, 0x3c, 0, 0x3c, 0, 0, 0, 0, 0, 0];
    entry(report, rng, 0, &b);
}

/// A random entry of a kind, read by both and expanded by both.
pub fn random(report: &mut Report, rng: &mut Rng, at: usize) {
    let mut bits = Bits::default();
    if at == 0 {
        bits.put(0, 1);
    }
    let mode = make::mode_for(rng, at);
    let style = rng.pick(&STYLES);
    let n = [1 + rng.below(16) as usize, 1 + rng.below(16) as usize];
    make::entry(rng, &mut bits, mode, style, n);
    (at..16).for_each(|_| bits.put(0, 3));
    entry(report, rng, at, &bits.bytes);
}

/// The entry of a kind that starts a header in hand; the kinds after it are default.
pub fn entry(report: &mut Report, rng: &mut Rng, at: usize, bytes: &[u8]) {
    let mut rows = [0; ROWS];
    crate::headers::ours(bytes, 0, at, &mut rows);
    let row = &rows[at * ROW..][..ROW];
    let samples = if row[0] == 7 { samples(rng, at, row[3]) } else { vec![] };
    standins::give(if row[0] == 7 { Some(channels(at, &samples)) } else { None });
    let (mut entries, end) = ported::read_from(bytes, 0, at);
    let input = || format!("{} kind {at}{}", hex(bytes), if samples.is_empty() { String::new() } else { format!(" samples {:?}..", &samples[..3]) });
    report.check(end.is_ok(), "an entry that is made is read", input);
    if end.is_ok() {
        kind(report, at, row, &samples, entries.swap_remove(0), &input);
    }
}
