//! What is timed. Buffers are made once, outside the time, and not cleared between calls; the Rust makes its own
//! vectors, as its callers have it do.
use crate::kinds::NAMES;
use crate::make::{self, Bits, Rng};
use crate::ported::{self, Entry};
use dequant::{Order, Reply, ARENA, ROW, ROWS};
use std::hint::black_box;
use std::rc::Rc;
use std::sync::Arc;

pub type Side = Box<dyn FnMut() + Send>;

/// One line of the table: ours and, where it has such a thing, the Rust's, over so many units. The Rust has no total and no short arena: beside
/// ours stand a plain read of the same memory, and the same copies by the standard library.
pub struct Job {
    pub name: &'static str,
    pub unit: &'static str,
    pub units: usize,
    pub ours: Side,
    pub rust: Option<Box<dyn FnMut()>>,
}

/// Reads a whole header, going on behind each raw kind. The next bit.
fn read(header: &[u8], rows: &mut [u16]) -> u64 {
    let (mut bit, mut kind) = (0, 0);
    loop {
        match dequant::read_header(header, bit, kind, rows) {
            Reply::Done(next) => return next,
            Reply::Raw { kind: 16, next } => return next,
            Reply::Raw { kind: at, next } => (bit, kind) = (next, at + 1),
            refused => panic!("{refused:?}"),
        }
    }
}

fn rows_of(header: &[u8]) -> Vec<u16> {
    let mut rows = vec![0; ROWS];
    read(header, &mut rows);
    rows
}

/// A set from its header: read and expanded here, `DequantMatrixSet::parse` there.
fn set(name: &'static str, header: Vec<u8>, samples: Vec<i32>) -> Job {
    let mut rows = vec![0; ROWS];
    let (mut straight, mut transposed) = (vec![0.0; ARENA], vec![0.0; ARENA]);
    let given: Vec<standins::Samples> = if samples.is_empty() { vec![] } else { (0..17).map(|k| channels(&samples, k)).collect() };
    let (own, theirs) = (header.clone(), header);
    let ours = move || {
        read(black_box(&own), &mut rows);
        let reply = dequant::expand(&rows, &samples, &mut straight, &mut transposed);
        assert_eq!(reply, Reply::Done(0));
        black_box((&straight, &transposed));
    };
    let rust = move || {
        standins::give(given.iter().cloned());
        let (set, _) = ported::parse_set(black_box(&theirs), 0);
        black_box(set.expect("a set"));
    };
    Job { name, unit: "weight", units: ARENA, ours: Box::new(ours), rust: Some(Box::new(rust)) }
}

/// A raw kind's samples, a channel each.
fn channels(samples: &[i32], kind: usize) -> standins::Samples {
    let area = dequant::places(kind) / 3;
    [0, 1, 2].map(|c| Rc::new(samples[dequant::start(kind) + c * area..][..area].to_vec()))
}

/// All kinds in mode 6 with 16 bands that fall slowly.
fn sixteen_bands() -> Vec<u8> {
    let mut bits = Bits::default();
    bits.put(0, 1);
    for _ in 0..17 {
        bits.put(6, 3);
        bits.put(15, 4);
        for channel in 0..3 {
            bits.put(make::nearest(40.0 - 7.0 * channel as f64) as u32, 16);
            bits.halves((1..16).map(|i| make::nearest(-0.11 * (1 + (i + channel) % 4) as f64)));
        }
    }
    bits.bytes
}

fn all_raw() -> (Vec<u8>, Vec<i32>) {
    let mut rng = Rng(17);
    let samples = (0..ARENA).map(|_| 1 + rng.below(60000) as i32).collect();
    (make::all_raw([0x1004; 17]).bytes, samples)
}

/// One kind in mode 5, 8x8: our straight and transposed outputs, the Rust's straight one.
fn mode_5() -> Job {
    let kind = 10;
    let row = vec![0u16; ROW];
    let (mut straight, mut transposed) = ([0.0; 192], [0.0; 192]);
    let ours = move || {
        assert_eq!(dequant::expand_kind(kind, black_box(&row), &[], &mut straight, &mut transposed), Reply::Done(0));
        black_box((&straight, &transposed));
    };
    let rust = move || {
        black_box(Entry::default(black_box(kind)).into_matrix().expect("a matrix"));
    };
    Job { name: "mode5", unit: "weight", units: 192, ours: Box::new(ours), rust: Some(Box::new(rust)) }
}

/// The longest header: read into rows here, into the Rust's parameters there.
fn longest() -> Job {
    let bits = make::longest(&mut Rng(1));
    let units = bits.bytes.len();
    let (own, theirs) = (bits.bytes.clone(), bits.bytes);
    let mut rows = vec![0; ROWS];
    let ours = move || {
        black_box(read(black_box(&own), &mut rows));
    };
    let rust = move || {
        let (entries, next) = ported::read_from(black_box(&theirs), 0, 0);
        next.expect("a header");
        black_box(entries);
    };
    Job { name: "header", unit: "byte", units, ours: Box::new(ours), rust: Some(Box::new(rust)) }
}

/// The rows and samples of a set that is all raw, and its record.
fn recorded() -> (Vec<u16>, Vec<i32>, Vec<u8>) {
    let (header, samples) = all_raw();
    let rows = rows_of(&header);
    let mut text = vec![0; 12 * ARENA];
    let Reply::Done(length) = dequant::write_record(&rows, &samples, &mut text) else { panic!("no record") };
    text.truncate(length as usize);
    (rows, samples, text)
}

fn write() -> Job {
    let (rows, samples, mut text) = recorded();
    let units = text.len();
    let ours = move || {
        assert_eq!(dequant::write_record(&rows, &samples, black_box(&mut text)), Reply::Done(units as u64));
    };
    Job { name: "write", unit: "byte", units, ours: Box::new(ours), rust: None }
}

fn read_back() -> Job {
    let (mut rows, mut samples, text) = recorded();
    let units = text.len();
    let ours = move || {
        assert_eq!(dequant::read_record(black_box(&text), &mut rows, &mut samples), Reply::Done(0));
        black_box((&rows, &samples));
    };
    Job { name: "read", unit: "byte", units, ours: Box::new(ours), rust: None }
}

/// The JPEG values of the three channels, and where the Rust keeps them.
fn jpeg() -> Job {
    let (header, samples) = all_raw();
    let rows = rows_of(&header);
    standins::give((0..17).map(|k| channels(&samples, k)));
    let (set, _) = ported::parse_set(&header, 0);
    let set = set.expect("a set");
    let ours = move || {
        for channel in 0..3 {
            black_box(dequant::jpeg_quant_values(black_box(&rows), &samples, channel).expect("values"));
        }
    };
    let rust = move || {
        for channel in 0..3 {
            black_box(black_box(&set).jpeg_quant_values(channel).expect("values"));
        }
    };
    Job { name: "jpeg", unit: "call", units: 3, ours: Box::new(ours), rust: Some(Box::new(rust)) }
}

/// Every kind and channel in both orders.
fn lookup() -> Job {
    let (mut straight, mut transposed) = (vec![0.0; ARENA], vec![0.0; ARENA]);
    dequant::expand(&rows_of(&[1]), &[], &mut straight, &mut transposed);
    let ours = move || {
        for kind in 0..17 {
            for channel in 0..3 {
                for order in [Order::Straight, Order::Transposed] {
                    black_box(dequant::lookup(black_box(&straight), &transposed, kind, channel, order));
                }
            }
        }
    };
    let (set, _) = ported::parse_set(&[1], 0);
    let set = set.expect("a set");
    let rust = move || {
        for names in NAMES {
            for channel in 0..3 {
                black_box(black_box(&set).get(channel, names[0]));
                black_box(black_box(&set).get_transposed(channel, names[0]));
            }
        }
    };
    Job { name: "lookup", unit: "call", units: 102, ours: Box::new(ours), rust: Some(Box::new(rust)) }
}

/// The straight arena of the defaults.
fn defaults() -> Vec<f32> {
    let (mut straight, mut transposed) = (vec![0.0; ARENA], vec![0.0; ARENA]);
    assert_eq!(dequant::expand(&rows_of(&[1]), &[], &mut straight, &mut transposed), Reply::Done(0));
    straight
}

/// The total of an arena, and a plain read of it: the sum of its words.
fn total() -> Job {
    let arena = Arc::new(defaults());
    let same = Arc::clone(&arena);
    let ours = move || {
        black_box(dequant::total(black_box(&arena), 0, ARENA));
    };
    let plain = move || {
        black_box(black_box(&same).iter().fold(0u64, |sum, w| sum.wrapping_add(w.to_bits().into())));
    };
    Job { name: "total", unit: "weight", units: ARENA, ours: Box::new(ours), rust: Some(Box::new(plain)) }
}

/// The weights of the largest kind replaced by themselves, and the total with them.
fn replace() -> Job {
    let kind = 15;
    let mut arena = defaults();
    let weights = arena[dequant::start(kind)..][..dequant::places(kind)].to_vec();
    let before = dequant::total(&arena, 0, ARENA);
    let Reply::Done(kept) = before else { panic!("no total") };
    let ours = move || {
        assert_eq!(dequant::replace_kind(black_box(&mut arena), kept, kind, &weights), before);
    };
    Job { name: "replace", unit: "weight", units: dequant::places(kind), ours: Box::new(ours), rust: None }
}

/// A short arena: a small kind and the largest added, and the small one dropped, so that the largest moves down. Beside it the same copies
/// by the standard library.
fn keep() -> Job {
    let (small, large) = (6, 15);
    let all = defaults();
    let weights = Arc::new([small, large].map(|kind| all[dequant::start(kind)..][..dequant::places(kind)].to_vec()));
    let same = Arc::clone(&weights);
    let (first, second) = (dequant::places(small), dequant::places(large));
    let mut arena = vec![0f32; first + second];
    let mut other = arena.clone();
    let ours = move || {
        let mut short = dequant::ShortArena::new(black_box(&mut arena));
        assert_eq!(short.add(small, &weights[0]), Reply::Done(0));
        assert_eq!(short.add(large, &weights[1]), Reply::Done(first as u64));
        assert_eq!(short.drop_kind(small), Reply::Done(0));
        assert_eq!(short.lookup(large).map(|part| part.len()), Ok(second));
    };
    let plain = move || {
        let arena = black_box(&mut other);
        arena[..first].copy_from_slice(&same[0]);
        arena[first..].copy_from_slice(&same[1]);
        arena.copy_within(first.., 0);
        arena[second..].fill(0.0);
    };
    Job { name: "keep", unit: "weight", units: second, ours: Box::new(ours), rust: Some(Box::new(plain)) }
}

/// All jobs, each made when it is run.
pub const ALL: [fn() -> Job; 12] = [
    || set("default", vec![1], vec![]),
    || set("bands16", sixteen_bands(), vec![]),
    || {
        let (header, samples) = all_raw();
        set("raw", header, samples)
    },
    mode_5,
    longest,
    write,
    read_back,
    lookup,
    jpeg,
    total,
    replace,
    keep,
];
