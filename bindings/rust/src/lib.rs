//! The dequantisation matrices of JPEG XL, from a library whose every function is proved to meet its contract.
//!
//! A header is read into *rows* (17 kinds of 128 numbers), rows and the samples of raw kinds are expanded into
//! two *arenas* of weights, straight and transposed, and a lookup shows a part of one of them. Beside an arena goes its
//! *total*, one number to compare first. Where a whole arena is too much, a [`ShortArena`] keeps only the kinds in use. Nothing is
//! allocated: the caller lends every slice. Each call answers with a [`Reply`], and what a refusal leaves in the lent slices is fixed: see each
//! function.
//!
//! ```
//! let mut rows = [0u16; dequant::ROWS];
//! assert_eq!(dequant::read_header(&[0x01], 0, 0, &mut rows), dequant::Reply::Done(1));
//! let (mut straight, mut transposed) = (vec![0f32; dequant::ARENA], vec![0f32; dequant::ARENA]);
//! assert_eq!(dequant::expand(&rows, &[], &mut straight, &mut transposed), dequant::Reply::Done(0));
//! let shown = dequant::lookup(&straight, &transposed, 6, 0, dequant::Order::Transposed);
//! assert_eq!(shown.len(), 16 * 8);
//!
//! let dequant::Reply::Done(total) = dequant::total(&straight, 0, dequant::ARENA) else { panic!() };
//! let other = vec![1f32; dequant::places(6)];
//! let dequant::Reply::Done(after) = dequant::replace_kind(&mut straight, total, 6, &other) else { panic!() };
//! assert_eq!(dequant::total(&straight, 0, dequant::ARENA), dequant::Reply::Done(after));
//!
//! let mut room = [0f32; 1000];
//! let mut short = dequant::ShortArena::new(&mut room);
//! assert_eq!(short.add(6, &other), dequant::Reply::Done(0));
//! assert_eq!(short.lookup(6), Ok(&other[..]));
//! assert_eq!(short.lookup(0), Err(dequant::Reply::Gone));
//! ```
#![warn(missing_docs)]

mod face;

/// Numbers in the rows of a description: 17 rows of [`ROW`].
pub const ROWS: usize = 17 * ROW;
/// Numbers in the row of one kind.
pub const ROW: usize = 128;
/// Places of an arena: the weights (or samples) of 17 kinds, three channels each.
pub const ARENA: usize = 394_752;
/// Width and height of each kind's matrix.
#[rustfmt::skip]
pub const SIZES: [(usize, usize); 17] = [
    (8, 8), (8, 8), (8, 8), (8, 8), (16, 16), (32, 32), (16, 8), (32, 8), (32, 16), (8, 8), (8, 8),
    (64, 64), (64, 32), (128, 128), (128, 64), (256, 256), (256, 128),
];

/// How many places a kind has in an arena: 3 x width x height.
pub fn places(kind: usize) -> usize {
    3 * SIZES[kind].0 * SIZES[kind].1
}

/// Where a kind starts in an arena.
pub fn start(kind: usize) -> usize {
    (0..kind).map(places).sum()
}

/// What a call answers, with the values that come with it.
#[derive(Debug, Clone, Copy, PartialEq, Eq, Hash)]
#[rustfmt::skip]
pub enum Reply {
    /// 0: the call finished. Reading a header: the next bit. Writing a record: its length. Counting and replacing: the total. Adding to a short arena: the first place. Else 0.
    Done(u64),
    /// 1: a lent slice has a wrong length, kind or channel is out of range, or a stretch leaves its arena. Nothing was changed.
    Lent,
    /// 2: a field runs past the last bit of the header. Rows of earlier kinds are written.
    Short { /** the kind */ kind: usize, /** first bit of the field */ bit: u64, /** how many bits the field lacks: its width if it starts at or past the end */ lacks: u64 },
    /// 3: the mode is not allowed for the kind. Rows of earlier kinds are written.
    Mode { /** the kind */ kind: usize, /** first bit of the field */ bit: u64 },
    /// 4: a number has exponent 31. Rows of earlier kinds are written.
    Float { /** the kind */ kind: usize, /** first bit of the field */ bit: u64 },
    /// 5: a raw kind's denominator was read: decode its samples from bit `next`, then resume at the next kind.
    Raw { /** the kind */ kind: usize, /** the bit after the denominator */ next: u64 },
    /// 6: a row that no reading writes. Nothing was changed.
    Row { /** the first such kind */ kind: usize },
    /// 7: a band after the first is 0, negative or infinite. Both outputs are all zero.
    Band { /** the kind */ kind: usize, /** the channel */ channel: usize, /** counted from 0 in its list */ band: usize },
    /// 8: a weight is 100,000,000 or more, 0 or less, or NaN. Both outputs are all zero.
    Weight { /** the kind */ kind: usize, /** the channel */ channel: usize, /** in raster order */ place: usize },
    /// 9: no room. Writing: what the record needs. Reading: what the samples need. Nothing was changed.
    Room { /** the length needed */ length: u64 },
    /// 10: the bytes are no record. Nothing was changed.
    Text { /** the longest beginning that some record has too */ shared: u64 },
    /// 11: no JPEG values.
    None,
    /// 12: a raw kind's denominator is zero or below, whatever its samples. Nothing was changed.
    Denom { /** the lowest such kind */ kind: usize },
    /// 13: the free places of a short arena are fewer than the kind needs. Nothing was changed.
    Full,
    /// 17: the short arena holds that kind already. Nothing was changed.
    Held,
    /// 18: the short arena does not hold that kind. Nothing was changed.
    Gone,
}

impl Reply {
    fn new(number: u32, values: [u64; 3]) -> Self {
        let [a, b, c] = values;
        let (kind, channel, place) = (a as usize, b as usize, c as usize);
        match number {
            0 => Reply::Done(a),
            1 => Reply::Lent,
            2 => Reply::Short { kind, bit: b, lacks: c },
            3 => Reply::Mode { kind, bit: b },
            4 => Reply::Float { kind, bit: b },
            5 => Reply::Raw { kind, next: b },
            6 => Reply::Row { kind },
            7 => Reply::Band { kind, channel, band: place },
            8 => Reply::Weight { kind, channel, place },
            9 => Reply::Room { length: a },
            10 => Reply::Text { shared: a },
            11 => Reply::None,
            12 => Reply::Denom { kind },
            13 => Reply::Full,
            17 => Reply::Held,
            18 => Reply::Gone,
            _ => unreachable!("the library has no reply {number}"),
        }
    }
}

/// The order in which a matrix is shown.
#[derive(Debug, Clone, Copy, PartialEq, Eq)]
pub enum Order {
    /// No order named: as [`Order::Transposed`].
    Unnamed,
    /// Row by row.
    Straight,
    /// Column by column: row r, column c stands at place c x height + r.
    Transposed,
}

/// Makes the call with a slice of three places for the reply's values.
fn ask(call: impl FnOnce(*mut u64, usize) -> u32) -> (u32, [u64; 3]) {
    let mut values = [0; 3];
    let number = call(values.as_mut_ptr(), values.len());
    (number, values)
}

/// The reply of a call.
fn reply(call: impl FnOnce(*mut u64, usize) -> u32) -> Reply {
    let (number, values) = ask(call);
    Reply::new(number, values)
}

// SAFETY of all calls below: each pointer comes with its own slice's length, and the borrow checker has seen to it that
// no slice that a call writes overlaps another. The library reads and writes inside these lengths: that is proved.

/// Reads a header from `bit` into `rows` ([`ROWS`] numbers): at kind 0 from the flag, at kinds 1 to 16 from that
/// kind's mode, to resume after [`Reply::Raw`]. `Done` has the next bit.
#[rustfmt::skip]
pub fn read_header(header: &[u8], bit: u64, kind: usize, rows: &mut [u16]) -> Reply {
    reply(|r, n| unsafe {
        face::dequant_read_header(header.as_ptr(), header.len(), bit, kind, rows.as_mut_ptr(), rows.len(), r, n)
    })
}

/// Expands one kind from its own row of [`ROW`] numbers and, where it is raw, its 3 x width x height samples
/// (else none will do) into two outputs of 3 x width x height weights. `Lent`, `Row` and `Denom` leave both as they were,
/// `Band` and `Weight` all zero; each refusal comes before those behind it in this order.
#[rustfmt::skip]
pub fn expand_kind(kind: usize, row: &[u16], samples: &[i32], straight: &mut [f32], transposed: &mut [f32]) -> Reply {
    reply(|r, n| unsafe {
        face::dequant_expand_kind(
            kind, row.as_ptr(), row.len(), samples.as_ptr(), samples.len(), straight.as_mut_ptr(), straight.len(),
            transposed.as_mut_ptr(), transposed.len(), r, n,
        )
    })
}

/// Expands all kinds into two arenas of [`ARENA`] weights. `samples` has [`ARENA`] numbers, or none if no row is raw.
/// `Lent`, then `Row` and then `Denom` for all rows; then kind by kind `Band` and `Weight`.
#[rustfmt::skip]
pub fn expand(rows: &[u16], samples: &[i32], straight: &mut [f32], transposed: &mut [f32]) -> Reply {
    reply(|r, n| unsafe {
        face::dequant_expand(
            rows.as_ptr(), rows.len(), samples.as_ptr(), samples.len(), straight.as_mut_ptr(), straight.len(),
            transposed.as_mut_ptr(), transposed.len(), r, n,
        )
    })
}

/// Shows one channel of a kind in the order named, and transposed where none is: a part of one of the two arenas, empty for bad
/// arguments.
#[rustfmt::skip]
pub fn lookup<'a>(straight: &'a [f32], transposed: &'a [f32], kind: usize, channel: usize, order: Order) -> &'a [f32] {
    let (_, [arena, first, length]) = ask(|r, n| unsafe {
        face::dequant_lookup(
            straight.as_ptr(), straight.len(), transposed.as_ptr(), transposed.len(), kind, channel, order as u32, r, n,
        )
    });
    &[straight, transposed][arena as usize][first as usize..][..length as usize]
}

/// Shows the 64 JPEG quantisation values of a channel, a part of `samples`; else says why there are none.
#[rustfmt::skip]
pub fn jpeg_quant_values<'a>(rows: &[u16], samples: &'a [i32], channel: usize) -> Result<&'a [i32], Reply> {
    let (number, values) = ask(|r, n| unsafe {
        face::dequant_jpeg_quant_values(rows.as_ptr(), rows.len(), samples.as_ptr(), samples.len(), channel, r, n)
    });
    match number {
        0 => Ok(&samples[values[0] as usize..][..values[1] as usize]),
        _ => Err(Reply::new(number, values)),
    }
}

/// Writes the text record of a description. `Done` has its length; the bytes of `text` past it stay.
#[rustfmt::skip]
pub fn write_record(rows: &[u16], samples: &[i32], text: &mut [u8]) -> Reply {
    reply(|r, n| unsafe {
        face::dequant_write_record(
            rows.as_ptr(), rows.len(), samples.as_ptr(), samples.len(), text.as_mut_ptr(), text.len(), r, n,
        )
    })
}

/// Reads a text record. The samples of kinds that are not raw stay as they are.
#[rustfmt::skip]
pub fn read_record(text: &[u8], rows: &mut [u16], samples: &mut [i32]) -> Reply {
    reply(|r, n| unsafe {
        face::dequant_read_record(
            text.as_ptr(), text.len(), rows.as_mut_ptr(), rows.len(), samples.as_mut_ptr(), samples.len(), r, n,
        )
    })
}

/// Counts a stretch of an arena of [`ARENA`] weights, straight or transposed: `Done` has the total of `count` places from `first` on,
/// the 32 bits of each weight times its place in the arena plus 1, wrapping round at 2^64. A NaN counts with the bits 7fc00000.
/// `Lent` for another arena, or a stretch that leaves it.
///
/// Totals of neighbouring stretches add up, wrapping round, in any grouping and order. Arenas with different totals differ; arenas with
/// the same total may differ too.
#[rustfmt::skip]
pub fn total(arena: &[f32], first: usize, count: usize) -> Reply {
    reply(|r, n| unsafe { face::dequant_total(arena.as_ptr(), arena.len(), first, count, r, n) })
}

/// Replaces the 3 x width x height weights of a kind. `Done` has the arena's new total, if `total` was the old one. `Lent` leaves the arena as it was.
#[rustfmt::skip]
pub fn replace_kind(arena: &mut [f32], total: u64, kind: usize, weights: &[f32]) -> Reply {
    reply(|r, n| unsafe {
        face::dequant_replace_kind(
            arena.as_mut_ptr(), arena.len(), total, kind, weights.as_ptr(), weights.len(), r, n,
        )
    })
}

/// Bytes of a short arena's state: how many kinds are held, and which, in the order added.
const STATE: usize = 18;

/// A short arena: the weights of some kinds, in the order added, in a lent slice of any length up to [`ARENA`]. It has the slice to itself
/// and keeps the state beside it, so that the two cannot come apart: after any calls each held kind shows the very weights that
/// it was added with.
#[derive(Debug)]
pub struct ShortArena<'a> {
    arena: &'a mut [f32],
    state: [u8; STATE],
}

#[rustfmt::skip]
impl<'a> ShortArena<'a> {
    /// An empty one, whatever the slice holds. Over more than [`ARENA`] places each call answers `Lent`.
    pub fn new(arena: &'a mut [f32]) -> Self {
        ShortArena { arena, state: [0; STATE] }
    }

    /// Adds a kind's 3 x width x height weights behind those held. `Done` has their first place. `Lent` for another number of weights or no
    /// kind; then `Held`, which replaces nothing; then `Full`.
    pub fn add(&mut self, kind: usize, weights: &[f32]) -> Reply {
        let ShortArena { arena, state } = self;
        reply(|r, n| unsafe {
            face::dequant_short_add(
                arena.as_mut_ptr(), arena.len(), state.as_mut_ptr(), STATE, kind, weights.as_ptr(), weights.len(), r, n,
            )
        })
    }

    /// Shows a kind's weights; else says why there are none: `Lent` for no kind, or `Gone`.
    pub fn lookup(&self, kind: usize) -> Result<&[f32], Reply> {
        let (number, values) = ask(|r, n| unsafe {
            face::dequant_short_lookup(self.arena.as_ptr(), self.arena.len(), self.state.as_ptr(), STATE, kind, r, n)
        });
        match number {
            0 => Ok(&self.arena[values[0] as usize..][..values[1] as usize]),
            _ => Err(Reply::new(number, values)),
        }
    }

    /// Drops a kind: those added after it move down, and the places that come free at the end of what was in use become 0.
    pub fn drop_kind(&mut self, kind: usize) -> Reply {
        let ShortArena { arena, state } = self;
        reply(|r, n| unsafe {
            face::dequant_short_drop(arena.as_mut_ptr(), arena.len(), state.as_mut_ptr(), STATE, kind, r, n)
        })
    }

    /// The kinds held, in the order added.
    pub fn kinds(&self) -> &[u8] {
        &self.state[1..][..self.state[0] as usize]
    }
}
