//! Stand-ins for what the ported dequant.rs imports: jxl_bitstream, jxl_grid, jxl_modular, jxl_threadpool,
//! jxl_oxide_common, tracing. None of it is those crates' code. What is the stand-ins' own behaviour:
//! bits come lowest first; a half float is IEEE 754's with exponent 31 refused; a field past the end is
//! `Error::Short` with its first bit and how many of its bits aren't there, and changes nothing; Modular
//! decoding takes its samples from `give` and skips no bit.
use std::cell::{Cell, RefCell};
use std::collections::VecDeque;
use std::rc::Rc;

/// Samples of one raw kind, a channel each.
pub type Samples = [Rc<Vec<i32>>; 3];

thread_local! {
    static GIVEN: RefCell<VecDeque<Samples>> = RefCell::default();
    static FIELD: Cell<u64> = const { Cell::new(0) };
    static NOTED: Cell<Option<f32>> = const { Cell::new(None) };
}

/// Hands out the samples of the raw kinds to come; where there are none left, a raw kind gets empty channels.
pub fn give(samples: impl IntoIterator<Item = Samples>) {
    GIVEN.with_borrow_mut(|g| {
        g.clear();
        g.extend(samples);
    });
    NOTED.set(None);
}

/// The first bit of the field that was asked for last.
pub fn last_field() -> u64 {
    FIELD.get()
}

/// The number that was last given to `tracing::error!`: the band or the weight that was refused.
pub fn noted() -> Option<f32> {
    NOTED.get()
}

// ---- jxl_bitstream

#[derive(Debug, Clone, Copy, PartialEq)]
pub enum Error {
    Short(u64, u64),
    Float(u64),
    ValidationFailed(&'static str),
}

pub struct Bitstream<'b> {
    bytes: &'b [u8],
    at: u64,
}

impl<'b> Bitstream<'b> {
    pub fn new(bytes: &'b [u8], at: u64) -> Self {
        Bitstream { bytes, at }
    }

    pub fn at(&self) -> u64 {
        self.at
    }

    pub fn read_bits(&mut self, n: u64) -> Result<u32, Error> {
        let first = self.at;
        FIELD.set(first);
        let all = self.bytes.len() as u64 * 8;
        match first.checked_add(n) {
            Some(end) if end <= all => self.at = end,
            // how many of its bits are not there, counted one by one
            _ => return Err(Error::Short(first, (0..n).filter(|&i| first.checked_add(i).is_none_or(|bit| bit >= all)).count() as u64)),
        }
        // the eight bytes from the field's first on, zeros past the end: a field has at most 32 bits
        let from = &self.bytes[(first / 8) as usize..];
        let word = match from.first_chunk::<8>() {
            Some(eight) => u64::from_le_bytes(*eight),
            None => from.iter().rev().fold(0, |v, &b| v << 8 | b as u64),
        };
        Ok((word >> (first % 8) & ((1 << n) - 1)) as u32)
    }

    pub fn read_bool(&mut self) -> Result<bool, Error> {
        self.read_bits(1).map(|v| v == 1)
    }

    pub fn read_f16_as_f32(&mut self) -> Result<f32, Error> {
        let first = self.at;
        let h = self.read_bits(16)? as u16;
        half(h).ok_or(Error::Float(first))
    }
}

/// A half float's value, none where its exponent is 31.
pub fn half(h: u16) -> Option<f32> {
    let digits = (h & 0x3ff) as u32;
    let size = match (h >> 10 & 31) as u32 {
        31 => return None,
        0 => digits as f32 * f32::from_bits((127 - 24) << 23),
        e => f32::from_bits((e + 127 - 15) << 23 | digits << 13),
    };
    Some(if h >> 15 == 1 { -size } else { size })
}

// ---- jxl_grid, jxl_threadpool

#[derive(Debug)]
pub struct AllocTracker;

#[derive(Debug)]
pub struct JxlThreadPool;

// ---- jxl_oxide_common

pub trait Bundle<Context = ()>: Sized {
    type Error;
    fn parse(bitstream: &mut Bitstream, context: Context) -> Result<Self, Self::Error>;
}

pub trait BundleDefault<Context = ()>: Sized {
    fn default_with_context(context: Context) -> Self;
}

// ---- jxl_modular

#[derive(Debug)]
pub struct MaConfig;

#[derive(Debug, Clone)]
pub struct ChannelShift;

impl ChannelShift {
    pub fn from_shift(_shift: u32) -> Self {
        ChannelShift
    }
}

pub struct ModularParams {
    places: usize,
}

impl ModularParams {
    pub fn new(
        width: u32,
        height: u32,
        _group_dim: u32,
        _bit_depth: u32,
        _shifts: Vec<ChannelShift>,
        _config: Option<&MaConfig>,
        _tracker: Option<&AllocTracker>,
    ) -> Self {
        ModularParams { places: (width * height) as usize }
    }
}

#[derive(Debug)]
pub struct Channel<S>(Rc<Vec<S>>);

impl<S> Channel<S> {
    pub fn buf(&self) -> &[S] {
        &self.0
    }
}

#[derive(Debug)]
pub struct Image<S>(Vec<Channel<S>>);

#[derive(Debug)]
pub struct Modular<S>(Image<S>);

pub struct Subimage;

impl Modular<i32> {
    pub fn parse(_bitstream: &mut Bitstream, params: ModularParams) -> Result<Self, Error> {
        let given = GIVEN.with_borrow_mut(|g| g.pop_front()).unwrap_or_default();
        assert!(given.iter().all(|c| c.is_empty() || c.len() == params.places));
        Ok(Modular(Image(given.into_iter().map(Channel).collect())))
    }

    pub fn image(&self) -> Option<&Image<i32>> {
        Some(&self.0)
    }

    pub fn image_mut(&mut self) -> Option<&mut Image<i32>> {
        Some(&mut self.0)
    }

    pub fn into_image(self) -> Option<Image<i32>> {
        Some(self.0)
    }
}

impl<S> Image<S> {
    pub fn prepare_subimage(&mut self) -> Result<Subimage, Error> {
        Ok(Subimage)
    }

    pub fn image_channels(&self) -> &[Channel<S>] {
        &self.0
    }

    pub fn into_image_channels(self) -> Vec<Channel<S>> {
        self.0
    }
}

impl Subimage {
    pub fn decode(&mut self, _bitstream: &mut Bitstream, _index: u32, _partial: bool) -> Result<(), Error> {
        Ok(())
    }

    pub fn finish(self, _pool: &JxlThreadPool) {}
}

// ---- tracing

pub struct Level;

impl Level {
    pub const TRACE: Level = Level;
}

pub struct Span;

impl Span {
    pub fn enter(&self) {}
}

/// What `tracing::error!` is given first: a number by value or by reference.
pub trait Number {
    fn note(self);
}

impl Number for f32 {
    fn note(self) {
        NOTED.set(Some(self));
    }
}

impl Number for &f32 {
    fn note(self) {
        NOTED.set(Some(*self));
    }
}

#[macro_export]
macro_rules! error {
    ($number:ident, $text:literal) => { $crate::Number::note($number) };
    ($($all:tt)*) => {};
}

#[macro_export]
macro_rules! debug {
    ($($all:tt)*) => {};
}

#[macro_export]
macro_rules! span {
    ($level:expr, $($all:tt)*) => {{ let _ = $level; $crate::Span }};
}
