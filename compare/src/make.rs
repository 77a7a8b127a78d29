//! Makes headers: numbers of every sort, entries of every mode, whole headers, damage.
use standins::half;

/// SplitMix64.
pub struct Rng(pub u64);

impl Rng {
    pub fn next(&mut self) -> u64 {
        self.0 = self.0.wrapping_add(0x9e37_79b9_7f4a_7c15);
        let z = (self.0 ^ self.0 >> 30).wrapping_mul(0xbf58_476d_1ce4_e5b9);
        let z = (z ^ z >> 27).wrapping_mul(0x94d0_49bb_1331_11eb);
        z ^ z >> 31
    }

    pub fn below(&mut self, n: u64) -> u64 {
        self.next() % n
    }

    pub fn unit(&mut self) -> f64 {
        (self.next() >> 11) as f64 / (1u64 << 53) as f64
    }

    pub fn between(&mut self, low: f64, high: f64) -> f64 {
        low + (high - low) * self.unit()
    }

    pub fn pick<T: Copy>(&mut self, of: &[T]) -> T {
        of[self.below(of.len() as u64) as usize]
    }
}

/// Bits, lowest first.
#[derive(Default, Clone)]
pub struct Bits {
    pub bytes: Vec<u8>,
    pub len: usize,
}

impl Bits {
    pub fn put(&mut self, value: u32, n: usize) {
        for i in 0..n {
            if self.len % 8 == 0 {
                self.bytes.push(0);
            }
            self.bytes[self.len / 8] |= ((value >> i & 1) as u8) << (self.len % 8);
            self.len += 1;
        }
    }

    pub fn halves(&mut self, all: impl IntoIterator<Item = u16>) {
        all.into_iter().for_each(|h| self.put(h as u32, 16));
    }
}

/// The half float nearest to x.
pub fn nearest(x: f64) -> u16 {
    let (mut low, mut high) = (0u16, 0x7bff);
    while high - low > 1 {
        let mid = (low + high) / 2;
        if half(mid).unwrap() as f64 <= x.abs() {
            low = mid;
        } else {
            high = mid;
        }
    }
    let far = |h| (half(h).unwrap() as f64 - x.abs()).abs();
    let h = if far(high) < far(low) { high } else { low };
    if x < 0.0 { h | 0x8000 } else { h }
}

/// Any half float that a reading lets pass.
pub fn fine(rng: &mut Rng) -> u16 {
    loop {
        let h = rng.next() as u16;
        if half(h).is_some() {
            return h;
        }
    }
}

const EXTREMES: [u16; 12] = [0, 0x8000, 1, 0x8001, 0x7bff, 0xfbff, 0x3c00, 0xbc00, 0x0400, 0x03ff, 0x1004, 0x4000];

/// How the numbers of an entry are chosen.
#[derive(Clone, Copy, PartialEq, Debug)]
pub enum Style {
    Sane,
    Any,
    Extreme,
    /// The last band near 1/100,000,000.
    Least,
    /// The last band near f32's largest.
    Largest,
    /// The bands overflow somewhere.
    Overflow,
}
pub const STYLES: [Style; 6] = [Style::Sane, Style::Any, Style::Extreme, Style::Least, Style::Largest, Style::Overflow];

fn mult(x: f32) -> f64 {
    (if x > 0.0 { 1.0 + x } else { 1.0 / (1.0 - x) }) as f64
}

/// The number whose mult is nearest to m.
fn for_mult(m: f64) -> u16 {
    nearest(if m > 1.0 { m - 1.0 } else { 1.0 - 1.0 / m })
}

/// The number that interpolation gives in the far corner of a list whose last two bands are these.
fn corner(n: usize, a: f64, b: f64) -> f64 {
    let position = std::f32::consts::SQRT_2 as f64 * (n - 1) as f64 / (std::f32::consts::SQRT_2 + 1e-6) as f64;
    a * (b / a).powf(position - (n - 2) as f64)
}

/// A list of bands whose band `at` is aimed at `target`, from `first` on, so that the corner comes near it where `at`
/// is the last: the best of a few.
fn aimed(rng: &mut Rng, n: usize, at: usize, first: f64, target: f64) -> Vec<u16> {
    let tries: Vec<_> = (0..100).map(|_| steps(rng, n, at, first, target)).collect();
    tries.into_iter().min_by(|a, b| a.0.total_cmp(&b.0)).unwrap().1
}

/// In uneven steps, with how far from the target band `at` comes.
fn steps(rng: &mut Rng, n: usize, at: usize, first: f64, target: f64) -> (f64, Vec<u16>) {
    let mut off = 0.0;
    let mut list = vec![nearest(first / 64.0)];
    let mut band = half(list[0]).unwrap() as f64 * 64.0;
    for i in 1..n {
        let m = if i <= at { (target / band).powf(1.0 / (at + 1 - i) as f64) } else { rng.between(0.5, 2.0) };
        let m = if i < at { m * rng.between(0.9, 1.1) } else { m };
        list.push(for_mult(m));
        let last = band;
        band *= mult(half(list[i]).unwrap());
        if i == at {
            off = (corner(at + 1, last, band) / target - 1.0).abs();
        }
    }
    (off, list)
}

/// One channel's numbers of a band list.
fn list(rng: &mut Rng, style: Style, n: usize) -> Vec<u16> {
    match style {
        Style::Any => (0..n).map(|_| fine(rng)).collect(),
        Style::Extreme => (0..n).map(|_| rng.pick(&EXTREMES)).collect(),
        Style::Least if n > 1 => {
            let first = 10f64.powf(rng.between(-5.4, -3.5));
            let target = 1e-8 * rng.between(0.999_999_8, 1.000_000_2);
            aimed(rng, n, n - 1, first, target)
        }
        Style::Largest if n > 9 => {
            let target = f32::MAX as f64 * rng.between(0.999_998, 1.000_002);
            aimed(rng, n, n - 1, 4e6, target)
        }
        Style::Overflow if n > 7 => {
            let at = 7 + rng.below(n as u64 - 7) as usize;
            let target = f32::MAX as f64 * rng.between(1.0, 4.0);
            aimed(rng, n, at, 4e6, target)
        }
        _ => {
            let first = nearest(10f64.powf(rng.between(-1.0, 3.0)));
            let rest = (1..n).map(|_| nearest(rng.between(-3.0, 1.5)));
            std::iter::once(first).chain(rest).collect()
        }
    }
}

fn lists(rng: &mut Rng, bits: &mut Bits, style: Style, n: usize) {
    bits.put(n as u32 - 1, 4);
    let odd = rng.below(6) as usize;
    for channel in 0..3 {
        // often only one channel is odd, so that nothing else is refused
        let s = if odd == channel || odd > 2 { style } else { Style::Sane };
        let numbers = list(rng, s, n);
        bits.halves(numbers);
    }
}

fn fixed(rng: &mut Rng, style: Style, n: usize) -> Vec<u16> {
    (0..3 * n)
        .map(|_| match style {
            Style::Any => fine(rng),
            Style::Extreme => rng.pick(&EXTREMES),
            _ => nearest(10f64.powf(rng.between(-2.0, 4.0))),
        })
        .collect()
}

/// A mode that the kind allows.
pub fn mode_for(rng: &mut Rng, kind: usize) -> u16 {
    if [0, 1, 2, 3, 9, 10].contains(&kind) { rng.below(8) as u16 } else { rng.pick(&[0, 6, 7]) }
}

/// An entry, from its mode on.
pub fn entry(rng: &mut Rng, bits: &mut Bits, mode: u16, style: Style, n: [usize; 2]) {
    bits.put(mode as u32, 3);
    let count = [0, 3, 6, 2, 1, 9, 0, 0][mode as usize];
    let mut numbers = fixed(rng, style, count);
    if mode == 5 {
        for c in 0..3 {
            for i in 6..9 {
                if style != Style::Any && style != Style::Extreme {
                    numbers[9 * c + i] = nearest(rng.between(-2.0, 1.0));
                }
            }
        }
    }
    if mode == 7 {
        let common = [0x1004, 0x3c00, 0x7bff, 0x0001, 0x2000];
        let above = if rng.below(2) == 0 { rng.pick(&common) } else { fine(rng) & 0x7fff };
        // a set is refused as a whole for one that is zero or below, so they are few
        numbers.push(if rng.below(16) == 0 { rng.pick(&[0, 0x8000, above | 0x8000]) } else { above });
    }
    bits.halves(numbers);
    if (3..=6).contains(&mode) {
        lists(rng, bits, style, n[0]);
    }
    if mode == 5 {
        lists(rng, bits, style, n[1]);
    }
}

/// A whole header that reads to the end, from a bit on; the bits before it are any.
pub fn header(rng: &mut Rng, before: usize, sane: bool) -> Bits {
    let mut bits = Bits::default();
    for _ in 0..before {
        bits.put(rng.next() as u32 & 1, 1);
    }
    if rng.below(50) == 0 {
        bits.put(1, 1);
        return bits;
    }
    bits.put(0, 1);
    let plain = rng.below(3);
    for kind in 0..17 {
        let mode = if rng.below(4) < plain { 0 } else { mode_for(rng, kind) };
        let style = if sane { Style::Sane } else { rng.pick(&STYLES) };
        let n = [1 + rng.below(16) as usize, 1 + rng.below(16) as usize];
        entry(rng, &mut bits, mode, style, n);
    }
    bits
}

/// A header whose kinds are all raw, with these denominators.
pub fn all_raw(denominators: [u16; 17]) -> Bits {
    let mut bits = Bits::default();
    bits.put(0, 1);
    for d in denominators {
        bits.put(7, 3);
        bits.put(d as u32, 16);
    }
    bits
}

/// The longest header: 20,400 bits.
pub fn longest(rng: &mut Rng) -> Bits {
    let mut bits = Bits::default();
    bits.put(0, 1);
    for kind in 0..17 {
        let mode = if [0, 1, 2, 3, 9, 10].contains(&kind) { 5 } else { 6 };
        entry(rng, &mut bits, mode, Style::Sane, [16, 16]);
    }
    bits
}
