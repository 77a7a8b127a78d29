//! The ported source, unchanged; and, in the same module so that its private parts are in reach, the ways in that
//! the comparison takes.
include!("../ported/dequant.rs");

/// One kind's entry as the Rust holds it.
pub struct Entry(DequantMatrixParams);

/// What an entry means: the mode that its variant stands for, the band counts, the numbers in header order.
#[derive(Debug, PartialEq)]
pub struct Meaning {
    pub mode: u16,
    pub counts: [usize; 2],
    pub numbers: Vec<u32>,
}

fn context(pool: &jxl_threadpool::JxlThreadPool) -> DequantMatrixSetParams<'static, '_, 'static> {
    DequantMatrixSetParams::new(8, 1, None, None, pool)
}

fn meaning<const N: usize>(mode: u16, fixed: &[[f32; N]; 3], lists: &[&[Vec<f32>; 3]]) -> Meaning {
    let mut numbers: Vec<u32> = fixed.iter().flatten().map(|x| x.to_bits()).collect();
    let mut counts = [0; 2];
    for (count, list) in counts.iter_mut().zip(lists) {
        *count = list[0].len();
        numbers.extend(list.iter().flatten().map(|x| x.to_bits()));
    }
    Meaning { mode, counts, numbers }
}

impl Entry {
    pub fn default(kind: usize) -> Self {
        Entry(DequantMatrixParams::default_with(crate::kinds::NAMES[kind][0]))
    }

    pub fn meaning(&self) -> Meaning {
        use DequantMatrixParamsEncoding::*;
        match &self.0.encoding {
            Hornuss(p) => meaning(1, p, &[]),
            Dct2(p) => meaning(2, p, &[]),
            Dct4 { params, dct_params } => meaning(3, params, &[dct_params]),
            Dct4x8 { params, dct_params } => meaning(4, params, &[dct_params]),
            Afv { params, dct_params, dct4x4_params } => meaning(5, params, &[dct_params, dct4x4_params]),
            Dct(dct_params) => meaning::<0>(6, &[[]; 3], &[dct_params]),
            Raw { denominator, .. } => Meaning { mode: 7, counts: [0; 2], numbers: vec![denominator.to_bits()] },
        }
    }

    pub fn into_matrix(self) -> Result<[Vec<f32>; 3]> {
        self.0.into_matrix()
    }
}

/// Reads from a kind on, as `DequantMatrixSet::parse` does: at kind 0 the flag first. What was read before an error
/// is handed out too, and the bit after it.
pub fn read_from(bytes: &[u8], bit: u64, kind: usize) -> (Vec<Entry>, Result<u64>) {
    let pool = jxl_threadpool::JxlThreadPool;
    let mut stream = Bitstream::new(bytes, bit);
    let mut read = Vec::new();
    if kind == 0 {
        match stream.read_bool() {
            Err(e) => return (read, Err(e)),
            Ok(true) => return ((0..17).map(Entry::default).collect(), Ok(stream.at())),
            Ok(false) => {}
        }
    }
    for names in &crate::kinds::NAMES[kind..] {
        let local = DequantMatrixSetParams { dct_select: names[0], ..context(&pool) };
        match DequantMatrixParams::parse(&mut stream, local) {
            Err(e) => return (read, Err(e)),
            Ok(params) => read.push(Entry(params)),
        }
    }
    (read, Ok(stream.at()))
}

/// The Rust's own public call.
pub fn parse_set(bytes: &[u8], bit: u64) -> (Result<DequantMatrixSet>, u64) {
    let pool = jxl_threadpool::JxlThreadPool;
    let mut stream = Bitstream::new(bytes, bit);
    let set = DequantMatrixSet::parse(&mut stream, context(&pool));
    (set, stream.at())
}
