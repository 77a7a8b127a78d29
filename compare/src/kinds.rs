//! Stand-in for the crate's dct_select.rs: the 27 names and, by document 01's table, their kinds and sizes.
#[rustfmt::skip]
#[derive(Debug, Copy, Clone, PartialEq)]
pub enum TransformType {
    Dct8, Hornuss, Dct2, Dct4, Dct16, Dct32, Dct16x8, Dct8x16, Dct32x8, Dct8x32, Dct32x16, Dct16x32,
    Dct4x8, Dct8x4, Afv0, Afv1, Afv2, Afv3, Dct64, Dct64x32, Dct32x64, Dct128, Dct128x64, Dct64x128,
    Dct256, Dct256x128, Dct128x256,
}
use TransformType::*;

/// Every name, by kind.
pub const NAMES: [&[TransformType]; 17] = [
    &[Dct8],
    &[Hornuss],
    &[Dct2],
    &[Dct4],
    &[Dct16],
    &[Dct32],
    &[Dct8x16, Dct16x8],
    &[Dct8x32, Dct32x8],
    &[Dct16x32, Dct32x16],
    &[Dct4x8, Dct8x4],
    &[Afv0, Afv1, Afv2, Afv3],
    &[Dct64],
    &[Dct32x64, Dct64x32],
    &[Dct128],
    &[Dct64x128, Dct128x64],
    &[Dct256],
    &[Dct128x256, Dct256x128],
];

impl TransformType {
    pub fn dequant_matrix_param_index(self) -> u32 {
        NAMES.iter().position(|names| names.contains(&self)).unwrap() as u32
    }

    pub fn dequant_matrix_size(self) -> (u32, u32) {
        let (width, height) = dequant::SIZES[self.dequant_matrix_param_index() as usize];
        (width as u32, height as u32)
    }
}
