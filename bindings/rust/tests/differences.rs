//! Where the library follows the Rust and not the standard as libjxl 0.7 reads it: our side of each, run.
use dequant::{expand_kind, places, Reply, ROW};

/// One kind's straight weights from the beginning of its row.
fn weights(kind: usize, first: &[u16], samples: &[i32]) -> Result<Vec<f32>, Reply> {
    let mut row = [0; ROW];
    row[..first.len()].copy_from_slice(first);
    let mut straight = vec![0.0; places(kind)];
    let mut transposed = straight.clone();
    match expand_kind(kind, &row, samples, &mut straight, &mut transposed) {
        Reply::Done(_) => Ok(straight),
        refused => Err(refused),
    }
}

const ONE: u16 = 0x3c00;
const TWO: u16 = 0x4000;
const FOUR: u16 = 0x4400;

/// libjxl scales the numbers of modes 1 and 2 by 64, and has the first number at place 0 of mode 1.
#[test]
fn modes_1_and_2_are_not_scaled() {
    let numbers = [TWO, FOUR, FOUR];
    let w = weights(1, &[&[1, 0, 0][..], &numbers, &numbers, &numbers].concat(), &[]).unwrap();
    assert_eq!((w[0], w[1], w[2], w[8], w[9], w[63]), (1.0, 0.25, 0.5, 0.25, 0.25, 0.5));
    let numbers = [TWO; 6];
    let w = weights(2, &[&[2, 0, 0][..], &numbers, &numbers, &numbers].concat(), &[]).unwrap();
    assert_eq!((w[0], w[1], w[63]), (1.0, 0.5, 0.5));
}

/// libjxl refuses samples that are not positive; here their weights are. A denominator below 1e-8 is refused by both: the least half
/// float above zero, 6e-8, is none.
#[test]
fn samples_are_refused_by_their_weights() {
    let w = weights(0, &[7, 0, 0, 0x0001], &[1; 192]).unwrap();
    assert!(w.iter().all(|&w| w == 1.0 / 16_777_216.0));
    assert_eq!(weights(0, &[7, 0, 0, ONE], &[-5; 192]), Err(Reply::Weight { kind: 0, channel: 0, place: 0 }));
    assert_eq!(weights(0, &[7, 0, 0, ONE], &[0; 192]), Err(Reply::Weight { kind: 0, channel: 0, place: 0 }));
}

/// The Rust takes a negative denominator with negative samples, which cancel; here no denominator of zero or below is taken.
#[test]
fn odd_denominators_are_refused() {
    for denominator in [0x0000, 0x8000, 0x8001, 0xbc00, 0xfbff] {
        for sample in [-5, 0, 5] {
            assert_eq!(weights(0, &[7, 0, 0, denominator], &[sample; 192]), Err(Reply::Denom { kind: 0 }));
        }
    }
}

/// libjxl refuses a band below 1e-8; here a band may be as small as it likes, its weight may not be 100,000,000.
#[test]
fn a_small_band_is_a_weight_refused() {
    let list = [0x0001, 0xfbff]; // 2^-24 x 64, then divided by 65,505
    let row = [&[6, 2, 0][..], &list, &list, &list].concat();
    assert_eq!(weights(0, &row, &[]), Err(Reply::Weight { kind: 0, channel: 0, place: 6 }));
}

/// libjxl's defaults of kind 16 start with 22389.441 and 11679.847 in channels 1 and 2.
#[test]
fn defaults_of_kind_16_are_the_rusts() {
    let w = weights(16, &[0], &[]).unwrap();
    let area = 256 * 128;
    assert_eq!((w[area], w[2 * area]), (1.0 / 24209.441, 1.0 / 12979.847));
}

/// libjxl's raw image of a kind that is not square is narrow and tall; here it is as wide as the kind.
#[test]
fn raw_samples_of_kind_6_are_wide() {
    let samples: Vec<i32> = (0..384).map(|p| 1 + p % 128).collect();
    let row = [&[7, 0, 0, ONE][..], &[0; 124]].concat();
    let mut straight = vec![0.0; 384];
    let mut transposed = vec![0.0; 384];
    assert_eq!(expand_kind(6, &row, &samples, &mut straight, &mut transposed), Reply::Done(0));
    assert_eq!((straight[16], straight[17]), (17.0, 18.0));
    assert_eq!((transposed[1], transposed[9], transposed[8]), (17.0, 18.0, 2.0));
}
