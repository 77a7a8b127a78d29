//! The ported Rust beside the proved library. Arguments: seed, random headers, weights to compare at least.
//! Exit status 1 if any difference stands outside the known classes.
extern crate standins as jxl_bitstream;
extern crate standins as jxl_grid;
extern crate standins as jxl_modular;
extern crate standins as jxl_oxide_common;
extern crate standins as jxl_threadpool;
extern crate standins as tracing;

mod headers;
mod kinds;
mod make;
#[allow(dead_code, clippy::all)]
mod ported;
mod report;
mod sets;
mod weights;

/// The crate's own error wraps the bit reader's; here they are one.
pub type Error = standins::Error;
pub type Result<T> = std::result::Result<T, Error>;
pub use kinds::TransformType;

fn run(seed: u64, random: u64, least: u64) -> bool {
    let mut report = report::Report::default();
    let mut rng = make::Rng(seed);
    headers::limits(&mut report, &mut rng);
    headers::short_ones(&mut report, random >= 1_000_000);
    for _ in 0..random {
        headers::random(&mut report, &mut rng);
    }
    weights::known(&mut report, &mut rng);
    sets::known(&mut report);
    let all = random >= 1_000_000;
    sets::denominators(&mut report, (0..=u16::MAX).filter(|h| all || h.abs_diff(0x1004) < 8 || h % 1024 == 7));
    let mut at = 0;
    while report.counts.get("weights compared").copied().unwrap_or(0) < least {
        // small kinds take turns with any kind, and with a whole set
        let kind = if at % 64 == 0 { at / 64 % 17 } else { [0, 1, 2, 3, 9, 10, 6, 4][at % 8] };
        weights::random(&mut report, &mut rng, kind);
        if at % 1000 == 0 {
            sets::random(&mut report, &mut rng);
        }
        at += 1;
    }
    report.print()
}

fn main() {
    let given: Vec<u64> = std::env::args().skip(1).map(|a| a.parse().expect("a number")).collect();
    let [seed, random, least] = given[..] else {
        eprintln!("usage: compare SEED HEADERS WEIGHTS");
        std::process::exit(2);
    };
    if !run(seed, random, least) {
        std::process::exit(1);
    }
}
