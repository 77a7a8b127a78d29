//! Ours, through the static library, and the ported Rust source, unchanged, timed in one run from one driver.
//!
//! `bench ROUNDS` prints the table: of each job and side the least time of ROUNDS rounds, in which the sides take
//! turns. `bench JOB ours|rust TIMES` runs one side of one job alone, for a tool that counts instructions.
//! `bench stack BYTES` runs each call of ours in a thread with a stack of so many bytes.
extern crate standins as jxl_bitstream;
extern crate standins as jxl_grid;
extern crate standins as jxl_modular;
extern crate standins as jxl_oxide_common;
extern crate standins as jxl_threadpool;
extern crate standins as tracing;

#[path = "../../compare/src/kinds.rs"]
mod kinds;
#[allow(dead_code)]
#[path = "../../compare/src/make.rs"]
mod make;
#[allow(dead_code, clippy::all)]
#[path = "../../compare/src/ported.rs"]
mod ported;

mod jobs;
mod stack;

pub type Error = standins::Error;
pub type Result<T> = std::result::Result<T, Error>;
pub use kinds::TransformType;

use jobs::Job;
use std::time::{Duration, Instant};

/// The time of one call, of as many as fill a millisecond or more.
fn time(side: &mut dyn FnMut()) -> Duration {
    let (mut calls, least) = (1, Duration::from_millis(1));
    loop {
        let start = Instant::now();
        (0..calls).for_each(|_| side());
        let took = start.elapsed();
        if took >= least {
            return took / calls;
        }
        calls *= 4;
    }
}

fn best(job: &mut Job, rounds: u32) -> (Duration, Option<Duration>) {
    let mut ours = Duration::MAX;
    let mut rust = job.rust.as_ref().map(|_| Duration::MAX);
    for _ in 0..rounds {
        ours = ours.min(time(&mut job.ours));
        if let (Some(side), Some(least)) = (&mut job.rust, &mut rust) {
            *least = time(side).min(*least);
        }
    }
    (ours, rust)
}

fn table(rounds: u32) {
    println!("| job | unit | ours, ns | Rust, ns | ratio | ours, MB/s |");
    println!("|---|---|---|---|---|---|");
    for make in jobs::ALL {
        let mut job = make();
        let (ours, rust) = best(&mut job, rounds);
        let each = |d: Duration| d.as_nanos() as f64 / job.units as f64;
        let other = rust.map_or(["", ""].map(String::from), |d| {
            [format!("{:.3}", each(d)), format!("{:.2}", each(ours) / each(d))]
        });
        let rate = if job.unit == "byte" { format!("{:.0}", 1e3 / each(ours)) } else { String::new() };
        println!("| {} | {} of {} | {:.3} | {} | {} | {rate} |", job.name, job.unit, job.units, each(ours), other[0], other[1]);
    }
}

fn main() {
    let given: Vec<String> = std::env::args().skip(1).collect();
    match &given[..] {
        [rounds] => table(rounds.parse().expect("how many rounds")),
        [word, bytes] if word == "stack" => stack::small(bytes.parse().expect("how many bytes")),
        [name, side, times] => {
            let mut job = jobs::ALL.iter().map(|make| make()).find(|j| j.name == name).expect("a job of the table");
            let mut side = if side == "ours" { job.ours } else { job.rust.take().expect("a job that the Rust has") };
            (0..times.parse().expect("how many times")).for_each(|_: u32| side());
        }
        _ => {
            eprintln!("usage: bench ROUNDS, bench JOB ours|rust TIMES, or bench stack BYTES");
            std::process::exit(2);
        }
    }
}
