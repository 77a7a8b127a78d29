//! matrices HEADER: reads a header from a file, expands it, and shows the first numbers of kind 6 in both orders.
//! Raw samples are not decoded here: at a raw kind the program says so and stops.
use dequant::{Order, Reply, ARENA, ROW, ROWS};

fn main() {
    let name = std::env::args().nth(1).expect("usage: matrices HEADER");
    let header = std::fs::read(name).expect("the header's file");
    let mut rows = [0; ROWS];
    match dequant::read_header(&header, 0, 0, &mut rows) {
        Reply::Done(next) => println!("DONE next bit {next}, default {}", rows[126]),
        Reply::Raw { kind, next } => {
            return println!("RAW kind {kind} bit {next} denominator {:04x}", rows[kind * ROW + 3]);
        }
        refused => panic!("refused: {refused:?}"),
    }
    let mut straight = vec![0.0; ARENA];
    let mut transposed = vec![0.0; ARENA];
    let reply = dequant::expand(&rows, &[], &mut straight, &mut transposed);
    assert_eq!(reply, Reply::Done(0), "not expanded");
    for (name, order) in [("straight", Order::Straight), ("transposed", Order::Transposed)] {
        let part = dequant::lookup(&straight, &transposed, 6, 0, order);
        println!("{name}: {} weights: {:.12} {:.12} {:.12}", part.len(), part[0], part[1], part[2]);
    }
}
