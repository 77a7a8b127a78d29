//! Prints one matrix of the default set as lookup shows it: a line with kind, channel, width and height, then the
//! weights straight, then transposed, then with no order named, a line each. Arguments: kind, channel.
use dequant::{Order, Reply, ARENA, ROWS, SIZES};

fn main() {
    let given: Vec<usize> = std::env::args().skip(1).map(|a| a.parse().expect("a number")).collect();
    let [kind, channel] = given[..] else { panic!("usage: order KIND CHANNEL") };
    let mut rows = [0; ROWS];
    assert_eq!(dequant::read_header(&[1], 0, 0, &mut rows), Reply::Done(1));
    let (mut straight, mut transposed) = (vec![0.0; ARENA], vec![0.0; ARENA]);
    assert_eq!(dequant::expand(&rows, &[], &mut straight, &mut transposed), Reply::Done(0));
    println!("{kind} {channel} {} {}", SIZES[kind].0, SIZES[kind].1);
    for order in [Order::Straight, Order::Transposed, Order::Unnamed] {
        let shown = dequant::lookup(&straight, &transposed, kind, channel, order);
        let words: Vec<String> = shown.iter().map(|w| format!("{:08x}", w.to_bits())).collect();
        println!("{}", words.join(" "));
    }
}
