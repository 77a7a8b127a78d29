//! Every call from Rust: answers, refusals, and what the lent slices then hold.
use dequant::*;

/// Rows read from a header, raw kinds passed over.
fn rows_of(header: &[u8]) -> Vec<u16> {
    let mut rows = vec![0; ROWS];
    let mut at = read_header(header, 0, 0, &mut rows);
    while let Reply::Raw { kind: kind @ 0..=15, next } = at {
        at = read_header(header, next, kind + 1, &mut rows);
    }
    rows
}

#[test]
fn a_header_is_read() {
    let mut rows = [9; ROWS];
    assert_eq!(read_header(&[0; 7], 0, 0, &mut rows), Reply::Done(52));
    assert!(rows.iter().all(|&v| v == 0));
    assert_eq!(read_header(&[0; 6], 0, 0, &mut rows), Reply::Short { kind: 15, bit: 46, lacks: 1 });
    assert_eq!(read_header(&[0x00, 0x20], 0, 0, &mut rows), Reply::Mode { kind: 4, bit: 13 });
    assert_eq!(read_header(&[0x02, 0xc0, 0x07], 0, 0, &mut rows), Reply::Float { kind: 0, bit: 4 });
    assert_eq!(read_header(&[1], 0, 17, &mut rows), Reply::Lent);
    assert_eq!(read_header(&[1], 0, 0, &mut rows[1..]), Reply::Lent);
}

/// A field that is partly there, one whose first bit is the last, and fields that start at the end or past it.
#[test]
fn a_short_header_says_how_much_it_lacks() {
    let short = |header: &[u8], at, no| match read_header(header, at, no, &mut [0; ROWS]) {
        Reply::Short { kind, bit, lacks } => (kind, bit, lacks),
        other => panic!("{other:?}"),
    };
    assert_eq!(short(&[], 0, 0), (0, 0, 1));
    assert_eq!(short(&[0x02], 0, 0), (0, 4, 12));
    assert_eq!(short(&[0], 7, 16), (16, 7, 2));
    assert_eq!(short(&[0], 8, 16), (16, 8, 3));
    assert_eq!(short(&[0], u64::MAX, 0), (0, u64::MAX, 1));
    assert_eq!(short(&[0], u64::MAX, 5), (5, u64::MAX, 3));
}

#[test]
fn matrices_are_looked_up() {
    let rows = rows_of(&[1]);
    let mut straight = vec![0.0; ARENA];
    let mut transposed = vec![0.0; ARENA];
    assert_eq!(expand(&rows, &[], &mut straight, &mut transposed), Reply::Done(0));
    for kind in 0..17 {
        let (width, height) = SIZES[kind];
        for channel in 0..3 {
            let look = |order| lookup(&straight, &transposed, kind, channel, order);
            let (s, t) = (look(Order::Straight), look(Order::Transposed));
            assert_eq!(s.len(), width * height);
            assert!((0..s.len()).all(|p| s[p] == t[p % width * height + p / width]));
            assert_eq!(look(Order::Unnamed).as_ptr(), t.as_ptr());
            assert_eq!(look(Order::Unnamed).len(), t.len());
        }
    }
    assert!(lookup(&straight, &transposed, 3, 0, Order::Straight).iter().all(|&w| w == 1.0 / 2200.0));
    assert!(lookup(&straight, &transposed, 17, 0, Order::Straight).is_empty());
    assert!(lookup(&straight, &transposed, 0, 3, Order::Transposed).is_empty());
    assert!(lookup(&straight[1..], &transposed, 0, 0, Order::Transposed).is_empty());
    assert_eq!(expand(&rows, &[1], &mut straight, &mut transposed), Reply::Lent);
    assert!(straight[0] > 0.0);
}

/// DENOM comes behind ROW and before BAND, names the lowest kind, and changes nothing.
#[test]
fn an_odd_denominator_refuses_the_set() {
    let mut rows = vec![0; ROWS];
    rows[..9].copy_from_slice(&[6, 2, 0, 0x3c00, 0x3c00, 0, 0x3c00, 0x3c00, 0x3c00]); // kind 0: band 1 of channel 1 is 0
    let samples = vec![-5; ARENA];
    let (mut straight, mut transposed) = (vec![9.0; ARENA], vec![9.0; ARENA]);
    assert_eq!(expand(&rows, &[], &mut straight, &mut transposed), Reply::Band { kind: 0, channel: 1, band: 1 });
    assert!(straight.iter().chain(&transposed).all(|&w| w == 0.0));
    straight.fill(9.0);
    transposed.fill(9.0);
    for (kind, denominator) in [(16, 0xbc00), (5, 0x8000), (3, 0x0000)] {
        rows[kind * ROW] = 7;
        rows[kind * ROW + 3] = denominator;
        assert_eq!(expand(&rows, &samples, &mut straight, &mut transposed), Reply::Denom { kind });
    }
    assert!(straight.iter().chain(&transposed).all(|&w| w == 9.0));
    assert_eq!(jpeg_quant_values(&rows, &samples, 0), Err(Reply::None));
    rows[16 * ROW + 4] = 1;
    assert_eq!(expand(&rows, &samples, &mut straight, &mut transposed), Reply::Row { kind: 16 });
}

#[test]
fn jpeg_values_are_a_part_of_the_samples() {
    let mut rows = rows_of(&[0; 7]);
    let samples: Vec<i32> = (0..ARENA as i32).collect();
    assert_eq!(jpeg_quant_values(&rows, &samples, 0), Err(Reply::None));
    rows[0] = 7;
    for (denominator, there) in [(0x1003, false), (0x1004, true), (0x1005, false)] {
        rows[3] = denominator;
        assert_eq!(jpeg_quant_values(&rows, &samples, 2).is_ok(), there);
    }
    rows[3] = 0x1004;
    assert_eq!(jpeg_quant_values(&rows, &samples, 2).unwrap(), &samples[128..192]);
    assert_eq!(jpeg_quant_values(&rows, &[], 2), Err(Reply::Lent));
    assert_eq!(jpeg_quant_values(&rows, &samples, 3), Err(Reply::Lent));
    rows[4] = 1;
    assert_eq!(jpeg_quant_values(&rows, &samples, 0), Err(Reply::Row { kind: 0 }));
}

#[test]
fn a_record_reads_back() {
    let mut text = vec![b'?'; 100_000];
    assert_eq!(write_record(&rows_of(&[1]), &[], &mut text), Reply::Done(10));
    assert_eq!(&text[..11], b"default=1\n?");
    assert_eq!(write_record(&rows_of(&[1]), &[], &mut text[..9]), Reply::Room { length: 10 });
    let mut rows = rows_of(&[0; 7]);
    (rows[0], rows[3]) = (7, 0x1004);
    let mut samples = vec![0; ARENA];
    (0..192).for_each(|p| samples[p] = p as i32 - 96);
    let Reply::Done(length) = write_record(&rows, &samples, &mut text) else { panic!("no record") };
    let text = &text[..length as usize];
    assert!(text.starts_with(b"default=0\nkind=0\nmode=7\norders=one\nnumbers=1004\nsamples=-96,-95,"));
    let (mut rows2, mut samples2) = (vec![9; ROWS], vec![9; ARENA]);
    assert_eq!(read_record(text, &mut rows2, &mut []), Reply::Room { length: ARENA as u64 });
    assert_eq!(read_record(text, &mut rows2, &mut samples2), Reply::Done(0));
    assert_eq!((&rows2, &samples2[..192]), (&rows, &samples[..192]));
    assert!(samples2[192..].iter().all(|&s| s == 9));
    let bad = [&text[..40], b"x"].concat();
    assert_eq!(read_record(&bad, &mut rows2, &mut samples2), Reply::Text { shared: 40 });
    assert_eq!(read_record(&text[..40], &mut rows2, &mut samples2), Reply::Text { shared: 40 });
}

/// The calls need little stack.
#[test]
fn a_stack_of_64_kib_is_enough() {
    let thread = std::thread::Builder::new().stack_size(64 * 1024).spawn(|| {
        let mut rows = vec![0; ROWS];
        assert_eq!(read_header(&[0; 7], 0, 0, &mut rows), Reply::Done(52));
        let mut arenas = [vec![0.0; ARENA], vec![0.0; ARENA]];
        let [straight, transposed] = &mut arenas;
        assert_eq!(expand(&rows, &[], straight, transposed), Reply::Done(0));
        let counted = total(straight, 0, ARENA);
        let Reply::Done(kept) = counted else { panic!("no total") };
        let own = straight[..192].to_vec();
        assert_eq!(replace_kind(straight, kept, 0, &own), counted);
        let mut text = vec![0; 1000];
        let Reply::Done(length) = write_record(&rows, &[], &mut text) else { panic!("no record") };
        assert_eq!(read_record(&text[..length as usize], &mut rows, &mut []), Reply::Done(0));
    });
    thread.unwrap().join().unwrap();
}
