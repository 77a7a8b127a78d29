//! Document 02's vectors of lookup in the three orders, through the C face. Those with a number that names no order, or with a reply
//! slice of another length, cannot be asked for from here: examples/c/calls.c has them.
mod common;
use common::{number, vectors};
use dequant::{ARENA, Order, lookup};

/// Where a part stands as the C face says it: DONE, the arena, the first place and the length; an empty part is LENT.
fn place(arenas: [&[f32]; 2], part: &[f32]) -> String {
    let Some(first) = part.first() else { return "1".into() };
    let arena = arenas.iter().position(|a| a.as_ptr_range().contains(&std::ptr::from_ref(first))).unwrap();
    let at = (std::ptr::from_ref(first) as usize - arenas[arena].as_ptr() as usize) / size_of::<f32>();
    format!("0 {arena} {at} {}", part.len())
}

#[test]
fn lookup_shows_what_the_vectors_want() {
    let (straight, transposed) = (vec![0.0; ARENA], vec![0.0; ARENA]);
    let mut asked = [0; 3];
    for v in vectors("lookup") {
        let Some(&order) = [Order::Unnamed, Order::Straight, Order::Transposed].get(v["order"].parse::<usize>().unwrap()) else {
            continue;
        };
        let arenas = [&straight[..number(&v, "straight_len", ARENA)], &transposed[..number(&v, "transposed_len", ARENA)]];
        let part = lookup(arenas[0], arenas[1], number(&v, "kind", 0), number(&v, "channel", 0), order);
        assert_eq!(place(arenas, part), v["want.reply"], "{v:?}");
        asked[order as usize] += 1;
    }
    assert_eq!(asked, [22, 7, 6]);
}
