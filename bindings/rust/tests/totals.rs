//! The total beside an arena, through the C face: document 02's vectors (two with a reply slice of another length are in examples/c/calls.c),
//! and what the totals are for.
mod common;
use common::{Vector, bits, number, vectors, weights};
use dequant::*;

const NAN: u64 = 0x7fc0_0000;

/// The reply that a vector wants.
fn wanted(v: &Vector) -> Reply {
    match v["want.reply"].split_once(' ') {
        Some(("0", total)) => Reply::Done(total.parse().unwrap()),
        None if v["want.reply"] == "1" => Reply::Lent,
        _ => panic!("{v:?}"),
    }
}

#[test]
fn stretches_count_as_the_vectors_want() {
    let all = vectors("total");
    for v in &all {
        let arena = weights(&v["arena"], number(v, "arena_len", ARENA));
        assert_eq!(total(&arena, number(v, "first", 0), number(v, "count", 0)), wanted(v), "{v:?}");
    }
    assert_eq!(all.len(), 26);
}

#[test]
fn kinds_are_replaced_as_the_vectors_want() {
    let all = vectors("replace");
    for v in &all {
        let kind = number(v, "kind", 0);
        let mut arena = weights(&v["arena"], number(v, "arena_len", ARENA));
        let given = weights(&v["weights"], number(v, "weights_len", if kind < 17 { places(kind) } else { 192 }));
        let mut left = arena.clone();
        assert_eq!(replace_kind(&mut arena, number(v, "total", 0), kind, &given), wanted(v), "{v:?}");
        if wanted(v) != Reply::Lent {
            left[start(kind)..][..places(kind)].copy_from_slice(&given);
            for item in v.get("want.arena.at").into_iter().flat_map(|list| list.split(',')) {
                let (place, hex) = item.split_once(':').unwrap();
                assert_eq!(format!("{:08x}", arena[place.parse::<usize>().unwrap()].to_bits()), hex);
            }
            let counted = number(v, "want.arena.total64", 0);
            assert!(counted == 0 || total(&arena, 0, ARENA) == Reply::Done(counted), "{v:?}");
        }
        assert!(bits(&arena) == bits(&left), "{v:?}");
    }
    assert_eq!(all.len(), 17);
}

/// The total of an arena, kept beside it while kinds are replaced, is what a fresh count gives.
#[test]
fn a_total_is_kept_beside_an_arena() {
    let mut arena = weights("mix:7", ARENA);
    let Reply::Done(mut kept) = total(&arena, 0, ARENA) else { panic!("not counted") };
    for kind in (0..17).rev() {
        let next = replace_kind(&mut arena, kept, kind, &weights(&format!("mix:{kind}"), places(kind)));
        assert_eq!(next, total(&arena, 0, ARENA));
        let Reply::Done(sum) = next else { panic!("not replaced") };
        kept = sum;
    }
    let parts = (0..17).map(|kind| match total(&arena, start(kind), places(kind)) {
        Reply::Done(sum) => sum,
        other => panic!("{other:?}"),
    });
    assert_eq!(parts.fold(0, u64::wrapping_add), kept);
}

/// A NaN counts with one pattern, whatever its own; and different arenas may share a total.
#[test]
fn what_a_total_does_not_tell() {
    let mut arena = weights("const:0;0=7f800001;1=ffffffff", ARENA);
    assert_eq!(total(&arena, 0, 2), Reply::Done(NAN + 2 * NAN));
    assert_eq!(replace_kind(&mut arena, 3 * NAN, 0, &weights("const:0;2=ffc00001", 192)), Reply::Done(3 * NAN));
    let share = |rule| total(&weights(rule, ARENA), 0, ARENA);
    assert_eq!(share("const:0;0=2"), share("const:0;1=1"));
}
