//! The short arena: document 02's vectors through the C face, each with whatever state and reply slice it lends; and by the wrapper, which keeps
//! the state itself.
#[path = "../src/face.rs"]
#[allow(dead_code)]
mod face;
mod common;
use common::{Vector, all_vectors, bits, number, weights};
use dequant::*;

/// A call of a vector: a kind added with weights, looked up, or dropped.
enum Call {
    Add(usize, Vec<f32>),
    Lookup(usize),
    Drop(usize),
}

/// The calls of a vector, one after another.
fn calls(v: &Vector) -> Vec<Call> {
    let call = |text: &str| {
        let words: Vec<&str> = text.split(' ').collect();
        let kind = words[1].parse().unwrap();
        match words[0] {
            "add" => {
                let right = if kind < 17 { places(kind) } else { 192 };
                Call::Add(kind, weights(words[2], words.get(3).map_or(right, |n| n.parse().unwrap())))
            }
            "lookup" => Call::Lookup(kind),
            _ => Call::Drop(kind),
        }
    };
    v["ops"].split('|').map(call).collect()
}

/// A state, as the vectors write it.
fn bytes(text: &str) -> Vec<u8> {
    text.split(',').filter(|n| !n.is_empty()).map(|n| n.parse().unwrap()).collect()
}

/// Whether the arena is what the vector wants of one that was `before`.
fn is_wanted(v: &Vector, arena: &[f32], before: &[f32]) -> bool {
    let at = |item: &str| {
        let (place, hex) = item.split_once(':').unwrap();
        format!("{:08x}", arena[place.parse::<usize>().unwrap()].to_bits()) == hex
    };
    let total = || (1u64..).zip(bits(arena)).fold(0u64, |sum, (i, w)| sum.wrapping_add(i * u64::from(w)));
    match v["want.arena"].as_str() {
        "unchanged" => bits(arena) == bits(before),
        "zero" => bits(arena).iter().all(|&w| w == 0),
        _ => v["want.arena.at"].split(',').all(at) && total() == number(v, "want.arena.total64", 0),
    }
}

#[test]
fn the_vectors_through_the_c_face() {
    let all = all_vectors("short");
    for v in &all {
        let before = weights(&v["arena"], number(v, "arena_len", 0));
        let (mut arena, mut state) = (before.clone(), bytes(&v["state"]));
        let mut said = Vec::new();
        for call in calls(v) {
            let mut reply = [7u64; 4];
            let n: usize = number(v, "reply_len", 3);
            let (a, a_len, s, s_len, r) = (arena.as_mut_ptr(), arena.len(), state.as_mut_ptr(), state.len(), reply.as_mut_ptr());
            // SAFETY: each pointer comes with the length of its own slice, or for the reply with one that is no longer.
            let answer = unsafe {
                match &call {
                    Call::Add(kind, w) => face::dequant_short_add(a, a_len, s, s_len, *kind, w.as_ptr(), w.len(), r, n),
                    Call::Lookup(kind) => face::dequant_short_lookup(a, a_len, s, s_len, *kind, r, n),
                    Call::Drop(kind) => face::dequant_short_drop(a, a_len, s, s_len, *kind, r, n),
                }
            };
            assert_eq!(reply[3], 7);
            if n != 3 {
                assert_eq!(reply, [7; 4]);
                reply = [0; 4];
            }
            // a part is there with its length; other values are 0
            let values = if reply[1] != 0 { format!(" {} {}", reply[0], reply[1]) } else { String::new() };
            assert!(reply[2] == 0 && (!values.is_empty() || reply[0] == 0), "{v:?}");
            said.push(format!("{answer}{values}"));
        }
        assert_eq!(said.join("|"), v["want.replies"], "{v:?}");
        let wanted = if v["want.state"] == "unchanged" { &v["state"] } else { &v["want.state"] };
        assert_eq!(state, bytes(wanted), "{v:?}");
        assert!(is_wanted(v, &arena, &before), "{v:?}");
    }
    assert_eq!(all.len(), 52);
}

/// The vectors that begin with nothing held: the wrapper answers the same, and shows for each held kind the weights that it was added with.
#[test]
fn the_wrapper_keeps_the_state() {
    let empty = |v: &&Vector| bytes(&v["state"]) == [0; 18] && !v.contains_key("reply_len");
    let all = all_vectors("short");
    let mut count = 0;
    for v in all.iter().filter(empty) {
        count += 1;
        let before = weights(&v["arena"], number(v, "arena_len", 0));
        let mut arena = before.clone();
        let mut short = ShortArena::new(&mut arena);
        let mut added: Vec<(usize, Vec<f32>)> = Vec::new();
        for (call, wanted) in calls(v).into_iter().zip(v["want.replies"].split('|')) {
            let words: Vec<u64> = wanted.split(' ').map(|n| n.parse().unwrap()).collect();
            let wanted = match words[0] {
                0 => Reply::Done(words.get(1).copied().unwrap_or(0)),
                1 => Reply::Lent,
                13 => Reply::Full,
                17 => Reply::Held,
                _ => Reply::Gone,
            };
            let answer = match call {
                Call::Add(kind, w) => {
                    let answer = short.add(kind, &w);
                    if let Reply::Done(_) = answer {
                        added.push((kind, w));
                    }
                    answer
                }
                Call::Lookup(kind) => short.lookup(kind).map_or_else(|r| r, |part| {
                    assert_eq!(part.len() as u64, words[2]);
                    wanted
                }),
                Call::Drop(kind) => {
                    let answer = short.drop_kind(kind);
                    if let Reply::Done(_) = answer {
                        added.retain(|(k, _)| *k != kind);
                    }
                    answer
                }
            };
            assert_eq!(answer, wanted, "{v:?}");
            let held: Vec<u8> = added.iter().map(|(kind, _)| *kind as u8).collect();
            assert_eq!(short.kinds(), held);
            for (kind, w) in &added {
                assert!(bits(short.lookup(*kind).unwrap()) == bits(w), "{v:?}");
            }
        }
        assert!(is_wanted(v, &arena, &before), "{v:?}");
    }
    assert_eq!(count, 24);
}

/// A slice longer than an arena is refused by each call, and no kind is one above 16.
#[test]
fn what_is_lent_wrong() {
    let mut room = vec![0f32; ARENA + 1];
    let mut short = ShortArena::new(&mut room);
    assert_eq!(short.add(0, &[1.0; 192]), Reply::Lent);
    assert_eq!(short.lookup(0), Err(Reply::Lent));
    assert_eq!(short.drop_kind(0), Reply::Lent);
    let mut short = ShortArena::new(&mut room[..ARENA]);
    assert_eq!(short.add(17, &[]), Reply::Lent);
    assert_eq!(short.add(0, &[1.0; 191]), Reply::Lent);
    for kind in 0..17 {
        assert_eq!(short.add(kind, &vec![kind as f32; places(kind)]), Reply::Done(start(kind) as u64));
    }
    assert_eq!(short.drop_kind(15), Reply::Done(0));
    assert!(short.lookup(16).unwrap().iter().all(|&w| w == 16.0));
    assert!(room[ARENA - places(15)..].iter().all(|&w| w == 0.0));
}
