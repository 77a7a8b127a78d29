//! The vectors of the documents, for tests that replay them through the C face; each uses a part of what is here.
#![allow(dead_code)]
use std::collections::HashMap;
use std::fs;

/// A vector's lines, the value by its key.
pub type Vector = HashMap<String, String>;

/// The vectors of one call.
pub fn all_vectors(call: &str) -> Vec<Vector> {
    let folder = concat!(env!("CARGO_MANIFEST_DIR"), "/../../tests/vectors");
    let load = |path| -> Vector {
        let text = fs::read_to_string(path).unwrap();
        text.lines().filter_map(|line| line.split_once('=')).map(|(key, value)| (key.into(), value.into())).collect()
    };
    let all = fs::read_dir(folder).unwrap().map(|entry| load(entry.unwrap().path()));
    all.filter(|v| v["call"] == call).collect()
}

/// Those that have a reply to be wanted and can be asked for by the wrapper, which always lends a reply slice of three places.
pub fn vectors(call: &str) -> Vec<Vector> {
    all_vectors(call).into_iter().filter(|v| v.contains_key("want.reply") && !v.contains_key("reply_len")).collect()
}

/// A number of a vector, or what it is where the vector is silent.
pub fn number<T: std::str::FromStr>(v: &Vector, key: &str, other: T) -> T {
    v.get(key).map_or(other, |n| n.parse().ok().expect(key))
}

/// Weights by the rule of a vector: mix:SEED or const:BITS, then P=BITS for each place apart.
pub fn weights(rule: &str, n: usize) -> Vec<f32> {
    let mut parts = rule.split(';');
    let bits = |hex| u32::from_str_radix(hex, 16).unwrap();
    let mut all: Vec<f32> = match parts.next().unwrap().split_once(':').unwrap() {
        ("mix", seed) => {
            let seed: u64 = seed.parse().unwrap();
            let word = |p: u64| (p * 2_654_435_761 + seed * 40503 + (p >> 7) * 97 + 12345) as u32 & 0xff7f_ffff;
            (0..n as u64).map(|p| f32::from_bits(word(p))).collect()
        }
        (_, hex) => vec![f32::from_bits(bits(hex)); n],
    };
    for (place, hex) in parts.map(|part| part.split_once('=').unwrap()) {
        all[place.parse::<usize>().unwrap()] = f32::from_bits(bits(hex));
    }
    all
}

/// The bits of each weight.
pub fn bits(part: &[f32]) -> Vec<u32> {
    part.iter().map(|w| w.to_bits()).collect()
}
