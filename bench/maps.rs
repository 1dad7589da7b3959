//! Times the calls of std's `HashMap` and of a sorted vector with the keys and values of `bench_hash`, in nanoseconds a call:
//!
//!   rustc -O -o /tmp/maps maps.rs && /tmp/maps

use std::collections::HashMap;
use std::hint::black_box;
use std::time::Instant;

const COUNT: u32 = 65_536;

/// The keys without order, as bytes.
fn shuffled() -> Vec<[u8; 4]> {
    (0..COUNT).map(|index| index.wrapping_mul(2_654_435_761).to_le_bytes()).collect()
}

/// The same keys in another order.
fn reordered(keys: &[[u8; 4]]) -> Vec<[u8; 4]> {
    (0..keys.len()).map(|index| keys[index * 40_507 % keys.len()]).collect()
}

fn time(words: &str, keys: &[[u8; 4]], mut call: impl FnMut(&[u8; 4])) {
    let start = Instant::now();
    keys.iter().for_each(|key| call(black_box(key)));
    println!("{words}: {} ns", start.elapsed().as_nanos() / keys.len() as u128);
}

fn hash_map(keys: &[[u8; 4]], others: &[[u8; 4]]) {
    let mut map = HashMap::with_capacity(keys.len());
    println!("a HashMap");
    time("inserted", keys, |key| {
        black_box(map.insert(*key, [1u8; 8]));
    });
    time("found", others, |key| {
        black_box(map.get(key).copied());
    });
    time("updated", others, |key| {
        black_box(map.insert(*key, [2u8; 8]));
    });
    time("deleted", others, |key| {
        black_box(map.remove(key));
    });
}

fn sorted_vector(keys: &[[u8; 4]], others: &[[u8; 4]]) {
    let mut entries: Vec<([u8; 4], [u8; 8])> = Vec::with_capacity(keys.len());
    println!("a sorted vector");
    time("inserted", keys, |key| {
        if let Err(place) = entries.binary_search_by(|entry| entry.0.cmp(key)) {
            entries.insert(place, (*key, [1; 8]));
        }
    });
    time("found", others, |key| {
        let place = entries.binary_search_by(|entry| entry.0.cmp(key));
        black_box(place.map(|place| entries[place].1).ok());
    });
    time("updated", others, |key| {
        if let Ok(place) = entries.binary_search_by(|entry| entry.0.cmp(key)) {
            black_box(std::mem::replace(&mut entries[place].1, [2; 8]));
        }
    });
    time("deleted", others, |key| {
        if let Ok(place) = entries.binary_search_by(|entry| entry.0.cmp(key)) {
            black_box(entries.remove(place));
        }
    });
}

fn main() {
    let keys = shuffled();
    let others = reordered(&keys);
    hash_map(&keys, &others);
    sorted_vector(&keys, &others);
}
