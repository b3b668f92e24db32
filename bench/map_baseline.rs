// The same passes over std's BTreeMap, for bench/map.sh. Build: rustc --edition 2021 -O map_baseline.rs
use std::collections::BTreeMap;
use std::hint::black_box;
use std::time::Instant;

type Key = (u32, u8, u32);

const DRAWN: u32 = 1_200_000;
const KEPT: usize = 1_000_000;

fn next(state: u64) -> u64 {
    state.wrapping_mul(6_364_136_223_846_793_005).wrapping_add(1_442_695_040_888_963_407)
}

fn length(draw: u64) -> u8 {
    match draw % 16 { 0 => 16, 1 => 19, 2 => 20, 3 => 21, 4 => 22, 5 => 23, _ => 24 }
}

fn keys(sorted: bool) -> Vec<Key> {
    let mut keys = Vec::with_capacity(DRAWN as usize);
    let mut state = 1u64;
    for _ in 0..DRAWN {
        state = next(state);
        let addr = (state >> 32) as u32;
        state = next(state);
        let len = length(state >> 40);
        keys.push((addr >> (32 - len) << (32 - len), len, 0));
    }
    keys.sort_unstable();
    keys.dedup();
    for i in (1..keys.len()).rev() {
        state = next(state);
        keys.swap(i, (state >> 33) as usize % (i + 1));
    }
    keys.truncate(KEPT);
    if sorted { keys.sort_unstable(); }
    keys
}

// The longest match by one search for each length.
fn longest(map: &BTreeMap<Key, u64>, addr: u32) -> Option<u32> {
    (0..=32u8).rev().find_map(|len| {
        let network = ((addr as u64) >> (32 - len) << (32 - len)) as u32;
        map.get(&(network, len, 0)).map(|_| network)
    })
}

fn timed(name: &str, pass: impl FnOnce() -> u64) {
    let start = Instant::now();
    let sum = black_box(pass());
    println!("{name} {} {sum}", start.elapsed().as_nanos());
}

fn main() {
    let words: Vec<String> = std::env::args().collect();
    let has = |word: &str| words.iter().any(|w| w == word);
    let keys = keys(has("sorted"));
    println!("keys {}", keys.len());
    if !has("fill") && !has("all") { return; }
    let mut map = BTreeMap::new();
    timed("insert", || {
        for key in &keys { map.insert(*key, key.0 as u64); }
        map.len() as u64
    });
    if !has("all") { return; }
    timed("get", || keys.iter().filter_map(|key| map.get(key)).fold(0, |sum, value| sum.wrapping_add(*value)));
    timed("longest", || keys.iter().filter_map(|key| longest(&map, key.0)).fold(0, |sum, addr| sum.wrapping_add(addr as u64)));
    timed("walk", || {
        let entries: Vec<(Key, &u64)> = map.iter().map(|(key, value)| (*key, value)).collect();
        entries.iter().fold(0, |sum, entry| sum.wrapping_mul(31).wrapping_add(*entry.1))
    });
    timed("remove", || keys.iter().filter_map(|key| map.remove(key)).fold(0, |sum, value| sum.wrapping_add(value)));
}
