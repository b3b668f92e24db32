// How the time of a million insertions in scattered order grows with their number on this machine, for maps of Rust's
// std and for an array that is only counted in: the yardstick for dumps whose keys are scattered (docs/PERFORMANCE.md).
//   rustc --edition 2021 -O -o scattered bench/scattered_baseline.rs && ./scattered
// Prints the least of five times for 250,000 to 4,000,000 keys, and each over the one before.
use std::collections::{BTreeMap, HashMap};
use std::hint::black_box;
use std::time::Instant;

const PREFIX: u64 = 0x0a00_0000_18;

/// Identifiers in scattered order (xorshift).
fn identifiers(count: u32) -> impl Iterator<Item = u32> {
    let mut state = 88_172_645_463_325_252u64;
    (0..count).map(move |_| {
        state ^= state << 13;
        state ^= state >> 7;
        state ^= state << 17;
        (state >> 20) as u32
    })
}

fn in_a_tree(count: u32) {
    let mut map = BTreeMap::new();
    for id in identifiers(count) {
        map.insert((PREFIX, id), u64::from(id));
    }
    black_box(&map);
}

fn in_a_hash_map(count: u32) {
    let mut map = HashMap::new();
    for id in identifiers(count) {
        map.insert((PREFIX, id), u64::from(id));
    }
    black_box(&map);
}

/// Counts in an array of as many bytes as a map of such keys and values has at least.
fn in_an_array(count: u32) {
    let mut cells = vec![0u64; 3 * count as usize];
    for id in identifiers(count) {
        let at = (u64::from(id) * cells.len() as u64) >> 32;
        cells[at as usize] += 1;
    }
    black_box(&cells);
}

fn main() {
    let kinds: [(&str, fn(u32)); 3] = [
        ("BTreeMap", in_a_tree),
        ("HashMap", in_a_hash_map),
        ("array", in_an_array),
    ];
    for (name, insert_all) in kinds {
        let mut least = [f64::MAX; 5];
        for _ in 0..5 {
            for (step, time) in least.iter_mut().enumerate() {
                let start = Instant::now();
                insert_all(250_000 << step);
                *time = time.min(start.elapsed().as_secs_f64());
            }
        }
        let times: Vec<String> = least.iter().map(|time| format!("{time:.3}")).collect();
        let ratios: Vec<String> = least.windows(2).map(|pair| format!("{:.2}", pair[1] / pair[0])).collect();
        println!("{name}: {} s; {} times", times.join(", "), ratios.join(", "));
    }
}
