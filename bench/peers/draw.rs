// A plain shuffle and fold in Rust, as crates/bench_all makes them: ChaCha20's words, an exchange from the last entry down,
// and a heap that keeps the greatest place at hand.
//
// usage: rustc -O bench/peers/draw.rs -o /tmp/draw && /tmp/draw COUNT KEPT SEEDS
use std::collections::BinaryHeap;
use std::time::Instant;

pub struct Item {
    pub value: u64,
    pub weight: u64,
}

fn quarter(s: &mut [u32; 16], a: usize, b: usize, c: usize, d: usize) {
    for (x, y, z, n) in [(a, b, d, 16), (c, d, b, 12), (a, b, d, 8), (c, d, b, 7)] {
        s[x] = s[x].wrapping_add(s[y]);
        s[z] = (s[z] ^ s[x]).rotate_left(n);
    }
}

pub fn block(key: &[u32; 8], number: u64) -> [u32; 16] {
    let mut start = [0x61707865, 0x3320646e, 0x79622d32, 0x6b206574, 0, 0, 0, 0, 0, 0, 0, 0, 0, 0, 0, 0];
    start[4..12].copy_from_slice(key);
    start[12] = number as u32;
    start[13] = (number >> 32) as u32;
    let mut s = start;
    for _ in 0..10 {
        quarter(&mut s, 0, 4, 8, 12);
        quarter(&mut s, 1, 5, 9, 13);
        quarter(&mut s, 2, 6, 10, 14);
        quarter(&mut s, 3, 7, 11, 15);
        quarter(&mut s, 0, 5, 10, 15);
        quarter(&mut s, 1, 6, 11, 12);
        quarter(&mut s, 2, 7, 8, 13);
        quarter(&mut s, 3, 4, 9, 14);
    }
    for (word, first) in s.iter_mut().zip(start) {
        *word = word.wrapping_add(first);
    }
    s
}

fn order(count: usize, seed: u64) -> Vec<u32> {
    let key = [seed as u32, (seed >> 32) as u32, 0, 0, 0, 0, 0, 0];
    let mut words = [0; 16];
    let mut places: Vec<u32> = (0..count as u32).collect();
    for (used, last) in (1..count).rev().enumerate() {
        if used % 16 == 0 {
            words = block(&key, (used / 16) as u64);
        }
        places.swap(last, words[used % 16] as usize % (last + 1));
    }
    places
}

pub fn draw(items: &[Item], lo: u64, limit: u64, seed: u64) -> Option<Vec<u32>> {
    let (mut kept, mut value, mut weight) = (BinaryHeap::new(), 0u128, 0u64);
    for place in order(items.len(), seed) {
        kept.push(place);
        value += u128::from(items[place as usize].value);
        weight += items[place as usize].weight;
        while weight > limit {
            let dropped = kept.pop().unwrap() as usize;
            value -= u128::from(items[dropped].value);
            weight -= items[dropped].weight;
        }
        if value >= u128::from(lo) {
            return Some(kept.into_sorted_vec());
        }
    }
    None
}

fn main() {
    let words: Vec<u64> = std::env::args().skip(1).map(|word| word.parse().unwrap()).collect();
    let (count, kept, seeds) = (words[0], words[1], words[2]);
    let items: Vec<Item> = (0..count).map(|place| Item { value: 1_000 + 3 * (count - place), weight: 272 }).collect();
    let start = Instant::now();
    let mut found = 0;
    for seed in 0..seeds {
        found += draw(&items, u64::MAX, 272 * kept, seed).map_or(0, |places| places.len());
    }
    let time = start.elapsed().as_nanos() / u128::from(seeds.max(1));
    let all = items.iter().map(|item| item.value).sum();
    println!("{} and {} places", found, draw(&items, all, u64::MAX, 0).map_or(0, |places| places.len()));
    println!("{} ns", time);
}
