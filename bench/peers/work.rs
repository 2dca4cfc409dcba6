//! `work NUMBER COUNT` in plain Rust, beside which the proved one is measured: the same coins, searches, payment and
//! summary. It reads no JSON, keeps no log behind its walk, and knows the first row and its first column alone, in which
//! such payments end. It makes the coins alone; by a third word it makes the wallet, with its transactions and what they
//! spend, keeps it, and finds the coins there.
//!
//! usage: rustc --edition 2021 -O bench/peers/work.rs -o /tmp/work && /tmp/work NUMBER COUNT [wallet|coins [ROUNDS]]
//!
//! With ROUNDS it does all of it so often, and prints the last.
#[allow(dead_code)]
mod draw;
#[allow(dead_code)]
mod walk;
mod wallet;

use std::env;
use std::fmt::Write;

const RATE: u64 = 25_000;
const LONG_TERM: u64 = 10_000;
const DISCARD: u64 = 10_000;
const CHANGE_TARGET: u64 = 50_000;
const TRIES: u64 = 100_000;
const MOST_WEIGHT: u64 = 400_000;
/// The size of an output to a key hash, as the recipient's and the change are, and its declared weight.
const OUTPUT: u64 = 31;
const INPUT: u64 = 272;
const DUST: u64 = 294;

fn rounds() -> [u32; 64] {
    let mut words = [0; 64];
    let (mut count, mut prime) = (0, 2u64);
    while count < 64 {
        if (2..prime).all(|d| prime % d != 0) {
            words[count] = root(u128::from(prime), 3);
            count += 1;
        }
        prime += 1;
    }
    words
}

/// The first 32 bits behind the point of a root.
fn root(prime: u128, power: u32) -> u32 {
    let scaled = prime << (32 * power);
    let (mut low, mut high) = (0u128, 1u128 << 37);
    while low + 1 < high {
        let middle = (low + high) / 2;
        if middle.checked_pow(power).is_some_and(|p| p <= scaled) { low = middle } else { high = middle }
    }
    low as u32
}

struct Sha {
    words: [u32; 64],
    first: [u32; 8],
}

impl Sha {
    fn new() -> Sha {
        Sha { words: rounds(), first: [2, 3, 5, 7, 11, 13, 17, 19].map(|prime| root(prime, 2)) }
    }

    fn compress(&self, state: &mut [u32; 8], piece: &[u8]) {
        let mut w = [0u32; 64];
        for (word, bytes) in w.iter_mut().zip(piece.chunks_exact(4)) {
            *word = u32::from_be_bytes(bytes.try_into().unwrap());
        }
        for t in 16..64 {
            let (a, b) = (w[t - 15], w[t - 2]);
            let near = a.rotate_right(7) ^ a.rotate_right(18) ^ (a >> 3);
            let far = b.rotate_right(17) ^ b.rotate_right(19) ^ (b >> 10);
            w[t] = w[t - 16].wrapping_add(near).wrapping_add(w[t - 7]).wrapping_add(far);
        }
        let [mut a, mut b, mut c, mut d, mut e, mut f, mut g, mut h] = *state;
        for t in 0..64 {
            let up = e.rotate_right(6) ^ e.rotate_right(11) ^ e.rotate_right(25);
            let one = h.wrapping_add(up).wrapping_add((e & f) ^ (!e & g)).wrapping_add(self.words[t]).wrapping_add(w[t]);
            let down = a.rotate_right(2) ^ a.rotate_right(13) ^ a.rotate_right(22);
            let two = down.wrapping_add((a & b) ^ (a & c) ^ (b & c));
            (h, g, f, e, d, c, b, a) = (g, f, e, d.wrapping_add(one), c, b, a, one.wrapping_add(two));
        }
        for (word, more) in state.iter_mut().zip([a, b, c, d, e, f, g, h]) {
            *word = word.wrapping_add(more);
        }
    }

    fn digest(&self, bytes: &[u8]) -> [u8; 32] {
        let mut state = self.first;
        let whole = bytes.chunks_exact(64);
        let mut end = whole.remainder().to_vec();
        for piece in whole {
            self.compress(&mut state, piece);
        }
        end.push(0x80);
        while end.len() % 64 != 56 {
            end.push(0);
        }
        end.extend((8 * bytes.len() as u64).to_be_bytes());
        for piece in end.chunks_exact(64) {
            self.compress(&mut state, piece);
        }
        let mut digest = [0; 32];
        for (part, word) in digest.chunks_exact_mut(4).zip(state) {
            part.copy_from_slice(&word.to_be_bytes());
        }
        digest
    }
}

struct Coin {
    txid: [u8; 32],
    whole: Vec<u8>,
    value: u64,
    kind: usize,
}

/// Scripts and their declared weights.
fn kinds() -> [(Vec<u8>, u64); 3] {
    let key_hash = [&[0x00, 0x14][..], &[0x11; 20]].concat();
    let taproot = [&[0x51, 0x20][..], &[0x22; 32]].concat();
    let old = [&[0x76, 0xa9, 0x14][..], &[0x33; 20], &[0x88, 0xac]].concat();
    [(key_hash, INPUT), (taproot, 230), (old, 593)]
}

fn output(value: u64, script: &[u8]) -> Vec<u8> {
    [&value.to_le_bytes()[..], &[script.len() as u8], script].concat()
}

fn coins(sha: &Sha, number: u64, count: usize) -> Vec<Coin> {
    let kinds = kinds();
    let key = [number as u32, (number >> 32) as u32, 0, 0, 0, 0, 0, 0];
    let mut words = [0; 16];
    (0..count)
        .map(|i| {
            if i % 8 == 0 {
                words = draw::block(&key, (i / 8) as u64);
            }
            let (x, y) = (words[2 * (i % 8)], words[2 * (i % 8) + 1]);
            let value = 10_000 + u64::from(x) % 5_000_000;
            let kind = y as usize % 3;
            let mut whole = vec![2, 0, 0, 0, 1];
            whole.extend((i as u32).to_le_bytes());
            whole.extend([1; 28]);
            whole.extend([0, 0, 0, 0, 0, 0xff, 0xff, 0xff, 0xff, 1]);
            whole.extend(output(value, &kinds[kind].0));
            whole.extend([0; 4]);
            Coin { txid: sha.digest(&sha.digest(&whole)), whole, value, kind }
        })
        .collect()
}

fn fee(rate: u64, size: u64) -> u64 {
    (rate * size).div_ceil(1000)
}

fn size(weight: u64) -> u64 {
    weight.div_ceil(4)
}

fn input_fee(rate: u64, kind: usize, weights: &[u64; 3]) -> u64 {
    fee(rate, size(weights[kind]))
}

fn compact(length: usize) -> Vec<u8> {
    match length {
        0..=252 => vec![length as u8],
        253..=65_535 => [&[0xfd][..], &(length as u16).to_le_bytes()].concat(),
        _ => [&[0xfe][..], &(length as u32).to_le_bytes()].concat(),
    }
}

fn transaction(inputs: &[&Coin], outputs: &[Vec<u8>]) -> Vec<u8> {
    let mut bytes = vec![2, 0, 0, 0];
    bytes.extend(compact(inputs.len()));
    for coin in inputs {
        bytes.extend(coin.txid);
        bytes.extend([0, 0, 0, 0, 0, 0xfd, 0xff, 0xff, 0xff]);
    }
    bytes.extend(compact(outputs.len()));
    bytes.extend(outputs.concat());
    bytes.extend([0; 4]);
    bytes
}

fn psbt(inputs: &[&Coin], outputs: &[Vec<u8>], kinds: &[(Vec<u8>, u64); 3], whole: impl Fn(&Coin) -> Vec<u8>) -> Vec<u8> {
    let transaction = transaction(inputs, outputs);
    let mut bytes = b"psbt\xff\x01\x00".to_vec();
    bytes.extend(compact(transaction.len()));
    bytes.extend(transaction);
    bytes.push(0);
    for coin in inputs {
        let (kind, shown) =
            if coin.kind < 2 { (1, output(coin.value, &kinds[coin.kind].0)) } else { (0, whole(coin)) };
        bytes.extend([1, kind]);
        bytes.extend(compact(shown.len()));
        bytes.extend(shown);
        bytes.push(0);
    }
    bytes.resize(bytes.len() + outputs.len(), 0);
    bytes
}

fn base64(bytes: &[u8]) -> String {
    let letters = b"ABCDEFGHIJKLMNOPQRSTUVWXYZabcdefghijklmnopqrstuvwxyz0123456789+/";
    let mut text = String::with_capacity(bytes.len() * 4 / 3 + 4);
    for three in bytes.chunks(3) {
        let whole = three.iter().fold(0, |sum, byte| 256 * sum + u32::from(*byte)) << (8 * (3 - three.len()));
        for k in 0..4 {
            let letter = if k <= three.len() { letters[(whole >> (18 - 6 * k) & 63) as usize] } else { b'=' };
            text.push(letter as char);
        }
    }
    text
}

fn hex(bytes: impl Iterator<Item = u8>) -> String {
    bytes.fold(String::new(), |mut text, byte| {
        write!(text, "{byte:02x}").unwrap();
        text
    })
}

/// The summary of a payment from the workload.
fn summary(number: u64, count: usize, has_wallet: bool) -> String {
    let sha = Sha::new();
    let kinds = kinds();
    let weights = [kinds[0].1, kinds[1].1, kinds[2].1];
    let wallet = has_wallet.then(|| wallet::Wallet::new(&sha, number, count, &kinds));
    let mut pool = wallet.as_ref().map_or_else(|| coins(&sha, number, count), |wallet| wallet.unspent(&kinds));
    let paid = pool.iter().map(|coin| coin.value).sum::<u64>() / 20;
    pool.sort_by_key(|coin| {
        let fee = input_fee(RATE, coin.kind, &weights);
        (u64::MAX - (coin.value - fee), weights[coin.kind], fee - input_fee(LONG_TERM, coin.kind, &weights), coin.txid)
    });

    let base = 4 * (4 + if count <= 252 { 1 } else { 3 } + 1 + OUTPUT + 4) + 2;
    let target = paid + fee(RATE, size(base));
    let change_fee = fee(RATE, OUTPUT);
    let change_spend = fee(DISCARD, size(INPUT));
    let change_least = (change_spend + 1).max(DUST);
    let items = pool.iter().map(|coin| {
        let fee = input_fee(RATE, coin.kind, &weights);
        let cost = (fee - input_fee(LONG_TERM, coin.kind, &weights)) as i64;
        walk::Item { value: coin.value - fee, weight: weights[coin.kind], cost }
    });
    let problem = walk::Problem {
        items: items.collect(),
        lo: target,
        hi: target + change_fee + change_least - 1,
        limit: MOST_WEIGHT - base,
        lean: false,
    };
    let walked = walk::Gap::new(&problem, TRIES).walk(TRIES);
    let drawn_from: Vec<draw::Item> =
        problem.items.iter().map(|item| draw::Item { value: item.value, weight: item.weight }).collect();
    let big = target + change_fee + CHANGE_TARGET.max(change_least);
    let drawn = draw::draw(&drawn_from, big, problem.limit - 4 * OUTPUT, 0);

    let cost = |places: &[u32]| places.iter().map(|place| problem.items[*place as usize].cost).sum::<i64>();
    let value = |places: &[u32]| places.iter().map(|place| problem.items[*place as usize].value).sum::<u64>();
    let exact = walked.best.map(|places| (cost(&places) + (value(&places) - target) as i64, places, false));
    let mixed = drawn.map(|places| (cost(&places) + (change_fee + change_spend) as i64, places, true));
    let (waste, places, changes) = [exact, mixed]
        .into_iter()
        .flatten()
        .min_by_key(|result| (result.0, usize::MAX - result.1.len(), result.2))
        .expect("a payment in the first row and column");
    let mark = match (walked.done, changes) {
        (false, _) => "partial",
        (true, false) => "exhausted",
        (true, true) => "drawn",
    };

    let mut inputs: Vec<&Coin> = places.iter().map(|place| &pool[*place as usize]).collect();
    inputs.sort_by_key(|coin| coin.txid);
    let change = changes.then(|| value(&places) - target - change_fee);
    let mut outputs = vec![output(paid, &[&[0x00, 0x14][..], &[0x44; 20]].concat())];
    outputs.extend(change.map(|change| output(change, &kinds[0].0)));
    let weight = base
        + inputs.iter().map(|coin| weights[coin.kind]).sum::<u64>()
        + if changes { 4 * OUTPUT } else { 0 };
    let spent = inputs.iter().map(|coin| coin.value).sum::<u64>();
    let fee = spent - paid - change.unwrap_or(0);

    let head = format!("funded {mark}\nrow 1\nstage {}\ntries {}\n", if changes { "draw" } else { "changeless" }, walked.tries);
    let tail = format!(
        "weight {weight}\nvsize {}\nfee {fee}\nwaste {waste}\nchange {}\n",
        size(weight),
        change.map_or("none".to_string(), |change| change.to_string())
    );
    let mut report = head.clone();
    for coin in &inputs {
        writeln!(report, "in {}:0 {}", hex(coin.txid.into_iter().rev()), coin.value).unwrap();
    }
    report.push_str(&tail);
    let whole = |coin: &Coin| wallet.as_ref().map_or_else(|| coin.whole.clone(), |wallet| wallet.maker(coin));
    writeln!(report, "psbt {}", base64(&psbt(&inputs, &outputs, &kinds, whole))).unwrap();
    format!("work {number} {count}\n{head}{tail}report {}\n", hex(sha.digest(report.as_bytes()).into_iter()))
}

fn main() {
    let words: Vec<String> = env::args().skip(1).collect();
    let (number, count): (u64, usize) = (words[0].parse().unwrap(), words[1].parse().unwrap());
    let has_wallet = words.get(2).is_some_and(|form| form != "coins");
    let rounds: u32 = words.get(3).map_or(1, |rounds| rounds.parse().unwrap());
    let mut text = String::new();
    for _ in 0..rounds {
        text = summary(number, count, has_wallet);
    }
    print!("{text}");
}
