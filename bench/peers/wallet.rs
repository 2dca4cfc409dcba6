//! The wallet of a workload as plain Rust would keep it: its earlier transactions, what they spend, and its coins.
use crate::{draw, Coin, Sha};
use std::collections::{HashMap, HashSet};

pub type OutPoint = ([u8; 32], u32);

pub struct Input {
    previous: OutPoint,
    script: Vec<u8>,
    sequence: u32,
    /// Empty here, since no transaction of a workload has a witness.
    #[allow(dead_code)]
    witness: Vec<Vec<u8>>,
}

pub struct Output {
    value: u64,
    script: Vec<u8>,
}

pub struct Transaction {
    version: u32,
    inputs: Vec<Input>,
    outputs: Vec<Output>,
    lock_time: u32,
}

pub struct Earlier {
    transaction: Transaction,
    height: u32,
}

/// A spend of an outpoint: by which transaction, and at what height.
pub type Spend = ([u8; 32], u32);

/// A coin of the wallet: its value, the weight of an input that spends it, its height, and its transaction's place.
pub struct Held {
    value: u64,
    weight: u64,
    #[allow(dead_code)]
    height: u32,
    place: usize,
}

pub struct Wallet {
    earlier: Vec<Earlier>,
    txids: HashSet<[u8; 32]>,
    coins: HashMap<OutPoint, Held>,
    spends: HashMap<OutPoint, Vec<Spend>>,
}

impl Transaction {
    /// Its text without witnesses, of fewer than 253 inputs, outputs and bytes of a script.
    fn bytes(&self) -> Vec<u8> {
        let mut bytes = self.version.to_le_bytes().to_vec();
        bytes.push(self.inputs.len() as u8);
        for input in &self.inputs {
            bytes.extend(input.previous.0);
            bytes.extend(input.previous.1.to_le_bytes());
            bytes.push(input.script.len() as u8);
            bytes.extend(&input.script);
            bytes.extend(input.sequence.to_le_bytes());
        }
        bytes.push(self.outputs.len() as u8);
        for output in &self.outputs {
            bytes.extend(crate::output(output.value, &output.script));
        }
        bytes.extend(self.lock_time.to_le_bytes());
        bytes
    }
}

/// The transactions of so many coins of a number.
fn earlier(number: u64, count: usize, kinds: &[(Vec<u8>, u64); 3]) -> Vec<Earlier> {
    let key = [number as u32, (number >> 32) as u32, 0, 0, 0, 0, 0, 0];
    let mut words = [0; 16];
    let transaction = |i: usize| {
        if i % 8 == 0 {
            words = draw::block(&key, (i / 8) as u64);
        }
        let (x, y) = (words[2 * (i % 8)], words[2 * (i % 8) + 1]);
        let mut previous = [1; 32];
        previous[..4].copy_from_slice(&(i as u32).to_le_bytes());
        let input = Input { previous: (previous, 0), script: vec![], sequence: 0xffff_ffff, witness: vec![] };
        let output = Output { value: 10_000 + u64::from(x) % 5_000_000, script: kinds[y as usize % 3].0.clone() };
        let transaction = Transaction { version: 2, inputs: vec![input], outputs: vec![output], lock_time: 0 };
        Earlier { transaction, height: 100 }
    };
    (0..count).map(transaction).collect()
}

impl Wallet {
    /// The wallet of a workload, its coins found by the scripts that it watches.
    pub fn new(sha: &Sha, number: u64, count: usize, kinds: &[(Vec<u8>, u64); 3]) -> Wallet {
        let watched: HashMap<&[u8], u64> = kinds.iter().map(|(script, weight)| (&script[..], *weight)).collect();
        let earlier = earlier(number, count, kinds);
        let mut txids = HashSet::with_capacity(count);
        let (mut coins, mut spends) = (HashMap::with_capacity(count), HashMap::with_capacity(count));
        for (place, Earlier { transaction, height }) in earlier.iter().enumerate() {
            let txid = sha.digest(&sha.digest(&transaction.bytes()));
            assert!(txids.insert(txid), "no txid twice");
            for input in &transaction.inputs {
                spends.entry(input.previous).or_insert_with(Vec::new).push((txid, *height));
            }
            for (index, Output { value, script }) in transaction.outputs.iter().enumerate() {
                if let Some(weight) = watched.get(&script[..]) {
                    let held = Held { value: *value, weight: *weight, height: *height, place };
                    coins.insert((txid, index as u32), held);
                }
            }
        }
        Wallet { earlier, txids, coins, spends }
    }

    /// Its coins that nothing spends.
    pub fn unspent(&self, kinds: &[(Vec<u8>, u64); 3]) -> Vec<Coin> {
        assert_eq!(self.txids.len(), self.earlier.len());
        let unspent = self.coins.iter().filter(|(point, _)| !self.spends.contains_key(*point));
        let coin = |(point, held): (&OutPoint, &Held)| Coin {
            txid: point.0,
            whole: vec![],
            value: held.value,
            kind: kinds.iter().position(|kind| kind.1 == held.weight).unwrap(),
        };
        unspent.map(coin).collect()
    }

    /// The text of the transaction that makes a coin, at the first place of its outputs.
    pub fn maker(&self, coin: &Coin) -> Vec<u8> {
        self.earlier[self.coins[&(coin.txid, 0)].place].transaction.bytes()
    }
}
