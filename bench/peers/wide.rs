//! A plain Rust form of the wide walk over a pool, beside which the proved one is measured. Build: rustc -O wide.rs
//!
//! Usage: wide FILE TRIES ROUNDS
//!
//! FILE has five lines: 'changeless', the least value, the greatest value, the limit of weight, and the items
//! VALUE/WEIGHT/COST in the order of the pool with blanks between them.
//! Each round makes a walk with room for its letters and gives it TRIES tries. Printed: the tries of the last round, how
//! many letters it wrote, their sum by h = 31 h + letter in 64 bits, and its best places.
//!
//! It keeps running sums of value, weight and cost, as most searches for coins do; values are summed in 128 bits, as the
//! greatest pool needs.

use std::env;
use std::fs;

#[derive(Clone, Copy)]
struct Item {
    value: u64,
    weight: u64,
    cost: i64,
}

struct Problem {
    items: Vec<Item>,
    lo: u64,
    hi: u64,
    limit: u64,
}

/// What there is from a place on: the sum of the values, that of the negative costs, the end of the place's run of twins.
#[derive(Clone, Copy)]
struct Tail {
    value: u128,
    savings: i128,
    end: u32,
}

fn read(path: &str) -> Problem {
    let text = fs::read_to_string(path).expect("a file");
    let lines: Vec<&str> = text.lines().collect();
    let items = lines[4]
        .split(' ')
        .map(|word| {
            let mut words = word.split('/');
            Item {
                value: words.next().unwrap().parse().unwrap(),
                weight: words.next().unwrap().parse().unwrap(),
                cost: words.next().unwrap().parse().unwrap(),
            }
        })
        .collect();
    Problem {
        items,
        lo: lines[1].parse().unwrap(),
        hi: lines[2].parse().unwrap(),
        limit: lines[3].parse().unwrap(),
    }
}

impl Problem {
    fn is_twin(&self, a: usize, b: usize) -> bool {
        let (a, b) = (&self.items[a], &self.items[b]);
        a.value == b.value && a.weight == b.weight && a.cost == b.cost
    }

    fn tails(&self) -> Vec<Tail> {
        let count = self.items.len();
        let mut tails = vec![Tail { value: 0, savings: 0, end: count as u32 }; count + 1];
        for t in (0..count).rev() {
            let (item, next) = (self.items[t], tails[t + 1]);
            let goes_on = t + 1 < count && self.is_twin(t, t + 1);
            tails[t] = Tail {
                value: next.value + u128::from(item.value),
                savings: next.savings + i128::from(item.cost.min(0)),
                end: if goes_on { next.end } else { t as u32 + 1 },
            };
        }
        tails
    }
}

/// A walk with its running sums, its letters and its best.
struct Walk<'a> {
    problem: &'a Problem,
    tails: Vec<Tail>,
    chosen: Vec<u32>,
    value: u128,
    weight: u64,
    cost: i128,
    next: u32,
    best: Vec<u32>,
    has_best: bool,
    best_waste: i128,
    letters: Vec<u8>,
    done: bool,
    made: u64,
}

impl<'a> Walk<'a> {
    fn new(problem: &'a Problem, tries: u64) -> Walk<'a> {
        let mut walk = Walk {
            problem,
            tails: problem.tails(),
            chosen: Vec::with_capacity(problem.items.len()),
            value: 0,
            weight: 0,
            cost: 0,
            next: 0,
            best: Vec::with_capacity(problem.items.len()),
            has_best: false,
            best_waste: 0,
            letters: Vec::with_capacity(4 * tries as usize + 1),
            done: false,
            made: 0,
        };
        if walk.tails[0].value < u128::from(problem.lo) {
            walk.letters.push(b'S');
            walk.done = true;
        }
        walk
    }

    fn pop(&mut self) -> Option<u32> {
        let place = self.chosen.pop()?;
        let item = self.problem.items[place as usize];
        self.value -= u128::from(item.value);
        self.weight -= item.weight;
        self.cost -= i128::from(item.cost);
        Some(place)
    }

    fn shift(&mut self, place: u32) {
        let mut place = place;
        loop {
            let end = self.tails[place as usize].end;
            if place + 1 < end {
                self.letters.push(b'T');
            }
            if (end as usize) < self.problem.items.len() {
                self.next = end;
                return;
            }
            self.letters.push(b'N');
            match self.pop() {
                Some(last) => place = last,
                None => {
                    self.done = true;
                    return;
                }
            }
        }
    }

    fn close(&mut self, t: u32, letter: u8) {
        self.letters.push(letter);
        self.shift(t);
    }

    fn keep(&mut self, t: u32, waste: i128) {
        if !self.has_best || waste < self.best_waste {
            self.best.clear();
            self.best.extend_from_slice(&self.chosen);
            self.best.push(t);
            self.has_best = true;
            self.best_waste = waste;
        }
    }

    fn turn(&mut self) {
        let t = self.next;
        let item = self.problem.items[t as usize];
        let lo = u128::from(self.problem.lo);
        let value = self.value + u128::from(item.value);
        let weight = self.weight + item.weight;
        let cost = self.cost + i128::from(item.cost);
        let behind = self.tails[t as usize + 1];
        self.letters.push(b'I');
        if value + behind.value < lo {
            self.letters.extend_from_slice(b"SS");
            match self.pop() {
                Some(last) => self.shift(last),
                None => self.done = true,
            }
        } else if value > u128::from(self.problem.hi) {
            self.close(t, b'O');
        } else if weight > self.problem.limit {
            self.close(t, b'H');
        } else if self.has_best
            && cost + behind.savings + value.saturating_sub(lo) as i128 >= self.best_waste
        {
            self.close(t, b'V');
        } else {
            if value >= lo {
                self.letters.push(b'B');
                self.keep(t, cost + value as i128 - lo as i128);
            }
            if t as usize + 1 < self.problem.items.len() {
                self.chosen.push(t);
                self.value = value;
                self.weight = weight;
                self.cost = cost;
                self.next = t + 1;
            } else {
                self.close(t, b'N');
            }
        }
    }

    fn go(&mut self, tries: u64) {
        while self.made < tries && !self.done {
            self.turn();
            self.made += 1;
        }
    }
}

fn main() {
    let words: Vec<String> = env::args().collect();
    let problem = read(&words[1]);
    let tries: u64 = words[2].parse().unwrap();
    let rounds: u64 = words[3].parse().unwrap();
    let mut walk = Walk::new(&problem, tries);
    walk.go(tries);
    for _ in 1..rounds {
        walk = Walk::new(&problem, tries);
        walk.go(tries);
    }
    let sum = walk.letters.iter().fold(0u64, |h, letter| h.wrapping_mul(31).wrapping_add(u64::from(*letter)));
    println!("tries {}", walk.made);
    println!("letters {} {}", walk.letters.len(), sum);
    if walk.has_best {
        println!("best {}", walk.best.iter().map(|p| p.to_string()).collect::<Vec<_>>().join(" "));
    } else {
        println!("best none");
    }
}
