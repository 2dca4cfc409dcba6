//! Two plain Rust forms of the walk over a pool, beside which the proved one is measured. Build: rustc -O walk.rs
//!
//! Usage: walk plain|gap FILE TRIES ROUNDS
//!
//! FILE has five lines: 'changeless' or 'lean', the least value, the greatest value, the limit of weight, and the items
//! VALUE/WEIGHT/COST in the order of the pool with blanks between them.
//! Each round makes a walk with room for its letters and gives it TRIES tries. Printed: the tries of the last round, how
//! many letters it wrote, their sum by h = 31 h + letter in 64 bits, and its best places.
//!
//! `plain` keeps running sums of value, weight and cost, as most searches for coins do; values are summed in 128 bits, as
//! the greatest pool needs. `gap` keeps what is missing to the least value in place of the value, in 64 bits.

use std::env;
use std::fs;

#[derive(Clone, Copy)]
pub struct Item {
    pub value: u64,
    pub weight: u64,
    pub cost: i64,
}

pub struct Problem {
    pub items: Vec<Item>,
    pub lo: u64,
    pub hi: u64,
    pub limit: u64,
    pub lean: bool,
}

/// What there is from a place on: the sum of the values, the least weight, the end of the place's run of twins.
#[derive(Clone, Copy)]
struct Tail {
    value: u128,
    weight: u64,
    end: u32,
}

fn read(path: &str) -> Problem {
    let text = fs::read_to_string(path).expect("a file");
    let lines: Vec<&str> = text.lines().collect();
    let items = lines[4]
        .split(' ')
        .map(|word| {
            let mut words = word.split('/');
            Item {
                value: words.next().unwrap().parse().unwrap(),
                weight: words.next().unwrap().parse().unwrap(),
                cost: words.next().unwrap().parse().unwrap(),
            }
        })
        .collect();
    Problem {
        items,
        lo: lines[1].parse().unwrap(),
        hi: lines[2].parse().unwrap(),
        limit: lines[3].parse().unwrap(),
        lean: lines[0] == "lean",
    }
}

impl Problem {
    fn is_twin(&self, a: usize, b: usize) -> bool {
        let (a, b) = (&self.items[a], &self.items[b]);
        a.value == b.value && (self.lean || (a.weight == b.weight && a.cost == b.cost))
    }

    fn tails(&self) -> Vec<Tail> {
        let count = self.items.len();
        let mut tails = vec![Tail { value: 0, weight: u64::MAX, end: count as u32 }; count + 1];
        for t in (0..count).rev() {
            let (item, next) = (self.items[t], tails[t + 1]);
            let goes_on = t + 1 < count && self.is_twin(t, t + 1);
            tails[t] = Tail {
                value: next.value + u128::from(item.value),
                weight: next.weight.min(item.weight),
                end: if goes_on { next.end } else { t as u32 + 1 },
            };
        }
        tails
    }

    fn has_negative_cost(&self) -> bool {
        self.items.iter().any(|item| item.cost < 0)
    }
}

/// What both forms share: the letters, and where the walk stands.
pub struct Done {
    pub tries: u64,
    pub letters: Vec<u8>,
    pub best: Option<Vec<u32>>,
    pub done: bool,
}

/// Running sums of value, weight and cost.
struct Plain<'a> {
    problem: &'a Problem,
    tails: Vec<Tail>,
    prunes_waste: bool,
    chosen: Vec<u32>,
    value: u128,
    weight: u64,
    cost: i128,
    next: u32,
    best: Vec<u32>,
    has_best: bool,
    best_first: i128,
    best_second: u128,
    letters: Vec<u8>,
    done: bool,
}

impl<'a> Plain<'a> {
    fn new(problem: &'a Problem, tries: u64) -> Plain<'a> {
        let tails = problem.tails();
        let mut walk = Plain {
            problem,
            prunes_waste: !problem.has_negative_cost(),
            chosen: Vec::with_capacity(problem.items.len()),
            value: 0,
            weight: 0,
            cost: 0,
            next: 0,
            best: Vec::with_capacity(problem.items.len()),
            has_best: false,
            best_first: 0,
            best_second: 0,
            letters: Vec::with_capacity(3 * tries as usize + 1),
            done: false,
            tails,
        };
        if walk.tails[0].value < u128::from(problem.lo) {
            walk.letters.push(b'S');
            walk.done = true;
        }
        walk
    }

    fn pop(&mut self) -> Option<u32> {
        let place = self.chosen.pop()?;
        let item = self.problem.items[place as usize];
        self.value -= u128::from(item.value);
        self.weight -= item.weight;
        self.cost -= i128::from(item.cost);
        Some(place)
    }

    fn shift(&mut self, place: u32) {
        let mut place = place;
        loop {
            let end = self.tails[place as usize].end;
            if place + 1 < end {
                self.letters.push(b'T');
            }
            if (end as usize) < self.problem.items.len() {
                self.next = end;
                return;
            }
            self.letters.push(b'S');
            match self.pop() {
                Some(last) => place = last,
                None => {
                    self.done = true;
                    return;
                }
            }
        }
    }

    fn cut(&mut self, t: u32, letter: u8) {
        let short = self.value + self.tails[t as usize + 1].value < u128::from(self.problem.lo);
        self.letters.push(if short { b'S' } else { letter });
        match self.pop() {
            Some(last) => self.shift(last),
            None => self.done = true,
        }
    }

    fn cut_or_shift(&mut self, t: u32, letter: u8) {
        if self.problem.items[t as usize].weight <= self.tails[t as usize + 1].weight {
            self.cut(t, letter);
        } else {
            self.shift(t);
        }
    }

    fn keep(&mut self, t: u32, first: i128, second: u128) {
        if !self.has_best || (first, second) < (self.best_first, self.best_second) {
            self.best.clear();
            self.best.extend_from_slice(&self.chosen);
            self.best.push(t);
            self.has_best = true;
            self.best_first = first;
            self.best_second = second;
        }
    }

    fn turn(&mut self) {
        let t = self.next;
        let item = self.problem.items[t as usize];
        let lo = u128::from(self.problem.lo);
        let value = self.value + u128::from(item.value);
        let weight = self.weight + item.weight;
        let cost = self.cost + i128::from(item.cost);
        let behind = self.tails[t as usize + 1];
        self.letters.push(b'I');
        if value + behind.value < lo {
            self.letters.push(b'S');
            self.cut(t, b'S');
        } else if !self.problem.lean && value > u128::from(self.problem.hi) {
            self.letters.push(b'O');
            self.shift(t);
        } else if weight > self.problem.limit {
            self.letters.push(b'H');
            self.cut_or_shift(t, b'M');
        } else if self.has_best && !self.problem.lean && self.prunes_waste
            && cost + value.saturating_sub(lo) as i128 >= self.best_first
        {
            self.letters.push(b'W');
            self.shift(t);
        } else if self.has_best && self.problem.lean && i128::from(weight) > self.best_first {
            self.letters.push(b'L');
            self.cut_or_shift(t, b'F');
        } else if value >= lo {
            self.letters.push(b'A');
            if self.problem.lean {
                self.keep(t, i128::from(weight), value);
            } else {
                self.keep(t, cost + (value - lo) as i128, 0);
            }
            self.shift(t);
        } else if self.has_best && self.problem.lean
            && u128::from(weight) + (lo - value).div_ceil(u128::from(item.value)) * u128::from(behind.weight)
                > self.best_first as u128
        {
            self.letters.push(b'F');
            self.cut_or_shift(t, b'F');
        } else {
            self.chosen.push(t);
            self.value = value;
            self.weight = weight;
            self.cost = cost;
            self.next = t + 1;
        }
    }

    fn walk(mut self, tries: u64) -> Done {
        let mut made = 0;
        while made < tries && !self.done {
            self.turn();
            made += 1;
        }
        Done { tries: made, letters: self.letters, best: self.has_best.then_some(self.best), done: self.done }
    }
}

/// What is missing to the least value, in place of the value: the chosen places of an open walk are below it.
pub struct Gap<'a> {
    problem: &'a Problem,
    tails: Vec<Tail>,
    prunes_waste: bool,
    chosen: Vec<u32>,
    gap: u64,
    weight: u64,
    cost: i128,
    next: u32,
    best: Vec<u32>,
    has_best: bool,
    best_waste: i128,
    best_weight: u64,
    best_excess: u64,
    letters: Vec<u8>,
    done: bool,
}

impl<'a> Gap<'a> {
    pub fn new(problem: &'a Problem, tries: u64) -> Gap<'a> {
        let tails = problem.tails();
        let mut walk = Gap {
            problem,
            prunes_waste: !problem.has_negative_cost(),
            chosen: Vec::with_capacity(problem.items.len()),
            gap: problem.lo,
            weight: 0,
            cost: 0,
            next: 0,
            best: Vec::with_capacity(problem.items.len()),
            has_best: false,
            best_waste: 0,
            best_weight: 0,
            best_excess: 0,
            letters: Vec::with_capacity(3 * tries as usize + 1),
            done: false,
            tails,
        };
        if walk.tails[0].value < u128::from(problem.lo) {
            walk.letters.push(b'S');
            walk.done = true;
        }
        walk
    }

    fn pop(&mut self) -> Option<u32> {
        let place = self.chosen.pop()?;
        let item = &self.problem.items[place as usize];
        self.gap += item.value;
        self.weight -= item.weight;
        self.cost -= i128::from(item.cost);
        Some(place)
    }

    fn shift(&mut self, place: u32) {
        let mut place = place;
        loop {
            let end = self.tails[place as usize].end;
            if place + 1 < end {
                self.letters.push(b'T');
            }
            if (end as usize) < self.problem.items.len() {
                self.next = end;
                return;
            }
            self.letters.push(b'S');
            match self.pop() {
                Some(last) => place = last,
                None => {
                    self.done = true;
                    return;
                }
            }
        }
    }

    fn cut(&mut self, t: u32, letter: u8) {
        let short = self.tails[t as usize + 1].value < u128::from(self.gap);
        self.letters.push(if short { b'S' } else { letter });
        match self.pop() {
            Some(last) => self.shift(last),
            None => self.done = true,
        }
    }

    fn cut_or_shift(&mut self, t: u32, letter: u8) {
        if self.problem.items[t as usize].weight <= self.tails[t as usize + 1].weight {
            self.cut(t, letter);
        } else {
            self.shift(t);
        }
    }

    fn keep(&mut self, t: u32, waste: i128, weight: u64, excess: u64) {
        let lower = if self.problem.lean {
            (weight, excess) < (self.best_weight, self.best_excess)
        } else {
            waste < self.best_waste
        };
        if !self.has_best || lower {
            self.best.clear();
            self.best.extend_from_slice(&self.chosen);
            self.best.push(t);
            self.has_best = true;
            self.best_waste = waste;
            self.best_weight = weight;
            self.best_excess = excess;
        }
    }

    fn turn(&mut self) {
        let t = self.next;
        let item = &self.problem.items[t as usize];
        let behind = &self.tails[t as usize + 1];
        let weight = self.weight + item.weight;
        let cost = self.cost + i128::from(item.cost);
        let lean = self.problem.lean;
        self.letters.push(b'I');
        if u128::from(item.value) + behind.value < u128::from(self.gap) {
            self.letters.push(b'S');
            self.cut(t, b'S');
        } else if !lean && item.value > self.gap + (self.problem.hi - self.problem.lo) {
            self.letters.push(b'O');
            self.shift(t);
        } else if weight > self.problem.limit {
            self.letters.push(b'H');
            self.cut_or_shift(t, b'M');
        } else if self.has_best && !lean && self.prunes_waste
            && cost + i128::from(item.value.saturating_sub(self.gap)) >= self.best_waste
        {
            self.letters.push(b'W');
            self.shift(t);
        } else if self.has_best && lean && weight > self.best_weight {
            self.letters.push(b'L');
            self.cut_or_shift(t, b'F');
        } else if item.value >= self.gap {
            self.letters.push(b'A');
            let excess = item.value - self.gap;
            self.keep(t, cost + i128::from(excess), weight, excess);
            self.shift(t);
        } else if self.has_best && lean
            && u128::from(weight) + u128::from((self.gap - 1) / item.value) * u128::from(behind.weight)
                > u128::from(self.best_weight)
        {
            self.letters.push(b'F');
            self.cut_or_shift(t, b'F');
        } else {
            self.chosen.push(t);
            self.gap -= item.value;
            self.weight = weight;
            self.cost = cost;
            self.next = t + 1;
        }
    }

    pub fn walk(mut self, tries: u64) -> Done {
        let mut made = 0;
        while made < tries && !self.done {
            self.turn();
            made += 1;
        }
        Done { tries: made, letters: self.letters, best: self.has_best.then_some(self.best), done: self.done }
    }
}

fn main() {
    let words: Vec<String> = env::args().collect();
    let problem = read(&words[2]);
    let tries: u64 = words[3].parse().unwrap();
    let rounds: u64 = words[4].parse().unwrap();
    let mut last = Done { tries: 0, letters: Vec::new(), best: None, done: false };
    for _ in 0..rounds {
        last = match words[1].as_str() {
            "plain" => Plain::new(&problem, tries).walk(tries),
            _ => Gap::new(&problem, tries).walk(tries),
        };
    }
    let sum = last.letters.iter().fold(0u64, |h, letter| h.wrapping_mul(31).wrapping_add(u64::from(*letter)));
    println!("tries {}", last.tries);
    println!("letters {} {}", last.letters.len(), sum);
    match last.best {
        None => println!("best none"),
        Some(places) => println!("best {}", places.iter().map(|p| p.to_string()).collect::<Vec<_>>().join(" ")),
    }
}
