// A checker of closing logs in plain Rust that keeps sums, for comparison, and a search that writes a log to check.
//
// usage: checker_peer write KIND COUNT TRIES FILE   writes the row of a problem of COUNT items and the log of a search
//        checker_peer check FILE                    checks it, and prints letters and milliseconds
//
// FILE holds a line with the kind, lo, hi, the limit of weight and the number of items, a line with the answer, and the
// letters. The items are the same for each COUNT and KIND: see `items`.
use std::io::{BufRead, Read, Write};
use std::time::Instant;

#[derive(Clone, Copy)]
struct Item {
    value: u64,
    weight: u64,
    cost: i64,
}

fn items(count: u64) -> Vec<Item> {
    let mut list: Vec<Item> = (0..count)
        .map(|n| {
            let mixed = (n as u32).wrapping_mul(2_654_435_761);
            Item {
                value: 1_000 + (mixed % 5_000_000) as u64,
                weight: 230 + (mixed % 3) as u64 * 42,
                cost: 100 + (mixed % 7) as i64,
            }
        })
        .collect();
    list.sort_by(|a, b| b.value.cmp(&a.value).then(a.weight.cmp(&b.weight)).then(a.cost.cmp(&b.cost)));
    list
}

struct Problem {
    lean: bool,
    lo: u64,
    hi: u64,
    limit: u64,
    items: Vec<Item>,
    later: Vec<u128>,
    least: Vec<u64>,
    end: Vec<usize>,
}

fn problem(lean: bool, lo: u64, hi: u64, limit: u64, items: Vec<Item>) -> Problem {
    let n = items.len();
    let (mut later, mut least, mut end) = (vec![0; n + 1], vec![u64::MAX; n + 1], vec![n; n + 1]);
    for t in (0..n).rev() {
        later[t] = later[t + 1] + items[t].value as u128;
        least[t] = least[t + 1].min(items[t].weight);
        let twin = t + 1 < n && {
            let (a, b) = (items[t], items[t + 1]);
            a.value == b.value && (lean || (a.weight == b.weight && a.cost == b.cost))
        };
        end[t] = if twin { end[t + 1] } else { t + 1 };
    }
    Problem { lean, lo, hi, limit, items, later, least, end }
}

#[derive(Default)]
struct Sums {
    chosen: Vec<usize>,
    value: u128,
    weight: u64,
    cost: i128,
}

impl Sums {
    fn push(&mut self, p: &Problem, t: usize) {
        self.chosen.push(t);
        self.value += p.items[t].value as u128;
        self.weight += p.items[t].weight;
        self.cost += p.items[t].cost as i128;
    }
    fn pop(&mut self, p: &Problem) -> Option<usize> {
        let t = self.chosen.pop()?;
        self.value -= p.items[t].value as u128;
        self.weight -= p.items[t].weight;
        self.cost -= p.items[t].cost as i128;
        Some(t)
    }
    fn score(&self, p: &Problem) -> (i128, u128) {
        if p.lean { (self.weight as i128, self.value) } else { (self.cost + self.value as i128 - p.lo as i128, 0) }
    }
    fn admissible(&self, p: &Problem) -> bool {
        self.value >= p.lo as u128
            && self.weight <= p.limit
            && (p.lean || (self.value <= p.hi as u128 && self.chosen.iter().all(|t| self.value - (p.items[*t].value as u128) < p.lo as u128)))
    }
}

fn check(p: &Problem, answer: &[usize], letters: &[u8]) -> Result<(), (usize, &'static str)> {
    let mut best = Sums::default();
    for t in answer {
        best.push(p, *t);
    }
    if !best.admissible(p) {
        return Err((0, "answer"));
    }
    let n = p.items.len();
    let score = best.score(p);
    let plain = p.items.iter().all(|x| x.cost >= 0);
    let (lo, hi) = (p.lo as u128, p.hi as u128);
    let (mut s, mut t, mut closed, mut met) = (Sums::default(), 0, false, false);
    for (place, letter) in letters.iter().enumerate() {
        if closed {
            return Err((place, "too long"));
        }
        let good = match letter {
            b'I' => t < n,
            b'T' => t > 0 && t < n && s.chosen.last() != Some(&(t - 1)) && p.end[t - 1] > t,
            b'S' => s.value + p.later[t] < lo,
            b'O' => !p.lean && s.value > hi,
            b'H' => s.weight > p.limit,
            b'M' => s.value < lo && t < n && s.weight + p.least[t] > p.limit,
            b'W' => {
                let waste = s.cost + s.value.saturating_sub(lo) as i128;
                !p.lean && plain && (waste > score.0 || (waste == score.0 && met))
            }
            b'L' => p.lean && s.weight as i128 > score.0,
            b'F' => {
                p.lean && s.value < lo && t < n && {
                    let q = ((lo - s.value) as u64).div_ceil(p.items[t].value);
                    (s.weight as u128 + q as u128 * p.least[t] as u128) as i128 > score.0
                }
            }
            b'A' => {
                s.value >= lo && {
                    let is = !met && s.chosen == answer;
                    let own = s.score(p);
                    let fine = !s.admissible(p) || own > score || (own == score && (met || is));
                    met |= is;
                    fine
                }
            }
            _ => return Err((place, "unknown")),
        };
        if !good {
            return Err((place, "false"));
        }
        match letter {
            b'I' => {
                s.push(p, t);
                t += 1;
            }
            b'T' => t = p.end[t - 1],
            _ => match s.pop(p) {
                Some(j) => t = j + 1,
                None => {
                    t = n;
                    closed = true;
                }
            },
        }
    }
    if closed && met { Ok(()) } else { Err((letters.len(), "open")) }
}

// The walk of at most so many tries; its letters, its best, and whether it is done.
fn walk(p: &Problem, tries: u64) -> (Vec<u8>, Option<Vec<usize>>) {
    let (n, lo, hi) = (p.items.len(), p.lo as u128, p.hi as u128);
    let plain = p.items.iter().all(|x| x.cost >= 0);
    let (mut s, mut t, mut out) = (Sums::default(), 0, Vec::new());
    let mut best: Option<(Vec<usize>, (i128, u128))> = None;
    if p.later[0] < lo {
        return (b"S".to_vec(), None);
    }
    'tries: for _ in 0..tries {
        s.push(p, t);
        out.push(b'I');
        let score = s.score(p);
        let (mut cut, mut other) = (false, b'S');
        let lightest = t + 1 == n || p.items[t].weight <= p.least[t + 1];
        if s.value + p.later[t + 1] < lo {
            out.push(b'S');
            cut = true;
        } else if !p.lean && s.value > hi {
            out.push(b'O');
        } else if s.weight > p.limit {
            out.push(b'H');
            (cut, other) = (lightest, b'M');
        } else if !p.lean && plain && best.as_ref().is_some_and(|b| s.cost + s.value.saturating_sub(lo) as i128 >= b.1.0) {
            out.push(b'W');
        } else if p.lean && best.as_ref().is_some_and(|b| s.weight as i128 > b.1.0) {
            out.push(b'L');
            (cut, other) = (lightest, b'F');
        } else if s.value >= lo {
            out.push(b'A');
            if best.as_ref().is_none_or(|b| score < b.1) {
                best = Some((s.chosen.clone(), score));
            }
        } else if p.lean
            && best.as_ref().is_some_and(|b| {
                let q = ((lo - s.value) as u64).div_ceil(p.items[t].value);
                (s.weight as u128 + q as u128 * p.least[t + 1] as u128) as i128 > b.1.0
            })
        {
            out.push(b'F');
            (cut, other) = (lightest, b'F');
        } else {
            t += 1;
            continue;
        }
        if cut {
            s.pop(p);
            out.push(if s.value + p.later[t + 1] < lo { b'S' } else { other });
            if s.chosen.is_empty() {
                return (out, best.map(|b| b.0));
            }
        }
        loop {
            let Some(j) = s.pop(p) else { break 'tries };
            let next = p.end[j];
            if next > j + 1 {
                out.push(b'T');
            }
            if next < n {
                t = next;
                break;
            }
            out.push(b'S');
            if s.chosen.is_empty() {
                break 'tries;
            }
        }
    }
    (out, best.map(|b| b.0))
}

fn main() {
    let words: Vec<String> = std::env::args().collect();
    if words[1] == "write" {
        let lean = words[2] == "lean";
        let count: u64 = words[3].parse().unwrap();
        let tries: u64 = words[4].parse().unwrap();
        let list = items(count);
        let total: u64 = list.iter().map(|x| x.value).sum();
        let lo = total / 20;
        let hi = if lean { lo } else { lo + 990 };
        let p = problem(lean, lo, hi, 400_000, list);
        let (letters, best) = walk(&p, tries);
        let places: Vec<String> = best.unwrap_or_default().iter().map(|x| x.to_string()).collect();
        let mut file = std::fs::File::create(&words[5]).unwrap();
        writeln!(file, "{} {} {} {} {}", words[2], p.lo, p.hi, p.limit, count).unwrap();
        writeln!(file, "{}", places.join(" ")).unwrap();
        file.write_all(&letters).unwrap();
        return;
    }
    let mut file = std::io::BufReader::new(std::fs::File::open(&words[2]).unwrap());
    let (mut head, mut places, mut letters) = (String::new(), String::new(), Vec::new());
    file.read_line(&mut head).unwrap();
    file.read_line(&mut places).unwrap();
    file.read_to_end(&mut letters).unwrap();
    let head: Vec<&str> = head.split_whitespace().collect();
    let number = |i: usize| head[i].parse::<u64>().unwrap();
    let p = problem(head[0] == "lean", number(1), number(2), number(3), items(number(4)));
    let answer: Vec<usize> = places.split_whitespace().map(|x| x.parse().unwrap()).collect();
    let start = Instant::now();
    let verdict = check(&p, &answer, &letters);
    println!("{} {:?} {} ms", letters.len(), verdict, start.elapsed().as_millis());
}
