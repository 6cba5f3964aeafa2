// The range of all the numbers by a plain loop, fifteen passes, and of half of them. Prints the nanoseconds of the best pass
// and the value of each.
use std::hint::black_box;
use std::time::Instant;

#[derive(Clone, Copy)]
struct Range {
    count: u64,
    missing: u64,
    low: i64,
    high: i64,
    sum: i128,
}

impl Range {
    fn new() -> Range {
        Range { count: 0, missing: 0, low: i64::MAX, high: i64::MIN, sum: 0 }
    }

    fn add(&mut self, value: i64, is_present: bool) {
        if is_present {
            self.count += 1;
            self.low = self.low.min(value);
            self.high = self.high.max(value);
            self.sum += i128::from(value);
        } else {
            self.missing += 1;
        }
    }
}

fn range_of_all(values: &[i64], present: &[bool]) -> Range {
    let mut range = Range::new();
    for (value, is_present) in values.iter().zip(present) {
        range.add(*value, *is_present);
    }
    range
}

fn range_of_some(values: &[i64], present: &[bool], rows: &[u32]) -> Range {
    let mut range = Range::new();
    for row in rows {
        range.add(values[*row as usize], present[*row as usize]);
    }
    range
}

fn measured(name: &str, take: impl Fn() -> Range) {
    let mut range = Range::new();
    let mut best = u128::MAX;
    for _ in 0..15 {
        let start = Instant::now();
        range = black_box(take());
        best = best.min(start.elapsed().as_nanos());
    }
    println!("{name} {best} {} {} {} {} {}", range.count, range.missing, range.low, range.high, range.sum);
}

fn main() {
    let rows: u32 = std::env::args().nth(1).and_then(|word| word.parse().ok()).unwrap_or(0);
    let (mut values, mut present, mut kept) = (Vec::new(), Vec::new(), Vec::new());
    let mut state: u64 = 1;
    for row in 0..rows {
        state = state.wrapping_mul(6364136223846793005).wrapping_add(1442695040888963407);
        let word = state / 65536;
        let is_present = word % 16 != 0;
        values.push(if is_present { (word % 2_000_000_001) as i64 - 1_000_000_000 } else { 0 });
        present.push(is_present);
        if state / 4_294_967_296 % 2 == 0 {
            kept.push(row);
        }
    }
    measured("all", || range_of_all(black_box(&values), black_box(&present)));
    measured("half", || range_of_some(black_box(&values), black_box(&present), black_box(&kept)));
}
