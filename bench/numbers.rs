// The same work as the crate `number_timing`, in plain Rust: rationals in i128, checked, brought to lowest terms by
// Euclid's algorithm. It is the rival that the benchmark measures against, and nothing else.
use std::cmp::Ordering;

#[derive(Clone, Copy)]
struct Rational {
    a: i128,
    q: i128,
}

fn gcd(mut x: u128, mut y: u128) -> u128 {
    while y != 0 {
        (x, y) = (y, x % y);
    }
    x
}

impl Rational {
    fn reduced(a: i128, q: i128) -> Rational {
        let factor = gcd(a.unsigned_abs(), q.unsigned_abs()) as i128;
        Rational { a: a / factor, q: q / factor }
    }

    fn add(self, other: Rational) -> Option<Rational> {
        let a = self.a.checked_mul(other.q)?.checked_add(other.a.checked_mul(self.q)?)?;
        Some(Rational::reduced(a, self.q.checked_mul(other.q)?))
    }

    fn mul(self, other: Rational) -> Option<Rational> {
        Some(Rational::reduced(self.a.checked_mul(other.a)?, self.q.checked_mul(other.q)?))
    }

    fn compare(self, other: Rational) -> Option<Ordering> {
        let a = self.a.checked_mul(other.q)?.checked_sub(other.a.checked_mul(self.q)?)?;
        self.q.checked_mul(other.q)?;
        Some(a.cmp(&0))
    }
}

fn next(state: u64) -> u64 {
    state.wrapping_mul(6_364_136_223_846_793_005).wrapping_add(1_442_695_040_888_963_407)
}

fn rationals() -> Vec<Rational> {
    let mut state: u64 = 1;
    (0..1024)
        .map(|_| {
            state = next(state);
            let numerator = (state >> 24) as i128 - (1 << 39);
            state = next(state);
            Rational::reduced(numerator, (state >> 24) as i128 + 1)
        })
        .collect()
}

const MANY: usize = 65_536;

fn pairs() -> Vec<(i128, i128)> {
    let mut state: u64 = 1;
    (0..MANY)
        .map(|_| {
            state = next(state);
            let a = (state >> 4) as i128 - (1 << 59);
            state = next(state);
            (a, (state >> 4) as i128 - (1 << 59))
        })
        .collect()
}

/// Parts with a+b√2 between -1 and 1.
fn near_ties() -> Vec<(i128, i128)> {
    let mut state: u64 = 1;
    (0..MANY)
        .map(|_| {
            state = next(state);
            let b = (state >> 5) as i128 - (1 << 58);
            (-((b * 1_630_477_228_166_597_776) >> 60), b)
        })
        .collect()
}

fn parts_of(number: Option<Rational>) -> i128 {
    match number {
        Some(number) => number.a.wrapping_mul(7).wrapping_add(number.q),
        None => 1,
    }
}

fn order_of(order: Option<Ordering>) -> i128 {
    match order {
        Some(order) => code_of(order),
        None => 1,
    }
}

fn code_of(order: Ordering) -> i128 {
    3 + i128::from(order.is_gt()) - i128::from(order.is_lt())
}

/// A product of 256 bits, the high half first.
fn wide_product(x: u128, y: u128) -> (u128, u128) {
    const LOW: u128 = u64::MAX as u128;
    let (x1, x0, y1, y0) = (x >> 64, x & LOW, y >> 64, y & LOW);
    let (low, middle) = (x0 * y0, x1 * y0);
    let middle = middle + (low >> 64);
    let other = x0 * y1 + (middle & LOW);
    (x1 * y1 + (middle >> 64) + (other >> 64), (other << 64) | (low & LOW))
}

/// The sign of a+b√2, by its squares in 256 bits.
fn sign(a: i128, b: i128) -> Ordering {
    match (a.cmp(&0), b.cmp(&0)) {
        (order, Ordering::Equal) => order,
        (Ordering::Equal, order) => order,
        (first, second) if first == second => first,
        (first, _) => {
            let left = wide_product(a.unsigned_abs(), a.unsigned_abs());
            let (high, low) = wide_product(b.unsigned_abs(), b.unsigned_abs());
            let right = ((high << 1) | (low >> 127), low << 1);
            if first == Ordering::Greater { left.cmp(&right) } else { right.cmp(&left) }
        }
    }
}

fn signs(pairs: &[(i128, i128)], rounds: usize) -> i128 {
    let mut sum: i128 = 0;
    for _ in 0..rounds {
        for &(a, b) in pairs {
            sum = sum.wrapping_mul(31).wrapping_add(code_of(sign(a, b)));
        }
    }
    sum
}

fn over_pairs(rounds: usize, operation: impl Fn(Rational, Rational) -> i128) -> i128 {
    let numbers = rationals();
    let mut sum: i128 = 0;
    for round in 0..rounds {
        let first = numbers[round % 1024];
        for &second in &numbers {
            sum = sum.wrapping_mul(31).wrapping_add(operation(first, second));
        }
    }
    sum
}

fn main() {
    let words: Vec<String> = std::env::args().skip(1).collect();
    let rounds: usize = words[1].parse().unwrap();
    let sum = match words[0].as_str() {
        "add" => over_pairs(rounds, |x, y| parts_of(x.add(y))),
        "mul" => over_pairs(rounds, |x, y| parts_of(x.mul(y))),
        "compare" => over_pairs(rounds, |x, y| order_of(x.compare(y))),
        "sign" => signs(&pairs(), rounds),
        "ties" => signs(&near_ties(), rounds),
        _ => 0,
    };
    println!("{sum}");
}
