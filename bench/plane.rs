// The same work as the crate `plane_timing`, in plain Rust with the same formulas in i128, a+b√2 with its sign by squares: of
// 128 bits where they fit, and else of 256. It is the rival that the benchmark measures against, and nothing else.
use std::cmp::Ordering;

trait Whole: Copy {
    fn make(a: i128, b: i128) -> Self;
    fn sub(self, other: Self) -> Self;
    fn mul(self, other: Self) -> Self;
    fn sign(self) -> Ordering;
    fn first(self) -> i128;
    const HAS_ROOT: bool;
}

#[derive(Clone, Copy)]
struct Plain(i128);

impl Whole for Plain {
    const HAS_ROOT: bool = false;
    fn make(a: i128, _: i128) -> Plain {
        Plain(a)
    }
    fn sub(self, other: Plain) -> Plain {
        Plain(self.0 - other.0)
    }
    fn mul(self, other: Plain) -> Plain {
        Plain(self.0 * other.0)
    }
    fn sign(self) -> Ordering {
        self.0.cmp(&0)
    }
    fn first(self) -> i128 {
        self.0
    }
}

#[derive(Clone, Copy)]
struct Root(i128, i128);

/// A product of 256 bits, the high half first.
fn wide_product(x: u128, y: u128) -> (u128, u128) {
    const LOW: u128 = u64::MAX as u128;
    let (x1, x0, y1, y0) = (x >> 64, x & LOW, y >> 64, y & LOW);
    let (low, middle) = (x0 * y0, x1 * y0);
    let middle = middle + (low >> 64);
    let other = x0 * y1 + (middle & LOW);
    (x1 * y1 + (middle >> 64) + (other >> 64), (other << 64) | (low & LOW))
}

/// The order of a² and 2·b².
fn squares(a: u128, b: u128) -> Ordering {
    const SMALL: u128 = 1 << 62;
    if a < SMALL && b < SMALL {
        return (a * a).cmp(&(2 * b * b));
    }
    let (high, low) = wide_product(b, b);
    wide_product(a, a).cmp(&((high << 1) | (low >> 127), low << 1))
}

impl Whole for Root {
    const HAS_ROOT: bool = true;
    fn make(a: i128, b: i128) -> Root {
        Root(a, b)
    }
    fn sub(self, other: Root) -> Root {
        Root(self.0 - other.0, self.1 - other.1)
    }
    fn mul(self, other: Root) -> Root {
        Root(self.0 * other.0 + 2 * self.1 * other.1, self.0 * other.1 + self.1 * other.0)
    }
    fn sign(self) -> Ordering {
        match (self.0.cmp(&0), self.1.cmp(&0)) {
            (order, Ordering::Equal) => order,
            (Ordering::Equal, order) => order,
            (first, second) if first == second => first,
            (Ordering::Greater, _) => squares(self.0.unsigned_abs(), self.1.unsigned_abs()),
            (_, _) => squares(self.0.unsigned_abs(), self.1.unsigned_abs()).reverse(),
        }
    }
    fn first(self) -> i128 {
        self.0
    }
}

#[derive(Clone, Copy)]
struct Point<W> {
    x: W,
    y: W,
    w: W,
}

#[derive(Clone, Copy)]
struct Segment<W> {
    from: Point<W>,
    to: Point<W>,
}

fn cross<W: Whole>(a: W, b: W, c: W, d: W) -> W {
    a.mul(d).sub(b.mul(c))
}

fn orient<W: Whole>(a: Point<W>, b: Point<W>, c: Point<W>) -> Ordering {
    cross(b.x.sub(a.x), b.y.sub(a.y), c.x.sub(a.x), c.y.sub(a.y)).sign()
}

fn compare<W: Whole>(p: Point<W>, r: Point<W>) -> Ordering {
    cross(p.x, p.w, r.x, r.w).sign().then_with(|| cross(p.y, p.w, r.y, r.w).sign())
}

fn line_through<W: Whole>(p: Point<W>, q: Point<W>) -> (W, W, W) {
    (p.y.sub(q.y), q.x.sub(p.x), cross(p.x, p.y, q.x, q.y))
}

fn cross_point<W: Whole>(s: Segment<W>, t: Segment<W>) -> Point<W> {
    let (l, m) = (line_through(s.from, s.to), line_through(t.from, t.to));
    let zero = W::make(0, 0);
    let (x, y, w) = (cross(l.1, l.2, m.1, m.2), cross(l.2, l.0, m.2, m.0), cross(l.0, l.1, m.0, m.1));
    match w.sign() {
        Ordering::Less => Point { x: zero.sub(x), y: zero.sub(y), w: zero.sub(w) },
        _ => Point { x, y, w },
    }
}

enum Meet<W> {
    Apart,
    Touches(Point<W>),
    Crosses(Point<W>),
    Along(Point<W>, Point<W>),
}

fn are_apart(first: Ordering, second: Ordering) -> bool {
    first == Ordering::Equal || first != second
}

fn in_order<W: Whole>(s: Segment<W>) -> (Point<W>, Point<W>) {
    match compare(s.from, s.to) {
        Ordering::Greater => (s.to, s.from),
        _ => (s.from, s.to),
    }
}

/// The common points of two segments on one line.
fn meet_along<W: Whole>(s: Segment<W>, t: Segment<W>) -> Meet<W> {
    let ((a, b), (c, d)) = (in_order(s), in_order(t));
    let low = if compare(a, c) == Ordering::Less { c } else { a };
    let high = if compare(b, d) == Ordering::Less { b } else { d };
    match compare(low, high) {
        Ordering::Less => Meet::Along(low, high),
        Ordering::Equal => Meet::Touches(low),
        Ordering::Greater => Meet::Apart,
    }
}

fn meet<W: Whole>(s: Segment<W>, t: Segment<W>) -> Meet<W> {
    let sides = (orient(s.from, s.to, t.from), orient(s.from, s.to, t.to));
    if sides == (Ordering::Equal, Ordering::Equal) {
        return meet_along(s, t);
    }
    if !are_apart(sides.0, sides.1) {
        return Meet::Apart;
    }
    let back = (orient(t.from, t.to, s.from), orient(t.from, t.to, s.to));
    if !are_apart(back.0, back.1) {
        return Meet::Apart;
    }
    if sides.0 == Ordering::Equal {
        Meet::Touches(t.from)
    } else if sides.1 == Ordering::Equal {
        Meet::Touches(t.to)
    } else if back.0 == Ordering::Equal {
        Meet::Touches(s.from)
    } else if back.1 == Ordering::Equal {
        Meet::Touches(s.to)
    } else {
        Meet::Crosses(cross_point(s, t))
    }
}

struct Random {
    state: u64,
}

impl Random {
    fn part(&mut self) -> i128 {
        self.state = self.state.wrapping_mul(6_364_136_223_846_793_005).wrapping_add(1_442_695_040_888_963_407);
        (self.state >> 42) as i128 - (1 << 21)
    }

    fn whole<W: Whole>(&mut self) -> W {
        let a = self.part();
        let b = if W::HAS_ROOT { self.part() } else { 0 };
        W::make(a, b)
    }

    fn point<W: Whole>(&mut self) -> Point<W> {
        let x = self.whole();
        let y = self.whole();
        Point { x, y, w: W::make(1, 0) }
    }

    fn segment<W: Whole>(&mut self) -> Segment<W> {
        let from = self.point();
        Segment { from, to: self.point() }
    }
}

fn code_of(order: Ordering) -> i128 {
    1 + i128::from(order.is_gt()) - i128::from(order.is_lt())
}

fn summed(sum: i128, part: i128) -> i128 {
    sum.wrapping_mul(31).wrapping_add(part)
}

fn answers<W: Whole>(question: &str, rounds: u32) -> i128 {
    let mut random = Random { state: 1 };
    let points: Vec<Point<W>> = (0..1024).map(|_| random.point()).collect();
    let mut random = Random { state: 1 };
    let segments: Vec<Segment<W>> = (0..1024).map(|_| random.segment()).collect();
    let crossings: Vec<Point<W>> = segments
        .windows(2)
        .filter_map(|pair| match meet(pair[0], pair[1]) {
            Meet::Crosses(point) => Some(point),
            _ => None,
        })
        .collect();
    let mut sum = 0;
    for _ in 0..rounds {
        match question {
            "orient" => {
                for place in 2..points.len() {
                    sum = summed(sum, code_of(orient(points[place - 2], points[place - 1], points[place])));
                }
            }
            "compare" => {
                for place in 1..crossings.len() {
                    sum = summed(sum, code_of(compare(crossings[place - 1], crossings[place])));
                }
            }
            _ => {
                for place in 1..segments.len() {
                    let part = match meet(segments[place - 1], segments[place]) {
                        Meet::Apart => 1,
                        Meet::Touches(point) => 2 + point.w.first() - 1,
                        Meet::Crosses(point) => point.w.first(),
                        Meet::Along(low, high) => 3 + low.w.first() - high.w.first(),
                    };
                    sum = summed(sum, part);
                }
            }
        }
    }
    sum
}

fn main() {
    let words: Vec<String> = std::env::args().skip(1).collect();
    let rounds: u32 = words[2].parse().unwrap();
    let sum = match words[0].as_str() {
        "rational" => answers::<Plain>(&words[1], rounds),
        _ => answers::<Root>(&words[1], rounds),
    };
    println!("{sum}");
}
