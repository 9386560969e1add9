//! The operations of crates/ice_bench in plain Rust, with the same operands and the same checksums.
use std::cmp::Ordering;

fn next(x: u64) -> u64 {
    x.wrapping_mul(6364136223846793005)
        .wrapping_add(1442695040888963407)
}

fn gcd(mut a: u128, mut b: u128) -> u128 {
    while b != 0 {
        (a, b) = (b, a % b);
    }
    a
}

#[derive(Clone, Copy)]
struct Frac {
    num: i128,
    den: u128,
}

fn in_range(n: i128) -> Option<i128> {
    (n > i128::MIN).then_some(n)
}

fn den_in_range(d: u128) -> Option<u128> {
    (d <= i128::MAX as u128).then_some(d)
}

fn reduce(num: i128, den: u128) -> Frac {
    let shared = gcd(num.unsigned_abs(), den);
    Frac {
        num: num / shared as i128,
        den: den / shared,
    }
}

fn compare_products(a: u128, d: u128, c: u128, b: u128) -> Ordering {
    fn wide(x: u128, y: u128) -> (u128, u128) {
        let mask = u128::from(u64::MAX);
        let (xh, xl, yh, yl) = (x >> 64, x & mask, y >> 64, y & mask);
        let low = xl * yl;
        let mid = xh * yl + (low >> 64);
        let mid2 = xl * yh + (mid & mask);
        (xh * yh + (mid >> 64) + (mid2 >> 64), (mid2 << 64) | (low & mask))
    }
    wide(a, d).cmp(&wide(c, b))
}

impl Frac {
    fn add(&self, o: &Frac) -> Option<Frac> {
        let shared = gcd(self.den, o.den);
        let left = in_range(self.num.checked_mul((o.den / shared) as i128)?)?;
        let right = in_range(o.num.checked_mul((self.den / shared) as i128)?)?;
        let num = in_range(left.checked_add(right)?)?;
        let den = den_in_range(self.den.checked_mul(o.den / shared)?)?;
        Some(reduce(num, den))
    }

    fn mul(&self, o: &Frac) -> Option<Frac> {
        let left = gcd(self.num.unsigned_abs(), o.den);
        let right = gcd(o.num.unsigned_abs(), self.den);
        let num = in_range((self.num / left as i128).checked_mul(o.num / right as i128)?)?;
        let den = den_in_range((self.den / right).checked_mul(o.den / left)?)?;
        Some(Frac { num, den })
    }

    fn cmp(&self, o: &Frac) -> Ordering {
        let (left, right) = (self.num.unsigned_abs(), o.num.unsigned_abs());
        match (self.num < 0, o.num < 0) {
            (true, true) => compare_products(right, self.den, left, o.den),
            (true, false) => Ordering::Less,
            (false, true) => Ordering::Greater,
            (false, false) => compare_products(left, o.den, right, self.den),
        }
    }
}

fn drawn(x: u64) -> Frac {
    reduce(i128::from(x >> 2) - (1 << 61), u128::from(next(x) >> 33) + 1)
}

fn folded(sum: u64, f: &Frac) -> u64 {
    sum.wrapping_mul(31)
        .wrapping_add((f.num & 0xffff_ffff) as u64)
        .wrapping_add((f.den & 0xffff_ffff) as u64)
}

fn operations(calls: u32, operation: impl Fn(&Frac, &Frac) -> Option<Frac>) -> u64 {
    let (mut x, mut sum) = (1u64, 0u64);
    for _ in 0..calls {
        x = next(x);
        sum = match operation(&drawn(x), &drawn(next(x))) {
            Some(c) => folded(sum, &c),
            None => sum.wrapping_add(1),
        };
    }
    sum
}

fn comparisons(calls: u32) -> u64 {
    let (mut x, mut sum) = (1u64, 0u64);
    for _ in 0..calls {
        x = next(x);
        if drawn(x).cmp(&drawn(next(x))) == Ordering::Less {
            sum = sum.wrapping_add(x & 0xffff);
        }
    }
    sum
}

#[derive(Clone, Copy)]
enum Kind {
    Choose { least: u16, most: u16 },
    Leaf,
}

#[derive(Clone, Copy, PartialEq)]
#[allow(dead_code)]
enum Mark {
    Free,
    Must,
    Never,
}

#[derive(Clone, Copy)]
struct Offer {
    gain: i128,
    child: u16,
}

struct Tree {
    kinds: Vec<Kind>,
    parents: Vec<u16>,
    children: Vec<u16>,
    starts: Vec<u16>,
    ends: Vec<u16>,
}

struct Scratch {
    gain: [i128; 200],
    needed: [bool; 200],
    possible: [bool; 200],
    taken: [bool; 200],
    offers: [Offer; 200],
}

// Takes the needed children, and counts them and the possible ones; none, where a needed one is not possible.
fn take_needed(children: &[u16], s: &mut Scratch) -> Option<(u16, u16)> {
    let (mut needed, mut possible) = (0, 0);
    for &child in children {
        let c = child as usize;
        if s.needed[c] && !s.possible[c] {
            return None;
        }
        needed += s.needed[c] as u16;
        possible += s.possible[c] as u16;
        s.taken[c] = s.needed[c];
    }
    Some((needed, possible))
}

// Takes the child that adds most, where at most one more may be taken than the `count` that are.
fn take_one(children: &[u16], least: u16, most: u16, count: u16, s: &mut Scratch) -> bool {
    let mut best: Option<Offer> = None;
    if count < most {
        for &child in children {
            let c = child as usize;
            let gain = s.gain[c];
            if s.possible[c] && !s.taken[c] && best.is_none_or(|best| best.gain < gain) {
                best = Some(Offer { gain, child });
            }
        }
    }
    match best {
        Some(offer) if count < least || offer.gain > 0 => {
            s.taken[offer.child as usize] = true;
            count + 1 >= least
        }
        _ => count >= least,
    }
}

// Takes each possible child that adds value too, and counts all that are taken.
fn take_gains(children: &[u16], s: &mut Scratch) -> u16 {
    let mut count = 0;
    for &child in children {
        let c = child as usize;
        s.taken[c] |= s.possible[c] & (s.gain[c] > 0);
        count += s.taken[c] as u16;
    }
    count
}

fn choose(children: &[u16], least: u16, most: u16, s: &mut Scratch) -> bool {
    let Some((mut count, possible)) = take_needed(children, s) else {
        return false;
    };
    if count > most || possible < least {
        return false;
    }
    if least <= most && possible == least {
        for &child in children {
            s.taken[child as usize] = s.possible[child as usize];
        }
        return true;
    }
    if most - count <= 1 {
        return take_one(children, least, most, count, s);
    }
    if possible <= most {
        if take_gains(children, s) >= least {
            return true;
        }
        for &child in children {
            s.taken[child as usize] = s.needed[child as usize];
        }
    }
    let mut offered = 0;
    for &child in children {
        let c = child as usize;
        if s.possible[c] && !s.taken[c] {
            s.offers[offered] = Offer {
                gain: s.gain[c],
                child,
            };
            offered += 1;
        }
    }
    s.offers[..offered].sort_unstable_by_key(|offer| offer.gain);
    for k in (0..offered).rev() {
        let offer = s.offers[k];
        if count >= most {
            return count >= least;
        }
        if count >= least && offer.gain <= 0 {
            return true;
        }
        s.taken[offer.child as usize] = true;
        count += 1;
    }
    count >= least
}

fn best(t: &Tree, w: &[i128], f: &[Mark], s: &mut Scratch, out: &mut [u64; 4]) -> Option<i128> {
    let n = t.kinds.len();
    for node in (0..n).rev() {
        let children = &t.children[t.starts[node] as usize..t.ends[node] as usize];
        let needed = f[node] == Mark::Must || children.iter().any(|&c| s.needed[c as usize]);
        let (least, most) = match t.kinds[node] {
            Kind::Choose { least, most } => (least, most),
            Kind::Leaf => (0, 0),
        };
        let open = f[node] != Mark::Never && choose(children, least, most, s);
        s.needed[node] = needed;
        s.possible[node] = open;
        s.gain[node] = 0;
        if open {
            let below: i128 = children
                .iter()
                .filter(|&&c| s.taken[c as usize])
                .map(|&c| s.gain[c as usize])
                .sum();
            s.gain[node] = w[node] + below;
        }
    }
    *out = [0; 4];
    if s.needed[0] && !s.possible[0] {
        return None;
    }
    let root = s.possible[0] && (s.needed[0] || s.gain[0] > 0);
    if root {
        out[0] |= 1;
    }
    for node in 1..n {
        let p = t.parents[node] as usize;
        if (out[p / 64] >> (p % 64)) & 1 == 1 && s.taken[node] {
            out[node / 64] |= 1 << (node % 64);
        }
    }
    Some(if root { s.gain[0] } else { 0 })
}

fn tree() -> Tree {
    let mut kinds = vec![Kind::Choose { least: 0, most: 3 }];
    let mut parents = vec![0u16];
    for _ in 0..3 {
        let branch = kinds.len() as u16;
        kinds.push(Kind::Choose { least: 1, most: 4 });
        parents.push(0);
        for _ in 0..8 {
            let twig = kinds.len() as u16;
            kinds.push(Kind::Choose { least: 0, most: 3 });
            parents.push(branch);
            for _ in 0..7 {
                kinds.push(Kind::Leaf);
                parents.push(twig);
            }
        }
    }
    let (mut children, mut starts, mut ends) = (vec![], vec![], vec![]);
    for p in 0..kinds.len() {
        starts.push(children.len() as u16);
        children.extend((1..kinds.len()).filter(|&c| parents[c] as usize == p).map(|c| c as u16));
        ends.push(children.len() as u16);
    }
    Tree {
        kinds,
        parents,
        children,
        starts,
        ends,
    }
}

fn best_calls(calls: u32) -> u64 {
    let t = tree();
    let n = t.kinds.len();
    let mut w = vec![0i128; n];
    let f = vec![Mark::Free; n];
    let mut s = Box::new(Scratch {
        gain: [0; 200],
        needed: [false; 200],
        possible: [false; 200],
        taken: [false; 200],
        offers: [Offer { gain: 0, child: 0 }; 200],
    });
    let mut out = [0u64; 4];
    let (mut x, mut total) = (1u64, 0u64);
    for weight in w.iter_mut() {
        x = next(x);
        *weight = i128::from((x >> 40) as u32) - 8_000_000;
    }
    for i in 0..calls {
        x = next(x);
        w[i as usize % n] = i128::from((x >> 40) as u32) - 8_000_000;
        if let Some(value) = best(&t, &w, &f, &mut s, &mut out) {
            total = total.wrapping_add((value & 0xffff_ffff) as u64);
        }
    }
    total
}

fn main() {
    let mut words = std::env::args().skip(1);
    let name = words.next().unwrap_or_default();
    let calls = words.next().and_then(|word| word.parse().ok()).unwrap_or(0);
    let checksum = match name.as_str() {
        "best" => best_calls(calls),
        "add" => operations(calls, Frac::add),
        "mul" => operations(calls, Frac::mul),
        _ => comparisons(calls),
    };
    println!("{checksum}");
}
