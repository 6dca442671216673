//! The same work as the program bench_calls, in Rust with its library's root.

use std::io::BufRead;

#[derive(Clone, Copy)]
struct Point {
    x: i32,
    z: i32,
}

fn ceil_sqrt(n: u64) -> u32 {
    let below = n.isqrt();
    if below * below == n { below as u32 } else { (below + 1) as u32 }
}

fn orient(a: Point, b: Point, c: Point) -> i64 {
    (b.x as i64 - a.x as i64) * (c.z as i64 - a.z as i64) - (b.z as i64 - a.z as i64) * (c.x as i64 - a.x as i64)
}

fn scattered(state: u64) -> u64 {
    state.wrapping_mul(6364136223846793005).wrapping_add(1442695040888963407)
}

fn large_roots(rounds: u64) -> u64 {
    let mut state = 1;
    let mut sum: u64 = 0;
    for _ in 0..rounds {
        state = scattered(state);
        sum = sum.wrapping_add(ceil_sqrt(state >> 1) as u64);
    }
    sum
}

fn small_roots(rounds: u64) -> u64 {
    let mut state = 1;
    let mut sum: u64 = 0;
    for _ in 0..rounds {
        state = scattered(state);
        sum = sum.wrapping_add(ceil_sqrt(state >> 34) as u64);
    }
    sum
}

fn point(state: u64) -> Point {
    Point { x: ((state >> 47 & 0x1ffff) as i32) - 65536, z: ((state >> 30 & 0x1ffff) as i32) - 65536 }
}

fn turns(rounds: u64) -> i64 {
    let mut a = 1;
    let mut b = 2;
    let mut sum: i64 = 0;
    for _ in 0..rounds {
        let c = scattered(b);
        sum = sum.wrapping_add(orient(point(a), point(b), point(c)));
        a = b;
        b = c;
    }
    sum
}

fn main() {
    for line in std::io::stdin().lock().lines() {
        let text = line.unwrap();
        if let Some((name, count)) = text.split_once(' ') {
            let rounds = count.parse::<u64>().unwrap_or(0);
            let sum = match name {
                "large_roots" => large_roots(rounds),
                "small_roots" => small_roots(rounds),
                "turns" => turns(rounds).unsigned_abs(),
                _ => 0,
            };
            println!("{name} {sum}");
        }
    }
}
