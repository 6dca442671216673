// The same work as the program bench_calls under a `std::sync::Mutex`: so many rounds of 10000 pairs in one thread.
use std::hint::black_box;
use std::sync::Mutex;

const ACTS: u32 = 10_000;
const MOST: usize = 4_294_967_294;

#[derive(Clone, Copy)]
struct Pair {
    maker: u32,
    number: u32,
}

fn add(lock: &Mutex<Vec<Pair>>, pair: Pair) -> bool {
    let mut pairs = lock.lock().unwrap();
    if pairs.len() == MOST {
        return false;
    }
    pairs.push(pair);
    true
}

fn round() -> u64 {
    let lock = Mutex::new(Vec::new());
    for number in 0..ACTS {
        black_box(add(black_box(&lock), Pair { maker: 0, number }));
    }
    let pairs = lock.into_inner().unwrap();
    let last = pairs[pairs.len() - 1];
    black_box((last.maker, last.number));
    pairs.len() as u64
}

fn main() {
    let line = std::io::read_to_string(std::io::stdin()).unwrap();
    let rounds: u32 = line.trim_end().strip_prefix("lock ").unwrap().parse().unwrap();
    let added: u64 = (0..rounds).map(|_| round()).sum();
    println!("lock {added}");
}
