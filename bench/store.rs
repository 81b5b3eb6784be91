// The yardstick for a store of records, in plain Rust: `store PART N FOLDER` does one part of the work of `px_bench store PART N
// FOLDER` in memory, over std's `BTreeMap` of byte vectors, with N records of 40 bytes, and comes to the same checksum.
//
//     load     puts the records in ascending order of their vids
//     scan     loads them, and then reads all in order
//     get      loads them, and then gets each in ascending order
//     same     loads them, and then puts each anew with other bytes of the same size
//     grow     loads them, and then puts each anew with eight bytes more
//     random   loads them, and then gets a tenth of them in no order
//
// Only the last part of the work is timed.
use std::collections::BTreeMap;
use std::env;
use std::error::Error;
use std::time::{Duration, Instant};

const SIZE: usize = 40;
const MORE: usize = 8;
const STEP: u64 = 3;

type Store = BTreeMap<u64, Vec<u8>>;

#[derive(Default)]
struct Tally {
    count: u64,
    sum: u64,
}

impl Tally {
    fn add(&mut self, vid: u64, record: &[u8]) {
        self.count += 1;
        let number = u64::from_be_bytes(record[..8].try_into().unwrap());
        self.sum = self
            .sum
            .wrapping_mul(31)
            .wrapping_add(vid)
            .wrapping_add(number)
            .wrapping_add(record.len() as u64);
    }
}

fn record_of(vid: u64, size: usize, turn: u64) -> Vec<u8> {
    let mut record = vec![0; size];
    record[..8].copy_from_slice(&(vid ^ turn).to_be_bytes());
    record
}

fn load(count: u64) -> Store {
    let mut store = Store::new();
    for i in 0..count {
        store.insert(i * STEP, record_of(i * STEP, SIZE, 0));
    }
    store
}

fn put_all(store: &mut Store, count: u64, size: usize) {
    for i in 0..count {
        store.insert(i * STEP, record_of(i * STEP, size, 1));
    }
}

fn scan(store: &Store) -> Tally {
    let mut tally = Tally::default();
    for (vid, record) in store {
        tally.add(*vid, record);
    }
    tally
}

fn get_all(store: &Store, vids: impl Iterator<Item = u64>) -> Tally {
    let mut tally = Tally::default();
    for vid in vids {
        if let Some(record) = store.get(&vid) {
            tally.add(vid, record);
        }
    }
    tally
}

fn timed<T>(work: impl FnOnce() -> T) -> (T, Duration) {
    let start = Instant::now();
    let done = work();
    (done, start.elapsed())
}

fn run(part: &str, count: u64) -> Option<(Tally, Duration)> {
    if part == "load" {
        let (store, spent) = timed(|| load(count));
        return Some((scan(&store), spent));
    }
    let mut store = load(count);
    match part {
        "scan" => Some(timed(|| scan(&store))),
        "get" => Some(timed(|| get_all(&store, (0..count).map(|i| i * STEP)))),
        "random" => Some(timed(|| {
            get_all(&store, (0..count / 10).map(|i| i * 7_919 % count * STEP))
        })),
        "same" | "grow" => {
            let size = if part == "grow" { SIZE + MORE } else { SIZE };
            let ((), spent) = timed(|| put_all(&mut store, count, size));
            Some((scan(&store), spent))
        }
        _ => None,
    }
}

fn main() -> Result<(), Box<dyn Error>> {
    let words: Vec<String> = env::args().skip(1).collect();
    let [part, count, _] = words.as_slice() else {
        return Err("usage: store PART N FOLDER".into());
    };
    let (tally, spent) = run(part, count.parse()?).ok_or("there is no such part")?;
    eprintln!("{:.6}", spent.as_secs_f64());
    println!("store {part}: {} records, checksum {}", tally.count, tally.sum);
    Ok(())
}
