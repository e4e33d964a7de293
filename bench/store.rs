//! The same work as crates/bench_store over a map of Rust's standard library, for comparison (see bench/store).
use std::collections::BTreeMap;

const CLIENTS: u32 = 8;
const KEYS: u32 = 64;
const MOST_NAMES: usize = 24;

enum Op {
    Put(Vec<u8>, Vec<u8>),
    Get(u32, Vec<u8>),
    Del(Vec<u8>),
    Cas(Vec<u8>, Vec<u8>, Vec<u8>),
    Grant(Vec<u8>, u32),
    Revoke(Vec<u8>, u32),
    Count,
    Keys,
}

enum Reply {
    Done,
    Value(Vec<u8>),
    Absent,
    Differs,
    Count(u32),
    Keys(Vec<(u32, Vec<u8>)>),
}

struct Record {
    value: Vec<u8>,
    readers: Vec<u32>,
}

type Records = BTreeMap<(u32, Vec<u8>), Record>;

fn sees(client: u32, owner: u32, record: &Record) -> bool {
    owner == client || record.readers.contains(&client)
}

fn apply(records: &mut Records, client: u32, op: Op) -> Reply {
    match op {
        Op::Put(key, value) => {
            records
                .entry((client, key))
                .and_modify(|record| record.value = value.clone())
                .or_insert_with(|| Record { value, readers: Vec::new() });
            Reply::Done
        }
        Op::Get(owner, key) => match records.get(&(owner, key)) {
            Some(record) if sees(client, owner, record) => Reply::Value(record.value.clone()),
            _ => Reply::Absent,
        },
        Op::Del(key) => match records.remove(&(client, key)) {
            Some(_) => Reply::Done,
            None => Reply::Absent,
        },
        Op::Cas(key, old, new) => match records.get_mut(&(client, key)) {
            None => Reply::Absent,
            Some(record) if record.value != old => Reply::Differs,
            Some(record) => {
                record.value = new;
                Reply::Done
            }
        },
        Op::Grant(key, reader) => match records.get_mut(&(client, key)) {
            None => Reply::Absent,
            Some(record) => {
                if let Err(place) = record.readers.binary_search(&reader) {
                    record.readers.insert(place, reader);
                }
                Reply::Done
            }
        },
        Op::Revoke(key, reader) => match records.get_mut(&(client, key)) {
            None => Reply::Absent,
            Some(record) => {
                record.readers.retain(|other| *other != reader);
                Reply::Done
            }
        },
        Op::Count => {
            let seen = records.iter().filter(|(name, record)| sees(client, name.0, record));
            Reply::Count(seen.count() as u32)
        }
        Op::Keys => {
            let seen = records.iter().filter(|(name, record)| sees(client, name.0, record));
            Reply::Keys(seen.take(MOST_NAMES).map(|(name, _)| name.clone()).collect())
        }
    }
}

struct Generator(u64);

impl Generator {
    fn below(&mut self, limit: u32) -> u32 {
        self.0 = (self.0 * 1103515245 + 12345) % 2147483648;
        (self.0 / 65536) as u32 % limit
    }
}

fn key_of(k: u32) -> Vec<u8> {
    vec![b'k', b'0' + (k / 10) as u8, b'0' + (k % 10) as u8]
}

fn value_of(k: u32) -> Vec<u8> {
    vec![b'v', b'a', b'l', b'u', b'e', b'0' + k as u8]
}

fn next(generator: &mut Generator, is_mixed: bool) -> Op {
    let kind = generator.below(if is_mixed { 16 } else { 10 });
    let key = key_of(generator.below(KEYS));
    let old = value_of(generator.below(4));
    let new = value_of(generator.below(4));
    let client = generator.below(CLIENTS);
    match kind {
        0..=4 => Op::Put(key, new),
        5..=9 => Op::Get(client, key),
        10 => Op::Del(key),
        11 => Op::Cas(key, old, new),
        12 => Op::Grant(key, client),
        13 => Op::Revoke(key, client),
        14 => Op::Count,
        _ => Op::Keys,
    }
}

struct Sum(u64);

impl Sum {
    fn add(&mut self, number: u32) {
        self.0 = (self.0 * 31 + u64::from(number)) % 4294967291;
    }

    fn add_bytes(&mut self, bytes: &[u8]) {
        for byte in bytes {
            self.add(u32::from(*byte));
        }
    }

    fn add_reply(&mut self, reply: &Reply) {
        match reply {
            Reply::Done => self.add(1),
            Reply::Absent => self.add(2),
            Reply::Differs => self.add(3),
            Reply::Value(value) => self.add_bytes(value),
            Reply::Count(count) => self.add(*count),
            Reply::Keys(names) => {
                for (owner, key) in names {
                    self.add(*owner);
                    self.add_bytes(key);
                }
            }
        }
    }
}

fn main() {
    let words: Vec<String> = std::env::args().collect();
    let count: u32 = words[2].parse().unwrap();
    let mut records = Records::new();
    for client in 0..CLIENTS {
        for k in 0..KEYS {
            apply(&mut records, client, Op::Put(key_of(k), value_of(0)));
        }
    }
    let mut generator = Generator(1);
    let mut sum = Sum(0);
    for _ in 0..count {
        let client = generator.below(CLIENTS);
        let op = next(&mut generator, words[1] == "mixed");
        sum.add_reply(&apply(&mut records, client, op));
    }
    println!("{}", sum.0);
}
