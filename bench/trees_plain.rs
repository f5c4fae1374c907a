// The works of crates/mj_bench on an ordered map of the standard library, whose keys keep the order of names as bytes: the word, a
// zero, and for each subscript a one and its number in eight bytes.
use std::collections::BTreeMap;
use std::ops::Bound::{Excluded, Unbounded};
use std::time::Instant;

type Map = BTreeMap<Vec<u8>, Vec<u8>>;

const FIRST: u64 = 400;
const SECOND: u64 = 500;
const SIBLINGS: u64 = 200_000;

fn key(word: &[u8], subscripts: &[u64]) -> Vec<u8> {
    let mut key = Vec::with_capacity(word.len() + 1 + 9 * subscripts.len());
    key.extend_from_slice(word);
    key.push(0);
    for subscript in subscripts {
        key.push(1);
        key.extend_from_slice(&subscript.to_be_bytes());
    }
    key
}

fn resident() -> u64 {
    let text = std::fs::read_to_string("/proc/self/status").unwrap_or_default();
    text.lines()
        .find_map(|line| line.strip_prefix("VmRSS:"))
        .and_then(|rest| rest.trim().trim_end_matches(" kB").parse().ok())
        .unwrap_or(0)
}

fn set(map: &mut Map) -> u64 {
    for i in 0..FIRST {
        for j in 0..SECOND {
            map.insert(key(b"A", &[i, j]), j.to_string().into_bytes());
        }
    }
    FIRST * SECOND
}

fn get(map: &mut Map) -> u64 {
    let mut done = 0;
    for i in 0..FIRST {
        for j in 0..SECOND {
            done += map.get(&key(b"A", &[i, j])).is_some() as u64;
        }
    }
    done
}

fn siblings(map: &mut Map) -> u64 {
    for i in 0..SIBLINGS {
        map.insert(key(b"B", &[i]), b"1".to_vec());
    }
    SIBLINGS
}

// past everything below a key stands the key with a two behind it
fn order(map: &mut Map) -> u64 {
    let front = key(b"B", &[]);
    let mut last = front.clone();
    let mut done = 0;
    loop {
        last.push(if done == 0 { 0 } else { 2 });
        match map.range::<[u8], _>((Excluded(&last[..]), Unbounded)).next() {
            Some((next, _)) if next.starts_with(&front) => last = next[..front.len() + 9].to_vec(),
            _ => return done,
        }
        done += 1;
    }
}

fn query(map: &mut Map) -> u64 {
    let front = key(b"A", &[]);
    let mut last = front.clone();
    let mut done = 0;
    loop {
        match map.range::<[u8], _>((Excluded(&last[..]), Unbounded)).next() {
            Some((next, _)) if next.starts_with(&front) => last = next.clone(),
            _ => return done,
        }
        done += 1;
    }
}

fn kill(map: &mut Map) -> u64 {
    let mut done = 0;
    for i in 0..FIRST / 2 {
        let front = key(b"A", &[i]);
        let gone: Vec<Vec<u8>> = map
            .range(front.clone()..)
            .map(|(key, _)| key.clone())
            .take_while(|key| key.starts_with(&front))
            .collect();
        for key in gone {
            map.remove(&key);
            done += 1;
        }
    }
    done
}

fn main() {
    let mut map = Map::new();
    let before = resident();
    let works: [(&str, fn(&mut Map) -> u64); 6] = [
        ("set", set),
        ("get", get),
        ("query", query),
        ("kill", kill),
        ("siblings", siblings),
        ("order", order),
    ];
    for (name, work) in works {
        let start = Instant::now();
        let done = work(&mut map);
        println!("{name} {done} {}", start.elapsed().as_nanos());
        if name == "set" {
            println!("kilobytes 1 {}", resident().saturating_sub(before));
        }
    }
}
