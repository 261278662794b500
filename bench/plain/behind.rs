//! The text of `moka behind` by std's maps: what its instructions are compared with.
use std::collections::{HashMap, VecDeque};
use std::io::{Read, Write};

#[derive(Clone, Copy)]
enum Call {
    Set(u32, u32),
    Del(u32),
    Get(u32),
    Shed,
    Drain,
}

fn number(text: &str) -> Option<u32> {
    let plain = text.bytes().all(|b| b.is_ascii_digit()) && (text == "0" || !text.starts_with('0'));
    if plain { text.parse().ok() } else { None }
}

fn call(line: &str) -> Option<Call> {
    if let Some(rest) = line.strip_prefix("set ") {
        let (key, value) = rest.split_once(' ')?;
        return Some(Call::Set(number(key)?, number(value)?));
    }
    if let Some(key) = line.strip_prefix("get ") {
        return number(key).map(Call::Get);
    }
    if let Some(key) = line.strip_prefix("del ") {
        return number(key).map(Call::Del);
    }
    match line {
        "shed" => Some(Call::Shed),
        "drain" => Some(Call::Drain),
        _ => None,
    }
}

#[derive(Default)]
struct Behind {
    stored: HashMap<u32, u32>,
    unsent: VecDeque<(u32, Option<u32>)>,
    last: HashMap<u32, (u64, Option<u32>)>,
    keeper: HashMap<u32, u32>,
}

impl Behind {
    fn write(&mut self, key: u32, value: Option<u32>) {
        match value {
            Some(value) => self.stored.insert(key, value),
            None => self.stored.remove(&key),
        };
        self.unsent.push_back((key, value));
        let last = self.last.entry(key).or_insert((0, None));
        *last = (last.0 + 1, value);
    }

    fn get(&mut self, key: u32) -> Option<u32> {
        if let Some(value) = self.stored.get(&key) {
            return Some(*value);
        }
        let found = match self.last.get(&key) {
            Some((_, value)) => *value,
            None => self.keeper.get(&key).copied(),
        };
        if let Some(value) = found {
            self.stored.insert(key, value);
        }
        found
    }

    fn drain(&mut self) -> u64 {
        let mut count = 0;
        while let Some((key, value)) = self.unsent.pop_front() {
            match value {
                Some(value) => self.keeper.insert(key, value),
                None => self.keeper.remove(&key),
            };
            let last = self.last.get_mut(&key).unwrap();
            last.0 -= 1;
            if last.0 == 0 {
                self.last.remove(&key);
            }
            count += 1;
        }
        count
    }
}

fn main() {
    let mut bytes = Vec::new();
    std::io::stdin().read_to_end(&mut bytes).unwrap();
    let mut calls = Vec::new();
    let source = std::str::from_utf8(&bytes).expect("text");
    for (number, line) in source.lines().enumerate() {
        match call(line) {
            Some(call) => calls.push(call),
            None => {
                eprintln!("bad line {}", number + 1);
                std::process::exit(2);
            }
        }
    }
    let mut behind = Behind::default();
    let mut text = Vec::new();
    for call in calls {
        match call {
            Call::Set(key, value) => {
                behind.write(key, Some(value));
                text.extend_from_slice(b"done\n");
            }
            Call::Del(key) => {
                behind.write(key, None);
                text.extend_from_slice(b"done\n");
            }
            Call::Get(key) => match behind.get(key) {
                Some(value) => writeln!(text, "some {value}").unwrap(),
                None => text.extend_from_slice(b"none\n"),
            },
            Call::Shed => {
                writeln!(text, "shed {}", behind.stored.len()).unwrap();
                behind.stored.clear();
            }
            Call::Drain => writeln!(text, "drained {}", behind.drain()).unwrap(),
        }
    }
    writeln!(text, "unsent {}", behind.unsent.len()).unwrap();
    std::io::stdout().write_all(&text).unwrap();
}
