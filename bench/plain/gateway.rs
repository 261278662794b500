//! The text of `moka gateway` by std's maps: what its instructions are compared with.
use std::collections::{BTreeMap, BTreeSet, HashMap, VecDeque};
use std::io::{Read, Write};

enum Line<'a> {
    Open,
    Feed(u64, &'a str),
    Reply(u32, Answer),
    Close(u64),
}

#[derive(Clone, Copy)]
enum Answer {
    Value(u32),
    Error(u32),
    Bad,
}

#[derive(Default)]
struct Client {
    unfinished: Vec<u8>,
    passing: bool,
    first: u64,
    requests: VecDeque<(Option<u32>, Option<Answer>)>,
}

#[derive(Default)]
struct Gateway {
    stored: HashMap<u32, u32>,
    open: HashMap<u32, BTreeMap<u64, (u64, u64)>>,
    clients: HashMap<u64, Client>,
    last: u64,
    next: u64,
}

fn number(text: &str) -> Option<u64> {
    let plain = text.bytes().all(|b| b.is_ascii_digit()) && (text == "0" || !text.starts_with('0'));
    if plain { text.parse().ok() } else { None }
}

fn small(text: &str) -> Option<u32> {
    u32::try_from(number(text)?).ok()
}

fn line(text: &str) -> Option<Line<'_>> {
    if let Some(rest) = text.strip_prefix("feed ") {
        let (client, piece) = rest.split_once(' ')?;
        return if piece.is_empty() { None } else { Some(Line::Feed(number(client)?, piece)) };
    }
    if let Some(rest) = text.strip_prefix("reply ") {
        let (key, answer) = rest.split_once(' ')?;
        let key = small(key)?;
        if let Some(value) = answer.strip_prefix("value ") {
            return Some(Line::Reply(key, Answer::Value(small(value)?)));
        }
        return Some(Line::Reply(key, Answer::Error(small(answer.strip_prefix("error ")?)?)));
    }
    if let Some(client) = text.strip_prefix("close ") {
        return number(client).map(Line::Close);
    }
    if text == "open" { Some(Line::Open) } else { None }
}

fn request(line: &[u8]) -> Option<u32> {
    small(std::str::from_utf8(line).ok()?.strip_prefix("get ")?)
}

impl Client {
    /// What is due at a byte: a request, by its key where it has one.
    fn take(&mut self, byte: u8) -> Option<Option<u32>> {
        if byte == b';' {
            let due = if self.passing { None } else { Some(request(&self.unfinished)) };
            self.unfinished.clear();
            self.passing = false;
            return due;
        }
        if self.passing {
            return None;
        }
        self.unfinished.push(byte);
        if self.unfinished.len() > 64 {
            self.passing = true;
            return Some(None);
        }
        None
    }
}

impl Gateway {
    fn flush(&mut self, client: u64, text: &mut Vec<u8>) {
        let of = self.clients.get_mut(&client).unwrap();
        let mut begun = false;
        while let Some((_, Some(answer))) = of.requests.front() {
            if !begun {
                write!(text, "to {client} ").unwrap();
                begun = true;
            }
            match answer {
                Answer::Value(value) => write!(text, "value {value};").unwrap(),
                Answer::Error(error) => write!(text, "error {error};").unwrap(),
                Answer::Bad => text.extend_from_slice(b"bad;"),
            }
            of.requests.pop_front();
            of.first += 1;
        }
        if begun {
            text.push(b'\n');
        }
    }

    fn feed(&mut self, client: u64, piece: &str, text: &mut Vec<u8>) -> bool {
        let Some(of) = self.clients.get_mut(&client) else {
            return false;
        };
        for byte in piece.bytes() {
            let Some(due) = of.take(byte) else {
                continue;
            };
            let answer = match due {
                None => Some(Answer::Bad),
                Some(key) => self.stored.get(&key).map(|value| Answer::Value(*value)),
            };
            if let (Some(key), None) = (due, answer) {
                let list = self.open.entry(key).or_default();
                if list.is_empty() {
                    writeln!(text, "up fetch {key}").unwrap();
                }
                list.insert(self.next, (client, of.first + of.requests.len() as u64));
                self.next += 1;
            }
            of.requests.push_back((due, answer));
        }
        self.flush(client, text);
        true
    }

    fn reply(&mut self, key: u32, answer: Answer, text: &mut Vec<u8>) -> bool {
        let Some(list) = self.open.remove(&key) else {
            return false;
        };
        if let Answer::Value(value) = answer {
            self.stored.insert(key, value);
        }
        let mut clients = BTreeSet::new();
        for (client, number) in list.into_values() {
            let of = self.clients.get_mut(&client).unwrap();
            of.requests[(number - of.first) as usize].1 = Some(answer);
            clients.insert(client);
        }
        for client in clients {
            self.flush(client, text);
        }
        true
    }

    fn close(&mut self, client: u64, text: &mut Vec<u8>) -> bool {
        let Some(of) = self.clients.remove(&client) else {
            text.extend_from_slice(b"refused\n");
            return false;
        };
        text.extend_from_slice(b"closed\n");
        let keys: BTreeSet<u32> =
            of.requests.iter().filter(|r| r.1.is_none()).filter_map(|r| r.0).collect();
        for key in keys {
            let list = self.open.get_mut(&key).unwrap();
            list.retain(|_, waiting| waiting.0 != client);
            if list.is_empty() {
                self.open.remove(&key);
                writeln!(text, "up cancel {key}").unwrap();
            }
        }
        true
    }
}

fn main() {
    let mut bytes = Vec::new();
    std::io::stdin().read_to_end(&mut bytes).unwrap();
    let source = std::str::from_utf8(&bytes).expect("text");
    let mut lines = Vec::new();
    for (number, text) in source.split_terminator('\n').enumerate() {
        match line(text) {
            Some(line) => lines.push(line),
            None => {
                eprintln!("bad line {}", number + 1);
                std::process::exit(2);
            }
        }
    }
    let mut gateway = Gateway::default();
    let mut text = Vec::new();
    for line in lines {
        let done = match line {
            Line::Open if gateway.clients.len() < 1000 => {
                gateway.last += 1;
                gateway.clients.insert(gateway.last, Client::default());
                writeln!(text, "client {}", gateway.last).unwrap();
                true
            }
            Line::Open => false,
            Line::Feed(client, piece) => gateway.feed(client, piece, &mut text),
            Line::Reply(key, answer) => gateway.reply(key, answer, &mut text),
            Line::Close(client) => {
                gateway.close(client, &mut text);
                true
            }
        };
        if !done {
            text.extend_from_slice(b"refused\n");
        }
    }
    std::io::stdout().write_all(&text).unwrap();
}
