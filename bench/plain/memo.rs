//! The text of `moka memo` by std's maps: what its instructions are compared with.
use std::collections::{BTreeMap, HashMap, VecDeque};
use std::io::{Read, Write};

#[derive(Clone, Copy)]
enum Rule {
    Const(u32),
    Two(char, u32, u32),
    If(u32, u32, u32),
}

enum Line {
    Ask(u32),
    Turn(u64),
    Drop(u64),
    Finish,
}

struct Frame {
    rule: u32,
    owns: bool,
    operands: Vec<u32>,
}

enum Turned {
    Moved,
    Waits(u32),
    Value(u32),
}

fn number(text: &str) -> Option<u64> {
    let plain = text.bytes().all(|b| b.is_ascii_digit()) && (text == "0" || !text.starts_with('0'));
    if plain { text.parse().ok() } else { None }
}

fn small(text: &str) -> Option<u32> {
    u32::try_from(number(text)?).ok()
}

fn rule(words: &str, count: usize) -> Option<Rule> {
    let mut parts = words.split(' ');
    let name = parts.next()?;
    let numbers: Option<Vec<u32>> = parts.map(small).collect();
    let numbers = numbers?;
    let earlier = numbers.iter().all(|n| 0 < *n && *n as usize <= count);
    match (name, numbers.as_slice()) {
        ("const", [n]) => Some(Rule::Const(*n)),
        ("add", [a, b]) if earlier => Some(Rule::Two('+', *a, *b)),
        ("mul", [a, b]) if earlier => Some(Rule::Two('*', *a, *b)),
        ("min", [a, b]) if earlier => Some(Rule::Two('<', *a, *b)),
        ("max", [a, b]) if earlier => Some(Rule::Two('>', *a, *b)),
        ("if", [a, b, c]) if earlier => Some(Rule::If(*a, *b, *c)),
        _ => None,
    }
}

fn line(text: &str) -> Option<Line> {
    if let Some(rule) = text.strip_prefix("ask ") {
        return small(rule).map(Line::Ask);
    }
    if let Some(query) = text.strip_prefix("turn ") {
        return number(query).map(Line::Turn);
    }
    if let Some(query) = text.strip_prefix("drop ") {
        return number(query).map(Line::Drop);
    }
    if text == "finish" { Some(Line::Finish) } else { None }
}

#[derive(Default)]
struct Memo {
    rules: Vec<Rule>,
    known: HashMap<u32, u32>,
    owner: HashMap<u32, u64>,
    line: HashMap<u32, VecDeque<u64>>,
    waits: HashMap<u64, u32>,
    stacks: BTreeMap<u64, Vec<Frame>>,
    last: u64,
}

impl Memo {
    fn ask(&mut self, rule: u32) -> Option<u64> {
        if rule == 0 || rule as usize > self.rules.len() || self.stacks.len() >= 100 {
            return None;
        }
        self.last += 1;
        self.stacks.insert(self.last, vec![seeks(rule)]);
        Some(self.last)
    }

    fn needs(&self, frame: &Frame) -> Option<u32> {
        match (self.rules[frame.rule as usize - 1], frame.operands.as_slice()) {
            (Rule::Two(_, a, _), []) | (Rule::If(a, _, _), []) => Some(a),
            (Rule::Two(_, _, b), [_]) => Some(b),
            (Rule::If(_, _, c), [0]) => Some(c),
            (Rule::If(_, b, _), [_]) => Some(b),
            _ => None,
        }
    }

    fn value(&self, frame: &Frame) -> u32 {
        let of = &frame.operands;
        match self.rules[frame.rule as usize - 1] {
            Rule::Const(n) => n,
            Rule::Two('+', ..) => of[0].wrapping_add(of[1]),
            Rule::Two('*', ..) => of[0].wrapping_mul(of[1]),
            Rule::Two('<', ..) => of[0].min(of[1]),
            Rule::Two(..) => of[0].max(of[1]),
            Rule::If(..) => of[1],
        }
    }

    fn hand_down(&mut self, query: u64, value: u32) -> Turned {
        let stack = self.stacks.get_mut(&query).unwrap();
        stack.pop();
        match stack.last_mut() {
            Some(below) => {
                below.operands.push(value);
                Turned::Moved
            }
            None => {
                self.stacks.remove(&query);
                Turned::Value(value)
            }
        }
    }

    fn turn(&mut self, query: u64) -> Option<Turned> {
        let top = self.stacks.get(&query)?.last().unwrap();
        let rule = top.rule;
        if top.owns {
            if let Some(operand) = self.needs(top) {
                self.stacks.get_mut(&query).unwrap().push(seeks(operand));
                return Some(Turned::Moved);
            }
            let value = self.value(top);
            self.known.insert(rule, value);
            self.owner.remove(&rule);
            for waiter in self.line.remove(&rule).unwrap_or_default() {
                self.waits.remove(&waiter);
            }
            return Some(self.hand_down(query, value));
        }
        if let Some(value) = self.known.get(&rule) {
            let value = *value;
            return Some(self.hand_down(query, value));
        }
        if self.owner.get(&rule).is_some_and(|owner| *owner != query) {
            if self.waits.insert(query, rule).is_none() {
                self.line.entry(rule).or_default().push_back(query);
            }
            return Some(Turned::Waits(rule));
        }
        self.owner.insert(rule, query);
        self.stacks.get_mut(&query).unwrap().last_mut().unwrap().owns = true;
        Some(Turned::Moved)
    }

    fn drop(&mut self, query: u64) -> bool {
        let Some(stack) = self.stacks.remove(&query) else {
            return false;
        };
        if let Some(rule) = self.waits.remove(&query) {
            if let Some(line) = self.line.get_mut(&rule) {
                line.retain(|other| *other != query);
            }
        }
        for rule in stack.iter().map(|frame| frame.rule) {
            if self.owner.get(&rule) != Some(&query) {
                continue;
            }
            match self.line.get_mut(&rule).and_then(VecDeque::pop_front) {
                Some(next) => {
                    self.waits.remove(&next);
                    self.owner.insert(rule, next);
                }
                None => {
                    self.owner.remove(&rule);
                }
            }
        }
        true
    }

    fn finish(&mut self, text: &mut Vec<u8>) {
        while !self.stacks.is_empty() {
            let live: Vec<u64> = self.stacks.keys().copied().collect();
            for query in live {
                if let Some(Turned::Value(value)) = self.turn(query) {
                    writeln!(text, "answer {query} {value}").unwrap();
                }
            }
        }
        text.extend_from_slice(b"finished\n");
    }
}

fn seeks(rule: u32) -> Frame {
    Frame { rule, owns: false, operands: Vec::new() }
}

fn bad(number: usize) -> ! {
    eprintln!("bad line {}", number + 1);
    std::process::exit(2);
}

fn main() {
    let mut bytes = Vec::new();
    std::io::stdin().read_to_end(&mut bytes).unwrap();
    let source = std::str::from_utf8(&bytes).expect("text");
    let mut memo = Memo::default();
    let mut lines = Vec::new();
    for (number, text) in source.lines().enumerate() {
        if let Some(words) = text.strip_prefix("rule ") {
            match rule(words, memo.rules.len()) {
                Some(rule) if lines.is_empty() && memo.rules.len() < 10000 => memo.rules.push(rule),
                _ => bad(number),
            }
        } else {
            match line(text) {
                Some(line) => lines.push(line),
                None => bad(number),
            }
        }
    }
    let mut text = Vec::new();
    for line in lines {
        match line {
            Line::Ask(rule) => match memo.ask(rule) {
                Some(query) => writeln!(text, "query {query}").unwrap(),
                None => text.extend_from_slice(b"refused\n"),
            },
            Line::Turn(query) => match memo.turn(query) {
                Some(Turned::Moved) => text.extend_from_slice(b"moved\n"),
                Some(Turned::Waits(rule)) => writeln!(text, "wait {rule}").unwrap(),
                Some(Turned::Value(value)) => writeln!(text, "value {value}").unwrap(),
                None => text.extend_from_slice(b"refused\n"),
            },
            Line::Drop(query) if memo.drop(query) => text.extend_from_slice(b"dropped\n"),
            Line::Drop(_) => text.extend_from_slice(b"refused\n"),
            Line::Finish => memo.finish(&mut text),
        }
    }
    writeln!(text, "known {}", memo.known.len()).unwrap();
    std::io::stdout().write_all(&text).unwrap();
}
