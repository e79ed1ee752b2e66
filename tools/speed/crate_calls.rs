//! `ini_replay calls` over the Rust crate: the same lines in, the same lines out. See the head of its `calls.rt`.
use ini::Ini;
use std::io::{self, BufRead};

/// The texts of a document, and after them those that it doesn't have.
struct Names {
    has_sections: bool,
    texts: Vec<String>,
}

impl Names {
    fn place(&self, number: usize) -> (&str, &str) {
        let text = self.texts[number].as_str();
        if self.has_sections {
            (text, "key")
        } else {
            ("one", text)
        }
    }

    fn set(&self, document: &mut Ini, number: usize) -> usize {
        let (section, key) = self.place(number);
        document.set_to(Some(section), key.to_string(), "its value".to_string());
        0
    }

    fn append(&self, document: &mut Ini, there: usize, new: usize) -> usize {
        if let Some(pairs) = document.section_mut(Some(self.place(there).0)) {
            pairs.append(self.place(new).1, "more");
        }
        0
    }

    fn set_by_setter(&self, document: &mut Ini, number: usize) -> usize {
        let (section, key) = self.place(number);
        document.with_section(Some(section)).set(key, "set");
        0
    }

    fn call(&self, document: &mut Ini, call: &str, there: usize, new: usize) -> usize {
        let (section, key) = self.place(there);
        match call {
            "get_from" => document.get_from(Some(section), key).map_or(0, str::len),
            "delete_from" => document.delete_from(Some(section), key).map_or(0, |v| v.len()),
            "section" => document.section(Some(section)).is_some() as usize,
            "len" if self.has_sections => document.len(),
            "len" => document.section(Some(section)).map_or(0, |s| s.len()),
            "sections" => document.sections().count(),
            "set_there" => self.set(document, there),
            "set_new" => self.set(document, new),
            "append" => self.append(document, there, new),
            "setter" => self.set_by_setter(document, there),
            _ => 0,
        }
    }
}

fn run(call: &str, has_sections: bool, len: usize, times: usize) -> (usize, u64) {
    let texts = (0..2 * len).map(|number| format!("the name {number}")).collect();
    let names = Names { has_sections, texts };
    let mut document = Ini::new();
    for number in 0..len {
        names.set(&mut document, number);
    }
    let mut sum: u64 = 0;
    for turn in 0..times {
        let there = turn.checked_rem(len).unwrap_or(0);
        let answer = names.call(&mut document, call, there, len + there);
        sum = sum.wrapping_mul(31).wrapping_add(answer as u64);
    }
    (document.iter().map(|(_, section)| section.iter().count()).sum(), sum)
}

fn main() {
    for line in io::stdin().lock().lines() {
        let line = line.expect("a line");
        let words: Vec<&str> = line.split(' ').collect();
        let [call, shape, len, times] = words[..] else {
            panic!("CALL SHAPE N TIMES, and not {line}");
        };
        let (len, times) = (len.parse().expect("N"), times.parse().expect("TIMES"));
        let (pairs, sum) = run(call, shape == "sections", len, times);
        println!("{line}: {pairs} {sum}");
    }
}
