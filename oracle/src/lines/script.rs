//! The script examples/symbols.inc, answered by the original in the lines of examples/symbols.c.

use crate::judge::symbols::{update_alone, Asked, Judge, Operation, Told};
use crate::judge::table::{Symbol, FREE, PART};
use std::collections::HashMap;
use std::fmt::Write;

/// What symbols.c holds, and as much of it as is lent.
struct Host {
    types: HashMap<String, Vec<u64>>,
    judge: Judge,
    lent: (usize, usize),
    alone: Symbol,
    words: Vec<u64>,
    room: usize,
    lines: String,
}

pub fn script(text: &str) -> String {
    let mut host = Host {
        types: HashMap::new(),
        judge: Judge::new(vec![FREE; 3], vec![0; 3 * PART]),
        lent: (3, 3 * PART),
        alone: FREE,
        words: vec![0; PART + 1],
        room: PART,
        lines: String::new(),
    };
    for line in text.lines().filter(|line| line.ends_with(')')) {
        let (command, rest) = line.split_once('(').expect("a command");
        let arguments: Vec<&str> = rest[..rest.len() - 1].split(", ").collect();
        host.follow(command, &arguments);
    }
    assert!(host.judge.agrees(), "what was set by hand must be set back");
    host.lines
}

fn number(text: &str) -> u64 {
    match text {
        "false" => 0,
        "true" => 1,
        "UINT32_MAX" => u32::MAX as u64,
        "UINT64_MAX" => u64::MAX,
        digits => digits.parse().expect("a number"),
    }
}

fn set(symbol: &mut Symbol, field: &str, value: u64) {
    match field {
        "id" => symbol.id = value as u32,
        "state" => symbol.state = value,
        "layers" => symbol.layers = value,
        field => panic!("no field {field} is set by hand"),
    }
}

impl Host {
    fn follow(&mut self, command: &str, arguments: &[&str]) {
        match (command, arguments) {
            ("TYPE", [name, words @ ..]) => {
                let words = words.iter().map(|word| number(word)).collect();
                self.types.insert(name.to_string(), words);
            }
            ("SET", [slot, field, value]) => {
                let slot = &mut self.judge.table[number(slot) as usize];
                set(slot, field, number(value));
            }
            ("LEND", [records, words]) => {
                self.lent = (number(records) as usize, number(words) as usize);
            }
            ("SHOW", _) => {
                for slot in 0..self.judge.table.len() {
                    self.show(slot);
                }
            }
            ("ALONE", [field, value]) => set(&mut self.alone, field, number(value)),
            ("FILL", [name]) => {
                let words = &self.types[*name];
                self.words[..words.len()].copy_from_slice(words);
            }
            ("ROOM", [words]) => self.room = number(words) as usize,
            ("STEP", [operation, rest @ ..]) => self.step(operation, rest),
            _ => panic!("no command {command} {arguments:?}"),
        }
    }

    fn step(&mut self, operation: &str, arguments: &[&str]) {
        let told = match operation {
            "update_symbol" => self.update(arguments),
            _ => self.ask(operation, arguments),
        };
        let _ = write!(self.lines, "{operation} {}: ", arguments.join(", "));
        if told.refusal != 0 {
            let _ = writeln!(self.lines, "refused {} at {}", told.refusal, told.value);
            return;
        }
        let _ = writeln!(self.lines, "{}", told.value);
        let id = number(arguments[0]) as u32;
        match (operation, told.value, self.judge.slot(id)) {
            ("get_symbol", ..) => {
                let _ = writeln!(self.lines, "  found {}", told.found.unwrap_or(7));
            }
            ("update_symbol", 1.., _) => {
                self.lines += &shown("alone", &self.alone, &self.words);
            }
            (_, 1.., Some(slot)) => self.show(slot),
            _ => {}
        }
    }

    fn show(&mut self, slot: usize) {
        let words = &self.judge.store[PART * slot..];
        self.lines += &shown(&format!("slot {slot}"), &self.judge.table[slot], words);
    }

    fn update(&mut self, arguments: &[&str]) -> Told {
        let [id, authority, place, name] = arguments else {
            panic!("an update is asked with four arguments")
        };
        let offered = &self.types[*name];
        let name = (number(id) as u32, number(authority) == 1, number(place));
        let words = &mut self.words[..self.room];
        update_alone(&mut self.alone, words, name, offered)
    }

    fn ask(&mut self, operation: &str, arguments: &[&str]) -> Told {
        let last = arguments[arguments.len() - 1];
        let operation = match operation {
            "put_nothing" => Operation::PutNothing,
            "put_type" => Operation::PutType(self.types[last].clone()),
            "put_poison" => Operation::PutPoison(number(last)),
            "forward_declare_type" => Operation::DeclareType(self.types[last].clone()),
            "forward_declare_poison" => Operation::DeclarePoison(number(last)),
            "get_symbol" => Operation::Get,
            operation => panic!("no operation {operation}"),
        };
        let asked = Asked {
            operation,
            id: number(arguments[0]) as u32,
            authority: number(arguments[1]) == 1,
            place: arguments.get(2).map_or(0, |place| number(place)),
        };
        if self.lent == (3, 3 * PART) {
            return self.judge.tell(&asked);
        }
        // A part of it is another table, which the script only asks what is refused or not there.
        let (records, words) = self.lent;
        let mut store = self.judge.store.clone();
        store.resize(words, 0);
        Judge::new(self.judge.table[..records].to_vec(), store).tell(&asked)
    }
}

/// As symbols.c prints a record that was stored.
fn shown(name: &str, symbol: &Symbol, words: &[u64]) -> String {
    let not = if symbol.authority { "" } else { "not " };
    let mut line = format!("  {name}: id {}, {not}authoritative", symbol.id);
    let _ = write!(line, ", place {}", symbol.place);
    if symbol.state == 1 {
        line += ", type";
        for word in &words[..3 * symbol.layers as usize] {
            let _ = write!(line, " {word}");
        }
    }
    let _ = writeln!(line, ", mark {}", symbol.mark);
    line
}
