//! A plain program that does what `atomic` does: to compare answers and times with. Nothing of it is proved.
#![forbid(unsafe_code)]

mod book;
mod classes;
mod code;
mod core;
mod elaborate;
mod fault;
mod generate;
mod lex;
mod machine;
mod parse;
mod print;
mod rules;
mod schedule;
mod serialise;
mod tree;

use classes::Table;
use core::Program;
use fault::{Fault, Kind};
use machine::Machine;
use std::fs::File;
use std::io::{self, Read, Write};
use std::{env, process, str};

const LARGEST_SOURCE: u64 = 262_144;
const LARGEST_SCHEDULE: u64 = 16_777_216;

const USAGE: &str = "usage: atomic check FILE | run FILE SCHEDULE | serialise FILE SCHEDULE | derive FILE | \
verify FILE BOOK | print FILE | generate N | serialise-open FILE SCHEDULE | blame FILE | \
verify-blame FILE CERT | levels FILE LEVELS | replay FILE SCHEDULE\n";

/// A status that isn't 0, and its line.
type Refusal = (u8, String);

type Answer = Result<String, Refusal>;

fn read(name: &str, limit: u64) -> Result<Vec<u8>, Refusal> {
    let mut bytes = Vec::new();
    let file = File::open(name).and_then(|file| file.take(limit + 1).read_to_end(&mut bytes));
    if file.is_err() {
        return Err((6, format!("cannot read {name}\n")));
    }
    if bytes.len() as u64 > limit {
        return Err((10, format!("{name} is too large\n")));
    }
    Ok(bytes)
}

fn text(bytes: &[u8]) -> Result<&str, Fault> {
    str::from_utf8(bytes).map_err(|e| Fault::new(Kind::NotText, e.valid_up_to()))
}

fn print(bytes: &[u8]) -> Result<String, Fault> {
    let text = text(bytes)?;
    let tree = parse::parse(text, &lex::lex(text)?)?;
    Ok(print::print(&tree, text.len()))
}

fn check(table: &Table<'_, '_>, program: &Program) -> Result<Answer, Fault> {
    let rules = rules::rules(program)?;
    let tables = rules.infer();
    Ok(rules.verdict(table, &tables).map_err(|line| (2, line)))
}

/// Hands the names and the core program of a source to what is to be done with it.
fn elaborated(
    bytes: &[u8],
    act: impl FnOnce(&Table<'_, '_>, &Program) -> Result<Answer, Fault>,
) -> Answer {
    let answer = || {
        let text = text(bytes)?;
        let tree = parse::parse(text, &lex::lex(text)?)?;
        let table = classes::table(&tree.classes)?;
        let program = elaborate::elaborate(&table, &tree.exprs)?;
        act(&table, &program)
    };
    answer().map_err(|fault: Fault| (1, fault.line(bytes)))?
}

fn stopped((place, thread): (usize, u32), stop: machine::Stop) -> Refusal {
    (4, format!("entry {}: thread {thread} {stop}\n", place + 1))
}

fn run(table: &Table<'_, '_>, program: &Program, bytes: &[u8]) -> Answer {
    let schedule = schedule::read(bytes).map_err(|fault| (3, fault.line()))?;
    let code = code::compile(program);
    let mut machine = Machine::start(program, &code);
    let ended = machine.run(&schedule);
    ended.map_err(|(place, stop)| stopped((place, schedule[place]), stop))?;
    Ok(machine.text(table))
}

fn serialise(table: &Table<'_, '_>, program: &Program, bytes: &[u8]) -> Answer {
    let schedule = schedule::read(bytes).map_err(|fault| (3, fault.line()))?;
    let code = code::compile(program);
    let mut machine = Machine::start(program, &code);
    let ended = serialise::serialise(&mut machine, &schedule);
    let rewritten = ended.map_err(|(place, stop)| stopped((place, schedule[place]), stop))?;
    if let Some(thread) = machine.open_thread() {
        return Err((5, format!("thread {thread} is inside an atomic call\n")));
    }
    Ok(with_state(&rewritten, &machine.text(table)))
}

fn serialise_open(table: &Table<'_, '_>, program: &Program, bytes: &[u8]) -> Answer {
    let schedule = schedule::read(bytes).map_err(|fault| (3, fault.line()))?;
    let code = code::compile(program);
    let mut machine = Machine::start(program, &code);
    let ended = serialise::serialise_open(&mut machine, &schedule);
    let rewritten = ended.map_err(|(place, stop)| stopped((place, schedule[place]), stop))?;
    Ok(with_state(&rewritten, &machine.text(table)))
}

/// The figures of the serialised schedule for n workers, and what the field of the shared cell says at its end.
fn generated(n: u32) -> Answer {
    let source = generate::source(n);
    elaborated(source.as_bytes(), |table, program| {
        Ok(check(table, program)?.and_then(|_| {
            let code = code::compile(program);
            let mut machine = Machine::start(program, &code);
            let schedule = generate::schedule(n);
            let ended = serialise::serialise(&mut machine, &schedule);
            let order = ended.map_err(|(place, stop)| stopped((place, schedule[place]), stop))?;
            let text = machine.text(table);
            let cell = text.lines().find_map(|line| line.strip_prefix("object 0:1 Cell v="));
            let (entries, runs) = (order.len(), generate::groups(&order));
            Ok(format!("workers {n}\nentries {entries}\nruns {runs}\nv {}\n", cell.unwrap_or("0")))
        }))
    })
}

/// A schedule in a line, and the text of a state as comments.
fn with_state(schedule: &[u32], state: &str) -> String {
    let mut out = schedule::write(schedule);
    for line in state.lines() {
        out.push_str("# ");
        out.push_str(line);
        out.push('\n');
    }
    out
}

/// What a text has as a book, whatever it is a book for.
fn read_book(bytes: &[u8]) -> Answer {
    match book::read(bytes) {
        Ok(book) => {
            let last = book.nodes.last().map_or(0, |node| node.end + u32::from(node.word) + node.number);
            Ok(format!("{} trees, {} methods, {} nodes, {last}\n", book.trees.len(), book.methods.len(), book.nodes.len()))
        }
        Err(fault) => {
            let kind = if fault.kind == book::Kind::Form { "form" } else { "too deep" };
            Err((11, format!("book refused at byte {}: {kind}\n", fault.at)))
        }
    }
}

fn answer(words: &[&str]) -> Answer {
    match words {
        ["print", name] => {
            let bytes = read(name, LARGEST_SOURCE)?;
            print(&bytes).map_err(|fault| (1, fault.line(&bytes)))
        }
        ["check", name] => elaborated(&read(name, LARGEST_SOURCE)?, check),
        ["run", name, schedule] => {
            let bytes = read(name, LARGEST_SOURCE)?;
            let schedule = read(schedule, LARGEST_SCHEDULE)?;
            elaborated(&bytes, |table, program| {
                rules::rules(program)?;
                Ok(run(table, program, &schedule))
            })
        }
        ["serialise", name, schedule] => {
            let bytes = read(name, LARGEST_SOURCE)?;
            let schedule = read(schedule, LARGEST_SCHEDULE)?;
            elaborated(&bytes, |table, program| {
                let checked = check(table, program)?;
                Ok(checked.and_then(|_| serialise(table, program, &schedule)))
            })
        }
        ["serialise-open", name, schedule] => {
            let bytes = read(name, LARGEST_SOURCE)?;
            let schedule = read(schedule, LARGEST_SCHEDULE)?;
            elaborated(&bytes, |table, program| {
                let checked = check(table, program)?;
                Ok(checked.and_then(|_| serialise_open(table, program, &schedule)))
            })
        }
        ["generate", number] => match number.parse::<u32>() {
            Ok(n) if n < 1000 && n.to_string() == *number => generated(n),
            _ => Err((9, USAGE.to_string())),
        },
        ["read-book", name] => read_book(&read(name, LARGEST_SCHEDULE)?),
        _ => Err((9, USAGE.to_string())),
    }
}

fn main() {
    let words: Vec<String> = env::args().skip(1).collect();
    let words: Vec<&str> = words.iter().map(String::as_str).collect();
    let (status, text) = match answer(&words) {
        Ok(text) => (0, text),
        Err(refusal) => refusal,
    };
    let written = io::stdout().write_all(text.as_bytes());
    process::exit(if written.is_ok() { status.into() } else { 7 });
}
