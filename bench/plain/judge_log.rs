//! A plain program that judges logs as `atomic_trace` does, to compare times with. Nothing of it is proved.
//!
//!     rustc --edition 2024 -O -o judge-log plain/judge_log.rs; ./judge-log LOG
#![forbid(unsafe_code)]

use std::collections::HashMap;
use std::fs::File;
use std::io::{BufRead, BufReader};
use std::{env, process};

type Word = Vec<u8>;

#[derive(Clone, Copy, PartialEq)]
enum Kind {
    Both,
    Right,
    Left,
    Other,
    Bare,
}

enum Guard {
    ByLock(Word),
    ByThread(Word),
}

#[derive(Default)]
struct Used {
    locks: Vec<Word>,
    user: Word,
    shared: bool,
}

/// The guards that are guessed: for each place a lock that is held at each access, else the thread if there is one alone.
#[derive(Default)]
struct Guess {
    held: HashMap<Word, Vec<(Word, u64)>>,
    used: HashMap<Word, Used>,
}

impl Guess {
    fn take(&mut self, thread: &[u8], lock: &[u8]) {
        let held = self.held.entry(thread.to_vec()).or_default();
        match held.iter_mut().find(|(one, _)| one == lock) {
            Some((_, times)) => *times += 1,
            None => held.push((lock.to_vec(), 1)),
        }
    }

    fn give(&mut self, thread: &[u8], lock: &[u8]) {
        if let Some(held) = self.held.get_mut(thread) {
            if let Some(place) = held.iter().position(|(one, _)| one == lock) {
                held[place].1 -= 1;
                if held[place].1 == 0 {
                    held.remove(place);
                }
            }
        }
    }

    fn access(&mut self, thread: &[u8], place: &[u8]) {
        let held = self.held.get(thread).map_or(&[][..], Vec::as_slice);
        if let Some(used) = self.used.get_mut(place) {
            used.locks.retain(|lock| held.iter().any(|(one, _)| one == lock));
            used.shared |= used.user != thread;
        } else {
            let locks = held.iter().map(|(lock, _)| lock.clone()).collect();
            let user = thread.to_vec();
            self.used.insert(place.to_vec(), Used { locks, user, shared: false });
        }
    }

    fn note(&mut self, words: &[&[u8]]) {
        match words {
            [thread, b"take", lock] => self.take(thread, lock),
            [thread, b"give", lock] => self.give(thread, lock),
            [thread, b"read" | b"write", place, _] | [thread, b"change", place, _, _] => self.access(thread, place),
            _ => {}
        }
    }

    fn guards(self) -> HashMap<Word, Guard> {
        let guard = |used: Used| match used.locks.into_iter().next() {
            Some(lock) => Some(Guard::ByLock(lock)),
            None if !used.shared => Some(Guard::ByThread(used.user)),
            None => None,
        };
        self.used.into_iter().filter_map(|(place, used)| Some((place, guard(used)?))).collect()
    }
}

#[derive(Default)]
struct Thread {
    ended: bool,
    depth: u64,
    committed: bool,
}

/// A status that isn't 0, and why.
type Stop = (i32, &'static str);

#[derive(Default)]
struct Judge {
    guards: HashMap<Word, Guard>,
    locks: HashMap<Word, (Word, u64)>,
    places: HashMap<Word, Word>,
    threads: HashMap<Word, Thread>,
}

impl Judge {
    fn take(&mut self, thread: &[u8], lock: &[u8]) -> Result<Kind, Stop> {
        match self.locks.get_mut(lock) {
            Some((holder, times)) if *times > 0 => {
                if holder != thread {
                    return Err((3, "the lock is held by another"));
                }
                *times += 1;
                Ok(Kind::Both)
            }
            Some(free) => {
                *free = (thread.to_vec(), 1);
                Ok(Kind::Right)
            }
            None => {
                self.locks.insert(lock.to_vec(), (thread.to_vec(), 1));
                Ok(Kind::Right)
            }
        }
    }

    fn give(&mut self, thread: &[u8], lock: &[u8]) -> Result<Kind, Stop> {
        match self.locks.get_mut(lock) {
            Some((holder, times)) if *times > 0 && holder == thread => {
                *times -= 1;
                Ok(if *times == 0 { Kind::Left } else { Kind::Both })
            }
            _ => Err((3, "the lock is not held by this thread")),
        }
    }

    fn access(&mut self, thread: &[u8], place: &[u8], seen: Option<&[u8]>, left: Option<&[u8]>) -> Result<Kind, Stop> {
        match self.places.get_mut(place) {
            Some(value) => {
                if seen.is_some_and(|seen| value != seen) {
                    return Err((3, "the place holds another value"));
                }
                if let Some(left) = left {
                    value.clear();
                    value.extend_from_slice(left);
                }
            }
            None => {
                let value = left.or(seen).unwrap_or_default().to_vec();
                self.places.insert(place.to_vec(), value);
            }
        }
        let guarded = match self.guards.get(place) {
            None => return Ok(Kind::Other),
            Some(Guard::ByLock(lock)) => self.locks.get(lock).is_some_and(|(holder, times)| *times > 0 && holder == thread),
            Some(Guard::ByThread(user)) => user == thread,
        };
        Ok(if guarded { Kind::Both } else { Kind::Bare })
    }

    fn turn(&mut self, words: &[&[u8]]) -> Result<Kind, Stop> {
        match words {
            [thread, b"take", lock] => self.take(thread, lock),
            [thread, b"give", lock] => self.give(thread, lock),
            [thread, b"read", place, value] => self.access(thread, place, Some(value), None),
            [thread, b"write", place, value] => self.access(thread, place, None, Some(value)),
            [thread, b"change", place, seen, left] => self.access(thread, place, Some(seen), Some(left)),
            [_, b"start", other] => match self.threads.contains_key(*other) {
                true => Err((3, "the thread was there already")),
                false => {
                    self.threads.insert(other.to_vec(), Thread::default());
                    Ok(Kind::Left)
                }
            },
            [_, b"join", other] => match self.threads.entry(other.to_vec()).or_default().ended {
                true => Ok(Kind::Right),
                false => Err((3, "the thread has not ended")),
            },
            [thread, b"stop"] => {
                self.threads.entry(thread.to_vec()).or_default().ended = true;
                Ok(Kind::Left)
            }
            _ => Ok(Kind::Both),
        }
    }

    fn note(&mut self, words: &[&[u8]]) -> Result<(), Stop> {
        let thread = words[0];
        if !self.threads.contains_key(thread) {
            self.threads.insert(thread.to_vec(), Thread::default());
        }
        let me = &self.threads[thread];
        if me.ended {
            return Err((3, "the thread has ended"));
        }
        let depth = match words[1] {
            b"begin" => me.depth + 1,
            b"end" => me.depth.checked_sub(1).ok_or((3, "no block is open"))?,
            _ => me.depth,
        };
        let kind = self.turn(words)?;
        let Some(me) = self.threads.get_mut(thread) else { return Ok(()) };
        if kind == Kind::Bare || (me.committed && matches!(kind, Kind::Right | Kind::Other)) {
            return Err((2, "it may be cut before this event"));
        }
        me.depth = depth;
        me.committed = depth > 0 && (me.committed || matches!(kind, Kind::Left | Kind::Other));
        Ok(())
    }
}

fn is_word(word: &[u8]) -> bool {
    !word.is_empty() && word.len() < 256 && word.iter().all(|byte| *byte > 32 && *byte != 127)
}

fn is_line(words: &[&[u8]]) -> bool {
    words.iter().all(|word| is_word(word))
        && matches!(
            words,
            [_, b"stop" | b"end"] | [_, b"take" | b"give" | b"start" | b"join" | b"begin", _] | [_, b"read" | b"write", _, _] | [_, b"change", _, _, _]
        )
}

/// Goes through the lines of a file; the first that is refused is told with its number.
fn each_line(name: &str, mut note: impl FnMut(&[&[u8]]) -> Result<(), Stop>) -> Result<(), (usize, Stop)> {
    let Ok(file) = File::open(name) else { return Err((0, (6, "cannot read"))) };
    let mut reader = BufReader::with_capacity(65536, file);
    let (mut row, mut line) = (Vec::new(), 0);
    loop {
        row.clear();
        line += 1;
        match reader.read_until(b'\n', &mut row) {
            Err(_) => return Err((0, (6, "cannot read"))),
            Ok(0) => return Ok(()),
            Ok(_) if row.pop() != Some(b'\n') => return Err((line, (1, "not a line of a log"))),
            Ok(_) => {}
        }
        let words: Vec<&[u8]> = row.split(|byte| *byte == b' ').collect();
        if !is_line(&words) {
            return Err((line, (1, "not a line of a log")));
        }
        note(&words).map_err(|stop| (line, stop))?;
    }
}

fn judged(name: &str) -> Result<(), (usize, Stop)> {
    let mut guess = Guess::default();
    each_line(name, |words| {
        guess.note(words);
        Ok(())
    })?;
    let mut judge = Judge { guards: guess.guards(), ..Judge::default() };
    each_line(name, |words| judge.note(words))?;
    match judge.threads.values().any(|thread| thread.depth > 0) {
        true => Err((0, (4, "a thread is still inside a block at the end"))),
        false => Ok(()),
    }
}

fn main() {
    let Some(name) = env::args().nth(1) else { process::exit(9) };
    match judged(&name) {
        Ok(()) => println!("serial"),
        Err((line, (status, why))) => {
            println!("{name}:{line}: error: {why}");
            process::exit(status);
        }
    }
}
