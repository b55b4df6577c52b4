//! A reader of books of derivations: the table of trees with equal trees found once, and the nodes in one list.
use std::collections::HashMap;

const WORDS: [&str; 22] = [
    "lit ", "this ", "var ", "un ", "bin ", "and ", "or ", "get ", "new ", "call ", "local ", "set ", "put ", "block ", "if ", "while ",
    "sync ", "return ", "print ", "start ", "do ", "skip ",
];
const BASICS: [&str; 5] = ["const", "mover", "atomic", "cmpd", "error"];
const MOST_HEIGHT: u32 = 64;

type Path = [u32; 3];

#[derive(Clone, Copy, PartialEq, Eq)]
pub enum Kind {
    Form,
    TooDeep,
}

pub struct Fault {
    pub kind: Kind,
    pub at: usize,
}

/// A word, the number of its conclusion, and how many nodes stand before its parts end.
pub struct Node {
    pub word: u8,
    pub number: u32,
    pub end: u32,
}

#[derive(Default)]
pub struct Book {
    pub trees: Vec<u32>,
    pub methods: Vec<(u32, u32)>,
    pub nodes: Vec<Node>,
    tests: Vec<(Path, u32, u32)>,
    known: HashMap<(Path, u32, u32), u32>,
}

struct Reader<'a> {
    text: &'a [u8],
    at: usize,
    /// Whether some tree of this line of the table isn't canonical.
    is_bent: bool,
    book: Book,
}

impl Reader<'_> {
    fn form<T>(&self, at: usize) -> Result<T, Fault> {
        Err(Fault { kind: Kind::Form, at })
    }

    fn expect(&mut self, wanted: &str) -> Result<(), Fault> {
        for byte in wanted.bytes() {
            if self.text.get(self.at) != Some(&byte) {
                return self.form(self.at);
            }
            self.at += 1;
        }
        Ok(())
    }

    fn one_of(&mut self, words: &[&str]) -> Result<u8, Fault> {
        let rest = &self.text[self.at..];
        let mut furthest = 0;
        for (number, word) in words.iter().enumerate() {
            let same = word.bytes().zip(rest).take_while(|(a, b)| a == *b).count();
            if same == word.len() {
                self.at += same;
                return Ok(number as u8);
            }
            furthest = furthest.max(same);
        }
        self.form(self.at + furthest)
    }

    fn number(&mut self, end: u64) -> Result<u32, Fault> {
        let start = self.at;
        let mut value = 0_u64;
        while let Some(digit @ b'0'..=b'9') = self.text.get(self.at) {
            value = (value * 10 + u64::from(digit - b'0')).min(1 << 40);
            self.at += 1;
            if value == 0 {
                break;
            }
        }
        if self.at == start || value >= end {
            return self.form(start);
        }
        Ok(value as u32)
    }

    fn open(&mut self, height: u32) -> Result<(), Fault> {
        if height == MOST_HEIGHT {
            return Err(Fault {
                kind: Kind::TooDeep,
                at: self.at,
            });
        }
        self.expect("(")
    }

    fn path(&mut self) -> Result<Path, Fault> {
        let mut path = [0; 3];
        path[0] = self.number(1 << 16)?;
        for part in &mut path[1..] {
            if self.text.get(self.at) != Some(&b'.') {
                break;
            }
            self.at += 1;
            *part = self.number(1 << 32)? + 1;
        }
        Ok(path)
    }

    fn root(&self, tree: u32) -> Option<Path> {
        let test = tree.checked_sub(5)?;
        Some(self.book.tests[test as usize].0)
    }

    fn tree(&mut self, height: u32) -> Result<u32, Fault> {
        if self.text.get(self.at) != Some(&b'(') {
            return Ok(u32::from(self.one_of(&BASICS)?));
        }
        self.open(height)?;
        let path = self.path()?;
        self.expect(" ")?;
        let held = self.tree(height + 1)?;
        self.expect(" ")?;
        let free = self.tree(height + 1)?;
        self.expect(")")?;
        let ascends = |tree| self.root(tree).is_none_or(|root| path < root);
        self.is_bent |= held == free || !ascends(held) || !ascends(free);
        let next = self.book.tests.len() as u32 + 5;
        let tree = *self.book.known.entry((path, held, free)).or_insert(next);
        if tree == next {
            self.book.tests.push((path, held, free));
        }
        Ok(tree)
    }

    fn node(&mut self, height: u32) -> Result<(), Fault> {
        self.open(height)?;
        let word = self.one_of(&WORDS)?;
        let number = self.number(self.book.trees.len() as u64)?;
        let place = self.book.nodes.len();
        self.book.nodes.push(Node { word, number, end: 0 });
        while self.text.get(self.at) == Some(&b' ') {
            self.at += 1;
            self.node(height + 1)?;
        }
        self.book.nodes[place].end = self.book.nodes.len() as u32;
        self.expect(")")
    }

    fn book(&mut self) -> Result<(), Fault> {
        self.expect("book ")?;
        let count = self.number(1 << 32)?;
        self.expect("\n")?;
        for _ in 0..count {
            let start = self.at;
            self.is_bent = false;
            let tree = self.tree(0)?;
            if self.is_bent {
                return self.form(start);
            }
            self.expect("\n")?;
            self.book.trees.push(tree);
        }
        while self.text.get(self.at) == Some(&b'm') {
            self.expect("method ")?;
            let method = self.number(1 << 32)?;
            self.expect(" ")?;
            let number = self.number(u64::from(count))?;
            self.expect("\n")?;
            self.book.methods.push((method, number));
            self.node(0)?;
            self.expect("\n")?;
        }
        self.expect("end\n")?;
        if self.at < self.text.len() { self.form(self.at) } else { Ok(()) }
    }
}

pub fn read(text: &[u8]) -> Result<Book, Fault> {
    let mut reader = Reader {
        text,
        at: 0,
        is_bent: false,
        book: Book::default(),
    };
    reader.book()?;
    Ok(reader.book)
}
