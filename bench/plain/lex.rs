//! Cuts a text into tokens of eight bytes each. A token's text is a slice of the source.

use crate::fault::{Fault, Kind as FaultKind};

#[derive(Clone, Copy, Debug, PartialEq, Eq)]
pub enum Kind {
    Name,
    Number,
    // Words that the grammar uses; all other reserved words are `Reserved`.
    Reserved,
    Atomic,
    Boolean,
    Class,
    Else,
    False,
    Final,
    GuardedBy,
    If,
    Extends,
    Implements,
    Int,
    New,
    Null,
    Public,
    Requires,
    Return,
    Runnable,
    Synchronized,
    System,
    This,
    Thread,
    True,
    Void,
    While,
    WriteGuardedBy,
    // Signs.
    OpenParen,
    CloseParen,
    OpenBrace,
    CloseBrace,
    Semicolon,
    Comma,
    Dot,
    Assign,
    Equal,
    NotEqual,
    Less,
    LessEqual,
    Greater,
    GreaterEqual,
    Plus,
    Minus,
    MinusMinus,
    Star,
    Slash,
    Percent,
    Bang,
    AndAnd,
    OrOr,
    /// Behind the last token.
    End,
}

#[derive(Clone, Copy, Debug)]
pub struct Token {
    pub at: u32,
    pub len: u8,
    pub kind: Kind,
}

fn word_kind(word: &[u8]) -> Kind {
    match word {
        b"atomic" => Kind::Atomic,
        b"boolean" => Kind::Boolean,
        b"class" => Kind::Class,
        b"else" => Kind::Else,
        b"false" => Kind::False,
        b"final" => Kind::Final,
        b"guarded_by" => Kind::GuardedBy,
        b"if" => Kind::If,
        b"extends" => Kind::Extends,
        b"implements" => Kind::Implements,
        b"int" => Kind::Int,
        b"new" => Kind::New,
        b"null" => Kind::Null,
        b"public" => Kind::Public,
        b"requires" => Kind::Requires,
        b"return" => Kind::Return,
        b"Runnable" => Kind::Runnable,
        b"synchronized" => Kind::Synchronized,
        b"System" => Kind::System,
        b"this" => Kind::This,
        b"Thread" => Kind::Thread,
        b"true" => Kind::True,
        b"void" => Kind::Void,
        b"while" => Kind::While,
        b"write_guarded_by" => Kind::WriteGuardedBy,
        b"abstract" | b"assert" | b"break" | b"byte" | b"case" | b"catch" | b"char" | b"const"
        | b"continue" | b"default" | b"do" | b"double" | b"enum" | b"finally"
        | b"float" | b"for" | b"goto" | b"import" | b"instanceof" | b"interface" | b"long"
        | b"native" | b"package" | b"private" | b"protected" | b"short" | b"static"
        | b"strictfp" | b"super" | b"switch" | b"throw" | b"throws" | b"transient" | b"try"
        | b"volatile" => Kind::Reserved,
        _ => Kind::Name,
    }
}

/// The sign that begins here, and its length.
fn sign(first: u8, second: u8) -> Option<(Kind, usize)> {
    let one = match (first, second) {
        (b'=', b'=') => return Some((Kind::Equal, 2)),
        (b'!', b'=') => return Some((Kind::NotEqual, 2)),
        (b'<', b'=') => return Some((Kind::LessEqual, 2)),
        (b'>', b'=') => return Some((Kind::GreaterEqual, 2)),
        (b'-', b'-') => return Some((Kind::MinusMinus, 2)),
        (b'&', b'&') => return Some((Kind::AndAnd, 2)),
        (b'|', b'|') => return Some((Kind::OrOr, 2)),
        (b'(', _) => Kind::OpenParen,
        (b')', _) => Kind::CloseParen,
        (b'{', _) => Kind::OpenBrace,
        (b'}', _) => Kind::CloseBrace,
        (b';', _) => Kind::Semicolon,
        (b',', _) => Kind::Comma,
        (b'.', _) => Kind::Dot,
        (b'=', _) => Kind::Assign,
        (b'<', _) => Kind::Less,
        (b'>', _) => Kind::Greater,
        (b'+', _) => Kind::Plus,
        (b'-', _) => Kind::Minus,
        (b'*', _) => Kind::Star,
        (b'/', _) => Kind::Slash,
        (b'%', _) => Kind::Percent,
        (b'!', _) => Kind::Bang,
        _ => return None,
    };
    Some((one, 1))
}

/// How many bytes of the front satisfy the test.
fn span(bytes: &[u8], test: impl Fn(u8) -> bool) -> usize {
    bytes.iter().position(|&b| !test(b)).unwrap_or(bytes.len())
}

/// The value of a number, or none above 2147483648.
pub fn number(digits: &str) -> Option<u32> {
    digits.parse().ok().filter(|&value| value <= 2_147_483_648)
}

/// The tokens of the text, with an `End` behind them, or the first fault.
pub fn lex(text: &str) -> Result<Vec<Token>, Fault> {
    let bytes = text.as_bytes();
    let mut tokens = Vec::with_capacity(bytes.len() / 4 + 1);
    let mut at = 0;
    while at < bytes.len() {
        let rest = &bytes[at..];
        let (kind, len) = match rest[0] {
            b' ' | b'\t' | b'\n' | b'\r' | 0x0c => {
                at += 1;
                continue;
            }
            b'/' if rest.starts_with(b"//") => {
                at += span(rest, |b| b != b'\n' && b != b'\r');
                continue;
            }
            b'/' if rest.starts_with(b"/*") => {
                let end = text[at + 2..].find("*/");
                at += 4 + end.ok_or(Fault::new(FaultKind::OpenComment, at))?;
                continue;
            }
            b'a'..=b'z' | b'A'..=b'Z' | b'_' => {
                let len = span(rest, |b| b.is_ascii_alphanumeric() || b == b'_');
                if len > 64 {
                    return Err(Fault::new(FaultKind::NameTooLong, at));
                }
                (word_kind(&rest[..len]), len)
            }
            b'0' => (Kind::Number, 1),
            b'1'..=b'9' => {
                let len = span(rest, |b| b.is_ascii_digit());
                if number(&text[at..at + len]).is_none() {
                    return Err(Fault::new(FaultKind::LiteralTooLarge, at));
                }
                (Kind::Number, len)
            }
            first => {
                let second = rest.get(1).copied().unwrap_or(0);
                sign(first, second).ok_or(Fault::new(FaultKind::BadCharacter, at))?
            }
        };
        tokens.push(Token {
            at: at as u32,
            len: len as u8,
            kind,
        });
        at += len;
    }
    tokens.push(Token {
        at: at as u32,
        len: 0,
        kind: Kind::End,
    });
    Ok(tokens)
}
