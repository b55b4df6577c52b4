//! Why a source is refused.

/// The kinds, in the order in which one is told before another at one offset of one stage.
#[derive(Clone, Copy, Debug, PartialEq, Eq, PartialOrd, Ord)]
pub enum Kind {
    NotText,
    BadCharacter,
    OpenComment,
    LiteralTooLarge,
    NameTooLong,
    Unexpected,
    TooDeep,
    // Classes.
    Twice,
    UnknownClass,
    BadConstructor,
    NoRun,
    TooMany,
    Circle,
    BadOverride,
    NoMain,
    // Types.
    UnknownName,
    NoRule,
    FinalAssigned,
    NotALock,
    MissingReturn,
    Unreachable,
    TooManyLocals,
    Redeclared,
    TooManyLocks,
}

impl Kind {
    fn text(self) -> &'static str {
        match self {
            Kind::NotText => "not text",
            Kind::BadCharacter => "bad character",
            Kind::OpenComment => "open comment",
            Kind::LiteralTooLarge => "literal too large",
            Kind::NameTooLong => "name too long",
            Kind::Unexpected => "unexpected",
            Kind::TooDeep => "too deep",
            Kind::Twice => "declared twice",
            Kind::UnknownClass => "unknown class",
            Kind::BadConstructor => "bad constructor",
            Kind::NoRun => "no run",
            Kind::TooMany => "too many",
            Kind::Circle => "circle",
            Kind::BadOverride => "bad override",
            Kind::NoMain => "no main",
            Kind::UnknownName => "unknown name",
            Kind::NoRule => "no rule",
            Kind::FinalAssigned => "final assigned",
            Kind::NotALock => "not a lock",
            Kind::MissingReturn => "missing return",
            Kind::Unreachable => "unreachable",
            Kind::TooManyLocals => "too many locals",
            Kind::Redeclared => "redeclared",
            Kind::TooManyLocks => "too many locks",
        }
    }
}

/// A fault at a byte offset. The lesser one is told.
#[derive(Clone, Copy, Debug, PartialEq, Eq, PartialOrd, Ord)]
pub struct Fault {
    pub at: u32,
    pub kind: Kind,
}

impl Fault {
    pub fn new(kind: Kind, at: usize) -> Fault {
        Fault {
            at: at as u32,
            kind,
        }
    }

    /// The line that refuses a source with these bytes.
    pub fn line(self, bytes: &[u8]) -> String {
        let front = &bytes[..self.at as usize];
        let line = 1 + front.iter().filter(|&&b| b == b'\n').count();
        let column = 1 + front.iter().rev().take_while(|&&b| b != b'\n').count();
        format!("refused at {line}:{column}: {}\n", self.kind.text())
    }
}

/// The least fault of a stage that looks at the whole source.
#[derive(Default)]
pub struct Faults {
    least: Option<Fault>,
}

impl Faults {
    pub fn note(&mut self, kind: Kind, at: u32) {
        let fault = Fault { at, kind };
        if self.least.is_none_or(|least| fault < least) {
            self.least = Some(fault);
        }
    }

    pub fn result(self) -> Result<(), Fault> {
        self.least.map_or(Ok(()), Err)
    }
}
