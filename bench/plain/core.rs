//! Core programs: every name is a number.

use crate::tree::Op;

pub type ClassId = u32;
pub type FieldId = u32;
pub type MethodId = u32;

/// A lock: the slot of `this`, a final parameter or a final local, and at most two final fields behind it.
/// The order is that of printed conditions.
#[derive(Clone, Copy, Debug, PartialEq, Eq, PartialOrd, Ord, Hash)]
pub struct Path {
    pub root: u16,
    first: Option<FieldId>,
    second: Option<FieldId>,
}

impl Path {
    pub fn new(root: u16) -> Path {
        Path {
            root,
            first: None,
            second: None,
        }
    }

    pub fn fields(self) -> impl Iterator<Item = FieldId> {
        self.first.into_iter().chain(self.second)
    }

    /// The path with one field more, or none where it has two.
    pub fn field(self, field: FieldId) -> Option<Path> {
        match self {
            Path { first: None, .. } => Some(Path {
                first: Some(field),
                ..self
            }),
            Path { second: None, .. } => Some(Path {
                second: Some(field),
                ..self
            }),
            _ => None,
        }
    }

    /// The path with the fields of another one behind it.
    pub fn extended(self, other: Path) -> Option<Path> {
        other.fields().try_fold(self, Path::field)
    }
}

#[derive(Clone, Copy, Debug, PartialEq, Eq)]
pub enum Type {
    Int,
    Boolean,
    Void,
    Null,
    Class(ClassId),
}

/// A class. Fields of the classes above it come first.
#[derive(Debug)]
pub struct Class {
    pub fields: Vec<FieldId>,
    pub finals: Vec<FieldId>,
    pub run: Option<MethodId>,
    /// Each method that the class has, ascending, with the one that runs for it.
    pub targets: Vec<(MethodId, MethodId)>,
}

impl Class {
    pub fn target(&self, method: MethodId) -> Option<MethodId> {
        let place = self.targets.binary_search_by_key(&method, |pair| pair.0);
        Some(self.targets[place.ok()?].1)
    }
}

#[derive(Debug)]
pub struct Field {
    pub index: u16,
    pub is_final: bool,
    pub ty: Type,
    pub guard: Option<Path>,
    pub writes_only: bool,
}

#[derive(Debug)]
pub struct Method {
    pub class: ClassId,
    pub at: u32,
    pub annotated: bool,
    pub requires: Vec<Path>,
    pub params: u16,
    pub slots: u16,
    pub has_result: bool,
    pub body: Vec<Stmt>,
}

/// The place of an expression in the list of all.
pub type ExprId = u32;

#[derive(Debug)]
pub enum Expr {
    Int(i32),
    Truth(bool),
    Null,
    This,
    Var { slot: u16, is_final: bool, ty: Type },
    Not(ExprId),
    Neg(ExprId),
    Binary(Op, ExprId, ExprId),
    Get(ExprId, FieldId),
    Call(ExprId, MethodId, Vec<ExprId>),
    New(ClassId, Vec<ExprId>),
}

#[derive(Debug)]
pub enum Stmt {
    Empty,
    Block(Vec<Stmt>),
    Local {
        slot: u16,
        is_final: bool,
        value: ExprId,
    },
    SetVar(u16, ExprId),
    SetField(ExprId, FieldId, ExprId),
    /// With true where a result is dropped.
    Do(ExprId, bool),
    If(ExprId, Box<Stmt>, Box<Stmt>),
    While(ExprId, Box<Stmt>),
    Sync(Path, Vec<Stmt>),
    Return(Option<ExprId>),
    Print(ExprId),
    Start(ExprId),
}

#[derive(Debug)]
pub struct Program {
    pub classes: Vec<Class>,
    pub fields: Vec<Field>,
    pub methods: Vec<Method>,
    pub exprs: Vec<Expr>,
    pub main_class: ClassId,
    pub main: MethodId,
}

impl Program {
    pub fn expr(&self, id: ExprId) -> &Expr {
        &self.exprs[id as usize]
    }

    /// The path of a lock expression.
    pub fn path(&self, expr: ExprId) -> Option<Path> {
        match self.expr(expr) {
            Expr::This => Some(Path::new(0)),
            Expr::Var {
                slot,
                is_final: true,
                ty: Type::Class(_),
            } => Some(Path::new(*slot)),
            Expr::Get(receiver, field) => {
                let found = &self.fields[*field as usize];
                if found.is_final && matches!(found.ty, Type::Class(_)) {
                    self.path(*receiver)?.field(*field)
                } else {
                    None
                }
            }
            _ => None,
        }
    }
}
