//! The trees of sources. Names are slices of the source; offsets count its bytes.

#[derive(Clone, Copy, Debug)]
pub struct Name<'a> {
    pub text: &'a str,
    pub at: u32,
}

#[derive(Clone, Copy, Debug, PartialEq, Eq)]
pub enum Op {
    Or,
    And,
    Eq,
    Ne,
    Lt,
    Le,
    Gt,
    Ge,
    Add,
    Sub,
    Mul,
    Div,
    Rem,
}

#[derive(Clone, Copy, Debug)]
pub enum TypeName<'a> {
    Int,
    Boolean,
    Class(Name<'a>),
}

#[derive(Debug)]
pub struct Param<'a> {
    pub is_final: bool,
    pub ty: TypeName<'a>,
    pub name: Name<'a>,
}

/// No root is `this`.
#[derive(Debug)]
pub struct Lock<'a> {
    pub root: Option<Name<'a>>,
    pub fields: Vec<Name<'a>>,
    pub at: u32,
}

/// The place of an expression in the list of all.
pub type ExprId = u32;

#[derive(Debug)]
pub enum Expr<'a> {
    Number(u32),
    Least,
    Truth(bool),
    Null,
    This,
    Var(Name<'a>),
    Paren(ExprId),
    Not(ExprId, u32),
    Neg(ExprId, u32),
    Binary(Op, ExprId, ExprId, u32),
    Get(ExprId, Name<'a>),
    Call(ExprId, Name<'a>, Vec<ExprId>),
    New(Name<'a>, Vec<ExprId>),
}

/// A statement. `at` of an assignment is its `=`.
#[derive(Debug)]
pub enum Stmt<'a> {
    Empty,
    Block(Vec<Located<'a>>),
    Local {
        is_final: bool,
        ty: TypeName<'a>,
        name: Name<'a>,
        value: ExprId,
    },
    SetVar(Name<'a>, ExprId, u32),
    SetField(ExprId, Name<'a>, ExprId, u32),
    Do(ExprId),
    If(ExprId, Box<Located<'a>>, Option<Box<Located<'a>>>),
    While(ExprId, Box<Located<'a>>),
    Sync(Lock<'a>, Vec<Located<'a>>),
    Return(Option<ExprId>),
    Print(ExprId),
    Start(ExprId),
}

/// A statement with the offset of its first token.
#[derive(Debug)]
pub struct Located<'a> {
    pub at: u32,
    pub stmt: Stmt<'a>,
}

#[derive(Debug)]
pub struct Field<'a> {
    pub is_final: bool,
    pub ty: TypeName<'a>,
    pub name: Name<'a>,
    pub guard: Option<Lock<'a>>,
    pub writes_only: bool,
}

#[derive(Debug)]
pub struct Ctor<'a> {
    pub name: Name<'a>,
    pub params: Vec<Param<'a>>,
    pub sets: Vec<(Name<'a>, Name<'a>)>,
}

#[derive(Debug)]
pub struct Method<'a> {
    pub atomic: bool,
    /// None is `void`.
    pub result: Option<TypeName<'a>>,
    pub name: Name<'a>,
    pub params: Vec<Param<'a>>,
    pub requires: Vec<Lock<'a>>,
    pub body: Vec<Located<'a>>,
    /// The offset of the closing brace.
    pub end: u32,
}

#[derive(Debug)]
pub enum Member<'a> {
    Field(Field<'a>),
    Ctor(Ctor<'a>),
    Method(Method<'a>),
}

#[derive(Debug)]
pub struct Class<'a> {
    pub name: Name<'a>,
    /// The name behind `extends`.
    pub above: Option<Name<'a>>,
    pub runnable: bool,
    pub members: Vec<Member<'a>>,
}

#[derive(Debug, Default)]
pub struct Program<'a> {
    pub classes: Vec<Class<'a>>,
    pub exprs: Vec<Expr<'a>>,
}
