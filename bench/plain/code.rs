//! Flat code: each instruction is one action of the machine, and names the one behind it.

use crate::core::{ClassId, Expr, ExprId, FieldId, Method, MethodId, Program, Stmt};
use crate::machine::Value;
use crate::tree::Op;

#[derive(Clone, Copy, Debug)]
pub enum Instr {
    Push(Value),
    Load(u16),
    Store(u16),
    Drop,
    Not,
    Neg,
    Binary(Op),
    /// Where the operand doesn't decide, goes to the place.
    AndThen(u32),
    OrElse(u32),
    /// Where the operand is false, goes to the place.
    Branch(u32),
    Get(FieldId),
    Put(FieldId),
    New(ClassId),
    Call(MethodId),
    Acquire,
    Release,
    /// With true where the method has a result.
    Ret(bool),
    Print,
    Start,
}

#[derive(Clone, Copy, Debug)]
pub struct Code {
    pub instr: Instr,
    pub next: u32,
}

pub struct CodeTable {
    pub code: Vec<Code>,
    /// Where each method begins.
    pub entry: Vec<u32>,
}

pub fn compile(program: &Program) -> CodeTable {
    let mut compiler = Compiler {
        program,
        code: Vec::new(),
    };
    let entry = program.methods.iter().map(|m| compiler.method(m)).collect();
    CodeTable {
        code: compiler.code,
        entry,
    }
}

struct Compiler<'p> {
    program: &'p Program,
    code: Vec<Code>,
}

/// Where a statement stands: the result of its method, and the locks around it.
#[derive(Clone, Copy)]
struct Inside {
    has_result: bool,
    locks: u32,
}

/// Code is made from the back: each call takes the place behind its part, and gives the part's own.
impl Compiler<'_> {
    fn emit(&mut self, instr: Instr, next: u32) -> u32 {
        self.code.push(Code { instr, next });
        self.code.len() as u32 - 1
    }

    fn method(&mut self, method: &Method) -> u32 {
        let inside = Inside {
            has_result: method.has_result,
            locks: 0,
        };
        let ret = self.emit(Instr::Ret(method.has_result), 0);
        self.stmts(&method.body, inside, ret)
    }

    fn stmts(&mut self, stmts: &[Stmt], inside: Inside, next: u32) -> u32 {
        stmts
            .iter()
            .rev()
            .fold(next, |next, stmt| self.stmt(stmt, inside, next))
    }

    fn stmt(&mut self, stmt: &Stmt, inside: Inside, next: u32) -> u32 {
        match stmt {
            Stmt::Empty => next,
            Stmt::Block(stmts) => self.stmts(stmts, inside, next),
            Stmt::Local { slot, value, .. } | Stmt::SetVar(slot, value) => {
                let store = self.emit(Instr::Store(*slot), next);
                self.expr(*value, store)
            }
            Stmt::SetField(receiver, field, value) => {
                let put = self.emit(Instr::Put(*field), next);
                let value = self.expr(*value, put);
                self.expr(*receiver, value)
            }
            Stmt::Do(value, true) => {
                let drop = self.emit(Instr::Drop, next);
                self.expr(*value, drop)
            }
            Stmt::Do(value, false) => self.expr(*value, next),
            Stmt::If(condition, then, other) => {
                let then = self.stmt(then, inside, next);
                let other = self.stmt(other, inside, next);
                let branch = self.emit(Instr::Branch(other), then);
                self.expr(*condition, branch)
            }
            Stmt::While(condition, body) => {
                let branch = self.emit(Instr::Branch(next), next);
                let entry = self.expr(*condition, branch);
                self.code[branch as usize].next = self.stmt(body, inside, entry);
                entry
            }
            Stmt::Sync(path, stmts) => {
                let release = self.emit(Instr::Release, next);
                let locks = inside.locks + 1;
                let body = self.stmts(stmts, Inside { locks, ..inside }, release);
                let acquire = self.emit(Instr::Acquire, body);
                let fields: Vec<_> = path.fields().collect();
                let gets = |next, &field| self.emit(Instr::Get(field), next);
                let place = fields.iter().rev().fold(acquire, gets);
                self.emit(Instr::Load(path.root), place)
            }
            Stmt::Return(value) => {
                let mut place = self.emit(Instr::Ret(inside.has_result), 0);
                for _ in 0..inside.locks {
                    place = self.emit(Instr::Release, place);
                }
                match value {
                    Some(value) => self.expr(*value, place),
                    None => place,
                }
            }
            Stmt::Print(value) => {
                let print = self.emit(Instr::Print, next);
                self.expr(*value, print)
            }
            Stmt::Start(value) => {
                let start = self.emit(Instr::Start, next);
                self.expr(*value, start)
            }
        }
    }

    fn exprs(&mut self, exprs: &[ExprId], next: u32) -> u32 {
        exprs
            .iter()
            .rev()
            .fold(next, |next, &expr| self.expr(expr, next))
    }

    fn expr(&mut self, expr: ExprId, next: u32) -> u32 {
        let program = self.program;
        match program.expr(expr) {
            Expr::Int(value) => self.emit(Instr::Push(Value::Int(*value)), next),
            Expr::Truth(value) => self.emit(Instr::Push(Value::Truth(*value)), next),
            Expr::Null => self.emit(Instr::Push(Value::Null), next),
            Expr::This => self.emit(Instr::Load(0), next),
            Expr::Var { slot, .. } => self.emit(Instr::Load(*slot), next),
            Expr::Not(part) => {
                let not = self.emit(Instr::Not, next);
                self.expr(*part, not)
            }
            Expr::Neg(part) => {
                let neg = self.emit(Instr::Neg, next);
                self.expr(*part, neg)
            }
            Expr::Binary(op @ (Op::And | Op::Or), left, right) => {
                let right = self.expr(*right, next);
                let decide = match op {
                    Op::And => Instr::AndThen(right),
                    _ => Instr::OrElse(right),
                };
                let decide = self.emit(decide, next);
                self.expr(*left, decide)
            }
            Expr::Binary(op, left, right) => {
                let binary = self.emit(Instr::Binary(*op), next);
                let right = self.expr(*right, binary);
                self.expr(*left, right)
            }
            Expr::Get(receiver, field) => {
                let get = self.emit(Instr::Get(*field), next);
                self.expr(*receiver, get)
            }
            Expr::Call(receiver, method, args) => {
                let call = self.emit(Instr::Call(*method), next);
                let args = self.exprs(args, call);
                self.expr(*receiver, args)
            }
            Expr::New(class, args) => {
                let new = self.emit(Instr::New(*class), next);
                self.exprs(args, new)
            }
        }
    }
}
