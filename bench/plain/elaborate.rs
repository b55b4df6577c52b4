//! The core program of a tree, or its first type fault.

use crate::classes::Table;
use crate::core::{self, ClassId, Expr, ExprId, FieldId, Path, Stmt, Type};
use crate::fault::{Fault, Faults, Kind};
use crate::tree::{self, Located, Lock, Name, Op, TypeName};

const MOST_LOCALS: usize = 64;

/// A variable in scope.
#[derive(Clone, Copy)]
struct Variable<'a> {
    name: &'a str,
    slot: u16,
    is_final: bool,
    ty: Option<Type>,
}

/// What is known while one method is elaborated.
struct Elaborator<'a, 't, 'f> {
    table: &'t Table<'a, 't>,
    trees: &'t [tree::Expr<'a>],
    faults: &'f mut Faults,
    exprs: &'f mut Vec<Expr>,
    class: ClassId,
    result: Type,
    scope: Vec<Variable<'a>>,
    slots: u16,
    locals: usize,
}

/// An expression, and its type where it has one.
type Typed = (ExprId, Option<Type>);

/// A statement, and whether it can complete.
type Flow = (Stmt, bool);

pub fn elaborate<'a>(
    table: &Table<'a, '_>,
    trees: &[tree::Expr<'a>],
) -> Result<core::Program, Fault> {
    let mut faults = Faults::default();
    let mut exprs = Vec::with_capacity(trees.len());
    let fields = (0..table.fields.len())
        .map(|id| field(table, &mut faults, id as FieldId))
        .collect();
    let methods = (0..table.methods.len())
        .map(|id| method(table, trees, &mut faults, &mut exprs, id))
        .collect();
    faults.result()?;
    let class = |c: &crate::classes::ClassEntry<'_>| core::Class {
        fields: c.fields.clone(),
        finals: c.finals.clone(),
        run: c.run,
        targets: c.targets.clone(),
    };
    Ok(core::Program {
        classes: table.classes.iter().map(class).collect(),
        fields,
        methods,
        exprs,
        main_class: table.main_class,
        main: table.main,
    })
}

fn field(table: &Table<'_, '_>, faults: &mut Faults, id: FieldId) -> core::Field {
    let entry = &table.fields[id as usize];
    let mut fields = table.classes[entry.class as usize].fields.iter();
    let guard = entry.tree.guard.as_ref();
    core::Field {
        index: fields.position(|&f| f == id).unwrap_or(0) as u16,
        is_final: entry.tree.is_final,
        ty: entry.ty,
        guard: guard.and_then(|lock| path(table, faults, entry.class, &[], lock)),
        writes_only: entry.tree.writes_only,
    }
}

fn method<'a>(
    table: &Table<'a, '_>,
    trees: &[tree::Expr<'a>],
    faults: &mut Faults,
    exprs: &mut Vec<Expr>,
    id: usize,
) -> core::Method {
    let entry = &table.methods[id];
    let tree = entry.tree;
    let slots = tree.params.iter().zip(&entry.params).zip(1..);
    let scope: Vec<_> = slots
        .map(|((param, ty), slot)| Variable {
            name: param.name.text,
            slot,
            is_final: param.is_final,
            ty: Some(*ty),
        })
        .collect();
    let mut requires: Vec<_> = tree
        .requires
        .iter()
        .filter_map(|lock| path(table, faults, entry.class, &scope, lock))
        .collect();
    requires.sort();
    requires.dedup();
    let params = scope.len() as u16;
    let mut elaborator = Elaborator {
        table,
        trees,
        faults,
        exprs,
        class: entry.class,
        result: entry.result,
        scope,
        slots: params + 1,
        locals: 0,
    };
    let (body, completes) = elaborator.block(&tree.body);
    if completes && entry.result != Type::Void {
        elaborator.faults.note(Kind::MissingReturn, tree.end);
    }
    core::Method {
        class: entry.class,
        at: tree.name.at,
        annotated: tree.atomic,
        requires,
        params,
        slots: elaborator.slots,
        has_result: entry.result != Type::Void,
        body,
    }
}

/// The path of a lock whose root may be `this` or a variable of the scope.
fn path<'a>(
    table: &Table<'a, '_>,
    faults: &mut Faults,
    class: ClassId,
    scope: &[Variable<'a>],
    lock: &Lock<'a>,
) -> Option<Path> {
    let (mut path, mut ty, mut is_lock) = (Some(Path::new(0)), Type::Class(class), true);
    if let Some(root) = lock.root {
        let Some(found) = scope.iter().rev().find(|v| v.name == root.text) else {
            faults.note(Kind::UnknownName, root.at);
            return None;
        };
        // Without a type the declaration has a fault, which comes first.
        (path, ty, is_lock) = (Some(Path::new(found.slot)), found.ty?, found.is_final);
    }
    for name in &lock.fields {
        let Type::Class(class) = ty else {
            faults.note(Kind::NotALock, lock.at);
            return None;
        };
        let Some(id) = table.field(class, name.text) else {
            faults.note(Kind::UnknownName, name.at);
            return None;
        };
        let field = &table.fields[id as usize];
        is_lock &= field.tree.is_final;
        ty = field.ty;
        path = path.and_then(|p| p.field(id));
    }
    if !is_lock || path.is_none() || !matches!(ty, Type::Class(_)) {
        faults.note(Kind::NotALock, lock.at);
    }
    path
}

impl<'a> Elaborator<'a, '_, '_> {
    fn note(&mut self, kind: Kind, at: u32) {
        self.faults.note(kind, at);
    }

    fn variable(&self, name: &str) -> Option<Variable<'a>> {
        self.scope.iter().rev().find(|v| v.name == name).copied()
    }

    /// The class whose objects have members, or no class: then `no rule` is told at the member.
    fn receiver_class(&mut self, ty: Type, member: Name<'a>) -> Option<ClassId> {
        match ty {
            Type::Class(class) => Some(class),
            _ => {
                self.note(Kind::NoRule, member.at);
                None
            }
        }
    }

    fn fits(&mut self, given: Option<Type>, wanted: Option<Type>, at: u32) {
        if let (Some(given), Some(wanted)) = (given, wanted) {
            if !self.table.fits(given, wanted) {
                self.note(Kind::NoRule, at);
            }
        }
    }

    // Statements.

    /// The statements, and whether all of them can complete.
    fn block(&mut self, statements: &[Located<'a>]) -> (Vec<Stmt>, bool) {
        let mark = self.scope.len();
        let mut completes = true;
        let mut stmts = Vec::with_capacity(statements.len());
        for statement in statements {
            if !completes {
                self.note(Kind::Unreachable, statement.at);
            }
            let (stmt, goes_on) = self.stmt(statement);
            completes &= goes_on;
            stmts.push(stmt);
        }
        self.scope.truncate(mark);
        (stmts, completes)
    }

    fn boxed(&mut self, statement: &Located<'a>) -> (Box<Stmt>, bool) {
        let (stmt, completes) = self.stmt(statement);
        (Box::new(stmt), completes)
    }

    fn stmt(&mut self, statement: &Located<'a>) -> Flow {
        let at = statement.at;
        let stmt = match &statement.stmt {
            tree::Stmt::Empty => Stmt::Empty,
            tree::Stmt::Block(statements) => {
                let (stmts, completes) = self.block(statements);
                return (Stmt::Block(stmts), completes);
            }
            tree::Stmt::Local {
                is_final,
                ty,
                name,
                value,
            } => self.local(*is_final, *ty, *name, *value),
            tree::Stmt::SetVar(name, value, at) => self.set_var(*name, *value, *at),
            tree::Stmt::SetField(receiver, name, value, at) => {
                self.set_field(*receiver, *name, *value, *at)
            }
            tree::Stmt::Do(value) => {
                let (value, ty) = self.expr(*value);
                Stmt::Do(value, ty.is_some_and(|ty| ty != Type::Void))
            }
            tree::Stmt::If(condition, then, other) => {
                let condition = self.wanted(*condition, Type::Boolean, at);
                let (then, first) = self.boxed(then);
                let (other, second) = match other {
                    Some(other) => self.boxed(other),
                    None => (Box::new(Stmt::Empty), true),
                };
                return (Stmt::If(condition, then, other), first || second);
            }
            tree::Stmt::While(condition, body) => {
                let for_ever = self.is_true(*condition);
                let condition = self.wanted(*condition, Type::Boolean, at);
                let body = self.boxed(body).0;
                return (Stmt::While(condition, body), !for_ever);
            }
            tree::Stmt::Sync(lock, statements) => {
                let path = path(self.table, self.faults, self.class, &self.scope, lock);
                let (stmts, completes) = self.block(statements);
                return (Stmt::Sync(path.unwrap_or(Path::new(0)), stmts), completes);
            }
            tree::Stmt::Return(value) => return (self.return_value(*value, at), false),
            tree::Stmt::Print(value) => Stmt::Print(self.wanted(*value, Type::Int, at)),
            tree::Stmt::Start(value) => self.start(*value, at),
        };
        (stmt, true)
    }

    /// A value of this type, else `no rule` at the offset.
    fn wanted(&mut self, value: ExprId, wanted: Type, at: u32) -> ExprId {
        let (value, ty) = self.expr(value);
        self.fits(ty, Some(wanted), at);
        value
    }

    fn return_value(&mut self, value: Option<ExprId>, at: u32) -> Stmt {
        match value {
            // A type that fits nothing has no rule in a void method either.
            Some(value) => Stmt::Return(Some(self.wanted(value, self.result, at))),
            None => {
                if self.result != Type::Void {
                    self.note(Kind::NoRule, at);
                }
                Stmt::Return(None)
            }
        }
    }

    fn start(&mut self, value: ExprId, at: u32) -> Stmt {
        let (value, ty) = self.expr(value);
        let runs = |c: ClassId| self.table.classes[c as usize].runnable;
        if ty.is_some_and(|ty| !matches!(ty, Type::Class(c) if runs(c))) {
            self.note(Kind::NoRule, at);
        }
        Stmt::Start(value)
    }

    fn local(
        &mut self,
        is_final: bool,
        written: TypeName<'a>,
        name: Name<'a>,
        value: ExprId,
    ) -> Stmt {
        let ty = self.table.ty(written);
        if let (None, TypeName::Class(name)) = (ty, written) {
            self.note(Kind::UnknownName, name.at);
        }
        let (value, given) = self.expr(value);
        self.fits(given, ty, name.at);
        self.locals += 1;
        if self.locals > MOST_LOCALS {
            self.note(Kind::TooManyLocals, name.at);
        }
        if self.variable(name.text).is_some() {
            self.note(Kind::Redeclared, name.at);
        }
        let slot = self.slots;
        self.slots += 1;
        self.scope.push(Variable {
            name: name.text,
            slot,
            is_final,
            ty,
        });
        Stmt::Local {
            slot,
            is_final,
            value,
        }
    }

    fn set_var(&mut self, name: Name<'a>, value: ExprId, at: u32) -> Stmt {
        let variable = self.variable(name.text);
        match variable {
            None => self.note(Kind::UnknownName, name.at),
            Some(v) if v.is_final => self.note(Kind::FinalAssigned, name.at),
            Some(_) => {}
        }
        let (value, given) = self.expr(value);
        self.fits(given, variable.and_then(|v| v.ty), at);
        Stmt::SetVar(variable.map_or(0, |v| v.slot), value)
    }

    fn set_field(&mut self, receiver: ExprId, name: Name<'a>, value: ExprId, at: u32) -> Stmt {
        let (receiver, ty) = self.expr(receiver);
        let field = self.field(ty, name);
        if field.is_some_and(|f| self.table.fields[f as usize].tree.is_final) {
            self.note(Kind::FinalAssigned, name.at);
        }
        let (value, given) = self.expr(value);
        self.fits(given, field.map(|f| self.table.fields[f as usize].ty), at);
        Stmt::SetField(receiver, field.unwrap_or(0), value)
    }

    // Expressions.

    /// Whether a condition is the literal `true`, in any parentheses.
    fn is_true(&self, condition: ExprId) -> bool {
        match &self.trees[condition as usize] {
            tree::Expr::Truth(value) => *value,
            tree::Expr::Paren(inner) => self.is_true(*inner),
            _ => false,
        }
    }

    /// The field of a receiver of this type.
    fn field(&mut self, receiver: Option<Type>, name: Name<'a>) -> Option<FieldId> {
        let class = self.receiver_class(receiver?, name)?;
        let field = self.table.field(class, name.text);
        if field.is_none() {
            self.note(Kind::UnknownName, name.at);
        }
        field
    }

    fn push(&mut self, expr: Expr) -> ExprId {
        self.exprs.push(expr);
        self.exprs.len() as ExprId - 1
    }

    fn expr(&mut self, expr: ExprId) -> Typed {
        let trees = self.trees;
        let (expr, ty) = match &trees[expr as usize] {
            tree::Expr::Number(value) => (Expr::Int(*value as i32), Some(Type::Int)),
            tree::Expr::Least => (Expr::Int(i32::MIN), Some(Type::Int)),
            tree::Expr::Truth(value) => (Expr::Truth(*value), Some(Type::Boolean)),
            tree::Expr::Null => (Expr::Null, Some(Type::Null)),
            tree::Expr::This => (Expr::This, Some(Type::Class(self.class))),
            tree::Expr::Var(name) => self.var(*name),
            tree::Expr::Paren(inner) => return self.expr(*inner),
            tree::Expr::Not(part, at) => {
                let (part, ty) = self.expr(*part);
                (Expr::Not(part), self.unary(ty, Type::Boolean, *at))
            }
            tree::Expr::Neg(part, at) => {
                let (part, ty) = self.expr(*part);
                (Expr::Neg(part), self.unary(ty, Type::Int, *at))
            }
            tree::Expr::Binary(op, left, right, at) => {
                let (left, a) = self.expr(*left);
                let (right, b) = self.expr(*right);
                (Expr::Binary(*op, left, right), self.binary(*op, a, b, *at))
            }
            tree::Expr::Get(receiver, name) => {
                let (receiver, ty) = self.expr(*receiver);
                let field = self.field(ty, *name);
                let ty = field.map(|f| self.table.fields[f as usize].ty);
                (Expr::Get(receiver, field.unwrap_or(0)), ty)
            }
            tree::Expr::Call(receiver, name, args) => self.call(*receiver, *name, args),
            tree::Expr::New(name, args) => self.new_object(*name, args),
        };
        (self.push(expr), ty)
    }

    fn var(&mut self, name: Name<'a>) -> (Expr, Option<Type>) {
        let Some(Variable {
            slot, is_final, ty, ..
        }) = self.variable(name.text)
        else {
            self.note(Kind::UnknownName, name.at);
            return (Expr::Null, None);
        };
        (
            Expr::Var {
                slot,
                is_final,
                ty: ty.unwrap_or(Type::Void),
            },
            ty,
        )
    }

    fn unary(&mut self, given: Option<Type>, wanted: Type, at: u32) -> Option<Type> {
        self.fits(given, Some(wanted), at);
        given.filter(|&ty| ty == wanted)
    }

    fn binary(&mut self, op: Op, a: Option<Type>, b: Option<Type>, at: u32) -> Option<Type> {
        let (a, b) = (a?, b?);
        let both = |ty: Type| a == ty && b == ty;
        let fits = |a, b| self.table.fits(a, b);
        let (has_rule, ty) = match op {
            Op::Or | Op::And => (both(Type::Boolean), Type::Boolean),
            Op::Eq | Op::Ne => (fits(a, b) || fits(b, a) || both(Type::Null), Type::Boolean),
            Op::Lt | Op::Le | Op::Gt | Op::Ge => (both(Type::Int), Type::Boolean),
            Op::Add | Op::Sub | Op::Mul | Op::Div | Op::Rem => (both(Type::Int), Type::Int),
        };
        if !has_rule {
            self.note(Kind::NoRule, at);
        }
        has_rule.then_some(ty)
    }

    /// The arguments, and their types where each has one.
    fn args(&mut self, args: &[ExprId]) -> (Vec<ExprId>, Option<Vec<Type>>) {
        let mut exprs = Vec::with_capacity(args.len());
        let mut types = Vec::with_capacity(args.len());
        for &arg in args {
            let (arg, ty) = self.expr(arg);
            exprs.push(arg);
            types.extend(ty);
        }
        let all = types.len() == exprs.len();
        (exprs, all.then_some(types))
    }

    fn call(&mut self, receiver: ExprId, name: Name<'a>, args: &[ExprId]) -> (Expr, Option<Type>) {
        let (receiver, ty) = self.expr(receiver);
        let (args, given) = self.args(args);
        let method = match (ty, &given) {
            (Some(Type::Class(class)), _) => {
                let method = self.table.method(class, name.text);
                if method.is_none() {
                    self.note(Kind::UnknownName, name.at);
                }
                method
            }
            (Some(_), Some(_)) => {
                self.note(Kind::NoRule, name.at);
                None
            }
            _ => None,
        };
        let mut result = None;
        if let (Some(method), Some(given)) = (method, given) {
            let entry = &self.table.methods[method as usize];
            if fit_each(self.table, &given, entry.params.iter().copied()) {
                result = Some(entry.result);
            } else {
                self.note(Kind::NoRule, name.at);
            }
        }
        (Expr::Call(receiver, method.unwrap_or(0), args), result)
    }

    fn new_object(&mut self, name: Name<'a>, args: &[ExprId]) -> (Expr, Option<Type>) {
        let class = self.table.class(name.text);
        if class.is_none() {
            self.note(Kind::UnknownName, name.at);
        }
        let (args, given) = self.args(args);
        let mut result = None;
        if let (Some(class), Some(given)) = (class, given) {
            let finals = self.table.classes[class as usize].finals.iter();
            let wanted = finals.map(|&f| self.table.fields[f as usize].ty);
            if fit_each(self.table, &given, wanted) {
                result = Some(Type::Class(class));
            } else {
                self.note(Kind::NoRule, name.at);
            }
        }
        (Expr::New(class.unwrap_or(0), args), result)
    }
}

fn fit_each(
    table: &Table<'_, '_>,
    given: &[Type],
    wanted: impl ExactSizeIterator<Item = Type>,
) -> bool {
    given.len() == wanted.len() && given.iter().zip(wanted).all(|(&g, w)| table.fits(g, w))
}
