//! Recursive descent with one token of preview. `high` is the height that is still allowed; it bounds the recursion.

use crate::fault::{Fault, Kind as FaultKind};
use crate::lex::{Kind, Token, number};
use crate::tree::*;

/// The height of a method body, which counts as one block, is at most this.
const MAX_HEIGHT: u32 = 64;

const LOOSEST: u32 = 1;
const TIGHTEST: u32 = 6;

type Parsed<T> = Result<T, Fault>;

/// An expression and its height.
#[derive(Clone, Copy)]
struct Measured {
    expr: ExprId,
    height: u32,
}

struct Parser<'a, 't> {
    text: &'a str,
    tokens: &'t [Token],
    place: usize,
    exprs: Vec<Expr<'a>>,
}

pub fn parse<'a>(text: &'a str, tokens: &[Token]) -> Parsed<Program<'a>> {
    let mut parser = Parser {
        text,
        tokens,
        place: 0,
        exprs: Vec::new(),
    };
    let mut classes = Vec::new();
    while !parser.sees(Kind::End) {
        classes.push(parser.class()?);
    }
    Ok(Program {
        classes,
        exprs: parser.exprs,
    })
}

/// The binary operator of a sign, and how tightly it binds.
fn operator(kind: Kind) -> Option<(Op, u32)> {
    Some(match kind {
        Kind::OrOr => (Op::Or, 1),
        Kind::AndAnd => (Op::And, 2),
        Kind::Equal => (Op::Eq, 3),
        Kind::NotEqual => (Op::Ne, 3),
        Kind::Less => (Op::Lt, 4),
        Kind::LessEqual => (Op::Le, 4),
        Kind::Greater => (Op::Gt, 4),
        Kind::GreaterEqual => (Op::Ge, 4),
        Kind::Plus => (Op::Add, 5),
        Kind::Minus => (Op::Sub, 5),
        Kind::Star => (Op::Mul, 6),
        Kind::Slash => (Op::Div, 6),
        Kind::Percent => (Op::Rem, 6),
        _ => return None,
    })
}

impl<'a> Parser<'a, '_> {
    // Tokens.

    fn token(&self) -> Token {
        self.tokens[self.place]
    }

    fn kind(&self) -> Kind {
        self.token().kind
    }

    fn sees(&self, kind: Kind) -> bool {
        self.kind() == kind
    }

    fn slice(&self, token: Token) -> &'a str {
        &self.text[token.at as usize..token.at as usize + token.len as usize]
    }

    fn fault<T>(&self, kind: FaultKind) -> Parsed<T> {
        Err(Fault {
            at: self.token().at,
            kind,
        })
    }

    fn unexpected<T>(&self) -> Parsed<T> {
        self.fault(FaultKind::Unexpected)
    }

    fn too_deep<T>(&self) -> Parsed<T> {
        self.fault(FaultKind::TooDeep)
    }

    fn accept(&mut self, kind: Kind) -> bool {
        if self.sees(kind) {
            self.place += 1;
            return true;
        }
        false
    }

    /// Takes a token of this kind, and gives its offset.
    fn take(&mut self, kind: Kind) -> Parsed<u32> {
        let at = self.token().at;
        if self.accept(kind) {
            Ok(at)
        } else {
            self.unexpected()
        }
    }

    fn name(&mut self) -> Parsed<Name<'a>> {
        let token = self.token();
        self.take(Kind::Name)?;
        Ok(Name {
            text: self.slice(token),
            at: token.at,
        })
    }

    /// Takes this name, which is a fixed part of the grammar.
    fn fixed_name(&mut self, text: &str) -> Parsed<()> {
        if self.sees(Kind::Name) && self.slice(self.token()) == text {
            self.place += 1;
            Ok(())
        } else {
            self.unexpected()
        }
    }

    /// Whether the token is the number 2147483648, which stands behind a `-` alone.
    fn sees_least(&self) -> bool {
        self.sees(Kind::Number) && number(self.slice(self.token())) == Some(1 << 31)
    }

    // Classes and members.

    fn class(&mut self) -> Parsed<Class<'a>> {
        self.accept(Kind::Public);
        self.take(Kind::Class)?;
        let name = self.name()?;
        let above = if self.accept(Kind::Extends) {
            Some(self.name()?)
        } else {
            None
        };
        let runnable = self.accept(Kind::Implements);
        if runnable {
            self.take(Kind::Runnable)?;
        }
        self.take(Kind::OpenBrace)?;
        let mut members = Vec::new();
        while !self.accept(Kind::CloseBrace) {
            members.push(self.member()?);
        }
        Ok(Class {
            name,
            above,
            runnable,
            members,
        })
    }

    fn member(&mut self) -> Parsed<Member<'a>> {
        self.accept(Kind::Public);
        if self.accept(Kind::Final) {
            let (ty, name) = (self.type_name()?, self.name()?);
            self.take(Kind::Semicolon)?;
            let field = Field {
                is_final: true,
                ty,
                name,
                guard: None,
                writes_only: false,
            };
            return Ok(Member::Field(field));
        }
        if self.accept(Kind::Atomic) {
            let result = if self.accept(Kind::Void) {
                None
            } else {
                Some(self.type_name()?)
            };
            let name = self.name()?;
            return self.method(true, result, name);
        }
        if self.accept(Kind::Void) {
            let name = self.name()?;
            return self.method(false, None, name);
        }
        let ty = self.type_name()?;
        if let TypeName::Class(name) = ty {
            if self.sees(Kind::OpenParen) {
                return self.ctor(name);
            }
        }
        let name = self.name()?;
        if self.sees(Kind::OpenParen) {
            return self.method(false, Some(ty), name);
        }
        let writes_only = self.accept(Kind::WriteGuardedBy);
        let guarded = writes_only || self.accept(Kind::GuardedBy);
        let guard = if guarded { Some(self.lock()?) } else { None };
        self.take(Kind::Semicolon)?;
        Ok(Member::Field(Field {
            is_final: false,
            ty,
            name,
            guard,
            writes_only,
        }))
    }

    fn type_name(&mut self) -> Parsed<TypeName<'a>> {
        if self.accept(Kind::Int) {
            Ok(TypeName::Int)
        } else if self.accept(Kind::Boolean) {
            Ok(TypeName::Boolean)
        } else {
            Ok(TypeName::Class(self.name()?))
        }
    }

    fn params(&mut self) -> Parsed<Vec<Param<'a>>> {
        self.take(Kind::OpenParen)?;
        let mut params = Vec::new();
        if self.accept(Kind::CloseParen) {
            return Ok(params);
        }
        loop {
            let is_final = self.accept(Kind::Final);
            params.push(Param {
                is_final,
                ty: self.type_name()?,
                name: self.name()?,
            });
            if !self.accept(Kind::Comma) {
                self.take(Kind::CloseParen)?;
                return Ok(params);
            }
        }
    }

    fn ctor(&mut self, name: Name<'a>) -> Parsed<Member<'a>> {
        let params = self.params()?;
        self.take(Kind::OpenBrace)?;
        let mut sets = Vec::new();
        while !self.accept(Kind::CloseBrace) {
            self.take(Kind::This)?;
            self.take(Kind::Dot)?;
            let field = self.name()?;
            self.take(Kind::Assign)?;
            sets.push((field, self.name()?));
            self.take(Kind::Semicolon)?;
        }
        Ok(Member::Ctor(Ctor { name, params, sets }))
    }

    fn method(
        &mut self,
        atomic: bool,
        result: Option<TypeName<'a>>,
        name: Name<'a>,
    ) -> Parsed<Member<'a>> {
        let params = self.params()?;
        let mut requires = Vec::new();
        if self.accept(Kind::Requires) {
            requires.push(self.lock()?);
            while self.accept(Kind::Comma) {
                requires.push(self.lock()?);
            }
        }
        let (body, end) = self.block(MAX_HEIGHT)?;
        Ok(Member::Method(Method {
            atomic,
            result,
            name,
            params,
            requires,
            body,
            end,
        }))
    }

    fn lock(&mut self) -> Parsed<Lock<'a>> {
        let at = self.token().at;
        let root = if self.accept(Kind::This) {
            None
        } else {
            Some(self.name()?)
        };
        let mut fields = Vec::new();
        while self.accept(Kind::Dot) {
            fields.push(self.name()?);
        }
        Ok(Lock { root, fields, at })
    }

    // Statements.

    /// A block that counts as one node, and the offset of its closing brace.
    fn block(&mut self, high: u32) -> Parsed<(Vec<Located<'a>>, u32)> {
        if high == 0 && self.sees(Kind::OpenBrace) {
            return self.too_deep();
        }
        self.take(Kind::OpenBrace)?;
        let mut statements = Vec::new();
        while !self.sees(Kind::CloseBrace) {
            statements.push(self.statement(high - 1, true)?);
        }
        let end = self.take(Kind::CloseBrace)?;
        Ok((statements, end))
    }

    fn begins_statement(&self, in_block: bool) -> bool {
        match self.kind() {
            Kind::Final | Kind::Int | Kind::Boolean => in_block,
            Kind::OpenBrace
            | Kind::Semicolon
            | Kind::If
            | Kind::While
            | Kind::Synchronized
            | Kind::Return
            | Kind::System => true,
            Kind::Bang | Kind::Minus => false,
            _ => self.begins_expression(),
        }
    }

    fn begins_expression(&self) -> bool {
        match self.kind() {
            Kind::OpenParen
            | Kind::New
            | Kind::Bang
            | Kind::Minus
            | Kind::True
            | Kind::False
            | Kind::Null
            | Kind::This
            | Kind::Name => true,
            Kind::Number => !self.sees_least(),
            _ => false,
        }
    }

    fn boxed(&mut self, high: u32) -> Parsed<Box<Located<'a>>> {
        Ok(Box::new(self.statement(high, false)?))
    }

    /// A statement at most `high` nodes high; in a block it may be a declaration.
    fn statement(&mut self, high: u32, in_block: bool) -> Parsed<Located<'a>> {
        if high == 0 {
            return if self.begins_statement(in_block) {
                self.too_deep()
            } else {
                self.unexpected()
            };
        }
        let at = self.token().at;
        let stmt = match self.kind() {
            Kind::OpenBrace => Stmt::Block(self.block(high)?.0),
            Kind::Semicolon => {
                self.place += 1;
                Stmt::Empty
            }
            Kind::If => {
                self.place += 1;
                let condition = self.condition(high)?;
                let then = self.boxed(high - 1)?;
                let other = if self.accept(Kind::Else) {
                    Some(self.boxed(high - 1)?)
                } else {
                    None
                };
                Stmt::If(condition, then, other)
            }
            Kind::While => {
                self.place += 1;
                let condition = self.condition(high)?;
                Stmt::While(condition, self.boxed(high - 1)?)
            }
            Kind::Synchronized => {
                self.place += 1;
                self.take(Kind::OpenParen)?;
                let lock = self.lock()?;
                self.take(Kind::CloseParen)?;
                Stmt::Sync(lock, self.block(high - 1)?.0)
            }
            Kind::Return => {
                self.place += 1;
                let value = if self.sees(Kind::Semicolon) {
                    None
                } else {
                    Some(self.expr(high - 1)?)
                };
                self.take(Kind::Semicolon)?;
                Stmt::Return(value)
            }
            Kind::System => self.print(high)?,
            Kind::Final | Kind::Int | Kind::Boolean if in_block => {
                let is_final = self.accept(Kind::Final);
                let ty = self.type_name()?;
                self.local(is_final, ty, high)?
            }
            Kind::New if self.tokens[self.place + 1].kind == Kind::Thread => self.start(high)?,
            Kind::Name if in_block && self.tokens[self.place + 1].kind == Kind::Name => {
                let ty = self.type_name()?;
                self.local(false, ty, high)?
            }
            _ => self.simple(high)?,
        };
        Ok(Located { at, stmt })
    }

    fn condition(&mut self, high: u32) -> Parsed<ExprId> {
        self.take(Kind::OpenParen)?;
        let value = self.expr(high - 1)?;
        self.take(Kind::CloseParen)?;
        Ok(value)
    }

    fn print(&mut self, high: u32) -> Parsed<Stmt<'a>> {
        self.take(Kind::System)?;
        self.take(Kind::Dot)?;
        self.fixed_name("out")?;
        self.take(Kind::Dot)?;
        self.fixed_name("println")?;
        let value = self.condition(high)?;
        self.take(Kind::Semicolon)?;
        Ok(Stmt::Print(value))
    }

    fn start(&mut self, high: u32) -> Parsed<Stmt<'a>> {
        self.take(Kind::New)?;
        self.take(Kind::Thread)?;
        let value = self.condition(high)?;
        self.take(Kind::Dot)?;
        self.fixed_name("start")?;
        self.take(Kind::OpenParen)?;
        self.take(Kind::CloseParen)?;
        self.take(Kind::Semicolon)?;
        Ok(Stmt::Start(value))
    }

    fn local(&mut self, is_final: bool, ty: TypeName<'a>, high: u32) -> Parsed<Stmt<'a>> {
        let name = self.name()?;
        let (value, _) = self.assigned(high)?;
        Ok(Stmt::Local {
            is_final,
            ty,
            name,
            value,
        })
    }

    /// The value of an assignment, and the offset of its `=`.
    fn assigned(&mut self, high: u32) -> Parsed<(ExprId, u32)> {
        let at = self.take(Kind::Assign)?;
        let value = self.expr(high - 1)?;
        self.take(Kind::Semicolon)?;
        Ok((value, at))
    }

    /// An assignment, a call or a `new`.
    fn simple(&mut self, high: u32) -> Parsed<Stmt<'a>> {
        let Measured { expr, height } = self.postfix(high)?;
        match self.exprs[expr as usize] {
            Expr::Var(name) => {
                let (value, at) = self.assigned(high)?;
                Ok(Stmt::SetVar(name, value, at))
            }
            Expr::Get(receiver, name) => {
                let (value, at) = self.assigned(high)?;
                Ok(Stmt::SetField(receiver, name, value, at))
            }
            Expr::Call(..) | Expr::New(..) => {
                if self.sees(Kind::Semicolon) && height >= high {
                    return self.too_deep();
                }
                self.take(Kind::Semicolon)?;
                Ok(Stmt::Do(expr))
            }
            _ => self.unexpected(),
        }
    }

    // Expressions.

    fn measured(&mut self, expr: Expr<'a>, height: u32) -> Measured {
        self.exprs.push(expr);
        Measured {
            expr: self.exprs.len() as ExprId - 1,
            height,
        }
    }

    fn expr(&mut self, high: u32) -> Parsed<ExprId> {
        Ok(self.binary(high, LOOSEST)?.expr)
    }

    /// Operands with operators between them that bind at least so tightly.
    fn binary(&mut self, high: u32, tightness: u32) -> Parsed<Measured> {
        let mut left = self.unary(high)?;
        while let Some((op, tight)) = operator(self.kind()).filter(|o| o.1 >= tightness) {
            if left.height >= high {
                return self.too_deep();
            }
            let at = self.token().at;
            self.place += 1;
            let right = if tight == TIGHTEST {
                self.unary(high - 1)?
            } else {
                self.binary(high - 1, tight + 1)?
            };
            let height = 1 + left.height.max(right.height);
            left = self.measured(Expr::Binary(op, left.expr, right.expr, at), height);
        }
        Ok(left)
    }

    fn unary(&mut self, high: u32) -> Parsed<Measured> {
        if high == 0 {
            return if self.begins_expression() {
                self.too_deep()
            } else {
                self.unexpected()
            };
        }
        let at = self.token().at;
        if self.accept(Kind::Bang) {
            let part = self.unary(high - 1)?;
            return Ok(self.measured(Expr::Not(part.expr, at), part.height + 1));
        }
        if self.accept(Kind::Minus) {
            if self.sees_least() {
                self.place += 1;
                return Ok(self.measured(Expr::Least, 1));
            }
            let part = self.unary(high - 1)?;
            return Ok(self.measured(Expr::Neg(part.expr, at), part.height + 1));
        }
        self.postfix(high)
    }

    /// A primary and the fields and calls behind it.
    fn postfix(&mut self, high: u32) -> Parsed<Measured> {
        let mut front = self.primary(high)?;
        while self.sees(Kind::Dot) {
            if front.height >= high {
                return self.too_deep();
            }
            self.place += 1;
            let name = self.name()?;
            front = if self.sees(Kind::OpenParen) {
                let (args, highest) = self.args(high)?;
                let height = 1 + front.height.max(highest);
                self.measured(Expr::Call(front.expr, name, args), height)
            } else {
                self.measured(Expr::Get(front.expr, name), front.height + 1)
            };
        }
        Ok(front)
    }

    fn primary(&mut self, high: u32) -> Parsed<Measured> {
        let token = self.token();
        let expr = match token.kind {
            Kind::Name => Expr::Var(Name {
                text: self.slice(token),
                at: token.at,
            }),
            Kind::This => Expr::This,
            Kind::True => Expr::Truth(true),
            Kind::False => Expr::Truth(false),
            Kind::Null => Expr::Null,
            Kind::Number => match number(self.slice(token)) {
                Some(value) if value < 1 << 31 => Expr::Number(value),
                _ => return self.unexpected(),
            },
            Kind::OpenParen => {
                self.place += 1;
                let inner = self.binary(high - 1, LOOSEST)?;
                self.take(Kind::CloseParen)?;
                return Ok(self.measured(Expr::Paren(inner.expr), inner.height + 1));
            }
            Kind::New => {
                self.place += 1;
                let name = self.name()?;
                let (args, highest) = self.args(high)?;
                return Ok(self.measured(Expr::New(name, args), highest + 1));
            }
            _ => return self.unexpected(),
        };
        self.place += 1;
        Ok(self.measured(expr, 1))
    }

    /// Arguments in parentheses, and the height of the highest.
    fn args(&mut self, high: u32) -> Parsed<(Vec<ExprId>, u32)> {
        self.take(Kind::OpenParen)?;
        let (mut args, mut highest) = (Vec::new(), 0);
        if self.accept(Kind::CloseParen) {
            return Ok((args, highest));
        }
        loop {
            let arg = self.binary(high - 1, LOOSEST)?;
            highest = highest.max(arg.height);
            args.push(arg.expr);
            if !self.accept(Kind::Comma) {
                self.take(Kind::CloseParen)?;
                return Ok((args, highest));
            }
        }
    }
}
