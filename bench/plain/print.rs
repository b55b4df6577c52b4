//! The canonical layout of a tree.

use crate::tree::*;

/// What stands in front of the next token on its line.
#[derive(Clone, Copy, PartialEq)]
enum Before {
    /// Nothing: the line begins.
    Start,
    /// A token behind which no blank stands: `(`, `.` or `!`.
    Open,
    /// A name or `Thread`, behind which a `(` follows at once.
    Name,
    Other,
}

struct Printer<'t, 'a> {
    exprs: &'t [Expr<'a>],
    out: String,
    depth: usize,
    before: Before,
}

pub fn print(program: &Program<'_>, size: usize) -> String {
    let out = String::with_capacity(size);
    let mut printer = Printer {
        exprs: &program.exprs,
        out,
        depth: 0,
        before: Before::Start,
    };
    for class in &program.classes {
        printer.class(class);
    }
    printer.out
}

impl Printer<'_, '_> {
    // Tokens.

    fn begin_line(&mut self, depth: usize) {
        for _ in 0..depth {
            self.out.push_str("    ");
        }
    }

    fn token(&mut self, text: &str, before: Before) {
        match self.before {
            Before::Start => self.begin_line(self.depth),
            Before::Open => {}
            Before::Name | Before::Other => self.out.push(' '),
        }
        self.out.push_str(text);
        self.before = before;
    }

    /// A token with no blank in front of it.
    fn close(&mut self, text: &str, before: Before) {
        if self.before == Before::Start {
            self.begin_line(self.depth);
        }
        self.out.push_str(text);
        self.before = before;
    }

    fn word(&mut self, text: &str) {
        self.token(text, Before::Other);
    }

    fn name(&mut self, name: Name<'_>) {
        self.token(name.text, Before::Name);
    }

    fn open_paren(&mut self) {
        if self.before == Before::Name {
            self.close("(", Before::Open);
        } else {
            self.token("(", Before::Open);
        }
    }

    fn close_paren(&mut self) {
        self.close(")", Before::Other);
    }

    fn dot(&mut self) {
        self.close(".", Before::Open);
    }

    fn comma(&mut self) {
        self.close(",", Before::Other);
    }

    fn end_line(&mut self) {
        self.out.push('\n');
        self.before = Before::Start;
    }

    fn semicolon(&mut self) {
        self.close(";", Before::Other);
        self.end_line();
    }

    fn open_brace(&mut self) {
        self.word("{");
        self.end_line();
        self.depth += 1;
    }

    fn close_brace(&mut self) {
        self.depth -= 1;
        self.word("}");
        self.end_line();
    }

    /// Items in parentheses, with commas between them.
    fn listed<T>(&mut self, items: &[T], write: impl Fn(&mut Self, &T)) {
        self.open_paren();
        for (k, item) in items.iter().enumerate() {
            if k > 0 {
                self.comma();
            }
            write(self, item);
        }
        self.close_paren();
    }

    // Classes and members.

    fn class(&mut self, class: &Class<'_>) {
        self.word("class");
        self.name(class.name);
        if let Some(above) = class.above {
            self.word("extends");
            self.name(above);
        }
        if class.runnable {
            self.word("implements");
            self.word("Runnable");
        }
        self.open_brace();
        for member in &class.members {
            match member {
                Member::Field(field) => self.field(field),
                Member::Ctor(ctor) => self.ctor(ctor),
                Member::Method(method) => self.method(method),
            }
        }
        self.close_brace();
    }

    fn field(&mut self, field: &Field<'_>) {
        if field.is_final {
            self.word("final");
        }
        self.type_name(field.ty);
        self.name(field.name);
        if let Some(guard) = &field.guard {
            self.word(if field.writes_only {
                "write_guarded_by"
            } else {
                "guarded_by"
            });
            self.lock(guard);
        }
        self.semicolon();
    }

    fn ctor(&mut self, ctor: &Ctor<'_>) {
        self.name(ctor.name);
        self.listed(&ctor.params, |p, param| {
            p.type_name(param.ty);
            p.name(param.name);
        });
        self.open_brace();
        for &(field, param) in &ctor.sets {
            self.word("this");
            self.dot();
            self.name(field);
            self.word("=");
            self.name(param);
            self.semicolon();
        }
        self.close_brace();
    }

    fn method(&mut self, method: &Method<'_>) {
        if method.atomic {
            self.word("atomic");
        }
        match method.result {
            Some(ty) => self.type_name(ty),
            None => self.word("void"),
        }
        self.name(method.name);
        self.listed(&method.params, |p, param| {
            if param.is_final {
                p.word("final");
            }
            p.type_name(param.ty);
            p.name(param.name);
        });
        for (k, lock) in method.requires.iter().enumerate() {
            if k == 0 {
                self.word("requires");
            } else {
                self.comma();
            }
            self.lock(lock);
        }
        self.braces(&method.body);
    }

    fn type_name(&mut self, ty: TypeName<'_>) {
        match ty {
            TypeName::Int => self.word("int"),
            TypeName::Boolean => self.word("boolean"),
            TypeName::Class(name) => self.name(name),
        }
    }

    fn lock(&mut self, lock: &Lock<'_>) {
        match lock.root {
            None => self.word("this"),
            Some(name) => self.name(name),
        }
        for &field in &lock.fields {
            self.dot();
            self.name(field);
        }
    }

    // Statements.

    fn braces(&mut self, statements: &[Located<'_>]) {
        self.open_brace();
        for statement in statements {
            self.stmt(&statement.stmt);
        }
        self.close_brace();
    }

    fn condition(&mut self, value: ExprId) {
        self.open_paren();
        self.expr(value);
        self.close_paren();
    }

    fn stmt(&mut self, stmt: &Stmt<'_>) {
        match stmt {
            Stmt::Empty => self.semicolon(),
            Stmt::Block(statements) => self.braces(statements),
            Stmt::Local {
                is_final,
                ty,
                name,
                value,
            } => {
                if *is_final {
                    self.word("final");
                }
                self.type_name(*ty);
                self.name(*name);
                self.assigned(*value);
            }
            Stmt::SetVar(name, value, _) => {
                self.name(*name);
                self.assigned(*value);
            }
            Stmt::SetField(receiver, name, value, _) => {
                self.expr(*receiver);
                self.dot();
                self.name(*name);
                self.assigned(*value);
            }
            Stmt::Do(value) => {
                self.expr(*value);
                self.semicolon();
            }
            Stmt::If(condition, then, other) => {
                self.word("if");
                self.condition(*condition);
                self.stmt(&then.stmt);
                if let Some(other) = other {
                    self.word("else");
                    self.stmt(&other.stmt);
                }
            }
            Stmt::While(condition, body) => {
                self.word("while");
                self.condition(*condition);
                self.stmt(&body.stmt);
            }
            Stmt::Sync(lock, body) => {
                self.word("synchronized");
                self.open_paren();
                self.lock(lock);
                self.close_paren();
                self.braces(body);
            }
            Stmt::Return(value) => {
                self.word("return");
                if let Some(value) = value {
                    self.expr(*value);
                }
                self.semicolon();
            }
            Stmt::Print(value) => {
                self.word("System");
                self.dot();
                self.word("out");
                self.dot();
                self.token("println", Before::Name);
                self.condition(*value);
                self.semicolon();
            }
            Stmt::Start(value) => {
                self.word("new");
                self.token("Thread", Before::Name);
                self.condition(*value);
                self.dot();
                self.token("start", Before::Name);
                self.open_paren();
                self.close_paren();
                self.semicolon();
            }
        }
    }

    fn assigned(&mut self, value: ExprId) {
        self.word("=");
        self.expr(value);
        self.semicolon();
    }

    // Expressions.

    fn expr(&mut self, expr: ExprId) {
        match &self.exprs[expr as usize] {
            Expr::Number(value) => self.word(&value.to_string()),
            Expr::Least => {
                self.word("-");
                self.word("2147483648");
            }
            Expr::Truth(value) => self.word(if *value { "true" } else { "false" }),
            Expr::Null => self.word("null"),
            Expr::This => self.word("this"),
            Expr::Var(name) => self.name(*name),
            Expr::Paren(inner) => self.condition(*inner),
            Expr::Not(part, _) => {
                self.token("!", Before::Open);
                self.expr(*part);
            }
            Expr::Neg(part, _) => {
                self.word("-");
                self.expr(*part);
            }
            Expr::Binary(op, left, right, _) => {
                self.expr(*left);
                self.word(sign(*op));
                self.expr(*right);
            }
            Expr::Get(receiver, name) => {
                self.expr(*receiver);
                self.dot();
                self.name(*name);
            }
            Expr::Call(receiver, name, args) => {
                self.expr(*receiver);
                self.dot();
                self.name(*name);
                self.listed(args, |p, arg| p.expr(*arg));
            }
            Expr::New(name, args) => {
                self.word("new");
                self.name(*name);
                self.listed(args, |p, arg| p.expr(*arg));
            }
        }
    }
}

fn sign(op: Op) -> &'static str {
    match op {
        Op::Or => "||",
        Op::And => "&&",
        Op::Eq => "==",
        Op::Ne => "!=",
        Op::Lt => "<",
        Op::Le => "<=",
        Op::Gt => ">",
        Op::Ge => ">=",
        Op::Add => "+",
        Op::Sub => "-",
        Op::Mul => "*",
        Op::Div => "/",
        Op::Rem => "%",
    }
}
