//! Atomicities: the steps of each body, the locks that matter, the least closed tables, and the verdict.

use crate::classes::Table;
use crate::core::{Expr, ExprId, FieldId, Method, MethodId, Path, Program, Stmt};
use crate::fault::{Fault, Kind};
use std::collections::{BTreeMap, BTreeSet, VecDeque};
use std::fmt::Write;
use std::mem;

/// The most relevant paths, and the most paths at locals, that a method may have.
const MOST_PATHS: usize = 8;

#[derive(Clone, Copy, Debug, PartialEq, Eq, PartialOrd, Ord)]
enum Basic {
    Const,
    Mover,
    Atomic,
    Cmpd,
    Error,
}

impl Basic {
    fn text(self) -> &'static str {
        match self {
            Basic::Const => "const",
            Basic::Mover => "mover",
            Basic::Atomic => "atomic",
            Basic::Cmpd => "cmpd",
            Basic::Error => "error",
        }
    }

    fn seq(self, other: Basic) -> Basic {
        match (self, other) {
            (Basic::Atomic, Basic::Atomic) => Basic::Cmpd,
            _ => self.max(other),
        }
    }

    fn star(self) -> Basic {
        match self {
            Basic::Atomic => Basic::Cmpd,
            _ => self,
        }
    }

    fn lift(self) -> Basic {
        self.max(Basic::Atomic)
    }
}

/// A set of held paths near a method, one bit each.
type Held = u32;

/// A path near a method, and its bit, once it has one.
struct Lock {
    path: Path,
    bit: Held,
}

impl Lock {
    fn new(path: Path) -> Lock {
        Lock { path, bit: 0 }
    }
}

/// What a piece of a body adds to its effect.
enum Step {
    Basic(Basic),
    /// An access, where its guard is held and where it isn't.
    Access {
        guard: Lock,
        held: Basic,
        free: Basic,
    },
    /// The number of a call.
    Call(usize),
    Sync(Lock, Vec<Step>),
    Block(Vec<Step>),
    If(Vec<Step>, Vec<Step>),
    /// Any number of times.
    While(Vec<Step>),
    /// From here on, in this block, the slot is a name for the path: with the second bit where the first is held.
    Name {
        slot: u16,
        value: Option<Path>,
        forget: Held,
        gains: Vec<(Held, Held)>,
    },
}

/// A call, with the paths of its receiver and arguments.
struct Call {
    caller: MethodId,
    callee: MethodId,
    receiver: Option<Path>,
    args: Vec<Option<Path>>,
    /// Bits of the caller's paths, and of the callee's that have these names.
    renaming: Vec<(Held, Held)>,
}

impl Call {
    fn renamed(&self, path: Path) -> Option<Path> {
        let operand = match path.root {
            0 => self.receiver,
            root => *self.args.get(root as usize - 1)?,
        };
        operand?.extended(path)
    }
}

/// The paths near each method, ascending, those of one method after those of another.
struct Paths {
    all: Vec<Path>,
    /// Where each method's paths begin, how many are relevant, and where they end. The relevant ones come first.
    places: Vec<(usize, usize, usize)>,
}

impl Paths {
    /// The paths, or the first method with too many.
    fn new(program: &Program, near: Vec<BTreeSet<Path>>) -> Result<Paths, Fault> {
        let (mut all, mut places) = (Vec::new(), Vec::with_capacity(near.len()));
        for (method, paths) in program.methods.iter().zip(near) {
            let (start, count) = (all.len(), paths.len());
            let relevant = paths.iter().take_while(|p| p.root <= method.params).count();
            if relevant > MOST_PATHS || count - relevant > MOST_PATHS {
                return Err(Fault {
                    at: method.at,
                    kind: Kind::TooManyLocks,
                });
            }
            all.extend(paths);
            places.push((start, relevant, all.len()));
        }
        Ok(Paths { all, places })
    }

    fn near(&self, method: usize) -> &[Path] {
        let (start, _, end) = self.places[method];
        &self.all[start..end]
    }

    fn relevant(&self, method: usize) -> &[Path] {
        let (start, relevant, _) = self.places[method];
        &self.all[start..start + relevant]
    }

    /// The bit of a path near a method. The first relevant one has the highest bit of these.
    fn bit(&self, method: usize, path: Path) -> Held {
        let count = self.places[method].1;
        match self.near(method).binary_search(&path) {
            Ok(k) if k < count => 1 << (count - 1 - k),
            Ok(k) => 1 << k,
            Err(_) => 0,
        }
    }
}

/// A method that overrides another one.
struct Over {
    over: MethodId,
    method: MethodId,
    /// Bits of the method's paths, and of the overriding one's that are the same.
    same: Vec<(Held, Held)>,
}

/// Each method that overrides another one.
fn overs(program: &Program) -> Vec<Over> {
    let mut all = Vec::new();
    for (class, id) in program.classes.iter().zip(0..) {
        let own = |n: MethodId| program.methods[n as usize].class == id;
        let pairs = class.targets.iter().filter(|&&(m, n)| m != n && own(n));
        all.extend(pairs.map(|&(method, over)| Over {
            over,
            method,
            same: Vec::new(),
        }));
    }
    all
}

/// A well-formed program's bodies, locks and calls.
pub struct Rules<'p> {
    program: &'p Program,
    bodies: Vec<Vec<Step>>,
    calls: Vec<Call>,
    /// The calls of each method.
    callers: Vec<Vec<u32>>,
    overs: Vec<Over>,
    /// Those by which each method overrides others.
    overridden: Vec<Vec<u32>>,
    /// Those by which others override each method.
    overriding: Vec<Vec<u32>>,
    paths: Paths,
    requires: Vec<Held>,
}

/// The rules' view of the program, or `too many locks` at the first method that has more.
pub fn rules(program: &Program) -> Result<Rules<'_>, Fault> {
    let mut walker = Walker {
        program,
        method: 0,
        steps: Vec::new(),
        calls: Vec::new(),
        near: Near {
            known: vec![BTreeSet::new(); program.methods.len()],
            open: Vec::new(),
            names: BTreeMap::new(),
        },
    };
    let methods = program.methods.iter();
    let mut bodies: Vec<_> = methods.map(|method| walker.body(method)).collect();
    let Walker {
        mut calls, near, ..
    } = walker;
    let mut callers = vec![Vec::new(); bodies.len()];
    for (k, call) in calls.iter().enumerate() {
        callers[call.callee as usize].push(k as u32);
    }
    let mut overs = overs(program);
    let (mut overridden, mut overriding) = (vec![Vec::new(); bodies.len()], vec![Vec::new(); bodies.len()]);
    for (k, over) in overs.iter().enumerate() {
        overridden[over.over as usize].push(k as u32);
        overriding[over.method as usize].push(k as u32);
    }
    let closed = near.closed(program, &calls, &callers, &overs, &overridden);
    let paths = Paths::new(program, closed)?;
    for over in &mut overs {
        let (method, other) = (over.method as usize, over.over as usize);
        let same = paths.relevant(other).iter();
        let same = same.map(|&path| (paths.bit(method, path), paths.bit(other, path)));
        over.same = same.filter(|pair| pair.0 != 0).collect();
    }
    for call in &mut calls {
        let (caller, callee) = (call.caller as usize, call.callee as usize);
        for &path in paths.relevant(callee) {
            if let Some(renamed) = call.renamed(path) {
                let pair = (paths.bit(caller, renamed), paths.bit(callee, path));
                call.renaming.push(pair);
            }
        }
    }
    for (m, body) in bodies.iter_mut().enumerate() {
        place(body, paths.near(m), &|path| paths.bit(m, path));
    }
    let required = |(m, method): (usize, &Method)| {
        let bits = method.requires.iter().map(|&path| paths.bit(m, path));
        bits.fold(0, |all, bit| all | bit)
    };
    let requires = program.methods.iter().enumerate().map(required).collect();
    Ok(Rules {
        program,
        bodies,
        calls,
        callers,
        overs,
        overridden,
        overriding,
        paths,
        requires,
    })
}

/// Gives each path in the steps its bit.
fn place(steps: &mut [Step], near: &[Path], bit: &impl Fn(Path) -> Held) {
    for step in steps {
        match step {
            Step::Basic(_) | Step::Call(_) => {}
            Step::Access { guard, .. } => guard.bit = bit(guard.path),
            Step::Sync(lock, part) => {
                lock.bit = bit(lock.path);
                place(part, near, bit);
            }
            Step::Block(part) | Step::While(part) => place(part, near, bit),
            Step::If(then, other) => {
                place(then, near, bit);
                place(other, near, bit);
            }
            Step::Name {
                slot,
                value,
                forget,
                gains,
            } => {
                for &path in near.iter().filter(|p| p.root == *slot) {
                    *forget |= bit(path);
                    if let Some(same) = value.and_then(|value| value.extended(path)) {
                        gains.push((bit(same), bit(path)));
                    }
                }
            }
        }
    }
}

/// The paths near each method, as they are found.
struct Near {
    known: Vec<BTreeSet<Path>>,
    /// Those that weren't followed yet.
    open: Vec<(MethodId, Path)>,
    /// The final locals whose value has a path.
    names: BTreeMap<(MethodId, u16), Path>,
}

impl Near {
    fn add(&mut self, method: MethodId, path: Path) {
        if self.known[method as usize].insert(path) {
            self.open.push((method, path));
        }
    }

    /// The least family with these paths.
    fn closed(
        mut self,
        program: &Program,
        calls: &[Call],
        callers: &[Vec<u32>],
        overs: &[Over],
        overridden: &[Vec<u32>],
    ) -> Vec<BTreeSet<Path>> {
        while let Some((method, path)) = self.open.pop() {
            let value = self.names.get(&(method, path.root));
            if let Some(same) = value.and_then(|value| value.extended(path)) {
                self.add(method, same);
            }
            for &call in &callers[method as usize] {
                let call = &calls[call as usize];
                if let Some(renamed) = call.renamed(path) {
                    self.add(call.caller, renamed);
                }
            }
            if path.root > program.methods[method as usize].params {
                continue;
            }
            for &over in &overridden[method as usize] {
                let other = overs[over as usize].method;
                let class = program.methods[other as usize].class;
                let known = &program.classes[class as usize].fields;
                let first = path.fields().next().filter(|_| path.root == 0);
                if first.is_none_or(|field| known.contains(&field)) {
                    self.add(other, path);
                }
            }
        }
        self.known
    }
}

/// Takes the bodies of methods apart.
struct Walker<'p> {
    program: &'p Program,
    method: MethodId,
    steps: Vec<Step>,
    calls: Vec<Call>,
    near: Near,
}

impl Walker<'_> {
    fn body(&mut self, method: &Method) -> Vec<Step> {
        for &path in &method.requires {
            self.near.add(self.method, path);
        }
        let body = self.part(|w| w.stmts(&method.body));
        self.method += 1;
        body
    }

    /// The steps of a part of their own.
    fn part(&mut self, walk: impl FnOnce(&mut Self)) -> Vec<Step> {
        let outer = mem::take(&mut self.steps);
        walk(self);
        mem::replace(&mut self.steps, outer)
    }

    fn basic(&mut self, basic: Basic) {
        match self.steps.last_mut() {
            Some(Step::Basic(last)) => *last = last.seq(basic),
            _ => self.steps.push(Step::Basic(basic)),
        }
    }

    fn access(&mut self, receiver: ExprId, field: FieldId, is_write: bool) {
        let found = &self.program.fields[field as usize];
        if found.is_final {
            return;
        }
        let Some(lock) = found.guard else {
            return self.basic(Basic::Atomic);
        };
        let (held, free) = match (found.writes_only, is_write) {
            (false, _) => (Basic::Mover, Basic::Error),
            (true, false) => (Basic::Mover, Basic::Atomic),
            (true, true) => (Basic::Atomic, Basic::Error),
        };
        match self.program.path(receiver).and_then(|p| p.extended(lock)) {
            Some(path) => {
                self.near.add(self.method, path);
                self.steps.push(Step::Access {
                    guard: Lock::new(path),
                    held,
                    free,
                });
            }
            None => self.basic(free),
        }
    }

    fn exprs(&mut self, exprs: &[ExprId]) {
        for &expr in exprs {
            self.expr(expr);
        }
    }

    fn expr(&mut self, expr: ExprId) {
        let program = self.program;
        match program.expr(expr) {
            Expr::Int(_) | Expr::Truth(_) | Expr::Null | Expr::This => {}
            Expr::Var { is_final: true, .. } => {}
            Expr::Var { .. } => self.basic(Basic::Mover),
            Expr::Not(part) | Expr::Neg(part) => self.expr(*part),
            Expr::Binary(_, left, right) => {
                self.expr(*left);
                self.expr(*right);
            }
            Expr::Get(receiver, field) => {
                self.expr(*receiver);
                self.access(*receiver, *field, false);
            }
            Expr::Call(receiver, callee, args) => {
                self.expr(*receiver);
                self.exprs(args);
                self.steps.push(Step::Call(self.calls.len()));
                self.calls.push(Call {
                    caller: self.method,
                    callee: *callee,
                    receiver: program.path(*receiver),
                    args: args.iter().map(|&arg| program.path(arg)).collect(),
                    renaming: Vec::new(),
                });
            }
            Expr::New(_, args) => {
                self.exprs(args);
                self.basic(Basic::Mover);
            }
        }
    }

    fn stmts(&mut self, stmts: &[Stmt]) {
        for stmt in stmts {
            self.stmt(stmt);
        }
    }

    fn stmt(&mut self, stmt: &Stmt) {
        match stmt {
            Stmt::Empty => {}
            Stmt::Block(stmts) => {
                let part = self.part(|w| w.stmts(stmts));
                self.steps.push(Step::Block(part));
            }
            Stmt::Local {
                slot,
                is_final,
                value,
            } => {
                self.expr(*value);
                self.basic(Basic::Mover);
                if *is_final {
                    self.name(*slot, self.program.path(*value));
                }
            }
            Stmt::SetVar(_, value) => {
                self.expr(*value);
                self.basic(Basic::Mover);
            }
            Stmt::SetField(receiver, field, value) => {
                self.expr(*receiver);
                self.expr(*value);
                self.access(*receiver, *field, true);
            }
            Stmt::Do(value, _) => self.expr(*value),
            Stmt::If(condition, then, other) => {
                self.expr(*condition);
                let then = self.part(|w| w.stmt(then));
                let other = self.part(|w| w.stmt(other));
                self.steps.push(Step::If(then, other));
            }
            Stmt::While(condition, body) => {
                self.expr(*condition);
                let part = self.part(|w| {
                    w.stmt(body);
                    w.expr(*condition);
                });
                self.steps.push(Step::While(part));
            }
            Stmt::Sync(path, stmts) => {
                self.near.add(self.method, *path);
                let part = self.part(|w| w.stmts(stmts));
                self.steps.push(Step::Sync(Lock::new(*path), part));
            }
            Stmt::Return(value) => {
                if let Some(value) = value {
                    self.expr(*value);
                }
            }
            Stmt::Print(value) | Stmt::Start(value) => {
                self.expr(*value);
                self.basic(Basic::Atomic);
            }
        }
    }

    fn name(&mut self, slot: u16, value: Option<Path>) {
        self.steps.push(Step::Name {
            slot,
            value,
            forget: 0,
            gains: Vec::new(),
        });
        if let Some(value) = value {
            self.near.names.insert((self.method, slot), value);
        }
    }
}

/// The least closed tables: a basic for each set of relevant paths.
pub struct Tables {
    tables: Vec<Vec<Basic>>,
}

impl Rules<'_> {
    /// The sets of relevant paths of a method that have its required ones.
    fn sets(&self, method: usize) -> impl Iterator<Item = Held> {
        let required = self.requires[method];
        (0..1 << self.paths.relevant(method).len()).filter(move |held| held & required == required)
    }

    pub fn infer(&self) -> Tables {
        let count = self.bodies.len();
        let empty = |m| vec![Basic::Const; 1 << self.paths.relevant(m).len()];
        let mut tables: Vec<_> = (0..count).map(empty).collect();
        let mut waits = vec![true; count];
        let mut queue: VecDeque<_> = (0..count).collect();
        while let Some(method) = queue.pop_front() {
            waits[method] = false;
            let mut rose = false;
            for held in self.sets(method) {
                let body = self.effect(&tables, &self.bodies[method], held);
                let found = self.joined(&tables, method, held, body);
                rose |= mem::replace(&mut tables[method][held as usize], found) != found;
            }
            for &call in self.callers[method].iter().filter(|_| rose) {
                let caller = self.calls[call as usize].caller as usize;
                if !mem::replace(&mut waits[caller], true) {
                    queue.push_back(caller);
                }
            }
            for &over in self.overridden[method].iter().filter(|_| rose) {
                let other = self.overs[over as usize].method as usize;
                if !mem::replace(&mut waits[other], true) {
                    queue.push_back(other);
                }
            }
        }
        // Without a required path the table has the least value that keeps it falling.
        for (method, table) in tables.iter_mut().enumerate() {
            for held in 0..table.len() {
                table[held] = table[held | self.requires[method] as usize];
            }
        }
        Tables { tables }
    }

    /// The body's effect, or the greatest of the methods that override this one.
    fn joined(&self, tables: &[Vec<Basic>], method: usize, held: Held, body: Basic) -> Basic {
        let overs = self.overriding[method].iter();
        overs.fold(body, |whole, &over| {
            let over = &self.overs[over as usize];
            let pairs = over.same.iter().filter(|(from, _)| held & from != 0);
            let found = pairs.fold(0, |all, (_, to)| all | to);
            whole.max(tables[over.over as usize][found as usize])
        })
    }

    fn effect(&self, tables: &[Vec<Basic>], steps: &[Step], mut held: Held) -> Basic {
        let mut whole = Basic::Const;
        for step in steps {
            whole = whole.seq(match step {
                Step::Basic(basic) => *basic,
                Step::Access {
                    guard,
                    held: with,
                    free,
                } => {
                    if held & guard.bit != 0 {
                        *with
                    } else {
                        *free
                    }
                }
                Step::Call(call) => self.call(tables, &self.calls[*call], held),
                Step::Sync(lock, part) if held & lock.bit != 0 => self.effect(tables, part, held),
                Step::Sync(lock, part) => self.effect(tables, part, held | lock.bit).lift(),
                Step::Block(part) => self.effect(tables, part, held),
                Step::If(then, other) => self
                    .effect(tables, then, held)
                    .max(self.effect(tables, other, held)),
                Step::While(part) => self.effect(tables, part, held).star(),
                Step::Name { forget, gains, .. } => {
                    held &= !forget;
                    for (from, to) in gains {
                        if held & from != 0 {
                            held |= to;
                        }
                    }
                    Basic::Const
                }
            });
        }
        whole
    }

    fn call(&self, tables: &[Vec<Basic>], call: &Call, held: Held) -> Basic {
        let pairs = call.renaming.iter().filter(|(from, _)| held & from != 0);
        let found = pairs.fold(0, |all, (_, to)| all | to);
        let required = self.requires[call.callee as usize];
        if found & required == required {
            tables[call.callee as usize][found as usize]
        } else {
            Basic::Error
        }
    }

    /// The line of the first method whose bound is broken, or a line for each method.
    pub fn verdict(&self, names: &Table<'_, '_>, tables: &Tables) -> Result<String, String> {
        for (m, method) in self.program.methods.iter().enumerate() {
            let declared = if method.annotated {
                Basic::Atomic
            } else {
                Basic::Cmpd
            };
            let found = tables.tables[m][self.requires[m] as usize];
            if found > declared {
                let (class, name) = names.method_name(m as MethodId);
                let (declared, found) = (declared.text(), found.text());
                return Err(format!(
                    "{class}.{name}: declared {declared}, found {found}\n"
                ));
            }
        }
        let mut out = String::new();
        for (m, table) in tables.tables.iter().enumerate() {
            let (class, name) = names.method_name(m as MethodId);
            let _ = write!(out, "{class}.{name} ");
            write_table(&mut out, names, m, self.paths.relevant(m), table, false);
            out.push('\n');
        }
        Ok(out)
    }
}

/// Writes a table as a tree of tests. Its second half has the first path.
fn write_table(
    out: &mut String,
    names: &Table<'_, '_>,
    method: usize,
    paths: &[Path],
    table: &[Basic],
    inside: bool,
) {
    let Some((path, rest)) = paths.split_first() else {
        return out.push_str(table[0].text());
    };
    let (free, held) = table.split_at(table.len() / 2);
    if free == held {
        return write_table(out, names, method, rest, free, inside);
    }
    if inside {
        out.push('(');
    }
    write_path(out, names, method, *path);
    out.push_str(" ? ");
    write_table(out, names, method, rest, held, true);
    out.push_str(" : ");
    write_table(out, names, method, rest, free, true);
    if inside {
        out.push(')');
    }
}

fn write_path(out: &mut String, names: &Table<'_, '_>, method: usize, path: Path) {
    match path.root {
        0 => out.push_str("this"),
        root => out.push_str(
            names.methods[method].tree.params[root as usize - 1]
                .name
                .text,
        ),
    }
    for field in path.fields() {
        out.push('.');
        out.push_str(names.fields[field as usize].tree.name.text);
    }
}
