//! The machine: simulated threads that run flat code, one instruction a step.

use crate::classes::Table;
use crate::code::{CodeTable, Instr};
use crate::core::{ClassId, FieldId, MethodId, Program, Type};
use crate::tree::Op;
use std::fmt::{self, Display, Formatter, Write};

const MOST_FRAMES: usize = 1000;

/// The thread that made an object, and how many it had made before.
#[derive(Clone, Copy, Debug, PartialEq, Eq)]
pub struct Address {
    thread: u32,
    count: u32,
}

#[derive(Clone, Copy, Debug, PartialEq, Eq)]
pub enum Value {
    Int(i32),
    Truth(bool),
    Null,
    Ref(Address),
}

impl Display for Address {
    fn fmt(&self, f: &mut Formatter<'_>) -> fmt::Result {
        write!(f, "{}:{}", self.thread, self.count)
    }
}

impl Display for Value {
    fn fmt(&self, f: &mut Formatter<'_>) -> fmt::Result {
        match self {
            Value::Int(value) => value.fmt(f),
            Value::Truth(value) => value.fmt(f),
            Value::Null => f.write_str("null"),
            Value::Ref(address) => address.fmt(f),
        }
    }
}

#[derive(Clone, Copy, Debug)]
pub enum Fault {
    Null,
    Zero,
    Depth,
}

impl Display for Fault {
    fn fmt(&self, f: &mut Formatter<'_>) -> fmt::Result {
        f.write_str(match self {
            Fault::Null => "null",
            Fault::Zero => "zero",
            Fault::Depth => "depth",
        })
    }
}

/// What a step is to those of other threads.
#[derive(Clone, Copy, Debug, PartialEq, Eq)]
pub enum Kind {
    Both,
    Right,
    Left,
    Other,
    Bare,
}

/// Why a thread can't step.
#[derive(Clone, Copy, Debug)]
pub enum Stop {
    Absent,
    Done,
    Faulted(Fault),
    Waits { address: Address, holder: u32 },
}

impl Display for Stop {
    fn fmt(&self, f: &mut Formatter<'_>) -> fmt::Result {
        match self {
            Stop::Absent => f.write_str("is absent"),
            Stop::Done => f.write_str("is done"),
            Stop::Faulted(fault) => write!(f, "is faulted {fault}"),
            Stop::Waits { address, holder } => write!(f, "waits for {address} held by {holder}"),
        }
    }
}

/// What stops an action: its thread waits, or it faults.
enum Hurdle {
    Stop(Stop),
    Fault(Fault),
}

impl From<Fault> for Hurdle {
    fn from(fault: Fault) -> Hurdle {
        Hurdle::Fault(fault)
    }
}

struct Object {
    class: ClassId,
    values: Vec<Value>,
    /// Who holds the lock, and how often.
    lock: Option<(u32, u32)>,
}

struct Frame {
    method: MethodId,
    place: u32,
    slots: Vec<Value>,
    operands: Vec<Value>,
    /// The objects whose locks this frame took, the first first.
    taken: Vec<Address>,
}

impl Frame {
    fn pop(&mut self) -> Value {
        self.operands.pop().unwrap_or(Value::Null)
    }

    fn push(&mut self, value: Value) {
        self.operands.push(value);
    }

    fn pop_truth(&mut self) -> bool {
        self.pop() == Value::Truth(true)
    }

    fn pop_int(&mut self) -> i32 {
        match self.pop() {
            Value::Int(value) => value,
            _ => 0,
        }
    }

    /// The operand so many places below the top, where it is an object.
    fn object(&self, below: usize) -> Result<Address, Fault> {
        match self.operands.iter().rev().nth(below) {
            Some(Value::Ref(address)) => Ok(*address),
            _ => Err(Fault::Null),
        }
    }
}

enum State {
    Ready(Address, MethodId),
    Running,
    Done,
    Faulted(Fault),
}

struct Thread {
    state: State,
    frames: Vec<Frame>,
    /// How many frames belong to annotated methods.
    inside: u32,
}

impl Thread {
    fn ready(on: Address, method: MethodId) -> Thread {
        Thread {
            state: State::Ready(on, method),
            frames: Vec::new(),
            inside: 0,
        }
    }

    fn top(&mut self) -> &mut Frame {
        self.frames
            .last_mut()
            .expect("a running thread has a frame")
    }
}

pub struct Machine<'p> {
    program: &'p Program,
    code: &'p CodeTable,
    /// The objects that each thread made.
    heap: Vec<Vec<Object>>,
    threads: Vec<Thread>,
    output: Vec<i32>,
}

impl<'p> Machine<'p> {
    pub fn start(program: &'p Program, code: &'p CodeTable) -> Machine<'p> {
        let (heap, threads) = (vec![Vec::new()], Vec::new());
        let mut machine = Machine {
            program,
            code,
            heap,
            threads,
            output: Vec::new(),
        };
        let main = machine.make(0, program.main_class, &[]);
        machine.threads.push(Thread::ready(main, program.main));
        machine
    }

    /// Whether the thread stands inside an atomic call.
    pub fn inside(&self, thread: u32) -> bool {
        self.threads
            .get(thread as usize)
            .is_some_and(|t| t.inside > 0)
    }

    /// The first thread that stands inside an atomic call.
    pub fn open_thread(&self) -> Option<u32> {
        self.threads
            .iter()
            .position(|t| t.inside > 0)
            .map(|t| t as u32)
    }

    fn object(&self, address: Address) -> &Object {
        &self.heap[address.thread as usize][address.count as usize]
    }

    fn object_mut(&mut self, address: Address) -> &mut Object {
        &mut self.heap[address.thread as usize][address.count as usize]
    }

    fn make(&mut self, thread: u32, class: ClassId, finals: &[Value]) -> Address {
        let first = |ty: Type| match ty {
            Type::Int => Value::Int(0),
            Type::Boolean => Value::Truth(false),
            _ => Value::Null,
        };
        let mut given = finals.iter();
        let fields = self.program.classes[class as usize].fields.iter();
        let values = fields
            .map(|&field| {
                let field = &self.program.fields[field as usize];
                let given = if field.is_final { given.next() } else { None };
                given.copied().unwrap_or(first(field.ty))
            })
            .collect();
        let objects = &mut self.heap[thread as usize];
        objects.push(Object {
            class,
            values,
            lock: None,
        });
        Address {
            thread,
            count: objects.len() as u32 - 1,
        }
    }

    fn enter(&mut self, thread: u32, method: MethodId, receiver: Value, args: &[Value]) {
        let found = &self.program.methods[method as usize];
        let mut slots = Vec::with_capacity(found.slots as usize);
        slots.push(receiver);
        slots.extend_from_slice(args);
        slots.resize(found.slots as usize, Value::Int(0));
        let place = self.code.entry[method as usize];
        let thread = &mut self.threads[thread as usize];
        thread.inside += u32::from(found.annotated);
        thread.state = State::Running;
        thread.frames.push(Frame {
            method,
            place,
            slots,
            operands: Vec::new(),
            taken: Vec::new(),
        });
    }

    /// The first entry that can't step, from 0, and why.
    pub fn run(&mut self, schedule: &[u32]) -> Result<(), (usize, Stop)> {
        for (k, &thread) in schedule.iter().enumerate() {
            self.step(thread).map_err(|stop| (k, stop))?;
        }
        Ok(())
    }

    /// One step of the thread, and its kind.
    pub fn step(&mut self, thread: u32) -> Result<Kind, Stop> {
        let Some(found) = self.threads.get(thread as usize) else {
            return Err(Stop::Absent);
        };
        match found.state {
            State::Ready(on, method) => {
                self.enter(thread, method, Value::Ref(on), &[]);
                Ok(Kind::Both)
            }
            State::Running => match self.act(thread) {
                Ok(kind) => Ok(kind),
                Err(Hurdle::Stop(stop)) => Err(stop),
                Err(Hurdle::Fault(fault)) => {
                    self.threads[thread as usize].state = State::Faulted(fault);
                    Ok(Kind::Both)
                }
            },
            State::Done => Err(Stop::Done),
            State::Faulted(fault) => Err(Stop::Faulted(fault)),
        }
    }

    /// The instruction at which the thread stands.
    fn act(&mut self, thread: u32) -> Result<Kind, Hurdle> {
        let frame = self.threads[thread as usize].top();
        let code = self.code.code[frame.place as usize];
        let mut next = code.next;
        let mut kind = Kind::Both;
        match code.instr {
            Instr::Push(value) => frame.push(value),
            Instr::Load(slot) => frame.push(frame.slots[slot as usize]),
            Instr::Store(slot) => frame.slots[slot as usize] = frame.pop(),
            Instr::Drop => {
                frame.pop();
            }
            Instr::Not => {
                let part = frame.pop_truth();
                frame.push(Value::Truth(!part));
            }
            Instr::Neg => {
                let part = frame.pop_int();
                frame.push(Value::Int(part.wrapping_neg()));
            }
            Instr::Binary(op) => binary(frame, op)?,
            Instr::AndThen(other) | Instr::OrElse(other) => {
                let decides = matches!(code.instr, Instr::OrElse(_));
                if frame.pop_truth() == decides {
                    frame.push(Value::Truth(decides));
                } else {
                    next = other;
                }
            }
            Instr::Branch(other) => {
                if !frame.pop_truth() {
                    next = other;
                }
            }
            Instr::Get(field) => {
                let address = frame.object(0)?;
                kind = self.access(thread, address, field, false);
                let value = self.object(address).values[self.index(field)];
                let frame = self.threads[thread as usize].top();
                frame.pop();
                frame.push(value);
            }
            Instr::Put(field) => {
                let address = frame.object(1)?;
                let value = frame.pop();
                frame.pop();
                kind = self.access(thread, address, field, true);
                let index = self.index(field);
                self.object_mut(address).values[index] = value;
            }
            Instr::New(class) => {
                let count = self.program.classes[class as usize].finals.len();
                let args = frame.operands.split_off(frame.operands.len() - count);
                let address = self.make(thread, class, &args);
                self.threads[thread as usize]
                    .top()
                    .push(Value::Ref(address));
            }
            Instr::Call(method) => {
                self.call(thread, method, next)?;
                return Ok(kind);
            }
            Instr::Acquire => {
                let address = frame.object(0)?;
                kind = self.acquire(thread, address)?;
            }
            Instr::Release => kind = self.release(thread),
            Instr::Ret(has_result) => {
                self.ret(thread, has_result);
                return Ok(kind);
            }
            Instr::Print => {
                let value = frame.pop_int();
                self.output.push(value);
                kind = Kind::Other;
            }
            Instr::Start => {
                let address = frame.object(0)?;
                frame.pop();
                let class = self.object(address).class;
                let run = self.program.classes[class as usize]
                    .run
                    .ok_or(Fault::Null)?;
                self.threads.push(Thread::ready(address, run));
                self.heap.push(Vec::new());
                kind = Kind::Other;
            }
        }
        self.threads[thread as usize].top().place = next;
        Ok(kind)
    }

    fn index(&self, field: FieldId) -> usize {
        self.program.fields[field as usize].index as usize
    }

    /// The kind of an access to a field of an object.
    fn access(&self, thread: u32, object: Address, field: FieldId, is_write: bool) -> Kind {
        let found = &self.program.fields[field as usize];
        if found.is_final {
            return Kind::Both;
        }
        let Some(guard) = found.guard else {
            return Kind::Other;
        };
        let mut at = Some(object);
        for field in guard.fields() {
            let index = self.index(field);
            at = at.and_then(|address| match self.object(address).values[index] {
                Value::Ref(address) => Some(address),
                _ => None,
            });
        }
        let lock = at.and_then(|address| self.object(address).lock);
        let is_held = lock.is_some_and(|(holder, _)| holder == thread);
        match (found.writes_only, is_write, is_held) {
            (false, _, true) | (true, false, true) => Kind::Both,
            (true, true, true) | (true, false, false) => Kind::Other,
            (false, _, false) | (true, true, false) => Kind::Bare,
        }
    }

    fn call(&mut self, thread: u32, method: MethodId, next: u32) -> Result<(), Fault> {
        let found = &mut self.threads[thread as usize];
        let (depth, frame) = (found.frames.len(), found.top());
        let params = self.program.methods[method as usize].params as usize;
        let receiver = frame.object(params)?;
        if depth >= MOST_FRAMES {
            return Err(Fault::Depth);
        }
        let args = frame.operands.split_off(frame.operands.len() - params);
        frame.pop();
        frame.place = next;
        let class = self.object(receiver).class;
        let runs = self.program.classes[class as usize].target(method);
        self.enter(thread, runs.ok_or(Fault::Null)?, Value::Ref(receiver), &args);
        Ok(())
    }

    fn acquire(&mut self, thread: u32, address: Address) -> Result<Kind, Hurdle> {
        let (holder, count) = self.object(address).lock.unwrap_or((thread, 0));
        if holder != thread {
            return Err(Hurdle::Stop(Stop::Waits { address, holder }));
        }
        self.object_mut(address).lock = Some((thread, count + 1));
        let frame = self.threads[thread as usize].top();
        frame.pop();
        frame.taken.push(address);
        Ok(if count == 0 { Kind::Right } else { Kind::Both })
    }

    fn release(&mut self, thread: u32) -> Kind {
        let Some(address) = self.threads[thread as usize].top().taken.pop() else {
            return Kind::Both;
        };
        let lock = &mut self.object_mut(address).lock;
        *lock = lock.and_then(|(holder, count)| (count > 1).then(|| (holder, count - 1)));
        if lock.is_none() {
            Kind::Left
        } else {
            Kind::Both
        }
    }

    fn ret(&mut self, thread: u32, has_result: bool) {
        let thread = &mut self.threads[thread as usize];
        let Some(mut frame) = thread.frames.pop() else {
            return;
        };
        let annotated = self.program.methods[frame.method as usize].annotated;
        thread.inside -= u32::from(annotated);
        match thread.frames.last_mut() {
            Some(below) if has_result => below.push(frame.pop()),
            Some(_) => {}
            None => thread.state = State::Done,
        }
    }

    /// The state as text.
    pub fn text(&self, names: &Table<'_, '_>) -> String {
        let mut out = String::new();
        self.write_text(&mut out, names)
            .expect("a string takes all text");
        out
    }

    fn objects(&self) -> impl Iterator<Item = (Address, &Object)> {
        self.heap.iter().zip(0..).flat_map(|(objects, thread)| {
            let counted = objects.iter().zip(0..);
            counted.map(move |(object, count)| (Address { thread, count }, object))
        })
    }

    fn write_text(&self, out: &mut String, names: &Table<'_, '_>) -> fmt::Result {
        for number in &self.output {
            writeln!(out, "print {number}")?;
        }
        for (address, object) in self.objects() {
            let class = &names.classes[object.class as usize];
            write!(out, "object {address} {}", class.name.text)?;
            for (&field, value) in class.fields.iter().zip(&object.values) {
                write!(
                    out,
                    " {}={value}",
                    names.fields[field as usize].tree.name.text
                )?;
            }
            out.push('\n');
        }
        for (address, object) in self.objects() {
            if let Some((holder, count)) = object.lock {
                writeln!(out, "lock {address} thread {holder} count {count}")?;
            }
        }
        for (k, thread) in self.threads.iter().enumerate() {
            write!(out, "thread {k} ")?;
            match (&thread.state, thread.frames.last()) {
                (State::Running, Some(top)) => {
                    let (class, method) = names.method_name(top.method);
                    writeln!(out, "running {class}.{method} {}", thread.frames.len())?;
                }
                (State::Faulted(fault), _) => writeln!(out, "faulted {fault}")?,
                (State::Ready(..), _) => writeln!(out, "ready")?,
                _ => writeln!(out, "done")?,
            }
        }
        Ok(())
    }
}

fn binary(frame: &mut Frame, op: Op) -> Result<(), Fault> {
    if let (Op::Div | Op::Rem, Some(Value::Int(0))) = (op, frame.operands.last()) {
        return Err(Fault::Zero);
    }
    if let Op::Eq | Op::Ne = op {
        let (right, left) = (frame.pop(), frame.pop());
        frame.push(Value::Truth((left == right) == (op == Op::Eq)));
        return Ok(());
    }
    let (right, left) = (frame.pop_int(), frame.pop_int());
    frame.push(match op {
        Op::Lt => Value::Truth(left < right),
        Op::Le => Value::Truth(left <= right),
        Op::Gt => Value::Truth(left > right),
        Op::Ge => Value::Truth(left >= right),
        Op::Add => Value::Int(left.wrapping_add(right)),
        Op::Sub => Value::Int(left.wrapping_sub(right)),
        Op::Mul => Value::Int(left.wrapping_mul(right)),
        Op::Div => Value::Int(left.wrapping_div(right)),
        Op::Rem => Value::Int(left.wrapping_rem(right)),
        Op::Or | Op::And | Op::Eq | Op::Ne => Value::Null,
    });
    Ok(())
}
