//! The class table of a tree, or its first fault.

use crate::core::{ClassId, FieldId, MethodId, Type};
use crate::fault::{Fault, Faults, Kind};
use crate::tree::{self, Ctor, Lock, Member, Name, Param, TypeName};
use std::collections::HashMap;
use std::collections::hash_map::Entry;
use std::iter;
use std::ops::Range;

const MOST_FIELDS: usize = 32;
const MOST_PARAMS: usize = 16;

pub struct ClassEntry<'a> {
    pub name: Name<'a>,
    /// The class that this one extends, where neither is on or below a circle.
    pub above: Option<ClassId>,
    /// Whether it or a class above it says `implements Runnable`.
    pub runnable: bool,
    pub fields: Vec<FieldId>,
    pub finals: Vec<FieldId>,
    pub run: Option<MethodId>,
    pub targets: Vec<(MethodId, MethodId)>,
    own_fields: Range<FieldId>,
    own_methods: Range<MethodId>,
    /// How many of the fields are final.
    final_count: usize,
    field_count: usize,
    circle: bool,
}

pub struct FieldEntry<'a, 't> {
    pub class: ClassId,
    pub tree: &'t tree::Field<'a>,
    pub ty: Type,
}

pub struct MethodEntry<'a, 't> {
    pub class: ClassId,
    pub tree: &'t tree::Method<'a>,
    pub params: Vec<Type>,
    pub result: Type,
}

pub struct Table<'a, 't> {
    pub classes: Vec<ClassEntry<'a>>,
    pub fields: Vec<FieldEntry<'a, 't>>,
    pub methods: Vec<MethodEntry<'a, 't>>,
    pub main_class: ClassId,
    pub main: MethodId,
    class_ids: HashMap<&'a str, ClassId>,
    method_ids: HashMap<(ClassId, &'a str), MethodId>,
}

impl<'a> Table<'a, '_> {
    pub fn class(&self, name: &str) -> Option<ClassId> {
        self.class_ids.get(name).copied()
    }

    /// The class and those above it, the nearest first.
    fn line(&self, class: ClassId) -> impl Iterator<Item = ClassId> {
        iter::successors(Some(class), |&c| self.classes[c as usize].above)
    }

    pub fn field(&self, class: ClassId, name: &str) -> Option<FieldId> {
        self.line(class).find_map(|c| {
            let mut own = self.classes[c as usize].own_fields.clone();
            own.find(|&id| self.fields[id as usize].tree.name.text == name)
        })
    }

    pub fn method(&self, class: ClassId, name: &'a str) -> Option<MethodId> {
        self.line(class)
            .find_map(|c| self.method_ids.get(&(c, name)).copied())
    }

    pub fn fits(&self, given: Type, wanted: Type) -> bool {
        match (given, wanted) {
            (Type::Void, _) => false,
            (Type::Null, Type::Class(_)) => true,
            (Type::Class(c), Type::Class(d)) => self.line(c).any(|c| c == d),
            _ => given == wanted,
        }
    }

    pub fn ty(&self, ty: TypeName<'_>) -> Option<Type> {
        match ty {
            TypeName::Int => Some(Type::Int),
            TypeName::Boolean => Some(Type::Boolean),
            TypeName::Class(name) => self.class(name.text).map(Type::Class),
        }
    }

    /// `Class.method`.
    pub fn method_name(&self, method: MethodId) -> (&'a str, &'a str) {
        let entry = &self.methods[method as usize];
        (
            self.classes[entry.class as usize].name.text,
            entry.tree.name.text,
        )
    }

    /// The type, or `Void` in its place with a fault.
    fn known(&self, ty: TypeName<'_>, faults: &mut Faults) -> Type {
        self.ty(ty).unwrap_or_else(|| {
            if let TypeName::Class(name) = ty {
                faults.note(Kind::UnknownClass, name.at);
            }
            Type::Void
        })
    }

    /// What a lock of a method's `requires` means, where it is a lock: the slot, and the fields behind it.
    fn meaning(&self, method: MethodId, lock: &Lock<'a>) -> Option<(usize, Vec<FieldId>)> {
        let entry = &self.methods[method as usize];
        let (mut slot, mut ty) = (0, Type::Class(entry.class));
        if let Some(root) = lock.root {
            let mut params = entry.tree.params.iter();
            let place = params.position(|p| p.name.text == root.text)?;
            if !entry.tree.params[place].is_final {
                return None;
            }
            (slot, ty) = (place + 1, entry.params[place]);
        }
        if lock.fields.len() > 2 {
            return None;
        }
        let mut fields = Vec::new();
        for name in &lock.fields {
            let Type::Class(class) = ty else { return None };
            let id = self.field(class, name.text)?;
            let field = &self.fields[id as usize];
            if !field.tree.is_final {
                return None;
            }
            fields.push(id);
            ty = field.ty;
        }
        matches!(ty, Type::Class(_)).then_some((slot, fields))
    }

    /// What a method requires, where each of that is a lock.
    fn required(&self, method: MethodId) -> Option<Vec<(usize, Vec<FieldId>)>> {
        let locks = self.methods[method as usize].tree.requires.iter();
        let mut all: Vec<_> = locks.map(|l| self.meaning(method, l)).collect::<Option<_>>()?;
        all.sort();
        all.dedup();
        Some(all)
    }

    fn may_override(&self, over: MethodId, other: MethodId) -> bool {
        let (a, b) = (&self.methods[over as usize], &self.methods[other as usize]);
        let same_result = match (a.tree.result, b.tree.result) {
            (Some(a), Some(b)) => same_type(a, b),
            (a, b) => a.is_none() && b.is_none(),
        };
        let same_param =
            |(p, q): (&Param<'_>, &Param<'_>)| p.is_final == q.is_final && same_type(p.ty, q.ty);
        same_result
            && a.tree.atomic == b.tree.atomic
            && a.tree.params.len() == b.tree.params.len()
            && a.tree.params.iter().zip(&b.tree.params).all(same_param)
            && match (self.required(over), self.required(other)) {
                (Some(a), Some(b)) => a == b,
                _ => true,
            }
    }
}

pub fn table<'a, 't>(program: &'t [tree::Class<'a>]) -> Result<Table<'a, 't>, Fault> {
    let mut faults = Faults::default();
    let mut table = Table {
        classes: Vec::with_capacity(program.len()),
        fields: Vec::new(),
        methods: Vec::new(),
        main_class: 0,
        main: 0,
        class_ids: HashMap::with_capacity(program.len()),
        method_ids: HashMap::new(),
    };
    for (id, class) in program.iter().enumerate() {
        match table.class_ids.entry(class.name.text) {
            Entry::Occupied(_) => faults.note(Kind::Twice, class.name.at),
            Entry::Vacant(free) => {
                free.insert(id as ClassId);
            }
        }
    }
    for (id, class) in program.iter().enumerate() {
        add_class(&mut table, &mut faults, id as ClassId, class);
    }
    let families = Families::new(&mut table, &mut faults, program);
    families.check(&mut table, &mut faults, program);
    faults.result()?;
    for &id in &families.order {
        inherit(&mut table, id);
    }
    let main = table
        .class("Main")
        .filter(|&c| table.classes[c as usize].finals.is_empty());
    let main = main.and_then(|c| Some((c, entry_method(&table, c, "main")?)));
    (table.main_class, table.main) = main.ok_or(Fault {
        at: 0,
        kind: Kind::NoMain,
    })?;
    Ok(table)
}

/// The method of the class with this name, where it is void, without parameters and without `requires`.
fn entry_method(table: &Table<'_, '_>, class: ClassId, name: &'static str) -> Option<MethodId> {
    let id = table.method(class, name)?;
    is_entry(table.methods[id as usize].tree).then_some(id)
}

fn is_entry(method: &tree::Method<'_>) -> bool {
    method.result.is_none() && method.params.is_empty() && method.requires.is_empty()
}

/// What a class has by itself.
fn add_class<'a, 't>(
    table: &mut Table<'a, 't>,
    faults: &mut Faults,
    id: ClassId,
    class: &'t tree::Class<'a>,
) {
    let above = class.above.and_then(|name| {
        let above = table.class(name.text);
        if above.is_none() {
            faults.note(Kind::UnknownClass, name.at);
        }
        above
    });
    let first_field = table.fields.len() as FieldId;
    let first_method = table.methods.len() as MethodId;
    let mut final_count = 0;
    for member in &class.members {
        match member {
            Member::Field(field) => {
                add_field(table, faults, id, field);
                final_count += usize::from(field.is_final);
            }
            Member::Method(method) => add_method(table, faults, id, method),
            Member::Ctor(ctor) => check_params(table, faults, &ctor.params),
        }
    }
    let own_fields = first_field..table.fields.len() as FieldId;
    table.classes.push(ClassEntry {
        name: class.name,
        above,
        runnable: class.runnable,
        fields: Vec::new(),
        finals: Vec::new(),
        run: None,
        targets: Vec::new(),
        final_count,
        field_count: own_fields.len(),
        own_fields,
        own_methods: first_method..table.methods.len() as MethodId,
        circle: false,
    });
}

fn add_field<'a, 't>(
    table: &mut Table<'a, 't>,
    faults: &mut Faults,
    class: ClassId,
    field: &'t tree::Field<'a>,
) {
    let ty = table.known(field.ty, faults);
    table.fields.push(FieldEntry {
        class,
        tree: field,
        ty,
    });
}

fn add_method<'a, 't>(
    table: &mut Table<'a, 't>,
    faults: &mut Faults,
    class: ClassId,
    method: &'t tree::Method<'a>,
) {
    let id = table.methods.len() as MethodId;
    match table.method_ids.entry((class, method.name.text)) {
        Entry::Occupied(_) => faults.note(Kind::Twice, method.name.at),
        Entry::Vacant(free) => {
            free.insert(id);
        }
    }
    check_params(table, faults, &method.params);
    let params = method
        .params
        .iter()
        .map(|p| table.ty(p.ty).unwrap_or(Type::Void))
        .collect();
    let result = method
        .result
        .map_or(Type::Void, |ty| table.known(ty, faults));
    table.methods.push(MethodEntry {
        class,
        tree: method,
        params,
        result,
    });
}

fn check_params(table: &Table<'_, '_>, faults: &mut Faults, params: &[Param<'_>]) {
    for (k, param) in params.iter().enumerate() {
        table.known(param.ty, faults);
        // Past the limit each one is a fault already, and the first of these comes first.
        if k >= MOST_PARAMS {
            faults.note(Kind::TooMany, param.name.at);
        }
        if params[..k.min(MOST_PARAMS)]
            .iter()
            .any(|p| p.name.text == param.name.text)
        {
            faults.note(Kind::Twice, param.name.at);
        }
    }
}

/// How the classes extend each other.
struct Families {
    /// Each class that is on or below no circle, behind the one that it extends.
    order: Vec<ClassId>,
    /// Those that extend each class.
    heirs: Vec<Vec<ClassId>>,
}

impl Families {
    /// Circles are told, and their classes inherit nothing.
    fn new(table: &mut Table<'_, '_>, faults: &mut Faults, program: &[tree::Class<'_>]) -> Families {
        let count = program.len();
        let mut families = Families {
            order: Vec::with_capacity(count),
            heirs: vec![Vec::new(); count],
        };
        for id in 0..count {
            match table.classes[id].above {
                Some(above) => families.heirs[above as usize].push(id as ClassId),
                None => families.order.push(id as ClassId),
            }
        }
        let mut next = 0;
        while let Some(&id) = families.order.get(next) {
            next += 1;
            families.order.extend(&families.heirs[id as usize]);
            if let Some(above) = table.classes[id as usize].above {
                let above = &table.classes[above as usize];
                let (runs, finals, fields) = (above.runnable, above.final_count, above.field_count);
                let entry = &mut table.classes[id as usize];
                entry.runnable |= runs;
                entry.final_count += finals;
                entry.field_count += fields;
            }
        }
        let mut reached = vec![false; count];
        for &id in &families.order {
            reached[id as usize] = true;
        }
        for id in (0..count).filter(|&id| !reached[id]) {
            faults.note(Kind::Circle, program[id].name.at);
            let mut seen = vec![false; count];
            let mut at = id;
            while !seen[at] && !program[at].runnable {
                seen[at] = true;
                at = match program[at].above.and_then(|name| table.class(name.text)) {
                    Some(above) => above as usize,
                    None => break,
                };
            }
            let entry = &mut table.classes[id];
            entry.runnable = program[at].runnable;
            (entry.above, entry.circle) = (None, true);
        }
        families
    }

    /// The faults that a class may have by what it inherits.
    fn check(&self, table: &mut Table<'_, '_>, faults: &mut Faults, program: &[tree::Class<'_>]) {
        let mut scope = Scope::default();
        let is_top = |c: &ClassEntry<'_>| c.above.is_none();
        for top in (0..program.len()).filter(|&id| is_top(&table.classes[id])) {
            // With false a class is left again.
            let mut open = vec![(top as ClassId, true)];
            while let Some((id, comes)) = open.pop() {
                if !comes {
                    scope.leave(table, id);
                    continue;
                }
                check_members(table, faults, &mut scope, id, &program[id as usize]);
                open.push((id, false));
                if !table.classes[id as usize].circle {
                    open.extend(self.heirs[id as usize].iter().map(|&heir| (heir, true)));
                }
            }
        }
    }
}

/// What the class at hand has, its own and from above.
#[derive(Default)]
struct Scope<'a> {
    fields: HashMap<&'a str, usize>,
    methods: HashMap<&'a str, Vec<MethodId>>,
    /// How many methods `run` a thread could begin with.
    runs: usize,
}

impl<'a> Scope<'a> {
    fn leave(&mut self, table: &Table<'a, '_>, id: ClassId) {
        let entry = &table.classes[id as usize];
        for field in entry.own_fields.clone() {
            let name = table.fields[field as usize].tree.name.text;
            *self.fields.entry(name).or_default() -= 1;
        }
        for method in entry.own_methods.clone() {
            let tree = table.methods[method as usize].tree;
            self.methods.entry(tree.name.text).or_default().pop();
            self.runs -= usize::from(tree.name.text == "run" && is_entry(tree));
        }
    }
}

fn check_members<'a>(
    table: &Table<'a, '_>,
    faults: &mut Faults,
    scope: &mut Scope<'a>,
    id: ClassId,
    class: &tree::Class<'a>,
) {
    let entry = &table.classes[id as usize];
    let inherited = entry.field_count - entry.own_fields.len();
    for (k, field) in (inherited..).zip(entry.own_fields.clone()) {
        let name = table.fields[field as usize].tree.name;
        let count = scope.fields.entry(name.text).or_default();
        if *count > 0 {
            faults.note(Kind::Twice, name.at);
        }
        *count += 1;
        if k == MOST_FIELDS {
            faults.note(Kind::TooMany, name.at);
        }
    }
    for method in entry.own_methods.clone() {
        let name = table.methods[method as usize].tree.name;
        let mut others = scope.methods.get(name.text).into_iter().flatten();
        if others.any(|&other| !table.may_override(method, other)) {
            faults.note(Kind::BadOverride, name.at);
        }
    }
    for method in entry.own_methods.clone() {
        let tree = table.methods[method as usize].tree;
        scope.methods.entry(tree.name.text).or_default().push(method);
        scope.runs += usize::from(tree.name.text == "run" && is_entry(tree));
    }
    if entry.runnable && scope.runs == 0 {
        faults.note(Kind::NoRun, class.name.at);
    }
    check_constructors(table, faults, id, class);
}

fn check_constructors(
    table: &Table<'_, '_>,
    faults: &mut Faults,
    id: ClassId,
    class: &tree::Class<'_>,
) {
    let mut first = true;
    for member in &class.members {
        if let Member::Ctor(ctor) = member {
            if !first || !fits(table, id, class, ctor) {
                faults.note(Kind::BadConstructor, ctor.name.at);
            }
            first = false;
        }
    }
    if first && table.classes[id as usize].final_count > 0 {
        faults.note(Kind::BadConstructor, class.name.at);
    }
}

/// Whether a constructor takes the final fields in order, and sets each.
fn fits(table: &Table<'_, '_>, id: ClassId, class: &tree::Class<'_>, ctor: &Ctor<'_>) -> bool {
    let count = table.classes[id as usize].final_count;
    if count == 0
        || ctor.name.text != class.name.text
        || ctor.params.len() != count
        || ctor.sets.len() != count
    {
        return false;
    }
    let mut finals = Vec::with_capacity(count);
    for c in table.line(id) {
        let own = table.classes[c as usize].own_fields.clone().rev();
        finals.extend(own.map(|f| table.fields[f as usize].tree).filter(|f| f.is_final));
    }
    let fields = || finals.iter().rev();
    fields()
        .zip(&ctor.params)
        .all(|(f, p)| f.name.text == p.name.text && same_type(f.ty, p.ty))
        && fields()
            .zip(&ctor.sets)
            .all(|(f, s)| f.name.text == s.0.text && f.name.text == s.1.text)
}

/// Gives a class without faults what it has from above, where the class above has it already.
fn inherit(table: &mut Table<'_, '_>, id: ClassId) {
    let entry = &table.classes[id as usize];
    let above = entry.above.map(|above| &table.classes[above as usize]);
    let (mut fields, mut targets) =
        above.map_or_else(Default::default, |c| (c.fields.clone(), c.targets.clone()));
    fields.extend(entry.own_fields.clone());
    for pair in &mut targets {
        let name = table.methods[pair.0 as usize].tree.name.text;
        if let Some(&own) = table.method_ids.get(&(id, name)) {
            pair.1 = own;
        }
    }
    targets.extend(entry.own_methods.clone().map(|m| (m, m)));
    // A class may stand before the one that it extends.
    targets.sort_unstable();
    let finals = fields.iter().copied();
    let finals = finals.filter(|&f| table.fields[f as usize].tree.is_final);
    let finals = finals.collect();
    let run = entry.runnable.then(|| entry_method(table, id, "run")).flatten();
    let entry = &mut table.classes[id as usize];
    (entry.fields, entry.finals, entry.run, entry.targets) = (fields, finals, run, targets);
}

fn same_type(a: TypeName<'_>, b: TypeName<'_>) -> bool {
    match (a, b) {
        (TypeName::Int, TypeName::Int) | (TypeName::Boolean, TypeName::Boolean) => true,
        (TypeName::Class(a), TypeName::Class(b)) => a.text == b.text,
        _ => false,
    }
}
