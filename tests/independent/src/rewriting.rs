//! Rules 1 to 10 on a tree that was read, refusal 7, and the fresh symbols for the report. The tree is changed where it stands, children before
//! their parents; what a class queues is put in behind its statement as soon as the statement is done.

use crate::tree::*;
use crate::word;
use std::mem::take;

/// What a fresh symbol is for, numbered as in the symbol report.
#[derive(Clone, Copy, PartialEq, Eq, Debug)]
pub enum Need {
    Default = 1,
    Key = 2,
    Inner = 3,
    Alias = 4,
}

/// An accepted module's answer.
pub struct Rewritten {
    pub words: Vec<u32>,
    /// The fresh symbols in order of need.
    pub fresh: Vec<(Need, u32)>,
    pub seen: Seen,
}

impl Rewritten {
    /// The words of the symbol report, smallest symbol first.
    pub fn report(&self) -> Vec<u32> {
        self.fresh.iter().map(|(need, symbol)| word(*need as u32, *symbol)).collect()
    }
}

/// What was met in a module, so that a run can say what it tried.
#[derive(Clone, Copy, Default, Debug)]
pub struct Seen {
    pub classes: u32,
    pub live: u32,
    pub decorated: u32,
    pub nameless_live: u32,
    pub declare: u32,
    pub expressions: u32,
    pub member_calls: u32,
    pub dropped: u32,
    pub private_in: u32,
    pub private_in_decorated: u32,
    pub alias_blocks: u32,
    pub codeless_first_constructors: u32,
    pub exports: u32,
    pub nested: u32,
    pub nested_same_symbol: u32,
    pub deepest_class: u32,
}

/// Refusal 7: a decorated class whose first constructor, and the class itself, have no decorator.
pub struct NoDecorator;

pub fn rewrite(mut module: Module) -> Result<Rewritten, NoDecorator> {
    let mut pass = Pass { first: module.symbols, fresh: Vec::new(), seen: Seen::default(), ids: Vec::new() };
    pass.statements(&mut module.statements)?;
    module.symbols += pass.fresh.len() as u32;
    Ok(Rewritten { words: words(&module), fresh: pass.fresh, seen: pass.seen })
}

struct Pass {
    first: u32,
    fresh: Vec<(Need, u32)>,
    seen: Seen,
    /// The ids of the classes around, for `Seen` only.
    ids: Vec<Option<u32>>,
}

/// What the members of a live class have left for it.
struct Members {
    calls: Vec<Statement>,
    /// The class symbol, taken at the first decorated member or later.
    symbol: Option<u32>,
}

impl Pass {
    fn fresh(&mut self, need: Need) -> u32 {
        let symbol = self.first + self.fresh.len() as u32;
        self.fresh.push((need, symbol));
        symbol
    }

    fn statements(&mut self, list: &mut Vec<Statement>) -> Result<(), NoDecorator> {
        for s in take(list) {
            self.statement(s, list)?;
        }
        Ok(())
    }

    /// Puts what becomes of a statement behind what is there already.
    fn statement(&mut self, s: Statement, out: &mut Vec<Statement>) -> Result<(), NoDecorator> {
        match s {
            Statement::Class(export, class) if !class.declare => self.live_class(export, class, out)?,
            Statement::Class(export, mut class) => {
                self.seen.declare += 1;
                self.other_class(&mut class)?;
                out.push(Statement::Class(export, class));
            }
            Statement::Expression(mut e) => {
                self.expression(&mut e)?;
                out.push(Statement::Expression(e));
            }
            Statement::Block(mut list) => {
                self.statements(&mut list)?;
                out.push(Statement::Block(list));
            }
            Statement::Let(symbol, mut e) => {
                self.expression(&mut e)?;
                out.push(Statement::Let(symbol, e));
            }
            Statement::ExportName(_) | Statement::ExportDefault(_) => out.push(s),
        }
        Ok(())
    }

    /// Rules 4 and 6 to 10.
    fn live_class(&mut self, export: Export, mut class: Box<Class>, out: &mut Vec<Statement>) -> Result<(), NoDecorator> {
        self.seen.live += 1;
        self.seen.nameless_live += u32::from(class.id.is_none());
        // Rule 9 looks at the decorators as read, so before anything is visited.
        let private_in = decorators_of(&class).any(has_private_in);
        self.seen.private_in += u32::from(private_in);
        let mut members = Members { calls: Vec::new(), symbol: class.id };
        self.class_children(&mut class, Some(&mut members))?;
        let Members { calls, symbol } = members;
        self.seen.member_calls += calls.len() as u32;

        let decorated = !class.decorators.is_empty() || constructors(&class).any(|m| parameters_decorated(&m.parameters));
        if !decorated {
            if !calls.is_empty() {
                // The default symbol of a nameless class, and otherwise the id that it has.
                class.id = symbol;
            }
            if private_in {
                class.body.push(Element::StaticBlock(calls));
                out.push(Statement::Class(export, class));
            } else {
                out.push(Statement::Class(export, class));
                out.extend(calls);
            }
            return Ok(());
        }

        self.seen.decorated += 1;
        self.seen.private_in_decorated += u32::from(private_in);
        let alias;
        let c;
        if let Some(old) = class.id {
            class.id = Some(self.fresh(Need::Inner));
            alias = self.alias(old, &mut class.body);
            c = old;
        } else {
            alias = None;
            c = symbol.unwrap_or_else(|| self.fresh(Need::Default));
        }
        let array = self.class_array(&mut class)?;
        let static_part = class.body.iter().any(|e| match e {
            Element::StaticBlock(_) => true,
            Element::Property(p) => p.is_static,
            Element::Method(_) | Element::Accessor(_) => false,
        });
        let mut front = None;
        let mut let_alias = alias;
        if let (Some(a), true) = (alias, static_part) {
            self.seen.alias_blocks += 1;
            let assigned = Statement::Expression(assignment(a, Expression::This));
            front = Some(Element::StaticBlock(vec![assigned]));
            let_alias = None;
        }
        if private_in {
            class.body.push(Element::StaticBlock(calls));
            class.body.splice(0..0, front);
            out.push(Statement::Class(export, class));
            return Ok(());
        }
        class.body.splice(0..0, front);
        out.push(Statement::Let(c, through(let_alias, Expression::Class(class))));
        out.extend(calls);
        let call = Expression::DecorateCall(vec![array, Expression::Identifier(c)]);
        out.push(Statement::Expression(assignment(c, through(alias, call))));
        match export {
            Export::Plain => {}
            Export::Named => out.push(Statement::ExportName(c)),
            Export::Default => out.push(Statement::ExportDefault(c)),
        }
        self.seen.exports += u32::from(export != Export::Plain);
        Ok(())
    }

    /// Rule 6's search for C, and the alias in its place if it is found.
    fn alias(&mut self, c: u32, body: &mut [Element]) -> Option<u32> {
        let mut found = false;
        each_reference(body, &mut |symbol| found |= *symbol == c);
        if !found {
            return None;
        }
        let alias = self.fresh(Need::Alias);
        each_reference(body, &mut |symbol| {
            if *symbol == c {
                *symbol = alias;
            }
        });
        Some(alias)
    }

    /// Rule 7's array, from the class's decorators and its first constructor's parameters'.
    fn class_array(&mut self, class: &mut Class) -> Result<Expression, NoDecorator> {
        let mut entries = take(&mut class.decorators);
        let first = class.body.iter_mut().find_map(|e| match e {
            Element::Method(m) if m.constructor => Some(m),
            _ => None,
        });
        if let Some(m) = first {
            self.seen.codeless_first_constructors += u32::from(m.code.is_none());
            take_parameter_decorators(&mut m.parameters, &mut entries);
            if entries.is_empty() {
                return Err(NoDecorator);
            }
        }
        Ok(Expression::Array(entries))
    }

    /// A class that isn't live: a class expression, or a statement with declare.
    fn other_class(&mut self, class: &mut Class) -> Result<(), NoDecorator> {
        self.class_children(class, None)
    }

    fn class_children(&mut self, class: &mut Class, mut members: Option<&mut Members>) -> Result<(), NoDecorator> {
        self.seen.classes += 1;
        self.seen.nested += u32::from(!self.ids.is_empty());
        self.seen.nested_same_symbol += u32::from(class.id.is_some() && self.ids.contains(&class.id));
        self.ids.push(class.id);
        self.seen.deepest_class = self.seen.deepest_class.max(self.ids.len() as u32);
        self.expressions(&mut class.decorators)?;
        if let Some(e) = &mut class.heritage {
            self.expression(e)?;
        }
        for e in &mut class.body {
            self.element(e, members.as_deref_mut())?;
        }
        self.ids.pop();
        Ok(())
    }

    fn element(&mut self, e: &mut Element, members: Option<&mut Members>) -> Result<(), NoDecorator> {
        match e {
            Element::StaticBlock(list) => self.statements(list)?,
            Element::Method(m) => {
                self.expressions(&mut m.decorators)?;
                self.key(&mut m.key)?;
                self.parameters(&mut m.parameters)?;
                if let Some(code) = &mut m.code {
                    self.statements(code)?;
                }
                if !m.constructor {
                    let mut entries = take(&mut m.decorators);
                    take_parameter_decorators(&mut m.parameters, &mut entries);
                    self.member(members, entries, m.is_static, &mut m.key, Expression::Null);
                }
            }
            Element::Property(p) => {
                self.expressions(&mut p.decorators)?;
                self.key(&mut p.key)?;
                if let Some(value) = &mut p.value {
                    self.expression(value)?;
                }
                self.member(members, take(&mut p.decorators), p.is_static, &mut p.key, Expression::Void);
            }
            Element::Accessor(a) => {
                self.expressions(&mut a.decorators)?;
                self.key(&mut a.key)?;
                self.member(members, take(&mut a.decorators), a.is_static, &mut a.key, Expression::Null);
            }
        }
        Ok(())
    }

    /// Rules 2 to 5: the call of a member that had these decorators.
    fn member(&mut self, members: Option<&mut Members>, entries: Vec<Expression>, is_static: bool, key: &mut Key, descriptor: Expression) {
        if entries.is_empty() {
            return;
        }
        let Some(members) = members else {
            self.seen.dropped += 1;
            return;
        };
        let symbol = match members.symbol {
            Some(symbol) => symbol,
            None => self.fresh(Need::Default),
        };
        members.symbol = Some(symbol);
        let class = Expression::Identifier(symbol);
        let prefix = if is_static { class } else { Expression::PrototypeOf(Box::new(class)) };
        let name = self.name(key);
        let call = Expression::DecorateCall(vec![Expression::Array(entries), prefix, name, descriptor]);
        members.calls.push(Statement::Expression(call));
    }

    /// Rule 5.
    fn name(&mut self, key: &mut Key) -> Expression {
        match key {
            Key::Name(n) => Expression::Text(*n),
            Key::Private(_) => Expression::Text(0),
            Key::Expression(Expression::Text(n)) => Expression::Text(*n),
            Key::Expression(Expression::Number(n)) => Expression::Number(*n),
            Key::Expression(Expression::Template(n)) => Expression::Template(*n),
            Key::Expression(Expression::Null) => Expression::Null,
            Key::Expression(e) => {
                let k = self.fresh(Need::Key);
                *e = assignment(k, std::mem::replace(e, Expression::Null));
                Expression::Identifier(k)
            }
        }
    }

    fn key(&mut self, key: &mut Key) -> Result<(), NoDecorator> {
        match key {
            Key::Name(_) | Key::Private(_) => Ok(()),
            Key::Expression(e) => self.expression(e),
        }
    }

    fn parameters(&mut self, list: &mut [Parameter]) -> Result<(), NoDecorator> {
        for p in list {
            self.expressions(&mut p.decorators)?;
            if let Some(e) = &mut p.default {
                self.expression(e)?;
            }
        }
        Ok(())
    }

    fn expressions(&mut self, list: &mut [Expression]) -> Result<(), NoDecorator> {
        for e in list {
            self.expression(e)?;
        }
        Ok(())
    }

    fn expression(&mut self, e: &mut Expression) -> Result<(), NoDecorator> {
        match e {
            Expression::Atom(_)
            | Expression::Identifier(_)
            | Expression::Text(_)
            | Expression::Number(_)
            | Expression::Template(_)
            | Expression::Null
            | Expression::Void
            | Expression::This => Ok(()),
            Expression::Array(list) | Expression::DecorateCall(list) | Expression::Other(_, list) => self.expressions(list),
            Expression::Call(callee, arguments) => {
                self.expression(callee)?;
                self.expressions(arguments)
            }
            Expression::Assignment(_, e) | Expression::PrivateIn(_, e) | Expression::ParameterCall(_, e) | Expression::PrototypeOf(e) => {
                self.expression(e)
            }
            Expression::Class(class) => {
                self.seen.expressions += 1;
                self.other_class(class)
            }
            Expression::Function(list, code) => {
                self.parameters(list)?;
                self.statements(code)
            }
        }
    }
}

fn assignment(symbol: u32, value: Expression) -> Expression {
    Expression::Assignment(symbol, Box::new(value))
}

/// The expression, assigned to the alias if there is one.
fn through(alias: Option<u32>, e: Expression) -> Expression {
    match alias {
        Some(a) => assignment(a, e),
        None => e,
    }
}

fn constructors(class: &Class) -> impl Iterator<Item = &Method> {
    class.body.iter().filter_map(|e| match e {
        Element::Method(m) if m.constructor => Some(m),
        _ => None,
    })
}

fn parameters_decorated(list: &[Parameter]) -> bool {
    list.iter().any(|p| !p.decorators.is_empty())
}

/// Moves the decorators of parameters behind the entries, each with its parameter's index.
fn take_parameter_decorators(list: &mut [Parameter], entries: &mut Vec<Expression>) {
    for (index, p) in list.iter_mut().enumerate() {
        for e in take(&mut p.decorators) {
            entries.push(Expression::ParameterCall(index as u32, Box::new(e)));
        }
    }
}

/// The decorators of a class, its elements and their parameters.
fn decorators_of(class: &Class) -> impl Iterator<Item = &Expression> {
    let none: &[Expression] = &[];
    let elements = class.body.iter().flat_map(move |e| {
        let (own, parameters): (&[Expression], &[Parameter]) = match e {
            Element::Method(m) => (&m.decorators, &m.parameters),
            Element::Property(p) => (&p.decorators, &[]),
            Element::Accessor(a) => (&a.decorators, &[]),
            Element::StaticBlock(_) => (none, &[]),
        };
        own.iter().chain(parameters.iter().flat_map(|p| &p.decorators))
    });
    class.decorators.iter().chain(elements)
}

/// Whether a 19 is anywhere inside.
fn has_private_in(e: &Expression) -> bool {
    match e {
        Expression::PrivateIn(..) => true,
        Expression::Atom(_)
        | Expression::Identifier(_)
        | Expression::Text(_)
        | Expression::Number(_)
        | Expression::Template(_)
        | Expression::Null
        | Expression::Void
        | Expression::This => false,
        Expression::Array(list) | Expression::DecorateCall(list) | Expression::Other(_, list) => list.iter().any(has_private_in),
        Expression::Call(callee, arguments) => has_private_in(callee) || arguments.iter().any(has_private_in),
        Expression::Assignment(_, e) | Expression::ParameterCall(_, e) | Expression::PrototypeOf(e) => has_private_in(e),
        Expression::Class(class) => class_has_private_in(class),
        Expression::Function(list, code) => parameters_have_private_in(list) || code.iter().any(statement_has_private_in),
    }
}

fn statement_has_private_in(s: &Statement) -> bool {
    match s {
        Statement::Expression(e) | Statement::Let(_, e) => has_private_in(e),
        Statement::Block(list) => list.iter().any(statement_has_private_in),
        Statement::Class(_, class) => class_has_private_in(class),
        Statement::ExportName(_) | Statement::ExportDefault(_) => false,
    }
}

fn class_has_private_in(class: &Class) -> bool {
    class.decorators.iter().any(has_private_in)
        || class.heritage.iter().any(has_private_in)
        || class.body.iter().any(|e| match e {
            Element::Method(m) => {
                m.decorators.iter().any(has_private_in)
                    || key_has_private_in(&m.key)
                    || parameters_have_private_in(&m.parameters)
                    || m.code.iter().flatten().any(statement_has_private_in)
            }
            Element::Property(p) => p.decorators.iter().any(has_private_in) || key_has_private_in(&p.key) || p.value.iter().any(has_private_in),
            Element::Accessor(a) => a.decorators.iter().any(has_private_in) || key_has_private_in(&a.key),
            Element::StaticBlock(list) => list.iter().any(statement_has_private_in),
        })
}

fn key_has_private_in(key: &Key) -> bool {
    matches!(key, Key::Expression(e) if has_private_in(e))
}

fn parameters_have_private_in(list: &[Parameter]) -> bool {
    list.iter().any(|p| p.decorators.iter().chain(&p.default).any(has_private_in))
}

/// Hands out the symbol of each 9 and 18 in a body.
fn each_reference(body: &mut [Element], f: &mut dyn FnMut(&mut u32)) {
    for e in body {
        match e {
            Element::Method(m) => {
                in_expressions(&mut m.decorators, f);
                in_key(&mut m.key, f);
                in_parameters(&mut m.parameters, f);
                if let Some(code) = &mut m.code {
                    in_statements(code, f);
                }
            }
            Element::Property(p) => {
                in_expressions(&mut p.decorators, f);
                in_key(&mut p.key, f);
                if let Some(value) = &mut p.value {
                    in_expression(value, f);
                }
            }
            Element::Accessor(a) => {
                in_expressions(&mut a.decorators, f);
                in_key(&mut a.key, f);
            }
            Element::StaticBlock(list) => in_statements(list, f),
        }
    }
}

fn in_statements(list: &mut [Statement], f: &mut dyn FnMut(&mut u32)) {
    for s in list {
        match s {
            Statement::Expression(e) | Statement::Let(_, e) => in_expression(e, f),
            Statement::Block(list) => in_statements(list, f),
            Statement::Class(_, class) => in_class(class, f),
            Statement::ExportName(_) | Statement::ExportDefault(_) => {}
        }
    }
}

fn in_class(class: &mut Class, f: &mut dyn FnMut(&mut u32)) {
    in_expressions(&mut class.decorators, f);
    if let Some(e) = &mut class.heritage {
        in_expression(e, f);
    }
    each_reference(&mut class.body, f);
}

fn in_key(key: &mut Key, f: &mut dyn FnMut(&mut u32)) {
    if let Key::Expression(e) = key {
        in_expression(e, f);
    }
}

fn in_parameters(list: &mut [Parameter], f: &mut dyn FnMut(&mut u32)) {
    for p in list {
        in_expressions(&mut p.decorators, f);
        if let Some(e) = &mut p.default {
            in_expression(e, f);
        }
    }
}

fn in_expressions(list: &mut [Expression], f: &mut dyn FnMut(&mut u32)) {
    for e in list {
        in_expression(e, f);
    }
}

fn in_expression(e: &mut Expression, f: &mut dyn FnMut(&mut u32)) {
    match e {
        Expression::Atom(_)
        | Expression::Text(_)
        | Expression::Number(_)
        | Expression::Template(_)
        | Expression::Null
        | Expression::Void
        | Expression::This => {}
        Expression::Identifier(symbol) => f(symbol),
        Expression::Assignment(symbol, e) => {
            f(symbol);
            in_expression(e, f);
        }
        Expression::Array(list) | Expression::DecorateCall(list) | Expression::Other(_, list) => in_expressions(list, f),
        Expression::Call(callee, arguments) => {
            in_expression(callee, f);
            in_expressions(arguments, f);
        }
        Expression::PrivateIn(_, e) | Expression::ParameterCall(_, e) | Expression::PrototypeOf(e) => in_expression(e, f),
        Expression::Class(class) => in_class(class, f),
        Expression::Function(list, code) => {
            in_parameters(list, f);
            in_statements(code, f);
        }
    }
}
