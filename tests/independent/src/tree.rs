//! A module as a tree of boxed records, and the words of a tree. Nothing here judges or rewrites.

use crate::word;

pub struct Module {
    /// S: symbols are 0 to S-1.
    pub symbols: u32,
    pub statements: Vec<Statement>,
}

pub enum Statement {
    Expression(Expression),
    Block(Vec<Statement>),
    Class(Export, Box<Class>),
    Let(u32, Expression),
    ExportName(u32),
    ExportDefault(u32),
}

#[derive(Clone, Copy, PartialEq, Eq, Debug)]
pub enum Export {
    Plain,
    Named,
    Default,
}

pub struct Class {
    pub declare: bool,
    pub decorators: Vec<Expression>,
    pub id: Option<u32>,
    pub heritage: Option<Expression>,
    pub body: Vec<Element>,
}

pub enum Element {
    Method(Method),
    Property(Property),
    Accessor(Accessor),
    StaticBlock(Vec<Statement>),
}

pub struct Method {
    pub is_static: bool,
    pub constructor: bool,
    pub decorators: Vec<Expression>,
    pub key: Key,
    pub parameters: Vec<Parameter>,
    pub code: Option<Vec<Statement>>,
}

pub struct Property {
    pub is_static: bool,
    pub decorators: Vec<Expression>,
    pub key: Key,
    pub value: Option<Expression>,
}

pub struct Accessor {
    pub is_static: bool,
    pub decorators: Vec<Expression>,
    pub key: Key,
}

pub enum Key {
    Name(u32),
    Private(u32),
    Expression(Expression),
}

pub struct Parameter {
    pub decorators: Vec<Expression>,
    pub default: Option<Expression>,
}

pub enum Expression {
    Atom(u32),
    Identifier(u32),
    Text(u32),
    Number(u32),
    Template(u32),
    Null,
    Void,
    This,
    Array(Vec<Expression>),
    Call(Box<Expression>, Vec<Expression>),
    Assignment(u32, Box<Expression>),
    PrivateIn(u32, Box<Expression>),
    Class(Box<Class>),
    Function(Vec<Parameter>, Vec<Statement>),
    DecorateCall(Vec<Expression>),
    ParameterCall(u32, Box<Expression>),
    PrototypeOf(Box<Expression>),
    /// The form, then the children.
    Other(u32, Vec<Expression>),
}

/// The words of a module.
pub fn words(module: &Module) -> Vec<u32> {
    let mut out = Vec::new();
    put(&mut out, 1, module.statements.len());
    out.push(word(40, module.symbols));
    for s in &module.statements {
        statement(&mut out, s);
    }
    out
}

fn put(out: &mut Vec<u32>, kind: u32, payload: usize) {
    out.push(word(kind, payload as u32));
}

fn statements(out: &mut Vec<u32>, kind: u32, list: &[Statement]) {
    put(out, kind, list.len());
    for s in list {
        statement(out, s);
    }
}

fn expressions(out: &mut Vec<u32>, kind: u32, list: &[Expression]) {
    put(out, kind, list.len());
    for e in list {
        expression(out, e);
    }
}

fn statement(out: &mut Vec<u32>, s: &Statement) {
    match s {
        Statement::Expression(e) => {
            out.push(word(2, 0));
            expression(out, e);
        }
        Statement::Block(list) => statements(out, 3, list),
        Statement::Class(export, c) => {
            out.push(word(
                4,
                match export {
                    Export::Plain => 0,
                    Export::Named => 1,
                    Export::Default => 2,
                },
            ));
            class(out, c);
        }
        Statement::Let(symbol, e) => {
            out.push(word(5, *symbol));
            expression(out, e);
        }
        Statement::ExportName(symbol) => out.push(word(6, *symbol)),
        Statement::ExportDefault(symbol) => out.push(word(7, *symbol)),
    }
}

fn class(out: &mut Vec<u32>, c: &Class) {
    let flags = u32::from(c.id.is_some()) + 2 * u32::from(c.declare) + 4 * u32::from(c.heritage.is_some());
    out.push(word(26, flags));
    expressions(out, 28, &c.decorators);
    if let Some(symbol) = c.id {
        out.push(word(27, symbol));
    }
    if let Some(e) = &c.heritage {
        expression(out, e);
    }
    put(out, 29, c.body.len());
    for e in &c.body {
        element(out, e);
    }
}

fn element(out: &mut Vec<u32>, e: &Element) {
    match e {
        Element::Method(m) => {
            let flags = u32::from(m.is_static) + 2 * u32::from(m.constructor) + 4 * u32::from(m.code.is_some());
            out.push(word(30, flags));
            expressions(out, 28, &m.decorators);
            key(out, &m.key);
            parameters(out, &m.parameters);
            if let Some(code) = &m.code {
                statements(out, 39, code);
            }
        }
        Element::Property(p) => {
            out.push(word(31, u32::from(p.is_static) + 2 * u32::from(p.value.is_some())));
            expressions(out, 28, &p.decorators);
            key(out, &p.key);
            if let Some(value) = &p.value {
                expression(out, value);
            }
        }
        Element::Accessor(a) => {
            out.push(word(32, u32::from(a.is_static)));
            expressions(out, 28, &a.decorators);
            key(out, &a.key);
        }
        Element::StaticBlock(list) => statements(out, 33, list),
    }
}

fn key(out: &mut Vec<u32>, k: &Key) {
    match k {
        Key::Name(n) => out.push(word(34, *n)),
        Key::Private(n) => out.push(word(35, *n)),
        Key::Expression(e) => expression(out, e),
    }
}

fn parameters(out: &mut Vec<u32>, list: &[Parameter]) {
    put(out, 36, list.len());
    for p in list {
        out.push(word(37, u32::from(p.default.is_some())));
        expressions(out, 28, &p.decorators);
        if let Some(e) = &p.default {
            expression(out, e);
        }
    }
}

fn expression(out: &mut Vec<u32>, e: &Expression) {
    match e {
        Expression::Atom(p) => out.push(word(8, *p)),
        Expression::Identifier(symbol) => out.push(word(9, *symbol)),
        Expression::Text(n) => out.push(word(10, *n)),
        Expression::Number(n) => out.push(word(11, *n)),
        Expression::Template(n) => out.push(word(12, *n)),
        Expression::Null => out.push(word(13, 0)),
        Expression::Void => out.push(word(14, 0)),
        Expression::This => out.push(word(15, 0)),
        Expression::Array(list) => expressions(out, 16, list),
        Expression::Call(callee, arguments) => {
            put(out, 17, arguments.len());
            expression(out, callee);
            for a in arguments {
                expression(out, a);
            }
        }
        Expression::Assignment(symbol, value) => {
            out.push(word(18, *symbol));
            expression(out, value);
        }
        Expression::PrivateIn(n, right) => {
            out.push(word(19, *n));
            expression(out, right);
        }
        Expression::Class(c) => {
            out.push(word(20, 0));
            class(out, c);
        }
        Expression::Function(list, code) => {
            out.push(word(21, 0));
            parameters(out, list);
            statements(out, 39, code);
        }
        Expression::DecorateCall(list) => expressions(out, 22, list),
        Expression::ParameterCall(index, e) => {
            out.push(word(23, *index));
            expression(out, e);
        }
        Expression::PrototypeOf(e) => {
            out.push(word(24, 0));
            expression(out, e);
        }
        Expression::Other(form, list) => {
            put(out, 25, 256 * *form as usize + list.len());
            for e in list {
                expression(out, e);
            }
        }
    }
}
