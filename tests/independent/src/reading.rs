//! Reads a module's words into a tree, or says which of refusals 1 to 6 applies. Every word is judged as it is read, so the first word at
//! fault decides, and the conditions are asked in the order of their numbers, so the lower one wins there.

use crate::tree::*;
use crate::{MOST_DEPTH, MOST_SYMBOLS, MOST_WORDS, kind, payload};

/// A refusal, and the word at fault: the number of words read if the input ended too early.
#[derive(Debug, PartialEq, Eq)]
pub struct Fault {
    pub code: u8,
    pub at: usize,
}

pub fn read(words: &[u32]) -> Result<Module, Fault> {
    if words.is_empty() || words.len() > MOST_WORDS {
        return Err(Fault { code: 1, at: 0 });
    }
    let mut reader = Reader { words, at: 0, symbols: 0 };
    let module = reader.module()?;
    if reader.at < words.len() {
        return Err(Fault { code: 2, at: reader.at });
    }
    Ok(module)
}

struct Reader<'a> {
    words: &'a [u32],
    at: usize,
    symbols: u32,
}

/// What a payload says, for the conditions on it that don't depend on the kind alone.
#[derive(Clone, Copy, PartialEq)]
enum Says {
    Number,
    Symbol,
    SymbolCount,
    /// The number of a constructor's own decorators.
    ConstructorDecorators,
}

/// Where a class stands, for the flags that it may have.
#[derive(Clone, Copy, PartialEq)]
enum Place {
    Statement(Export),
    Expression,
}

/// Whose decorators a 28 has.
#[derive(Clone, Copy, PartialEq)]
enum Owner {
    ClassOrMember,
    Constructor,
    FunctionParameter,
}

impl Reader<'_> {
    /// The next word's kind and payload, not yet judged.
    fn peek(&self) -> Result<(u32, u32), Fault> {
        match self.words.get(self.at) {
            Some(w) => Ok((kind(*w), payload(*w))),
            None => Err(self.fault(2)),
        }
    }

    fn fault(&self, code: u8) -> Fault {
        Fault { code, at: self.at }
    }

    /// Steps over the word just peeked at, or finds it at fault.
    fn take(&mut self, allowed: bool, depth: u32, says: Says) -> Result<u32, Fault> {
        let (_, p) = self.peek()?;
        if !allowed {
            return Err(self.fault(2));
        }
        if depth > MOST_DEPTH {
            return Err(self.fault(3));
        }
        if says == Says::Symbol && p >= self.symbols {
            return Err(self.fault(4));
        }
        if says == Says::SymbolCount && p > MOST_SYMBOLS {
            return Err(self.fault(5));
        }
        if says == Says::ConstructorDecorators && p != 0 {
            return Err(self.fault(6));
        }
        self.at += 1;
        Ok(p)
    }

    /// A word that must have this kind and whose payload is a count.
    fn count(&mut self, must: u32, depth: u32) -> Result<u32, Fault> {
        let (k, _) = self.peek()?;
        self.take(k == must, depth, Says::Number)
    }

    fn module(&mut self) -> Result<Module, Fault> {
        let n = self.count(1, 1)?;
        let (k, _) = self.peek()?;
        self.symbols = self.take(k == 40, 2, Says::SymbolCount)?;
        let statements = self.statements(n, 2, true)?;
        Ok(Module { symbols: self.symbols, statements })
    }

    fn statements(&mut self, n: u32, depth: u32, top: bool) -> Result<Vec<Statement>, Fault> {
        let mut list = Vec::new();
        for _ in 0..n {
            list.push(self.statement(depth, top)?);
        }
        Ok(list)
    }

    fn statement(&mut self, depth: u32, top: bool) -> Result<Statement, Fault> {
        let (k, p) = self.peek()?;
        match k {
            2 => {
                self.take(p == 0, depth, Says::Number)?;
                Ok(Statement::Expression(self.expression(depth + 1)?))
            }
            3 => {
                self.take(true, depth, Says::Number)?;
                Ok(Statement::Block(self.statements(p, depth + 1, false)?))
            }
            4 => {
                self.take(p == 0 || p <= 2 && top, depth, Says::Number)?;
                let export = match p {
                    0 => Export::Plain,
                    1 => Export::Named,
                    _ => Export::Default,
                };
                Ok(Statement::Class(export, Box::new(self.class(depth + 1, Place::Statement(export))?)))
            }
            5 => {
                self.take(true, depth, Says::Symbol)?;
                Ok(Statement::Let(p, self.expression(depth + 1)?))
            }
            6 => {
                self.take(top, depth, Says::Symbol)?;
                Ok(Statement::ExportName(p))
            }
            7 => {
                self.take(top, depth, Says::Symbol)?;
                Ok(Statement::ExportDefault(p))
            }
            _ => Err(self.fault(2)),
        }
    }

    fn class(&mut self, depth: u32, place: Place) -> Result<Class, Fault> {
        let (k, flags) = self.peek()?;
        let (has_id, declare, has_heritage) = (flags & 1 != 0, flags & 2 != 0, flags & 4 != 0);
        let id_allowed = has_id || matches!(place, Place::Expression | Place::Statement(Export::Default));
        let declare_allowed = !declare || matches!(place, Place::Statement(Export::Plain | Export::Named));
        self.take(k == 26 && flags <= 7 && id_allowed && declare_allowed, depth, Says::Number)?;
        let decorators = self.decorators(depth + 1, Owner::ClassOrMember)?;
        let id = if has_id {
            let (k, _) = self.peek()?;
            Some(self.take(k == 27, depth + 1, Says::Symbol)?)
        } else {
            None
        };
        let heritage = if has_heritage { Some(self.expression(depth + 1)?) } else { None };
        let n = self.count(29, depth + 1)?;
        let mut body = Vec::new();
        for _ in 0..n {
            body.push(self.element(depth + 2)?);
        }
        Ok(Class { declare, decorators, id, heritage, body })
    }

    fn decorators(&mut self, depth: u32, owner: Owner) -> Result<Vec<Expression>, Fault> {
        let (k, p) = self.peek()?;
        let allowed = k == 28 && (owner != Owner::FunctionParameter || p == 0);
        let says = if owner == Owner::Constructor { Says::ConstructorDecorators } else { Says::Number };
        let n = self.take(allowed, depth, says)?;
        self.expressions(n, depth + 1)
    }

    fn element(&mut self, depth: u32) -> Result<Element, Fault> {
        let (k, p) = self.peek()?;
        match k {
            30 => {
                let (is_static, constructor, has_code) = (p & 1 != 0, p & 2 != 0, p & 4 != 0);
                self.take(p <= 7 && !(is_static && constructor), depth, Says::Number)?;
                let owner = if constructor { Owner::Constructor } else { Owner::ClassOrMember };
                Ok(Element::Method(Method {
                    is_static,
                    constructor,
                    decorators: self.decorators(depth + 1, owner)?,
                    key: self.key(depth + 1)?,
                    parameters: self.parameters(depth + 1, Owner::ClassOrMember)?,
                    code: if has_code { Some(self.code(depth + 1)?) } else { None },
                }))
            }
            31 => {
                self.take(p <= 3, depth, Says::Number)?;
                Ok(Element::Property(Property {
                    is_static: p & 1 != 0,
                    decorators: self.decorators(depth + 1, Owner::ClassOrMember)?,
                    key: self.key(depth + 1)?,
                    value: if p & 2 != 0 { Some(self.expression(depth + 1)?) } else { None },
                }))
            }
            32 => {
                self.take(p <= 1, depth, Says::Number)?;
                Ok(Element::Accessor(Accessor {
                    is_static: p == 1,
                    decorators: self.decorators(depth + 1, Owner::ClassOrMember)?,
                    key: self.key(depth + 1)?,
                }))
            }
            33 => {
                self.take(true, depth, Says::Number)?;
                Ok(Element::StaticBlock(self.statements(p, depth + 1, false)?))
            }
            _ => Err(self.fault(2)),
        }
    }

    fn key(&mut self, depth: u32) -> Result<Key, Fault> {
        let (k, _) = self.peek()?;
        match k {
            34 => Ok(Key::Name(self.take(true, depth, Says::Number)?)),
            35 => Ok(Key::Private(self.take(true, depth, Says::Number)?)),
            _ => Ok(Key::Expression(self.expression(depth)?)),
        }
    }

    fn parameters(&mut self, depth: u32, owner: Owner) -> Result<Vec<Parameter>, Fault> {
        let n = self.count(36, depth)?;
        let mut list = Vec::new();
        for _ in 0..n {
            let (k, p) = self.peek()?;
            self.take(k == 37 && p <= 1, depth + 1, Says::Number)?;
            list.push(Parameter {
                decorators: self.decorators(depth + 2, owner)?,
                default: if p == 1 { Some(self.expression(depth + 2)?) } else { None },
            });
        }
        Ok(list)
    }

    fn code(&mut self, depth: u32) -> Result<Vec<Statement>, Fault> {
        let n = self.count(39, depth)?;
        self.statements(n, depth + 1, false)
    }

    fn expressions(&mut self, n: u32, depth: u32) -> Result<Vec<Expression>, Fault> {
        let mut list = Vec::new();
        for _ in 0..n {
            list.push(self.expression(depth)?);
        }
        Ok(list)
    }

    fn boxed(&mut self, depth: u32) -> Result<Box<Expression>, Fault> {
        Ok(Box::new(self.expression(depth)?))
    }

    fn expression(&mut self, depth: u32) -> Result<Expression, Fault> {
        let (k, p) = self.peek()?;
        let allowed = match k {
            8..=12 | 16..=19 | 23 | 25 => true,
            13..=15 | 20 | 21 | 24 => p == 0,
            22 => p == 2 || p == 4,
            _ => false,
        };
        let says = if k == 9 || k == 18 { Says::Symbol } else { Says::Number };
        self.take(allowed, depth, says)?;
        let below = depth + 1;
        Ok(match k {
            8 => Expression::Atom(p),
            9 => Expression::Identifier(p),
            10 => Expression::Text(p),
            11 => Expression::Number(p),
            12 => Expression::Template(p),
            13 => Expression::Null,
            14 => Expression::Void,
            15 => Expression::This,
            16 => Expression::Array(self.expressions(p, below)?),
            17 => Expression::Call(self.boxed(below)?, self.expressions(p, below)?),
            18 => Expression::Assignment(p, self.boxed(below)?),
            19 => Expression::PrivateIn(p, self.boxed(below)?),
            20 => Expression::Class(Box::new(self.class(below, Place::Expression)?)),
            21 => Expression::Function(self.parameters(below, Owner::FunctionParameter)?, self.code(below)?),
            22 => Expression::DecorateCall(self.expressions(p, below)?),
            23 => Expression::ParameterCall(p, self.boxed(below)?),
            24 => Expression::PrototypeOf(self.boxed(below)?),
            _ => Expression::Other(p / 256, self.expressions(p % 256, below)?),
        })
    }
}
