//! Stands in for name lookup. There is no value of `Scopes`.

use crate::ast::{
    Ast, ConstDeclId, CtorDeclId, EnumDeclId, FuncDeclId, ModelDeclId, Never, PredDeclId,
    TypeDeclId, TypeExprId,
};
use crate::grammar_util::Location;

#[derive(Copy, Clone)]
pub enum Symbol {
    Type(TypeDeclId),
    Enum(EnumDeclId),
    Model(ModelDeclId),
    Pred(PredDeclId),
    Func(FuncDeclId),
    Const(ConstDeclId),
    Ctor(CtorDeclId),
    Rule(Never),
    Arg(Never),
    Var(Never),
}

impl Symbol {
    pub fn location(self, ast: &Ast) -> Location {
        match *ast {}
    }
}

pub enum Scopes {}

impl Scopes {
    pub fn entry(&self, _: TypeExprId) -> Never {
        match *self {}
    }

    pub fn lookup(&self, _: Never, _: &str) -> Option<Symbol> {
        match *self {}
    }
}
