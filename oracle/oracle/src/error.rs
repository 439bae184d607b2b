//! Stands in for the error types that signature.rs names.

use crate::grammar_util::Location;

pub enum SymbolKind {
    Type,
    Pred,
    Func,
    Const,
    Enum,
    Ctor,
    Model,
    Rule,
}

pub enum CompileError {
    UndeclaredSymbol {
        name: String,
        used_at: Location,
    },
    BadSymbolKind {
        name: String,
        expected: SymbolKind,
        found: SymbolKind,
        used_at: Location,
        declared_at: Location,
    },
}
