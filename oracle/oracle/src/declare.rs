//! A child of the signature module: declares one entry at a time. The Rust
//! itself fills a signature only from a syntax tree.

#![warn(dead_code, unreachable_code, unused_variables, clippy::all)]

use super::{
    Func, FuncId, ModelIds, MorphismMemberTypes, Pred, PredId, Signature, Type, TypeId, TypeKind,
};
use crate::ast::ModelDeclId;

impl TypeId {
    pub fn new(number: u16) -> Self {
        TypeId(number.into())
    }

    pub fn as_usize(self) -> usize {
        self.0
    }
}

impl PredId {
    pub fn new(number: u16) -> Self {
        PredId(number.into())
    }

    pub fn as_usize(self) -> usize {
        self.0
    }
}

impl FuncId {
    pub fn new(number: u16) -> Self {
        FuncId(number.into())
    }
}

/// How many entries each table of a signature holds.
pub struct Sizes {
    pub types: usize,
    pub preds: usize,
    pub funcs: usize,
    pub models: usize,
    pub mor_apps: usize,
}

/// Each declaration answers the number, or the ordinal, of what it declared.
impl Signature {
    pub fn sizes(&self) -> Sizes {
        Sizes {
            types: self.types.len(),
            preds: self.preds.len(),
            funcs: self.funcs.len(),
            models: self.model_decls.len(),
            mor_apps: self.mor_app_funcs.len(),
        }
    }

    pub fn declare_type(&mut self, kind: TypeKind, parents: Vec<TypeId>) -> usize {
        self.push_type(Type { kind, parents }).0
    }

    pub fn declare_pred(&mut self, parents: Vec<TypeId>, arity: Vec<TypeId>) -> usize {
        self.push_pred(Pred { parents, arity }).0
    }

    pub fn declare_func(
        &mut self,
        parents: Vec<TypeId>,
        domain: Vec<TypeId>,
        codomain: TypeId,
    ) -> usize {
        let func = Func { parents, domain, codomain };
        self.push_func(func).0
    }

    pub fn declare_model(&mut self, ids: ModelIds) -> usize {
        let ordinal = self.model_decls.len();
        self.model_decls.insert(ModelDeclId(ordinal), ids);
        ordinal
    }

    pub fn declare_mor_app(&mut self, types: MorphismMemberTypes, func: FuncId) -> usize {
        let ordinal = self.mor_app_funcs.len();
        self.mor_app_funcs.insert(types, func);
        ordinal
    }
}
