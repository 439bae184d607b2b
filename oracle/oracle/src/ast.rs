//! Stands in for the syntax tree. There is no value of `Ast`, so nothing that
//! needs one can run; only the types are there, for signature.rs to compile.

/// A type without values.
#[derive(Copy, Clone, Debug, PartialEq, Eq, PartialOrd, Ord)]
pub enum Never {}

pub type ArgDeclId = Never;
pub type ArgDeclListId = Never;
pub type ConstDeclId = Never;
pub type CtorDeclId = Never;
pub type DeclId = Never;
pub type EnumDeclId = Never;
pub type FuncDeclId = Never;
pub type ModuleId = Never;
pub type PredDeclId = Never;
pub type TypeDeclId = Never;
pub type TypeExprId = Never;

/// Key of a model in the signature. The harness numbers models in order.
#[derive(Copy, Clone, Debug, PartialEq, Eq, PartialOrd, Ord)]
pub struct ModelDeclId(pub usize);

#[derive(Copy, Clone)]
pub enum Decl {
    Type(TypeDeclId),
    Enum(EnumDeclId),
    Model(ModelDeclId),
    Pred(PredDeclId),
    Func(FuncDeclId),
    Const(ConstDeclId),
    Rule(Never),
}

#[derive(Copy, Clone)]
pub enum TypeExpr {
    Ambient(Never),
    Mor(Never),
    Member(Never),
}

pub struct Module {
    pub decls: Vec<DeclId>,
}

pub struct TypeDecl {
    pub name: String,
}

pub struct EnumDecl {
    pub name: String,
    pub ctors: Vec<CtorDeclId>,
}

pub struct ModelDecl {
    pub name: String,
    pub body: Vec<DeclId>,
}

pub struct PredDecl {
    pub args: ArgDeclListId,
}

#[derive(Copy, Clone)]
pub struct FuncDecl {
    pub args: ArgDeclListId,
    pub result: TypeExprId,
}

pub struct ConstDecl {
    pub result: TypeExprId,
}

pub struct CtorDecl {
    pub args: ArgDeclListId,
}

pub struct ArgDeclList {
    pub args: Vec<ArgDeclId>,
}

pub struct ArgDecl {
    pub typ: TypeExprId,
}

pub struct NamedTypeExpr {
    pub name: String,
}

pub enum Ast {}

/// Methods that look up a node: `name: id -> node`.
macro_rules! lookups {
    ($($name:ident: $id:ty => $node:ty,)*) => {
        impl Ast {
            $(pub fn $name(&self, _: $id) -> &$node { match *self {} })*
        }
    };
}

lookups! {
    module: ModuleId => Module,
    decl: DeclId => Decl,
    type_decl: TypeDeclId => TypeDecl,
    enum_decl: EnumDeclId => EnumDecl,
    model_decl: ModelDeclId => ModelDecl,
    pred_decl: PredDeclId => PredDecl,
    func_decl: FuncDeclId => FuncDecl,
    const_decl: ConstDeclId => ConstDecl,
    ctor_decl: CtorDeclId => CtorDecl,
    arg_decl_list: ArgDeclListId => ArgDeclList,
    arg_decl: ArgDeclId => ArgDecl,
    type_expr: TypeExprId => TypeExpr,
    ambient_type_expr: Never => NamedTypeExpr,
    mor_type_expr: Never => NamedTypeExpr,
}

impl Ast {
    pub fn loc(&self, _: Never) -> crate::grammar_util::Location {
        match *self {}
    }
}
