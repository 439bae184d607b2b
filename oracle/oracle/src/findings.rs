//! Where the Rust panics, each on the smallest input, where it does what its
//! comments do not say, and what no history shows. FINDINGS.md tells the same in
//! words.

use super::*;

const NONE: &[u16] = &[];

/// A signature with types of these kinds, none under another.
fn types(kinds: &[TypeKind]) -> Signature {
    let mut signature = Signature::default();
    for &kind in kinds {
        signature.declare_type(kind, Vec::new());
    }
    signature
}

/// A Model 0 with its Mor 1, four functions, and its record.
fn model() -> Signature {
    let mor = TypeKind::Mor(TypeId::new(0));
    let mut signature = types(&[TypeKind::Model, mor]);
    for _ in 0..4 {
        signature.declare_func(Vec::new(), Vec::new(), TypeId::new(0));
    }
    let [dom, cod, id, comp] = [0, 1, 2, 3].map(FuncId::new);
    let (type_, mor) = (TypeId::new(0), TypeId::new(1));
    signature.declare_model(ModelIds { type_, mor, dom, cod, id, comp });
    signature
}

/// A structure of some elements and one application to the first ones.
fn applied(els: usize, func: u16, args: &[u16]) -> Structure {
    let mut structure = Structure::default();
    for _ in 0..els {
        structure.push_el();
    }
    let (func, parents, args) = (FuncId::new(func), Vec::new(), el_ids(args));
    structure.insert_func_app_or_equate(FuncApp { func, parents, args }, ElId(0));
    structure
}

#[test]
#[should_panic(expected = "index out of bounds")]
fn root_of_an_undeclared_element() {
    Structure::default().unification.root(ElId(0));
}

#[test]
#[should_panic(expected = "index out of bounds")]
fn equality_of_an_undeclared_element() {
    Structure::default().equate(ElId(0), ElId(0));
}

#[test]
#[should_panic(expected = "index out of bounds")]
fn imposition_on_an_undeclared_element() {
    let ct = ConcreteType { typ: TypeId::new(0), parents: Vec::new() };
    Structure::default().impose_type(ElId(0), ct);
}

#[test]
#[should_panic(expected = "index out of bounds")]
fn application_to_an_undeclared_element() {
    applied(0, 0, NONE);
}

/// The Rust takes the application and panics in the close.
#[test]
#[should_panic(expected = "index out of bounds")]
fn close_over_an_undeclared_function() {
    applied(1, 0, NONE).close(&Signature::default());
}

#[test]
#[should_panic(expected = "index out of bounds")]
fn close_over_an_undeclared_predicate() {
    let mut structure = Structure::default();
    let (pred, parents, args) = (PredId::new(0), Vec::new(), Vec::new());
    structure.pred_apps.insert(PredApp { pred, parents, args });
    structure.close(&Signature::default());
}

#[test]
#[should_panic(expected = "index out of bounds")]
fn lookup_of_an_undeclared_type() {
    concrete_type_at(&Signature::default(), TypeId::new(0), &[]);
}

#[test]
#[should_panic(expected = "ambient model el missing for type")]
fn ambient_lookup_of_a_type_with_none() {
    Structure::default().ambient_parents(&[TypeId::new(0)]);
}

#[test]
#[should_panic(expected = "index out of bounds")]
fn application_of_id_without_arguments() {
    applied(1, 2, NONE).close(&model());
}

#[test]
#[should_panic(expected = "index out of bounds")]
fn application_of_comp_without_arguments() {
    applied(1, 3, NONE).close(&model());
}

#[test]
#[should_panic(expected = "index out of bounds")]
fn application_of_comp_to_one_argument() {
    applied(1, 3, &[0]).close(&model());
}

#[test]
#[should_panic(expected = "morphism application requires a morphism type")]
fn morphism_application_over_a_plain_type() {
    let mut signature = types(&[TypeKind::Plain]);
    signature.declare_func(Vec::new(), Vec::new(), TypeId::new(0));
    let (morphism_type, member_type) = (TypeId::new(0), TypeId::new(0));
    let pair = MorphismMemberTypes { morphism_type, member_type };
    signature.declare_mor_app(pair, FuncId::new(0));
    applied(1, 0, NONE).close(&signature);
}

/// The comment of `close` says that it rewrites every reference to its root.
/// After a merge in the impositions the function applications stay stale.
#[test]
fn a_close_can_leave_stale_applications() {
    let mut signature = types(&[TypeKind::Plain]);
    signature.declare_type(TypeKind::Plain, type_ids(&[0]));
    signature.declare_func(Vec::new(), Vec::new(), TypeId::new(0));
    let mut structure = applied(2, 0, &[1]);
    structure.inferred_parent_els.insert(ElId(1));
    for parent in [0, 1] {
        let ct = ConcreteType { typ: TypeId::new(1), parents: vec![ElId(parent)] };
        structure.impose_type(ElId(0), ct);
    }
    structure.close(&signature);
    assert_eq!(structure.root(ElId(1)), ElId(0));
    let key = structure.func_apps.keys().next().expect("it is stored");
    assert_eq!(key.args, [ElId(1)]);
}

/// The comment of `functionality` says that it is true if a duplicate was found.
/// A duplicate with the same result is no work.
#[test]
fn a_duplicate_with_one_result_is_no_work() {
    let mut structure = applied(3, 0, &[1]);
    let (func, parents, args) = (FuncId::new(0), Vec::new(), vec![ElId(2)]);
    structure.insert_func_app_or_equate(FuncApp { func, parents, args }, ElId(0));
    structure.equate(ElId(1), ElId(2));
    structure.drain_equalities();
    assert!(!structure.functionality());
    assert_eq!(structure.func_apps.len(), 1);
}

/// The comments of `typing` and of the impositions say that they are true if a
/// fact was recorded. A merge of marked parents without a new fact is work too.
#[test]
fn a_merge_without_a_fact_is_work() {
    let mut structure = applied(3, 0, NONE);
    structure.inferred_parent_els.insert(ElId(2));
    let fact = |parent| ConcreteType { typ: TypeId::new(0), parents: vec![ElId(parent)] };
    assert!(structure.impose_concrete_type(ElId(0), fact(1)));
    assert!(structure.impose_concrete_type(ElId(0), fact(2)));
    assert_eq!(structure.els[&ElId(0)].len(), 1);
}

/// The Rust's imposing says yes for a fact, for a merge and for both, so that a fact that is
/// added beside a merge has to be told from the sets. Of a fact whose stored copy is stale
/// one more is stored, until the end of the close.
#[test]
fn an_imposing_says_yes_for_a_fact_a_merge_or_both() {
    let mut structure = applied(6, 0, NONE);
    structure.inferred_parent_els.extend([ElId(3), ElId(4), ElId(5)]);
    let mut oracle = Oracle { structure, ..Oracle::default() };
    let mut impose = |parents: &[u16]| {
        let mut added = Added::default();
        let ct = ConcreteType { typ: TypeId::new(0), parents: el_ids(parents) };
        let classes = oracle.structure.els.len();
        let said = oracle.impose(ElId(0), ct, &mut added);
        let merges = classes - oracle.structure.els.len();
        (said.unwrap_or_else(|_| panic!("it is accepted")), merges, added.facts, oracle.facts())
    };
    assert_eq!(impose(&[5, 2]), (true, 0, 1, 1));
    assert_eq!(impose(&[5, 2]), (false, 0, 0, 1));
    // 5 joins 1, and the stored fact is stale.
    assert_eq!(impose(&[1, 2]), (true, 1, 1, 2));
    // 4 joins 1, and the fact is there.
    assert_eq!(impose(&[4, 2]), (true, 1, 0, 2));
    // 3 joins 1, and the other parent is not 2.
    assert_eq!(impose(&[3, 0]), (true, 1, 1, 3));
    oracle.structure.canonicalise_refs();
    assert_eq!(oracle.facts(), 2);
}

/// The comment of `impose_type` says that an entry is queued once. A close can
/// make two entries equal; both stay.
#[test]
fn a_close_can_make_impositions_equal() {
    let mut structure = applied(2, 0, NONE);
    structure.func_apps.clear();
    let mut signature = types(&[TypeKind::Plain]);
    signature.declare_type(TypeKind::Plain, type_ids(&[0]));
    for parent in [0, 1] {
        let ct = ConcreteType { typ: TypeId::new(1), parents: vec![ElId(parent)] };
        assert!(structure.impose_type(ElId(0), ct));
    }
    structure.equate(ElId(0), ElId(1));
    structure.close(&signature);
    let queued = &structure.pending_type_impositions;
    assert_eq!(queued.len(), 2);
    assert_eq!(queued[0], queued[1]);
}

/// A type without parents imposed with one: the Rust makes a fact of it. We give 15.
#[test]
fn a_type_without_parents_is_imposed_with_one() {
    let mut structure = applied(1, 0, NONE);
    structure.func_apps.clear();
    let ct = ConcreteType { typ: TypeId::new(0), parents: vec![ElId(0)] };
    assert!(structure.impose_type(ElId(0), ct.clone()));
    assert!(structure.close(&types(&[TypeKind::Plain])));
    assert_eq!(structure.concrete_types_of(ElId(0)), [ct]);
}

/// A type of two parents imposed with one, with two and with three: the Rust takes them
/// all, and since only the parents that both facts have are compared, none disagrees. We
/// give 15 for the first and the last.
#[test]
fn a_type_of_two_parents_is_imposed_with_any_number() {
    let mut signature = types(&[TypeKind::Model, TypeKind::Model]);
    signature.declare_type(TypeKind::Plain, type_ids(&[0, 1]));
    let mut structure = applied(4, 0, NONE);
    structure.func_apps.clear();
    for parents in [&[1][..], &[1, 2], &[1, 2, 3]] {
        let ct = ConcreteType { typ: TypeId::new(2), parents: el_ids(parents) };
        assert!(structure.impose_type(ElId(0), ct));
    }
    assert!(structure.close(&signature));
    assert_eq!(structure.els[&ElId(0)].len(), 3);
    assert!(structure.type_conflicts().is_empty());
}

/// An application of id makes the Rust add applications of dom and cod.
#[test]
fn an_application_of_id_adds_applications() {
    let mut structure = applied(1, 2, &[0]);
    structure.close(&model());
    assert_eq!(structure.func_apps.len(), 3);
}

/// With more arguments than it needs id is taken by its first one. We give 12.
#[test]
fn id_with_two_arguments_is_taken_by_the_first() {
    let mut structure = applied(2, 2, &[1, 0]);
    structure.close(&model());
    let (func, parents, args) = (FuncId::new(0), Vec::new(), vec![ElId(0)]);
    assert_eq!(structure.func_apps.get(&FuncApp { func, parents, args }), Some(&ElId(1)));
}

/// 130 identities with one result queue 258 pairs at a time. The Rust closes; we
/// give 9.
#[test]
fn a_close_queues_any_number_of_pairs() {
    let mut structure = applied(130, 2, &[0]);
    for el in 1..130 {
        let (func, parents, args) = (FuncId::new(2), Vec::new(), vec![ElId(el)]);
        structure.insert_func_app_or_equate(FuncApp { func, parents, args }, ElId(0));
    }
    structure.morphism_operation_constraints(&model());
    assert_eq!(structure.pending_equalities.len(), 258);
    structure.close(&model());
    assert_eq!(structure.els.len(), 1);
}

/// Two stored facts that are one as roots: the Rust goes on to the class, and there is
/// nothing to compare. The parents of the one fact are found. No call leaves such facts.
#[test]
fn stored_facts_that_are_one_as_roots_have_finds() {
    let mut structure = applied(4, 0, NONE);
    let fact = |parent| ConcreteType { typ: TypeId::new(0), parents: vec![ElId(3), ElId(parent)] };
    assert!(structure.impose_concrete_type(ElId(0), fact(1)));
    assert!(structure.impose_concrete_type(ElId(0), fact(2)));
    let report = |structure: &Structure| {
        let structure = structure.clone();
        Oracle { structure, ..Oracle::default() }.conflicts()
    };
    assert_eq!((report(&structure).each.len(), report(&structure).finds), (1, 2));
    structure.equate(ElId(1), ElId(2));
    structure.drain_equalities();
    assert_eq!(structure.els[&ElId(0)].len(), 2);
    assert_eq!(structure.concrete_types_of(ElId(0)), [fact(1)]);
    assert_eq!((report(&structure).each.len(), report(&structure).finds), (0, 2));
    structure.canonicalise_refs();
    assert_eq!((report(&structure).each.len(), report(&structure).finds), (0, 0));
}
