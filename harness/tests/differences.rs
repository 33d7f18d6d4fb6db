//! What docs/DIFFERENCES.md says of the published source, shown on the source itself.

use shinri_core::{Context, Lit, Op, SortId, SymbolId, TermId, TermNode, TheoryJust, Var};
use shinri_dt::DtSolver;
use shinri_sat::Effort;
use shinri_theory::types::{EqJust, EqLeaf, Owner};
use shinri_theory::{AtomRegistry, EqualityEngine, TCheck, TheoryCtx, TheorySolver};

/// Natural numbers: zero, succ and two constants.
struct Numbers {
    terms: Context,
    succ: SymbolId,
    zero: TermId,
    constants: [TermId; 2],
}

fn numbers() -> Numbers {
    let mut terms = Context::new();
    let (sort, truth) = (terms.declare_datatype_sort("nat"), terms.bool_sort());
    let zero = terms.declare_fun("zero", &[], sort);
    let is_zero = terms.declare_fun("is-zero", &[sort], truth);
    terms.dt_add_constructor(sort, zero, &[], is_zero);
    let succ = terms.declare_fun("succ", &[sort], sort);
    let is_succ = terms.declare_fun("is-succ", &[sort], truth);
    let pred = terms.declare_fun("pred", &[sort], sort);
    terms.dt_add_constructor(sort, succ, &[pred], is_succ);
    let zero = apply(&mut terms, zero, &[]);
    let constants = ["x", "y"].map(|name| {
        let constant = terms.declare_fun(name, &[], sort);
        apply(&mut terms, constant, &[])
    });
    Numbers { terms, succ, zero, constants }
}

fn apply(terms: &mut Context, symbol: SymbolId, arguments: &[TermId]) -> TermId {
    terms.mk_app(Op::Uninterpreted(symbol), arguments).expect("well sorted")
}

fn offset(terms: &Context, t: TermId) -> u32 {
    match terms.term_node(t) {
        TermNode::App { args, .. } => args.off,
        TermNode::Const { .. } => unreachable!("an application"),
    }
}

#[test]
fn a_repeated_term_takes_argument_places() {
    let Numbers { mut terms, succ, zero, .. } = numbers();
    let one = apply(&mut terms, succ, &[zero]);
    assert_eq!(apply(&mut terms, succ, &[zero]), one);
    let two = apply(&mut terms, succ, &[one]);
    assert_eq!(offset(&terms, two) - offset(&terms, one), 2);
}

#[test]
fn a_term_may_equal_itself() {
    let Numbers { mut terms, zero, .. } = numbers();
    assert!(terms.mk_eq(zero, zero).is_ok());
}

#[test]
fn the_sides_of_an_equation_keep_their_order() {
    let Numbers { mut terms, constants: [x, y], .. } = numbers();
    assert_ne!(terms.mk_eq(x, y).expect("one sort"), terms.mk_eq(y, x).expect("one sort"));
}

#[test]
fn the_table_has_no_limit() {
    let Numbers { mut terms, succ, zero, .. } = numbers();
    let mut last = zero;
    for _ in 0..2_000 {
        last = apply(&mut terms, succ, &[last]);
    }
    assert!(last.index() >= 2_000);
}

#[test]
fn a_second_registration_replaces_the_atom() {
    let Numbers { mut terms, zero, constants: [x, y], .. } = numbers();
    let (first, second) = (terms.mk_eq(x, y).expect("one sort"), terms.mk_eq(x, zero).expect("one sort"));
    let mut atoms = AtomRegistry::default();
    atoms.register(Var::new(0), first, Owner::Datatypes);
    atoms.register(Var::new(0), second, Owner::Datatypes);
    assert_eq!(atoms.atom(Var::new(0)), second);
    assert_eq!(atoms.var_of_atom(first), Some(Var::new(0)));
}

#[test]
#[should_panic(expected = "unregistered var")]
fn an_unregistered_literal_panics() {
    let Numbers { mut terms, .. } = numbers();
    let (mut eq, atoms) = (EqualityEngine::default(), AtomRegistry::default());
    let mut cx = TheoryCtx { terms: &mut terms, eq: &mut eq, atoms: &atoms };
    DtSolver::default().assert(&mut cx, Lit::from_code(0));
}

/// Declares so many datatypes and constructors of them, each by the place of its datatype and of its fields'. Returns
/// the places of those that the source finds ill-founded, each asked alone.
fn ill_founded(count: usize, constructors: &[(usize, &[usize])]) -> Vec<usize> {
    let mut terms = Context::new();
    let truth = terms.bool_sort();
    let sorts: Vec<SortId> = (0..count).map(|place| terms.declare_datatype_sort(&format!("sort{place}"))).collect();
    for (number, &(place, fields)) in constructors.iter().enumerate() {
        let (sort, fields): (SortId, Vec<SortId>) = (sorts[place], fields.iter().map(|&field| sorts[field]).collect());
        let constructor = terms.declare_fun(&format!("constructor{number}"), &fields, sort);
        let tester = terms.declare_fun(&format!("is-constructor{number}"), &[sort], truth);
        let names = (0..fields.len()).map(|field| format!("field{field}-of-constructor{number}"));
        let selectors: Vec<SymbolId> =
            names.zip(&fields).map(|(name, &field)| terms.declare_fun(&name, &[sort], field)).collect();
        terms.dt_add_constructor(sort, constructor, &selectors, tester);
    }
    (0..count).filter(|&place| terms.dt_first_ill_founded(&[sorts[place]]).is_some()).collect()
}

#[test]
fn a_constructor_over_an_inhabited_datatype_founds_its_sort() {
    assert!(ill_founded(2, &[(0, &[]), (1, &[0])]).is_empty());
    assert!(ill_founded(2, &[(0, &[1]), (1, &[])]).is_empty());
    // A node over a list of nodes.
    assert!(ill_founded(2, &[(0, &[1]), (1, &[]), (1, &[0, 1])]).is_empty());
    assert!(ill_founded(5, &[(0, &[1]), (1, &[2]), (2, &[3]), (3, &[4]), (4, &[0]), (2, &[])]).is_empty());
}

#[test]
fn a_datatype_without_constructors_is_ill_founded() {
    assert_eq!(ill_founded(1, &[]), [0]);
    assert_eq!(ill_founded(3, &[(0, &[]), (2, &[1])]), [1, 2]);
}

#[test]
fn datatypes_that_need_each_other_are_ill_founded() {
    assert_eq!(ill_founded(1, &[(0, &[0])]), [0]);
    assert_eq!(ill_founded(2, &[(0, &[1]), (1, &[0])]), [0, 1]);
    assert_eq!(ill_founded(6, &[(0, &[1]), (1, &[2]), (2, &[3]), (3, &[4]), (4, &[0]), (5, &[])]), [0, 1, 2, 3, 4]);
}

#[test]
fn a_leaf_is_listed_as_often_as_it_is_met() {
    let Numbers { mut terms, succ, constants: [x, y], .. } = numbers();
    let applications = [x, y].map(|constant| apply(&mut terms, succ, &[constant]));
    let (mut eq, mut atoms, mut dt) = (EqualityEngine::default(), AtomRegistry::default(), DtSolver::default());
    let leaf = TheoryJust { theory: 1, tag: 1 };
    for (variable, sides) in [(x, applications[1]), (y, applications[0])].into_iter().enumerate() {
        let atom = terms.mk_eq(sides.0, sides.1).expect("one sort");
        let variable = Var::new(variable as u32);
        atoms.register(variable, atom, Owner::Datatypes);
        let (a, b) = (eq.intern(sides.0), eq.intern(sides.1));
        eq.merge(a, b, EqJust::Interface(leaf)).expect("no disequalities");
        dt.new_var(&mut TheoryCtx { terms: &mut terms, eq: &mut eq, atoms: &atoms }, variable, atom);
    }
    let result = dt.check(&mut TheoryCtx { terms: &mut terms, eq: &mut eq, atoms: &atoms }, Effort::Full);
    let TCheck::Conflict(leaves) = result else { panic!("a ring of length 2") };
    assert_eq!(leaves, [EqLeaf::Interface(leaf); 2]);
}

#[test]
#[cfg(debug_assertions)]
#[should_panic(expected = "target level above current")]
fn a_pop_above_the_level_panics() {
    EqualityEngine::default().pop(1);
}

#[test]
#[cfg(debug_assertions)]
#[should_panic(expected = "undrained merge events")]
fn a_pop_with_merge_events_left_panics() {
    let Numbers { constants: [x, y], .. } = numbers();
    let mut eq = EqualityEngine::default();
    eq.push();
    let (a, b) = (eq.intern(x), eq.intern(y));
    eq.merge(a, b, EqJust::Definitional).expect("no disequalities");
    eq.pop(0);
}
