//! Refusals 13 to 16: the rules of figures 2 and 3, and document 01's domain rules.
use super::layout::{Record, Records};
use super::shape::{below, binds_rest, children};
use super::Refused;

/// A type number and a domain number.
type Type = u16;
type Domain = u16;

/// What a type number stands for.
#[derive(Clone, Copy, Debug, PartialEq, Eq)]
enum Shape {
    Unit,
    Truth,
    Number,
    Pair(Type, Type),
    Function(Type, Domain, Type),
    Reference(Type, Domain),
    Label(Type, Domain),
    Pointcut(Type, Domain),
    Advice(Domain),
    /// `methods` has what it is made of.
    Object,
    Stack,
}

fn shape(records: &Records, of: Type) -> Shape {
    let Record { kind, fields: f, .. } = &records.types[usize::from(of)];
    match kind {
        16 => Shape::Unit,
        17 => Shape::Truth,
        18 => Shape::Number,
        19 => Shape::Pair(f[0], f[1]),
        20 => Shape::Function(f[0], f[1], f[2]),
        21 => Shape::Reference(f[0], f[1]),
        22 => Shape::Label(f[0], f[1]),
        23 => Shape::Pointcut(f[0], f[1]),
        24 => Shape::Advice(f[0]),
        25 => Shape::Object,
        _ => Shape::Stack,
    }
}

/// The methods of an object type, each a domain and a type; none of another type (document 02, card 3).
fn methods(records: &Records, of: Type) -> Vec<(Domain, Type)> {
    let Record { kind, fields, .. } = &records.types[usize::from(of)];
    match kind {
        25 => fields.chunks(2).map(|method| (method[0], method[1])).collect(),
        _ => vec![],
    }
}

/// The method that a call names, if the type of what is called has it.
fn called(records: &Records, call: &Record) -> Option<(Domain, Type)> {
    let object = records.terms[usize::from(call.fields[1])].fields[0];
    methods(records, object).get(usize::from(call.fields[2])).copied()
}

/// The leaves of each type that is made of unit, truth, number and pairs; parts stand before what is made of them.
fn leaves(records: &Records) -> Vec<Option<u64>> {
    let mut leaves: Vec<Option<u64>> = vec![];
    let at = |leaves: &[Option<u64>], of: Type| leaves[usize::from(of)];
    for of in 0..records.types.len() {
        leaves.push(match shape(records, of as Type) {
            Shape::Unit | Shape::Truth | Shape::Number => Some(1),
            Shape::Pair(a, b) => at(&leaves, a).zip(at(&leaves, b)).map(|(a, b)| a.saturating_add(b)),
            _ => None,
        });
    }
    leaves
}

/// "A plain type is unit, truth, number or a pair of plain types, with at most 8 leaves."
pub fn plain(records: &Records, of: Type) -> bool {
    leaves(records)[usize::from(of)].is_some_and(|leaves| leaves <= 8)
}

/// The types that a term's children state.
fn child_types(records: &Records, term: &Record) -> Vec<Type> {
    children(term).iter().map(|e| records.terms[usize::from(*e)].fields[0]).collect()
}

/// The type rule of a term over its own stated type and those of its children.
fn type_rule(records: &Records, term: &Record, scope: &[Type]) -> bool {
    use Shape::*;
    let own = term.fields[0];
    let types = child_types(records, term);
    let is = |of: Type, wanted: Shape| shape(records, of) == wanted;
    let child = |i: usize| shape(records, types[i]);
    match term.kind {
        32 => is(own, Unit),
        33 => is(own, Truth),
        34 => is(own, Number),
        35 => own == scope[scope.len() - 1 - usize::from(term.fields[1])],
        36 => is(types[0], Unit) && types[1] == own,
        37 => is(own, Unit) && is(types[0], Number),
        38 => is(types[0], Truth) && types[1] == own && types[2] == own,
        39 => is(own, Pair(types[0], types[1])),
        40 => matches!(child(0), Pair(..)) && types[1] == own,
        41 => matches!(shape(records, own), Function(_, _, b) if b == types[0]),
        42 => matches!(child(0), Function(a, _, b) if a == types[1] && b == own),
        43 => is(types[0], Number) && is(types[1], Number) && is(own, if term.fields[1] < 2 { Number } else { Truth }),
        44 => matches!(shape(records, own), Label(..)),
        45 => is(own, Unit) && matches!(child(0), Label(a, _) if a == types[1]),
        46 => match shape(records, own) {
            Pointcut(a, _) => types.iter().all(|t| matches!(shape(records, *t), Label(b, _) if a == b)),
            _ => false,
        },
        47 => matches!(shape(records, own), Advice(_)) && matches!(child(0), Pointcut(..)) && is(types[1], Unit),
        48 => is(own, Unit) && matches!(child(0), Advice(_)),
        49 => matches!(shape(records, own), Reference(a, _) if a == types[0]),
        50 => matches!(child(0), Reference(a, _) if a == own),
        51 => is(own, Unit) && matches!(child(0), Reference(a, _) if a == types[1]),
        52 => is(own, Unit) && is(types[0], Unit),
        53 => true,
        54 => is(own, Object) && methods(records, own).iter().map(|(_, of)| *of).eq(types),
        55 => called(records, term).is_some_and(|(_, of)| of == own),
        56 => is(own, Stack),
        57 => matches!(child(0), Label(a, _) if a == types[1]) && types[2] == own,
        58 => {
            let pointcuts = types[3..].iter().all(|t| matches!(shape(records, *t), Pointcut(..)));
            is(types[0], Stack) && types[1] == own && types[2] == own && pointcuts
        }
        59 => is(own, Unit),
        60 => is(own, Number) && is(types[0], Number),
        _ => unreachable!("a term's kind"),
    }
}

/// The domain that a type carries.
fn domain(records: &Records, of: Type) -> usize {
    use Shape::*;
    match shape(records, of) {
        Function(_, p, _) | Reference(_, p) | Label(_, p) | Pointcut(_, p) | Advice(p) => usize::from(p),
        _ => unreachable!("the type rule asks for a domain"),
    }
}

/// The domain rule of a term that meets its type rule, at current domain c.
fn domain_rule(records: &Records, term: &Record, c: usize) -> bool {
    let types = child_types(records, term);
    let own = || domain(records, term.fields[0]);
    let child = |i: usize| domain(records, types[i]);
    let le = |p, q| below(records, p, q);
    match term.kind {
        42 | 45 | 57 => child(0) == c,
        44 | 49 => le(own(), c),
        48 | 51 => le(child(0), c),
        50 => le(c, child(0)),
        52 | 59 => le(usize::from(term.fields[1]), c),
        46 => (0..types.len()).all(|i| le(own(), child(i))),
        47 => le(own(), child(0)),
        55 => called(records, term).is_some_and(|(p, _)| usize::from(p) == c),
        _ => true,
    }
}

/// 13, 14 and 15 at a term, then at its children; `scope` has the types of the variables, the innermost last.
fn check_term(records: &Records, number: u16, c: usize, scope: &[Type]) -> Result<(), Refused> {
    let term = &records.terms[usize::from(number)];
    if term.kind == 35 && usize::from(term.fields[1]) >= scope.len() {
        return Err(Refused(13, term.offset));
    }
    if !type_rule(records, term, scope) {
        return Err(Refused(14, term.offset));
    }
    if !domain_rule(records, term, c) {
        return Err(Refused(15, term.offset));
    }
    for (i, child) in children(term).iter().enumerate() {
        let (c, bound) = inside(records, term, i, c);
        check_term(records, *child, c, &[scope, &bound].concat())?;
    }
    Ok(())
}

/// The domain of a term's i-th child, and the types of the variables that it gains.
fn inside(records: &Records, term: &Record, i: usize, c: usize) -> (usize, Vec<Type>) {
    let own = term.fields[0];
    let first = || shape(records, records.terms[usize::from(children(term)[0])].fields[0]);
    match (term.kind, i, shape(records, own)) {
        (40, 1, _) => match first() {
            Shape::Pair(a, b) => (c, vec![a, b]),
            _ => unreachable!("the type rule of split"),
        },
        (41, 0, Shape::Function(a, p, _)) => (usize::from(p), vec![a]),
        (47, 1, Shape::Advice(p)) => match first() {
            Shape::Pointcut(a, _) => (usize::from(p), vec![a]),
            _ => unreachable!("the type rule of advice"),
        },
        (52, 0, _) => (usize::from(term.fields[1]), vec![]),
        (54, _, Shape::Object) => (usize::from(methods(records, own)[i].0), vec![own]),
        (58, 1, _) => (c, matched(records, term)),
        _ => (c, vec![]),
    }
}

/// The types of the variables that a match's first branch gains: the values of its pointcuts, left to right, then the
/// rest of the stack (document 02, card 6).
fn matched(records: &Records, term: &Record) -> Vec<Type> {
    let types = child_types(records, term);
    let values = types[3..].iter().map(|t| match shape(records, *t) {
        Shape::Pointcut(a, _) => a,
        _ => unreachable!("the type rule of match"),
    });
    values.chain(binds_rest(term).then_some(types[0])).collect()
}

pub fn check(records: &Records) -> Result<(), Refused> {
    let root = records.terms.len() - 1;
    check_term(records, root as u16, 0, &[])?;
    match plain(records, records.terms[root].fields[0]) {
        true => Ok(()),
        false => Err(Refused(16, records.terms[root].offset)),
    }
}
