//! What a flight will need, from the tree (document 02, card 10).
use super::decode;
use super::layout::Records;
use super::shape::children;
use super::term::{Operator, Term};
use super::Refused;

/// The eleven numbers, in the order in which the program `need` prints them.
pub type Numbers = [u32; 11];

/// Where each stands. Of what is halved (card 9), that of the other domains stands behind domain 0's.
const STEPS: usize = 0;
const BINDINGS: usize = 1;
const PIECES: usize = 3;
const CELLS: usize = 5;
const LABELS: usize = 7;
const ADVICE: usize = 8;
const FRAMES: usize = 9;
const LOG: usize = 10;

/// The current domain, how many unfinished terms stand around, and how many values are kept.
#[derive(Clone, Copy)]
struct Place {
    domain: u16,
    around: u32,
    kept: u32,
}

impl Place {
    fn inside(self) -> Place {
        Place { around: self.around + 1, ..self }
    }
}

/// Advice that marks suppose: its domain and its body.
type Advice<'a> = (u16, &'a Term);

/// One after the other: all numbers add up but the frames, which are given back.
fn sum(parts: impl IntoIterator<Item = Numbers>) -> Numbers {
    parts
        .into_iter()
        .fold([0; 11], |a, b| std::array::from_fn(|i| if i == FRAMES { a[i].max(b[i]) } else { a[i] + b[i] }))
}

/// "The dearer branch of every choice (if or match), taken for each number on its own."
fn dearer(a: Numbers, b: Numbers) -> Numbers {
    std::array::from_fn(|i| a[i].max(b[i]))
}

/// So much of one number.
fn only(which: usize, count: u32) -> Numbers {
    std::array::from_fn(|i| if i == which { count } else { 0 })
}

/// So much of something that is halved, charged to a domain.
fn charged(which: usize, count: u32, domain: u16) -> Numbers {
    only(which + usize::from(domain != 0), count)
}

/// One step at a place.
fn step(place: Place) -> Numbers {
    sum([only(STEPS, 1), only(FRAMES, place.around)])
}

/// The parts of a term that are worked out where it stands, bodies of functions, methods and advice left out.
fn parts(term: &Term) -> Vec<&Term> {
    match term {
        Term::Value(_) | Term::Variable(_) | Term::Function(_) | Term::Object(_) => vec![],
        Term::Sequence(a, b) | Term::Split(a, b) => vec![a, b],
        Term::If(a, b, c) | Term::Keep(a, b, c) => vec![a, b, c],
        Term::Lower(_, a) => vec![a],
        Term::Match(_, operands, yes, no) => operands.iter().chain([&**yes, &**no]).collect(),
        Term::Operation(_, operands) => operands.iter().collect(),
    }
}

/// "Every advice that stands directly under an install outside function and method bodies."
fn installed(term: &Term) -> Vec<Advice<'_>> {
    let mut found: Vec<Advice> = parts(term).into_iter().flat_map(installed).collect();
    if let Term::Operation(Operator::Install, operands) = term {
        if let [Term::Operation(Operator::Advice { domain, body }, _)] = &operands[..] {
            found.push((*domain, body));
        }
    }
    found
}

/// What a term takes that is worked out at a place.
fn need(term: &Term, place: Place, advice: &[Advice]) -> Numbers {
    let inside = |e: &Term| need(e, place.inside(), advice);
    let here = |e: &Term| need(e, place, advice);
    match term {
        Term::Value(_) | Term::Variable(_) | Term::Function(_) | Term::Object(_) => [0; 11],
        Term::Sequence(first, second) => sum([inside(first), step(place), here(second)]),
        Term::If(test, yes, no) => sum([inside(test), step(place), dearer(here(yes), here(no))]),
        Term::Split(pair, body) => sum([inside(pair), step(place), charged(BINDINGS, 2, place.domain), here(body)]),
        Term::Lower(p, body) => sum([need(body, Place { domain: *p, ..place.inside() }, advice), step(place)]),
        Term::Keep(label, value, body) => {
            let body = need(body, Place { kept: place.kept + 1, ..place.inside() }, advice);
            sum([inside(label), inside(value), body, step(place)])
        }
        Term::Match(patterns, operands, yes, no) => {
            let bound = charged(BINDINGS, patterns.variables() as u32, place.domain);
            let operands = sum(operands.iter().map(inside));
            sum([operands, step(place), dearer(sum([bound, here(yes)]), here(no))])
        }
        Term::Operation(operator, operands) => {
            sum([sum(operands.iter().map(inside)), step(place), own(operator, place, advice)])
        }
    }
}

/// What the reduction of an operator takes besides its step.
fn own(operator: &Operator, place: Place, advice: &[Advice]) -> Numbers {
    match operator {
        Operator::Print => only(LOG, 1),
        Operator::Pair | Operator::Pointcut | Operator::Advice { .. } => charged(PIECES, 1, place.domain),
        Operator::Stack => charged(PIECES, place.kept, place.domain),
        Operator::NewCell { .. } => charged(CELLS, 1, place.domain),
        Operator::NewLabel => only(LABELS, 1),
        Operator::Install => only(ADVICE, 1),
        Operator::Mark => sum(advice.iter().map(|one| round(one, place))),
        Operator::Apply | Operator::Call { .. } => unreachable!("outside the class"),
        Operator::Arithmetic(_) | Operator::Read | Operator::Store | Operator::FrameByte => [0; 11],
        Operator::Abort | Operator::Takedown { .. } => [0; 11],
    }
}

/// One advice at a mark (figure 5): its binding, its body inside a lower inside a sequence, and their two steps.
fn round((domain, body): &Advice, mark: Place) -> Numbers {
    let lowered = mark.inside();
    let body = need(body, Place { domain: *domain, ..lowered.inside() }, &[]);
    sum([charged(BINDINGS, 1, *domain), body, step(lowered), step(mark)])
}

/// The lowest term that an image of the class does not have: "no apply and no call, whose installs each stand directly
/// over an advice, and whose advice bodies contain no mark and no install".
fn fault(records: &Records) -> Option<usize> {
    let count = records.terms.len();
    let mut in_advice = vec![false; count];
    for e in (0..count).rev() {
        let term = &records.terms[e];
        for (i, child) in children(term).into_iter().enumerate() {
            in_advice[usize::from(child)] = in_advice[e] || (term.kind == 47 && i == 1);
        }
    }
    (0..count).find(|e| {
        let term = &records.terms[*e];
        match term.kind {
            42 | 55 => true,
            45 => in_advice[*e],
            48 => in_advice[*e] || records.terms[usize::from(term.fields[1])].kind != 47,
            _ => false,
        }
    })
}

/// The numbers of an image that the check accepts; "19 the image is outside this class […]; the place is the offset of
/// the lowest".
pub fn needs(records: &Records) -> Result<Numbers, Refused> {
    if let Some(e) = fault(records) {
        return Err(Refused(19, records.terms[e].offset));
    }
    let root = decode::root(records);
    Ok(need(&root, Place { domain: 0, around: 0, kept: 0 }, &installed(&root)))
}

/// Has an image neither choice, mark nor takedown?
pub fn straight(records: &Records) -> bool {
    !records.terms.iter().any(|term| matches!(term.kind, 38 | 45 | 58 | 59))
}
