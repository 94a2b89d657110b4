//! Kept values: stacks that are taken and matched.
use super::watches::sequences;
use bukzarn::program::{Close, Entry, Program, Shape, Term};

/// The levels of the variables: a label, a function that keeps more.
const LABEL: u16 = 0;
const KEEPER: u16 = 1;

fn label(program: &mut Program) -> Term {
    let unit = program.unit_type();
    let of = program.make(Shape::Label(unit, 0));
    program.variable(of, LABEL)
}

/// A body inside so many keeps.
fn inside(program: &mut Program, keeps: usize, body: Term) -> Term {
    (0..keeps).fold(body, |body, _| {
        let (label, unit) = (label(program), program.unit());
        program.keep(label, unit, body)
    })
}

/// Stacks that are taken inside so many keeps and matched with so many entries, so many times over.
pub fn kept(point: &[usize]) -> Vec<u8> {
    let [keeps, calls, stacks, entries] = point else { panic!("four numbers") };
    let mut program = Program::new(&[1]);
    let p = &mut program;
    let unit = p.unit_type();
    let mut all = vec![];
    for _ in 0..*stacks {
        let cuts = (0..*entries).map(|_| Entry::Anything).collect();
        let (stack, yes, no) = (p.stack(), p.unit(), p.unit());
        all.push(p.match_stack(stack, cuts, Close::Empty, yes, no));
    }
    let looks = sequences(p, all);
    let body = inside(p, *keeps, looks);
    let keeper = p.function(unit, 0, body);
    let of = keeper.of();
    let mut done = vec![];
    for _ in 0..calls + 1 {
        let (keeper, unit) = (p.variable(of, KEEPER), p.unit());
        done.push(p.apply(keeper, unit));
    }
    let then = sequences(p, done);
    let then = p.bind(0, keeper, then);
    let new = p.new_label(unit, 0);
    let root = p.bind(0, new, then);
    program.image(&root)
}
