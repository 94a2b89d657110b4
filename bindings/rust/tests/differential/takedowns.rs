//! Takedowns (document 02, card 7): random ones, and images made for one refusal or one outcome each.
use crate::generate::Maker;
use crate::made::{install, loop_at, record};
use bukzarn::program::{Program, Shape, Term, Type};

impl Maker<'_> {
    /// A takedown of a domain at or below another.
    pub fn takedown(&mut self, at: u16) -> Term {
        let p = self.domain_below(at);
        self.program.takedown(p)
    }
}

/// Installs advice at a domain; before it, in half of the programs, a takedown where the frame's byte at the argument is
/// small or past the frame, so that room for advice is given back now and then.
pub fn install_again(maker: &mut Maker, at: u16, argument: &Term, scope: &[Type]) -> Term {
    let p = maker.domain_below(at);
    let advice = maker.program.make(Shape::Advice(p));
    let advice = maker.term(advice, at, scope, 5);
    let install = maker.program.install(advice);
    if maker.random.chance(50) {
        return install;
    }
    let small = maker.random.below(12) as i32;
    let (byte, small) = (maker.program.frame_byte(argument.clone()), maker.program.number(small));
    let test = maker.program.less(byte, small);
    let (down, none) = (maker.takedown(at), maker.program.unit());
    let first = maker.program.choose(test, down, none);
    maker.program.sequence(first, install)
}

/// The records of an image over the types unit and number (0 and 1) of domain 0, domain 1, which is below it, and domain
/// 2, which is not.
fn over(records: &[Vec<u8>]) -> Vec<u8> {
    let domains = [1, 3, 4].map(|mask| record(1, &[mask]));
    [domains.concat(), record(16, &[]), record(18, &[]), records.concat()].concat()
}

/// Takedowns that are refused, with the number: without a domain; of one that is absent; of another type than unit; of a
/// domain that is not at or below the current one, which is 0, or 1 in a lower.
pub fn refused() -> Vec<(u16, Vec<u8>)> {
    vec![
        (4, over(&[record(59, &[0])])),
        (7, over(&[record(59, &[0, 3])])),
        (14, over(&[record(59, &[1, 0])])),
        (15, over(&[record(59, &[0, 2])])),
        (15, over(&[record(59, &[0, 0]), record(52, &[0, 1, 0])])),
    ]
}

/// Images that end with an outcome: advice of domain 0 is installed again and again, and each time what was there is
/// taken down before; or the advice of domain 1 is, which frees nothing; a watch that takes itself down.
pub fn ending() -> Vec<(u16, Vec<u8>)> {
    let taken = |p: u16| {
        loop_at(&mut Program::new(&[1, 3]), 0, 100, move |program, x| {
            let (down, install) = (program.takedown(p), install(program, x));
            program.sequence(down, install)
        })
    };
    vec![(0, taken(0)), (7, taken(1)), (0, at_its_own_mark())]
}

/// Three watches of domain 1, the middle one of which takes domain 1 down and then prints, and one of domain 0: at the
/// first mark all four run, at the second the last one alone.
fn at_its_own_mark() -> Vec<u8> {
    let mut program = Program::new(&[1, 3]);
    let number = program.number_type();
    let new = program.new_label(number, 0);
    let (label, x) = (program.variable(new.of(), 0), program.variable(number, 1));
    let installs = [(1, false), (1, true), (1, false), (0, false)].map(|(p, takes)| {
        let mut body = program.print(x.clone());
        if takes {
            let down = program.takedown(1);
            body = program.sequence(down, body);
        }
        let pointcut = program.pointcut(number, p, vec![label.clone()]);
        let advice = program.advice(p, pointcut, body);
        program.install(advice)
    });
    let marks = [5, 6].map(|n| {
        let n = program.number(n);
        program.mark(label.clone(), n)
    });
    let end = program.unit();
    let body = installs.into_iter().chain(marks).rev().fold(end, |rest, first| program.sequence(first, rest));
    let root = program.bind(0, new, body);
    program.image(&root)
}
