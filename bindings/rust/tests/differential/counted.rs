//! What a flight will need (document 02, card 10): random images of its class, the library beside the reference, and
//! the card's claims tried on runs.
use crate::compare::hex;
use crate::generate::{Class, Maker};
use crate::made;
use crate::random::Random;
use crate::reference::{self, needs::Numbers, Ran, Refused};
use bukzarn::program::{Program, Shape, Term, Type};

/// Labels and cells, bound by splits, since a program of the class has no apply; then statements, and a number. In a
/// third of them one term more may be outside the class.
pub fn image(random: &mut Random) -> Vec<u8> {
    let fuel = [10, 40, 120, 300][random.below(4)];
    let mut maker = Maker::new(random, fuel);
    maker.class = Class::Counted;
    let mut scope: Vec<Type> = vec![];
    let mut pairs = vec![];
    for _ in 0..maker.random.below(4) {
        let (a, b) = (bound(&mut maker, &scope), bound(&mut maker, &scope));
        scope.extend([a.of(), b.of()]);
        pairs.push(maker.program.pair(a, b));
    }
    let statements: Vec<Term> = (0..maker.random.between(1, 8)).map(|_| maker.statement(0, &scope, 12)).collect();
    let number = maker.program.number_type();
    if maker.random.chance(33) {
        maker.class = Class::Any;
    }
    let end = maker.term(number, 0, &scope, 8);
    let body = statements.into_iter().rev().fold(end, |rest, first| maker.program.sequence(first, rest));
    let root = pairs.into_iter().rev().fold(body, |body, pair| maker.program.split(pair, body));
    maker.program.image(&root)
}

/// A label or a cell.
fn bound(maker: &mut Maker, scope: &[Type]) -> Term {
    let (a, p) = (maker.type_at(0, 1), if maker.random.chance(60) { 0 } else { maker.domain_below(0) });
    match maker.random.chance(60) {
        true => maker.program.new_label(a, p),
        false => {
            let first = maker.smallest(a, 0, scope);
            maker.program.new_cell(p, first)
        }
    }
}

/// What the reference says of an image, and the library too where it has the function.
pub fn compare(image: &[u8]) -> Result<Numbers, Refused> {
    let expected = reference::need(image);
    {
        let answer = bukzarn::need(image).map(|needs| needs.all().map(|(_, number)| number));
        let answer = answer.map_err(|refusal| Refused(refusal.cause.number(), refusal.place));
        assert!(answer == expected, "needs {answer:?}, by the reference {expected:?}\nimage {}", hex(image));
    }
    expected
}

/// The limits of the eleven numbers, but for budget and log, which a call has of its own.
fn limits(budget: u32, log: usize) -> Numbers {
    [budget, 1_024, 1_024, 256, 256, 128, 128, 64, 64, 512, (log / 10) as u32]
}

/// Card 10 of one run: "No run of that image exceeds any of them. A done run without choice, mark or takedown meets each
/// exactly. Where all are within the limits, the budget and the log, the outcome is done or aborted."
pub fn try_claims(image: &[u8], needs: &Numbers, ran: &Ran, budget: u32, log: usize) {
    let within = |a: &Numbers, b: &Numbers| a.iter().zip(b).all(|(a, b)| a <= b);
    let say = |what: &str| format!("{what}: needs {needs:?}, used {:?}\nimage {}", ran.used, hex(image));
    assert!(within(&ran.used, needs), "{}", say("a number is exceeded"));
    if ran.outcome == 0 && reference::straight(image) {
        assert!(ran.used == *needs, "{}", say("a straight run does not meet them"));
    }
    if within(needs, &limits(budget, log)) {
        assert!(matches!(ran.outcome, 0 | 2), "{}", say("a run with enough is neither done nor aborted"));
    }
}

/// Images made for each way to be outside the class.
pub fn outside() -> Vec<Vec<u8>> {
    let mut images = vec![];
    let mut with = |make: &dyn Fn(&mut Program) -> Term| {
        let mut program = Program::new(&[1, 3]);
        let root = make(&mut program);
        images.push(program.image(&root));
    };
    // An apply, one that never runs, a call.
    with(&|program| {
        let unit = program.unit();
        program.bind(0, unit.clone(), unit)
    });
    with(&|program| {
        let unit = program.unit();
        let inner = program.bind(1, unit.clone(), unit.clone());
        let function = program.function(unit.of(), 1, inner);
        let pair = program.pair(function, unit.clone());
        program.split(pair, unit)
    });
    with(&|program| {
        let unit = program.unit();
        let of = program.make(Shape::Object(vec![(0, unit.of())]));
        let object = program.object(of, vec![unit]);
        program.call(object, 0)
    });
    // An install over an abort; a mark and an install in the body of advice.
    with(&|program| {
        let advice = program.make(Shape::Advice(0));
        let abort = program.abort(advice);
        program.install(abort)
    });
    for marks in [true, false] {
        with(&move |program| {
            let number = program.number_type();
            let body = match marks {
                true => {
                    let (label, five) = (program.new_label(number, 0), program.number(5));
                    program.mark(label, five)
                }
                false => {
                    let five = program.number(5);
                    made::install(program, five)
                }
            };
            let pointcut = program.pointcut(number, 0, vec![]);
            let advice = program.advice(0, pointcut, body);
            program.install(advice)
        });
    }
    images
}
