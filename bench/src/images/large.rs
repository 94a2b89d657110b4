//! The smallest image, and large ones that run little.
use bukzarn::program::{Program, Shape, Term};

/// The bench sheet's P2: a constant.
pub fn constant() -> Vec<u8> {
    let mut program = Program::new(&[1]);
    let five = program.number(5);
    program.image(&five)
}

/// A balanced tree of sums over so many constants.
fn sums(program: &mut Program, constants: usize) -> Term {
    if constants == 1 {
        return program.number(3);
    }
    let left = sums(program, constants / 2);
    let right = sums(program, constants - constants / 2);
    program.plus(left, right)
}

/// Sums nested to the right as deep as an image allows, under a small tree.
pub fn nested() -> Vec<u8> {
    let mut program = Program::new(&[1]);
    let mut arms: Vec<Term> = vec![];
    for _ in 0..8 {
        let mut arm = program.number(1);
        for n in 0..60 {
            let number = program.number(n);
            arm = program.plus(number, arm);
        }
        arms.push(arm);
    }
    while arms.len() > 1 {
        arms = arms.chunks(2).map(|pair| program.plus(pair[0].clone(), pair[1].clone())).collect();
    }
    program.image(&arms[0])
}

/// 16 domains in a chain, each below those before it.
pub fn chain() -> Vec<u16> {
    (0..16).map(|d| u16::MAX >> (15 - d)).collect()
}

/// Fills a program's types up to 128 with function types.
pub fn fill_types(program: &mut Program) {
    let number = program.number_type();
    let mut last = number;
    for at in 0.. {
        if program.types().count() == 128 {
            return;
        }
        last = program.make(Shape::Function(last, at % 16, number));
    }
}

/// The largest image that can be accepted: as many records as are allowed, as long as they can be.
pub fn largest() -> Vec<u8> {
    let mut program = Program::new(&chain());
    fill_types(&mut program);
    let sums = sums(&mut program, 512);
    let root = program.frame_byte(sums);
    program.image(&root)
}

/// A record: its length, its kind, its fields.
fn record(image: &mut Vec<u8>, kind: u16, fields: &[u16]) {
    let length = 4 + 2 * fields.len() as u16;
    image.extend([&[length, kind], fields].concat().iter().flat_map(|word| word.to_le_bytes()));
}

/// 16,384 bytes with as many records as are allowed, refused since terms are used more than once (11).
pub fn refused() -> Vec<u8> {
    let mut program = Program::new(&chain());
    let number = program.number_type();
    program.make(Shape::Label(number, 0));
    program.make(Shape::Pointcut(number, 0));
    fill_types(&mut program);
    let root = program.number(0);
    let mut image = program.image(&root);
    let terms = 1_023;
    for i in 0..terms {
        // Pointcuts over terms before them, as long as leaves 6 bytes for each record that follows.
        let rest = 6 * (terms - 1 - i);
        let labels = ((16_384 - image.len() - rest - 6) / 2).min(8);
        let fields: Vec<u16> = (0..labels).map(|k| ((i * 5 + k * 3) % (i + 1)) as u16).collect();
        record(&mut image, 46, &[&[2], &fields[..]].concat());
    }
    image
}
