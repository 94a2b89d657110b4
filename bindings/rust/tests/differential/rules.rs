//! Small images for every case of the type rules and the domain rules: each kind of term over children of every listed
//! type, and at every current domain over types of every domain. The children are aborts, which have any type.
use crate::made::record;

/// Fields of a term record between its type and its children, or behind its children.
type Others = &'static [u16];

/// Kinds with children: how many, the fields before them, the fields behind them.
const KINDS: [(u16, usize, Others, Others); 27] = [
    (36, 2, &[], &[]),
    (37, 1, &[], &[]),
    (38, 3, &[], &[]),
    (39, 2, &[], &[]),
    (40, 2, &[], &[]),
    (41, 1, &[], &[]),
    (42, 2, &[], &[]),
    (43, 2, &[1], &[]),
    (43, 2, &[2], &[]),
    (45, 2, &[], &[]),
    (46, 1, &[], &[]),
    (46, 2, &[], &[]),
    (47, 2, &[], &[]),
    (48, 1, &[], &[]),
    (49, 1, &[], &[]),
    (50, 1, &[], &[]),
    (51, 2, &[], &[]),
    (52, 1, &[0], &[]),
    (54, 1, &[], &[]),
    (54, 2, &[], &[]),
    (55, 1, &[], &[0]),
    (55, 1, &[], &[1]),
    (55, 1, &[], &[2]),
    (57, 3, &[], &[]),
    (58, 3, &[], &[0]),
    (58, 3, &[], &[1]),
    (60, 1, &[], &[]),
];

/// Kinds without children.
const LEAVES: [(u16, Others); 7] = [(32, &[]), (33, &[1]), (34, &[5, 0]), (44, &[]), (53, &[]), (56, &[]), (59, &[0])];

/// Every choice of `n` numbers below `limit`.
fn choices(n: usize, limit: u16) -> Vec<Vec<u16>> {
    match n {
        0 => vec![vec![]],
        _ => choices(n - 1, limit).into_iter().flat_map(|c| (0..limit).map(move |x| [&c[..], &[x]].concat())).collect(),
    }
}

/// Types of every kind, at domain 0; some differ in one part alone.
fn types() -> Vec<Vec<u8>> {
    vec![
        record(16, &[]),
        record(17, &[]),
        record(18, &[]),
        record(19, &[2, 0]),
        record(20, &[2, 0, 1]),
        record(21, &[2, 0]),
        record(22, &[2, 0]),
        record(22, &[1, 0]),
        record(23, &[2, 0]),
        record(24, &[0]),
        record(25, &[0, 2]),
        record(25, &[0, 2, 0, 1]),
        record(26, &[]),
    ]
}

/// Aborts of these types, and over them a term of this kind and type as the root; a match's children behind its
/// branches are its entries.
fn over_aborts(kind: u16, between: Others, behind: Others, own: u16, children: &[u16]) -> Vec<u8> {
    let mut image: Vec<u8> = children.iter().flat_map(|of| record(53, &[*of])).collect();
    let number = |i: u16| if kind == 58 && i > 2 { i + 1 } else { i };
    let numbers: Vec<u16> = (0..children.len() as u16).map(number).collect();
    image.extend(record(kind, &[&[own], between, &numbers, behind].concat()));
    image
}

/// Each kind with each type over children of each type.
pub fn type_rules() -> Vec<Vec<u8>> {
    let types = types();
    let head = [record(1, &[1]), types.concat()].concat();
    let mut images = vec![];
    let leaves = LEAVES.iter().map(|(kind, between)| (*kind, 0, *between, &[] as Others));
    for (kind, count, between, behind) in KINDS.into_iter().chain(leaves) {
        for choice in choices(count + 1, types.len() as u16) {
            let root = over_aborts(kind, between, behind, choice[0], &choice[1..]);
            images.push([&head[..], &root].concat());
        }
    }
    images
}

/// The types of `types` that matches are made of.
const TRUTH_AND_NUMBER: [u16; 2] = [1, 2];
const POINTCUT: u16 = 8;
const STACK: u16 = 12;

/// Matches of a stack over numbers: entries of each type; and in the first branch, under no pointcut, one or two and
/// with each close, a variable by each number and of each type.
pub fn match_rules() -> Vec<Vec<u8>> {
    let mut types = types();
    let (count, [truth, number]) = (types.len() as u16 + 1, TRUTH_AND_NUMBER);
    types.push(record(23, &[truth, 0]));
    let head = [record(1, &[1]), types.concat()].concat();
    let mut images = vec![];
    for choice in choices(2, count) {
        images.push(
            [&head[..], &over_aborts(58, &[], &[0], number, &[STACK, number, number, choice[0], choice[1]])].concat(),
        );
    }
    for pointcuts in [&[][..], &[POINTCUT], &[count - 1, POINTCUT]] {
        for choice in choices(3, count) {
            let (close, k, of) = (choice[0], choice[1], choice[2]);
            if close < 2 && k < 4 {
                images.push([&head[..], &match_of(pointcuts, close, record(35, &[of, k]), of)].concat());
            }
        }
    }
    images
}

/// A match of a stack with such pointcuts between entries for anything, with this first branch of this type, as the
/// root.
fn match_of(pointcuts: &[u16], close: u16, yes: Vec<u8>, of: u16) -> Vec<u8> {
    let aborts = pointcuts.iter().flat_map(|cut| record(53, &[*cut]));
    let entries = (0..pointcuts.len() as u16).flat_map(|i| [i + 4, 0]);
    let fields: Vec<u16> = [of, 0, 1, 2].into_iter().chain(entries).chain([close]).collect();
    [record(56, &[STACK]), yes, record(53, &[of]), aborts.collect(), record(58, &fields)].concat()
}

/// Domains 3 below 1 and 2, both below 0: 1 and 2 are not ordered.
const MASKS: [u16; 4] = [0b0001, 0b0011, 0b0101, 0b1111];

/// The type record of kind 20 to 25 over number, unit (types 0 and 1) at a domain; an object's second method is at the
/// next one.
fn type_at(kind: u16, p: u16) -> Vec<u8> {
    match kind {
        20 => record(20, &[0, p, 0]),
        24 => record(24, &[p]),
        25 => record(25, &[p, 0, (p + 1) % 4, 0]),
        _ => record(kind, &[0, p]),
    }
}

/// A term whose types carry domains, the children with the kind of their type; the others are numbers.
struct Case {
    kind: u16,
    own: u16,
    children: &'static [u16],
    behind: Others,
}

const NUMBER: u16 = 18;
const UNIT: u16 = 16;
const STACK_KIND: u16 = 26;
const CASES: [Case; 17] = [
    Case { kind: 42, own: NUMBER, children: &[20, NUMBER], behind: &[] },
    Case { kind: 45, own: UNIT, children: &[22, NUMBER], behind: &[] },
    Case { kind: 44, own: 22, children: &[], behind: &[] },
    Case { kind: 49, own: 21, children: &[NUMBER], behind: &[] },
    Case { kind: 50, own: NUMBER, children: &[21], behind: &[] },
    Case { kind: 51, own: UNIT, children: &[21, NUMBER], behind: &[] },
    Case { kind: 48, own: UNIT, children: &[24], behind: &[] },
    Case { kind: 46, own: 23, children: &[], behind: &[] },
    Case { kind: 46, own: 23, children: &[22], behind: &[] },
    Case { kind: 46, own: 23, children: &[22, 22], behind: &[] },
    Case { kind: 47, own: 24, children: &[23, UNIT], behind: &[] },
    Case { kind: 41, own: 20, children: &[NUMBER], behind: &[] },
    Case { kind: 54, own: 25, children: &[NUMBER, NUMBER], behind: &[] },
    Case { kind: 55, own: NUMBER, children: &[25], behind: &[0] },
    Case { kind: 55, own: NUMBER, children: &[25], behind: &[1] },
    Case { kind: 57, own: NUMBER, children: &[22, NUMBER, NUMBER], behind: &[] },
    Case { kind: 58, own: NUMBER, children: &[STACK_KIND, NUMBER, NUMBER, 23, 23], behind: &[1] },
];

/// The number of a type in an image, which gets it if it is new.
fn number(types: &mut Vec<Vec<u8>>, of: Vec<u8>) -> u16 {
    let known = types.iter().position(|t| *t == of);
    known.unwrap_or_else(|| {
        types.push(of);
        types.len() - 1
    }) as u16
}

/// The case at current domain c with these domains: in a lower to c, a mark whose value is the case's term.
fn at_domain(case: &Case, c: u16, domains: &[u16]) -> Vec<u8> {
    let mut types = vec![record(NUMBER, &[]), record(UNIT, &[])];
    let mut domains = domains.iter();
    let mut of = |kind: u16| match kind {
        NUMBER => 0,
        UNIT => 1,
        STACK_KIND => number(&mut types, record(STACK_KIND, &[])),
        _ => number(&mut types, type_at(kind, *domains.next().unwrap())),
    };
    let own = of(case.own);
    let children: Vec<u16> = case.children.iter().map(|kind| of(*kind)).collect();
    let label = number(&mut types, record(22, &[own, c]));
    let n = children.len() as u16;
    [
        MASKS.iter().flat_map(|mask| record(1, &[*mask])).collect(),
        types.concat(),
        over_aborts(case.kind, &[], case.behind, own, &children),
        record(53, &[label]),
        record(45, &[1, n + 1, n]),
        record(52, &[1, c, n + 2]),
    ]
    .concat()
}

/// A lower to p inside a lower to c.
fn lowers(c: u16, p: u16) -> Vec<u8> {
    let masks: Vec<u8> = MASKS.iter().flat_map(|mask| record(1, &[*mask])).collect();
    [masks, record(UNIT, &[]), record(53, &[0]), record(52, &[0, p, 0]), record(52, &[0, c, 1])].concat()
}

/// A takedown of p inside a lower to c.
fn takedowns(c: u16, p: u16) -> Vec<u8> {
    let masks: Vec<u8> = MASKS.iter().flat_map(|mask| record(1, &[*mask])).collect();
    [masks, record(UNIT, &[]), record(59, &[0, p]), record(52, &[0, c, 0])].concat()
}

/// Each case at each current domain, over types of each domain.
pub fn domain_rules() -> Vec<Vec<u8>> {
    let both = |choice: Vec<u16>| [lowers(choice[0], choice[1]), takedowns(choice[0], choice[1])];
    let mut images: Vec<Vec<u8>> = choices(2, 4).into_iter().flat_map(both).collect();
    for case in &CASES {
        let carry = |kind: &u16| (20..=25).contains(kind);
        let count = usize::from(carry(&case.own)) + case.children.iter().filter(|kind| carry(kind)).count();
        images.extend(choices(count + 1, 4).iter().map(|choice| at_domain(case, choice[0], &choice[1..])));
    }
    images
}
