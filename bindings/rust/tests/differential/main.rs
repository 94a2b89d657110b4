//! The library against an independent implementation of documents 01 to 003: answers, log, report and work area of
//! calls on random images (well-typed, looped, damaged), also over several frames at once, and on images made for each
//! refusal and each outcome; what is said of an image without a run (document 02, card 10), its fixed form (card 11),
//! the form without watches (card 13), and these cards' claims.
//!
//! IMAGES is how many random images are tried, SEED where they begin:
//!     IMAGES=100000 SEED=7 cargo test --test differential
mod compare;
mod constructors;
mod counted;
mod counts;
mod damage;
mod generate;
mod halves;
mod images;
mod made;
mod objects;
mod random;
mod reference;
mod rules;
mod stack_images;
mod stacks;
mod takedowns;
mod watched;
mod written;

use compare::{compare, compare_frames, Given};
use counts::Counts;
use random::Random;
use reference::{Ran, Refused, REPORT, WORK};

/// A number from the environment.
fn setting(name: &str, default: u64) -> u64 {
    match std::env::var(name) {
        Ok(text) => text.parse().unwrap_or_else(|_| panic!("{name} is a number")),
        Err(_) => default,
    }
}

/// Calls once and counts it.
fn call(random: &mut Random, counts: &mut Counts, given: &Given) -> Result<Ran, Refused> {
    let answer = compare(random, given);
    counts.call(&answer);
    answer
}

/// The images that are made for one refusal or outcome.
fn made_images(random: &mut Random, counts: &mut Counts) {
    let refused = [made::refused(), objects::refused(), stacks::refused(), takedowns::refused()].concat();
    for (number, image) in refused {
        let answer = call(random, counts, &made::ample(&image));
        assert_eq!(answer.err().map(|refused| refused.0), Some(number), "image made for refusal {number}");
    }
    for (number, given) in made::short(&made::constant()) {
        let answer = call(random, counts, &given);
        assert_eq!(answer.err(), Some(Refused(number, 0)), "call made for refusal {number}");
    }
    let ending = [made::ending(), objects::ending(), stacks::ending(), takedowns::ending(), halves::ending()].concat();
    for (outcome, image) in ending {
        let budget = if outcome == 1 { 3 } else { u32::MAX };
        let ran = call(random, counts, &Given { budget, ..made::ample(&image) }).expect("an image that is accepted");
        assert_eq!(ran.outcome, outcome, "image made for outcome {outcome}");
        if outcome > 1 {
            budget_at_the_end(random, counts, &image, &ran);
        }
    }
    let answer = call(random, counts, &Given { budget: 0, log: 0, ..made::ample(&made::printing()) });
    assert_eq!(answer.ok().map(|ran| ran.outcome), Some(9), "no room for the first step at budget 0");
}

/// Card 5: where the budget ends at a step that lacks room, the room is answered, and an abort is spent.
fn budget_at_the_end(random: &mut Random, counts: &mut Counts, image: &[u8], ran: &Ran) {
    let (budget, outcome) = if ran.outcome == 2 { (steps_of(ran) - 1, 1) } else { (steps_of(ran), ran.outcome) };
    let again =
        call(random, counts, &Given { budget, ..made::ample(image) }).ok().map(|ran| (ran.outcome, steps_of(&ran)));
    assert_eq!(again, Some((outcome, budget)), "image made for outcome {} at its budget", ran.outcome);
}

/// Images outside the class of those whose needs are told.
fn images_outside(counts: &mut Counts) {
    for image in counted::outside() {
        let answer = counted::compare(&image);
        assert!(matches!(answer, Err(Refused(19, _))), "image made for refusal 19: {answer:?}");
        counts.needs(&answer);
    }
}

/// The steps that a report says.
fn steps_of(ran: &Ran) -> u32 {
    u32::from_le_bytes(ran.report[6..10].try_into().unwrap())
}

/// Every case of the rules, in small images.
fn rule_images(random: &mut Random, counts: &mut Counts) {
    for image in rules::type_rules().iter().chain(&rules::match_rules()).chain(&rules::domain_rules()) {
        let given = Given { log: 0, ..made::ample(image) };
        let answer = call(random, counts, &given);
        counts.image(&answer);
    }
}

/// A length about `length`: a little less, the same, or more.
fn about(random: &mut Random, length: usize) -> usize {
    match random.below(10) {
        0 => random.below(length + 1),
        1 => length.saturating_sub(random.between(1, 12)),
        2..=4 => length,
        _ => length + random.below(100),
    }
}

/// The fixed form of an image; now and then it is called as the image was, and leaves the same.
fn written_image(random: &mut Random, counts: &mut Counts, given: &Given, answer: &Result<Ran, Refused>) {
    let fixed = written::fixed(random, given.image);
    counts.writing(&fixed);
    let (Ok(form), Ok(ran)) = (fixed, answer) else { return };
    written::try_fixed(random, given.image, &form);
    if random.chance(20) {
        let again = call(random, counts, &Given { image: &form, ..given.clone() }).ok();
        let left = again.as_ref().map(|ran| (&ran.log, &ran.report));
        assert!(left == Some((&ran.log, &ran.report)), "the fixed form runs in another way");
    }
    stripped_image(random, counts, given, ran);
}

/// The form without watches; now and then it is called as the image was.
fn stripped_image(random: &mut Random, counts: &mut Counts, given: &Given, ran: &Ran) {
    let (high, stripped) = written::stripped(random, given.image);
    counts.writing(&stripped);
    let Ok(form) = stripped else { return };
    if random.chance(40) {
        let bare = call(random, counts, &Given { image: &form, ..given.clone() });
        let bare = bare.expect("a stripped image is always accepted");
        written::try_stripped(given.image, high, ran, &bare);
    }
}

/// One random image: a call with ample memory, then calls with budgets and lengths about those that the first one used.
fn random_image(random: &mut Random, counts: &mut Counts) {
    let image = images::image(random);
    let mut frame = vec![0; random.below(300)];
    random.fill(&mut frame);
    let first = Given { frame, ..made::ample(&image) };
    let answer = call(random, counts, &first);
    counts.image(&answer);
    let needs = counted::compare(&image);
    counts.needs(&needs);
    let try_claims = |given: &Given, answer: &Result<Ran, Refused>| {
        if let (Ok(needs), Ok(ran)) = (&needs, answer) {
            counted::try_claims(given.image, needs, ran, given.budget, given.log);
        }
    };
    try_claims(&first, &answer);
    written_image(random, counts, &first, &answer);
    let (steps, log) = match &answer {
        Ok(ran) => (steps_of(ran), ran.log.len()),
        Err(_) => (0, 0),
    };
    for _ in 0..3 {
        let budget = match random.below(4) {
            0 => steps.saturating_add(random.below(3) as u32).saturating_sub(1),
            1 => random.bits() as u32,
            _ => random.below(steps as usize + 1) as u32,
        };
        let log = about(random, log);
        let (report, work) = (about(random, REPORT), about(random, WORK));
        let frame = first.frame[..random.below(first.frame.len() + 1)].to_vec();
        let given = Given { image: &image, frame, budget, log, report, work };
        let answer = call(random, counts, &given);
        try_claims(&given, &answer);
        if random.chance(40) {
            compare_frames(random, &given);
        }
    }
}

fn main() {
    let (images, seed) = (setting("IMAGES", 4_000), setting("SEED", 1));
    let mut counts = Counts::default();
    made_images(&mut Random::new(seed), &mut counts);
    rule_images(&mut Random::new(seed), &mut counts);
    images_outside(&mut counts);
    println!("made for a refusal, an outcome or a rule:");
    counts.print();
    for i in 0..images {
        // Each image has a seed of its own, so that one alone can be tried again.
        let result = std::panic::catch_unwind(std::panic::AssertUnwindSafe(|| {
            random_image(&mut Random::new(seed.wrapping_add(i)), &mut counts)
        }));
        assert!(result.is_ok(), "the image of SEED={} differs", seed.wrapping_add(i));
    }
    println!("and with random images:");
    counts.print();
    assert!(counts.complete(), "a refusal or an outcome did not occur");
}
