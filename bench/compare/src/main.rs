//! Measures the verified engine beside the plain Rust engine of the crate `baseline`.
use bench::Answer;

/// Which of the places: the code stands behind 16 bytes that are never run, and 16 more for each. The number is given
/// when the program is compiled.
const PLACE: usize = match option_env!("BENCH_PLACE") {
    Some(place) => (place.as_bytes()[0] - b'0') as usize,
    None => 0,
};

core::arch::global_asm!(
    ".pushsection .text.bench_place,\"ax\"",
    ".globl bench_place",
    "bench_place:",
    ".skip {bytes}",
    ".popsection",
    bytes = const 16 * (PLACE + 1),
);

extern "C" {
    static bench_place: u8;
}

/// The plain engine, with its answer as the bench has it.
fn plain(image: &[u8], frame: &[u8], budget: u32, log: &mut [u8], report: &mut [u8], work: &mut [u8]) -> Answer {
    match baseline::engine(image, frame, budget, log, report, work) {
        baseline::Answer::Run { log, report } => Ok((log, report)),
        baseline::Answer::Refused { number, place } => Err((number, place as usize)),
    }
}

fn main() {
    // Named, so that the linker keeps the bytes.
    std::hint::black_box(&raw const bench_place);
    bench::main(Some(plain));
}
