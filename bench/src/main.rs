//! Measures the verified engine alone.

fn main() {
    bench::main(None);
}
