//! The maker of programs, given what makes no sense.
use bukzarn::program::Program;

/// Domains that are not there are below none.
#[test]
fn domains_that_are_not_there() {
    let program = Program::new(&[1, 3]);
    assert!(program.below(1, 0) && program.below(1, 1) && !program.below(0, 1));
    for absent in [2, 15, 16, 31, u16::MAX] {
        assert!(!program.below(absent, 0) && !program.below(0, absent) && !program.below(absent, absent));
    }
}
