//! The archive that is linked has the version of this crate.

#[test]
fn one_version() {
    let parts = env!("CARGO_PKG_VERSION").split('.').map(|part| part.parse::<u32>().unwrap());
    assert_eq!(cobleskeg::version(), parts.fold(0, |number, part| 100 * number + part));
}
