//! The stored corpora are what this program makes and says.

use second::{corpus, listing};
use std::collections::BTreeSet;

const STDIN: &[u8] = include_bytes!("../../crates/corpus/stdin");
const STDOUT: &str = include_str!("../../crates/corpus/stdout");
const PACKAGES_STDIN: &[u8] = include_bytes!("../../crates/packages/stdin");
const PACKAGES_STDOUT: &str = include_str!("../../crates/packages/stdout");

#[test]
fn stored_as_made() {
    let stale = "second corpus > crates/corpus/stdin, second list < crates/corpus/stdin > crates/corpus/stdout";
    assert!(corpus::corpus() == STDIN, "stale: {stale}");
    assert!(listing::list(STDIN) == STDOUT, "stale: {stale}");
}

#[test]
fn packages_stored_as_made() {
    let stale = "second corpus-packages > crates/packages/stdin, \
                 second list-packages < crates/packages/stdin > crates/packages/stdout";
    assert!(
        corpus::packages::corpus() == PACKAGES_STDIN,
        "stale: {stale}"
    );
    assert!(
        listing::list_packages(PACKAGES_STDIN) == PACKAGES_STDOUT,
        "stale: {stale}"
    );
}

/// The answers of a listing's lines; those of a component within a package
/// begin with a blank.
fn answers(listed: &str) -> BTreeSet<u8> {
    let items = listed.lines().filter(|line| !line.starts_with(' '));
    let answers = items.filter_map(|line| line.split(' ').nth(1)?.parse().ok());
    answers.collect()
}

#[test]
fn every_reader_number_of_the_listing_is_met() {
    let wanted = [0, 20, 21, 25, 26].into_iter().chain(2..=14).collect();
    assert_eq!(answers(STDOUT), wanted);
    let wanted = [0].into_iter().chain(2..=14).chain(20..=26).collect();
    assert_eq!(answers(PACKAGES_STDOUT), wanted);
}
