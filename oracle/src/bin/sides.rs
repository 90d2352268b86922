//! The oracle's own two sides compared: the documents (`scope`) beside the Rust (`kapitsa`); of counts the
//! documents alone, beside the figures of the request's page.
fn main() {
    let more = std::env::args().nth(1).map_or(1, |n| n.parse().expect("how many times the default"));
    let counted = oracle::compare::compare_multi(&oracle::scope::Scope, more);
    oracle::compare::compare(&oracle::scope::Scope, &oracle::kapitsa::Rust, more, counted);
}
