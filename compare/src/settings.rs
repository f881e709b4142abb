//! Numbers from the environment, by which a test runs more than the gate asks for.

/// The number that a variable is set to, or else this one.
pub fn setting(name: &str, otherwise: u64) -> u64 {
    std::env::var(name).map_or(otherwise, |value| {
        value.parse().unwrap_or_else(|_| panic!("{name} is to be a number, not `{value}`"))
    })
}
