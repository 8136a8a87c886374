//! Times in seconds.

pub type SecondsSinceUnixEpoch = i64;

#[derive(Clone, Copy, Debug)]
pub struct Time {
    pub seconds: SecondsSinceUnixEpoch,
}
