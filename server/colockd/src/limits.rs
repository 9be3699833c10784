//! The limits of a server, each of which docs/server.md names.

use std::time::Duration;

/// The most calls of a transaction in one request.
pub const MOST_CALLS: usize = 64;

/// The most attempts of one request.
pub const MOST_ATTEMPTS: usize = 256;

/// The most objects that one request adds.
pub const MOST_ADDED: usize = 4_096;

/// The most objects of a page of a list.
pub const LONGEST_PAGE: usize = 1_000;

/// The most objects of a snapshot.
pub const LARGEST_SNAPSHOT: usize = 4_096;

/// The most types.
pub const MOST_TYPES: usize = 4_096;

/// The most bytes of the texts of all types.
pub const LARGEST_TYPES: usize = 16 << 20;

/// The most bytes of the bodies of all requests that are being answered.
pub const LARGEST_BODIES: usize = 64 << 20;

/// The longest that a request waits.
pub const LONGEST_WAIT: Duration = Duration::from_secs(60);

/// How long nothing may be asked of a transaction that says nothing of it, and at most.
pub const IDLE: (Duration, Duration) = (Duration::from_secs(30), Duration::from_secs(3_600));

/// The longest that a transaction is prepared: thirty days.
pub const HOLD: Duration = Duration::from_secs(30 * 24 * 3_600);

/// The most bytes of a path with its query.
pub const LONGEST_PATH: usize = 16_384;

/// The most bytes of the head of a request.
pub const LONGEST_HEAD: usize = 32_768;

/// What the one who starts a server may choose.
#[derive(Clone, Copy, Debug, PartialEq, Eq)]
pub struct Limits {
    /// The most bytes of a body.
    pub body: usize,
    /// The most connections.
    pub connections: usize,
    /// The most requests that are being answered.
    pub requests: usize,
    /// The most clients that follow the events.
    pub followers: usize,
    /// The most transactions of one token that are open.
    pub open_of_token: usize,
    /// How long the head of a request, its body, and each piece of an answer may take.
    pub patience: Duration,
}

impl Default for Limits {
    fn default() -> Limits {
        Limits { body: 2 << 20, connections: 4_096, requests: 2_048, followers: 64, open_of_token: 256, patience: Duration::from_secs(20) }
    }
}
