//! Ids of requests, by which an answer is found in the log.

use hyper::body::Bytes;
use hyper::header::HeaderValue;
use std::fmt::{self, Display};

/// The hexadecimal digits of a number.
const DIGITS: usize = 16;

/// A run of the server: its requests have one beginning.
#[derive(Debug)]
pub struct Run(String);

impl Run {
    /// With a drawn beginning; where none can be drawn ids are unique in one run alone.
    pub fn drawn() -> Run {
        let mut drawn = [0; 8];
        let _ = getrandom::getrandom(&mut drawn);
        Run(format!("{:016x}", u64::from_ne_bytes(drawn)))
    }

    /// The id of the request with this number.
    pub fn request(&self, number: u64) -> RequestId<'_> {
        RequestId { run: &self.0, number }
    }
}

/// The id of a request.
#[derive(Clone, Copy, Debug)]
pub struct RequestId<'r> {
    run: &'r str,
    number: u64,
}

impl Display for RequestId<'_> {
    fn fmt(&self, f: &mut fmt::Formatter<'_>) -> fmt::Result {
        write!(f, "{}-{:x}", self.run, self.number)
    }
}

impl RequestId<'_> {
    /// As a header has it.
    pub fn value(self) -> Option<HeaderValue> {
        let mut digits = [0; DIGITS];
        hex::encode_to_slice(self.number.to_be_bytes(), &mut digits).ok()?;
        let zeros = digits.iter().take(DIGITS - 1).take_while(|digit| **digit == b'0').count();
        let mut text = Vec::with_capacity(self.run.len() + 1 + DIGITS - zeros);
        text.extend_from_slice(self.run.as_bytes());
        text.push(b'-');
        text.extend_from_slice(&digits[zeros..]);
        HeaderValue::from_maybe_shared(Bytes::from(text)).ok()
    }
}

#[cfg(test)]
mod tests {
    use super::Run;

    #[test]
    fn ids_say_the_run_and_the_number() {
        let run = Run("00000000000000a5".to_string());
        assert_eq!(run.request(0x1f).to_string(), "00000000000000a5-1f");
        for (number, id) in [(0, "00000000000000a5-0"), (0x1f0, "00000000000000a5-1f0"), (u64::MAX, "00000000000000a5-ffffffffffffffff")] {
            assert_eq!(run.request(number).value().unwrap(), id);
            assert_eq!(run.request(number).to_string(), id);
        }
    }

    #[test]
    fn runs_differ() {
        assert_ne!(Run::drawn().0, Run::drawn().0);
    }
}
