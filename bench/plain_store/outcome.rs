//! What came of a run, which programs of the same commands compare.

/// How many events of each kind there are, how many commands were refused, and sums of the kept states and of the
/// whole history.
#[derive(Default)]
pub struct Outcome {
    pub ops: u32,
    pub busy: u32,
    pub none: u32,
    pub commits: u32,
    pub refused: u32,
    pub kept: u64,
    pub history: u64,
}

impl Outcome {
    /// Writes it, after the least nanoseconds of a run and the bytes of an event.
    pub fn print(&self, least: u128, event_bytes: usize) {
        println!("nanoseconds {least}\nevent_bytes {event_bytes}");
        println!(
            "refused {}\nops {}\nbusy {}",
            self.refused, self.ops, self.busy
        );
        println!("none {}\ncommits {}", self.none, self.commits);
        println!("kept {}\nhistory {}", self.kept, self.history);
    }
}

/// A sum, and a further number.
pub fn folded(sum: u64, number: u32) -> u64 {
    (sum.rotate_left(5) ^ u64::from(number)).wrapping_mul(0x517c_c1b7_2722_0a95)
}
