//! Reading a type file, and checking it.

use crate::Told;
use colock::Kind;
use colock_sys::{Fault, Handle, code, colock_close, colock_type_read};
use std::time::Instant;

/// The least nanoseconds in which a type is made of a text for a kind, and whether it is accepted.
fn least(kind: Kind, text: &[u8], rounds: u32) -> Result<(u128, bool), String> {
    let (mut least, mut accepted) = (u128::MAX, false);
    for _ in 0..rounds {
        let (mut handle, mut fault) = (Handle::EMPTY, Fault::default());
        let start = Instant::now();
        // SAFETY: the pointers are those of values of this function, and the text is one slice.
        let told = unsafe {
            colock_type_read(
                &mut handle,
                kind as u32,
                text.as_ptr(),
                text.len(),
                &mut fault,
            )
        };
        least = least.min(start.elapsed().as_nanos());
        // SAFETY: as above; a handle that holds nothing may be closed.
        unsafe { colock_close(&mut handle) };
        accepted = match told {
            code::OK => true,
            code::REFUSED => false,
            other => return Err(format!("code {other}, line {}", fault.line)),
        };
    }
    Ok((least, accepted))
}

/// Prints whether a text is accepted, and how long it takes to be read, and to be read and checked. The library doesn't
/// read alone: for escrow it reads, and looks at each step once at most.
pub fn measure(kind: Kind, text: &[u8], rounds: u32) -> Told {
    let (read, _) = least(Kind::Escrow, text, rounds)?;
    let (whole, accepted) = least(kind, text, rounds)?;
    let lines = text.iter().filter(|byte| **byte == b'\n').count();
    println!("accepted {accepted}\nlines {lines}\nread {read}\nwhole {whole}");
    Ok(())
}
