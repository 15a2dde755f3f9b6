//! `milestarling trace`: the trace of a case, or one of numbers in words.

use crate::call::Call;
use crate::input::{say, Failure};
use crate::number;
use crate::why::past;
use milestarling::Access;
use std::io::Write;

/// The bytes that a step may touch.
const BYTES: [u64; 6] = [1, 2, 4, 8, 16, 32];

/// `milestarling trace`.
pub fn command(call: &Call, output: &mut dyn Write) -> Result<(), Failure> {
    if call.operands.len() > 1 {
        return told(&numbers(&call.operands)?, output);
    }
    let past = past(&mut call.source()?)?;
    write!(output, "{past}").map_err(Failure::write)
}

fn numbers(words: &[&str]) -> Result<Vec<u64>, Failure> {
    if words.iter().all(|word| number(word).is_err()) {
        return Err(Failure::Usage(format!("one file at a time, and not {}", words.join(" "))));
    }
    let numbers: Result<Vec<u64>, String> = words.iter().map(|word| number(word)).collect();
    let numbers = numbers.map_err(|said| {
        Failure::Usage(format!("{said}: a trace in numbers has a code and an address for each step"))
    })?;
    match numbers.len() % 2 {
        0 => Ok(numbers),
        _ => Err(Failure::Usage("the last code has no address behind it".into())),
    }
}

/// Says what each step did. An entry that no step leaves is said, and those behind it are still told of.
fn told(numbers: &[u64], output: &mut dyn Write) -> Result<(), Failure> {
    let mut refused = false;
    for (at, pair) in numbers.chunks_exact(2).enumerate() {
        let (step, access) = (at + 1, Access { code: pair[0], address: pair[1] });
        if is_left_by_a_step(access) {
            writeln!(output, "step {step}: {access}").map_err(Failure::write)?;
        } else {
            refused = true;
            output.flush().map_err(Failure::write)?;
            say(format_args!("step {step}: no step leaves code {} with address {}", access.code, access.address));
        }
    }
    if refused {
        return Err(Failure::Refused);
    }
    Ok(())
}

/// Whether a step that was done may leave this. A prefetch has no address.
fn is_left_by_a_step(access: Access) -> bool {
    if access.is_prefetch() {
        access.address == 0
    } else {
        BYTES.contains(&access.bytes())
    }
}
