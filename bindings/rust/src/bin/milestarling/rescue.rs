//! `milestarling rescue`.

use crate::call::Call;
use crate::input::{say, Failure};
use milestarling::Fate;
use std::fs;
use std::io::Write;

/// Writes the rescued listing, and the report to a file where one is named. What became of the lines is said in numbers, and
/// the status tells whether one was dropped.
pub fn command(call: &Call, output: &mut dyn Write) -> Result<(), Failure> {
    let rescued = milestarling::rescue(&call.source()?.rest(Vec::new())?);
    // It is written whether or not somebody reads the output.
    if let Some(name) = call.value("--report") {
        fs::write(name, rescued.report()).map_err(|error| Failure::Failed(format!("{name}: {error}")))?;
    }
    output.write_all(rescued.listing().as_bytes()).map_err(Failure::write)?;
    let dropped = rescued.count(Fate::Dropped);
    say(format_args!(
        "{} kept, {} restored, {dropped} dropped",
        rescued.count(Fate::Kept),
        rescued.count(Fate::Restored)
    ));
    if dropped > 0 {
        return Err(Failure::Refused);
    }
    Ok(())
}
