//! The tally, summed in 128 bits.
use mws::{Refusal, Tally};

pub fn add(tally: &mut Tally, start: u64, end: u64) -> Result<(), Refusal> {
    if end < start || end > u32::MAX.into() {
        return Err(Refusal::Range { index: 0 });
    }
    let windows = u128::from(tally.windows) + 1;
    let ticks = u128::from(tally.ticks) + u128::from(end) - u128::from(start) + 1;
    match (u64::try_from(windows), u64::try_from(ticks)) {
        (Ok(windows), Ok(ticks)) => *tally = Tally { windows, ticks },
        _ => return Err(Refusal::Full),
    }
    Ok(())
}
