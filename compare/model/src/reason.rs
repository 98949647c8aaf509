//! Why a job is refused.

/// The number of the reason for which a job is refused: 1 size .. 10 unsure.
#[derive(Clone, Copy, Debug, PartialEq, Eq, PartialOrd, Ord)]
pub enum Reason {
    Size = 1,
    Fit,
    Muddle,
    Tie,
    Value,
    Ceiling,
    Idle,
    Sheet,
    Paper,
    Unsure,
}

/// `reason`, when it holds. Checks follow each other by rising number, so the lowest number is given, but unsure before idle, and fit last of a listing; those of a
/// sheet by its sequence, so the first met is.
pub(crate) fn refuse_if(holds: bool, reason: Reason) -> Result<(), Reason> {
    if holds {
        Err(reason)
    } else {
        Ok(())
    }
}

/// "n is below 2 or above 20"
pub(crate) fn check_size(n: usize) -> Result<(), Reason> {
    refuse_if(!(2..=20).contains(&n), Reason::Size)
}
