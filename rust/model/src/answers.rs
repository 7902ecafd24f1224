//! The block answers in the order in which they are looked for. A number says which answer it is and
//! nothing of its place in that order; whoever asks whether a check was passed asks here.

/// The checks on a block, in the order in which they are made.
pub const CHECKS: [u8; 13] = [10, 24, 11, 12, 13, 14, 15, 16, 17, 18, 19, 22, 23];

/// What stops a transfer that the checks let through.
pub const STOPS: [u8; 1] = [20];

/// Whether a block's answer says that the checks let it through.
pub(crate) fn let_through(answer: u8) -> bool {
    !CHECKS.contains(&answer)
}

/// Whether a block's answer says that it passed a check: neither that one nor one before it gave the
/// answer.
pub(crate) fn passed(check: u8, answer: u8) -> bool {
    !CHECKS
        .split_inclusive(|each| *each == check)
        .next()
        .is_some_and(|up_to| up_to.contains(&answer))
}
