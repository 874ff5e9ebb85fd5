//! The test of form for a lone manager (RULES E3, S2): canonical addresses, one half, no wrap.

use crate::answer::Refusal;
use crate::calls::ManagerCall;

/// # Errors
/// `BadAddress` before `BadRange`, as the lower number wins.
pub fn test(call: &ManagerCall) -> Result<(), Refusal> {
    match *call {
        ManagerCall::Manager { start, size } => segment(start, size),
        ManagerCall::Mark { start, len } | ManagerCall::Release { start, len } => {
            segment(start, len)
        }
        ManagerCall::Split { start, len, at } => address(at).and_then(|()| segment(start, len)),
        ManagerCall::Reserve { .. } | ManagerCall::Segments => Ok(()),
    }
}

fn address(addr: u64) -> Result<(), Refusal> {
    let canonical = matches!(addr >> 47, 0 | 0x1_ffff);
    canonical.then_some(()).ok_or(Refusal::BadAddress)
}

/// The start is canonical, and the last byte, if there is one, lies in the same half.
fn segment(start: u64, len: u64) -> Result<(), Refusal> {
    address(start)?;
    let Some(to_last) = len.checked_sub(1) else {
        return Ok(());
    };
    let last = start.checked_add(to_last).ok_or(Refusal::BadRange)?;
    let one_half = address(last).is_ok() && last >> 63 == start >> 63;
    one_half.then_some(()).ok_or(Refusal::BadRange)
}
