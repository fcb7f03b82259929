//! What the examples have in common: a channel of tokens, and a transfer over it.
use ibcworld::{Ledger, Opening, Refused, Transfer};
use std::error::Error;

/// Why an example ends early.
pub type Failure = Box<dyn Error + Send + Sync>;

/// Opens a channel of port transfer between two chains. All blocks have this time.
pub fn open(x: &mut Ledger, y: &mut Ledger, time: u64) -> Result<(), Refused> {
    ibcworld::open(x, y, &Opening::of_tokens(time)).map(|_| ())
}

/// A transfer over the first channel, with a timeout by the peer's height and one by its time, of which 0 is none.
pub fn transfer(
    user: &str,
    denom: &str,
    amount: u128,
    receiver: &str,
    timeouts: (u64, u64),
) -> Transfer {
    let mut transfer = Transfer::new("channel-0", user, denom, amount, receiver);
    (transfer.timeout_height, transfer.timeout_time) = timeouts;
    transfer
}

/// Of the C library: seconds, and billionths of a second.
#[repr(C)]
struct Timespec {
    seconds: i64,
    billionths: i64,
}

/// The number of the clock that tells a program's time of the processor.
const PROCESSOR: i32 = 2;

extern "C" {
    fn clock_gettime(clock: i32, time: *mut Timespec) -> i32;
}

/// The seconds of processor that this program took until now.
#[must_use]
pub fn spent() -> f64 {
    let mut time = Timespec {
        seconds: 0,
        billionths: 0,
    };
    // SAFETY: the place is one for the time, and the clock is there.
    unsafe { clock_gettime(PROCESSOR, &mut time) };
    time.seconds as f64 + time.billionths as f64 / 1e9
}
