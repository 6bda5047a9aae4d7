//! Standard input and output. Rust's start-up opens `/dev/null` in place of
//! one that is closed, so that a verdict would be lost without a word and a
//! file read from nowhere would look empty: whether they were closed is asked
//! before that.

use std::io::Write;
use std::os::raw::c_int;
use std::sync::atomic::{AtomicBool, Ordering};

extern "C" {
    fn fcntl(descriptor: c_int, command: c_int, ...) -> c_int;
}

/// The flags of a descriptor; -1 for one that is closed.
const F_GETFD: c_int = 1;

static CLOSED: [AtomicBool; 2] = [AtomicBool::new(false), AtomicBool::new(false)];

extern "C" fn look() {
    for (descriptor, closed) in CLOSED.iter().enumerate() {
        // The call only asks, and the descriptor need not be open.
        closed.store(unsafe { fcntl(descriptor as c_int, F_GETFD) } == -1, Ordering::Relaxed);
    }
}

/// Run by the loader before Rust's start-up.
#[used]
#[link_section = ".init_array"]
static LOOK: extern "C" fn() = look;

pub fn input_closed() -> bool {
    CLOSED[0].load(Ordering::Relaxed)
}

/// Trouble if nothing can be printed.
pub fn require_output() -> Result<(), String> {
    if CLOSED[1].load(Ordering::Relaxed) {
        return Err("cannot print: standard output is closed".to_string());
    }
    Ok(())
}

/// Prints at once.
pub fn print(text: &[u8]) -> Result<(), String> {
    require_output()?;
    let mut out = std::io::stdout().lock();
    let printed = out.write_all(text).and_then(|()| out.flush());
    printed.map_err(|error| format!("cannot print: {error}"))
}
