//! Whether standard input and output were open when the tool was started. The runtime opens /dev/null in the place of those that
//! are closed, before main: a capture that nobody gave would be empty, and a record that went nowhere would look written.
use std::io;
use std::sync::atomic::{AtomicBool, Ordering};

const INPUT: usize = 0;
const OUTPUT: usize = 1;

static CLOSED: [AtomicBool; 2] = [AtomicBool::new(false), AtomicBool::new(false)];

/// C's number for asking whether a descriptor is open, on Linux.
const F_GETFD: i32 = 1;

extern "C" {
    fn fcntl(descriptor: i32, command: i32, ...) -> i32;
}

extern "C" fn look() {
    for (descriptor, closed) in (0..).zip(&CLOSED) {
        // SAFETY: this command takes no further argument, and reads and writes no memory of ours.
        let flags = unsafe { fcntl(descriptor, F_GETFD) };
        closed.store(flags == -1, Ordering::Relaxed);
    }
}

// The loader calls what stands in this section before the runtime is set up.
#[used]
#[link_section = ".init_array"]
static LOOK: extern "C" fn() = look;

fn open(which: usize) -> io::Result<()> {
    if CLOSED[which].load(Ordering::Relaxed) {
        return Err(io::Error::new(io::ErrorKind::NotConnected, "it is closed"));
    }
    Ok(())
}

pub fn input_open() -> io::Result<()> {
    open(INPUT)
}

pub fn output_open() -> io::Result<()> {
    open(OUTPUT)
}
