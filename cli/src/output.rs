//! Standard output: nothing that is written may be lost without a word.
use crate::failure::Failure;
use std::io::{self, BufWriter, IsTerminal, Write};
use std::sync::atomic::{AtomicBool, Ordering};

extern "C" {
    fn signal(number: i32, handler: usize) -> usize;
    fn fcntl(descriptor: i32, command: i32, ...) -> i32;
}

/// Whether standard output was closed when the command began.
static WAS_CLOSED: AtomicBool = AtomicBool::new(false);

extern "C" fn note_closed_output() {
    const F_GETFD: i32 = 1;
    // SAFETY: asking for the flags of a descriptor changes nothing, whether it is open or not.
    WAS_CLOSED.store(unsafe { fcntl(1, F_GETFD) } == -1, Ordering::Relaxed);
}

/// Called before Rust's runtime, which opens /dev/null in place of a closed output: what is written there would be lost without a word.
#[used]
#[link_section = ".init_array"]
static BEFORE_THE_RUNTIME: extern "C" fn() = note_closed_output;

/// Lets a broken pipe end the command as it ends any filter: by the signal, quietly. Rust's runtime ignores the signal.
pub fn end_on_broken_pipe() {
    const SIGPIPE: i32 = 13;
    const SIG_DFL: usize = 0;
    // SAFETY: no other thread runs yet, and the default action needs no handler.
    unsafe { signal(SIGPIPE, SIG_DFL) };
}

/// Writes to standard output as `print` says, and flushes it.
pub fn write(print: impl FnOnce(&mut dyn Write) -> io::Result<()>) -> Result<(), Failure> {
    if WAS_CLOSED.load(Ordering::Relaxed) {
        const EBADF: i32 = 9;
        return Err(Failure::Output(io::Error::from_raw_os_error(EBADF)));
    }
    let mut output = BufWriter::new(io::stdout().lock());
    print(&mut output).and_then(|()| output.flush()).map_err(Failure::Output)
}

/// Writes help or the version, with emphasis on a terminal.
pub fn write_help(help: &clap::Error) -> Result<(), Failure> {
    let text = help.render();
    write(|output| match io::stdout().is_terminal() {
        true => write!(output, "{}", text.ansi()),
        false => write!(output, "{text}"),
    })
}

/// The report's word.
pub fn yes_no(yes: bool) -> &'static str {
    if yes {
        "yes"
    } else {
        "no"
    }
}
