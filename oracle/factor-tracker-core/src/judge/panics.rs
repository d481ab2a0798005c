//! Two ages are subtracted by the Rust without a check. Built with overflow checks they panic; here that is caught.

use std::cell::RefCell;
use std::panic::{catch_unwind, resume_unwind, set_hook, take_hook, AssertUnwindSafe};
use std::sync::Once;

thread_local! {
    /// While listening, the text of a panic, which then is not printed.
    static HEARD: RefCell<Option<String>> = const { RefCell::new(None) };
}

/// The Rust's tracker, to see which age a line of it takes.
const SOURCE: &str = include_str!("../../../../target/oracle/rust/tracker/tracker3d.rs");

/// Runs the work; if an age overflowed in it, which of the two. Any other panic goes on.
pub fn unless_an_age_overflows<T>(work: impl FnOnce() -> T) -> Result<T, &'static str> {
    listen();
    HEARD.set(Some(String::new()));
    let result = catch_unwind(AssertUnwindSafe(work));
    let heard = HEARD.take().unwrap_or_default();
    match result {
        Ok(value) => Ok(value),
        Err(_)
            if heard.contains("tracker3d.rs")
                && heard.contains("attempt to subtract with overflow") =>
        {
            Err(age_in(&heard))
        }
        Err(panic) => {
            eprintln!("{heard}");
            resume_unwind(panic)
        }
    }
}

/// Which age the line takes that a panic's text names, as `tracker3d.rs:LINE:COLUMN`.
fn age_in(heard: &str) -> &'static str {
    let line = heard.split("tracker3d.rs:").nth(1);
    let line: Option<usize> = line.and_then(|rest| rest.split(':').next()?.parse().ok());
    let text = line.and_then(|line| SOURCE.lines().nth(line - 1));
    match text.is_some_and(|text| text.contains("last_seen")) {
        true => "candidate age",
        false => "window age",
    }
}

/// Whether sums and differences are checked in this build: without it no overflow could be caught.
pub fn overflow_is_checked() -> bool {
    listen();
    HEARD.set(Some(String::new()));
    let checked =
        catch_unwind(|| std::hint::black_box(i64::MIN) - std::hint::black_box(1)).is_err();
    HEARD.take();
    checked
}

/// Hears the panics of a thread that listens, and leaves the others as they were.
fn listen() {
    static ONCE: Once = Once::new();
    ONCE.call_once(|| {
        let before = take_hook();
        set_hook(Box::new(move |panic| {
            let listening = HEARD.with_borrow(Option::is_some);
            if listening {
                HEARD.set(Some(panic.to_string()));
            } else {
                before(panic);
            }
        }));
    });
}
