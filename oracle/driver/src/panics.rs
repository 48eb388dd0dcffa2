//! Runs the Rust so that a panic of it is a result, with its message, and prints nothing.

use std::any::Any;
use std::cell::Cell;
use std::panic::{self, AssertUnwindSafe};
use std::sync::Once;

thread_local! {
    /// Whether the Rust is being run: only then is a panic kept off standard error.
    static RUNNING: Cell<bool> = const { Cell::new(false) };
}

static HOOK: Once = Once::new();

/// What the call yields, or the message it panics with. After a panic the driver must
/// not be used any more; whoever calls this lets go of it.
pub fn caught<R>(call: impl FnOnce() -> R) -> Result<R, String> {
    HOOK.call_once(|| {
        let loud = panic::take_hook();
        panic::set_hook(Box::new(move |panic| {
            if !RUNNING.get() {
                loud(panic);
            }
        }));
    });
    RUNNING.set(true);
    let result = panic::catch_unwind(AssertUnwindSafe(call));
    RUNNING.set(false);
    result.map_err(message)
}

fn message(payload: Box<dyn Any + Send>) -> String {
    match payload.downcast::<String>() {
        Ok(text) => *text,
        Err(payload) => match payload.downcast::<&str>() {
            Ok(text) => text.to_string(),
            Err(_) => "without a message".into(),
        },
    }
}
