//! Runs the Rust so that a panic of it is seen as one and never as an answer.

use std::cell::RefCell;
use std::panic::{self, AssertUnwindSafe, PanicHookInfo};
use std::sync::Once;

use crate::answer::Answer;

thread_local! {
    /// While the Rust runs: the text of its panic, once there is one.
    static MESSAGE: RefCell<Option<String>> = const { RefCell::new(None) };
}

/// What `ask` answers, or the panic that ended it.
pub fn caught(ask: impl FnOnce() -> Answer) -> Answer {
    static HOOK: Once = Once::new();
    HOOK.call_once(keep_messages);
    MESSAGE.set(Some(String::new()));
    let result = panic::catch_unwind(AssertUnwindSafe(ask));
    let message = MESSAGE.take().unwrap_or_default();
    result.unwrap_or(Answer::Panic(message))
}

/// Keeps the message of a panic of the Rust; other panics are reported as ever.
fn keep_messages() {
    let usual = panic::take_hook();
    panic::set_hook(Box::new(move |info| {
        let kept = MESSAGE.with_borrow_mut(|message| {
            message
                .as_mut()
                .map(|message| *message = text(info))
                .is_some()
        });
        if !kept {
            usual(info);
        }
    }));
}

/// The place, by file name alone, and the message.
fn text(info: &PanicHookInfo<'_>) -> String {
    let message = info.payload_as_str().unwrap_or("without a message");
    let message = message.replace('\n', " ");
    info.location().map_or(message.clone(), |place| {
        let file = place.file().rsplit('/').next().unwrap_or_default();
        format!("{file}:{}: {message}", place.line())
    })
}
