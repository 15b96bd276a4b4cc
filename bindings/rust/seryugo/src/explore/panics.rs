//! What panics of a program's threads say.

use super::play;
use super::rerun;
use std::any::Any;
use std::panic::{self, PanicHookInfo};
use std::sync::Once;

/// From now on what the threads' panics say is kept. Those of threads that are explored aren't
/// printed.
pub(crate) fn keep_panics() {
    static ONCE: Once = Once::new();
    ONCE.call_once(|| {
        let printed = panic::take_hook();
        panic::set_hook(Box::new(move |panic| {
            let is_loud = play::keeps_panics();
            if is_loud.is_some() {
                play::keep_said(place_and_text(panic));
            } else {
                rerun::panics(&place_and_text(panic));
            }
            if is_loud != Some(false) {
                printed(panic);
            }
        }));
    });
}

/// Where a panic was, and what it said.
fn place_and_text(panic: &PanicHookInfo<'_>) -> String {
    let said = said(panic.payload());
    match panic.location() {
        Some(place) => format!("{}:{}: {said}", place.file(), place.line()),
        None => said.to_string(),
    }
}

/// What a panic said.
pub(crate) fn said(panic: &(dyn Any + Send)) -> &str {
    let text = panic.downcast_ref::<String>().map(String::as_str);
    text.or_else(|| panic.downcast_ref::<&str>().copied()).unwrap_or("it said nothing")
}
