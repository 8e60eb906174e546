//! What a run has changed so far, for whatever ends it afterwards.

use std::sync::atomic::{AtomicPtr, Ordering};

use crate::plain::plain;

static MARKED: AtomicPtr<String> = AtomicPtr::new(std::ptr::null_mut());

/// Words that are ready before the change that they tell of.
pub struct Mark {
    words: &'static mut String,
}

impl Mark {
    pub fn new(words: String) -> Mark {
        Mark {
            words: Box::leak(Box::new(plain(&words).into_owned())),
        }
    }

    /// The change is made. Needs no memory; the words stay until the end of the run.
    pub fn set(self) {
        MARKED.store(self.words, Ordering::SeqCst);
    }
}

/// What is true at an end that nobody asked for.
pub fn so_far() -> &'static str {
    marked().unwrap_or("no file was changed")
}

/// The change is taken back.
pub fn clear() {
    MARKED.store(std::ptr::null_mut(), Ordering::SeqCst);
}

/// The words of the last change, if there was one.
pub fn marked() -> Option<&'static str> {
    let words = MARKED.load(Ordering::SeqCst);
    unsafe { words.as_ref() }.map(String::as_str)
}
