//! The calls by the library for C.

use crate::{Calls, ENVIRONMENT, EXTRA};
use std::ffi::c_void;
use std::ptr::{null, null_mut};

#[repr(C)]
struct Text {
    bytes: *const u8,
    length: usize,
}

#[repr(C)]
struct Span {
    start: usize,
    length: usize,
}

/// `struct pep508_interner`.
#[repr(C)]
struct Interner {
    is_open: bool,
    at: *mut c_void,
}

/// `struct pep508_options`. The calls take the defaults, as a null pointer.
#[repr(C)]
struct Options([u8; 0]);

type Environment = [Text; 11];

#[link(name = "pep508", kind = "static")]
unsafe extern "C" {
    fn pep508_requirement_check(
        text: *const u8, length: usize, options: *const Options, options_count: usize,
        span: *mut Span, message: *mut u8, message_length: usize, needed: *mut usize,
    ) -> i32;
    fn pep508_requirement_normalize(
        text: *const u8, length: usize, options: *const Options, options_count: usize,
        buffer: *mut u8, buffer_length: usize, needed: *mut usize,
    ) -> i32;
    fn pep508_marker_normalize(
        text: *const u8, length: usize, options: *const Options, options_count: usize,
        buffer: *mut u8, buffer_length: usize, needed: *mut usize,
    ) -> i32;
    fn pep508_marker_evaluate(
        text: *const u8, length: usize, environment: *const Environment, extras: *const Text,
        extras_count: usize, options: *const Options, options_count: usize, value: *mut bool,
    ) -> i32;
    fn pep508_interner_new(
        handle: *mut Interner, options: *const Options, options_count: usize,
    ) -> i32;
    fn pep508_interner_free(handle: *mut Interner);
    fn pep508_interner_mark(handle: *mut Interner, count: *mut usize) -> i32;
    fn pep508_interner_release(handle: *mut Interner, count: usize) -> i32;
    fn pep508_marker_parse(
        handle: *mut Interner, text: *const u8, length: usize, number: *mut usize,
    ) -> i32;
    fn pep508_marker_and(handle: *mut Interner, a: usize, b: usize, number: *mut usize) -> i32;
    fn pep508_marker_or(handle: *mut Interner, a: usize, b: usize, number: *mut usize) -> i32;
    fn pep508_marker_not(handle: *mut Interner, a: usize, number: *mut usize) -> i32;
    fn pep508_marker_equal(handle: *mut Interner, a: usize, b: usize, value: *mut bool) -> i32;
    fn pep508_marker_disjoint(handle: *mut Interner, a: usize, b: usize, value: *mut bool) -> i32;
    fn pep508_marker_evaluate_number(
        handle: *mut Interner, number: usize, environment: *const Environment,
        extras: *const Text, extras_count: usize, value: *mut bool,
    ) -> i32;
    fn pep508_interner_set_environment(
        handle: *mut Interner, environment: *const Environment, extras: *const Text,
        extras_count: usize,
    ) -> i32;
    fn pep508_marker_is_true(handle: *mut Interner, number: usize, value: *mut bool) -> i32;
    fn pep508_marker_text(
        handle: *mut Interner, number: usize, buffer: *mut u8, buffer_length: usize,
        needed: *mut usize,
    ) -> i32;
}

fn text(of: &'static str) -> Text {
    Text { bytes: of.as_ptr(), length: of.len() }
}

/// What a call wrote, which must have answered `PEP508_DONE`.
fn done<T>(mut result: T, call: impl FnOnce(&mut T) -> i32) -> T {
    let answer = call(&mut result);
    assert_eq!(answer, 0);
    result
}

/// An interner, and what calls take besides.
pub struct Library {
    handle: Interner,
    buffer: [u8; 4096],
    environment: Environment,
    extra: Text,
}

impl Library {
    pub fn new() -> Library {
        let shut = Interner { is_open: false, at: null_mut() };
        Library {
            handle: done(shut, |handle| unsafe { pep508_interner_new(handle, null(), 0) }),
            buffer: [0; 4096],
            environment: ENVIRONMENT.map(text),
            extra: text(EXTRA),
        }
    }
}

impl Drop for Library {
    fn drop(&mut self) {
        unsafe { pep508_interner_free(&mut self.handle) };
    }
}

impl Calls for Library {
    fn check(&mut self, text: &str) -> bool {
        let (mut span, mut needed) = (Span { start: 0, length: 0 }, 0);
        let answer = unsafe {
            pep508_requirement_check(
                text.as_ptr(), text.len(), null(), 0, &mut span, self.buffer.as_mut_ptr(),
                self.buffer.len(), &mut needed,
            )
        };
        answer == 0
    }

    fn normalize(&mut self, text: &str) -> usize {
        done(0, |needed| unsafe {
            pep508_requirement_normalize(
                text.as_ptr(), text.len(), null(), 0, self.buffer.as_mut_ptr(), self.buffer.len(),
                needed,
            )
        })
    }

    fn marker_normalize(&mut self, text: &str) -> usize {
        done(0, |needed| unsafe {
            pep508_marker_normalize(
                text.as_ptr(), text.len(), null(), 0, self.buffer.as_mut_ptr(), self.buffer.len(),
                needed,
            )
        })
    }

    fn marker_evaluate(&mut self, text: &str) -> bool {
        done(false, |value| unsafe {
            pep508_marker_evaluate(
                text.as_ptr(), text.len(), &self.environment, &self.extra, 1, null(), 0, value,
            )
        })
    }

    fn parse(&mut self, text: &str) -> usize {
        done(0, |number| unsafe {
            pep508_marker_parse(&mut self.handle, text.as_ptr(), text.len(), number)
        })
    }

    fn and(&mut self, a: usize, b: usize) -> usize {
        done(0, |number| unsafe { pep508_marker_and(&mut self.handle, a, b, number) })
    }

    fn or(&mut self, a: usize, b: usize) -> usize {
        done(0, |number| unsafe { pep508_marker_or(&mut self.handle, a, b, number) })
    }

    fn not(&mut self, a: usize) -> usize {
        done(0, |number| unsafe { pep508_marker_not(&mut self.handle, a, number) })
    }

    fn equal(&mut self, a: usize, b: usize) -> bool {
        done(false, |value| unsafe { pep508_marker_equal(&mut self.handle, a, b, value) })
    }

    fn disjoint(&mut self, a: usize, b: usize) -> bool {
        done(false, |value| unsafe { pep508_marker_disjoint(&mut self.handle, a, b, value) })
    }

    fn evaluate(&mut self, a: usize) -> bool {
        done(false, |value| unsafe {
            let (environment, extra) = (&self.environment, &self.extra);
            pep508_marker_evaluate_number(&mut self.handle, a, environment, extra, 1, value)
        })
    }

    fn set_environment(&mut self) {
        done((), |_| unsafe {
            pep508_interner_set_environment(&mut self.handle, &self.environment, &self.extra, 1)
        });
    }

    fn is_true(&mut self, a: usize) -> bool {
        done(false, |value| unsafe { pep508_marker_is_true(&mut self.handle, a, value) })
    }

    fn text(&mut self, a: usize) -> usize {
        done(0, |needed| unsafe {
            let (buffer, length) = (self.buffer.as_mut_ptr(), self.buffer.len());
            pep508_marker_text(&mut self.handle, a, buffer, length, needed)
        })
    }

    fn mark(&mut self) -> usize {
        done(0, |count| unsafe { pep508_interner_mark(&mut self.handle, count) })
    }

    fn release(&mut self, count: usize) {
        done((), |()| unsafe { pep508_interner_release(&mut self.handle, count) })
    }
}
