//! Asks the library from Rust by `extern "C"`.

use std::ptr::null;

const DONE: i32 = 0;
const INVALID: i32 = 1;
const BUFFER_TOO_SMALL: i32 = 3;

/// `struct pep508_options`. These calls take the defaults, as a null pointer.
#[repr(C)]
struct Options([u8; 0]);

/// `struct pep508_span`.
#[repr(C)]
#[derive(Debug, Default)]
struct Span {
    start: usize,
    length: usize,
}

unsafe extern "C" {
    fn pep508_requirement_check(
        text: *const u8,
        length: usize,
        options: *const Options,
        options_count: usize,
        span: *mut Span,
        message: *mut u8,
        message_length: usize,
        needed: *mut usize,
    ) -> i32;
    fn pep508_requirement_normalize(
        text: *const u8,
        length: usize,
        options: *const Options,
        options_count: usize,
        buffer: *mut u8,
        buffer_length: usize,
        needed: *mut usize,
    ) -> i32;
}

/// Why a text has no normal form.
#[derive(Debug)]
enum Refusal {
    /// The text is an invalid requirement: where, and why.
    Invalid(Span, String),
    /// Another answer of the library.
    Answer(i32),
}

/// Asks for bytes, first with a small buffer, and once more if that is too small.
fn bytes_of(mut call: impl FnMut(&mut [u8], &mut usize) -> i32) -> Result<Vec<u8>, i32> {
    let mut buffer = vec![0; 16];
    loop {
        let mut needed = 0;
        match call(&mut buffer, &mut needed) {
            DONE => {
                buffer.truncate(needed);
                return Ok(buffer);
            }
            BUFFER_TOO_SMALL => buffer.resize(needed, 0),
            answer => return Err(answer),
        }
    }
}

/// What is wrong with an invalid requirement.
fn fault_of(text: &str) -> Refusal {
    let (mut span, mut message, mut needed) = (Span::default(), [0; 200], 0);
    let answer = unsafe {
        pep508_requirement_check(
            text.as_ptr(), text.len(), null(), 0, &mut span, message.as_mut_ptr(), message.len(),
            &mut needed,
        )
    };
    match message.get(..needed) {
        Some(said) if answer == INVALID => {
            Refusal::Invalid(span, String::from_utf8_lossy(said).into_owned())
        }
        _ => Refusal::Answer(answer),
    }
}

/// The normal text of a requirement.
fn normalize(text: &str) -> Result<String, Refusal> {
    let bytes = bytes_of(|buffer, needed| unsafe {
        pep508_requirement_normalize(
            text.as_ptr(), text.len(), null(), 0, buffer.as_mut_ptr(), buffer.len(), needed,
        )
    });
    match bytes {
        Ok(bytes) => Ok(String::from_utf8_lossy(&bytes).into_owned()),
        Err(INVALID) => Err(fault_of(text)),
        Err(answer) => Err(Refusal::Answer(answer)),
    }
}

fn main() {
    for text in ["Requests [Security] >= 2.8.1 ; os_name == 'nt'", "-requests", "a @ http://[b"] {
        match normalize(text) {
            Ok(normal) => println!("{normal}"),
            Err(Refusal::Invalid(span, said)) => {
                println!("{text}: at {} for {}: {said}", span.start, span.length)
            }
            Err(Refusal::Answer(answer)) => println!("{text}: answer {answer}"),
        }
    }
}
