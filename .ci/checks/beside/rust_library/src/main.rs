//! Times a call of the library for C through `extern "C"`, or what the Rust crate has in its place:
//! rust_library WAY CALL FILE, where each line of the file is a text. Prints the nanoseconds of a
//! call in the first pass over the texts, those in the fastest of the later passes, and a sum of what
//! the calls returned, which is the same both ways.

mod foreign;
mod own;

use std::fs::read_to_string;
use std::hint::black_box;
use std::time::Instant;

/// The values of the environment in the order of `struct pep508_environment`.
const ENVIRONMENT: [&str; 11] = [
    "cpython", "3.12.1", "posix", "x86_64", "CPython", "6.1", "Linux", "#1", "3.12.1", "3.12",
    "linux",
];
const EXTRA: &str = "dev";
const PASSES: usize = 20;
/// How often a pass goes over the texts for a call that takes a few nanoseconds.
const REPEATS: usize = 50;

/// The calls that both have. A marker that is kept has a number, from 0 on. A text is returned as its
/// length.
pub trait Calls {
    fn check(&mut self, requirement: &str) -> bool;
    fn normalize(&mut self, requirement: &str) -> usize;
    fn marker_normalize(&mut self, marker: &str) -> usize;
    fn marker_evaluate(&mut self, marker: &str) -> bool;

    fn parse(&mut self, marker: &str) -> usize;
    fn and(&mut self, a: usize, b: usize) -> usize;
    fn or(&mut self, a: usize, b: usize) -> usize;
    fn not(&mut self, a: usize) -> usize;
    fn equal(&mut self, a: usize, b: usize) -> bool;
    fn disjoint(&mut self, a: usize, b: usize) -> bool;
    fn evaluate(&mut self, a: usize) -> bool;
    /// Reads the environment once, for `is_true`.
    fn set_environment(&mut self);
    fn is_true(&mut self, a: usize) -> bool;
    fn text(&mut self, a: usize) -> usize;

    /// Returns how many markers are kept.
    fn mark(&mut self) -> usize;
    /// Keeps only the first markers.
    fn release(&mut self, count: usize);
}

/// Prints the times of the passes, in each of which `pass` makes `count` calls. What the later passes
/// add is released at the end of each.
fn timed<C: Calls>(calls: &mut C, count: usize, pass: impl Fn(&mut C) -> usize) {
    let (mut first, mut least, mut sum, mut kept) = (f64::MAX, f64::MAX, 0, 0);
    for number in 0..=PASSES {
        let begun = Instant::now();
        sum = black_box(pass(calls));
        let each = begun.elapsed().as_nanos() as f64 / count as f64;
        match number {
            0 => (first, kept) = (each, calls.mark()),
            _ => least = least.min(each),
        }
        calls.release(kept);
    }
    println!("{first:.1} {least:.1} {sum}");
}

/// Times a call that takes a text.
fn of_texts<C: Calls>(calls: &mut C, lines: &[&str], call: impl Fn(&mut C, &str) -> usize) {
    timed(calls, lines.len(), |calls| lines.iter().map(|line| call(calls, black_box(line))).sum());
}

/// Times a call that takes a number.
fn of_numbers<C: Calls>(calls: &mut C, count: usize, call: impl Fn(&mut C, usize) -> usize) {
    timed(calls, count * REPEATS, |calls| {
        (0..count * REPEATS).map(|index| call(calls, black_box(index % count))).sum()
    });
}

/// Times a call that takes two numbers, on all pairs.
fn of_pairs<C: Calls>(calls: &mut C, count: usize, call: impl Fn(&mut C, usize, usize) -> usize) {
    timed(calls, count * count, |calls| {
        (0..count * count).map(|at| call(calls, black_box(at / count), at % count)).sum()
    });
}

fn run(calls: &mut impl Calls, name: &str, lines: &[&str]) {
    let count = lines.len();
    match name {
        "check" => of_texts(calls, lines, |calls, line| calls.check(line).into()),
        "normalize" => of_texts(calls, lines, |calls, line| calls.normalize(line)),
        "marker_normalize" => of_texts(calls, lines, |calls, line| calls.marker_normalize(line)),
        "marker_evaluate" => {
            of_texts(calls, lines, |calls, line| calls.marker_evaluate(line).into())
        }
        "parse" => of_texts(calls, lines, |calls, line| usize::from(calls.parse(line) > 0)),
        "text to text" => of_texts(calls, lines, |calls, line| {
            let number = calls.parse(line);
            calls.text(number)
        }),
        _ => {
            for line in lines {
                calls.parse(line);
            }
            of_kept(calls, name, count);
        }
    }
}

/// Times a call on markers that are kept.
fn of_kept(calls: &mut impl Calls, name: &str, count: usize) {
    match name {
        "and" => of_pairs(calls, count, |calls, a, b| usize::from(calls.and(a, b) > 0)),
        "or" => of_pairs(calls, count, |calls, a, b| usize::from(calls.or(a, b) > 0)),
        "equal" => of_pairs(calls, count, |calls, a, b| calls.equal(a, b).into()),
        "disjoint" => of_pairs(calls, count, |calls, a, b| calls.disjoint(a, b).into()),
        "not" => of_numbers(calls, count, |calls, a| usize::from(calls.not(a) > 0)),
        "evaluate" => of_numbers(calls, count, |calls, a| calls.evaluate(a).into()),
        "is_true" => {
            calls.set_environment();
            of_numbers(calls, count, |calls, a| calls.is_true(a).into());
        }
        "text" => of_numbers(calls, count, |calls, a| calls.text(a)),
        _ => panic!("no call {name}"),
    }
}

fn main() {
    let words: Vec<String> = std::env::args().skip(1).collect();
    let [way, name, file] = words.as_slice() else {
        panic!("rust_library WAY CALL FILE");
    };
    let text = read_to_string(file).expect("a file of texts");
    let lines: Vec<&str> = text.lines().collect();
    match way.as_str() {
        "library" => run(&mut foreign::Library::new(), name, &lines),
        _ => run(&mut own::Crate::new(), name, &lines),
    }
}
