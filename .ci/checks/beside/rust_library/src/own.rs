//! The calls by the Rust crate. Those by number stand behind functions as another language calls
//! them: of the form of the library's, with a handle that may be shut and an answer for a number that
//! no marker has, and not inlined.

use crate::{Calls, ENVIRONMENT, EXTRA};
use pep508_rs::{
    ExtraName, MarkerEnvironment, MarkerEnvironmentBuilder, MarkerTree, Requirement, VerbatimUrl,
};
use std::hint::black_box;
use std::str::FromStr;

/// Markers by number, and the environment with an extra that was set.
#[derive(Default)]
struct Markers {
    markers: Vec<MarkerTree>,
    known: Option<(MarkerEnvironment, [ExtraName; 1])>,
}

/// A handle, as `struct pep508_interner`.
#[repr(C)]
struct Handle {
    is_open: bool,
    at: *mut Markers,
}

type OfOne<T> = extern "C" fn(&mut Handle, usize, &mut T) -> i32;
type OfTwo<T> = extern "C" fn(&mut Handle, usize, usize, &mut T) -> i32;

/// The functions as another language finds them, so that neither side of a call is compiled for the
/// other.
struct Functions {
    and: OfTwo<usize>,
    or: OfTwo<usize>,
    not: OfOne<usize>,
    equal: OfTwo<bool>,
    disjoint: OfTwo<bool>,
    evaluate: OfOne<bool>,
    is_true: OfOne<bool>,
}

/// Markers behind a handle.
pub struct Crate {
    handle: Handle,
    functions: Functions,
}

fn requirement(text: &str) -> Requirement<VerbatimUrl> {
    Requirement::from_str(text).expect("a requirement")
}

fn marker(text: &str) -> MarkerTree {
    MarkerTree::parse_str::<VerbatimUrl>(text).expect("a marker")
}

fn length(marker: &MarkerTree) -> usize {
    marker.try_to_string().map_or(0, |text| text.len())
}

fn environment() -> MarkerEnvironment {
    let [
        implementation_name, implementation_version, os_name, platform_machine,
        platform_python_implementation, platform_release, platform_system, platform_version,
        python_full_version, python_version, sys_platform,
    ] = ENVIRONMENT;
    let builder = MarkerEnvironmentBuilder {
        implementation_name, implementation_version, os_name, platform_machine,
        platform_python_implementation, platform_release, platform_system, platform_version,
        python_full_version, python_version, sys_platform,
    };
    builder.try_into().expect("an environment")
}

fn extras() -> [ExtraName; 1] {
    [ExtraName::from_str(EXTRA).expect("a name")]
}

fn is_true(marker: &MarkerTree) -> bool {
    marker.evaluate(&environment(), &extras())
}

const DONE: i32 = 0;
const NO_SUCH_MARKER: i32 = 8;
const SHUT: i32 = 9;
const NO_ENVIRONMENT: i32 = 10;

impl Markers {
    fn keep(&mut self, marker: MarkerTree) -> usize {
        self.markers.push(marker);
        self.markers.len() - 1
    }

    /// What a function makes of two markers, if there are both.
    fn two<T>(
        &mut self, a: usize, b: usize, to: &mut T,
        make: impl FnOnce(&mut Markers, MarkerTree, MarkerTree) -> T,
    ) -> i32 {
        match (self.markers.get(a).cloned(), self.markers.get(b).cloned()) {
            (Some(left), Some(right)) => {
                *to = make(self, left, right);
                DONE
            }
            _ => NO_SUCH_MARKER,
        }
    }
}

impl Handle {
    fn markers(&mut self) -> Option<&mut Markers> {
        self.is_open.then(|| unsafe { &mut *self.at })
    }

    /// What a function answers, if the handle is open.
    fn ask(&mut self, call: impl FnOnce(&mut Markers) -> i32) -> i32 {
        self.markers().map_or(SHUT, call)
    }
}

impl Crate {
    pub fn new() -> Crate {
        Crate {
            handle: Handle { is_open: true, at: Box::into_raw(Box::default()) },
            functions: black_box(Functions {
                and: marker_and,
                or: marker_or,
                not: marker_not,
                equal: marker_equal,
                disjoint: marker_disjoint,
                evaluate: marker_evaluate,
                is_true: marker_is_true,
            }),
        }
    }

    fn open(&mut self) -> &mut Markers {
        self.handle.markers().expect("an open handle")
    }
}

impl Drop for Crate {
    fn drop(&mut self) {
        drop(unsafe { Box::from_raw(self.handle.at) });
    }
}

extern "C" fn marker_and(handle: &mut Handle, a: usize, b: usize, number: &mut usize) -> i32 {
    handle.ask(|markers| {
        markers.two(a, b, number, |markers, mut left, right| {
            left.and(right);
            markers.keep(left)
        })
    })
}

extern "C" fn marker_or(handle: &mut Handle, a: usize, b: usize, number: &mut usize) -> i32 {
    handle.ask(|markers| {
        markers.two(a, b, number, |markers, mut left, right| {
            left.or(right);
            markers.keep(left)
        })
    })
}

extern "C" fn marker_not(handle: &mut Handle, a: usize, number: &mut usize) -> i32 {
    handle.ask(|markers| {
        markers.two(a, a, number, |markers, tree, _| markers.keep(tree.negate()))
    })
}

extern "C" fn marker_equal(handle: &mut Handle, a: usize, b: usize, value: &mut bool) -> i32 {
    handle.ask(|markers| markers.two(a, b, value, |_, left, right| left == right))
}

extern "C" fn marker_disjoint(handle: &mut Handle, a: usize, b: usize, value: &mut bool) -> i32 {
    handle.ask(|markers| markers.two(a, b, value, |_, left, right| left.is_disjoint(&right)))
}

extern "C" fn marker_evaluate(handle: &mut Handle, a: usize, value: &mut bool) -> i32 {
    handle.ask(|markers| markers.two(a, a, value, |_, tree, _| is_true(&tree)))
}

extern "C" fn marker_is_true(handle: &mut Handle, a: usize, value: &mut bool) -> i32 {
    handle.ask(|markers| {
        let Some(marker) = markers.markers.get(a) else {
            return NO_SUCH_MARKER;
        };
        let Some((environment, extras)) = &markers.known else {
            return NO_ENVIRONMENT;
        };
        *value = marker.evaluate(environment, extras);
        DONE
    })
}

/// What a call wrote, which must have answered that it is done.
fn done<T: Default>(call: impl FnOnce(&mut T) -> i32) -> T {
    let mut result = T::default();
    let answer = call(&mut result);
    assert_eq!(answer, DONE);
    result
}

impl Calls for Crate {
    fn check(&mut self, text: &str) -> bool {
        Requirement::<VerbatimUrl>::from_str(text).is_ok()
    }

    fn normalize(&mut self, text: &str) -> usize {
        requirement(text).to_string().len()
    }

    fn marker_normalize(&mut self, text: &str) -> usize {
        length(&marker(text))
    }

    fn marker_evaluate(&mut self, text: &str) -> bool {
        is_true(&marker(text))
    }

    fn parse(&mut self, text: &str) -> usize {
        self.open().keep(marker(text))
    }

    fn and(&mut self, a: usize, b: usize) -> usize {
        done(|number| (self.functions.and)(&mut self.handle, a, b, number))
    }

    fn or(&mut self, a: usize, b: usize) -> usize {
        done(|number| (self.functions.or)(&mut self.handle, a, b, number))
    }

    fn not(&mut self, a: usize) -> usize {
        done(|number| (self.functions.not)(&mut self.handle, a, number))
    }

    fn equal(&mut self, a: usize, b: usize) -> bool {
        done(|value| (self.functions.equal)(&mut self.handle, a, b, value))
    }

    fn disjoint(&mut self, a: usize, b: usize) -> bool {
        done(|value| (self.functions.disjoint)(&mut self.handle, a, b, value))
    }

    fn evaluate(&mut self, a: usize) -> bool {
        done(|value| (self.functions.evaluate)(&mut self.handle, a, value))
    }

    fn set_environment(&mut self) {
        self.open().known = Some((environment(), extras()));
    }

    fn is_true(&mut self, a: usize) -> bool {
        done(|value| (self.functions.is_true)(&mut self.handle, a, value))
    }

    fn text(&mut self, a: usize) -> usize {
        length(&self.open().markers[a])
    }

    fn mark(&mut self) -> usize {
        self.open().markers.len()
    }

    fn release(&mut self, count: usize) {
        self.open().markers.truncate(count);
    }
}
