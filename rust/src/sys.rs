//! The C library: its declarations, and safe calls of these. All code that is `unsafe` is here.

use std::fmt::{self, Debug, Formatter};
use std::ptr::{self, NonNull};
use std::sync::{Mutex, PoisonError};

use crate::query::Span;
use crate::Comparison;

/// The C types of handles, and the functions of the header that this crate calls.
mod c {
    #[repr(C)]
    pub struct Glob {
        _private: [u8; 0],
    }

    #[repr(C)]
    pub struct Set {
        _private: [u8; 0],
    }

    #[repr(C)]
    pub struct Ignore {
        _private: [u8; 0],
    }

    #[repr(C)]
    #[derive(Clone, Copy, Default)]
    pub struct Span {
        pub start: usize,
        pub length: usize,
    }

    impl Span {
        pub fn pair(&self) -> crate::query::Span {
            (self.start, self.length)
        }
    }

    #[repr(C)]
    #[derive(Clone, Copy, Default)]
    pub struct Warning {
        pub span: Span,
        pub kind: i32,
    }

    #[repr(C)]
    #[derive(Default)]
    pub struct Facts {
        pub least_depth: usize,
        pub greatest_depth: usize,
        pub has_root: i32,
        pub is_exhaustive: i32,
    }

    extern "C" {
        pub fn wax_escape(
            text: *const u8,
            length: usize,
            output: *mut u8,
            room: usize,
            written: *mut usize,
        ) -> i32;
        pub fn wax_picture(
            text: *const u8,
            length: usize,
            output: *mut u8,
            room: usize,
            written: *mut usize,
        ) -> i32;

        pub fn wax_overlap(
            first: *const u8,
            first_length: usize,
            second: *const u8,
            second_length: usize,
            most_states: usize,
            output: *mut u8,
            room: usize,
            written: *mut usize,
            which: *mut usize,
            span: *mut Span,
        ) -> i32;
        pub fn wax_difference(
            first: *const u8,
            first_length: usize,
            second: *const u8,
            second_length: usize,
            most_states: usize,
            output: *mut u8,
            room: usize,
            written: *mut usize,
            which: *mut usize,
            span: *mut Span,
        ) -> i32;
        pub fn wax_compare(
            first: *const u8,
            first_length: usize,
            second: *const u8,
            second_length: usize,
            most_states: usize,
            output: *mut u8,
            room: usize,
            written: *mut usize,
            which: *mut usize,
            span: *mut Span,
        ) -> i32;

        pub fn wax_glob_new(
            text: *const u8,
            length: usize,
            out: *mut *mut Glob,
            span: *mut Span,
        ) -> i32;
        pub fn wax_glob_is_match(glob: *mut Glob, path: *const u8, length: usize) -> i32;
        pub fn wax_glob_goes_on(glob: *mut Glob, folder: *const u8, length: usize) -> i32;
        pub fn wax_glob_spans(
            glob: *const Glob,
            path: *const u8,
            length: usize,
            spans: *mut Span,
            room: usize,
            count: *mut usize,
        ) -> i32;
        pub fn wax_glob_capturing(
            glob: *const Glob,
            spans: *mut Span,
            room: usize,
            count: *mut usize,
        ) -> i32;
        pub fn wax_glob_warnings(
            glob: *const Glob,
            warnings: *mut Warning,
            room: usize,
            count: *mut usize,
        ) -> i32;
        pub fn wax_glob_has_semantic_literals(glob: *const Glob) -> i32;
        pub fn wax_glob_facts(glob: *const Glob, facts: *mut Facts) -> i32;
        pub fn wax_glob_expression(
            glob: *const Glob,
            output: *mut u8,
            room: usize,
            written: *mut usize,
        ) -> i32;
        pub fn wax_glob_text(
            glob: *const Glob,
            output: *mut u8,
            room: usize,
            written: *mut usize,
        ) -> i32;
        pub fn wax_glob_partition(
            glob: *const Glob,
            prefix: *mut u8,
            room: usize,
            written: *mut usize,
            rest: *mut *mut Glob,
        ) -> i32;
        pub fn wax_glob_overlap(
            first: *const Glob,
            second: *const Glob,
            most_states: usize,
            output: *mut u8,
            room: usize,
            written: *mut usize,
        ) -> i32;
        pub fn wax_glob_difference(
            first: *const Glob,
            second: *const Glob,
            most_states: usize,
            output: *mut u8,
            room: usize,
            written: *mut usize,
        ) -> i32;
        pub fn wax_glob_compare(
            first: *const Glob,
            second: *const Glob,
            most_states: usize,
            output: *mut u8,
            room: usize,
            written: *mut usize,
        ) -> i32;
        pub fn wax_glob_free(glob: *mut Glob);

        pub fn wax_set_new(
            patterns: *const u8,
            patterns_length: usize,
            lengths: *const usize,
            count: usize,
            out: *mut *mut Set,
            which: *mut usize,
            span: *mut Span,
        ) -> i32;
        pub fn wax_set_is_match(set: *mut Set, path: *const u8, length: usize) -> i32;
        pub fn wax_set_goes_on(set: *mut Set, folder: *const u8, length: usize) -> i32;
        pub fn wax_set_overlap(
            first: *const Set,
            second: *const Set,
            most_states: usize,
            output: *mut u8,
            room: usize,
            written: *mut usize,
        ) -> i32;
        pub fn wax_set_facts(set: *const Set, facts: *mut Facts) -> i32;
        pub fn wax_set_text(
            set: *const Set,
            output: *mut u8,
            room: usize,
            written: *mut usize,
        ) -> i32;
        pub fn wax_set_difference(
            first: *const Set,
            second: *const Set,
            most_states: usize,
            output: *mut u8,
            room: usize,
            written: *mut usize,
        ) -> i32;
        pub fn wax_set_compare(
            first: *const Set,
            second: *const Set,
            most_states: usize,
            output: *mut u8,
            room: usize,
            written: *mut usize,
        ) -> i32;
        pub fn wax_set_free(set: *mut Set);

        pub fn wax_ignore_new(
            text: *const u8,
            length: usize,
            out: *mut *mut Ignore,
            line: *mut usize,
        ) -> i32;
        pub fn wax_ignore_is_ignored(list: *mut Ignore, path: *const u8, length: usize) -> i32;
        pub fn wax_ignore_excludes_below(
            list: *const Ignore,
            folder: *const u8,
            length: usize,
        ) -> i32;
        pub fn wax_ignore_deciding_line(
            list: *const Ignore,
            path: *const u8,
            length: usize,
            line: *mut usize,
        ) -> i32;
        pub fn wax_ignore_idle_lines(
            list: *const Ignore,
            most_states: usize,
            lines: *mut usize,
            room: usize,
            count: *mut usize,
        ) -> i32;
        pub fn wax_ignore_undecided_lines(
            list: *const Ignore,
            most_states: usize,
            lines: *mut usize,
            room: usize,
            count: *mut usize,
        ) -> i32;
        pub fn wax_ignore_tidy(
            list: *const Ignore,
            most_states: usize,
            lines: *mut usize,
            room: usize,
            count: *mut usize,
        ) -> i32;
        pub fn wax_ignore_overlap(
            first: *const Ignore,
            second: *const Ignore,
            most_states: usize,
            output: *mut u8,
            room: usize,
            written: *mut usize,
        ) -> i32;
        pub fn wax_ignore_difference(
            first: *const Ignore,
            second: *const Ignore,
            most_states: usize,
            output: *mut u8,
            room: usize,
            written: *mut usize,
        ) -> i32;
        pub fn wax_ignore_compare(
            first: *const Ignore,
            second: *const Ignore,
            most_states: usize,
            output: *mut u8,
            room: usize,
            written: *mut usize,
        ) -> i32;
        pub fn wax_ignore_free(list: *mut Ignore);
    }
}

pub use c::{Facts, Glob, Ignore, Set};

const NO_ROOM: i32 = -21;

/// A function of the library that compares two expressions.
pub type Compare = unsafe extern "C" fn(
    *const u8,
    usize,
    *const u8,
    usize,
    usize,
    *mut u8,
    usize,
    *mut usize,
    *mut usize,
    *mut c::Span,
) -> i32;

pub const OVERLAP: Compare = c::wax_overlap;
pub const DIFFERENCE: Compare = c::wax_difference;
pub const COMPARE: Compare = c::wax_compare;

/// A function of the library that compares what two handles point to.
pub type CompareHandles<T> =
    unsafe extern "C" fn(*const T, *const T, usize, *mut u8, usize, *mut usize) -> i32;

/// A type of handles that are compared.
pub trait Compared: Free + Sized {
    const OVERLAP: CompareHandles<Self>;
    const DIFFERENCE: CompareHandles<Self>;
    const COMPARE: CompareHandles<Self>;
}

impl Compared for Glob {
    const OVERLAP: CompareHandles<Self> = c::wax_glob_overlap;
    const DIFFERENCE: CompareHandles<Self> = c::wax_glob_difference;
    const COMPARE: CompareHandles<Self> = c::wax_glob_compare;
}

impl Compared for Set {
    const OVERLAP: CompareHandles<Self> = c::wax_set_overlap;
    const DIFFERENCE: CompareHandles<Self> = c::wax_set_difference;
    const COMPARE: CompareHandles<Self> = c::wax_set_compare;
}

impl Compared for Ignore {
    const OVERLAP: CompareHandles<Self> = c::wax_ignore_overlap;
    const DIFFERENCE: CompareHandles<Self> = c::wax_ignore_difference;
    const COMPARE: CompareHandles<Self> = c::wax_ignore_compare;
}

/// A function of the library that finds lines of an ignore list.
pub type FindLines =
    unsafe extern "C" fn(*const Ignore, usize, *mut usize, usize, *mut usize) -> i32;

pub const IDLE_LINES: FindLines = c::wax_ignore_idle_lines;
pub const UNDECIDED_LINES: FindLines = c::wax_ignore_undecided_lines;
pub const TIDY: FindLines = c::wax_ignore_tidy;

/// Why an expression isn't built: the number of the error, and its place.
pub struct Failure {
    pub number: i32,
    pub span: Span,
}

/// Why a text isn't an ignore list: the number of the error, and that of the line, from 1, which is 0 if no line has it.
pub struct LineFailure {
    pub number: i32,
    pub line: usize,
}

/// A type of handles.
pub trait Free {
    /// Frees a handle.
    ///
    /// # Safety
    ///
    /// The function for this type made the handle, and nothing uses it from now on.
    unsafe fn free(handle: *mut Self);
}

impl Free for Glob {
    unsafe fn free(handle: *mut Self) {
        // SAFETY: the caller passes a handle that may be freed.
        unsafe { c::wax_glob_free(handle) }
    }
}

impl Free for Set {
    unsafe fn free(handle: *mut Self) {
        // SAFETY: the caller passes a handle that may be freed.
        unsafe { c::wax_set_free(handle) }
    }
}

impl Free for Ignore {
    unsafe fn free(handle: *mut Self) {
        // SAFETY: the caller passes a handle that may be freed.
        unsafe { c::wax_ignore_free(handle) }
    }
}

struct Pointer<T: Free>(NonNull<T>);

// SAFETY: a handle owns only memory of the heap, which any thread may use and free.
unsafe impl<T: Free> Send for Pointer<T> {}

impl<T: Free> Drop for Pointer<T> {
    fn drop(&mut self) {
        // SAFETY: the library made the handle, only this value has it, and it isn't used again.
        unsafe { T::free(self.0.as_ptr()) }
    }
}

/// A handle that this value owns. Since only one call at a time may use it, each call takes the lock.
pub struct Handle<T: Free>(Mutex<Pointer<T>>);

impl<T: Free> Handle<T> {
    /// Returns a handle that the library wrote, or `None` if that is null.
    fn from_library(handle: *mut T) -> Option<Self> {
        NonNull::new(handle).map(|it| Handle(Mutex::new(Pointer(it))))
    }

    /// Calls a function of the library while no other call uses the handle.
    fn with<R>(&self, call: impl FnOnce(*mut T) -> R) -> R {
        let locked = self.0.lock().unwrap_or_else(PoisonError::into_inner);
        call(locked.0.as_ptr())
    }

    /// Calls a function of the library while no other call uses the two handles.
    ///
    /// # Panics
    ///
    /// Panics if both are one handle.
    fn with_both<R>(&self, other: &Self, call: impl FnOnce(*mut T, *mut T) -> R) -> R {
        assert!(!ptr::eq(self, other), "one handle is passed twice");
        // (all threads take the locks in one order, so no two of them wait for each other)
        if ptr::addr_of!(self.0) < ptr::addr_of!(other.0) {
            self.with(|one| other.with(|two| call(one, two)))
        } else {
            other.with(|two| self.with(|one| call(one, two)))
        }
    }
}

impl<T: Free> Debug for Handle<T> {
    fn fmt(&self, f: &mut Formatter<'_>) -> fmt::Result {
        f.debug_struct("Handle").finish_non_exhaustive()
    }
}

impl<T: Compared> Handle<T> {
    /// Returns what a function finds of this handle and another one. The two are different handles.
    ///
    /// # Errors
    ///
    /// Returns the number of the error.
    pub fn compared(
        &self,
        call: CompareHandles<T>,
        other: &Self,
        most_states: usize,
    ) -> Result<Comparison, i32> {
        found(|output, room, written| {
            // SAFETY: the output has this length, the two are different, and no other call uses them.
            self.with_both(other, |one, two| unsafe {
                call(one, two, most_states, output, room, written)
            })
        })
    }
}

impl Handle<Glob> {
    /// Builds a glob.
    pub fn new(expression: &str) -> Result<Self, Failure> {
        let mut handle = ptr::null_mut();
        let mut span = c::Span::default();
        // SAFETY: the text has this length, and the call may write to both variables.
        let status = unsafe {
            c::wax_glob_new(
                expression.as_ptr(),
                expression.len(),
                &mut handle,
                &mut span,
            )
        };
        Handle::from_library(handle).ok_or(Failure {
            number: -status,
            span: span.pair(),
        })
    }

    pub fn is_match(&self, path: &str) -> bool {
        // SAFETY: the path has this length, and no other call uses the handle.
        decided(self.with(|glob| unsafe { c::wax_glob_is_match(glob, path.as_ptr(), path.len()) }))
    }

    /// Returns whether something below a folder can match.
    pub fn goes_on(&self, folder: &str) -> bool {
        // SAFETY: the path has this length, and no other call uses the handle.
        decided(
            self.with(|glob| unsafe { c::wax_glob_goes_on(glob, folder.as_ptr(), folder.len()) }),
        )
    }

    /// Returns where the captures lie in the path, or `None` if it doesn't match.
    pub fn spans(&self, path: &str) -> Option<Vec<Span>> {
        let (is_match, spans) = listed(|spans, room, count| {
            // SAFETY: the path and the list have these lengths, and no other call uses the handle.
            self.with(|glob| unsafe {
                c::wax_glob_spans(glob, path.as_ptr(), path.len(), spans, room, count)
            })
        });
        is_match.then(|| spans.iter().map(c::Span::pair).collect())
    }

    /// Returns where the tokens that capture lie in the expression.
    pub fn capturing(&self) -> Vec<Span> {
        let (_, spans) = listed(|spans, room, count| {
            // SAFETY: the list has this length, and no other call uses the handle.
            self.with(|glob| unsafe { c::wax_glob_capturing(glob, spans, room, count) })
        });
        spans.iter().map(c::Span::pair).collect()
    }

    /// Returns the warnings, each with the number of its kind.
    pub fn warnings(&self) -> Vec<(Span, i32)> {
        let (_, warnings) = listed(|warnings: *mut c::Warning, room, count| {
            // SAFETY: the list has this length, and no other call uses the handle.
            self.with(|glob| unsafe { c::wax_glob_warnings(glob, warnings, room, count) })
        });
        warnings
            .iter()
            .map(|it| (it.span.pair(), it.kind))
            .collect()
    }

    pub fn has_semantic_literals(&self) -> bool {
        // SAFETY: no other call uses the handle.
        decided(self.with(|glob| unsafe { c::wax_glob_has_semantic_literals(glob) }))
    }

    pub fn facts(&self) -> Facts {
        let mut facts = Facts::default();
        // SAFETY: the call may write to `facts`, and no other call uses the handle.
        decided(self.with(|glob| unsafe { c::wax_glob_facts(glob, &mut facts) }));
        facts
    }

    /// Returns the expression, or the rest of it for the rest of a partition.
    pub fn expression(&self) -> String {
        let (_, expression) = written(|output, room, written| {
            // SAFETY: the output has this length, and no other call uses the handle.
            self.with(|glob| unsafe { c::wax_glob_expression(glob, output, room, written) })
        });
        expression
    }

    /// Returns the only text that matches, if the expression is written as one.
    pub fn text(&self) -> Option<String> {
        let (is_one, text) = written(|output, room, written| {
            // SAFETY: the output has this length, and no other call uses the handle.
            self.with(|glob| unsafe { c::wax_glob_text(glob, output, room, written) })
        });
        is_one.then_some(text)
    }

    /// Returns the prefix, and the rest if there is one.
    pub fn partition(&self) -> (String, Option<Self>) {
        let mut rest = ptr::null_mut();
        let (_, prefix) = written(|output, room, written| {
            // SAFETY: the output has this length, the call may write to `rest`, and no other call uses the handle.
            self.with(|glob| unsafe {
                c::wax_glob_partition(glob, output, room, written, &mut rest)
            })
        });
        (prefix, Handle::from_library(rest))
    }
}

impl Handle<Set> {
    /// Builds a set of expressions, none of which has an error by itself.
    ///
    /// # Errors
    ///
    /// Returns the number of the error.
    pub fn new(expressions: &[&str]) -> Result<Self, i32> {
        let patterns = expressions.concat();
        let lengths: Vec<_> = expressions.iter().map(|it| it.len()).collect();
        let (mut handle, mut which, mut span) = (ptr::null_mut(), 0, c::Span::default());
        // SAFETY: both lists have these lengths, the lengths add up to that of the text, and the call may write to the variables.
        let status = unsafe {
            c::wax_set_new(
                patterns.as_ptr(),
                patterns.len(),
                lengths.as_ptr(),
                lengths.len(),
                &mut handle,
                &mut which,
                &mut span,
            )
        };
        Handle::from_library(handle).ok_or(-status)
    }

    pub fn is_match(&self, path: &str) -> bool {
        // SAFETY: the path has this length, and no other call uses the handle.
        decided(self.with(|set| unsafe { c::wax_set_is_match(set, path.as_ptr(), path.len()) }))
    }

    /// Returns whether something below a folder can match.
    pub fn goes_on(&self, folder: &str) -> bool {
        // SAFETY: the path has this length, and no other call uses the handle.
        decided(self.with(|set| unsafe { c::wax_set_goes_on(set, folder.as_ptr(), folder.len()) }))
    }

    pub fn facts(&self) -> Facts {
        let mut facts = Facts::default();
        // SAFETY: the call may write to `facts`, and no other call uses the handle.
        decided(self.with(|set| unsafe { c::wax_set_facts(set, &mut facts) }));
        facts
    }

    /// Returns the only text that matches, if all expressions are written as the same one.
    pub fn text(&self) -> Option<String> {
        let (is_one, text) = written(|output, room, written| {
            // SAFETY: the output has this length, and no other call uses the handle.
            self.with(|set| unsafe { c::wax_set_text(set, output, room, written) })
        });
        is_one.then_some(text)
    }
}

impl Handle<Ignore> {
    /// Builds an ignore list.
    pub fn new(text: &str) -> Result<Self, LineFailure> {
        let (mut handle, mut line) = (ptr::null_mut(), 0);
        // SAFETY: the text has this length, and the call may write to both variables.
        let status =
            unsafe { c::wax_ignore_new(text.as_ptr(), text.len(), &mut handle, &mut line) };
        Handle::from_library(handle).ok_or(LineFailure {
            number: -status,
            line,
        })
    }

    pub fn is_ignored(&self, path: &str) -> bool {
        // SAFETY: the path has this length, and no other call uses the handle.
        decided(
            self.with(|list| unsafe { c::wax_ignore_is_ignored(list, path.as_ptr(), path.len()) }),
        )
    }

    /// Returns whether everything below a folder is ignored.
    pub fn excludes_below(&self, folder: &str) -> bool {
        // SAFETY: the path has this length, and no other call uses the handle.
        decided(self.with(|list| unsafe {
            c::wax_ignore_excludes_below(list, folder.as_ptr(), folder.len())
        }))
    }

    /// Returns the index of the last line that matches the path, or `None` if no line does.
    pub fn deciding_line(&self, path: &str) -> Option<usize> {
        let mut line = 0;
        // SAFETY: the path has this length, the call may write to `line`, and no other call uses the handle.
        let status = self.with(|list| unsafe {
            c::wax_ignore_deciding_line(list, path.as_ptr(), path.len(), &mut line)
        });
        decided(status).then_some(line)
    }

    /// Returns the indexes of the lines that a function finds.
    ///
    /// # Errors
    ///
    /// Returns the number of the error.
    pub fn lines(&self, call: FindLines, most_states: usize) -> Result<Vec<usize>, i32> {
        let mut count = 8;
        loop {
            let mut lines = vec![0; count];
            // SAFETY: the list has this length, and no other call uses the handle.
            let status = self.with(|list| unsafe {
                call(
                    list,
                    most_states,
                    lines.as_mut_ptr(),
                    lines.len(),
                    &mut count,
                )
            });
            if status >= 0 {
                lines.truncate(count);
                return Ok(lines);
            }
            if status != NO_ROOM {
                return Err(-status);
            }
        }
    }
}

/// Returns an expression that matches only this text.
pub fn escaped(text: &str) -> String {
    // SAFETY: the text and the output have these lengths.
    written(|output, room, written| unsafe {
        c::wax_escape(text.as_ptr(), text.len(), output, room, written)
    })
    .1
}

/// Returns a drawing of the error of an expression.
pub fn picture(expression: &str) -> String {
    // SAFETY: the text and the output have these lengths.
    written(|output, room, written| unsafe {
        c::wax_picture(expression.as_ptr(), expression.len(), output, room, written)
    })
    .1
}

/// Returns what a function finds of two expressions.
///
/// # Errors
///
/// Returns the index of the expression that has an error, or 2, and the error.
pub fn compared(
    call: Compare,
    first: &str,
    second: &str,
    most_states: usize,
) -> Result<Comparison, (usize, Failure)> {
    let (mut which, mut span) = (0, c::Span::default());
    let found = found(|output, room, written| {
        // SAFETY: both texts and the output have these lengths, and the call may write to the variables.
        unsafe {
            call(
                first.as_ptr(),
                first.len(),
                second.as_ptr(),
                second.len(),
                most_states,
                output,
                room,
                written,
                &mut which,
                &mut span,
            )
        }
    });
    let span = span.pair();
    found.map_err(|number| (which, Failure { number, span }))
}

/// Passes an output to a call, until it is large enough, and returns what the call finds, or the number of its error.
fn found(mut call: impl FnMut(*mut u8, usize, &mut usize) -> i32) -> Result<Comparison, i32> {
    let mut count = 64;
    loop {
        let mut output = vec![0; count];
        match call(output.as_mut_ptr(), output.len(), &mut count) {
            0 => return Ok(Comparison::Nothing),
            1 => {
                output.truncate(count);
                return Ok(Comparison::Text(text_of(output)));
            }
            2 => return Ok(Comparison::Unknown),
            NO_ROOM => {}
            number => return Err(-number),
        }
    }
}

/// Passes a list to a call, which has to be large enough at the second time, and returns what the call decides and lists.
fn listed<T: Clone + Default>(
    mut call: impl FnMut(*mut T, usize, &mut usize) -> i32,
) -> (bool, Vec<T>) {
    let mut list = vec![T::default(); 8];
    let mut count = 0;
    let mut status = call(list.as_mut_ptr(), list.len(), &mut count);
    if status == NO_ROOM {
        list.resize(count, T::default());
        status = call(list.as_mut_ptr(), list.len(), &mut count);
    }
    list.truncate(count);
    (decided(status), list)
}

/// Passes an output to a call, which has to be large enough at the second time, and returns what the call decides and writes.
fn written(mut call: impl FnMut(*mut u8, usize, &mut usize) -> i32) -> (bool, String) {
    let mut output = vec![0; 64];
    let mut count = 0;
    let mut status = call(output.as_mut_ptr(), output.len(), &mut count);
    if status == NO_ROOM {
        output.resize(count, 0);
        status = call(output.as_mut_ptr(), output.len(), &mut count);
    }
    let decided = decided(status);
    output.truncate(count);
    (decided, text_of(output))
}

/// Returns whether a call returned 1.
///
/// # Panics
///
/// Panics if memory ran out. No other error is possible: every text is UTF-8.
fn decided(status: i32) -> bool {
    assert!(
        status >= 0,
        "memory ran out (error {} of the C library)",
        -status
    );
    status == 1
}

fn text_of(bytes: Vec<u8>) -> String {
    String::from_utf8(bytes).expect("the C library writes UTF-8")
}
