//! Times single paths: `hostile wax|regex EXPRESSION RUNS`, where EXPRESSION is a file that has a glob or a regex.
//!
//! Each line of standard input is a path. Prints the nanoseconds of the processor that a match takes: the least of RUNS matches, each with
//! a new matcher, whose building doesn't count. If RUNS is 0, one matcher matches each path once. bench/hostile runs it.

use std::fs;
use std::io::{self, BufRead, Write};
use std::ptr;
use std::time::Duration;

mod cpu;

use regex::Regex;
use wax as _; // it links the C library

/// What is declared of the C library's header.
mod c {
    #[repr(C)]
    pub struct Glob {
        _private: [u8; 0],
    }

    extern "C" {
        pub fn wax_glob_new(
            expression: *const u8,
            length: usize,
            out: *mut *mut Glob,
            span: *mut [usize; 2],
        ) -> i32;
        pub fn wax_glob_is_match(glob: *mut Glob, path: *const u8, length: usize) -> i32;
        pub fn wax_glob_free(glob: *mut Glob);
    }
}

/// A pattern that was built, by either library.
trait Matcher: Sized {
    fn build(expression: &str) -> Option<Self>;

    fn is_match(&mut self, path: &str) -> bool;
}

struct Wax(*mut c::Glob);

impl Matcher for Wax {
    fn build(expression: &str) -> Option<Self> {
        let mut glob = ptr::null_mut();
        let mut span = [0; 2];
        let length = expression.len();
        // SAFETY: the text has this length, and the call may write to both variables.
        let status = unsafe { c::wax_glob_new(expression.as_ptr(), length, &mut glob, &mut span) };
        (status == 0).then(|| Wax(glob))
    }

    fn is_match(&mut self, path: &str) -> bool {
        // SAFETY: the path has this length, and nothing else uses the handle.
        let status = unsafe { c::wax_glob_is_match(self.0, path.as_ptr(), path.len()) };
        assert!(status >= 0, "status {status}");
        status == 1
    }
}

impl Drop for Wax {
    fn drop(&mut self) {
        // SAFETY: the handle isn't used again.
        unsafe { c::wax_glob_free(self.0) }
    }
}

impl Matcher for Regex {
    fn build(expression: &str) -> Option<Self> {
        Regex::new(expression).ok()
    }

    fn is_match(&mut self, path: &str) -> bool {
        Regex::is_match(self, path)
    }
}

/// Returns how long a match takes, and whether the path matches.
fn timed(matcher: &mut impl Matcher, path: &str) -> (Duration, bool) {
    let start = cpu::thread_time();
    let is_match = matcher.is_match(path);
    (cpu::thread_time() - start, is_match)
}

/// Answers each line of standard input.
fn answer<M: Matcher>(expression: &str, runs: usize) -> io::Result<()> {
    let mut kept = match M::build(expression) {
        Some(matcher) => matcher,
        None => return writeln!(io::stdout(), "not built"),
    };
    writeln!(io::stdout(), "built")?;
    for path in io::stdin().lock().lines() {
        let path = path?;
        let by_new = (0..runs).filter_map(|_| M::build(expression));
        let (time, is_match) = by_new
            .map(|mut matcher| timed(&mut matcher, &path))
            .min()
            .unwrap_or_else(|| timed(&mut kept, &path));
        writeln!(io::stdout(), "{} {}", time.as_nanos(), u8::from(is_match))?;
    }
    Ok(())
}

fn main() -> io::Result<()> {
    let words: Vec<_> = std::env::args().collect();
    let (by, file, runs) = match words.as_slice() {
        [_, by, file, runs] => (by, file, runs.parse().unwrap()),
        _ => panic!("hostile wax|regex EXPRESSION RUNS"),
    };
    let expression = fs::read_to_string(file)?;
    match by.as_str() {
        "wax" => answer::<Wax>(&expression, runs),
        _ => answer::<Regex>(&expression, runs),
    }
}
