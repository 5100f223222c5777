//! Times sets of patterns: `sets wax|globset build|is-match|matches PATTERNS PATHS`, where the last two are files of lines.
//!
//! `build` builds the set. `is-match` and `matches` build it, and then ask it about each path for the first time. Prints the
//! nanoseconds of the processor for the build, or for all paths; and the number of patterns, of paths that match, or of pairs of a path and a
//! pattern. bench/sets runs it.

use std::fs;
use std::ptr;
use std::time::Duration;

mod cpu;

use globset::{GlobBuilder, GlobSet, GlobSetBuilder};
use wax as _; // it links the C library

/// What is declared of the C library's header.
mod c {
    #[repr(C)]
    pub struct Set {
        _private: [u8; 0],
    }

    extern "C" {
        pub fn wax_set_new(
            patterns: *const u8,
            patterns_length: usize,
            lengths: *const usize,
            count: usize,
            out: *mut *mut Set,
            which: *mut usize,
            span: *mut [usize; 2],
        ) -> i32;
        pub fn wax_set_is_match(set: *mut Set, path: *const u8, length: usize) -> i32;
        pub fn wax_set_matches(
            set: *mut Set,
            path: *const u8,
            length: usize,
            which: *mut usize,
            room: usize,
            count: *mut usize,
        ) -> i32;
        pub fn wax_set_free(set: *mut Set);
    }
}

/// A set of patterns, by either library.
trait Patterns {
    fn build(patterns: &[&str]) -> Self;

    fn is_match(&mut self, path: &str) -> bool;

    /// Writes the indexes of the patterns that match to `which`, which has room for all.
    fn matches(&mut self, path: &str, which: &mut Vec<usize>);
}

struct Wax(*mut c::Set);

impl Patterns for Wax {
    fn build(patterns: &[&str]) -> Self {
        let lengths: Vec<_> = patterns.iter().map(|it| it.len()).collect();
        let joined = patterns.concat();
        let mut set = ptr::null_mut();
        let (mut which, mut span) = (0, [0; 2]);
        // SAFETY: the texts have these lengths, and the call may write to the three variables.
        let status = unsafe {
            c::wax_set_new(
                joined.as_ptr(),
                joined.len(),
                lengths.as_ptr(),
                lengths.len(),
                &mut set,
                &mut which,
                &mut span,
            )
        };
        assert_eq!(status, 0, "pattern {which} isn't built");
        Wax(set)
    }

    fn is_match(&mut self, path: &str) -> bool {
        // SAFETY: the path has this length, and nothing else uses the handle.
        let status = unsafe { c::wax_set_is_match(self.0, path.as_ptr(), path.len()) };
        assert!(status >= 0);
        status == 1
    }

    fn matches(&mut self, path: &str, which: &mut Vec<usize>) {
        let mut count = 0;
        which.clear();
        // SAFETY: the path has this length, nothing else uses the handle, and `count` numbers are written.
        unsafe {
            let room = which.capacity();
            let status = c::wax_set_matches(
                self.0,
                path.as_ptr(),
                path.len(),
                which.as_mut_ptr(),
                room,
                &mut count,
            );
            assert_eq!(status, 0);
            which.set_len(count);
        }
    }
}

impl Drop for Wax {
    fn drop(&mut self) {
        // SAFETY: the handle isn't used again.
        unsafe { c::wax_set_free(self.0) }
    }
}

impl Patterns for GlobSet {
    fn build(patterns: &[&str]) -> Self {
        let mut builder = GlobSetBuilder::new();
        for it in patterns {
            builder.add(
                GlobBuilder::new(it)
                    .literal_separator(true)
                    .build()
                    .unwrap(),
            );
        }
        builder.build().unwrap()
    }

    fn is_match(&mut self, path: &str) -> bool {
        GlobSet::is_match(self, path)
    }

    fn matches(&mut self, path: &str, which: &mut Vec<usize>) {
        self.matches_into(path, which);
    }
}

/// Does a part of the work, and returns how long it took. Valgrind counts the instructions of this function.
#[inline(never)]
fn measured<T>(part: impl FnOnce() -> T) -> (Duration, T) {
    let start = cpu::thread_time();
    let result = part();
    (cpu::thread_time() - start, result)
}

/// Returns whether a pattern `FOLDER/**` matches the folder itself, which it does only for wax.
fn is_folder_itself(pattern: &str, path: &str) -> bool {
    let folder = pattern.strip_suffix("/**");
    folder.map_or(false, |it| match it.strip_prefix("**/") {
        Some(name) => path.rsplit('/').next() == Some(name),
        None => path == it,
    })
}

/// Returns the time of a part of the work, and what it counts.
fn timed<S: Patterns>(part: &str, patterns: &[&str], paths: &[&str]) -> (Duration, usize) {
    if part == "build" {
        let (time, _set) = measured(|| S::build(patterns));
        return (time, patterns.len());
    }
    let mut set = S::build(patterns);
    if part == "is-match" {
        return measured(|| paths.iter().filter(|it| set.is_match(it)).count());
    }
    let mut which = Vec::with_capacity(patterns.len());
    let (time, _all) = measured(|| {
        let mut all = 0;
        for path in paths {
            set.matches(path, &mut which);
            all += which.len();
        }
        all
    });
    let mut pairs = 0;
    for path in paths {
        set.matches(path, &mut which);
        let is_other = |&&it: &&usize| !is_folder_itself(patterns[it], path);
        pairs += which.iter().filter(is_other).count();
    }
    (time, pairs)
}

fn main() {
    let words: Vec<_> = std::env::args().collect();
    let (by, part, patterns, paths) = match words.as_slice() {
        [_, by, part, patterns, paths] => (by, part, patterns, paths),
        _ => panic!("sets wax|globset build|is-match|matches PATTERNS PATHS"),
    };
    let (patterns, paths) = (
        fs::read_to_string(patterns).unwrap(),
        fs::read_to_string(paths).unwrap(),
    );
    let (patterns, paths): (Vec<_>, Vec<_>) = (patterns.lines().collect(), paths.lines().collect());
    let (time, count) = match by.as_str() {
        "wax" => timed::<Wax>(part, &patterns, &paths),
        _ => timed::<GlobSet>(part, &patterns, &paths),
    };
    println!("{} {count}", time.as_nanos());
}
