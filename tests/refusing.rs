//! Calls of the Rust crate while each allocation of the C library fails in turn. tests/rust runs it, with tests/refusing.c.

use std::error::Error;
use std::os::raw::c_long;
use std::panic::catch_unwind;

use wax::prelude::*;
use wax::walk::IgnoreList;
use wax::{any, compare, difference, escape, overlap, CandidatePath, Comparison, Glob};

// what tests/refusing.h declares
extern "C" {
    fn wax_refuse(number: c_long);
    fn wax_requests() -> c_long;
    fn wax_blocks() -> c_long;
}

fn make_calls() -> Result<(), Box<dyn Error>> {
    let glob = Glob::new("{a,b}/*.rs")?;
    let path = CandidatePath::from("a/x.rs");
    assert!(glob.is_match("b/y.rs"));
    assert_eq!(glob.matched(&path).unwrap().get(2), Some("x"));
    assert!(glob.depth().is_invariant() && glob.text().is_variant());
    let (_, rest) = Glob::new("a/*.rs")?.partition();
    assert!(any([rest.unwrap(), glob])?.is_match("x.rs"));
    assert_eq!(escape("a*"), r"a\*");
    let list = IgnoreList::parse("**/m*\n!**/mod.rs\n")?;
    assert!(list.is_ignored("a/main.rs") && !list.excludes_below("a"));
    let text = |path: &str| Comparison::Text(path.to_string());
    assert_eq!(overlap("a/*", "*/b", 1000)?, text("a/b"));
    assert_eq!(difference("a/*", "*/b", 1000)?, text("a/a"));
    assert_eq!(compare("a/*", "a/*", 1000)?, Comparison::Nothing);
    let (one, other) = (Glob::new("a/*")?, Glob::new("*/b")?);
    assert_eq!(one.overlap(&other, 1000)?, text("a/b"));
    assert_eq!(one.difference(&other, 1000)?, text("a/a"));
    let (one, other) = (any(["a/*", "c"])?, any([other])?);
    assert_eq!(one.overlap(&other, 1000)?, text("a/b"));
    assert_eq!(one.overlap(&one, 1000)?, text("c"));
    assert_eq!(one.compare(&other, 1000)?, text("c"));
    assert_eq!(list.deciding_line("a/mod.rs"), Some(1));
    assert!(list.idle_lines(1000)?.is_empty() && list.undecided_lines(0)?.len() == 2);
    let tidy = list.tidied(1000)?;
    assert_eq!(tidy.difference(&list, 1000)?, Comparison::Nothing);
    // (tests run in the folder of the crate)
    let sources = any(["walk/*.rs", "lib.*"])?.walk("src").not("walk/e*")?;
    assert!(sources.ignore(&list).flatten().count() > 1);
    let mut modules = Glob::new("walk/m*.rs")?.walk("src");
    assert_eq!(modules.next().unwrap()?.matched().get(1), Some("od"));
    let error = Glob::new("a//b").unwrap_err();
    if error.locations().any(|it| it.to_string() == "here") {
        Ok(())
    } else {
        Err(error.into())
    }
}

#[test]
fn each_allocation_fails() {
    let mut errors = 0;
    for number in 1.. {
        // SAFETY: these functions only count, and no other thread calls them.
        let (result, requests, blocks) = unsafe {
            wax_refuse(number);
            (catch_unwind(make_calls), wax_requests(), wax_blocks())
        };
        assert_eq!(blocks, 0, "not freed after {number}");
        match result {
            // (some calls do without a block)
            Ok(Ok(())) if requests >= number => continue,
            Ok(Ok(())) => break,
            Ok(Err(error)) => assert_eq!(error.to_string(), "no memory"),
            Err(panic) => {
                let message = panic.downcast_ref::<String>().unwrap();
                assert!(message.starts_with("memory ran out"), "{message}");
            }
        }
        errors += 1;
    }
    assert!(errors > 50, "only {errors} errors");
}
