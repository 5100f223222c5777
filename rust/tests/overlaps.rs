//! Comparisons of two globs, of two sets and of two ignore lists, by their handles.

use std::thread;

use wax::prelude::*;
use wax::walk::IgnoreList;
use wax::{any, compare, difference, overlap, Any, Comparison, Glob, MOST_STATES};

fn glob(expression: &str) -> Glob<'_> {
    Glob::new(expression).unwrap()
}

/// Returns the glob of what an expression matches after its prefix.
fn rest(expression: &str) -> Glob<'_> {
    glob(expression).partition().1.unwrap()
}

fn set<'t>(patterns: &[&'t str]) -> Any<'t> {
    any(patterns.iter().copied()).unwrap()
}

/// Returns how many characters a path has that is found.
fn length(found: &Comparison) -> usize {
    match found {
        Comparison::Text(path) => path.chars().count(),
        found => panic!("{found:?}"),
    }
}

#[test]
fn globs() {
    for (first, second) in [
        ("src/**", "**/*.rs"),
        ("é?", "?è*"),
        ("[a-c]/x", "[b-d]/x"),
        ("*.rs", "src/**"),
        ("/usr/**", "**"),
        ("**/*a<?:20>", "**/*b<?:20>"),
    ] {
        let (one, other) = (glob(first), glob(second));
        let wanted = overlap(first, second, MOST_STATES).unwrap();
        assert_eq!(one.overlap(&other, MOST_STATES).unwrap(), wanted);
        let found = other.overlap(&one, MOST_STATES).unwrap();
        if let Comparison::Text(path) = &found {
            assert_eq!(length(&found), length(&wanted));
            assert!(one.is_match(path.as_str()) && other.is_match(path.as_str()));
        } else {
            assert_eq!(found, wanted);
        }
    }
    // (a path that needs more than the first output)
    let long = "é".repeat(1000);
    let found = glob(&long).overlap(&Glob::tree(), usize::MAX).unwrap();
    assert_eq!(found, Comparison::Text(long));
    let found = glob("a").overlap(&glob("a"), 0).unwrap();
    assert_eq!(found, Comparison::Unknown);
}

#[test]
fn itself() {
    for (it, wanted) in [(glob("a?/*.rs"), 6), (rest("(?i)1/*.rs"), 3)] {
        for other in [it.clone(), it.clone().into_owned()] {
            let found = it.overlap(&other, MOST_STATES).unwrap();
            assert_eq!(length(&found), wanted);
        }
    }
    let nothing = glob("<[z-a]:1,2>");
    let found = nothing.overlap(&nothing, MOST_STATES).unwrap();
    assert_eq!(found, Comparison::Nothing);
    for (it, wanted) in [
        (set(&["src/**/*.rs", "*.go"]), 3),
        (any([rest("a/*xyz"), glob("bcde")]).unwrap(), 3),
        (any([rest("a/*vwxyz"), glob("bcde")]).unwrap(), 4),
    ] {
        assert_eq!(length(&it.overlap(&it, MOST_STATES).unwrap()), wanted);
        assert_eq!(
            length(&it.overlap(&it.clone(), MOST_STATES).unwrap()),
            wanted
        );
    }
    let empty = set(&[]);
    for other in [&empty, &set(&["**"])] {
        let found = empty.overlap(other, MOST_STATES).unwrap();
        assert_eq!(found, Comparison::Nothing);
    }
}

#[test]
fn rests() {
    for (first, second, wanted) in [
        (rest("src/*/mod.rs"), glob("net/**"), Some(10)),
        (rest("(?i)1/x*.RS"), glob("*.rs"), Some(4)),
        (rest("src/{a,b}/*"), rest("far/{b,c}/c"), Some(3)),
        (rest("src/{a,b}/*"), glob("c/**"), None),
    ] {
        for (one, other) in [(&first, &second), (&second, &first)] {
            let found = one.overlap(other, MOST_STATES).unwrap();
            match wanted {
                Some(wanted) => assert_eq!(length(&found), wanted),
                None => assert_eq!(found, Comparison::Nothing),
            }
        }
    }
}

#[test]
fn sets_with_rests() {
    let first = any([rest("src/*.{rs,toml}"), glob("docs/**")]).unwrap();
    for (second, wanted) in [
        (set(&["**/x*.toml"]), "x.toml"),
        (set(&["**/x*.toml", "docs/é"]), "docs/é"),
        (any([rest("a/*/x"), rest("a/*/b.rs")]).unwrap(), "docs/x"),
        (any([rest("a/k*/x"), rest("a/k*.rs")]).unwrap(), "k.rs"),
    ] {
        for (one, other) in [(&first, &second), (&second, &first)] {
            let found = one.overlap(other, MOST_STATES).unwrap();
            assert_eq!(found, Comparison::Text(wanted.to_string()));
        }
    }
    let second = any([rest("a/*a<?:20>"), glob("docs")]).unwrap();
    let third = any([rest("a/*b<?:20>"), glob("docs")]).unwrap();
    let found = second.overlap(&third, 1000).unwrap();
    assert_eq!(found, Comparison::Unknown);
    let found = any([rest("a/?"), glob("b")]).unwrap();
    let found = found.overlap(&set(&["bc", "/b"]), MOST_STATES).unwrap();
    assert_eq!(found, Comparison::Nothing);
}

#[test]
fn differences() {
    for (first, second) in [
        ("src/**", "**/*.rs"),
        ("é?", "?è*"),
        ("{a,b}", "[ab]"),
        ("/a/**", "a"),
        ("**/*a<?:20>", "**/*b<?:20>"),
    ] {
        let (one, other) = (glob(first), glob(second));
        let (first_set, second_set) = (set(&[first]), set(&[second]));
        let wanted = difference(first, second, 1000).unwrap();
        assert_eq!(one.difference(&other, 1000).unwrap(), wanted);
        assert_eq!(first_set.difference(&second_set, 1000).unwrap(), wanted);
        let wanted = compare(first, second, 1000).unwrap();
        assert_eq!(one.compare(&other, 1000).unwrap(), wanted);
        assert_eq!(first_set.compare(&second_set, 1000).unwrap(), wanted);
    }
    let rest = rest("src/*.rs");
    let found = rest.difference(&glob("a*"), MOST_STATES).unwrap();
    assert_eq!(found, Comparison::Text(".rs".to_string()));
    assert_eq!(rest.compare(&rest, 0).unwrap(), Comparison::Nothing);
    let both = any([rest, glob("b")]).unwrap();
    for (one, other) in [(&both, &set(&["b"])), (&set(&["b"]), &both)] {
        let found = one.difference(other, MOST_STATES).unwrap();
        assert_eq!(found, Comparison::Unknown);
        let found = one.compare(other, MOST_STATES).unwrap();
        assert_eq!(found, Comparison::Unknown);
    }
    assert_eq!(both.difference(&both, 0).unwrap(), Comparison::Nothing);
}

fn list(text: &str) -> IgnoreList {
    IgnoreList::parse(text).unwrap()
}

#[test]
fn lists() {
    let text = |path: &str| Comparison::Text(path.to_string());
    let (one, other) = (list("**/*.log\n!keep.log\n"), list("**/*.log\n"));
    for (call, found, turned) in [
        (
            IgnoreList::overlap as fn(&IgnoreList, &IgnoreList, usize) -> _,
            text(".log"),
            text(".log"),
        ),
        (
            IgnoreList::difference,
            Comparison::Nothing,
            text("keep.log"),
        ),
        (IgnoreList::compare, text("keep.log"), text("keep.log")),
    ] {
        assert_eq!(call(&one, &other, MOST_STATES).unwrap(), found);
        assert_eq!(call(&other, &one, MOST_STATES).unwrap(), turned);
        assert_eq!(call(&one, &other, 0).unwrap(), Comparison::Unknown);
    }
    for same in [one.clone(), list(one.text())] {
        let found = one.overlap(&same, MOST_STATES).unwrap();
        assert_eq!(found, text(".log"));
        let found = one.difference(&same, MOST_STATES).unwrap();
        assert_eq!(found, Comparison::Nothing);
        let found = one.compare(&same, MOST_STATES).unwrap();
        assert_eq!(found, Comparison::Nothing);
    }
    assert!(one.is_ignored("a.log"));
}

#[test]
fn lines() {
    for (text, idle, tidied) in [
        ("", vec![], ""),
        ("# none\n\n", vec![], "# none\n\n"),
        ("docs/*.o\n!keep.c\n**/*.o\n", vec![0, 1], "**/*.o\n"),
        (
            "# built\r\n**/*.o\r\n\r\ndocs/a\r\n!docs/a",
            vec![1],
            "# built\r\n**/*.o\r\n\r\n",
        ),
        ("a\na\n\na\n", vec![0, 1], "\na\n"),
    ] {
        let list = list(text);
        assert_eq!(list.idle_lines(MOST_STATES).unwrap(), idle, "{text:?}");
        assert!(list.undecided_lines(MOST_STATES).unwrap().is_empty());
        let tidy = list.tidied(MOST_STATES).unwrap();
        assert_eq!(tidy.text(), tidied);
        let found = tidy.compare(&list, MOST_STATES).unwrap();
        assert_eq!(found, Comparison::Nothing);
    }
    let many = list(&"a\nb\n".repeat(20));
    let found = many.idle_lines(MOST_STATES).unwrap();
    assert!(found.into_iter().eq(0..38));
    let found = many.undecided_lines(0).unwrap();
    assert!(found.into_iter().eq(0..40));
    assert_eq!(many.tidied(0).unwrap().text(), many.text());
    assert_eq!(many.deciding_line("a"), Some(38));
    assert_eq!(many.deciding_line("c"), None);
}

#[test]
fn threads_that_pass_the_same_two() {
    let (one, other) = (set(&["src/**", "a?"]), set(&["**/*.rs", "b"]));
    let (first, second) = (glob("src/*"), glob("*/b"));
    thread::scope(|scope| {
        for number in 0..4 {
            let (one, other, first, second) = (&one, &other, &first, &second);
            scope.spawn(move || {
                for _ in 0..100 {
                    let (found, path) = if number % 2 == 0 {
                        (one.overlap(other, 1000), first.overlap(second, 1000))
                    } else {
                        (other.overlap(one, 1000), second.overlap(first, 1000))
                    };
                    assert_eq!(length(&found.unwrap()), 7);
                    assert_eq!(length(&path.unwrap()), 5);
                    assert!(one.is_match("src/b") && first.is_match("src/b"));
                }
            });
        }
    });
}
