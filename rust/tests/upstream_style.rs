//! Programs as users of wax 0.7.0 write them.

use std::collections::BTreeMap;
use std::error::Error;
use std::ffi::OsStr;
use std::path::{Path, PathBuf};
use std::sync::Arc;
use std::thread;

use wax::prelude::*;
use wax::query::{self, When};
use wax::{Any, BuildError, CandidatePath, Glob, MatchedText, Pattern};

// Matching

#[test]
fn matches_texts_and_paths() -> Result<(), Box<dyn Error>> {
    let glob = Glob::new("{src,tests}/**/*.rs")?;
    let buffer = PathBuf::from("src").join("walk").join("mod.rs");
    assert!(glob.is_match("src/lib.rs"));
    assert!(glob.is_match(buffer.as_path()));
    assert!(glob.is_match(OsStr::new("tests/a.rs")));
    assert!(!glob.is_match(Path::new("src/lib.c")));
    Ok(())
}

#[test]
fn filters_a_list() {
    let paths = ["a.png", "b.PNG", "c/d.png", "e.txt"];
    let images = Glob::new("**/(?i)*.png").unwrap();
    let found: Vec<_> = paths
        .into_iter()
        .filter(|path| images.is_match(*path))
        .collect();
    assert_eq!(found, ["a.png", "b.PNG", "c/d.png"]);
}

#[test]
fn replaces_what_is_not_text() {
    #[cfg(unix)]
    {
        use std::os::unix::ffi::OsStrExt;
        let path = CandidatePath::from(OsStr::from_bytes(b"a\xff.txt"));
        assert_eq!(path.as_ref(), "a\u{fffd}.txt");
        assert!(Glob::new("a?.txt").unwrap().is_match(path));
    }
}

// Captures

#[test]
fn reads_captures() {
    let glob = Glob::new("**/{lib,main}-<[0-9]:1,>.log").unwrap();
    let path = CandidatePath::from("var/log/main-042.log");
    let matched = glob.matched(&path).expect("it matches");
    assert_eq!(matched.complete(), path.as_ref());
    assert_eq!(matched.get(0), Some("var/log/main-042.log"));
    assert_eq!(matched.get(1), Some("var/log/"));
    assert_eq!(matched.range(1), Some(0..8));
    assert_eq!(matched.get(2), Some("main"));
    assert_eq!(matched.get(3), Some("042"));
    assert!(matched.get(4).is_none());
}

#[test]
fn reads_many_captures() {
    let glob = Glob::new("??????????").unwrap();
    let path = CandidatePath::from("0123456789");
    let matched = glob.matched(&path).unwrap();
    let texts: Vec<_> = (1..=11).map(|index| matched.get(index)).collect();
    let wanted = ["0", "1", "2", "3", "4", "5", "6", "7", "8", "9"];
    assert_eq!(texts[..10], wanted.map(Some));
    assert_eq!(texts[10], None);
}

#[test]
fn keeps_matches() {
    fn first(path: String) -> Option<MatchedText<'static>> {
        let glob = Glob::new("*.{toml,lock}").unwrap();
        let path = CandidatePath::from(path.as_str());
        glob.matched(&path).map(MatchedText::into_owned)
    }
    let matched = first("Cargo.toml".to_string()).unwrap();
    let copy = matched.to_owned();
    drop(matched);
    assert_eq!((copy.get(1), copy.get(2)), (Some("Cargo"), Some("toml")));
    assert!(Glob::new("Cargo.*")
        .unwrap()
        .is_match(copy.to_candidate_path()));
    assert!(first("Cargo.md".to_string()).is_none());
}

// Sets

#[test]
fn matches_sets() -> Result<(), BuildError> {
    let sources: Any<'_> = wax::any(["**/*.rs", "**/*.toml"])?;
    let pages = wax::any([Glob::new("**/*.md"), Glob::new("docs/**")])?;
    let all = wax::any([sources, pages])?;
    for path in ["src/lib.rs", "Cargo.toml", "README.md", "docs/a.png"] {
        assert!(all.is_match(path), "{path}");
    }
    assert!(!all.is_match("a.png"));
    assert!(!all.clone().is_match("a.png"));
    Ok(())
}

#[test]
fn sets_capture_the_whole_path() {
    let any = wax::any(["a/*", "b/*"]).unwrap();
    let path = CandidatePath::from("b/c");
    let matched = any.matched(&path).unwrap();
    assert_eq!(
        (matched.complete(), matched.get(1), matched.get(2)),
        ("b/c", Some("b/c"), None)
    );
}

#[test]
fn queries_sets() {
    let any = wax::any(["/a/*", "/b/c/**"]).unwrap();
    assert_eq!(any.has_root(), When::Always);
    assert_eq!(any.is_exhaustive(), When::Sometimes);
    assert!(any.text().is_variant());
    let depth = any.depth().variant().unwrap();
    assert_eq!(depth.lower().bounded().map(usize::from), Some(2));
    assert!(depth.upper().is_unbounded());
    assert_eq!(
        wax::any(["a/b", "a/b"]).unwrap().text().as_path(),
        Some(Path::new("a/b"))
    );
    assert!(!wax::any::<[&str; 0]>([]).unwrap().is_match(""));
}

#[test]
fn sets_take_rests() {
    let rests =
        ["src/(?i)*.rs", "a/b", "docs/**/*.md"].map(|it| Glob::new(it).unwrap().partition().1);
    let any = wax::any(rests.into_iter().flatten()).unwrap();
    assert!(any.is_match("a.RS"));
    assert!(any.is_match("x/y.md"));
    assert!(!any.is_match("src/a.RS"));
    assert!(wax::any([any]).unwrap().is_match("a.RS"));
}

// Owned globs

struct Rule {
    name: String,
    glob: Glob<'static>,
}

fn rules(text: &str) -> Result<Vec<Rule>, BuildError> {
    text.lines()
        .filter_map(|line| line.split_once('='))
        .map(|(name, expression)| {
            Ok(Rule {
                name: name.to_string(),
                glob: Glob::new(expression)?.into_owned(),
            })
        })
        .collect()
}

#[test]
fn keeps_globs() {
    let rules = rules(&String::from("rust=**/*.rs\npage=**/*.{md,html}\n")).unwrap();
    let mut counts = BTreeMap::new();
    for path in ["a.rs", "b/c.md", "d.html", "e.c"] {
        for rule in rules.iter().filter(|rule| rule.glob.is_match(path)) {
            *counts.entry(rule.name.as_str()).or_insert(0) += 1;
        }
    }
    assert_eq!(counts, BTreeMap::from([("page", 2), ("rust", 1)]));
    assert_eq!(rules[0].glob.to_string(), "**/*.rs");
}

#[test]
fn parses_texts() {
    let parsed: Glob<'static> = "a/*".parse().unwrap();
    let converted = Glob::try_from("a/*").unwrap();
    let copy = converted.clone().into_owned();
    drop(converted);
    assert!(parsed.is_match("a/b") && copy.is_match("a/b"));
    assert_eq!(format!("{copy}"), "a/*");
    assert!("[".parse::<Glob>().is_err());
}

fn may_be_static<T: Send + Sync + 'static>() {}

#[test]
fn is_shared_by_threads() {
    may_be_static::<(
        Glob<'static>,
        Any<'static>,
        MatchedText<'static>,
        BuildError,
    )>();
    let glob = Arc::new(Glob::new("**/*<[0-9]:3>*").unwrap());
    let any = wax::any(["**/*.txt", "**/*<[0-9]:3>*"]).unwrap();
    let found: usize = thread::scope(|scope| {
        let count = |from: usize| {
            let (glob, any) = (Arc::clone(&glob), &any);
            let count = move || {
                let paths = (from..from + 500).map(|it| format!("a/{it}"));
                paths
                    .filter(|path| glob.is_match(path.as_str()) && any.is_match(path.as_str()))
                    .count()
            };
            scope.spawn(count)
        };
        let threads: Vec<_> = [0, 50, 500, 1000].into_iter().map(count).collect();
        threads.into_iter().map(|it| it.join().unwrap()).sum()
    });
    assert_eq!(found, 400 + 450 + 500 + 500);
}

// Errors

#[test]
fn reports_errors() {
    let expression = "doc/{a,/b}";
    let error = match Glob::new(expression) {
        Ok(_) => panic!("the branch is rooted"),
        Err(error) => error,
    };
    let lines: Vec<_> = error
        .locations()
        .map(|location| {
            let (start, length) = location.span();
            format!("{location}: {}", &expression[start..start + length])
        })
        .collect();
    assert_eq!(lines, ["in this alternation: {a,/b}"]);
    let unread = Glob::new("a\nb[").unwrap_err();
    assert_eq!(unread.to_string(), "failed to parse glob expression");
    assert!(unread.locations().all(|location| location.span().0 == 3));
    assert_eq!(
        unread.locations().next().unwrap().to_string(),
        "unexpected expression"
    );
    assert_eq!(
        Glob::new("<a*:1000000>").unwrap_err().locations().count(),
        0
    );
    assert!(wax::any(["a", "b//c"]).is_err());
    assert!(wax::any([Glob::new("a"), Glob::new("[")]).is_err());
}

fn build<'t>(
    patterns: impl IntoIterator<Item = impl Pattern<'t>>,
) -> Result<Any<'t>, Box<dyn Error + Send + Sync>> {
    Ok(wax::any(patterns)?)
}

#[test]
fn propagates_errors() {
    let error = build(["a/**/**"]).unwrap_err();
    assert!(error.downcast_ref::<BuildError>().is_some());
    assert!(build(["a/**"]).is_ok());
}

// Queries

fn describe<'t>(program: &impl wax::Program<'t>) -> String {
    let depth = match program.depth() {
        query::Variance::Invariant(depth) => format!("{depth}"),
        query::Variance::Variant(query::Bounded(_)) => "bounded".to_string(),
        query::Variance::Variant(query::Unbounded) => "any".to_string(),
    };
    format!(
        "{depth} {:?} {:?}",
        program.has_root(),
        program.is_exhaustive()
    )
}

#[test]
fn describes_globs() {
    assert_eq!(describe(&Glob::new("/a/*").unwrap()), "2 Always Never");
    assert_eq!(
        describe(&Glob::new("a/**").unwrap()),
        "bounded Never Always"
    );
    assert_eq!(describe(&Glob::tree()), "any Never Always");
    assert_eq!(
        Glob::new("a/<b:2>").unwrap().text().into_path_buf(),
        Some("a/bb".into())
    );
}

#[test]
fn begins_at_the_prefix() {
    let (prefix, rest) = Glob::new("vendor/lib/*/*.c").unwrap().partition_or_tree();
    assert_eq!(prefix, Path::new("vendor/lib/"));
    assert!(rest.is_match("a/b.c") && !rest.is_match("vendor/lib/b.c"));
    assert!(Glob::new("a/b")
        .unwrap()
        .partition_or_empty()
        .1
        .is_match(""));
}

#[test]
fn escapes_names() {
    let name = "what? [1]{2}.txt";
    let expression = format!("**/{}", wax::escape(name));
    assert!(Glob::new(&expression)
        .unwrap()
        .is_match(Path::new("a").join(name).as_path()));
    assert!(matches!(
        wax::escape("plain-name"),
        std::borrow::Cow::Borrowed("plain-name")
    ));
    const IS_META: bool = wax::is_meta_character('*');
    assert!(IS_META && wax::is_contextual_meta_character('-') && !wax::is_meta_character('-'));
}
