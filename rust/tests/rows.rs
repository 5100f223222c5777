//! The rows of the repository's tables, whose answers are worked by hand or come from the crate wax 0.7.0. README.md beside the
//! tables describes them.

use std::fs;

use wax::query::{DepthVariance, LocatedError, TextVariance, When};
use wax::walk::{DepthMinMax, FileIterator, IgnoreList};
use wax::{
    any, compare, difference, overlap, Any, BuildError, CandidatePath, Comparison, Glob, Program,
    Warning,
};

mod folder;

use folder::{found, Folder};

/// Returns the lines of a table, each as its fields.
fn rows(path: &str) -> Vec<Vec<String>> {
    let path = format!("{}/../{path}", env!("CARGO_MANIFEST_DIR"));
    let text = fs::read_to_string(&path).unwrap_or_else(|error| panic!("{path}: {error}"));
    let lines = text
        .lines()
        .filter(|line| !line.is_empty() && !line.starts_with("# "));
    lines
        .map(|line| line.split('\t').map(written_out).collect())
        .collect()
}

/// Returns a field with its line feeds, and with what it repeats: `«ab×2»` is `abab`.
fn written_out(field: &str) -> String {
    let mut text = String::new();
    let mut rest = field;
    while let Some((before, after)) = rest.split_once('«') {
        let (repeated, end) = after.split_once('»').unwrap();
        let (unit, count) = repeated.rsplit_once('×').unwrap();
        text += before;
        text += &unit.repeat(count.trim().parse().unwrap());
        rest = end;
    }
    (text + rest)
        .replace('␊', "\n")
        .replace('␍', "\r")
        .replace('␉', "\t")
}

/// Returns the number of an error, by what it prints.
fn number(error: &BuildError) -> &'static str {
    let text = error.to_string();
    let reasons = [
        ("1", "failed to parse"),
        ("2", "adjacent component boundaries"),
        ("3", "incompatible repetition bounds"),
        ("4", "singular tree wildcard"),
        ("5", "adjacent zero-or-more"),
        ("6", "overlapping roots"),
        ("7", "singular zero-or-more"),
        ("8", "oversized invariant"),
        ("9", "oversized program"),
    ];
    reasons
        .iter()
        .find(|(_, reason)| text.contains(reason))
        .unwrap()
        .0
}

fn number_of<T>(result: Result<T, BuildError>) -> String {
    result
        .map_or_else(|error| number(&error), |_| "0")
        .to_string()
}

fn shown(is_true: bool) -> String {
    u8::from(is_true).to_string()
}

fn set(patterns: &str) -> Result<Any<'_>, BuildError> {
    any(patterns.split(' '))
}

fn set_of_sets(patterns: &str) -> Result<Any<'_>, BuildError> {
    any(patterns.split(';').map(set))
}

/// Returns 1, the whole text and the captures, or 0.
fn matched<'t>(program: &impl Program<'t>, path: &str) -> Vec<String> {
    let path = CandidatePath::from(path);
    match program.matched(&path) {
        None => vec![shown(false)],
        Some(matched) => {
            let texts = (0..).map_while(|index| matched.get(index));
            [shown(true)]
                .into_iter()
                .chain(texts.map(str::to_string))
                .collect()
        }
    }
}

/// Returns an error with its label and place, or `-` in place of these.
fn located(result: Result<Glob<'_>, BuildError>) -> Vec<String> {
    let error = match result {
        Ok(_) => return vec!["0".to_string()],
        Err(error) => error,
    };
    let labels = error
        .locations()
        .map(|it| format!("{it} {} {}", it.span().0, it.span().1));
    [number(&error).to_string()]
        .into_iter()
        .chain(labels)
        .collect()
}

/// Returns an error with its place if a rule is broken.
fn accepted(result: Result<Glob<'_>, BuildError>) -> Vec<String> {
    let number = number_of(result.clone());
    let place = result
        .err()
        .and_then(|error| error.locations().next().map(|it| it.span()));
    match place.filter(|_| number != "1") {
        Some((start, length)) => vec![number, start.to_string(), length.to_string()],
        None => vec![number, "-".to_string(), "-".to_string()],
    }
}

fn depth(depth: DepthVariance) -> String {
    match depth {
        DepthVariance::Invariant(depth) => depth.to_string(),
        DepthVariance::Variant(range) => {
            let upper = range
                .upper()
                .bounded()
                .map_or(String::new(), |upper| upper.to_string());
            format!("{}..{upper}", range.lower().bounded().map_or(0, Into::into))
        }
    }
}

fn text(text: &TextVariance<'_>) -> String {
    text.as_ref()
        .invariant()
        .map_or("variant".to_string(), |text| format!("invariant {text}"))
}

fn when(when: When) -> String {
    format!("{when:?}").to_lowercase()
}

fn facts<'t>(program: &impl Program<'t>) -> Vec<String> {
    vec![
        depth(program.depth()),
        text(&program.text()),
        when(program.has_root()),
        when(program.is_exhaustive()),
    ]
}

/// Returns what this crate says of a row, or `None` for a kind that it has no call for.
fn answer(kind: &str, inputs: &[String]) -> Option<Vec<String>> {
    let first = inputs.first()?.as_str();
    let second = inputs.get(1).map_or("", String::as_str);
    let glob = || Glob::new(first).unwrap();
    Some(match kind {
        "builds" => vec![number_of(Glob::new(first))],
        "accept" => accepted(Glob::new(first)),
        "error" => vec![Glob::new(first).unwrap_err().to_string()],
        "labels" | "error_labels" => located(Glob::new(first)),
        "is_match" => vec![shown(glob().is_match(second))],
        "match" => matched(&glob(), second),
        "glob_text" => vec![text(&glob().text())],
        "facts" => facts(&glob()),
        "prefix" => vec![glob().partition().0.to_str()?.to_string()],
        "rest" => vec![shown(glob().partition_or_empty().1.is_match(second))],
        "set" => vec![number_of(set(first))],
        "sets" => vec![number_of(set_of_sets(first))],
        "set_is_match" => vec![shown(set(first).unwrap().is_match(second))],
        "sets_is_match" => vec![shown(set_of_sets(first).unwrap().is_match(second))],
        "meant" => matched(&set(first).unwrap(), second),
        _ => return None,
    })
}

fn inputs_of(kind: &str) -> usize {
    let two = [
        "is_match",
        "match",
        "rest",
        "set_is_match",
        "sets_is_match",
        "meant",
    ];
    1 + usize::from(two.contains(&kind))
}

/// Compares each row that this crate has a call for. There have to be at least so many of these.
fn check(table: &str, least: usize) {
    let mut compared = 0;
    for row in rows(&format!("crates/wax_vectors/data/{table}.tsv")) {
        let (kind, fields) = row.split_first().unwrap();
        let (inputs, wanted) = fields.split_at(inputs_of(kind).min(fields.len()));
        if let Some(got) = answer(kind, inputs) {
            let mut wanted = wanted.to_vec();
            if kind.ends_with("labels") {
                // (only the first label is reported)
                wanted.truncate(2);
            }
            assert_eq!(got, wanted, "{table}: {row:?}");
            compared += 1;
        }
    }
    assert!(compared >= least, "only {compared} rows of {table}");
}

#[test]
fn builds() {
    check("accept", 2400);
    check("worked_accept", 1);
    check("worked_labels", 20);
    check("worked_refusals", 1);
}

#[test]
fn matches() {
    check("match", 4000);
    check("worked_match", 1);
    check("worked_cases", 1);
}

#[test]
fn captures() {
    check("captures", 2000);
    check("worked_globs", 1);
}

#[test]
fn calls() {
    check("tests", 200);
    check("tests_calls", 1);
    check("worked_sets", 10);
}

/// Returns what is found of two expressions.
fn compared(kind: &str, first: &str, second: &str, most: usize) -> Result<Comparison, BuildError> {
    match kind {
        "overlap" => overlap(first, second, most),
        "difference" => difference(first, second, most),
        "compare" => compare(first, second, most),
        _ => panic!("{kind}"),
    }
}

/// Returns what is found of two globs.
fn compared_globs(
    kind: &str,
    first: &str,
    second: &str,
    most: usize,
) -> Result<Comparison, BuildError> {
    let (one, other) = (Glob::new(first)?, Glob::new(second)?);
    match kind {
        "overlap" => one.overlap(&other, most),
        "difference" => one.difference(&other, most),
        _ => one.compare(&other, most),
    }
}

/// Returns what is found of two sets, each of patterns with spaces between them.
fn compared_sets(
    kind: &str,
    first: &str,
    second: &str,
    most: usize,
) -> Result<Comparison, BuildError> {
    let (one, other) = (set(first)?, set(second)?);
    match kind {
        "overlap" => one.overlap(&other, most),
        "difference" => one.difference(&other, most),
        _ => one.compare(&other, most),
    }
}

/// Returns what is found, as rows show it.
fn finding(found: Result<Comparison, BuildError>) -> String {
    match found {
        Ok(Comparison::Nothing) => "nothing".to_string(),
        Ok(Comparison::Text(path)) => format!("text \"{path}\""),
        Ok(Comparison::Unknown) => "unknown".to_string(),
        Err(error) => number(&error).to_string(),
    }
}

#[test]
fn comparisons() {
    let (mut count, mut sets) = (0, 0);
    for row in rows("crates/wax_vectors/data/worked_compare.tsv") {
        if row.len() < 6 || row[1] != "paths" {
            continue; // another kind
        }
        let (kind, first, second, wanted) = (&row[0], &row[3], &row[4], &row[5]);
        let most = row[2].parse().unwrap();
        let is_set = first.contains(' ') || second.contains(' ');
        let mut calls = vec![compared_sets as fn(&str, &str, &str, usize) -> _];
        if !is_set {
            calls.extend([compared as fn(&str, &str, &str, usize) -> _, compared_globs]);
        }
        for call in calls {
            let found = finding(call(kind, first, second, most));
            assert_eq!(&found, wanted, "{row:?}");
        }
        count += usize::from(!is_set);
        sets += usize::from(is_set);
    }
    assert!(count > 40 && sets > 10, "only {count}, {sets} rows");
}

#[test]
fn lines_of_lists() {
    let mut count = 0;
    for row in rows("crates/wax_vectors/data/worked_compare.tsv") {
        if row[0] != "idle" || row.len() != 4 {
            continue; // another kind, or an error
        }
        let most = row[1].parse().unwrap();
        let list = IgnoreList::parse(&row[2]).unwrap();
        let (undecided, idle): (Vec<_>, Vec<_>) = row[3]
            .split("; ")
            .filter_map(|part| part.split_once(' '))
            .map(|(index, why)| (index.parse::<usize>().unwrap(), why))
            .partition(|(_, why)| *why == "unknown");
        let indexes = |lines: Vec<(usize, &str)>| -> Vec<usize> {
            lines.into_iter().map(|(index, _)| index).collect()
        };
        assert_eq!(list.idle_lines(most).unwrap(), indexes(idle), "{row:?}");
        let found = list.undecided_lines(most).unwrap();
        assert_eq!(found, indexes(undecided), "{row:?}");
        let tidy = list.tidied(most).unwrap();
        let found = tidy.compare(&list, 100_000).unwrap();
        assert!(!matches!(found, Comparison::Text(_)), "{row:?}");
        count += 1;
    }
    assert!(count > 30, "only {count} rows");
}

#[test]
fn errors_of_comparisons() {
    for call in [overlap, difference, compare] {
        for (first, second, wanted, span) in [
            ("é//b", "{", "2", Some((2, 2))),
            ("a", "é//b", "2", Some((2, 2))),
            ("a", "<a*:1000000>", "9", None),
        ] {
            let error = call(first, second, 100).unwrap_err();
            assert_eq!(number(&error), wanted);
            assert_eq!(error.locations().next().map(|it| it.span()), span);
        }
        assert_eq!(call("a", "aa", 0).unwrap(), Comparison::Unknown);
    }
    // (a path that needs more than the first output)
    let long = "é".repeat(1000);
    assert_eq!(
        overlap(&long, "**", usize::MAX).unwrap(),
        Comparison::Text(long)
    );
}

/// Returns the branches of an expression that is an alternation of plain globs.
fn branches(expression: &str) -> Option<Vec<&str>> {
    let inner = expression.strip_prefix('{')?.strip_suffix('}')?;
    let is_plain = !inner.contains(['{', '}', '<', '[', '(', '\\']);
    is_plain.then(|| inner.split(',').collect())
}

/// Returns a warning as the tables have it.
fn shown_warning(warning: &Warning) -> String {
    let kind = match warning {
        Warning::SemanticLiteral { literal, .. } => {
            assert!(matches!(*literal, "." | ".."));
            "semantic literal"
        }
        Warning::TerminatingSeparator { .. } => "terminating separator",
    };
    let (start, length) = warning.span();
    format!("warning {kind} {start} {length}")
}

#[test]
fn queries() {
    let (mut sets, mut semantic) = (0, 0);
    for row in ["query", "worked_query"]
        .iter()
        .flat_map(|table| rows(&format!("tests/data/{table}.tsv")))
    {
        let names = ["depth ", "text ", "root ", "exhaustive "];
        let fields = names.iter().zip(&row[1..]);
        let wanted: Vec<_> = fields
            .map(|(name, field)| field.strip_prefix(name).unwrap())
            .collect();
        let glob = Glob::new(&row[0]).unwrap();
        assert_eq!(facts(&glob), wanted, "{}", row[0]);
        if let Some(patterns) = branches(&row[0]) {
            assert_eq!(facts(&any(patterns).unwrap()), wanted, "{}", row[0]);
            sets += 1;
        }
        assert_eq!(format!("captures {}", glob.captures().count()), row[7]);
        let warned: Vec<_> = glob.diagnose().iter().map(shown_warning).collect();
        assert_eq!(warned, row[8..], "{}", row[0]);
        let is_semantic = row[8..].iter().any(|it| it.starts_with("warning semantic"));
        assert_eq!(glob.has_semantic_literals(), is_semantic, "{}", row[0]);
        semantic += usize::from(is_semantic);
        let (prefix, rest) = glob.partition();
        assert_eq!(format!("prefix {}", prefix.display()), row[5], "{}", row[0]);
        let shown = rest.map_or("no rest".to_string(), |rest| format!("rest {rest}"));
        assert_eq!(shown, row[6], "{}", row[0]);
    }
    assert!(sets > 10, "only {sets} alternations");
    assert!(semantic > 9, "only {semantic} expressions with `.` or `..`");
}

#[test]
fn semantic_literals() {
    for expression in [
        ".",
        "(?i)./a",
        ".(?i).",
        "{a,.}",
        "a{.}",
        "a/<./:2>",
        "<.:2>",
        "*/..",
        r"[\]]/..",
        "[a/b]/..",
        "<a:2>/..",
        "<{a,..}:1,2>/x",
        "{{a,b},..}",
        "**/..",
        "./**",
        r"[\[:]/.",
        r"\:/..",
        r"<\::1>/..",
        r"\,/.",
        "{a,b/..}c",
        "{a,../b}c",
    ] {
        let glob = Glob::new(expression).unwrap();
        assert!(glob.has_semantic_literals(), "{expression}");
    }
    for expression in [
        "",
        "...",
        "..(?-i).",
        "a.",
        ".?",
        "$..",
        "..*",
        "[.]",
        r"[.\-/]",
        "<a/:1,2>..",
        "{a,b}..",
        "..{a}",
        "<a:2>.",
    ] {
        let glob = Glob::new(expression).unwrap();
        assert!(!glob.has_semantic_literals(), "{expression}");
    }
}

/// Returns the paths of a plan: a name that ends with `/` begins a folder, and `;` ends it.
fn planned(plan: &str) -> Vec<String> {
    let mut paths = Vec::new();
    let mut folder = String::new();
    for word in plan.split(' ') {
        if word == ";" {
            let end = folder.trim_end_matches('/').rfind('/');
            folder.truncate(end.map_or(0, |end| end + 1));
        } else {
            paths.push(format!("{folder}{word}"));
            if word.ends_with('/') {
                folder += word;
            }
        }
    }
    paths
}

/// Excludes from a walk what the options of a row exclude, and returns what it finds.
fn found_without(walk: impl FileIterator, options: &[(&str, &str)]) -> Vec<String> {
    let values = |name| {
        let options = options.iter().filter(move |(word, _)| *word == name);
        options.map(|(_, value)| *value)
    };
    let lines: Vec<_> = values("ignore").collect();
    let list = IgnoreList::parse(&lines.concat()).unwrap();
    found(walk.not(any(values("not"))).unwrap().ignore(&list))
}

/// Returns what the walk of a row finds.
fn walked(folder: &Folder, start: &str, expression: &str, options: &str) -> Vec<String> {
    let options: Vec<_> = options
        .split("; ")
        .filter_map(|it| it.split_once(' '))
        .collect();
    let number = |name, default| {
        let option = options.iter().find(|(word, _)| *word == name);
        option.map_or(default, |(_, value)| value.parse().unwrap())
    };
    let depth = DepthMinMax::from_depths_or_max(number("min", 0), number("max", usize::MAX));
    let root = folder.0.join(start);
    if options.contains(&("as", "set")) {
        let any = any(expression.split(' ')).unwrap();
        found_without(any.walk_with_behavior(root, depth), &options)
    } else {
        let glob = Glob::new(expression).unwrap();
        found_without(glob.walk_with_behavior(root, depth), &options)
    }
}

/// Returns whether a walk can take place in a real folder without links.
fn is_real(row: &[String]) -> bool {
    let (place, plan, expression, options) = (&row[0], &row[1], &row[3], &row[4]);
    (place != "memory" || options.contains("as set"))
        && !plan.contains(['@', '#'])
        && !expression.split(' ').any(|it| it.starts_with('/'))
}

#[test]
fn walks() {
    let rows = rows("tests/data/least_folders.tsv");
    let (trees, rows): (Vec<_>, Vec<_>) = rows.iter().partition(|row| row[0] == "tree");
    let rows: Vec<_> = rows.into_iter().filter(|row| is_real(row)).collect();
    for row in &rows {
        let tree = trees.iter().find(|tree| tree[1] == row[1]);
        let folder = Folder::new(&planned(tree.map_or(&row[1], |tree| &tree[2])));
        let top = folder.0.to_str().unwrap();
        let in_folder = |text: &str| text.replace("''", "").replace("TOP", top);
        let kept = row[5].split(' ').filter(|it| *it != "-");
        let mut wanted: Vec<_> = kept.map(in_folder).collect();
        wanted.sort_unstable();
        let got = walked(
            &folder,
            &in_folder(&row[2]),
            &in_folder(&row[3]),
            &in_folder(&row[4]),
        );
        assert_eq!(got, wanted, "{row:?}");
    }
    assert!(rows.len() > 90, "only {} walks", rows.len());
}
