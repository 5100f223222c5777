//! Walks a folder with the arguments of `globs walk`, and prints the paths that the expression matches:
//!
//! ```text
//! globs walk START EXPRESSION [not EXPRESSION].. [ignore FILE] [min N] [max N] [as set]
//! ```
//!
//! With `as set`, the expression is those of a set, with spaces between them. It exits with 3 if something can't be read, and
//! with 1 after any other error.

use std::error::Error;
use std::fmt;
use std::io::{self, Write};
use std::process::ExitCode;

use wax::walk::{DepthBehavior, DepthMinMax, Entry, FileIterator, IgnoreList};
use wax::Glob;

const NO_MAXIMUM: usize = usize::MAX;

#[derive(Debug)]
struct WrongArguments;

impl fmt::Display for WrongArguments {
    fn fmt(&self, f: &mut fmt::Formatter<'_>) -> fmt::Result {
        f.write_str("wrong arguments")
    }
}

impl Error for WrongArguments {}

/// What the arguments after the expression say.
#[derive(Default)]
struct Options {
    excluded: Vec<String>,
    ignored: Option<IgnoreList>,
    min: usize,
    max: Option<usize>,
    is_set: bool,
}

impl Options {
    fn parse(mut words: impl Iterator<Item = String>) -> Result<Self, Box<dyn Error>> {
        let mut options = Options::default();
        while let Some(word) = words.next() {
            let value = words.next().ok_or(WrongArguments)?;
            match word.as_str() {
                "not" => options.excluded.push(value),
                "ignore" => options.ignored = Some(std::fs::read_to_string(value)?.parse()?),
                "min" => options.min = value.parse()?,
                "max" => options.max = Some(value.parse()?),
                "as" if value == "set" => options.is_set = true,
                _ => return Err(WrongArguments.into()),
            }
        }
        Ok(options)
    }

    fn depth(&self) -> DepthBehavior {
        DepthMinMax::from_depths_or_max(self.min, self.max.unwrap_or(NO_MAXIMUM))
    }
}

/// Prints a walk without what the options exclude. Returns whether everything could be read.
fn print(walk: impl FileIterator, options: &Options) -> Result<bool, Box<dyn Error>> {
    let any = wax::any(options.excluded.iter().map(String::as_str))?;
    let walk = walk.not(any)?;
    match &options.ignored {
        Some(list) => print_each(walk.ignore(list)),
        None => print_each(walk),
    }
}

fn print_each(walk: impl FileIterator) -> Result<bool, Box<dyn Error>> {
    let mut is_whole = true;
    let mut output = io::stdout().lock();
    for entry in walk {
        match entry {
            Ok(entry) => writeln!(output, "{}", entry.root_relative_paths().1.display())?,
            Err(error) => {
                eprintln!("globs: {error}");
                is_whole = false;
            }
        }
    }
    Ok(is_whole)
}

fn run(mut words: impl Iterator<Item = String>) -> Result<bool, Box<dyn Error>> {
    let mut next = || words.next().ok_or(WrongArguments);
    let (command, start, expression) = (next()?, next()?, next()?);
    if command != "walk" {
        return Err(WrongArguments.into());
    }
    let options = Options::parse(words)?;
    if options.is_set {
        let any = wax::any(expression.split(' '))?;
        print(any.walk_with_behavior(start, options.depth()), &options)
    } else {
        let glob = Glob::new(&expression)?;
        print(glob.walk_with_behavior(start, options.depth()), &options)
    }
}

fn main() -> ExitCode {
    match run(std::env::args().skip(1)) {
        Ok(true) => ExitCode::SUCCESS,
        Ok(false) => ExitCode::from(3),
        Err(error) => {
            eprintln!("globs: {error}");
            ExitCode::FAILURE
        }
    }
}
