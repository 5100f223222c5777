//! Warnings of globs that build.

use std::fmt::{self, Display, Formatter};

use crate::query::{LocatedError, Span};

/// A warning of a glob that builds, but may not match what its author expects. [`Glob::diagnose`](crate::Glob::diagnose)
/// returns them.
#[derive(Clone, Copy, Debug, PartialEq, Eq)]
pub enum Warning {
    /// A component is `.` or `..`. It is matched as a text, and leads to no other folder.
    SemanticLiteral {
        /// the place of the component in the expression
        span: Span,
        /// its text
        literal: &'static str,
    },
    /// The expression ends with a `/`, so it matches only paths that end with one.
    TerminatingSeparator {
        /// the place of the `/` in the expression
        span: Span,
    },
}

impl Warning {
    /// Converts a warning of the C library, whose kind is a number of `wax_warning`.
    pub(crate) fn new(span: Span, kind: i32) -> Self {
        let literal = match kind {
            1 => ".",
            2 => "..",
            _ => return Warning::TerminatingSeparator { span },
        };
        Warning::SemanticLiteral { span, literal }
    }
}

impl Display for Warning {
    fn fmt(&self, f: &mut Formatter<'_>) -> fmt::Result {
        match self {
            Warning::SemanticLiteral { literal, .. } => {
                write!(
                    f,
                    "`{literal}` is matched as a text and stands for no folder"
                )
            }
            Warning::TerminatingSeparator { .. } => {
                f.write_str("the separator at the end matches only paths that end with one")
            }
        }
    }
}

impl LocatedError for Warning {
    fn span(&self) -> Span {
        match *self {
            Warning::SemanticLiteral { span, .. } | Warning::TerminatingSeparator { span } => span,
        }
    }
}
