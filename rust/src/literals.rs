//! The components of an expression that consist only of literals.

use std::str::Chars;

/// Returns whether the text of a component is `.` or `..`, of the expression or of a glob in it. The expression has no error.
pub fn has_semantic_literals(expression: &str) -> bool {
    let mut characters = expression.chars();
    // the text of the component, or `None` if something other than literals is in it, such as a branch that ends
    let mut component = Some(String::new());
    while let Some(character) = characters.next() {
        if matches!(character, '/' | ',' | ':' | '}' | '>') && is_semantic(&component) {
            return true;
        }
        match character {
            '/' | ',' | '{' | '<' => component = Some(String::new()),
            '*' | '?' | '$' | '}' | '>' => component = None,
            '[' | ':' => {
                skip(&mut characters, if character == '[' { ']' } else { '>' });
                component = None;
            }
            '(' => skip(&mut characters, ')'),
            '\\' => extend(&mut component, characters.next()),
            _ => extend(&mut component, Some(character)),
        }
    }
    is_semantic(&component)
}

fn is_semantic(component: &Option<String>) -> bool {
    matches!(component.as_deref(), Some("." | ".."))
}

fn extend(component: &mut Option<String>, literal: Option<char>) {
    if let Some(text) = component {
        text.extend(literal);
    }
}

/// Reads up to the end of a class, of bounds or of flags. A character after a backslash is no end.
fn skip(characters: &mut Chars<'_>, end: char) {
    while let Some(character) = characters.next() {
        if character == '\\' {
            characters.next();
        } else if character == end {
            return;
        }
    }
}
