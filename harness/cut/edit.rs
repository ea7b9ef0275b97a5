//! Edits on cut source. Each says why it is made and how often its text must be found; a text
//! that is found more or less often stops the build, for then the source is not the one that the
//! edit was written for.

use crate::source::{after_bracket, excerpt, is_open};
use crate::token::{Token, tokens_of};

pub struct Edit {
    pub why: &'static str,
    pub change: Change,
    pub times: usize,
}

pub enum Change {
    /// One text for another.
    Replace(&'static str, &'static str),
    /// A statement goes that begins with this text and ends with its block.
    DropStatement(&'static str),
    /// An arm of a `match` goes whose pattern begins with this text.
    DropArm(&'static str),
}

impl Edit {
    pub fn apply(&self, tokens: &[Token]) -> Result<Vec<Token>, String> {
        let (Change::Replace(old, _) | Change::DropStatement(old) | Change::DropArm(old)) =
            self.change;
        let wanted = tokens_of(old)?;
        let mut out = Vec::new();
        let (mut at, mut found) = (0, 0);
        while at < tokens.len() {
            if !begins_with(&tokens[at..], &wanted) {
                out.push(tokens[at].clone());
                at += 1;
                continue;
            }
            found += 1;
            at = match self.change {
                Change::Replace(_, new) => {
                    let mut put = tokens_of(new)?;
                    if let Some(first) = put.first_mut() {
                        first.gap = tokens[at].gap;
                    }
                    out.extend(put);
                    at + wanted.len()
                }
                Change::DropStatement(_) => statement_end(tokens, at)?,
                Change::DropArm(_) => arm_end(tokens, at)?,
            };
        }
        if found != self.times {
            return Err(format!("{}: found {found} times and not {}: {old}", self.why, self.times));
        }
        Ok(out)
    }
}

pub fn begins_with(tokens: &[Token], wanted: &[Token]) -> bool {
    tokens.len() >= wanted.len() && tokens.iter().zip(wanted).all(|(a, b)| a.text == b.text)
}

/// The place after the first block that opens outside other brackets.
fn statement_end(tokens: &[Token], mut at: usize) -> Result<usize, String> {
    let start = at;
    while at < tokens.len() {
        match tokens[at].text.as_str() {
            "{" => return after_bracket(tokens, at),
            "(" | "[" => at = after_bracket(tokens, at)?,
            ")" | "]" | "}" | ";" => break,
            _ => at += 1,
        }
    }
    Err(format!("a statement has no block: {}", excerpt(tokens, start)))
}

/// The place after the arm whose pattern begins at `at`.
fn arm_end(tokens: &[Token], mut at: usize) -> Result<usize, String> {
    let text = |i: usize| tokens.get(i).map_or("", |t| t.text.as_str());
    let start = at;
    let mut in_pattern = true;
    while at < tokens.len() {
        match text(at) {
            "=" if in_pattern && text(at + 1) == ">" => {
                in_pattern = false;
                at += 2;
                if text(at) == "{" {
                    at = after_bracket(tokens, at)?;
                    return Ok(if text(at) == "," { at + 1 } else { at });
                }
            }
            "," if !in_pattern => return Ok(at + 1),
            "}" if !in_pattern => return Ok(at),
            _ if is_open(&tokens[at]) => at = after_bracket(tokens, at)?,
            _ => at += 1,
        }
    }
    Err(format!("an arm does not end: {}", excerpt(tokens, start)))
}

#[cfg(test)]
mod tests {
    use super::*;
    use crate::token::text_of;

    fn edited(source: &str, change: Change, times: usize) -> Result<String, String> {
        let edit = Edit { why: "item 0", change, times };
        Ok(text_of(&edit.apply(&tokens_of(source)?)?))
    }

    #[test]
    fn a_text_is_replaced_whatever_its_spacing() {
        let change = Change::Replace("a . min ( b )", "a.least(b)");
        assert_eq!(
            edited("x + a.min(b) + a\n.min(b)", change, 2).unwrap(),
            "x + a.least(b) + a.least(b)"
        );
    }

    #[test]
    fn another_count_is_refused_and_names_the_item() {
        for times in [0, 2] {
            assert!(
                edited("a.min(b)", Change::Replace(".min(", ".least("), times)
                    .unwrap_err()
                    .starts_with("item 0")
            );
        }
    }

    #[test]
    fn statements_go_whole() {
        let source = "a(); if b.c({ 1 }) { d(); { e } } f();";
        let without = edited(source, Change::DropStatement("if b."), 1).unwrap();
        assert_eq!(without, "a(); f();");
        assert!(edited("if b; { c }", Change::DropStatement("if b"), 1).is_err());
    }

    #[test]
    fn arms_go_whole() {
        let source = "match x { A { y } => g(y, |z| { z }), B(n) => { f(n, 1) } C => 2, D => 3 }";
        let without = |arm| edited(source, Change::DropArm(arm), 1).unwrap();
        assert_eq!(without("A"), "match x { B(n) => { f(n, 1) } C => 2, D => 3 }");
        assert_eq!(without("B(n)"), "match x { A { y } => g(y, |z| { z }), C => 2, D => 3 }");
        assert_eq!(
            without("D =>"),
            "match x { A { y } => g(y, |z| { z }), B(n) => { f(n, 1) } C => 2, }"
        );
    }
}
