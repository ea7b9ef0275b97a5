//! A source file as a list of declarations that are found by name.

use crate::token::{Gap, Token, text_of, tokens_of};

/// A declaration, a member of an `impl` or a variant of an `enum`, with its attributes.
pub struct Declaration {
    /// The words that name it, as `fn polar`, `struct Frame` or `impl std::ops::Neg for Vec3`,
    /// spaced as by `spaced`.
    pub name: String,
    pub tokens: Vec<Token>,
}

/// A text with one space between any two tokens: names are compared in this form.
pub fn spaced(text: &str) -> Result<String, String> {
    Ok(spaced_tokens(&tokens_of(text)?))
}

fn spaced_tokens(tokens: &[Token]) -> String {
    let words: Vec<&str> = tokens.iter().map(|t| t.text.as_str()).collect();
    words.join(" ")
}

/// The place after the bracket that closes the one at `open`.
pub fn after_bracket(tokens: &[Token], open: usize) -> Result<usize, String> {
    let mut expected = Vec::new();
    for (i, token) in tokens.iter().enumerate().skip(open) {
        match token.text.as_str() {
            "(" => expected.push(")"),
            "[" => expected.push("]"),
            "{" => expected.push("}"),
            text @ (")" | "]" | "}") => {
                if expected.pop() != Some(text) {
                    return Err(format!("an unexpected {text} in: {}", excerpt(tokens, open)));
                }
                if expected.is_empty() {
                    return Ok(i + 1);
                }
            }
            _ => {}
        }
    }
    Err(format!("a bracket is not closed: {}", excerpt(tokens, open)))
}

pub fn excerpt(tokens: &[Token], from: usize) -> String {
    text_of(&tokens[from..tokens.len().min(from + 20)]).replace('\n', " ")
}

pub fn is_open(token: &Token) -> bool {
    matches!(token.text.as_str(), "(" | "[" | "{")
}

/// The declarations of a file, or the members of an `impl`.
pub fn declarations(tokens: &[Token]) -> Result<Vec<Declaration>, String> {
    let mut out = Vec::new();
    let mut at = 0;
    while at < tokens.len() {
        let end = declaration_end(tokens, at)?;
        let tokens = tokens[at..end].to_vec();
        out.push(Declaration { name: name_of(&tokens)?, tokens });
        at = end;
    }
    Ok(out)
}

/// The tokens between the brackets that end a declaration.
pub fn body(tokens: &[Token]) -> Result<std::ops::Range<usize>, String> {
    let start = head_end(tokens, after_attributes(tokens, 0)?)?;
    if tokens[start].text != "{" {
        return Err(format!("no body: {}", excerpt(tokens, 0)));
    }
    Ok(start + 1..after_bracket(tokens, start)? - 1)
}

/// The variants of an `enum`'s body, or the fields of a `struct`'s, each with its comma.
pub fn entries(tokens: &[Token]) -> Result<Vec<Declaration>, String> {
    let mut out = Vec::new();
    let mut at = 0;
    while at < tokens.len() {
        let mut end = at;
        while end < tokens.len() && tokens[end].text != "," {
            end = if is_open(&tokens[end]) { after_bracket(tokens, end)? } else { end + 1 };
        }
        let end = tokens.len().min(end + 1);
        let name = after_visibility(tokens, after_attributes(tokens, at)?)?;
        out.push(Declaration { name: tokens[name].text.clone(), tokens: tokens[at..end].to_vec() });
        at = end;
    }
    Ok(out)
}

/// The tokens with `pub` before them, in the place of what visibility there was.
pub fn made_public(tokens: &[Token]) -> Result<Vec<Token>, String> {
    let start = after_attributes(tokens, 0)?;
    let rest = after_visibility(tokens, start)?;
    let mut out = tokens[..start].to_vec();
    out.push(Token { text: "pub".into(), gap: tokens[start].gap });
    out.push(Token { text: tokens[rest].text.clone(), gap: Gap::Space });
    out.extend_from_slice(&tokens[rest + 1..]);
    Ok(out)
}

fn after_attributes(tokens: &[Token], mut at: usize) -> Result<usize, String> {
    while at + 1 < tokens.len() && tokens[at].text == "#" {
        at = after_bracket(tokens, at + 1)?;
    }
    if at == tokens.len() {
        return Err("attributes with nothing after them".into());
    }
    Ok(at)
}

fn after_visibility(tokens: &[Token], mut at: usize) -> Result<usize, String> {
    if tokens[at].text == "pub" {
        at += 1;
        if at < tokens.len() && tokens[at].text == "(" {
            at = after_bracket(tokens, at)?;
        }
    }
    if at == tokens.len() {
        return Err("a visibility with nothing after it".into());
    }
    Ok(at)
}

/// The first `{` or `;` outside other brackets.
fn head_end(tokens: &[Token], mut at: usize) -> Result<usize, String> {
    let start = at;
    while at < tokens.len() {
        match tokens[at].text.as_str() {
            "{" | ";" => return Ok(at),
            "(" | "[" => at = after_bracket(tokens, at)?,
            _ => at += 1,
        }
    }
    Err(format!("a declaration does not end: {}", excerpt(tokens, start)))
}

fn declaration_end(tokens: &[Token], start: usize) -> Result<usize, String> {
    let first = after_visibility(tokens, after_attributes(tokens, start)?)?;
    let constant = tokens[first].text == "const" && tokens[first + 1].text != "fn";
    // In these a `{` belongs to an expression or a path, and the end is the `;`.
    let ends_at_semicolon =
        constant || matches!(tokens[first].text.as_str(), "use" | "static" | "type");
    let mut end = head_end(tokens, first)?;
    while ends_at_semicolon && tokens[end].text == "{" {
        let after = after_bracket(tokens, end)?;
        end = head_end(tokens, after)?;
    }
    if tokens[end].text == "{" { after_bracket(tokens, end) } else { Ok(end + 1) }
}

fn name_of(tokens: &[Token]) -> Result<String, String> {
    let mut first = after_visibility(tokens, after_attributes(tokens, 0)?)?;
    if tokens[first].text == "const" && tokens[first + 1].text == "fn" {
        first += 1;
    }
    let end = match tokens[first].text.as_str() {
        "impl" => head_end(tokens, first)?,
        _ => tokens.len().min(first + 2),
    };
    Ok(spaced_tokens(&tokens[first..end]))
}

#[cfg(test)]
mod tests {
    use super::*;

    fn names(source: &str) -> Vec<String> {
        let found = declarations(&tokens_of(source).unwrap()).unwrap();
        found.into_iter().map(|d| d.name).collect()
    }

    #[test]
    fn declarations_are_named_by_their_words() {
        let source =
            "use a::{b, c}; #[derive(Clone)] pub(crate) struct S { x: [u8; 2] } struct T(u8);
            const K: S = S { x: [1, 2] }; pub const fn f() -> u8 { 1 } fn g(x: [u8; 2]) {}
            impl std::ops::Mul<f64> for S { fn f() {} } m! { a => b }";
        let expected = [
            "use a",
            "struct S",
            "struct T",
            "const K",
            "fn f",
            "fn g",
            "impl std : : ops : : Mul < f64 > for S",
            "m !",
        ];
        assert_eq!(names(source), expected);
    }

    #[test]
    fn a_body_and_its_entries() {
        let tokens =
            tokens_of("pub enum E { A { x: f64, y: f64 }, #[default] B(u8, u8), C }").unwrap();
        let found: Vec<String> =
            entries(&tokens[body(&tokens).unwrap()]).unwrap().into_iter().map(|e| e.name).collect();
        assert_eq!(found, ["A", "B", "C"]);
    }

    #[test]
    fn visibility_is_replaced() {
        for source in ["fn f() {}", "pub fn f() {}", "pub(crate) fn f() {}"] {
            assert_eq!(
                text_of(&made_public(&tokens_of(source).unwrap()).unwrap()),
                "pub fn f() {}"
            );
        }
    }

    #[test]
    fn brackets_must_match() {
        for source in ["fn f() { ( }", "fn f() { ) }", "fn f()"] {
            assert!(declarations(&tokens_of(source).unwrap()).is_err(), "{source}");
        }
    }
}
