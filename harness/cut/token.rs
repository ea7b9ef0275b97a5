//! Rust source as a list of tokens. Comments go; the white space between two tokens is kept as
//! one of three kinds, so that the text written out again still reads like the original.

#[derive(Clone, Copy, PartialEq)]
pub enum Gap {
    None,
    Space,
    Line,
}

#[derive(Clone)]
pub struct Token {
    pub text: String,
    /// What stood before the token.
    pub gap: Gap,
}

/// The text of the tokens, with single spaces and line breaks where the original had any.
pub fn text_of(tokens: &[Token]) -> String {
    let mut out = String::new();
    for token in tokens {
        match token.gap {
            Gap::None => {}
            Gap::Space => out.push(' '),
            Gap::Line => out.push('\n'),
        }
        out.push_str(&token.text);
    }
    out
}

/// The tokens of a source text. A text that ends inside a comment or a literal is an error.
pub fn tokens_of(source: &str) -> Result<Vec<Token>, String> {
    let mut lexer = Lexer { chars: source.chars().collect(), at: 0 };
    let mut out = Vec::new();
    loop {
        let gap = lexer.gap()?;
        if lexer.at == lexer.chars.len() {
            return Ok(out);
        }
        let start = lexer.at;
        lexer.token()?;
        out.push(Token { text: lexer.chars[start..lexer.at].iter().collect(), gap });
    }
}

struct Lexer {
    chars: Vec<char>,
    at: usize,
}

impl Lexer {
    fn peek(&self, ahead: usize) -> char {
        self.chars.get(self.at + ahead).copied().unwrap_or('\0')
    }

    fn ended(&self, what: &str) -> Result<(), String> {
        if self.at >= self.chars.len() {
            return Err(format!("the source ends inside {what}"));
        }
        Ok(())
    }

    /// Passes over white space and comments.
    fn gap(&mut self) -> Result<Gap, String> {
        let mut gap = Gap::None;
        loop {
            match (self.peek(0), self.peek(1)) {
                ('\n', _) => {
                    gap = Gap::Line;
                    self.at += 1;
                }
                ('/', '/') => {
                    while self.at < self.chars.len() && self.peek(0) != '\n' {
                        self.at += 1;
                    }
                }
                ('/', '*') => {
                    self.block_comment()?;
                    if gap == Gap::None {
                        gap = Gap::Space;
                    }
                }
                (c, _) if c.is_whitespace() => {
                    if gap == Gap::None {
                        gap = Gap::Space;
                    }
                    self.at += 1;
                }
                _ => return Ok(gap),
            }
        }
    }

    /// Block comments nest.
    fn block_comment(&mut self) -> Result<(), String> {
        let mut depth = 0;
        loop {
            self.ended("a comment")?;
            match (self.peek(0), self.peek(1)) {
                ('/', '*') => {
                    depth += 1;
                    self.at += 2;
                }
                ('*', '/') => {
                    depth -= 1;
                    self.at += 2;
                    if depth == 0 {
                        return Ok(());
                    }
                }
                _ => self.at += 1,
            }
        }
    }

    fn token(&mut self) -> Result<(), String> {
        let c = self.peek(0);
        if let Some(hashes) = self.raw_string() {
            self.raw_string_to(hashes)
        } else if c == '"' || (matches!(c, 'b' | 'c') && self.peek(1) == '"') {
            self.at += if c == '"' { 1 } else { 2 };
            self.quoted('"', "a string")
        } else if c == 'b' && self.peek(1) == '\'' {
            self.at += 2;
            self.quoted('\'', "a byte literal")
        } else if c == '\'' {
            self.char_or_lifetime()
        } else if c.is_ascii_digit() {
            self.number();
            Ok(())
        } else if is_word(c) {
            self.word();
            Ok(())
        } else {
            self.at += 1;
            Ok(())
        }
    }

    fn word(&mut self) {
        while is_word(self.peek(0)) {
            self.at += 1;
        }
    }

    /// A number with its suffix. `0..n` is a number and a range, and `t.0` a field: a dot belongs
    /// to the number only before a digit.
    fn number(&mut self) {
        let start = self.at;
        self.word();
        if self.peek(0) == '.' && self.peek(1).is_ascii_digit() {
            self.at += 1;
            self.word();
        }
        let hex = self.chars[start..].starts_with(&['0', 'x']);
        let exponent = matches!(self.chars[self.at - 1], 'e' | 'E');
        if exponent && !hex && matches!(self.peek(0), '+' | '-') {
            self.at += 1;
            self.word();
        }
    }

    /// The literal after its opening quote, to its closing one.
    fn quoted(&mut self, quote: char, what: &str) -> Result<(), String> {
        loop {
            self.ended(what)?;
            let c = self.peek(0);
            self.at += if c == '\\' { 2 } else { 1 };
            if c == quote {
                return Ok(());
            }
        }
    }

    fn char_or_lifetime(&mut self) -> Result<(), String> {
        self.at += 1;
        if self.peek(0) == '\\' || self.peek(1) == '\'' {
            self.quoted('\'', "a character")
        } else {
            self.word();
            Ok(())
        }
    }

    /// The number of `#` of a raw string that begins here: r"..", r#".."#, br"..".
    fn raw_string(&self) -> Option<usize> {
        let mut i = usize::from(matches!(self.peek(0), 'b' | 'c'));
        if self.peek(i) != 'r' {
            return None;
        }
        i += 1;
        let mut hashes = 0;
        while self.peek(i + hashes) == '#' {
            hashes += 1;
        }
        (self.peek(i + hashes) == '"').then_some(hashes)
    }

    fn raw_string_to(&mut self, hashes: usize) -> Result<(), String> {
        while self.peek(0) != '"' {
            self.at += 1;
        }
        loop {
            self.at += 1;
            self.ended("a raw string")?;
            if self.peek(0) == '"' && (1..=hashes).all(|i| self.peek(i) == '#') {
                self.at += 1 + hashes;
                return Ok(());
            }
        }
    }
}

fn is_word(c: char) -> bool {
    c.is_alphanumeric() || c == '_'
}

#[cfg(test)]
mod tests {
    use super::*;

    fn words(source: &str) -> Vec<String> {
        tokens_of(source).unwrap().into_iter().map(|t| t.text).collect()
    }

    #[test]
    fn brackets_in_literals_and_comments_are_no_tokens() {
        assert_eq!(
            words(r#"f("{ \" // }") /* { /* } */ { */ ; // }"#),
            ["f", "(", r#""{ \" // }""#, ")", ";"]
        );
        assert_eq!(words(r##"r#"{ " }"# br"}" b"}""##), [r##"r#"{ " }"#"##, r#"br"}""#, r#"b"}""#]);
        assert_eq!(words(r"'{' '\'' b'}' '\u{7d}'"), ["'{'", r"'\''", "b'}'", r"'\u{7d}'"]);
    }

    #[test]
    fn lifetimes_are_not_characters() {
        assert_eq!(
            words("<'a>(x: &'a T, 'b')"),
            ["<", "'a", ">", "(", "x", ":", "&", "'a", "T", ",", "'b'", ")"]
        );
    }

    #[test]
    fn numbers() {
        assert_eq!(
            words("0..=n 1e-9 0.5f64 8f64.sin() t.0 1-x 0x1e-1"),
            [
                "0", ".", ".", "=", "n", "1e-9", "0.5f64", "8f64", ".", "sin", "(", ")", "t", ".",
                "0", "1", "-", "x", "0x1e", "-", "1"
            ]
        );
    }

    #[test]
    fn text_comes_back() {
        let source = "fn f(x: &mut [f64]) -> f64 {\nx[0] >= 1.0 && true\n}";
        assert_eq!(text_of(&tokens_of(source).unwrap()), source);
    }

    #[test]
    fn a_text_that_breaks_off_is_refused() {
        for source in ["/* {", "\"a", "r#\"a\"", "'\\"] {
            assert!(tokens_of(source).is_err(), "{source}");
        }
    }
}
