//! Cuts the functions that the port follows out of the Rust source, with items 1 to 5 of document
//! 01 put in, and writes them to one file.
//!
//!     cut SOURCE_FOLDER OUTPUT_FILE

#[path = "cut/edit.rs"]
mod edit;
#[path = "cut/plan.rs"]
mod plan;
#[path = "cut/source.rs"]
mod source;
#[path = "cut/token.rs"]
mod token;

use plan::{Cut, Members};
use source::{Declaration, body, declarations, entries, made_public, spaced};
use std::collections::BTreeMap;
use token::{Token, text_of, tokens_of};

fn main() {
    let arguments: Vec<String> = std::env::args().collect();
    let [_, folder, output] = arguments.as_slice() else {
        eprintln!("usage: cut SOURCE_FOLDER OUTPUT_FILE");
        std::process::exit(2);
    };
    let written = generated(folder)
        .and_then(|text| std::fs::write(output, text).map_err(|e| format!("{output}: {e}")));
    if let Err(message) = written {
        eprintln!("cut: {message}");
        std::process::exit(1);
    }
}

type Files = BTreeMap<&'static str, Vec<Declaration>>;

fn generated(folder: &str) -> Result<String, String> {
    let cuts = plan::plan();
    let mut files = Files::new();
    for file in cuts.iter().map(|c| c.file).chain(plan::REPLACED.iter().map(|r| r.0)) {
        if !files.contains_key(file) {
            files.insert(file, read(folder, file)?);
        }
    }
    for (file, name) in plan::REPLACED {
        find(&files[file], name).map_err(|e| format!("{file}: {e}"))?;
    }
    let mut out = String::from(plan::PREAMBLE);
    for cut in &cuts {
        let tokens =
            taken(&files[cut.file], cut).map_err(|e| format!("{}: {}: {e}", cut.file, cut.name))?;
        out.push('\n');
        out.push_str(text_of(&tokens).trim_start());
        out.push('\n');
    }
    Ok(out)
}

fn read(folder: &str, file: &str) -> Result<Vec<Declaration>, String> {
    let path = format!("{folder}/{file}");
    let text = std::fs::read_to_string(&path).map_err(|e| format!("{path}: {e}"))?;
    tokens_of(&text).and_then(|t| declarations(&t)).map_err(|e| format!("{path}: {e}"))
}

/// The one declaration of that name.
fn find<'a>(all: &'a [Declaration], name: &str) -> Result<&'a Declaration, String> {
    let name = spaced(name)?;
    let mut found = all.iter().filter(|d| d.name == name);
    match (found.next(), found.next()) {
        (Some(only), None) => Ok(only),
        (None, _) => Err(format!("there is no {name}")),
        _ => Err(format!("there is more than one {name}")),
    }
}

/// What the cut takes over, public and edited.
fn taken(all: &[Declaration], cut: &Cut) -> Result<Vec<Token>, String> {
    let mut tokens = match &cut.members {
        Members::All => whole(find(all, cut.name)?)?,
        Members::Only(members) => part(all, cut.name, members)?,
    };
    for edit in &cut.edits {
        tokens = edit.apply(&tokens)?;
    }
    for text in plan::FORBIDDEN.split_whitespace() {
        let wanted = tokens_of(text)?;
        if (0..tokens.len()).any(|i| edit::begins_with(&tokens[i..], &wanted)) {
            return Err(format!("the cut text still holds {text}"));
        }
    }
    Ok(tokens)
}

/// A declaration and, where it has them, its fields or members, all public.
fn whole(found: &Declaration) -> Result<Vec<Token>, String> {
    if found.name.starts_with("struct ") {
        let fields = entries(&found.tokens[body(&found.tokens)?])?;
        return made_public(&with_body(&found.tokens, &public_all(&fields)?)?);
    }
    if found.name.starts_with("impl ") {
        // The members of a trait are as public as the trait.
        let of_trait = found.name.contains(" for ");
        if of_trait {
            return Ok(found.tokens.clone());
        }
        let members = declarations(&found.tokens[body(&found.tokens)?])?;
        return with_body(&found.tokens, &public_all(&members)?);
    }
    made_public(&found.tokens)
}

/// An `impl` or an `enum` with some of its members. An `impl` may be spread over several blocks.
fn part(all: &[Declaration], name: &str, members: &[&str]) -> Result<Vec<Token>, String> {
    if name.starts_with("enum ") {
        let found = find(all, name)?;
        let variants = entries(&found.tokens[body(&found.tokens)?])?;
        let mut kept = Vec::new();
        for member in members {
            kept.extend_from_slice(&find(&variants, member)?.tokens);
        }
        return made_public(&with_body(&found.tokens, &kept)?);
    }
    let name = spaced(name)?;
    let blocks: Vec<&Declaration> = all.iter().filter(|d| d.name == name).collect();
    let first = blocks.first().ok_or(format!("there is no {name}"))?;
    let mut inside = Vec::new();
    for block in &blocks {
        inside.extend(declarations(&block.tokens[body(&block.tokens)?])?);
    }
    let mut kept = Vec::new();
    for member in members {
        kept.extend(made_public(&find(&inside, member)?.tokens)?);
    }
    with_body(&first.tokens, &kept)
}

fn public_all(all: &[Declaration]) -> Result<Vec<Token>, String> {
    let mut out = Vec::new();
    for one in all {
        out.extend(made_public(&one.tokens)?);
    }
    Ok(out)
}

fn with_body(tokens: &[Token], inside: &[Token]) -> Result<Vec<Token>, String> {
    let range = body(tokens)?;
    let mut out = tokens[..range.start].to_vec();
    out.extend_from_slice(inside);
    out.extend_from_slice(&tokens[range.end..]);
    Ok(out)
}
