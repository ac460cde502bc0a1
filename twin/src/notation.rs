//! The notation: reading with refusals, and writing.

use crate::model::*;
use crate::wellformed::{test_patterns, test_scheme};

const EMPTY: &[u8] = "∅".as_bytes();
const EPSILON: &[u8] = "ε".as_bytes();
const OPEN: &[u8] = "⟨".as_bytes();
const CLOSE: &[u8] = "⟩".as_bytes();

/// A misspelt text.
struct Misspelt;
type Read<T> = Result<T, Misspelt>;

/// The rest of a text that is read from its front.
struct Cursor<'a>(&'a [u8]);

impl Cursor<'_> {
    fn spaces(&mut self) {
        while let [b' ', rest @ ..] = self.0 {
            self.0 = rest;
        }
    }

    /// Takes the mark, if it stands next.
    fn takes(&mut self, mark: &[u8]) -> bool {
        self.spaces();
        match self.0.strip_prefix(mark) {
            Some(rest) => {
                self.0 = rest;
                true
            }
            None => false,
        }
    }

    fn mark(&mut self, mark: &[u8]) -> Read<()> {
        if self.takes(mark) {
            Ok(())
        } else {
            Err(Misspelt)
        }
    }

    /// The run of digits that stands next.
    fn digits(&mut self) -> Read<&[u8]> {
        self.spaces();
        let end = self.0.iter().position(|b| !b.is_ascii_digit()).unwrap_or(self.0.len());
        if end == 0 {
            return Err(Misspelt);
        }
        let (run, rest) = self.0.split_at(end);
        self.0 = rest;
        Ok(run)
    }

    fn end(&mut self) -> Read<()> {
        self.spaces();
        if self.0.is_empty() {
            Ok(())
        } else {
            Err(Misspelt)
        }
    }

    fn permutation<const N: usize>(&mut self) -> Read<Kept<u8, N>> {
        let mut word = Kept::new();
        if !self.takes(EPSILON) {
            for &b in self.digits()? {
                word.push(b - b'0');
            }
        }
        Ok(word)
    }

    fn number(&mut self) -> Read<u16> {
        let run = self.digits()?;
        if run.len() > 3 || (run.len() > 1 && run[0] == b'0') {
            return Err(Misspelt);
        }
        Ok(run.iter().fold(0, |n, b| 10 * n + (b - b'0') as u16))
    }

    /// Items between two marks, with commas between them.
    fn list(&mut self, open: &[u8], close: &[u8], mut item: impl FnMut(&mut Self) -> Read<()>) -> Read<()> {
        self.mark(open)?;
        item(self)?;
        while self.takes(b",") {
            item(self)?;
        }
        self.mark(close)
    }

    fn vector(&mut self) -> Read<Vector> {
        let mut vector = Vector::new();
        self.list(OPEN, CLOSE, |cursor| {
            vector.push(cursor.number()?);
            Ok(())
        })?;
        Ok(vector)
    }

    fn entry(&mut self) -> Read<Entry> {
        let mut entry = Entry::default();
        self.mark(b"(")?;
        entry.prefix = self.permutation()?;
        self.mark(b",")?;
        if !self.takes(EMPTY) {
            self.list(b"{", b"}", |cursor| {
                entry.vectors.push(cursor.vector()?);
                Ok(())
            })?;
        }
        self.mark(b",")?;
        if !self.takes(EMPTY) {
            let mut positions = Deletion::new();
            self.list(b"{", b"}", |cursor| {
                positions.push(cursor.number()?);
                Ok(())
            })?;
            entry.rule = Rule::Delete(positions);
        }
        self.mark(b")")?;
        Ok(entry)
    }
}

fn spelt_patterns(text: &[u8]) -> Read<Patterns> {
    let mut cursor = Cursor(text);
    let mut patterns = Patterns::new();
    if !cursor.takes(EMPTY) {
        cursor.list(b"{", b"}", |cursor| {
            patterns.push(cursor.permutation()?);
            Ok(())
        })?;
    }
    cursor.end()?;
    Ok(patterns)
}

fn spelt_scheme(text: &[u8]) -> Read<Scheme> {
    let mut cursor = Cursor(text);
    let mut scheme = Scheme::default();
    if !cursor.takes(EMPTY) {
        cursor.list(b"{", b"}", |cursor| {
            scheme.push(cursor.entry()?);
            Ok(())
        })?;
    }
    cursor.end()?;
    Ok(scheme)
}

pub fn read_patterns(text: &[u8]) -> Result<Patterns, Refusal> {
    if text.len() > PATTERN_TEXT {
        return Err(Refusal(OVERSIZE, 0));
    }
    let patterns = spelt_patterns(text).map_err(|_| Refusal(MISSPELT, 0))?;
    test_patterns(&patterns)?;
    Ok(patterns)
}

pub fn read_scheme(text: &[u8]) -> Result<Scheme, Refusal> {
    if text.len() > SCHEME_TEXT {
        return Err(Refusal(OVERSIZE, 0));
    }
    let scheme = spelt_scheme(text).map_err(|_| Refusal(MISSPELT, 0))?;
    test_scheme(&scheme)?;
    Ok(scheme)
}

/// The pieces of a set: marks and numbers, in their order. Joined, they are what the writer gives;
/// spaces may stand between any two.
pub fn pattern_pieces(patterns: &[Pattern]) -> Vec<String> {
    if patterns.is_empty() {
        return vec!["∅".into()];
    }
    let items = patterns.iter().map(|p| vec![permutation(p.items())]);
    bracket("{", items, "}")
}

/// The pieces of a scheme.
pub fn scheme_pieces(entries: &[Entry]) -> Vec<String> {
    if entries.is_empty() {
        return vec!["∅".into()];
    }
    bracket("{", entries.iter().map(entry_pieces), "}")
}

fn entry_pieces(entry: &Entry) -> Vec<String> {
    let mut pieces = vec!["(".into(), permutation(entry.prefix.items()), ",".into()];
    if entry.vectors.count() == 0 {
        pieces.push("∅".into());
    } else {
        let vectors = entry.vectors.items().iter().map(vector_pieces);
        pieces.extend(bracket("{", vectors, "}"));
    }
    pieces.push(",".into());
    match &entry.rule {
        Rule::Expand => pieces.push("∅".into()),
        Rule::Delete(set) => pieces.extend(bracket("{", numbers(set.items()), "}")),
    }
    pieces.push(")".into());
    pieces
}

fn vector_pieces(vector: &Vector) -> Vec<String> {
    bracket("⟨", numbers(vector.items()), "⟩")
}

/// Each number as a piece of its own.
fn numbers(items: &[u16]) -> impl Iterator<Item = Vec<String>> + '_ {
    items.iter().map(|x| vec![x.to_string()])
}

fn permutation(word: &[u8]) -> String {
    if word.is_empty() {
        return "ε".into();
    }
    word.iter().map(|d| (b'0' + d) as char).collect()
}

fn bracket(open: &str, items: impl Iterator<Item = Vec<String>>, close: &str) -> Vec<String> {
    let mut pieces = vec![open.to_string()];
    for (i, item) in items.enumerate() {
        if i > 0 {
            pieces.push(",".into());
        }
        pieces.extend(item);
    }
    pieces.push(close.into());
    pieces
}

pub fn write_patterns(patterns: &[Pattern]) -> Vec<u8> {
    pattern_pieces(patterns).concat().into_bytes()
}

pub fn write_scheme(entries: &[Entry]) -> Vec<u8> {
    scheme_pieces(entries).concat().into_bytes()
}
