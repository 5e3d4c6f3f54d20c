//! Reads definitions (`.antt`): the name, the lines and the mentioned names of each.

use crate::names::{Use, first_name, is_in_name, mentioned, read_use};

#[derive(Debug, Default)]
pub struct Definition {
    pub name: String,
    /// The number of its first line.
    pub at: usize,
    /// How many lines it has, without blank lines and comments.
    pub lines: usize,
    /// The constructors of a data type.
    pub constructors: Vec<String>,
    /// Its lines, without the names of fields and constructors.
    text: String,
    kind: Kind,
}

impl Definition {
    /// The names that lead on from it.
    pub fn mentions(&self) -> Vec<String> {
        mentioned(&self.text)
    }
}

#[derive(Clone, Copy, Debug, Default, PartialEq)]
enum Kind {
    #[default]
    Function,
    Record,
    Data,
}

/// A file of definitions.
#[derive(Debug, Default)]
pub struct Page {
    pub uses: Vec<Use>,
    pub definitions: Vec<Definition>,
}

pub fn read_page(text: &str) -> Result<Page, String> {
    let mut reader = Reader::default();
    for (index, line) in text.lines().enumerate() {
        let line = without_comment(line).trim_end();
        if !line.is_empty() {
            reader
                .read(index + 1, line)
                .map_err(|why| format!("{}: {why}", index + 1))?;
        }
    }
    Ok(reader.page)
}

fn without_comment(line: &str) -> &str {
    if line.trim_start().starts_with("--") {
        return "";
    }
    line.split(" --").next().unwrap_or_default()
}

#[derive(Default)]
struct Reader {
    page: Page,
    /// Whether the last definition may go on.
    open: bool,
    /// The head of the `module _ .. where` block that the line stands in: its definitions take its parameters.
    block: Option<String>,
    /// How far the definitions of that block are indented; 0 outside.
    margin: usize,
}

impl Reader {
    fn read(&mut self, number: usize, line: &str) -> Result<(), String> {
        let code = line.trim_start();
        let indent = line.len() - code.len();
        self.find_margin(indent);
        if indent > self.margin {
            return self.go_on(code);
        }
        if code.starts_with("use ") || code.starts_with("pub mod ") {
            self.open = false;
            self.page.uses.extend(read_use(code)?);
            return Ok(());
        }
        if code.starts_with("module ") && code.ends_with("where") && self.block.is_none() {
            self.open = false;
            self.block = Some(code.to_string());
            return Ok(());
        }
        if let Some((kind, name)) = head(code) {
            self.begin(kind, name, number);
            return self.go_on(code);
        }
        if self.is_clause(code) || code.starts_with(['}', ')', ']']) {
            return self.go_on(code);
        }
        Err(format!("this line is of no definition: {code}"))
    }

    /// A block begins with the first line behind its head, and ends where a line is not indented.
    fn find_margin(&mut self, indent: usize) {
        if indent < self.margin {
            self.block = None;
            self.margin = 0;
            self.open = false;
        } else if self.block.is_some() && self.margin == 0 {
            self.margin = indent;
        }
    }

    fn begin(&mut self, kind: Kind, name: &str, number: usize) {
        self.page.definitions.push(Definition {
            name: name.to_string(),
            at: number,
            text: self.block.clone().unwrap_or_default(),
            kind,
            ..Definition::default()
        });
        self.open = true;
    }

    fn is_clause(&self, code: &str) -> bool {
        self.page
            .definitions
            .last()
            .is_some_and(|last| last.name == first_name(code))
    }

    /// Adds a line to the definition that it stands in.
    fn go_on(&mut self, code: &str) -> Result<(), String> {
        let last = self.page.definitions.last_mut().filter(|_| self.open);
        let definition = last.ok_or_else(|| format!("this line is of no definition: {code}"))?;
        definition.lines += 1;
        let (label, said) = if definition.kind == Kind::Function {
            ("", code)
        } else {
            labelled(code)
        };
        if definition.kind == Kind::Data && !label.is_empty() {
            definition.constructors.push(label.to_string());
        }
        definition.text += "\n";
        definition.text += said;
        Ok(())
    }
}

/// The kind and the name of the definition that a line begins.
fn head(code: &str) -> Option<(Kind, &str)> {
    let mut code = code;
    for word in ["abbrev ", "unfoldable ", "pub "] {
        code = without_word(code, word);
    }
    if let Some(record) = code.strip_prefix("record ") {
        return Some((Kind::Record, first_name(record)));
    }
    if let Some(data) = code.strip_prefix("data ") {
        return Some((Kind::Data, first_name(data)));
    }
    let (name, _) = labelled(code);
    (!name.is_empty()).then_some((Kind::Function, name))
}

/// The name of a line `NAME : TYPE`, a field's or a constructor's, and the type; no name for another line.
fn labelled(code: &str) -> (&str, &str) {
    match without_word(code, "pub ").split_once(" : ") {
        Some((name, rest)) if name.chars().all(is_in_name) => (name, rest),
        _ => ("", code),
    }
}

fn without_word<'a>(code: &'a str, word: &str) -> &'a str {
    code.strip_prefix(word).unwrap_or(code)
}

#[cfg(test)]
mod tests {
    use super::*;

    fn mentions(definition: &Definition, name: &str) -> bool {
        definition.mentions().iter().any(|mention| mention == name)
    }

    fn only(text: &str) -> Definition {
        let mut page = read_page(text).unwrap();
        assert_eq!(page.definitions.len(), 1);
        page.definitions.remove(0)
    }

    #[test]
    fn clauses_and_their_continuations_are_counted_and_comments_are_not() {
        let text = "-- above\nabbrev pub f : ℕ → ℕ\n-- within\nf zero =\n    -- deeper\n    g\n    (h 0) -- behind\n\nf n = 0\n";
        let f = only(text);
        assert_eq!((f.name.as_str(), f.at, f.lines), ("f", 2, 5));
        assert!(mentions(&f, "g") && mentions(&f, "h"));
        assert!(!mentions(&f, "within") && !mentions(&f, "deeper") && !mentions(&f, "behind"));
    }

    #[test]
    fn a_record_value_ends_with_its_brace() {
        let f = only("pub f : Row\nf = record {\n  layout = g;\n  -- the name\n  name = h;\n}\n");
        assert_eq!(f.lines, 5);
        assert!(mentions(&f, "g") && mentions(&f, "h"));
        assert!(!mentions(&f, "layout") && !mentions(&f, "name"));
    }

    #[test]
    fn a_record_mentions_its_types_and_not_its_fields() {
        let record = only("pub record R (n : ℕ) : Type 0 where\n  pub whole : g n\n    → h\n");
        assert_eq!((record.name.as_str(), record.lines), ("R", 3));
        assert!(mentions(&record, "g") && mentions(&record, "h") && !mentions(&record, "whole"));
    }

    #[test]
    fn a_data_type_has_constructors() {
        let data = only(
            "pub data Outcome (A : Type 0) : Type 0 where\n  accept : A → Outcome A\n  refuse : ℕ → Outcome A\n",
        );
        assert_eq!(
            (data.lines, data.constructors),
            (3, vec!["accept".into(), "refuse".into()])
        );
    }

    #[test]
    fn the_definitions_of_a_block_take_its_parameters() {
        let text = "module _ {M : Type 0} (g : N) where\n  -- first\n  unfoldable pub f : M\n  f =\n    0\n\nabbrev pub h : M\nh = 1\n";
        let page = read_page(text).unwrap();
        let lines: Vec<_> = page
            .definitions
            .iter()
            .map(|d| (d.name.as_str(), d.lines))
            .collect();
        assert_eq!(lines, [("f", 3), ("h", 2)]);
        assert!(mentions(&page.definitions[0], "N") && !mentions(&page.definitions[1], "N"));
    }

    #[test]
    fn a_line_of_no_definition_is_an_error() {
        for text in [
            "infixl 5 f\n",
            "g x = 0\n",
            "  f x = 0\n",
            "use lib.A.{a}\n  b\n",
            "module _ where\nf = 0\n",
        ] {
            assert!(read_page(text).is_err(), "{text}");
        }
        assert!(
            read_page("pub mod A\nuse lib.A.{a}\n")
                .unwrap()
                .definitions
                .is_empty()
        );
    }
}
