//! What promises and definitions have in common: the names that a text mentions, and `use` lines.

use std::collections::BTreeMap;

/// The text of each file, by its path from the repository's root.
pub type Files = BTreeMap<String, String>;

/// The names that a `use` line takes from a file of definitions.
#[derive(Debug, PartialEq)]
pub struct Use {
    pub file: String,
    pub names: Vec<String>,
}

/// The kit's libraries that definitions and promises name; every other name behind `Rattle.` is a crate's.
const KIT: [&str; 1] = ["std"];

/// Reads `use Rattle.CRATE.specs.FILE.{a, b}`. There is none where the names are the kit's, or are made
/// from the code's types (`specs.declared`).
pub fn read_use(line: &str) -> Result<Option<Use>, String> {
    let line = line.trim().trim_end_matches(';');
    let line = line.strip_prefix("ghost ").unwrap_or(line);
    let Some(path) = line.strip_prefix("use Rattle.") else {
        return Ok(None);
    };
    if KIT.iter().any(|name| path.starts_with(&format!("{name}."))) {
        return Ok(None);
    }
    let unread = || format!("this use line cannot be read: {line}");
    let (owner, rest) = path.split_once(".specs.").ok_or_else(unread)?;
    if rest.starts_with("declared.") {
        return Ok(None);
    }
    let (file, names) = rest.split_once(".{").ok_or_else(unread)?;
    let names = names.strip_suffix('}').ok_or_else(unread)?;
    Ok(Some(Use {
        file: format!("crates/{owner}/specs/{}.antt", file.replace('.', "/")),
        names: names
            .split(',')
            .map(|name| name.trim().to_string())
            .collect(),
    }))
}

pub fn is_in_name(c: char) -> bool {
    c.is_alphanumeric() || matches!(c, '-' | '_' | '\'')
}

/// The name that a text begins with; empty where it begins with none.
pub fn first_name(text: &str) -> &str {
    let end = text.find(|c| !is_in_name(c)).unwrap_or(text.len());
    &text[..end]
}

/// The names in a text, but for the field of a projection (`r.field`) and of a record's value
/// (`record { field = ..; field = .. }`).
pub fn mentioned(text: &str) -> Vec<String> {
    let mut names = Vec::new();
    let mut at = 0;
    while let Some(from) = text[at..].find(is_in_name).map(|skipped| at + skipped) {
        let name = first_name(&text[from..]);
        at = from + name.len();
        if !is_field(&text[..from], &text[at..]) {
            names.push(name.to_string());
        }
    }
    names
}

/// Whether a name with this text before and behind it is a field's.
fn is_field(before: &str, behind: &str) -> bool {
    let is_set = before.trim_end().ends_with(['{', ';']) && behind.trim_start().starts_with('=');
    before.ends_with('.') || is_set
}

#[cfg(test)]
mod tests {
    use super::*;

    #[test]
    fn names_are_whole_and_fields_are_not_names() {
        assert_eq!(mentioned("f x' (g r.size) a-b"), ["f", "x'", "g", "r", "a-b"]);
        assert_eq!(
            mentioned("record { at = k; bank = b }"),
            ["record", "k", "b"]
        );
        assert_eq!(mentioned("λ i. is_read i"), ["λ", "i", "is_read", "i"]);
    }

    #[test]
    fn use_lines_name_a_file() {
        let of = |file: &str, names: &[&str]| {
            let names = names.iter().map(|name| name.to_string()).collect();
            Ok(Some(Use {
                file: file.to_string(),
                names,
            }))
        };
        let own = read_use("ghost use Rattle.part.specs.Parts.{Got, number_of};");
        assert_eq!(
            own,
            of("crates/part/specs/Parts.antt", &["Got", "number_of"])
        );
        let other = read_use("use Rattle.part.specs.wide.Parts.{Got}");
        assert_eq!(other, of("crates/part/specs/wide/Parts.antt", &["Got"]));
    }

    #[test]
    fn the_kit_and_declared_types_have_no_file() {
        assert_eq!(read_use("use lib.Dec.{eqb}"), Ok(None));
        assert_eq!(read_use("use Rattle.std.specs.Prelude.{◌≡◌}"), Ok(None));
        assert_eq!(
            read_use("use Rattle.part.specs.declared.Part.{Part}"),
            Ok(None)
        );
        assert!(read_use("use Rattle.part.specs.Parts").is_err());
        assert!(read_use("use Rattle.part.proofs.Parts.{got}").is_err());
    }
}
