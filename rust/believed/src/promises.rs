//! Reads code (`.rt`): the promises of the functions that another crate can call.

use crate::names::{Files, Use, is_in_name, mentioned, read_use};

/// A module that is seen from outside its crate.
pub struct Module {
    pub crate_name: String,
    pub file: String,
    pub uses: Vec<Use>,
    /// The names in the promises of its public functions.
    pub mentions: Vec<String>,
}

/// The modules of a crate that are seen from outside.
pub fn visible_modules(crate_name: &str, files: &Files) -> Result<Vec<Module>, String> {
    let source = format!("crates/{crate_name}/src");
    let mut modules = Vec::new();
    // Each file with the folder of its submodules.
    let mut waiting: Vec<(String, String)> = ["lib", "main"]
        .iter()
        .map(|root| (format!("{source}/{root}.rt"), source.clone()))
        .filter(|(file, _)| files.contains_key(file))
        .collect();
    while let Some((file, folder)) = waiting.pop() {
        let text = files
            .get(&file)
            .ok_or_else(|| format!("{file} is declared, and is not there"))?;
        let text = without_comments(text);
        for name in public_submodules(&text) {
            waiting.push((format!("{folder}/{name}.rt"), format!("{folder}/{name}")));
        }
        modules
            .push(read_module(crate_name, &file, &text).map_err(|why| format!("{file}: {why}"))?);
    }
    Ok(modules)
}

fn without_comments(text: &str) -> String {
    let code = |line: &str| line.split("//").next().unwrap_or_default().to_string() + "\n";
    text.lines().map(code).collect()
}

fn public_submodules(text: &str) -> impl Iterator<Item = &str> {
    text.lines()
        .filter_map(|line| line.trim().strip_prefix("pub mod ")?.strip_suffix(';'))
}

fn read_module(crate_name: &str, file: &str, text: &str) -> Result<Module, String> {
    let mut uses = Vec::new();
    let mut mentions = Vec::new();
    let mut at = 0;
    for line in text.split_inclusive('\n') {
        let code = line.trim_start();
        if code.starts_with("pub use ") {
            return Err(format!(
                "what `{}` makes public is not followed",
                code.trim_end()
            ));
        }
        if code.starts_with("ghost use ") {
            uses.extend(read_use(code)?);
        }
        if is_public_function(code) {
            mentions.extend(mentioned(&promise(&text[at..])?));
        }
        at += line.len();
    }
    let (crate_name, file) = (crate_name.to_string(), file.to_string());
    Ok(Module {
        crate_name,
        file,
        uses,
        mentions,
    })
}

/// `pub fn` and `pub extern "C" fn`; `pub(crate) fn` is not seen from outside.
fn is_public_function(line: &str) -> bool {
    let head = line.split('(').next().unwrap_or_default();
    head.starts_with("pub ") && head.split_whitespace().any(|word| word == "fn")
}

/// The text of the `requires` and `ensures` of the function that the text begins with. Its body is the
/// first brace that is not theirs.
fn promise(function: &str) -> Result<String, String> {
    let first = function.lines().next().unwrap_or_default();
    let unended = || format!("this function has no body: {first}");
    let mut promise = String::new();
    let mut rest = function;
    loop {
        let (head, inner) = rest.split_once('{').ok_or_else(unended)?;
        let mut words = head.split(|c| !is_in_name(c));
        if !words.any(|word| word == "ensures" || word == "requires") {
            return Ok(promise);
        }
        let end = closing_brace(inner).ok_or_else(unended)?;
        promise += "\n";
        promise += &inner[..end];
        rest = &inner[end + 1..];
    }
}

/// Where the brace closes that was opened before the text.
fn closing_brace(text: &str) -> Option<usize> {
    let mut open = 1;
    for (at, c) in text.char_indices() {
        match c {
            '{' => open += 1,
            '}' => open -= 1,
            _ => {}
        }
        if open == 0 {
            return Some(at);
        }
    }
    None
}

#[cfg(test)]
mod tests {
    use super::*;

    fn mentions_of(sources: &[(&str, &str)]) -> Vec<String> {
        let path = |name: &str| format!("crates/a/src/{name}.rt");
        let files = sources
            .iter()
            .map(|(name, text)| (path(name), text.to_string()))
            .collect();
        let modules = visible_modules("a", &files).unwrap();
        modules
            .into_iter()
            .flat_map(|module| module.mentions)
            .collect()
    }

    #[test]
    fn every_clause_of_a_public_function_is_read_and_its_body_is_not() {
        let text = "pub extern \"C\" fn f(\n    x: u32,\n) -> u32\n    ensures one {λ r. r ≡ a {0} a}\n    ensures two {b}\n{\n    c { d }\n}\npub fn g() { e }\n";
        let mentions = mentions_of(&[("lib", text)]);
        assert_eq!(mentions, ["λ", "r", "r", "a", "0", "a", "b"]);
    }

    #[test]
    fn private_functions_are_not_read() {
        let text = "fn f()\n    ensures { a }\n{}\npub(crate) fn g()\n    ensures { b }\n{}\n";
        assert!(mentions_of(&[("lib", text)]).is_empty());
    }

    #[test]
    fn private_modules_are_not_read() {
        let function = "pub fn f()\n    ensures { a }\n{}\n";
        assert!(mentions_of(&[("lib", "mod inner;\n"), ("inner", function)]).is_empty());
        assert_eq!(
            mentions_of(&[("lib", "pub mod inner;\n"), ("inner", function)]),
            ["a"]
        );
        let nested = [
            ("main", "pub mod b;\n"),
            ("b", "pub mod c;\n"),
            ("b/c", function),
        ];
        assert_eq!(mentions_of(&nested), ["a"]);
    }

    #[test]
    fn comments_are_not_read() {
        let text = "// pub fn f() ensures { a }\npub fn g()\n    // ensures { b }\n    ensures { c } // d\n{}\n";
        assert_eq!(mentions_of(&[("lib", text)]), ["c"]);
    }

    #[test]
    fn what_is_not_followed_is_an_error() {
        let of = |text: &str| {
            let files = [("crates/a/src/lib.rt".to_string(), text.to_string())].into();
            visible_modules("a", &files).is_err()
        };
        assert!(of("pub use inner::f;\n"));
        assert!(of("pub mod missing;\n"));
        assert!(of("pub fn f()\n    ensures { a \n"));
    }
}
