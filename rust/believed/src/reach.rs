//! Which definitions a public promise reaches: those that it names, those that these name, and so on.

use std::collections::{BTreeMap, HashMap};

use crate::definitions::{Definition, Page, read_page};
use crate::names::{Files, Use};
use crate::promises::{Module, visible_modules};

/// The crates of the C interface, the lister and the console.
const INTERFACES: [&str; 4] = ["gighull", "lister", "listing", "console"];

/// A definition, and whose promises reach it.
pub struct Reached {
    pub crate_name: String,
    pub file: String,
    pub definition: Definition,
    /// From a public promise of any crate.
    pub is_public: bool,
    /// From one of the interfaces'.
    pub is_interface: bool,
}

/// All definitions of the crates, in their order, then by file and line.
pub fn reached(crates: &[String], files: &Files) -> Result<Vec<Reached>, String> {
    let mut graph = Graph::default();
    let mut modules = Vec::new();
    for name in crates {
        for (file, text) in files.iter().filter(|(file, _)| is_page_of(name, file)) {
            let page = read_page(text).map_err(|why| format!("{file}:{why}"))?;
            graph.add(name, file, page);
        }
        modules.extend(visible_modules(name, files)?);
    }
    let links = graph.links()?;
    let every = graph.roots(&modules, |_| true)?;
    let interface = graph.roots(&modules, |name| INTERFACES.contains(&name))?;
    let is_public = reached_from(every, &links);
    let is_interface = reached_from(interface, &links);
    for (index, reached) in graph.definitions.iter_mut().enumerate() {
        reached.is_public = is_public[index];
        reached.is_interface = is_interface[index];
    }
    Ok(graph.definitions)
}

fn is_page_of(crate_name: &str, file: &str) -> bool {
    file.starts_with(&format!("crates/{crate_name}/specs/")) && file.ends_with(".antt")
}

#[derive(Default)]
struct Graph {
    definitions: Vec<Reached>,
    /// By file and name: the definition's place among all. A constructor leads to its data type.
    places: HashMap<(String, String), usize>,
    uses: BTreeMap<String, Vec<Use>>,
}

impl Graph {
    fn add(&mut self, crate_name: &str, file: &str, page: Page) {
        for definition in page.definitions {
            for name in definition.constructors.iter().chain([&definition.name]) {
                self.places
                    .insert((file.to_string(), name.clone()), self.definitions.len());
            }
            self.definitions.push(Reached {
                crate_name: crate_name.to_string(),
                file: file.to_string(),
                definition,
                is_public: false,
                is_interface: false,
            });
        }
        self.uses.insert(file.to_string(), page.uses);
    }

    /// The names that a file's `use` lines bring in, and their definitions' places.
    fn imported(&self, file: &str, uses: &[Use]) -> Result<HashMap<String, usize>, String> {
        let mut names = HashMap::new();
        for Use {
            file: from,
            names: taken,
        } in uses
        {
            for name in taken {
                let place = self.places.get(&(from.clone(), name.clone()));
                let lost = || format!("{file}: {from} has no definition of {name}");
                names.insert(name.clone(), *place.ok_or_else(lost)?);
            }
        }
        Ok(names)
    }

    /// For each definition the places of those that it names.
    fn links(&self) -> Result<Vec<Vec<usize>>, String> {
        let mut scopes = HashMap::new();
        for (file, uses) in &self.uses {
            scopes.insert(file, self.imported(file, uses)?);
        }
        let links = self.definitions.iter().map(|reached| {
            let own = |name: &String| self.places.get(&(reached.file.clone(), name.clone()));
            let imported = &scopes[&reached.file];
            let mentions = reached.definition.mentions();
            mentions
                .iter()
                .filter_map(|name| own(name).or_else(|| imported.get(name)).copied())
                .collect()
        });
        Ok(links.collect())
    }

    /// The places of the definitions that the promises of some crates name.
    fn roots(
        &self,
        modules: &[Module],
        is_meant: impl Fn(&str) -> bool,
    ) -> Result<Vec<usize>, String> {
        let mut roots = Vec::new();
        for module in modules.iter().filter(|module| is_meant(&module.crate_name)) {
            let imported = self.imported(&module.file, &module.uses)?;
            roots.extend(module.mentions.iter().filter_map(|name| imported.get(name)));
        }
        Ok(roots)
    }
}

/// For each place, whether it is reached from the roots.
fn reached_from(roots: Vec<usize>, links: &[Vec<usize>]) -> Vec<bool> {
    let mut is_reached = vec![false; links.len()];
    let mut waiting = roots;
    while let Some(place) = waiting.pop() {
        if !is_reached[place] {
            is_reached[place] = true;
            waiting.extend(&links[place]);
        }
    }
    is_reached
}

#[cfg(test)]
pub mod tests {
    use super::*;

    /// The definitions of the crates `a` and `gighull` with these sources.
    pub fn reached_in(sources: &[(&str, &str)]) -> Result<Vec<Reached>, String> {
        let path = |name: &str| format!("crates/{name}");
        let files = sources
            .iter()
            .map(|(name, text)| (path(name), text.to_string()))
            .collect();
        reached(&["a".to_string(), "gighull".to_string()], &files)
    }

    fn public_names(sources: &[(&str, &str)]) -> Vec<String> {
        let definitions = reached_in(sources).unwrap();
        let public = definitions.into_iter().filter(|reached| reached.is_public);
        public.map(|reached| reached.definition.name).collect()
    }

    const PAGE: &str = "pub record R : Type 0 where\n  pub a : f\n\npub data D : Type 0 where\n  one : D\n\npub f : ℕ\nf = 0\n\npub g : ℕ\ng = 1\n";

    fn promising(promise: &str) -> String {
        format!(
            "ghost use Rattle.a.specs.P.{{R, D, one, f, g}};\npub fn h()\n    ensures {{ {promise} }}\n{{}}\n"
        )
    }

    #[test]
    fn a_record_is_reached_by_its_name_and_leads_to_its_types() {
        let code = promising("R");
        assert_eq!(
            public_names(&[("a/specs/P.antt", PAGE), ("a/src/lib.rt", &code)]),
            ["R", "f"]
        );
    }

    #[test]
    fn a_constructor_leads_to_its_data_type() {
        let code = promising("one");
        assert_eq!(
            public_names(&[("a/specs/P.antt", PAGE), ("a/src/lib.rt", &code)]),
            ["D"]
        );
    }

    #[test]
    fn a_projection_leads_nowhere() {
        let code = promising("r .f ≡ g");
        assert_eq!(
            public_names(&[("a/specs/P.antt", PAGE), ("a/src/lib.rt", &code)]),
            ["g"]
        );
    }

    #[test]
    fn a_private_function_leads_nowhere() {
        for head in ["fn h()", "pub(crate) fn h()"] {
            let code = promising("R").replace("pub fn h()", head);
            assert!(public_names(&[("a/specs/P.antt", PAGE), ("a/src/lib.rt", &code)]).is_empty());
        }
    }

    #[test]
    fn a_definition_is_reached_through_another_crate() {
        let page = "use Rattle.a.specs.P.{g}\npub k : ℕ\nk = g\n";
        let code =
            "ghost use Rattle.gighull.specs.Q.{k};\npub fn h()\n    ensures { k }\n{}\n";
        let sources = [
            ("a/specs/P.antt", PAGE),
            ("gighull/specs/Q.antt", page),
            ("gighull/src/lib.rt", code),
        ];
        assert_eq!(public_names(&sources), ["g", "k"]);
        let definitions = reached_in(&sources).unwrap();
        assert!(
            definitions
                .iter()
                .all(|reached| reached.is_interface == reached.is_public)
        );
    }

    #[test]
    fn only_the_interfaces_promises_count_as_theirs() {
        let code = promising("g");
        let definitions = reached_in(&[("a/specs/P.antt", PAGE), ("a/src/lib.rt", &code)]).unwrap();
        assert!(definitions.iter().any(|reached| reached.is_public));
        assert!(!definitions.iter().any(|reached| reached.is_interface));
    }

    #[test]
    fn a_name_that_is_not_found_is_an_error() {
        let named = |sources: &[(&str, &str)], name: &str| {
            reached_in(sources).is_err_and(|why| why.contains(name))
        };
        let code = promising("R");
        assert!(named(
            &[("a/src/lib.rt", &code)],
            "crates/a/specs/P.antt has no definition of R"
        ));
        assert!(named(
            &[("a/specs/P.antt", "use Rattle.a.specs.Q.{lost}\n")],
            "lost"
        ));
        assert!(reached_in(&[("a/specs/P.antt", "use Rattle.a.specs.declared.Q.{Q}\n")]).is_ok());
    }
}
