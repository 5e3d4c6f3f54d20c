//! What is printed: the table, the list, and what differs from them.

use crate::reach::Reached;

const HEADER: &str = "| Crate | Definition lines | Must be believed | Of these from the C interface, the lister and the console |";

/// The table's rows, from its header to the sums.
pub fn table(crates: &[String], definitions: &[Reached]) -> Vec<String> {
    let mut rows = vec![HEADER.to_string(), "|---|---|---|---|".to_string()];
    for name in crates {
        let own: Vec<&Reached> = definitions
            .iter()
            .filter(|reached| reached.crate_name == *name)
            .collect();
        if !own.is_empty() {
            rows.push(row(&format!("`{name}`"), &own));
        }
    }
    rows.push(row("all", &definitions.iter().collect::<Vec<_>>()));
    rows
}

fn row(name: &str, definitions: &[&Reached]) -> String {
    let sum = |is_meant: fn(&Reached) -> bool| -> usize {
        definitions
            .iter()
            .filter(|reached| is_meant(reached))
            .map(|reached| reached.definition.lines)
            .sum()
    };
    let (all, public, interface) = (sum(|_| true), sum(|r| r.is_public), sum(|r| r.is_interface));
    format!("| {name} | {all} | {public} | {interface} |")
}

/// A line for each definition.
pub fn list(definitions: &[Reached]) -> Vec<String> {
    let line = |reached: &Reached| {
        let Reached {
            crate_name,
            definition,
            ..
        } = reached;
        let seen = if reached.is_public {
            "public"
        } else {
            "private"
        };
        format!(
            "{crate_name} {} {} {} {seen}",
            place(reached),
            definition.name,
            definition.lines
        )
    };
    definitions.iter().map(line).collect()
}

fn place(reached: &Reached) -> String {
    format!("{}:{}", reached.file, reached.definition.at)
}

/// What of a text is not as the table: a line, or nothing.
pub fn differs(text: &str, table: &[String]) -> Option<String> {
    let mut lines = text.lines().skip_while(|line| *line != HEADER).peekable();
    if lines.peek().is_none() {
        return Some(format!("there is no table that begins with {HEADER}"));
    }
    for row in table {
        let line = lines.next().unwrap_or_default();
        if line != row {
            return Some(format!("the table should have `{row}` and has `{line}`"));
        }
    }
    let more = lines.next().filter(|line| line.starts_with('|'));
    more.map(|line| format!("the table has one row too many: {line}"))
}

/// The definitions that stand in the wrong file: in `specs/Private.antt` and reached, or elsewhere and not.
pub fn misplaced(definitions: &[Reached]) -> Vec<String> {
    let is_private = |reached: &Reached| reached.file.ends_with("/specs/Private.antt");
    let wrong = definitions
        .iter()
        .filter(|reached| is_private(reached) == reached.is_public);
    let line = |reached: &Reached| {
        let why = if reached.is_public {
            "a public promise reaches"
        } else {
            "no public promise reaches"
        };
        format!("{}: {why} {}", place(reached), reached.definition.name)
    };
    wrong.map(line).collect()
}

#[cfg(test)]
mod tests {
    use super::*;
    use crate::reach::tests::reached_in;

    const CODE: &str =
        "ghost use Rattle.gighull.specs.P.{f};\npub fn h()\n    ensures { f }\n{}\n";
    const PUBLIC: &str = "pub f : ℕ\nf = 0\n";
    const PRIVATE: &str = "pub g : ℕ\ng zero = 0\ng (suc n) =\n    1\n";

    fn crates() -> Vec<String> {
        ["a", "gighull"].map(String::from).into()
    }

    fn both() -> Vec<Reached> {
        let private = ("a/specs/Private.antt", PRIVATE);
        reached_in(&[
            private,
            ("gighull/specs/P.antt", PUBLIC),
            ("gighull/src/lib.rt", CODE),
        ])
        .unwrap()
    }

    #[test]
    fn the_table_has_a_row_for_each_crate_and_the_sums() {
        let table = table(&crates(), &both());
        assert_eq!(
            table[2..],
            [
                "| `a` | 4 | 0 | 0 |",
                "| `gighull` | 2 | 2 | 2 |",
                "| all | 6 | 2 | 2 |"
            ]
        );
    }

    #[test]
    fn the_list_says_who_is_public() {
        let lines = [
            "a crates/a/specs/Private.antt:1 g 4 private",
            "gighull crates/gighull/specs/P.antt:1 f 2 public",
        ];
        assert_eq!(list(&both()), lines);
    }

    #[test]
    fn a_page_with_this_table_passes() {
        let table = table(&crates(), &both());
        let text = format!("# Title\n\n{}\n\nMore.\n", table.join("\n"));
        assert_eq!(differs(&text, &table), None);
    }

    #[test]
    fn a_page_with_another_table_or_none_is_refused() {
        let table = table(&crates(), &both());
        let text = table.join("\n");
        let old = differs(&text.replace("| 4 |", "| 5 |"), &table).unwrap();
        assert!(old.contains("| `a` | 4 | 0 | 0 |") && old.contains("| `a` | 5 | 0 | 0 |"));
        assert!(differs("# Title\n", &table).unwrap().contains("no table"));
        assert!(
            differs(&format!("{text}\n| more |\n"), &table)
                .unwrap()
                .contains("too many")
        );
        assert!(differs(&table[..3].join("\n"), &table).is_some());
    }

    #[test]
    fn private_definitions_have_their_own_file() {
        assert!(misplaced(&both()).is_empty());
        let public = CODE.replace("specs.P.", "specs.Private.");
        let reached = reached_in(&[
            ("gighull/specs/Private.antt", PUBLIC),
            ("gighull/src/lib.rt", &public),
        ]);
        assert_eq!(
            misplaced(&reached.unwrap()),
            ["crates/gighull/specs/Private.antt:1: a public promise reaches f"]
        );
        let elsewhere = reached_in(&[("a/specs/Other.antt", PRIVATE)]);
        assert_eq!(
            misplaced(&elsewhere.unwrap()),
            ["crates/a/specs/Other.antt:1: no public promise reaches g"]
        );
    }
}
