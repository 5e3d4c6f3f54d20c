//! The table that `leafspeed` prints, read again.

/// One row: a stretch at a vector length.
#[derive(Clone, Debug, PartialEq)]
pub struct Row {
    pub name: String,
    pub vl: u32,
    /// The median ratio proved/baseline.
    pub median: f64,
    /// What the median should not be over, where there is a bar.
    pub bar: Option<f64>,
}

impl Row {
    pub fn is_over(&self) -> bool {
        self.bar.is_some_and(|bar| self.median > bar)
    }
}

/// Rows of every stretch at every vector length.
#[derive(Clone, Debug, PartialEq)]
pub struct Ratios {
    /// How many rounds the medians are of, where the text says so.
    pub rounds: Option<u64>,
    /// The stretches, in the order in which they come first.
    pub names: Vec<String>,
    /// The vector lengths, likewise.
    pub lengths: Vec<u32>,
    /// The rows of the first vector length, then those of the next, each in the
    /// order of the names.
    pub rows: Vec<Row>,
}

/// Ratios beyond these are no measurement.
const LEAST: f64 = 0.001;
const GREATEST: f64 = 1000.0;

impl Ratios {
    /// Columns are found by their titles (`form`, `VL`, `median`, `bar`); others
    /// are passed over, and so are the lines around the table. Says in one line
    /// what is wrong.
    pub fn parse(text: &str) -> Result<Ratios, String> {
        let mut lines = (1..).zip(text.lines());
        let mut rounds = None;
        let header = loop {
            let (_, line) = lines.next().ok_or("there is no table")?;
            match cells(line) {
                Some(header) => break header,
                None => rounds = rounds.or_else(|| rounds_of(line)),
            }
        };
        let columns = Columns::of(&header)?;
        let (number, ruler) = lines.next().ok_or("the table ends after its titles")?;
        if !cells(ruler).is_some_and(|cells| cells.iter().all(|cell| is_ruler(cell))) {
            return Err(format!("line {number}: no |---| below the titles"));
        }
        let mut rows = Vec::new();
        for (number, line) in &mut lines {
            let Some(cells) = cells(line) else { break };
            let row = columns.row(&cells);
            rows.push(row.map_err(|problem| format!("line {number}: {problem}"))?);
        }
        if let Some((number, _)) = lines.find(|(_, line)| cells(line).is_some()) {
            return Err(format!("line {number}: a second table"));
        }
        Ratios::of(rounds, rows)
    }

    fn of(rounds: Option<u64>, rows: Vec<Row>) -> Result<Ratios, String> {
        let (mut names, mut lengths) = (Vec::new(), Vec::new());
        for row in &rows {
            if !names.contains(&row.name) {
                names.push(row.name.clone());
            }
            if !lengths.contains(&row.vl) {
                lengths.push(row.vl);
            }
        }
        if rows.is_empty() {
            return Err("the table has no rows".to_string());
        }
        let mut sorted = Vec::new();
        for &vl in &lengths {
            for name in &names {
                let mut found = rows.iter().filter(|row| (&row.name, row.vl) == (name, vl));
                match (found.next(), found.next()) {
                    (Some(row), None) => sorted.push(row.clone()),
                    (None, _) => return Err(format!("no row for {name:?} at VL {vl}")),
                    (_, Some(_)) => return Err(format!("two rows for {name:?} at VL {vl}")),
                }
            }
        }
        Ok(Ratios {
            rounds,
            names,
            lengths,
            rows: sorted,
        })
    }
}

/// What stands between the bars of a table's line; nothing for another line.
fn cells(line: &str) -> Option<Vec<&str>> {
    let inner = line.trim().strip_prefix('|')?;
    let inner = inner.strip_suffix('|').unwrap_or(inner);
    Some(inner.split('|').map(str::trim).collect())
}

fn is_ruler(cell: &str) -> bool {
    cell.contains('-') && cell.chars().all(|letter| letter == '-' || letter == ':')
}

/// From `201 rounds; ..`.
fn rounds_of(line: &str) -> Option<u64> {
    line.split_once(" rounds")?.0.parse().ok()
}

/// Where the cells are that count.
struct Columns {
    count: usize,
    name: usize,
    vl: usize,
    median: usize,
    bar: usize,
}

impl Columns {
    fn of(header: &[&str]) -> Result<Columns, String> {
        let place = |title: &str| {
            let found = header.iter().position(|cell| *cell == title);
            found.ok_or_else(|| format!("the table has no column {title:?}"))
        };
        Ok(Columns {
            count: header.len(),
            name: place("form")?,
            vl: place("VL")?,
            median: place("median")?,
            bar: place("bar")?,
        })
    }

    fn row(&self, cells: &[&str]) -> Result<Row, String> {
        if cells.len() != self.count {
            let (count, titles) = (cells.len(), self.count);
            return Err(format!("{count} cells below {titles} titles"));
        }
        let name = cells[self.name];
        if name.is_empty() || name.contains(char::is_control) {
            return Err(format!("{name:?} is no name of a stretch"));
        }
        let vl = cells[self.vl];
        let median = cells[self.median];
        let bar = cells[self.bar];
        Ok(Row {
            name: name.to_string(),
            vl: vl
                .parse()
                .map_err(|_| format!("{vl:?} is no vector length"))?,
            median: ratio(median).ok_or_else(|| format!("{median:?} is no ratio"))?,
            bar: bar_of(bar).ok_or_else(|| format!("{bar:?} is no bar"))?,
        })
    }
}

fn ratio(cell: &str) -> Option<f64> {
    let ratio: f64 = cell.parse().ok()?;
    (LEAST..=GREATEST).contains(&ratio).then_some(ratio)
}

/// `inf` is no bar. Whether it was missed is seen from the numbers.
fn bar_of(cell: &str) -> Option<Option<f64>> {
    let number = cell.strip_suffix(" MISSED").unwrap_or(cell);
    if number == "inf" {
        return Some(None);
    }
    ratio(number).map(Some)
}

#[cfg(test)]
pub(crate) mod tests {
    use super::*;

    /// As `leafspeed` prints it, with names and lengths that it does not have.
    pub(crate) const TABLE: &str = "\
        15 rounds; ratio proved/baseline; ns a word\n\
        | form | VL | median | minimum | proved | baseline | least/least | bar |\n\
        |---|---|---|---|---|---|---|---|\n\
        | LEAP B | 64 | 0.200 | 0.190 | 9.4 | 51.5 | 0.183 | 1.05 |\n\
        | step: a < b & c | 64 | 2.350 | 2.300 | 31.6 | 10.7 | 2.953 | inf |\n\
        | LEAP B | 4096 | 0.712 | 0.190 | 9.4 | 51.5 | 0.183 | 0.4 MISSED |\n\
        | step: a < b & c | 4096 | 1.000 | 0.900 | 31.6 | 10.7 | 2.953 | inf |\n\
        machines equal after every case; 1 over their bar\n";

    #[test]
    fn a_table_is_read() {
        let ratios = Ratios::parse(TABLE).unwrap();
        assert_eq!(ratios.rounds, Some(15));
        assert_eq!(ratios.names, ["LEAP B", "step: a < b & c"]);
        assert_eq!(ratios.lengths, [64, 4096]);
        let medians: Vec<f64> = ratios.rows.iter().map(|row| row.median).collect();
        assert_eq!(medians, [0.2, 2.35, 0.712, 1.0]);
        let bars: Vec<Option<f64>> = ratios.rows.iter().map(|row| row.bar).collect();
        assert_eq!(bars, [Some(1.05), None, Some(0.4), None]);
        let over: Vec<bool> = ratios.rows.iter().map(Row::is_over).collect();
        assert_eq!(over, [false, false, true, false]);
    }

    #[test]
    fn columns_are_found_by_their_titles() {
        let text =
            "| VL | bar | more | median | form |\n|--|:-:|--|--|--|\n| 8 | 1 | x | 0.5 | A |";
        let ratios = Ratios::parse(text).unwrap();
        assert_eq!((ratios.rounds, ratios.lengths), (None, vec![8]));
        assert_eq!(
            (ratios.rows[0].median, ratios.rows[0].bar),
            (0.5, Some(1.0))
        );
    }

    #[test]
    fn bad_tables_are_refused() {
        let changed = |from: &str, to: &str| {
            assert!(TABLE.contains(from), "{from}");
            Ratios::parse(&TABLE.replacen(from, to, 1)).unwrap_err()
        };
        let cut = TABLE.split_inclusive('\n');
        let cut: String = cut.take(6).collect();
        for (problem, expected) in [
            (Ratios::parse("").unwrap_err(), "there is no table"),
            (Ratios::parse("| form |").unwrap_err(), "no column \"VL\""),
            (Ratios::parse(&cut).unwrap_err(), "no row for \"step: a"),
            (changed("| bar |", "| bars |"), "no column \"bar\""),
            (changed("|---|---|", "| x |---|"), "line 3: no |---|"),
            (changed("| 64 | 0.200 ", "| 64 "), "line 4: 7 cells below 8"),
            (changed("0.712", "nan"), "line 6: \"nan\" is no ratio"),
            (changed("0.712", "0"), "line 6: \"0\" is no ratio"),
            (changed("0.712", "1e9"), "line 6: \"1e9\" is no ratio"),
            (changed("0.4 MISSED", "0.4 LATE"), "\"0.4 LATE\" is no bar"),
            (changed("| 4096 |", "| -1 |"), "\"-1\" is no vector length"),
            (
                changed("| 4096 |", "| 64 |"),
                "two rows for \"LEAP B\" at VL 64",
            ),
            (changed("| LEAP B | 4096", "|  | 4096"), "\"\" is no name"),
            (changed("LEAP B", "LEAP\tB"), "\"LEAP\\tB\" is no name"),
            (
                Ratios::parse(&[TABLE, TABLE].concat()).unwrap_err(),
                "line 10: a second",
            ),
        ] {
            assert!(problem.contains(expected), "{problem}");
            assert!(!problem.contains('\n'), "{problem}");
        }
        let head: String = TABLE.split_inclusive('\n').take(3).collect();
        assert_eq!(Ratios::parse(&head).unwrap_err(), "the table has no rows");
    }
}
