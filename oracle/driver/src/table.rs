//! The tables of kinds, cases and differences.

#[derive(Default)]
pub struct Table {
    rows: Vec<Row>,
}

#[derive(Default)]
struct Row {
    kind: String,
    cases: u64,
    differences: u64,
    /// Cases with something in them, and the most that was in one: nodes, names, headers.
    filled: u64,
    largest: usize,
}

impl Table {
    fn row(&mut self, kind: &str) -> &mut Row {
        let at = match self.rows.iter().position(|row| row.kind == kind) {
            Some(at) => at,
            None => {
                self.rows.push(Row {
                    kind: kind.to_string(),
                    ..Row::default()
                });
                self.rows.len() - 1
            }
        };
        &mut self.rows[at]
    }

    pub fn add(&mut self, kind: &str, differs: bool, size: usize) {
        let row = self.row(kind);
        row.cases += 1;
        row.differences += u64::from(differs);
        row.filled += u64::from(size > 0);
        row.largest = row.largest.max(size);
    }

    /// The rows of another table added to these.
    pub fn join(&mut self, other: Table) {
        for row in other.rows {
            let own = self.row(&row.kind);
            own.cases += row.cases;
            own.differences += row.differences;
            own.filled += row.filled;
            own.largest = own.largest.max(row.largest);
        }
    }

    pub fn differences(&self) -> u64 {
        self.rows.iter().map(|row| row.differences).sum()
    }

    fn of(&self, kind: &str) -> Option<&Row> {
        self.rows.iter().find(|row| row.kind == kind)
    }

    /// Prints the rows in the order of `kinds`; a kind without a case is printed too.
    pub fn print(&self, title: &str, kinds: &[&str]) {
        let heads = ["cases", "differences", "not empty", "largest"];
        print!("\n{title:<58}");
        heads.iter().for_each(|head| print!(" {head:>11}"));
        println!();
        for kind in kinds {
            let none = Row::default();
            let row = self.of(kind).unwrap_or(&none);
            let largest = row.largest as u64;
            let numbers = [row.cases, row.differences, row.filled, largest];
            print!("{kind:<58}");
            numbers.iter().for_each(|n| print!(" {n:>11}"));
            println!();
        }
    }
}

/// What one comparison has in a table of several: its kinds, each with its cases and differences.
pub struct Part {
    pub title: &'static str,
    pub kinds: Vec<&'static str>,
    pub table: Table,
}

impl Part {
    /// The kinds without a case.
    pub fn empty(&self) -> impl Iterator<Item = &'static str> + '_ {
        let kinds = self.kinds.iter().copied();
        kinds.filter(|kind| self.table.of(kind).is_none())
    }
}

/// One table, in Markdown: each part's title with the sums of its kinds, then the kinds; a kind without a case is printed too.
pub fn print_parts(parts: &[Part]) {
    let line = |kind: &str, [cases, differences]: [String; 2]| {
        println!("| {kind:<62} | {cases:>13} | {differences:>11} |");
    };
    println!();
    line("kind", ["cases", "differences"].map(String::from));
    line("---", ["---:", "---:"].map(String::from));
    for part in parts {
        let numbers = |kind: &&str| match part.table.of(kind) {
            Some(row) => [row.cases, row.differences],
            None => [0, 0],
        };
        let kinds = part.kinds.iter();
        let sums = kinds
            .map(numbers)
            .fold([0, 0], |[a, b], [c, d]| [a + c, b + d]);
        line(&format!("**{}**", part.title), sums.map(grouped));
        for kind in &part.kinds {
            line(kind, numbers(kind).map(grouped));
        }
    }
}

/// A number with a comma before each three digits.
fn grouped(n: u64) -> String {
    let digits = n.to_string();
    let mut text = String::new();
    for (k, digit) in digits.chars().enumerate() {
        if k > 0 && (digits.len() - k) % 3 == 0 {
            text.push(',');
        }
        text.push(digit);
    }
    text
}
