//! What has been compared, by kinds of recordings and capacities.

use std::time::Duration;

use crate::CAPACITIES;

/// Answers at one capacity.
#[derive(Clone, Copy, Default)]
pub struct Column {
    pub left_out: usize,
    /// The longest that was compared.
    pub most: Duration,
}

#[derive(Clone, Copy, Default)]
pub struct Row {
    kind: &'static str,
    pub recordings: usize,
    pub answers: usize,
    pub columns: [Column; CAPACITIES.len()],
}

/// Rows by kind, in the order in which they came.
#[derive(Default)]
pub struct Table(Vec<Row>);

impl Table {
    pub fn row(&mut self, kind: &'static str) -> &mut Row {
        if self.0.last().map(|row| row.kind) != Some(kind) {
            let at = self.0.iter().position(|row| row.kind == kind);
            if let Some(at) = at {
                return &mut self.0[at];
            }
            self.0.push(Row {
                kind,
                ..Row::default()
            });
        }
        self.0.last_mut().expect("a row was found or made")
    }

    /// How many answers were compared, at all capacities.
    pub fn answers(&self) -> usize {
        let left_out = |row: &Row| -> usize { row.columns.iter().map(|one| one.left_out).sum() };
        let rows = self.0.iter();
        rows.map(|row| CAPACITIES.len() * row.answers - left_out(row))
            .sum()
    }

    pub fn print(&self) {
        print!("{:22}{:>10}{:>10}", "fronts of", "", "");
        for entries in CAPACITIES {
            print!("{:>20}", format!("{entries} entries"));
        }
        print!("\n{:22}{:>10}{:>10}", "", "recordings", "answers");
        for _ in CAPACITIES {
            print!("{:>20}", "left out, most ms");
        }
        println!();
        for row in &self.0 {
            print!("{:22}{:10}{:10}", row.kind, row.recordings, row.answers);
            for column in &row.columns {
                let most = column.most.as_secs_f64() * 1e3;
                print!("{:>20}", format!("{}, {most:8.1}", column.left_out));
            }
            println!();
        }
    }
}
