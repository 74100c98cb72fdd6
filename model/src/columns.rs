//! Tables in the form that documents have, with columns under each other.

pub struct Table {
    lines: Vec<Vec<String>>,
}

impl Table {
    pub fn new(head: &str) -> Table {
        Table {
            lines: vec![head.split(" | ").map(str::to_string).collect()],
        }
    }

    pub fn line(&mut self, name: &str, count: usize) -> Line<'_> {
        self.lines.push(vec![name.to_string(), commas(count)]);
        Line {
            cells: self.lines.last_mut().expect("the line just pushed"),
            count,
        }
    }

    /// A line whose times are those of whole calls.
    pub fn call(&mut self, name: &str, rows: usize) -> Line<'_> {
        let line = self.line(name, rows);
        Line { count: 1, ..line }
    }

    /// The same in microseconds, of calls on so many bytes.
    pub fn long_call(&mut self, name: &str, bytes: usize) -> Line<'_> {
        let line = self.line(name, bytes);
        Line {
            count: 1_000,
            ..line
        }
    }

    pub fn print(&self) {
        let columns = 0..self.lines[0].len();
        let widths: Vec<usize> = columns
            .map(|i| {
                self.lines
                    .iter()
                    .map(|line| line[i].chars().count())
                    .max()
                    .unwrap_or(0)
            })
            .collect();
        for (i, line) in self.lines.iter().enumerate() {
            print!("| {:<1$} |", line[0], widths[0]);
            for (cell, width) in line.iter().zip(&widths).skip(1) {
                print!(" {cell:>width$} |");
            }
            println!();
            if i == 0 {
                print!("|{}|", "-".repeat(widths[0] + 2));
                for width in &widths[1..] {
                    print!("{}:|", "-".repeat(width + 1));
                }
                println!();
            }
        }
        println!();
    }
}

pub struct Line<'a> {
    cells: &'a mut Vec<String>,
    count: usize,
}

impl Line<'_> {
    /// Seconds of a whole call, as nanoseconds for each row or node; three figures are all that a shared machine gives.
    pub fn each(&mut self, times: &[f64]) {
        for &time in times {
            self.cells.push(match time * 1e9 / self.count as f64 {
                n if n < 9.995 => shown(n, 2),
                n if n < 99.95 => shown(n, 1),
                n if n >= 999.5 => commas(n.round() as usize),
                n => shown(n, 0),
            });
        }
    }

    pub fn ratios(&mut self, ratios: &[f64]) {
        let cell = |ratio: &f64| shown(*ratio, 2);
        self.cells.extend(ratios.iter().map(cell));
    }

    pub fn share(&mut self, share: f64) {
        let cell = match share.is_nan() {
            true => "-".to_string(),
            false => format!("{:.0}%", share * 100.0),
        };
        self.cells.push(cell);
    }
}

/// A number, or a dash where there is none.
fn shown(number: f64, places: usize) -> String {
    match number.is_nan() {
        true => "-".to_string(),
        false => format!("{number:.places$}"),
    }
}

/// A number with its thousands apart.
pub fn commas(n: usize) -> String {
    match n / 1_000 {
        0 => n.to_string(),
        thousands => format!("{},{:03}", commas(thousands), n % 1_000),
    }
}
