//! Tables in Markdown.

pub struct Table {
    columns: usize,
    text: String,
}

impl Table {
    pub fn new(heads: &[&str]) -> Table {
        let mut table = Table {
            columns: heads.len(),
            text: String::new(),
        };
        table.row(heads.iter().map(|head| head.to_string()).collect());
        table.row(vec!["---".to_string(); heads.len()]);
        table
    }

    pub fn row(&mut self, cells: Vec<String>) {
        assert_eq!(cells.len(), self.columns, "a cell for each column");
        self.text += &format!("| {} |\n", cells.join(" | "));
    }

    pub fn text(&self) -> &str {
        &self.text
    }
}

/// Microseconds with three digits or so, and no more than three behind the point.
pub fn micros(time: f64) -> String {
    match time {
        time if time < 0.1 => format!("{time:.3}"),
        time if time < 10.0 => format!("{time:.2}"),
        time if time < 100.0 => format!("{time:.1}"),
        time => format!("{time:.0}"),
    }
}

/// Microseconds as milliseconds.
pub fn millis(time: f64) -> String {
    micros(time / 1000.0)
}

/// A ratio with two digits behind the point.
pub fn ratio(a: f64, b: f64) -> String {
    format!("{:.2}", a / b)
}
