//! The ratios of a written SPEED.md, to draw its pictures again without a run.

use crate::report::{Figures, Row};

/// A ratio as the page shows it: the median, then the 10th and 90th percentile.
fn ratio(cell: &str) -> Option<[f64; 3]> {
    let (middle, rest) = cell.split_once(" (")?;
    let (low, high) = rest.strip_suffix(')')?.split_once(" to ")?;
    Some([low.parse().ok()?, middle.parse().ok()?, high.parse().ok()?])
}

fn row(group: &str, name: &str, [fitsrs, cfitsio]: [&str; 2]) -> Option<Row> {
    let mut row = Row::named(group, name);
    row.ratios.insert("fitsrs".into(), ratio(fitsrs)?);
    row.ratios.insert("cfitsio".into(), ratio(cfitsio)?);
    Some(row)
}

/// The rows of the three tables that have ratios of jobs; other lines are passed over.
pub fn figures(page: &str) -> Figures {
    let mut figures = Figures::default();
    let mut section = "";
    for line in page.lines() {
        if let Some(title) = line.strip_prefix("## ") {
            section = title;
        }
        let cells: Vec<&str> = line.trim_matches('|').split('|').map(str::trim).collect();
        match (section, &cells[..]) {
            ("Rice tiles", &[name, a, b, c, d]) => {
                figures.rows.extend(row("rows", name, [a, b]));
                figures.rows.extend(row("large", name, [c, d]));
            }
            ("Headers", &[name, a, b]) => figures.rows.extend(row("headers", name, [a, b])),
            ("Lookups", &[name, a, b]) => figures.rows.extend(row("lookups", name, [a, b])),
            _ => {}
        }
    }
    figures
}
