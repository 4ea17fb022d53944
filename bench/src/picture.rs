//! A picture of the ratios: a line a job, a mark for each of the others, on a scale of powers.

use crate::report::{Figures, Row};
use std::fmt::Write;

/// The groups that are drawn, with their titles.
const GROUPS: [(&str, &str); 5] = [
    ("rows", "Rice, rows of 4,096 pixels"),
    ("large", "Rice, one large tile"),
    ("headers", "Headers, from bytes"),
    ("lookups", "Lookups"),
    ("writing", "Writing"),
];

/// The others, with the colours of their marks and how far these stand from a line's middle.
pub const OTHERS: [(&str, &str, &str, f64); 2] =
    [("fitsrs", "ours / fitsrs", "#b3561d", -3.5), ("cfitsio", "ours / CFITSIO", "#2f6d9e", 3.5)];

/// The measures of the picture.
const LINE: f64 = 20.0;
const LEFT: f64 = 330.0;
const WIDTH: f64 = 560.0;
const TOP: f64 = 60.0;

/// From a ratio to its place.
pub struct Scale {
    low: f64,
    high: f64,
    left: f64,
    width: f64,
}

impl Scale {
    /// A scale from a power of two to another, around all ratios and 1, on a stretch of the picture.
    pub fn around(ratios: impl Iterator<Item = f64>, left: f64, width: f64) -> Self {
        let (mut low, mut high) = (-1.0_f64, 1.0_f64);
        for ratio in ratios.filter(|ratio| ratio.is_finite() && *ratio > 0.0) {
            low = low.min(ratio.log2().floor());
            high = high.max(ratio.log2().ceil());
        }
        Scale { low, high, left, width }
    }

    pub fn place(&self, ratio: f64) -> f64 {
        let power = ratio.max(f64::MIN_POSITIVE).log2().clamp(self.low, self.high);
        self.left + self.width * (power - self.low) / (self.high - self.low)
    }

    /// The powers of two that are marked, with their labels; every second one where they are many.
    pub fn marks(&self) -> impl Iterator<Item = (i32, String)> {
        let step = if self.high - self.low > 10.0 { 2 } else { 1 };
        (self.low as i32..=self.high as i32)
            .filter(move |power| power % step == 0)
            .map(|power| (power, if power < 0 { format!("1/{}", 1 << -power) } else { format!("{}", 1 << power) }))
    }
}

fn axis(svg: &mut String, scale: &Scale, bottom: f64) -> std::fmt::Result {
    for (power, label) in scale.marks() {
        let (x, one) = (scale.place(f64::from(power).exp2()), power == 0);
        let (colour, width) = if one { ("#333", 1.5) } else { ("#ddd", 1.0) };
        writeln!(svg, r#"<path d="M{x:.1} {TOP}V{bottom}" stroke="{colour}" stroke-width="{width}"/>"#)?;
        writeln!(svg, r#"<text x="{x:.1}" y="{:.1}" text-anchor="middle">{label}</text>"#, TOP - 8.0)?;
    }
    Ok(())
}

fn marks(svg: &mut String, scale: &Scale, row: &Row, y: f64) -> std::fmt::Result {
    writeln!(svg, r#"<text x="{}" y="{:.1}" text-anchor="end">{}</text>"#, LEFT - 12.0, y + 4.0, row.name)?;
    for (side, _, colour, off) in OTHERS {
        let Some(ratio) = row.ratios.get(side) else { continue };
        let [low, middle, high] = ratio.map(|ratio| scale.place(ratio));
        let y = y + off;
        writeln!(svg, r#"<path d="M{low:.1} {y:.1}H{high:.1}" stroke="{colour}" stroke-width="2"/>"#)?;
        writeln!(svg, r#"<circle cx="{middle:.1}" cy="{y:.1}" r="3.5" fill="{colour}"/>"#)?;
    }
    Ok(())
}

fn draw(figures: &Figures) -> Result<String, std::fmt::Error> {
    let rows = || GROUPS.iter().flat_map(|(group, _)| figures.of(group));
    let scale = Scale::around(rows().flat_map(|row| row.ratios.values().flatten().copied()), LEFT, WIDTH);
    let lines = rows().count() + GROUPS.len();
    let bottom = TOP + LINE * (lines as f64 + 0.5);
    let (width, height) = (LEFT + WIDTH + 30.0, bottom + 20.0);
    let mut svg = String::new();
    writeln!(
        svg,
        r#"<svg xmlns="http://www.w3.org/2000/svg" viewBox="0 0 {width} {height}" font-family="sans-serif" font-size="12">"#
    )?;
    writeln!(svg, "<title>Our time over theirs</title>")?;
    writeln!(svg, r#"<rect width="{width}" height="{height}" fill="white"/>"#)?;
    for (at, (_, label, colour, _)) in OTHERS.iter().enumerate() {
        let x = LEFT + 150.0 * at as f64;
        writeln!(
            svg,
            r#"<circle cx="{x}" cy="18" r="4" fill="{colour}"/><text x="{}" y="22">{label}</text>"#,
            x + 10.0
        )?;
    }
    writeln!(svg, r#"<text x="{}" y="22">left of 1: ours is faster</text>"#, LEFT + 300.0)?;
    axis(&mut svg, &scale, bottom)?;
    let mut y = TOP;
    for (group, title) in GROUPS {
        y += LINE;
        writeln!(svg, r#"<text x="12" y="{:.1}" font-weight="bold">{title}</text>"#, y + 4.0)?;
        for row in figures.of(group) {
            y += LINE;
            marks(&mut svg, &scale, row, y)?;
        }
    }
    writeln!(svg, "</svg>")?;
    Ok(svg)
}

/// The picture.
pub fn of(figures: &Figures) -> String {
    draw(figures).unwrap_or_default()
}
