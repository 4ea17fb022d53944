//! Two small pictures for README.md: our speed as a multiple of theirs, a few jobs each, on a scale of powers.

use crate::picture::{Scale, OTHERS};
use crate::report::{Figures, Row};
use std::fmt::Write;

/// A job by its group and name, and how the picture calls it.
type Job = (&'static str, &'static str, &'static str);

/// A picture: its file, its title, its jobs.
type Picture = (&'static str, &'static str, [Job; 6]);

const PICTURES: [Picture; 2] = [
    (
        "speed-tiles.svg",
        "Rice tiles, rows of 4,096 pixels: our speed over theirs",
        [
            ("rows", "8 bits, noise 4.8", "8 bits, noise"),
            ("rows", "16 bits, noise 7.4", "16 bits, noise"),
            ("rows", "32 bits, noise 11.4", "32 bits, noise"),
            ("rows", "16 bits, raw", "16 bits, raw"),
            ("rows", "16 bits, constant", "16 bits, constant"),
            ("rows", "8 bits, constant", "8 bits, constant"),
        ],
    ),
    (
        "speed-headers.svg",
        "Headers: our speed over theirs",
        [
            ("lookups", "36 cards, bytes to a joined string", "36 cards, bytes to one string"),
            ("lookups", "720 cards, bytes to a joined string", "720 cards, bytes to one string"),
            ("headers", "36 cards, list", "36 cards, list of names"),
            ("headers", "720 cards, list", "720 cards, list of names"),
            ("headers", "720 cards, all values", "720 cards, all values"),
            ("lookups", "720 cards, joined string of a read header", "720 cards, string of a read header"),
        ],
    ),
];

/// The measures of a picture.
const LEFT: f64 = 250.0;
const WIDTH: f64 = 320.0;
const TOP: f64 = 66.0;
const LINE: f64 = 25.0;
const BAR: f64 = 9.0;

/// Light colours, and dark ones where the reader's page is dark. The ground is drawn too, so that the text is readable on any page.
const STYLE: &str = "\
<style>\
.ground{fill:#fff}text{fill:#222}.grid{stroke:#ddd}.one{stroke:#444}.fitsrs{fill:#b3561d}.cfitsio{fill:#2f6d9e}\
@media(prefers-color-scheme:dark){\
.ground{fill:#16191d}text{fill:#ddd}.grid{stroke:#3a3f45}.one{stroke:#bbb}.fitsrs{fill:#e08a4f}.cfitsio{fill:#6aa9dc}}\
</style>";

/// How many times as fast ours is, with as many places as it deserves.
fn shown(speed: f64) -> String {
    match speed {
        speed if speed >= 9.95 => format!("{speed:.0}"),
        speed if speed >= 0.995 => format!("{speed:.1}"),
        speed if speed >= 0.0995 => format!("{speed:.2}"),
        speed => format!("{speed:.3}"),
    }
}

fn axis(svg: &mut String, scale: &Scale, bottom: f64) -> std::fmt::Result {
    for (power, label) in scale.marks() {
        let (x, class) = (scale.place(f64::from(power).exp2()), if power == 0 { "one" } else { "grid" });
        writeln!(svg, r#"<path class="{class}" d="M{x:.1} {:.1}V{bottom:.1}"/>"#, TOP - 4.0)?;
        writeln!(svg, r#"<text x="{x:.1}" y="{:.1}" text-anchor="middle">{label}</text>"#, TOP - 10.0)?;
    }
    Ok(())
}

/// The bars of a job: from 1 to the right where ours is faster, to the left where it is slower.
fn bars(svg: &mut String, scale: &Scale, row: &Row, label: &str, y: f64) -> std::fmt::Result {
    writeln!(svg, r#"<text x="{}" y="{:.1}" text-anchor="end">{label}</text>"#, LEFT - 34.0, y + 4.0)?;
    for (side, _, _, off) in OTHERS {
        let Some([_, ratio, _]) = row.ratios.get(side) else { continue };
        let speed = 1.0 / ratio;
        let (one, x) = (scale.place(1.0), scale.place(speed));
        let (left, width) = (one.min(x), (one - x).abs().max(0.5));
        let y = y + off.signum() * (BAR / 2.0 + 0.5);
        let (at, anchor) = if speed < 1.0 { (x - 4.0, "end") } else { (x + 4.0, "start") };
        writeln!(
            svg,
            r#"<rect class="{side}" x="{left:.1}" y="{:.1}" width="{width:.1}" height="{BAR}"/>"#,
            y - BAR / 2.0
        )?;
        writeln!(
            svg,
            r#"<text x="{at:.1}" y="{:.1}" text-anchor="{anchor}" font-size="10">{}</text>"#,
            y + 3.5,
            shown(speed)
        )?;
    }
    Ok(())
}

fn draw(figures: &Figures, title: &str, jobs: &[Job]) -> Result<String, std::fmt::Error> {
    let rows = || {
        jobs.iter()
            .filter_map(|(group, name, label)| figures.of(group).find(|row| row.name == *name).map(|row| (row, *label)))
    };
    let speeds = rows().flat_map(|(row, _)| row.ratios.values().map(|ratio| 1.0 / ratio[1]));
    let scale = Scale::around(speeds, LEFT, WIDTH);
    let bottom = TOP + LINE * rows().count() as f64;
    let (width, height) = (LEFT + WIDTH + 40.0, bottom + 10.0);
    let mut svg = String::new();
    writeln!(
        svg,
        r#"<svg xmlns="http://www.w3.org/2000/svg" viewBox="0 0 {width} {height}" width="{width}" height="{height}" font-family="sans-serif" font-size="12">"#
    )?;
    writeln!(svg, "<title>{title}</title>\n{STYLE}")?;
    writeln!(svg, r#"<rect class="ground" width="{width}" height="{height}"/>"#)?;
    writeln!(svg, r#"<text x="12" y="20" font-weight="bold">{title}</text>"#)?;
    for (at, (side, label, _, _)) in OTHERS.iter().enumerate() {
        let x = 12.0 + 95.0 * at as f64;
        let name = label.trim_start_matches("ours / ");
        writeln!(
            svg,
            r#"<rect class="{side}" x="{x}" y="30" width="10" height="10"/><text x="{}" y="39">over {name}</text>"#,
            x + 15.0
        )?;
    }
    writeln!(svg, r#"<text x="{}" y="39" text-anchor="end">right of 1: ours is faster</text>"#, LEFT + WIDTH + 28.0)?;
    axis(&mut svg, &scale, bottom)?;
    for (at, (row, label)) in rows().enumerate() {
        bars(&mut svg, &scale, row, label, TOP + LINE * (at as f64 + 0.5))?;
    }
    writeln!(svg, "</svg>")?;
    Ok(svg)
}

/// The pictures, with the names of their files.
pub fn of(figures: &Figures) -> impl Iterator<Item = (&'static str, String)> + '_ {
    PICTURES.iter().map(|(file, title, jobs)| (*file, draw(figures, title, jobs).unwrap_or_default()))
}
