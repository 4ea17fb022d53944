//! The text of the figures.

use crate::{bars, picture, worst, writing};
use std::collections::HashMap;
use std::fmt::Write;
use std::path::Path;
use std::{fs, io};

/// A job as it was printed.
pub struct Row {
    pub group: String,
    pub name: String,
    pub unit: String,
    units: f64,
    /// Nanoseconds for a unit, by side.
    times: HashMap<String, f64>,
    /// Our time over another side's: the 10th percentile, the median, the 90th percentile.
    pub ratios: HashMap<String, [f64; 3]>,
    /// Instructions of one run of the job that was counted, for a unit, by side.
    counts: HashMap<String, f64>,
}

impl Row {
    /// A job of which nothing is measured.
    pub fn named(group: &str, name: &str) -> Self {
        Row {
            group: group.into(),
            name: name.into(),
            unit: String::new(),
            units: 0.0,
            times: HashMap::new(),
            ratios: HashMap::new(),
            counts: HashMap::new(),
        }
    }
}

/// All that was printed.
#[derive(Default)]
pub struct Figures {
    facts: HashMap<String, String>,
    pub rows: Vec<Row>,
}

impl Figures {
    fn row(&mut self, group: &str, name: &str) -> Option<&mut Row> {
        self.rows.iter_mut().find(|row| row.group == group && row.name == name)
    }

    /// Takes one line in; none where it is not of a known form.
    fn take(&mut self, line: &str) -> Option<()> {
        let words: Vec<&str> = line.split('\t').collect();
        let number = |word: &str| word.parse::<f64>().ok();
        match words[..] {
            ["job", group, name, unit, units] => {
                self.rows.push(Row { unit: unit.into(), units: number(units)?, ..Row::named(group, name) });
            }
            ["time", group, name, side, time] => {
                self.row(group, name)?.times.insert(side.into(), number(time)?);
            }
            ["ratio", group, name, side, low, middle, high] => {
                self.row(group, name)?.ratios.insert(side.into(), [number(low)?, number(middle)?, number(high)?]);
            }
            ["count", group, name, side, units, instructions] => {
                self.row(group, name)?.counts.insert(side.into(), number(instructions)? / number(units)?);
            }
            [fact, value] => {
                self.facts.insert(fact.into(), value.into());
            }
            _ => return None,
        }
        Some(())
    }

    fn fact(&self, name: &str) -> &str {
        self.facts.get(name).map_or("unknown", String::as_str)
    }

    pub fn of<'a>(&'a self, group: &'a str) -> impl Iterator<Item = &'a Row> + 'a {
        self.rows.iter().filter(move |row| row.group == group)
    }
}

/// A number with as many places as it deserves.
fn shown(x: f64) -> String {
    match x {
        x if x >= 100.0 => format!("{x:.0}"),
        x if x >= 10.0 => format!("{x:.1}"),
        x => format!("{x:.2}"),
    }
}

/// A number with commas between thousands, where it is large.
fn counted(x: f64) -> String {
    if x < 1000.0 {
        return shown(x);
    }
    let digits = format!("{x:.0}");
    let mut all = String::new();
    for (at, digit) in digits.chars().enumerate() {
        if at > 0 && (digits.len() - at) % 3 == 0 {
            all.push(',');
        }
        all.push(digit);
    }
    all
}

fn ratio(row: Option<&Row>, side: &str) -> String {
    match row.and_then(|row| row.ratios.get(side)) {
        Some([low, middle, high]) => format!("{} ({} to {})", shown(*middle), shown(*low), shown(*high)),
        None => "-".to_string(),
    }
}

/// How many jobs have a median below 1, of how many.
fn faster(figures: &Figures, groups: &[&str], side: &str) -> (usize, usize) {
    let rows = || figures.rows.iter().filter(|row| groups.contains(&row.group.as_str()));
    let below = rows().filter(|row| row.ratios.get(side).is_some_and(|ratio| ratio[1] < 1.0)).count();
    (below, rows().count())
}

/// What was aimed at, and what it came to.
fn aims(text: &mut String, figures: &Figures) -> std::fmt::Result {
    let median = |row: &Row, side: &str| row.ratios.get(side).map(|ratio| ratio[1]);
    // The largest median over CFITSIO of the tiles whose names begin and go on so.
    let slowest = |begin: &str, content: &str| {
        let rows = ["rows", "large"].into_iter().flat_map(|group| figures.of(group));
        rows.filter(|row| row.name.starts_with(begin) && row.name.contains(content))
            .filter_map(|row| median(row, "cfitsio"))
            .fold(0.0, f64::max)
    };
    let [eight, sixteen, wide] = ["8 bits", "16 bits", "32 bits"].map(|begin| shown(1.0 / slowest(begin, "noise")));
    let ours = |name: &str| {
        figures.of(worst::GROUP).find(|row| row.name == name).and_then(|row| row.times.get("ours")).copied()
    };
    // Our largest time in blocks of 1 over that in blocks of 32, for tiles of long code words or for the others.
    let ones = |long: bool| {
        let over = |row: &Row| {
            let many = row.name.strip_suffix("blocks of 1").map(|begin| format!("{begin}blocks of 32"))?;
            (row.name.contains("code words") == long).then_some(ours(&row.name)? / ours(&many)?)
        };
        shown(figures.of(worst::GROUP).filter_map(over).fold(0.0, f64::max))
    };
    let of = |group: &str, name: &str| {
        figures
            .rows
            .iter()
            .find(|row| row.group == group && row.name == name)
            .and_then(|row| median(row, "fitsrs"))
            .map_or("-".into(), shown)
    };
    writeln!(
        text,
        "Aimed at: noise decoded at least twice as fast as by CFITSIO: where it is slowest, CFITSIO's time over ours is {eight} at 8 bits, {sixteen} at\n\
         16 and {wide} at 32. Raw tiles and tiles of one value no slower than by CFITSIO: at most {} and {} of its time. A pixel in blocks of 1 at\n\
         most 3 times the time of one in blocks of 32: at most {}; {} where every code word is longer than 57 bits. A header of 720 cards read in half of fitsrs'\n\
         time: a lookup, which tests every card, takes {} of it, the list of all names {}, all values {}, and all values and comments {}.\n\
         A string over 100 and 700 CONTINUE cards out of a header's bytes no slower than by fitsrs: {} and {} of its time.\n",
        shown(slowest("", "raw")),
        shown(slowest("", "constant")),
        ones(false),
        ones(true),
        of("lookups", "720 cards, bytes to a joined string"),
        of("headers", "720 cards, list"),
        of("headers", "720 cards, all values"),
        of("headers", "720 cards, all values and comments"),
        of("continued", "100"),
        of("continued", "700"),
    )
}

fn tiles(text: &mut String, figures: &Figures) -> std::fmt::Result {
    let pixels = figures.of("large").next().map_or(0.0, |row| row.units);
    writeln!(text, "## Rice tiles\n")?;
    writeln!(
        text,
        "The whole decoder through the C boundary (`widrekas_decode`), blocks of 32, tiles made by CFITSIO's encoder. Noise is named by the bits\n\
         that a pixel takes; raw is noise of the whole width. Our pixels are 32-bit numbers at every width, the others' are of the width.\n"
    )?;
    writeln!(text, "| Tile | rows of 4,096: ours / fitsrs | ours / CFITSIO | one tile of {} pixels: ours / fitsrs | ours / CFITSIO |", counted(pixels))?;
    writeln!(text, "|---|---|---|---|---|")?;
    for row in figures.of("rows") {
        let large = figures.of("large").find(|large| large.name == row.name);
        let [a, b] = ["fitsrs", "cfitsio"].map(|side| ratio(Some(row), side));
        let [c, d] = ["fitsrs", "cfitsio"].map(|side| ratio(large, side));
        writeln!(text, "| {} | {a} | {b} | {c} | {d} |", row.name)?;
    }
    writeln!(text)
}

fn ratios(text: &mut String, figures: &Figures, group: &str) -> std::fmt::Result {
    writeln!(text, "| What | ours / fitsrs | ours / CFITSIO |\n|---|---|---|")?;
    for row in figures.of(group) {
        writeln!(text, "| {} | {} | {} |", row.name, ratio(Some(row), "fitsrs"), ratio(Some(row), "cfitsio"))?;
    }
    writeln!(text)
}

fn growth(text: &mut String, figures: &Figures, group: &str, what: &str) -> std::fmt::Result {
    let unit = figures.of(group).next().map_or("", |row| row.unit.as_str());
    writeln!(
        text,
        "| {what} | ours, ns a {unit} | fitsrs | CFITSIO | ours / fitsrs | ours / CFITSIO |\n|---|---|---|---|---|---|"
    )?;
    for row in figures.of(group) {
        let size =
            row.name
                .parse()
                .map_or(row.name.clone(), |size: f64| if size < 1000.0 { row.name.clone() } else { counted(size) });
        let [a, b, c] =
            ["ours", "fitsrs", "cfitsio"].map(|side| row.times.get(side).map_or("-".into(), |t| counted(*t)));
        let [d, e] = ["fitsrs", "cfitsio"].map(|side| ratio(Some(row), side));
        writeln!(text, "| {size} | {a} | {b} | {c} | {d} | {e} |")?;
    }
    writeln!(text)
}

/// What slow inputs take, over what the ordinary one of their kind takes: the first of those whose names begin alike.
fn worst_cases(text: &mut String, figures: &Figures) -> std::fmt::Result {
    writeln!(
        text,
        "## Worst cases\n\n\
         Inputs that are made to be slow, below an ordinary one of their kind. The first two columns are what ours takes over what ours takes on\n\
         the ordinary input, in time (of the medians) and in instructions. Every header has 720 cards, of which CFITSIO wants the first three.\n\
         Open strings: every card is `'&'`. One string: over 716 cards, each full; one string of comments: each has `'&'` and a comment of 60\n\
         bytes. Doubled quotes: every card is a string with one near its end. Refused cards: every one has a complex value. Names that\n\
         are slow to tell apart are made by `bench/slow_names.py`. One name is a string out of the bytes. Read on is `Header::read_on`, for fitsrs\n\
         its file reader with undefined cards, for CFITSIO the list. Write is a string of 2,000 bytes;\n\
         CFITSIO's `fits_update_key_longstr` does not return on the quotes. Tiles are rows of 4,096. Code words of 58 and 59 bits have fs 0,\n\
         which no encoder would choose for their pixels; they are longer than the 57 bits that a window of ours is sure to hold.\n"
    )?;
    writeln!(
        text,
        "| What | ours / ordinary | instructions | ours / fitsrs | ours / CFITSIO |\n|---|---|---|---|---|"
    )?;
    let kind = |row: &Row| row.name.split_once(": ").map(|(kind, _)| kind.to_string());
    for row in figures.of(worst::GROUP) {
        let ordinary = figures.of(worst::GROUP).find(|first| kind(first) == kind(row));
        let over = |of: fn(&Row) -> &HashMap<String, f64>| match (of(row).get("ours"), ordinary.map(of)) {
            (Some(ours), Some(ordinary)) => ordinary.get("ours").map_or("-".into(), |ordinary| shown(ours / ordinary)),
            _ => "-".to_string(),
        };
        let (time, count) = (over(|row| &row.times), over(|row| &row.counts));
        let [a, b] = ["fitsrs", "cfitsio"].map(|side| ratio(Some(row), side));
        writeln!(text, "| {} | {time} | {count} | {a} | {b} |", row.name)?;
    }
    writeln!(text)
}

fn instructions(text: &mut String, figures: &Figures) -> std::fmt::Result {
    writeln!(
        text,
        "## Instructions\n\nOne run of a job under `valgrind --tool=callgrind`, after two that are not counted. memset does without `rep stosb`,\n\
         of which callgrind counts each byte.\n"
    )?;
    writeln!(text, "| Job | for a | ours | fitsrs | CFITSIO |\n|---|---|---|---|---|")?;
    for row in figures.rows.iter().filter(|row| !row.counts.is_empty() && row.group != worst::GROUP) {
        let [a, b, c] =
            ["ours", "fitsrs", "cfitsio"].map(|side| row.counts.get(side).map_or("-".into(), |n| counted(*n)));
        let job = match row.group.as_str() {
            "continued" => format!("a string over {} CONTINUE cards", row.name),
            "commented" => format!("the same over {}, with its comment", row.name),
            _ => row.name.clone(),
        };
        writeln!(text, "| {job} | {} | {a} | {b} | {c} |", row.unit)?;
    }
    if let Some(program) = figures.facts.get("cards") {
        let program: f64 = program.parse().unwrap_or(0.0);
        writeln!(
            text,
            "\nThe program `cards` on the header of 720 cards, whole run with printing: {} instructions.",
            counted(program)
        )?;
    }
    writeln!(text)
}

fn text(figures: &Figures) -> Result<String, std::fmt::Error> {
    let mut text = String::new();
    let all = &mut text;
    writeln!(all, "# Speed\n")?;
    writeln!(
        all,
        "Written by `bench/run`. Ratios are our time over theirs, below 1 where ours is faster: the median of {} rounds, with the 10th and 90th\n\
         percentile. One process runs the three sides in turn on the same inputs, pinned to one core of {}; release builds;\n\
         fitsrs 0.4.1 as published, CFITSIO {} from Debian's package. Before the rounds and after each of them the sides' results are\n\
         compared, and a difference stops the run.\n",
        figures.fact("rounds"),
        figures.fact("machine"),
        figures.fact("cfitsio"),
    )?;
    writeln!(all, "![Our time over theirs, for every job](speed.svg)\n")?;
    let counts = |groups: &[&str]| {
        let ((a, all), (b, _)) = (faster(figures, groups, "fitsrs"), faster(figures, groups, "cfitsio"));
        format!("faster than fitsrs in {a} and than CFITSIO in {b} of {all} jobs")
    };
    writeln!(all, "Rice tiles: {}. Headers read whole: {}.", counts(&["rows", "large"]), counts(&["headers"]))?;
    let (fast, written) = faster(figures, &[writing::GROUP], "cfitsio");
    writeln!(all, "Lookups: {}. Writing: faster than CFITSIO in {fast} of {written} jobs.\n", counts(&["lookups"]))?;
    aims(all, figures)?;
    tiles(all, figures)?;
    writeln!(
        all,
        "## Headers\n\n\
         From bytes in memory. Ours: `widrekas_list`, which tests every card and lists the names; then the same with every value read by\n\
         `widrekas_entry_value`; then with every comment too, by `widrekas_entry_comment`, which reads the entry's cards again; then the crate\n\
         `widrekas`, which also copies every name, text and comment. fitsrs: `Card::try_from` for each card and\n\
         `Header::parse`, after which all values are there. CFITSIO: the bytes opened as a file (`fits_open_memfile`), every card's name, value\n\
         text and comment (`fits_read_keyn`), closed; its values are not converted.\n"
    )?;
    ratios(all, figures, "headers")?;
    writeln!(
        all,
        "## Lookups\n\n\
         The job of the picking list first: from bytes to one string over four cards. Ours: `widrekas_lookup_value`; or the crate's\n\
         `Header::parse` and `get`. fitsrs: read whole, then `get`. CFITSIO: opened, `fits_read_key_longstr`, closed. Then one name of a header\n\
         that is read (or opened) already: ours reads the entry from the cards, fitsrs finds it in a table, CFITSIO searches the cards.\n"
    )?;
    ratios(all, figures, "lookups")?;
    writeln!(
        all,
        "## Writing\n\n\
         One value. Ours: `widrekas_write` into a lent block, which leaves it to the caller where the cards go. CFITSIO:\n\
         `fits_update_key_longstr`, `fits_update_key_lng` and `fits_update_key_dbl` on a file in memory (`mem://`) whose few cards have the name\n\
         already, with as many cards, so that the header does not grow; it finds the name and changes its cards. Our decimal comes as digits and a\n\
         power, CFITSIO's as a double with 15 digits to be shown. fitsrs writes no cards.\n"
    )?;
    ratios(all, figures, writing::GROUP)?;
    writeln!(all, "## Growth\n\nA header listed (fitsrs: read whole; CFITSIO: as above), by its cards:\n")?;
    growth(all, figures, "cards", "Cards")?;
    writeln!(
        all,
        "One string out of a header's bytes, by its CONTINUE cards, each with a comment, beside 11 other cards and END. Ours: the text\n\
         alone (`widrekas_lookup_value`). fitsrs and CFITSIO: text and comment.\n"
    )?;
    growth(all, figures, "continued", "CONTINUE cards")?;
    writeln!(all, "The same with the comment, by `widrekas_lookup_comment` in a second call:\n")?;
    growth(all, figures, "commented", "CONTINUE cards")?;
    writeln!(all, "A tile of 16-bit noise, by its pixels:\n")?;
    growth(all, figures, "pixels", "Pixels")?;
    worst_cases(all, figures)?;
    instructions(all, figures)?;
    writeln!(all, "Memory: behind the boundary no heap is used. What it takes of the stack is said in TRUST.md.")?;
    Ok(text)
}

/// Writes the small pictures.
pub fn draw(figures: &Figures, folder: &Path) -> io::Result<()> {
    bars::of(figures).try_for_each(|(file, picture)| fs::write(folder.join(file), picture))
}

/// Writes the text and the pictures of what was printed.
pub fn write(lines: &Path, folder: &Path) -> io::Result<()> {
    let mut figures = Figures::default();
    for line in fs::read_to_string(lines)?.lines() {
        let odd = || io::Error::new(io::ErrorKind::InvalidData, format!("a line of another form: {line}"));
        figures.take(line).ok_or_else(odd)?;
    }
    let text = text(&figures).map_err(io::Error::other)?;
    fs::write(folder.join("SPEED.md"), text)?;
    fs::write(folder.join("speed.svg"), picture::of(&figures))?;
    draw(&figures, folder)
}
