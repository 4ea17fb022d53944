//! What the stored list tells apart: for each wrong variant, how many stored cases it answers otherwise.

use crate::faults::{Fault, Subject, FAULTS};
use crate::model::Model;
use crate::printed::{self, Whole};
use crate::reading::Header;
use crate::tiles::Case;
use crate::views;

/// How many stored cases each wrong variant must answer otherwise at least.
pub const WITNESSES: usize = 8;

/// Misreadings that the stored list cannot show: a header's entries hold no commentary and no undefined card, and XTENSION lies
/// outside the equality domain.
const UNSEEN: &[Fault] = &[
    Fault::EmptyTab,
    Fault::EmptyIsSpace,
    Fault::CommentaryNotReplaced,
    Fault::CommentaryEndKept,
    Fault::CommentaryFrom9,
    Fault::UndefinedCut,
    Fault::ExtensionValue,
    Fault::ExtensionEmptyLast,
];

/// A wrong view of what a whole decoding leaves.
type View = (&'static str, fn(&mut Whole));

/// What a fault could leave otherwise.
const LEFT: &[View] = &[
    ("the pixel at a fault is written and not counted", |w| {
        if w.refused != 0 {
            w.buffer[w.written] = w.written.checked_sub(1).map_or(0, |i| w.buffer[i]);
        }
    }),
    ("the pixel at a fault is counted and not written", |w| {
        if w.refused != 0 {
            w.written += 1;
        }
    }),
    ("the pixels behind a fault are cleared", |w| {
        if w.refused != 0 {
            let from = w.written + 1;
            w.buffer.iter_mut().skip(from).for_each(|p| *p = 0);
        }
    }),
];

/// The misreadings of headers that the list can show.
pub fn misreadings() -> impl Iterator<Item = (Subject, Fault, &'static str)> {
    FAULTS.iter().copied().filter(|f| f.0 != Subject::Tiles && !UNSEEN.contains(&f.1))
}

/// What is printed of a header by a reader with one misreading.
pub fn misread(header: &[[u8; 80]], subject: Subject, fault: Fault) -> Vec<u8> {
    let (plain, wrong) = (Model(Fault::None), Model(fault));
    printed::header(&match subject {
        Subject::Headers | Subject::Times => wrong.header(header, |c| plain.card(c)),
        _ => plain.header(header, |c| wrong.card(c)),
    })
}

/// What is printed first of a tile by a reader with one misreading.
pub fn misread_tile(case: &Case, fault: Fault) -> String {
    Whole::of(Model(fault).tile(&case.tile, case.nx, case.nblock, case.width), case.nx).lines()
}

/// Prints how many cases each variant answers otherwise, and answers how many variants too few cases tell apart.
fn told(subject: &str, counts: Vec<(&str, usize)>) -> usize {
    println!("{subject}: {} wrong variants, each with the stored cases that tell it apart", counts.len());
    for (words, n) in &counts {
        println!("    {n:>6} {words}{}", if *n < WITNESSES { ": TOO FEW" } else { "" });
    }
    counts.iter().filter(|c| c.1 < WITNESSES).count()
}

/// The wrong variants of headers, over each header's answer.
pub fn headers(stored: &[(Vec<[u8; 80]>, Header)]) -> usize {
    let right: Vec<Vec<u8>> = stored.iter().map(|s| printed::header(&s.1)).collect();
    let otherwise = |answer: &dyn Fn(usize) -> Vec<u8>| (0..stored.len()).filter(|&i| answer(i) != right[i]).count();
    let mut counts: Vec<(&str, usize)> = misreadings()
        .map(|(subject, fault, words)| (words, otherwise(&|i| misread(&stored[i].0, subject, fault))))
        .collect();
    for (words, change) in views::HEADERS {
        let changed = |i: usize| {
            let mut answer = stored[i].1.clone();
            change(&mut answer);
            printed::header(&answer)
        };
        counts.push((words, otherwise(&changed)));
    }
    told("headers", counts)
}

/// The wrong variants of tiles, over what a whole decoding of each one leaves.
pub fn tiles(stored: &[(Case, Whole)]) -> usize {
    let right: Vec<String> = stored.iter().map(|s| s.1.lines()).collect();
    let otherwise = |answer: &dyn Fn(usize) -> String| (0..stored.len()).filter(|&i| answer(i) != right[i]).count();
    let mut counts: Vec<(&str, usize)> = FAULTS
        .iter()
        .filter(|f| f.0 == Subject::Tiles)
        .map(|&(_, fault, words)| (words, otherwise(&|i| misread_tile(&stored[i].0, fault))))
        .collect();
    for (words, change) in LEFT {
        let changed = |i: usize| {
            let mut whole = stored[i].1.clone();
            change(&mut whole);
            whole.lines()
        };
        counts.push((words, otherwise(&changed)));
    }
    told("tiles", counts)
}
