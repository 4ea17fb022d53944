//! The power of the comparison: each wrong variant must be told apart from the Rust by the same cases. Of the byte of a refusal the Rust
//! says nothing: there the variants must be told apart from the model without them, outside the equality domain too.

use crate::faults::{Fault, Subject, FAULTS};
use crate::model::Model;
use crate::reading::{shown, Card, Header, Tile};
use crate::variants::WITNESSES;
use crate::views::{self, View};
use crate::{cards, headers, ours, theirs, tiles};

/// A wrong variant: a misreading in the model, or a wrong view of our answer.
enum Variant<T: 'static> {
    Misreading(Fault),
    View(fn(&mut T)),
}

/// The variants of a subject that too few cases have told apart yet.
struct Hunt<T: 'static> {
    /// Each with its words and the cases that told it apart.
    left: Vec<(Variant<T>, &'static str, usize)>,
    /// How many cases must tell a variant apart.
    needed: usize,
    told: usize,
    seen: u64,
}

impl<T: Clone> Hunt<T> {
    fn new(subjects: &[Subject], views: &'static [View<T>], needed: usize) -> Self {
        let misreadings = FAULTS.iter().filter(|f| subjects.contains(&f.0)).map(|f| (Variant::Misreading(f.1), f.2, 0));
        let left = misreadings.chain(views.iter().map(|v| (Variant::View(v.1), v.0, 0))).collect();
        Hunt { left, needed, told: 0, seen: 0 }
    }

    /// Takes out the variants that enough cases tell apart; says whether any is left.
    fn case(
        &mut self,
        part: &str,
        read: impl Fn(Model) -> T,
        ours: impl FnOnce() -> T,
        differs: impl Fn(&T) -> bool,
        show: impl Fn() -> String,
    ) -> bool {
        self.seen += 1;
        let seen = self.seen;
        let told = &mut self.told;
        let needed = self.needed;
        let right = ours();
        self.left.retain_mut(|(variant, words, cases)| {
            let answer = match variant {
                Variant::Misreading(fault) => read(Model(*fault)),
                Variant::View(change) => {
                    let mut answer = right.clone();
                    change(&mut answer);
                    answer
                }
            };
            *cases += usize::from(differs(&answer));
            let stays = *cases < needed;
            if !stays {
                *told += 1;
                println!("    told apart at case {seen} ({part}): {words}: {}", show());
            }
            stays
        });
        !self.left.is_empty()
    }

    fn end(self, subject: &str) -> usize {
        for (_, words, cases) in &self.left {
            println!("    NOT TOLD APART by {} cases, only by {cases}: {words}", self.needed);
        }
        println!(
            "{subject}: {} wrong variants told apart, {} not, within {} cases",
            self.told,
            self.left.len(),
            self.seen
        );
        self.left.len()
    }
}

/// Runs the hunt over the misreadings of a column.
fn columns(seed: u64, many: usize) -> usize {
    let plain = Model(Fault::None);
    let mut hunt = Hunt::new(&[Subject::Columns], &[], WITNESSES);
    cards::cases(seed, 4, many, &mut |part, card| {
        let right = plain.card(card);
        hunt.case(
            part,
            |m| m.card(card),
            || right.clone(),
            |answer| *answer != right,
            || format!("\"{}\"", shown(card.trim_ascii_end())),
        )
    });
    hunt.end("columns")
}

/// Runs the hunt over all subjects; answers how many variants are left.
pub fn run(seed: u64, many: usize) -> usize {
    let mut left = 0;

    let plain = Model(Fault::None);
    let mut hunt = Hunt::new(&[Subject::Cards, Subject::Past], views::CARDS, 1);
    cards::cases(seed, 4, many, &mut |part, card| {
        if cards::aside(card).is_some() {
            return true;
        }
        let rust = theirs::card(card);
        let column = plain.card(card).column();
        let differs =
            |answer: &Card| rust.as_ref().map_or(true, |r| cards::differ(r, answer)) || answer.column() != column;
        hunt.case(
            part,
            |m| m.card(card),
            || ours::card(card),
            differs,
            || format!("\"{}\"", shown(card.trim_ascii_end())),
        )
    });
    left += hunt.end("cards");

    left += columns(seed, many);

    let mut hunt = Hunt::new(&[Subject::Headers, Subject::Times], views::HEADERS, 1);
    headers::cases(seed, 3, many, &mut |part, header| {
        if headers::aside(header).is_some() {
            return true;
        }
        let rust = theirs::header(header);
        let column = plain.header(header, |c| plain.card(c)).column();
        let differs =
            |answer: &Header| rust.as_ref().map_or(true, |r| headers::differ(r, answer)) || answer.column() != column;
        hunt.case(
            part,
            |m| m.header(header, |c| plain.card(c)),
            || ours::header(header),
            differs,
            || {
                let cards: Vec<String> = header.iter().take(6).map(|c| shown(c.trim_ascii_end())).collect();
                format!("{cards:?}")
            },
        )
    });
    left += hunt.end("headers");

    let mut hunt = Hunt::new(&[Subject::Tiles], views::TILES, 1);
    tiles::cases(seed, false, many, &mut |part, case| {
        if tiles::aside(case).is_some() {
            return true;
        }
        let rust = theirs::tile(&case.tile, case.nx, case.nblock, case.width);
        let differs = |answer: &Tile| rust.as_ref() != Some(answer);
        hunt.case(
            part,
            |m| m.tile(&case.tile, case.nx, case.nblock, case.width),
            || ours::tile(&case.tile, case.nx, case.nblock, case.width),
            differs,
            || {
                let head: Vec<String> = case.tile.iter().take(12).map(|b| format!("{b:02x}")).collect();
                format!("{} bits, nx {}, nblock {}: {}", case.width, case.nx, case.nblock, head.join(" "))
            },
        )
    });
    left + hunt.end("tiles")
}
