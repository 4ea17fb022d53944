//! Wrong views of an answer: each one, put in our answer's place, must be told apart, so every part of it is looked at.

use crate::reading::{Card, Decimal, Entry, Header, Tile, Value};

/// A change of an answer, which does nothing where it does not apply.
pub type View<T> = (&'static str, fn(&mut T));

fn entry(card: &mut Card, change: impl Fn(&mut Entry)) {
    if let Card::Value(e) | Card::Hierarch(e) = card {
        change(e);
    }
}

fn value(card: &mut Card, change: impl Fn(&mut Value)) {
    entry(card, |e| change(&mut e.value));
}

fn entries(header: &mut Header, change: impl Fn(&mut Vec<Entry>)) {
    if let Header::Entries(e, _) = header {
        change(e);
    }
}

fn times(header: &mut Header, change: impl Fn(&mut Vec<usize>)) {
    if let Header::Entries(_, t) = header {
        change(t);
    }
}

fn shorten(text: &mut Vec<u8>) {
    text.pop();
}

fn shorten_some(text: &mut Option<Vec<u8>>) {
    if let Some(text) = text {
        text.pop();
    }
}

fn raise(pixel: Option<&mut i32>) {
    if let Some(pixel) = pixel {
        *pixel = pixel.wrapping_add(1);
    }
}

pub const CARDS: &[View<Card>] = &[
    ("a refusal is one higher", |c| {
        if let Card::Refused(n, _) = c {
            *n += 1;
        }
    }),
    ("a refusal is a space card", |c| {
        if let Card::Refused(..) = c {
            *c = Card::Space;
        }
    }),
    ("a refusal names the byte behind", |c| {
        if let Card::Refused(_, Some(column)) = c {
            *column += 1;
        }
    }),
    ("a refusal names no byte", |c| {
        if let Card::Refused(_, column) = c {
            *column = None;
        }
    }),
    ("a name loses its last byte", |c| entry(c, |e| shorten(&mut e.name))),
    ("a comment is lost", |c| entry(c, |e| e.comment = None)),
    ("a comment loses its last byte", |c| entry(c, |e| shorten_some(&mut e.comment))),
    ("a unit is lost", |c| entry(c, |e| e.unit = None)),
    ("a unit loses its last byte", |c| entry(c, |e| shorten_some(&mut e.unit))),
    ("a unit past a space is the one with the bracket first", |c| entry(c, |e| e.past.clone_from(&e.unit))),
    ("a unit past a space loses its last byte", |c| entry(c, |e| shorten_some(&mut e.past))),
    ("an integer is one higher", |c| {
        value(c, |v| {
            if let Value::Integer(z) = v {
                *z = z.wrapping_add(1);
            }
        })
    }),
    ("a decimal is the float beside it", |c| {
        value(c, |v| {
            if let Value::Decimal(d) = v {
                *d = Decimal { bits: d.bits ^ 1, record: None };
            }
        })
    }),
    ("a truth value is turned", |c| {
        value(c, |v| {
            if let Value::Logical(t) = v {
                *t = !*t;
            }
        })
    }),
    ("a string loses its last byte", |c| {
        value(c, |v| {
            if let Value::Text(t) = v {
                t.pop();
            }
        })
    }),
    ("an invalid text loses its last byte", |c| {
        value(c, |v| {
            if let Value::Invalid(t) = v {
                t.pop();
            }
        })
    }),
    ("an undefined value is an empty string", |c| {
        value(c, |v| {
            if *v == Value::Undefined {
                *v = Value::Text(Vec::new());
            }
        })
    }),
    ("a HIERARCH card is a value card", |c| {
        if let Card::Hierarch(e) = c {
            *c = Card::Value(e.clone());
        }
    }),
    ("a CONTINUE text loses its last byte", |c| {
        if let Card::Continue(t, _) = c {
            t.pop();
        }
    }),
    ("a CONTINUE comment is lost", |c| {
        if let Card::Continue(_, k) = c {
            *k = None;
        }
    }),
    ("a comment card is a history card", |c| {
        if let Card::Comment(t) = c {
            *c = Card::History(t.clone());
        }
    }),
    ("a comment or history card loses its last byte", |c| {
        if let Card::Comment(t) | Card::History(t) = c {
            t.pop();
        }
    }),
    ("a space card is a comment", |c| {
        if *c == Card::Space {
            *c = Card::Comment(Vec::new());
        }
    }),
    ("END is a space card", |c| {
        if *c == Card::End {
            *c = Card::Space;
        }
    }),
    ("an undefined card loses its last byte", |c| {
        if let Card::Undefined(t) = c {
            t.pop();
        }
    }),
];

pub const HEADERS: &[View<Header>] = &[
    ("the first entry is lost", |h| {
        if let Header::Entries(e, t) = h {
            e.drain(..1.min(e.len()));
            t.drain(..1.min(t.len()));
        }
    }),
    ("the last entry is lost", |h| {
        if let Header::Entries(e, t) = h {
            e.pop();
            t.pop();
        }
    }),
    ("the entries stand in the other order", |h| {
        if let Header::Entries(e, t) = h {
            e.reverse();
            t.reverse();
        }
    }),
    ("one card more bears each name", |h| times(h, |t| t.iter_mut().for_each(|t| *t += 1))),
    ("each name is borne once", |h| times(h, |t| t.fill(1))),
    ("how often two names are borne changes places", |h| {
        times(h, |t| {
            if t.len() > 1 {
                t.swap(0, 1);
            }
        })
    }),
    ("two names change places", |h| {
        entries(h, |e| {
            if let [a, b, ..] = &mut e[..] {
                std::mem::swap(&mut a.name, &mut b.name);
            }
        })
    }),
    ("two values change places", |h| {
        entries(h, |e| {
            if let [a, b, ..] = &mut e[..] {
                std::mem::swap(&mut a.value, &mut b.value);
            }
        })
    }),
    ("comments are lost", |h| entries(h, |e| e.iter_mut().for_each(|e| e.comment = None))),
    ("units are lost", |h| entries(h, |e| e.iter_mut().for_each(|e| e.unit = None))),
    ("units past a space are lost", |h| entries(h, |e| e.iter_mut().for_each(|e| e.past = None))),
    ("a refusal names the card before", |h| {
        if let Header::Refused(_, at, _) = h {
            *at = at.wrapping_sub(1);
        }
    }),
    ("a refusal has another number", |h| {
        if let Header::Refused(n, ..) = h {
            *n += 1;
        }
    }),
    ("a refusal names the byte behind", |h| {
        if let Header::Refused(_, _, Some(column)) = h {
            *column += 1;
        }
    }),
    ("a refusal names no byte", |h| {
        if let Header::Refused(_, _, column) = h {
            *column = None;
        }
    }),
    ("refusal 10 names byte 0", |h| {
        if let Header::Refused(10, _, column) = h {
            *column = Some(0);
        }
    }),
    ("the card and the byte change places", |h| {
        if let Header::Refused(_, at, Some(column)) = h {
            std::mem::swap(at, column);
        }
    }),
    ("a refused header is empty", |h| {
        if let Header::Refused(..) = h {
            *h = Header::Entries(Vec::new(), Vec::new());
        }
    }),
];

pub const TILES: &[View<Tile>] = &[
    ("the first pixel is one higher", |t| raise(t.pixels.first_mut())),
    ("the last pixel is one higher", |t| raise(t.pixels.last_mut())),
    ("the last pixel is lost", |t| t.pixels.truncate(t.pixels.len().saturating_sub(1))),
    ("a fault writes one pixel more", |t| {
        if t.refused != 0 {
            t.pixels.push(0);
        }
    }),
    ("one byte more is used", |t| {
        if t.refused == 0 {
            t.bytes += 1;
        }
    }),
    ("one byte less is used", |t| t.bytes = t.bytes.saturating_sub(1)),
    ("a fault passes", |t| t.refused = 0),
    ("a decoded tile is refused", |t| t.refused = 16),
];
