//! The targets, each with its value, its limit and whether it is met.

use crate::call::Call;
use crate::case::{Line, Times};
use crate::file::{Form, Order};
use crate::grow::Growth;
use crate::link::{PIECE, Part, Piece};
use crate::suite::LONG_PIECE;
use crate::table;

/// A target's verdict.
pub struct Verdict {
    pub target: &'static str,
    pub value: f64,
    pub limit: f64,
    /// Where the value was met with.
    pub place: String,
}

impl Verdict {
    pub fn is_met(&self) -> bool {
        self.value <= self.limit
    }
}

/// The worst of these lines.
fn worst<'a>(
    target: &'static str,
    limit: f64,
    lines: impl Iterator<Item = &'a Line>,
    of: impl Fn(&Line) -> f64,
) -> Verdict {
    let none = Verdict { target, value: 0.0, limit, place: String::new() };
    lines.fold(none, |worst, line| {
        let value = of(line);
        if value <= worst.value {
            return worst;
        }
        Verdict { value, place: format!("{}, {}", line.case.call, line.case.file()), ..worst }
    })
}

/// The worst of these lines beside plain Rust.
fn over_plain<'a>(target: &'static str, lines: impl Iterator<Item = &'a Line>) -> Verdict {
    worst(target, 1.1, lines, |line| line.beside_plain().middle)
}

/// What the question of the gaps may take, times what C's memcmp takes to go over their bytes once.
const GAPS_LIMIT: f64 = 1.25;

/// The worst of these lines beside the limit of its bytes.
fn over_limit<'a>(target: &'static str, limit: f64, lines: impl Iterator<Item = &'a Line>) -> Verdict {
    worst(target, limit, lines, |line| line.beside_limit().middle)
}

/// Whether a line is of the question of the gaps.
fn is_gaps(line: &Line) -> bool {
    line.case.call == Call::Gaps
}

/// Whether a line is of the search without the index, in either form.
fn is_find(line: &Line) -> bool {
    matches!(line.case.call, Call::Find(_))
}

/// Whether a line is of a file that comes in pieces, in either form; and whether it is of one piece alone.
fn is_link(line: &Line) -> bool {
    matches!(line.case.call, Call::Link(_))
}

fn is_piece(line: &Line) -> bool {
    matches!(line.case.call, Call::Take(_))
}

/// Whether a line has a limit of its own beside plain Rust.
fn is_apart(line: &Line) -> bool {
    is_move(line) || is_find(line) || is_link(line) || is_piece(line)
}

/// What all calls for a file that comes in pieces may take, times an open of that file.
const LINK_LIMIT: f64 = 4.0;
/// What a piece of one byte may take, in microseconds.
const BYTE_LIMIT: f64 = 0.1;

/// A long piece of data beside a short one: it is to cost no more, but for what the clock makes of it.
fn long_piece(lines: &[Line]) -> Verdict {
    let time = |bytes| {
        let line = lines.iter().find(|line| line.case.call == Call::Take(Piece::Data(bytes)));
        line.map_or(f64::NAN, |line| line.spread(|times| times.library).middle)
    };
    Verdict {
        target: "a piece of 1 MiB of data over one of 512 bytes",
        value: time(LONG_PIECE) / time(PIECE),
        limit: 1.1,
        place: "link take".to_string(),
    }
}

/// The worst of these lines beside an open of the same file.
fn over_open<'a>(target: &'static str, lines: impl Iterator<Item = &'a Line>) -> Verdict {
    worst(target, LINK_LIMIT, lines, |line| line.spread(|times| times.library / times.open).middle)
}

/// The verdicts on a file that comes in pieces.
fn links(lines: &[Line]) -> [Verdict; 4] {
    let of = |kind: fn(&Line) -> bool| lines.iter().filter(move |line| kind(line));
    let part = |part| of(is_link).filter(move |line| line.case.call == Call::Link(part));
    let bytes = of(is_piece).filter(|line| !matches!(line.case.call, Call::Take(Piece::Data(_))));
    [
        over_plain("bootstrap and index in pieces of 512 bytes over plain Rust", part(Part::Index)),
        over_open("bootstrap and index in such pieces over an open of the file", part(Part::Index)),
        worst("a piece of one byte, µs", BYTE_LIMIT, bytes, |line| line.spread(|times| times.library).middle),
        long_piece(lines),
    ]
}

/// Whether a line is of the old form.
fn is_old(line: &Line) -> bool {
    line.case.plan.form == Form::Old
}

/// Whether it is a conversion, which has to do with both.
fn is_move(line: &Line) -> bool {
    line.case.call.is_move()
}

/// An open of a full index of the current form with 4,096 slots that is not refused.
fn is_full_open(line: &Line) -> bool {
    let case = &line.case;
    !is_old(line) && case.call == Call::Open && case.plan.slots == 4096 && case.plan.used == 4096 && !case.shares
}

/// A whole save beside what it may take: two opens of the same file and 1.2 times its copies.
fn save_beside(times: &Times) -> f64 {
    times.library / (2.0 * times.open + 1.2 * times.copies)
}

/// The highest exponent of growth with the slots, and of what.
fn steepest(growths: &[Growth]) -> (f64, String) {
    let exponents = growths
        .iter()
        .filter(|growth| growth.by == "slots")
        .filter_map(|growth| growth.exponent().map(|exponent| (exponent, growth.what.clone())));
    exponents.fold((0.0, String::new()), |a, b| if b.0 > a.0 { b } else { a })
}

/// All verdicts.
pub fn verdicts(lines: &[Line], growths: &[Growth], stack: usize, left_alone: bool) -> Vec<Verdict> {
    let rises = |line: &Line| line.case.plan.order == Order::Rising;
    let of = |kind: &dyn Fn(&Line) -> bool| lines.iter().filter(|line| kind(line)).collect::<Vec<_>>().into_iter();
    let opens = || of(&is_full_open);
    let saves = of(&|line| matches!(line.case.call, Call::Save(_)));
    let (exponent, what) = steepest(growths);
    let mut verdicts = vec![
        over_limit("open of a full index, rising, over the decoding pass", 2.5, opens().filter(|line| rises(line))),
        over_limit("open of a full index, any other order, the same", 6.0, opens().filter(|line| !rises(line))),
        over_plain("any line over plain Rust", of(&|line| !is_apart(line) && !is_old(line))),
        over_plain("any line of the old form over plain Rust", of(&|line| !is_apart(line) && is_old(line))),
        over_plain("any conversion over plain Rust", of(&is_move)),
        over_plain("any search without the index over plain Rust", of(&is_find)),
        over_limit("the question of the gaps over one pass of memcmp", GAPS_LIMIT, of(&is_gaps)),
        Verdict { target: "growth with the slots, exponent", value: exponent, limit: 1.1, place: what },
        worst("a whole save over two opens and 1.2 times its copies", 1.0, saves, |line| {
            line.spread(save_beside).middle
        }),
        Verdict {
            target: "calls that walk what is not theirs of the data section",
            value: if left_alone { 0.0 } else { 1.0 },
            limit: 0.0,
            place: "pages closed".to_string(),
        },
        Verdict {
            target: "deepest stack, KiB",
            value: stack as f64 / 1024.0,
            limit: sdd::stack::MOST as f64 / 1024.0,
            place: "any call".to_string(),
        },
    ];
    verdicts.extend(links(lines));
    verdicts
}

/// Prints them.
pub fn print(verdicts: &[Verdict]) {
    let rows: Vec<Vec<String>> = verdicts
        .iter()
        .map(|verdict| {
            vec![
                verdict.target.to_string(),
                format!("{:.2}", verdict.value),
                format!("{:.2}", verdict.limit),
                if verdict.is_met() { "met" } else { "NOT MET" }.to_string(),
                verdict.place.clone(),
            ]
        })
        .collect();
    table::print(&["target", "value", "limit", "", "worst at"], &rows);
}
