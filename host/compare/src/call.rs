//! A call with its arguments, its answer as the face gives it, and what the model expects.

use face::{Answer as YesNo, Begun, Entry, Job, Link, Linked, Listed, Opened, Refusal, Span, Stepped};
use model::{Sizes, Write};
use std::collections::BTreeMap;

/// What is lent to a call: as it is before, or as it should be after it.
#[allow(missing_docs)]
#[derive(Clone, Copy)]
pub struct Lent<'a> {
    pub file: &'a [u8],
    pub scan: &'a [u8],
    pub about: &'a model::About,
    /// The second buffer, which a conversion writes into.
    pub second: &'a [u8],
    /// The piece of a file that comes over the link.
    pub piece: &'a [u8],
    /// The working row of a verdict over the link.
    pub working: &'a [u32],
}

/// One of the nineteen calls; what it is lent is the world's.
#[allow(missing_docs)]
#[derive(Clone, Copy, Debug)]
pub enum Call {
    Open,
    List { out_len: usize },
    Entry { slot: u64 },
    Show { slot: u64 },
    Read { slot: u64 },
    Class { number: u64 },
    Data,
    Blank { n: u64, l: u64, m: u64 },
    Save { slot: u64 },
    Keep,
    Clear { slot: u64 },
    Step { job: Job },
    ToCurrent,
    ToOld,
    GapsZero,
    Find { out_len: usize },
    LinkBegin { length: u64 },
    LinkTake { link: Link },
    LinkFinish { link: Link },
}

/// The names of the calls, in the header's order.
pub const NAMES: [&str; 19] = [
    "open",
    "list",
    "entry",
    "show",
    "read",
    "class",
    "data",
    "blank",
    "save",
    "keep",
    "clear",
    "step",
    "to_current",
    "to_old",
    "gaps_zero",
    "find",
    "link_begin",
    "link_take",
    "link_finish",
];

impl Call {
    /// The call's place in the header, from 0.
    pub fn number(&self) -> usize {
        match self {
            Call::Open => 0,
            Call::List { .. } => 1,
            Call::Entry { .. } => 2,
            Call::Show { .. } => 3,
            Call::Read { .. } => 4,
            Call::Class { .. } => 5,
            Call::Data => 6,
            Call::Blank { .. } => 7,
            Call::Save { .. } => 8,
            Call::Keep => 9,
            Call::Clear { .. } => 10,
            Call::Step { .. } => 11,
            Call::ToCurrent => 12,
            Call::ToOld => 13,
            Call::GapsZero => 14,
            Call::Find { .. } => 15,
            Call::LinkBegin { .. } => 16,
            Call::LinkTake { .. } => 17,
            Call::LinkFinish { .. } => 18,
        }
    }

    /// The row lent for the answer: how many elements it has, and how many bytes one has.
    pub fn row(&self) -> (usize, usize) {
        match *self {
            Call::List { out_len } => (out_len, 4),
            Call::Find { out_len } => (out_len, 8),
            _ => (0, 4),
        }
    }
}

/// An answer, as the face gives it.
#[allow(missing_docs)]
#[derive(Clone, Copy, Debug)]
pub enum Answer {
    Opened(Opened),
    Listed(Listed),
    Entry(Entry),
    Span(Span),
    Refusal(Refusal),
    Begun(Begun),
    Stepped(Stepped),
    YesNo(YesNo),
    Linked(Linked),
}

impl Answer {
    /// Why the call was refused.
    pub fn why(&self) -> Refusal {
        match self {
            Answer::Opened(a) => a.why,
            Answer::Listed(a) => a.why,
            Answer::Entry(a) => a.why,
            Answer::Span(a) => a.why,
            Answer::Refusal(a) => *a,
            Answer::Begun(a) => a.why,
            Answer::Stepped(a) => a.why,
            Answer::YesNo(a) => a.why,
            Answer::Linked(a) => a.why,
        }
    }

    /// Every field in the header's order, little-endian and without padding: two
    /// answers are the same where these bytes are. Every NaN value counts as one,
    /// since the header promises no more; its bits are compared in their own field.
    pub fn bytes(&self) -> Vec<u8> {
        let mut all = Vec::with_capacity(192);
        let why = self.why();
        put4(&mut all, &[why.number, why.value]);
        match self {
            Answer::Opened(a) => {
                put8(&mut all, &[a.n, a.d, a.l, a.m, a.u, a.counter, a.kind, a.capacity, a.room, a.version])
            }
            Answer::Listed(a) => put8(&mut all, &[a.scans]),
            Answer::Entry(a) => put_entry(&mut all, a),
            Answer::Span(a) => put8(&mut all, &[a.from, a.to]),
            Answer::Refusal(_) => (),
            Answer::Begun(a) => put_job(&mut all, &a.job),
            Answer::Stepped(a) => {
                put8(&mut all, &[a.done, a.record, a.written]);
                put_job(&mut all, &a.job);
            }
            Answer::YesNo(a) => put8(&mut all, &[a.yes]),
            Answer::Linked(a) => put_link(&mut all, &a.link),
        }
        all
    }
}

fn put4(all: &mut Vec<u8>, numbers: &[u32]) {
    numbers.iter().for_each(|number| all.extend(number.to_le_bytes()));
}

fn put8(all: &mut Vec<u8>, numbers: &[u64]) {
    numbers.iter().for_each(|number| all.extend(number.to_le_bytes()));
}

/// A job's fields, as [`Answer::bytes`] has them.
pub fn put_job(all: &mut Vec<u8>, job: &Job) {
    put8(all, &[job.saves, job.slot, job.scan_len, job.file_len, job.first, job.written, job.lowers]);
    put8(all, &[job.old_first, job.old_count]);
    all.extend(job.boot);
    all.extend(job.about);
}

/// A link's fields, likewise.
pub fn put_link(all: &mut Vec<u8>, link: &Link) {
    put8(all, &[link.length, link.came, link.index_end]);
    all.extend(link.boot);
}

fn put_entry(all: &mut Vec<u8>, a: &Entry) {
    put4(all, &[a.first, a.last, a.horizontal, a.vertical]);
    all.extend(a.source);
    put4(all, &[a.scan, a.field4]);
    put8(all, &[a.field8]);
    put4(all, &[a.lst, a.date]);
    for half in [a.mode, a.number, a.position, a.magic, a.kind as i16] {
        all.extend(half.to_le_bytes());
    }
    put4(all, &[if a.single_value.is_nan() { f32::NAN.to_bits() } else { a.single_value.to_bits() }]);
    put8(all, &[if a.double_value.is_nan() { f64::NAN.to_bits() } else { a.double_value.to_bits() }]);
}

/// What the model expects of a call: the answer, and all memory that changes.
pub struct Expected {
    /// The answer.
    pub answer: Answer,
    /// The change of the file, if any.
    pub write: Option<Write>,
    /// The elements written to `out`, whatever the bits of one.
    pub out: Vec<u64>,
    /// The change of the second buffer, if any.
    pub converted: Option<Write>,
    /// The elements of the working row that are written, with what they hold afterwards.
    pub worked: BTreeMap<usize, u32>,
}

impl Expected {
    /// An answer that comes with no change of memory.
    fn only(answer: Answer) -> Expected {
        Expected { answer, write: None, out: Vec::new(), converted: None, worked: BTreeMap::new() }
    }

    /// Asks the model.
    pub fn of(call: &Call, lent: &Lent) -> Expected {
        let Lent { file, scan, about, second, piece, working } = *lent;
        let only = Expected::only;
        match *call {
            Call::Open => only(opened(model::open(file), file.len() as u64)),
            Call::List { out_len } => {
                listed(model::list(file, out_len).map(|out| out.into_iter().map(u64::from).collect()))
            }
            Call::Entry { slot } => only(Answer::Entry(entry(file, slot))),
            Call::Show { slot } => only(span(model::show(file, slot))),
            Call::Read { slot } => only(span(model::read(file, slot))),
            Call::Class { number } => only(span(model::class(scan, number))),
            Call::Data => only(span(model::data(scan))),
            Call::Blank { n, l, m } => blank(file, n, l, m),
            Call::Save { slot } => only(begun(model::save(file, slot, scan, about))),
            Call::Keep => only(begun(model::keep(file, scan, about))),
            Call::Clear { slot } => only(begun(model::clear(file, slot))),
            Call::Step { job } => stepped(file, scan, &job),
            Call::ToCurrent => converted(model::to_current(file, second.len())),
            Call::ToOld => converted(model::to_old(file, second.len())),
            Call::GapsZero => only(Answer::YesNo(yes_or_no(model::gaps_zero(file)))),
            Call::Find { out_len } => listed(model::find(file, out_len)),
            Call::LinkBegin { length } => only(link_begun(model::begin(length, working.len()))),
            Call::LinkTake { link } => link_taken(link, piece, working),
            Call::LinkFinish { link } => only(opened(model::finish(&link_to_model(&link), working), link.length)),
        }
    }
}

fn refusal(why: model::Refusal) -> Refusal {
    Refusal { number: why.number, value: why.value }
}

/// The judgement of a file of so many bytes.
pub fn opened(judged: model::Answer<Sizes>, file_len: u64) -> Answer {
    Answer::Opened(match judged {
        Err(why) => Opened { why: refusal(why), ..Opened::ZEROS },
        Ok(z) => Opened {
            why: Refusal::NONE,
            n: z.n,
            d: z.d,
            l: z.l,
            m: z.m,
            u: z.u,
            counter: z.counter,
            kind: z.kind,
            capacity: z.capacity(),
            room: model::room(file_len, &z),
            version: match z.form {
                model::Form::Old => 0,
                model::Form::Current => 1,
            },
        },
    })
}

/// A listing or a search: three elements for each scan.
fn listed(answer: model::Answer<Vec<u64>>) -> Expected {
    let (why, out) = match answer {
        Err(why) => (refusal(why), Vec::new()),
        Ok(out) => (Refusal::NONE, out),
    };
    let answer = Answer::Listed(Listed { why, scans: out.len() as u64 / 3 });
    Expected { out, ..Expected::only(answer) }
}

fn entry(file: &[u8], slot: u64) -> Entry {
    match model::entry(file, slot) {
        Err(why) => Entry { why: refusal(why), ..Entry::ZEROS },
        Ok(e) => Entry {
            why: Refusal::NONE,
            first: e.first,
            last: e.last,
            horizontal: e.horizontal,
            vertical: e.vertical,
            source: e.source,
            scan: e.scan,
            field4: e.field4,
            field8: e.field8,
            lst: e.lst,
            date: e.date,
            mode: e.mode,
            number: e.number,
            position: e.position,
            magic: e.magic,
            kind: match e.kind {
                model::Kind::Other => 0,
                model::Kind::Continuum => 1,
                model::Kind::SpectralLine => 2,
            },
            single_value: f32::from_bits(e.field4),
            double_value: f64::from_bits(e.field8),
        },
    }
}

fn span(answer: model::Answer<(u64, u64)>) -> Answer {
    Answer::Span(match answer {
        Err(why) => Span { why: refusal(why), from: 0, to: 0 },
        Ok((from, to)) => Span { why: Refusal::NONE, from, to },
    })
}

fn yes_or_no(answer: model::Answer<bool>) -> YesNo {
    match answer {
        Err(why) => YesNo { why: refusal(why), yes: 0 },
        Ok(yes) => YesNo { why: Refusal::NONE, yes: u64::from(yes) },
    }
}

fn blank(file: &[u8], n: u64, l: u64, m: u64) -> Expected {
    let (why, write) = changed(model::blank(file.len() as u64, n, l, m));
    Expected { write, ..Expected::only(Answer::Refusal(why)) }
}

fn converted(answer: model::Answer<Write>) -> Expected {
    let (why, converted) = changed(answer);
    Expected { converted, ..Expected::only(Answer::Refusal(why)) }
}

/// The refusal or the change.
fn changed(answer: model::Answer<Write>) -> (Refusal, Option<Write>) {
    match answer {
        Err(why) => (refusal(why), None),
        Ok(write) => (Refusal::NONE, Some(write)),
    }
}

fn begun(answer: model::Answer<model::Job>) -> Answer {
    Answer::Begun(match answer {
        Err(why) => Begun { why: refusal(why), job: Job::ZEROS },
        Ok(job) => Begun { why: Refusal::NONE, job: to_face(&job) },
    })
}

fn stepped(file: &[u8], scan: &[u8], job: &Job) -> Expected {
    match model::step(file, scan, &to_model(job)) {
        Err(why) => {
            let answer = Stepped { why: refusal(why), done: 0, record: 0, written: 0, job: *job };
            Expected::only(Answer::Stepped(answer))
        }
        Ok(stepped) => {
            let (done, record) = match stepped.done {
                model::Done::Wrote(record) => (0, record),
                model::Done::Saved => (1, 0),
                model::Done::Cleared => (2, 0),
            };
            let job = to_face(&stepped.job);
            let answer = Stepped { why: Refusal::NONE, done, record, written: job.written, job };
            Expected { write: stepped.write, ..Expected::only(Answer::Stepped(answer)) }
        }
    }
}

fn to_face(job: &model::Job) -> Job {
    let model::Job { saves, slot, scan_len, file_len, first, written, lowers, old_first, old_count, boot, about } =
        *job;
    Job { saves, slot, scan_len, file_len, first, written, lowers, old_first, old_count, boot, about }
}

/// A job as the model has it.
pub fn to_model(job: &Job) -> model::Job {
    let Job { saves, slot, scan_len, file_len, first, written, lowers, old_first, old_count, boot, about } = *job;
    model::Job { saves, slot, scan_len, file_len, first, written, lowers, old_first, old_count, boot, about }
}

/// A refused beginning "hands back a link of zeros".
fn link_begun(answer: model::Answer<model::Link>) -> Answer {
    Answer::Linked(match answer {
        Err(why) => Linked { why: refusal(why), link: Link::ZEROS },
        Ok(link) => Linked { why: Refusal::NONE, link: link_to_face(&link) },
    })
}

/// A refused piece hands back "the link as it was".
fn link_taken(link: Link, piece: &[u8], working: &[u32]) -> Expected {
    match model::take(&link_to_model(&link), piece, working) {
        Err(why) => Expected::only(Answer::Linked(Linked { why: refusal(why), link })),
        Ok(taken) => {
            let answer = Linked { why: Refusal::NONE, link: link_to_face(&taken.link) };
            Expected { worked: taken.elements, ..Expected::only(Answer::Linked(answer)) }
        }
    }
}

fn link_to_face(link: &model::Link) -> Link {
    let model::Link { length, came, index_end, boot } = *link;
    Link { length, came, index_end, boot }
}

fn link_to_model(link: &Link) -> model::Link {
    let Link { length, came, index_end, boot } = *link;
    model::Link { length, came, index_end, boot }
}
