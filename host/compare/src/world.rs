//! A file, a scan and an entry's bytes, on which model and subject are asked the same.

use crate::call::{Answer, Call, Expected, Lent};
use crate::cases::shape::{Form, get32};
use crate::rng::Rng;
use crate::tally::Tally;
use face::{Begun, Job, Link, Stepped};
use model::About;

/// What is compared with the model: something with the library's face, on memory of its own.
pub trait Subject {
    /// Has a new file of so many zeros.
    fn new_file(&mut self, len: usize, rng: &mut Rng);
    /// Has these bytes at this place of its file.
    fn patch_file(&mut self, at: usize, bytes: &[u8]);
    /// Has a new scan.
    fn new_scan(&mut self, scan: &[u8], rng: &mut Rng);
    /// Has new bytes for the entry.
    fn new_about(&mut self, about: &About, rng: &mut Rng);
    /// Has a new second buffer.
    fn new_second(&mut self, second: &[u8], rng: &mut Rng);
    /// Has a new piece of a file, to be taken over the link.
    fn new_piece(&mut self, piece: &[u8], rng: &mut Rng);
    /// Has a new working row.
    fn new_working(&mut self, working: &[u32], rng: &mut Rng);
    /// Makes the call; what the world holds is what memory should then be.
    fn call(&mut self, call: &Call, expected: &Expected, held: &Lent) -> Result<(), String>;
    /// Whether all of the file is as it should be, also where a call looks at a part of it alone.
    fn whole_file(&mut self, file: &[u8]) -> Result<(), String>;
}

/// A call on which subject and model differ.
#[derive(Debug)]
pub struct Disagreement {
    /// What differs, in words.
    pub what: String,
}

/// What a theme's round answers.
pub type Round<T = ()> = Result<T, Disagreement>;

/// The model's side of the comparison, and the subject beside it.
pub struct World<'a> {
    subject: &'a mut dyn Subject,
    /// The generator; a theme takes its chances from it.
    pub rng: Rng,
    /// The file as it should be.
    pub file: Vec<u8>,
    /// The form that the file was made in, whatever became of it.
    form: Form,
    /// The scan that is lent.
    pub scan: Vec<u8>,
    about: About,
    /// The second buffer, as it should be.
    pub second: Vec<u8>,
    piece: Vec<u8>,
    /// The working row of a verdict over the link, as it should be.
    pub working: Vec<u32>,
    /// What was reached.
    pub tally: Tally,
}

impl<'a> World<'a> {
    /// An empty one.
    pub fn new(subject: &'a mut dyn Subject, seed: u64) -> World<'a> {
        let mut world = World {
            subject,
            rng: Rng::new(seed),
            file: Vec::new(),
            form: Form::Current,
            scan: Vec::new(),
            about: [0; 54],
            second: Vec::new(),
            piece: Vec::new(),
            working: Vec::new(),
            tally: Tally::default(),
        };
        world.set_file(Vec::new());
        world.set_scan(Vec::new());
        world.set_about([0; 54]);
        world.set_second(Vec::new());
        world.set_piece(Vec::new());
        world.set_working(Vec::new());
        world
    }

    /// Takes a new file of the current form.
    pub fn set_file(&mut self, file: Vec<u8>) {
        self.set_file_of(Form::Current, file);
    }

    /// Takes a new file, made in this form.
    pub fn set_file_of(&mut self, form: Form, file: Vec<u8>) {
        self.subject.new_file(file.len(), &mut self.rng);
        self.subject.patch_file(0, &file);
        self.file = file;
        self.form = form;
    }

    /// Takes a new file of zeros to make one of this form in, which may be far larger than memory.
    pub fn set_zeros(&mut self, form: Form, len: usize) {
        self.subject.new_file(len, &mut self.rng);
        self.file = vec![0; len];
        self.form = form;
    }

    /// Puts bytes into the file.
    pub fn patch(&mut self, at: usize, bytes: &[u8]) {
        self.subject.patch_file(at, bytes);
        self.file[at..at + bytes.len()].copy_from_slice(bytes);
    }

    /// Puts bootstrap and index of this form in the place of the file's own; its data stay.
    pub fn put_index(&mut self, form: Form, records: &[u8]) {
        self.patch(0, records);
        self.form = form;
    }

    /// Takes a new scan.
    pub fn set_scan(&mut self, scan: Vec<u8>) {
        self.subject.new_scan(&scan, &mut self.rng);
        self.scan = scan;
    }

    /// Takes new bytes for the entry.
    pub fn set_about(&mut self, about: About) {
        self.subject.new_about(&about, &mut self.rng);
        self.about = about;
    }

    /// Takes a new second buffer.
    pub fn set_second(&mut self, second: Vec<u8>) {
        self.subject.new_second(&second, &mut self.rng);
        self.second = second;
    }

    /// Takes a new piece of a file.
    fn set_piece(&mut self, piece: Vec<u8>) {
        self.subject.new_piece(&piece, &mut self.rng);
        self.piece = piece;
    }

    /// Takes a new working row.
    pub fn set_working(&mut self, working: Vec<u32>) {
        self.subject.new_working(&working, &mut self.rng);
        self.working = working;
    }

    /// Makes a call of both sides, and compares answers and memory.
    pub fn call(&mut self, call: Call) -> Round<Answer> {
        let World { subject, file, form, scan, about, second, piece, working, tally, .. } = self;
        let expected = Expected::of(&call, &Lent { file, scan, about, second, piece, working });
        if let Some(write) = &expected.write {
            write.apply(file);
        }
        if let Some(write) = &expected.converted {
            write.apply(second);
        }
        expected.worked.iter().for_each(|(at, element)| working[*at] = *element);
        let held = Lent { file, scan, about, second, piece, working };
        tally.count(&call, &expected.answer, is_old(*form, file), &held);
        subject.call(&call, &expected, &held).map_err(|what| Disagreement { what: format!("{call:?}\n  {what}") })?;
        Ok(expected.answer)
    }

    /// Compares the whole file.
    pub fn whole_file(&mut self) -> Round {
        self.subject.whole_file(&self.file).map_err(|what| Disagreement { what })
    }

    /// A save, keep or clear: the job where it is accepted.
    pub fn begin(&mut self, call: Call) -> Round<Option<Job>> {
        match self.call(call)? {
            Answer::Begun(Begun { why, job }) => Ok((why.number == 0).then_some(job)),
            _ => unreachable!("only a save, keep or clear begins a job"),
        }
    }

    /// A step; the job moves on.
    pub fn step(&mut self, job: &mut Job) -> Round<Stepped> {
        match self.call(Call::Step { job: *job })? {
            Answer::Stepped(stepped) => {
                *job = stepped.job;
                Ok(stepped)
            }
            _ => unreachable!("a step answers a step"),
        }
    }

    /// Begins a verdict over the link, of a file of so many bytes.
    pub fn link_begin(&mut self, length: u64) -> Round<Link> {
        self.linked(Call::LinkBegin { length })
    }

    /// Takes a piece; the link moves on.
    pub fn link_take(&mut self, link: &mut Link, piece: &[u8]) -> Round {
        self.set_piece(piece.to_vec());
        *link = self.linked(Call::LinkTake { link: *link })?;
        Ok(())
    }

    fn linked(&mut self, call: Call) -> Round<Link> {
        match self.call(call)? {
            Answer::Linked(linked) => Ok(linked.link),
            _ => unreachable!("a beginning and a piece answer a link"),
        }
    }
}

/// Whether a file was made in the old form and is not by damage one of the current form.
fn is_old(form: Form, file: &[u8]) -> bool {
    form == Form::Old && (file.len() < 512 || get32(file, 28) != 1)
}
