//! The calls that are measured, as the library and plain Rust make them.

use crate::file::{File, Fill, M};
use crate::link::{Lending, Part, Piece};
use crate::map::Map;
use face::{Answer, Calls, Job, Listed, Opened, Refusal, Stepped};
use std::fmt;
use std::hint::black_box;
use std::ops::Range;
use std::ptr::null;

/// What the entry of a saved scan holds after its first and last record.
const ABOUT: [u8; 54] = [3; 54];

/// One call, or a whole job with all its steps.
#[derive(Clone, Copy, Debug, PartialEq, Eq)]
pub enum Call {
    Open,
    List,
    Entry,
    Show,
    Read,
    /// The last class of the scan, and its data.
    Class,
    Data,
    /// Whether the data records of no scan are zeros: they are, so all of them are looked at.
    Gaps,
    /// The scans in the data records, which hold this, without the index.
    Find(Fill),
    Blank,
    /// The beginning of a save of so many bytes to the last slot.
    BeginSave(usize),
    BeginKeep(usize),
    BeginClear,
    /// A save of so many bytes to the last slot, from its beginning to Saved.
    Save(usize),
    /// The same to the slot after those in use: for U the empty slots above it are looked at.
    SaveNext(usize),
    /// The same to the slot in the middle of those in use: its old scan is zeroed at the end.
    Replace(usize),
    /// A clear of the last slot, which holds a scan of so many bytes. It is the highest, so U is lowered by a third write;
    /// then come the zeros.
    Clear(usize),
    /// A clear of the slot in the middle of those in use: two writes, and the zeros.
    ClearMiddle,
    /// Bootstrap and index into a second buffer of N records, in the current form or in the old one.
    ToCurrent,
    ToOld,
    /// The verdict on what comes in pieces of 512 bytes, from its beginning to its end.
    Link(Part),
    /// One piece of it.
    Take(Piece),
}

impl Call {
    /// Whether it is a conversion.
    pub fn is_move(self) -> bool {
        matches!(self, Call::ToCurrent | Call::ToOld)
    }

    /// Whether it is a whole save.
    pub fn saves(self) -> bool {
        matches!(self, Call::Save(_) | Call::SaveNext(_) | Call::Replace(_))
    }

    /// Whether it is a whole job.
    pub fn is_job(self) -> bool {
        self.saves() || matches!(self, Call::Clear(_) | Call::ClearMiddle)
    }
}

impl fmt::Display for Call {
    fn fmt(&self, f: &mut fmt::Formatter) -> fmt::Result {
        match self {
            Call::Open => f.write_str("open"),
            Call::List => f.write_str("list"),
            Call::Entry => f.write_str("entry"),
            Call::Show => f.write_str("show"),
            Call::Read => f.write_str("read"),
            Call::Class => f.write_str("class"),
            Call::Data => f.write_str("data"),
            Call::Gaps => f.write_str("gaps"),
            Call::Find(Fill::Zeros) => f.write_str("find in zeros"),
            Call::Find(Fill::Scans) => f.write_str("find scans"),
            Call::Find(Fill::Junk) => f.write_str("find in junk"),
            Call::Find(Fill::Broken) => f.write_str("find in broken scans"),
            Call::Blank => f.write_str("blank"),
            Call::BeginSave(bytes) => write!(f, "begin save {bytes}"),
            Call::BeginKeep(bytes) => write!(f, "begin keep {bytes}"),
            Call::BeginClear => f.write_str("begin clear"),
            Call::Save(bytes) => write!(f, "save {bytes}"),
            Call::SaveNext(bytes) => write!(f, "save next {bytes}"),
            Call::Replace(bytes) => write!(f, "save replacing {bytes}"),
            Call::Clear(bytes) => write!(f, "clear {bytes}"),
            Call::ClearMiddle => f.write_str("clear middle"),
            Call::ToCurrent => f.write_str("to_current"),
            Call::ToOld => f.write_str("to_old"),
            Call::Link(part) => part.fmt(f),
            Call::Take(piece) => piece.fmt(f),
        }
    }
}

/// A file with what its calls need, lent to one side at a time.
pub struct Stage {
    pub file: File,
    pub scan: Vec<u8>,
    out: Vec<u32>,
    /// The row of a search: no file here has more scans.
    finds: Vec<u64>,
    /// The second buffer of a conversion, which has N records; of any other call it is not used.
    pub second: Map,
    /// What the verdict on pieces works in.
    pub lending: Lending,
    /// The slot of a job.
    slot: usize,
    /// Record 1 and that slot's entry, as they are before the job.
    boot: [u8; 32],
    entry: [u8; M],
    /// The records of the scan that the slot has then; none where it is empty.
    pub old: Range<usize>,
}

impl Stage {
    /// The file as the call finds it.
    pub fn new(file: File, call: Call) -> Stage {
        let bytes = match call {
            Call::BeginSave(bytes) | Call::BeginKeep(bytes) => bytes,
            Call::Save(bytes) | Call::SaveNext(bytes) | Call::Replace(bytes) | Call::Clear(bytes) => bytes,
            _ => 512,
        };
        let second = Map::new(file.plan.n() * file.plan.l());
        let (scan, out) = (sample::scan(bytes, 9), vec![0; 3 * 4096]);
        let slot = match call {
            Call::ClearMiddle | Call::Replace(_) => file.middle(),
            Call::SaveNext(_) => file.plan.used + 1,
            _ => file.plan.slots,
        };
        let (finds, lending) = (vec![0; 3 * 4096], Lending::at_start());
        let (boot, entry) = ([0; 32], [0; M]);
        let mut stage = Stage { file, scan, out, finds, second, lending, slot, boot, entry, old: 0..0 };
        if matches!(call, Call::Clear(_)) {
            let saved = stage.save(&plain::calls());
            assert!(saved.done == 1, "no scan to clear: {:?}", saved.why);
        }
        if call == Call::Gaps {
            stage.file.touch_gaps();
        }
        if let Call::Find(what) = call {
            stage.file.fill(what);
        }
        if let Call::Take(piece) = call {
            stage.lending.come_to(&stage.file, piece);
        }
        if call.is_job() {
            stage.old = stage.file.records(stage.slot);
        }
        let home = stage.home();
        let bytes = stage.file.map.bytes();
        stage.boot.copy_from_slice(&bytes[..32]);
        stage.entry.copy_from_slice(&bytes[home..home + M]);
        stage
    }

    fn slot(&self) -> u64 {
        self.slot as u64
    }

    /// Where the entry of a job's slot begins.
    fn home(&self) -> usize {
        self.file.plan.home(self.slot)
    }

    /// Makes the call once. A job is undone again: two copies of 96 bytes, for either side. What it has zeroed stays so,
    /// since to write zeros costs the same whatever was there.
    pub fn make(&mut self, calls: &Calls, call: Call) {
        let (at, len) = (self.file.map.pointer(), self.file.map.size());
        let (scan, scan_len) = (self.scan.as_ptr(), self.scan.len());
        let middle = self.file.middle() as u64;
        let [n, l, m] = [self.file.plan.n(), self.file.plan.l(), self.file.plan.m].map(|size| size as u64);
        // SAFETY: every pointer comes with the length of memory that this stage owns.
        unsafe {
            match call {
                Call::Open => _ = black_box((calls.open)(at, len)),
                Call::List => _ = black_box((calls.list)(at, len, self.out.as_mut_ptr(), self.out.len())),
                Call::Entry => _ = black_box((calls.entry_at)(at, len, middle)),
                Call::Show => _ = black_box((calls.show)(at, len, middle)),
                Call::Read => _ = black_box((calls.read)(at, len, middle)),
                Call::Class => _ = black_box((calls.class)(scan, scan_len, 13)),
                Call::Data => _ = black_box((calls.data)(scan, scan_len)),
                Call::Gaps => _ = black_box((calls.gaps_zero)(at, len)),
                Call::Find(_) => _ = black_box((calls.find)(at, len, self.finds.as_mut_ptr(), self.finds.len())),
                Call::Blank => _ = black_box((calls.blank)(at, len, n, l, m)),
                Call::BeginSave(_) => {
                    black_box((calls.save)(at, len, self.slot(), scan, scan_len, ABOUT.as_ptr()));
                }
                Call::BeginKeep(_) => _ = black_box((calls.keep)(at, len, scan, scan_len, ABOUT.as_ptr())),
                Call::BeginClear => _ = black_box((calls.clear)(at, len, middle)),
                Call::Save(_) | Call::SaveNext(_) | Call::Replace(_) => {
                    black_box(self.save(calls));
                    self.undo();
                }
                Call::Clear(_) | Call::ClearMiddle => {
                    black_box(self.clear(calls));
                    self.undo();
                }
                Call::ToCurrent | Call::ToOld => _ = black_box(self.convert(calls, call)),
                Call::Link(part) => _ = black_box(self.lending.judge(calls, &self.file, part)),
                Call::Take(_) => _ = black_box(self.lending.take_piece(calls, &self.file)),
            }
        }
    }

    /// A conversion into the second buffer.
    fn convert(&mut self, calls: &Calls, call: Call) -> Refusal {
        let (at, len) = (self.file.map.pointer(), self.file.map.size());
        let convert = if call == Call::ToCurrent { calls.to_current } else { calls.to_old };
        // SAFETY: as in `make`.
        unsafe { convert(at, len, self.second.pointer(), self.second.size()) }
    }

    /// What a conversion writes; it has to be accepted.
    pub fn converted(&mut self, calls: &Calls, call: Call) -> Vec<u8> {
        self.second.bytes().fill(0xa5);
        let why = self.convert(calls, call);
        assert!(why.number == 0, "{call} refused: {why:?}");
        self.second.bytes().to_vec()
    }

    /// What an open answers.
    pub fn opened(&self, calls: &Calls) -> Opened {
        // SAFETY: as in `make`.
        unsafe { (calls.open)(self.file.map.pointer(), self.file.map.size()) }
    }

    /// What is answered of the gaps.
    pub fn asked(&self, calls: &Calls) -> Answer {
        // SAFETY: as in `make`.
        unsafe { (calls.gaps_zero)(self.file.map.pointer(), self.file.map.size()) }
    }

    /// What a search answers, and the row that it leaves.
    pub fn found(&mut self, calls: &Calls) -> (Listed, Vec<u64>) {
        self.finds.fill(7);
        let (at, len) = (self.file.map.pointer(), self.file.map.size());
        // SAFETY: as in `make`.
        let listed = unsafe { (calls.find)(at, len, self.finds.as_mut_ptr(), self.finds.len()) };
        (listed, self.finds.clone())
    }

    /// A save from its beginning to its last step's answer.
    pub fn save(&mut self, calls: &Calls) -> Stepped {
        let job = self.begin_save(calls);
        self.steps(calls, job, self.scan.as_ptr(), self.scan.len())
    }

    fn begin_save(&self, calls: &Calls) -> Job {
        let (at, len) = (self.file.map.pointer(), self.file.map.size());
        let (scan, scan_len) = (self.scan.as_ptr(), self.scan.len());
        // SAFETY: as in `make`.
        let begun = unsafe { (calls.save)(at, len, self.slot(), scan, scan_len, ABOUT.as_ptr()) };
        assert!(begun.why.number == 0, "save refused: {:?}", begun.why);
        begun.job
    }

    /// The steps of a save that has been begun: each of them, without the beginning.
    pub fn steps_of_save(&mut self, calls: &Calls) -> impl FnMut() {
        let job = self.begin_save(calls);
        let calls = *calls;
        move || _ = self.steps(&calls, job, self.scan.as_ptr(), self.scan.len())
    }

    /// A clear, in the same way.
    pub fn clear(&mut self, calls: &Calls) -> Stepped {
        let job = self.begin_clear(calls);
        self.steps(calls, job, null(), 0)
    }

    fn begin_clear(&self, calls: &Calls) -> Job {
        // SAFETY: as in `make`.
        let begun = unsafe { (calls.clear)(self.file.map.pointer(), self.file.map.size(), self.slot()) };
        assert!(begun.why.number == 0, "clear refused: {:?}", begun.why);
        begun.job
    }

    /// The steps of a clear that has been begun.
    pub fn steps_of_clear(&mut self, calls: &Calls) -> impl FnMut() {
        let job = self.begin_clear(calls);
        let calls = *calls;
        move || _ = self.steps(&calls, job, null(), 0)
    }

    /// A whole job: its last answer, and what it leaves of record 1, of its entry and of the old scan. It is undone again.
    pub fn done(&mut self, calls: &Calls, call: Call) -> (Stepped, Vec<u8>) {
        let old = self.old.clone();
        self.file.map.bytes()[old.clone()].fill(0xa5);
        let stepped = if call.saves() { self.save(calls) } else { self.clear(calls) };
        let home = self.home();
        let bytes = self.file.map.bytes();
        let left = [&bytes[..32], &bytes[home..home + M], &bytes[old]].concat();
        self.undo();
        (stepped, left)
    }

    fn steps(&mut self, calls: &Calls, mut job: Job, scan: *const u8, scan_len: usize) -> Stepped {
        let (at, len) = (self.file.map.pointer(), self.file.map.size());
        loop {
            // SAFETY: as in `make`.
            let stepped = unsafe { (calls.step)(at, len, scan, scan_len, job) };
            assert!(stepped.why.number == 0, "step refused: {:?}", stepped.why);
            if stepped.done != 0 {
                return stepped;
            }
            job = stepped.job;
        }
    }

    fn undo(&mut self) {
        let home = self.home();
        let (boot, entry) = (self.boot, self.entry);
        let bytes = self.file.map.bytes();
        bytes[..32].copy_from_slice(&boot);
        bytes[home..home + M].copy_from_slice(&entry);
    }

    /// The first record that a save of this stage's scan would take.
    pub fn free_place(&mut self, calls: &Calls) -> usize {
        let (at, len) = (self.file.map.pointer(), self.file.map.size());
        // SAFETY: as in `make`.
        let begun = unsafe { (calls.save)(at, len, self.slot(), self.scan.as_ptr(), self.scan.len(), ABOUT.as_ptr()) };
        begun.job.first as usize
    }
}
