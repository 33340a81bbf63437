//! A search in a file whose bootstrap is right.

use super::missed::Missed;
use model::{Find, Form, Purpose, Shape, Sizes, rules};

/// So many data records are looked at for what is not found; a file with very many would take long.
const MOST_LOOKED_AT: u64 = 500;

/// A search with its answer, and what was there to be found.
pub struct Seen<'a> {
    number: u32,
    out_len: usize,
    file: &'a [u8],
    sizes: Sizes,
    /// What open answers.
    open: u32,
    /// The runs of a file that opens, in slot order.
    listed: Option<Vec<(u64, u64)>>,
    finds: Vec<Find>,
    missed: Vec<Missed<'a>>,
}

impl<'a> Seen<'a> {
    /// None where the bootstrap is not right.
    pub fn of(number: u32, out_len: usize, file: &'a [u8]) -> Option<Seen<'a>> {
        let sizes = model::bootstrap(file).ok()?;
        let open = model::open(file).err().map_or(0, |why| why.number);
        let runs = || model::listed(file, &sizes).iter().map(|(_, run)| (run.first, run.last)).collect();
        let listed = (open == 0).then(runs);
        let finds = model::finds(file, &sizes);
        let mut seen = Seen { number, out_len, file, sizes, open, listed, finds, missed: Vec::new() };
        seen.missed = seen.looked_at().filter_map(|record| seen.missed_at(record)).collect();
        Some(seen)
    }

    /// The first data records, but for those that lie inside a find.
    fn looked_at(&self) -> impl Iterator<Item = u64> {
        let Sizes { n, d, .. } = self.sizes;
        let inside = |record: &u64| self.finds.iter().any(|find| find.first < *record && *record <= find.last);
        (n + 1..=n + d.min(MOST_LOOKED_AT)).filter(move |record| !inside(record))
    }

    fn missed_at(&self, record: u64) -> Option<Missed<'a>> {
        let run = self.run(record);
        let rule = rules(run, Purpose::Reading).err()?.value;
        Some(Missed { record, run, rule })
    }

    /// Where a record begins.
    fn at(&self, record: u64) -> usize {
        ((record - 1) * self.sizes.l) as usize
    }

    /// From a record to the end of the data section.
    fn run(&self, record: u64) -> &'a [u8] {
        &self.file[self.at(record)..self.at(self.sizes.n + self.sizes.d + 1)]
    }

    /// What a run says of itself where it is a scan.
    fn shape(&self, record: u64) -> Option<Shape> {
        rules(self.run(record), Purpose::Reading).ok()
    }

    /// The last record by these lengths of a scan from this record on.
    fn last(&self, record: u64, shape: &Shape) -> u64 {
        record + (shape.head + shape.data).div_ceil(self.sizes.l) - 1
    }

    fn taken(&self) -> bool {
        self.number == 0
    }

    /// Something found in a file of which open answers this.
    pub fn found_where_open_is(&self, number: u32) -> bool {
        self.found() && self.open == number
    }

    pub fn found(&self) -> bool {
        self.taken() && !self.finds.is_empty()
    }

    pub fn found_in(&self, such: fn(&Sizes) -> bool) -> bool {
        self.found() && such(&self.sizes)
    }

    pub fn found_nothing(&self, such: fn(&Sizes) -> bool) -> bool {
        self.taken() && self.finds.is_empty() && such(&self.sizes)
    }

    /// The runs of a file that opens, where it was searched.
    fn listed(&self) -> &[(u64, u64)] {
        self.listed.as_deref().filter(|_| self.taken()).unwrap_or(&[])
    }

    fn found_runs(&self) -> Vec<(u64, u64)> {
        self.finds.iter().map(|find| (find.first, find.last)).collect()
    }

    /// A find in a file that opens, at a record at which no listed scan begins.
    pub fn found_unlisted(&self) -> bool {
        let is_listed = |find: &Find| self.listed().iter().any(|(first, _)| *first == find.first);
        self.found_where_open_is(0) && !self.finds.iter().all(is_listed)
    }

    /// A find whose last record and that of the listed scan that begins there are such ones.
    pub fn found_other_last(&self, such: fn(u64, u64) -> bool) -> bool {
        let differs = |find: &Find| self.listed().iter().any(|run| run.0 == find.first && such(find.last, run.1));
        self.finds.iter().any(differs)
    }

    /// "a file that opens, whose free records are all zeros and whose scans all obey the rules and fill exactly their
    /// records": the runs that it lists are those that are found. Asked of two or more, whose firsts are such in slot
    /// order.
    pub fn found_listed(&self, such: fn(&[u64]) -> bool) -> bool {
        let mut runs = self.listed().to_vec();
        let firsts: Vec<u64> = runs.iter().map(|(first, _)| *first).collect();
        runs.sort_unstable();
        firsts.len() > 1
            && such(&firsts)
            && self.found_runs() == runs
            && runs.iter().all(|run| self.fills_exactly(*run))
            && model::gaps_zero(self.file) == Ok(true)
    }

    /// Whether the records of a listed scan obey the rules and are just those that its lengths ask for.
    fn fills_exactly(&self, (first, last): (u64, u64)) -> bool {
        let own = &self.file[self.at(first)..self.at(last + 1)];
        rules(own, Purpose::Reading).is_ok_and(|shape| self.last(first, &shape) == last)
    }

    /// A find where an entry of an old file begins that says another magic than 2.
    pub fn found_another_magic(&self) -> bool {
        let Sizes { l, m, form, .. } = self.sizes;
        let half = |at: usize| u64::from(u16::from_be_bytes([self.file[at], self.file[at + 1]]));
        let entries = (0..self.sizes.capacity()).map(|slot| (l + slot * m) as usize);
        let mut others = entries.filter(|at| half(at + 4) != 2).map(half);
        self.taken() && form == Form::Old && others.any(|first| self.finds.iter().any(|find| find.first == first))
    }

    /// Such a find.
    pub fn any(&self, such: fn(&Sizes, &Find) -> bool) -> bool {
        self.taken() && self.finds.iter().any(|find| such(&self.sizes, find))
    }

    /// Two finds with so many records between.
    pub fn apart(&self, records: u64) -> bool {
        self.taken() && self.finds.windows(2).any(|two| two[0].last + records + 1 == two[1].first)
    }

    /// Such a find, by L, HEADLEN and DATALEN.
    pub fn of_lengths(&self, such: fn(u64, u64, u64) -> bool) -> bool {
        let mut shapes = self.finds.iter().filter_map(|find| self.shape(find.first));
        self.taken() && shapes.any(|shape| such(self.sizes.l, shape.head, shape.data))
    }

    /// A find so many bytes longer than a number of records, or shorter.
    pub fn longer_than_records_by(&self, bytes: i64) -> bool {
        let l = self.sizes.l as i64;
        let mut shapes = self.finds.iter().filter_map(|find| self.shape(find.first));
        self.taken() && shapes.any(|shape| ((shape.head + shape.data) as i64 - bytes).rem_euclid(l) == 0)
    }

    /// Whether from the index's last record on there stands a scan.
    pub fn scan_in_record_n(&self) -> bool {
        self.taken() && self.shape(self.sizes.n).is_some()
    }

    /// Whether from the first record past the data section on there stands a scan.
    pub fn scan_past_the_data(&self) -> bool {
        let tail = &self.file[self.at(self.sizes.n + self.sizes.d + 1)..];
        self.taken() && rules(tail, Purpose::Reading).is_ok()
    }

    /// A scan from a record inside a find on, whose own last and the find's are such ones.
    pub fn inside(&self, such: fn(u64, u64) -> bool) -> bool {
        let is_inside = |find: &Find, record: u64| {
            self.shape(record).is_some_and(|shape| such(self.last(record, &shape), find.last))
        };
        self.taken() && self.finds.iter().any(|find| (find.first + 1..=find.last).any(|record| is_inside(find, record)))
    }

    /// A find right after a record that breaks this rule first.
    pub fn found_after(&self, rule: u32) -> bool {
        let is_found = |record: u64| self.finds.iter().any(|find| find.first == record);
        self.taken() && self.missed.iter().any(|missed| missed.rule == rule && is_found(missed.record + 1))
    }

    /// Such a record that is no find.
    pub fn missed(&self, such: fn(&Missed) -> bool) -> bool {
        self.taken() && self.missed.iter().any(such)
    }

    /// A record that breaks this rule for the end of the data section alone: all that is lent would be a scan.
    pub fn past_the_data(&self, rule: u32) -> bool {
        let whole = |missed: &Missed| rules(&self.file[self.at(missed.record)..], Purpose::Reading).is_ok();
        self.taken() && self.missed.iter().any(|missed| missed.rule == rule && whole(missed))
    }

    /// A search answered with this number, whose row has such a number of elements beside those that it fills.
    pub fn row(&self, number: u32, such: fn(usize, usize) -> bool) -> bool {
        self.number == number && such(self.out_len, 3 * self.finds.len())
    }
}
