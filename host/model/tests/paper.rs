//! The paper's "Numbers to hold us to", asked of the model.

use model::{Form, Job, Purpose, Sizes, blank, bootstrap, listed, open, rules, save, step, whole};
use sample::scan;

/// A blank file of this length.
fn blanked(len: usize, n: u64, l: u64, m: u64) -> Vec<u8> {
    let mut file = vec![0; len];
    blank(len as u64, n, l, m).unwrap().apply(&mut file);
    file
}

/// Saves, and answers the records written until the job is confirmed.
fn saved(file: &mut [u8], slot: u64, scan: &[u8]) -> Vec<u64> {
    let mut job: Job = save(file, slot, scan, &[0; 54]).unwrap();
    let mut records = Vec::new();
    loop {
        let stepped = step(file, scan, &job).unwrap();
        if let Some(write) = &stepped.write {
            write.apply(file);
        }
        job = stepped.job;
        match stepped.done {
            model::Done::Wrote(record) => records.push(record),
            model::Done::Saved => return records,
            model::Done::Cleared => panic!("a save is not a clear"),
        }
    }
}

fn list(file: &[u8]) -> Vec<(u64, u64, u64)> {
    listed(file, &open(file).unwrap()).iter().map(|(slot, run)| (*slot, run.first, run.last)).collect()
}

fn number_of<T>(answer: model::Answer<T>) -> u32 {
    answer.err().map_or(0, |why| why.number)
}

#[test]
fn lengths_and_versions() {
    assert_eq!(number_of(open(&[])), 1);
    assert_eq!(number_of(open(&[0; 511])), 1);
    let mut file = blanked(4_096, 3, 512, 64);
    file[31] = 0;
    assert_eq!(number_of(save(&file, 1, &scan(512, 3), &[0; 54])), 2);
    file[31] = 2;
    assert_eq!(number_of(open(&file)), 3);
}

#[test]
fn capacities() {
    let capacity = |n| bootstrap(&blanked(600_000, n, 512, 64)).map(|sizes| sizes.capacity());
    assert_eq!(capacity(129), Ok(1_024));
    assert_eq!(capacity(513), Ok(4_096));
    let mut file = blanked(600_000, 513, 512, 64);
    file[2..4].copy_from_slice(&514u16.to_be_bytes());
    assert_eq!(number_of(open(&file)), 4);
    let mut file = blanked(600_000, 3, 512, 64);
    file[15] = 96;
    assert_eq!(number_of(open(&file)), 4);
}

#[test]
fn homes() {
    let sizes = Sizes { n: 3, d: 0, l: 512, m: 64, u: 0, counter: 0, kind: 0, form: Form::Current };
    assert_eq!((sizes.home_record(8), sizes.home_place(8)), (2, 448));
    assert_eq!((sizes.home_record(9), sizes.home_place(9)), (3, 0));
}

#[test]
fn whole_numbers() {
    assert_eq!(whole(0x4070_0000_0000_0000), Some(256));
    assert_eq!(whole(0x8000_0000_0000_0000), None);
    assert_eq!(whole(0.5f64.to_bits()), None);
    assert_eq!(whole(f64::INFINITY.to_bits()), None);
    assert_eq!(whole(f64::NAN.to_bits()), None);
    assert_eq!(whole(0), Some(0));
}

#[test]
fn the_run() {
    let mut file = blanked(4_096, 3, 512, 64);
    assert_eq!(saved(&mut file, 1, &scan(1_000, 3)), [4, 5, 1, 2]);
    assert_eq!(saved(&mut file, 9, &scan(512, 3)), [6, 1, 3]);
    assert_eq!(saved(&mut file, 1, &scan(1_000, 3)), [7, 8, 1, 2, 4, 5]);
    assert_eq!(list(&file), [(1, 7, 8), (9, 6, 6)]);
    assert_eq!(open(&file).unwrap().u, 9);
    assert_eq!(saved(&mut file, 2, &scan(1_024, 3)), [4, 5, 1, 2]);
    assert_eq!(number_of(save(&file, 3, &scan(512, 3), &[0; 54])), 13);
}

#[test]
fn records_of_a_scan() {
    let mut file = blanked(8_192, 3, 512, 64);
    assert_eq!(saved(&mut file, 1, &scan(1_024, 3)).len(), 2 + 2);
    assert_eq!(saved(&mut file, 2, &scan(1_028, 3)).len(), 3 + 2);
}

#[test]
fn the_rules_in_order() {
    let reason = |scan: &[u8], purpose| rules(scan, purpose).err().map_or(0, |why| why.value);
    let good = scan(512, 3);
    assert_eq!(reason(&good, Purpose::Saving), 0);
    assert_eq!(reason(&good[..255], Purpose::Reading), 1);
    assert_eq!(reason(&[&good[..], &[0; 4]].concat(), Purpose::Reading), 0);
    assert_eq!(reason(&[&good[..], &[0; 4]].concat(), Purpose::Saving), 6);
    let with = |at: usize, bytes: &[u8]| {
        let mut scan = good.clone();
        scan[at..at + bytes.len()].copy_from_slice(bytes);
        scan
    };
    assert_eq!(reason(&with(0, &[0, 12]), Purpose::Reading), 2);
    assert_eq!(reason(&with(2, &[0x80, 5]), Purpose::Reading), 3);
    assert_eq!(reason(&with(26, &[0x80, 0]), Purpose::Reading), 3);
    assert_eq!(reason(&with(32, &248f64.to_be_bytes()), Purpose::Reading), 4);
    assert_eq!(reason(&with(40, &(-0f64).to_be_bytes()), Purpose::Reading), 5);
}
