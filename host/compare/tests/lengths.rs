//! Every length that the library reads is what the machine's own doubles say it is, on more than ten million of them.

use compare::{lengths, seed_from_environment};
use face::Calls;
use plain::wrong_lines;

/// How many lengths there are up to 65,536: multiples of 8 for HEADLEN, from 256 on in this scan, and of 4 for DATALEN.
const HEADS: usize = (65_536 - 256) / 8 + 1;
const DATAS: usize = 65_536 / 4 + 1;

fn agree(name: &str, calls: &Calls) {
    let seed = seed_from_environment();
    println!("{name}: RINZO_SEED={seed}");
    let tried = lengths(calls, seed).unwrap_or_else(|what| panic!("{name} and the machine's doubles differ: {what}"));
    let (heads, datas) = (tried.heads.len(), tried.datas.len());
    println!("{name}: {} doubles as HEADLEN, with {heads} lengths, and as DATALEN, with {datas}", tried.doubles);
    assert!(tried.doubles >= 10_000_000);
    assert_eq!((heads, datas), (HEADS, DATAS), "each length that there is comes");
}

#[test]
fn the_library_reads_lengths_as_the_machines_doubles_have_them() {
    agree("library", &sdd::calls());
}

#[test]
fn the_plain_stand_in_does_too() {
    agree("plain", &plain::calls());
}

#[test]
fn wrong_lengths_are_noticed() {
    let seed = seed_from_environment();
    let about = ["minus zero is a length", "a length's fraction is dropped", "HEADLEN may be", "DATALEN may be"];
    let wrong = wrong_lines();
    let wrong: Vec<_> = wrong.iter().filter(|wrong| about.iter().any(|words| wrong.what.starts_with(words))).collect();
    assert_eq!(wrong.len(), 6);
    for wrong in wrong {
        let noticed = lengths(&wrong.calls(), seed).err();
        println!("  {:>3} {}: {}", wrong.number, wrong.what, noticed.as_deref().unwrap_or("not noticed"));
        assert!(noticed.is_some(), "{}", wrong.what);
    }
}
