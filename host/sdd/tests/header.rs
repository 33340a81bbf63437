//! The C headers say what the crate says: constants, stack, the 54 bytes and the sentences.

use sdd::{About, Real4, Real8, Refusal, Rule};
use std::collections::BTreeMap;
use std::path::{Path, PathBuf};
use std::process::Command;

fn root() -> PathBuf {
    Path::new(env!("CARGO_MANIFEST_DIR")).join("../..").canonicalize().unwrap()
}

/// Every refusal, each rule of 11 included.
fn refusals() -> Vec<Refusal> {
    use Refusal::*;
    use Rule::*;
    let rules = [Length, Classes, Starts, Head, Data, Whole].map(BadScan);
    let before = [TooShort, OldForm, UnknownVersion, BadBootstrap, CutShort];
    let slots = [BadEntry(5), EntryAboveUsed(6), SharedRecord(7), NoSuchSlot, EmptySlot];
    let after = [NoEmptySlot, NoRoom, JobDisagrees, NotConfirmed, BadSizes, AnswerTooLong];
    let later = [NotVersionOne, NotConvertible, NotAllCame];
    [&before[..], &slots, &rules, &after, &later].concat()
}

/// `NoSuchSlot` as the header writes it.
fn c_name(refusal: Refusal) -> String {
    let name = format!("{refusal:?}");
    let name = name.split('(').next().unwrap();
    let parts = name.chars().map(|c| if c.is_uppercase() { format!("_{c}") } else { c.to_uppercase().to_string() });
    format!("SDD{}", parts.collect::<String>())
}

/// The constants of the header: `NAME = number` in its enums, and `#define NAME number` with a product at most.
fn constants() -> BTreeMap<String, usize> {
    let header = std::fs::read_to_string(root().join("include/sdd.h")).unwrap();
    let number = |text: &str| {
        text.trim_matches(['(', ')']).split(" * ").map(|n| n.parse::<usize>().ok()).product::<Option<usize>>()
    };
    let in_enum = header
        .split([',', '{', '\n'])
        .filter_map(|part| part.trim().trim_end_matches([' ', '}', ';']).split_once(" = "));
    let defined = header.lines().filter_map(|line| line.strip_prefix("#define ")?.split_once(' '));
    in_enum.chain(defined).filter_map(|(name, text)| Some((name.to_string(), number(text.trim())?))).collect()
}

#[test]
fn the_header_names_every_number() {
    let mut wanted: BTreeMap<String, usize> =
        refusals().into_iter().map(|refusal| (c_name(refusal), refusal.number() as usize)).collect();
    assert_eq!(wanted.len(), 20);
    use sdd::numbers::{done, kind, version};
    wanted.extend(
        [("OLD", version::OLD), ("CURRENT", version::CURRENT)]
            .map(|(name, number)| (format!("SDD_{name}"), number as usize)),
    );
    wanted.extend(
        [("WROTE", done::WROTE), ("SAVED", done::SAVED), ("CLEARED", done::CLEARED)]
            .map(|(name, number)| (format!("SDD_{name}"), number as usize)),
    );
    wanted.extend(
        [("OTHER", kind::OTHER), ("CONTINUUM", kind::CONTINUUM), ("SPECTRAL_LINE", kind::SPECTRAL_LINE)]
            .map(|(name, number)| (format!("SDD_{name}"), number as usize)),
    );
    wanted.extend(sdd::stack::ALL.map(|(name, bytes)| (format!("SDD_STACK_{}", name.to_uppercase()), bytes)));
    wanted.insert("SDD_STACK".to_string(), sdd::stack::MOST);
    wanted.insert("SDD_ABOUT".to_string(), About::default().bytes().len());
    wanted.insert("SDD_LINK_ROW".to_string(), 2 * 4_096);
    assert_eq!(constants(), wanted);
}

/// Each field's first and last byte in a comment's line, as ` *   24 to 27  scan number (Real*4)`, and its words.
fn field(line: &str) -> Option<(usize, usize, &str)> {
    let (first, rest) = line.strip_prefix(" * ")?.trim_start().split_once(" to ")?;
    let (last, words) = rest.trim_start().split_once("  ")?;
    Some((first.parse().ok()?, last.parse().ok()?, words))
}

#[test]
fn the_header_has_the_layout_of_the_54_bytes() {
    let header = std::fs::read_to_string(root().join("include/sdd.h")).unwrap();
    let about = header.split("/* `about`").nth(1).and_then(|rest| rest.split("#define SDD_ABOUT").next()).unwrap();
    let fields: Vec<(usize, usize, &str)> = about.lines().filter_map(field).collect();
    assert_eq!(fields.len(), 11);
    assert_eq!((fields[0].0, fields[10].1), (0, 53));
    assert!(fields.windows(2).all(|pair| pair[0].1 + 1 == pair[1].0), "{fields:?}");
    let names =
        ["horizontal", "vertical", "source", "scan", "spectral", "spectral", "LST", "UT", "mode", "record", "position"];
    assert!(fields.iter().zip(names).all(|((_, _, words), name)| words.starts_with(name)), "{fields:?}");
    assert_eq!((about_at(24).scan.bits(), about_at(32).field8.bits()), (1 << 24, 1 << 56));
    assert_eq!((about_at(48).mode, about_at(50).number, about_at(52).position), (256, 256, 256));
}

/// The fields of 54 bytes of which one is 1.
fn about_at(at: usize) -> About {
    let mut bytes = [0; 54];
    bytes[at] = 1;
    About::of(&bytes)
}

/// A program that prints, for lines of numbers, what the plain header makes of them.
const PROGRAM: &str = r#"
#include "sdd_plain.h"
#include <stdio.h>
int main(void) {
  uint8_t bytes[SDD_ABOUT], again[SDD_ABOUT];
  sdd_about about = {sdd_real4(1.5f), 2, "", 4, 5, sdd_real8(-2.25), 7, 8, -9, 10, -11};
  unsigned number, value, i, same = 1;
  if (!sdd_named(&about, "ORION A") || sdd_named(&about, "seventeen letters") || !sdd_named(&about, "sixteen letters!")) return 1;
  sdd_about_put(&about, bytes);
  for (i = 0; i < SDD_ABOUT; i++) printf("%02x", bytes[i]);
  about = sdd_about_get(bytes);
  sdd_about_put(&about, again);
  for (i = 0; i < SDD_ABOUT; i++) same &= bytes[i] == again[i];
  printf(" %u\n", same);
  while (scanf("%u %u", &number, &value) == 2) {
    sdd_refusal why = {number, value};
    printf("%s\n", sdd_sentence(why));
  }
  return 0;
}
"#;

/// What the program prints of these refusals.
fn printed(refusals: &[Refusal]) -> Vec<String> {
    let folder = Path::new(env!("CARGO_TARGET_TMPDIR"));
    let (source, program, numbers) = (folder.join("plain.c"), folder.join("plain"), folder.join("plain.numbers"));
    std::fs::write(&source, PROGRAM).unwrap();
    let lines = refusals.iter().map(|refusal| format!("{} {}\n", refusal.number(), refusal.value()));
    std::fs::write(&numbers, lines.collect::<String>()).unwrap();
    let mut cc = Command::new("cc");
    cc.args(["-std=c99", "-Wall", "-Wextra", "-Werror", "-I"]).arg(root().join("include"));
    let built = cc.arg("-o").arg(&program).arg(&source).output().unwrap();
    assert!(built.status.success(), "{}", String::from_utf8_lossy(&built.stderr));
    let output = Command::new(&program).stdin(std::fs::File::open(&numbers).unwrap()).output().unwrap();
    assert!(output.status.success());
    String::from_utf8(output.stdout).unwrap().lines().map(str::to_string).collect()
}

#[test]
fn plain_c_has_the_same_bytes_and_sentences() {
    let all = refusals();
    let printed = printed(&all);
    let about = About {
        horizontal: 1.5.into(),
        vertical: Real4::from_bits(2),
        source: *b"sixteen letters!",
        scan: Real4::from_bits(4),
        field4: Real4::from_bits(5),
        field8: Real8::from(-2.25),
        lst: Real4::from_bits(7),
        date: Real4::from_bits(8),
        mode: -9,
        number: 10,
        position: -11,
    };
    let hex: String = about.bytes().iter().map(|byte| format!("{byte:02x}")).collect();
    assert_eq!(printed[0], format!("{hex} 1"));
    assert_eq!(printed[1..], all.iter().map(|refusal| refusal.sentence().to_string()).collect::<Vec<_>>());
}

#[test]
fn every_sentence_says_what_to_do() {
    for refusal in refusals() {
        let (what, to_do) = refusal.sentence().split_once(": ").expect("what is wrong, a colon, what to do");
        assert!(what.len() > 10 && to_do.len() > 10, "{refusal}");
    }
    assert!(Refusal::BadEntry(5).to_string().starts_with("slot 5: "));
    assert!(Refusal::BadScan(Rule::Data).sentence().ends_with(": take the scan again"));
}
