//! Why a call was refused, and what to do about it.

use face::refused;

/// Why a call was refused. The paper numbers them; [`Refusal::number`] gives
/// the number, and the `Display` form is a sentence that says what to do.
#[derive(Clone, Copy, Debug, PartialEq, Eq)]
pub enum Refusal {
    /// 1: fewer than 512 bytes.
    TooShort,
    /// 2: a file of the old form, which is not changed.
    OldForm,
    /// 3: no version that is known.
    UnknownVersion,
    /// 4: a bootstrap number outside its range, or a capacity above 4,096.
    BadBootstrap,
    /// 5: the bootstrap speaks of more bytes than were lent.
    CutShort,
    /// 6: an entry up to U is neither empty nor in range; its slot, the lowest.
    BadEntry(u32),
    /// 7: an entry above U is not empty; its slot, the lowest.
    EntryAboveUsed(u32),
    /// 8: a slot shares a record with a smaller one; the lowest such slot.
    SharedRecord(u32),
    /// 9: the slot lies outside 1 to capacity.
    NoSuchSlot,
    /// 10: the slot is empty.
    EmptySlot,
    /// 11: the scan breaks a rule.
    BadScan(Rule),
    /// 12: no slot is empty.
    NoEmptySlot,
    /// 13: no free records in a row that are enough.
    NoRoom,
    /// 14: the job and the file, or the scan, disagree.
    JobDisagrees,
    /// 15: the entry or the records are not what the job gives, or a record of the old scan is not all zeros.
    NotConfirmed,
    /// 16: the sizes for a blank file are outside their ranges or too large.
    BadSizes,
    /// 17: what was lent for the answer is too short to hold it.
    AnswerTooLong,
    /// 18: an old file says that the scan is not of version 1.
    NotVersionOne,
    /// 19: the file has the wanted form already, or cannot be had in it.
    NotConvertible,
    /// 20: of a file that comes in pieces, fewer bytes have come than its verdict rests on.
    NotAllCame,
}

/// The rule that a scan breaks: the reason in refusal 11.
#[derive(Clone, Copy, Debug, PartialEq, Eq)]
pub enum Rule {
    /// 1: at least 256 bytes, and at most 65,536 when saving.
    Length,
    /// 2: 13 to 15 classes.
    Classes,
    /// 3: the class starts.
    Starts,
    /// 4: HEADLEN.
    Head,
    /// 5: DATALEN.
    Data,
    /// 6: header and data are all of a scan that is saved.
    Whole,
}

impl Rule {
    /// The rule's number, 1 to 6.
    pub fn number(self) -> u32 {
        self as u32 + 1
    }

    fn of(number: u32) -> Rule {
        use Rule::*;
        [Length, Classes, Starts, Head, Data, Whole][number as usize - 1]
    }
}

impl Refusal {
    /// From the two numbers of the face; none where the call was accepted.
    pub(crate) fn of(why: face::Refusal) -> Option<Refusal> {
        Some(match why.number {
            0 => return None,
            refused::TOO_SHORT => Refusal::TooShort,
            refused::OLD_FORM => Refusal::OldForm,
            refused::UNKNOWN_VERSION => Refusal::UnknownVersion,
            refused::BAD_BOOTSTRAP => Refusal::BadBootstrap,
            refused::CUT_SHORT => Refusal::CutShort,
            refused::BAD_ENTRY => Refusal::BadEntry(why.value),
            refused::ENTRY_ABOVE_USED => Refusal::EntryAboveUsed(why.value),
            refused::SHARED_RECORD => Refusal::SharedRecord(why.value),
            refused::NO_SUCH_SLOT => Refusal::NoSuchSlot,
            refused::EMPTY_SLOT => Refusal::EmptySlot,
            refused::BAD_SCAN => Refusal::BadScan(Rule::of(why.value)),
            refused::NO_EMPTY_SLOT => Refusal::NoEmptySlot,
            refused::NO_ROOM => Refusal::NoRoom,
            refused::JOB_DISAGREES => Refusal::JobDisagrees,
            refused::NOT_CONFIRMED => Refusal::NotConfirmed,
            refused::BAD_SIZES => Refusal::BadSizes,
            refused::ANSWER_TOO_LONG => Refusal::AnswerTooLong,
            refused::NOT_VERSION_ONE => Refusal::NotVersionOne,
            refused::NOT_CONVERTIBLE => Refusal::NotConvertible,
            refused::NOT_ALL_CAME => Refusal::NotAllCame,
            other => unreachable!("the library refused with number {other}, which this crate does not know"),
        })
    }

    /// The paper's number, 1 to 20.
    pub fn number(self) -> u32 {
        match self {
            Refusal::TooShort => refused::TOO_SHORT,
            Refusal::OldForm => refused::OLD_FORM,
            Refusal::UnknownVersion => refused::UNKNOWN_VERSION,
            Refusal::BadBootstrap => refused::BAD_BOOTSTRAP,
            Refusal::CutShort => refused::CUT_SHORT,
            Refusal::BadEntry(_) => refused::BAD_ENTRY,
            Refusal::EntryAboveUsed(_) => refused::ENTRY_ABOVE_USED,
            Refusal::SharedRecord(_) => refused::SHARED_RECORD,
            Refusal::NoSuchSlot => refused::NO_SUCH_SLOT,
            Refusal::EmptySlot => refused::EMPTY_SLOT,
            Refusal::BadScan(_) => refused::BAD_SCAN,
            Refusal::NoEmptySlot => refused::NO_EMPTY_SLOT,
            Refusal::NoRoom => refused::NO_ROOM,
            Refusal::JobDisagrees => refused::JOB_DISAGREES,
            Refusal::NotConfirmed => refused::NOT_CONFIRMED,
            Refusal::BadSizes => refused::BAD_SIZES,
            Refusal::AnswerTooLong => refused::ANSWER_TOO_LONG,
            Refusal::NotVersionOne => refused::NOT_VERSION_ONE,
            Refusal::NotConvertible => refused::NOT_CONVERTIBLE,
            Refusal::NotAllCame => refused::NOT_ALL_CAME,
        }
    }

    /// The slot (6, 7, 8) or the reason (11), else 0.
    pub fn value(self) -> u32 {
        match self {
            Refusal::BadEntry(slot) | Refusal::EntryAboveUsed(slot) | Refusal::SharedRecord(slot) => slot,
            Refusal::BadScan(rule) => rule.number(),
            _ => 0,
        }
    }
}
