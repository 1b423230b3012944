//! Faults that can be planted in the model, to try whether the harness notices them.
//!
//! The model asks `planted(...)` at the few places where such a fault would stand. Without a planted
//! fault every question is answered with no.

use std::cell::Cell;

#[derive(Clone, Copy, Debug, PartialEq)]
pub enum Fault {
    TieOrder,
    AftByStart,
    InByStart,
    ModuloDay,
    RulerEnd,
    ReplicaDropped,
    FiveBeforeFour,
    LastBadRow,
    CountOffByOne,
    LostDetail,
    ReplicasListed,
    CellsCompared,
    OldMeets,
    OldMetBy,
    OldWords,
    EndOfSlot,
    SpareUnchecked,
    FarIds,
    RoundedUp,
    LastTooLarge,
    CutProduct,
    CellAnew,
    HiTooWide,
    TooNarrow,
    HiOff,
    LoOff,
    LoUntested,
    LessLo,
    BitsFromOne,
    OriginalsByDays,
    InByDays,
    AftByDays,
    ZeroDaysBuilt,
    ZeroDaysAdded,
    ZeroDaysChecked,
    SignedDays,
    IdsByDay,
    SixteenBeforeSix,
    SixteenAfterSeven,
    DayPastLast,
    LastDayRefused,
    DayCut,
    SeventeenBeforeFive,
    SeventeenAfterSeven,
    DayIgnoredBetween,
    AllDaysCounted,
    ReplicaEveryDay,
    ReplicaDaysUnchecked,
    AddedEveryDay,
    RemovalLeavesDays,
    SessionReturn,
    SessionDigits,
    SessionOldForm,
}

/// Name, fault, and what goes wrong.
pub const FAULTS: [(&str, Fault, &str); 53] = [
    ("tie-order", Fault::TieOrder, "equal starts in a slot of originals stand by falling id"),
    ("aft-by-start", Fault::AftByStart, "R_aft is ordered by start then id"),
    ("in-by-start", Fault::InByStart, "R_in is ordered by start then id"),
    ("modulo-day", Fault::ModuloDay, "the cell of a time is taken modulo 86,400 seconds"),
    ("ruler-end", Fault::RulerEnd, "2^w itself passes for a time"),
    ("replica-dropped", Fault::ReplicaDropped, "a trip in three partitions or more loses the last"),
    ("five-before-four", Fault::FiveBeforeFour, "start > end is judged before the ruler's end"),
    ("last-bad-row", Fault::LastBadRow, "build names the last bad row"),
    ("count-off-by-one", Fault::CountOffByOne, "a question's count is one more than the ids"),
    ("lost-detail", Fault::LostDetail, "refusal 7 of a question has no detail"),
    ("replicas-listed", Fault::ReplicasListed, "code 13 lists a trip once for each relevant partition"),
    ("cells-compared", Fault::CellsCompared, "code 13 compares cells in place of times"),
    ("old-meets", Fault::OldMeets, "MEETS lists timing points, and what starts where a window of one second is"),
    ("old-met-by", Fault::OldMetBy, "MET_BY lists timing points, and what ends where a window of one second is"),
    ("old-words", Fault::OldWords, "a removal leaves the old last words behind"),
    ("end-of-slot", Fault::EndOfSlot, "an added trip goes to the end of its slots"),
    ("spare-unchecked", Fault::SpareUnchecked, "the check does not look at words after the last entry"),
    ("far-ids", Fault::FarIds, "an id is compared with those of the 512 rows before it alone"),
    ("rounded-up", Fault::RoundedUp, "second ruler: a cell is rounded up"),
    ("last-too-large", Fault::LastTooLarge, "second ruler: 2^m stands for 2^m - 1"),
    ("cut-product", Fault::CutProduct, "second ruler: the product is cut to 32 bits"),
    ("cell-anew", Fault::CellAnew, "second ruler: the cell at a level above is computed anew and not halved"),
    ("hi-too-wide", Fault::HiTooWide, "second ruler: hi may be 2^24"),
    ("too-narrow", Fault::TooNarrow, "second ruler: fewer times than cells are refused"),
    ("hi-off", Fault::HiOff, "second ruler: hi is no time"),
    ("lo-off", Fault::LoOff, "second ruler: lo is no time"),
    ("lo-untested", Fault::LoUntested, "second ruler: times before lo pass, and get cell 0"),
    ("less-lo", Fault::LessLo, "second ruler: times are taken to be less lo already"),
    ("bits-from-one", Fault::BitsFromOne, "day 1 is the bit of value 1"),
    ("originals-by-days", Fault::OriginalsByDays, "equal starts in a slot of originals stand by day word, then by id"),
    ("in-by-days", Fault::InByDays, "equal ends in R_in stand by day word, then by id"),
    ("aft-by-days", Fault::AftByDays, "R_aft is ordered by day word then id"),
    ("zero-days-built", Fault::ZeroDaysBuilt, "build lets a day word of zero in"),
    ("zero-days-added", Fault::ZeroDaysAdded, "add lets a day word of zero in"),
    ("zero-days-checked", Fault::ZeroDaysChecked, "an index may have day words of zero"),
    ("signed-days", Fault::SignedDays, "a day word with bit 31 passes for none"),
    ("ids-by-day", Fault::IdsByDay, "an id may come again on other days"),
    ("sixteen-before-six", Fault::SixteenBeforeSix, "a day word of zero is judged before the id"),
    ("sixteen-after-seven", Fault::SixteenAfterSeven, "add judges a day word of zero after the room"),
    ("day-past-last", Fault::DayPastLast, "day 32 passes, as day 0"),
    ("last-day-refused", Fault::LastDayRefused, "day 31 is refused"),
    ("day-cut", Fault::DayCut, "a day is cut to eight bits"),
    ("seventeen-before-five", Fault::SeventeenBeforeFive, "a question's day is judged before start > end"),
    ("seventeen-after-seven", Fault::SeventeenAfterSeven, "a question's day is judged after the room"),
    ("day-ignored-between", Fault::DayIgnoredBetween, "code 13 lists originals between the outer partitions whatever their days"),
    ("all-days-counted", Fault::AllDaysCounted, "refusal 7 of a question counts the trips of all days"),
    ("replica-every-day", Fault::ReplicaEveryDay, "replicas have every day in place of their trip's"),
    ("replica-days-unchecked", Fault::ReplicaDaysUnchecked, "the check does not look at the day words of replicas"),
    ("added-every-day", Fault::AddedEveryDay, "an added trip is stored with every day"),
    ("removal-leaves-days", Fault::RemovalLeavesDays, "a removal moves entries up without their day words"),
    ("session-return", Fault::SessionReturn, "a carriage return at the end of a line is passed over"),
    ("session-digits", Fault::SessionDigits, "a number may have more than ten digits"),
    ("session-old-form", Fault::SessionOldForm, "T and Q may lack their last number, for every day and day 0"),
];

thread_local! {
    static PLANTED: Cell<Option<Fault>> = const { Cell::new(None) };
}

pub fn planted(fault: Fault) -> bool {
    PLANTED.with(|cell| cell.get()) == Some(fault)
}

/// Does `work` with the fault planted, and takes it out again. The calls themselves are always drawn
/// without it, so that a fault changes answers and never the questions.
pub fn with_fault<T, F: FnOnce() -> T>(fault: Option<Fault>, work: F) -> T {
    PLANTED.with(|cell| cell.set(fault));
    let result = work();
    PLANTED.with(|cell| cell.set(None));
    result
}

pub fn fault_named(name: &str) -> Option<Fault> {
    FAULTS.iter().find(|known| known.0 == name).map(|known| known.1)
}
