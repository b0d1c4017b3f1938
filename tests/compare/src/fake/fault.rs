//! The faults of the stand-in, one of which may be switched on.

use std::sync::atomic::{AtomicUsize, Ordering};

macro_rules! faults {
    ($($name:ident,)*) => {
        /// What a wrong product would do.
        #[derive(Clone, Copy, Debug, PartialEq, Eq)]
        pub enum Fault {
            Nothing,
            $($name,)*
        }

        impl Fault {
            /// All faults but `Nothing`.
            pub const ALL: &[Fault] = &[$(Fault::$name,)*];
        }
    };
}

faults! {
    // The readers.
    LogPlace,
    LogFile,
    LogFields,
    LogEvents,
    LogCountsOfRefused,
    FormulaAccepted,
    FormulaPlace,
    FormulaNumber,
    FieldsIgnored,
    // A search's answer.
    VerdictExchanged,
    StepCount,
    LastEvent,
    UnusedEvent,
    FirstNumber,
    UnusedNumber,
    HeldByte,
    HeldLost,
    ValueLost,
    UnheldValue,
    WidthZero,
    WidthOfRefused,
    VerdictOfRefused,
    WordsBeforeStart,
    CrowdedPlace,
    // Seats and work words.
    SeatsUncapped,
    SeatsRoundedUp,
    WorkOfRefused,
    WorkLeftOver,
    WorkOverrun,
    // Rows.
    RowsOfRefused,
    RowsBehind,
    RowsOverrun,
    RowsBeforeWords,
    CrowdedRowWritten,
    CrowdedRowsLost,
    SubsumedAsAlert,
    RejectedAsNone,
    RowLast,
    RowMask,
    NoneRowUntouched,
    FirstRowCopied,
    // Lists.
    ListsIgnored,
    ListsAsSets,
    ListsUnordered,
    ListsByTallies,
    ListsByEnds,
    LastListLost,
    SumWraps,
    SumBoth,
    PlainSumRises,
    SumOfNoneNeither,
    AnyGatherCounts,
    DifferentBoth,
    DifferentRises,
    DifferentNeither,
    GuardBeforeGather,
    ExpiryWithoutGather,
    // Reading GATHERs.
    TwiceAccepted,
    TwiceAfterValue,
    TwiceAsValue,
    NinthGather,
    GatherAnywhere,
    ListAsVariable,
    // Absent states.
    AbsentAsValue,
    AbsentCountAsValue,
    AbsentLast,
    AbsentAfterDeadStart,
    // Reading events that lack fields.
    LackingForeign,
    LackingUncounted,
    BitBeyondAccepted,
    AbsentValueAccepted,
    LowByteOfAbsent,
    NothingPresentRefused,
    BitsBeforeCut,
    BitsReversed,
    StepBackBeforeValue,
    RisingByEventBefore,
    AbsentFalls,
    // Firing on them.
    AbsentAsZero,
    AbsentAsLatest,
    PresenceOfNeighbour,
    TestOfAbsentHolds,
    UnequalOfAbsentHolds,
    BindOfAbsentPasses,
    GatherOfAbsentPasses,
    // Judging steps hopeless after them.
    LatestForgotten,
    LatestFromStart,
    NeverArrivedAsZero,
    NeverArrivedTooLate,
    GuardNeverLetOff,
    OnlyTakenBranch,
    UnnamedLetsOff,
    HeldLetsOff,
    AnyBindLetsOff,
    AnySumLetsOff,
    LengthLetsOff,
    LengthWithoutUnknown,
    LaterBindTaken,
    // Reading marks.
    MarkForeign,
    MarkBeforeField,
    MarksRunningForeign,
    MarkBeforeEventForeign,
    MarkBeforeEndForeign,
    MarksUpTo65,
    MarkTooManyForeign,
    MarkTooManyCut,
    MarkCountedAsEvent,
    MarkAsEvent,
    PlaceOfMark,
    FieldBehindMark,
    RisingAcrossMark,
    RisingFreeBehindMark,
    // Searching logs that have them.
    RunAcrossMark,
    OrdinaryAcrossMark,
    CommittedAcrossMark,
    FirstStretchAlone,
    LastOfStretchUncounted,
    LastOfStretchUnsearched,
    LatestAcrossMark,
    NumbersAfresh,
    NumbersWithMarks,
    RowNumbersAfresh,
    // Ties of two runs.
    TieNeitherHolds,
    TieOneHolds,
    TieEarlierHolds,
    TieLaterHolds,
    TieUnheldAsZero,
    TieValuesIgnored,
    TieAnyIsEnough,
    TieFirstAlone,
    TieLackedByRejecting,
    UntiedNeverSubsumed,
}

static FAULT: AtomicUsize = AtomicUsize::new(0);

/// Switches one fault on and all others off.
pub fn switch(fault: Fault) {
    FAULT.store(fault as usize, Ordering::Relaxed);
}

pub fn has(fault: Fault) -> bool {
    FAULT.load(Ordering::Relaxed) == fault as usize
}
