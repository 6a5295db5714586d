//! Plausible misreadings of the papers. Each can be switched on in the simulator by its number, so that
//! the tests can show that they would find an engine that makes it.

use std::cell::Cell;

thread_local! {
    /// The number of the misreading that is switched on; 0 for none.
    static ACTIVE: Cell<usize> = const { Cell::new(0) };
}

macro_rules! mutations {
    ($($name:ident: $text:expr,)*) => {
        #[derive(Clone, Copy, PartialEq, Eq)]
        pub enum M { $($name,)* }
        /// The misreadings in words; number K stands at K - 1.
        pub const LIST: &[&str] = &[$($text,)*];
    };
}

mutations! {
    FollowUnlinkedStays: "a link stays in its old set when it follows an unlinked one",
    FollowSelfStays: "a link that follows itself stays where it is",
    SecondNoneRefused: "none as second party of follow, precede and into is refused",
    IntoLinkPrecedes: "into with a link for the head is precede",
    HeadEndsSwapped: "follow of a head goes last and precede of a head first",
    OutUnlinkedRefused: "out of an unlinked link is refused",
    SucGivesHead: "suc of the last member is the head",
    SucOfHeadRefused: "suc and pred refuse a head",
    CardinalCountsHead: "cardinal counts the head too",
    ClearFirstOnly: "clear removes the first member only",
    OutAloneTells: "follow, precede, into and wait answer no head, out alone does",
    HeadAfterTold: "the head that is answered is the one the link is in after the call",
    HeadOfYTold: "follow, precede, into and wait answer the head of y's set",
    NoneLeftTellsEntered: "a link that was in no set answers the head that it enters",
    MoveWithinTellsNone: "a move within a set answers none",
    SelfTellsNone: "a link that follows or precedes itself answers none",
    NowhereTellsNone: "a link put beside an unlinked one answers none",
    NoneTellsNone: "none as second party answers none",
    ProcessTellsNone: "a process answers none, a plain link its head",
    LastHeadTellsNone: "a link that leaves the last head's set answers none",
    WalkOf511: "the head of a link is looked for along 511 members",
    WaitTellsNothing: "wait answers nothing",
    WaitTellsNext: "wait answers the head of the process that is current after it",
    RefusedTells: "a refused call answers the head all the same",
    ClearTellsHead: "clear answers its head",
    ClearTellsWhether: "clear answers 1 if it removed any",
    ClearCountsHead: "clear counts the head too",
    ClearCountsByte: "clear counts the removed in a byte",
    ClearCountsTo511: "clear counts up to 511",
    CardinalCountsTo511: "cardinal counts up to 511",
    SetOf513: "a set may have 513 members",
    SetOf511: "a set may have only 511 members",
    MoveWithinCounted: "a link moved within a full set counts twice",
    SelfInFullRefused: "a link put beside itself in a full set is refused",
    UnlinkedInFullRefused: "a link of a full set put beside an unlinked one is refused",
    NoneInFullRefused: "a link of a full set put beside none is refused",
    LinkedNotCounted: "a link that comes from another set does not count",
    OldSetTested: "the limit is that of the set that the link leaves",
    AllSetsCounted: "the limit is that of all sets together",
    PlainLinksCounted: "only plain links count towards the limit",
    ProcessesCounted: "only processes count towards the limit",
    FirstHeadTested: "only head 1's set is held to the limit",
    LastHeadUntested: "the last head's set is not held to the limit",
    BesideLinkUntested: "a link put beside a link is not held to the limit",
    FollowUntested: "follow is not held to the limit",
    PrecedeUntested: "precede is not held to the limit",
    IntoUntested: "into is not held to the limit",
    WaitUntested: "wait is not held to the limit",
    FullTakesOut: "a call refused with 10 takes the link out",
    FullWaitPassivates: "wait on a full set only passivates",
    FourBeforeTen: "wait on a full set with the last notice is refused with 4",
    TenBeforeThree: "a full set is refused before kinds are judged",
    RingOf513Taken: "a ring of 513 is well formed",
    RingOf512Refused: "a ring of 512 is badly formed",
    AnyRingTaken: "a ring of any length is well formed",
    LongRingTen: "a ring that is too long is refused with 10",
    RingsCountedTogether: "the tables' limit is that of all rings together",
    FirstRingUncounted: "the first head's ring is not counted",
    LastRingUncounted: "the last head's ring is not counted",
    SetsTakeLong: "set calls take rings of any length",
    AxisTakesLong: "calls on the axis take rings of any length",
    QueriesTakeLong: "queries take rings of any length",
    RunsTakeLong: "runs take rings of any length",
    KeptByOut: "a run counts members, and out does not lower the count",
    KeptByClear: "a run counts members, and clear does not lower the count",
    KeptByMove: "a run counts members, and a move does not lower the count of the set that is left",
    KeptFromNone: "a run counts members, from none in each of its calls",
    AtBehindAll: "at T stands behind the whole axis",
    AtBeforeEquals: "at T without prior stands in front of equal times",
    PriorBeforeAll: "prior stands in front of the whole axis",
    PriorNowBehind: "prior at the present time goes behind equal times",
    DirectSecond: "direct stands right behind the current notice",
    AfterBehindEquals: "after Y stands behind all of Y's time",
    BeforeBeforeEquals: "before Y stands in front of all of Y's time",
    DropBeforeTime: "reactivate drops the old notice before time is read",
    ReactivatePassivates: "every reactivate passivates the caller",
    ActivateLiveActs: "activate of a live process acts",
    TerminatedActs: "a terminated process can be activated",
    PastNotRaised: "a T below time is not raised to time",
    DelayIsAt: "delay T does not add time",
    SelfBesideDrops: "reactivate of X beside X drops the notice",
    IdleYKeepsOld: "reactivate beside an idle Y has no effect",
    LimitExcluded: "a time at the limit is refused",
    LimitBeforeEffect: "a T above the limit is refused where the call has no effect",
    EffectBeforeKind: "y of the wrong kind is not judged where the call has no effect",
    ClauseSevenDirect: "a clause above 6 is direct",
    UnusedYJudged: "y is judged under clauses 0 to 4",
    HoldZeroStays: "hold of 0 or less does not go behind equal times",
    HoldBeforeEquals: "hold goes in front of equal times",
    HoldBackwards: "hold of a T below 0 goes back in time",
    WaitRefusedEnters: "a wait refused with 4 still enters the set",
    WaitNoneRefused: "wait on none is refused",
    CancelNoneRefused: "cancel of none is refused",
    CancelLastAllowed: "cancel may take the last notice",
    FinishMainAllowed: "main can finish by call",
    FinishUnmarked: "finish only passivates",
    EvtimeIdleZero: "evtime of an idle process is 0",
    NextevIdleRefused: "nextev of an idle process is refused",
    AccumAddsFirst: "accum adds d to c before a grows",
    AccumClockKept: "accum leaves b as it was",
    AccumBoundByTime: "accum bounds a by time instead of b",
    AccumSumFree: "accum does not judge c + d",
    MarkTwoTaken: "a mark of 2 or more counts as not terminated",
    IdleTimeTaken: "an idle process may have a time",
    PredecessorsUnread: "the predecessor halves are not looked at",
    MainMarkTaken: "main may be terminated",
    FreshJudged: "damaged tables are refused where they are to be filled for a fresh model",
    UnusedFieldsFree: "unused fields of a record may hold anything",
    UnreachedFree: "records that no chain reaches are not judged",
    OperandAtStep: "an operand out of range is refused at its step, not with the sheet",
    TrailingBytesFree: "bytes after a sheet's end are allowed",
    RefusedStepMoves: "a refused step moves the position",
    FullAfterRefused: "refused is looked at before full",
    FullBeforeFinished: "full is looked at before finished",
    NewCurrentMoves: "the process current after the step moves on",
    LineAfterStep: "a line holds the time and process after its step",
    MainAtZeroEnds: "a run ends when main is at position 0, current or not",
    BranchTurned: "12 goes to y when the head is not empty",
    FirstReadLate: "the first member of a head is read after x is out",
    AccumsAtEntry: "a run's accumulators are judged at its entry",
    TraceLimitExcluded: "a trace of 65,536 bytes is refused",
    LastByteSpared: "a line that would fill the trace to its last byte does not fit",
    PartLineCounted: "the bytes behind the last line that fits count as a line",
    StoppedFirst: "printing looks at stopped before finished",
    FirstMemberAsBefore: "65,536 + h is the first member in 9, 10 and 11 as before",
    CancelAsBefore: "65,536 + h is the first member in 9, the first process in 10 and 11",
    ActivateAsBefore: "65,536 + h is the first member in 10, the first process in 9 and 11",
    ReactivateAsBefore: "65,536 + h is the first member in 11, the first process in 9 and 10",
    XAsBefore: "65,536 + h is the first process as y alone, as x of 9, 10 and 11 the first member",
    YAsBefore: "65,536 + h is the first process as x alone, as y of 10 and 11 the first member",
    ProcessEverywhere: "65,536 + h is the first process in every operation",
    ProcessMoved: "65,536 + h is the first process as x of out, follow, precede and into",
    ProcessBeside: "65,536 + h is the first process as y of follow and precede",
    ProcessForHead: "65,536 + h is the first process or none as y of into and wait",
    LastProcess: "65,536 + h is the last process in 9, 10 and 11",
    SearchOfTwo: "the search for a process looks at two members",
    SearchOfMany: "the search for a process looks at 256 members",
    SearchOf511: "the search for a process looks at 511 members",
    LinksOnlyRefused: "9, 10 and 11 refuse a queue that has links only",
    EmptyQueueRefused: "9, 10 and 11 refuse an empty queue",
    CurrentPassed: "the search for a process passes over current",
    MainPassed: "the search for a process passes over main",
    HighestPassed: "the search for a process takes the highest process for a link",
    TerminatedPassed: "the search for a process passes over terminated ones",
    LivePassed: "the search for a process passes over those with a notice",
}

/// Whether this misreading is switched on.
pub fn on(mutation: M) -> bool {
    ACTIVE.with(|active| active.get() == mutation as usize + 1)
}

/// Switches misreading number K on for this thread; 0 switches off.
pub fn switch(number: usize) {
    ACTIVE.with(|active| active.set(number));
}

/// What `work` gives under misreading number K.
pub fn under<T>(number: usize, work: impl FnOnce() -> T) -> T {
    switch(number);
    let result = work();
    switch(0);
    result
}
