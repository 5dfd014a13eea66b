//! The faults that are planted, one line on each.

/// What is wrong with a cabinet.
#[derive(Clone, Copy, Debug, PartialEq, Eq)]
pub enum Fault {
    /// A label is free as soon as its Withdraw is accepted.
    FreesOnWithdraw,
    /// The number after 0xFFFFFFFF is 0.
    WrapsToZero,
    /// A timeout of zero ends the session at once.
    ZeroTimeoutIsNoWait,
    /// A zero ACK releases everything issued.
    ZeroAckIsAll,
    /// A message gets its number when it is queued.
    NumbersAtQueueing,
    /// A break leaves labels that are used without protection.
    KeepsUnprotected,
    /// No more than 63 messages are held.
    RefusesAt63,
    /// A submission overwrites the oldest held message.
    OverwritesLiveSlot,
    /// Submit does not say which slot it wrote.
    HidesSlot,
    /// Receive does not say that block 0 changed.
    HidesBlock0,
    /// KeepAlive says that block 0 changed, and it did not.
    NamesBlock0InVain,
    /// A KeepAlive acknowledges one message more than is secured.
    AckAhead,
    /// A received number is not secured.
    SecuredStays,
    /// After a reconnection only what has no number yet is sent.
    CountSurvivesBreak,
    /// A byte after the message is written.
    WritesPastOutput,
    /// Too little room, and a byte is written all the same.
    WritesWhenRefused,
    /// The last free word is taken, not the first.
    TakesLastFreeWord,
    /// A phase that does not exist counts as Idle.
    TakesUnknownPhase,
    /// The value of a phase that has none is handed back.
    KeepsValue,
    /// Zero is the lesser of zero and another timeout.
    LesserOfZeroIsZero,
    /// The distance at the far end is one step too long.
    LongWayRound,
    /// Bytes after a slot's message may be anything.
    SkipsPadding,
    /// Slots that are not live are checked too.
    ChecksDeadSlots,
    /// A bad slot is refused without its number.
    NamesNoBlock,
    /// A resumed session keeps its old timeout.
    KeepsOldTimeout,
    /// A sum of 65,535 counts as 0.
    TakesBothZeros,
    /// Submit does not say that a further block changed.
    HidesFurther,
    /// A Request's ID is not put beside its word.
    LeavesIds,
    /// Submit says that block 65 changed, and it did not.
    NamesFurtherInVain,
    /// The ID of a Request that ends is made 0.
    WipesIds,
    /// An ID that no open Request has counts as open.
    ForgetsMask,
    /// Two equal IDs are refused, whether or not they count.
    CountsAllIds,
    /// A Request outside UpFT is 15 also while Requests are stopped.
    StopsAfterPhase,
    /// Requests are taken while they are stopped.
    StopsNothing,
    /// A Mapping takes the first free word, not that of the Request that it answers.
    TakesFirstFreeForAnswer,
    /// A Request ends when the peer acknowledges it.
    AckEndsRequest,
    /// A Mapping that names ID 0 answers no Request.
    ZeroIdIsNone,
    /// A break ends the open Requests.
    BreakEndsRequests,
    /// A break forgets whether Requests are stopped.
    BreakForgetsMarks,
    /// The block of the IDs is not looked at where nothing is kept.
    SkipsIdsOfIdle,
    /// Bytes after the IDs may be anything.
    SkipsZerosAfterIds,
    /// The ID beside a word that is no open Request is shown.
    ShowsClosedRequest,
    /// An image of any earlier size is extended.
    ExtendsAnySize,
    /// Bit A is never set.
    NeverOnDemand,
    /// The summary says of everything held that it has no number.
    CountsHeldAsPended,
    /// The summary does not count open Requests among the words in use.
    CountsNoRequests,
    /// The words of a refused image are counted too.
    CountsWhenRefused,
    /// Too few words are lent, and they are filled all the same.
    FillsShortWords,
    /// A word after the last is written.
    WritesPastWords,
    /// Too few words are refused before the image is judged.
    AsksRoomFirst,
    /// The message held is looked up from the first slot, not from the oldest.
    CountsFromFirstSlot,
    /// The place after the newest held shows what its slot bears.
    ShowsDeadSlot,
    /// The message held is shown with what stands before it in its slot.
    ShowsWholeSlot,
    /// A Request is left out though it has no number yet.
    LeavesOutPended,
    /// A Request is left out by an Abort of its ID that is held before it.
    LeavesOutByEarlierAbort,
    /// A Request is left out by an Abort of another ID.
    LeavesOutByAnyAbort,
    /// Everything held is sent again.
    LeavesOutNone,
    /// Of several Requests one after another the first alone is left out.
    LeavesOutOneOnly,
    /// Requests are left out on a resumed connection alone.
    LeavesOutWhereResumed,
    /// Those that a Send passes over do not count as sent.
    CountsPassedOverUnsent,
    /// Send next does not say that it left out messages.
    HidesLeftOut,
    /// With too little room those passed over count as sent all the same.
    PassesOverWhenRefused,
    /// A number 65 steps ahead is taken.
    TakesJumpOf65,
    /// Numbers may be left out on a connection that is not resumed.
    JumpsUnresumed,
    /// After a jump the secured number is one more than it was.
    SecuresByOne,
    /// A resumed connection counts as a fresh one.
    ForgetsResumed,
    /// Flags that the phase does not bear are handed back.
    KeepsFlags,
    /// The next number is judged as on a resumed connection.
    NextIsAlwaysResumed,
    /// The next number zero is 20.
    NextZeroIsOutOfTurn,
    /// The peer's seconds are taken for milliseconds.
    SecondsAreMilliseconds,
    /// Time passed counts seconds.
    CountsElapsedInSeconds,
    /// InitWait bears our proposal in seconds.
    BearsSeconds,
    /// InitWait with more than 65,535 is refused.
    RefusesLongWait,
    /// Our Init is in the draft's form, whatever is asked for.
    WritesDraftForm,
    /// Our Init in the published form has S clear.
    LacksS,
    /// Where no proposal is given the published form says 30.
    ThirtyMilliseconds,
    /// A proposal for which the draft's form has no room is cut to its low bits.
    ProposalWraps,
    /// FT Session of length 12 is passed over.
    IgnoresPublishedForm,
    /// FT Session of length 8 is taken.
    TakesLength8,
    /// Of the published flags S counts as R.
    TakesSForR,
    /// The recovery time is taken for the timeout.
    TakesRecoveryTime,
    /// Restore takes an image of version 1.
    RestoresVersion1,
    /// Bytes 20 and 21 may be anything.
    SkipsBytes20,
    /// The ID that has no word counts.
    CountsDeadId,
    /// There is a word at place 119.
    ShowsWord119,
    /// The last of 120 words is dropped on the way forward.
    DropsLastWord,
    /// Milliseconds are rounded to seconds on the way back.
    RoundsSeconds,
    /// Of too many seconds the low bits are kept on the way back.
    WrapsSeconds,
    /// The timeout's number is moved as it is.
    KeepsUnit,
    /// The seconds stay where they were on the way forward.
    LeavesSeconds,
    /// Too little room is told before an image that cannot be moved.
    RoomBeforeMove,
    /// An image that cannot be moved is told before its slots are looked at.
    MovesBeforeSlots,
    /// An image that has the version already is copied.
    ConvertsOtherVersion,
    /// Labels used without protection are freed on the way.
    ConverterFreesUnprotected,
    /// Too little room, and the converter writes all the same.
    FillsShortOutput,
    /// The converter writes block 0 and no other.
    ConvertsBlock0Alone,
    /// The converter does not say how much it wrote.
    TellsNoLength,
    /// Submit and Receive do not say that a block of the index changed.
    HidesIndex,
    /// Block 66 is named where block 67 changed.
    NamesBlock66ForAll,
    /// The entry of a FEC is not put beside the word that its label takes.
    LeavesEntries,
    /// The entry of a label whose word is freed is made zeros.
    WipesEntries,
    /// Bits past the length are stored.
    KeepsBitsPastLength,
    /// A length above 32 counts as 32.
    TakesLength33,
    /// A byte behind the element is passed over.
    TakesByteBehind,
    /// A prefix without a label acts on every label.
    PrefixIsEvery,
    /// A prefix without a label acts on none.
    PrefixIsNone,
    /// A prefix without a label and without protection is taken, and acts on none.
    PrefixNeedsNoProtection,
    /// A Mapping with another entry leaves the label where it is, with the entry that it has.
    KeepsOldEntry,
    /// A received Mapping moves nothing where our own label of that number has its entry.
    ComparesOurSide,
    /// A Mapping with another entry changes the entry of the word that its label has.
    WritesEntryInPlace,
    /// A label that moves keeps the word that it had too.
    LeavesOldWord,
    /// A Mapping of a label that is given is queued with another FEC, as one with its own.
    SubmitsOtherEntry,
    /// A Mapping takes a word that its own ACK has freed.
    TakesWordFreedByAck,
    /// What is no entry is refused, whether or not it counts.
    CountsAllEntries,
    /// The entry that has no word counts.
    CountsDeadEntry,
    /// The blocks of the index are not looked at where nothing is kept.
    SkipsIndexOfIdle,
    /// Bytes after the entries may be anything.
    SkipsZerosAfterEntries,
    /// Entries may be anything.
    SkipsEntries,
    /// The entry beside a word that lists no label is shown.
    ShowsFreeEntry,
    /// The first byte of a prefix is shown as the lowest.
    ShowsPrefixReversed,
    /// A prefix of length 0 is shown as none.
    ShowsNoLength0,
    /// An image without the index is not extended.
    ExtendsBaseAlone,
    /// An extension names block 65 alone.
    ExtensionNamesBlock65,
}

pub const ALL: [Fault; 123] = [
    Fault::FreesOnWithdraw,
    Fault::WrapsToZero,
    Fault::ZeroTimeoutIsNoWait,
    Fault::ZeroAckIsAll,
    Fault::NumbersAtQueueing,
    Fault::KeepsUnprotected,
    Fault::RefusesAt63,
    Fault::OverwritesLiveSlot,
    Fault::HidesSlot,
    Fault::HidesBlock0,
    Fault::NamesBlock0InVain,
    Fault::AckAhead,
    Fault::SecuredStays,
    Fault::CountSurvivesBreak,
    Fault::WritesPastOutput,
    Fault::WritesWhenRefused,
    Fault::TakesLastFreeWord,
    Fault::TakesUnknownPhase,
    Fault::KeepsValue,
    Fault::LesserOfZeroIsZero,
    Fault::LongWayRound,
    Fault::SkipsPadding,
    Fault::ChecksDeadSlots,
    Fault::NamesNoBlock,
    Fault::KeepsOldTimeout,
    Fault::TakesBothZeros,
    Fault::HidesFurther,
    Fault::LeavesIds,
    Fault::NamesFurtherInVain,
    Fault::WipesIds,
    Fault::ForgetsMask,
    Fault::CountsAllIds,
    Fault::StopsAfterPhase,
    Fault::StopsNothing,
    Fault::TakesFirstFreeForAnswer,
    Fault::AckEndsRequest,
    Fault::ZeroIdIsNone,
    Fault::BreakEndsRequests,
    Fault::BreakForgetsMarks,
    Fault::SkipsIdsOfIdle,
    Fault::SkipsZerosAfterIds,
    Fault::ShowsClosedRequest,
    Fault::ExtendsAnySize,
    Fault::NeverOnDemand,
    Fault::CountsHeldAsPended,
    Fault::CountsNoRequests,
    Fault::CountsWhenRefused,
    Fault::FillsShortWords,
    Fault::WritesPastWords,
    Fault::AsksRoomFirst,
    Fault::CountsFromFirstSlot,
    Fault::ShowsDeadSlot,
    Fault::ShowsWholeSlot,
    Fault::LeavesOutPended,
    Fault::LeavesOutByEarlierAbort,
    Fault::LeavesOutByAnyAbort,
    Fault::LeavesOutNone,
    Fault::LeavesOutOneOnly,
    Fault::LeavesOutWhereResumed,
    Fault::CountsPassedOverUnsent,
    Fault::HidesLeftOut,
    Fault::PassesOverWhenRefused,
    Fault::TakesJumpOf65,
    Fault::JumpsUnresumed,
    Fault::SecuresByOne,
    Fault::ForgetsResumed,
    Fault::KeepsFlags,
    Fault::NextIsAlwaysResumed,
    Fault::NextZeroIsOutOfTurn,
    Fault::SecondsAreMilliseconds,
    Fault::CountsElapsedInSeconds,
    Fault::BearsSeconds,
    Fault::RefusesLongWait,
    Fault::WritesDraftForm,
    Fault::LacksS,
    Fault::ThirtyMilliseconds,
    Fault::ProposalWraps,
    Fault::IgnoresPublishedForm,
    Fault::TakesLength8,
    Fault::TakesSForR,
    Fault::TakesRecoveryTime,
    Fault::RestoresVersion1,
    Fault::SkipsBytes20,
    Fault::CountsDeadId,
    Fault::ShowsWord119,
    Fault::DropsLastWord,
    Fault::RoundsSeconds,
    Fault::WrapsSeconds,
    Fault::KeepsUnit,
    Fault::LeavesSeconds,
    Fault::RoomBeforeMove,
    Fault::MovesBeforeSlots,
    Fault::ConvertsOtherVersion,
    Fault::ConverterFreesUnprotected,
    Fault::FillsShortOutput,
    Fault::ConvertsBlock0Alone,
    Fault::TellsNoLength,
    Fault::HidesIndex,
    Fault::NamesBlock66ForAll,
    Fault::LeavesEntries,
    Fault::WipesEntries,
    Fault::KeepsBitsPastLength,
    Fault::TakesLength33,
    Fault::TakesByteBehind,
    Fault::PrefixIsEvery,
    Fault::PrefixIsNone,
    Fault::PrefixNeedsNoProtection,
    Fault::KeepsOldEntry,
    Fault::ComparesOurSide,
    Fault::WritesEntryInPlace,
    Fault::LeavesOldWord,
    Fault::SubmitsOtherEntry,
    Fault::TakesWordFreedByAck,
    Fault::CountsAllEntries,
    Fault::CountsDeadEntry,
    Fault::SkipsIndexOfIdle,
    Fault::SkipsZerosAfterEntries,
    Fault::SkipsEntries,
    Fault::ShowsFreeEntry,
    Fault::ShowsPrefixReversed,
    Fault::ShowsNoLength0,
    Fault::ExtendsBaseAlone,
    Fault::ExtensionNamesBlock65,
];
