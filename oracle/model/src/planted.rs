//! Faults that can be planted one at a time, to see whether the comparison finds them: in the stand-in, which the model must detect,
//! in both the stand-in and the runner's model, which only the crate can detect, or in the runner, which its least counts detect.
//!
//! Without the feature `faults` none is ever planted. With it, the environment variable ORACLE_FAULT names the one that is, for the
//! runner's model ORACLE_MODEL_FAULT. oracle/faults.list says what each does.

macro_rules! faults {
    ($($name:ident)*) => {
        #[derive(Clone, Copy, Debug, PartialEq, Eq)]
        pub enum Fault { $($name),* }

        pub const ALL: &[(&str, Fault)] = &[$((stringify!($name), Fault::$name)),*];
    };
}

faults! {
    SlashMayBeFirst
    DuplicatesUnseen
    KindRuleBeforeDuplicates
    DefaultRuleRestartsAtSlash
    DefaultRulePassesStar
    SlashAfterStarAllowed
    StarNotFollowedAtOnce
    StarLastUnseen
    PositionalOnlyCountsMarks
    ArgsNoneAtFlatCount
    NoModesWritten
    ModesOfMarksWritten
    RefusedListWritesModes
    ModeBufferByFlatCount
    RepeatedBeforeNamedAfterStar
    RepeatedAtArgumentSpan
    StarAfterStarStarAllowed
    StarPlaceFromOne
    Index2IsTarget
    EmptyTupleNoTarget
    LeavesInsideIndexCounted
    ModifyListAllowed
    InvalidLhsBeforeModify
    TypeOnListAllowed
    TypesDisabledUnseen
    DotTypeAnywhere
    DotTypeAtDot
    IndexOfPath
    IndexReadAsArgument
    ListOfOneIsUnion
    NestedArgumentListAsType
    ShapeOfIndexBaseWritten
    UnionShapeIsTuple
    EditionTwoAllows42
    EditionTwoIndexOfPath
    BanStaysInPaths
    BanStaysAtIndex2
    EditionZeroIsOne
    NoEditionIsOne
    EditionIn8Bits
    NodeBeforeEdition
    AuditByEditionOne
    EditionWithoutDialect
    EditionOneNotWritten
    EditionBeforeTable
    FiveUsedAllowed
    BadEditionRescued
    RescueDropsEdition
    ReadOneForNoEdition
    ReadNoEditionHolds
    ReadEditionsExchanged
    ShapesWrittenWhenRefused
    RefusedForEntered
    DefBodyKeepsFor
    RefusedDefNotEntered
    NestedStatementsNotTop
    LoadOffHidesNotAtTop
    SlashErrorsBeforeStarErrors
    LambdaBeforeItsNumber
    RefusedStatementsHideExpressions
    DefaultsNotVisited
    HalfErrorStored
    TotalCappedByList
    ParseOnlyRefusesEllipsis
    LongNameAllowed
    NameEndWraps
    FilesUnchecked
    FileThousandAllowed
    FileZeroAllowed
    RootFileUnseen
    FileOfTheStatementBefore
    StatementEndsOneLate
    FirstFileForAll
    NestedStatementsFileUnseen
    FileOfNodeZero
    RepeatedFileZero
    FileBeforeEarlier
    BeginBeforeFile
    FileBeginBeforeFile
    AuditBeginBeforeFile
    AuditFileAfterNode
    RoomInThrees
    FileRoomInThrees
    AuditRoomInFours
    ErrorFileOfTheFirst
    EvenDictUnchecked
    ChildBeforeParentUnsound
    DepthOneMore
    DepthBeforeUnsound
    ArgumentsCounted
    ParametersCounted
    ArgumentValuesUncounted
    StatementsCountTwice
    LastNodeRefused
    EmptyDialectAllOptions
    EmptyDialectStandard
    EmptyDialectStandardInTypes
    DialectByteTwoAllowed
    NameEndPastLimitAllowed
    RootNeedNotCover
    NameByteChanged
    DialectByteChanged
    SumFactorFromZero
    NumberBeforeCheck
    PaddingUnchecked
    LeftOverAllowed
    DialectBeforeTable
    NoNameStillBlock
    PadByteWritten
    FullBlockUsesNone
    RowWrittenForNone
    SevenOneBlockEarly
    RefusedWriteWrites
    BytePastFileWritten
    EarlierMissing
    EarlierIsThePlace
    NoEarlierIsZero
    PosOnlyByName
    StarByName
    TooManyBeforeStar
    EmptyBeforeUnknown
    StarStarBinds
    FilledTwice
    HighestEmpty
    StarTakesItsFirst
    LambdaBinds
    RoomByFlatCount
    CallBeforeDef
    RefusedBindWrites
    WordPastBindingWritten
    BadDialectRescued
    BadNamesAre91
    LaterBlocksUsed
    OtherRootHasChildren
    RootAloneKept
    OneChildTooFew
    RootSizeNotRenewed
    RescuedRowForNone
    DroppedByWrittenSize
    PastTheWrittenSize
    AfterTheOutput
    AfterIn32Bits
    RescueGives75
    ShortBeforeNothingKept
    RescueOneBlockEarly
    RefusedRescueWrites
    BytePastRescuedWritten
    RescuedFileChanged
    OneEntryMore
    TooManyByFlatCount
    TooManyAtTheEntry
    TooManyBeforeShortBuffer
    TooManyAfterTheRules
    TooManyNotInTheModule
    TooManyNotInLambdas
    TooManyTwiceInTheAudit
    AuditTellsListsTwice
    AuditJobsFirst
    AuditTypeBeforeCall
    AuditNodeOfTheJob
    AuditComprehensionTargets
    AuditAugmentedTypeMissed
    AuditStarTypesMissed
    AuditRefusedForMissed
    AuditDefaultLambdaMissed
    AuditHalfErrorStored
    AuditTotalCapped
    AuditDialectChanged
    ReadShortFirst
    ReadHighByteFirst
    ReadRowForNone
    ReadNodeNotTold
    RefusedReadWrites
    BytePastTableWritten
    BytePastNamesWritten
    ReadFileChanged
    FileDialectUnread
    FileNodesFirst
    FileHalfErrorStored
    OpenedLambdaStays
    AuditOpenedDefStays
    SecondWordUnseen
    OddWordAllowed
    LengthsIn32Bits
    BraceOnce
    StrIsRepr
    EmptyTextKept
    ReprReadAsNone
    StrayOneBehind
    TextsNotJoined
    FormatShortFirst
    NoticeOfTypes
    NoticeRefuses
    ShortBeforeStray
    OddWordIsRoom
    RefusedFormatWrites
    BytePastFormatWritten
    WordPastPartsWritten
    LargeTreesUnjudged
    HalfOfTheRandomJobs
    FiguresLeftOver
    FiguresRefusedCounted
    FiguresPositionOfBlock
    FiguresModesOfRefused
    FiguresCallsAmongErrors
    FiguresErrorsThatFit
    FiguresLambdaUncounted
    FiguresSumsWrapped
    FiguresManyAfterShort
    FiguresNotCleared
    FiguresRefusedStepWrites
    FiguresInputChanged
}

#[cfg(feature = "faults")]
pub fn planted(fault: Fault) -> bool {
    use std::sync::OnceLock;
    static CHOSEN: OnceLock<Option<Fault>> = OnceLock::new();
    *CHOSEN.get_or_init(chosen) == Some(fault)
}

#[cfg(feature = "faults")]
fn chosen() -> Option<Fault> {
    let chosen_by = if cfg!(feature = "faults-of-the-model") { "ORACLE_MODEL_FAULT" } else { "ORACLE_FAULT" };
    let name = std::env::var(chosen_by).ok().filter(|name| !name.is_empty())?;
    let found = ALL.iter().find(|(known, _)| *known == name);
    Some(found.unwrap_or_else(|| panic!("no fault is called {name}")).1)
}

#[cfg(not(feature = "faults"))]
pub const fn planted(_fault: Fault) -> bool {
    false
}
