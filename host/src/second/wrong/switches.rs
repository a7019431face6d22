//! The switches: every wrong reading that the second reader can be told to make.

use super::super::answers::number;
use super::super::source::Origin;
use super::parameters::{self, Gap, Held, IllFormed, Purpose, Spot, Within, Written};

/// The switches without a parameter are named one by one; [`Wrong::all`] adds those with one.
macro_rules! switches {
    ($($(#[$about:meta])* $name:ident,)*) => {
        /// A wrong reading.
        #[derive(Clone, Copy, Debug, PartialEq, Eq)]
        pub enum Wrong {
            $($(#[$about])* $name,)*
            /// The character after a backslash is taken for punctuation exactly when it is none.
            EscapeOf(char),
            /// A delimiter in an escape counts.
            EscapeIgnored(Within),
            /// A backslash that an escape holds starts another.
            EscapesOverlap(Within),
            /// The escapes in it keep their backslash.
            BackslashKept(Written),
            /// The character is no space there.
            NoSpace(Gap, char),
            /// No space is needed there.
            SpaceNotNeeded(Gap),
            /// The character is written as it is there.
            Unescaped(Written, char),
            /// An LF in it becomes a space, as in code.
            LineFeedSpaced(Written),
            /// The byte stays in an href exactly when it should not.
            HrefOf(u8),
            /// An empty title of one has an attribute.
            EmptyTitleWritten(Held),
            /// There is no image with the tail of a link of this kind.
            NoImage(u32),
            /// In A it has its tags.
            TagsInAlt(Held),
            /// In A there is nothing of it.
            LeftOutOfAlt(Held),
            /// The character is no space in a comparison of labels.
            NoLabelSpace(char),
            /// The character is a space too in a comparison of labels.
            LabelSpaceToo(char),
            /// The character is trimmed at the ends of a label too.
            TrimmedToo(char),
            /// The character is folded exactly when it should not be, to the one 32 later.
            FoldOf(char),
            /// What the character folds to ends in the next one.
            EntryOff(char),
            /// The character folds to the first of the several alone.
            FirstOfSeveral(char),
            /// The character folds to the last of the several alone.
            LastOfSeveral(char),
            /// The character that folds to several folds to U+0000.
            ZeroOfSeveral(char),
            /// A character past the rows is folded too.
            LaterFolded(char),
            /// Of a character that folds to several the first alone is compared there.
            SeveralCut(Spot),
            /// A to Z alone are folded where labels are compared for this.
            FoldsAscii(Purpose),
            /// It is folded on the page.
            FoldedOnPage(Written),
            /// The refusal with this number is given though exactly enough is lent.
            ExactIsShort(u32),
            /// The refusal with this number comes with the rows or bytes for which there is room.
            WritesWhatFits(u32),
            /// Such bytes are taken for characters.
            Forgives(IllFormed),
            /// The refusal with this number is not given for the sheet.
            SheetUnchecked(u32),
            /// An answer with this number names the sheet always.
            NamesSheet(u32),
            /// The refusal with this number names the note always.
            NamesNote(u32),
            /// Where the enquiry finds a destination it names this text always.
            EnquiryNames(Origin),
            /// The enquiry's part is one of this text always.
            PartOf(Origin),
            /// A reference's destination or title on the page is taken from this text always.
            ReferenceFrom(Origin, Written),
            /// An inline link's destination or title on the page is taken from the sheet.
            InlineFromSheet(Written),
            /// Note and sheet are read as one text, with so many LFs between them.
            OneText(usize),
            /// It is compared with its escapes undone.
            UndoneCompared(Written),
            /// It is compared folded.
            FoldedCompared(Written),
            /// It is compared as labels are.
            ComparedAsLabels(Written),
            /// Its length is compared in the place of its bytes.
            LengthsCompared(Written),
            /// It is compared with the delimiter before it.
            DelimitersCompared(Written),
            /// What is compared is taken from this text always.
            ComparedFrom(Origin, Written),
            /// Definitions of this text alone are compared.
            OneTextCompared(Origin),
            /// Conflicts are judged after the refusal with this number, not after 3; 0 before all.
            ConflictsAfter(u32),
        }

        /// The switches without a parameter.
        const PLAIN: &[Wrong] = &[$(Wrong::$name),*];
    };
}

switches! {
    // Refusals 1 and 2.
    NoteOneShorter,
    NoteOneLonger,
    /// The note's limit counts characters.
    NoteInCharacters,
    IllFormedBeforeTooLong,
    /// An ill-formed sequence is looked for first, then a byte 0 or 13.
    IllFormedBeforeBadByte,
    /// Byte 0 is a good character.
    NulGood,
    /// Byte 13 is a good character.
    ReturnGood,
    /// Other control characters are bad too.
    ControlsBad,
    /// The place is where the ill-formed sequence ends.
    PlaceAfterIllFormed,
    /// The place counts characters.
    BadPlaceInCharacters,

    // Refusals 1 and 2 of the two texts.
    SheetCheckedFirst,
    /// Refusal 1 is checked on both texts, then refusal 2.
    LengthsFirst,
    /// The limit is that of the note and the sheet together.
    LimitOfBothTexts,
    /// The place of a bad byte in the sheet counts on from the note's end.
    BadPlaceGoesOn,
    /// The note's definitions are stored before the sheet is checked.
    StoredBeforeSheet,

    // Refusals 3 to 6: order, need, values, counts.
    DeepBeforeDefinitions,
    SpansBeforeDeep,
    PageBeforeSpans,
    /// A part of a row counts as a row.
    PartRowsCount,
    /// Whole rows are counted without their line.
    LineTakesNoRoom,
    /// Whole definition rows are counted without their text.
    TextTakesNoRoom,
    /// Refusal 3 counts the note's definitions alone; of the rows, those are stored for which there is room.
    NoteRowsCounted,
    /// The value is what is missing, not what is needed.
    ValueIsMissing,
    LengthIsValue,
    CountsOnRefusal,

    // What is left in lent memory.
    /// After 4 and 5 the definition table is unchanged.
    DefinitionsTakenBack,
    /// After 6 the tables are unchanged.
    TablesTakenBack,
    /// Rows past those in use are cleared.
    DefinitionTableCleared,
    SpanTableCleared,
    PageCleared,

    // Blocks and definitions.
    BlankLineIsEmpty,
    BlankLineOfUnicodeSpace,
    FinalLineFeedKept,
    LastSpacesStripped,
    FirstSpacesStripped,
    TwoSpacesBefore,
    FourSpacesBefore,
    TabBefore,
    SpaceBeforeColon,
    SpaceAfterColonNeeded,
    /// A definition has to end with an LF, at the note's end too.
    LineEndNeedsLineFeed,
    /// A title that is not followed by an end of line makes the definition fail.
    BadTitleNoDefinition,
    /// What stands on the line after the destination is passed over.
    RestOfLineDropped,
    OneDefinitionABlock,
    /// A definition is read on past its block.
    DefinitionPastBlock,
    DefinitionAfterText,
    /// A definition with the label of an earlier one has no row.
    RepeatsLeftOut,
    LastDefinition,

    // The sheet.
    SheetIgnored,
    /// In a lookup the sheet's definitions come before the note's.
    SheetLookedUpFirst,
    /// A definition of the sheet with the label of an earlier one has no row.
    HiddenLeftOut,
    /// The sheet's rows are stored before the note's.
    SheetRowsFirst,
    /// The leading number is 0 always.
    LeadingZero,
    /// The leading number is 1 for the note and 2 for the sheet.
    TextsFromOne,
    /// The places of a definition of the sheet count on from the note's end.
    SheetPlacesGoOn,
    /// The line of a definition of the sheet is counted in the note.
    SheetLinesInNote,
    /// The lines of the sheet go on from those of the note.
    SheetLinesGoOn,
    /// A definition's number is counted in its own text.
    NumberInOwnText,
    /// The spans of the sheet's paragraphs have rows.
    SheetSpans,
    /// The sheet's paragraphs stand on the page.
    SheetOnPage,
    /// Refusal 4 reads the sheet too.
    SheetDeep,

    // Conflicting definitions.
    /// Refusal 9 is given though it is for no release.
    ConflictsAlways,
    ConflictsIgnored,
    DestinationsUncompared,
    /// Neither the bytes of titles nor their presence are compared.
    TitlesUncompared,
    /// Of titles, only their presence is compared.
    TitleBytesUncompared,
    /// An empty title and none are the same.
    EmptyTitleIsNone,
    /// The places of destination and title are compared, not their bytes.
    PlacesCompared,
    /// A definition with the label of an earlier one conflicts, whatever it says.
    RepeatsConflict,
    /// Definitions are compared whatever their labels.
    AnyLabelsConflict,
    /// Definitions are compared where the bytes of their labels agree.
    LabelBytesCompared,
    /// A definition is compared with the one before it alone.
    NeighboursCompared,
    /// A definition is compared with those of its own text alone.
    TextsComparedApart,
    /// A definition is compared with those of the other text alone.
    TextsComparedAcross,
    LastConflict,
    /// Of two conflicts the one whose earlier definition is the first is answered.
    FirstOfEarlier,
    /// The value is the row number from 0.
    ConflictFromZero,
    /// The value is the row number of the earlier definition.
    ConflictIsEarlier,
    /// The value is counted in the definition's own text.
    ConflictInOwnText,
    /// The value is the definition's line.
    ConflictIsLine,
    /// The value is where the definition starts.
    ConflictIsPlace,
    /// The answer names the text of the definition.
    ConflictNamesItsText,
    /// After 9 the definition table is unchanged.
    ConflictTakesBack,
    /// After 9 the definition table holds the rows before the one that is answered.
    RowsBeforeConflict,
    /// After 9 the span table holds its rows, where as many are lent.
    SpansDespiteConflict,
    /// After 9 the page stands, where as many bytes are lent.
    PageDespiteConflict,

    // Labels.
    LabelOneShorter,
    LabelOneLonger,
    LabelInBytes,
    /// The label's limit counts characters after folding.
    LabelCountedFolded,
    BlankLabel,
    BracketInLabel,
    LabelOnOneLine,
    NotTrimmed,
    /// Inner runs of spaces stay as they are.
    RunsKept,
    /// Inner runs of spaces are dropped.
    RunsDropped,
    /// Other Unicode space counts as space.
    UnicodeLabelSpace,
    EscapesUndoneInLabels,
    /// Labels that start with other bytes, letters of ASCII folded, are unequal.
    FirstBytesCompared,
    /// Labels of other lengths in bytes are unequal.
    LabelLengthsCompared,
    /// Labels of other numbers of characters are unequal.
    LabelCountsCompared,

    // Folding.
    /// Nothing is folded.
    NotFolded,
    /// A to Z alone are folded.
    OnlyAsciiFolded,
    /// Letters are set in lower case in the place of folding, those past the rows too.
    LowerCased,
    /// Letters are set in upper case in the place of folding, those past the rows too.
    UpperCased,
    /// Characters that fold to several are not folded.
    SimplyFolded,
    /// The rows for Turkic languages hold: I folds to U+0131, and U+0130 to i.
    TurkicFolded,
    /// A letter and the accent after it are the letter with that accent.
    Composed,
    /// A byte that stands in no character is left out.
    StrayDropped,
    /// Bytes that stand in no character are U+FFFD.
    StrayReplaced,
    /// A byte that stands in no character is folded as the character with its number.
    StrayAsLatin,
    /// A byte that starts a character takes the next ones with it, whatever they are.
    StrayJoined,
    /// After a byte that stands in no character nothing is folded.
    StrayEndsFolding,
    /// An ASCII character in two bytes is folded, and in one.
    OverlongFolded,

    // Destinations and titles.
    OpeningInPointed,
    LineFeedInPointed,
    NoSpaceInPointed,
    /// A destination that starts with `<` and is not of the first form may be of the second.
    PointedFallsBack,
    PointsInDestination,
    ControlInBare,
    DeleteInBare,
    LaterControlEndsBare,
    UnicodeSpaceEndsBare,
    EmptyBare,
    ParenthesesLeftOpen,
    /// Parentheses nest 32 deep at most.
    ParenthesesLimited,
    NoApostropheTitle,
    NoParenthesisTitle,
    /// `(` inside a title in parentheses.
    OpeningInTitle,
    TitleOnOneLine,
    QuotesInTitle,

    // Code spans.
    ClosedInsideLongerRun,
    /// Of a run that closes nowhere only the first backtick is plain.
    ShorterRunOpens,
    /// A run after an escaped backtick never opens a code span.
    NoCodeAfterEscapedBacktick,
    /// A backslash keeps the backticks after it from closing.
    BackslashInCode,
    CodeOnOneLine,
    /// A `]` inside backticks closes.
    BracketInCode,

    // Pairs, links and tails.
    /// A closing bracket that makes no link leaves its opening bracket to a later one.
    NoLinkNoPair,
    LinksNest,
    OuterLinkKept,
    /// A link bars only the pair next around it.
    NearLinkBars,
    /// A tail is read on past its paragraph.
    TailPastParagraph,
    /// Only definitions that stand before the paragraph are seen.
    LaterDefinitionsUnseen,
    DestinationNeeded,
    SpaceBeforeTail,
    ShortcutFirst,
    /// Where `(` follows and no inline tail, there is no tail at all.
    BadInlineNoTail,
    UndefinedFallsBack,
    /// A full reference is looked up by its text.
    FullByItsText,
    /// A text need not be a label, only compare equal to one.
    TextUnchecked,
    BlankCollapses,

    // Images.
    /// `!` is plain wherever it stands.
    ImagesIgnored,
    /// `[` opens an image after an escaped `!` too.
    EscapedBangOpens,
    /// `!\[` opens an image.
    EscapedBracketOpens,
    /// `! [` opens an image.
    SpacedBracketOpens,
    /// Each `!` before `![` belongs to the opening.
    BangsOpenTogether,
    /// After `!!` no image opens.
    BangsStandTogether,
    /// `![` counts for no pair and makes none.
    ImageOpeningsUnpaired,
    /// A pair that `![` opens is a link.
    ImageIsLink,
    /// An image holds no link.
    LinkBarsImage,
    /// An image holds no image.
    ImageBarsImage,
    /// A link holds no image.
    ImageBarsLink,
    /// A link may hold an image that holds a link.
    ImageHidesLink,

    // Brackets open at once.
    OneBracketFewer,
    OneBracketMore,
    LastDeepParagraph,
    DeepPlaceFromParagraph,
    DeepPlaceInCharacters,
    PairedStayOpen,
    /// A `]` that pairs with nothing makes room for one more.
    UnpairedCloses,
    /// What a paragraph leaves open stays open in the next.
    OpenCarriedOver,
    LinkClosesAll,
    /// The place is that of the `!`.
    DeepPlaceAtBang,
    /// `![` does not count.
    LinkOpeningsCounted,
    /// `![` counts two.
    ImageOpeningsCountedTwice,
    /// `[` and `![` are counted apart.
    SortsCountedApart,
    /// An image's bracket stays open.
    ImageStaysOpen,

    // Rows.
    RowsByStart,
    /// Code spans first, then links.
    RowsByKind,
    /// A code span in a link's text has no row.
    CodeInLinkLeftOut,
    EndsInclusive,
    PlacesInCharacters,
    PlacesFromParagraph,
    BackticksInText,
    BracketsInText,
    BracketsInLabelRow,
    SpanWithoutTail,
    /// Collapsed 5, shortcut 4.
    KindsSwapped,
    NumberFromZero,
    /// A reference's row has no destination and title.
    ReferenceWithoutTarget,
    EmptyTitleAbsent,
    EmptyDestinationAbsent,
    /// An absent title is empty, at the destination's end.
    AbsentTitleAtEnd,

    // Rows of images.
    /// An image's span starts at its `[`.
    ImageFromBracket,
    /// An image's text starts with its `[`.
    ImageTextFromBracket,
    /// 2 to 5.
    ImageKindsAsLinks,
    /// 7 to 10.
    ImageKindsOneMore,
    /// 6 shortcut, 7 collapsed, 8 full, 9 inline.
    ImageKindsBackwards,
    ImagesWithoutRows,
    /// A code span in an image's description has no row.
    CodeInImageLeftOut,
    LinkInImageLeftOut,
    ImageInLinkLeftOut,
    ImageInImageLeftOut,
    /// Links and code spans first, then images.
    ImagesAfterLinks,

    // Lines.
    /// A line is the LFs before it, and no more.
    LinesFromZero,
    /// Other characters end a line too.
    OtherLineEnds,
    BlankLinesUncounted,
    /// An LF inside an earlier definition does not count.
    DefinitionLinesUncounted,
    /// An LF inside an earlier code span of the paragraph does not count.
    CodeLinesUncounted,
    /// An LF inside an earlier tail of the paragraph does not count.
    TailLinesUncounted,
    LinesFromParagraph,
    /// A span's line is that of its end.
    LineOfSpanEnd,
    /// A definition's line is that of its destination.
    LineOfDestination,
    /// A link's line is that of its destination.
    LineOfTarget,
    /// A link's line is that of its paragraph's first opening bracket.
    LineOfFirstBracket,
    /// A link's line is that of the last opening bracket before its closing one.
    LineOfLastBracket,

    // The page.
    NoLineFeedAfterParagraph,
    LinkTextAsItStands,
    ApostropheEscaped,
    AmpersandByNumber,
    SmallHexadecimal,
    LineFeedInCodeKept,
    /// No space is dropped.
    CodeSpacesKept,
    /// Every space at an end is dropped.
    CodeTrimmed,
    /// A space is dropped though there is none at the other end.
    CodeSpaceAtOneEnd,
    /// Content that is all spaces loses two.
    CodeAllSpacesDropped,
    /// Judged before the LFs became spaces.
    CodeJudgedFirst,
    /// A tab counts as a space.
    CodeTabDropped,

    // Images on the page.
    /// The `!` is left before an image.
    BangBeforeImage,
    /// Where `![` opens no image only its `[` is left.
    UnusedBangDropped,
    /// The description stands after the image.
    DescriptionOnPage,
    /// The source is written as text is.
    SourceAsText,
    /// The source of an image whose definition is the sheet's is taken from the note.
    SourceFromNote,
    ImageTitleLeftOut,
    NoSlash,
    SlashUnspaced,
    AltMissing,
    /// An empty A has no attribute.
    EmptyAltMissing,
    AltAfterTitle,
    /// A is what stands between the brackets.
    AltAsItStands,
    AltTrimmed,
    /// A ends at the first LF.
    AltOnOneLine,
    /// The four characters are replaced twice in A.
    AltEscapedAgain,
    /// An inner image's A is replaced again.
    InnerAltEscapedAgain,
    /// What looks like a tag is left out of A.
    PointedLeftOutOfAlt,
    /// A code span keeps its LFs and all its spaces in A.
    CodeInAltAsItStands,

    // The enquiry.
    /// The enquiry gives refusal 4 too.
    EnquiryRefusesDeep,
    /// The enquiry gives refusal 9 too.
    EnquiryRefusesConflicts,
    LabelBeforeNote,
    /// The label is checked after the note and before the sheet.
    LabelBeforeSheet,
    /// A label that is none is an undefined label.
    NoLabelIsUndefined,
    /// The label is judged without the bracket after it, which its last backslash would escape.
    LabelJudgedAlone,
    /// The label may have its brackets.
    LabelWithBrackets,
    /// An empty destination is none.
    EmptyDestinationUndefined,
    /// The value is the definition's number.
    ValueIsDefinition,
}

impl Wrong {
    /// Every switch, each with all its parameters.
    pub fn all() -> Vec<Wrong> {
        [PLAIN.to_vec(), parameters::all()].concat()
    }

    /// Whether it concerns the enquiry alone.
    pub fn is_of_enquiry(self) -> bool {
        matches!(
            self,
            Wrong::EnquiryRefusesDeep
                | Wrong::EnquiryRefusesConflicts
                | Wrong::LabelBeforeNote
                | Wrong::LabelBeforeSheet
                | Wrong::NoLabelIsUndefined
                | Wrong::LabelJudgedAlone
                | Wrong::LabelWithBrackets
                | Wrong::EmptyDestinationUndefined
                | Wrong::ValueIsDefinition
                | Wrong::FoldsAscii(Purpose::Enquiry)
                | Wrong::EnquiryNames(_)
                | Wrong::PartOf(_)
                | Wrong::NamesSheet(number::LABEL_UNDEFINED | number::NOT_A_LABEL)
        )
    }

    /// Whether it concerns what all three entries do with the two texts.
    pub fn is_of_both_texts(self) -> bool {
        matches!(
            self,
            Wrong::SheetCheckedFirst
                | Wrong::LengthsFirst
                | Wrong::LimitOfBothTexts
                | Wrong::BadPlaceGoesOn
                | Wrong::SheetIgnored
                | Wrong::SheetLookedUpFirst
                | Wrong::SheetUnchecked(_)
                | Wrong::NamesNote(_)
                | Wrong::NamesSheet(number::TEXT_TOO_LONG | number::TEXT_ILL_FORMED)
                | Wrong::OneText(_)
        )
    }

    /// Whether it concerns which labels are equal.
    pub fn is_of_comparison(self) -> bool {
        matches!(
            self,
            Wrong::NotTrimmed
                | Wrong::RunsKept
                | Wrong::RunsDropped
                | Wrong::NoLabelSpace(_)
                | Wrong::UnicodeLabelSpace
                | Wrong::LabelSpaceToo(_)
                | Wrong::TrimmedToo(_)
                | Wrong::EscapesUndoneInLabels
                | Wrong::FirstBytesCompared
                | Wrong::LabelLengthsCompared
                | Wrong::LabelCountsCompared
        ) || self.is_of_folding()
    }

    /// Whether it concerns what the characters of labels fold to.
    fn is_of_folding(self) -> bool {
        matches!(
            self,
            Wrong::NotFolded
                | Wrong::OnlyAsciiFolded
                | Wrong::LowerCased
                | Wrong::UpperCased
                | Wrong::SimplyFolded
                | Wrong::TurkicFolded
                | Wrong::Composed
                | Wrong::FoldOf(_)
                | Wrong::EntryOff(_)
                | Wrong::FirstOfSeveral(_)
                | Wrong::LastOfSeveral(_)
                | Wrong::ZeroOfSeveral(_)
                | Wrong::LaterFolded(_)
                | Wrong::SeveralCut(_)
        )
    }

    /// Whether it concerns labels that are no good text, which only the comparison takes.
    pub fn is_of_ill_formed_labels(self) -> bool {
        matches!(
            self,
            Wrong::StrayDropped
                | Wrong::StrayReplaced
                | Wrong::StrayAsLatin
                | Wrong::StrayJoined
                | Wrong::StrayEndsFolding
                | Wrong::OverlongFolded
        )
    }

    /// How many switches there are, one with a parameter counted once.
    pub fn kinds() -> usize {
        let kind = |wrong: Wrong| std::mem::discriminant(&wrong);
        let all = Wrong::all();
        let first = |index: &usize| all[..*index].iter().all(|w| kind(*w) != kind(all[*index]));
        (0..all.len()).filter(first).count()
    }
}
