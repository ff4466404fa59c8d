//! The rules that a test may break, one at a time.

#[derive(Clone, Copy, Debug, PartialEq, Eq)]
pub enum Rule {
    /// Formula 1 rounds up. Broken: down.
    RoundUp,
    /// Each link is scaled, then summed. Broken: the path's total is scaled once (where paths are listed).
    ScaleEachLink,
    /// Problem one is tried first. Broken: problem two is.
    ProblemOneFirst,
    /// Problem two is tried where problem one has no solution. Broken: never.
    ProblemTwoToo,
    /// Distance counts usable links. Broken: any links.
    DistanceOfUsable,
    /// A kept weight equal to its bound is within it. Broken: it is not.
    EqualBound,
    /// A scaled weight of x is within x. Broken: it is not.
    EqualScaled,
    /// A solution of least kept weight is granted. Broken: one of most (where paths are listed).
    LeastKept,
    /// Free units equal to the request's are enough. Broken: they are not.
    EqualUnits,
    /// An admission takes units. Broken: it takes none.
    AdmissionTakes,
    /// A release gives units back. Broken: they stay taken.
    ReleaseFrees,
    /// An admission's number is checked before the search. Broken: after it.
    NumberBeforeSearch,
    /// In a well-formed area the circuit numbers differ. Broken: they may be equal.
    NumbersDiffer,
    /// Records are read from where the trailer says. Broken: from the file's beginning.
    RecordsFromOffset,
    /// A path is overqualified by weight·x + l·bound ≤ (x+1)·bound. Broken: (x+2)·bound.
    Overqualified,
    /// The choice among best paths depends on which links are usable. Broken: it does not.
    ChoiceByUsable,
    /// Only quotes are struck. Broken: the first admission is, too.
    QuotesAlone,
    /// A class table is checked before the class. Broken: after it.
    TableBeforeClass,
    /// Every row of a class table is held to the ranges. Broken: the first alone.
    EveryRow,
    /// A class table may have 64 rows. Broken: 63 at most.
    FullClassTable,
    /// A bound of 0 is in its range. Broken: it is not.
    ZeroBounds,
    /// With a bound of 0 nothing may be spent. Broken: it is no bound, and every link is as good as free.
    ZeroBinds,
    /// Where nothing may be spent, one link that weighs something is too much. Broken: it is scaled to x.
    ZeroOverX,
    /// A bound of 0 is less than a bound of 1. Broken: it is read as 1.
    ZeroIsNotOne,
    /// A message is held at inner nodes alone. Broken: at t as well.
    NotHeldAtTarget,
    /// Problem two scales a link's delay with the hold time of the inner node behind it. Broken: the delay alone.
    HoldScaled,
    /// A hold time is that of the inner node behind a link. Broken: of the node that the link leaves.
    HoldOfInnerNode,
    /// An admission puts its circuit at the place of its number. Broken: behind the last one.
    PlacedByNumber,
    /// In a well-formed area a held circuit's unused path words are 0. Broken: they may hold anything.
    UnusedClear,
    /// A listing is by rising number. Broken: in the order of admission.
    ListedByNumber,
    /// A refused job does not stop the later ones. Broken: it does.
    JobsGoOn,
    /// A job finds the units taken that an earlier job of its list was given. Broken: it finds them free.
    JobsSeeUnits,
    /// A job finds the number held that an earlier job of its list was given. Broken: it does not.
    JobsSeeNumbers,
    /// A job list is checked before the room for its answers. Broken: after it.
    JobsBeforeRoom,
    /// The call gives the number of jobs. Broken: of granted jobs.
    EveryJobCounts,
    /// A job list may have 64 jobs. Broken: 63 at most.
    FullJobList,
    /// Unused answer words of a job are 0. Broken: they keep theirs.
    AnswersClear,
    /// Line 5 of the paper puts 0 at each k of the source. Broken: at k = 0 alone.
    SourceAtEachK,
    /// Line 7 takes a k' of x. Broken: less than x alone.
    LastColumn,
    /// Line 8 asks for a sum that is less. Broken: an equal one is taken too.
    LessAlone,
    /// In line 10 the link is kept for u. Broken: u is.
    LinkKept,
    /// Line 21 makes n - 1 rounds. Broken: one fewer.
    EveryRound,
    /// In line 22 k rises. Broken: it falls.
    KRises,
    /// In line 23 the links come in table order. Broken: in falling order.
    LinksRise,
    /// Line 3 puts NIL at the source too. Broken: what stood there stays.
    NilAtSource,
}

impl Rule {
    /// Those that only the paper's lines read.
    pub const OF_LINES: [Rule; 8] = [
        Rule::SourceAtEachK,
        Rule::LastColumn,
        Rule::LessAlone,
        Rule::LinkKept,
        Rule::EveryRound,
        Rule::KRises,
        Rule::LinksRise,
        Rule::NilAtSource,
    ];
}

/// Document 01's rules, all of them or all but one.
#[derive(Clone, Copy, Debug, Default)]
pub struct Rules {
    broken: Option<Rule>,
}

impl Rules {
    pub fn all() -> Rules {
        Rules { broken: None }
    }

    pub fn without(rule: Rule) -> Rules {
        Rules { broken: Some(rule) }
    }

    pub fn hold(&self, rule: Rule) -> bool {
        self.broken != Some(rule)
    }

    /// Whether all rules hold but perhaps one of these.
    pub fn hold_beside(&self, rules: &[Rule]) -> bool {
        self.broken.is_none_or(|broken| rules.contains(&broken))
    }

    pub fn all_hold(&self) -> bool {
        self.broken.is_none()
    }
}
