//! Mistakes that can be planted, so that it shows that exploration would find them.

macro_rules! mistakes {
    ($($name:ident: $what:literal,)*) => {
        #[derive(Clone, Copy, Debug, PartialEq, Eq, Hash)]
        pub enum Mistake { $($name,)* }

        impl Mistake {
            pub const ALL: &[Mistake] = &[$(Mistake::$name,)*];

            pub fn what(self) -> &'static str {
                match self { $(Mistake::$name => $what,)* }
            }
        }
    };
}

impl Mistake {
    /// No walk and no exploration finds these: with three copies the other rules keep what they are to keep.
    pub const UNSEEN: &[Mistake] = &[Mistake::LeadsAgain, Mistake::LastKept, Mistake::PromiseKept, Mistake::BaseKept];
}

mistakes! {
    AcceptsBelow: "accepts below its promise",
    IgnoresTheirs: "leads without looking at the other's proposal",
    TakesLower: "leads with the proposal of the lower ballot",
    ProposesAgain: "proposes what waits though something is pending",
    LeadsAgain: "leads though it has proposed under the ballot",
    LeadsOn: "leads on under a promise that is another's",
    LearnsByVersion: "learns without comparing ballots",
    SendsFirst: "sends before it stores",
    KeepsProposal: "keeps its proposal when it applies",
    DropsProposal: "drops its proposal when recovery ends at its own version",
    LastKept: "last isn't taken over with the state",
    PromiseKept: "the promise isn't raised by a part",
    RecoveringAccepts: "accepts while it recovers",
    RecoveringCounts: "counts a copy that recovers as level",
    BaseKept: "base isn't lowered to a part's version",
    TopKept: "top isn't raised to a part's version",
    TopIgnored: "sends only changes though top is above its version",
    FloorIgnored: "sends only changes though base is below its floor",
    FloorNotRaised: "forgets a marker without raising the floor",
    FloorNotTaken: "a part's floor isn't taken over",
    MarkersLeftOut: "leaves markers out where all blocks are sent",
    OtherRange: "takes parts of a want with another base or top",
    OtherKey: "takes parts of a want with another key",
    LowerPart: "takes parts of a version below its own",
    TwoVersions: "takes a pass at two versions as one",
    RangeForgotten: "a fall forgets base and top",
    RangeStays: "all is forgotten, but base and top stay",
    SessionsKept: "sessions aren't taken over with the rest",
    RestKept: "the rest isn't taken over with the sessions",
    CounterAlone: "compares bundles by the counter alone, for new",
    SettlesByCounter: "compares bundles by the counter alone, for settling",
    IncarnationKept: "the incarnation isn't raised",
    BusyEarly: "says busy where seven wait",
}
