//! The limits and the turns of the definitions that a run has to reach.

/// Makes an enum of the limits with the words for them, each named once.
macro_rules! limits {
    ($($limit:ident $words:literal,)*) => {
        /// A limit, or a turn of the definitions.
        #[derive(Clone, Copy, Debug, PartialEq, Eq)]
        pub enum Limit {
            $(#[doc = $words] $limit,)*
        }

        impl Limit {
            /// All of them, in the order of the tally's rows.
            pub const ALL: &'static [Limit] = &[$(Limit::$limit,)*];

            /// The words for it in the tally.
            pub fn words(self) -> &'static str {
                match self {
                    $(Limit::$limit => $words,)*
                }
            }
        }
    };
}

limits! {
    OpenEmpty "open: the empty text",
    OpenNodes255 "open: 255 nodes",
    OpenNodes256 "open: 256 nodes",
    OpenEdges511 "open: 511 edges",
    OpenEdges512 "open: 512 edges",
    OpenMays255 "open: 255 permitted triples",
    OpenMays256 "open: 256 permitted triples",
    OpenTop "open: a node numbered 65535",
    OpenDeclared "open: 64 classes and 64 names",
    OpenLong "open: 20,000 bytes or more",
    RuleLong "rule: 230 bytes or more",
    NewNode256 "new node: the 256th",
    NewNodeTop "new node: number 65535",
    NewNode0 "new node: number 0, in an empty drawing",
    NewNodeFreed "new node: after a deletion in a full drawing",
    NewEdge512 "new edge: the 512th",
    Arms0 "node addition: new, 0 arms",
    Arms1 "node addition: new, 1 arm",
    Arms2 "node addition: new, 2 arms",
    Arms3 "node addition: new, 3 arms",
    Arms4 "node addition: new, 4 arms",
    AllServed "node addition: all matchings served",
    SomeServed "node addition: some matchings served",
    NothingPut "edge addition: matchings, nothing new",
    DropEdges "node deletion: edges go too",
    CutEdges "edge deletion: edges go",
    GroupWith "abstraction: new, members with a-edges",
    GroupWithout "abstraction: new, members without a-edge",
    GroupServed "abstraction: all groups served",
    GroupSomeServed "abstraction: some groups served",
    GroupValues "abstraction: new, members of a value class",
    Nine1 "9 at node addition",
    Nine5 "9 at abstraction",
    NineTen "9 where 10 holds too",
    Ten1 "10 at node addition",
    Ten5 "10 at abstraction",
    TenEleven "10 where 11 holds too",
    Eleven1 "11 at node addition",
    Eleven2 "11 at edge addition",
    Eleven5 "11 at abstraction",
    ElevenTwelve "11 where 12 holds too",
    PatternEmpty "pattern: empty",
    PatternNodes6 "pattern: 6 nodes, matching",
    PatternEdges8 "pattern: 8 edges, matching",
    PatternLoop "pattern: a loop, matching",
    PatternParts "pattern: several components, matching",
    PatternGiven "pattern: a value given, matching",
    TwoOnOne "matching: two pattern nodes on one node",
    ListingLong "listing: ten matchings or more, to the end",
    ListingNone "listing: no matching",
    NinthCopy "undo: refused after a ninth copy was dropped",
    ManyApplies "20 applies in a row",
    AfterNoNode "after: a number that no node has",
    AfterHuge "after: a number of 2^63 or more",
    AfterEmpty "after: the empty list, accepted",
    AfterShort "14: list too short",
    AfterLong "14: list too long",
    SaveLong "save: a longer buffer",
    SaveExact "save: a buffer of the file's length",
    SaveShort "save: a buffer one byte too short",
    SaveNothing "save: an empty buffer, too short",
    Unended "1: last line without byte 10",
    EmptyLine "1: an empty line",
    Return "1: a line that ends with CR LF",
    Space "1: a space",
    OtherFile "1: a key of the other file",
    WrongCase "1: a key in the wrong case",
    LeadingZero "1: a leading zero",
    Sign "1: a sign",
    ManyDigits "1: a number of more than 20 digits",
    Number64 "1: the number 64",
    Number65536 "1: the number 65536",
    Number2To32 "1: the number 2^32",
    Number2To64 "1: the number 2^64",
}
