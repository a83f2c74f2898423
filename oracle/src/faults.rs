//! Mistakes that can be planted in the second writing, to see that the comparison finds them.
use crate::entries::Group;
use std::sync::atomic::{AtomicUsize, Ordering};

/// The entries in which a fault must be found: those of a group, or those that read and those that give a mesh.
#[derive(Clone, Copy, PartialEq, Eq)]
enum In {
    Reading,
    Tearing,
    Both,
    Hosting,
}
/// The faults, and where each must be found.
macro_rules! faults {
    ($($(#[$doc:meta])* $name:ident: $place:ident,)*) => {
        /// Each must be found.
        #[derive(Clone, Copy, PartialEq, Eq, Debug)]
        pub enum Fault {
            Nothing,
            $($(#[$doc])* $name,)*
        }
        const FAULTS: &[(Fault, In)] = &[$((Fault::$name, In::$place)),*];
    };
}
faults! {
    /// Groups are numbered by their union root, here the last element, not by first appearance.
    UnionRoot: Both,
    /// Groups of side 1 are numbered with those of side 0.
    SidesMixed: Reading,
    /// A shared corner is taken for a facet when grouping.
    CornerGroups: Both,
    /// A shared corner is taken for a facet when counting reach.
    CornerReach: Reading,
    /// Reach is counted inside the fan only.
    ReachInFan: Both,
    /// Reach goes across facets that hold v.
    ReachThroughV: Reading,
    /// A minimum of 0 is not counted as 1, and 1 is asked where 2 is.
    MinimumLess: Both,
    /// Pieces are joined by edges and boundary too.
    PiecesByEdges: Reading,
    /// A shared corner is taken for a facet when counting pieces, as the count of bodies does.
    PiecesByCorner: Reading,
    /// Triangles are joined that share exactly two particles: a doubled one is a piece of its own.
    PiecesExactly: Reading,
    /// Two shared particles are asked of straps.
    StrapsByTwo: Reading,
    /// A side joins only where the other triangle has it the other way round.
    SidesOneWay: Reading,
    /// The blade's ends are left out.
    BladeOpenEnd: Reading,
    /// Minus zero becomes zero in a hit.
    BladeZero: Reading,
    /// Offsets of one sign whose product underflows are a miss.
    BladeSigns: Reading,
    /// The hit point is computed exactly and rounded once.
    ExactPoint: Both,
    /// The hit point is computed as an insertion's is.
    LerpPoint: Both,
    /// The hit point's y stands before its x.
    PointTurned: Reading,
    /// A rest volume keeps its sign.
    SignedVolume: Reading,
    /// A strap counts by its rest length.
    PresentLength: Reading,
    /// One listed corner is enough.
    AnyCorner: Reading,
    /// The root is cut off instead of rounded.
    RootCut: Reading,
    /// The bytes behind the answer are left as they were.
    DirtyTail: Both,
    /// A refusal leaves the answer's bytes as they were.
    DirtyRefusal: Both,
    /// 3 is found before 2.
    ThreeBeforeTwo: Both,
    /// A NaN pattern passes.
    NanPasses: Reading,
    /// A list may name a particle twice.
    ListTwice: Reading,
    /// The counts are multiplied in 32 bits.
    ShortLength: Reading,
    /// One byte too many is cleared.
    WritesPast: Both,
    /// The copy of an edge keeps its impulse.
    CopyImpulse: Tearing,
    /// A boundary entry follows the lowest group that holds its far end, not the first element's.
    BoundaryLowest: Tearing,
    /// A copy is not in the log.
    CopyUnlogged: Tearing,
    /// A copy is its own root.
    CopyOwnRoot: Tearing,
    /// A copy is at rest.
    CopyAtRest: Tearing,
    /// An inserted particle is at rest.
    InsertAtRest: Tearing,
    /// An inserted particle has the mean of its ends' velocities.
    InsertHalfway: Tearing,
    /// An inserted particle's velocity is mixed from the far end on.
    InsertTurnedSpeed: Tearing,
    /// An inserted particle's velocity is computed as a hit point is.
    InsertStep: Tearing,
    /// A velocity of any size passes.
    FastPasses: Both,
    /// Mass is shared equally.
    MassEqually: Tearing,
    /// A pinned particle is split.
    PinnedSplits: Tearing,
    /// Only the first candidate of a cut is split.
    FirstCandidate: Tearing,
    /// The closing pass is left out.
    PinchedStay: Tearing,
    /// The closing pass looks at split particles and copies only, not at those beside them.
    PinchedEnds: Tearing,
    /// The closing pass ends behind the first particle that it splits.
    PinchedFirst: Tearing,
    /// The closing pass looks at copies only.
    PinchedCopies: Tearing,
    /// The closing pass leaves copies out.
    PinchedOld: Tearing,
    /// A corner of three parts or more is parted in two.
    PinchedInTwo: Tearing,
    /// Straddlers of a split stay.
    StraddlersStay: Tearing,
    /// Boundary entries across pieces stay.
    OutlineStays: Tearing,
    /// t is not brought into the fraction's range.
    Unclamped: Tearing,
    /// An insertion's log entry names the two new particles the other way round.
    InsertTurned: Tearing,
    /// Triangle loads are read again at each crack.
    LoadsAgain: Tearing,
    /// A torn edge is looked up among the edges as they are by then.
    TornNow: Tearing,
    /// An opened torn edge is logged before its split.
    OpenedEarly: Tearing,
    /// The lower number is tried first, whatever the load.
    LowerFirst: Tearing,
    /// Edges are counted after straddlers went.
    EdgesAfter: Tearing,
    /// Room is asked for the result only.
    RoomAtEnd: Tearing,
    /// The log's room is looked at before the others.
    LogFirst: Tearing,
    /// Places above a limit count.
    RoomUncapped: Tearing,
    /// Triangle places are not looked at.
    TrianglesUnasked: Tearing,
    /// A part of a log entry counts as room for one.
    LogRoundedUp: Tearing,
    /// Torn bytes that are no whole words pass.
    TornPart: Tearing,
    /// A fraction of minus zero is refused.
    MinusZeroFraction: Tearing,
    /// A bad blade is found after 3.
    BladeAfterThree: Tearing,
    /// An edition that is neither 1 nor 2 is cut as the first.
    EditionUnasked: Tearing,
    /// Edition 2 looks for straps before it looks for whole numbers.
    StrapsFirst: Tearing,
    /// Edition 2 cuts off the whole numbers.
    OffPasses: Tearing,
    /// Minus zero is no whole number.
    MinusZeroOff: Tearing,
    /// 1,024 is no coordinate of edition 2.
    RangeShort: Tearing,
    /// Edition 2 leaves out the blade's ends.
    ExactOpen: Tearing,
    /// Edition 2 puts a triangle on the line to the right.
    LineToRight: Tearing,
    /// Edition 2 has the first element of a fan set the kept side, on the line or not.
    FirstElement: Tearing,
    /// The bytes behind the log's entries are left as they were.
    DirtyLog: Tearing,
    /// A side that two triangles hold is marked once.
    MarksOnce: Tearing,
    /// Crossings are marked in the order of their particles.
    MarksByParticle: Tearing,
    /// A mark names its pair the other way round.
    MarksTurned: Tearing,
    /// The marks stand behind the splits.
    MarksBehind: Tearing,
    /// A strap that is crossed near an end has no mark.
    SnappedUnmarked: Tearing,
    /// A mark counts as a change.
    MarksChange: Tearing,
    /// Room for the marks is asked with the first split only.
    MarksUnasked: Tearing,
    /// A fan is told from its last element on.
    FanTurned: Hosting,
    /// A fan of straps counts structural edges, not places in the list.
    StrapsCounted: Hosting,
    /// An edge that is no strap is in the fan.
    FanOfEdges: Hosting,
    /// An absent particle has an empty fan.
    AbsentFan: Hosting,
    /// The blade of a sheet stands behind its mesh.
    BladeBehind: Hosting,
    /// The first word of a sheet's answer is left out.
    FirstWordGone: Hosting,
    /// A coordinate is read without its sign.
    SignLost: Hosting,
    /// A pinned particle is read as free.
    PinLost: Hosting,
    /// A spare bit that is 1 passes.
    SparePasses: Hosting,
    /// Bytes behind a sheet pass.
    TailPasses: Hosting,
    /// 3 of a sheet is found before 9.
    NamesFirst: Hosting,
    /// A sheet is held to the program's limits, or a listing to those of a mesh.
    OtherLimits: Hosting,
    /// A coordinate of 1,024 is written.
    CoordinateWraps: Hosting,
    /// A flag of 2 is written.
    FlagWraps: Hosting,
    /// Fields of another length are written.
    FieldsPass: Hosting,
    /// 3 of the fields is found before 2.
    FieldNamesFirst: Hosting,
    /// A sheet is written as far as the bytes go.
    SheetCutOff: Hosting,
    /// A listing is written as far as the bytes go.
    ListingCutOff: Hosting,
    /// The marks of crossings are listed.
    MarksListed: Hosting,
    /// A listing has a log of 256 entries.
    ShortListing: Hosting,
    /// The lines of a listing are in the log's order.
    ListingUnsorted: Hosting,
    /// The bytes behind an answer are left as they were.
    DirtyHosting: Hosting,
    /// The sides of triangles are counted with their direction, so that inner ones stay.
    OutlineDirected: Hosting,
    /// Sides that two triangles hold are in the outline.
    SharedSides: Hosting,
    /// The outline is sorted.
    OutlineSorted: Hosting,
    /// A typed outline is compared as a list.
    OutlineAsLists: Hosting,
    /// A typed outline with a repeat is replaced.
    RepeatsCounted: Hosting,
    /// A typed outline stays where a side is missing.
    OutlineOneWay: Hosting,
    /// 1 for the outline is found before 3.
    OutlineFirst: Hosting,
    /// An outline of any length is read.
    OutlineUnmeasured: Hosting,
    /// The names of a typed outline are not looked at where it is replaced.
    TypedUnnamed: Hosting,
    /// The lists of a second-edition sheet are read from bit 46 on.
    HeaderLate: Hosting,
    /// A replaced outline is not told.
    ReplacedUntold: Hosting,
    /// A sheet is written whose outline is too long to be read.
    LongWritten: Hosting,
    /// A sheet is written in the first edition.
    FirstWritten: Hosting,
    /// The line `outline replaced` is always printed.
    LineAlways: Hosting,
    /// It is printed before `tear 1`.
    LineBeforeTear: Hosting,
    /// It is printed beside a refusal of the cut.
    LineBesideRefusal: Hosting,
}
/// Those of a group of entries.
pub fn faults(group: Group) -> Vec<Fault> {
    let there = |place: In| match place {
        In::Reading => group == Group::Reading,
        In::Tearing => group == Group::Tearing,
        In::Both => group != Group::Hosting,
        In::Hosting => group == Group::Hosting,
    };
    FAULTS.iter().filter(|(_, place)| there(*place)).map(|f| f.0).collect()
}

static PLANTED: AtomicUsize = AtomicUsize::new(0);
/// Plants a fault, in the place of any other.
pub fn plant(f: Fault) {
    PLANTED.store(f as usize, Ordering::Relaxed);
}
pub fn has(f: Fault) -> bool {
    PLANTED.load(Ordering::Relaxed) == f as usize
}
