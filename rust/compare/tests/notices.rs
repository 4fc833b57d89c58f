//! The comparison notices engines that are wrong in small ways, and nothing in a right one.

mod wrong;

use compare::calls::{script, Answer, Call};
use compare::drive::{run, Difference};
use compare::engines::{Engine, Second};
use compare::report::report;
use compare::shorten::shorten;
use compare::tally::Tally;
use wrong::{Fault, Wrong};

/// How many lists a fault may go unnoticed.
const LISTS: u64 = 2000;

/// The first difference of the faulty engine from the right one, and the seed of its list.
fn first_difference(fault: Fault, lists: u64) -> Option<(u64, Difference)> {
    let (right, wrong) = (Second::new(), Wrong::new(fault));
    let mut tally = Tally::default();
    (1..=lists).find_map(|seed| run(&right, &wrong, seed, &mut tally).err().map(|found| (seed, found)))
}

/// A test for each fault.
macro_rules! noticed {
    ($($name:ident $fault:ident,)*) => {
        $(
            #[test]
            fn $name() {
                let found = first_difference(Fault::$fault, LISTS);
                let (seed, difference) = found.expect("the fault goes unnoticed");
                println!("list {seed}, call {}: {:?}", difference.calls.len(), difference.clash);
            }
        )*
    };
}

noticed! {
    matches_one_to_one MatchesOneToOne,
    matches_nodes_just_added MatchesNodesJustAdded,
    serves_with_extra_targets ServesWithExtraTargets,
    twelve_though_eleven TwelveThoughEleven,
    keeps_an_edge_to_a_deleted_node KeepsAnEdgeToADeletedNode,
    counts_one_matching_more CountsOneMatchingMore,
    counts_one_node_less CountsOneNodeLess,
    no_matching_of_the_empty_pattern NoMatchingOfTheEmptyPattern,
    after_gives_the_list_itself AfterGivesTheListItself,
    after_reads_16_bits AfterReads16Bits,
    after_reads_32_bits AfterReads32Bits,
    fills_gaps FillsGaps,
    just_added_dont_serve JustAddedDontServe,
    serves_exactly ServesExactly,
    no_group_without_edges NoGroupWithoutEdges,
    groups_by_first_target GroupsByFirstTarget,
    groups_the_whole_class GroupsTheWholeClass,
    nine_for_the_whole NineForTheWhole,
    largest_clash LargestClash,
    ten_before_nine TenBeforeNine,
    eleven_before_ten ElevenBeforeTen,
    nine_copies NineCopies,
    seven_copies SevenCopies,
    no_copy_of_the_same NoCopyOfTheSame,
    copy_when_refused CopyWhenRefused,
    undo_keeps_the_copy UndoKeepsTheCopy,
    refusal_drops_an_edge RefusalDropsAnEdge,
    refused_save_writes RefusedSaveWrites,
    save_clears_the_rest SaveClearsTheRest,
    save_one_byte_less SaveOneByteLess,
    save_wants_one_byte_more SaveWantsOneByteMore,
    wraps_16 Wraps16,
    wraps_32 Wraps32,
    wraps_64 Wraps64,
    leading_zeros LeadingZeros,
    signs Signs,
    carriage_returns CarriageReturns,
    last_line_unended LastLineUnended,
    empty_last_line EmptyLastLine,
    any_case AnyCase,
    missing_line_is_the_last MissingLineIsTheLast,
    three_before_two ThreeBeforeTwo,
    length_before_lines LengthBeforeLines,
    lines_before_shut LinesBeforeShut,
}

/// What is noticed above is the fault, not what stands around it.
#[test]
fn nothing_is_noticed_without_a_fault() {
    let found = first_difference(Fault::Nothing, 200);
    assert!(found.is_none(), "{found:?}");
}

/// Where document 01 decides by the state alone, or by the two drawings, two engines with one fault are noticed too.
#[test]
fn a_fault_that_both_share_is_noticed() {
    let shared = [
        Fault::CountsOneNodeLess,
        Fault::KeepsAnEdgeToADeletedNode,
        Fault::NineCopies,
        Fault::SevenCopies,
        Fault::CopyWhenRefused,
        Fault::UndoKeepsTheCopy,
        Fault::RefusalDropsAnEdge,
        Fault::RefusedSaveWrites,
        Fault::SaveClearsTheRest,
        Fault::SaveOneByteLess,
        Fault::SaveWantsOneByteMore,
        Fault::LinesBeforeShut,
    ];
    for fault in shared {
        let (wrong, mut tally) = (Wrong::new(fault), Tally::default());
        let noticed = (1..=LISTS).any(|seed| run(&wrong, &wrong, seed, &mut tally).is_err());
        assert!(noticed, "{fault:?}");
    }
}

#[test]
fn a_list_with_a_difference_is_shortened() {
    let (seed, found) = first_difference(Fault::NineCopies, LISTS).expect("the fault goes unnoticed");
    let (right, wrong) = (Second::new(), Wrong::new(Fault::NineCopies));
    let shorter = shorten(&right, &wrong, found.clone());
    // Open, nine applies and nine undos, of which the last is refused.
    assert_eq!(shorter.calls.len(), 19, "list {seed}");
    assert_eq!(shorter.clash, found.clash);
    let (long, short) = (script(&found.calls), script(&shorter.calls));
    assert!(short.starts_with(b"open=") && short.ends_with(b"\nundo\nundo\n"));
    assert!(short.len() < long.len());
    let told = report(seed, &found, &shorter);
    assert!(told.windows(short.len()).any(|part| part == short));
    let last = format!("\ncompare: difference at seed {seed}, call {}\n", found.calls.len());
    assert!(told.ends_with(last.as_bytes()));
}

/// An engine that breaks off is reported and doesn't end the run.
#[test]
fn a_panic_is_a_difference() {
    struct Breaks(Second);
    impl Engine for Breaks {
        fn fresh(&self) -> Breaks {
            Breaks(self.0.fresh())
        }
        fn make(&mut self, call: &Call, buffer: &mut [u8]) -> Answer {
            assert!(!matches!(call, Call::Apply(_)), "this engine can't apply");
            self.0.make(call, buffer)
        }
    }
    let breaks = Breaks(Second::new());
    let found = (1..=LISTS).find_map(|seed| run(&Second::new(), &breaks, seed, &mut Tally::default()).err());
    assert_eq!(found.map(|found| found.clash.right), Some("panic".to_string()));
}
