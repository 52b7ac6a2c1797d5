//! Every entry answers through the wrappers, empty slices included. What the answers have to be is held against `independent` elsewhere.

use tallowwing_library::views::{BudgetView, Bus, Chain, LayoutView, PlanView, Planned, SocView};
use tallowwing_library::*;

/// Document 01's text t1.
const T1: &[u8] = include_bytes!("../../../examples/t1.soc");

const fn refused(number: u8) -> Answer {
    Answer::Refused { number, line: 0 }
}

fn record() -> Vec<u8> {
    let mut record = vec![0; SOC_BYTES];
    assert_eq!(read_soc(T1, &mut record), Answer::Figure(SOC_BYTES as u64));
    record
}

#[test]
fn text_goes_to_the_record_and_back() {
    let mut text = vec![0; TEXT_MAX];
    assert_eq!(write_soc(&record(), &mut text), Answer::Figure(T1.len() as u64));
    assert_eq!(&text[..T1.len()], T1);
}

#[test]
fn times_of_t1() {
    let (record, mut lent) = (record(), [0; LAYOUT_BYTES]);
    assert_eq!(layout(&record, 1, 1, 2, 1, &mut lent), Answer::Figure(LAYOUT_BYTES as u64));
    assert_eq!(lent[..8], [10, 0, 0, 0, 0, 0, 0, 0]);
    assert_eq!(layout(&record, 2, 1, 2, 1, &mut lent), Answer::Figure(LAYOUT_BYTES as u64));
    let laid = LayoutView::new(&lent);
    assert_eq!((laid.si(), laid.so(), laid.cycles()), (2, 1, 13));
    assert_eq!(layout(&record, 2, 1, 2, 1, &mut lent[..LAYOUT_BYTES - 1]), refused(11));
    assert_eq!(module_time(&record, 2, 4, 1), Answer::Figure(9));
    assert_eq!(module_wires(&record, 2, 4, 1), Answer::Figure(3));
}

#[test]
fn more_capture_cycles_take_longer() {
    let (record, mut lent) = (record(), [0; PLAN_BYTES]);
    let taken = |capture| [module_time(&record, 2, 4, capture), module_wires(&record, 2, 4, capture)];
    assert_eq!(taken(2), [13, 3].map(Answer::Figure));
    assert_eq!(taken(4), [21, 3].map(Answer::Figure));
    assert_eq!([taken(0), taken(5)], [[refused(16); 2]; 2]);
    for (capture, time) in [(2, 70), (4, 80)] {
        assert!(plan(&record, 4, 2, capture, &mut lent).figure().is_some());
        assert_eq!(PlanView::new(&lent).time(), time);
    }
    assert_eq!((plan(&record, 4, 2, 5, &mut lent), plan(&record, 4, 4, 5, &mut lent)), (refused(16), refused(8)));
    let mut layouts = [[0; LAYOUT_BYTES]; 2];
    assert!((1..).zip(&mut layouts).all(|(capture, lent)| layout(&record, 2, 1, 2, capture, lent).figure().is_some()));
    assert_eq!(layouts[0][..places::layout::CYCLES], layouts[1][..places::layout::CYCLES]);
    assert_eq!(layouts.map(|lent| LayoutView::new(&lent).cycles()), [13, 17]);
    assert_eq!(layout(&record, 9, 1, 2, 0, &mut layouts[0]), refused(16));
}

/// An overlay on t1 whose module 1 has a longer chain.
const LATE: &[u8] =
    b"Overlay t1\nOptions Power 0 XY 0\nModule 1 Level 1 Inputs 0 Outputs 0 Bidirs 0 ScanChains 1 : 20\nModule 1 TotalTests 1\n\
    Module 1 Test 1 ScanUse 1 TamUse 1 Patterns 5\n";

#[test]
fn entries_on_a_pair_answer_as_on_its_record() {
    let (mut both, mut text, mut again) = (vec![0; SOC_BYTES], vec![0; TEXT_MAX], vec![0; TEXT_MAX]);
    assert_eq!(read_pair(T1, LATE, &mut both), Answer::Figure(SOC_BYTES as u64));
    assert_eq!(write_pair(T1, LATE, &mut text), write_soc(&both, &mut again));
    assert_eq!(text, again);
    let (mut laid, mut due) = ([0; LAYOUT_BYTES], [0; LAYOUT_BYTES]);
    assert_eq!(layout_pair(T1, LATE, 1, 1, 2, 1, &mut laid), layout(&both, 1, 1, 2, 1, &mut due));
    assert_eq!(laid, due);
    assert_eq!(module_time_pair(T1, LATE, 1, 4, 1), Answer::Figure(125));
    assert_eq!(module_wires_pair(T1, LATE, 1, 4, 1), Answer::Figure(1));
    let (mut planned, mut alone) = ([0; PLAN_BYTES], [0; PLAN_BYTES]);
    assert_eq!(plan_pair(T1, LATE, 4, 2, 1, &mut planned), plan(&both, 4, 2, 1, &mut alone));
    assert_eq!((planned, PlanView::new(&planned).time()), (alone, 125));
}

#[test]
fn a_refusal_of_a_pair_has_the_text_below_its_line() {
    let of = |number: u8, line: u64, text: u64| Answer::Refused { number, line: 4 * line + text };
    let mut lent = [7; PLAN_BYTES];
    assert_eq!(plan_pair(LATE, LATE, 0, 0, 1, &mut lent), of(3, 1, 1));
    assert_eq!(plan_pair(T1, T1, 0, 0, 1, &mut lent), of(3, 1, 2));
    let other = [b"Overlay t2\n", &LATE[11..]].concat();
    assert_eq!(plan_pair(T1, &other, 0, 0, 1, &mut lent), of(15, 0, 2));
    assert_eq!(plan_pair(T1, LATE, 0, 0, 1, &mut lent), of(7, 0, 0));
    assert_eq!(plan_pair(T1, LATE, 4, 2, 1, &mut lent[..9]), of(11, 0, 0));
    assert_eq!(write_pair(T1, &other, &mut lent), of(15, 0, 2));
    assert_eq!(layout_pair(T1, LATE, 1, 2, 1, 1, &mut lent), of(13, 0, 0));
    assert_eq!(module_time_pair(T1, &[], 1, 1, 1), of(6, 0, 2));
    assert_eq!(module_wires_pair(T1, LATE, 3, 1, 1), of(13, 0, 0));
    assert_eq!(lent, [7; PLAN_BYTES]);
}

#[test]
fn plan_goes_to_the_file_and_back() {
    let (mut planned, mut file, mut again) = ([0; PLAN_BYTES], [0; PLAN_FILE_MAX], [0; PLAN_BYTES]);
    assert_eq!(plan(&record(), 4, 2, 1, &mut planned), Answer::Figure(PLAN_BYTES as u64));
    assert_eq!(write_plan(&planned, &mut file), Answer::Figure(80));
    assert_eq!(read_plan(&file[..80], &mut again), Answer::Figure(PLAN_BYTES as u64));
    assert_eq!(planned, again);
}

#[test]
fn a_plan_record_is_shown_as_it_is_listed() {
    let (mut planned, mut shown, mut listed) = ([0; PLAN_BYTES], [0; LISTING_MAX], [0; LISTING_MAX]);
    assert_eq!(plan(&record(), 4, 2, 1, &mut planned), Answer::Figure(PLAN_BYTES as u64));
    let length = show(&planned, &mut shown).figure().expect("a good record") as usize;
    assert!(listing(&[b"Plan 4 2\n", T1].concat(), &mut listed).figure().is_some());
    assert_eq!([b"soc t1 ", &shown[..length]].concat(), listed[..length + 7]);
    assert_eq!(show(&planned, &mut shown[..length - 1]), refused(11));
}

#[test]
fn a_budget_finishes_the_search_or_stops_it() {
    let (mut planned, mut found) = ([0; PLAN_BYTES], [7; BUDGET_BYTES]);
    assert_eq!(plan(&record(), 4, 2, 1, &mut planned), Answer::Figure(PLAN_BYTES as u64));
    assert_eq!(budget(&record(), 4, 2, 1, 1_000, &mut found), Answer::Figure(BUDGET_BYTES as u64));
    let whole = BudgetView::new(&found);
    assert_eq!((whole.finished(), whole.plan()), (true, Some(&planned)));
    let needed = whole.tries();
    assert_eq!(budget(&record(), 4, 2, 1, needed - 1, &mut found), Answer::Figure(BUDGET_BYTES as u64));
    let stopped = BudgetView::new(&found);
    assert_eq!((stopped.finished(), stopped.tries(), stopped.plan().is_some()), (false, needed - 1, true));
    assert_eq!(budget(&record(), 4, 2, 1, 1, &mut found), Answer::Figure(BUDGET_BYTES as u64));
    let none = BudgetView::new(&found);
    assert_eq!((none.finished(), none.tries(), none.plan()), (false, 1, None));
    for (limit, tries, number) in [(9, 0, 8), (8, 0, 18), (8, (1 << 40) + 1, 18), (8, u64::MAX, 18)] {
        assert_eq!(budget(&record(), 4, limit, 1, tries, &mut found), refused(number));
    }
    assert_eq!(budget(&record(), 4, 2, 1, 9, &mut found[1..]), refused(11));
}

#[test]
fn views_read_figures_by_name() {
    let record: [u8; SOC_BYTES] = record().try_into().expect("a record's length");
    let soc = SocView::new(&record);
    assert_eq!((soc.name(), soc.module_count(), soc.planned_count()), (&b"t1"[..], 3, 2));
    let counts = |number| soc.module(number).map(|module| (module.chain_count(), module.test_count(), module.is_planned()));
    assert_eq!([0, 1, 2, 3].map(counts), [Some((0, 0, false)), Some((1, 1, true)), Some((0, 1, true)), None]);

    let mut bytes = [0; LAYOUT_BYTES];
    assert!(layout(&record, 2, 1, 2, 1, &mut bytes).figure().is_some());
    assert_eq!(LayoutView::new(&bytes).chain(1), Chain { flip_flops: 0, input_cells: 2, output_cells: 1, bidir_cells: 0 });
    assert!(layout(&record, 1, 1, 2, 1, &mut bytes).figure().is_some());
    assert_eq!(LayoutView::new(&bytes).wrapper_chain(1), 1);
    let mut with_bidirs = record;
    with_bidirs[places::soc::module(2) + places::module::BIDIRS] = 3;
    assert!(layout(&with_bidirs, 2, 1, 2, 1, &mut bytes).figure().is_some());
    assert_eq!(LayoutView::new(&bytes).chain(1), Chain { flip_flops: 0, input_cells: 1, output_cells: 1, bidir_cells: 2 });

    let mut bytes = [0; PLAN_BYTES];
    assert!(plan(&record, 4, 2, 1, &mut bytes).figure().is_some());
    let view = PlanView::new(&bytes);
    assert_eq!((view.wires(), view.limit(), view.time()), (4, 2, 65));
    assert_eq!(view.buses().collect::<Vec<_>>(), [Bus { width: 1, busy: 65 }, Bus { width: 3, busy: 9 }]);
    let first = Planned { number: 1, bus: 1, wires: 1, cycles: 65, start: 0 };
    assert_eq!(view.modules().collect::<Vec<_>>(), [first, Planned { number: 2, bus: 2, wires: 3, cycles: 9, start: 0 }]);

    assert!(plan(&record, 4, 1, 1, &mut bytes).figure().is_some());
    let modules: Vec<Planned> = PlanView::new(&bytes).modules().collect();
    assert_eq!(modules, [first, Planned { number: 2, bus: 1, wires: 3, cycles: 9, start: 65 }]);
}

#[test]
fn empty_slices_are_refused_and_no_more() {
    assert_eq!(read_soc(&[], &mut []), refused(6));
    assert_eq!(read_soc(T1, &mut []), refused(11));
    assert_eq!(write_soc(&[], &mut []), refused(14));
    assert_eq!(layout(&[], 0, 0, 0, 0, &mut []), refused(14));
    assert_eq!(module_time(&[], 0, 0, 0), refused(14));
    assert_eq!(module_wires(&[], 0, 0, 0), refused(14));
    assert_eq!(plan(&[], 0, 0, 0, &mut []), refused(14));
    assert_eq!(budget(&[], 0, 0, 0, 0, &mut []), refused(14));
    assert_eq!(write_plan(&[], &mut []), refused(12));
    assert_eq!(read_plan(&[], &mut []), refused(12));
    assert_eq!(show(&[], &mut []), refused(12));
    assert_eq!(listing(&[], &mut []), refused(11));
}

#[test]
fn no_input_is_listed_as_refused() {
    let mut lent = [0; LISTING_MAX];
    assert_eq!(listing(&[], &mut lent), Answer::Figure(17));
    assert_eq!(&lent[..17], b"refused 3 line 0\n");
}
