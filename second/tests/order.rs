//! The generator makes what its families say, and the second program answers in the documents' order.

use second::bits::free_bits;
use second::case::{Call, Case};
use second::file::{Edge, Filter};
use second::kinds::{self, many_rounds, Seen};
use second::make::chains::{chains, lengths, rounds};
use second::make::damage::{
    one_faulty_edge, several_faults_in_an_edge, two_faulty_edges, Damage, Tops, TOGETHER,
};
use second::make::draft::{faults, Draft};
use second::make::filters::shapes;
use second::make::rooms::Room;
use second::make::texts::{drawable, text_of};
use second::make::{
    contents, conversions, drawings, files, leftovers, lists, reduces, texts, traces, unpacks,
    ways_out,
};
use second::profile::{Profile, LARGE, POCKET, PROFILES};
use second::random::{seed_or, Random};
use second::reach::reached;
use second::reduce::reduce;
use std::collections::BTreeSet;
use std::thread;

const ROUNDS: u64 = 200;

/// Says of which seed a test fails.
struct Tried(u64);

impl Drop for Tried {
    fn drop(&mut self) {
        if thread::panicking() {
            println!("failed with SEED={}", self.0);
        }
    }
}

/// With so many seeds, the first of them 0 or what SEED says.
fn for_seeds(count: u64, mut what: impl FnMut(&mut Random)) {
    let first = seed_or(0);
    for nth in 0..count {
        let tried = Tried(first.wrapping_add(nth));
        what(&mut Random::new(tried.0));
    }
}

fn for_each_seed(what: impl FnMut(&mut Random)) {
    for_seeds(ROUNDS, what);
}

/// The same for either kind of file.
fn for_each_profile(mut what: impl FnMut(Profile, &mut Random)) {
    for_each_seed(|random| {
        PROFILES
            .into_iter()
            .for_each(|profile| what(profile, random))
    });
}

fn number(case: &Case) -> u8 {
    case.outcome().answer.number
}

#[test]
fn accepted_files_are_accepted_and_come_back() {
    for_each_profile(|profile, random| {
        for filter in shapes(profile, random) {
            let file = profile.write(&filter);
            let length = profile.length(filter.n(), filter.e());
            assert_eq!(file.len() as u64, length);
            assert_eq!(Draft::of(profile, filter.clone()).bytes(), file);
            assert_eq!(profile.read(&file), Ok(filter));
        }
    });
}

#[test]
fn one_fault_gives_its_number() {
    for_each_profile(|profile, random| {
        let numbers: Vec<u8> = files::one_fault(profile, random)
            .iter()
            .map(|file| profile.check(file).number)
            .collect();
        assert_eq!(numbers, faults(profile));
    });
    assert_eq!(faults(LARGE), [1, 2, 3, 4, 5, 6, 7, 8, 9, 17]);
    assert_eq!(faults(POCKET), [1, 2, 3, 4, 5, 6, 7, 8, 9]);
}

/// In a file the numbers are in the order in which they are tested.
#[test]
fn of_two_faults_in_a_file_the_lower_number_comes() {
    for_each_profile(|profile, random| {
        let files = files::two_faults(profile, random);
        for (&(one, other), file) in files::PAIRS.iter().zip(files) {
            let number = profile.check(&file).number;
            assert_eq!(number, one.min(other), "{one} and {other}");
        }
    });
}

#[test]
fn of_two_faults_in_lists_the_first_of_the_pair_comes() {
    for_each_profile(|profile, random| {
        let cases = lists::two_faults(profile, random);
        for (&(first, second), case) in lists::PAIRS.iter().zip(cases) {
            let comes = match (profile, first) {
                (POCKET, 17) => second,
                _ => first,
            };
            assert_eq!(number(&case), comes, "{first} and {second}");
        }
    });
}

#[test]
fn a_faulty_edge_is_named() {
    for_each_profile(|profile, random| {
        let filters = one_faulty_edge(profile, Tops::of_files(profile), random);
        for (i, filter) in filters.iter().enumerate() {
            let damage = Damage::ALL[i / 3];
            let edge = damage.places(filter)[i % 3];
            is_named(profile, filter, damage, edge);
        }
    });
}

/// The damage of that edge decides, in a file and in lists of these contents.
fn is_named(profile: Profile, filter: &Filter, damage: Damage, edge: usize) {
    let number = damage.number();
    let bit = damage.bit(profile, filter, edge);
    assert_eq!(of_the_file(profile, filter), (number, bit));
    assert_eq!(of_the_lists(profile, filter), (number, edge as u64));
}

/// The number and the place for a file of these contents.
fn of_the_file(profile: Profile, filter: &Filter) -> (u8, u64) {
    let answer = profile.check(&profile.write(filter));
    (answer.number, answer.place)
}

/// The same for its lists.
fn of_the_lists(profile: Profile, filter: &Filter) -> (u8, u64) {
    let (colours, edges) = filter.lists();
    let answer = profile.pack(&colours, &edges, filter.m, filter.start, &mut []);
    (answer.number, answer.place)
}

#[test]
fn of_several_faults_in_an_edge_the_first_field_is_named() {
    for_each_profile(|profile, random| {
        let all = several_faults_in_an_edge(profile, Tops::of_files(profile), random);
        for (i, damaged) in all.iter().enumerate() {
            let first = TOGETHER[i / 3][0];
            assert_eq!(first.number(), 7);
            is_named(profile, &damaged.filter, first, damaged.edge);
        }
    });
}

#[test]
fn the_earlier_of_two_faulty_edges_decides() {
    for_each_profile(|profile, random| {
        let all = two_faulty_edges(profile, Tops::of_files(profile), random);
        for (i, damaged) in all.iter().enumerate() {
            let earlier = Damage::ALL[i / Damage::ALL.len()];
            is_named(profile, &damaged.filter, earlier, damaged.edge);
        }
    });
}

/// The number and the place for a text of these contents, as far as a text can say them.
fn of_the_text(filter: &Filter) -> (u8, u64) {
    let text = text_of(&drawable(filter.clone()));
    let answer = Case::from_dot(text, Vec::new()).outcome().answer;
    (answer.number, answer.place)
}

/// Those that lead out of the highest colour. The ends of a faulty edge may be no states.
fn ways_out_of(profile: Profile, filter: &Filter) -> Vec<usize> {
    let is_state = |state| state < filter.n();
    let leads_out = |edge: &Edge| {
        is_state(edge.source)
            && is_state(edge.target)
            && ways_out::leads_out(profile, &filter.colours, edge)
    };
    let edges = filter.edges.iter().enumerate();
    edges
        .filter(|(_, edge)| leads_out(edge))
        .map(|(i, _)| i)
        .collect()
}

/// A way out is what is told of a large file, of its lists and its text; of a pocket file it is nothing.
fn is_the_first_way_out(profile: Profile, filter: &Filter, edge: usize) {
    let (file, lists) = (of_the_file(profile, filter), of_the_lists(profile, filter));
    if profile == POCKET {
        // No room was lent for the file.
        assert_eq!((file, lists), ((0, 0), (10, 0)));
        return;
    }
    let bit = profile.bits(filter.n(), edge as u64);
    assert_eq!(file, (17, bit));
    assert_eq!(
        (lists, of_the_text(filter)),
        ((17, edge as u64), (17, edge as u64))
    );
    of_every_call(&profile.write(filter), filter, (17, bit));
}

/// What each call says that reads a large file, whatever else is wrong: rooms, labels, and what the other call cannot hold.
fn of_every_call(file: &[u8], filter: &Filter, told: (u8, u64)) {
    let file = || file.to_vec();
    let rooms = [0, 400].map(|length| vec![0xee; length]);
    for room in rooms {
        let other = || room.clone();
        for case in [
            Case::check(LARGE, file()),
            Case::unpack(LARGE, file(), other(), other()),
            Case::trace(LARGE, file(), vec![filter.m as u8], other()),
            Case::reduce(LARGE, file(), other(), other()),
            Case::to_dot(file(), other()),
            Case::to_pocket(file(), other()),
        ] {
            let answer = case.outcome().answer;
            assert_eq!((answer.number, answer.place), told, "{:?}", case.call);
        }
    }
}

#[test]
fn the_only_way_out_is_named_whether_the_start_leads_to_it_or_not() {
    for_each_profile(|profile, random| {
        for (i, filter) in ways_out::one_way_out(profile, random).iter().enumerate() {
            let last = filter.edges.len() - 1;
            let edge = [0, filter.edges.len() / 2, last][i % 3];
            assert_eq!(ways_out_of(profile, filter), [edge]);
            let source = filter.edges[edge].source;
            assert_eq!(reached(filter).contains(&source), i < 3);
            is_the_first_way_out(profile, filter, edge);
        }
    });
}

#[test]
fn the_first_of_several_ways_out_is_named() {
    for_each_profile(|profile, random| {
        for filter in ways_out::several_ways_out(profile, random) {
            let all = ways_out_of(profile, &filter);
            assert!(all.len() > 1);
            is_the_first_way_out(profile, &filter, all[0]);
        }
    });
}

#[test]
fn the_highest_colour_is_found_in_each_state() {
    let mut found = BTreeSet::new();
    for_each_profile(|profile, random| {
        for two in ways_out::in_each_state(profile, random).chunks(2) {
            let [left, kept] = two else {
                panic!("one that leads out and one that does not");
            };
            let [edge] = ways_out_of(profile, left)[..] else {
                panic!("one edge that leads out");
            };
            is_the_first_way_out(profile, left, edge);
            assert_eq!(of_the_file(profile, kept), (0, 0));
            if left.n() == profile.most_states() {
                found.insert((profile, left.edges[edge].source));
            }
        }
    });
    assert_eq!(found.len(), 256 + 16);
}

/// Wherever the way out stands.
#[test]
fn a_faulty_edge_decides_before_every_way_out() {
    for_each_profile(|profile, random| {
        let tops = Tops::of_files(profile);
        let beside = ways_out::beside_a_faulty_edge(profile, tops, random);
        for (i, damaged) in beside.iter().enumerate() {
            let way_out = ways_out_of(profile, &damaged.filter);
            let behind = i % 2 == 0;
            assert!(way_out.iter().any(|&edge| (edge < damaged.edge) == behind));
            is_named(profile, &damaged.filter, Damage::ALL[i / 2], damaged.edge);
        }
        let inside = ways_out::in_a_faulty_edge(profile, tops, random);
        for (i, damaged) in inside.iter().enumerate() {
            is_named(
                profile,
                &damaged.filter,
                Damage::ALL[1 + i / 3],
                damaged.edge,
            );
        }
    });
}

#[test]
fn the_highest_colour_is_kept_and_the_next_one_left() {
    let (mut left, mut kept) = (0, 0);
    for_each_profile(|profile, random| {
        for filter in ways_out::kept(profile, random) {
            assert_eq!(of_the_file(profile, &filter), (0, 0));
        }
        let two = ways_out::next_to_the_highest(profile, random);
        let numbers = [&two[0], &two[1]].map(|filter| of_the_file(profile, filter).0);
        assert_eq!(numbers, if profile == LARGE { [0, 17] } else { [0, 0] });
        let top = profile.top_colour();
        for filter in two {
            assert!(filter.colours.iter().all(|&colour| colour >= top - 1));
            let from_the_next = |edge: &&Edge| filter.colours[edge.source as usize] == top - 1;
            left += filter.edges.iter().filter(from_the_next).count();
            kept += filter
                .edges
                .iter()
                .filter(|edge| !from_the_next(edge))
                .count();
        }
    });
    assert!(left > 1000 && kept > 1000, "{left} and {kept} edges");
}

/// Of lists and texts the damages are others, but which comes first is the same.
#[test]
fn in_lists_and_texts_a_faulty_edge_decides_before_a_way_out() {
    for_each_seed(|random| {
        let of_lists = PROFILES.map(|profile| lists::ways_out_and_faulty_edges(profile, random));
        let of_texts = contents::ways_out_and_faulty_edges(random);
        for case in of_lists.iter().flatten().chain(&of_texts) {
            assert!((7..=9).contains(&number(case)));
        }
    });
}

#[test]
fn the_highest_colour_is_kept_in_every_call() {
    for_each_profile(|profile, random| {
        for (i, case) in lists::highest_kept(profile, random).iter().enumerate() {
            assert_eq!(number(case), if enough(i) { 0 } else { 10 });
        }
        for case in reduces::highest_kept(profile, random) {
            assert_eq!(number(&case), 0);
        }
        let rides = traces::to_the_highest_colour(profile, random);
        for (i, case) in rides.iter().enumerate() {
            assert_eq!(number(case), if enough(i) { 0 } else { 12 });
        }
    });
}

/// Neither is left to the families that are made for it.
#[test]
fn the_highest_colours_are_left_as_it_happens_or_not() {
    let mut numbers = BTreeSet::new();
    for_each_profile(|profile, random| {
        for filter in ways_out::as_it_happens(profile, random) {
            numbers.insert((profile, of_the_file(profile, &filter).0));
        }
    });
    let expected = [(LARGE, 0), (LARGE, 17), (POCKET, 0)];
    assert_eq!(numbers, BTreeSet::from(expected));
}

#[test]
fn every_length_of_filling_comes_with_zeros_and_with_others() {
    let odd = [1, 3, 5, 7].map(|free| [(free, 0), (free, 6)]).concat();
    let even = [2, 4, 6].map(|free| [(free, 0), (free, 6)]).concat();
    let all = [&odd[..], &even, &[(0, 0)]].concat();
    for_each_seed(|random| {
        assert_eq!(fillings(LARGE, random), BTreeSet::from_iter(odd.clone()));
        assert_eq!(fillings(POCKET, random), BTreeSet::from_iter(all.clone()));
    });
}

/// How many filling bits come, each with which numbers.
fn fillings(profile: Profile, random: &mut Random) -> BTreeSet<(usize, u8)> {
    let mut seen = BTreeSet::new();
    for file in files::fillings(profile, random) {
        let header = profile.header(&file).expect("a header");
        let bits = profile.bits(header.n, header.e);
        seen.insert((free_bits(bits as usize), profile.check(&file).number));
    }
    seen
}

#[test]
fn a_short_room_of_unpacking_is_12() {
    for_seeds(20, |random| {
        let cases = PROFILES.map(|profile| unpacks::all_rooms(profile, random));
        for (i, case) in cases.concat().iter().enumerate() {
            let fits = enough(i / Room::ALL.len()) && enough(i);
            assert_eq!(number(case), if fits { 0 } else { 12 });
        }
    });
}

#[test]
fn a_faulty_file_decides_before_the_rooms_of_unpacking() {
    for_each_profile(|profile, random| {
        let cases = unpacks::of_faulty_files(profile, random);
        for (i, case) in cases.iter().enumerate() {
            assert_eq!(number(case), faults(profile)[i / 4]);
        }
    });
}

#[test]
fn lists_outside_the_form_are_14_and_a_start_outside_is_2() {
    let numbers = |cases: Vec<Case>| -> Vec<u8> { cases.iter().map(number).collect() };
    for_each_profile(|profile, random| {
        let outside = numbers(lists::outside_the_form(profile, random));
        assert!(outside.iter().all(|&number| number == 14));
        for case in lists::start_outside(profile, random) {
            assert_eq!(number(&case) == 2, case.second >= case.a.len() as u64);
        }
        let too_many = numbers(lists::one_edge_too_many(profile, random));
        assert!(too_many.iter().all(|&number| number == 3));
    });
}

/// The answer of a trace: number, place, whether it was stopped, where.
fn told(case: &Case) -> [u64; 4] {
    let answer = case.outcome().answer;
    assert_eq!(answer.counts[2..], [0, 0]);
    let number = u64::from(answer.number);
    [number, answer.place, answer.counts[0], answer.counts[1]]
}

const NO_ROOM: [u64; 4] = [12, 0, 0, 0];
const TRACED: [u64; 4] = [0, 0, 0, 0];

fn enough(nth: usize) -> bool {
    [Room::Exact, Room::Longer].contains(&Room::ALL[nth % Room::ALL.len()])
}

#[test]
fn full_rides_are_traced_where_the_room_is_enough() {
    for_each_profile(|profile, random| {
        let rides = [traces::full_rides, traces::no_observations].map(|make| make(profile, random));
        for (i, case) in rides.concat().iter().enumerate() {
            assert_eq!(told(case), if enough(i) { TRACED } else { NO_ROOM });
        }
        let long = traces::full_rides(profile, random)
            .iter()
            .filter(|case| case.b.len() >= 3)
            .count();
        assert!(long >= 40);
    });
}

#[test]
fn stopped_rides_stop_at_the_first_a_middle_and_the_last_observation() {
    for_each_profile(|profile, random| {
        for (i, case) in traces::stopped_rides(profile, random).iter().enumerate() {
            let [number, place, stopped, at] = told(case);
            if enough(i) {
                let last = case.b.len() as u64 - 1;
                assert_eq!([number, place, stopped], [0, 0, 1]);
                assert!(match i / Room::ALL.len() {
                    0 => at == 0,
                    1 => 0 < at && at < last,
                    _ => at == last,
                });
            } else {
                assert_eq!([number, place, stopped, at], NO_ROOM);
            }
        }
    });
}

#[test]
fn labels_outside_are_13_at_the_first_a_middle_and_the_last_observation() {
    for_each_profile(|profile, random| {
        let cases = traces::labels_outside(profile, random);
        let third = cases.len() / 3;
        for (i, case) in cases.iter().enumerate() {
            let [number, place, rest @ ..] = told(case);
            let last = case.b.len() as u64 - 1;
            assert_eq!((number, rest), (13, [0, 0]));
            assert!(match i / third {
                0 => place == 0,
                1 => 0 < place && place < last,
                _ => place == last,
            });
        }
    });
}

#[test]
fn of_two_faults_of_a_trace_the_room_decides() {
    for_each_profile(|profile, random| {
        for four in traces::two_faults(profile, random).chunks(4) {
            let numbers: Vec<u64> = four.iter().map(|case| told(case)[0]).collect();
            assert_eq!(numbers, [12, 12, 13, 12]);
            // The later label outside is not named.
            assert!(told(&four[2])[1] < four[2].b.len() as u64 - 1);
        }
    });
}

#[test]
fn a_faulty_file_decides_before_the_trace() {
    for_each_profile(|profile, random| {
        let cases = traces::through_faulty_files(profile, random);
        for (i, case) in cases.iter().enumerate() {
            assert_eq!(number(case), faults(profile)[i / 4]);
        }
    });
}

#[test]
fn many_observations_are_12_from_65_536_on() {
    for_seeds(3, |random| {
        let cases = PROFILES.map(|profile| traces::many_observations(profile, random));
        for case in cases.concat() {
            let enough_room = case.c.len() > case.b.len();
            let takes = case.b.len() <= 65_535 && enough_room;
            assert_eq!(told(&case) == NO_ROOM, !takes);
        }
    });
}

#[test]
fn in_a_reduction_the_answer_room_decides_before_the_class_list() {
    let kinds = Room::ALL.len();
    for_each_profile(|profile, random| {
        let cases =
            [reduces::of_the_document, reduces::all_rooms].map(|make| make(profile, random));
        for (i, case) in cases.concat().iter().enumerate() {
            let expected = match (enough(i / kinds), enough(i)) {
                (false, _) => 10,
                (true, false) => 11,
                (true, true) => 0,
            };
            assert_eq!(number(case), expected);
        }
        for case in reduces::room_for_the_reduced_alone(profile, random) {
            assert_eq!(number(&case), 10);
        }
    });
}

#[test]
fn a_faulty_file_decides_before_the_rooms_of_a_reduction() {
    for_each_profile(|profile, random| {
        let cases = reduces::of_faulty_files(profile, random);
        for (i, case) in cases.iter().enumerate() {
            assert_eq!(number(case), faults(profile)[i / 4]);
        }
    });
}

#[test]
fn chains_take_two_rounds_fewer_than_they_have_states() {
    for_each_profile(|profile, random| {
        let most = profile.most_states().min(40);
        // Each takes two colours, and what is behind the last one more.
        let count = random.between(1, most / 5).min(profile.top_colour() / 2);
        let states = random.between(2 * count, most);
        let lengths = lengths(random, count, states);
        assert_eq!(lengths.iter().sum::<u64>(), states);
        let n = most.min(states + random.between(0, 5));
        let m = random.between(1, 5);
        let filter = chains(profile, random, n, m, &lengths);
        assert_eq!(profile.read(&profile.write(&filter)), Ok(filter.clone()));
        assert_eq!(reduce(&filter).rounds, rounds(&lengths));
    });
}

#[test]
fn chains_of_many_rounds_are_of_full_size() {
    assert_eq!(PROFILES.map(many_rounds), [204, 12]);
    for_seeds(10, |random| {
        for profile in PROFILES {
            let most = profile.most_states();
            for case in reduces::chains_of_many_rounds(profile, random) {
                let header = profile.header(&case.a).expect("a header");
                let answer = case.outcome().answer;
                assert_eq!((answer.number, header.n), (0, most));
                assert_eq!(header.m, profile.most_labels());
                assert!((many_rounds(profile)..=most - 2).contains(&answer.counts[2]));
            }
        }
    });
}

#[test]
fn one_colour_is_one_state_and_different_colours_are_never_merged() {
    for_each_profile(|profile, random| {
        for case in reduces::one_colour(profile, random) {
            assert_eq!(case.outcome().answer.counts[..3], [1, 1, 0]);
        }
        for (i, case) in reduces::many_colours(profile, random).iter().enumerate() {
            let filter = profile.read(&case.a).expect("accepted");
            let live = reached(&filter);
            let n = live.len() as u64;
            // The start leads to all of them every other time.
            assert!(i % 2 == 1 || n == filter.n());
            let [states, colours, rounds, _] = case.outcome().answer.counts;
            match i {
                0..=3 => assert_eq!((states, colours, rounds), (n, n, 0)),
                4 => assert_eq!(colours, profile.top_colour() + 1),
                _ => assert_eq!(colours, colours_of(&filter, &live)),
            }
        }
    });
}

/// How many colours these states have.
fn colours_of(filter: &Filter, states: &BTreeSet<u64>) -> u64 {
    let colours = states.iter().map(|&state| filter.colours[state as usize]);
    colours.collect::<BTreeSet<u64>>().len() as u64
}

#[test]
fn unreachable_parts_are_not_reached() {
    for_each_profile(|profile, random| {
        for case in reduces::unreachable_parts(profile, random) {
            let filter = profile.read(&case.a).expect("accepted");
            assert!((reached(&filter).len() as u64) < filter.n());
        }
    });
}

/// Where both are rare a family would not tell one reducer from another.
#[test]
fn filters_are_merged_and_parted_in_each_family() {
    for make in [
        reduces::small_filters,
        reduces::dense,
        reduces::sparse,
        reduces::unreachable_parts,
        reduces::copied_states,
        reduces::short_chains,
        leftovers::anywhere,
        leftovers::before_between_and_behind,
        leftovers::the_first_state,
        leftovers::leading_to_the_live,
        leftovers::with_own_colours,
        leftovers::far_to_the_last,
    ] {
        for profile in PROFILES {
            are_merged_and_parted(profile, make);
        }
    }
}

fn are_merged_and_parted(profile: Profile, make: fn(Profile, &mut Random) -> Vec<Case>) {
    let (mut cases, mut merged, mut parted) = (0, 0, 0);
    for_each_seed(|random| {
        for case in make(profile, random) {
            let answer = case.outcome().answer;
            assert_eq!(answer.number, 0);
            let filter = profile.read(&case.a).expect("accepted");
            cases += 1;
            merged += u32::from(answer.counts[0] < reached(&filter).len() as u64);
            parted += u32::from(answer.counts[2] > 0);
        }
    });
    assert!(merged > cases / 10, "{merged} of {cases} are merged");
    assert!(parted > cases / 10, "{parted} of {cases} are parted");
}

#[test]
fn accepted_texts_and_drawn_filters_are_accepted_where_the_room_is_enough() {
    are_accepted_where_the_room_is_enough(&[
        texts::accepted,
        contents::fault_kept,
        drawings::drawn,
        drawings::of_the_document,
    ]);
}

/// Of families with every case in each room.
fn are_accepted_where_the_room_is_enough(families: &[fn(&mut Random) -> Vec<Case>]) {
    for_seeds(20, |random| {
        for make in families {
            for (i, case) in make(random).iter().enumerate() {
                assert_eq!(number(case), if enough(i) { 0 } else { 10 });
            }
        }
    });
}

#[test]
fn of_two_faults_of_a_text_the_first_of_the_pair_comes() {
    for_each_seed(|random| {
        for (&(first, second), case) in contents::PAIRS.iter().zip(contents::two_faults(random)) {
            assert_eq!(number(&case), first, "{first} and {second}");
        }
    });
}

/// A refused text's place.
fn place_outside(case: &Case) -> u64 {
    let answer = case.outcome().answer;
    assert_eq!(answer.number, 15, "{}", case.a.escape_ascii());
    answer.place
}

#[test]
fn a_beginning_is_outside_at_its_end_and_a_longer_text_where_the_profile_ends() {
    for_seeds(20, |random| {
        for case in texts::every_beginning(random) {
            assert_eq!(place_outside(&case), case.a.len() as u64);
        }
        for case in texts::something_behind(random) {
            let brace = case.a.windows(2).position(|two| two == b"}\n");
            assert_eq!(place_outside(&case), brace.expect("a brace") as u64 + 2);
        }
    });
}

#[test]
fn states_in_disorder_are_outside() {
    for_each_seed(|random| {
        for case in texts::states_in_disorder(random) {
            let place = place_outside(&case);
            assert!(0 < place && place < case.a.len() as u64);
        }
    });
}

#[test]
fn numbers_of_states_decide_between_15_14_and_others() {
    for_seeds(5, |random| {
        let numbers: Vec<u8> = contents::numbers_of_states(random)
            .iter()
            .map(|case| match number(case) {
                10 => 0,
                number => number,
            })
            .collect();
        let by_states: Vec<&[u8]> = numbers.chunks(3).collect();
        assert_eq!(
            by_states,
            [[14; 3], [0; 3], [0; 3], [0; 3], [14; 3], [14; 3], [14; 3], [15; 3]]
        );
    });
}

#[test]
fn texts_with_too_many_edges_are_3_and_faulty_edges_are_named() {
    for_each_seed(|random| {
        for case in contents::too_many_edges(random) {
            assert_eq!(number(&case), 3);
        }
        let numbers = [7, 7, 8, 9, 9];
        for (i, case) in contents::faulty_edge(random).iter().enumerate() {
            let answer = case.outcome().answer;
            let edges = case.a.windows(2).filter(|two| two == b"->").count() as u64;
            assert_eq!(answer.number, numbers[i / 3]);
            assert!(match i % 3 {
                0 => answer.place == u64::from(answer.number > 7),
                1 => answer.place == edges / 2,
                _ => answer.place == edges - 1,
            });
        }
        for (i, case) in contents::faulty_edges(random).iter().enumerate() {
            let (earlier, later) = (i / 6, i % 6);
            // The sixth has both in one edge.
            let expected = if later == 5 { 7 } else { numbers[earlier] };
            assert_eq!(number(case), expected);
        }
    });
}

#[test]
fn what_cannot_be_drawn_is_15_whatever_the_room_and_a_faulty_file_decides_before() {
    for_each_seed(|random| {
        for case in drawings::not_drawn(random) {
            assert_eq!(place_outside(&case), 0);
        }
        for (i, case) in drawings::of_faulty_files(random).iter().enumerate() {
            assert_eq!(number(case), faults(LARGE)[i / 4]);
        }
    });
}

#[test]
fn the_largest_texts_are_as_long_as_a_filter_can_make_them() {
    for_seeds(2, |random| {
        for case in &contents::largest_texts(random)[..4] {
            assert!(case.a.len() > 360_000);
        }
    });
}

#[test]
fn filters_of_pocket_files_are_converted_where_the_room_is_enough() {
    are_accepted_where_the_room_is_enough(&[conversions::of_the_document, conversions::both_ways]);
}

/// Where n, m or a colour is one more than a pocket file has, at each of its three places.
#[test]
fn at_the_limits_one_more_is_16_whatever_the_room() {
    let rooms = Room::ALL.len();
    for_seeds(20, |random| {
        let cases = conversions::at_the_limits(random);
        assert_eq!(cases.len(), 8 * 3 * rooms);
        for (i, case) in cases.iter().enumerate() {
            let fits = i / rooms < 3;
            let expected = match (fits, enough(i)) {
                (true, true) => 0,
                (true, false) => 10,
                (false, _) => 16,
            };
            assert_eq!(number(case), expected);
        }
    });
}

#[test]
fn one_colour_too_high_is_16_also_of_a_leftover() {
    let rooms = Room::ALL.len();
    for_seeds(20, |random| {
        for (i, case) in conversions::one_high_colour(random).iter().enumerate() {
            assert_eq!(number(case), 16);
            let filter = LARGE.read(&case.a).expect("accepted");
            let high = |&&colour: &&u64| colour > 15;
            assert_eq!(filter.colours.iter().filter(high).count(), 1);
            let state = filter.colours.iter().position(|colour| high(&colour));
            let state = state.expect("a state") as u64;
            let left_over = i / rooms % 2 == 1;
            assert!(!left_over || !reached(&filter).contains(&state));
        }
    });
}

#[test]
fn what_is_far_too_large_is_16_and_a_faulty_file_decides_before() {
    for_seeds(20, |random| {
        for case in conversions::far_too_large(random) {
            let filter = LARGE.read(&case.a).expect("accepted");
            assert_eq!(number(&case) == 16, !POCKET.can_hold(&filter));
        }
        let of_each = [faults(POCKET), faults(LARGE), faults(LARGE)].concat();
        for (i, case) in conversions::of_faulty_files(random).iter().enumerate() {
            assert_eq!(number(case), of_each[i / 2]);
        }
    });
}

#[test]
fn a_few_batches_lead_to_every_kind_of_outcome() {
    let mut random = Random::new(seed_or(1));
    let mut seen = Seen::default();
    for _ in 0..3 {
        for made in second::make::batch(&mut random) {
            let kinds = kinds::of(&made.case, &made.case.outcome());
            seen.add(made.case.call, kinds);
        }
    }
    assert_eq!(seen.missing(), []);
    assert_eq!(seen.beyond(), []);
}

/// Those that are made for edges out of the fault, and those in which anything may come. In all others such an edge would hide
/// what they are for.
const WITH_WAYS_OUT: [&str; 29] = [
    "one edge out of the highest colour",
    "several edges out of the highest colour",
    "the highest colour in each state",
    "the highest colour and the next",
    "the highest colours as it happens",
    "lists with edges out of the highest colour",
    "lists with the highest colour in each state",
    "texts with edges out of the fault",
    "texts with the fault in each state",
    "one fault of each number",
    "two faults in the lists",
    "two faults of a text",
    "faulty files unpacked",
    "faulty files converted",
    "faulty files drawn",
    "traces through faulty files",
    "reductions of faulty files",
    "files of all families drawn",
    "large files",
    "large lists",
    "the largest texts",
    "accepted files with one bit turned",
    "every bit of a file turned",
    "noise behind a header that fits",
    "random lists",
    "numbers at the limits",
    "the line behind some states",
    "every byte of a text edited",
    "numbers written otherwise",
];

#[test]
fn edges_lead_out_of_the_fault_where_they_are_meant_to() {
    let mut random = Random::new(seed_or(2));
    for _ in 0..3 {
        for made in second::make::batch(&mut random) {
            let meant = WITH_WAYS_OUT.contains(&made.family);
            assert!(meant || number(&made.case) != 17, "{}", made.family);
        }
    }
}

#[test]
fn the_same_seed_makes_the_same_batch() {
    let seed = seed_or(7);
    let one = second::make::batch(&mut Random::new(seed));
    let other = second::make::batch(&mut Random::new(seed));
    assert_eq!(one.len(), other.len());
    assert!(one
        .iter()
        .zip(&other)
        .all(|(one, other)| one.case == other.case));
    for call in Call::ALL {
        assert!(one.iter().any(|made| made.case.call == call));
    }
}
