//! Filters with a class that needs many groups. Each of its members has a code, which it shows by where a label for each bit
//! leads: to the one state of another colour for a 1, to a member for a 0. So two members conflict exactly where their codes
//! differ at a label that both have.

use crate::case::Case;
use crate::file::{Edge, Filter};
use crate::make::reduces::with_enough_room;
use crate::profile::Profile;
use crate::random::Random;

/// With so many groups the last of them is the first of a word of 64, or the last of one, or the last that there can be: a class
/// of all states would have no other to conflict about. In pocket files all are in one word, of which half are many.
pub fn many_groups(profile: Profile) -> Vec<u64> {
    let most = profile.most_states();
    let mut all = vec![65, 129, 193, most / 2, most - 1];
    all.retain(|&groups| groups < most);
    all.sort();
    all
}

/// A class of so many members that needs so many groups. The first members have a code each and all its labels. One more member
/// is a copy of the last but one of them, so that it joins the last group but one. Each further one has the code of one of them
/// and all or some of its labels, and may join any group that does not gainsay these. At one label more the members lead to each
/// other, so that the start leads to all of them.
pub fn crowd(profile: Profile, random: &mut Random, groups: u64, members: u64) -> Filter {
    // As many bits as it takes to tell all states from each other.
    let bits = profile.states as u64;
    let other = random.between(0, members);
    let states: Vec<u64> = (0..=members).filter(|&state| state != other).collect();
    let codes = &random.shuffled(1 << bits)[..groups as usize];
    let m = random.between(bits + 1, profile.most_labels());
    let labels = random.shuffled(m);
    let missing = random.pick(&[None, Some(6), Some(2)]);
    let mut edges = Vec::new();
    for (i, &source) in states.iter().enumerate() {
        let code = match i.checked_sub(codes.len()) {
            None => codes[i],
            Some(0) => codes[codes.len() - 2],
            Some(_) => random.pick(codes),
        };
        for bit in 0..bits {
            if i > codes.len() && missing.is_some_and(|times| random.once_in(times)) {
                continue;
            }
            let target = match code >> bit & 1 {
                1 => other,
                _ => random.pick(&states),
            };
            edges.push(Edge {
                source,
                label: labels[bit as usize],
                target,
            });
        }
    }
    let order = random.shuffled(members);
    for (&from, &to) in order.iter().zip(order.iter().cycle().skip(1)) {
        edges.push(Edge {
            source: states[from as usize],
            label: labels[bits as usize],
            target: states[to as usize],
        });
    }
    edges.sort_by_key(|edge| (edge.source, edge.label));
    // The members' is even: they lead to the other state, and an odd colour may be the fault.
    let [even, odd] = [0, 1].map(|i| i + 2 * random.between(0, profile.top_colour() / 2));
    let colour = |state| if state == other { odd } else { even };
    Filter {
        colours: (0..=members).map(colour).collect(),
        m,
        start: random.pick(&states),
        edges,
    }
}

/// Each of these numbers with more members where there can be more, so that a group of each word but the last is joined; then as
/// many members as there can be, with groups that reach into the last word and with fewer; and as many members as groups.
pub fn with_many_groups(profile: Profile, random: &mut Random) -> Vec<Case> {
    let many = many_groups(profile);
    let [.., behind, most] = many[..] else {
        panic!("two numbers at least");
    };
    let mut filters = Vec::new();
    for &groups in &many {
        let members = random.between(most.min(groups + 1), most);
        filters.push(crowd(profile, random, groups, members));
    }
    for groups in [
        random.between(behind + 1, most - 1),
        random.between(2, behind),
    ] {
        filters.push(crowd(profile, random, groups, most));
    }
    let groups = random.pick(&many);
    filters.push(crowd(profile, random, groups, groups));
    with_enough_room(profile, &filters, random)
}
