//! The reduction of a filter, as document 01 tells it: classes are sets of states, split round by round. States that the
//! start cannot reach are dropped, as document 02 has it: they are in no class.

use std::collections::{BTreeMap, BTreeSet};

use crate::file::{Edge, Filter};
use crate::reach::reached;

/// The states of one class. Its name is its smallest state, so sets of classes are in the order of their names.
pub type Class = BTreeSet<u64>;

pub fn name(class: &Class) -> u64 {
    *class.first().expect("a member")
}

/// What a reduction comes to.
#[derive(Clone, Debug, PartialEq, Eq)]
pub struct Reduced {
    pub filter: Filter,
    /// The new number of each state of the original; a dropped one has none.
    pub numbers: Vec<Option<u64>>,
    /// Those of the reached states.
    pub distinct_colours: u64,
    pub rounds: u64,
}

/// The classes at the beginning, or after a round.
#[derive(Clone, Debug, PartialEq, Eq)]
pub struct Stage {
    /// The name of the class that the round took; the beginning took none.
    pub taken: Option<u64>,
    pub classes: BTreeSet<Class>,
}

pub fn reduce(filter: &Filter) -> Reduced {
    let stages = stages(filter);
    let classes = &stages.last().expect("a beginning").classes;
    Reduced {
        filter: merged(filter, classes),
        numbers: numbers(filter, classes),
        distinct_colours: stages[0].classes.len() as u64,
        rounds: stages.len() as u64 - 1,
    }
}

/// The beginning, then what each round comes to.
pub fn stages(filter: &Filter) -> Vec<Stage> {
    let mut classes = one_class_a_colour(filter);
    let mut stages = vec![Stage {
        taken: None,
        classes: classes.clone(),
    }];
    loop {
        let leads = leads(filter, &classes);
        let Some(class) = first_in_conflict(&leads, &classes) else {
            return stages;
        };
        classes.remove(&class);
        classes.extend(groups(&leads, &class));
        stages.push(Stage {
            taken: Some(name(&class)),
            classes: classes.clone(),
        });
    }
}

/// The groups that each round made, in the order of their numbers: a group has its number from its first member, which names
/// it, and members are taken in ascending order.
pub fn groups_made(stages: &[Stage]) -> Vec<Vec<Class>> {
    let made = |two: &[Stage]| {
        (two[1].classes.difference(&two[0].classes))
            .cloned()
            .collect()
    };
    stages.windows(2).map(made).collect()
}

fn one_class_a_colour(filter: &Filter) -> BTreeSet<Class> {
    let mut of_colour: BTreeMap<u64, Class> = BTreeMap::new();
    for state in reached(filter) {
        let colour = filter.colours[state as usize];
        of_colour.entry(colour).or_default().insert(state);
    }
    of_colour.into_values().collect()
}

/// For each state the position of its class, where it is in one.
fn numbers(filter: &Filter, classes: &BTreeSet<Class>) -> Vec<Option<u64>> {
    let mut numbers = vec![None; filter.colours.len()];
    for (number, class) in (0..).zip(classes) {
        for &state in class {
            numbers[state as usize] = Some(number);
        }
    }
    numbers
}

/// For each member of a class and label the number of the class that the edge leads to, where there is an edge. Dropped
/// states have a row too, which no one looks at. A map of wider numbers would do, but a long chain takes millions of looks.
type Leads = Vec<Vec<Option<u8>>>;

fn leads(filter: &Filter, classes: &BTreeSet<Class>) -> Leads {
    let numbers = numbers(filter, classes);
    let mut leads = vec![vec![None; filter.m as usize]; filter.colours.len()];
    for edge in &filter.edges {
        let byte = |number| u8::try_from(number).expect("at most 256 classes");
        leads[edge.source as usize][edge.label as usize] = numbers[edge.target as usize].map(byte);
    }
    leads
}

/// Both states have an edge at some label, and the two targets are in different classes.
fn conflict(leads: &Leads, one: u64, other: u64) -> bool {
    let mut labels = leads[one as usize].iter().zip(&leads[other as usize]);
    labels.any(|at| match at {
        (Some(left), Some(right)) => left != right,
        _ => false,
    })
}

fn first_in_conflict(leads: &Leads, classes: &BTreeSet<Class>) -> Option<Class> {
    let torn = |class: &&Class| {
        class.iter().any(|&one| {
            class
                .range(one + 1..)
                .any(|&other| conflict(leads, one, other))
        })
    };
    classes.iter().find(torn).cloned()
}

/// Members in ascending order, each put into the first group that holds no member it conflicts with.
fn groups(leads: &Leads, class: &Class) -> Vec<Class> {
    let mut groups: Vec<Class> = Vec::new();
    for &state in class {
        let fits = |group: &&mut Class| !group.iter().any(|&member| conflict(leads, member, state));
        match groups.iter_mut().find(fits) {
            Some(group) => {
                group.insert(state);
            }
            None => groups.push(Class::from([state])),
        }
    }
    groups
}

fn merged(filter: &Filter, classes: &BTreeSet<Class>) -> Filter {
    let numbers = numbers(filter, classes);
    let of_reached = |state: u64| numbers[state as usize].expect("a reached state");
    let lead = |edge: &Edge| {
        let source = numbers[edge.source as usize]?;
        Some((source, edge.label, of_reached(edge.target)))
    };
    let edges: BTreeSet<(u64, u64, u64)> = filter.edges.iter().filter_map(lead).collect();
    let colour = |class: &Class| filter.colours[name(class) as usize];
    Filter {
        colours: classes.iter().map(colour).collect(),
        m: filter.m,
        start: of_reached(filter.start),
        edges: edges
            .into_iter()
            .map(|(source, label, target)| Edge {
                source,
                label,
                target,
            })
            .collect(),
    }
}
