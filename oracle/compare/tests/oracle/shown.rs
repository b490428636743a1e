//! The shown line-up and the shown cycle against trying everything, up to five jobs.

use compare::rng::Rng;
use rules::{Edge, Graph};
use std::collections::BTreeSet;

/// All orders of the jobs, lowest in dictionary order first.
fn orders(jobs: usize) -> Vec<Vec<usize>> {
    let mut orders = vec![vec![]];
    for _ in 0..jobs {
        let longer = |order: Vec<usize>| {
            let left: Vec<usize> = (0..jobs).filter(|job| !order.contains(job)).collect();
            left.into_iter()
                .map(move |job| [&order[..], &[job]].concat())
        };
        orders = orders.into_iter().flat_map(longer).collect();
    }
    orders
}

fn leads_forward(order: &[usize], edges: &BTreeSet<Edge>) -> bool {
    let place = |job: usize| order.iter().position(|&other| other == job);
    edges.iter().all(|&(from, to)| place(from) < place(to))
}

/// All cycles without a repeated job, each from each of its jobs.
fn cycles(orders: &[Vec<usize>], edges: &BTreeSet<Edge>) -> Vec<Vec<usize>> {
    let closes = |cycle: &&[usize]| {
        let next = |place: usize| cycle[(place + 1) % cycle.len()];
        (0..cycle.len()).all(|place| edges.contains(&(cycle[place], next(place))))
    };
    let fronts = orders
        .iter()
        .flat_map(|order| (1..=order.len()).map(|length| &order[..length]));
    fronts.filter(closes).map(<[usize]>::to_vec).collect()
}

fn check(jobs: usize, edges: &BTreeSet<Edge>, orders: &[Vec<usize>]) -> bool {
    let graph = Graph::new(jobs, edges);
    let lowest = orders.iter().find(|order| leads_forward(order, edges));
    assert_eq!(graph.line_up().as_ref(), lowest, "{edges:?}");
    // From the lowest job on a cycle, the shortest, of those the lowest.
    let shown = cycles(orders, edges)
        .into_iter()
        .min_by_key(|cycle| (cycle[0], cycle.len(), cycle.clone()));
    assert_eq!(graph.shown_cycle(), shown, "{edges:?}");
    assert_eq!(lowest.is_none(), shown.is_some());
    lowest.is_none()
}

/// Every graph of up to three jobs, self edges included.
#[test]
fn every_small_graph() {
    for jobs in 0..4 {
        let pairs: Vec<Edge> = (0..jobs * jobs)
            .map(|code| (code / jobs, code % jobs))
            .collect();
        let orders = orders(jobs);
        for code in 0..1_u32 << pairs.len() {
            let chosen = |place: &usize| code >> place & 1 == 1;
            let edges = (0..pairs.len()).filter(chosen).map(|place| pairs[place]);
            check(jobs, &edges.collect(), &orders);
        }
    }
}

#[test]
fn random_graphs_of_four_and_five_jobs() {
    let mut rng = Rng::new(11);
    let mut cyclic = 0;
    for jobs in [4, 5] {
        let orders = orders(jobs);
        for _ in 0..6_000 {
            let self_edges = rng.once_in(4);
            let edges: BTreeSet<Edge> = (0..rng.below(10))
                .map(|_| (rng.below(jobs), rng.below(jobs)))
                .filter(|edge| self_edges || edge.0 != edge.1)
                .collect();
            cyclic += usize::from(check(jobs, &edges, &orders));
        }
    }
    assert!(
        (2_000..10_000).contains(&cyclic),
        "{cyclic} of 12,000 cyclic"
    );
}
