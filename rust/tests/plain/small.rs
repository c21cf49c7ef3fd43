//! All small graphs and trits, and the edges of random graphs: what is proper,
//! and what unpacking gives.

use glouds::make::{self, Xorshift};
use glouds::plain::{self, Graph, Packed};
use std::collections::HashSet;

/// Every list of at most `most` operands among n nodes.
fn operand_lists(n: usize, most: usize) -> Vec<Vec<usize>> {
    let mut lists = vec![Vec::new()];
    let mut from = 0;
    for _ in 0..most {
        let to = lists.len();
        for index in from..to {
            for operand in 1..=n {
                let list: &Vec<usize> = &lists[index];
                lists.push([&list[..], &[operand]].concat());
            }
        }
        from = to;
    }
    lists
}

/// Every graph with these many nodes and at most these many edges and trits.
fn graphs(n: usize, most_edges: usize, most_trits: usize) -> Vec<Graph> {
    let mut with_operands = vec![Graph::default()];
    for _ in 0..n {
        let mut next = Vec::new();
        for graph in with_operands {
            for list in operand_lists(n, most_edges - graph.edges()) {
                let mut longer = graph.clone();
                longer.operands.push(list);
                next.push(longer);
            }
        }
        with_operands = next;
    }
    let mut all = Vec::new();
    let mut from = with_operands;
    for _ in 0..=n {
        let mut next = Vec::new();
        for graph in from {
            for root in (1..=n).filter(|root| !graph.roots.contains(root)) {
                let mut rooted = graph.clone();
                rooted.roots.push(root);
                next.push(rooted);
            }
            if n + graph.edges() + graph.roots.len() < most_trits {
                all.push(graph);
            }
        }
        from = next;
    }
    all
}

/// The checker accepts an image exactly if some accepted table packs to it:
/// over all trits up to length 8 with all shadow lists.
#[test]
fn proper_exactly_if_packed() {
    const MOST: usize = 8;
    let mut images = HashSet::new();
    for n in 0..=3 {
        for graph in graphs(n, MOST - n, MOST) {
            if let Ok(packed) = plain::pack_graph(&graph) {
                images.insert(packed.image);
            }
        }
    }
    let mut proper = 0;
    for l in 1..=MOST {
        for trits in make::every_trits(l) {
            let (n, k) = (plain::count(&trits, 1), plain::count(&trits, 2));
            if k > 5 {
                continue; // no room for 1 0 .. 0 beside so many twos
            }
            for shadows_code in 0..n.pow(k as u32) {
                let shadows: Vec<usize> = (0..k)
                    .map(|index| 1 + shadows_code / n.pow(index as u32) % n)
                    .collect();
                let image = make::image(&trits, &shadows);
                let refusal = plain::check(&image);
                assert_eq!(
                    refusal == 0,
                    images.contains(&image),
                    "{trits:?} {shadows:?}"
                );
                proper += usize::from(refusal == 0);
            }
        }
    }
    assert_eq!(proper, images.len());
    println!("plain: {proper} proper images of up to {MOST} trits");
}

/// Each byte of small images changed in every way: none but the image itself
/// is proper, unless the change is one of an image that some table gives.
#[test]
fn changed_images() {
    let mut images = HashSet::new();
    for n in 0..=2 {
        for graph in graphs(n, 4, 7) {
            if let Ok(packed) = plain::pack_graph(&graph) {
                images.insert(packed.image);
            }
        }
    }
    let mut refusals = [0; 27];
    for image in &images {
        let mut changed = image.clone();
        for at in 0..image.len() {
            for byte in 0..=255 {
                changed[at] = byte;
                let refusal = plain::check(&changed);
                refusals[refusal as usize] += 1;
                assert_eq!(refusal == 0, images.contains(&changed));
            }
            changed[at] = image[at];
        }
    }
    assert!(refusals[21..=25].iter().all(|&count| count > 0));
}

/// Demand 2: unpacking gives the table in level order, which packs to the same
/// bytes; operands and users are the table's own edges; the counts sum to m.
#[test]
fn unpacked_tables_and_edges() {
    let mut rng = Xorshift::new(7);
    for round in 0..2_000 {
        let n = 1 + rng.below(40);
        let c = 1 + rng.below(n);
        let m = n - c + rng.below(60);
        let graph = make::random(n, m, c, &mut rng);
        let packed = plain::pack_graph(&graph).unwrap();
        let table = plain::unpack(&packed.image, n + m + c + 2).unwrap();
        assert_eq!(plain::unpack(&packed.image, n + m + c + 1), Err(51));
        let again = plain::pack(&table).unwrap();
        assert_eq!(again.image, packed.image, "round {round}");
        assert!(again
            .order
            .iter()
            .zip(1..)
            .all(|(&node, level)| node == level));
        edges(&graph, &packed);
    }
}

/// The operands and users of an image are the graph's own edges, also by
/// questions, and their counts sum to m.
fn edges(graph: &Graph, packed: &Packed) {
    let (n, m) = (graph.nodes(), graph.edges());
    let opened = plain::open(&packed.image).unwrap();
    let mut users = vec![Vec::new(); n];
    for (level, &node) in packed.order.iter().enumerate() {
        let listed: Vec<usize> = opened.operands[level]
            .iter()
            .map(|&(operand, _)| usize::from(packed.order[operand - 1]))
            .collect();
        assert_eq!(listed, graph.operands[usize::from(node) - 1]);
        for &(operand, sort) in &opened.operands[level] {
            users[operand - 1].push((level + 1, sort));
        }
    }
    assert_eq!(opened.users, users);
    for (kind, lists) in [(3, &opened.operands), (5, &opened.users)] {
        let counts = (1..=n as u32).map(|node| plain::answer(&opened, kind, node, 0)[1]);
        assert_eq!(counts.sum::<u32>() as usize, m);
        for (index, list) in lists.iter().enumerate() {
            for (number, &(node, sort)) in list.iter().enumerate() {
                let answer = plain::answer(&opened, kind + 1, index as u32 + 1, number as u32 + 1);
                assert_eq!(answer, [0, node as u32, sort]);
            }
        }
    }
}
