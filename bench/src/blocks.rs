//! Blocks and the cycles that stand for them on words, in plain Rust: the passes and the layout of the crates `core_blocks`, `core_cycles` and
//! `core_block_reduce`. A class holds the nodes of a block but for its top, the parent of its first node.

use crate::core::{
    compress_all, find, link_edges, spanning_forest, start_tops, Half, Node, ACTIVE, HEAD, MARK,
    NUMBER, ORDER, PARENT, PLACE, TOP, TREE_EDGE,
};

// Fields of a node, beside those of the contraction.
/// Of a class, at its first node: how many of its nodes are relevant.
const MEMBERS: usize = 7;
/// How many classes with relevant nodes are right below a node.
const BELOW: usize = 8;
/// Of a class, at its first node: 1 + the number of its last relevant node so far.
const LAST: usize = 9;
/// 1 + the number that the edge of a cycle to the node comes from.
const FROM: usize = 11;

/// Of two tops the later goes under the earlier.
fn join_tops(nodes: &mut [Node], p: usize, q: usize) {
    if nodes[p][PLACE] < nodes[q][PLACE] {
        nodes[q][TOP] = p as u32;
    } else {
        nodes[p][TOP] = q as u32;
    }
}

/// The classes of s and a become one; the parent of the first node that the class of a had.
fn merge_class(nodes: &mut [Node], s: usize, a: usize) -> usize {
    let p = find(nodes, s);
    let q = find(nodes, a);
    join_tops(nodes, p, q);
    nodes[q][PARENT] as usize
}

/// Merges the classes on the tree path from a to b with that of s: the later of the two goes up, class by class, until they meet.
fn merge_path(nodes: &mut [Node], s: usize, mut a: usize, mut b: usize) {
    while a != b {
        if nodes[b][PLACE] < nodes[a][PLACE] {
            a = merge_class(nodes, s, a);
        } else {
            b = merge_class(nodes, s, b);
        }
    }
}

/// Merges the classes along the tree path of each edge that is seen and no loop. A tree edge may be merged along too.
fn merge_blocks(nodes: &mut [Node], halves: &[Half], seen: usize) {
    start_tops(nodes);
    for edge in halves.as_chunks::<2>().0 {
        let x = edge[0][0] as usize;
        let y = edge[1][0] as usize;
        if x == y || nodes[x][PLACE] == 0 {
            continue;
        }
        if nodes[y][PLACE] < nodes[x][PLACE] {
            let s = find(nodes, x);
            let a = nodes[s][PARENT] as usize;
            merge_path(nodes, s, a, y);
        } else {
            let s = find(nodes, y);
            let b = nodes[s][PARENT] as usize;
            merge_path(nodes, s, x, b);
        }
    }
    compress_all(nodes, seen);
}

/// Counts the relevant nodes of each class and the classes below each node, against the order of the search.
fn count_nodes(nodes: &mut [Node], seen: usize) {
    for i in (0..seen).rev() {
        let v = nodes[i][ORDER] as usize;
        let node = &nodes[v];
        if node[TREE_EDGE] == 0 || node[MARK] + node[BELOW] == 0 {
            continue;
        }
        let top = node[TOP] as usize;
        let members = nodes[top][MEMBERS];
        nodes[top][MEMBERS] = members + 1;
        if members == 0 {
            let parent = nodes[top][PARENT] as usize;
            nodes[parent][BELOW] += 1;
        }
    }
}

/// Whether v, of the class of `top`, shares the number of the class's parent.
fn shares_top(nodes: &[Node], v: usize, top: usize) -> bool {
    let parent = nodes[top][PARENT] as usize;
    nodes[v][MARK] == 0
        && nodes[parent][MARK] == 0
        && nodes[v][BELOW] == 1
        && nodes[top][MEMBERS] == 1
}

/// Numbers the relevant nodes in the order of the search; how many numbers there are.
fn number_nodes(nodes: &mut [Node], seen: usize) -> usize {
    let mut count = 0;
    for i in 0..seen {
        let v = nodes[i][ORDER] as usize;
        if nodes[v][MARK] + nodes[v][BELOW] == 0 {
            nodes[v][FROM] = 0;
            continue;
        }
        if nodes[v][TREE_EDGE] == 0 {
            nodes[v][NUMBER] = count;
            nodes[v][LAST] = 0;
            nodes[v][FROM] = 0;
            count += 1;
            continue;
        }
        let top = nodes[v][TOP] as usize;
        let mut last = nodes[top][LAST];
        if last == 0 {
            last = nodes[nodes[top][PARENT] as usize][NUMBER] + 1;
        }
        if shares_top(nodes, v, top) {
            nodes[v][NUMBER] = last - 1;
            nodes[top][LAST] = last;
            nodes[v][FROM] = 0;
        } else {
            nodes[v][NUMBER] = count;
            nodes[top][LAST] = count + 1;
            nodes[v][FROM] = last;
            count += 1;
        }
    }
    count as usize
}

/// Writes the edges of all cycles; how many they are.
fn write_cycles(nodes: &[Node], out: &mut [[Half; 2]], seen: usize) -> usize {
    let mut edges = 0;
    let mut write = |from: u32, to: u32| {
        let edge = &mut out[edges];
        edge[0][0] = from;
        edge[1][0] = to;
        edges += 1;
    };
    for place in &nodes[..seen] {
        let v = place[ORDER] as usize;
        let node = &nodes[v];
        if node[FROM] != 0 {
            write(node[FROM] - 1, node[NUMBER]);
        }
        // The first node of a class with two relevant nodes at least closes the cycle.
        if node[TREE_EDGE] != 0 && node[TOP] as usize == v && node[MEMBERS] >= 2 {
            write(node[LAST] - 1, nodes[node[PARENT] as usize][NUMBER]);
        }
    }
    edges
}

/// Reduces the graph of the first m edges to the cycles of the blocks that its k different active nodes need; the nodes and the edges of the
/// reduced graph, whose edges stand behind the first m. MARK of an active node is its number afterwards.
pub fn reduce(nodes: &mut [Node], halves: &mut [Half], m: usize, k: usize) -> (usize, usize) {
    for node in nodes.iter_mut() {
        node[HEAD] = 0;
        node[PLACE] = 0;
        node[MEMBERS] = 0;
        node[BELOW] = 0;
        node[LAST] = 0;
    }
    let (halves, out) = halves.split_at_mut(2 * m);
    link_edges(nodes, halves);
    let seen = spanning_forest::<false>(nodes, halves, k);
    merge_blocks(nodes, halves, seen);
    count_nodes(nodes, seen);
    let count = number_nodes(nodes, seen);
    let edges = write_cycles(nodes, out.as_chunks_mut().0, seen);
    for i in 0..k {
        let v = nodes[i][ACTIVE] as usize;
        nodes[v][MARK] = nodes[v][NUMBER];
    }
    (count, edges)
}
