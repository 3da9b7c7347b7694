//! The contraction on words, in plain Rust: the passes and the layout of the crates `core_*`.
//! A node has 16 words, a half-edge three; the half-edges stand behind the nodes.

pub type Node = [u32; 16];
/// The far end, 1 + the next half-edge at the same node, and in the first half-edge of an edge its name.
pub type Half = [u32; 3];

// Fields of a node. Several are used again once their first use is over.
/// 1 + the place among the active nodes (in); the number of the class (out). For the pieces 1 + the number of a tree, at its root.
pub const MARK: usize = 0;
/// At i: the i-th active node (in).
pub const ACTIVE: usize = 1;
pub(crate) const HEAD: usize = 2;
/// At i: the i-th node of the search.
pub(crate) const ORDER: usize = 3;
/// 1 + the place in the search, 0 where unseen.
pub(crate) const PLACE: usize = 4;
pub(crate) const PARENT: usize = 5;
pub(crate) const TOP: usize = 6;
/// At i: the top of the class i.
const CLASS: usize = 7;
/// The branches of a class that have an active node.
const BRANCHES: usize = 8;
/// At i: 1 + the number of the nearest kept class above the class i.
const ABOVE: usize = 9;
/// 1 + the number of a class.
pub(crate) const NUMBER: usize = 10;
/// At i: the smallest name between the class i and the nearest kept class above.
const UPWARD: usize = 11;
/// The root of the tree, where it is asked for.
pub const ROOT: usize = 12;
/// 1 + the edge to the parent, 0 at a root.
pub(crate) const TREE_EDGE: usize = 13;
/// At i: the name of the i-th edge (out).
pub const NAMED: usize = 15;
/// At i: the ends of the i-th edge (out).
pub const SMALL_END: usize = PLACE;
pub const LARGE_END: usize = PARENT;
/// At i: 1 + the first child of the class i with a larger number, and 1 + the next such child of its parent.
const CHILDREN: usize = HEAD;
const NEXT_CHILD: usize = BRANCHES;

/// The words as nodes and half-edges.
pub fn split(work: &mut [u32], n: usize, m: usize) -> (&mut [Node], &mut [Half]) {
    let (nodes, rest) = work.split_at_mut(16 * n);
    (nodes.as_chunks_mut().0, rest[..6 * m].as_chunks_mut().0)
}

pub fn clear_marks(nodes: &mut [Node]) {
    for node in nodes.iter_mut() {
        node[MARK] = 0;
    }
}

/// Enters v as active where it is not yet; the new count of active nodes.
pub fn enter(nodes: &mut [Node], k: usize, v: usize) -> usize {
    if nodes[v][MARK] != 0 {
        return k;
    }
    nodes[k][ACTIVE] = v as u32;
    nodes[v][MARK] = k as u32 + 1;
    k + 1
}

/// Puts an edge's ends and its name into its two half-edges.
pub fn put_edge(edge: &mut [Half; 2], u: u32, v: u32, name: u32) {
    edge[0][0] = u;
    edge[0][2] = name;
    edge[1][0] = v;
}

pub(crate) fn link_edges(nodes: &mut [Node], halves: &mut [Half]) {
    for (e, edge) in halves.as_chunks_mut::<2>().0.iter_mut().enumerate() {
        for side in 0..2 {
            let head = &mut nodes[edge[side ^ 1][0] as usize][HEAD];
            edge[side][1] = *head;
            *head = (2 * e + side + 1) as u32;
        }
    }
}

fn append<const ROOTS: bool>(
    nodes: &mut [Node],
    seen: &mut usize,
    v: usize,
    parent: usize,
    tree_edge: usize,
    root: usize,
) {
    nodes[*seen][ORDER] = v as u32;
    *seen += 1;
    let node = &mut nodes[v];
    node[PLACE] = *seen as u32;
    node[PARENT] = parent as u32;
    node[TREE_EDGE] = tree_edge as u32;
    if ROOTS {
        node[ROOT] = root as u32;
    }
}

/// Breadth first from each active node that is not seen yet; how many nodes are seen.
pub(crate) fn spanning_forest<const ROOTS: bool>(
    nodes: &mut [Node],
    halves: &[Half],
    k: usize,
) -> usize {
    let mut seen = 0;
    let mut done = 0;
    for j in 0..k {
        let root = nodes[j][ACTIVE] as usize;
        if nodes[root][PLACE] != 0 {
            continue;
        }
        append::<ROOTS>(nodes, &mut seen, root, root, 0, root);
        while done < seen {
            let v = nodes[done][ORDER] as usize;
            done += 1;
            let mut h = nodes[v][HEAD] as usize;
            while h != 0 {
                let [w, next, _] = halves[h - 1];
                if nodes[w as usize][PLACE] == 0 {
                    let tree_edge = (h - 1) / 2 + 1;
                    append::<ROOTS>(nodes, &mut seen, w as usize, v, tree_edge, root);
                }
                h = next as usize;
            }
        }
    }
    seen
}

/// The top of v; the path to it is halved on the way.
pub(crate) fn find(nodes: &mut [Node], mut v: usize) -> usize {
    loop {
        let u = nodes[v][TOP] as usize;
        if u == v {
            return v;
        }
        let t = nodes[u][TOP];
        nodes[v][TOP] = t;
        v = t as usize;
    }
}

/// Each node is its own class.
pub(crate) fn start_tops(nodes: &mut [Node]) {
    for (v, node) in nodes.iter_mut().enumerate() {
        node[TOP] = v as u32;
    }
}

/// The final tops of the seen nodes, in the order of the search.
pub(crate) fn compress_all(nodes: &mut [Node], seen: usize) {
    for i in 0..seen {
        let v = nodes[i][ORDER] as usize;
        let top = nodes[v][TOP] as usize;
        nodes[v][TOP] = nodes[top][TOP];
    }
}

/// Merges the 2-edge-connected classes along the tree path of each edge that is no tree edge.
fn merge_edges(nodes: &mut [Node], halves: &[Half], seen: usize) {
    start_tops(nodes);
    for (e, edge) in halves.as_chunks::<2>().0.iter().enumerate() {
        let x = edge[0][0] as usize;
        let y = edge[1][0] as usize;
        let tree_edge = e as u32 + 1;
        if nodes[x][PLACE] == 0
            || nodes[x][TREE_EDGE] == tree_edge
            || nodes[y][TREE_EDGE] == tree_edge
        {
            continue;
        }
        let mut a = find(nodes, x);
        let mut b = find(nodes, y);
        while a != b {
            if nodes[a][PLACE] < nodes[b][PLACE] {
                (a, b) = (b, a);
            }
            let parent = nodes[a][PARENT] as usize;
            let top = find(nodes, parent);
            nodes[a][TOP] = top as u32;
            a = top;
        }
    }
    compress_all(nodes, seen);
}

/// Gives the class with this top the next number.
fn number(nodes: &mut [Node], count: &mut usize, top: usize) {
    nodes[*count][CLASS] = top as u32;
    *count += 1;
    nodes[top][NUMBER] = *count as u32;
}

/// Numbers the classes of the active nodes in order of first appearance.
fn number_actives(nodes: &mut [Node], k: usize) -> usize {
    let mut count = 0;
    for i in 0..k {
        let v = nodes[i][ACTIVE] as usize;
        let top = nodes[v][TOP] as usize;
        if nodes[top][NUMBER] == 0 {
            number(nodes, &mut count, top);
        }
    }
    count
}

fn count_branches(nodes: &mut [Node], seen: usize) {
    for i in (0..seen).rev() {
        let v = nodes[i][ORDER] as usize;
        let node = &nodes[v];
        let live = node[NUMBER] != 0 || node[BRANCHES] != 0;
        if node[TOP] as usize == v && node[TREE_EDGE] != 0 && live {
            let above = nodes[node[PARENT] as usize][TOP] as usize;
            nodes[above][BRANCHES] += 1;
        }
    }
}

/// Numbers the other kept classes by their smallest nodes.
fn number_others(nodes: &mut [Node], mut count: usize) -> usize {
    for v in 0..nodes.len() {
        if nodes[v][PLACE] == 0 {
            continue;
        }
        let top = nodes[v][TOP] as usize;
        if nodes[top][NUMBER] == 0 && nodes[top][BRANCHES] >= 2 {
            number(nodes, &mut count, top);
        }
    }
    count
}

/// From each kept class up to the nearest kept class above, with the smallest name on the way. A class that is not kept lies on one such
/// way at most, so that all together are linear. A root is active, so that its class is kept and ends each way.
fn ways_up(nodes: &mut [Node], halves: &[Half], count: usize) {
    for x in 0..count {
        let mut node = &nodes[nodes[x][CLASS] as usize];
        if node[TREE_EDGE] == 0 {
            nodes[x][ABOVE] = 0;
            continue;
        }
        let mut least = u32::MAX;
        loop {
            least = least.min(halves[2 * (node[TREE_EDGE] as usize - 1)][2]);
            node = &nodes[nodes[node[PARENT] as usize][TOP] as usize];
            if node[NUMBER] != 0 {
                break;
            }
        }
        nodes[x][ABOVE] = node[NUMBER];
        nodes[x][UPWARD] = least;
    }
}

/// Lists the edges in ascending order without a sort; how many they are.
fn list_edges(nodes: &mut [Node], count: usize) -> usize {
    for node in &mut nodes[..count] {
        node[CHILDREN] = 0;
    }
    for x in (0..count).rev() {
        let above = nodes[x][ABOVE] as usize;
        if above != 0 && above <= x {
            nodes[x][NEXT_CHILD] = nodes[above - 1][CHILDREN];
            nodes[above - 1][CHILDREN] = x as u32 + 1;
        }
    }
    let mut edges = 0;
    let mut write = |nodes: &mut [Node], s: usize, t: usize, below: usize| {
        let name = nodes[below][UPWARD];
        let edge = &mut nodes[edges];
        edge[SMALL_END] = s as u32;
        edge[LARGE_END] = t as u32 - 1;
        edge[NAMED] = name;
        edges += 1;
    };
    for s in 0..count {
        let above = nodes[s][ABOVE] as usize;
        let mut pending = if above > s + 1 { above } else { 0 };
        let mut child = nodes[s][CHILDREN] as usize;
        while child != 0 {
            if pending != 0 && pending < child {
                write(nodes, s, pending, s);
                pending = 0;
            }
            write(nodes, s, child, child - 1);
            child = nodes[child - 1][NEXT_CHILD] as usize;
        }
        if pending != 0 {
            write(nodes, s, pending, s);
        }
    }
    edges
}

/// Contracts the graph to its k different active nodes, which are entered; the nodes and the edges of the small graph.
/// With ROOTS each seen node has the root of its tree afterwards, for the pieces. The replay needs none and pays for none.
pub fn reduce<const ROOTS: bool>(
    nodes: &mut [Node],
    halves: &mut [Half],
    k: usize,
) -> (usize, usize) {
    for node in nodes.iter_mut() {
        node[HEAD] = 0;
        node[PLACE] = 0;
        node[BRANCHES] = 0;
        node[NUMBER] = 0;
    }
    link_edges(nodes, halves);
    let seen = spanning_forest::<ROOTS>(nodes, halves, k);
    merge_edges(nodes, halves, seen);
    let actives = number_actives(nodes, k);
    count_branches(nodes, seen);
    let count = number_others(nodes, actives);
    ways_up(nodes, halves, count);
    let edges = list_edges(nodes, count);
    for i in 0..k {
        let v = nodes[i][ACTIVE] as usize;
        let top = nodes[v][TOP] as usize;
        nodes[v][MARK] = nodes[top][NUMBER] - 1;
    }
    (count, edges)
}
