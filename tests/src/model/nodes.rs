//! Nodes, and how two of them lie to each other.

/// The words of a node.
pub const NODE_WORDS: usize = 4;

#[derive(Clone, Copy, Debug, PartialEq, Eq)]
pub struct Node {
    pub document: u32,
    pub start: u32,
    pub end: u32,
    pub level: u32,
}

impl Node {
    pub fn words(&self) -> [u32; NODE_WORDS] {
        [self.document, self.start, self.end, self.level]
    }
}

pub fn node(words: &[u32]) -> Node {
    Node { document: words[0], start: words[1], end: words[2], level: words[3] }
}

/// Returns the whole nodes that the words make.
pub fn nodes(words: &[u32]) -> Vec<Node> {
    words.chunks_exact(NODE_WORDS).map(node).collect()
}

pub fn words(nodes: &[Node]) -> Vec<u32> {
    let mut words = Vec::with_capacity(NODE_WORDS * nodes.len());
    for node in nodes {
        words.extend(node.words());
    }
    words
}

/// Tells whether y is inside x.
pub fn inside(y: &Node, x: &Node) -> bool {
    y.document == x.document && x.start < y.start && y.end <= x.end
}

/// Tells whether y is directly inside x.
pub fn directly_inside(y: &Node, x: &Node) -> bool {
    inside(y, x) && u64::from(y.level) == u64::from(x.level) + 1
}

/// Tells whether two nodes of one document are apart.
pub fn apart(x: &Node, y: &Node) -> bool {
    x.end < y.start || y.end < x.start
}
