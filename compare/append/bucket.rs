// Reads and sets the private fields of a bucket.

use super::*;

pub fn nodes<TNodeId, TVal: Eq>(bucket: &KBucket<TNodeId, TVal>) -> &[Node<TNodeId, TVal>] {
    &bucket.nodes
}

pub fn first_connected_pos<TNodeId, TVal: Eq>(bucket: &KBucket<TNodeId, TVal>) -> Option<usize> {
    bucket.first_connected_pos
}

/// The pending node and its deadline.
pub fn pending<TNodeId, TVal: Eq>(
    bucket: &KBucket<TNodeId, TVal>,
) -> Option<(&Node<TNodeId, TVal>, Instant)> {
    bucket.pending.as_ref().map(|p| (&p.node, p.replace))
}

pub fn set<TNodeId, TVal: Eq>(
    bucket: &mut KBucket<TNodeId, TVal>,
    nodes: impl Iterator<Item = Node<TNodeId, TVal>>,
    first_connected_pos: Option<usize>,
    pending: Option<(Node<TNodeId, TVal>, Instant)>,
) {
    bucket.nodes = nodes.collect();
    bucket.first_connected_pos = first_connected_pos;
    bucket.pending = pending.map(|(node, replace)| PendingNode { node, replace });
}
