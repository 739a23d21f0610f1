//! The reference's writer and reader (02, slip 6), which the Rust lacks. What is written are the nodes of the Rust's own buckets, in their
//! order; what is read is put into them place by place, as raw lines are.

use super::*;
use layout::{BUCKETS, KEY, NODE};

impl HeldTable {
    /// Question 6; then the sizes, the keys and the entries.
    pub(super) fn write(&self, room: Option<u64>, out: &mut Vec<u8>) -> Result<(), Unanswered> {
        let buckets: Vec<&[Node<NodeId, Value>]> =
            access::buckets(&self.table).iter().map(|bucket| access::bucket::nodes(bucket)).collect();
        let nodes: Vec<NodeCodes> = buckets.iter().flat_map(|nodes| nodes.iter().map(node_codes)).collect();
        let mut bytes: Vec<u8> = buckets.iter().map(|nodes| nodes.len() as u8).collect();
        bytes.extend(nodes.iter().flat_map(|node| node.key));
        for node in &nodes {
            bytes.extend([node.state, node.direction]);
            bytes.extend(layout::value_bytes(&node.value));
        }
        ask(6, room.is_none_or(|room| room >= bytes.len() as u64))?;
        out.text("Written ");
        out.hexadecimal(&bytes);
        Ok(())
    }

    /// Question 9; then the nodes in their places.
    pub(super) fn load(&mut self, bytes: &[u8], out: &mut Vec<u8>) -> Result<(), Unanswered> {
        let loaded = self.loaded(bytes).filter(|loaded| self.holds_nothing() && self.fits(loaded));
        *self = HeldTable::read(&loaded.ok_or(Unanswered::Refused(9))?);
        out.text("Read");
        Ok(())
    }

    fn holds_nothing(&self) -> bool {
        let mut buckets = access::buckets(&self.table).iter();
        let empty = |b: &Bucket| access::bucket::nodes(b).is_empty() && access::bucket::pending(b).is_none();
        self.queue.is_empty() && buckets.all(empty)
    }

    /// The table that the bytes are of; none where their length does not fit the sizes, or a size is above 16.
    fn loaded(&self, bytes: &[u8]) -> Option<TableBytes> {
        let (sizes, rest) = bytes.split_at_checked(BUCKETS)?;
        let count: usize = sizes.iter().map(|size| usize::from(*size)).sum();
        if rest.len() != count * NODE {
            return None;
        }
        let (keys, entries) = rest.split_at(count * KEY);
        let mut nodes = keys.chunks_exact(KEY).zip(entries.chunks_exact(NODE - KEY));
        let mut table = TableBytes::new(&access::local_key(&self.table).preimage().raw(), &self.settings);
        for (i, size) in sizes.iter().enumerate() {
            let mut bucket = table.bucket_mut(i);
            let mut first_connected = None;
            for place in 0..*size {
                let (key, entry) = nodes.next()?;
                let node = layout::node_in(&[key, entry].concat());
                if node.state != 0 && first_connected.is_none() {
                    first_connected = Some(place);
                }
                bucket.push_node(&node).ok()?;
            }
            bucket.set_first_connected(first_connected);
        }
        Some(table)
    }

    /// Question 2 of the loaded table; and, where the bucket filter is on, at most two different values of a /24 in a bucket.
    fn fits(&self, loaded: &TableBytes) -> bool {
        loaded.formed() && (self.settings.bucket_filter == 0 || (0..BUCKETS).all(|i| two_of_a_net(loaded, i)))
    }
}

fn two_of_a_net(table: &TableBytes, i: usize) -> bool {
    let mut values: Vec<ValueCodes> = Vec::new();
    for node in table.bucket(i).nodes().filter(|node| node.value.flag == 1) {
        if !values.contains(&node.value) {
            values.push(node.value);
        }
    }
    let of_net = |net: &[u8]| values.iter().filter(|value| value.octets[..3] == *net).count();
    values.iter().all(|value| of_net(&value.octets[..3]) <= 2)
}
