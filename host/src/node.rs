//! Keys, values and nodes, and their codes.

pub use calls::text::Slot;
use calls::text::{NodeCodes, ValueCodes};
use std::net::Ipv4Addr;

pub type Key = [u8; 32];

/// An optional address and a slot of the host's record store. Equal when all of it is equal.
#[derive(Clone, Copy, Debug, PartialEq, Eq)]
pub struct Value {
    pub address: Option<Ipv4Addr>,
    pub slot: Slot,
}

#[derive(Clone, Copy, Debug, PartialEq, Eq)]
pub enum ConnectionState {
    Disconnected,
    Connected,
}

#[derive(Clone, Copy, Debug, PartialEq, Eq)]
pub enum ConnectionDirection {
    Outgoing,
    Incoming,
}

#[derive(Clone, Copy, Debug, PartialEq, Eq)]
pub struct NodeStatus {
    pub state: ConnectionState,
    pub direction: ConnectionDirection,
}

#[derive(Clone, Copy, Debug, PartialEq, Eq)]
pub struct Node {
    pub key: Key,
    pub value: Value,
    pub status: NodeStatus,
}

/// What `closest_values` gives of a node.
#[derive(Clone, Copy, Debug, PartialEq, Eq)]
pub struct ClosestValue {
    pub key: Key,
    pub value: Value,
}

/// What `closest_values_predicate` gives of a node.
#[derive(Clone, Copy, Debug, PartialEq, Eq)]
pub struct PredicateValue {
    pub key: Key,
    pub predicate_match: bool,
    pub value: Value,
}

/// The code of an `Option` that is `None`.
pub(crate) const NOT_GIVEN: u8 = 2;

impl From<Value> for ValueCodes {
    fn from(value: Value) -> ValueCodes {
        ValueCodes {
            flag: value.address.is_some().into(),
            octets: value.address.map_or([0; 4], |address| address.octets()),
            slot: value.slot,
        }
    }
}

impl From<ValueCodes> for Value {
    fn from(codes: ValueCodes) -> Value {
        Value { address: (codes.flag == 1).then(|| codes.octets.into()), slot: codes.slot }
    }
}

/// A node that a call gave: its codes are in range.
impl From<NodeCodes> for Node {
    fn from(codes: NodeCodes) -> Node {
        let state = if codes.state == 1 { ConnectionState::Connected } else { ConnectionState::Disconnected };
        let direction =
            if codes.direction == 1 { ConnectionDirection::Incoming } else { ConnectionDirection::Outgoing };
        Node { key: codes.key, value: codes.value.into(), status: NodeStatus { state, direction } }
    }
}
