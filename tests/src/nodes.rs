//! The library's node entries as the reference's, and back.

use foqtirel_binding::Node;

use crate::reference::NodeEntry;

impl From<NodeEntry> for Node {
    fn from(entry: NodeEntry) -> Node {
        Node {
            argument: entry.argument,
            parent: entry.parent,
            kind: entry.kind as u8,
            mark: entry.mark as u8,
        }
    }
}

impl From<Node> for NodeEntry {
    fn from(node: Node) -> NodeEntry {
        NodeEntry {
            argument: node.argument,
            parent: node.parent,
            kind: u32::from(node.kind),
            mark: u32::from(node.mark),
        }
    }
}
