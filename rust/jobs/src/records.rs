//! The stream's settings, nodes and spans, to and from the port's.

use ostrovuc::{MaNode, NodeInfo, Settings, Span};
use stream::Record;

pub fn settings(s: &stream::Settings) -> Settings {
    Settings {
        alphabet: s.alphabet,
        max_leaves: s.limit,
        split_cost_bits: s.split_cost,
        prune_leaf_bits: s.price,
        min_node: s.smallest_node,
        side_preds: s.side_predictors,
        max_candidates: s.candidates,
        allow_wp: s.weighted,
        allowed_preds: s.allowed,
        modal_offsets: s.modal_offsets,
        settle: s.settling,
    }
}

pub fn nodes(records: &[Record]) -> Vec<MaNode> {
    records.iter().map(node).collect()
}

fn node(r: &Record) -> MaNode {
    let info = NodeInfo {
        cost: f32::from_bits(r.cost),
        pred: r.pred,
        offset: r.offset,
    };
    MaNode {
        kind: r.kind,
        prop: r.prop,
        val: r.val,
        gt: r.gt,
        le: r.le,
        info,
        depth: r.depth,
    }
}

pub fn records(nodes: &[MaNode]) -> Vec<Record> {
    nodes.iter().map(record).collect()
}

fn record(node: &MaNode) -> Record {
    Record {
        kind: node.kind,
        prop: node.prop,
        val: node.val,
        gt: node.gt,
        le: node.le,
        cost: node.info.cost.to_bits(),
        pred: node.info.pred,
        offset: node.info.offset,
        depth: node.depth,
    }
}

/// The stream's spans.
pub fn spans(spans: &[Span]) -> Vec<stream::Span> {
    let span = |&Span { first, end }: &Span| stream::Span { first, end };
    spans.iter().map(span).collect()
}

/// The port's spans.
pub fn span_records(spans: &[stream::Span]) -> Vec<Span> {
    let span = |&stream::Span { first, end }: &stream::Span| Span { first, end };
    spans.iter().map(span).collect()
}

#[cfg(test)]
mod tests {
    use super::*;

    #[test]
    fn records_come_back_bit_for_bit() {
        let record = Record {
            kind: 7,
            cost: 0x7fc0_0001,
            pred: 13,
            offset: -5,
            depth: 26,
            ..Record::split(23, i32::MIN, 3, u32::MAX)
        };
        assert_eq!(records(&nodes(&[record])), [record]);
    }

    #[test]
    fn spans_come_back() {
        let pattern = stream::Span::list(3, u32::MAX);
        let given = [(u32::MAX, 0), (0, 1), (1, 2)].map(|(first, end)| Span { first, end });
        assert_eq!(span_records(&pattern), given);
        assert_eq!(spans(&span_records(&pattern)), pattern);
    }
}
