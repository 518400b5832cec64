//! Membership straight from the definition of the language: a hedge is split in every way, and each
//! part is asked for in turn. A part is told by the item that it begins with and the item that it ends
//! before (0: it goes to the end), so an answer is kept by node and two item numbers.

use crate::text::{Grammar, Hedge, Node, Relation};

const UNKNOWN: u8 = 0;
const NO: u8 = 1;
const YES: u8 = 2;
const UNDER_WAY: u8 = 3;

pub struct Splitter<'a> {
    g: &'a Grammar,
    relation: &'a Relation,
    hedge: &'a Hedge,
    /// For each node the answers for the parts from an item to before another.
    known: Vec<Vec<u8>>,
}

/// Whether the rule's language has the hedge.
pub fn member(g: &Grammar, relation: &Relation, rule: usize, hedge: &Hedge) -> bool {
    let mut splitter = Splitter { g, relation, hedge, known: vec![Vec::new(); g.nodes.len()] };
    splitter.has(g.rules[rule].1, hedge.items.len(), 0)
}

impl Splitter<'_> {
    fn next(&self, item: usize) -> usize {
        self.hedge.items[item - 1].next
    }

    /// Whether the node's language has the items from `from` to before `to`, which lies on the way
    /// along `next` from `from`.
    fn has(&mut self, node: usize, from: usize, to: usize) -> bool {
        let width = self.hedge.items.len() + 1;
        if self.known[node].is_empty() {
            self.known[node] = vec![UNKNOWN; width * width];
        }
        let place = from * width + to;
        match self.known[node][place] {
            NO => return false,
            YES => return true,
            UNDER_WAY => panic!("a mention that takes no item leads back to itself: recursion is not lawful"),
            _ => {}
        }
        self.known[node][place] = UNDER_WAY;
        let answer = self.by_definition(node, from, to);
        self.known[node][place] = if answer { YES } else { NO };
        answer
    }

    fn by_definition(&mut self, node: usize, from: usize, to: usize) -> bool {
        match self.g.nodes[node] {
            Node::None => false,
            Node::Empty => from == to,
            Node::Simple(b) => self.single(from, to) && self.relation.covers(b, self.hedge.items[from - 1].name),
            Node::Element(e, content) => {
                self.single(from, to)
                    && self.relation.covers(e, self.hedge.items[from - 1].name)
                    && self.has(content, self.hedge.items[from - 1].child, 0)
            }
            Node::Rule(k) => self.has(self.g.rules[k].1, from, to),
            Node::Union(a, b) => self.has(a, from, to) || self.has(b, from, to),
            Node::Seq(a, b) => {
                let mut cut = from;
                loop {
                    if self.has(a, from, cut) && self.has(b, cut, to) {
                        return true;
                    }
                    if cut == to {
                        return false;
                    }
                    cut = self.next(cut);
                }
            }
            Node::Star(a) => {
                // the first of the hedges in a row may be taken not to be empty
                let mut cut = from;
                while cut != to {
                    cut = self.next(cut);
                    if self.has(a, from, cut) && self.has(node, cut, to) {
                        return true;
                    }
                }
                from == to
            }
        }
    }

    fn single(&self, from: usize, to: usize) -> bool {
        from != to && self.next(from) == to
    }
}
