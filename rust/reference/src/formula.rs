//! Formulas as trees, read from two bytes a node in prefix order.

use crate::label::highest;
use crate::Refusal;

/// The largest number of nodes of a question.
pub const QUESTION_NODES: usize = 64;
/// The largest number of nodes of a quotient, and so of a formula given to a verdict.
pub const QUOTIENT_NODES: usize = 4096;
/// How deep forward modalities may nest.
pub const MOST_NESTING: usize = 4;

/// A formula.
#[derive(Clone, PartialEq, Eq, Debug)]
pub enum Formula {
    True,
    False,
    Not(Box<Formula>),
    And(Box<Formula>, Box<Formula>),
    Or(Box<Formula>, Box<Formula>),
    Forward(u8, Box<Formula>),
    Back(u8, Box<Formula>),
    ForwardIdle(Box<Formula>),
    BackIdle(Box<Formula>),
}

/// The longest length of a question's record.
pub const LONGEST: usize = 130;

/// Whether a question's record may have this length (kind and body counted).
pub fn fits(length: usize) -> bool {
    (4..=LONGEST).contains(&length) && length.is_multiple_of(2)
}

/// Reads a formula of at most `most_nodes` nodes: 9 over the whole of it, then 10.
pub fn read_formula(bytes: &[u8], k: u8, most_nodes: usize) -> Result<Formula, Refusal> {
    // Judged before the tree is read, so that the reading recurses no deeper than the limit.
    if !bytes.len().is_multiple_of(2) || bytes.len() / 2 > most_nodes {
        return Err(9);
    }
    let mut rest = bytes;
    let formula = *tree(&mut rest, k).ok_or(9)?;
    if !rest.is_empty() {
        return Err(9);
    }
    if formula.nesting() > MOST_NESTING {
        return Err(10);
    }
    Ok(formula)
}

/// Takes the tree at the front of the bytes away from them, or gives nothing if there is no sound tree. The second
/// of two operands begins where the first one ends.
fn tree(rest: &mut &[u8], k: u8) -> Option<Box<Formula>> {
    let [operator, label, after @ ..] = *rest else {
        return None;
    };
    *rest = after;
    let label_fits = match operator {
        5 | 6 => *label <= highest(k),
        _ => *label == 0,
    };
    if !label_fits {
        return None;
    }
    let formula = match operator {
        0 => Formula::True,
        1 => Formula::False,
        2 => Formula::Not(tree(rest, k)?),
        3 => Formula::And(tree(rest, k)?, tree(rest, k)?),
        4 => Formula::Or(tree(rest, k)?, tree(rest, k)?),
        5 => Formula::Forward(*label, tree(rest, k)?),
        6 => Formula::Back(*label, tree(rest, k)?),
        7 => Formula::ForwardIdle(tree(rest, k)?),
        8 => Formula::BackIdle(tree(rest, k)?),
        _ => return None,
    };
    Some(Box::new(formula))
}

impl Formula {
    /// How deep forward modalities nest, along the deepest branch.
    pub fn nesting(&self) -> usize {
        match self {
            Formula::True | Formula::False => 0,
            Formula::Not(a) | Formula::Back(_, a) | Formula::BackIdle(a) => a.nesting(),
            Formula::And(a, b) | Formula::Or(a, b) => a.nesting().max(b.nesting()),
            Formula::Forward(_, a) | Formula::ForwardIdle(a) => 1 + a.nesting(),
        }
    }

    /// The operator's number, its label byte and its operands, of which there are at most two.
    fn node(&self) -> (u8, u8, [Option<&Formula>; 2]) {
        match self {
            Formula::True => (0, 0, [None, None]),
            Formula::False => (1, 0, [None, None]),
            Formula::Not(a) => (2, 0, [Some(a), None]),
            Formula::And(a, b) => (3, 0, [Some(a), Some(b)]),
            Formula::Or(a, b) => (4, 0, [Some(a), Some(b)]),
            Formula::Forward(label, a) => (5, *label, [Some(a), None]),
            Formula::Back(label, a) => (6, *label, [Some(a), None]),
            Formula::ForwardIdle(a) => (7, 0, [Some(a), None]),
            Formula::BackIdle(a) => (8, 0, [Some(a), None]),
        }
    }

    /// The formula in prefix order, two bytes a node.
    pub fn to_bytes(&self) -> Vec<u8> {
        let mut bytes = Vec::new();
        self.append_to(&mut bytes);
        bytes
    }

    /// Writes the formula behind what is there: the node, then its operands in order.
    fn append_to(&self, bytes: &mut Vec<u8>) {
        let (operator, label, operands) = self.node();
        bytes.extend([operator, label]);
        for operand in operands.into_iter().flatten() {
            operand.append_to(bytes);
        }
    }
}

#[cfg(test)]
mod tests {
    use super::*;

    /// `count` times "not", then true.
    fn chain(count: usize) -> Vec<u8> {
        let mut bytes = [2, 0].repeat(count);
        bytes.extend([0, 0]);
        bytes
    }

    /// Exactly as many nodes as the limit are fine, one more is 9, and so is none.
    fn limit_holds(limit: usize) {
        assert!(read_formula(&chain(limit - 1), 0, limit).is_ok());
        assert_eq!(read_formula(&chain(limit), 0, limit), Err(9));
        assert_eq!(read_formula(&[], 0, limit), Err(9));
    }

    /// The node limit is the caller's.
    #[test]
    fn node_limit_is_a_parameter() {
        for limit in [1, 2, QUESTION_NODES] {
            limit_holds(limit);
        }
        // An unoptimized build needs more stack than a test has for a chain of 4,096 nodes.
        let roomy = std::thread::Builder::new().stack_size(64 << 20);
        let deep = roomy.spawn(|| limit_holds(QUOTIENT_NODES)).unwrap();
        assert!(deep.join().is_ok());
    }

    /// Nesting is counted along one branch, not across two operands.
    #[test]
    fn nesting_goes_by_branch() {
        let four = [[5u8, 0].repeat(4), vec![0, 0]].concat();
        let both = [vec![3, 0], four.clone(), four.clone()].concat();
        assert!(read_formula(&both, 0, QUESTION_NODES).is_ok());
        let five = [vec![7, 0], four].concat();
        assert_eq!(read_formula(&five, 0, QUESTION_NODES), Err(10));
    }

    /// A tree that was read spells the bytes it was read from.
    #[test]
    fn bytes_and_tree_agree() {
        let bytes = [3, 0, 4, 0, 0, 0, 6, 2, 1, 0, 8, 0, 2, 0, 0, 0];
        let formula = read_formula(&bytes, 1, QUESTION_NODES).unwrap();
        assert_eq!(formula.to_bytes(), bytes);
        assert_eq!(read_formula(&bytes, 0, QUESTION_NODES), Err(9));
    }
}
