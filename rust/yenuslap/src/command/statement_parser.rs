//! Reading a statement in the usual notation into a formula's bytes.
//!
//! Operators that wait for an operand are kept in a list and not on the stack, so no text can overflow it.

use super::operators::{operator_of_modality, operator_of_word, Form, Operator};
use super::statement::{binding, IDLE};
use super::tokens::{Place, SyntaxError, Tokens};

/// A formula, and where in the text each of its nodes stands.
#[derive(Clone, PartialEq, Eq, Debug)]
pub struct Statement {
    /// The formula's nodes in prefix order.
    pub bytes: Vec<u8>,
    /// The place of each node.
    pub places: Vec<Place>,
}

/// How many operators and parentheses may wait for their end: as many as a formula has nodes at most.
const DEEPEST: usize = 4_096;

/// Reads a statement that goes to the end of the tokens.
pub fn parse_statement(mut tokens: Tokens) -> Result<Statement, SyntaxError> {
    let mut reader = Reader::default();
    loop {
        reader.operand(&mut tokens)?;
        if !reader.after_operand(&mut tokens)? {
            return Ok(reader.finish());
        }
    }
}

/// A node of the tree, its operands by their numbers in the list of nodes.
struct Node {
    operator: &'static Operator,
    label: u8,
    place: Place,
    operands: Vec<usize>,
}

/// What waits for an operand to end.
enum Waiting {
    /// A node, by its number.
    Node(usize),
    /// An open parenthesis.
    Open(Place),
}

/// What has been read: nodes, trees that are whole, and operators that are not.
#[derive(Default)]
struct Reader {
    nodes: Vec<Node>,
    whole: Vec<usize>,
    waiting: Vec<Waiting>,
}

impl Reader {
    /// Reads up to and with the next leaf.
    fn operand(&mut self, tokens: &mut Tokens) -> Result<(), SyntaxError> {
        loop {
            let place = tokens.place();
            if tokens.take_if("(").is_some() {
                self.wait(Waiting::Open(place), place)?;
                continue;
            }
            let Some((operator, label)) = prefix(tokens)? else {
                return tokens.expected("a statement (true, false, not, <label> or a parenthesis)");
            };
            let node = self.node(operator, label, place);
            if operator.form == Form::Leaf {
                self.whole.push(node);
                return Ok(());
            }
            self.wait(Waiting::Node(node), place)?;
        }
    }

    /// Reads what follows an operand; true if another operand is due.
    fn after_operand(&mut self, tokens: &mut Tokens) -> Result<bool, SyntaxError> {
        loop {
            let place = tokens.place();
            let Some(token) = tokens.peek() else {
                return self.end(tokens);
            };
            let operator = operator_of_word(token.text);
            if let Some(operator) = operator.filter(|found| found.form == Form::Two) {
                tokens.take();
                self.close_tighter(binding(operator));
                let node = self.node(operator, 0, place);
                self.wait(Waiting::Node(node), place)?;
                return Ok(true);
            }
            if token.text != ")" || !self.close_parenthesis() {
                return tokens.expected(self.due_after_operand());
            }
            tokens.take();
        }
    }

    /// Adds a node without operands.
    fn node(&mut self, operator: &'static Operator, label: u8, place: Place) -> usize {
        self.nodes.push(Node {
            operator,
            label,
            place,
            operands: Vec::new(),
        });
        self.nodes.len() - 1
    }

    /// Lets a node or parenthesis wait for its end, unless too many wait.
    fn wait(&mut self, waiting: Waiting, place: Place) -> Result<(), SyntaxError> {
        if self.waiting.len() == DEEPEST {
            let message = format!("a statement nests at most {DEEPEST} deep");
            return Err(SyntaxError { place, message });
        }
        // A node with its word between two operands takes the first one at once.
        if let Waiting::Node(node) = waiting {
            if self.nodes[node].operator.form == Form::Two {
                self.give(node);
            }
        }
        self.waiting.push(waiting);
        Ok(())
    }

    /// Gives the last whole tree to a node as its next operand.
    fn give(&mut self, node: usize) {
        let operand = self.whole.pop();
        self.nodes[node].operands.extend(operand);
    }

    /// Ends the nodes that bind more tightly than an operator that comes now.
    fn close_tighter(&mut self, tightness: u8) {
        while let Some(Waiting::Node(node)) = self.waiting.last() {
            let node = *node;
            if binding(self.nodes[node].operator) <= tightness {
                break;
            }
            self.close(node);
        }
    }

    /// Ends all nodes back to the last open parenthesis, and that; false if none is open.
    fn close_parenthesis(&mut self) -> bool {
        if self.open().is_none() {
            return false;
        }
        while let Some(Waiting::Node(node)) = self.waiting.last() {
            self.close(*node);
        }
        self.waiting.pop();
        true
    }

    /// Ends the node that waits last: its last operand is whole, and so is it.
    fn close(&mut self, node: usize) {
        self.give(node);
        self.waiting.pop();
        self.whole.push(node);
    }

    /// The last open parenthesis.
    fn open(&self) -> Option<Place> {
        let mut waiting = self.waiting.iter().rev();
        waiting.find_map(|waiting| match waiting {
            Waiting::Open(place) => Some(*place),
            Waiting::Node(_) => None,
        })
    }

    /// Ends the statement at the end of the text.
    fn end(&mut self, tokens: &Tokens) -> Result<bool, SyntaxError> {
        if let Some(place) = self.open() {
            return tokens.expected(&format!("`)` for the parenthesis at {place}"));
        }
        while let Some(Waiting::Node(node)) = self.waiting.last() {
            self.close(*node);
        }
        Ok(false)
    }

    /// What may follow an operand.
    fn due_after_operand(&self) -> &'static str {
        match self.open() {
            Some(_) => "and, or, or `)`",
            None => "and, or, or the end of the statement",
        }
    }

    /// The nodes in prefix order.
    fn finish(self) -> Statement {
        let mut statement = Statement {
            bytes: Vec::new(),
            places: Vec::new(),
        };
        let mut due = self.whole;
        while let Some(number) = due.pop() {
            let node = &self.nodes[number];
            statement.bytes.extend([node.operator.byte, node.label]);
            statement.places.push(node.place);
            due.extend(node.operands.iter().rev());
        }
        statement
    }
}

/// Takes an operator that stands before its operand, or a leaf, with its label (0 if it has none).
fn prefix(tokens: &mut Tokens) -> Result<Option<(&'static Operator, u8)>, SyntaxError> {
    if tokens.take_if("<").is_some() {
        return modality(tokens);
    }
    let Some(token) = tokens.peek() else {
        return Ok(None);
    };
    let operator = operator_of_word(token.text).filter(|found| found.form != Form::Two);
    if operator.is_some() {
        tokens.take();
    }
    Ok(operator.map(|operator| (operator, 0)))
}

/// Takes a modality behind its opening bracket.
fn modality(tokens: &mut Tokens) -> Result<Option<(&'static Operator, u8)>, SyntaxError> {
    let back = tokens.take_if("-").is_some();
    let idle = tokens.take_if(IDLE).is_some();
    let label = if idle {
        0
    } else {
        tokens.byte("a label or idle")?
    };
    tokens.expect(">")?;
    Ok(operator_of_modality(back, !idle).map(|operator| (operator, label)))
}
