//! Document 01's operators, and how each is spelled.

/// An operator of a formula.
#[derive(Clone, Copy, PartialEq, Eq, Debug)]
pub struct Operator {
    /// Its byte.
    pub byte: u8,
    /// The word that stands for it; a modality has none.
    pub word: &'static str,
    /// What it takes.
    pub form: Form,
}

/// What an operator takes.
#[derive(Clone, Copy, PartialEq, Eq, Debug)]
pub enum Form {
    /// No operand.
    Leaf,
    /// One operand.
    One,
    /// Two operands, the word between them.
    Two,
    /// One operand behind angle brackets, which hold a label or stand for an idle.
    Modality { back: bool, labelled: bool },
}

/// Every operator, in the order of its byte.
const OPERATORS: [Operator; 9] = [
    word(0, "true", Form::Leaf),
    word(1, "false", Form::Leaf),
    word(2, "not", Form::One),
    word(3, "and", Form::Two),
    word(4, "or", Form::Two),
    modality(5, false, true),
    modality(6, true, true),
    modality(7, false, false),
    modality(8, true, false),
];

/// An operator that is spelled by a word.
const fn word(byte: u8, word: &'static str, form: Form) -> Operator {
    Operator { byte, word, form }
}

/// An operator that is spelled by angle brackets.
const fn modality(byte: u8, back: bool, labelled: bool) -> Operator {
    Operator {
        byte,
        word: "",
        form: Form::Modality { back, labelled },
    }
}

/// The operator of a byte.
pub fn operator(byte: u8) -> Option<&'static Operator> {
    OPERATORS.get(byte as usize)
}

/// The operator that a word spells.
pub fn operator_of_word(word: &str) -> Option<&'static Operator> {
    OPERATORS
        .iter()
        .find(|operator| !word.is_empty() && operator.word == word)
}

/// The operator that angle brackets spell.
pub fn operator_of_modality(back: bool, labelled: bool) -> Option<&'static Operator> {
    let form = Form::Modality { back, labelled };
    OPERATORS.iter().find(|operator| operator.form == form)
}
