//! Machines and logs of document 01, written in hexadecimal.

/// Two machines with k pairs and a log, written in hexadecimal.
#[derive(Clone, Copy)]
pub struct World {
    pub k: u8,
    pub left: &'static str,
    pub right: &'static str,
    pub run: &'static str,
}

/// Case A.
pub const CASE_A: World = World {
    k: 2,
    left: "02 000101 000301",
    right: "02 000201 000401",
    run: "0000 000101",
};

/// One state each, both with a looping row of label 1, and one step of label 1.
pub const LOOPS: World = World {
    k: 1,
    left: "01 000100",
    right: "01 000100",
    run: "0000 010000",
};
