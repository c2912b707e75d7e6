//! The file that `--labels` names: lines `theirs = ours`, which rename labels of another tool.

use std::collections::HashMap;
use std::ffi::OsStr;

use super::failure::{misused, Failure};
use super::input::{read_aldebaran_text, shown_name};
use super::spelling::{Spelling, LABELS};
use super::words::quoted;

/// Their labels, each with ours.
#[derive(Clone, PartialEq, Eq, Debug, Default)]
pub struct LabelMap {
    ours: HashMap<Vec<u8>, Renamed>,
}

/// One of our labels, and the line of the map that names it.
#[derive(Clone, PartialEq, Eq, Debug)]
struct Renamed {
    ours: Vec<u8>,
    line: usize,
}

impl LabelMap {
    /// Reads the file.
    pub fn read(file: &OsStr, spelling: &Spelling) -> Result<LabelMap, Failure> {
        let bytes = read_aldebaran_text(file)?;
        let text = bytes.strip_prefix(b"\xef\xbb\xbf").unwrap_or(&bytes);
        let mut map = LabelMap::default();
        for (index, line) in text.split(|byte| *byte == b'\n').enumerate() {
            let line = line.trim_ascii();
            if line.is_empty() || line.starts_with(b"#") {
                continue;
            }
            if let Err(wrong) = map.take(line, index + 1, spelling) {
                let name = shown_name(file);
                return misused(format!("{name}: line {}: {wrong}", index + 1));
            }
        }
        Ok(map)
    }

    /// Takes a line of the file, or says what is wrong with it.
    fn take(&mut self, line: &[u8], number: usize, spelling: &Spelling) -> Result<(), String> {
        let Some(sign) = line.iter().rposition(|byte| *byte == b'=') else {
            return Err(format!("expected theirs = ours, found {}", shown(line)));
        };
        let theirs = line[..sign].trim_ascii();
        if theirs.is_empty() {
            return Err("expected a label before the last =; an empty one is \"\"".to_string());
        }
        let theirs = unquoted(theirs);
        let ours = unquoted(line[sign + 1..].trim_ascii());
        if !spelling.has(ours) {
            let found = shown(ours);
            return Err(format!(
                "expected a label behind the last =, found {found}; {LABELS}"
            ));
        }
        let renamed = Renamed {
            ours: ours.to_vec(),
            line: number,
        };
        match self.ours.insert(theirs.to_vec(), renamed) {
            Some(before) => {
                let (theirs, line) = (shown(theirs), before.line);
                Err(format!("{theirs} is renamed in line {line} too"))
            }
            None => Ok(()),
        }
    }

    /// What a label of theirs is renamed to.
    pub fn renamed(&self, theirs: &[u8]) -> Option<&[u8]> {
        self.ours.get(theirs).map(|renamed| &renamed.ours[..])
    }
}

/// A label without the double quotes around it, if it has them.
fn unquoted(label: &[u8]) -> &[u8] {
    let inner = label.strip_prefix(b"\"");
    inner
        .and_then(|label| label.strip_suffix(b"\""))
        .unwrap_or(label)
}

/// A label of theirs in a message.
pub fn shown(label: &[u8]) -> String {
    quoted(&String::from_utf8_lossy(label))
}
