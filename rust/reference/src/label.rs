//! Labels: the silent step, the idle mark and the handshake pairs.

use crate::Refusal;

/// The label of the silent step.
pub const SILENT: u8 = 0;
/// The byte that marks an idle; never a label in a row.
pub const IDLE: u8 = 255;
/// The largest number of handshake pairs.
pub const MOST_PAIRS: u8 = 15;

/// Refuses k over 15 with 4.
pub fn check_k(k: u8) -> Result<(), Refusal> {
    if k > MOST_PAIRS {
        return Err(4);
    }
    Ok(())
}

/// The highest label with k pairs: they are 0 to 2k. With more pairs than a call accepts none lies above 254, since 255
/// marks an idle.
pub fn highest(k: u8) -> u8 {
    k.saturating_mul(2).min(IDLE - 1)
}

/// The partner of a handshake label; the silent step and the idle mark have none.
pub fn partner(label: u8) -> Option<u8> {
    match label {
        SILENT | IDLE => None,
        odd if odd % 2 == 1 => Some(odd + 1),
        even => Some(even - 1),
    }
}

/// The partner of a label of k pairs; what is no label of them has none.
pub fn partner_among(k: u8, label: u8) -> Option<u8> {
    if label > highest(k) {
        return None;
    }
    partner(label)
}

#[cfg(test)]
mod tests {
    use super::*;

    /// Partners come in pairs 1-2, 3-4 and so on; 0 and 255 have none.
    #[test]
    fn partners_are_mutual() {
        assert_eq!(partner(1), Some(2));
        assert_eq!(partner(30), Some(29));
        assert_eq!(partner(SILENT), None);
        assert_eq!(partner(IDLE), None);
        for label in 1..=30 {
            assert_eq!(partner(label).and_then(partner), Some(label));
        }
    }

    /// 15 pairs are the most.
    #[test]
    fn k_up_to_15() {
        assert_eq!(check_k(15), Ok(()));
        assert_eq!(check_k(16), Err(4));
        assert_eq!(highest(15), 30);
    }

    /// With more pairs than a call accepts the labels end at 254, and partners stay mutual.
    #[test]
    fn labels_of_any_k() {
        assert_eq!([126, 127, 128, 255].map(highest), [252, 254, 254, 254]);
        assert_eq!(partner_among(15, 31), None);
        assert_eq!(partner_among(127, 254), Some(253));
        for (k, label) in (0..=255).flat_map(|k| (0..=255).map(move |label| (k, label))) {
            let answer = partner_among(k, label);
            assert!(answer.is_none_or(|answer| partner_among(k, answer) == Some(label)));
        }
    }
}
