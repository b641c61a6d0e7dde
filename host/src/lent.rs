//! Bytes lent to an engine, between two margins.

/// What an answer buffer holds before a call, so that bytes not written show.
pub const UNWRITTEN: u8 = 0xa5;
/// Bytes on each side of what is lent, which no call may touch. Odd, so that nothing is lent at an even address.
const MARGIN: usize = 61;

pub struct Lent {
    bytes: Vec<u8>,
}

impl Lent {
    pub fn new(content: &[u8]) -> Lent {
        let mut bytes = vec![UNWRITTEN; content.len() + 2 * MARGIN];
        bytes[MARGIN..MARGIN + content.len()].copy_from_slice(content);
        Lent { bytes }
    }

    pub fn content(&mut self) -> &mut [u8] {
        let end = self.bytes.len() - MARGIN;
        &mut self.bytes[MARGIN..end]
    }

    /// The first difference from what is expected, with its place named by the given words.
    pub fn differs(&self, expected: &[u8], name: impl Fn(usize) -> String) -> Option<String> {
        let end = self.bytes.len() - MARGIN;
        let content = &self.bytes[MARGIN..end];
        if content.len() != expected.len() {
            return Some(format!("{} has {} bytes, should have {}", name(0), content.len(), expected.len()));
        }
        if let Some(place) = (0..expected.len()).find(|&at| content[at] != expected[at]) {
            let (is, should) = (content[place], expected[place]);
            return Some(format!("byte {place} of {}: {is}, should be {should}", name(place)));
        }
        let margins = self.bytes[..MARGIN].iter().chain(&self.bytes[end..]);
        margins.into_iter().any(|&byte| byte != UNWRITTEN).then(|| format!("bytes beside {} were written", name(0)))
    }
}

#[cfg(test)]
mod tests {
    use super::{Lent, MARGIN};

    fn differs(lent: &Lent, expected: &[u8]) -> String {
        lent.differs(expected, |_| "it".to_string()).unwrap_or_default()
    }

    /// More bytes with the same beginning, and fewer, are as wrong as other ones.
    #[test]
    fn the_whole_is_compared() {
        let mut lent = Lent::new(&[1, 2, 3]);
        assert_eq!(differs(&lent, &[1, 2, 3]), "");
        assert_eq!(differs(&lent, &[1, 2]), "it has 3 bytes, should have 2");
        assert_eq!(differs(&lent, &[1, 2, 3, 0]), "it has 3 bytes, should have 4");
        assert_eq!(differs(&lent, &[1, 2, 4]), "byte 2 of it: 3, should be 4");
        lent.bytes[MARGIN + 3] = 0;
        assert_eq!(differs(&lent, &[1, 2, 3]), "bytes beside it were written");
    }
}
