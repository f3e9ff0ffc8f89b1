//! A filling: a text for each field of a sheet, as bytes.

use crate::{FIELD_BYTES, FIELD_PLACES, PAST_LENGTH};

/// A text for each field, as document 01's bytes: 9 per field, which are the text's length and eight places of letter numbers, with 255 past
/// the length.
///
/// It may be any bytes: which sheet they are a filling of is judged where they are used with one. What a [`Sheet`](crate::Sheet) hands over is a
/// filling of that sheet.
#[derive(Clone, Debug, PartialEq, Eq, Hash)]
pub struct Filling {
    bytes: Vec<u8>,
}

impl Filling {
    /// The filling of these bytes, which may be any.
    pub fn from_bytes(bytes: impl Into<Vec<u8>>) -> Filling {
        Filling {
            bytes: bytes.into(),
        }
    }

    /// The filling that gives each field this text, as letter numbers; none where a text has more than eight.
    ///
    /// ```
    /// use lunthegyr::Filling;
    ///
    /// let filling = Filling::from_letters(&[&[1, 0], &[]]).expect("no text is too long");
    /// assert_eq!(filling.bytes()[..9], [2, 1, 0, 255, 255, 255, 255, 255, 255]);
    /// assert!(filling.letters(1).is_empty());
    /// assert!(Filling::from_letters(&[&[0; 9]]).is_none());
    /// ```
    pub fn from_letters(fields: &[&[u8]]) -> Option<Filling> {
        let mut bytes = Vec::with_capacity(fields.len() * FIELD_BYTES);
        for letters in fields {
            let past = FIELD_PLACES.checked_sub(letters.len())?;
            bytes.push(letters.len() as u8);
            bytes.extend_from_slice(letters);
            bytes.extend(std::iter::repeat(PAST_LENGTH).take(past));
        }
        Some(Filling { bytes })
    }

    /// The bytes.
    pub fn bytes(&self) -> &[u8] {
        &self.bytes
    }

    /// How many fields have all their nine bytes.
    pub fn fields(&self) -> usize {
        self.bytes.len() / FIELD_BYTES
    }

    /// The letter numbers of a field's text: its places up to the length that it gives, or all eight where that is above eight.
    ///
    /// # Panics
    ///
    /// Where `field` is not below [`fields`](Filling::fields).
    pub fn letters(&self, field: usize) -> &[u8] {
        assert!(
            field < self.fields(),
            "field {field} of a filling of {} fields",
            self.fields()
        );
        let start = field * FIELD_BYTES;
        let length = usize::from(self.bytes[start]).min(FIELD_PLACES);
        &self.bytes[start + 1..][..length]
    }
}

#[cfg(test)]
mod tests {
    use super::*;

    #[test]
    fn letters_come_back() {
        let texts: [&[u8]; 4] = [&[], &[7], &[0, 1, 2, 3, 4, 5, 6, 7], &[3, 3]];
        let filling = Filling::from_letters(&texts).unwrap();
        assert_eq!(filling.fields(), 4);
        assert_eq!(filling.bytes().len(), 36);
        for (field, text) in texts.iter().enumerate() {
            assert_eq!(filling.letters(field), *text);
        }
        assert_eq!(
            filling.bytes()[27..],
            [2, 3, 3, 255, 255, 255, 255, 255, 255]
        );
        assert_eq!(Filling::from_bytes(filling.bytes()), filling);
    }

    #[test]
    fn a_text_of_nine_is_none() {
        assert_eq!(Filling::from_letters(&[&[0], &[0; 9]]), None);
    }

    #[test]
    fn any_bytes_can_be_looked_at() {
        assert_eq!(Filling::from_bytes([]).fields(), 0);
        assert_eq!(Filling::from_bytes([1; 17]).fields(), 1);
        assert_eq!(Filling::from_bytes([200; 9]).letters(0), [200; 8]);
    }

    #[test]
    #[should_panic(expected = "field 1 of a filling of 1 fields")]
    fn a_field_that_is_not_there_is_a_panic() {
        Filling::from_bytes([0; 17]).letters(1);
    }
}
