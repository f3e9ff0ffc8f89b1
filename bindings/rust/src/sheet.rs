//! An accepted sheet, and all that can be asked of it.

use crate::answers::{Checked, ClauseCounts, Counts, Searched, Side};
use crate::{calls, Filling, Refusal, FIELD_BYTES, FILLING_MOST, TEXT_MOST};

/// Where a sheet's letters start.
const HEADER_BYTES: usize = 9;

/// What a refusal would mean where nothing can be refused.
const ACCEPTED: &str = "the sheet was accepted, and the buffer is always long enough";

/// The bytes of a sheet that reading accepts.
#[derive(Clone, Debug, PartialEq, Eq, Hash)]
pub struct Sheet {
    bytes: Vec<u8>,
    counts: Counts,
}

impl Sheet {
    /// Reads a sheet of any bytes. Refusals: 1 to 15.
    ///
    /// ```
    /// use lunthegyr::{Refusal, Sheet};
    ///
    /// let sheet = Sheet::read(*b"TPL\x00\x01\x01\x01\x01\x00A\x01\x01\x01\x80\x00")?;
    /// assert_eq!(sheet.letters(), b"A");
    /// assert_eq!(Sheet::read(*b"TPL").map_err(|refusal| refusal.number()), Err(1));
    /// # Ok::<(), Refusal>(())
    /// ```
    pub fn read(bytes: impl Into<Vec<u8>>) -> Result<Sheet, Refusal> {
        let bytes = bytes.into();
        let counts = calls::read(&bytes)?;
        Ok(Sheet { bytes, counts })
    }

    /// How many letters, fields, pairs and rules it has.
    pub fn counts(&self) -> Counts {
        self.counts
    }

    /// Its bytes.
    pub fn bytes(&self) -> &[u8] {
        &self.bytes
    }

    /// Its letters; a letter's number is its place among them.
    pub fn letters(&self) -> &[u8] {
        &self.bytes[HEADER_BYTES..][..self.counts.letters]
    }

    /// Whether a filling clashes; and if it does not, why: the first pair whose two texts differ, with what is left over of them, or else the first
    /// rule that does not hold. Refusals: 20 to 23.
    ///
    /// ```
    /// use lunthegyr::{Cause, Checked, Filling, Refusal, Sheet, Side};
    ///
    /// // Two letters, A and B; one field of at most two; one pair: A and the field against the field and A; one rule: the field is not empty.
    /// let sheet = Sheet::read(*b"TPL\x00\x01\x02\x01\x01\x01AB\x02\x02\x02\x00\x80\x80\x00\xFF\xFF\xFF")?;
    /// let check = |text| sheet.check(&Filling::from_letters(&[text]).expect("the text is short"));
    /// assert_eq!(check(&[0]), Ok(Checked::Clash));
    /// // AAB against ABA: A agrees, and AB is the rest.
    /// let cause = Cause::PairDiffers { pair: 0, agreeing: 1, side: Side::Left, rest: 2 };
    /// assert_eq!(check(&[0, 1]), Ok(Checked::NoClash(cause)));
    /// // A against A, but the field is empty.
    /// assert_eq!(check(&[]), Ok(Checked::NoClash(Cause::RuleBroken { rule: 0 })));
    /// assert_eq!(check(&[0, 0, 0]), Err(Refusal::Length)); // the field's limit is 2
    /// # Ok::<(), Refusal>(())
    /// ```
    pub fn check(&self, filling: &Filling) -> Result<Checked, Refusal> {
        calls::check(&self.bytes, filling.bytes())
    }

    /// The text of a field in a filling, in the sheet's letters. Fields count from 0. Refusals: 20 to 23.
    ///
    /// ```
    /// use lunthegyr::{Filling, Refusal, Sheet};
    ///
    /// let sheet = Sheet::read(*b"TPL\x00\x01\x02\x01\x01\x00AB\x02\x01\x01\x80\x00")?;
    /// let filling = Filling::from_letters(&[&[1, 0]]).expect("the text is short");
    /// assert_eq!(sheet.text(0, &filling)?, b"BA");
    /// # Ok::<(), Refusal>(())
    /// ```
    ///
    /// # Panics
    ///
    /// Where `field` is not below the field count.
    pub fn text(&self, field: usize, filling: &Filling) -> Result<Vec<u8>, Refusal> {
        self.check(filling)?;
        let letter = |&number: &u8| self.letters()[usize::from(number)];
        Ok(filling.letters(field).iter().map(letter).collect())
    }

    /// What a template spells under a filling, in the sheet's letters. Pairs count from 0. Refusals: 20 to 24.
    pub fn spell(&self, pair: usize, side: Side, filling: &Filling) -> Result<Vec<u8>, Refusal> {
        let mut text = [0; TEXT_MOST];
        let length = calls::spell(
            &self.bytes,
            pair as u64,
            side.number(),
            filling.bytes(),
            &mut text,
        )?;
        Ok(text[..length].to_vec())
    }

    /// The first filling that clashes; or none: the sheet is apart. The first is the one with the least total length of all fields; of these
    /// the one with the shorter field 0, then the shorter field 1 and so on; of these the one with the lower letter numbers, field by field
    /// from the left. All fields of the sheet count, also those that no template has. The slowest sheets that are known take some hundredths
    /// of a second.
    ///
    /// ```
    /// use lunthegyr::{Checked, Refusal, Sheet};
    ///
    /// // The fields 0 and 1, each of at most two letters, against AB.
    /// let sheet = Sheet::read(*b"TPL\x00\x01\x02\x02\x01\x00AB\x02\x02\x02\x02\x80\x81\x00\x01")?;
    /// let filling = sheet.search().expect("nothing and AB clash, and A and B, and AB and nothing");
    /// assert_eq!((filling.letters(0), filling.letters(1)), (&[][..], &[0, 1][..]));
    /// assert_eq!(sheet.check(&filling), Ok(Checked::Clash));
    ///
    /// // Field 0 twice, against A.
    /// let sheet = Sheet::read(*b"TPL\x00\x01\x01\x01\x01\x00A\x01\x02\x01\x80\x80\x00")?;
    /// assert!(sheet.search().is_none());
    /// # Ok::<(), Refusal>(())
    /// ```
    pub fn search(&self) -> Option<Filling> {
        let mut filling = [0; FILLING_MOST];
        match calls::search(&self.bytes, &mut filling).expect(ACCEPTED) {
            Searched::Clash => Some(self.handed(&filling)),
            Searched::Apart => None,
        }
    }

    /// How many variables, clauses and bytes its clause file has.
    pub fn clause_counts(&self) -> ClauseCounts {
        calls::count(&self.bytes).expect(ACCEPTED)
    }

    /// Its clause file, which asks a SAT solver for a clash: text in the DIMACS CNF form.
    ///
    /// ```
    /// let sheet = lunthegyr::Sheet::read(*b"TPL\x00\x01\x01\x01\x01\x00A\x00\x01\x01\x80\x00")?;
    /// assert_eq!(sheet.clause_file(), b"p cnf 2 2\n1 0\n-1 0\n");
    /// # Ok::<(), lunthegyr::Refusal>(())
    /// ```
    pub fn clause_file(&self) -> Vec<u8> {
        let mut file = vec![0; self.clause_counts().bytes as usize];
        calls::file(&self.bytes, &mut file).expect(ACCEPTED);
        file
    }

    /// Reads a SAT solver's reply to the clause file, and believes none of it: what is accepted is a filling that clashes. Refusals: 30 to 39.
    ///
    /// ```
    /// use lunthegyr::{Refusal, Sheet};
    ///
    /// let sheet = Sheet::read(*b"TPL\x00\x01\x01\x01\x01\x00A\x01\x01\x01\x80\x00")?;
    /// let filling = sheet.reply(b"s SATISFIABLE\nv 1 -2 3 -4 -5 6 0\n")?;
    /// assert_eq!(filling.letters(0), [0]);
    /// assert_eq!(sheet.reply(b"s UNSATISFIABLE\n"), Err(Refusal::UnknownLine));
    /// # Ok::<(), Refusal>(())
    /// ```
    pub fn reply(&self, text: &[u8]) -> Result<Filling, Refusal> {
        let mut filling = [0; FILLING_MOST];
        calls::reply(&self.bytes, text, &mut filling)?;
        Ok(self.handed(&filling))
    }

    /// The filling that a call has put at the start of a buffer.
    fn handed(&self, buffer: &[u8; FILLING_MOST]) -> Filling {
        Filling::from_bytes(&buffer[..self.counts.fields * FIELD_BYTES])
    }
}

#[cfg(test)]
mod tests {
    use super::*;
    use crate::samples::{sheet_of, P, P_FILE};
    use crate::LINE_MOST;

    fn p() -> Sheet {
        Sheet::read(P).unwrap()
    }

    #[test]
    fn an_accepted_sheet_keeps_its_bytes_and_counts() {
        let sheet = sheet_of(include_str!("../../../tests/search.d/largest_sheet.sheet"));
        let counts = Counts {
            letters: 8,
            fields: 6,
            pairs: 4,
            rules: 4,
        };
        assert_eq!(sheet.counts(), counts);
        assert_eq!(sheet.bytes().len(), crate::SHEET_MOST);
        assert_eq!(sheet.letters(), b"ABCDEFGH");
    }

    #[test]
    fn counts_are_in_the_engines_order() {
        let sheet = sheet_of(include_str!("../../../tests/search.d/shared_fields.sheet"));
        let counts = Counts {
            letters: 2,
            fields: 2,
            pairs: 3,
            rules: 0,
        };
        assert_eq!(sheet.counts(), counts);
    }

    #[test]
    fn a_refused_sheet_is_none() {
        let mut bytes = P.to_vec();
        bytes.push(0);
        assert_eq!(Sheet::read(bytes), Err(Refusal::BytesLeftOver));
        assert_eq!(Sheet::read([]), Err(Refusal::UnderNineBytes));
    }

    #[test]
    fn the_only_clash_is_found_and_spelled() {
        let sheet = sheet_of(include_str!("../../../tests/search.d/largest_sheet.sheet"));
        let filling = sheet.search().unwrap();
        let due = Filling::from_letters(&[&[7], &[6], &[5], &[4], &[3], &[2]]).unwrap();
        assert_eq!(filling, due);
        assert_eq!(sheet.check(&filling), Ok(Checked::Clash));
        let texts = [
            b"HGFEDCABCDEF",
            b"CDEFGHHHHHHH",
            b"HHGGFFEEDDCC",
            b"ABCDEFGHABCD",
        ];
        for (pair, text) in texts.iter().enumerate() {
            assert_eq!(sheet.spell(pair, Side::Left, &filling).unwrap(), *text);
            assert_eq!(sheet.spell(pair, Side::Right, &filling).unwrap(), *text);
        }
        assert_eq!(
            sheet.spell(4, Side::Left, &filling),
            Err(Refusal::PairNumber)
        );
    }

    #[test]
    fn of_several_clashes_the_first_is_found() {
        // The fields 0 and 1 against 1 and 0, of limit 2; not both are empty.
        let sheet =
            *b"TPL\x00\x01\x02\x02\x01\x01AB\x02\x02\x02\x02\x80\x81\x81\x80\xFF\xFF\xFF\xFF";
        let sheet = Sheet::read(sheet).unwrap();
        assert_eq!(
            sheet.search(),
            Some(Filling::from_letters(&[&[], &[0]]).unwrap())
        );
    }

    #[test]
    fn the_sides_are_not_exchanged() {
        let empty = Filling::from_letters(&[&[]]).unwrap();
        assert_eq!(p().spell(0, Side::Left, &empty).unwrap(), b"");
        assert_eq!(p().spell(0, Side::Right, &empty).unwrap(), b"A");
    }

    #[test]
    fn apart_is_none() {
        let sheet = sheet_of(include_str!("../../../tests/clauses.d/largest_sheet.sheet"));
        assert_eq!(sheet.search(), None);
    }

    #[test]
    fn a_filling_of_another_sheet_is_refused() {
        let refused = |filling| p().check(&filling);
        let none = Filling::from_bytes([]);
        assert_eq!(refused(none), Err(Refusal::FillingSize));
        let letter = Filling::from_letters(&[&[1]]).unwrap();
        assert_eq!(refused(letter), Err(Refusal::LetterNumber));
        let past = Filling::from_bytes([0; 9]);
        assert_eq!(refused(past), Err(Refusal::PastTheLength));
    }

    #[test]
    fn the_clause_file_is_document_01s() {
        assert_eq!(p().clause_file(), P_FILE);
    }

    /// All lines of a sheet's clause file, asked for one by one.
    fn by_lines(sheet: &Sheet) -> Vec<u8> {
        let mut file = Vec::new();
        let mut text = [0; LINE_MOST];
        for line in 0..=sheet.clause_counts().clauses {
            let length = calls::line(&sheet.bytes, line, &mut text).unwrap();
            file.extend_from_slice(&text[..length]);
        }
        file
    }

    #[test]
    fn the_clause_file_of_the_most_clauses_is_whole() {
        let sheet = sheet_of(include_str!("../../../tests/clauses.d/most_clauses.sheet"));
        let counts = sheet.clause_counts();
        let file = sheet.clause_file();
        assert_eq!(counts.clauses, 45_822);
        assert_eq!(counts.bytes, 920_561);
        let first = format!("p cnf {} {}\n", counts.variables, counts.clauses);
        assert!(file.starts_with(first.as_bytes()));
        assert_eq!(file, by_lines(&sheet));
    }

    #[test]
    fn a_reply_gives_a_filling_or_a_refusal() {
        let filling = p().reply(b"c\ns SATISFIABLE\nv 1 0\n").unwrap();
        assert_eq!(filling, Filling::from_letters(&[&[0]]).unwrap());
        assert_eq!(p().reply(b"s SATISFIABLE\nv 2 0\n"), Err(Refusal::NoClash));
        assert_eq!(p().reply(&[b'c'; 65537]), Err(Refusal::ReplySize));
        assert_eq!(p().reply(&[b'c'; 65536]), Err(Refusal::LineEnd));
    }

    #[test]
    fn a_sheet_without_fields_has_an_empty_filling() {
        let sheet = Sheet::read(*b"TPL\x00\x01\x01\x00\x01\x00A\x00\x00").unwrap();
        assert_eq!(sheet.search(), Some(Filling::from_bytes([])));
    }
}
