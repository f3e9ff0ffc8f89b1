//! A way through bytes that the engine refuses, up to the first that is at fault, and what is told of it. What can be wrong is up to whoever goes it.

use lunthegyr::Refusal;

/// The refusal's number, what is wrong in words that tell more than its own, and a note if there is one.
pub fn told(refusal: Refusal, words: &str, note: &str) -> String {
    let told = format!("refused {}: {words}", refusal.number());
    match note {
        "" => told,
        _ => format!("{told} ({note})"),
    }
}

/// Bytes, and the offset up to which they are passed. Where a fault is met it stays at its byte.
pub struct Walk<'a, Broken> {
    bytes: &'a [u8],
    pub at: usize,
    /// What is wrong where the bytes end and one more is needed.
    missing: Broken,
}

impl<'a, Broken: Copy> Walk<'a, Broken> {
    pub fn new(bytes: &'a [u8], missing: Broken) -> Walk<'a, Broken> {
        Walk {
            bytes,
            at: 0,
            missing,
        }
    }

    /// The bytes that come first, which are these; also where they are not whole, it is they that are broken.
    pub fn opening(&mut self, opening: &[u8], broken: Broken) -> Result<(), Broken> {
        for &byte in opening {
            let passed = self.byte(|next| next == byte, broken);
            passed.map_err(|_| broken)?;
        }
        Ok(())
    }

    /// A count or limit from one number to another.
    pub fn count(&mut self, least: usize, most: usize, broken: Broken) -> Result<usize, Broken> {
        let fits = |byte: u8| (least..=most).contains(&usize::from(byte));
        self.byte(fits, broken).map(usize::from)
    }

    /// The next byte, which is passed, if it is as it must be.
    pub fn byte(&mut self, fits: impl Fn(u8) -> bool, broken: Broken) -> Result<u8, Broken> {
        match self.bytes.get(self.at) {
            None => Err(self.missing),
            Some(&byte) if !fits(byte) => Err(broken),
            Some(&byte) => {
                self.at += 1;
                Ok(byte)
            }
        }
    }

    /// That no byte is left.
    pub fn end(&self, left_over: Broken) -> Result<(), Broken> {
        match self.at == self.bytes.len() {
            true => Ok(()),
            false => Err(left_over),
        }
    }
}
