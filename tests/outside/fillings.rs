//! Makes fillings to test with: legal ones, by chance or all of a sheet, and ways to damage their
//! bytes. It knows the layout, and nothing of which refusal a damage leads to.

use crate::random::Random;
use crate::reader::Sheet;
use crate::sheets;
use crate::speller::{Filling, FIELD_BYTES, NO_LETTER};
use std::slice;

/// The bytes of a filling.
pub fn encode(filling: &Filling) -> Vec<u8> {
    let mut bytes = Vec::new();
    for text in filling {
        let mut field = [NO_LETTER; FIELD_BYTES];
        field[0] = text.len() as u8;
        field[1..=text.len()].copy_from_slice(text);
        bytes.extend(field);
    }
    bytes
}

/// The texts of a legal filling's bytes.
pub fn decode(bytes: &[u8]) -> Filling {
    let fields = bytes.chunks(FIELD_BYTES);
    fields
        .map(|field| field[1..=usize::from(field[0])].to_vec())
        .collect()
}

/// A legal filling; in about one of five every field is full.
pub fn legal(random: &mut Random, sheet: &Sheet) -> Filling {
    if random.chance(20) {
        return full(random, sheet);
    }
    let limits = sheet.limits.iter();
    let lengths: Vec<u8> = limits
        .map(|&limit| sheets::count(random, 0, usize::from(limit)) as u8)
        .collect();
    of_lengths(random, sheet, &lengths)
}

/// A legal filling in which every field is as long as its limit.
pub fn full(random: &mut Random, sheet: &Sheet) -> Filling {
    of_lengths(random, sheet, &sheet.limits)
}

fn of_lengths(random: &mut Random, sheet: &Sheet, lengths: &[u8]) -> Filling {
    let l = sheet.letters.len();
    lengths
        .iter()
        .map(|&length| text(random, l, length))
        .collect()
}

/// A text over `l` letters, or over the first two of them.
fn text(random: &mut Random, l: usize, length: u8) -> Vec<u8> {
    let l = random.one_of(&[l, l.min(2)]);
    (0..length).map(|_| random.below(l) as u8).collect()
}

/// Lengths of buffers for a filling of this many bytes: one that just fits, a longer one, and where
/// there is one a shorter one.
pub fn rooms(random: &mut Random, fitting: usize) -> Vec<usize> {
    let longer = fitting + random.one_of(&[1, FIELD_BYTES, 54, 256]);
    let mut rooms = vec![fitting, longer];
    if fitting > 0 {
        let any = random.below(fitting);
        let shorter = [0, fitting - 1, fitting - FIELD_BYTES, any];
        rooms.push(random.one_of(&shorter));
    }
    rooms
}

/// All legal fillings of a sheet.
pub fn all(sheet: &Sheet) -> Vec<Filling> {
    let mut fillings = vec![Vec::new()];
    for &limit in &sheet.limits {
        let texts = all_texts(sheet.letters.len(), usize::from(limit));
        let with_each_text = |filling: &Filling| -> Vec<Filling> {
            let with = |text: &Vec<u8>| [&filling[..], slice::from_ref(text)].concat();
            texts.iter().map(with).collect()
        };
        fillings = fillings.iter().flat_map(with_each_text).collect();
    }
    fillings
}

/// All texts over `l` letters that are no longer than `most`.
fn all_texts(l: usize, most: usize) -> Vec<Vec<u8>> {
    let mut texts = vec![Vec::new()];
    let mut longest = texts.clone();
    for _ in 0..most {
        let longer = |text: &Vec<u8>| -> Vec<Vec<u8>> {
            let with = |letter| [&text[..], &[letter as u8]].concat();
            (0..l).map(with).collect()
        };
        longest = longest.iter().flat_map(longer).collect();
        texts.extend(longest.clone());
    }
    texts
}

/// Gives a field of a legal filling another text.
pub fn change_text(random: &mut Random, sheet: &Sheet, filling: &mut Filling) {
    if filling.is_empty() {
        return;
    }
    let field = random.below(filling.len());
    let other = legal(random, sheet).swap_remove(field);
    filling[field] = other;
}

/// Damages the bytes of a legal filling: its size, or one to three places of its fields, or both.
pub fn damage(random: &mut Random, sheet: &Sheet, filling: &mut Vec<u8>) {
    if !filling.is_empty() {
        for _ in 0..random.within(1, 3) {
            damage_field(random, sheet, filling);
        }
    }
    if random.chance(15) || filling.is_empty() {
        resize(random, filling);
    }
}

/// Cuts bytes off or adds some.
fn resize(random: &mut Random, filling: &mut Vec<u8>) {
    let n = filling.len();
    let size = random.one_of(&[0, n.saturating_sub(1), n + 1, n + FIELD_BYTES, n + 256]);
    let added = random.one_of(&[0, NO_LETTER]);
    filling.resize(size, added);
}

/// Changes the length of a field, a place before its length, a place past it, or any byte.
fn damage_field(random: &mut Random, sheet: &Sheet, filling: &mut [u8]) {
    let number = random.below(sheet.limits.len());
    let field = &mut filling[FIELD_BYTES * number..][..FIELD_BYTES];
    let limit = sheet.limits[number];
    let l = sheet.letters.len() as u8;
    let length = field[0];
    let (before, past) = field[1..].split_at_mut(usize::from(length).min(FIELD_BYTES - 1));
    match random.below(8) {
        0 => field[0] = random.one_of(&[limit + 1, 9, 128, 255]),
        1 => field[0] = random.one_of(&[length.wrapping_sub(1), length.wrapping_add(1)]),
        2 => field[random.below(FIELD_BYTES)] = random.byte(),
        3..=5 if !before.is_empty() => {
            before[random.below(before.len())] = random.one_of(&[l, l + 1, 128, 254, NO_LETTER]);
        }
        _ if !past.is_empty() => {
            past[random.below(past.len())] = random.one_of(&[0, l - 1, l, 254]);
        }
        _ => {}
    }
}
