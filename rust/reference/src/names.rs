//! Which characters stand in the country, the signer and the reference (document 01, "Layout").

fn letter(character: u8) -> bool {
    character.is_ascii_uppercase()
}

fn letter_or_digit(character: u8) -> bool {
    letter(character) || character.is_ascii_digit()
}

/// "Letters and fillers only, a letter first; short codes are filled on the right with `<`. A letter never follows a
/// filler."
pub(crate) fn is_country(country: &[u8; 3]) -> bool {
    let letters = country.iter().take_while(|&&character| letter(character)).count();
    letters > 0 && country[letters..].iter().all(|&character| character == b'<')
}

/// "The signer is two letters, then two letters or digits."
pub(crate) fn is_signer(signer: &[u8]) -> bool {
    signer.len() == 4 && signer[..2].iter().all(|&c| letter(c)) && signer[2..].iter().all(|&c| letter_or_digit(c))
}

/// "The reference is letters and digits."
pub(crate) fn is_reference(reference: &[u8]) -> bool {
    reference.iter().all(|&character| letter_or_digit(character))
}

/// "Two upper-case hexadecimal digits giving the reference's length L"; it is 1 to 255.
pub(crate) fn length_of(digits: &[u8]) -> Option<usize> {
    let value = |&digit: &u8| b"0123456789ABCDEF".iter().position(|&hex| hex == digit);
    let length = digits.iter().try_fold(0, |length, digit| Some(16 * length + value(digit)?))?;
    (length > 0).then_some(length)
}

/// The two digits of a length of 1 to 255.
pub(crate) fn length_digits(length: usize) -> Vec<u8> {
    format!("{length:02X}").into_bytes()
}
