//! Receiving with confidences (document 02, T-05 and T-07): slow, plain, sentence by sentence.

use crate::melp::{
    self, Content, FrameReading, FrameResult, PitchClass, Record, Refusal, WordReading,
};

// ---- One word ----

/// The code words of a length, as sent; those of six bits are the eight with spare 0.
fn code_words(length: usize) -> Vec<Vec<u8>> {
    let data_bits = melp::data_count(length) as u32;
    (0..1u8 << data_bits)
        .map(|data| melp::encode_word(length, &melp::bits_of(data, data_bits)))
        .collect()
}

/// Data of a code word, read with u0 most significant.
fn data_number(code_word: &[u8]) -> u8 {
    melp::number_of(&code_word[..melp::data_count(code_word.len())])
}

/// The sent places, counted within the word, where a code word differs from what came.
fn differing(code_word: &[u8], came: &[u8]) -> Vec<usize> {
    (0..came.len())
        .filter(|p| code_word[*p] != came[*p])
        .collect()
}

/// Cost of a code word: the sum of the confidences where it differs from what came.
fn cost(code_word: &[u8], came: &[u8], confidences: &[u8]) -> u32 {
    differing(code_word, came)
        .iter()
        .map(|p| u32::from(confidences[*p]))
        .sum()
}

/// The cheapest code words, one or more.
fn cheapest(came: &[u8], confidences: &[u8]) -> Vec<Vec<u8>> {
    let all = code_words(came.len());
    let costs: Vec<u32> = all.iter().map(|w| cost(w, came, confidences)).collect();
    let least = costs.iter().min().expect("there are code words");
    (0..all.len())
        .filter(|i| costs[*i] == *least)
        .map(|i| all[i].clone())
        .collect()
}

/// Choose the code word for a word that came: of two or more cheapest none in A, which has eight bits, and elsewhere the
/// one with the smallest data. Each place changed back counts as repaired.
pub fn choose_word(came: &[u8], confidences: &[u8]) -> WordReading {
    assert_eq!(came.len(), confidences.len());
    let cheapest = cheapest(came, confidences);
    if came.len() == 8 && cheapest.len() >= 2 {
        return WordReading::Erased;
    }
    let chosen = cheapest
        .iter()
        .min_by_key(|w| data_number(w))
        .expect("one is the cheapest");
    WordReading::Data {
        data: chosen[..melp::data_count(came.len())].to_vec(),
        repaired: differing(chosen, came).len() as u8,
    }
}

// ---- A frame ----

/// How many confidences a frame has: one for each place.
pub const CONFIDENCES: usize = 54;

/// The bits of a frame and their confidences, both by logical number: refuse 2, 10, 3 or 9. A bit has the confidence of the
/// place at which it stands.
pub fn bits_of_frame(
    bytes: &[u8],
    confidences: &[u8],
    list: &[u8],
) -> Result<([u8; 54], [u8; 54]), Refusal> {
    let logical = melp::bits_of_frame(bytes, list)?;
    if confidences.len() != CONFIDENCES {
        return Err(Refusal::Confidences);
    }
    let mut by_place = [0; CONFIDENCES];
    by_place.copy_from_slice(confidences);
    let order = melp::order_of(list)?;
    Ok((logical, melp::from_places(&by_place, &order)))
}

/// Read a frame with an unvoiced pitch code: choose each of the four words.
fn read_unvoiced(logical: &[u8; 54], confidences: &[u8; 54]) -> Content {
    let words = melp::received_words(logical);
    let their_confidences = melp::received_words(confidences);
    let chosen = std::array::from_fn(|w| choose_word(words[w], their_confidences[w]));
    melp::unvoiced_content(logical, chosen)
}

/// Read 54 bits with their confidences, both by logical number; a voiced or erased pitch code looks at none of them.
pub fn read_bits(logical: &[u8; 54], confidences: &[u8; 54]) -> Result<Content, Refusal> {
    match melp::class_of_bits(logical)? {
        PitchClass::Unvoiced => Ok(read_unvoiced(logical, confidences)),
        PitchClass::Erased | PitchClass::Voiced(_) => melp::read_bits(logical),
    }
}

/// Read a frame's bytes with confidences: refuse 2, 10, 3 or 9.
pub fn read(bytes: &[u8], confidences: &[u8], list: &[u8]) -> Result<FrameReading, Refusal> {
    let (logical, confidences) = bits_of_frame(bytes, confidences, list)?;
    Ok(FrameReading {
        content: read_bits(&logical, &confidences)?,
        sync: logical[53],
    })
}

/// Receive one frame with confidences: refuse 2, 10, 3, 9 or 4, else the result and the next record.
pub fn receive(
    record: &Record,
    bytes: &[u8],
    confidences: &[u8],
    list: &[u8],
) -> Result<(FrameResult, Record), Refusal> {
    melp::take(record, &read(bytes, confidences, list)?)
}
