//! A second implementation of document 01 up to receiving, with the record of document 02's T-06 and the orders of its T-07:
//! slow, plain, section by section.
//! Bits are u8 values 0 or 1; lists of bits run most significant first.

// Each program uses its part.
#![allow(dead_code)]

/// Refusal numbers of section "Refusals by place", and document 02's 8, 9 and 10.
#[derive(Clone, Copy, Debug, PartialEq, Eq)]
pub enum Refusal {
    Output = 1,
    FrameLength = 2,
    Padding = 3,
    Record = 4,
    Parameter = 5,
    Codebook = 6,
    Row = 7,
    Line = 8,
    Confidences = 9,
    Order = 10,
}

impl Refusal {
    /// The number in the table of refusals.
    pub fn number(self) -> u8 {
        self as u8
    }
}

/// What only a voiced set has (section "Parameter sets").
#[derive(Clone, Copy, Debug, PartialEq, Eq)]
pub struct Voicing {
    pub pitch: u8,
    pub bandpass: u8,
    pub fourier: u8,
    pub aperiodic: u8,
}

/// A parameter set; without voicing it is an unvoiced one (section "Parameter sets").
#[derive(Clone, Copy, Debug, PartialEq, Eq)]
pub struct Set {
    pub lsf: [u8; 4],
    pub g2: u8,
    pub g1: u8,
    pub voicing: Option<Voicing>,
}

/// Class of a pitch code; voiced carries the index (section "Pitch code").
#[derive(Clone, Copy, Debug, PartialEq, Eq)]
pub enum PitchClass {
    Unvoiced,
    Erased,
    Voiced(u8),
}

/// What a received word yields (section "The four words").
#[derive(Clone, Debug, PartialEq, Eq)]
pub enum WordReading {
    Erased,
    Data { data: Vec<u8>, repaired: u8 },
}

/// What the bits of one frame say, before any record is looked at (section "Receiver").
#[derive(Clone, Copy, Debug, PartialEq, Eq)]
pub enum Content {
    Erased,
    Accepted { set: Set, repaired: u8 },
}

/// One frame read: its content and its sync bit.
#[derive(Clone, Copy, Debug, PartialEq, Eq)]
pub struct FrameReading {
    pub content: Content,
    pub sync: u8,
}

/// Kind of a result (section "Receiver").
#[derive(Clone, Copy, Debug, PartialEq, Eq)]
pub enum Kind {
    Unvoiced,
    Voiced,
    Repeat,
}

/// Result of one received frame (section "Receiver").
#[derive(Clone, Copy, Debug, PartialEq, Eq)]
pub struct FrameResult {
    pub kind: Kind,
    pub set: Set,
    pub first_level: i32,
    pub second_level: i32,
    pub mute: u8,
    pub sync: u8,
    pub repaired: u8,
}

/// Last accepted set, and last accepted G2 (section "Receiver").
#[derive(Clone, Copy, Debug, PartialEq, Eq)]
pub struct Last {
    pub set: Set,
    pub g2: u8,
}

/// Receiver record; `repeats` tells which of the latest 16 frames were repeats, oldest first, and `repeat_count` how many
/// (document 02's T-06).
#[derive(Clone, Copy, Debug, PartialEq, Eq)]
pub struct Record {
    pub last: Last,
    pub repeats: [bool; 16],
    pub repeat_count: u8,
}

/// Receiver record of the old kind, which has no count (document 02's T-06).
#[derive(Clone, Copy, Debug, PartialEq, Eq)]
pub struct OldRecord {
    pub last: Last,
    pub repeats: [bool; 16],
}

// ---- Numbers and bits ----

/// Bit n of a value, bit 0 the least significant.
fn bit(value: u8, n: u32) -> u8 {
    (value >> n) & 1
}

/// The lowest `count` bits of a value, most significant first.
pub fn bits_of(value: u8, count: u32) -> Vec<u8> {
    (0..count).rev().map(|n| bit(value, n)).collect()
}

/// The number that a list of bits spells, most significant first.
pub fn number_of(bits: &[u8]) -> u8 {
    bits.iter().fold(0, |number, b| number * 2 + b)
}

/// How many ones a list of bits has.
fn ones(bits: &[u8]) -> usize {
    bits.iter().filter(|b| **b == 1).count()
}

// ---- Pitch code (5.3.1, section "Pitch code") ----

/// Whether a pitch code means a voiced frame.
fn is_voiced_code(code: u8) -> bool {
    ones(&bits_of(code, 7)) >= 3
}

/// Class of a pitch code; a code of more than seven bits is refused.
pub fn pitch_class(code: u8) -> Result<PitchClass, Refusal> {
    if code > 127 {
        return Err(Refusal::Parameter);
    }
    match ones(&bits_of(code, 7)) {
        0 | 1 => Ok(PitchClass::Unvoiced),
        2 => Ok(PitchClass::Erased),
        _ => {
            let smaller = (0..code).filter(|c| is_voiced_code(*c)).count();
            Ok(PitchClass::Voiced(smaller as u8))
        }
    }
}

/// Code of a pitch index, found by trying every code.
pub fn pitch_code(index: u8) -> Result<u8, Refusal> {
    (0..=127)
        .find(|code| pitch_class(*code) == Ok(PitchClass::Voiced(index)))
        .ok_or(Refusal::Parameter)
}

// ---- The four words (5.4, section "The four words") ----

/// Row i tells which of u0..u3 are summed into parity bit i.
const EQUATIONS: [[u8; 4]; 4] = [[1, 1, 0, 1], [1, 0, 1, 1], [0, 1, 1, 1], [1, 1, 1, 0]];

/// Data bits sent in a word of 6, 7 or 8 bits; the six-bit word leaves out its spare.
pub fn data_count(length: usize) -> usize {
    match length {
        6 => 3,
        7 | 8 => 4,
        _ => panic!("no word has {} bits", length),
    }
}

/// Parity bits of a word of 6, 7 or 8 bits.
pub fn parity_count(length: usize) -> usize {
    length - data_count(length)
}

/// Parity bits of the data bits sent; a spare counts as 0.
pub fn parity(length: usize, data: &[u8]) -> Vec<u8> {
    let mut u = [0; 4];
    u[..data_count(length)].copy_from_slice(data);
    let sum = |row: &[u8; 4]| (0..4).map(|k| row[k] * u[k]).sum::<u8>() % 2;
    EQUATIONS[..parity_count(length)].iter().map(sum).collect()
}

/// The whole word: data sent, then parity.
pub fn encode_word(length: usize, data: &[u8]) -> Vec<u8> {
    let mut word = data.to_vec();
    word.extend(parity(length, data));
    word
}

/// Column of a sent bit: the syndrome when that bit alone is wrong.
fn column(length: usize, position: usize) -> Vec<u8> {
    let data = data_count(length);
    let entry = |row: usize| {
        if position < data {
            EQUATIONS[row][position]
        } else {
            u8::from(row == position - data)
        }
    };
    (0..parity_count(length)).map(entry).collect()
}

/// Received parity plus the parity of the received data.
fn syndrome(length: usize, word: &[u8]) -> Vec<u8> {
    let (data, received) = word.split_at(data_count(length));
    let computed = parity(length, data);
    received
        .iter()
        .zip(&computed)
        .map(|(r, c)| (r + c) % 2)
        .collect()
}

/// A word's data with the count of repairs.
fn word_data(length: usize, word: &[u8], repaired: u8) -> WordReading {
    WordReading::Data {
        data: word[..data_count(length)].to_vec(),
        repaired,
    }
}

/// Column of the six-bit word's spare, its fourth data bit, which is not sent.
fn spare_column() -> Vec<u8> {
    (0..parity_count(6)).map(|row| EQUATIONS[row][3]).collect()
}

/// Read a received word: let it stand, erase it or flip one bit back. The spare's column erases by document 02, T-02.
pub fn decode_word(length: usize, word: &[u8]) -> WordReading {
    assert_eq!(word.len(), length);
    let syndrome = syndrome(length, word);
    if ones(&syndrome) == 0 {
        return word_data(length, word, 0);
    }
    if length == 8 && ones(&syndrome) % 2 == 0 {
        return WordReading::Erased;
    }
    if length == 6 && syndrome == spare_column() {
        return WordReading::Erased;
    }
    let wrong = (0..length)
        .find(|p| column(length, *p) == syndrome)
        .expect("every other syndrome is the column of a sent bit");
    let mut mended = word.to_vec();
    mended[wrong] = 1 - mended[wrong];
    word_data(length, &mended, 1)
}

// ---- Gain levels (5.3.3, section "Gain levels") ----

/// Lowest and highest level that the choice of codes takes, in grains.
pub const LEVEL_RANGE: (i32, i32) = (-18600, 37200);

/// Level of G2 in grains.
pub fn level(g2: u8) -> Result<i32, Refusal> {
    if g2 > 31 {
        return Err(Refusal::Parameter);
    }
    Ok(1860 + 402 * i32::from(g2))
}

/// First level from G2, the first gain code and the G2 accepted before.
pub fn first_level(g2: u8, code: u8, q: u8) -> Result<i32, Refusal> {
    if code > 7 {
        return Err(Refusal::Parameter);
    }
    let (now, before) = (level(g2)?, level(q)?);
    if code == 0 {
        return Ok((now + before) / 2);
    }
    let step = 67 * i32::from(g2.abs_diff(q)) + 372;
    Ok(now.min(before) - 1116 + (i32::from(code) - 1) * step)
}

/// Index of the nearest of rising levels; of two equally near the lower.
fn nearest(levels: &[i32], value: i32) -> u8 {
    let mut best = 0;
    for (index, level) in levels.iter().enumerate() {
        if (level - value).abs() < (levels[best] - value).abs() {
            best = index;
        }
    }
    best as u8
}

/// Whether a level may be given to the choice of codes.
fn level_in_range(value: i32) -> bool {
    (LEVEL_RANGE.0..=LEVEL_RANGE.1).contains(&value)
}

/// Choose G2 and G1 from both levels and the G2 accepted before.
pub fn choose(first: i32, second: i32, q: u8) -> Result<(u8, u8), Refusal> {
    if !level_in_range(first) || !level_in_range(second) || q > 31 {
        return Err(Refusal::Parameter);
    }
    let second_levels = (0..=31).map(level).collect::<Result<Vec<i32>, Refusal>>()?;
    let g2 = nearest(&second_levels, second);
    let mean = first_level(g2, 0, q)?;
    if g2.abs_diff(q) <= 2 && (first - mean).abs() <= 558 {
        return Ok((g2, 0));
    }
    let seven = (1..=7)
        .map(|c| first_level(g2, c, q))
        .collect::<Result<Vec<i32>, Refusal>>()?;
    Ok((g2, 1 + nearest(&seven, first)))
}

// ---- Range tests (sections "Parameter sets" and "Receiver") ----

/// Whether each field of a set is in its range, B = 1 let through.
pub fn set_in_range(set: &Set) -> bool {
    let [l1, l2, l3, l4] = set.lsf;
    let common = l1 <= 127 && l2 <= 63 && l3 <= 63 && l4 <= 63 && set.g2 <= 31 && set.g1 <= 7;
    let own = match set.voicing {
        None => true,
        Some(v) => v.pitch <= 98 && v.bandpass <= 15 && v.aperiodic <= 1,
    };
    common && own
}

/// Whether the sender takes a set; B = 1 is not valid there (5.3.2).
pub fn sender_takes(set: &Set) -> bool {
    set_in_range(set) && !matches!(set.voicing, Some(Voicing { bandpass: 1, .. }))
}

/// Whether the last set and the last G2 are in range; B = 1 is.
fn last_in_range(last: &Last) -> bool {
    set_in_range(&last.set) && last.g2 <= 31
}

/// Whether number 4 does not refuse a record: every field in range, and the count true.
pub fn record_is_valid(record: &Record) -> bool {
    last_in_range(&record.last) && record.repeat_count == count_repeats(&record.repeats)
}

// ---- Order of the bits (section "Order of the bits", and document 02's T-07) ----

/// An order: entry t is the logical bit at place t.
pub type Order = [u8; 54];

/// The default order: logical bit j is at place 7 × j modulo 54.
pub fn default_order() -> Order {
    let mut order = [0; 54];
    for j in 0..54 {
        order[7 * j % 54] = j as u8;
    }
    order
}

/// Whether a list is an order: 54 entries, each number once.
pub fn is_order(list: &[u8]) -> bool {
    let count = |j: u8| list.iter().filter(|entry| **entry == j).count();
    list.len() == 54 && (0..54).all(|j| count(j) == 1)
}

/// The order that a list is: refuse 10.
pub fn order_of(list: &[u8]) -> Result<Order, Refusal> {
    if !is_order(list) {
        return Err(Refusal::Order);
    }
    let mut order = [0; 54];
    order.copy_from_slice(list);
    Ok(order)
}

/// Place in the frame of a logical bit: where an order names it.
pub fn place_of(logical: usize, order: &Order) -> usize {
    (0..54)
        .find(|t| usize::from(order[*t]) == logical)
        .expect("an order names each bit")
}

/// First and last logical bit of words A to D and of the pitch code.
pub const FIELDS: [(usize, usize); 5] = [(0, 7), (8, 13), (14, 20), (21, 27), (28, 34)];

/// Whether flips of some bits hit the pitch code or a word twice.
fn hit_twice(bits: &[u8]) -> bool {
    FIELDS.iter().any(|(first, last)| {
        let hits = bits
            .iter()
            .filter(|j| (*first..=*last).contains(&usize::from(**j)));
        hits.count() >= 2
    })
}

/// Burst width of an order: the largest length up to 54 such that flips inside that many neighbouring places never hit the
/// pitch code or any word twice. A list that is no order is refused with 10.
pub fn burst_width(list: &[u8]) -> Result<usize, Refusal> {
    let order = order_of(list)?;
    let never_twice = |length: &usize| order.windows(*length).all(|bits| !hit_twice(bits));
    let width = (1..=54).rev().find(never_twice);
    Ok(width.expect("a single flip hits nothing twice"))
}

/// Data bits of words A, B, C and D.
fn word_data_bits(set: &Set) -> [Vec<u8>; 4] {
    let (l1, g2, g1) = (set.lsf[0], set.g2, set.g1);
    [
        vec![bit(l1, 6), bit(l1, 5), bit(l1, 4), bit(l1, 3)],
        vec![bit(l1, 2), bit(l1, 1), bit(l1, 0)],
        vec![bit(g2, 4), bit(g2, 3), bit(g2, 2), bit(g2, 1)],
        vec![bit(g2, 0), bit(g1, 2), bit(g1, 1), bit(g1, 0)],
    ]
}

/// Lengths of words A, B, C and D.
const WORD_LENGTHS: [usize; 4] = [8, 6, 7, 7];

/// What stands in the parity places of A to D in a voiced frame.
fn voicing_bits(v: &Voicing) -> [Vec<u8>; 4] {
    [
        vec![
            bit(v.bandpass, 3),
            bit(v.bandpass, 2),
            bit(v.bandpass, 1),
            bit(v.bandpass, 0),
        ],
        vec![bit(v.fourier, 7), bit(v.fourier, 6), bit(v.fourier, 5)],
        vec![bit(v.fourier, 4), bit(v.fourier, 3), bit(v.fourier, 2)],
        vec![bit(v.fourier, 1), bit(v.fourier, 0), v.aperiodic],
    ]
}

/// Words A to D of a set as sent.
fn words_of(set: &Set) -> Vec<Vec<u8>> {
    let data = word_data_bits(set);
    match set.voicing {
        None => (0..4)
            .map(|w| encode_word(WORD_LENGTHS[w], &data[w]))
            .collect(),
        Some(v) => {
            let carried = voicing_bits(&v);
            (0..4)
                .map(|w| [data[w].clone(), carried[w].clone()].concat())
                .collect()
        }
    }
}

/// Pitch code that a set is sent with; unvoiced sends no ones.
fn sent_pitch_code(set: &Set) -> Result<u8, Refusal> {
    match set.voicing {
        None => Ok(0x00),
        Some(v) => pitch_code(v.pitch),
    }
}

/// The 54 bits of a frame by logical number.
fn logical_bits(set: &Set, sync: u8) -> Result<[u8; 54], Refusal> {
    let mut list = words_of(set).concat();
    list.extend(bits_of(sent_pitch_code(set)?, 7));
    list.extend(bits_of(set.lsf[1], 6));
    list.extend(bits_of(set.lsf[2], 6));
    list.extend(bits_of(set.lsf[3], 6));
    list.push(sync);
    let mut logical = [0; 54];
    logical.copy_from_slice(&list);
    Ok(logical)
}

/// Bits by logical number to bits by place.
fn to_places(logical: &[u8; 54], order: &Order) -> [u8; 54] {
    std::array::from_fn(|t| logical[usize::from(order[t])])
}

/// What stands at each place, bits or confidences, by logical number.
pub fn from_places(places: &[u8; 54], order: &Order) -> [u8; 54] {
    std::array::from_fn(|j| places[place_of(j, order)])
}

/// Bits by place to the seven bytes, the last two bits 0.
fn to_bytes(places: &[u8; 54]) -> [u8; 7] {
    let mut bytes = [0; 7];
    for t in 0..54 {
        bytes[t / 8] |= places[t] << (7 - t % 8);
    }
    bytes
}

/// The seven bytes to bits by place.
fn from_bytes(bytes: &[u8; 7]) -> [u8; 54] {
    let mut places = [0; 54];
    for t in 0..54 {
        places[t] = (bytes[t / 8] >> (7 - t % 8)) & 1;
    }
    places
}

/// The frame of 54 bits by logical number: refuse 10.
pub fn frame_of_bits(logical: &[u8; 54], list: &[u8]) -> Result<[u8; 7], Refusal> {
    let order = order_of(list)?;
    Ok(to_bytes(&to_places(logical, &order)))
}

/// Change one place of a frame, as the channel may.
pub fn flip(frame: &mut [u8; 7], place: usize) {
    frame[place / 8] ^= 1 << (7 - place % 8);
}

/// The frame of any set in range, B = 1 let through.
pub fn frame_of(set: &Set, sync: u8, list: &[u8]) -> Result<[u8; 7], Refusal> {
    frame_of_bits(&logical_bits(set, sync)?, list)
}

/// The sync bit of a fresh sender.
pub const FRESH_SYNC: u8 = 0;

/// Pack a set with the sender's sync bit: refuse 1, 10 or 5, else the frame and the next sync bit.
pub fn pack(
    set: &Set,
    sync: u8,
    output_length: usize,
    list: &[u8],
) -> Result<([u8; 7], u8), Refusal> {
    if output_length < 7 {
        return Err(Refusal::Output);
    }
    if !is_order(list) {
        return Err(Refusal::Order);
    }
    if sync > 1 {
        return Err(Refusal::Record);
    }
    if !sender_takes(set) {
        return Err(Refusal::Parameter);
    }
    Ok((frame_of(set, sync, list)?, 1 - sync))
}

// ---- Reading a frame (section "Receiver") ----

/// L1, G2 and G1 from the data bits of words A to D.
fn protected_fields(data: &[Vec<u8>]) -> (u8, u8, u8) {
    let l1 = number_of(&[&data[0][..], &data[1][..]].concat());
    let g2 = number_of(&[&data[2][..], &data[3][..1]].concat());
    let g1 = number_of(&data[3][1..4]);
    (l1, g2, g1)
}

/// The four words of a received frame.
pub fn received_words(logical: &[u8; 54]) -> [&[u8]; 4] {
    [
        &logical[0..8],
        &logical[8..14],
        &logical[14..21],
        &logical[21..28],
    ]
}

/// A set from the words' data bits and the bits outside the words.
fn assemble(data: &[Vec<u8>], logical: &[u8; 54], voicing: Option<Voicing>) -> Set {
    let (l1, g2, g1) = protected_fields(data);
    let l2 = number_of(&logical[35..41]);
    let l3 = number_of(&logical[41..47]);
    let l4 = number_of(&logical[47..53]);
    Set {
        lsf: [l1, l2, l3, l4],
        g2,
        g1,
        voicing,
    }
}

/// Read a frame with a voiced pitch code: no word is checked.
fn read_voiced(logical: &[u8; 54], pitch: u8) -> Content {
    let words = received_words(logical);
    let cut = |w: usize| words[w].split_at(data_count(WORD_LENGTHS[w]));
    let data: Vec<Vec<u8>> = (0..4).map(|w| cut(w).0.to_vec()).collect();
    let bandpass = number_of(cut(0).1);
    let fourier = number_of(&[cut(1).1, cut(2).1, &cut(3).1[..2]].concat());
    let aperiodic = cut(3).1[2];
    let voicing = Voicing {
        pitch,
        bandpass,
        fourier,
        aperiodic,
    };
    Content::Accepted {
        set: assemble(&data, logical, Some(voicing)),
        repaired: 0,
    }
}

/// A frame with an unvoiced pitch code, by what its four words yield: A is looked at first.
pub fn unvoiced_content(logical: &[u8; 54], words: [WordReading; 4]) -> Content {
    let mut repaired = ones(&logical[28..35]) as u8;
    let mut data = Vec::new();
    for word in words {
        match word {
            WordReading::Erased => return Content::Erased,
            WordReading::Data {
                data: bits,
                repaired: count,
            } => {
                data.push(bits);
                repaired += count;
            }
        }
    }
    Content::Accepted {
        set: assemble(&data, logical, None),
        repaired,
    }
}

/// Read a frame with an unvoiced pitch code: check A, repair all four words.
fn read_unvoiced(logical: &[u8; 54]) -> Content {
    let words = received_words(logical);
    unvoiced_content(logical, words.map(|word| decode_word(word.len(), word)))
}

/// The 54 bits of a frame by logical number: refuse 2, 10 or 3.
pub fn bits_of_frame(bytes: &[u8], list: &[u8]) -> Result<[u8; 54], Refusal> {
    if bytes.len() != 7 {
        return Err(Refusal::FrameLength);
    }
    let order = order_of(list)?;
    let mut frame = [0; 7];
    frame.copy_from_slice(bytes);
    if frame[6] & 0b11 != 0 {
        return Err(Refusal::Padding);
    }
    Ok(from_places(&from_bytes(&frame), &order))
}

/// Class of the pitch code among 54 bits.
pub fn class_of_bits(logical: &[u8; 54]) -> Result<PitchClass, Refusal> {
    pitch_class(number_of(&logical[28..35]))
}

/// Read 54 bits: classify the pitch code and read on.
pub fn read_bits(logical: &[u8; 54]) -> Result<Content, Refusal> {
    match class_of_bits(logical)? {
        PitchClass::Erased => Ok(Content::Erased),
        PitchClass::Voiced(pitch) => Ok(read_voiced(logical, pitch)),
        PitchClass::Unvoiced => Ok(read_unvoiced(logical)),
    }
}

/// Read a frame's bytes: refuse 2, 10 or 3.
pub fn read(bytes: &[u8], list: &[u8]) -> Result<FrameReading, Refusal> {
    let logical = bits_of_frame(bytes, list)?;
    Ok(FrameReading {
        content: read_bits(&logical)?,
        sync: logical[53],
    })
}

// ---- Receiver (section "Receiver") ----

/// The record that a receiver starts with.
pub fn fresh_record() -> Record {
    let set = Set {
        lsf: [0; 4],
        g2: 0,
        g1: 0,
        voicing: None,
    };
    Record {
        last: Last { set, g2: 0 },
        repeats: [false; 16],
        repeat_count: 0,
    }
}

/// The latest 16 kinds after one more: the oldest goes out.
pub fn push_kind(repeats: &[bool; 16], repeat: bool) -> [bool; 16] {
    let mut next = [repeat; 16];
    next[..15].copy_from_slice(&repeats[1..]);
    next
}

/// How many of the latest 16 kinds are repeats.
pub fn count_repeats(repeats: &[bool; 16]) -> u8 {
    repeats.iter().filter(|r| **r).count() as u8
}

/// Mute bit of so many repeats among the latest 16.
pub fn mute_of(repeat_count: u8) -> u8 {
    u8::from(repeat_count >= 8)
}

/// Result of an erased frame.
fn repeat(last: &Last, sync: u8, mute: u8) -> Result<FrameResult, Refusal> {
    let last_level = level(last.g2)?;
    Ok(FrameResult {
        kind: Kind::Repeat,
        set: last.set,
        first_level: last_level,
        second_level: last_level,
        mute,
        sync,
        repaired: 0,
    })
}

/// Result of an accepted frame; q is the G2 accepted before.
fn accept(set: Set, repaired: u8, q: u8, sync: u8, mute: u8) -> Result<FrameResult, Refusal> {
    Ok(FrameResult {
        kind: if set.voicing.is_some() {
            Kind::Voiced
        } else {
            Kind::Unvoiced
        },
        set,
        first_level: first_level(set.g2, set.g1, q)?,
        second_level: level(set.g2)?,
        mute,
        sync,
        repaired,
    })
}

/// Result of a frame as read, by the last set and G2 before it and its mute bit.
pub fn result_of(last: &Last, frame: &FrameReading, mute: u8) -> Result<FrameResult, Refusal> {
    match frame.content {
        Content::Erased => repeat(last, frame.sync, mute),
        Content::Accepted { set, repaired } => accept(set, repaired, last.g2, frame.sync, mute),
    }
}

/// Last set and G2 after a frame: an erased one leaves them.
pub fn last_after(last: &Last, frame: &FrameReading) -> Last {
    match frame.content {
        Content::Erased => *last,
        Content::Accepted { set, .. } => Last { set, g2: set.g2 },
    }
}

/// The latest 16 kinds after a frame.
pub fn repeats_after(repeats: &[bool; 16], frame: &FrameReading) -> [bool; 16] {
    push_kind(repeats, frame.content == Content::Erased)
}

/// Take a frame as read into a record: refuse 4, else the result and the next record.
pub fn take(record: &Record, frame: &FrameReading) -> Result<(FrameResult, Record), Refusal> {
    if !record_is_valid(record) {
        return Err(Refusal::Record);
    }
    let repeats = repeats_after(&record.repeats, frame);
    let next = Record {
        last: last_after(&record.last, frame),
        repeats,
        repeat_count: count_repeats(&repeats),
    };
    let result = result_of(&record.last, frame, mute_of(next.repeat_count))?;
    Ok((result, next))
}

/// Receive one frame: refuse 2, 10, 3 or 4, else the result and the next record.
pub fn receive(
    record: &Record,
    bytes: &[u8],
    list: &[u8],
) -> Result<(FrameResult, Record), Refusal> {
    take(record, &read(bytes, list)?)
}

// ---- Records of the old kind (document 02's T-06) ----

/// Whether number 4 does not refuse a record of the old kind.
pub fn old_record_is_valid(old: &OldRecord) -> bool {
    last_in_range(&old.last)
}

/// Take a record over: the refusal 4, if any, and the record with its true count. Beside a refusal it is made in the same way,
/// so every later call refuses it too.
pub fn take_over(old: &OldRecord) -> (Option<Refusal>, Record) {
    let refusal = (!old_record_is_valid(old)).then_some(Refusal::Record);
    let record = Record {
        last: old.last,
        repeats: old.repeats,
        repeat_count: count_repeats(&old.repeats),
    };
    (refusal, record)
}
