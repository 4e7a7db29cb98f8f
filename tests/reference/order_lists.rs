//! Lists of logical numbers as calls get them (document 02's T-07): orders, and lists that are none.

use crate::layout::{put, Vector};
use crate::melp::{self, Order, FIELDS};
use crate::random::Random;

// ---- A list in a vector ----

/// Where a vector has the number of entries; they follow it.
const AT: usize = 180;

/// Most entries that a vector has.
pub const MOST: usize = 60;

/// A list as a vector has it, and the order in which the frame beside it is made: mostly the list's own, or what it was
/// before it was spoilt.
#[derive(Clone, Copy)]
pub struct List {
    entries: [u8; MOST],
    count: usize,
    pub order: Order,
}

impl List {
    /// The list of an order. The entries past it are the next numbers, so that they can be taken for more of the same.
    pub fn of(order: Order) -> List {
        let mut entries = std::array::from_fn(|t| t as u8);
        entries[..54].copy_from_slice(&order);
        List {
            entries,
            count: 54,
            order,
        }
    }

    /// With other entries at some places.
    fn with(mut self, others: &[(usize, u8)]) -> List {
        for (place, entry) in others {
            self.entries[*place] = *entry;
        }
        self
    }

    /// With another number of entries.
    pub fn sized(self, count: usize) -> List {
        List { count, ..self }
    }

    /// Beside a frame made in another order.
    pub fn beside(self, order: Order) -> List {
        List { order, ..self }
    }

    /// The entries that the call gets.
    pub fn given(&self) -> &[u8] {
        &self.entries[..self.count]
    }

    /// Put it into a vector, the number of entries first.
    pub fn put(&self, vector: &mut Vector) {
        vector[AT] = self.count as u8;
        put(vector, AT + 1, &self.entries);
    }
}

// ---- Orders ----

/// The logical bits in their own order.
pub fn identity() -> Order {
    std::array::from_fn(|t| t as u8)
}

/// An order from its last entry to its first.
fn reversed(mut order: Order) -> Order {
    order.reverse();
    order
}

/// The list of the places: entry j is the place of logical bit j.
pub fn inverse(order: &Order) -> Order {
    std::array::from_fn(|j| melp::place_of(j, order) as u8)
}

/// An order with two entries exchanged.
pub fn exchanged(mut order: Order, first: usize, second: usize) -> Order {
    order.swap(first, second);
    order
}

/// A block of six rows and nine columns, filled row by row and sent column by column: `samples/orders/contractor.txt`.
pub fn block() -> Order {
    std::array::from_fn(|t| (9 * (t % 6) + t / 6) as u8)
}

/// All logical bits in random order.
pub fn permutation(random: &mut Random) -> Order {
    let bits = random.some_of(&(0..54).collect::<Vec<usize>>(), 54);
    std::array::from_fn(|t| bits[t] as u8)
}

/// Logical bit j at place m × j + c modulo 54, where m has no divisor in common with 54.
fn multiples(random: &mut Random) -> Order {
    let factor = random.pick(&[1, 5, 7, 11, 13, 17, 19, 23, 25, 29, 31, 35, 37, 41, 43, 47]);
    let first = random.below(54) as usize;
    let mut order = [0; 54];
    for j in 0..54 {
        order[(factor * j + first) % 54] = j as u8;
    }
    order
}

/// The default order with the bits of each word, of the pitch code and of the rest among themselves at random, which leaves
/// its burst width; often with some neighbours exchanged, which mostly does not.
fn shuffled(random: &mut Random) -> Order {
    let mut others = identity();
    for (first, last) in [&FIELDS[..], &[(35, 53)]].concat() {
        let field: Vec<usize> = (first..=last).collect();
        let mixed = random.some_of(&field, field.len());
        field
            .iter()
            .for_each(|j| others[*j] = mixed[*j - first] as u8);
    }
    let mut order = melp::default_order().map(|j| others[usize::from(j)]);
    for _ in 0..random.pick(&[0, 0, 1, 1, 2, 4, 8]) {
        let place = random.below(53) as usize;
        order.swap(place, place + 1);
    }
    order
}

/// An order: half of them are permutations, and every fifth is the default one.
fn random_order(random: &mut Random) -> Order {
    let default = melp::default_order();
    let [first, second] = [0, 0].map(|_: usize| random.below(54) as usize);
    match random.below(20) {
        0..=9 => permutation(random),
        10..=13 => default,
        14 => exchanged(default, first, second),
        15 => random.pick(&[reversed(default), reversed(identity()), inverse(&default)]),
        16 => random.pick(&[identity(), block()]),
        17 => multiples(random),
        _ => shuffled(random),
    }
}

// ---- Lists that are none ----

/// Numbers of entries that no order has.
const SIZES: [usize; 7] = [0, 1, 53, 53, 55, 55, MOST];

/// Numbers past 53: just past it, around 64, one that has 54 in its lower bits, and the highest.
const PAST: [u8; 5] = [54, 63, 64, 118, 255];

/// Four different places at random.
fn four_places(random: &mut Random) -> [usize; 4] {
    let places = random.some_of(&(0..54).collect::<Vec<usize>>(), 4);
    std::array::from_fn(|i| places[i])
}

/// A list that is none: an order with another number of entries, with a number twice, with one past 53, or with several of
/// these at once.
fn spoilt(random: &mut Random, order: Order) -> List {
    let [a, b, c, d] = four_places(random);
    let list = List::of(order);
    let twice = list.with(&[(a, order[b])]);
    let above = random.pick(&[64, 128, 192]);
    match random.below(12) {
        0..=2 => list.sized(random.pick(&SIZES)),
        3 | 4 => twice,
        5 | 6 => list.with(&[(a, random.pick(&PAST))]),
        7 => list.with(&[(a, order[a] + above)]),
        8 => list.with(&[(a, random.outside(53))]),
        9 => twice.with(&[(c, random.pick(&PAST)), (d, random.outside(53))]),
        10 => twice.with(&[(c, order[d])]),
        _ => twice.sized(random.pick(&SIZES)),
    }
}

/// A list: an order, or once in eight times one that is none. The entries past it are sometimes 0 or at random.
pub fn random_list(random: &mut Random) -> List {
    let order = random_order(random);
    let mut list = if random.once_in(8) {
        spoilt(random, order)
    } else {
        List::of(order)
    };
    match random.below(4) {
        0 => list.entries[list.count..].fill(0),
        1 => list.entries[list.count..].fill_with(|| random.inside(255)),
        _ => (),
    }
    list
}

// ---- All conditions in turn ----

/// Orders: the default one; with its first two entries exchanged, its last two, and the first and the last; reversed; the list
/// of its places; the bits in their own order, and reversed; a block; and a permutation.
pub fn orders() -> [List; 10] {
    let default = melp::default_order();
    [
        default,
        exchanged(default, 0, 1),
        exchanged(default, 52, 53),
        exchanged(default, 0, 53),
        reversed(default),
        inverse(&default),
        identity(),
        reversed(identity()),
        block(),
        permutation(&mut Random::new(7)),
    ]
    .map(List::of)
}

/// The default order with the first bit of a field moved near its last one: it changes places with the nearest bit there that
/// is in no field.
fn crowded((first, last): (usize, usize)) -> Order {
    let default = melp::default_order();
    let place = |j: usize| melp::place_of(j, &default);
    let nearest = (35..54)
        .min_by_key(|j| place(*j).abs_diff(place(last)))
        .expect("bits in no field");
    exchanged(default, place(first), place(nearest))
}

/// Orders of all burst widths: the default one with its first entry 1 to 6 places later; with entry 7 at 3 and at 5, and entry
/// 46 at 47 and at 52, so that a word is hit twice at the very start or end alone; and with each field crowded in turn.
pub fn orders_of_all_widths() -> Vec<List> {
    let default = melp::default_order();
    let later = (1..=6).map(|place| (0, place));
    let at_ends = [(7, 3), (7, 5), (46, 47), (46, 52)];
    later
        .chain(at_ends)
        .map(|(first, second)| exchanged(default, first, second))
        .chain(FIELDS.map(crowded))
        .map(List::of)
        .collect()
}

/// Lists that are none. First of another number of entries, each number once where they suffice, and what is missing just past
/// the end. Then with a number twice: at the first place, the last, both, and in a permutation; two numbers twice, so that the
/// sum stays; all 0. Then with a number past 53, at the first place, the last and others; with 64 added to an entry, and to
/// all; the numbers 1 to 54; two entries the same and two past 53; and two things at once.
pub fn no_orders() -> Vec<List> {
    let default = List::of(melp::default_order());
    let permuted = List::of(permutation(&mut Random::new(8)));
    let own = List::of(identity());
    let entry = |t: usize| default.order[t];
    let mut lists: Vec<List> = [53, 55, 0, MOST].map(|count| default.sized(count)).to_vec();
    lists.push(permuted.sized(53));
    lists.extend([
        default.with(&[(0, entry(53))]),
        default.with(&[(53, entry(0))]),
        default.with(&[(0, entry(1)), (53, entry(52))]),
        permuted.with(&[(20, permuted.order[33])]),
        own.with(&[(3, 4), (6, 5)]),
        List {
            entries: [0; MOST],
            ..default
        },
    ]);
    let places = [0, 53, 31, 17, 44];
    lists.extend((0..5).map(|i| default.with(&[(places[i], PAST[i])])));
    let raised = |t: usize| (t, entry(t) + 64);
    lists.extend([
        own.with(&[(53, 54)]),
        default.with(&[raised(23)]),
        default.with(&(0..54).map(raised).collect::<Vec<(usize, u8)>>()),
        own.with(
            &(0..54)
                .map(|t| (t, t as u8 + 1))
                .collect::<Vec<(usize, u8)>>(),
        ),
        default.with(&[(5, entry(6)), (7, 54), (8, 255)]),
        default.with(&[(5, entry(6))]).sized(55),
        own.with(&[(5, 60)]).sized(53),
    ]);
    lists
}
