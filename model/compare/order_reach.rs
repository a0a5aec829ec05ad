//! Every valid program of a few records: those that swaps lead between get one house order.

use crate::draft::*;
use crate::fail;
use crate::machine::*;
use crate::order_calls::{OrderCall, Orderer};
use crate::order_coverage::Event;
use crate::rewrite::Order;
use crate::swap_groups::middle_place;
use crate::swaps::{any_actor, bring, placed};
use std::collections::{HashMap, HashSet};

/// Records that come one after another in all programs behind a start, up to so many of them.
struct Alphabet {
    limit: u8,
    start: Vec<u8>,
    letters: Vec<Vec<u8>>,
    most: usize,
}

type Bytes<'a> = &'a [&'a [u8]];

fn alphabet(limit: u8, start: Bytes, letters: Bytes, most: usize) -> Alphabet {
    Alphabet {
        limit,
        start: start.concat(),
        letters: letters.iter().map(|letter| letter.to_vec()).collect(),
        most,
    }
}

pub fn compare(orderer: &mut Orderer, random: &mut Random) {
    for alphabet in alphabets() {
        reach(orderer, &alphabet);
    }
    for _ in 0..RANDOM_ALPHABETS {
        if let Some(alphabet) = random_alphabet(random) {
            reach(orderer, &alphabet);
        }
    }
}

// Alphabets.

/// Drops and xfers at equal, neighbouring and far needles, and with racks among them.
fn needle_alphabets() -> [Alphabet; 2] {
    let drop = |bed, needle| [DROP, bed, needle];
    let apart = [
        &drop(0, 10)[..],
        &drop(1, 10),
        &drop(0, 200),
        &[XFER, 0, 10, 10],
        &[XFER, 1, 10, 10],
        &[XFER, 0, 11, 11],
        &[XFER, 1, 130, 130],
    ];
    let racked = [
        &[RACK, 0][..],
        &[RACK, 2],
        &drop(0, 12),
        &drop(1, 10),
        &drop(1, 12),
        &[XFER, 0, 12, 10],
        &[XFER, 0, 12, 12],
    ];
    [
        alphabet(8, &[], &apart, 5),
        alphabet(1, &[&[RACK, 2]], &racked, 5),
    ]
}

/// Carriers on both beds of one column, and on columns side by side.
fn stitch_alphabets() -> [Alphabet; 3] {
    let enter = |needle, carrier| [IN, 1, 0, needle, carrier];
    let rack: &[u8] = &[RACK, 0];
    let column = [
        &[TUCK, 1, 0, 10, 2][..],
        &[TUCK, 0, 0, 10, 2],
        &[KNIT, 1, 1, 10, 5],
        &[KNIT, 0, 1, 10, 5],
        &[TUCK, 1, 1, 10, 9],
        &[MISS, 0, 0, 10, 9],
        &[DROP, 0, 10],
        &[DROP, 1, 10],
    ];
    let chain = [
        &[TUCK, 1, 0, 10, 1][..],
        &[KNIT, 1, 0, 11, 2],
        &[TUCK, 1, 0, 12, 3],
        &[DROP, 0, 10],
        &[DROP, 0, 12],
        &[XFER, 0, 11, 11],
    ];
    let turns = [
        &[IN, 1, 0, 10, 3][..],
        &[OUT, 0, 0, 10, 3],
        &[IN, 1, 0, 50, 3],
        &[OUT, 0, 0, 50, 3],
        &[IN, 1, 0, 200, 4],
        &[OUT, 0, 0, 200, 4],
        &[DROP, 0, 50],
    ];
    [
        alphabet(
            2,
            &[&enter(10, 2), &enter(10, 5), &enter(10, 9), rack],
            &column,
            6,
        ),
        alphabet(
            8,
            &[&enter(10, 1), &enter(11, 2), &enter(12, 3), rack],
            &chain,
            6,
        ),
        alphabet(8, &[], &turns, 7),
    ]
}

/// Plated stitches between single ones, and splits at a racking with columns below 0.
fn plated_alphabets() -> [Alphabet; 2] {
    let enter = |carrier| [IN, 1, 0, 10, carrier];
    let plated = [
        &[PLATED_TUCK, 1, 0, 10, 2, 5][..],
        &[PLATED_KNIT, 0, 0, 10, 5, 2],
        &[KNIT, 1, 1, 10, 6],
        &[KNIT, 0, 1, 10, 6],
        &[TUCK, 1, 1, 10, 4],
        &[MISS, 1, 0, 11, 5],
        &[MISS, 0, 0, 11, 5],
        &[DROP, 0, 10],
    ];
    let rack: &[u8] = &[RACK, -3i8 as u8];
    let split = [
        &[SPLIT, 1, 0, 2, 7, 5][..],
        &[SPLIT, 0, 0, 2, 7, 5],
        &[KNIT, 1, 1, 4, 8],
        &[KNIT, 0, 1, 4, 8],
        &[XFER, 1, 6, 3],
        &[DROP, 0, 3],
        &[DROP, 1, 1],
    ];
    [
        alphabet(
            8,
            &[&enter(2), &enter(4), &enter(5), &enter(6), &[RACK, 0]],
            &plated,
            5,
        ),
        alphabet(
            8,
            &[rack, &[IN, 1, 0, 2, 7], &[IN, 1, 1, 4, 8], rack],
            &split,
            5,
        ),
    ]
}

fn alphabets() -> Vec<Alphabet> {
    let mut alphabets = Vec::from(needle_alphabets());
    alphabets.extend(stitch_alphabets());
    alphabets.extend(plated_alphabets());
    alphabets
}

const RANDOM_ALPHABETS: usize = 400;

/// Five records of any kinds about a column; their carriers come in before a rack.
fn random_alphabet(random: &mut Random) -> Option<Alphabet> {
    let (racking, column) = middle_place(random);
    let mut draft = Draft::new(HOOK_LIMIT);
    draft.add(&Record::Rack(racking))?;
    let mut letters = Vec::new();
    for _ in 0..5 {
        let (actor, direction) = (any_actor(random), random.direction());
        let column = column + random.between(-1, 1);
        let record = placed(&draft.state, actor, column, direction)?;
        for m in record.carrier_moves() {
            if draft.state.carriers[m.carrier].is_none() {
                bring(&mut draft, &record, m)?;
            }
        }
        letters.push(bytes_of(&record));
    }
    letters.sort();
    letters.dedup();
    draft.add(&Record::Rack(racking))?;
    Some(Alphabet {
        limit: HOOK_LIMIT,
        start: draft.bytes,
        letters,
        most: 4,
    })
}

// What swaps reach.

/// The letters of a program in their order.
type Word = Vec<usize>;

impl Alphabet {
    fn program(&self, word: &Word) -> Vec<u8> {
        let letters = word.iter().flat_map(|&letter| &self.letters[letter]);
        self.start.iter().chain(letters).copied().collect()
    }

    /// The word of a program that has the start's length before it.
    fn word(&self, program: &[u8]) -> Option<Word> {
        let order = Order::of(&program[self.start.len()..]);
        let letter = |bytes: &[u8]| self.letters.iter().position(|own| own == bytes);
        order.parts.iter().map(|part| letter(part.bytes)).collect()
    }

    /// The words with one letter more that are valid too.
    fn longer(&self, words: &[Word]) -> Vec<Word> {
        let mut longer = Vec::new();
        for word in words {
            for letter in 0..self.letters.len() {
                let next: Word = word.iter().copied().chain([letter]).collect();
                if run_at(self.limit, &self.program(&next)).number == DONE {
                    longer.push(next);
                }
            }
        }
        longer
    }

    /// The words that one accepted swap makes of a word.
    fn swapped(&self, word: &Word) -> Vec<Word> {
        let program = self.program(word);
        let order = Order::of(&program);
        let first = order.parts.len() - word.len();
        let swaps = (1..word.len()).filter(|&at| !order.tied(first + at - 1));
        swaps
            .map(|at| {
                let mut swapped = word.clone();
                swapped.swap(at - 1, at);
                swapped
            })
            .collect()
    }

    /// All words that accepted swaps lead to.
    fn reached(&self, word: &Word) -> HashSet<Word> {
        let mut reached = HashSet::from([word.clone()]);
        let mut fresh = vec![word.clone()];
        while let Some(word) = fresh.pop() {
            for swapped in self.swapped(&word) {
                if reached.insert(swapped.clone()) {
                    fresh.push(swapped);
                }
            }
        }
        reached
    }
}

/// Orders every valid program of the alphabet.
fn reach(orderer: &mut Orderer, alphabet: &Alphabet) {
    let mut words = vec![Word::new()];
    for _ in 0..alphabet.most {
        words = alphabet.longer(&words);
        order_words(orderer, alphabet, &words);
    }
}

/// Orders all valid words of a length. Each gets the one house order of those that swaps lead to,
/// which is one of them: so ordering it again changes nothing, and words that no swaps lead between
/// have two. It is the least of them, byte by byte, since no record begins another.
fn order_words(orderer: &mut Orderer, alphabet: &Alphabet, words: &[Word]) {
    let mut left: HashSet<&Word> = words.iter().collect();
    let mut classes: HashMap<Word, usize> = HashMap::new();
    for word in words {
        if !left.contains(word) {
            continue;
        }
        let reached = alphabet.reached(word);
        let house = house_word(orderer, alphabet, word);
        let least = reached.iter().min_by_key(|other| alphabet.program(other));
        if least != Some(&house) {
            fail("a house order is not the least program that swaps lead to");
        }
        for other in &reached {
            if !left.remove(other) {
                fail("swaps lead to a program that is not valid, or not back from it");
            }
            if other != word && house_word(orderer, alphabet, other) != house {
                fail("swaps lead between programs with two house orders");
            }
        }
        let coverage = &mut orderer.coverage;
        coverage.note(Event::ReachedSeveral, reached.len() > 1);
        let mut records = word.clone();
        records.sort();
        let classes = classes.entry(records).or_insert(0);
        *classes += 1;
        coverage.note(Event::ReachedApart, *classes == 2);
    }
}

fn house_word(orderer: &mut Orderer, alphabet: &Alphabet, word: &Word) -> Word {
    let program = alphabet.program(word);
    let call = OrderCall {
        limit: alphabet.limit,
        program: &program,
        output: program.len(),
        work: program.len() / 2,
    };
    let ordered = orderer.call(&call, "every program of an alphabet");
    let house = ordered.and_then(|output| alphabet.word(&output));
    house.unwrap_or_else(|| fail("a house order has other records than its program"))
}
