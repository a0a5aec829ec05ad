//! One call of any C entry: what it is lent, and what it must answer and leave by the rules.

use rules::calls::*;
use rules::lent::*;
use rules::rules::Rules;
use rules::state::*;

#[derive(Clone, Copy, PartialEq, Eq, Debug)]
pub enum Entry {
    RunAt,
    Run,
    RewriteAt,
    Rewrite,
    OrderAt,
    Order,
    Tie,
    Step,
    Carriers,
}
use Entry::*;

pub const ENTRIES: [Entry; 9] = [RunAt, Run, RewriteAt, Rewrite, OrderAt, Order, Tie, Step, Carriers];

impl Entry {
    /// Its name in the C header, behind the prefix.
    pub fn name(self) -> &'static str {
        ["run_at", "run", "rewrite_at", "rewrite", "order_at", "order", "tie", "step", "carriers"][self as usize]
    }

    /// The loans that it may write to, by their places.
    pub fn writable(self) -> &'static [usize] {
        match self {
            RewriteAt | Rewrite => &[2, 3],
            OrderAt | Order => &[1, 2],
            Step => &[0],
            Carriers => &[1],
            RunAt | Run | Tie => &[],
        }
    }
}

/// Lent memory: its contents, the bytes of an entry, and how many entries more are claimed, and there, behind the contents.
#[derive(Clone, Debug)]
pub struct Loan {
    pub bytes: Vec<u8>,
    pub unit: usize,
    pub beyond: usize,
}

impl Loan {
    pub fn bytes(bytes: &[u8]) -> Loan {
        Loan { bytes: bytes.to_vec(), unit: 1, beyond: 0 }
    }

    pub fn of(unit: usize, bytes: Vec<u8>) -> Loan {
        Loan { bytes, unit, beyond: 0 }
    }

    pub fn length(&self) -> usize {
        self.bytes.len() / self.unit + self.beyond
    }

    /// Claims 2^32 entries or a few more; zeros follow the contents.
    pub fn widen(&mut self, more: usize) {
        self.bytes.extend([0; 8]);
        self.beyond = (1 << 32) + more - self.bytes.len() / self.unit;
    }
}

/// The loans in the order of the C entry's pointers. `inside`: the second loan's bytes are those of the first from there on.
#[derive(Clone, Debug)]
pub struct Call {
    pub entry: Entry,
    pub limit: u8,
    pub racking: i8,
    pub loans: Vec<Loan>,
    pub inside: Option<usize>,
}

/// What a call answers, field by field, and what the loans that it may write to hold then.
#[derive(Clone, PartialEq, Eq, Debug)]
pub struct Outcome {
    pub number: u8,
    pub fields: [i64; 7],
    pub left: Vec<Vec<u8>>,
}

impl Call {
    pub fn new(entry: Entry, limit: u8, loans: Vec<Loan>) -> Call {
        Call { entry, limit, racking: 0, loans, inside: None }
    }

    /// Whether a call with this number may write to what it is lent for writing.
    pub fn writes(&self, number: u8) -> bool {
        number == DONE || (matches!(self.entry, RewriteAt | Rewrite) && [NO_PAIR, TIED, TORN_LOG].contains(&number))
    }

    /// The bytes and the length of a loan.
    fn lent(&self, at: usize) -> (&[u8], usize) {
        (&self.loans[at].bytes, self.loans[at].length())
    }

    /// The limit at which a program is run.
    fn limit(&self, rules: &Rules) -> u8 {
        match self.entry {
            Run | Rewrite | Order => rules.limit_when_none(),
            _ => self.limit,
        }
    }

    pub fn expect(&self, rules: &Rules) -> Outcome {
        match self.entry {
            RunAt | Run => {
                let (program, length) = self.lent(0);
                word(rules, run_at(rules, self.limit(rules), program, length), vec![])
            }
            RewriteAt | Rewrite => self.expect_written(rules, 2, |bench| {
                rewrite_at(rules, self.limit(rules), self.lent(0), self.lent(1), bench)
            }),
            OrderAt | Order => {
                self.expect_written(rules, 1, |bench| order_at(rules, self.limit(rules), self.lent(0), bench))
            }
            Tie => tie_told(tie(rules, self.racking, self.lent(0).0, self.lent(1).0)),
            Step => self.expect_step(rules),
            Carriers => self.expect_list(rules),
        }
    }

    /// Output and work are the loan at a place and the one behind it.
    fn expect_written(&self, rules: &Rules, at: usize, call: impl FnOnce(&mut Bench) -> Answer) -> Outcome {
        let mut output = self.loans[at].bytes.clone();
        let pairs = self.loans[at + 1].bytes.chunks_exact(2);
        let mut work: Vec<u16> = pairs.map(|b| u16::from_le_bytes([b[0], b[1]])).collect();
        let (output_length, work_count) = (self.loans[at].length(), self.loans[at + 1].length());
        let answer = call(&mut Bench { output: &mut output, work: &mut work, output_length, work_count });
        word(rules, answer, vec![output, work.iter().flat_map(|entry| entry.to_le_bytes()).collect()])
    }

    fn expect_step(&self, rules: &Rules) -> Outcome {
        let mut state = LentState::from_bytes(&self.loans[0].bytes);
        let (bytes, length) = self.lent(1);
        let told = step(rules, &mut state, bytes, length);
        let fields = [told.number.into(), told.complete.into(), told.looked as i64, told.length as i64, 0, 0, 0];
        Outcome { number: told.number, fields, left: vec![state.bytes()] }
    }

    fn expect_list(&self, rules: &Rules) -> Outcome {
        let state = LentState::from_bytes(&self.loans[0].bytes);
        let entries = self.loans[1].bytes.chunks_exact(CARRIER_BYTES);
        let mut list: Vec<LentCarrier> = entries.map(LentCarrier::from_bytes).collect();
        let (number, length) = carriers(rules, &state, &mut list, self.loans[1].length());
        let left = list.iter().flat_map(LentCarrier::bytes).collect();
        Outcome { number, fields: [number.into(), length as i64, 0, 0, 0, 0, 0], left: vec![left] }
    }
}

fn word(rules: &Rules, answer: Answer, left: Vec<Vec<u8>>) -> Outcome {
    let word = rules.word(answer.number, answer.place) as i64;
    Outcome { number: answer.number, fields: [word, 0, 0, 0, 0, 0, 0], left }
}

fn tie_told(tie: rules::state::Tie) -> Outcome {
    let (halves, layers) = (tie.halves, tie.layers);
    let wide = |value: i32| i64::from(value);
    let carrier = tie.carrier as i64;
    let fields = [wide(halves.0), wide(halves.1), tie.number.into(), tie.by.into(), carrier, wide(layers.0), wide(layers.1)];
    Outcome { number: tie.number, fields, left: vec![] }
}
