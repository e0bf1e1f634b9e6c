// Random books, as the bytes that a program reads: sound ones of all sizes, ones at every limit, and damaged ones.
use crate::solver::{Kind, Pair, Record, PAYLOAD, QUESTION_LIMIT, RECORD_LIMIT, WORD_LIMIT};
use std::collections::HashMap;

// A small generator of random numbers (splitmix64), so that a seed gives the same books everywhere.
pub struct Rng(u64);

impl Rng {
    pub fn new(seed: u64) -> Rng {
        Rng(seed)
    }

    pub fn next(&mut self) -> u64 {
        self.0 = self.0.wrapping_add(0x9e37_79b9_7f4a_7c15);
        let mut z = self.0;
        z = (z ^ (z >> 30)).wrapping_mul(0xbf58_476d_1ce4_e5b9);
        z = (z ^ (z >> 27)).wrapping_mul(0x94d0_49bb_1331_11eb);
        z ^ (z >> 31)
    }

    // A number below n.
    pub fn below(&mut self, n: usize) -> usize {
        (self.next() % n as u64) as usize
    }

    // A number from lo to hi, both included.
    fn within(&mut self, lo: u32, hi: u32) -> u32 {
        lo + self.below((hi - lo) as usize + 1) as u32
    }

    fn percent(&mut self, n: usize) -> bool {
        self.below(100) < n
    }

    fn pick<T: Copy>(&mut self, from: &[T]) -> T {
        from[self.below(from.len())]
    }

    fn shuffle<T>(&mut self, items: &mut [T]) {
        for i in (1..items.len()).rev() {
            items.swap(i, self.below(i + 1));
        }
    }
}

// A book in the making. It knows the facts that are alive, so that withdrawals can be sound.
struct Draft {
    records: Vec<Record>,
    alive: Vec<Pair>,
    questions: usize,
}

impl Draft {
    fn new() -> Draft {
        Draft {
            records: Vec::new(),
            alive: Vec::new(),
            questions: 0,
        }
    }

    fn fact(&mut self, pair: Pair) {
        self.alive.push(pair);
        self.records.push(Record::Fact(pair));
    }

    fn withdraw(&mut self, pair: Pair) {
        let i = self.alive.iter().position(|p| *p == pair).expect("alive");
        self.alive.remove(i);
        self.records.push(Record::Withdrawal(pair));
    }

    fn ask(&mut self, pair: Pair) {
        self.questions += 1;
        self.records.push(Record::Question(pair));
    }

    fn bytes(&self) -> Vec<u8> {
        bytes_of(&words_of(&self.records))
    }
}

fn words_of(records: &[Record]) -> Vec<u32> {
    let two = |kind: u32, (first, second): Pair| [kind << 29 | first, 4 << 29 | second];
    records
        .iter()
        .flat_map(|r| match *r {
            Record::Fact(pair) => two(1, pair),
            Record::Withdrawal(pair) => two(2, pair),
            Record::Question(pair) => two(3, pair),
        })
        .collect()
}

fn bytes_of(words: &[u32]) -> Vec<u8> {
    words.iter().flat_map(|w| w.to_le_bytes()).collect()
}

// What the facts and questions of one book are drawn from. A small pool makes equal facts, and so double wins, frequent.
struct Taste {
    kind: Kind,
    pool: Vec<Pair>,
}

impl Taste {
    fn new(rng: &mut Rng, kind: Kind) -> Taste {
        let size = rng.pick(&[1, 2, 4, 8, 30, 300]);
        let style = rng.below(4);
        let mut pool: Vec<Pair> = Vec::new();
        for _ in 0..size {
            let pair = match kind {
                Kind::Prizes => prize(rng, style),
                Kind::Masks => mask(rng, style, &pool),
                Kind::Bands => band_fact(rng, style),
            };
            pool.push(pair);
        }
        Taste { kind, pool }
    }

    fn fact(&self, rng: &mut Rng) -> Pair {
        rng.pick(&self.pool)
    }

    fn question(&self, rng: &mut Rng, alive: &[Pair]) -> Pair {
        match self.kind {
            Kind::Prizes => (payout(rng, alive), 0),
            Kind::Masks => mask_question(rng, alive),
            Kind::Bands => band_question(rng, alive),
        }
    }
}

fn prize(rng: &mut Rng, style: usize) -> Pair {
    match style {
        0 => (
            rng.pick(&[1, 2, 5, 10, 20, 50, 100, 200, 500]),
            rng.within(1, 4),
        ),
        1 => (rng.within(1, 30), rng.within(1, 3)),
        2 => (
            rng.pick(&[1, 2, 3, 333, 499, 500, 501, 998, 999, 1000]),
            rng.pick(&[1, 2, 3, 250, 999, 1000]),
        ),
        _ => (rng.within(1, 1000), rng.within(1, 1000)),
    }
}

// Mostly a sum of some prizes that are alive, at times one more.
fn payout(rng: &mut Rng, alive: &[Pair]) -> u32 {
    if alive.is_empty() || rng.percent(20) {
        return rng
            .pick(&[0, 1, 999, 1000, 500, 37])
            .min(rng.within(0, 1000));
    }
    if rng.percent(5) {
        return rng.pick(&[0, 1000]);
    }
    let mut sum = 0;
    for _ in 0..rng.within(1, 6) {
        let (amount, copies) = rng.pick(alive);
        let more = amount * rng.within(1, copies.min(1 + 1000 / amount));
        if sum + more <= 1000 {
            sum += more;
        }
    }
    if rng.percent(15) {
        (sum + 1).min(1000)
    } else {
        sum
    }
}

// Masks with few bits, whole masks, and xors of earlier ones, so that many depend on others; 0 and the limits too.
fn mask(rng: &mut Rng, style: usize, earlier: &[Pair]) -> Pair {
    if rng.percent(4) {
        return rng.pick(&[
            (0, 0),
            (PAYLOAD, PAYLOAD),
            (PAYLOAD, 0),
            (0, PAYLOAD),
            (1 << 28, 0),
            (0, 1 << 28),
            (1, 0),
            (0, 1),
        ]);
    }
    if !earlier.is_empty() && rng.percent(30) {
        return xor_of_some(rng, earlier);
    }
    match style {
        0 => (0, rng.within(0, 31)),
        1 => (1 << rng.below(29), 1 << rng.below(29)),
        2 => (rng.within(0, 15), rng.within(0, 15) << 25),
        _ => (rng.within(0, PAYLOAD), rng.within(0, PAYLOAD)),
    }
}

fn xor_of_some(rng: &mut Rng, from: &[Pair]) -> Pair {
    let mut sum = (0, 0);
    for _ in 0..rng.within(0, 6) {
        let (a, b) = rng.pick(from);
        sum = (sum.0 ^ a, sum.1 ^ b);
    }
    sum
}

fn mask_question(rng: &mut Rng, alive: &[Pair]) -> Pair {
    if alive.is_empty() || rng.percent(10) {
        let any = (rng.within(0, PAYLOAD), 1);
        return rng.pick(&[(0, 0), (PAYLOAD, PAYLOAD), any, (0, 1)]);
    }
    let (a, b) = xor_of_some(rng, alive);
    // one bit off is mostly no selection
    if rng.percent(40) {
        (a, b ^ 1 << rng.below(29))
    } else {
        (a, b)
    }
}

fn band_fact(rng: &mut Rng, style: usize) -> Pair {
    let mirror = 1024 * rng.below(2) as u32;
    match style {
        0 => (rng.within(0, 7), rng.within(0, 7) + mirror),
        1 => (rng.within(1016, 1023), rng.within(1016, 1023) + mirror),
        2 => {
            let band = rng.within(0, 40);
            // a band with itself, or with its neighbour
            (band, band + rng.below(2) as u32 + mirror)
        }
        _ => (rng.within(0, 1023), rng.within(0, 1023) + mirror),
    }
}

fn band_question(rng: &mut Rng, alive: &[Pair]) -> Pair {
    let any = |rng: &mut Rng| {
        if alive.is_empty() || rng.percent(15) {
            return rng.within(0, 1023);
        }
        let (a, b) = rng.pick(alive);
        if rng.percent(50) {
            a
        } else {
            b % 1024
        }
    };
    (any(rng), any(rng))
}

// A sound book of so many records at most, with so many questions at most, and never more facts alive than `room`.
fn sound(rng: &mut Rng, taste: &Taste, records: usize, questions: usize, room: usize) -> Draft {
    let mut draft = Draft::new();
    let asks = rng.pick(&[10, 25, 40, 70]);
    let ends = rng.pick(&[0, 20, 45, 60]);
    while draft.records.len() < records {
        if rng.percent(asks) && draft.questions < questions {
            let question = taste.question(rng, &draft.alive);
            draft.ask(question);
        } else if !draft.alive.is_empty() && (rng.percent(ends) || draft.alive.len() >= room) {
            let i = rng.below(draft.alive.len());
            let ended = draft.alive[i];
            draft.withdraw(ended);
        } else if draft.alive.len() < room {
            let fact = taste.fact(rng);
            draft.fact(fact);
        }
    }
    draft
}

fn any_sound(rng: &mut Rng, kind: Kind, most: usize) -> Draft {
    let taste = Taste::new(rng, kind);
    let records = rng.below(most + 1);
    let room = if kind == Kind::Prizes && rng.percent(90) {
        kind.capacity()
    } else {
        usize::MAX
    };
    sound(rng, &taste, records, QUESTION_LIMIT, room)
}

// Exactly so many records, of which exactly so many are questions, with at most `room` facts alive.
fn filled(rng: &mut Rng, kind: Kind, records: usize, questions: usize, room: usize) -> Draft {
    let taste = Taste::new(rng, kind);
    let mut turns = vec![true; questions];
    turns.extend(vec![false; records - questions]);
    rng.shuffle(&mut turns);
    let mut draft = Draft::new();
    for asked in turns {
        if asked {
            let question = taste.question(rng, &draft.alive);
            draft.ask(question);
        } else if draft.alive.is_empty() || (draft.alive.len() < room && rng.percent(55)) {
            let fact = taste.fact(rng);
            draft.fact(fact);
        } else {
            let i = rng.below(draft.alive.len());
            let ended = draft.alive[i];
            draft.withdraw(ended);
        }
    }
    draft
}

// A book over 1,024 questions whose spans have exactly so many pieces together, with few facts alive at once: the span from
// 1 to 15 of a block of 16 questions has six pieces, and that of one question has one. All facts differ, so that each is ended
// by its own withdrawal.
fn with_pieces(rng: &mut Rng, total: usize) -> Draft {
    let sixes = total / 6;
    let mut spans: Vec<(usize, usize)> = (0..sixes)
        .map(|i| (i % 64 * 16 + 1, i % 64 * 16 + 15))
        .collect();
    spans.extend((0..total % 6).map(|i| (16 * i, 16 * i + 1)));
    let mut numbers: Vec<u32> = (0..spans.len() as u32).collect();
    rng.shuffle(&mut numbers);
    let facts: Vec<Pair> = numbers
        .iter()
        .map(|n| (1 + n % 1000, 1 + n / 1000))
        .collect();
    let taste = Taste {
        kind: Kind::Prizes,
        pool: facts.clone(),
    };
    let mut draft = Draft::new();
    for q in 0..QUESTION_LIMIT {
        for (span, fact) in spans.iter().zip(&facts) {
            if span.1 == q {
                draft.withdraw(*fact);
            }
        }
        for (span, fact) in spans.iter().zip(&facts) {
            if span.0 == q {
                draft.fact(*fact);
            }
        }
        let question = taste.question(rng, &draft.alive);
        draft.ask(question);
    }
    draft
}

// Some book, and then so many facts alive at one question.
fn with_alive(rng: &mut Rng, kind: Kind, alive: usize) -> Draft {
    let taste = Taste::new(rng, kind);
    let records = rng.below(60);
    let mut draft = sound(rng, &taste, records, 20, kind.capacity());
    while draft.alive.len() < alive {
        let fact = taste.fact(rng);
        draft.fact(fact);
    }
    for _ in 0..3 {
        let question = taste.question(rng, &draft.alive);
        draft.ask(question);
        let ended = draft.alive[0];
        draft.withdraw(ended);
    }
    draft
}

// The pairs at the limits of what a structure admits, and those past them.
struct Limits {
    facts: &'static [Pair],
    questions: &'static [Pair],
    bad: &'static [Record],
}

fn limits(kind: Kind) -> Limits {
    use Record::{Fact, Question};
    match kind {
        Kind::Prizes => Limits {
            facts: &[(1, 1), (1000, 1), (1, 1000), (1000, 1000)],
            questions: &[(0, 0), (1, 0), (999, 0), (1000, 0)],
            bad: &[
                Fact((0, 1)),
                Fact((1, 0)),
                Fact((1001, 1)),
                Fact((1, 1001)),
                Fact((PAYLOAD, 1000)),
                Fact((1000, PAYLOAD)),
                Question((1001, 0)),
                Question((0, 1)),
                Question((PAYLOAD, 0)),
                Question((1000, PAYLOAD)),
            ],
        },
        // masks admit every field that a word can hold
        Kind::Masks => Limits {
            facts: &[
                (0, 0),
                (PAYLOAD, PAYLOAD),
                (PAYLOAD, 0),
                (0, PAYLOAD),
                (1 << 28, 0),
                (0, 1 << 28),
            ],
            questions: &[
                (0, 0),
                (PAYLOAD, PAYLOAD),
                (PAYLOAD, 0),
                (0, PAYLOAD),
                (1 << 28, 1 << 28),
                (1, 1),
            ],
            bad: &[],
        },
        Kind::Bands => Limits {
            facts: &[
                (0, 0),
                (1023, 1023),
                (0, 2047),
                (1023, 1024),
                (1023, 2047),
                (0, 1024),
            ],
            questions: &[(0, 0), (1023, 1023), (0, 1023), (1023, 0)],
            bad: &[
                Fact((1024, 0)),
                Fact((0, 2048)),
                Fact((PAYLOAD, 2047)),
                Fact((1023, PAYLOAD)),
                Question((1024, 0)),
                Question((0, 1024)),
                Question((PAYLOAD, 1023)),
                Question((1023, 2047)),
            ],
        },
    }
}

// Fields at their limits, and if `bad` is given that record among them, which is not admitted.
fn at_field_limits(rng: &mut Rng, kind: Kind, bad: Option<usize>) -> Draft {
    let limits = limits(kind);
    let mut draft = Draft::new();
    let wrong = rng.below(24);
    for n in 0..24 {
        match bad.and_then(|i| limits.bad.get(i)) {
            Some(Record::Fact(pair)) if n == wrong => draft.fact(*pair),
            Some(Record::Question(pair)) if n == wrong => draft.ask(*pair),
            _ if rng.percent(45) => draft.ask(rng.pick(limits.questions)),
            _ if !draft.alive.is_empty() && rng.percent(30) => {
                let ended = rng.pick(&draft.alive);
                draft.withdraw(ended);
            }
            _ => draft.fact(rng.pick(limits.facts)),
        }
    }
    draft
}

// Joins equal groups of bands pairwise up to all 1,024, which gives a union by size its deepest trees, asks, and undoes some of it.
fn joined_bands(rng: &mut Rng) -> Draft {
    let mut bands: Vec<u32> = (0..1024).collect();
    if rng.percent(50) {
        rng.shuffle(&mut bands);
    }
    let any_member = rng.percent(50);
    let mut draft = Draft::new();
    let mut size = 1;
    while size < 1024 {
        for start in (0..1024).step_by(2 * size) {
            let (a, b) = if any_member {
                (
                    bands[start + rng.below(size)],
                    bands[start + size + rng.below(size)],
                )
            } else {
                (bands[start], bands[start + size])
            };
            draft.fact((a, b + 1024 * rng.below(2) as u32));
        }
        for _ in 0..8 {
            let question = (rng.within(0, 1023), rng.within(0, 1023));
            draft.ask(question);
        }
        size *= 2;
    }
    // odd cycles, made and undone
    for _ in 0..40 {
        let (a, b) = (rng.within(0, 1023), rng.within(0, 1023));
        let closing = (a, b + 1024 * rng.below(2) as u32);
        draft.fact(closing);
        draft.ask((b, a));
        draft.ask((a, a));
        draft.withdraw(closing);
        draft.ask((a, b));
    }
    for _ in 0..rng.below(1000) {
        let i = rng.below(draft.alive.len());
        let ended = draft.alive[i];
        draft.withdraw(ended);
        if draft.questions < QUESTION_LIMIT && rng.percent(60) {
            let question = band_question(rng, &draft.alive);
            draft.ask(question);
        }
    }
    draft
}

// A few bands with a cycle that is odd or even by turns, bands joined with themselves, and repeated facts.
fn cycles(rng: &mut Rng) -> Draft {
    let mut draft = Draft::new();
    let long = rng.within(1, 12);
    let base = rng.within(0, 1023 - long);
    for _ in 0..rng.within(1, 6) {
        let first = draft.alive.len();
        for k in 0..long {
            let mirror = 1024 * rng.below(2) as u32;
            draft.fact((base + k, base + (k + 1) % long + mirror));
            if rng.percent(30) {
                draft.ask((base, base + k));
            }
        }
        for _ in 0..3 {
            draft.ask((base + rng.within(0, long), base + rng.within(0, long)));
        }
        while draft.alive.len() > first && rng.percent(80) {
            let ended = draft.alive[draft.alive.len() - 1];
            draft.withdraw(ended);
            draft.ask((base, base + rng.within(0, long)));
        }
    }
    draft
}

// A run that fills the 58 bits of a basis one by one, with questions that need many masks at once.
fn long_basis(rng: &mut Rng) -> Draft {
    let mut bits: Vec<u64> = (0..58).map(|b| 1 << b).collect();
    rng.shuffle(&mut bits);
    let mut draft = Draft::new();
    let mut sum = 0;
    for (n, bit) in bits.iter().enumerate() {
        // each mask has a bit of its own and some of the bits before
        let mask = bit | bits[..n].iter().filter(|_| rng.percent(50)).sum::<u64>();
        sum ^= mask;
        draft.fact(pair_of(mask));
        draft.ask(pair_of(sum));
        draft.ask(pair_of(sum ^ bits[rng.below(58)]));
        if rng.percent(20) {
            let depends = xor_of_some(rng, &draft.alive);
            draft.fact(depends);
        }
    }
    while !draft.alive.is_empty() {
        let i = if rng.percent(50) {
            0
        } else {
            draft.alive.len() - 1
        };
        let ended = draft.alive[i];
        draft.withdraw(ended);
        draft.ask(pair_of(rng.next() >> 6));
        draft.ask(ended);
    }
    draft
}

fn pair_of(mask: u64) -> Pair {
    ((mask >> 29) as u32 & PAYLOAD, mask as u32 & PAYLOAD)
}

// A withdrawal of a fact that is not alive: never entered, or ended once too often.
fn nothing_alive(rng: &mut Rng, kind: Kind) -> Vec<u8> {
    let draft = any_sound(rng, kind, 60);
    let mut counts: HashMap<Pair, usize> = HashMap::new();
    for pair in &draft.alive {
        *counts.entry(*pair).or_insert(0) += 1;
    }
    let mut records = draft.records.clone();
    let pair = if draft.alive.is_empty() || rng.percent(30) {
        (PAYLOAD, rng.within(0, 9))
    } else {
        rng.pick(&draft.alive)
    };
    for _ in 0..counts.get(&pair).copied().unwrap_or(0) + 1 {
        records.push(Record::Withdrawal(pair));
    }
    bytes_of(&words_of(&records))
}

// A sound book with some words changed, dropped, doubled or moved.
fn damaged(rng: &mut Rng, kind: Kind) -> Vec<u8> {
    let most = rng.pick(&[3, 30, 300]);
    let mut words = words_of(&any_sound(rng, kind, most).records);
    words.push(1 << 29 | 5);
    words.push(4 << 29 | 1);
    for _ in 0..rng.within(1, 2) {
        let at = rng.below(words.len());
        match rng.below(7) {
            0 => words[at] = rng.next() as u32,
            1 => words[at] ^= 1 << rng.below(32),
            2 => drop(words.remove(at)),
            3 => words.insert(at, words[at]),
            4 => words[at] = words[at] & PAYLOAD | (rng.below(8) as u32) << 29,
            5 => words.truncate(at + 1),
            _ => {
                let other = rng.below(words.len());
                words.swap(at, other);
            }
        }
        if words.is_empty() {
            break;
        }
    }
    let mut bytes = bytes_of(&words);
    if rng.percent(20) {
        bytes.truncate(rng.below(bytes.len() + 1));
    }
    bytes
}

// A full book and more words behind it, of which only the first two are read.
fn long(rng: &mut Rng, kind: Kind) -> Vec<u8> {
    let mut words = words_of(&filled(rng, kind, RECORD_LIMIT, 600, 32).records);
    match rng.below(4) {
        // the record past the limit is sound, of a wrong kind, or cut
        0 => words.extend([1 << 29 | 1, 4 << 29 | 1]),
        1 => words.extend([4 << 29, 4 << 29]),
        2 => words.extend([1 << 29, 1 << 29]),
        _ => words.push(3 << 29),
    }
    if words.len() == WORD_LIMIT {
        for _ in 0..rng.below(2000) {
            words.push(rng.next() as u32);
        }
    }
    bytes_of(&words)
}

fn with_leftover(rng: &mut Rng, mut bytes: Vec<u8>) -> Vec<u8> {
    for _ in 0..rng.within(1, 3) {
        bytes.push(rng.next() as u8);
    }
    bytes
}

// The number of shapes that `special` knows. The last ten have one record each that is not admitted.
pub const SPECIAL: usize = 32;

// A book at one of the limits, or of another shape that random records hardly make. A shape of one kind alone gives the other
// kinds a plain book.
pub fn special(rng: &mut Rng, kind: Kind, shape: usize) -> Vec<u8> {
    let room = kind.capacity().min(200);
    match shape {
        0 => Vec::new(),
        1 => filled(rng, kind, RECORD_LIMIT, QUESTION_LIMIT, room).bytes(),
        2 => filled(rng, kind, RECORD_LIMIT + 1, 500, room).bytes(),
        3 => filled(rng, kind, 2500, QUESTION_LIMIT + 1, room).bytes(),
        4 => filled(rng, kind, QUESTION_LIMIT, QUESTION_LIMIT, room).bytes(),
        5 => filled(rng, kind, RECORD_LIMIT, 0, RECORD_LIMIT).bytes(),
        6 => filled(rng, kind, RECORD_LIMIT, 300, RECORD_LIMIT).bytes(),
        7 => with_alive(rng, kind, 32).bytes(),
        8 => with_alive(rng, kind, 33).bytes(),
        9 => at_field_limits(rng, kind, None).bytes(),
        10 => {
            // two faults, of which the first counts
            let first = Some(rng.below(8));
            let mut draft = at_field_limits(rng, kind, first);
            draft.records.extend(limits(kind).bad);
            draft.bytes()
        }
        11 => nothing_alive(rng, kind),
        12 => long(rng, kind),
        13 => (0..rng.below(200)).map(|_| rng.next() as u8).collect(),
        14 => {
            let bytes = any_sound(rng, kind, 40).bytes();
            with_leftover(rng, bytes)
        }
        15 => {
            let bytes = filled(rng, kind, RECORD_LIMIT, 700, room).bytes();
            with_leftover(rng, bytes)
        }
        16 if kind == Kind::Prizes => with_pieces(rng, 8192).bytes(),
        17 if kind == Kind::Prizes => with_pieces(rng, 8193).bytes(),
        18 if kind == Kind::Bands => joined_bands(rng).bytes(),
        19 if kind == Kind::Bands => cycles(rng).bytes(),
        20 if kind == Kind::Masks => long_basis(rng).bytes(),
        21 => damaged(rng, kind),
        22.. => at_field_limits(rng, kind, Some(shape - 22)).bytes(),
        _ => any_sound(rng, kind, 400).bytes(),
    }
}

// Book number n of a run: each special shape once, then mostly small books.
pub fn book(rng: &mut Rng, kind: Kind, n: usize) -> Vec<u8> {
    if n < SPECIAL {
        return special(rng, kind, n);
    }
    match rng.below(100) {
        0..=44 => any_sound(rng, kind, 12).bytes(),
        45..=69 => any_sound(rng, kind, 60).bytes(),
        70..=79 => any_sound(rng, kind, 400).bytes(),
        80..=92 => damaged(rng, kind),
        93..=96 => {
            // the quick ones among the special shapes
            let shape = rng.pick(&[
                7, 8, 9, 10, 11, 13, 14, 19, 20, 22, 23, 24, 25, 26, 27, 28, 29, 30, 31,
            ]);
            special(rng, kind, shape)
        }
        97..=98 => {
            let shape = rng.below(SPECIAL);
            special(rng, kind, shape)
        }
        _ => any_sound(rng, kind, RECORD_LIMIT).bytes(),
    }
}

#[cfg(test)]
mod tests {
    use super::*;
    use crate::solver::{report, Refused};

    const KINDS: [Kind; 3] = [Kind::Prizes, Kind::Masks, Kind::Bands];

    fn refusal(kind: Kind, bytes: &[u8]) -> Option<Refused> {
        report(kind, bytes).0.err()
    }

    #[test]
    fn a_seed_gives_the_same_books() {
        for kind in KINDS {
            let run = || {
                let mut rng = Rng::new(7);
                (0..60).map(|n| book(&mut rng, kind, n)).collect::<Vec<_>>()
            };
            assert!(run() == run());
        }
    }

    #[test]
    fn pieces_are_exact() {
        let mut rng = Rng::new(1);
        let full = report(Kind::Prizes, &special(&mut rng, Kind::Prizes, 16))
            .0
            .expect("8,192 pieces have room");
        assert_eq!(full.additions, 8192);
        assert!(full.deepest <= 32);
        let past = refusal(Kind::Prizes, &special(&mut rng, Kind::Prizes, 17));
        assert_eq!(
            past,
            Some(Refused {
                number: 13,
                place: 2
            })
        );
    }

    #[test]
    fn limits_are_met() {
        let mut rng = Rng::new(2);
        for kind in KINDS {
            assert_eq!(refusal(kind, &special(&mut rng, kind, 1)), None);
            assert_eq!(
                refusal(kind, &special(&mut rng, kind, 2)),
                Some(Refused {
                    number: 2,
                    place: 8192
                })
            );
            assert_eq!(
                refusal(kind, &special(&mut rng, kind, 3)).map(|r| r.number),
                Some(4)
            );
            assert_eq!(
                refusal(kind, &special(&mut rng, kind, 11)).map(|r| r.number),
                Some(3)
            );
        }
        let (deep, _) = report(Kind::Prizes, &special(&mut rng, Kind::Prizes, 7));
        assert_eq!(deep.expect("32 alive have room").deepest, 32);
        assert_eq!(
            refusal(Kind::Prizes, &special(&mut rng, Kind::Prizes, 8)).map(|r| r.number),
            Some(14)
        );
        assert_eq!(
            refusal(Kind::Prizes, &special(&mut rng, Kind::Prizes, 10)).map(|r| r.number),
            Some(12)
        );
        assert_eq!(
            refusal(Kind::Bands, &special(&mut rng, Kind::Bands, 10)).map(|r| r.number),
            Some(12)
        );
        assert_eq!(
            refusal(Kind::Masks, &special(&mut rng, Kind::Masks, 10)),
            None
        );
        for shape in 22..32 {
            assert_eq!(
                refusal(Kind::Prizes, &special(&mut rng, Kind::Prizes, shape)).map(|r| r.number),
                Some(12)
            );
        }
        for shape in 22..30 {
            assert_eq!(
                refusal(Kind::Bands, &special(&mut rng, Kind::Bands, shape)).map(|r| r.number),
                Some(12)
            );
        }
    }

    #[test]
    fn deep_bands_and_long_bases_are_sound() {
        let mut rng = Rng::new(3);
        for _ in 0..5 {
            assert_eq!(
                refusal(Kind::Bands, &special(&mut rng, Kind::Bands, 18)),
                None
            );
            assert_eq!(
                refusal(Kind::Bands, &special(&mut rng, Kind::Bands, 19)),
                None
            );
            assert_eq!(
                refusal(Kind::Masks, &special(&mut rng, Kind::Masks, 20)),
                None
            );
        }
    }
}
