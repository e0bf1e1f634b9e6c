// A slow solver for books, written from the rules alone: each question is answered anew from the facts that are alive at it,
// with no tree and no undoing. It says what `spinbook` has to print for the bytes of a book.
use std::collections::{HashMap, VecDeque};

pub const PAYLOAD: u32 = (1 << 29) - 1;
pub const WORD_LIMIT: usize = 8194;
pub const RECORD_LIMIT: usize = 4096;
pub const QUESTION_LIMIT: usize = 1024;

#[derive(Clone, Copy, PartialEq, Eq, Debug)]
pub enum Kind {
    Prizes,
    Masks,
    Bands,
}

impl Kind {
    pub fn named(name: &str) -> Option<Kind> {
        match name {
            "prizes" => Some(Kind::Prizes),
            "masks" => Some(Kind::Masks),
            "bands" => Some(Kind::Bands),
            _ => None,
        }
    }

    // The most facts on the stack at once.
    pub fn capacity(self) -> usize {
        match self {
            Kind::Prizes => 32,
            Kind::Masks | Kind::Bands => 4096,
        }
    }

    // The words of the table of pieces, two for each piece. Only that for prizes can be too short.
    fn piece_words(self) -> usize {
        match self {
            Kind::Prizes => 16384,
            Kind::Masks | Kind::Bands => usize::MAX,
        }
    }

    fn admits_fact(self, pair: Pair) -> bool {
        let (first, second) = pair;
        match self {
            Kind::Prizes => (1..=1000).contains(&first) && (1..=1000).contains(&second),
            Kind::Masks => first <= PAYLOAD && second <= PAYLOAD,
            Kind::Bands => first <= 1023 && second <= 2047,
        }
    }

    fn admits_question(self, pair: Pair) -> bool {
        let (first, second) = pair;
        match self {
            Kind::Prizes => first <= 1000 && second == 0,
            Kind::Masks => first <= PAYLOAD && second <= PAYLOAD,
            Kind::Bands => first <= 1023 && second <= 1023,
        }
    }

    fn answer(self, facts: &[Pair], question: Pair) -> u32 {
        match self {
            Kind::Prizes => least_prizes(facts, question.0),
            Kind::Masks => u32::from(is_selection(facts, mask_of(question))),
            Kind::Bands => walks(facts, question),
        }
    }
}

// A fact's or a question's two fields.
pub type Pair = (u32, u32);

#[derive(Clone, Copy, PartialEq, Eq, Debug)]
pub enum Record {
    Fact(Pair),
    Withdrawal(Pair),
    Question(Pair),
}

#[derive(Clone, Copy, PartialEq, Eq, Debug)]
pub struct Refused {
    pub number: u32,
    pub place: usize,
}

#[derive(Clone, PartialEq, Eq, Debug)]
pub struct Solved {
    pub answers: Vec<u32>,
    pub additions: usize,
    pub deepest: usize,
}

// A fact that is alive from question `from` on and before question `to`.
#[derive(Clone, Copy, PartialEq, Eq, Debug)]
struct Life {
    pair: Pair,
    from: usize,
    to: usize,
}

// What the program prints for these bytes, and what that says.
pub fn report(kind: Kind, bytes: &[u8]) -> (Result<Solved, Refused>, String) {
    let outcome = load(&words_of(bytes)).and_then(|records| solve(kind, &records));
    let mut text = String::new();
    match &outcome {
        Ok(solved) => {
            for (q, a) in solved.answers.iter().enumerate() {
                text += &format!("{q} {a}\n");
            }
            text += &format!(
                "additions {}\ndeepest {}\n",
                solved.additions, solved.deepest
            );
        }
        Err(r) => text += &format!("refused {} at {}\n", r.number, r.place),
    }
    (outcome, text)
}

// Leftover bytes and words past the limit are not read.
fn words_of(bytes: &[u8]) -> Vec<u32> {
    bytes
        .chunks_exact(4)
        .take(WORD_LIMIT)
        .map(|b| u32::from_le_bytes([b[0], b[1], b[2], b[3]]))
        .collect()
}

pub fn load(words: &[u32]) -> Result<Vec<Record>, Refused> {
    let refused = |number, place| Err(Refused { number, place });
    let mut records = Vec::new();
    let mut questions = 0;
    let mut alive: HashMap<Pair, usize> = HashMap::new();
    let mut at = 0;
    while at < words.len() {
        let kind = words[at] >> 29;
        if !(1..=3).contains(&kind) {
            return refused(5, at);
        }
        let Some(&second) = words.get(at + 1) else {
            return refused(6, words.len());
        };
        if second >> 29 != 4 {
            return refused(5, at + 1);
        }
        if records.len() == RECORD_LIMIT {
            return refused(2, at);
        }
        let pair = (words[at] & PAYLOAD, second & PAYLOAD);
        let equal = alive.entry(pair).or_insert(0);
        match kind {
            1 => {
                *equal += 1;
                records.push(Record::Fact(pair));
            }
            2 => {
                if *equal == 0 {
                    return refused(3, at);
                }
                *equal -= 1;
                records.push(Record::Withdrawal(pair));
            }
            _ => {
                if questions == QUESTION_LIMIT {
                    return refused(4, at);
                }
                questions += 1;
                records.push(Record::Question(pair));
            }
        }
        at += 2;
    }
    Ok(records)
}

pub fn solve(kind: Kind, records: &[Record]) -> Result<Solved, Refused> {
    for (n, record) in records.iter().enumerate() {
        let admitted = match *record {
            Record::Fact(pair) => kind.admits_fact(pair),
            Record::Question(pair) => kind.admits_question(pair),
            Record::Withdrawal(_) => true,
        };
        if !admitted {
            return Err(Refused {
                number: 12,
                place: n,
            });
        }
    }
    let questions: Vec<Pair> = records
        .iter()
        .filter_map(|r| {
            if let Record::Question(pair) = r {
                Some(*pair)
            } else {
                None
            }
        })
        .collect();
    let lives = lives_of(records, questions.len());
    let additions = piece_count(&lives, questions.len());
    if 2 * additions > kind.piece_words() {
        return Err(Refused {
            number: 13,
            place: 2,
        });
    }
    let alive_at = |q: usize| {
        lives
            .iter()
            .filter(|l| l.from <= q && q < l.to)
            .map(|l| l.pair)
            .collect::<Vec<Pair>>()
    };
    let mut deepest = 0;
    for q in 0..questions.len() {
        let alive = alive_at(q).len();
        if alive > kind.capacity() {
            return Err(Refused {
                number: 14,
                place: q,
            });
        }
        deepest = deepest.max(alive);
    }
    let answers = questions
        .iter()
        .enumerate()
        .map(|(q, question)| kind.answer(&alive_at(q), *question))
        .collect();
    Ok(Solved {
        answers,
        additions,
        deepest,
    })
}

// The facts in record order; a withdrawal ends the earliest of the equal facts that are alive.
fn lives_of(records: &[Record], questions: usize) -> Vec<Life> {
    let mut lives: Vec<Life> = Vec::new();
    let mut waiting: HashMap<Pair, VecDeque<usize>> = HashMap::new();
    let mut asked = 0;
    for record in records {
        match *record {
            Record::Fact(pair) => {
                waiting.entry(pair).or_default().push_back(lives.len());
                lives.push(Life {
                    pair,
                    from: asked,
                    to: questions,
                });
            }
            Record::Withdrawal(pair) => {
                let ended = waiting
                    .get_mut(&pair)
                    .and_then(|w| w.pop_front())
                    .expect("a loaded book is sound");
                lives[ended].to = asked;
            }
            Record::Question(_) => asked += 1,
        }
    }
    lives
}

// A part of the questions, from the first number on and before the second.
type Node = (usize, usize);

// All nodes of the tree over so many questions, each with its parent.
fn nodes(questions: usize) -> Vec<(Node, Option<Node>)> {
    let mut all: Vec<(Node, Option<Node>)> = Vec::new();
    if questions > 0 {
        all.push(((0, questions), None));
    }
    let mut next = 0;
    while next < all.len() {
        let (lo, hi) = all[next].0;
        if hi - lo >= 2 {
            let mid = lo + (hi - lo) / 2;
            all.push(((lo, mid), Some((lo, hi))));
            all.push(((mid, hi), Some((lo, hi))));
        }
        next += 1;
    }
    all
}

// The nodes inside the span that are the root or whose parent is not inside it.
fn pieces(tree: &[(Node, Option<Node>)], from: usize, to: usize) -> Vec<Node> {
    let inside = |node: Node| from <= node.0 && node.1 <= to;
    tree.iter()
        .filter(|(node, parent)| inside(*node) && !parent.is_some_and(inside))
        .map(|(node, _)| *node)
        .collect()
}

fn piece_count(lives: &[Life], questions: usize) -> usize {
    let tree = nodes(questions);
    lives
        .iter()
        .map(|l| pieces(&tree, l.from, l.to).len())
        .sum()
}

// The least number of prizes that sum to the payout, 1,001 if none do. Each prize line is cut into bundles of 1, 2, 4, ..
// prizes and a rest, from which every number of its copies can be made, and a bundle is taken or left.
pub fn least_prizes(facts: &[Pair], payout: u32) -> u32 {
    const NONE: u32 = 1001;
    let payout = payout as usize;
    let mut least = vec![NONE; payout + 1];
    least[0] = 0;
    for &(amount, copies) in facts {
        let amount = amount as usize;
        let mut left = (copies as usize).min(payout / amount);
        let mut bundle = 1;
        while left > 0 {
            let taken = bundle.min(left);
            let worth = taken * amount;
            for v in (worth..=payout).rev() {
                let with = least[v - worth].saturating_add(taken as u32);
                if least[v - worth] != NONE && with < least[v] {
                    least[v] = with;
                }
            }
            left -= taken;
            bundle *= 2;
        }
    }
    least[payout]
}

pub fn mask_of(pair: Pair) -> u64 {
    (u64::from(pair.0) << 29) + u64::from(pair.1)
}

// Whether the goal is the xor of some of the masks: by trying all selections of a few, else by elimination.
fn is_selection(facts: &[Pair], goal: u64) -> bool {
    let masks: Vec<u64> = facts.iter().map(|f| mask_of(*f)).collect();
    if masks.len() <= 8 {
        tried(&masks, goal)
    } else {
        eliminated(masks, goal)
    }
}

fn tried(masks: &[u64], goal: u64) -> bool {
    match masks {
        [] => goal == 0,
        [mask, rest @ ..] => tried(rest, goal) || tried(rest, goal ^ mask),
    }
}

// Bit by bit from the top: one mask with the bit clears it in all others and in the goal, and leaves.
fn eliminated(mut masks: Vec<u64>, mut goal: u64) -> bool {
    for bit in (0..58).rev() {
        let has = |m: u64| m >> bit & 1 == 1;
        if let Some(i) = masks.iter().position(|m| has(*m)) {
            let pivot = masks.swap_remove(i);
            for m in &mut masks {
                if has(*m) {
                    *m ^= pivot;
                }
            }
            if has(goal) {
                goal ^= pivot;
            }
        } else if has(goal) {
            return false;
        }
    }
    goal == 0
}

// Which walks lead from one band to the other: 0 none, 1 only even ones, 2 only odd ones, 3 both, by breadth-first search over
// the bands with a parity.
fn walks(facts: &[Pair], question: Pair) -> u32 {
    let mut steps: Vec<Vec<(usize, usize)>> = vec![Vec::new(); 1024];
    for &(first, second) in facts {
        let (a, b, odd) = (
            first as usize,
            second as usize % 1024,
            second as usize / 1024,
        );
        steps[a].push((b, odd));
        steps[b].push((a, odd));
    }
    let mut reached = [[false; 2]; 1024];
    let start = (question.0 as usize, 0);
    reached[start.0][start.1] = true;
    let mut queue = VecDeque::from([start]);
    while let Some((band, parity)) = queue.pop_front() {
        for &(next, odd) in &steps[band] {
            let there = (next, (parity + odd) % 2);
            if !reached[there.0][there.1] {
                reached[there.0][there.1] = true;
                queue.push_back(there);
            }
        }
    }
    let [even, odd] = reached[question.1 as usize];
    u32::from(even) + 2 * u32::from(odd)
}

#[cfg(test)]
mod tests {
    use super::*;
    use Record::{Fact, Question, Withdrawal};

    fn bytes_of(records: &[Record]) -> Vec<u8> {
        records
            .iter()
            .flat_map(|r| match *r {
                Fact((a, b)) => [1 << 29 | a, 4 << 29 | b],
                Withdrawal((a, b)) => [2 << 29 | a, 4 << 29 | b],
                Question((a, b)) => [3 << 29 | a, 4 << 29 | b],
            })
            .flat_map(u32::to_le_bytes)
            .collect()
    }

    fn example() -> Vec<u8> {
        bytes_of(&[
            Fact((10, 1)),
            Question((10, 0)),
            Fact((20, 1)),
            Question((30, 0)),
            Fact((10, 1)),
            Question((20, 0)),
            Withdrawal((10, 1)),
            Question((30, 0)),
            Question((40, 0)),
            Withdrawal((20, 1)),
            Question((20, 0)),
        ])
    }

    fn printed(kind: Kind, bytes: &[u8]) -> String {
        report(kind, bytes).1
    }

    #[test]
    fn example_book() {
        let listing = "0 1\n1 2\n2 1\n3 2\n4 1001\n5 1001\nadditions 6\ndeepest 3\n";
        assert_eq!(printed(Kind::Prizes, &example()), listing);
    }

    #[test]
    fn leftover_bytes_are_dropped() {
        let mut bytes = example();
        let whole = printed(Kind::Prizes, &bytes);
        for _ in 0..3 {
            bytes.push(0xff);
            assert_eq!(printed(Kind::Prizes, &bytes), whole);
        }
        bytes.push(0xff);
        assert_eq!(printed(Kind::Prizes, &bytes), "refused 5 at 22\n");
    }

    #[test]
    fn no_words() {
        assert_eq!(printed(Kind::Prizes, &[]), "additions 0\ndeepest 0\n");
    }

    #[test]
    fn load_refusals() {
        let cut = &example()[..12];
        assert_eq!(printed(Kind::Prizes, cut), "refused 6 at 3\n");
        assert_eq!(printed(Kind::Prizes, &example()[4..]), "refused 5 at 0\n");
        assert_eq!(
            printed(Kind::Prizes, &bytes_of(&[Withdrawal((1, 1))])),
            "refused 3 at 0\n"
        );
        assert_eq!(
            printed(Kind::Prizes, &bytes_of(&vec![Question((0, 0)); 1025])),
            "refused 4 at 2048\n"
        );
        assert_eq!(
            printed(Kind::Prizes, &bytes_of(&vec![Fact((1, 1)); 4097])),
            "refused 2 at 8192\n"
        );
        // the record past the limit is judged as words first
        let mut long = bytes_of(&vec![Fact((1, 1)); 4096]);
        long.extend((1u32 << 29).to_le_bytes());
        assert_eq!(printed(Kind::Prizes, &long), "refused 6 at 8193\n");
    }

    #[test]
    fn solve_refusals() {
        let q = Question((0, 0));
        assert_eq!(
            printed(Kind::Prizes, &bytes_of(&[q, Fact((0, 1))])),
            "refused 12 at 1\n"
        );
        assert_eq!(
            printed(Kind::Prizes, &bytes_of(&[q, Question((5, 1))])),
            "refused 12 at 1\n"
        );
        let mut deep = vec![Fact((7, 1)); 32];
        deep.extend([q, Fact((7, 1)), q, q]);
        assert_eq!(printed(Kind::Prizes, &bytes_of(&deep)), "refused 14 at 1\n");
        let mut wide = vec![q];
        wide.extend(vec![Fact((7, 1)); 3000]);
        wide.extend(vec![q; 1000]);
        assert_eq!(printed(Kind::Prizes, &bytes_of(&wide)), "refused 13 at 2\n");
    }

    #[test]
    fn pieces_of_a_cut_span() {
        assert_eq!(pieces(&nodes(6), 1, 5), [(1, 3), (3, 4), (4, 5)]);
        assert_eq!(pieces(&nodes(6), 0, 6), [(0, 6)]);
        assert!(pieces(&nodes(6), 3, 3).is_empty());
        assert!(nodes(0).is_empty());
        assert_eq!(nodes(1024).len(), 2047);
    }

    // By choosing the copies of each line in turn.
    fn chosen(facts: &[Pair], payout: u32) -> u32 {
        match facts {
            [] => {
                if payout == 0 {
                    0
                } else {
                    1001
                }
            }
            [(amount, copies), rest @ ..] => (0..=*copies)
                .filter(|k| k * amount <= payout)
                .map(|k| (k + chosen(rest, payout - k * amount)).min(1001))
                .min()
                .unwrap(),
        }
    }

    #[test]
    fn bundles_make_every_choice() {
        let facts = [(3, 5), (7, 1), (5, 4), (3, 2), (11, 9)];
        for payout in 0..200 {
            assert_eq!(
                least_prizes(&facts, payout),
                chosen(&facts, payout),
                "payout {payout}"
            );
        }
        assert_eq!(least_prizes(&[(1, 1000)], 1000), 1000);
        assert_eq!(least_prizes(&[(1, 999)], 1000), 1001);
        assert_eq!(least_prizes(&[], 0), 0);
    }

    #[test]
    fn elimination_finds_every_selection() {
        let masks = [0b1100u64, 0b1010, 0b0110, 0, 0b1100, 1 << 57];
        for goal in (0..16).chain([1 << 57, 1 << 57 | 0b0110, 1 << 57 | 1]) {
            assert_eq!(
                eliminated(masks.to_vec(), goal),
                tried(&masks, goal),
                "goal {goal}"
            );
        }
        assert_eq!(mask_of((PAYLOAD, PAYLOAD)), (1 << 58) - 1);
    }

    #[test]
    fn walks_count_mirrors() {
        let facts = [(1, 2), (2, 3 + 1024), (4, 4 + 1024), (5, 5)];
        assert_eq!(walks(&facts, (1, 1)), 1);
        assert_eq!(walks(&facts, (1, 2)), 1);
        assert_eq!(walks(&facts, (3, 1)), 2);
        assert_eq!(walks(&facts, (1, 4)), 0);
        assert_eq!(walks(&facts, (4, 4)), 3);
        assert_eq!(walks(&facts, (5, 5)), 1);
    }
}
