//! Module 10's grammar of entries as productions, and a recogniser that knows nothing of it but them (Earley's).
//! The entries so far begin a document exactly where it still has an item.

/// What a production is made of: kinds of entries, and names of productions.
#[derive(Clone, Copy, PartialEq, Eq)]
enum Part {
    Entry(u32),
    /// A name or a raw name.
    AnyName,
    /// An integer, float, char, string or byte string.
    Scalar,
    Rule(Rule),
}

#[derive(Clone, Copy, PartialEq, Eq)]
enum Rule {
    Document,
    Attributes,
    Value,
    Round,
    Values,
    SomeValues,
    Pairs,
    SomePairs,
    Pair,
    Fields,
    SomeFields,
    Field,
}

use Part::{AnyName, Scalar};
use Rule::{Attributes, Document, Field, Fields, Pair, Pairs, Round, SomeFields, SomePairs, SomeValues, Value, Values};

const fn r(rule: Rule) -> Part {
    Part::Rule(rule)
}

const OPEN_ROUND: Part = Part::Entry(1);
const CLOSE_ROUND: Part = Part::Entry(2);
const OPEN_SQUARE: Part = Part::Entry(3);
const CLOSE_SQUARE: Part = Part::Entry(4);
const OPEN_CURLY: Part = Part::Entry(5);
const CLOSE_CURLY: Part = Part::Entry(6);
const COMMA: Part = Part::Entry(7);
const COLON: Part = Part::Entry(8);
const ATTRIBUTE: Part = Part::Entry(16);

/// "Attributes, then one value, then nothing. A value: a scalar; a name or raw name; `[ ]` of values; `{ }` of value `:` value;
/// `( )`, with or without a name before it, of values, or of name `:` value throughout if the first two entries are a name and `:`;
/// each name may be raw. Commas between, one allowed behind the last."
const PRODUCTIONS: &[(Rule, &[Part])] = &[
    (Document, &[r(Attributes), r(Value)]),
    (Attributes, &[]),
    (Attributes, &[r(Attributes), ATTRIBUTE]),
    (Value, &[Scalar]),
    (Value, &[AnyName]),
    (Value, &[OPEN_SQUARE, r(Values), CLOSE_SQUARE]),
    (Value, &[OPEN_CURLY, r(Pairs), CLOSE_CURLY]),
    (Value, &[r(Round)]),
    (Value, &[AnyName, r(Round)]),
    (Round, &[OPEN_ROUND, r(Values), CLOSE_ROUND]),
    (Round, &[OPEN_ROUND, r(Fields), CLOSE_ROUND]),
    (Values, &[]),
    (Values, &[r(SomeValues)]),
    (Values, &[r(SomeValues), COMMA]),
    (SomeValues, &[r(Value)]),
    (SomeValues, &[r(SomeValues), COMMA, r(Value)]),
    (Pairs, &[]),
    (Pairs, &[r(SomePairs)]),
    (Pairs, &[r(SomePairs), COMMA]),
    (SomePairs, &[r(Pair)]),
    (SomePairs, &[r(SomePairs), COMMA, r(Pair)]),
    (Pair, &[r(Value), COLON, r(Value)]),
    (Fields, &[r(SomeFields)]),
    (Fields, &[r(SomeFields), COMMA]),
    (SomeFields, &[r(Field)]),
    (SomeFields, &[r(SomeFields), COMMA, r(Field)]),
    (Field, &[AnyName, COLON, r(Value)]),
];

/// Rules that nothing may be written with.
fn may_be_nothing(rule: Rule) -> bool {
    PRODUCTIONS.iter().any(|(left, parts)| *left == rule && parts.is_empty())
}

fn is(part: Part, kind: u32) -> bool {
    match part {
        Part::Entry(k) => k == kind,
        AnyName => kind == 9 || kind == 10,
        Scalar => (11..=15).contains(&kind),
        Part::Rule(_) => false,
    }
}

/// A production of which `seen` parts were met, the first of them at entry `from`.
#[derive(Clone, Copy, PartialEq, Eq)]
struct Item {
    production: usize,
    seen: usize,
    from: usize,
}

impl Item {
    fn next(&self) -> Option<Part> {
        PRODUCTIONS[self.production].1.get(self.seen).copied()
    }

    fn on(&self) -> Item {
        Item { seen: self.seen + 1, ..*self }
    }
}

/// The items behind each number of entries.
pub struct Recogniser {
    sets: Vec<Vec<Item>>,
}

impl Recogniser {
    /// Before the first entry.
    pub fn start() -> Self {
        let mut whole = Recogniser { sets: Vec::new() };
        whole.close(vec![Item { production: 0, seen: 0, from: 0 }]);
        whole
    }

    /// Takes one entry more; whether any document begins with those so far.
    pub fn takes(&mut self, kind: u32) -> bool {
        let last = self.sets.last().expect("there is a set before the first entry");
        let met = last.iter().filter(|item| item.next().is_some_and(|part| is(part, kind))).map(Item::on).collect();
        self.close(met);
        self.sets.last().is_some_and(|set| !set.is_empty())
    }

    /// Whether the entries so far are a document.
    pub fn is_document(&self) -> bool {
        let whole = Item { production: 0, seen: PRODUCTIONS[0].1.len(), from: 0 };
        self.sets.last().is_some_and(|set| set.contains(&whole))
    }

    /// Adds a set, with all that follows from its items.
    fn close(&mut self, mut set: Vec<Item>) {
        let here = self.sets.len();
        let mut at = 0;
        while at < set.len() {
            let item = set[at];
            at += 1;
            match item.next() {
                Some(Part::Rule(rule)) => {
                    for (production, (left, _)) in PRODUCTIONS.iter().enumerate() {
                        if *left == rule {
                            put(&mut set, Item { production, seen: 0, from: here });
                        }
                    }
                    if may_be_nothing(rule) {
                        put(&mut set, item.on());
                    }
                }
                Some(_) => {}
                None if item.from == here => {}
                None => {
                    let rule = PRODUCTIONS[item.production].0;
                    for waiting in &self.sets[item.from] {
                        if waiting.next() == Some(Part::Rule(rule)) {
                            put(&mut set, waiting.on());
                        }
                    }
                }
            }
        }
        self.sets.push(set);
    }
}

fn put(set: &mut Vec<Item>, item: Item) {
    if !set.contains(&item) {
        set.push(item);
    }
}
