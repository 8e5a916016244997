//! One sequence on two tables, the model's and the other system's, with everything compared after every call.
use crate::calls::{Call, Lent};
use crate::dice::Dice;
use crate::model::{self, Check};
use crate::places::places;
use crate::steps::Step;
use iommufd::raw::Number;

/// A system under test. It may use the dice to place its memory, and tells if memory that was not lent was written.
pub type Tried = fn(&mut Dice, &mut Lent, &mut Call) -> Result<Number, &'static str>;

/// What was answered alike: the check that decided it, why the table is bad where it is, and the answer itself.
#[derive(Clone, Debug)]
pub struct Answer {
    pub preview: bool,
    pub check: Check,
    pub bad: Option<&'static str>,
    /// What is special about it, of an explanation.
    pub kinds: Vec<&'static str>,
    pub number: Number,
    /// The call with its bytes and its area as the answer left them.
    pub call: Call,
}

/// Where model and system differ, or what the system did that no call may do.
#[derive(Clone, Debug)]
pub struct Difference {
    pub parts: Vec<String>,
    pub check: Check,
}

const EUCLEAN: i32 = -117;
const EMSGSIZE: i32 = -90;

/// Asking whether a table is good costs as much as a call, so a run asks it after one call in so many; a replay after each.
const GOOD_EVERY: u64 = 16;

/// So many differing fields or bytes are told one by one.
const TOLD: usize = 12;

pub struct Pair {
    tried: Tried,
    dice: Dice,
    model: Lent,
    other: Lent,
    before: Lent,
    saved: Option<Lent>,
    good_every: u64,
    calls: u64,
    /// What the call before this one explained, with the errno that it told.
    explained: Option<Explained>,
}

struct Explained {
    request: u32,
    bytes: Vec<u8>,
    errno: u64,
}

/// One call as the other system answered it.
struct Given<'a> {
    asked: &'a Call,
    call: Call,
    number: Number,
}

impl Pair {
    /// Two tables of zeroed memory.
    pub fn new(tried: Tried) -> Pair {
        let zeroed = Lent::zeroed;
        let (model, other, before) = (zeroed(), zeroed(), zeroed());
        Pair { tried, dice: Dice::new(0), model, other, before, saved: None, good_every: GOOD_EVERY, calls: 0, explained: None }
    }

    /// The table as both have it.
    pub fn table(&self) -> &Lent {
        &self.model
    }

    pub fn calls(&self) -> u64 {
        self.calls
    }

    /// Does a step on both tables; None for a step that is not a call.
    pub fn take(&mut self, step: &Step) -> Result<Option<Answer>, Difference> {
        match step {
            Step::Call(call) => return self.call(call).map(Some),
            Step::Damage(changes) => {
                self.explained = None;
                self.saved = Some(self.model.clone());
                for change in changes {
                    change.apply(&mut self.model);
                    change.apply(&mut self.other);
                }
            }
            Step::Restore => {
                self.explained = None;
                if let Some(saved) = self.saved.take() {
                    self.other = saved.clone();
                    self.model = saved;
                }
            }
        }
        Ok(None)
    }

    fn call(&mut self, asked: &Call) -> Result<Answer, Difference> {
        self.calls += 1;
        self.before.clone_from(&self.other);
        let (mut expected, mut call) = (asked.clone(), asked.clone());
        let (number, check) = model::judge(&mut self.model, &mut expected);
        let given = match (self.tried)(&mut self.dice, &mut self.other, &mut call) {
            Ok(number) => Given { asked, call, number },
            Err(broken) => return Err(Difference { parts: vec![broken.to_string()], check }),
        };
        let alike = number == given.number && expected == given.call && self.model == self.other;
        let broken = self.broken_rule(&given).or(self.broken_word(&given));
        self.explained = explained(&given);
        if alike && broken.is_none() {
            let bad = if number.result == EUCLEAN { model::bad(&self.model) } else { None };
            let kinds = if number.result == 0 { model::kinds_of(&self.model, &given.call) } else { vec![] };
            return Ok(Answer { preview: matches!(asked, Call::Preview { .. }), check, bad, kinds, number, call: given.call });
        }
        let mut parts = self.differing(number, &expected, &given);
        parts.extend(broken.map(str::to_string));
        Err(Difference { parts, check })
    }

    /// What holds of every call, whatever the model says of it.
    fn broken_rule(&self, given: &Given) -> Option<&'static str> {
        let result = given.number.result;
        let table_stays = self.other == self.before;
        if result < 0 && result != EMSGSIZE && !(table_stays && given.call == *given.asked) {
            return Some("a refusal wrote something");
        }
        let reads = matches!(given.asked, Call::Preview { .. } | Call::Reach { .. } | Call::Charge | Call::Next { .. } | Call::Explain { .. });
        if (reads || result == EMSGSIZE) && !table_stays {
            return Some("the table changed, though this call only reads it");
        }
        if result < 0 && given.number.value != 0 {
            return Some("a value that is not 0 stands beside a refusal");
        }
        if let (Call::Explain { bytes, .. }, Call::Explain { bytes: old, .. }) = (&given.call, given.asked) {
            if bytes != old {
                return Some("the command changed, though it was only to be explained");
            }
        }
        // a fresh table is made in any memory, so that its refusal says nothing of what was there
        let says_good = result != EUCLEAN && !(result < 0 && matches!(given.asked, Call::Fresh { .. }));
        if says_good && self.calls.is_multiple_of(self.good_every) && model::bad(&self.other).is_some() {
            return Some("the table is bad after a call that did not answer 117");
        }
        None
    }

    /// A command is answered with the errno that was told of it just before.
    fn broken_word(&self, given: &Given) -> Option<&'static str> {
        let (Call::Command { request, bytes, .. } | Call::Preview { request, bytes, .. }) = given.asked else { return None };
        let told = self.explained.as_ref().filter(|told| told.request == *request && told.bytes == *bytes)?;
        let errno = u64::from(given.number.result.unsigned_abs());
        (told.errno != errno).then_some("the errno that was told of this command is not the one that it was answered with")
    }

    fn differing(&self, number: Number, expected: &Call, given: &Given) -> Vec<String> {
        let mut parts = vec![];
        if number.result != given.number.result {
            parts.push(format!("result: model {}, system {}", number.result, given.number.result));
        }
        if number.value != given.number.value {
            parts.push(format!("value: model {:#x}, system {:#x}", number.value, given.number.value));
        }
        parts.extend(differing_bytes(expected, &given.call));
        parts.extend(differing_fields(&self.model, &self.other));
        parts
    }
}

/// What an explanation told, for the command behind it.
fn explained(given: &Given) -> Option<Explained> {
    match &given.call {
        Call::Explain { request, bytes, words } if given.number.result == 0 => Some(Explained { request: *request, bytes: bytes.clone(), errno: words[1] }),
        _ => None,
    }
}

fn differing_bytes(expected: &Call, given: &Call) -> Vec<String> {
    use Call::{Command, Explain, Preview};
    match (expected, given) {
        (Command { bytes, area, .. }, Command { bytes: b, area: a, .. })
        | (Preview { bytes, area, .. }, Preview { bytes: b, area: a, .. }) => {
            [bytes_in("command", bytes, b), bytes_in("range area", area, a)].concat()
        }
        (Explain { bytes, words, .. }, Explain { bytes: b, words: w, .. }) => [bytes_in("command", bytes, b), differing_words(words, w)].concat(),
        _ => vec![],
    }
}

fn bytes_in(what: &str, expected: &[u8], given: &[u8]) -> Vec<String> {
    let differing = expected.iter().zip(given).enumerate().filter(|(_, (e, g))| e != g);
    shortened(differing.map(|(k, (e, g))| format!("byte {k} of the {what}: model {e:#04x}, system {g:#04x}")))
}

fn differing_words(expected: &[u64], given: &[u64]) -> Vec<String> {
    let differing = expected.iter().zip(given).enumerate().filter(|(_, (e, g))| e != g);
    differing.map(|(k, (e, g))| format!("word {k}: model {e:#x}, system {g:#x}")).collect()
}

fn differing_fields(model: &Lent, other: &Lent) -> Vec<String> {
    let (records, words) = (model.mappings.len().max(other.mappings.len()), model.index.len().max(other.index.len()));
    let told = |value: Option<u64>| value.map_or("not there".to_string(), |value| format!("{value:#x}"));
    shortened(places(records, words).filter_map(|place| {
        let (expected, given) = (place.get(model), place.get(other));
        (expected != given).then(|| format!("{}: model {}, system {}", place.name(), told(expected), told(given)))
    }))
}

/// The first few, and how many more.
fn shortened(lines: impl Iterator<Item = String>) -> Vec<String> {
    let mut all: Vec<String> = lines.collect();
    if all.len() > TOLD {
        let more = all.len() - TOLD;
        all.truncate(TOLD);
        all.push(format!(".. and {more} more"));
    }
    all
}

/// The first step of a sequence at which the system differs from the model, and how; both start from zeroed memory.
pub fn replay(tried: Tried, steps: &[Step]) -> Option<(usize, Difference)> {
    let mut pair = Pair { good_every: 1, ..Pair::new(tried) };
    steps.iter().enumerate().find_map(|(at, step)| pair.take(step).err().map(|difference| (at, difference)))
}
