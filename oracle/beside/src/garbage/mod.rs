//! Calls on stores that no calls could have left.

mod calls;
mod stores;

use crate::difference::Difference;
use crate::library::{words, Library, Reply, BAD_STORE};
use crate::tally::Codes;
use crate::watch::begins;
use crate::words::check_words;
use calls::any_call;
use compare::rng::Rng;
use rules::{Answer, Call, Load, Slice, Store};
use stores::{good_store, spoil};

const SHORT_STORE: u32 = 9;

/// So many calls, a few on each store; each must be safe, end, and give a code that fits.
pub fn run(calls: u64, seed: u64) -> Result<Codes, Difference> {
    let mut rng = Rng::new(seed);
    let mut codes = Codes::default();
    let mut good = [good_store(&mut rng)?, good_store(&mut rng)?];
    let mut made = 0;
    while made < calls {
        if rng.once_in(40) {
            good[rng.below(2)] = good_store(&mut rng)?;
        }
        let mut library = spoil(&mut rng, &good);
        let few = (1 + rng.below(6) as u64).min(calls - made);
        for number in made..made + few {
            begins(number);
            let call = any_call(&mut rng);
            let reply = ask(&mut rng, &mut library, &call);
            codes.count(&reply.map_err(|Difference(what)| told(number, &call, &what))?);
        }
        made += few;
    }
    Ok(codes)
}

fn told(number: u64, call: &Call, what: &str) -> Difference {
    Difference(format!("call {number}: {what}\n{call:?}"))
}

/// The call, now and then with a slice lent too short.
fn ask(rng: &mut Rng, library: &mut Library, call: &Call) -> Result<Reply, Difference> {
    let slice = Slice::ALL[rng.below(5)];
    let length = if rng.once_in(12) {
        rng.below(words(slice) + 3)
    } else {
        usize::MAX
    };
    library.shorten(slice, length);
    let reply = library.call(call)?;
    library.restore(slice);
    check_code(call, &reply, length < words(slice))?;
    if let (Call::Load(load), Ok(answer)) = (call, &reply) {
        check_load(library, load, answer)?;
    }
    Ok(reply)
}

/// 9 exactly if a slice is short; 12 from neither load nor reset.
fn check_code(call: &Call, reply: &Reply, short: bool) -> Result<(), Difference> {
    let gave = |code: u32| reply == &Err(code);
    let how = || format!("{reply:?}, a short slice: {short}");
    Difference::unless(gave(SHORT_STORE) == short, how)?;
    let takes_any = matches!(call, Call::Load(_) | Call::Reset);
    let what = || "refusal 12 of a call that takes any store".to_string();
    Difference::unless(!(takes_any && gave(BAD_STORE)), what)
}

/// An accepted load replaces what was there, whatever it was.
fn check_load(library: &Library, load: &Load, answer: &Answer) -> Result<(), Difference> {
    let mut rules = Store::default();
    let expected = rules.load(load).map(Answer::Change);
    let same = expected.as_ref() == Ok(answer);
    Difference::unless(same, || format!("{answer:?} instead of {expected:?}"))?;
    check_words(library, rules.plan().expect("loaded"))
}
