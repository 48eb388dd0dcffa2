//! Pairs of `declined` and `resume` put into a script that has none (request 2026-05). A
//! declined transfer that is resumed at once is offered again as it was, so such a pair alters
//! nothing else, and the Rust, which never declines, may be compared.

use crate::area::POOL;
use crate::line::{Call, Line};
use crate::random::Random;
use crate::view::View;

/// How many times in a hundred a pair is followed by another.
const AGAIN: u64 = 10;

pub const PAIR: [Line; 2] = [Line::Call(Call::Declined), Line::Call(Call::Resume)];

/// Whether a pair may stand where the driver stands so: a transfer is under way, and refusal
/// 12 does not come first.
pub fn may_stand(view: &View) -> bool {
    view.under_way.is_some() && !view.waits && view.pool_length == POOL
}

/// Puts pairs before so many in a hundred of the lines before which one may stand, each of them
/// marked. Says how many there are.
pub fn put_in(lines: Vec<(Line, bool)>, seed: u64, density: u64) -> (Vec<Line>, u64) {
    let mut random = Random::new(!seed);
    let mut script = Vec::with_capacity(lines.len());
    let mut pairs = 0;
    for (line, may_stand) in lines {
        let mut more = may_stand && random.percent(density);
        while more {
            script.extend(PAIR);
            pairs += 1;
            more = random.percent(AGAIN);
        }
        script.push(line);
    }
    (script, pairs)
}
