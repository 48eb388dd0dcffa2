//! Cuts a script down to what still shows a difference: first its end, then line by
//! line whatever can go, then the bytes and numbers in what is left.

use crate::line::{Call, Line};

/// The most times that a script is tried.
const TRIES: u32 = 4000;

/// Cuts the script down. `shows`: whether a script still shows the difference.
pub fn shrink(script: Vec<Line>, shows: impl FnMut(&[Line]) -> bool) -> Vec<Line> {
    let mut shrinking = Shrinking::new(script, shows);
    shrinking.cut_end();
    loop {
        let before = shrinking.items.clone();
        shrinking.cut_items();
        shrinking.simplify();
        if shrinking.items == before || shrinking.left == 0 {
            return shrinking.items;
        }
    }
}

/// Lets go of whatever items can go, whatever they are.
pub fn cut<T: Clone>(items: Vec<T>, shows: impl FnMut(&[T]) -> bool) -> Vec<T> {
    let mut shrinking = Shrinking::new(items, shows);
    shrinking.cut_end();
    shrinking.cut_items();
    shrinking.items
}

struct Shrinking<T, F> {
    items: Vec<T>,
    shows: F,
    left: u32,
}

impl<T: Clone, F: FnMut(&[T]) -> bool> Shrinking<T, F> {
    fn new(items: Vec<T>, shows: F) -> Shrinking<T, F> {
        Shrinking {
            items,
            shows,
            left: TRIES,
        }
    }

    /// Takes fewer or simpler items in place of the present ones if they still show the
    /// difference.
    fn take(&mut self, items: Vec<T>) -> bool {
        if self.left == 0 {
            return false;
        }
        self.left -= 1;
        let shows = (self.shows)(&items);
        if shows {
            self.items = items;
        }
        shows
    }

    /// Lets go of the end, by halving what must be kept.
    fn cut_end(&mut self) {
        let (mut low, mut high) = (0, self.items.len());
        while low + 1 < high {
            let middle = low + (high - low) / 2;
            let start = self.items[..middle].to_vec();
            match self.take(start) {
                true => high = middle,
                false => low = middle,
            }
        }
    }

    /// Lets go of items, in ever smaller pieces.
    fn cut_items(&mut self) {
        let mut piece = self.items.len().div_ceil(2);
        while piece > 0 {
            let mut at = 0;
            while at < self.items.len() {
                let end = (at + piece).min(self.items.len());
                let mut items = self.items.clone();
                items.drain(at..end);
                if !self.take(items) {
                    at = end;
                }
            }
            piece /= 2;
        }
    }
}

impl<F: FnMut(&[Line]) -> bool> Shrinking<Line, F> {
    /// Puts simpler lines in place of those that are left.
    fn simplify(&mut self) {
        for at in 0..self.items.len() {
            for line in simpler(&self.items[at]) {
                let mut script = self.items.clone();
                script[at] = line;
                if self.take(script) {
                    break;
                }
            }
        }
    }
}

/// Simpler lines of the same sort, the simplest first.
fn simpler(line: &Line) -> Vec<Line> {
    let simpler = match line {
        Line::Call(Call::ReadWriteDone(bytes)) => {
            let start = bytes[..bytes.len().min(2)].to_vec();
            let second = vec![0, start.last().copied().unwrap_or(0)];
            let first = vec![start.first().copied().unwrap_or(0), 0];
            let lists = [vec![0, 0], first, second, start];
            lists.map(Call::ReadWriteDone).map(Line::Call).to_vec()
        }
        Line::Pool { at, bytes } => {
            let bytes = bytes[..bytes.len() / 2].to_vec();
            vec![Line::Pool { at: *at, bytes }]
        }
        Line::Call(Call::Transmit { buffer, .. }) => vec![Line::Call(Call::Transmit {
            buffer: *buffer,
            length: 160,
            n: 0,
        })],
        _ => Vec::new(),
    };
    // Shorter, or as short with smaller digits: so that simplifying comes to an end.
    let measure = |line: &Line| (line.to_string().len(), line.to_string());
    let size = measure(line);
    simpler
        .into_iter()
        .filter(|other| measure(other) < size)
        .collect()
}

#[cfg(test)]
mod tests {
    use super::shrink;
    use crate::line::{Call, Line};

    #[test]
    fn only_the_lines_that_matter_are_left() {
        let pan = |number| Line::Call(Call::SetPan(number));
        let script: Vec<Line> = (0..200).map(pan).collect();
        let shows = |lines: &[Line]| lines.contains(&pan(17)) && lines.contains(&pan(150));
        assert_eq!(shrink(script, shows), [pan(17), pan(150)]);
    }

    #[test]
    fn bytes_that_do_not_matter_go() {
        let done = |bytes: &[u8]| Line::Call(Call::ReadWriteDone(bytes.to_vec()));
        let shows = |lines: &[Line]| match lines {
            [Line::Call(Call::ReadWriteDone(bytes))] => bytes.get(1) == Some(&7),
            _ => false,
        };
        assert_eq!(shrink(vec![done(&[93, 7, 8, 9])], shows), [done(&[0, 7])]);
    }
}
