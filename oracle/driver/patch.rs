//! Applies a patch to a text, strictly: every context and removed line must stand exactly
//! at the line that its hunk states, and a hunk's header must say what the hunk has.
//! Nothing is looked for near by, so that a copy is altered exactly as the patch says, or
//! not at all.
//!
//! The patch is a unified diff of one file. What stands above its `---` line is explanation.

/// The text with the patch applied, or why it does not apply. `path` is the file that the
/// patch must name.
pub fn applied(patch: &str, path: &str, text: &str) -> Result<String, String> {
    let mut applying = Applying {
        old: text.split_inclusive('\n').collect(),
        done: 0,
        new: Vec::new(),
    };
    for hunk in hunks(patch, path)? {
        let applied = applying.apply(&hunk);
        applied.map_err(|why| format!("hunk {}, {why}", hunk.number))?;
    }
    Ok(applying.finished())
}

/// What a line of a hunk is: in both texts, in the old one alone, in the new one alone.
#[derive(Clone, Copy, PartialEq, Eq)]
enum Kind {
    Context,
    Removed,
    Added,
}

impl Kind {
    fn of(line: &str) -> Option<Kind> {
        match line.bytes().next()? {
            b' ' => Some(Kind::Context),
            b'-' => Some(Kind::Removed),
            b'+' => Some(Kind::Added),
            _ => None,
        }
    }
}

/// Where a hunk stands in one of the two texts: its first line there, from 1, and how many.
struct Place {
    first: usize,
    count: usize,
}

impl Place {
    /// From a header's `FIRST,COUNT`, or `FIRST` for a single line.
    fn of(text: &str) -> Option<Place> {
        let (first, count) = text.split_once(',').unwrap_or((text, "1"));
        let digits = |text: &str| text.bytes().all(|byte| byte.is_ascii_digit());
        let number = |text: &str| text.parse().ok().filter(|_| digits(text));
        Some(Place {
            first: number(first)?,
            count: number(count)?,
        })
    }
}

struct Hunk<'a> {
    /// From 1.
    number: usize,
    old: Place,
    new: Place,
    lines: Vec<(Kind, &'a str)>,
}

impl<'a> Hunk<'a> {
    /// A hunk that has its header `@@ -OLD +NEW @@` and no line yet.
    fn begun(number: usize, header: &str) -> Option<Hunk<'a>> {
        let places = header.strip_prefix("@@ -")?;
        let (places, _section) = places.split_once(" @@")?;
        let (old, new) = places.split_once(" +")?;
        Some(Hunk {
            number,
            old: Place::of(old)?,
            new: Place::of(new)?,
            lines: Vec::new(),
        })
    }

    /// Takes the next line of the patch, if it is a whole line of a hunk.
    fn takes(&mut self, line: &'a str) -> bool {
        match Kind::of(line) {
            Some(kind) if line.ends_with('\n') => {
                self.lines.push((kind, &line[1..]));
                true
            }
            _ => false,
        }
    }

    /// Refuses a header whose counts are not those of the lines. Without a line of the old
    /// text there would be nothing to find the hunk's place by.
    fn counted(&self) -> Result<(), String> {
        let without = |other: Kind| self.lines.iter().filter(move |(kind, _)| *kind != other);
        let (old, new) = (without(Kind::Added), without(Kind::Removed));
        let (old, new) = (old.count(), new.count());
        let (says_old, says_new) = (self.old.count, self.new.count);
        if (old, new) == (says_old, says_new) && old > 0 {
            return Ok(());
        }
        Err(format!(
            "line {}: expected {says_old} old lines and {says_new} new ones, as its header \
             says, found {old} and {new}",
            self.old.first
        ))
    }
}

/// All hunks of a patch to the file `path`.
fn hunks<'a>(patch: &'a str, path: &str) -> Result<Vec<Hunk<'a>>, String> {
    let lines = patch.split_inclusive('\n').zip(1..);
    let mut lines = lines.skip_while(|(line, _)| !line.starts_with("--- "));
    for name in [format!("--- a/{path}\n"), format!("+++ b/{path}\n")] {
        let found = lines.next().map(|(line, _)| line);
        same(&name, found, "patch").map_err(|why| format!("before hunk 1: {why}"))?;
    }
    let mut hunks: Vec<Hunk> = Vec::new();
    for (line, number) in lines {
        if let Some(hunk) = Hunk::begun(hunks.len() + 1, line) {
            hunks.push(hunk);
        } else if !hunks.last_mut().is_some_and(|hunk| hunk.takes(line)) {
            let hunk = hunks.len().max(1);
            return Err(format!(
                "hunk {hunk}, line {number} of the patch: expected a hunk's header or line, \
                 found {line:?}"
            ));
        }
    }
    match hunks.is_empty() {
        true => Err("expected a hunk, found none".into()),
        false => Ok(hunks),
    }
}

/// The old text, of which so many lines are done with, and the new one as far as that.
struct Applying<'a> {
    old: Vec<&'a str>,
    done: usize,
    new: Vec<&'a str>,
}

impl<'a> Applying<'a> {
    fn apply(&mut self, hunk: &Hunk<'a>) -> Result<(), String> {
        hunk.counted()?;
        self.go_to(hunk)?;
        for (kind, line) in &hunk.lines {
            if *kind != Kind::Added {
                self.expect(line)?;
            }
            if *kind != Kind::Removed {
                self.new.push(line);
            }
        }
        Ok(())
    }

    /// Takes over what lies between the hunk before and this one.
    fn go_to(&mut self, hunk: &Hunk) -> Result<(), String> {
        let (first, done, end) = (hunk.old.first, self.done, self.old.len());
        if first <= done {
            return Err(format!(
                "line {first}: expected a line after {done}, where the hunk before ends"
            ));
        }
        let between = self.old.get(done..first - 1).ok_or(format!(
            "line {first}: expected a line, found the text's end after line {end}"
        ))?;
        self.new.extend(between);
        self.done = first - 1;
        let (says, is) = (hunk.new.first, self.new.len() + 1);
        match says == is {
            true => Ok(()),
            false => Err(format!(
                "line {first}: expected line {says} of the new text, as its header says, found \
                 line {is}"
            )),
        }
    }

    /// The next line of the old text must be this one.
    fn expect(&mut self, line: &str) -> Result<(), String> {
        let found = self.old.get(self.done).copied();
        self.done += 1;
        same(line, found, "text").map_err(|why| format!("line {}: {why}", self.done))
    }

    fn finished(mut self) -> String {
        self.new.extend(&self.old[self.done..]);
        self.new.concat()
    }
}

/// Refuses a line that is not the expected one, or none where the patch or the text ends.
fn same(expected: &str, found: Option<&str>, whose: &str) -> Result<(), String> {
    match found {
        Some(found) if found == expected => Ok(()),
        Some(found) => Err(format!("expected {expected:?}, found {found:?}")),
        None => Err(format!("expected {expected:?}, found the {whose}'s end")),
    }
}
