//! Scenarios as bytes: 0 new, 1 start, 2 firing, 3 a completion with a count and so many bytes, 4 transmit with buffer, length
//! and n, 5 receive buffer with buffer and length, 6 the listeners are there.

pub struct Scenario {
    pub name: &'static str,
    /// Taken once.
    pub setup: Vec<u8>,
    /// Taken round by round.
    pub events: Vec<u8>,
}

impl Scenario {
    pub fn all() -> Vec<Scenario> {
        let send = send();
        let mut both = interrupted(&send);
        both.extend(interrupted(&reception(20)));
        vec![
            of("startup", Vec::new(), startup()),
            of("send", startup(), send),
            of("reception 20", startup(), reception(20)),
            of("reception 127", startup(), reception(125)),
            of("mix", startup(), both),
        ]
    }

    /// How many events so many rounds have, without the setup.
    pub fn steps(&self, rounds: u32) -> u64 {
        Events(&self.events).count() as u64 * u64::from(rounds)
    }
}

fn of(name: &'static str, setup: Vec<u8>, events: Vec<u8>) -> Scenario {
    Scenario {
        name,
        setup,
        events,
    }
}

/// The events of a list, each as its bytes.
pub struct Events<'a>(pub &'a [u8]);

impl<'a> Iterator for Events<'a> {
    type Item = &'a [u8];

    fn next(&mut self) -> Option<&'a [u8]> {
        let width = match self.0.first()? {
            3 => usize::from(self.0[1]) + 2,
            4 => 4,
            5 => 3,
            _ => 1,
        };
        let (event, rest) = self.0.split_at(width);
        self.0 = rest;
        Some(event)
    }
}

/// A completion with two bytes.
fn done(events: &mut Vec<u8>, status: u8, result: u8) {
    events.extend([3, 2, status, result]);
}

/// A new driver with its listeners, started, and READY.
fn startup() -> Vec<u8> {
    let mut events = vec![0, 6, 1];
    for _ in 0..28 {
        done(&mut events, 0, 0);
    }
    events.push(2);
    done(&mut events, 9, 1);
    done(&mut events, 22, 0);
    events
}

/// From READY to READY: a frame of 20 bytes is sent and acknowledged.
fn send() -> Vec<u8> {
    let mut events = vec![4, 0, 127, 20];
    for _ in 0..4 {
        done(&mut events, 22, 0);
    }
    for _ in 0..3 {
        done(&mut events, 9, 0);
    }
    events.push(2);
    done(&mut events, 9, 8);
    done(&mut events, 9, 0);
    done(&mut events, 22, 0);
    done(&mut events, 22, 0);
    events
}

/// From READY to READY: a frame of so many bytes is received, and 2 of its check.
fn reception(length: u8) -> Vec<u8> {
    let mut events = vec![5, 1, 160, 2];
    done(&mut events, 22, 4);
    events.push(2);
    done(&mut events, 9, 0);
    done(&mut events, 9, 8);
    done(&mut events, 9, length + 2);
    events.extend([3, length + 4, 9, length + 2]);
    events.extend((0..length + 2).map(|byte| byte.wrapping_mul(37)));
    done(&mut events, 9, 128);
    done(&mut events, 22, 0);
    done(&mut events, 22, 0);
    events
}

/// The events with firings in between, whose interrupts turn out to be none; the Rust driver tells where it reads them.
fn interrupted(events: &[u8]) -> Vec<u8> {
    crate::rust::detours(&startup(), events)
}
