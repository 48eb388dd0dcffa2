//! Shows what a driver remembers. A step's own output has the state, the transfer and the
//! actions, but no flag and no place; those decide what the driver does later on. So after
//! a step the driver is led on until everything it remembers has had its turn: startup to
//! its end, out of sleep, through a waiting commit, a waiting stop, a frame that is being
//! received and one that is to be sent. An interrupt that comes in the length read ends this,
//! since the domain ends there: it is avoided where it does not wait already.

use crate::action::Kind;
use crate::domain;
use crate::line::{Call, Line};
use crate::view::View;

/// The most lines of a read-out; the longest way through startup and a frame is shorter.
pub const LONGEST: usize = 90;

const PLL_ON: u8 = 0x09;
const RX_AACK_ON: u8 = 0x16;
const PLL_LOCK: u8 = 0x01;
const TRX_END: u8 = 0x08;
const RX_START_AND_END: u8 = 0x0C;
const FRAME_LENGTH: u8 = 11;
/// A CRC that is valid; as TRAC, no acknowledgement.
const OTHER_RESULT: u8 = 0x80;

/// How often a firing is tried: first one that ends a frame, which matters only to a
/// driver that is receiving, then one that also begins it.
const FIRINGS: u8 = 3;

/// What shows at once when a frame comes in: whether one is being received, whether one
/// is to be sent, and whether the receive place is filled. What waits shows when it does
/// not. So there are two ways to lead on.
pub const WAYS: [ReadOut; 2] = [ReadOut::new(false), ReadOut::new(true)];

#[derive(Clone, Copy)]
pub struct ReadOut {
    firings: u8,
    /// A frame comes in first; then the driver is only led to where it rests.
    frame_first: bool,
}

impl ReadOut {
    const fn new(frame_first: bool) -> ReadOut {
        ReadOut {
            firings: 0,
            frame_first,
        }
    }

    /// What comes next, or nothing when the driver has shown all.
    pub fn next(&mut self, view: &View) -> Option<Line> {
        if self.frame_first && self.firings == 0 {
            let firing = self.firing();
            if !reads_next(view) {
                return Some(Line::Call(firing));
            }
        }
        let call = match (view.kind(), view.state()) {
            (Some(kind), state) => self.completion(kind, state, view),
            _ if self.frame_first => return None,
            (None, 0 | 31) => Call::Start,
            // Whether the driver remembers that it is to wake shows only here.
            (None, 27) => Call::Stop,
            _ if self.firings == FIRINGS => return None,
            _ => self.firing(),
        };
        Some(Line::Call(call))
    }

    fn firing(&mut self) -> Call {
        self.firings += 1;
        Call::Fired
    }

    fn completion(&self, kind: Kind, state: u8, view: &View) -> Call {
        let status = if state == 38 { PLL_ON } else { RX_AACK_ON };
        let (flags, cells) = (&view.image.flags, &view.image.cells);
        let result = match (kind, state) {
            (Kind::FrameRead, _) => domain::second_length(view).unwrap_or(FRAME_LENGTH),
            _ if !flags.interrupt_handling => OTHER_RESULT,
            // The interrupt that waits has its turn before a frame is read.
            _ if flags.interrupt_pending && cells.rx_buf.is_some() => 0,
            _ if self.frame_first => RX_START_AND_END,
            (_, 27) => PLL_LOCK,
            (_, 40) => TRX_END,
            _ if self.firings < 2 => TRX_END,
            _ => RX_START_AND_END,
        };
        Call::ReadWriteDone(vec![status, result])
    }
}

/// Whether the length read is under way, or the interrupt is that it follows: then the frame
/// comes in without a firing.
fn reads_next(view: &View) -> bool {
    let handling = view.image.flags.interrupt_handling || view.state() == 60;
    view.state() == 63 || (handling && view.image.cells.rx_buf.is_some())
}
