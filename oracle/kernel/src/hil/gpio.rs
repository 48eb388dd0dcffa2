//! Pins and their interrupts. The kernel splits `Pin` into several traits; the driver
//! only ever holds a whole pin, so one trait serves here.

#[derive(Clone, Copy, Debug, PartialEq, Eq)]
pub enum FloatingState {
    PullUp,
    PullDown,
    PullNone,
}

#[derive(Clone, Copy, Debug, PartialEq, Eq)]
pub enum InterruptEdge {
    RisingEdge,
    FallingEdge,
    EitherEdge,
}

pub trait Pin {
    fn make_output(&self);
    fn make_input(&self);
    fn set_floating_state(&self, state: FloatingState);
    fn set(&self);
    fn clear(&self);
}

pub trait InterruptPin<'a>: Pin {
    fn set_client(&self, client: &'a dyn Client);
    fn enable_interrupts(&self, mode: InterruptEdge);
    fn disable_interrupts(&self);
}

/// Whoever wants to hear that a pin's interrupt fired.
pub trait Client {
    fn fired(&self);
}
