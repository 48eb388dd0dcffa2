//! The memory that the pool lies in, and the slices of it that are lent to the driver.
//!
//! This is the only unsafe code. The driver asks for `&'static mut` slices, which a
//! test bench can only make from a raw pointer. It is sound enough because no byte is
//! ever in two live slices: buffers lie 160 bytes apart and none is longer; a buffer
//! that the driver has is never lent again (a call that offers it gets a slice of the
//! spare memory, see `spare`); and everything that the bench reads or writes for itself
//! goes through the pointer, between calls.

use std::cell::UnsafeCell;
use std::ptr;

/// Bytes of the area; the pool is its first part.
pub const AREA: usize = 4096;
/// Bytes of the pool: 19 buffers.
pub const POOL: usize = BUFFERS * BUFFER;
/// Bytes of a buffer at most, and the distance from one to the next.
pub const BUFFER: usize = 160;
/// Buffers of the pool.
pub const BUFFERS: usize = 19;
/// The first buffers are the clients'.
pub const CLIENT_BUFFERS: usize = 16;

pub const SPI_TX: usize = 16;
pub const SPI_RX: usize = 17;
pub const SPI_BUF: usize = 18;

/// The area, with one buffer of spare memory behind it.
pub struct Area {
    bytes: UnsafeCell<[u8; AREA + BUFFER]>,
}

impl Area {
    /// Makes an area that lasts as long as the program, as the driver's slices must.
    pub fn leak() -> &'static Area {
        Box::leak(Box::new(Area {
            bytes: UnsafeCell::new([0; AREA + BUFFER]),
        }))
    }

    /// Buffer `buffer` as the slice that the driver is handed.
    pub fn lend(&'static self, buffer: usize, length: usize) -> &'static mut [u8] {
        assert!(buffer < BUFFERS && length <= BUFFER);
        self.slice(buffer * BUFFER, length)
    }

    /// A slice that stands in for a buffer that the driver has, in a call that refuses it.
    pub fn spare(&'static self, length: usize) -> &'static mut [u8] {
        assert!(length <= BUFFER);
        self.slice(AREA, length)
    }

    // Callers keep the promise that a mutable reference to the area would make.
    #[allow(clippy::mut_from_ref)]
    fn slice(&'static self, at: usize, length: usize) -> &'static mut [u8] {
        assert!(at + length <= AREA + BUFFER);
        // SAFETY: inside the allocation, which is never freed; not aliased, as said above.
        unsafe { std::slice::from_raw_parts_mut(self.start().add(at), length) }
    }

    /// Which buffer a slice of the pool belongs to.
    pub fn buffer_of(&self, slice: &[u8]) -> usize {
        (slice.as_ptr() as usize - self.start() as usize) / BUFFER
    }

    /// Writes bytes from outside the driver.
    pub fn write(&self, at: usize, bytes: &[u8]) {
        assert!(at + bytes.len() <= AREA);
        // SAFETY: inside the allocation; no slice of it is in use while the bench writes.
        unsafe { ptr::copy_nonoverlapping(bytes.as_ptr(), self.start().add(at), bytes.len()) }
    }

    /// All bytes of the area.
    pub fn bytes(&self) -> [u8; AREA] {
        // SAFETY: inside the allocation, which begins with the area; no slice of it is in use
        // while the bench reads.
        unsafe { self.start().cast::<[u8; AREA]>().read() }
    }

    fn start(&self) -> *mut u8 {
        self.bytes.get().cast()
    }
}
