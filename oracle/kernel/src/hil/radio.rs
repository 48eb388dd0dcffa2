//! The 802.15.4 radio interface: calls, clients, channels and frame sizes.

use crate::ErrorCode;

/// Where the frame begins in a buffer: behind the bus command and the length byte.
pub const PSDU_OFFSET: usize = 2;
/// Bytes of the frame check sequence.
pub const MFR_SIZE: usize = 2;
pub const MAX_FRAME_SIZE: usize = 127;
pub const MIN_FRAME_SIZE: usize = 11;

pub trait TxClient {
    fn send_done(&self, buf: &'static mut [u8], acked: bool, result: Result<(), ErrorCode>);
}

pub trait RxClient {
    fn receive(
        &self,
        buf: &'static mut [u8],
        frame_len: usize,
        lqi: u8,
        crc_valid: bool,
        result: Result<(), ErrorCode>,
    );
}

pub trait ConfigClient {
    fn config_done(&self, result: Result<(), ErrorCode>);
}

pub trait PowerClient {
    fn changed(&self, on: bool);
}

pub trait RadioConfig<'a> {
    fn initialize(&self) -> Result<(), ErrorCode>;
    fn reset(&self) -> Result<(), ErrorCode>;
    fn start(&self) -> Result<(), ErrorCode>;
    fn stop(&self) -> Result<(), ErrorCode>;
    fn is_on(&self) -> bool;
    fn busy(&self) -> bool;
    fn set_power_client(&self, client: &'a dyn PowerClient);
    fn config_commit(&self);
    fn set_config_client(&self, client: &'a dyn ConfigClient);
    fn get_address(&self) -> u16;
    fn get_address_long(&self) -> [u8; 8];
    fn get_pan(&self) -> u16;
    fn get_tx_power(&self) -> i8;
    fn get_channel(&self) -> u8;
    fn set_address(&self, addr: u16);
    fn set_address_long(&self, addr: [u8; 8]);
    fn set_pan(&self, id: u16);
    fn set_tx_power(&self, power: i8) -> Result<(), ErrorCode>;
    fn set_channel(&self, chan: RadioChannel);
}

pub trait RadioData<'a> {
    fn set_transmit_client(&self, client: &'a dyn TxClient);
    fn set_receive_client(&self, client: &'a dyn RxClient);
    fn set_receive_buffer(&self, buffer: &'static mut [u8]);
    fn transmit(
        &self,
        buf: &'static mut [u8],
        frame_len: usize,
    ) -> Result<(), (ErrorCode, &'static mut [u8])>;
}

/// The channels of the 2.4 GHz band.
#[derive(Clone, Copy, Debug, PartialEq, Eq)]
pub enum RadioChannel {
    Channel11 = 11,
    Channel12,
    Channel13,
    Channel14,
    Channel15,
    Channel16,
    Channel17,
    Channel18,
    Channel19,
    Channel20,
    Channel21,
    Channel22,
    Channel23,
    Channel24,
    Channel25,
    Channel26,
}

impl RadioChannel {
    const ALL: [RadioChannel; 16] = [
        RadioChannel::Channel11,
        RadioChannel::Channel12,
        RadioChannel::Channel13,
        RadioChannel::Channel14,
        RadioChannel::Channel15,
        RadioChannel::Channel16,
        RadioChannel::Channel17,
        RadioChannel::Channel18,
        RadioChannel::Channel19,
        RadioChannel::Channel20,
        RadioChannel::Channel21,
        RadioChannel::Channel22,
        RadioChannel::Channel23,
        RadioChannel::Channel24,
        RadioChannel::Channel25,
        RadioChannel::Channel26,
    ];

    pub fn get_channel_number(&self) -> u8 {
        *self as u8
    }
}

impl TryFrom<u8> for RadioChannel {
    type Error = ();

    fn try_from(number: u8) -> Result<Self, ()> {
        let place = number.checked_sub(11).ok_or(())?;
        RadioChannel::ALL.get(usize::from(place)).copied().ok_or(())
    }
}

#[cfg(test)]
mod tests {
    use super::RadioChannel;

    #[test]
    fn exactly_eleven_to_twenty_six_are_channels() {
        for number in 0..=255u8 {
            let channel = RadioChannel::try_from(number);
            let expected = (11..=26).contains(&number).then_some(number);
            assert_eq!(channel.ok().map(|c| c.get_channel_number()), expected);
        }
    }
}
