//! The states whose case only writes one register and goes on: most of a startup, and a
//! commit. A table of the register, its value and the next state.

use super::chip::*;
use super::driver::Settings;
use super::power::power_to_setting;
use super::states::*;
use super::step::Step;

/// A value, or which setting it is taken from.
#[derive(Clone, Copy)]
enum Value {
    Is(u8),
    Channel,
    Power,
    AddressLow,
    AddressHigh,
    PanLow,
    PanHigh,
    /// A byte of the long address.
    Long(usize),
}

use Value::*;

/// A state, the register that its case writes, the value, and the next state.
type Row = (u8, u8, Value, u8);

const LONG: u8 = IEEE_ADDR_0;

// Each row on one line.
#[rustfmt::skip]
const ROWS: [Row; 38] = [
    (START_CTRL1_SET, PHY_CC_CCA, Channel, START_CCA_SET),
    (START_CCA_SET, PHY_TX_PWR, Power, START_PWR_SET),
    (START_PWR_SET, TRX_CTRL_2, Is(TRX_CTRL_2_VALUE), START_CTRL2_SET),
    (START_CTRL2_SET, IRQ_MASK, Is(IRQ_MASK_VALUE), START_IRQMASK_SET),
    (START_IRQMASK_SET, XAH_CTRL_1, Is(XAH_CTRL_1_VALUE), START_XAH1_SET),
    (START_XAH1_SET, XAH_CTRL_0, Is(XAH_CTRL_0_VALUE), START_XAH0_SET),
    (START_XAH0_SET, PAN_ID_0, PanLow, START_PANID0_SET),
    (START_PANID0_SET, PAN_ID_1, PanHigh, START_PANID1_SET),
    (START_PANID1_SET, LONG, Long(0), START_IEEE0_SET),
    (START_IEEE0_SET, LONG + 1, Long(1), START_IEEE1_SET),
    (START_IEEE1_SET, LONG + 2, Long(2), START_IEEE2_SET),
    (START_IEEE2_SET, LONG + 3, Long(3), START_IEEE3_SET),
    (START_IEEE3_SET, LONG + 4, Long(4), START_IEEE4_SET),
    (START_IEEE4_SET, LONG + 5, Long(5), START_IEEE5_SET),
    (START_IEEE5_SET, LONG + 6, Long(6), START_IEEE6_SET),
    (START_IEEE6_SET, LONG + 7, Long(7), START_IEEE7_SET),
    (START_IEEE7_SET, SHORT_ADDR_0, AddressLow, START_SHORT0_SET),
    (START_SHORT0_SET, SHORT_ADDR_1, AddressHigh, START_SHORT1_SET),
    (START_SHORT1_SET, CSMA_SEED_0, Is(CSMA_SEED_0_VALUE), START_CSMA_0_SEEDED),
    (START_CSMA_0_SEEDED, CSMA_SEED_1, Is(CSMA_SEED_1_VALUE), START_CSMA_1_SEEDED),
    (START_CSMA_1_SEEDED, TRX_RPC, Is(TRX_RPC_VALUE), START_RPC_SET),
    (ON_STATUS_READ, TRX_STATE, Is(COMMAND_PLL_ON), ON_PLL_WAITING),
    (ON_PLL_SET, TRX_STATE, Is(COMMAND_RX_AACK_ON), READY),
    (TX_ARET_ON, TRX_STATE, Is(COMMAND_TX_START), TX_TRANSMITTING),
    (TX_DONE, TRX_STATE, Is(COMMAND_RX_AACK_ON), TX_READ_ACK),
    (CONFIG_SHORT0_SET, SHORT_ADDR_1, AddressHigh, CONFIG_SHORT1_SET),
    (CONFIG_SHORT1_SET, PAN_ID_0, PanLow, CONFIG_PAN0_SET),
    (CONFIG_PAN0_SET, PAN_ID_1, PanHigh, CONFIG_PAN1_SET),
    (CONFIG_PAN1_SET, LONG, Long(0), CONFIG_IEEE0_SET),
    (CONFIG_IEEE0_SET, LONG + 1, Long(1), CONFIG_IEEE1_SET),
    (CONFIG_IEEE1_SET, LONG + 2, Long(2), CONFIG_IEEE2_SET),
    (CONFIG_IEEE2_SET, LONG + 3, Long(3), CONFIG_IEEE3_SET),
    (CONFIG_IEEE3_SET, LONG + 4, Long(4), CONFIG_IEEE4_SET),
    (CONFIG_IEEE4_SET, LONG + 5, Long(5), CONFIG_IEEE5_SET),
    (CONFIG_IEEE5_SET, LONG + 6, Long(6), CONFIG_IEEE6_SET),
    (CONFIG_IEEE6_SET, LONG + 7, Long(7), CONFIG_IEEE7_SET),
    (CONFIG_IEEE7_SET, PHY_TX_PWR, Power, CONFIG_POWER_SET),
    (CONFIG_POWER_SET, PHY_CC_CCA, Channel, CONFIG_DONE),
];

impl Value {
    fn of(self, settings: &Settings) -> u8 {
        let (address, pan) = (settings.addr.to_le_bytes(), settings.pan.to_le_bytes());
        match self {
            Is(value) => value,
            Channel => settings.channel,
            Power => power_to_setting(settings.tx_power),
            AddressLow => address[0],
            AddressHigh => address[1],
            PanLow => pan[0],
            PanHigh => pan[1],
            Long(place) => settings.addr_long[place],
        }
    }
}

impl Step<'_> {
    /// The write of the present state's row; false where it has none.
    pub fn chained(&mut self) -> bool {
        let state = self.driver.state;
        let Some((_, register, value, next)) = ROWS.iter().find(|row| row.0 == state) else {
            return false;
        };
        let value = value.of(&self.driver.settings);
        self.transition_write(*register, value, *next);
        true
    }

    /// The first write of a commit.
    pub fn start_commit(&mut self) {
        let low = AddressLow.of(&self.driver.settings);
        self.transition_write(SHORT_ADDR_0, low, CONFIG_SHORT0_SET);
    }
}
