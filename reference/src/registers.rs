//! Register values from the PCI Express setting record.

use core::ops::Range;

use crate::bridge::Bridge;
use crate::edition::{AER, EXPRESS_HOT_PLUG};
use crate::limits::MAX_WORD;
use crate::masks::REGISTERS;
use crate::records::{PCI_EXPRESS, pairs, search};
use crate::refusal::Refusal;

/// Device Control and Link Control, the 16-bit registers; the other six are the error registers.
const CONTROL: Range<usize> = DEVICE_CONTROL..6;
const DEVICE_CONTROL: usize = 4;
/// Bits 5 to 7 and 12 to 14 of Device Control, which are left to the driver.
const LEFT_TO_DRIVER: u32 = 0b111 << 5 | 0b111 << 12;

impl Bridge {
    /// The new register values, or refusal 11, 10, 8 or 9.
    #[inline]
    pub(crate) fn register_values(
        &self,
        slot: &[u8],
        bridge_block: &[u8],
        current: &[u32],
    ) -> Result<[u32; REGISTERS], Refusal> {
        let held = u32::from(self.held);
        if held & EXPRESS_HOT_PLUG == 0 {
            return Err(Refusal::NoHotPlug);
        }
        let current: &[u32; REGISTERS] = current.try_into().map_err(|_| Refusal::Registers)?;
        if current[CONTROL].iter().any(|&value| value > MAX_WORD) {
            return Err(Refusal::Registers);
        }
        let record = search(slot, bridge_block, PCI_EXPRESS.into())?;
        let mut values = *current;
        for (value, masks) in values.iter_mut().zip(pairs(record.numbers)) {
            *value = masks.new_value(*value);
        }
        if held & AER != 0 {
            values[..CONTROL.start].copy_from_slice(&current[..CONTROL.start]);
            values[CONTROL.end..].copy_from_slice(&current[CONTROL.end..]);
        }
        values[DEVICE_CONTROL] &= !LEFT_TO_DRIVER;
        values[DEVICE_CONTROL] |= current[DEVICE_CONTROL] & LEFT_TO_DRIVER;
        Ok(values)
    }
}
