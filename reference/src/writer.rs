//! Record blocks written and read whole: document 02, g.

use core::array;

use crate::limits::{MAX_BYTE, MAX_ENABLE, MAX_READ_COUNT, MAX_SPLITS};
use crate::masks::{Masks, REGISTERS};
use crate::records::{FIELD_HEADER, PCI, PCI_EXPRESS, PCI_X, REVISION, search};
use crate::refusal::Refusal;

/// Numbers of a PCI setting record's value, revision included.
const PCI_NUMBERS: usize = 5;
/// Numbers of a PCI-X setting record's value, revision included.
const PCI_X_NUMBERS: usize = 4;
/// Numbers of a PCI Express setting record's value, revision included.
const EXPRESS_NUMBERS: usize = 1 + 2 * REGISTERS;

/// The records of a block: at most one of each type. By default there is none.
#[derive(Clone, Copy, Debug, Default, PartialEq, Eq)]
pub struct Settings {
    /// The record of type 0.
    pub pci: Option<PciSetting>,
    /// The record of type 1.
    pub pci_x: Option<PciXSetting>,
    /// The record of type 2.
    pub express: Option<ExpressSetting>,
}

/// A PCI setting record, table 6-7.
#[derive(Clone, Copy, Debug, Default, PartialEq, Eq)]
pub struct PciSetting {
    /// In DWORDs, at most 255.
    pub cache_line_size: u32,
    /// In PCI clock cycles, at most 255.
    pub latency_timer: u32,
    /// 0 or 1.
    pub enable_serr: u32,
    /// 0 or 1.
    pub enable_perr: u32,
}

/// A PCI-X setting record, table 6-8.
#[derive(Clone, Copy, Debug, Default, PartialEq, Eq)]
pub struct PciXSetting {
    /// At most 3.
    pub maximum_memory_read_byte_count: u32,
    /// At most 7.
    pub average_maximum_outstanding_split_transactions: u32,
    /// At most 7.
    pub total_maximum_outstanding_split_transactions: u32,
}

/// A PCI Express setting record, table 6-9; each pair must have a meaning, document 02, h.
#[derive(Clone, Copy, Debug, Default, PartialEq, Eq)]
pub struct ExpressSetting {
    /// For the Uncorrectable Error Mask Register.
    pub uncorrectable_error_mask: Masks,
    /// For the Uncorrectable Error Severity Register.
    pub uncorrectable_error_severity: Masks,
    /// For the Correctable Error Mask Register.
    pub correctable_error_mask: Masks,
    /// For the Advanced Error Capabilities and Control Register.
    pub advanced_error_capabilities_and_control: Masks,
    /// For the Device Control Register; at most 65535 each.
    pub device_control: Masks,
    /// For the Link Control Register; at most 65535 each.
    pub link_control: Masks,
    /// For the Secondary Uncorrectable Error Severity Register.
    pub secondary_uncorrectable_error_severity: Masks,
    /// For the Secondary Uncorrectable Error Mask Register.
    pub secondary_uncorrectable_error_mask: Masks,
}

/// Writes the records, which it takes by value, at the buffer's start, by rising type, and gives their length, or refusal 14 or 15.
#[inline(never)]
pub fn write_records(settings: Settings, buffer: &mut [u8]) -> Result<usize, Refusal> {
    if !settings.within_limits() {
        return Err(Refusal::RecordValue);
    }
    let length = settings.length();
    let mut rest = buffer.get_mut(..length).ok_or(Refusal::ShortBuffer)?;
    if let Some(pci) = &settings.pci {
        rest = put_field(rest, PCI, pci.numbers());
    }
    if let Some(pci_x) = &settings.pci_x {
        rest = put_field(rest, PCI_X, pci_x.numbers());
    }
    if let Some(express) = &settings.express {
        put_field(rest, PCI_EXPRESS, express.numbers());
    }
    Ok(length)
}

/// Reads the revision 1 records of a block, or gives refusal 8.
#[inline(never)]
pub fn read_records(block: &[u8]) -> Result<Settings, Refusal> {
    Ok(Settings {
        pci: read_numbers(block, PCI)?.map(PciSetting::from_numbers),
        pci_x: read_numbers(block, PCI_X)?.map(PciXSetting::from_numbers),
        express: read_numbers(block, PCI_EXPRESS)?.map(ExpressSetting::from_numbers),
    })
}

/// Writes a field at the buffer's start and gives the rest of the buffer.
#[inline]
fn put_field<const N: usize>(buffer: &mut [u8], tag: u8, numbers: [u32; N]) -> &mut [u8] {
    let (field, rest) = buffer.split_at_mut(field_length(N));
    let (header, value) = field.split_at_mut(FIELD_HEADER);
    let [l0, l1] = (value.len() as u16).to_le_bytes();
    header.copy_from_slice(&[tag, l0, l1]);
    let (value, _) = value.as_chunks_mut();
    for (to, number) in value.iter_mut().zip(numbers) {
        *to = number.to_le_bytes();
    }
    rest
}

/// Bytes of a field with this many numbers.
const fn field_length(numbers: usize) -> usize {
    FIELD_HEADER + 4 * numbers
}

/// The numbers after the revision of the record of a type, when the block has it.
#[inline]
fn read_numbers<const N: usize>(block: &[u8], tag: u8) -> Result<Option<[u32; N]>, Refusal> {
    let record = match search(block, &[], tag.into()) {
        Ok(record) => record,
        Err(Refusal::NoRecord) => return Ok(None),
        Err(refusal) => return Err(refusal),
    };
    let numbers: [_; N] = record
        .numbers
        .try_into()
        .map_err(|_| Refusal::RecordBlock)?;
    Ok(Some(numbers.map(u32::from_le_bytes)))
}

impl Settings {
    /// Whether no value of a present record is too large and each pair of masks has a meaning.
    fn within_limits(&self) -> bool {
        self.pci.as_ref().is_none_or(PciSetting::within_limits)
            && self.pci_x.as_ref().is_none_or(PciXSetting::within_limits)
            && self
                .express
                .as_ref()
                .is_none_or(ExpressSetting::within_limits)
    }

    /// Bytes of the present records.
    fn length(&self) -> usize {
        let pci = self.pci.map_or(0, |_| field_length(PCI_NUMBERS));
        let pci_x = self.pci_x.map_or(0, |_| field_length(PCI_X_NUMBERS));
        let express = self.express.map_or(0, |_| field_length(EXPRESS_NUMBERS));
        pci + pci_x + express
    }
}

impl PciSetting {
    /// Whether no value is too large.
    fn within_limits(&self) -> bool {
        self.cache_line_size <= MAX_BYTE
            && self.latency_timer <= MAX_BYTE
            && self.enable_serr <= MAX_ENABLE
            && self.enable_perr <= MAX_ENABLE
    }

    /// The numbers of the record's value.
    fn numbers(&self) -> [u32; PCI_NUMBERS] {
        [
            REVISION,
            self.cache_line_size,
            self.latency_timer,
            self.enable_serr,
            self.enable_perr,
        ]
    }

    /// The setting with these numbers after the revision.
    fn from_numbers(numbers: [u32; PCI_NUMBERS - 1]) -> PciSetting {
        let [cache_line_size, latency_timer, enable_serr, enable_perr] = numbers;
        PciSetting {
            cache_line_size,
            latency_timer,
            enable_serr,
            enable_perr,
        }
    }
}

impl PciXSetting {
    /// Whether no value is too large.
    fn within_limits(&self) -> bool {
        self.maximum_memory_read_byte_count <= MAX_READ_COUNT
            && self.average_maximum_outstanding_split_transactions <= MAX_SPLITS
            && self.total_maximum_outstanding_split_transactions <= MAX_SPLITS
    }

    /// The numbers of the record's value.
    fn numbers(&self) -> [u32; PCI_X_NUMBERS] {
        [
            REVISION,
            self.maximum_memory_read_byte_count,
            self.average_maximum_outstanding_split_transactions,
            self.total_maximum_outstanding_split_transactions,
        ]
    }

    /// The setting with these numbers after the revision.
    fn from_numbers(numbers: [u32; PCI_X_NUMBERS - 1]) -> PciXSetting {
        let [read_count, average_splits, total_splits] = numbers;
        PciXSetting {
            maximum_memory_read_byte_count: read_count,
            average_maximum_outstanding_split_transactions: average_splits,
            total_maximum_outstanding_split_transactions: total_splits,
        }
    }
}

impl ExpressSetting {
    /// Whether no value is too large and each pair has a meaning.
    fn within_limits(&self) -> bool {
        self.device_control.within_word()
            && self.link_control.within_word()
            && self.pairs().into_iter().all(Masks::has_meaning)
    }

    /// The pairs of masks, in the order of table 6-9.
    fn pairs(&self) -> [Masks; REGISTERS] {
        [
            self.uncorrectable_error_mask,
            self.uncorrectable_error_severity,
            self.correctable_error_mask,
            self.advanced_error_capabilities_and_control,
            self.device_control,
            self.link_control,
            self.secondary_uncorrectable_error_severity,
            self.secondary_uncorrectable_error_mask,
        ]
    }

    /// The numbers of the record's value.
    fn numbers(&self) -> [u32; EXPRESS_NUMBERS] {
        let mut numbers = [REVISION; EXPRESS_NUMBERS];
        let (places, _) = numbers[1..].as_chunks_mut();
        for (place, masks) in places.iter_mut().zip(self.pairs()) {
            *place = [masks.and, masks.or];
        }
        numbers
    }

    /// The setting with these numbers after the revision.
    fn from_numbers(numbers: [u32; EXPRESS_NUMBERS - 1]) -> ExpressSetting {
        let [
            uncorrectable_error_mask,
            uncorrectable_error_severity,
            correctable_error_mask,
            advanced_error_capabilities_and_control,
            device_control,
            link_control,
            secondary_uncorrectable_error_severity,
            secondary_uncorrectable_error_mask,
        ] = array::from_fn(|register| Masks {
            and: numbers[2 * register],
            or: numbers[2 * register + 1],
        });
        ExpressSetting {
            uncorrectable_error_mask,
            uncorrectable_error_severity,
            correctable_error_mask,
            advanced_error_capabilities_and_control,
            device_control,
            link_control,
            secondary_uncorrectable_error_severity,
            secondary_uncorrectable_error_mask,
        }
    }
}
