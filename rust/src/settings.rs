//! Record blocks by value, written and read. Neither takes a table.
use core::array;

use crate::records::find_record;
use crate::refusal::{Refusal, done};
use crate::sys::{self, ExpressSetting, Masks, PciSetting, PciXSetting};

/// The revision 1 records of a block, at most one of each type. By default there is none.
///
/// What [`write`](Settings::write) wrote is read back by [`read`](Settings::read) as the same settings, and a sound block of revision 1
/// records of types 0 to 2 alone, in rising order, read and written again gives the same bytes. Both are proved of the library's writer and
/// record search; how this crate hands settings over, and takes the numbers out of a record that was found, is tested.
///
/// ```
/// use slipwattle::{MAX_WRITTEN, PciXSetting, Refusal, Settings};
///
/// let pci_x = PciXSetting {
///     maximum_memory_read_byte_count: 3,
///     average_maximum_outstanding_split_transactions: 4,
///     total_maximum_outstanding_split_transactions: 7,
/// };
/// let settings = Settings { pci_x: Some(pci_x), ..Settings::default() };
/// let mut buffer = [0; MAX_WRITTEN];
/// let block = settings.write(&mut buffer)?;
/// assert_eq!(block, [1, 16, 0, 1, 0, 0, 0, 3, 0, 0, 0, 4, 0, 0, 0, 7, 0, 0, 0]);
/// assert_eq!(Settings::read(block)?, settings);
/// # Ok::<(), Refusal>(())
/// ```
#[derive(Clone, Copy, Debug, Default, PartialEq, Eq)]
pub struct Settings {
    /// The PCI setting record, type 0.
    pub pci: Option<PciSetting>,
    /// The PCI-X setting record, type 1.
    pub pci_x: Option<PciXSetting>,
    /// The PCI Express setting record, type 2.
    pub express: Option<ExpressSetting>,
}

impl Settings {
    /// Writes the records, by rising type, as a record block at the start of the buffer, and leaves the rest of it as it was. The block is
    /// handed back as a part of the buffer. A record of type 0, 1 or 2 takes 23, 19 or 71 bytes, header included, and so the block
    /// [`MAX_WRITTEN`](crate::MAX_WRITTEN) at most.
    ///
    /// # Errors
    ///
    /// [`RecordValue`](Refusal::RecordValue), then [`ShortBuffer`](Refusal::ShortBuffer). The buffer is left as it was.
    ///
    /// ```
    /// use slipwattle::{PciSetting, Refusal, Settings};
    ///
    /// let mut pci =
    ///     PciSetting { cache_line_size: 8, latency_timer: 0x40, enable_serr: 1, enable_perr: 0 };
    /// let settings = Settings { pci: Some(pci), ..Settings::default() };
    /// assert_eq!(settings.write(&mut [0; 22]), Err(Refusal::ShortBuffer));
    /// assert_eq!(settings.write(&mut [0; 30])?.len(), 23);
    /// pci.enable_serr = 2;
    /// let settings = Settings { pci: Some(pci), ..Settings::default() };
    /// assert_eq!(settings.write(&mut []), Err(Refusal::RecordValue));
    /// # Ok::<(), Refusal>(())
    /// ```
    pub fn write<'a>(&self, buffer: &'a mut [u8]) -> Result<&'a mut [u8], Refusal> {
        // SAFETY: the pointer leads to its length of bytes. The call changes them alone, and they are borrowed as `&mut`, so that they
        // overlap nothing else and no other thread uses them.
        let written = unsafe {
            sys::slipwattle_write_records(self.lent(), buffer.as_mut_ptr(), buffer.len())
        };
        done(written.number)?;
        Ok(&mut buffer[..written.length])
    }

    /// Reads the records of a block, each as [`find_record`] finds it: other types and revisions are passed over.
    ///
    /// # Errors
    ///
    /// [`RecordBlock`](Refusal::RecordBlock).
    ///
    /// ```
    /// use slipwattle::{Refusal, Settings};
    ///
    /// let block = [1, 16, 0, 1, 0, 0, 0, 3, 0, 0, 0, 4, 0, 0, 0, 7, 0, 0, 0];
    /// let settings = Settings::read(&block)?;
    /// assert_eq!(settings.pci_x.unwrap().total_maximum_outstanding_split_transactions, 7);
    /// assert_eq!(settings.pci, None);
    /// assert_eq!(Settings::read(&block[..18]), Err(Refusal::RecordBlock));
    /// # Ok::<(), Refusal>(())
    /// ```
    pub fn read(block: &[u8]) -> Result<Settings, Refusal> {
        Ok(Settings {
            pci: numbers(block, 0)?.map(pci),
            pci_x: numbers(block, 1)?.map(pci_x),
            express: numbers(block, 2)?.map(express),
        })
    }

    /// As the call takes them; the numbers of an absent record are 0.
    fn lent(&self) -> sys::Settings {
        sys::Settings {
            pci: self.pci.unwrap_or(pci([0; 4])),
            pci_x: self.pci_x.unwrap_or(pci_x([0; 3])),
            express: self.express.unwrap_or(express([0; 16])),
            has_pci: self.pci.is_some().into(),
            has_pci_x: self.pci_x.is_some().into(),
            has_express: self.express.is_some().into(),
        }
    }
}

/// The numbers of the block's record of a type, if it has one, without the revision. A sound record has as many as its type has.
fn numbers<const N: usize>(block: &[u8], record_type: u32) -> Result<Option<[u32; N]>, Refusal> {
    let record = match find_record(&[], block, record_type) {
        Ok(record) => record,
        Err(Refusal::NoRecord) => return Ok(None),
        Err(refusal) => return Err(refusal),
    };
    // Tag and length are 3 bytes, the revision 4.
    let (numbers, _) = record[7..].as_chunks();
    Ok(Some(array::from_fn(|k| u32::from_le_bytes(numbers[k]))))
}

fn pci(numbers: [u32; 4]) -> PciSetting {
    let [cache_line_size, latency_timer, enable_serr, enable_perr] = numbers;
    PciSetting {
        cache_line_size,
        latency_timer,
        enable_serr,
        enable_perr,
    }
}

fn pci_x(numbers: [u32; 3]) -> PciXSetting {
    let [read_byte_count, average_splits, total_splits] = numbers;
    PciXSetting {
        maximum_memory_read_byte_count: read_byte_count,
        average_maximum_outstanding_split_transactions: average_splits,
        total_maximum_outstanding_split_transactions: total_splits,
    }
}

fn express(numbers: [u32; 16]) -> ExpressSetting {
    let masks = |k: usize| Masks {
        and: numbers[2 * k],
        or: numbers[2 * k + 1],
    };
    ExpressSetting {
        uncorrectable_error_mask: masks(0),
        uncorrectable_error_severity: masks(1),
        correctable_error_mask: masks(2),
        advanced_error_capabilities_and_control: masks(3),
        device_control: masks(4),
        link_control: masks(5),
        secondary_uncorrectable_error_severity: masks(6),
        secondary_uncorrectable_error_mask: masks(7),
    }
}
