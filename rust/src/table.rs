//! The table, and the calls on it.
use core::fmt;

use crate::refusal::{Refusal, done};
use crate::sys::{self, REGISTERS};
use crate::types::{BridgeNumber, BridgeRow, Holding, Place, SessionNumber};

/// The table of host bridges. It comes only from a start, and only the calls change it:
///
/// ```compile_fail,E0423
/// # fn by_hand(bridges: slipwattle::sys::Table) -> slipwattle::Table {
/// slipwattle::Table(bridges)
/// # }
/// ```
///
/// The calls that take `&self` leave it as it was, which is proved, and may be made by several threads at once. That they store nothing
/// into it, on which `&self` rests, is not proved: tests/read_only.rs makes them on a table in read-only memory.
#[repr(transparent)]
pub struct Table(sys::Table);

impl Table {
    /// Starts a table from the bytes of the ACPI MCFG table, header and 0 to 64 entries, and a list of 0 to 64 bridge rows. Bridges are
    /// numbered from 0 in the order of the list; they hold nothing at first.
    ///
    /// # Errors
    ///
    /// [`Mcfg`](Refusal::Mcfg), then [`Rows`](Refusal::Rows).
    ///
    /// ```
    #[doc = include_str!("example_start.txt")]
    /// let table = Table::start(&mcfg, &[row])?;
    /// assert_eq!(table.len(), 1);
    /// let refused = Table::start(&mcfg, &[row, row]);
    /// assert_eq!(refused.unwrap_err(), Refusal::Rows); // they share a bus
    /// # Ok::<(), Refusal>(())
    /// ```
    pub fn start(mcfg: &[u8], rows: &[BridgeRow]) -> Result<Table, Refusal> {
        // SAFETY: each pointer leads to its length of bytes, or of rows, which the call only reads. A row lies in memory as sys's does
        // (the asserts at `BridgeRow`).
        let started = unsafe {
            sys::slipwattle_start(
                mcfg.as_ptr(),
                mcfg.len(),
                rows.as_ptr().cast::<sys::BridgeRow>(),
                rows.len(),
            )
        };
        done(started.number)?;
        Ok(Table(started.table))
    }

    /// How many bridges the table has.
    pub fn len(&self) -> usize {
        self.0.count
    }

    /// Whether the table has no bridge.
    pub fn is_empty(&self) -> bool {
        self.len() == 0
    }

    /// Answers an _OSC call on a bridge of the session: `uuid` is 16 bytes as they stand in the buffer, `revision` and `count` are the
    /// call's arguments, `capabilities` and `answer` have 4 x `count` bytes each, little-endian DWORDs: status, support, control.
    ///
    /// Where the call is done the answer is full, and its status DWORD is 0 or a status of [`osc`](crate::osc), which says what is granted.
    /// Without the [`QUERY_FLAG`](crate::osc::QUERY_FLAG) in the capabilities' first DWORD the granted control bits join those held, and the
    /// known support bits those supported. Which are known goes by the [`Edition`](crate::Edition) of the bridge's row.
    ///
    /// To negotiate, send a query, then a second one for the control bits that came back, then a taking call for these, all three with the
    /// same support DWORD. If no other taking call or reset reaches the bridge meanwhile, the second answer is not masked, and the taking
    /// call grants exactly these bits.
    ///
    /// # Errors
    ///
    /// [`NoSuchBridge`](Refusal::NoSuchBridge), then [`NotOwner`](Refusal::NotOwner), then [`Framing`](Refusal::Framing). The answer is
    /// left as it was.
    ///
    /// ```
    #[doc = include_str!("example_start.txt")]
    /// // PME that is not held yet is granted only in a call that also asks for the Express capability structure.
    /// let take = [0, 0, CONTROL_PME].map(u32::to_le_bytes);
    /// let mut answer = [[0; 4]; 3];
    /// let (capabilities, filled) = (take.as_flattened(), answer.as_flattened_mut());
    /// table.osc(session, bridge, OSC_REVISION, OSC_COUNT, &OSC_UUID, capabilities, filled)?;
    /// assert_eq!(answer.map(u32::from_le_bytes), [STATUS_MASKED, 0, 0]);
    /// # Ok::<(), Refusal>(())
    /// ```
    #[expect(
        clippy::too_many_arguments,
        reason = "they are those of the C call, which are those of _OSC"
    )]
    pub fn osc(
        &mut self,
        session: SessionNumber,
        bridge: BridgeNumber,
        revision: u32,
        count: u32,
        uuid: &[u8],
        capabilities: &[u8],
        answer: &mut [u8],
    ) -> Result<(), Refusal> {
        // SAFETY: the table comes from a start. Each pointer leads to its length of bytes. The call changes the table and the answer
        // alone, and both are borrowed as `&mut`, so that they overlap nothing else and no other thread uses them.
        done(unsafe {
            sys::slipwattle_osc(
                &mut self.0,
                session.lent(),
                bridge.lent(),
                revision,
                count,
                uuid.as_ptr(),
                uuid.len(),
                capabilities.as_ptr(),
                capabilities.len(),
                answer.as_mut_ptr(),
                answer.len(),
            )
        })
    }

    /// Sets the held and supported bits of a bridge of the session to 0.
    ///
    /// # Errors
    ///
    /// [`NoSuchBridge`](Refusal::NoSuchBridge), then [`NotOwner`](Refusal::NotOwner).
    ///
    /// ```
    #[doc = include_str!("example_start.txt")]
    /// table.reset(session, bridge)?;
    /// assert_eq!(table.report(session, bridge)?.held, 0);
    /// # Ok::<(), Refusal>(())
    /// ```
    pub fn reset(&mut self, session: SessionNumber, bridge: BridgeNumber) -> Result<(), Refusal> {
        // SAFETY: the table comes from a start. It is borrowed as `&mut`, so that no other thread uses it.
        done(unsafe { sys::slipwattle_reset(&mut self.0, session.lent(), bridge.lent()) })
    }

    /// What a bridge of the session holds.
    ///
    /// # Errors
    ///
    /// [`NoSuchBridge`](Refusal::NoSuchBridge), then [`NotOwner`](Refusal::NotOwner).
    ///
    /// ```
    #[doc = include_str!("example_start.txt")]
    /// let take = [0, SUPPORT_MSI, CONTROL_ALL_3_0].map(u32::to_le_bytes);
    /// let (capabilities, answer) = (take.as_flattened(), &mut [0; 12]);
    /// table.osc(session, bridge, OSC_REVISION, OSC_COUNT, &OSC_UUID, capabilities, answer)?;
    /// let holding = table.report(session, bridge)?;
    /// assert_eq!((holding.held, holding.supported), (CONTROL_ALL_3_0, SUPPORT_MSI));
    /// # Ok::<(), Refusal>(())
    /// ```
    pub fn report(&self, session: SessionNumber, bridge: BridgeNumber) -> Result<Holding, Refusal> {
        // SAFETY: the table comes from a start, and the call only reads it.
        let reported = unsafe { sys::slipwattle_report(&self.0, session.lent(), bridge.lent()) };
        done(reported.number)?;
        Ok(Holding {
            held: reported.holding.held,
            supported: reported.holding.supported,
        })
    }

    /// The ECAM address of a place on a bridge of the session, for an access of `width` bytes:
    /// base + bus x 2^20 + device x 2^15 + function x 2^12 + offset. A place that [`locate`](Table::locate) gave, asked for with width 1,
    /// gives its address again.
    ///
    /// # Errors
    ///
    /// [`NoSuchBridge`](Refusal::NoSuchBridge), then [`NotOwner`](Refusal::NotOwner), then [`BadPlace`](Refusal::BadPlace), then
    /// [`NoSuchBus`](Refusal::NoSuchBus).
    ///
    /// ```
    #[doc = include_str!("example_start.txt")]
    /// let place = Place { bridge, bus: 1, device: 2, function: 3, offset: 4094 };
    /// let address = table.address(session, place, 2)?;
    /// assert_eq!(address, 0xE011_3FFE);
    /// assert_eq!(table.address(session, place, 4), Err(Refusal::BadPlace));
    /// assert_eq!(table.address(session, table.locate(session, address)?, 1)?, address);
    /// # Ok::<(), Refusal>(())
    /// ```
    pub fn address(
        &self,
        session: SessionNumber,
        place: Place,
        width: u32,
    ) -> Result<u64, Refusal> {
        // SAFETY: the table comes from a start, and the call only reads it.
        let addressed = unsafe {
            sys::slipwattle_address(
                &self.0,
                session.lent(),
                place.bridge.lent(),
                place.bus.into(),
                place.device.into(),
                place.function.into(),
                place.offset.into(),
                width,
            )
        };
        done(addressed.number)?;
        Ok(addressed.address)
    }

    /// The place that an address leads to in a bridge of the session.
    ///
    /// # Errors
    ///
    /// [`NoSuchBus`](Refusal::NoSuchBus).
    ///
    /// ```
    #[doc = include_str!("example_start.txt")]
    /// let place = table.locate(session, 0xE011_3010)?;
    /// assert_eq!((place.bridge, place.bus, place.offset), (bridge, 1, 0x10));
    /// assert_eq!(table.locate(SessionNumber(2), 0xE011_3010), Err(Refusal::NoSuchBus));
    /// # Ok::<(), Refusal>(())
    /// ```
    pub fn locate(&self, session: SessionNumber, address: u64) -> Result<Place, Refusal> {
        // SAFETY: the table comes from a start, and the call only reads it.
        let located = unsafe { sys::slipwattle_locate(&self.0, session.lent(), address) };
        done(located.number)?;
        let place = located.place;
        Ok(Place {
            bridge: BridgeNumber(place.bridge.number),
            bus: place.bus,
            device: place.device,
            function: place.function,
            offset: place.offset,
        })
    }

    /// The new register values by the type 2 record of the slot's and the bridge's record blocks (see
    /// [`find_record`](crate::find_record)). `current` has the 8 current values in the order of the record's pairs: Uncorrectable Error
    /// Mask and Severity, Correctable Error Mask, Advanced Error Capabilities and Control, Device Control, Link Control, Secondary
    /// Uncorrectable Error Severity and Mask.
    ///
    /// A new value is (current AND mask) OR mask. In Device Control bits 5 to 7 and 12 to 14 (Max_Payload_Size, Max_Read_Request_Size)
    /// keep their current value whatever the record says. Where the bridge holds [`CONTROL_AER`](crate::osc::CONTROL_AER) all but Device
    /// Control and Link Control stay. A pair of [`Masks`](crate::Masks) that has no meaning makes the block unsound, also where it would
    /// not be used.
    ///
    /// # Errors
    ///
    /// [`NoSuchBridge`](Refusal::NoSuchBridge), then [`NotOwner`](Refusal::NotOwner), then [`NoHotPlug`](Refusal::NoHotPlug), then
    /// [`Registers`](Refusal::Registers), then [`RecordBlock`](Refusal::RecordBlock), then [`NoRecord`](Refusal::NoRecord).
    ///
    /// ```
    #[doc = include_str!("example_start.txt")]
    /// let take = [0, 0, CONTROL_EXPRESS_HOT_PLUG | CONTROL_EXPRESS_CAPABILITY].map(u32::to_le_bytes);
    /// let (capabilities, answer) = (take.as_flattened(), &mut [0; 12]);
    /// table.osc(session, bridge, OSC_REVISION, OSC_COUNT, &OSC_UUID, capabilities, answer)?;
    /// // A type 2 record whose pairs for Device Control and Link Control are AND 0x5020, OR 0x5020.
    /// let mut block = [0; 71];
    /// block[..4].copy_from_slice(&[2, 68, 0, 1]);
    /// block[39..47].copy_from_slice(&[0x20, 0x50, 0, 0, 0x20, 0x50, 0, 0]);
    /// block.copy_within(39..47, 47);
    /// let current = [0, 0, 0, 0, 0x2810, 0x2810, 0, 0];
    /// let new = table.register_values(session, bridge, &[], &block, &current)?;
    /// assert_eq!(new, [0, 0, 0, 0, 0x2000, 0x5020, 0, 0]);
    /// # Ok::<(), Refusal>(())
    /// ```
    pub fn register_values(
        &self,
        session: SessionNumber,
        bridge: BridgeNumber,
        slot: &[u8],
        bridge_block: &[u8],
        current: &[u32],
    ) -> Result<[u32; REGISTERS], Refusal> {
        // SAFETY: the table comes from a start, and the call only reads it. Each pointer leads to its length of bytes, or of numbers,
        // which the call only reads.
        let values = unsafe {
            sys::slipwattle_register_values(
                &self.0,
                session.lent(),
                bridge.lent(),
                slot.as_ptr(),
                slot.len(),
                bridge_block.as_ptr(),
                bridge_block.len(),
                current.as_ptr(),
                current.len(),
            )
        };
        done(values.number)?;
        Ok(values.values)
    }
}

/// The count of bridges alone, since what they hold is their owners' matter.
impl fmt::Debug for Table {
    fn fmt(&self, f: &mut fmt::Formatter<'_>) -> fmt::Result {
        f.debug_struct("Table")
            .field("count", &self.0.count)
            .finish_non_exhaustive()
    }
}
