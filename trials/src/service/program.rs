//! What the two packages with a Rust interface have in common: the reference implementation, and the safe crate over the proved library.

use crate::given::Handed;

/// Declares a package as a service. Beside it stand the package's `start`, `no_bridges`, `address`, `write` and `read`.
macro_rules! program {
    ($program:ident, $package:ident) => {
        use $package::{
            BridgeNumber, ExpressSetting, Masks, PciSetting, PciXSetting, Refusal, SessionNumber,
            Settings as Records, Table,
        };

        /// The package, with the table that the last start left.
        pub struct $program {
            table: Table,
        }

        impl $program {
            pub fn new() -> $program {
                $program {
                    table: no_bridges(),
                }
            }

            /// The number of the call and what it hands back: zeros if it is refused.
            fn made(&mut self, call: &mut Call) -> Given {
                let zeros = Handed::zeros(call);
                match self.handed(call) {
                    Ok(handed) => Given { number: 0, handed },
                    Err(refusal) => Given {
                        number: refusal.number(),
                        handed: zeros,
                    },
                }
            }

            fn handed(&mut self, call: &mut Call) -> Result<Handed, Refusal> {
                match call {
                    Call::Start(call) => self.start(call),
                    Call::Osc(call) => self.osc(call),
                    Call::Reset(call) => self.reset(call),
                    Call::Report(call) => self.report(call),
                    Call::Address(call) => address(&self.table, call).map(Handed::Address),
                    Call::Locate(call) => self.locate(call),
                    Call::FindRecord(call) => find_record(call),
                    Call::FindImage(call) => find_image(call),
                    Call::WriteRecords(call) => write_records(call),
                    Call::RegisterValues(call) => self.register_values(call),
                }
            }

            fn start(&mut self, call: &Start) -> Result<Handed, Refusal> {
                self.table = no_bridges();
                self.table = start(call)?;
                Ok(Handed::Table {
                    bridges: self.table.len(),
                })
            }

            fn osc(&mut self, call: &mut Osc) -> Result<Handed, Refusal> {
                let done = self.table.osc(
                    SessionNumber(call.session),
                    BridgeNumber(call.bridge),
                    call.revision,
                    call.count,
                    call.uuid.lent(),
                    call.capabilities.lent(),
                    call.answer.lent_mut(),
                );
                done.map(|()| Handed::Nothing)
            }

            fn reset(&mut self, call: &Reset) -> Result<Handed, Refusal> {
                let (session, bridge) = (SessionNumber(call.session), BridgeNumber(call.bridge));
                self.table.reset(session, bridge).map(|()| Handed::Nothing)
            }

            fn report(&self, call: &Report) -> Result<Handed, Refusal> {
                let (session, bridge) = (SessionNumber(call.session), BridgeNumber(call.bridge));
                let $package::Holding { held, supported } = self.table.report(session, bridge)?;
                Ok(Handed::Holding { held, supported })
            }

            fn locate(&self, call: &Locate) -> Result<Handed, Refusal> {
                let place = self
                    .table
                    .locate(SessionNumber(call.session), call.address)?;
                Ok(Handed::Place {
                    bridge: place.bridge.0,
                    bus: place.bus,
                    device: place.device,
                    function: place.function,
                    offset: place.offset,
                })
            }

            fn register_values(&self, call: &RegisterValues) -> Result<Handed, Refusal> {
                let values = self.table.register_values(
                    SessionNumber(call.session),
                    BridgeNumber(call.bridge),
                    call.slot.lent(),
                    call.bridge_block.lent(),
                    call.current.lent(),
                );
                values.map(Handed::Values)
            }
        }

        fn find_record(call: &FindRecord) -> Result<Handed, Refusal> {
            let (slot, bridge_block) = (call.slot.lent(), call.bridge_block.lent());
            let record = $package::find_record(slot, bridge_block, call.record_type)?;
            Ok(record_position(record, slot, bridge_block))
        }

        fn find_image(call: &FindImage) -> Result<Handed, Refusal> {
            let rom = call.rom.lent();
            let image = $package::find_image(rom, call.vendor, call.device, call.code_type)?;
            Ok(image_position(image, rom))
        }

        fn write_records(call: &mut WriteRecords) -> Result<Handed, Refusal> {
            let length = write(&records(&call.settings), call.buffer.lent_mut())?;
            Ok(Handed::Written { length })
        }

        fn read_records(block: &Bytes) -> Result<Settings, u8> {
            let records = read(block.lent()).map_err(Refusal::number)?;
            Ok(settings(&records))
        }

        /// The present records.
        pub fn records(settings: &Settings) -> Records {
            let [pci, pci_x, express] = [0, 1, 2].map(|record_type| settings.of_type(record_type));
            let masks = |register: usize| Masks {
                and: express[2 * register],
                or: express[2 * register + 1],
            };
            Records {
                pci: settings.is_present(0).then(|| PciSetting {
                    cache_line_size: pci[0],
                    latency_timer: pci[1],
                    enable_serr: pci[2],
                    enable_perr: pci[3],
                }),
                pci_x: settings.is_present(1).then(|| PciXSetting {
                    maximum_memory_read_byte_count: pci_x[0],
                    average_maximum_outstanding_split_transactions: pci_x[1],
                    total_maximum_outstanding_split_transactions: pci_x[2],
                }),
                express: settings.is_present(2).then(|| ExpressSetting {
                    uncorrectable_error_mask: masks(0),
                    uncorrectable_error_severity: masks(1),
                    correctable_error_mask: masks(2),
                    advanced_error_capabilities_and_control: masks(3),
                    device_control: masks(4),
                    link_control: masks(5),
                    secondary_uncorrectable_error_severity: masks(6),
                    secondary_uncorrectable_error_mask: masks(7),
                }),
            }
        }

        /// The records with the flag 1.
        fn settings(records: &Records) -> Settings {
            let mut settings = Settings::default();
            if let Some(pci) = records.pci {
                let numbers = [
                    pci.cache_line_size,
                    pci.latency_timer,
                    pci.enable_serr,
                    pci.enable_perr,
                ];
                settings.put(0, &numbers);
            }
            if let Some(pci_x) = records.pci_x {
                let numbers = [
                    pci_x.maximum_memory_read_byte_count,
                    pci_x.average_maximum_outstanding_split_transactions,
                    pci_x.total_maximum_outstanding_split_transactions,
                ];
                settings.put(1, &numbers);
            }
            if let Some(express) = records.express {
                let pairs = [
                    express.uncorrectable_error_mask,
                    express.uncorrectable_error_severity,
                    express.correctable_error_mask,
                    express.advanced_error_capabilities_and_control,
                    express.device_control,
                    express.link_control,
                    express.secondary_uncorrectable_error_severity,
                    express.secondary_uncorrectable_error_mask,
                ];
                let pairs = pairs.map(|masks| [masks.and, masks.or]);
                settings.put(2, pairs.as_flattened());
            }
            settings
        }

        impl Default for $program {
            fn default() -> $program {
                $program::new()
            }
        }
    };
}

pub(super) use program;

/// Where the part starts in what was lent, by its address.
fn start_within(part: &[u8], lent: &[u8]) -> Option<usize> {
    let start = part.as_ptr().addr().wrapping_sub(lent.as_ptr().addr());
    (start < lent.len() && part.len() <= lent.len() - start).then_some(start)
}

/// Where the record lies. A record in neither block starts at `usize::MAX`.
pub(super) fn record_position(record: &[u8], slot: &[u8], bridge_block: &[u8]) -> Handed {
    let within_slot = start_within(record, slot);
    let start = within_slot.or(start_within(record, bridge_block));
    Handed::Record {
        in_slot: within_slot.is_some(),
        start: start.unwrap_or(usize::MAX),
        length: record.len(),
    }
}

/// Where the image lies. An image outside the ROM starts at `usize::MAX`.
pub(super) fn image_position(image: &[u8], rom: &[u8]) -> Handed {
    Handed::Image {
        start: start_within(image, rom).unwrap_or(usize::MAX),
        length: image.len(),
    }
}
