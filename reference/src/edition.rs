//! The two editions of the control field, and the rule that grants bits of either: document 02, d.

/// Control bit 0, Express hot plug.
pub(crate) const EXPRESS_HOT_PLUG: u32 = 1 << 0;
/// Control bit 1, SHPC hot plug.
pub(crate) const SHPC_HOT_PLUG: u32 = 1 << 1;
/// Control bit 3, advanced error reporting.
pub(crate) const AER: u32 = 1 << 3;
/// Control bit 4, Express capability structure.
const EXPRESS_CAPABILITY: u32 = 1 << 4;
/// Control bit 7, Downstream Port Containment configuration.
const PORT_CONTAINMENT: u32 = 1 << 7;

/// Support bit 7, Error Disconnect Recover.
const ERROR_DISCONNECT_RECOVER: u32 = 1 << 7;

/// What a control bit needs, unless it is held already.
struct Needs {
    /// The control bits that must be granted with it.
    control: u32,
    /// The support bits that must be declared, in this call or before.
    support: u32,
}

impl Needs {
    const NOTHING: Needs = Needs {
        control: 0,
        support: 0,
    };
    const CAPABILITY: Needs = Needs {
        control: EXPRESS_CAPABILITY,
        support: 0,
    };

    /// Whether the control bits are in the set and the support bits among the declared ones.
    fn are_met(&self, set: u32, declared: u32) -> bool {
        self.control & !set == 0 && self.support & !declared == 0
    }
}

/// The control bits of the old edition, from bit 0: document 001, section 4.5, as document 01 has it with document 02, b.
///
/// Section 4.5.2.4: "the operating system is required to claim control over the PCI Express Capability (bit 4 of the Control field) in
/// conjunction with claiming control over" those of "bits 0, 2, and 3".
static OLD: [Needs; 5] = [
    // 0, Express hot plug.
    Needs::CAPABILITY,
    // 1, SHPC hot plug.
    Needs::NOTHING,
    // 2, power management events.
    Needs::CAPABILITY,
    // 3, advanced error reporting.
    Needs::CAPABILITY,
    // 4, Express capability structure.
    Needs::NOTHING,
];

/// The control bits of edition 3.3, from bit 0: document 000, section 4.5.
///
/// Table 4-5 of bits 0, 1, 2, 3, 5 and 8: "If the operating system sets this bit, it must also set bit 4". Section 4.5.2.4 says the same
/// of "bits 0, 2, 3, 5, 7 and 8"; bit 1 needs bit 4 by the table alone.
static EDITION_3_3: [Needs; 10] = [
    // 0, Express hot plug.
    Needs::CAPABILITY,
    // 1, SHPC hot plug.
    Needs::CAPABILITY,
    // 2, power management events.
    Needs::CAPABILITY,
    // 3, advanced error reporting. Table 4-6: "If firmware grants control of Advanced Error Reporting, it must also grant control of the
    // PCI Express Capability structure (bit 4)." Section 4.5.2.4: "Firmware is required to maintain ownership of Advanced Error
    // Reporting if it retains ownership of Downstream Port Containment Configuration."
    Needs {
        control: EXPRESS_CAPABILITY | PORT_CONTAINMENT,
        support: 0,
    },
    // 4, Express capability structure.
    Needs::NOTHING,
    // 5, Latency Tolerance Reporting.
    Needs::CAPABILITY,
    // 6, an all 1's response to a read is never valid data.
    Needs::NOTHING,
    // 7, Downstream Port Containment configuration. Table 4-5: "it must also set bit 7 of the Support field (indicating support for Error
    // Disconnect Recover notifications) and bits 3 and 4 of the Control field".
    Needs {
        control: AER | EXPRESS_CAPABILITY,
        support: ERROR_DISCONNECT_RECOVER,
    },
    // 8, Completion Timeout.
    Needs::CAPABILITY,
    // 9, System Firmware Intermediary configuration. It is recommended not to be asked for or granted, but nothing is required with it.
    Needs::NOTHING,
];

/// The edition of the control field that a bridge answers by.
#[derive(Clone, Copy, Debug)]
pub(crate) enum Edition {
    Old,
    V3_3,
}

impl Edition {
    /// The edition of that number in a row.
    #[inline]
    pub(crate) fn numbered(number: u8) -> Option<Edition> {
        match number {
            0 => Some(Edition::Old),
            1 => Some(Edition::V3_3),
            _ => None,
        }
    }

    /// What each known control bit needs, from bit 0.
    #[inline]
    fn needs(self) -> &'static [Needs] {
        match self {
            Edition::Old => &OLD,
            Edition::V3_3 => &EDITION_3_3,
        }
    }

    /// The known control bits: 0 to 4, or 0 to 9.
    #[inline]
    pub(crate) fn known_control(self) -> u32 {
        (1 << self.needs().len()) - 1
    }

    /// The known support bits: 0 to 4, or 0 to 8.
    #[inline]
    fn known_support(self) -> u32 {
        match self {
            Edition::Old => 0x1F,
            Edition::V3_3 => 0x1FF,
        }
    }

    /// The support bits that count as declared: the supported ones and the known ones of this call.
    #[inline]
    pub(crate) fn declared(self, supported: u32, support: u32) -> u32 {
        supported | (support & self.known_support())
    }

    /// The largest set of requested known bits in which each is held, or is permitted and has what it needs.
    #[inline]
    pub(crate) fn granted(self, permitted: u32, held: u32, declared: u32, requested: u32) -> u32 {
        let mut set = requested & self.known_control() & (held | permitted);
        loop {
            // What a bit lacks here it lacks in every smaller set, so no bit is taken out that could stay.
            let kept = set & (held | !self.lacking(set, declared));
            if kept == set {
                return set;
            }
            set = kept;
        }
    }

    /// The known control bits that need a control bit outside the set or a support bit that is not declared.
    #[inline]
    fn lacking(self, set: u32, declared: u32) -> u32 {
        let mut lacking = 0;
        for (bit, needs) in self.needs().iter().enumerate() {
            if !needs.are_met(set, declared) {
                lacking |= 1 << bit;
            }
        }
        lacking
    }
}

/// The requested bits that are granted by the edition of that number (the old one when there is no such edition): `supported` are the
/// bridge's support bits, `support` is the support DWORD of the call.
#[inline]
pub fn granted(
    edition: u8,
    permitted: u32,
    held: u32,
    supported: u32,
    support: u32,
    requested: u32,
) -> u32 {
    let edition = Edition::numbered(edition).unwrap_or(Edition::Old);
    let declared = edition.declared(supported, support);
    edition.granted(permitted, held, declared, requested)
}
