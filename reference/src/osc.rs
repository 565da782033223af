//! Granting control: the _OSC call.

use crate::bridge::Bridge;
use crate::limits::MAX_COUNT;
use crate::refusal::Refusal;

/// 33db4d5b-1ff7-401c-9657-7441c03dd766 as it stands in the buffer.
const UUID: [u8; 16] = [
    0x5B, 0x4D, 0xDB, 0x33, 0xF7, 0x1F, 0x1C, 0x40, 0x96, 0x57, 0x74, 0x41, 0xC0, 0x3D, 0xD7, 0x66,
];
/// The revision of the capabilities buffer that is understood.
const REVISION: u32 = 1;

/// Status bit on input: a query, which changes nothing.
const QUERY: u32 = 1 << 0;
/// Status of an answer: _OSC failure.
const FAILURE: u32 = 1 << 1;
/// Status of an answer: unrecognized UUID.
const UNKNOWN_UUID: u32 = 1 << 2;
/// Status of an answer: unrecognized revision.
const UNKNOWN_REVISION: u32 = 1 << 3;
/// Status of an answer: some requested bit was not granted.
const MASKED: u32 = 1 << 4;

/// An _OSC call with right framing.
pub(crate) struct OscCall<'a> {
    uuid: &'a [u8; 16],
    revision: u32,
    capabilities: &'a [[u8; 4]],
    answer: &'a mut [[u8; 4]],
}

impl<'a> OscCall<'a> {
    /// Checks the framing, or gives refusal 3.
    pub(crate) fn framed(
        revision: u32,
        count: u32,
        uuid: &'a [u8],
        capabilities: &'a [u8],
        answer: &'a mut [u8],
    ) -> Result<Self, Refusal> {
        let uuid = uuid.try_into().map_err(|_| Refusal::Framing)?;
        if count == 0 || count > MAX_COUNT {
            return Err(Refusal::Framing);
        }
        let bytes = 4 * count as usize;
        if capabilities.len() != bytes || answer.len() != bytes {
            return Err(Refusal::Framing);
        }
        Ok(OscCall {
            uuid,
            revision,
            capabilities: capabilities.as_chunks().0,
            answer: answer.as_chunks_mut().0,
        })
    }

    /// Answers the call on its bridge.
    pub(crate) fn answer(self, bridge: &mut Bridge) {
        if *self.uuid != UUID {
            return self.fail(UNKNOWN_UUID);
        }
        if self.revision != REVISION {
            return self.fail(UNKNOWN_REVISION);
        }
        let (&[status, support, control], [to_status, to_support, to_control]) =
            (self.capabilities, &mut *self.answer)
        else {
            return self.fail(FAILURE);
        };
        let edition = bridge.edition;
        let declared = edition.declared(bridge.supported.into(), u32::from_le_bytes(support));
        let requested = u32::from_le_bytes(control);
        let granted = edition.granted(
            bridge.permitted.into(),
            bridge.held.into(),
            declared,
            requested,
        );
        if u32::from_le_bytes(status) & QUERY == 0 {
            bridge.held |= granted as u16;
            bridge.supported = declared as u16;
        }
        let masked = if granted == requested { 0 } else { MASKED };
        *to_status = masked.to_le_bytes();
        *to_support = support;
        *to_control = granted.to_le_bytes();
    }

    /// Answers with the status and no other bit.
    fn fail(self, status: u32) {
        self.answer.fill([0; 4]);
        if let Some(first) = self.answer.first_mut() {
            *first = status.to_le_bytes();
        }
    }
}
