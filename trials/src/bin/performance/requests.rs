//! _OSC requests, and the call of each side.

use slipwattle::sys;
use trials::requests::UUID;

use crate::inputs::{BRIDGE, Tables, bridge, session, tables};

pub struct Request {
    pub session: u8,
    pub revision: u32,
    pub uuid: [u8; 16],
    pub dwords: Vec<u32>,
}

impl Request {
    pub fn capabilities(&self) -> Vec<u8> {
        self.dwords.iter().flat_map(|d| d.to_le_bytes()).collect()
    }
}

/// The owner's taking call for these control bits.
pub fn taking(control: u32) -> Request {
    Request {
        session: BRIDGE,
        revision: 1,
        uuid: UUID,
        dwords: vec![0, 0x1F, control],
    }
}

/// The library's _OSC call.
pub fn our_osc(table: &mut sys::Table, q: &Request, capabilities: &[u8], answer: &mut [u8]) -> u8 {
    // SAFETY: a started table, pointers and lengths of slices that do not overlap.
    unsafe {
        sys::slipwattle_osc(
            table,
            session(q.session).0,
            bridge(BRIDGE).0,
            q.revision,
            q.dwords.len() as u32,
            q.uuid.as_ptr(),
            q.uuid.len(),
            capabilities.as_ptr(),
            capabilities.len(),
            answer.as_mut_ptr(),
            answer.len(),
        )
    }
}

/// The reference's.
pub fn their_osc(
    table: &mut reference::Table,
    q: &Request,
    capabilities: &[u8],
    answer: &mut [u8],
) -> Result<(), reference::Refusal> {
    table.osc(
        session(q.session).1,
        bridge(BRIDGE).1,
        q.revision,
        q.dwords.len() as u32,
        &q.uuid,
        capabilities,
        answer,
    )
}

/// Tables on whose bridge these control bits are held.
pub fn tables_that_hold(control: u32) -> Tables {
    let mut t = tables();
    let (q, mut answer) = (taking(control), [0; 12]);
    let capabilities = q.capabilities();
    let ours = our_osc(&mut t.ours, &q, &capabilities, &mut answer);
    let theirs = their_osc(&mut t.theirs, &q, &capabilities, &mut answer);
    assert_eq!((ours, theirs), (0, Ok(())));
    t
}
