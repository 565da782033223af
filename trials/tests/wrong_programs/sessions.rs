//! A program that tells one session of another's bridge.

use trials::call::{Call, Locate};
use trials::given::Given;
use trials::service::Service;

use crate::wrong::{Wrong, found, found_exhaustively, pair, short_names};

fn locates_across_sessions(wrong: &mut Wrong, call: &mut Call) -> Given {
    let given = wrong.reference.call(call);
    let (4, Call::Locate(Locate { address, .. })) = (given.number, call) else {
        return given;
    };
    let address = *address;
    let mut others = (0..64).map(|session| {
        wrong
            .reference
            .call(&mut Locate { session, address }.into())
    });
    others.find(|other| other.number == 0).unwrap_or(given)
}

#[test]
fn an_address_located_across_sessions() {
    let found = found(|| pair(locates_across_sessions));
    assert_eq!(short_names(&found), ["start", "locate"]);
    let why = found_exhaustively(|| pair(locates_across_sessions));
    assert!(why.contains("call 1: locate"), "{why}");
}
