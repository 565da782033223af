//! include/slipwattle.h and this crate name the same: numbers, texts, the UUID, the version.
use std::collections::BTreeMap;

use slipwattle::code_type::*;
use slipwattle::osc::*;
use slipwattle::{BridgeKind, Edition, MAX_ROM, MAX_ROWS, MAX_WRITTEN, REGISTERS, Refusal};

const HEADER: &str = include_str!("../../include/slipwattle.h");

/// A line that names a number, by `#define` or in an enum: the name without SLIPWATTLE_, and the number.
fn named(line: &str) -> Option<(String, u32)> {
    let line = line.trim();
    let line = line.strip_prefix("#define ").unwrap_or(line);
    let (name, value) = line.strip_prefix("SLIPWATTLE_")?.split_once(' ')?;
    let value = value.trim_start_matches("= ").trim_end_matches([',', 'u']);
    let number = match value.strip_prefix("0x") {
        Some(digits) => u32::from_str_radix(digits, 16),
        None => value.parse(),
    };
    Some((name.to_owned(), number.ok()?))
}

/// Every refusal, with its name as the header writes it: REFUSAL_NOT_OWNER for NotOwner.
fn refusals() -> Vec<(String, Refusal)> {
    let mut all = Vec::new();
    while let Ok(refusal) = Refusal::try_from(all.len() as u8 + 1) {
        let mut name = "REFUSAL".to_owned();
        for letter in format!("{refusal:?}").chars() {
            if letter.is_uppercase() {
                name.push('_');
            }
            name.extend(letter.to_uppercase());
        }
        all.push((name, refusal));
    }
    all
}

/// The constants by their names.
macro_rules! by_name {
    ($($name:ident),*) => { [$((stringify!($name), $name)),*] };
}

/// The numbers of `osc`.
const OSC: [(&str, u32); 30] = by_name![
    OSC_REVISION,
    OSC_COUNT,
    QUERY_FLAG,
    STATUS_FAILURE,
    STATUS_UNKNOWN_UUID,
    STATUS_UNKNOWN_REVISION,
    STATUS_MASKED,
    SUPPORT_EXTENDED_CONFIG,
    SUPPORT_ACTIVE_STATE_POWER_MANAGEMENT,
    SUPPORT_CLOCK_POWER_MANAGEMENT,
    SUPPORT_SEGMENT_GROUPS,
    SUPPORT_MSI,
    SUPPORT_OPTIMIZED_BUFFER_FLUSH_FILL,
    SUPPORT_ASPM_OPTIONALITY,
    SUPPORT_ERROR_DISCONNECT_RECOVER,
    SUPPORT_HPX_TYPE_3,
    SUPPORT_ALL_3_0,
    SUPPORT_ALL_3_3,
    CONTROL_EXPRESS_HOT_PLUG,
    CONTROL_SHPC_HOT_PLUG,
    CONTROL_PME,
    CONTROL_AER,
    CONTROL_EXPRESS_CAPABILITY,
    CONTROL_LATENCY_TOLERANCE_REPORTING,
    CONTROL_ALL_ONES_INVALID,
    CONTROL_DOWNSTREAM_PORT_CONTAINMENT,
    CONTROL_COMPLETION_TIMEOUT,
    CONTROL_SYSTEM_FIRMWARE_INTERMEDIARY,
    CONTROL_ALL_3_0,
    CONTROL_ALL_3_3
];

/// The numbers of this crate by the names that they have in the header.
fn numbers() -> BTreeMap<String, u32> {
    let version = |part: &str| part.parse().unwrap();
    let others = [
        ("VERSION_MAJOR", version(env!("CARGO_PKG_VERSION_MAJOR"))),
        ("VERSION_MINOR", version(env!("CARGO_PKG_VERSION_MINOR"))),
        ("VERSION_PATCH", version(env!("CARGO_PKG_VERSION_PATCH"))),
        ("MAX_ROWS", MAX_ROWS as u32),
        ("REGISTERS", REGISTERS as u32),
        ("MAX_ROM", MAX_ROM as u32),
        ("MAX_WRITTEN", MAX_WRITTEN as u32),
        ("DONE", 0),
        ("KIND_EXPRESS", BridgeKind::Express as u32),
        ("KIND_CONVENTIONAL", BridgeKind::Conventional as u32),
        ("EDITION_3_0", Edition::V3_0 as u32),
        ("EDITION_3_3", Edition::V3_3 as u32),
    ];
    let code_types = by_name![PC_AT, OPEN_FIRMWARE, PA_RISC, UEFI];
    let code_types = code_types.map(|(name, number)| (format!("CODE_TYPE_{name}"), number));
    let refusals = refusals().into_iter();
    let refusals = refusals.map(|(name, refusal)| (name, refusal.number().into()));
    let constants = others.into_iter().chain(OSC);
    let constants = constants.map(|(name, number)| (name.to_owned(), number));
    constants.chain(code_types).chain(refusals).collect()
}

#[test]
fn the_numbers_are_the_same() {
    let header: BTreeMap<String, u32> = HEADER.lines().filter_map(named).collect();
    assert_eq!(header, numbers());
}

/// What stands in the header between the two.
fn between(before: &str, after: &str) -> &'static str {
    let (_, rest) = HEADER.split_once(before).unwrap();
    rest.split_once(after).unwrap().0
}

#[test]
fn the_texts_are_the_same() {
    for (name, refusal) in refusals() {
        let case = format!("case SLIPWATTLE_{name}:\n        return \"");
        let (text, number) = (between(&case, "\";\n"), refusal.number());
        assert_eq!(refusal.to_string(), format!("{text} (refusal {number})"));
    }
    assert_eq!(
        between("case SLIPWATTLE_DONE:\n        return \"", "\";\n"),
        "done"
    );
}

#[test]
fn the_uuid_is_the_same() {
    let bytes = between("SLIPWATTLE_OSC_UUID[16] = {", "}");
    let byte = |hex: &str| u8::from_str_radix(hex.trim_start_matches("0x"), 16).unwrap();
    let uuid: Vec<u8> = bytes.split(", ").map(byte).collect();
    assert_eq!(uuid, OSC_UUID);
}

#[test]
fn the_version_is_the_packages() {
    let version = between("#define SLIPWATTLE_VERSION \"", "\"\n");
    assert_eq!(version, env!("CARGO_PKG_VERSION"));
}
