/* The ten calls from C: numbers, results, buffers and tables as include/slipwattle.h promises them, on either side of the limits of rows, editions, framing,
 * places, buses, granting, written records, masks, ROMs and the register list.
 * Compiled as C11 and as C++17. What is expected is worked out from the documents. */
#include <assert.h>
#include <stdio.h>
#include <stdlib.h>
#include <string.h>

#include "slipwattle.h"

static int checks = 0;
static int failures = 0;

#define CHECK(test)                                        \
    do {                                                   \
        checks++;                                          \
        if (!(test)) {                                     \
            failures++;                                    \
            printf("line %d: not so: %s\n", __LINE__, #test); \
        }                                                  \
    } while (0)

/* The layout that the calls are compiled for; rust/src/sys.rs has the same numbers. */
#define SIZE(type, size) static_assert(sizeof(type) == (size), #type)
#define AT(type, field, offset) static_assert(offsetof(type, field) == (offset), #type "." #field)
SIZE(slipwattle_session, 1);
SIZE(slipwattle_bridge, 1);
SIZE(slipwattle_bridge_row, 12);
AT(slipwattle_bridge_row, permitted, 0);
AT(slipwattle_bridge_row, segment, 4);
AT(slipwattle_bridge_row, owner, 6);
AT(slipwattle_bridge_row, first_bus, 7);
AT(slipwattle_bridge_row, last_bus, 8);
AT(slipwattle_bridge_row, kind, 9);
AT(slipwattle_bridge_row, edition, 10);
SIZE(slipwattle_host_bridge, 32);
AT(slipwattle_host_bridge, base, 0);
AT(slipwattle_host_bridge, permitted, 8);
AT(slipwattle_host_bridge, held, 12);
AT(slipwattle_host_bridge, supported, 16);
AT(slipwattle_host_bridge, segment, 20);
AT(slipwattle_host_bridge, owner, 22);
AT(slipwattle_host_bridge, first_bus, 23);
AT(slipwattle_host_bridge, last_bus, 24);
AT(slipwattle_host_bridge, edition, 25);
SIZE(slipwattle_table, 2056);
AT(slipwattle_table, bridges, 0);
AT(slipwattle_table, count, 2048);
SIZE(slipwattle_started, 2064);
AT(slipwattle_started, table, 0);
AT(slipwattle_started, number, 2056);
SIZE(slipwattle_holding, 8);
AT(slipwattle_holding, held, 0);
AT(slipwattle_holding, supported, 4);
SIZE(slipwattle_reported, 12);
AT(slipwattle_reported, number, 0);
AT(slipwattle_reported, holding, 4);
SIZE(slipwattle_addressed, 16);
AT(slipwattle_addressed, number, 0);
AT(slipwattle_addressed, address, 8);
SIZE(slipwattle_place, 6);
AT(slipwattle_place, bridge, 0);
AT(slipwattle_place, bus, 1);
AT(slipwattle_place, device, 2);
AT(slipwattle_place, function, 3);
AT(slipwattle_place, offset, 4);
SIZE(slipwattle_located, 8);
AT(slipwattle_located, number, 0);
AT(slipwattle_located, place, 2);
SIZE(slipwattle_record, 24);
AT(slipwattle_record, number, 0);
AT(slipwattle_record, in_slot, 1);
AT(slipwattle_record, start, 8);
AT(slipwattle_record, size, 16);
SIZE(slipwattle_pci_setting, 16);
AT(slipwattle_pci_setting, cache_line_size, 0);
AT(slipwattle_pci_setting, latency_timer, 4);
AT(slipwattle_pci_setting, enable_serr, 8);
AT(slipwattle_pci_setting, enable_perr, 12);
SIZE(slipwattle_pci_x_setting, 12);
AT(slipwattle_pci_x_setting, maximum_memory_read_byte_count, 0);
AT(slipwattle_pci_x_setting, average_maximum_outstanding_split_transactions, 4);
AT(slipwattle_pci_x_setting, total_maximum_outstanding_split_transactions, 8);
SIZE(slipwattle_masks, 8);
AT(slipwattle_masks, and_mask, 0);
AT(slipwattle_masks, or_mask, 4);
SIZE(slipwattle_express_setting, 64);
AT(slipwattle_express_setting, uncorrectable_error_mask, 0);
AT(slipwattle_express_setting, uncorrectable_error_severity, 8);
AT(slipwattle_express_setting, correctable_error_mask, 16);
AT(slipwattle_express_setting, advanced_error_capabilities_and_control, 24);
AT(slipwattle_express_setting, device_control, 32);
AT(slipwattle_express_setting, link_control, 40);
AT(slipwattle_express_setting, secondary_uncorrectable_error_severity, 48);
AT(slipwattle_express_setting, secondary_uncorrectable_error_mask, 56);
SIZE(slipwattle_settings, 96);
AT(slipwattle_settings, express, 0);
AT(slipwattle_settings, pci, 64);
AT(slipwattle_settings, pci_x, 80);
AT(slipwattle_settings, has_pci, 92);
AT(slipwattle_settings, has_pci_x, 93);
AT(slipwattle_settings, has_express, 94);
SIZE(slipwattle_written, 16);
AT(slipwattle_written, number, 0);
AT(slipwattle_written, length, 8);
SIZE(slipwattle_image, 24);
AT(slipwattle_image, number, 0);
AT(slipwattle_image, start, 8);
AT(slipwattle_image, size, 16);
SIZE(slipwattle_values, 36);
AT(slipwattle_values, number, 0);
AT(slipwattle_values, values, 4);

/* The bits by their numbers in document 01, and in tables 4-4 and 4-5 of the PCI Firmware Specification 3.3. */
static_assert(SLIPWATTLE_CONTROL_EXPRESS_HOT_PLUG == 1u << 0 && SLIPWATTLE_CONTROL_SHPC_HOT_PLUG == 1u << 1, "hot plug");
static_assert(SLIPWATTLE_CONTROL_PME == 1u << 2 && SLIPWATTLE_CONTROL_AER == 1u << 3, "PME, AER");
static_assert(SLIPWATTLE_CONTROL_EXPRESS_CAPABILITY == 1u << 4 && SLIPWATTLE_CONTROL_LATENCY_TOLERANCE_REPORTING == 1u << 5, "the capability structure, LTR");
static_assert(SLIPWATTLE_CONTROL_ALL_ONES_INVALID == 1u << 6 && SLIPWATTLE_CONTROL_DOWNSTREAM_PORT_CONTAINMENT == 1u << 7, "all ones, DPC");
static_assert(SLIPWATTLE_CONTROL_COMPLETION_TIMEOUT == 1u << 8 && SLIPWATTLE_CONTROL_SYSTEM_FIRMWARE_INTERMEDIARY == 1u << 9, "completion timeout, SFI");
static_assert(SLIPWATTLE_CONTROL_ALL_3_0 == (1u << 5) - 1 && SLIPWATTLE_CONTROL_ALL_3_3 == (1u << 10) - 1, "control bits 0 to 4 and 0 to 9");
static_assert(SLIPWATTLE_SUPPORT_EXTENDED_CONFIG == 1u << 0 && SLIPWATTLE_SUPPORT_ACTIVE_STATE_POWER_MANAGEMENT == 1u << 1, "extended space, ASPM");
static_assert(SLIPWATTLE_SUPPORT_CLOCK_POWER_MANAGEMENT == 1u << 2 && SLIPWATTLE_SUPPORT_SEGMENT_GROUPS == 1u << 3, "clock power, segment groups");
static_assert(SLIPWATTLE_SUPPORT_MSI == 1u << 4 && SLIPWATTLE_SUPPORT_OPTIMIZED_BUFFER_FLUSH_FILL == 1u << 5, "MSI, OBFF");
static_assert(SLIPWATTLE_SUPPORT_ASPM_OPTIONALITY == 1u << 6 && SLIPWATTLE_SUPPORT_ERROR_DISCONNECT_RECOVER == 1u << 7, "ASPM optionality, EDR");
static_assert(SLIPWATTLE_SUPPORT_HPX_TYPE_3 == 1u << 8, "_HPX type 3");
static_assert(SLIPWATTLE_SUPPORT_ALL_3_0 == (1u << 5) - 1 && SLIPWATTLE_SUPPORT_ALL_3_3 == (1u << 9) - 1, "support bits 0 to 4 and 0 to 8");
static_assert(SLIPWATTLE_EDITION_3_0 == 0 && SLIPWATTLE_EDITION_3_3 == 1, "the editions");
static_assert(SLIPWATTLE_QUERY_FLAG == 1u << 0, "the query flag");

/* The code types by their numbers in document 000, and 16 MiB. */
static_assert(SLIPWATTLE_CODE_TYPE_PC_AT == 0 && SLIPWATTLE_CODE_TYPE_OPEN_FIRMWARE == 1, "PC-AT, Open Firmware");
static_assert(SLIPWATTLE_CODE_TYPE_PA_RISC == 2 && SLIPWATTLE_CODE_TYPE_UEFI == 3, "PA RISC, UEFI");
static_assert(SLIPWATTLE_MAX_ROM == 16u * 1024 * 1024, "16 MiB");

/* What register values need. */
#define HOT_PLUG (SLIPWATTLE_CONTROL_EXPRESS_HOT_PLUG | SLIPWATTLE_CONTROL_EXPRESS_CAPABILITY)

static slipwattle_session session(uint8_t n) {
    slipwattle_session s;
    s.number = n;
    return s;
}

static slipwattle_bridge bridge(uint8_t n) {
    slipwattle_bridge b;
    b.number = n;
    return b;
}

/* A row of segment 0, Express, edition 3.0, that permits every control bit. */
static slipwattle_bridge_row row(uint8_t owner, uint8_t first_bus, uint8_t last_bus) {
    slipwattle_bridge_row r;
    r.permitted = SLIPWATTLE_CONTROL_ALL_3_0;
    r.segment = 0;
    r.owner = session(owner);
    r.first_bus = first_bus;
    r.last_bus = last_bus;
    r.kind = SLIPWATTLE_KIND_EXPRESS;
    r.edition = SLIPWATTLE_EDITION_3_0;
    return r;
}

/* The same of edition 3.3. */
static slipwattle_bridge_row row_3_3(uint8_t owner, uint8_t first_bus, uint8_t last_bus) {
    slipwattle_bridge_row r = row(owner, first_bus, last_bus);
    r.permitted = SLIPWATTLE_CONTROL_ALL_3_3;
    r.edition = SLIPWATTLE_EDITION_3_3;
    return r;
}

/* Every bridge and the count; the bytes between fields hold nothing. */
static bool same_table(const slipwattle_table *a, const slipwattle_table *b) {
    size_t i;
    for (i = 0; i < SLIPWATTLE_MAX_ROWS; i++) {
        const slipwattle_host_bridge *x = &a->bridges[i];
        const slipwattle_host_bridge *y = &b->bridges[i];
        if (x->base != y->base || x->permitted != y->permitted || x->held != y->held || x->supported != y->supported || x->segment != y->segment ||
            x->owner.number != y->owner.number || x->first_bus != y->first_bus || x->last_bus != y->last_bus || x->edition != y->edition) {
            return false;
        }
    }
    return a->count == b->count;
}

/* A buffer of its own for what is lent, so that a checker of memory sees its end. */
static void *lend(const void *bytes, size_t length) {
    void *copy = calloc(length > 0 ? length : 1, 1);
    if (copy == NULL) {
        exit(2);
    }
    if (length > 0) {
        memcpy(copy, bytes, length);
    }
    return copy;
}

/* One entry: base 0xE0000000, segment 0, buses 0 to 255. */
static void write_mcfg(uint8_t mcfg[60]) {
    uint8_t sum = 0;
    size_t i;
    memset(mcfg, 0, 60);
    memcpy(mcfg, "MCFG", 4);
    mcfg[4] = 60;
    mcfg[8] = 1;
    mcfg[47] = 0xE0;
    mcfg[55] = 255;
    for (i = 0; i < 60; i++) {
        sum = (uint8_t)(sum + mcfg[i]);
    }
    mcfg[9] = (uint8_t)(0 - sum);
}

static slipwattle_started start(const slipwattle_bridge_row *rows, size_t count, bool sound) {
    uint8_t mcfg[60];
    uint8_t *lent_mcfg;
    slipwattle_bridge_row *lent_rows = (slipwattle_bridge_row *)lend(rows, count * sizeof *rows);
    slipwattle_started s;
    write_mcfg(mcfg);
    if (!sound) {
        mcfg[9] ^= 1;
    }
    lent_mcfg = (uint8_t *)lend(mcfg, sizeof mcfg);
    s = slipwattle_start(lent_mcfg, sizeof mcfg, lent_rows, count);
    free(lent_mcfg);
    free(lent_rows);
    return s;
}

static void starts_up_to_64_rows(void) {
    slipwattle_bridge_row many[65];
    uint8_t mcfg[60];
    slipwattle_started s;
    size_t i;
    write_mcfg(mcfg);
    for (i = 0; i < 65; i++) {
        many[i] = row(1, (uint8_t)i, (uint8_t)i);
    }
    s = start(many, 64, true);
    CHECK(s.number == 0 && s.table.count == 64);
    CHECK(slipwattle_address(&s.table, session(1), bridge(63), 63, 0, 0, 0, 1).address == 0xE3F00000u);
    CHECK(slipwattle_locate(&s.table, session(1), 0xE3F00000u).place.bridge.number == 63);
    CHECK(slipwattle_report(&s.table, session(1), bridge(64)).number == 1);
    s = start(many, 65, true);
    CHECK(s.number == 7 && s.table.count == 0);
    s = start(many, 65, false);
    CHECK(s.number == 6 && s.table.count == 0);
    s = slipwattle_start(mcfg, sizeof mcfg, NULL, 0);
    CHECK(s.number == 0 && s.table.count == 0);
    s = slipwattle_start(NULL, 0, NULL, 0);
    CHECK(s.number == 6 && s.table.count == 0);
}

static uint8_t start_one(slipwattle_bridge_row r, uint32_t permitted, uint8_t kind) {
    r.permitted = permitted;
    r.kind = kind;
    return start(&r, 1, true).number;
}

static void judges_each_field_of_a_row(void) {
    const uint32_t all = SLIPWATTLE_CONTROL_ALL_3_0, shpc = SLIPWATTLE_CONTROL_SHPC_HOT_PLUG;
    slipwattle_bridge_row r = row(1, 0, 15);
    CHECK(start_one(r, all, 0) == 0);
    CHECK(start_one(r, all + 1, 0) == 7);
    CHECK(start_one(r, 0x80000000u, 0) == 7);
    CHECK(start_one(r, shpc, 1) == 0);
    CHECK(start_one(r, SLIPWATTLE_CONTROL_EXPRESS_HOT_PLUG, 1) == 7);
    CHECK(start_one(r, all, 1) == 7);
    CHECK(start_one(r, shpc, 2) == 7);
    CHECK(start_one(r, shpc, 255) == 7);
    CHECK(start_one(row(63, 0, 15), all, 0) == 0);
    CHECK(start_one(row(64, 0, 15), all, 0) == 7);
    CHECK(start_one(row(1, 255, 255), all, 0) == 0);
    CHECK(start_one(row(1, 255, 254), all, 0) == 7);
    r.segment = 0x0100;
    CHECK(start_one(r, all, 0) == 7);
    r.kind = 2;
    CHECK(start(&r, 1, false).number == 6);
}

/* Each bit by itself, of either edition and of either kind. */
static void judges_each_permitted_bit(void) {
    slipwattle_bridge_row r_3_0 = row(1, 0, 15), r_3_3 = row_3_3(1, 0, 15);
    uint32_t k;
    for (k = 0; k < 32; k++) {
        CHECK(start_one(r_3_0, 1u << k, 0) == (k <= 4 ? 0 : 7));
        CHECK(start_one(r_3_3, 1u << k, 0) == (k <= 9 ? 0 : 7));
        CHECK(start_one(r_3_0, 1u << k, 1) == (k == 1 ? 0 : 7));
        CHECK(start_one(r_3_3, 1u << k, 1) == (k == 1 ? 0 : 7));
    }
    CHECK(start_one(r_3_0, 0x1F, 0) == 0);
    CHECK(start_one(r_3_0, 0x20, 0) == 7);
    CHECK(start_one(r_3_0, 0x3FF, 0) == 7);
    CHECK(start_one(r_3_3, 0x3FF, 0) == 0);
    CHECK(start_one(r_3_3, 0x400, 0) == 7);
    CHECK(start_one(r_3_3, 0x7FF, 0) == 7);
    CHECK(start_one(r_3_3, 0, 1) == 0);
    CHECK(start_one(r_3_3, 0x02, 1) == 0);
    CHECK(start_one(r_3_3, 0x12, 1) == 7);
    CHECK(start_one(r_3_3, 0x202, 1) == 7);
    CHECK(start_one(r_3_3, 0x02, 2) == 7);
}

static void judges_each_edition(void) {
    slipwattle_bridge_row rows[2];
    slipwattle_started s;
    unsigned k;
    rows[0] = row(1, 0, 15);
    rows[1] = row(2, 16, 31);
    for (k = 0; k < 256; k++) {
        rows[1].edition = (uint8_t)k;
        s = start(rows, 2, true);
        CHECK(k <= 1 ? s.number == 0 && s.table.count == 2 : s.number == 7 && s.table.count == 0);
        CHECK(start_one(rows[1], 0, SLIPWATTLE_KIND_CONVENTIONAL) == (k <= 1 ? 0 : 7));
        CHECK(start(rows, 2, false).number == 6);
    }
}

static void keeps_each_field_of_a_row(void) {
    slipwattle_bridge_row r[2];
    slipwattle_started s;
    const slipwattle_host_bridge *b = &s.table.bridges[1];
    r[0] = row(1, 0, 15);
    r[1] = row(9, 32, 47);
    r[1].permitted = SLIPWATTLE_CONTROL_PME;
    r[1].edition = SLIPWATTLE_EDITION_3_3;
    s = start(r, 2, true);
    CHECK(s.number == 0 && s.table.count == 2);
    CHECK(b->base == 0xE0000000u && b->permitted == SLIPWATTLE_CONTROL_PME && b->held == 0 && b->supported == 0);
    CHECK(b->segment == 0 && b->owner.number == 9 && b->first_bus == 32 && b->last_bus == 47 && b->edition == SLIPWATTLE_EDITION_3_3);
    CHECK(s.table.bridges[0].edition == SLIPWATTLE_EDITION_3_0);
    r[1].first_bus = 15;
    s = start(r, 2, true);
    CHECK(s.number == 7 && s.table.count == 0);
}

/* Three DWORDs, little-endian. */
static void write_dwords(uint8_t bytes[12], uint32_t status, uint32_t support, uint32_t control) {
    const uint32_t dwords[3] = {status, support, control};
    size_t i;
    for (i = 0; i < 12; i++) {
        bytes[i] = (uint8_t)(dwords[i / 4] >> 8 * (i % 4));
    }
}

/* A taking call with these support bits, or with the flag a query; gives its number, and where that is 0 the answer. */
static uint8_t osc_with(slipwattle_table *t, uint8_t s, uint8_t b, uint32_t flag, uint32_t support, uint32_t control, uint8_t answer[12]) {
    uint8_t caps[12];
    write_dwords(caps, flag, support, control);
    return slipwattle_osc(t, session(s), bridge(b), SLIPWATTLE_OSC_REVISION, SLIPWATTLE_OSC_COUNT, SLIPWATTLE_OSC_UUID,
                          sizeof SLIPWATTLE_OSC_UUID, caps, sizeof caps, answer, 12);
}

/* The same with the support bits of edition 3.0. */
static uint8_t osc(slipwattle_table *t, uint8_t s, uint8_t b, uint32_t flag, uint32_t control, uint8_t answer[12]) {
    return osc_with(t, s, b, flag, SLIPWATTLE_SUPPORT_ALL_3_0, control, answer);
}

static void negotiates(slipwattle_table *t) {
    static const uint8_t granted[12] = {0, 0, 0, 0, 0x1F, 0, 0, 0, 0x1F, 0, 0, 0};
    const uint32_t all = SLIPWATTLE_CONTROL_ALL_3_0, no_capability = all ^ SLIPWATTLE_CONTROL_EXPRESS_CAPABILITY ^ SLIPWATTLE_CONTROL_SHPC_HOT_PLUG;
    uint8_t answer[12];
    slipwattle_table before = *t;
    slipwattle_reported r;
    memset(answer, 0xAA, sizeof answer);
    CHECK(osc(t, 1, 0, SLIPWATTLE_QUERY_FLAG, all, answer) == 0 && memcmp(answer, granted, 12) == 0);
    CHECK(same_table(t, &before));
    CHECK(osc(t, 1, 0, 0, no_capability, answer) == 0 && answer[0] == SLIPWATTLE_STATUS_MASKED && answer[8] == 0);
    /* A capability structure held from earlier is not enough for a new bit. */
    CHECK(osc(t, 1, 0, 0, SLIPWATTLE_CONTROL_EXPRESS_CAPABILITY, answer) == 0 && answer[0] == 0);
    CHECK(osc(t, 1, 0, 0, no_capability, answer) == 0 && answer[0] == SLIPWATTLE_STATUS_MASKED && answer[8] == 0);
    CHECK(osc(t, 1, 0, 0, all, answer) == 0 && memcmp(answer, granted, 12) == 0);
    /* A held bit is granted without it. */
    CHECK(osc(t, 1, 0, 0, no_capability, answer) == 0 && answer[0] == 0 && answer[8] == no_capability);
    r = slipwattle_report(t, session(1), bridge(0));
    CHECK(r.number == 0 && r.holding.held == all && r.holding.supported == 0x1F);
}

/* A taking call on bridge b by its owner, session b + 1, or with the flag a query: whether it grants these bits, with the support bits as they came. */
static bool grants(slipwattle_table *t, uint8_t b, uint32_t flag, uint32_t requested, uint32_t support, uint32_t granted) {
    uint8_t answer[12], expected[12];
    write_dwords(expected, requested == granted ? 0 : SLIPWATTLE_STATUS_MASKED, support, granted);
    memset(answer, 0xAA, sizeof answer);
    return osc_with(t, (uint8_t)(b + 1), b, flag, support, requested, answer) == 0 && memcmp(answer, expected, 12) == 0;
}

static bool holds(const slipwattle_table *t, uint8_t b, uint32_t held, uint32_t supported) {
    slipwattle_reported r = slipwattle_report(t, session((uint8_t)(b + 1)), bridge(b));
    return r.number == 0 && r.holding.held == held && r.holding.supported == supported;
}

/* On a new bridge of this row: permitted, requested, support, granted. A query changes nothing, a taking call gives the same. */
static bool grants_at_first(slipwattle_bridge_row r, const uint32_t line[4]) {
    slipwattle_started s;
    slipwattle_table before;
    r.permitted = line[0];
    s = start(&r, 1, true);
    before = s.table;
    if (!grants(&s.table, 0, SLIPWATTLE_QUERY_FLAG, line[1], line[2], line[3]) || !same_table(&s.table, &before)) {
        return false;
    }
    return grants(&s.table, 0, 0, line[1], line[2], line[3]) && s.table.bridges[0].held == line[3];
}

static void grants_by_the_needs_of_3_3(void) {
    static const uint32_t lines[47][4] = {
        /* permitted, requested, support, granted: each bit with what it needs and nothing else */
        {0x011, 0x011, 0, 0x011}, {0x012, 0x012, 0, 0x012}, {0x014, 0x014, 0, 0x014}, {0x098, 0x098, 0x80, 0x098}, {0x010, 0x010, 0, 0x010},
        {0x030, 0x030, 0, 0x030}, {0x040, 0x040, 0, 0x040}, {0x110, 0x110, 0, 0x110}, {0x200, 0x200, 0, 0x200},
        /* by itself */
        {0x3FF, 0x001, 0x1FF, 0}, {0x3FF, 0x002, 0x1FF, 0}, {0x3FF, 0x004, 0x1FF, 0}, {0x3FF, 0x008, 0x1FF, 0}, {0x3FF, 0x010, 0x1FF, 0x010},
        {0x3FF, 0x020, 0x1FF, 0}, {0x3FF, 0x040, 0x1FF, 0x040}, {0x3FF, 0x080, 0x1FF, 0}, {0x3FF, 0x100, 0x1FF, 0}, {0x3FF, 0x200, 0x1FF, 0x200},
        /* all, and all but bit 3, 4 or 7, or support bit 7 */
        {0x3FF, 0x3FF, 0x80, 0x3FF}, {0x3FF, 0x3F7, 0x1FF, 0x377}, {0x3FF, 0x3EF, 0x1FF, 0x240}, {0x3FF, 0x37F, 0x1FF, 0x377}, {0x3FF, 0x3FF, 0x17F, 0x377},
        {0x3FF, 0x3FF, 0x1F, 0x377},
        /* bits 3, 4 and 7, and what is missing of them */
        {0x3FF, 0x098, 0x80, 0x098}, {0x3FF, 0x018, 0x80, 0x010}, {0x3FF, 0x090, 0x80, 0x010}, {0x3FF, 0x088, 0x80, 0}, {0x3FF, 0x098, 0, 0x010},
        {0x3FF, 0x098, 0xFFFFFF7Fu, 0x010},
        /* one bit is not permitted */
        {0x3FE, 0x3FF, 0x1FF, 0x3FE}, {0x3FD, 0x3FF, 0x1FF, 0x3FD}, {0x3FB, 0x3FF, 0x1FF, 0x3FB}, {0x3F7, 0x3FF, 0x1FF, 0x377}, {0x3EF, 0x3FF, 0x1FF, 0x240},
        {0x3DF, 0x3FF, 0x1FF, 0x3DF}, {0x3BF, 0x3FF, 0x1FF, 0x3BF}, {0x37F, 0x3FF, 0x1FF, 0x377}, {0x2FF, 0x3FF, 0x1FF, 0x2FF}, {0x1FF, 0x3FF, 0x1FF, 0x1FF},
        /* those of edition 3.0 alone, none, and bits that are not known */
        {0x01F, 0x01F, 0x1FF, 0x017}, {0, 0x3FF, 0x1FF, 0}, {0x3FF, 0, 0, 0}, {0x3FF, 0x400, 0x1FF, 0}, {0x3FF, 0x7FF, 0x80, 0x3FF},
        {0x3FF, 0xFFFFFFFFu, 0xFFFFFFFFu, 0x3FF},
    };
    size_t k;
    for (k = 0; k < 47; k++) {
        CHECK(grants_at_first(row_3_3(1, 0, 15), lines[k]));
    }
}

static void grants_by_the_needs_of_3_0(void) {
    static const uint32_t lines[16][4] = {
        /* permitted, requested, support, granted: the bench sheet of document 01 */
        {0x1F, 0x1F, 0x1F, 0x1F}, {0x1F, 0x0D, 0, 0}, {0x0F, 0x1F, 0, 0x02}, {0x1F, 0x3F, 0, 0x1F},
        /* each bit with what it needs and nothing else, and by itself */
        {0x11, 0x11, 0, 0x11}, {0x02, 0x02, 0, 0x02}, {0x14, 0x14, 0, 0x14}, {0x18, 0x18, 0, 0x18}, {0x10, 0x10, 0, 0x10},
        {0x1F, 0x01, 0x1FF, 0}, {0x1F, 0x04, 0x1FF, 0}, {0x1F, 0x08, 0x1FF, 0},
        /* the bits of edition 3.3 are not known */
        {0x1F, 0x98, 0x80, 0x18}, {0x1F, 0x20, 0x1FF, 0}, {0x1F, 0x240, 0x1FF, 0}, {0x1F, 0x3FF, 0x1FF, 0x1F},
    };
    size_t k;
    for (k = 0; k < 16; k++) {
        CHECK(grants_at_first(row(1, 0, 15), lines[k]));
    }
}

/* A conventional row permits no bit 4, which SHPC hot plug needs in edition 3.3. */
static void grants_by_conventional_rows(void) {
    static const uint32_t lines[2][2][4] = {{{0x02, 0x02, 0, 0x02}, {0x02, 0x12, 0x1FF, 0x02}}, {{0x02, 0x02, 0, 0}, {0x02, 0x12, 0x1FF, 0}}};
    slipwattle_bridge_row rows[2];
    size_t k;
    rows[0] = row(1, 0, 15);
    rows[1] = row_3_3(1, 0, 15);
    for (k = 0; k < 2; k++) {
        rows[k].kind = SLIPWATTLE_KIND_CONVENTIONAL;
        CHECK(grants_at_first(rows[k], lines[k][0]));
        CHECK(grants_at_first(rows[k], lines[k][1]));
    }
}

/* On one bridge of edition 3.3 that permits every bit. */
static void counts_what_is_held_and_declared(void) {
    slipwattle_bridge_row r = row_3_3(1, 0, 15);
    slipwattle_started s = start(&r, 1, true);
    slipwattle_table *t = &s.table;
    /* A query declares support for itself alone, a taking call for later ones too, up to a reset. */
    CHECK(grants(t, 0, SLIPWATTLE_QUERY_FLAG, 0x98, 0x80, 0x98));
    CHECK(grants(t, 0, 0, 0x98, 0, 0x10) && holds(t, 0, 0x10, 0));
    CHECK(grants(t, 0, 0, 0, 0x80, 0) && holds(t, 0, 0x10, 0x80));
    CHECK(grants(t, 0, SLIPWATTLE_QUERY_FLAG, 0x98, 0, 0x98));
    CHECK(slipwattle_reset(t, session(1), bridge(0)) == 0 && holds(t, 0, 0, 0));
    CHECK(grants(t, 0, SLIPWATTLE_QUERY_FLAG, 0x98, 0, 0x10));
    CHECK(grants(t, 0, 0, 0, 0x80, 0) && holds(t, 0, 0, 0x80));
    CHECK(grants(t, 0, 0, 0x98, 0, 0x98) && holds(t, 0, 0x98, 0x80));
    /* A held bit needs nothing. */
    CHECK(grants(t, 0, 0, 0x08, 0, 0x08));
    CHECK(grants(t, 0, 0, 0x80, 0, 0x80));
    CHECK(grants(t, 0, 0, 0x88, 0, 0x88));
    /* A new one needs bit 4 in the same call, though bit 4 is held. */
    CHECK(grants(t, 0, 0, 0x01, 0, 0));
    CHECK(grants(t, 0, 0, 0x89, 0, 0x88) && holds(t, 0, 0x98, 0x80));
    CHECK(grants(t, 0, 0, 0x11, 0, 0x11) && holds(t, 0, 0x99, 0x80));
}

/* Two queries and a taking call, on one bridge of edition 3.3. */
static void negotiates_with_the_same_support(void) {
    slipwattle_bridge_row r = row_3_3(1, 0, 15);
    slipwattle_started s;
    slipwattle_table *t = &s.table;
    r.permitted = 0x1FF;
    s = start(&r, 1, true);
    CHECK(grants(t, 0, SLIPWATTLE_QUERY_FLAG, 0x3FF, 0x80, 0x1FF));
    CHECK(grants(t, 0, SLIPWATTLE_QUERY_FLAG, 0x1FF, 0x80, 0x1FF));
    CHECK(grants(t, 0, 0, 0x1FF, 0x80, 0x1FF) && holds(t, 0, 0x1FF, 0x80));
    CHECK(slipwattle_reset(t, session(1), bridge(0)) == 0);
    CHECK(grants(t, 0, SLIPWATTLE_QUERY_FLAG, 0x3FF, 0x17F, 0x177));
    CHECK(grants(t, 0, SLIPWATTLE_QUERY_FLAG, 0x177, 0x17F, 0x177));
    CHECK(grants(t, 0, 0, 0x177, 0x17F, 0x177) && holds(t, 0, 0x177, 0x17F));
    CHECK(slipwattle_reset(t, session(1), bridge(0)) == 0);
    /* With another support field the second answer is masked. */
    CHECK(grants(t, 0, SLIPWATTLE_QUERY_FLAG, 0x98, 0x80, 0x98));
    CHECK(grants(t, 0, SLIPWATTLE_QUERY_FLAG, 0x98, 0, 0x10));
}

/* Bridge 0 is of edition 3.0, bridge 1 of edition 3.3. */
static bool has_both_editions(const slipwattle_table *t) {
    return t->count == 2 && t->bridges[0].edition == SLIPWATTLE_EDITION_3_0 && t->bridges[1].edition == SLIPWATTLE_EDITION_3_3;
}

static slipwattle_started start_both_editions(void) {
    slipwattle_bridge_row rows[2];
    rows[0] = row(1, 0, 15);
    rows[1] = row_3_3(2, 16, 31);
    return start(rows, 2, true);
}

static void answers_by_each_edition(void) {
    slipwattle_started s = start_both_editions();
    slipwattle_table *t = &s.table;
    CHECK(s.number == 0 && has_both_editions(t));
    CHECK(grants(t, 0, SLIPWATTLE_QUERY_FLAG, 0x02, 0, 0x02) && grants(t, 1, SLIPWATTLE_QUERY_FLAG, 0x02, 0, 0));
    CHECK(grants(t, 0, SLIPWATTLE_QUERY_FLAG, 0x18, 0x80, 0x18) && grants(t, 1, SLIPWATTLE_QUERY_FLAG, 0x18, 0x80, 0x10));
    CHECK(grants(t, 0, SLIPWATTLE_QUERY_FLAG, 0x98, 0x80, 0x18) && grants(t, 1, SLIPWATTLE_QUERY_FLAG, 0x98, 0x80, 0x98));
    CHECK(holds(t, 0, 0, 0) && holds(t, 1, 0, 0));
    /* Known support bits are stored, and join those of earlier calls. */
    CHECK(grants(t, 0, 0, 0, 0x101, 0) && grants(t, 1, 0, 0, 0x101, 0));
    CHECK(holds(t, 0, 0, 0x01) && holds(t, 1, 0, 0x101));
    CHECK(grants(t, 0, 0, 0x3FF, 0x3FF, 0x1F) && holds(t, 0, 0x1F, 0x1F) && holds(t, 1, 0, 0x101));
    CHECK(grants(t, 1, 0, 0x3FF, 0x3FF, 0x3FF) && holds(t, 0, 0x1F, 0x1F) && holds(t, 1, 0x3FF, 0x1FF));
    CHECK(slipwattle_reset(t, session(1), bridge(0)) == 0 && holds(t, 0, 0, 0) && holds(t, 1, 0x3FF, 0x1FF));
    CHECK(grants(t, 0, 0, 0, 0xFFFFFFFFu, 0) && holds(t, 0, 0, 0x1F));
    CHECK(slipwattle_reset(t, session(2), bridge(1)) == 0 && holds(t, 0, 0, 0x1F) && holds(t, 1, 0, 0));
    CHECK(grants(t, 1, 0, 0, 0xFFFFFFFFu, 0) && holds(t, 1, 0, 0x1FF));
}

/* Each call that takes a table, on either bridge, by its owner and by the other session. */
static void leaves_each_edition(void) {
    static const uint32_t current[SLIPWATTLE_REGISTERS] = {0};
    slipwattle_started s = start_both_editions();
    slipwattle_table *t = &s.table;
    uint8_t answer[12], k;
    for (k = 0; k < 4; k++) {
        const uint8_t b = k % 2, by = (uint8_t)(k / 2 + 1);
        const bool own = by == b + 1;
        CHECK(osc_with(t, by, b, SLIPWATTLE_QUERY_FLAG, 0x3FF, 0x3FF, answer) == (own ? 0 : 2) && has_both_editions(t));
        CHECK(osc_with(t, by, b, 0, 0x3FF, 0x3FF, answer) == (own ? 0 : 2) && has_both_editions(t));
        CHECK(slipwattle_report(t, session(by), bridge(b)).number == (own ? 0 : 2) && has_both_editions(t));
        CHECK(slipwattle_address(t, session(by), bridge(b), 16u * b, 0, 0, 0, 4).number == (own ? 0 : 2) && has_both_editions(t));
        CHECK(slipwattle_locate(t, session(by), 0xE0000000u + 0x1000000u * b).number == (own ? 0 : 4) && has_both_editions(t));
        CHECK(slipwattle_register_values(t, session(by), bridge(b), NULL, 0, NULL, 0, current, 8).number == (own ? 9 : 2) && has_both_editions(t));
        CHECK(slipwattle_reset(t, session(by), bridge(b)) == (own ? 0 : 2) && has_both_editions(t));
    }
}

/* A taking call of session 1 for nothing, with these lengths; gives its number, or where that is 0 the answer's status and 256. */
static unsigned framed(slipwattle_table *t, uint32_t revision, uint32_t count, size_t uuid, size_t capabilities, size_t answer) {
    uint8_t lent_uuid[17], lent[2][40];
    unsigned number;
    memset(lent_uuid, 0, sizeof lent_uuid);
    memcpy(lent_uuid, SLIPWATTLE_OSC_UUID, sizeof SLIPWATTLE_OSC_UUID);
    memset(lent, 0, sizeof lent);
    number = slipwattle_osc(t, session(1), bridge(0), revision, count, lent_uuid, uuid, lent[0], capabilities, lent[1], answer);
    return number == 0 ? 256u + lent[1][0] : number;
}

static void frames(slipwattle_table *t) {
    static const uint8_t zeros[16] = {0};
    uint8_t answer[12];
    CHECK(framed(t, 1, 3, 16, 12, 12) == 256);
    CHECK(framed(t, 1, 3, 15, 12, 12) == 3);
    CHECK(framed(t, 1, 3, 17, 12, 12) == 3);
    CHECK(framed(t, 1, 3, 16, 11, 12) == 3);
    CHECK(framed(t, 1, 3, 16, 13, 12) == 3);
    CHECK(framed(t, 1, 3, 16, 12, 11) == 3);
    CHECK(framed(t, 1, 3, 16, 12, 13) == 3);
    CHECK(framed(t, 1, 0, 16, 0, 0) == 3);
    CHECK(framed(t, 1, 1, 16, 4, 4) == 256 + SLIPWATTLE_STATUS_FAILURE);
    CHECK(framed(t, 1, 8, 16, 32, 32) == 256 + SLIPWATTLE_STATUS_FAILURE);
    CHECK(framed(t, 1, 9, 16, 36, 36) == 3);
    CHECK(framed(t, 1, 0x40000003u, 16, 12, 12) == 3);
    CHECK(framed(t, 0, 3, 16, 12, 12) == 256 + SLIPWATTLE_STATUS_UNKNOWN_REVISION);
    CHECK(framed(t, 257, 3, 16, 12, 12) == 256 + SLIPWATTLE_STATUS_UNKNOWN_REVISION);
    CHECK(framed(t, 65537, 3, 16, 12, 12) == 256 + SLIPWATTLE_STATUS_UNKNOWN_REVISION);
    CHECK(slipwattle_osc(t, session(1), bridge(0), 1, 3, zeros, 16, zeros, 12, answer, 12) == 0 && answer[0] == SLIPWATTLE_STATUS_UNKNOWN_UUID);
}

/* Session 1 at the bridge of session 2: refused, and nothing changes. */
static void is_refused(slipwattle_table *t) {
    static const uint8_t capabilities[12] = {0};
    uint8_t answer[12];
    slipwattle_table before = *t;
    slipwattle_reported r;
    slipwattle_addressed a;
    size_t i;
    memset(answer, 0xAA, sizeof answer);
    CHECK(osc(t, 1, 1, 0, SLIPWATTLE_CONTROL_ALL_3_0, answer) == 2);
    CHECK(osc(t, 1, 2, 0, SLIPWATTLE_CONTROL_ALL_3_0, answer) == 1);
    CHECK(slipwattle_osc(t, session(1), bridge(0), 1, 3, SLIPWATTLE_OSC_UUID, 15, capabilities, 12, answer, 12) == 3);
    CHECK(slipwattle_reset(t, session(1), bridge(1)) == 2);
    CHECK(slipwattle_reset(t, session(1), bridge(255)) == 1);
    r = slipwattle_report(t, session(1), bridge(1));
    CHECK(r.number == 2 && r.holding.held == 0 && r.holding.supported == 0);
    a = slipwattle_address(t, session(1), bridge(1), 17, 2, 3, 0x10, 4);
    CHECK(a.number == 2 && a.address == 0);
    CHECK(same_table(t, &before));
    for (i = 0; i < sizeof answer; i++) {
        CHECK(answer[i] == 0xAA);
    }
}

static void addresses(const slipwattle_table *t) {
    slipwattle_addressed a = slipwattle_address(t, session(1), bridge(0), 1, 2, 3, 0x10, 4);
    slipwattle_located l = slipwattle_locate(t, session(1), 0xE0113010u);
    CHECK(a.number == 0 && a.address == 0xE0113010u);
    CHECK(l.number == 0 && l.place.bridge.number == 0 && l.place.bus == 1 && l.place.device == 2 && l.place.function == 3 && l.place.offset == 0x10);
    l = slipwattle_locate(t, session(2), 0xE0113010u);
    CHECK(l.number == 4 && l.place.bus == 0 && l.place.offset == 0);
    l = slipwattle_locate(t, session(2), 0xE1000000u);
    CHECK(l.number == 0 && l.place.bridge.number == 1 && l.place.bus == 16 && l.place.device == 0);
    l = slipwattle_locate(t, session(2), 0xE0FFFFFFu);
    CHECK(l.number == 4 && l.place.bridge.number == 0);
    a = slipwattle_address(t, session(1), bridge(0), 1, 2, 3, 4092, 4);
    CHECK(a.number == 0 && a.address == 0xE0113FFCu);
}

/* The number of session 1's address call on bridge 0. */
static uint8_t refusal_at(const slipwattle_table *t, uint32_t bus, uint32_t device, uint32_t function, uint32_t offset, uint32_t width) {
    return slipwattle_address(t, session(1), bridge(0), bus, device, function, offset, width).number;
}

static void places_have_limits(const slipwattle_table *t) {
    CHECK(refusal_at(t, 1, 31, 0, 0, 1) == 0);
    CHECK(refusal_at(t, 1, 32, 0, 0, 1) == 5);
    CHECK(refusal_at(t, 1, 256, 0, 0, 1) == 5);
    CHECK(refusal_at(t, 1, 0xFFFFFFFFu, 0, 0, 1) == 5);
    CHECK(refusal_at(t, 1, 0, 7, 0, 1) == 0);
    CHECK(refusal_at(t, 1, 0, 8, 0, 1) == 5);
    CHECK(refusal_at(t, 1, 0, 256, 0, 1) == 5);
    CHECK(refusal_at(t, 1, 0, 0, 4095, 1) == 0);
    CHECK(refusal_at(t, 1, 0, 0, 4096, 1) == 5);
    CHECK(refusal_at(t, 1, 0, 0, 65552, 1) == 5);
    CHECK(refusal_at(t, 1, 0, 0, 0, 0) == 5);
    CHECK(refusal_at(t, 1, 0, 0, 0, 1) == 0);
    CHECK(refusal_at(t, 1, 0, 0, 0, 2) == 0);
    CHECK(refusal_at(t, 1, 0, 0, 0, 3) == 5);
    CHECK(refusal_at(t, 1, 0, 0, 0, 4) == 0);
    CHECK(refusal_at(t, 1, 0, 0, 0, 8) == 5);
    CHECK(refusal_at(t, 1, 0, 0, 0, 257) == 5);
    CHECK(refusal_at(t, 1, 0, 0, 4094, 2) == 0);
    CHECK(refusal_at(t, 1, 0, 0, 4094, 4) == 5);
    CHECK(refusal_at(t, 1, 0, 0, 4095, 2) == 5);
}

static void buses_have_limits(void) {
    slipwattle_bridge_row from_0 = row(1, 0, 255), from_1 = row(1, 1, 255), to_254 = row(1, 0, 254);
    slipwattle_started s = start(&from_0, 1, true);
    CHECK(refusal_at(&s.table, 0, 0, 0, 0, 1) == 0);
    CHECK(refusal_at(&s.table, 255, 0, 0, 0, 1) == 0);
    CHECK(refusal_at(&s.table, 256, 0, 0, 0, 1) == 4);
    CHECK(refusal_at(&s.table, 0xFFFFFFFFu, 0, 0, 0, 1) == 4);
    s = start(&from_1, 1, true);
    CHECK(refusal_at(&s.table, 0, 0, 0, 0, 1) == 4);
    CHECK(refusal_at(&s.table, 1, 0, 0, 0, 1) == 0);
    s = start(&to_254, 1, true);
    CHECK(refusal_at(&s.table, 254, 0, 0, 0, 1) == 0);
    CHECK(refusal_at(&s.table, 255, 0, 0, 0, 1) == 4);
}

/* Refusals 1, 2, 5, 4: of two that apply, the first listed. */
static void places_are_refused_in_order(const slipwattle_table *t) {
    CHECK(slipwattle_address(t, session(2), bridge(2), 256, 256, 0, 0, 4).number == 1);
    CHECK(slipwattle_address(t, session(2), bridge(0), 256, 256, 0, 0, 4).number == 2);
    CHECK(refusal_at(t, 256, 256, 0, 0, 4) == 5);
    CHECK(refusal_at(t, 256, 0, 256, 0, 4) == 5);
    CHECK(refusal_at(t, 256, 0, 0, 65552, 4) == 5);
    CHECK(refusal_at(t, 256, 0, 0, 0, 257) == 5);
    CHECK(refusal_at(t, 16, 32, 0, 0, 4) == 5);
    CHECK(refusal_at(t, 16, 31, 7, 4092, 4) == 4);
    CHECK(refusal_at(t, 256, 31, 7, 4092, 4) == 4);
}

/* The example of document 01: a type 0 and a type 1 record. */
static const uint8_t EXAMPLE[42] = {0, 0x14, 0, 1, 0, 0, 0, 8, 0, 0, 0, 0x40, 0, 0, 0, 1, 0, 0, 0, 0, 0,
                                    0, 0, 1, 0x10, 0, 1, 0, 0, 0, 3, 0, 0, 0, 4, 0, 0, 0, 7, 0, 0, 0};

/* The pair of one register in a type 2 record. */
static void write_pair(uint8_t settings[71], size_t k, uint32_t and_mask, uint32_t or_mask) {
    size_t i;
    for (i = 0; i < 4; i++) {
        settings[7 + 8 * k + i] = (uint8_t)(and_mask >> 8 * i);
        settings[11 + 8 * k + i] = (uint8_t)(or_mask >> 8 * i);
    }
}

/* A type 2 record with the same pair for every register. */
static void write_pairs(uint8_t settings[71], uint32_t and_mask, uint32_t or_mask) {
    size_t k;
    memset(settings, 0, 71);
    settings[0] = 2;
    settings[1] = 68;
    settings[3] = 1;
    for (k = 0; k < SLIPWATTLE_REGISTERS; k++) {
        write_pair(settings, k, and_mask, or_mask);
    }
}

/* AND 0xFFF6, OR 6: bits 0 and 3 are cleared, 1 and 2 set, and of the low 16 the rest kept. */
static void write_settings(uint8_t settings[71]) {
    write_pairs(settings, 0xFFF6, 6);
}

static void finds_records(void) {
    static const uint32_t types[3] = {0, 1, 2}, none[6] = {3, 255, 256, 0x101, 0x102, 0xFFFFFFFFu};
    uint8_t block[42 + 71];
    slipwattle_record r = slipwattle_find_record(EXAMPLE, 42, NULL, 0, 1);
    size_t k;
    memcpy(block, EXAMPLE, 42);
    write_settings(block + 42);
    CHECK(r.number == 0 && r.in_slot && r.start == 23 && r.size == 19);
    r = slipwattle_find_record(NULL, 0, EXAMPLE, 42, 0);
    CHECK(r.number == 0 && !r.in_slot && r.start == 0 && r.size == 23);
    r = slipwattle_find_record(EXAMPLE, 42, block, sizeof block, 2);
    CHECK(r.number == 9 && !r.in_slot && r.start == 0 && r.size == 0);
    r = slipwattle_find_record(EXAMPLE, 41, EXAMPLE, 42, 1);
    CHECK(r.number == 8 && !r.in_slot && r.start == 0 && r.size == 0);
    CHECK(slipwattle_find_record(NULL, 0, NULL, 0, 0).number == 9);
    for (k = 0; k < 3; k++) {
        CHECK(slipwattle_find_record(block, sizeof block, NULL, 0, types[k]).number == 0);
    }
    for (k = 0; k < 6; k++) {
        CHECK(slipwattle_find_record(block, sizeof block, NULL, 0, none[k]).number == 9);
        CHECK(slipwattle_find_record(EXAMPLE, 41, NULL, 0, none[k]).number == 8);
    }
}

/* A skipped field, and the example's records at the end of a block of so many bytes. */
static slipwattle_record find_at_the_end(size_t length) {
    uint8_t block[4097];
    uint8_t *lent;
    slipwattle_record r;
    memset(block, 0xFF, length);
    block[1] = (uint8_t)((length - 45) % 256);
    block[2] = (uint8_t)((length - 45) / 256);
    memcpy(block + length - 42, EXAMPLE, 42);
    lent = (uint8_t *)lend(block, length);
    r = slipwattle_find_record(NULL, 0, lent, length, 1);
    free(lent);
    return r;
}

static void finds_records_in_4096_bytes(void) {
    slipwattle_record r = find_at_the_end(4096);
    CHECK(r.number == 0 && !r.in_slot && r.start == 4096 - 19 && r.size == 19);
    r = find_at_the_end(4097);
    CHECK(r.number == 8 && !r.in_slot && r.start == 0 && r.size == 0);
}

/* A record of each type by hand, and where each starts. No two values of a record are the same. */
static const size_t STARTS[4] = {0, 23, 42, 113};
static const uint8_t RECORDS[113] = {
    0x00, 0x14, 0, 1, 0, 0, 0, 0x10, 0, 0, 0, 0xF8, 0, 0, 0, 0, 0, 0, 0, 1, 0, 0, 0,
    0x01, 0x10, 0, 1, 0, 0, 0, 2, 0, 0, 0, 5, 0, 0, 0, 6, 0, 0, 0,
    0x02, 0x44, 0, 1, 0, 0, 0,
    0x09, 0x0A, 0x0B, 0x0C, 0x01, 0x02, 0x03, 0x04, 0x19, 0x1A, 0x1B, 0x1C, 0x11, 0x12, 0x13, 0x14,
    0x29, 0x2A, 0x2B, 0x2C, 0x21, 0x22, 0x23, 0x24, 0x39, 0x3A, 0x3B, 0x3C, 0x31, 0x32, 0x33, 0x34,
    0x49, 0x4A, 0x00, 0x00, 0x41, 0x42, 0x00, 0x00, 0x59, 0x5A, 0x00, 0x00, 0x51, 0x52, 0x00, 0x00,
    0x69, 0x6A, 0x6B, 0x6C, 0x61, 0x62, 0x63, 0x64, 0xF9, 0xFA, 0xFB, 0xFC, 0xF1, 0xF2, 0xF3, 0xF4,
};

/* The block of those of them whose type is a bit of the choice; gives its length. */
static size_t write_choice(uint8_t block[113], unsigned choice) {
    size_t length = 0;
    unsigned k;
    for (k = 0; k < 3; k++) {
        if (choice >> k & 1) {
            memcpy(block + length, RECORDS + STARTS[k], STARTS[k + 1] - STARTS[k]);
            length += STARTS[k + 1] - STARTS[k];
        }
    }
    return length;
}

static slipwattle_masks masks(uint32_t and_mask, uint32_t or_mask) {
    slipwattle_masks m;
    m.and_mask = and_mask;
    m.or_mask = or_mask;
    return m;
}

/* The same by value. */
static slipwattle_settings chosen(unsigned choice) {
    slipwattle_settings s;
    s.pci.cache_line_size = 0x10;
    s.pci.latency_timer = 0xF8;
    s.pci.enable_serr = 0;
    s.pci.enable_perr = 1;
    s.pci_x.maximum_memory_read_byte_count = 2;
    s.pci_x.average_maximum_outstanding_split_transactions = 5;
    s.pci_x.total_maximum_outstanding_split_transactions = 6;
    s.express.uncorrectable_error_mask = masks(0x0C0B0A09, 0x04030201);
    s.express.uncorrectable_error_severity = masks(0x1C1B1A19, 0x14131211);
    s.express.correctable_error_mask = masks(0x2C2B2A29, 0x24232221);
    s.express.advanced_error_capabilities_and_control = masks(0x3C3B3A39, 0x34333231);
    s.express.device_control = masks(0x4A49, 0x4241);
    s.express.link_control = masks(0x5A59, 0x5251);
    s.express.secondary_uncorrectable_error_severity = masks(0x6C6B6A69, 0x64636261);
    s.express.secondary_uncorrectable_error_mask = masks(0xFCFBFAF9u, 0xF4F3F2F1u);
    s.has_pci = choice & 1;
    s.has_pci_x = choice >> 1 & 1;
    s.has_express = choice >> 2 & 1;
    return s;
}

/* Whether writing into a buffer of so many bytes gives this number, and with 0 this block at its start. Every other byte stays, those around the buffer too. */
static bool writes(slipwattle_settings s, size_t length, unsigned number, const uint8_t *block, size_t block_length) {
    uint8_t bytes[256], expected[256];
    slipwattle_written w;
    memset(bytes, 0xAA, sizeof bytes);
    memset(expected, 0xAA, sizeof expected);
    memcpy(expected + 33, block, block_length);
    w = slipwattle_write_records(s, bytes + 33, length);
    return w.number == number && w.length == block_length && memcmp(bytes, expected, sizeof bytes) == 0;
}

static bool refuses(slipwattle_settings s, size_t length, unsigned number) {
    return writes(s, length, number, RECORDS, 0);
}

static void writes_each_choice_of_types(void) {
    uint8_t block[113];
    unsigned choice;
    size_t length, size;
    for (choice = 0; choice < 8; choice++) {
        size = write_choice(block, choice);
        for (length = 0; length <= 200; length++) {
            CHECK(length < size ? refuses(chosen(choice), length, 15) : writes(chosen(choice), length, 0, block, size));
        }
    }
    CHECK(writes(chosen(7), SLIPWATTLE_MAX_WRITTEN, 0, RECORDS, 113));
    CHECK(refuses(chosen(7), SLIPWATTLE_MAX_WRITTEN - 1, 15));
}

static void finds_what_was_written(void) {
    uint8_t block[SLIPWATTLE_MAX_WRITTEN];
    unsigned choice, k;
    for (choice = 0; choice < 8; choice++) {
        size_t length = slipwattle_write_records(chosen(choice), block, sizeof block).length, start = 0;
        for (k = 0; k < 3; k++) {
            slipwattle_record r = slipwattle_find_record(NULL, 0, block, length, k);
            if (choice >> k & 1) {
                CHECK(r.number == 0 && r.start == start && r.size == STARTS[k + 1] - STARTS[k]);
                start += r.size;
            } else {
                CHECK(r.number == 9);
            }
        }
    }
}

/* The example's records by value. */
static void writes_the_example(void) {
    slipwattle_settings s = chosen(3);
    s.pci.cache_line_size = 8;
    s.pci.latency_timer = 0x40;
    s.pci.enable_serr = 1;
    s.pci.enable_perr = 0;
    s.pci_x.maximum_memory_read_byte_count = 3;
    s.pci_x.average_maximum_outstanding_split_transactions = 4;
    s.pci_x.total_maximum_outstanding_split_transactions = 7;
    CHECK(writes(s, 42, 0, EXAMPLE, 42));
    CHECK(refuses(s, 41, 15));
}

static void any_flag_but_0_counts(void) {
    static const uint8_t flags[4] = {2, 0x10, 0x80, 0xFF};
    slipwattle_settings s = chosen(0);
    size_t k;
    for (k = 0; k < 4; k++) {
        s.has_pci = flags[k];
        s.has_pci_x = s.has_express = 0;
        CHECK(writes(s, 113, 0, RECORDS, 23));
        s.has_pci_x = flags[k];
        CHECK(writes(s, 113, 0, RECORDS, 42));
        s.has_express = flags[k];
        CHECK(writes(s, 113, 0, RECORDS, 113));
    }
}

static void writes_into_no_buffer(void) {
    slipwattle_settings s = chosen(2);
    slipwattle_written w = slipwattle_write_records(chosen(0), NULL, 0);
    CHECK(w.number == 0 && w.length == 0);
    w = slipwattle_write_records(s, NULL, 0);
    CHECK(w.number == 15 && w.length == 0);
    s.pci_x.maximum_memory_read_byte_count = 4;
    w = slipwattle_write_records(s, NULL, 0);
    CHECK(w.number == 14 && w.length == 0);
}

/* The records of a choice with another value at this offset. */
static slipwattle_settings with_value(unsigned choice, size_t offset, uint32_t value) {
    slipwattle_settings s = chosen(choice);
    memcpy((uint8_t *)&s + offset, &value, sizeof value);
    return s;
}

/* Types 0 and 1; searches_and_writes_each_pair has type 2. */
static void written_values_have_limits(void) {
    static const struct {
        size_t offset;
        size_t at;
        uint32_t limit;
        unsigned type;
    } values[7] = {
        /* offset in the settings, byte of the block, limit, type */
        {offsetof(slipwattle_settings, pci.cache_line_size), 7, 255, 0},
        {offsetof(slipwattle_settings, pci.latency_timer), 11, 255, 0},
        {offsetof(slipwattle_settings, pci.enable_serr), 15, 1, 0},
        {offsetof(slipwattle_settings, pci.enable_perr), 19, 1, 0},
        {offsetof(slipwattle_settings, pci_x.maximum_memory_read_byte_count), 30, 3, 1},
        {offsetof(slipwattle_settings, pci_x.average_maximum_outstanding_split_transactions), 34, 7, 1},
        {offsetof(slipwattle_settings, pci_x.total_maximum_outstanding_split_transactions), 38, 7, 1},
    };
    uint8_t block[113];
    size_t j, k, size;
    for (k = 0; k < 7; k++) {
        const size_t offset = values[k].offset, at = values[k].at;
        const uint32_t limit = values[k].limit;
        const unsigned others = 7u ^ 1u << values[k].type;
        /* All but the first would be right if they were cut to a byte or a word, or had a sign. */
        const uint32_t above[5] = {limit + 1, limit + 256, limit + 65536, 0x80000000u, 0xFFFFFFFFu};
        memcpy(block, RECORDS, 113);
        block[at] = (uint8_t)limit;
        CHECK(writes(with_value(7, offset, limit), 113, 0, block, 113));
        size = write_choice(block, others);
        for (j = 0; j < 5; j++) {
            CHECK(refuses(with_value(7, offset, above[j]), 113, 14));
            CHECK(refuses(with_value(7, offset, above[j]), 112, 14));
            CHECK(refuses(with_value(7, offset, above[j]), 0, 14));
            /* In an absent record it counts for nothing. */
            CHECK(writes(with_value(others, offset, above[j]), 113, 0, block, size));
        }
    }
}

/* The masks of the six error registers. */
static void other_values_have_none(void) {
    const slipwattle_masks all_ones = masks(0xFFFFFFFFu, 0xFFFFFFFFu);
    slipwattle_settings s = chosen(7);
    uint8_t block[113];
    s.express.uncorrectable_error_mask = s.express.uncorrectable_error_severity = s.express.correctable_error_mask = all_ones;
    s.express.advanced_error_capabilities_and_control = all_ones;
    s.express.secondary_uncorrectable_error_severity = s.express.secondary_uncorrectable_error_mask = all_ones;
    memcpy(block, RECORDS, 113);
    memset(block + 49, 0xFF, 32);
    memset(block + 97, 0xFF, 16);
    CHECK(writes(s, 113, 0, block, 113));
}

/* Pairs of masks: those of Device Control and Link Control are at most 65535, and a bit clear in AND and set in OR has no meaning in any. */
static const struct {
    uint32_t and_mask;
    uint32_t or_mask;
    unsigned control;
    unsigned others;
} PAIRS[32] = {
    /* AND, OR, number for Device Control and Link Control, for the others: bits are kept, cleared, set */
    {0xFFFF, 0, 0, 0}, {0, 0, 0, 0}, {0xFFFF, 0xFFFF, 0, 0}, {0xFF0F, 0x0F00, 0, 0},
    /* bits 0 and 15 */
    {1, 0, 0, 0}, {1, 1, 0, 0}, {0xFFFF, 1, 0, 0}, {0x8000, 0, 0, 0}, {0x8000, 0x8000, 0, 0}, {0xFFFF, 0x8000, 0, 0},
    /* above 65535; some would be right if they were cut to a word */
    {0x10000, 0, 8, 0}, {0x1FFFF, 0, 8, 0}, {0x1FFFF, 0x1FFFF, 8, 0}, {0x80000000u, 0, 8, 0}, {0x80000000u, 0x80000000u, 8, 0},
    {0xFFFFFFFFu, 0, 8, 0}, {0xFFFFFFFFu, 0x80000001u, 8, 0}, {0xFFFFFFFFu, 0xFFFFFFFFu, 8, 0},
    /* no meaning: bits 0, 15, 16 and 31, alone and beside others */
    {0, 1, 8, 8}, {0xFFFE, 1, 8, 8}, {0xFFFFFFFEu, 1, 8, 8}, {0, 0x8000, 8, 8}, {0x7FFF, 0x8000, 8, 8}, {0xFFFF, 0x10000, 8, 8},
    {0xFFFF, 0x1FFFF, 8, 8}, {0, 0x80000000u, 8, 8}, {0x7FFFFFFF, 0x80000000u, 8, 8}, {0x7FFFFFFF, 0xFFFFFFFFu, 8, 8},
    /* the starred pair of document 01, whole and cut to a word; one bit of two; the fourth pair turned round */
    {0xFFFFFFF0u, 6, 8, 8}, {0xFFF0, 6, 8, 8}, {1, 3, 8, 8}, {0x0F00, 0xFF0F, 8, 8},
};

/* 0, or 8 where pair j is not one of register k. */
static unsigned refusal_of_pair(size_t j, size_t k) {
    return k == 4 || k == 5 ? PAIRS[j].control : PAIRS[j].others;
}

/* The example's records, and a type 2 record with pair j for register k, where the low 16 bits of the other registers are kept. */
static void write_with_pair(uint8_t block[42 + 71], size_t j, size_t k) {
    memcpy(block, EXAMPLE, 42);
    write_pairs(block + 42, 0xFFFF, 0);
    write_pair(block + 42, k, PAIRS[j].and_mask, PAIRS[j].or_mask);
}

static void searches_with_pair(size_t j, size_t k) {
    static const uint8_t skipped[3][2] = {{0, 0}, {2, 0}, {1, 1}};
    const unsigned number = refusal_of_pair(j, k);
    uint8_t block[42 + 71];
    uint32_t type;
    size_t i;
    write_with_pair(block, j, k);
    for (type = 0; type <= 2; type++) {
        CHECK(slipwattle_find_record(block, sizeof block, EXAMPLE, 42, type).number == number);
    }
    CHECK(slipwattle_find_record(block, sizeof block, EXAMPLE, 42, 3).number == (number == 0 ? 9 : 8));
    /* The bridge's block does not count beside the slot's, and another revision, 0, 2 or 257, is skipped. */
    CHECK(slipwattle_find_record(EXAMPLE, 42, block, sizeof block, 0).number == 0);
    for (i = 0; i < 3; i++) {
        memcpy(block + 45, skipped[i], 2);
        CHECK(slipwattle_find_record(block, sizeof block, NULL, 0, 0).number == 0);
        CHECK(slipwattle_find_record(block, sizeof block, NULL, 0, 2).number == 9);
    }
}

/* Written, or refused where a block with it is unsound. */
static void writes_with_pair(size_t j, size_t k) {
    const slipwattle_masks pair = masks(PAIRS[j].and_mask, PAIRS[j].or_mask);
    const bool sound = refusal_of_pair(j, k) == 0;
    slipwattle_settings s = chosen(7);
    uint8_t block[113];
    memcpy((uint8_t *)&s.express + 8 * k, &pair, sizeof pair);
    memcpy(block, RECORDS, 113);
    write_pair(block + 42, k, pair.and_mask, pair.or_mask);
    CHECK(sound ? writes(s, 113, 0, block, 113) : refuses(s, 113, 14));
    CHECK(refuses(s, 112, sound ? 15 : 14));
    CHECK(refuses(s, 0, sound ? 15 : 14));
    /* In an absent record it counts for nothing. */
    s.has_express = 0;
    CHECK(writes(s, 113, 0, RECORDS, 42));
}

static void searches_and_writes_each_pair(void) {
    size_t j, k;
    for (j = 0; j < 32; j++) {
        for (k = 0; k < SLIPWATTLE_REGISTERS; k++) {
            searches_with_pair(j, k);
            writes_with_pair(j, k);
        }
    }
}

/* An image by hand, of so many units of 512 bytes: vendor 0x1234, device 0x5678, UEFI. The indicator 0x80 makes it the last. */
static void write_image(uint8_t *image, size_t pointer, size_t units, uint8_t indicator) {
    static const uint8_t names[8] = {'P', 'C', 'I', 'R', 0x34, 0x12, 0x78, 0x56};
    uint8_t *structure = image + pointer;
    image[0] = 0x55;
    image[1] = 0xAA;
    image[0x18] = (uint8_t)(pointer % 256);
    image[0x19] = (uint8_t)(pointer / 256);
    memcpy(structure, names, sizeof names);
    structure[0x10] = (uint8_t)(units % 256);
    structure[0x11] = (uint8_t)(units / 256);
    structure[0x14] = SLIPWATTLE_CODE_TYPE_UEFI;
    structure[0x15] = indicator;
}

/* The ROM stays as it was, and a refused call hands back zeros. */
static slipwattle_image find_image(const uint8_t *rom, size_t length, uint32_t vendor, uint32_t device, uint32_t code_type) {
    uint8_t *lent = (uint8_t *)lend(rom, length);
    slipwattle_image i = slipwattle_find_image(lent, length, vendor, device, code_type);
    CHECK(memcmp(lent, rom, length) == 0);
    CHECK(i.number == 0 || (i.start == 0 && i.size == 0));
    free(lent);
    return i;
}

/* Whether asking for what write_image writes gives this number, or with 0 an image of size bytes at start. */
static bool gives(const uint8_t *rom, size_t length, unsigned number, size_t start, size_t size) {
    slipwattle_image i = find_image(rom, length, 0x1234, 0x5678, SLIPWATTLE_CODE_TYPE_UEFI);
    return i.number == number && (number != 0 || (i.start == start && i.size == size));
}

static void judges_each_byte_of_an_image(void) {
    static const uint8_t lines[33][3] = {
        /* at, byte, number; the structure starts at 0x1C */
        {0x00, 0x55, 0},  {0x00, 0x54, 12}, {0x00, 0xAA, 12}, {0x01, 0xAB, 12}, {0x01, 0x55, 12}, {0x02, 0xFF, 0},  {0x18, 0x00, 12},
        {0x18, 0x1B, 12}, {0x18, 0x1D, 12}, {0x19, 0x01, 12}, {0x1C, 'p', 12},  {0x1D, 'c', 12},  {0x1E, 'i', 12},  {0x1F, 'r', 12},
        {0x20, 0x35, 13}, {0x21, 0x13, 13}, {0x22, 0x79, 13}, {0x23, 0x57, 13}, {0x24, 0xFF, 0},  {0x26, 0xFF, 0},  {0x28, 0xFF, 0},
        {0x29, 0xFF, 0},  {0x2C, 0x00, 12}, {0x2C, 0x02, 12}, {0x2D, 0x01, 12}, {0x2D, 0x80, 12}, {0x30, 0x02, 13}, {0x30, 0x83, 13},
        {0x31, 0x00, 12}, {0x31, 0x7F, 12}, {0x31, 0x81, 0},  {0x31, 0xFF, 0},  {0x32, 0xFF, 0},
    };
    uint8_t rom[512];
    size_t k;
    for (k = 0; k < 33; k++) {
        memset(rom, 0, sizeof rom);
        write_image(rom, 0x1C, 1, 0x80);
        rom[lines[k][0]] = lines[k][1];
        CHECK(gives(rom, 512, lines[k][2], 0, 512));
    }
}

/* An image and the 24 bytes from its structure's start, which may lie outside the image and at an odd byte. */
static void images_lie_inside_the_rom(void) {
    static const uint32_t lines[18][3] = {
        /* length of the ROM, pointer, number */
        {512, 0x1E8, 0},  {512, 0x1E9, 12}, {512, 0x1FF, 12}, {512, 0x200, 12},  {512, 0x02, 0},     {512, 0x1A, 0},
        {1024, 0x1E9, 0}, {1024, 0x200, 0}, {1024, 0x3E8, 0}, {1024, 0x3E9, 12}, {65559, 0xFFFF, 0}, {65558, 0xFFFF, 12},
        {511, 0x1C, 12},  {0x34, 0x1C, 12}, {0x1A, 0x1C, 12}, {0x19, 0x1C, 12},  {1, 0x1C, 12},      {0, 0x1C, 12},
    };
    static uint8_t rom[65559];
    slipwattle_image i = slipwattle_find_image(NULL, 0, 0x1234, 0x5678, SLIPWATTLE_CODE_TYPE_UEFI);
    size_t k;
    CHECK(i.number == 12 && i.start == 0 && i.size == 0);
    for (k = 0; k < 18; k++) {
        memset(rom, 0, sizeof rom);
        write_image(rom, lines[k][1], 1, 0x80);
        CHECK(gives(rom, lines[k][0], lines[k][2], 0, 512));
    }
}

static void compares_what_is_asked_whole(void) {
    static const uint32_t others[10][3] = {
        {0x1235, 0x5678, 3}, {0x11234, 0x5678, 3}, {0x3412, 0x5678, 3}, {0x1234, 0x5679, 3},   {0x1234, 0x15678, 3},
        {0x1234, 0x7856, 3}, {0x5678, 0x1234, 3},  {0x1234, 0x5678, 2}, {0x1234, 0x5678, 259}, {0x1234, 0x5678, 0x80000003u},
    };
    static const uint8_t types[6] = {0, 1, 2, 3, 4, 255};
    uint8_t rom[512] = {0};
    size_t k;
    write_image(rom, 0x1C, 1, 0x80);
    for (k = 0; k < 10; k++) {
        CHECK(find_image(rom, 512, others[k][0], others[k][1], others[k][2]).number == 13);
    }
    /* A device list, in a structure of revision 3, names 0x5679. */
    rom[0x24] = 0x18;
    rom[0x28] = 3;
    rom[0x34] = 0x79;
    rom[0x35] = 0x56;
    for (k = 0; k < 6; k++) {
        rom[0x30] = types[k];
        CHECK(find_image(rom, 512, 0x1234, 0x5678, types[k]).number == 0);
        CHECK(find_image(rom, 512, 0x1234, 0x5679, types[k]).number == 13);
        CHECK(find_image(rom, 512, 0x1234, 0x5678, types[k] + 256u).number == 13);
    }
    memset(rom + 0x20, 0xFF, 4);
    CHECK(find_image(rom, 512, 0xFFFF, 0xFFFF, 255).number == 0);
    CHECK(find_image(rom, 512, 0xFFFFFFFFu, 0xFFFF, 255).number == 13);
    CHECK(find_image(rom, 512, 0xFFFF, 0xFFFFFFFFu, 255).number == 13);
}

/* An image of 512 bytes and one of 1024, the last, both for the same; then 64 bytes more. The structures start at 0x1C and 0x240. */
static void write_two_images(uint8_t rom[1600]) {
    memset(rom, 0, 1536);
    memset(rom + 1536, 0xFF, 64);
    write_image(rom, 0x1C, 1, 0);
    write_image(rom + 512, 0x40, 2, 0x80);
}

static void checks_the_chain_before_it_chooses(void) {
    static const uint16_t lines[20][7] = {
        /* at, byte, at, byte, number, start, size: the first image */
        {0x00, 0x55, 0x200, 0x55, 0, 0, 512}, {0x00, 0x55, 0x254, 0, 0, 0, 512}, {0x31, 0x7F, 0x255, 0xFF, 0, 0, 512},
        /* the second */
        {0x20, 0, 0x200, 0x55, 0, 512, 1024}, {0x22, 0, 0x200, 0x55, 0, 512, 1024}, {0x30, 0, 0x250, 1, 0, 512, 512},
        /* the second is broken, whether or not the first matches */
        {0x00, 0x55, 0x200, 0, 12, 0, 0}, {0x00, 0x55, 0x201, 0, 12, 0, 0}, {0x00, 0x55, 0x218, 0x41, 12, 0, 0},
        {0x00, 0x55, 0x243, 0, 12, 0, 0}, {0x00, 0x55, 0x250, 0, 12, 0, 0}, {0x00, 0x55, 0x250, 3, 12, 0, 0},
        {0x00, 0x55, 0x255, 0x7F, 12, 0, 0}, {0x30, 0, 0x250, 0, 12, 0, 0}, {0x30, 0, 0x255, 0, 12, 0, 0},
        /* the first leads to no second, or is the last */
        {0x2C, 2, 0x200, 0x55, 12, 0, 0}, {0x2C, 3, 0x200, 0x55, 12, 0, 0}, {0x31, 0x80, 0x200, 0, 0, 0, 512},
        /* none matches, though one after the last does */
        {0x30, 0, 0x254, 0, 13, 0, 0}, {0x30, 0, 0x31, 0x80, 13, 0, 0},
    };
    uint8_t rom[1600];
    size_t k;
    for (k = 0; k < 20; k++) {
        write_two_images(rom);
        rom[lines[k][0]] = (uint8_t)lines[k][1];
        rom[lines[k][2]] = (uint8_t)lines[k][3];
        CHECK(gives(rom, 1536, lines[k][4], lines[k][5], lines[k][6]));
    }
}

static void ends_with_the_last_image(void) {
    uint8_t rom[1600];
    write_two_images(rom);
    CHECK(gives(rom, 512, 12, 0, 0));
    CHECK(gives(rom, 1535, 12, 0, 0));
    CHECK(gives(rom, 1536, 0, 0, 512));
    CHECK(gives(rom, 1537, 0, 0, 512));
    CHECK(gives(rom, 1600, 0, 0, 512));
    /* The second pointer counts from the second image's start. */
    write_image(rom + 512, 0x3E8, 2, 0x80);
    CHECK(gives(rom, 1536, 0, 0, 512));
    write_image(rom + 512, 0x3E9, 2, 0x80);
    CHECK(gives(rom, 1536, 12, 0, 0));
}

static void finds_images_in_16_mib(void) {
    const size_t most = SLIPWATTLE_MAX_ROM, last = most - 512;
    uint8_t *rom = (uint8_t *)calloc(most + 1, 1);
    slipwattle_image i;
    size_t at;
    if (rom == NULL) {
        exit(2);
    }
    write_image(rom, 0x1C, 0x8000, 0x80);
    CHECK(gives(rom, most, 0, 0, 16777216));
    CHECK(gives(rom, most - 1, 12, 0, 0));
    CHECK(gives(rom, most + 1, 12, 0, 0));
    write_image(rom, 0x1C, 0x8001, 0x80);
    CHECK(gives(rom, most, 12, 0, 0));
    /* As many images as there is room for; the last alone is for PC-AT. */
    for (at = 0; at < most; at += 512) {
        write_image(rom + at, 0x1C, 1, 0);
    }
    CHECK(gives(rom, most, 12, 0, 0));
    rom[last + 0x30] = SLIPWATTLE_CODE_TYPE_PC_AT;
    rom[last + 0x31] = 0x80;
    i = find_image(rom, most, 0x1234, 0x5678, SLIPWATTLE_CODE_TYPE_PC_AT);
    CHECK(i.number == 0 && i.start == last && i.size == 512);
    CHECK(find_image(rom, most, 0x1234, 0x5678, SLIPWATTLE_CODE_TYPE_PA_RISC).number == 13);
    CHECK(find_image(rom, most + 1, 0x1234, 0x5678, SLIPWATTLE_CODE_TYPE_PA_RISC).number == 12);
    free(rom);
}

static void computes_register_values(slipwattle_table *t) {
    uint8_t settings[71], answer[12];
    uint32_t current[9] = {1, 2, 3, 4, 0x2110, 6, 7, 8, 9};
    slipwattle_values v;
    write_settings(settings);
    v = slipwattle_register_values(t, session(1), bridge(0), settings, 71, NULL, 0, current, 8);
    CHECK(v.number == 0 && v.values[0] == 1 && v.values[4] == 0x2116 && v.values[5] == 6 && v.values[7] == 8);
    v = slipwattle_register_values(t, session(1), bridge(0), EXAMPLE, 42, settings, 71, current, 8);
    CHECK(v.number == 9 && v.values[4] == 0);
    CHECK(slipwattle_register_values(t, session(1), bridge(0), settings, 70, NULL, 0, current, 8).number == 8);
    CHECK(slipwattle_register_values(t, session(1), bridge(0), settings, 71, NULL, 0, current, 7).number == 10);
    CHECK(slipwattle_register_values(t, session(1), bridge(0), settings, 71, NULL, 0, current, 9).number == 10);
    CHECK(slipwattle_register_values(t, session(1), bridge(0), settings, 71, NULL, 0, NULL, 0).number == 10);
    CHECK(slipwattle_register_values(t, session(2), bridge(1), settings, 71, NULL, 0, current, 8).number == 11);
    CHECK(slipwattle_register_values(t, session(2), bridge(0), settings, 71, NULL, 0, current, 8).number == 2);
    current[4] = 65535;
    current[5] = 65535;
    CHECK(slipwattle_register_values(t, session(1), bridge(0), settings, 71, NULL, 0, current, 8).number == 0);
    current[5] = 65536;
    CHECK(slipwattle_register_values(t, session(1), bridge(0), settings, 71, NULL, 0, current, 8).number == 10);
    /* Without AER the error registers take the record's bits too. */
    CHECK(slipwattle_reset(t, session(1), bridge(0)) == 0 && osc(t, 1, 0, 0, HOT_PLUG, answer) == 0);
    current[5] = 6;
    v = slipwattle_register_values(t, session(1), bridge(0), settings, 71, NULL, 0, current, 8);
    CHECK(v.number == 0 && v.values[0] == 6 && v.values[4] == 0xFFF6 && v.values[7] == 6);
}

/* On one bridge of edition 3.3, which holds AER with downstream port containment or not at all. */
static void computes_by_edition_3_3(void) {
    static const uint32_t current[SLIPWATTLE_REGISTERS] = {1, 2, 3, 4, 0x2110, 6, 7, 8};
    slipwattle_bridge_row r = row_3_3(1, 0, 15);
    slipwattle_started s = start(&r, 1, true);
    uint8_t settings[71];
    slipwattle_values v;
    write_settings(settings);
    CHECK(grants(&s.table, 0, 0, 0x98, 0x80, 0x98));
    CHECK(slipwattle_register_values(&s.table, session(1), bridge(0), settings, 71, NULL, 0, current, 8).number == 11);
    CHECK(grants(&s.table, 0, 0, 0x11, 0, 0x11));
    v = slipwattle_register_values(&s.table, session(1), bridge(0), settings, 71, NULL, 0, current, 8);
    CHECK(v.number == 0 && v.values[0] == 1 && v.values[4] == 0x2116 && v.values[7] == 8);
    CHECK(slipwattle_reset(&s.table, session(1), bridge(0)) == 0 && grants(&s.table, 0, 0, 0x19, 0x80, 0x11));
    v = slipwattle_register_values(&s.table, session(1), bridge(0), settings, 71, NULL, 0, current, 8);
    CHECK(v.number == 0 && v.values[0] == 6 && v.values[4] == 0x2116 && v.values[7] == 6);
}

/* Bits 5 to 7 and 12 to 14 of Device Control stay; bridge 0 holds no AER. */
static void keeps_payload_sizes(const slipwattle_table *t) {
    static const uint16_t lines[4][5] = {
        /* current, AND, OR, Device Control, the other seven */
        {0x2810, 0x5020, 0x5020, 0x2000, 0x5020},
        {0, 0xFFFF, 0xFFFF, 0x8F1F, 0xFFFF},
        {0x70E0, 0, 0, 0x70E0, 0},
        {0xFFFF, 0, 0, 0x70E0, 0},
    };
    uint8_t settings[71];
    uint32_t current[SLIPWATTLE_REGISTERS];
    slipwattle_values v;
    size_t j, k;
    for (j = 0; j < 4; j++) {
        write_pairs(settings, lines[j][1], lines[j][2]);
        for (k = 0; k < SLIPWATTLE_REGISTERS; k++) {
            current[k] = lines[j][0];
        }
        v = slipwattle_register_values(t, session(1), bridge(0), settings, 71, NULL, 0, current, 8);
        CHECK(v.number == 0);
        for (k = 0; k < SLIPWATTLE_REGISTERS; k++) {
            CHECK(v.values[k] == lines[j][k == 4 ? 3 : 4]);
        }
    }
}

/* Register values of session 1 on bridge 0, with each pair in the slot's block, and with another revision, which is skipped. */
static void judges_each_pair(const slipwattle_table *t) {
    static const uint32_t current[SLIPWATTLE_REGISTERS] = {0};
    uint8_t block[42 + 71];
    size_t j, k;
    for (j = 0; j < 32; j++) {
        for (k = 0; k < SLIPWATTLE_REGISTERS; k++) {
            write_with_pair(block, j, k);
            CHECK(slipwattle_register_values(t, session(1), bridge(0), block, sizeof block, NULL, 0, current, 8).number == refusal_of_pair(j, k));
            block[45] = 2;
            CHECK(slipwattle_register_values(t, session(1), bridge(0), block, sizeof block, NULL, 0, current, 8).number == 9);
        }
    }
}

/* Refusals 2, 11 and 10 come before 8. Bridge 1 holds nothing. */
static void judges_masks_last(const slipwattle_table *t) {
    static const uint32_t current[SLIPWATTLE_REGISTERS] = {0};
    uint8_t settings[71];
    write_pairs(settings, 0xFFF0, 6);
    CHECK(slipwattle_register_values(t, session(2), bridge(0), settings, 71, NULL, 0, current, 7).number == 2);
    CHECK(slipwattle_register_values(t, session(2), bridge(1), settings, 71, NULL, 0, current, 7).number == 11);
    CHECK(slipwattle_register_values(t, session(1), bridge(0), settings, 71, NULL, 0, current, 7).number == 10);
    CHECK(slipwattle_register_values(t, session(1), bridge(0), settings, 71, NULL, 0, current, 8).number == 8);
}

/* Register k by a pair of its own, where the low 16 bits of the others are kept; bridge 0 holds no AER. */
static bool computes(const slipwattle_table *t, size_t k, slipwattle_masks pair, uint32_t value, uint32_t expected) {
    uint32_t current[SLIPWATTLE_REGISTERS] = {1, 2, 3, 4, 5, 6, 7, 8};
    uint8_t settings[71];
    slipwattle_values v;
    write_pairs(settings, 0xFFFF, 0);
    write_pair(settings, k, pair.and_mask, pair.or_mask);
    current[k] = value;
    v = slipwattle_register_values(t, session(1), bridge(0), settings, 71, NULL, 0, current, SLIPWATTLE_REGISTERS);
    current[k] = expected;
    return v.number == 0 && memcmp(v.values, current, sizeof current) == 0;
}

static void computes_by_each_pair(const slipwattle_table *t) {
    static const uint32_t lines[17][5] = {
        /* AND, OR, current, new, new in Device Control: kept, cleared, set, all three */
        {0xFFFF, 0, 0x2810, 0x2810, 0x2810}, {0, 0, 0x2810, 0, 0x2000}, {0xFFFF, 0xFFFF, 0x2810, 0xFFFF, 0xAF1F}, {0xFF0F, 0x0F00, 0x1234, 0x1F04, 0x1F24},
        /* bit 0, bit 15, and the starred value of document 01 */
        {0xFFFF, 1, 0x2810, 0x2811, 0x2811}, {1, 1, 0x2810, 1, 0x2001}, {1, 0, 0xFFFF, 1, 0x70E1}, {0xFFFE, 0, 0xFFFF, 0xFFFE, 0xFFFE},
        {0x8000, 0x8000, 0x7FFF, 0x8000, 0xF0E0}, {0x7FFF, 0, 0xFFFF, 0x7FFF, 0x7FFF}, {0xFFF6, 6, 0x2110, 0x2116, 0x2116},
        /* not in Device Control and Link Control: bit 31, and 32 bits */
        {0xFFFFFFFFu, 0x80000000u, 0x2810, 0x80002810u, 0}, {0x7FFFFFFF, 0, 0x80002810u, 0x2810, 0}, {0x80000000u, 0x80000000u, 0x2810, 0x80000000u, 0},
        {0x80000001u, 1, 0xFFFFFFFEu, 0x80000001u, 0}, {0xFF0000FFu, 0x0F0000F0u, 0x12345678u, 0x1F0000F8u, 0}, {0xFFFFFFF6u, 6, 0x2110, 0x2116, 0},
    };
    size_t j, k;
    for (j = 0; j < 17; j++) {
        for (k = 0; k < SLIPWATTLE_REGISTERS; k++) {
            if (j < 11 || (k != 4 && k != 5)) {
                CHECK(computes(t, k, masks(lines[j][0], lines[j][1]), lines[j][2], lines[j][k == 4 ? 4 : 3]));
            }
        }
    }
}

static void has_a_text_for_each_number(void) {
    const char *none = slipwattle_refusal_text(16);
    int n, other;
    for (n = SLIPWATTLE_DONE; n <= 16; n++) {
        CHECK(slipwattle_refusal_text(n)[0] != '\0');
        for (other = SLIPWATTLE_DONE; other < n; other++) {
            CHECK(strcmp(slipwattle_refusal_text(n), slipwattle_refusal_text(other)) != 0);
        }
    }
    CHECK(strcmp(slipwattle_refusal_text(255), none) == 0);
    CHECK(strcmp(slipwattle_refusal_text(256), none) == 0);
    CHECK(strcmp(slipwattle_refusal_text(-1), none) == 0);
}

/* The two searches and the writer. */
static void takes_no_table(void) {
    finds_records();
    finds_records_in_4096_bytes();
    writes_each_choice_of_types();
    finds_what_was_written();
    writes_the_example();
    any_flag_but_0_counts();
    writes_into_no_buffer();
    written_values_have_limits();
    other_values_have_none();
    searches_and_writes_each_pair();
    judges_each_byte_of_an_image();
    images_lie_inside_the_rom();
    compares_what_is_asked_whole();
    checks_the_chain_before_it_chooses();
    ends_with_the_last_image();
    finds_images_in_16_mib();
}

/* Edition 3.3 of the control field, and tables with both editions. */
static void has_two_editions(void) {
    judges_each_permitted_bit();
    judges_each_edition();
    grants_by_the_needs_of_3_3();
    grants_by_the_needs_of_3_0();
    grants_by_conventional_rows();
    counts_what_is_held_and_declared();
    negotiates_with_the_same_support();
    answers_by_each_edition();
    leaves_each_edition();
    computes_by_edition_3_3();
}

int main(void) {
    slipwattle_bridge_row rows[2];
    slipwattle_started s;
    slipwattle_reported r;
    rows[0] = row(1, 0, 15);
    rows[1] = row(2, 16, 31);
    s = start(rows, 2, true);
    CHECK(s.number == 0 && s.table.count == 2);
    starts_up_to_64_rows();
    judges_each_field_of_a_row();
    keeps_each_field_of_a_row();
    has_two_editions();
    negotiates(&s.table);
    frames(&s.table);
    is_refused(&s.table);
    addresses(&s.table);
    places_have_limits(&s.table);
    buses_have_limits();
    places_are_refused_in_order(&s.table);
    takes_no_table();
    /* With AER held, and then without. */
    judges_each_pair(&s.table);
    computes_register_values(&s.table);
    judges_each_pair(&s.table);
    judges_masks_last(&s.table);
    computes_by_each_pair(&s.table);
    keeps_payload_sizes(&s.table);
    has_a_text_for_each_number();
    CHECK(slipwattle_reset(&s.table, session(1), bridge(0)) == 0);
    r = slipwattle_report(&s.table, session(1), bridge(0));
    CHECK(r.number == 0 && r.holding.held == 0 && r.holding.supported == 0);
    printf("%d checks, %d failed\n", checks, failures);
    return failures == 0 ? 0 : 1;
}
