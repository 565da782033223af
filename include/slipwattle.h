/* Slipwattle: one platform service for the PCI host bridges of several sessions.
 *
 * Each call gives a number first, 0 where it is done and else why it is refused (enum slipwattle_refusal). A call checks only the numbers
 * listed at it, in that order, and gives the first that applies. A refused call hands back zeros beside its number, and changes neither
 * the table nor any buffer. The numbers of a place, a width, a record's type and values, and a ROM image's vendor, device and code type
 * are compared whole: code type 256 does not pass for code type 0. Session and bridge numbers, the small fields of a row and the flags of
 * slipwattle_settings are bytes: what is stored in them has been cut to a byte before it comes in.
 *
 * What the caller sees to, since C cannot:
 *  - A table comes only from slipwattle_start, and only these calls change it. It may be copied; its fields are not for the caller.
 *  - A pointer with a length or a count leads to that many bytes, numbers or rows. Where that is 0 the pointer may be NULL.
 *  - What a call may change (the table, the answer buffer, the buffer for records) overlaps nothing else that is lent to it, and no other
 *    thread uses it meanwhile. Several threads may at once make calls that take the table as const.
 *
 * What const rests on: it is proved that a call which takes the table as const leaves it as it was. That it stores nothing through the
 * pointer, not even what stands there, is not proved; rust/tests/read_only.rs checks it on a table in read-only memory.
 */
#ifndef SLIPWATTLE_H
#define SLIPWATTLE_H

#include <stdbool.h>
#include <stddef.h>
#include <stdint.h>

#ifdef __cplusplus
extern "C" {
#endif

#define SLIPWATTLE_VERSION_MAJOR 0
#define SLIPWATTLE_VERSION_MINOR 9
#define SLIPWATTLE_VERSION_PATCH 0
#define SLIPWATTLE_VERSION "0.9.0"

/* The most rows of a starting list (a table has a bridge for each), the registers of a type 2 record, the most bytes of a ROM, and the most
 * bytes that slipwattle_write_records writes. */
#define SLIPWATTLE_MAX_ROWS 64
#define SLIPWATTLE_REGISTERS 8
#define SLIPWATTLE_MAX_ROM 16777216u
#define SLIPWATTLE_MAX_WRITTEN 113

/* The number that each call gives. */
enum slipwattle_refusal {
    SLIPWATTLE_DONE = 0,
    /* the bridge number is not in the table */
    SLIPWATTLE_REFUSAL_NO_SUCH_BRIDGE = 1,
    /* the bridge's owner is not the calling session */
    SLIPWATTLE_REFUSAL_NOT_OWNER = 2,
    /* _OSC framing: UUID not 16 bytes, Count 0 or above 8, capability length or answer length not 4 x Count */
    SLIPWATTLE_REFUSAL_FRAMING = 3,
    /* the bus is outside the bridge's buses; or, reading an address back, it lies in no bridge of this session */
    SLIPWATTLE_REFUSAL_NO_SUCH_BUS = 4,
    /* device above 31, function above 7, offset above 4095, width not 1, 2 or 4, or offset not a multiple of width */
    SLIPWATTLE_REFUSAL_BAD_PLACE = 5,
    /* the MCFG table is unsound */
    SLIPWATTLE_REFUSAL_MCFG = 6,
    /* the list of bridge rows is unsound */
    SLIPWATTLE_REFUSAL_ROWS = 7,
    /* the deciding record block is unsound */
    SLIPWATTLE_REFUSAL_RECORD_BLOCK = 8,
    /* that block has no revision 1 record of the asked type */
    SLIPWATTLE_REFUSAL_NO_RECORD = 9,
    /* the register list is not 8 numbers, or its Device Control or Link Control is above 65535 */
    SLIPWATTLE_REFUSAL_REGISTERS = 10,
    /* the bridge does not hold control bit 0, Express hot plug */
    SLIPWATTLE_REFUSAL_NO_HOT_PLUG = 11,
    /* the ROM is above 16 MiB, or its chain of images is broken before or in its last image */
    SLIPWATTLE_REFUSAL_ROM = 12,
    /* the ROM's chain of images has none with the asked vendor, device and code type */
    SLIPWATTLE_REFUSAL_NO_IMAGE = 13,
    /* a value of a record to be written is out of range, or a bit is clear in an AND mask and set in its OR mask */
    SLIPWATTLE_REFUSAL_RECORD_VALUE = 14,
    /* the buffer is too short for the records to be written */
    SLIPWATTLE_REFUSAL_SHORT_BUFFER = 15
};

/* The number in words, for a person. */
static inline const char *slipwattle_refusal_text(int number) {
    switch (number) {
    case SLIPWATTLE_DONE:
        return "done";
    case SLIPWATTLE_REFUSAL_NO_SUCH_BRIDGE:
        return "the bridge number is not in the table";
    case SLIPWATTLE_REFUSAL_NOT_OWNER:
        return "the bridge's owner is not the calling session";
    case SLIPWATTLE_REFUSAL_FRAMING:
        return "_OSC framing: the UUID is not 16 bytes, Count is 0 or above 8, or a buffer's length is not 4 x Count";
    case SLIPWATTLE_REFUSAL_NO_SUCH_BUS:
        return "the bus is outside the bridge's buses, or the address lies in no bridge of this session";
    case SLIPWATTLE_REFUSAL_BAD_PLACE:
        return "device above 31, function above 7, offset above 4095, width not 1, 2 or 4, or offset not a multiple of width";
    case SLIPWATTLE_REFUSAL_MCFG:
        return "the MCFG table is unsound";
    case SLIPWATTLE_REFUSAL_ROWS:
        return "the list of bridge rows is unsound";
    case SLIPWATTLE_REFUSAL_RECORD_BLOCK:
        return "the deciding record block is unsound";
    case SLIPWATTLE_REFUSAL_NO_RECORD:
        return "the deciding record block has no revision 1 record of the asked type";
    case SLIPWATTLE_REFUSAL_REGISTERS:
        return "the register list is not 8 numbers, or its Device Control or Link Control is above 65535";
    case SLIPWATTLE_REFUSAL_NO_HOT_PLUG:
        return "the bridge does not hold control bit 0, Express hot plug";
    case SLIPWATTLE_REFUSAL_ROM:
        return "the ROM is above 16 MiB, or its chain of images is broken before or in its last image";
    case SLIPWATTLE_REFUSAL_NO_IMAGE:
        return "the ROM's chain of images has none with the asked vendor, device and code type";
    case SLIPWATTLE_REFUSAL_RECORD_VALUE:
        return "a value of a record to be written is out of range, or a bit is clear in an AND mask and set in its OR mask";
    case SLIPWATTLE_REFUSAL_SHORT_BUFFER:
        return "the buffer is too short for the records to be written";
    default:
        return "no call gives this number";
    }
}

/* _OSC: its UUID as it stands in the buffer, its revision, and the Count of DWORDs: status, support, control. */
static const uint8_t SLIPWATTLE_OSC_UUID[16] = {0x5B, 0x4D, 0xDB, 0x33, 0xF7, 0x1F, 0x1C, 0x40, 0x96, 0x57, 0x74, 0x41, 0xC0, 0x3D, 0xD7, 0x66};
#define SLIPWATTLE_OSC_REVISION 1
#define SLIPWATTLE_OSC_COUNT 3

/* The first DWORD: in the capabilities the query flag; in the answer its status, 0 or one of the four. */
#define SLIPWATTLE_QUERY_FLAG 0x01u
#define SLIPWATTLE_STATUS_FAILURE 0x02u
#define SLIPWATTLE_STATUS_UNKNOWN_UUID 0x04u
#define SLIPWATTLE_STATUS_UNKNOWN_REVISION 0x08u
#define SLIPWATTLE_STATUS_MASKED 0x10u

/* The second DWORD: the support bits, by which the caller declares what it supports, and all that are known in an edition of the PCI
 * Firmware Specification (enum slipwattle_edition): bits 0 to 4 in 3.0, 0 to 8 in 3.3. */
#define SLIPWATTLE_SUPPORT_EXTENDED_CONFIG 0x01u
#define SLIPWATTLE_SUPPORT_ACTIVE_STATE_POWER_MANAGEMENT 0x02u
#define SLIPWATTLE_SUPPORT_CLOCK_POWER_MANAGEMENT 0x04u
#define SLIPWATTLE_SUPPORT_SEGMENT_GROUPS 0x08u
#define SLIPWATTLE_SUPPORT_MSI 0x10u
#define SLIPWATTLE_SUPPORT_OPTIMIZED_BUFFER_FLUSH_FILL 0x20u
#define SLIPWATTLE_SUPPORT_ASPM_OPTIONALITY 0x40u
#define SLIPWATTLE_SUPPORT_ERROR_DISCONNECT_RECOVER 0x80u
#define SLIPWATTLE_SUPPORT_HPX_TYPE_3 0x100u
#define SLIPWATTLE_SUPPORT_ALL_3_0 0x1Fu
#define SLIPWATTLE_SUPPORT_ALL_3_3 0x1FFu

/* The third DWORD: the control bits, and all that are known in an edition. What each needs:
 *
 *    bit                                 in edition 3.0    in edition 3.3
 *    0  Express hot plug                 bit 4             bit 4
 *    1  SHPC hot plug                    nothing           bit 4
 *    2  PME                              bit 4             bit 4
 *    3  AER                              bit 4             bits 4 and 7
 *    4  Express capability structure     nothing           nothing
 *    5  latency tolerance reporting      not known         bit 4
 *    6  all ones invalid                 not known         nothing
 *    7  downstream port containment      not known         bits 3 and 4, support bit 7
 *    8  completion timeout               not known         bit 4
 *    9  system firmware intermediary     not known         nothing
 *
 * Bit 6 has no title in the specification: drivers never take an all-ones read for data.
 *
 * Granted is the largest set of requested known bits in which each is held, or is permitted and has the control bits that it needs in the
 * set and the support bits that it needs declared: by this call, or among the bridge's supported bits. So a held bit serves another only if
 * the same call requests it too; and where neither is held, edition 3.3 grants AER and downstream port containment together or not at all.
 */
#define SLIPWATTLE_CONTROL_EXPRESS_HOT_PLUG 0x01u
#define SLIPWATTLE_CONTROL_SHPC_HOT_PLUG 0x02u
#define SLIPWATTLE_CONTROL_PME 0x04u
#define SLIPWATTLE_CONTROL_AER 0x08u
#define SLIPWATTLE_CONTROL_EXPRESS_CAPABILITY 0x10u
#define SLIPWATTLE_CONTROL_LATENCY_TOLERANCE_REPORTING 0x20u
#define SLIPWATTLE_CONTROL_ALL_ONES_INVALID 0x40u
#define SLIPWATTLE_CONTROL_DOWNSTREAM_PORT_CONTAINMENT 0x80u
#define SLIPWATTLE_CONTROL_COMPLETION_TIMEOUT 0x100u
#define SLIPWATTLE_CONTROL_SYSTEM_FIRMWARE_INTERMEDIARY 0x200u
#define SLIPWATTLE_CONTROL_ALL_3_0 0x1Fu
#define SLIPWATTLE_CONTROL_ALL_3_3 0x3FFu

/* The code types of a ROM image that the PCI Firmware Specification assigns: Intel x86, PC-AT compatible; Open Firmware; Hewlett-Packard
 * PA RISC; UEFI. The others, 4 to 255, are reserved; a call may ask for them too. */
#define SLIPWATTLE_CODE_TYPE_PC_AT 0
#define SLIPWATTLE_CODE_TYPE_OPEN_FIRMWARE 1
#define SLIPWATTLE_CODE_TYPE_PA_RISC 2
#define SLIPWATTLE_CODE_TYPE_UEFI 3

/* The kind of a host bridge. A conventional one permits no control bit but SHPC hot plug, which edition 3.3 never grants there: it needs
 * bit 4. */
enum slipwattle_kind {
    SLIPWATTLE_KIND_EXPRESS = 0,
    SLIPWATTLE_KIND_CONVENTIONAL = 1
};

/* The edition of the PCI Firmware Specification by which a host bridge answers _OSC: it says which support and control bits are known, and
 * what a control bit needs. */
enum slipwattle_edition {
    SLIPWATTLE_EDITION_3_0 = 0,
    SLIPWATTLE_EDITION_3_3 = 1
};

/* A session number and a bridge number are of different types, so that one does not pass for the other. */
typedef struct {
    uint8_t number;
} slipwattle_session;

typedef struct {
    uint8_t number;
} slipwattle_bridge;

/* A row of the starting list: the control bits that _OSC may grant, of those known in its edition, the PCI segment, the session that owns
 * the bridge (0 to 63), its buses, its kind (enum slipwattle_kind), and its edition (enum slipwattle_edition). With the fields by name,
 * where an edition left out is 3.0:
 *    {.permitted = SLIPWATTLE_CONTROL_ALL_3_3, .segment = 0, .owner = {1}, .first_bus = 0, .last_bus = 15, .kind = SLIPWATTLE_KIND_EXPRESS,
 *     .edition = SLIPWATTLE_EDITION_3_3} */
typedef struct {
    uint32_t permitted;
    uint16_t segment;
    slipwattle_session owner;
    uint8_t first_bus;
    uint8_t last_bus;
    uint8_t kind;
    uint8_t edition;
} slipwattle_bridge_row;

/* A host bridge as the table keeps it. For the calls alone. */
typedef struct {
    uint64_t base;
    uint32_t permitted;
    uint32_t held;
    uint32_t supported;
    uint16_t segment;
    slipwattle_session owner;
    uint8_t first_bus;
    uint8_t last_bus;
    uint8_t edition;
} slipwattle_host_bridge;

/* The table of host bridges: 2056 bytes, 64 bridges of 32 bytes and their count. For the calls alone. */
typedef struct {
    slipwattle_host_bridge bridges[SLIPWATTLE_MAX_ROWS];
    size_t count;
} slipwattle_table;

typedef struct {
    slipwattle_table table;
    uint8_t number;
} slipwattle_started;

/* Starts a table. Refusals: 6, 7; a refused start gives a table with no bridges, on which every call may be made.
 *
 * mcfg: the bytes of the ACPI MCFG table, header included: 44, and 16 for each of 0 to 64 entries.
 * rows: the starting list, a row for each bridge. Bridges are numbered from 0 in this order. row_count counts rows, not bytes. More than
 *    SLIPWATTLE_MAX_ROWS of them, a kind or an edition that is none, or a permitted bit not known in the row's edition, is 7. One list may
 *    have rows of both editions.
 */
slipwattle_started slipwattle_start(const uint8_t *mcfg, size_t mcfg_length, const slipwattle_bridge_row *rows, size_t row_count);

/* Answers an _OSC call. Refusals: 1, 2, 3; a refused call leaves the answer buffer as it was.
 *
 * uuid: 16 bytes as they stand in the buffer. revision, count: the arguments of _OSC, count in DWORDs.
 * capabilities, answer: 4 x count bytes each, little-endian DWORDs: status, support, control. With 0 the answer is full: its status
 *    says of an unknown UUID, another revision, a count that is not 3 (SLIPWATTLE_STATUS_FAILURE) or masked bits.
 * Without SLIPWATTLE_QUERY_FLAG the granted bits join those held, the known support bits those supported. The bridge's edition says which
 *    are known.
 * To negotiate, send a query, then a second one for the control bits that came back, then a taking call for these, all three with the same
 *    support DWORD. If no other taking call or reset reaches the bridge meanwhile, the second answer is not masked, and the taking call
 *    grants exactly these bits.
 */
uint8_t slipwattle_osc(slipwattle_table *table, slipwattle_session session, slipwattle_bridge bridge, uint32_t revision, uint32_t count,
                       const uint8_t *uuid, size_t uuid_length, const uint8_t *capabilities, size_t capabilities_length,
                       uint8_t *answer, size_t answer_length);

/* Sets the bridge's held and supported bits to 0. Refusals: 1, 2. */
uint8_t slipwattle_reset(slipwattle_table *table, slipwattle_session session, slipwattle_bridge bridge);

typedef struct {
    uint32_t held;
    uint32_t supported;
} slipwattle_holding;

typedef struct {
    uint8_t number;
    slipwattle_holding holding;
} slipwattle_reported;

/* Hands back the bridge's held and supported bits. Refusals: 1, 2. The table stays as it is. */
slipwattle_reported slipwattle_report(const slipwattle_table *table, slipwattle_session session, slipwattle_bridge bridge);

typedef struct {
    uint8_t number;
    uint64_t address;
} slipwattle_addressed;

/* The ECAM address of a place: base + bus x 2^20 + device x 2^15 + function x 2^12 + offset, for an access of width bytes.
 * Refusals: 1, 2, 5, 4. Address 0 may be given with number 0. The table stays as it is. */
slipwattle_addressed slipwattle_address(const slipwattle_table *table, slipwattle_session session, slipwattle_bridge bridge, uint32_t bus,
                                        uint32_t device, uint32_t function, uint32_t offset, uint32_t width);

typedef struct {
    slipwattle_bridge bridge;
    uint8_t bus;
    uint8_t device;
    uint8_t function;
    uint16_t offset;
} slipwattle_place;

typedef struct {
    uint8_t number;
    slipwattle_place place;
} slipwattle_located;

/* Reads an address back: the place that it leads to in a bridge of this session. Refusal: 4. The table stays as it is. */
slipwattle_located slipwattle_locate(const slipwattle_table *table, slipwattle_session session, uint64_t address);

typedef struct {
    uint8_t number;
    bool in_slot;
    size_t start;
    size_t size;
} slipwattle_record;

/* Finds the revision 1 _HPX setting record of a type (0, 1 or 2). Refusals: 8, 9.
 *
 * slot, bridge_block: the slot's and the bridge's record blocks, 0 to 4096 bytes each. If the slot's is not empty it alone decides.
 * What is handed back says where the record lies: whether the slot's block decided, the byte of the deciding block where it starts, and
 *    its length, header included. The call takes no table and no session.
 * A type 2 record of revision 1 with masks that have no meaning (slipwattle_masks) makes its block unsound, whatever type is asked for. */
slipwattle_record slipwattle_find_record(const uint8_t *slot, size_t slot_length, const uint8_t *bridge_block, size_t bridge_block_length,
                                         uint32_t type);

/* The values of a PCI setting record, type 0 (ACPI, table 6-7 of document 002). */
typedef struct {
    uint32_t cache_line_size; /* in DWORDs, at most 255 */
    uint32_t latency_timer;   /* in PCI clock cycles, at most 255 */
    uint32_t enable_serr;     /* 0 or 1 */
    uint32_t enable_perr;     /* 0 or 1 */
} slipwattle_pci_setting;

/* The values of a PCI-X setting record, type 1 (table 6-8, which says what each number stands for). */
typedef struct {
    uint32_t maximum_memory_read_byte_count;                 /* at most 3 */
    uint32_t average_maximum_outstanding_split_transactions; /* at most 7 */
    uint32_t total_maximum_outstanding_split_transactions;   /* at most 7 */
} slipwattle_pci_x_setting;

/* A register's masks: AND 1 and OR 0 keep a bit, both 0 clear it, both 1 set it. So AND has the bits to keep or to set, OR
 * those to set. A bit clear in AND and set in OR has no meaning: 8 in a block, 14 from the writer. */
typedef struct {
    uint32_t and_mask;
    uint32_t or_mask;
} slipwattle_masks;

/* The values of a PCI Express setting record, type 2 (table 6-9). */
typedef struct {
    slipwattle_masks uncorrectable_error_mask;
    slipwattle_masks uncorrectable_error_severity;
    slipwattle_masks correctable_error_mask;
    slipwattle_masks advanced_error_capabilities_and_control;
    slipwattle_masks device_control; /* at most 65535 each */
    slipwattle_masks link_control;   /* at most 65535 each */
    slipwattle_masks secondary_uncorrectable_error_severity;
    slipwattle_masks secondary_uncorrectable_error_mask;
} slipwattle_express_setting;

/* At most one record of each type. Any flag but 0 says that the record is present; the values of one that is not count for nothing. */
typedef struct {
    slipwattle_express_setting express;
    slipwattle_pci_setting pci;
    slipwattle_pci_x_setting pci_x;
    uint8_t has_pci;
    uint8_t has_pci_x;
    uint8_t has_express;
} slipwattle_settings;

typedef struct {
    uint8_t number;
    size_t length;
} slipwattle_written;

/* Writes the present records, with revision 1 and by rising type, as a record block at the start of the buffer. Refusals: 14, 15.
 *
 * buffer: SLIPWATTLE_MAX_WRITTEN bytes are enough for any settings. A record of type 0, 1 or 2 takes 23, 19 or 71, header included; where
 *    none is present the buffer may be empty. The bytes behind the block are left as they were.
 * What is handed back is the block's length, for slipwattle_find_record and slipwattle_register_values. The call takes no table and no
 *    session. */
slipwattle_written slipwattle_write_records(slipwattle_settings settings, uint8_t *buffer, size_t buffer_length);

typedef struct {
    uint8_t number;
    size_t start;
    size_t size;
} slipwattle_image;

/* Finds the first expansion ROM image with this vendor, device and code type. Refusals: 12, 13.
 *
 * rom: a chain of images, at most SLIPWATTLE_MAX_ROM bytes. Each starts with 0x55 0xAA, and has at 0x18 a pointer, counted from its own
 *    start, to its structure: `PCIR`, vendor at 4, device at 6, the image's length in units of 512 bytes at 0x10, code type at 0x14, and
 *    in byte 0x15 bit 7 where it is the last. The pointer, vendor, device and length are 2 bytes each, little-endian. The next image
 *    starts where this one ends.
 * vendor, device, code_type: compared with the structure's own fields; a device list does not count. Before an image is chosen the whole
 *    chain is checked: every signature is right, every image and the 24 bytes from its structure's start lie inside the ROM, no length is
 *    0, and one image is the last. No alignment is asked, and a structure may lie outside its image. Bytes after the last image and bits
 *    0 to 6 of byte 0x15 are ignored.
 * What is handed back says where the image lies: the byte of the ROM where it starts, and its length, header included. The call takes no
 *    table and no session. */
slipwattle_image slipwattle_find_image(const uint8_t *rom, size_t rom_length, uint32_t vendor, uint32_t device, uint32_t code_type);

typedef struct {
    uint8_t number;
    uint32_t values[SLIPWATTLE_REGISTERS];
} slipwattle_values;

/* The new register values by the type 2 record of the blocks. Refusals: 1, 2, 11, 10, 8, 9.
 *
 * current: the 8 current values in the order of the record's pairs: Uncorrectable Error Mask and Severity, Correctable Error Mask, Advanced Error
 *    Capabilities and Control, Device Control, Link Control, Secondary Uncorrectable Error Severity and Mask. current_length counts
 *    numbers, not bytes.
 * New = (current AND mask) OR mask. In Device Control bits 5 to 7 and 12 to 14 (Max_Payload_Size, Max_Read_Request_Size) keep their
 * current value whatever the record says. Where AER (control bit 3) is held all but Device Control and Link Control stay. A pair that has
 * no meaning (slipwattle_masks) is refused, 8, also where it would not be used. Nothing is written anywhere; the table stays as it is. */
slipwattle_values slipwattle_register_values(const slipwattle_table *table, slipwattle_session session, slipwattle_bridge bridge,
                                             const uint8_t *slot, size_t slot_length, const uint8_t *bridge_block,
                                             size_t bridge_block_length, const uint32_t *current, size_t current_length);

#ifdef __cplusplus
}
#endif

#endif
