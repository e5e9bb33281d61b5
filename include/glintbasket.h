/*
 * Glintbasket for C11 and C++: a strict, verified emulator of the host side of VFIO.
 *
 * Link with libcapi.a (x86-64 Linux), which `make library` writes to target/staticlib.
 *
 * The first half of this file declares the library: structs, constants and functions. The second half is a thin layer over it,
 * struct glint_bench and the functions glint_bench_*, which keeps the state for the caller. Most programs need the second half alone:
 *
 *     static glint_mapping records[64];
 *     static uint8_t memory[8192], marks[GLINT_MARKS(8192)];
 *     static glint_bench bench;
 *     glint_bench_init(&bench, records, GLINT_COUNT(records), memory, marks, sizeof memory);
 *     glint_bench_map(&bench, glint_memory(0), glint_device(0x10000), 4096, GLINT_READ);
 *     glint_bench_host_write(&bench, glint_memory(0), "ab", 2);
 *     glint_outcome o = glint_bench_device_read(&bench, glint_device(0x10000), buffer, 3);
 *     // o.refused, o.code is GLINT_UNWRITTEN and o.place is 2: nobody wrote the third byte.
 *
 * What remains for the caller, because no call can test it:
 *   1. A pointer leads to as many bytes, records or numbers as its length says, which may be read or, where the parameter is not const,
 *      written; of records, numbers and states it is aligned as C asks. The functions of the first half take no null pointer, also where
 *      the length is 0; those of the second half take one for length 0, and refuse one with a length above 0 (GLINT_NULL_POINTER).
 *   2. Records, memory, marks, the buffers or array of one call and a struct that a pointer leads to do not overlap.
 *   3. A bench, a state and what is lent with it are used by one thread at a time.
 * All else may be any: every byte of a state, of a record and of a file, every number, length and order of calls has an answer.
 */
#ifndef GLINTBASKET_H
#define GLINTBASKET_H

#include <stdbool.h>
#include <stddef.h>
#include <stdint.h>
#include <string.h>

#ifdef __cplusplus
#define GLINT_ASSERT(condition) static_assert(condition, #condition)
extern "C" {
#else
#define GLINT_ASSERT(condition) _Static_assert(condition, #condition)
#endif

/* ---- limits */

#define GLINT_PAGE_SIZE 4096u
#define GLINT_RECORDS_LIMIT 4096u                 /* records that may be lent, and so mappings that are held */
#define GLINT_REGISTERS 14u                       /* registers that are kept */
#define GLINT_LINES 25u                           /* interrupt lines of all indices: 1, 8, 16 and 0 */
#define GLINT_DEVICE_LIMIT UINT64_C(0x1000000000000) /* device addresses lie below */
#define GLINT_MEMORY_LIMIT UINT64_C(0x40000000)   /* memory has at most so many bytes */
#define GLINT_TRANSFER_LIMIT 65536u               /* bytes of one transfer, and of a stream */
#define GLINT_PART_HEADER 16u                     /* bytes of a part before its value */
#define GLINT_SAVED_MAX 445u                      /* bytes that saving ever writes: 41 to 429 for the card with 64 feature bits, 49 to 445 with 128 */
#define GLINT_QUEUE_MAX 256u                      /* descriptors of a queue */
#define GLINT_BUFFER_NUMBERS 3u                   /* numbers that a walk of a queue writes for each buffer: address, length, flags */
#define GLINT_WALKED_MAX (GLINT_BUFFER_NUMBERS * GLINT_QUEUE_MAX * GLINT_QUEUE_MAX) /* numbers that a walk ever writes */
#define GLINT_DEVICE_FILE_LIMIT 65536u            /* bytes of a device file, and of the buffer that one is written to */
#define GLINT_DEVICE_FILE_HEADER 12u              /* bytes of a device file before its first record */
#define GLINT_DEVICE_RECORD_HEADER 8u             /* bytes of such a record before its content: type and length */

/* Bytes that the marks of `length` bytes of memory take: eight marks to a byte. */
#define GLINT_MARKS(length) ((length) / 8 + ((length) % 8 != 0))

/* How many elements an array has, as its length is lent. Not for a pointer. */
#define GLINT_COUNT(array) (sizeof(array) / sizeof(array)[0])

/* ---- refusals */

/* The numbers of the refusals. A comment with "place" says what the place of such a refusal is; else it is 0. */
enum glint_refusal {
    GLINT_NULL_POINTER = 0,    /* of this header alone: a null pointer with a length above 0; the library was not called */
    GLINT_BAD_BENCH = 1,       /* records, memory and marks do not fit each other or the state, or the state or a record in use is not sound */
    GLINT_NO_SUCH_REQUEST = 2, /* the target has no request of this number */
    GLINT_SHORT = 3,           /* buffer shorter than the request's size */
    GLINT_ARG_SIZE = 4,        /* argsz below the request's size, or that of its data, or above the buffer's length */
    GLINT_FLAGS = 5,           /* flags not allowed; an IOMMU type that there is not, or that a container with a mapping cannot take */
    GLINT_INDEX = 6,           /* no such region, interrupt, line, queue or field; place in a stream: start of the part */
    GLINT_UNALIGNED = 7,       /* an address or size is no multiple of 4,096 */
    GLINT_EMPTY = 8,           /* size 0, or no interrupt line */
    GLINT_RANGE = 9,           /* past 2^48, the end of memory, or the last line of an index; place of a walk: where its read begins */
    GLINT_OVERLAP = 10,        /* shares a device address with a held mapping */
    GLINT_NO_ROOM = 11,        /* every lent record is in use */
    GLINT_CUTS = 12,           /* the range holds some but not all of a mapping; never with GLINT_TYPE1_IOMMU */
    GLINT_TOO_LONG = 13,       /* transfer or stream over 65,536 bytes; a device file or its buffer */
    GLINT_UNMAPPED = 14,       /* place: first faulty offset; of a walk: device address of the faulty byte */
    GLINT_NO_RIGHT = 15,       /* place: the same */
    GLINT_UNWRITTEN = 16,      /* place: the same */
    GLINT_RUNNING = 17,        /* device not stopped */
    GLINT_TRUNCATED = 18,      /* place: start of the part, or of a device file's record */
    GLINT_HEADER = 19,         /* also a device file's record that stands, or would stand, at the wrong level; place: the same */
    GLINT_UNKNOWN_PART = 20,   /* also a device file's record; place: the same */
    GLINT_TWICE = 21,          /* place: start of the part */
    GLINT_VALUE = 22,          /* also an event number below -1; length or property of a device file's record; place: as 18 */
    GLINT_MISMATCH = 23,       /* place: start of the part */
    GLINT_MISSING = 24,        /* no status part; place: length of the stream */
    GLINT_UNSET = 25,          /* the register is not set */
    GLINT_READ_ONLY = 26,      /* setting offered features */
    GLINT_NO_SPACE = 27,       /* output buffer, array for a walk, or buffer of a device file too small */
    GLINT_QUEUE_NOT_READY = 28,   /* the queue is not set, or not enabled */
    GLINT_RING_DISTANCE = 29,     /* the ring's index is further from the caller's last one than the queue has descriptors */
    GLINT_DESCRIPTOR_INDEX = 30,  /* a head or a next names no descriptor of the queue; place: heads finished */
    GLINT_CHAIN_LENGTH = 31,      /* a chain goes on behind as many descriptors as the queue has; place: heads finished */
    GLINT_INDIRECT = 32,          /* a descriptor is indirect; place: heads finished */
    GLINT_MAGIC = 33              /* no device file has this magic */
};

/* The name of a refusal, as "Unwritten" for GLINT_UNWRITTEN; "?" for a number that is none. Ask it only of what was refused. */
static inline const char *glint_refusal_name(uint32_t code)
{
    static const char *const names[] = {
        "NullPointer", "BadBench", "NoSuchRequest", "Short", "ArgSize", "Flags", "Index",
        "Unaligned", "Empty", "Range", "Overlap", "NoRoom", "Cuts", "TooLong",
        "Unmapped", "NoRight", "Unwritten", "Running", "Truncated", "Header", "UnknownPart",
        "Twice", "Value", "Mismatch", "Missing", "Unset", "ReadOnly", "NoSpace",
        "QueueNotReady", "RingDistance", "DescriptorIndex", "ChainLength", "Indirect", "Magic",
    };
    return code <= GLINT_MAGIC ? names[code] : "?";
}

/* ---- addresses */

/* The two kinds of address are two types, so that a compiler refuses one in the place of the other. */

/* An address as the device sees it (IOVA). */
typedef struct glint_device_address {
    uint64_t value;
} glint_device_address;

/* An address as a count of bytes from the start of memory. */
typedef struct glint_memory_address {
    uint64_t value;
} glint_memory_address;

static inline glint_device_address glint_device(uint64_t value)
{
    glint_device_address address = {value};
    return address;
}

static inline glint_memory_address glint_memory(uint64_t value)
{
    glint_memory_address address = {value};
    return address;
}

/* ---- records and the kept state */

/* What a device may do with a mapping's bytes. */
#define GLINT_READ 1u
#define GLINT_WRITE 2u

/*
 * A record of the mapping table: `size` bytes of memory from `memory` on, shown at the device addresses from `device` on. The table is an
 * array of records that the caller lends to each call, of 0 to GLINT_RECORDS_LIMIT. The first of them, as many as the state's `count`,
 * are in use, by rising device address. The others are stale: no call looks at them, they may hold anything, and a call changes one only
 * where it puts it to use.
 */
typedef struct glint_mapping {
    glint_device_address device;
    glint_memory_address memory;
    uint64_t size;
    uint32_t rights;
} glint_mapping;

/* A register: it is set where `set` is 1, and no other value says so; from the first byte on its value. Read it by glint_read_register. */
typedef struct glint_register {
    uint8_t set;
    uint8_t bytes[32];
} glint_register;

/* By rising type and selector: driver features, four common fields, status, four queues, four notify values. */
typedef struct glint_registers {
    glint_register slots[GLINT_REGISTERS];
} glint_registers;

/* An interrupt line. Read it by glint_show_line. */
typedef struct glint_line {
    int32_t number;  /* of the event that it raises; -1: none is assigned; below: not sound */
    uint32_t tally;  /* how many events it raised since its number was stored, modulo 2^32 */
    uint8_t masked;  /* 1: it is masked; every other value: it is not */
    uint8_t pending; /* 1: an event came while it was masked; every other value: none did */
} glint_line;

/*
 * What is kept between calls. Each call borrows it, and changes it where it stands. It may start as zeros before glint_power_on. Any
 * values may stand in it: a call refuses an unsound one with GLINT_BAD_BENCH.
 */
typedef struct glint_state {
    uint64_t memory_length;
    size_t count; /* how many of the lent records are in use */
    glint_registers registers;
    uint8_t running;     /* 1: the device runs; every other value: it does not */
    uint8_t words;       /* which card it is, by the 64-bit words of its features: 1 or 2; every other value: not sound */
    uint32_t iommu_type; /* the container's: GLINT_TYPE1_IOMMU or GLINT_TYPE1V2_IOMMU; every other value: not sound */
    glint_line lines[GLINT_LINES]; /* those of index 0, then of 1, then of 2 */
} glint_state;

/* ---- answers */

/*
 * Refused: `code` (enum glint_refusal) and `place`; nothing lent or kept has changed. Else `result`, 0 where none is stated. What an
 * answer has no use for is 0, here and in the structs below.
 */
typedef struct glint_outcome {
    bool refused;
    uint32_t code;
    uint64_t place;
    uint64_t result;
} glint_outcome;

/* Look-up's answer. */
typedef struct glint_found {
    glint_outcome outcome;
    glint_memory_address address;
    uint32_t rights;
    uint64_t left;   /* bytes from the device address to the end of its mapping, at least 1; never beyond it, also where another adjoins */
    uint64_t probes; /* how many mappings the search looked at, at most 13; with GLINT_UNMAPPED, too, beside the place, which is 0 */
} glint_found;

/* The answer of showing a line. */
typedef struct glint_shown_line {
    glint_outcome outcome;
    int32_t number;
    uint32_t tally;
    bool masked;
    bool pending;
} glint_shown_line;

/* The answer of a walk of a queue: `outcome.result` is the number of buffers. */
typedef struct glint_walked {
    glint_outcome outcome;
    uint16_t index; /* the ring's: what the next walk takes as the caller's last one */
} glint_walked;

/* One step over a stream: refused; or the end; or a part. */
typedef struct glint_part_step {
    bool refused;
    bool end;
    uint32_t code;
    uint64_t place;
    uint16_t kind;
    uint8_t flags;
    uint64_t selector;
    uint64_t value_start;  /* where the part's value begins in the stream */
    uint64_t value_length; /* how many bytes it has; they lie in the stream */
    uint64_t next;         /* the place of the next step; after a refusal or the end the place of this one */
} glint_part_step;

/* What is read of a device file: `outcome.result` is how many records it has, sub-records too. */
typedef struct glint_device_header {
    glint_outcome outcome;
    uint32_t magic; /* GLINT_MAGIC_PCI or GLINT_MAGIC_DT */
    uint32_t version;
    uint32_t flags;
} glint_device_header;

/* One record of a device file: refused; or the end; or a record. */
typedef struct glint_device_record {
    glint_outcome outcome;
    bool end;
    uint32_t kind;         /* GLINT_RECORD_* */
    size_t start;          /* where the record begins in the file */
    size_t content_start;  /* where its content begins */
    size_t content_length; /* how many bytes it has; of a REGION the 20 before its sub-records */
} glint_device_record;

/* The answer of a writer of device files; `outcome.result` is 0. */
typedef struct glint_written_file {
    glint_outcome outcome;
    size_t used; /* bytes in use from now on: what the next call takes */
} glint_written_file;

/* The layout is part of the interface: a library for another machine must not link unnoticed. */
GLINT_ASSERT(sizeof(bool) == 1);
GLINT_ASSERT(sizeof(size_t) == 8);
GLINT_ASSERT(sizeof(glint_mapping) == 32);
GLINT_ASSERT(offsetof(glint_mapping, memory) == 8);
GLINT_ASSERT(offsetof(glint_mapping, size) == 16);
GLINT_ASSERT(offsetof(glint_mapping, rights) == 24);
GLINT_ASSERT(sizeof(glint_register) == 33);
GLINT_ASSERT(sizeof(glint_registers) == 462);
GLINT_ASSERT(sizeof(glint_line) == 12);
GLINT_ASSERT(offsetof(glint_line, tally) == 4);
GLINT_ASSERT(offsetof(glint_line, masked) == 8);
GLINT_ASSERT(offsetof(glint_line, pending) == 9);
GLINT_ASSERT(sizeof(glint_state) == 784);
GLINT_ASSERT(offsetof(glint_state, count) == 8);
GLINT_ASSERT(offsetof(glint_state, registers) == 16);
GLINT_ASSERT(offsetof(glint_state, running) == 478);
GLINT_ASSERT(offsetof(glint_state, words) == 479);
GLINT_ASSERT(offsetof(glint_state, iommu_type) == 480);
GLINT_ASSERT(offsetof(glint_state, lines) == 484);
GLINT_ASSERT(sizeof(glint_outcome) == 24);
GLINT_ASSERT(sizeof(glint_found) == 56);
GLINT_ASSERT(offsetof(glint_found, address) == 24);
GLINT_ASSERT(offsetof(glint_found, rights) == 32);
GLINT_ASSERT(offsetof(glint_found, left) == 40);
GLINT_ASSERT(offsetof(glint_found, probes) == 48);
GLINT_ASSERT(sizeof(glint_shown_line) == 40);
GLINT_ASSERT(offsetof(glint_shown_line, number) == 24);
GLINT_ASSERT(offsetof(glint_shown_line, tally) == 28);
GLINT_ASSERT(offsetof(glint_shown_line, masked) == 32);
GLINT_ASSERT(offsetof(glint_shown_line, pending) == 33);
GLINT_ASSERT(sizeof(glint_walked) == 32);
GLINT_ASSERT(offsetof(glint_walked, index) == 24);
GLINT_ASSERT(sizeof(glint_part_step) == 56);
GLINT_ASSERT(sizeof(glint_device_header) == 40);
GLINT_ASSERT(offsetof(glint_device_header, magic) == 24);
GLINT_ASSERT(offsetof(glint_device_header, version) == 28);
GLINT_ASSERT(offsetof(glint_device_header, flags) == 32);
GLINT_ASSERT(sizeof(glint_device_record) == 56);
GLINT_ASSERT(offsetof(glint_device_record, end) == 24);
GLINT_ASSERT(offsetof(glint_device_record, kind) == 28);
GLINT_ASSERT(offsetof(glint_device_record, start) == 32);
GLINT_ASSERT(offsetof(glint_device_record, content_start) == 40);
GLINT_ASSERT(offsetof(glint_device_record, content_length) == 48);
GLINT_ASSERT(sizeof(glint_written_file) == 32);
GLINT_ASSERT(offsetof(glint_written_file, used) == 24);

/* ---- the library's functions */

/*
 * Each borrows the state and is lent, in this order: records, memory and marks, where it takes them, as pointer and length; its own
 * arguments follow.
 *
 * Records: more than GLINT_RECORDS_LIMIT are refused (1), also by a fresh start; by all other calls also fewer than the state's count, and
 * used ones that are not sound. They may be others at each call, as long as those in use are as the last call left them.
 *
 * Memory is lent with its marks: bit i % 8 of mark byte i / 8 says whether byte i was written. They take GLINT_MARKS(memory_length)
 * bytes; any other length is refused (1). Bits past the end of memory mean nothing, and no call changes them.
 */

/*
 * Fresh start: all marks 0, memory bytes untouched, the memory's length noted, no mapping, the container of GLINT_TYPE1V2_IOMMU, the device
 * stopped and reset, its interrupt lines disabled. The first is that of the card with 64 feature bits, the second of the card with 128. No
 * record is looked at or changed.
 */
glint_outcome glint_power_on(glint_state *state, const glint_mapping *records, size_t records_length, const uint8_t *memory,
                             size_t memory_length, uint8_t *marks, size_t marks_length);
glint_outcome glint_power_on_128(glint_state *state, const glint_mapping *records, size_t records_length, const uint8_t *memory,
                                 size_t memory_length, uint8_t *marks, size_t marks_length);

/* A request on a target by number. Reads the input fields of `buffer` and writes its output fields, no other byte. */
glint_outcome glint_request(glint_state *state, glint_mapping *records, size_t records_length, const uint8_t *memory,
                            size_t memory_length, const uint8_t *marks, size_t marks_length, uint32_t target, uint32_t number,
                            uint8_t *buffer, size_t buffer_length);

/*
 * Look-up: the memory address and the rights at one device address, how far its mapping runs on from there, and how many mappings were
 * looked at. Refused: 9; 14, which has the number of mappings looked at as well.
 */
glint_found glint_look_up(const glint_state *state, const glint_mapping *records, size_t records_length, uint64_t device);

/* Shows the interrupt line of an index and its number there, from 0 on. Refused: 6. */
glint_shown_line glint_show_line(const glint_state *state, const glint_mapping *records, size_t records_length, uint32_t index,
                                 uint32_t line);

/* Card read: fills `buffer` from the device address on. Refused: 13, 9, then by the first faulty offset 14, 15, 16. */
glint_outcome glint_device_read(const glint_state *state, const glint_mapping *records, size_t records_length, const uint8_t *memory,
                                size_t memory_length, const uint8_t *marks, size_t marks_length, uint64_t device, uint8_t *buffer,
                                size_t buffer_length);

/* Card write: stores `buffer` from the device address on, in offset order, and marks those bytes. Refused: 13, 9, 14, 15. */
glint_outcome glint_device_write(const glint_state *state, const glint_mapping *records, size_t records_length, uint8_t *memory,
                                 size_t memory_length, uint8_t *marks, size_t marks_length, uint64_t device, const uint8_t *buffer,
                                 size_t buffer_length);

/*
 * Walks the driver's ring of a split virtqueue, 0 to 3, from the caller's last index up to but not including the ring's, and each head's
 * chain of descriptors, all by card reads. Each buffer's address, length and flags go to `numbers`, one behind the other; the numbers
 * behind them stay. Refused: 6, 28; by the first fault 29, 30, 31, 32, and 9, 14, 15, 16 of a card read; at last 27 if `numbers` is too
 * short, and then, as with every refusal, none is written. The place of 30, 31 and 32 is how many heads are finished; that of 14, 15 and
 * 16 is the device address of the faulty byte, and that of 9 where the read begins, at most 2^64 - 1.
 */
glint_walked glint_walk_queue(const glint_state *state, const glint_mapping *records, size_t records_length, const uint8_t *memory,
                              size_t memory_length, const uint8_t *marks, size_t marks_length, uint32_t queue, uint16_t last,
                              uint64_t *numbers, size_t numbers_length);

/* Host store: stores `buffer` from the memory address on and marks those bytes. Refused: 13, 9. */
glint_outcome glint_host_write(const glint_state *state, const glint_mapping *records, size_t records_length, uint8_t *memory,
                               size_t memory_length, uint8_t *marks, size_t marks_length, uint64_t address, const uint8_t *buffer,
                               size_t buffer_length);

/* Host load: fills `buffer` from the memory address on. Refused: 13, 9, 16. */
glint_outcome glint_host_read(const glint_state *state, const glint_mapping *records, size_t records_length, const uint8_t *memory,
                              size_t memory_length, const uint8_t *marks, size_t marks_length, uint64_t address, uint8_t *buffer,
                              size_t buffer_length);

/* Forget: sets the marks of `length` bytes from the memory address on to 0 and keeps the bytes. Refused: 9. */
glint_outcome glint_invalidate(const glint_state *state, const glint_mapping *records, size_t records_length, const uint8_t *memory,
                               size_t memory_length, uint8_t *marks, size_t marks_length, uint64_t address, uint64_t length);

/* Sets the register of a type and a selector number. Refused: 20, 26, 19, 6, 22, 23. */
glint_outcome glint_set_register(glint_state *state, const glint_mapping *records, size_t records_length, uint64_t kind,
                                 uint64_t selector, const uint8_t *value, size_t value_length);

/* Reads a register: its value goes to the buffer's start, its length is the result. Refused: 20, 19, 6, 25, 27. */
glint_outcome glint_read_register(const glint_state *state, const glint_mapping *records, size_t records_length, uint64_t kind,
                                  uint64_t selector, uint8_t *buffer, size_t buffer_length);

/* Loads a stream of parts: registers named take their values, all others become unset. Refused: 17, 13, 18 to 24, 6. */
glint_outcome glint_load_parts(glint_state *state, const glint_mapping *records, size_t records_length, const uint8_t *stream,
                               size_t stream_length);

/* Saves the set registers as a stream at the buffer's start; its length is the result. Refused: 17, 27. */
glint_outcome glint_save_parts(const glint_state *state, const glint_mapping *records, size_t records_length, uint8_t *buffer,
                               size_t buffer_length);

/* Stop and start set whether the device runs, whatever it was. */
glint_outcome glint_stop(glint_state *state, const glint_mapping *records, size_t records_length);
glint_outcome glint_start(glint_state *state, const glint_mapping *records, size_t records_length);

/* One step over a stream from `place` on, which takes no state. Refused, with the step's place: 18, 19. */
glint_part_step glint_step(const uint8_t *stream, size_t stream_length, size_t place);

/*
 * Whether a stream, of any length, is what saving writes: GLINT_IS_SAVE if some register state of the card saves to these very bytes. Any
 * other number is the length of the stream's longest beginning with which some save begins, at most GLINT_SAVED_MAX: it is the place of
 * the first byte that no save has there, or the stream's length if it ends too early. The first is for the card with 64 feature bits, the
 * second for the card with 128.
 */
#define GLINT_IS_SAVE UINT64_MAX
uint64_t glint_check_save(const uint8_t *stream, size_t stream_length);
uint64_t glint_check_save_128(const uint8_t *stream, size_t stream_length);

/*
 * Device files of the old layout (GLINT_RECORD_* below). These four take neither state nor memory.
 *
 * Reading judges the whole file, at each call. Refused, with the start of the record as place: 13; 18 for a header that ends early, 33;
 * then by the first fault in file order: 18 for less than 8 bytes left in the file or in the REGION around, 20, 19, 18 for a length past
 * that room, 22.
 *
 * glint_read_device_record gives record `n`, the first being 0. Sub-records count, and follow their REGION. Past the last record it says
 * that this is the end.
 */
glint_device_header glint_read_device_file(const uint8_t *file, size_t file_length);
glint_device_record glint_read_device_record(const uint8_t *file, size_t file_length, uint64_t n);

/*
 * Starts a file of no records at the buffer's start; `used` is then GLINT_DEVICE_FILE_HEADER. Refused, at place 0: 13, 33, 27.
 *
 * Appends a record behind the bytes in use, a REGION bare; a sub-record goes into the REGION that stands last, whose length grows. `used`
 * is then 8 and the content more. Refused: 13; 18 at 0 for more bytes in use than the buffer has; what reading refuses the bytes in use
 * with; then, at place 0: 20; 19 for a sub-record where no REGION stands last; 22, 27.
 *
 * Bytes behind those in use are not looked at, and written only where the record goes.
 */
glint_written_file glint_start_device_file(uint8_t *buf, size_t buf_length, uint32_t magic, uint32_t version, uint32_t flags);
glint_written_file glint_append_device_record(uint8_t *buf, size_t buf_length, size_t used, uint32_t kind, const uint8_t *content,
                                              size_t content_length);

/* ---- requests */

/* Targets of glint_request. */
#define GLINT_CONTAINER 0u
#define GLINT_DEVICE 1u

/* Requests of the container: the low byte of the kernel's VFIO_* request. */
#define GLINT_GET_API_VERSION 100u
#define GLINT_CHECK_EXTENSION 101u
#define GLINT_SET_IOMMU 102u
#define GLINT_IOMMU_GET_INFO 112u
#define GLINT_IOMMU_MAP_DMA 113u
#define GLINT_IOMMU_UNMAP_DMA 114u

/* Requests of the device. */
#define GLINT_DEVICE_GET_INFO 107u
#define GLINT_DEVICE_GET_REGION_INFO 108u
#define GLINT_DEVICE_GET_IRQ_INFO 109u
#define GLINT_DEVICE_SET_IRQS 110u
#define GLINT_DEVICE_RESET 111u

/*
 * IOMMU types of a container, with the kernel's numbers: what GLINT_SET_IOMMU takes, and the extensions that GLINT_CHECK_EXTENSION answers
 * with 1. They differ in what an unmap removes (glint_bench_unmap).
 */
#define GLINT_TYPE1_IOMMU 1u   /* older containers */
#define GLINT_TYPE1V2_IOMMU 3u /* as a fresh start leaves it */

/*
 * Flags of GLINT_DEVICE_SET_IRQS, with the kernel's numbers: one of the first three, for the data, and one of the others, for what is done
 * to the lines. Mask and unmask are for an index that is maskable, and event numbers for trigger alone, which then stores them.
 */
#define GLINT_IRQ_SET_DATA_NONE 1u    /* no data: each line is meant */
#define GLINT_IRQ_SET_DATA_BOOL 2u    /* a byte for each line: any but 0 means the line */
#define GLINT_IRQ_SET_DATA_EVENTFD 4u /* four bytes for each line: a signed event number, -1 for none */
#define GLINT_IRQ_SET_ACTION_MASK 8u
#define GLINT_IRQ_SET_ACTION_UNMASK 16u
#define GLINT_IRQ_SET_ACTION_TRIGGER 32u

/* Bytes of data that such a request ever reads: four for each of 16 lines. */
#define GLINT_IRQ_DATA_MAX 64u

/* The requests' buffers, laid out as the kernel's structs. Fields that a comment calls output are not read. */

typedef struct glint_dma_map {
    uint32_t argsz;
    uint32_t flags; /* GLINT_READ, GLINT_WRITE or both */
    glint_memory_address memory;
    glint_device_address device;
    uint64_t size;
} glint_dma_map;

typedef struct glint_dma_unmap {
    uint32_t argsz;
    uint32_t flags;
    glint_device_address device;
    uint64_t size; /* in: the range's; out: the sum of the sizes of removed mappings, which may exceed it with GLINT_TYPE1_IOMMU */
} glint_dma_unmap;

typedef struct glint_iommu_info {
    uint32_t argsz;
    uint32_t flags;      /* output: 1, page sizes are given */
    uint64_t page_sizes; /* output: bitmap */
} glint_iommu_info;

typedef struct glint_device_info {
    uint32_t argsz;
    uint32_t flags;   /* output */
    uint32_t regions; /* output */
    uint32_t irqs;    /* output */
} glint_device_info;

typedef struct glint_region_info {
    uint32_t argsz;
    uint32_t flags; /* output */
    uint32_t index;
    uint32_t reserved; /* output: 0 */
    uint64_t size;     /* output */
    uint64_t offset;   /* output */
} glint_region_info;

typedef struct glint_irq_info {
    uint32_t argsz;
    uint32_t flags; /* output */
    uint32_t index;
    uint32_t count; /* output */
} glint_irq_info;

/* The data follow at once. */
typedef struct glint_irq_set {
    uint32_t argsz; /* with the data */
    uint32_t flags;
    uint32_t index;
    uint32_t start; /* the first line */
    uint32_t count; /* how many lines */
} glint_irq_set;

GLINT_ASSERT(sizeof(glint_dma_map) == 32);
GLINT_ASSERT(sizeof(glint_dma_unmap) == 24);
GLINT_ASSERT(sizeof(glint_iommu_info) == 16);
GLINT_ASSERT(sizeof(glint_device_info) == 16);
GLINT_ASSERT(sizeof(glint_region_info) == 32);
GLINT_ASSERT(sizeof(glint_irq_info) == 16);
GLINT_ASSERT(sizeof(glint_irq_set) == 20);

/* ---- registers */

/* Types of registers and of parts. */
#define GLINT_OFFERED_FEATURES 0x100u /* 8 bytes, or 16 for the card with 128 feature bits; read only */
#define GLINT_DRIVER_FEATURES 0x101u  /* as many */
#define GLINT_COMMON_FIELD 0x102u     /* selectors 0, 8: 4 bytes; 16, 22: 2 bytes */
#define GLINT_DEVICE_STATUS 0x103u    /* 1 byte */
#define GLINT_QUEUE_CONFIG 0x104u     /* selectors 0 to 3: 32 bytes, a glint_queue_config */
#define GLINT_NOTIFY_CONFIG 0x105u    /* selectors 0 to 3: 8 bytes */

/* The value of GLINT_QUEUE_CONFIG. */
typedef struct glint_queue_config {
    uint16_t size; /* how many descriptors: a power of two up to GLINT_QUEUE_MAX; 0 where the queue is unavailable, and not enabled */
    uint16_t vector;
    uint16_t enabled;                 /* 0 or 1 */
    uint16_t reserved;                /* 0 */
    glint_device_address descriptors; /* a multiple of 16 */
    glint_device_address driver;      /* the driver's ring: a multiple of 2 */
    glint_device_address device;      /* the device's: a multiple of 4 */
} glint_queue_config;

GLINT_ASSERT(sizeof(glint_queue_config) == 32);

/* Flags of a descriptor, with virtio's numbers. */
#define GLINT_DESCRIPTOR_NEXT 1u     /* the chain goes on */
#define GLINT_DESCRIPTOR_WRITE 2u    /* the buffer is for the device to write */
#define GLINT_DESCRIPTOR_INDIRECT 4u /* refused in a walk (32) */

/* A buffer that a walk of a queue found, out of its three numbers. */
typedef struct glint_buffer {
    glint_device_address address;
    uint32_t length;
    uint16_t flags; /* GLINT_DESCRIPTOR_*, and whatever other bits the driver set */
} glint_buffer;

/* ---- device files of the old layout */

/*
 * A header of GLINT_DEVICE_FILE_HEADER bytes: magic, version, flags, 4 each. Then records, each with type (4), length of all of it (4), and
 * its content, whose fields follow each other without gaps. Numbers have their lowest byte first.
 */

/* Magics, which say on which bus the device is. */
#define GLINT_MAGIC_PCI 0x70636900u
#define GLINT_MAGIC_DT 0x64740000u /* device tree */

/* Types of records, and their contents. REGION and INTERRUPT stand outside, all others inside a REGION. */
#define GLINT_RECORD_REGION 1u           /* 20 bytes: flags 4, offset 8, length 8; then its sub-records, which are no part of its content */
#define GLINT_RECORD_DTPATH 2u           /* any number of bytes: a path in the device tree; a terminator is not needed */
#define GLINT_RECORD_DTINDEX 3u          /* 8: property 4 (GLINT_PROPERTY_*), index 4 */
#define GLINT_RECORD_INTERRUPT 4u        /* 8: flags 4, handle 4 */
#define GLINT_RECORD_PCI_CONFIG_SPACE 5u /* 4: flags */
#define GLINT_RECORD_PCI_BAR_INDEX 6u    /* 8: flags 4, index 4 */
#define GLINT_RECORD_PHYS_ADDR 7u        /* 12: flags 4, address 8 */

/* Properties of the device tree that a DTINDEX may name. */
#define GLINT_PROPERTY_REG 1u
#define GLINT_PROPERTY_RANGES 2u
#define GLINT_PROPERTY_INTERRUPTS 3u
#define GLINT_PROPERTY_INTERRUPT_MAP 4u

/* ==== a bench that keeps its state ==== */

/*
 * Records, memory and its marks, lent by the caller, and the state. Marks and used records are the library's: a caller reads them and
 * never writes them. Between calls `records` may become another array, longer or shorter, that begins with the used ones.
 */
typedef struct glint_bench {
    glint_mapping *records;
    size_t records_length;
    uint8_t *memory;
    size_t memory_length;
    uint8_t *marks;
    size_t marks_length;
    glint_state state;
} glint_bench;

/* Whether a pointer is null though it stands for something. Such a call is refused here, with GLINT_NULL_POINTER, and does not run. */
static inline bool glint_is_null(const void *pointer, size_t length)
{
    return !pointer && length > 0;
}

static inline glint_outcome glint_null_refusal(void)
{
    glint_outcome outcome = {true, GLINT_NULL_POINTER, 0, 0};
    return outcome;
}

/* Pointers for a slice: C allows null for length 0, the library does not. */
static inline const uint8_t *glint_bytes(const void *bytes)
{
    static const uint8_t none = 0;
    return bytes ? (const uint8_t *)bytes : &none;
}

static inline uint8_t *glint_bytes_mut(void *bytes)
{
    static uint8_t none;
    return bytes ? (uint8_t *)bytes : &none;
}

static inline uint64_t *glint_numbers_mut(uint64_t *numbers)
{
    static uint64_t none;
    return numbers ? numbers : &none;
}

static inline glint_mapping *glint_records(const glint_bench *bench)
{
    static glint_mapping none;
    return bench->records ? bench->records : &none;
}

/* Whether the records of a bench are null though they stand for some; whether they, memory or marks are. */
static inline bool glint_bench_has_null_records(const glint_bench *bench)
{
    return glint_is_null(bench->records, bench->records_length);
}

static inline bool glint_bench_is_null(const glint_bench *bench)
{
    return glint_bench_has_null_records(bench) || glint_is_null(bench->memory, bench->memory_length) ||
           glint_is_null(bench->marks, bench->marks_length);
}

/* Fresh start on what the bench was lent, of the card with 64 feature bits. */
static inline glint_outcome glint_bench_power_on(glint_bench *bench)
{
    if (glint_bench_is_null(bench))
        return glint_null_refusal();
    return glint_power_on(&bench->state, glint_records(bench), bench->records_length, glint_bytes(bench->memory), bench->memory_length,
                          glint_bytes_mut(bench->marks), bench->marks_length);
}

/* The same of the card with 128. */
static inline glint_outcome glint_bench_power_on_128(glint_bench *bench)
{
    if (glint_bench_is_null(bench))
        return glint_null_refusal();
    return glint_power_on_128(&bench->state, glint_records(bench), bench->records_length, glint_bytes(bench->memory),
                              bench->memory_length, glint_bytes_mut(bench->marks), bench->marks_length);
}

/*
 * Takes so many records, `length` bytes of memory and GLINT_MARKS(length) bytes of marks; before a fresh start every other call is
 * refused. The records need not hold anything: as many mappings can be held as there are records.
 */
static inline void glint_bench_lend(glint_bench *bench, glint_mapping *records, size_t records_length, uint8_t *memory, uint8_t *marks,
                                    size_t length)
{
    memset(bench, 0, sizeof *bench);
    bench->records = records;
    bench->records_length = records_length;
    bench->memory = memory;
    bench->memory_length = length;
    bench->marks = marks;
    bench->marks_length = GLINT_MARKS(length);
}

/* The same, with a fresh start of the card with 64 feature bits. Where that is refused, so is every other call until one is not. */
static inline glint_outcome glint_bench_init(glint_bench *bench, glint_mapping *records, size_t records_length, uint8_t *memory,
                                             uint8_t *marks, size_t length)
{
    glint_bench_lend(bench, records, records_length, memory, marks, length);
    return glint_bench_power_on(bench);
}

/* And with one of the card with 128. */
static inline glint_outcome glint_bench_init_128(glint_bench *bench, glint_mapping *records, size_t records_length, uint8_t *memory,
                                                 uint8_t *marks, size_t length)
{
    glint_bench_lend(bench, records, records_length, memory, marks, length);
    return glint_bench_power_on_128(bench);
}

/* Whether somebody has written the byte at a memory address. No byte past the end of memory is. */
static inline bool glint_bench_is_written(const glint_bench *bench, glint_memory_address address)
{
    if (glint_bench_is_null(bench) || address.value >= bench->memory_length || address.value / 8 >= bench->marks_length)
        return false;
    return bench->marks[address.value / 8] >> (address.value % 8) & 1;
}

/*
 * The bytes that are mapped: the sizes of the mappings held. They are the sizes of all maps that were accepted since the last fresh
 * start, less those that unmaps reported.
 */
static inline uint64_t glint_bench_mapped_bytes(const glint_bench *bench)
{
    uint64_t sum = 0;
    if (glint_bench_has_null_records(bench))
        return 0;
    for (size_t i = 0; i < bench->state.count && i < bench->records_length; i++)
        sum += bench->records[i].size;
    return sum;
}

/* ---- requests */

static inline glint_outcome glint_bench_request(glint_bench *bench, uint32_t target, uint32_t number, void *buffer, size_t length)
{
    if (glint_bench_is_null(bench) || glint_is_null(buffer, length))
        return glint_null_refusal();
    return glint_request(&bench->state, glint_records(bench), bench->records_length, glint_bytes(bench->memory), bench->memory_length,
                         glint_bytes(bench->marks), bench->marks_length, target, number, glint_bytes_mut(buffer), length);
}

/* The result is the version of the interface, 0. */
static inline glint_outcome glint_bench_api_version(glint_bench *bench)
{
    return glint_bench_request(bench, GLINT_CONTAINER, GLINT_GET_API_VERSION, NULL, 0);
}

/* The result is 1 for GLINT_TYPE1_IOMMU and GLINT_TYPE1V2_IOMMU, else 0. */
static inline glint_outcome glint_bench_check_extension(glint_bench *bench, uint32_t extension)
{
    return glint_bench_request(bench, GLINT_CONTAINER, GLINT_CHECK_EXTENSION, &extension, sizeof extension);
}

/*
 * Makes the container one of an IOMMU type, until the next fresh start; a reset of the device keeps it. Refused (5) for a number that is no
 * such type, and while a mapping is held, also with the type that it is of.
 */
static inline glint_outcome glint_bench_set_iommu(glint_bench *bench, uint32_t iommu_type)
{
    return glint_bench_request(bench, GLINT_CONTAINER, GLINT_SET_IOMMU, &iommu_type, sizeof iommu_type);
}

/* The calls that fill a struct work on a copy: a refusal leaves the caller's. */

static inline glint_outcome glint_bench_iommu_info(glint_bench *bench, glint_iommu_info *info)
{
    glint_iommu_info asked = {sizeof asked, 0, 0};
    glint_outcome outcome = glint_bench_request(bench, GLINT_CONTAINER, GLINT_IOMMU_GET_INFO, &asked, sizeof asked);
    if (!outcome.refused)
        *info = asked;
    return outcome;
}

/* Shows `size` bytes of memory from `memory` on at the device addresses from `device` on. */
static inline glint_outcome glint_bench_map(glint_bench *bench, glint_memory_address memory, glint_device_address device,
                                            uint64_t size, uint32_t rights)
{
    glint_dma_map map = {sizeof map, rights, memory, device, size};
    return glint_bench_request(bench, GLINT_CONTAINER, GLINT_IOMMU_MAP_DMA, &map, sizeof map);
}

/*
 * Removes mappings, by the container's IOMMU type. GLINT_TYPE1V2_IOMMU: every one inside the range; refused (12) where one lies there in
 * part. GLINT_TYPE1_IOMMU: every one that begins in the range, whole, also where it ends beyond; none at all where one begins before the
 * range and holds its start. `removed`, if not null, gets the sum of their sizes, which may be 0 and, with GLINT_TYPE1_IOMMU, above `size`;
 * a refusal leaves it.
 */
static inline glint_outcome glint_bench_unmap(glint_bench *bench, glint_device_address device, uint64_t size, uint64_t *removed)
{
    glint_dma_unmap unmap = {sizeof unmap, 0, device, size};
    glint_outcome outcome = glint_bench_request(bench, GLINT_CONTAINER, GLINT_IOMMU_UNMAP_DMA, &unmap, sizeof unmap);
    if (removed && !outcome.refused)
        *removed = unmap.size;
    return outcome;
}

static inline glint_outcome glint_bench_device_info(glint_bench *bench, glint_device_info *info)
{
    glint_device_info asked = {sizeof asked, 0, 0, 0};
    glint_outcome outcome = glint_bench_request(bench, GLINT_DEVICE, GLINT_DEVICE_GET_INFO, &asked, sizeof asked);
    if (!outcome.refused)
        *info = asked;
    return outcome;
}

static inline glint_outcome glint_bench_region_info(glint_bench *bench, uint32_t index, glint_region_info *info)
{
    glint_region_info asked = {sizeof asked, 0, index, 0, 0, 0};
    glint_outcome outcome = glint_bench_request(bench, GLINT_DEVICE, GLINT_DEVICE_GET_REGION_INFO, &asked, sizeof asked);
    if (!outcome.refused)
        *info = asked;
    return outcome;
}

static inline glint_outcome glint_bench_irq_info(glint_bench *bench, uint32_t index, glint_irq_info *info)
{
    glint_irq_info asked = {sizeof asked, 0, index, 0};
    glint_outcome outcome = glint_bench_request(bench, GLINT_DEVICE, GLINT_DEVICE_GET_IRQ_INFO, &asked, sizeof asked);
    if (!outcome.refused)
        *info = asked;
    return outcome;
}

/*
 * Acts on `count` lines of an index, from `start` on, by flags (GLINT_IRQ_SET_*) and data:
 *   - event numbers are stored, and the lines' masks, pending events and tallies cleared;
 *   - a trigger raises the tally of a line with a number, and masks it where the index is automasked; a masked line becomes pending;
 *   - unmask clears the mask; a line that was pending is so no longer, and is triggered once.
 * A line without a number stays as it is but where one is stored. Refused: 5, 6, 9, 8 for no line, 4 for too few data, 22 for an event
 * number below -1, and then none is stored.
 */
static inline glint_outcome glint_bench_set_irqs(glint_bench *bench, uint32_t flags, uint32_t index, uint32_t start, uint32_t count,
                                                 const void *data, size_t length)
{
    if (glint_is_null(data, length))
        return glint_null_refusal();
    /* More bytes belong to more lines than any index has: they are not read. */
    size_t used = length < GLINT_IRQ_DATA_MAX ? length : GLINT_IRQ_DATA_MAX;
    glint_irq_set set = {(uint32_t)(sizeof set + used), flags, index, start, count};
    uint8_t buffer[sizeof set + GLINT_IRQ_DATA_MAX];
    memcpy(buffer, &set, sizeof set);
    memcpy(buffer + sizeof set, glint_bytes(data), used);
    return glint_bench_request(bench, GLINT_DEVICE, GLINT_DEVICE_SET_IRQS, buffer, sizeof set + used);
}

/* Stores event numbers for the lines of an index from `start` on; -1 leaves a line without one. */
static inline glint_outcome glint_bench_set_events(glint_bench *bench, uint32_t index, uint32_t start, const int32_t *numbers,
                                                   uint32_t count)
{
    return glint_bench_set_irqs(bench, GLINT_IRQ_SET_DATA_EVENTFD | GLINT_IRQ_SET_ACTION_TRIGGER, index, start, count, numbers,
                                sizeof *numbers * (size_t)count);
}

/* Disables an index: no line of it has a number, is masked or pending, and all tallies are 0. */
static inline glint_outcome glint_bench_disable_irqs(glint_bench *bench, uint32_t index)
{
    return glint_bench_set_irqs(bench, GLINT_IRQ_SET_DATA_NONE | GLINT_IRQ_SET_ACTION_TRIGGER, index, 0, 0, NULL, 0);
}

static inline glint_shown_line glint_bench_show_line(const glint_bench *bench, uint32_t index, uint32_t line)
{
    if (glint_bench_has_null_records(bench)) {
        glint_shown_line refused = {glint_null_refusal(), 0, 0, false, false};
        return refused;
    }
    return glint_show_line(&bench->state, glint_records(bench), bench->records_length, index, line);
}

/* Resets the device's registers and disables its interrupt lines; it runs or stays stopped as before. */
static inline glint_outcome glint_bench_reset(glint_bench *bench)
{
    return glint_bench_request(bench, GLINT_DEVICE, GLINT_DEVICE_RESET, NULL, 0);
}

/* ---- bytes */

static inline glint_found glint_bench_look_up(const glint_bench *bench, glint_device_address device)
{
    if (glint_bench_has_null_records(bench)) {
        glint_found refused = {glint_null_refusal(), {0}, 0, 0, 0};
        return refused;
    }
    return glint_look_up(&bench->state, glint_records(bench), bench->records_length, device.value);
}

static inline glint_outcome glint_bench_device_read(const glint_bench *bench, glint_device_address device, void *buffer, size_t length)
{
    if (glint_bench_is_null(bench) || glint_is_null(buffer, length))
        return glint_null_refusal();
    return glint_device_read(&bench->state, glint_records(bench), bench->records_length, glint_bytes(bench->memory),
                             bench->memory_length, glint_bytes(bench->marks), bench->marks_length, device.value,
                             glint_bytes_mut(buffer), length);
}

static inline glint_outcome glint_bench_device_write(glint_bench *bench, glint_device_address device, const void *buffer, size_t length)
{
    if (glint_bench_is_null(bench) || glint_is_null(buffer, length))
        return glint_null_refusal();
    return glint_device_write(&bench->state, glint_records(bench), bench->records_length, glint_bytes_mut(bench->memory),
                              bench->memory_length, glint_bytes_mut(bench->marks), bench->marks_length, device.value,
                              glint_bytes(buffer), length);
}

static inline glint_outcome glint_bench_host_write(glint_bench *bench, glint_memory_address address, const void *buffer, size_t length)
{
    if (glint_bench_is_null(bench) || glint_is_null(buffer, length))
        return glint_null_refusal();
    return glint_host_write(&bench->state, glint_records(bench), bench->records_length, glint_bytes_mut(bench->memory),
                            bench->memory_length, glint_bytes_mut(bench->marks), bench->marks_length, address.value,
                            glint_bytes(buffer), length);
}

static inline glint_outcome glint_bench_host_read(const glint_bench *bench, glint_memory_address address, void *buffer, size_t length)
{
    if (glint_bench_is_null(bench) || glint_is_null(buffer, length))
        return glint_null_refusal();
    return glint_host_read(&bench->state, glint_records(bench), bench->records_length, glint_bytes(bench->memory),
                           bench->memory_length, glint_bytes(bench->marks), bench->marks_length, address.value,
                           glint_bytes_mut(buffer), length);
}

static inline glint_outcome glint_bench_invalidate(glint_bench *bench, glint_memory_address address, uint64_t length)
{
    if (glint_bench_is_null(bench))
        return glint_null_refusal();
    return glint_invalidate(&bench->state, glint_records(bench), bench->records_length, glint_bytes(bench->memory),
                            bench->memory_length, glint_bytes_mut(bench->marks), bench->marks_length, address.value, length);
}

/* ---- queues */

/* `length` counts numbers. GLINT_WALKED_MAX of them are enough for any walk, and three for each buffer are for this one. */
static inline glint_walked glint_bench_walk_queue(const glint_bench *bench, uint32_t queue, uint16_t last, uint64_t *numbers, size_t length)
{
    if (glint_bench_is_null(bench) || glint_is_null(numbers, length)) {
        glint_walked refused = {glint_null_refusal(), 0};
        return refused;
    }
    return glint_walk_queue(&bench->state, glint_records(bench), bench->records_length, glint_bytes(bench->memory), bench->memory_length,
                            glint_bytes(bench->marks), bench->marks_length, queue, last, glint_numbers_mut(numbers), length);
}

/* The buffer at a place among those that an accepted walk wrote to `numbers`, which is below the number that it gave. */
static inline glint_buffer glint_walked_buffer(const uint64_t *numbers, size_t place)
{
    const uint64_t *three = numbers + GLINT_BUFFER_NUMBERS * place;
    glint_buffer buffer = {{three[0]}, (uint32_t)three[1], (uint16_t)three[2]};
    return buffer;
}

/* ---- registers and parts */

static inline glint_outcome glint_bench_set_register(glint_bench *bench, uint64_t kind, uint64_t selector, const void *value,
                                                     size_t length)
{
    if (glint_bench_has_null_records(bench) || glint_is_null(value, length))
        return glint_null_refusal();
    return glint_set_register(&bench->state, glint_records(bench), bench->records_length, kind, selector, glint_bytes(value), length);
}

static inline glint_outcome glint_bench_read_register(const glint_bench *bench, uint64_t kind, uint64_t selector, void *buffer,
                                                      size_t length)
{
    if (glint_bench_has_null_records(bench) || glint_is_null(buffer, length))
        return glint_null_refusal();
    return glint_read_register(&bench->state, glint_records(bench), bench->records_length, kind, selector, glint_bytes_mut(buffer),
                               length);
}

static inline glint_outcome glint_bench_load_parts(glint_bench *bench, const void *stream, size_t length)
{
    if (glint_bench_has_null_records(bench) || glint_is_null(stream, length))
        return glint_null_refusal();
    return glint_load_parts(&bench->state, glint_records(bench), bench->records_length, glint_bytes(stream), length);
}

static inline glint_outcome glint_bench_save_parts(const glint_bench *bench, void *buffer, size_t length)
{
    if (glint_bench_has_null_records(bench) || glint_is_null(buffer, length))
        return glint_null_refusal();
    return glint_save_parts(&bench->state, glint_records(bench), bench->records_length, glint_bytes_mut(buffer), length);
}

static inline glint_outcome glint_bench_stop(glint_bench *bench)
{
    if (glint_bench_has_null_records(bench))
        return glint_null_refusal();
    return glint_stop(&bench->state, glint_records(bench), bench->records_length);
}

static inline glint_outcome glint_bench_start(glint_bench *bench)
{
    if (glint_bench_has_null_records(bench))
        return glint_null_refusal();
    return glint_start(&bench->state, glint_records(bench), bench->records_length);
}

/* A walker over a stream: it keeps hold of the stream and its place. */
typedef struct glint_walker {
    const uint8_t *stream;
    size_t length;
    size_t place;
} glint_walker;

static inline glint_walker glint_walk(const void *stream, size_t length)
{
    glint_walker walker = {(const uint8_t *)stream, length, 0};
    return walker;
}

/*
 * One step. `value` and `value_length` get the bytes of the stream that are the part's value, and no bytes at the end; a refusal leaves
 * them. The walker goes on behind a part, and stays after a refusal or at the end.
 */
static inline glint_part_step glint_walker_step(glint_walker *walker, const uint8_t **value, size_t *value_length)
{
    if (glint_is_null(walker->stream, walker->length)) {
        glint_part_step refused = {true, false, GLINT_NULL_POINTER, 0, 0, 0, 0, 0, 0, walker->place};
        return refused;
    }
    const uint8_t *stream = glint_bytes(walker->stream);
    glint_part_step step = glint_step(stream, walker->length, walker->place);
    if (!step.refused) {
        *value = stream + step.value_start;
        *value_length = (size_t)step.value_length;
    }
    walker->place = (size_t)step.next;
    return step;
}

/* ---- what a partner sends */

/*
 * glint_check_save and glint_check_save_128 where the stream may be null: with length 0 it is the empty stream. With a length above 0 the
 * library is not called, and the answer is 0: no byte was there to agree.
 */
static inline uint64_t glint_check_stream(const void *stream, size_t length)
{
    return glint_is_null(stream, length) ? 0 : glint_check_save(glint_bytes(stream), length);
}

static inline uint64_t glint_check_stream_128(const void *stream, size_t length)
{
    return glint_is_null(stream, length) ? 0 : glint_check_save_128(glint_bytes(stream), length);
}

/* ---- device files */

/* Reading where the file may be null: with length 0 it is the empty file. */
static inline glint_device_header glint_device_file_header(const void *file, size_t length)
{
    if (glint_is_null(file, length)) {
        glint_device_header refused = {glint_null_refusal(), 0, 0, 0};
        return refused;
    }
    return glint_read_device_file(glint_bytes(file), length);
}

/* `content` gets the bytes of the file that are the record's content, of which there are `content_length`; it stays where there is none. */
static inline glint_device_record glint_device_file_record(const void *file, size_t length, uint64_t n, const uint8_t **content)
{
    if (glint_is_null(file, length)) {
        glint_device_record refused = {glint_null_refusal(), false, 0, 0, 0, 0};
        return refused;
    }
    const uint8_t *bytes = glint_bytes(file);
    glint_device_record record = glint_read_device_record(bytes, length, n);
    if (!record.outcome.refused && !record.end)
        *content = bytes + record.content_start;
    return record;
}

/* The number in 4 or 8 bytes of a content. */
static inline uint32_t glint_content_32(const uint8_t *content, size_t offset)
{
    uint32_t number;
    memcpy(&number, content + offset, sizeof number);
    return number;
}

static inline uint64_t glint_content_64(const uint8_t *content, size_t offset)
{
    uint64_t number;
    memcpy(&number, content + offset, sizeof number);
    return number;
}

/* A device file that is being written: its buffer, which the caller lends, and how many bytes of it are in use. */
typedef struct glint_device_writer {
    uint8_t *buffer;
    size_t length;
    size_t used;
} glint_device_writer;

/* Starts a file in a buffer. Where that is refused, no byte is in use, and every append is refused. */
static inline glint_outcome glint_device_writer_start(glint_device_writer *writer, void *buffer, size_t length, uint32_t magic,
                                                      uint32_t version, uint32_t flags)
{
    writer->buffer = (uint8_t *)buffer;
    writer->length = length;
    writer->used = 0;
    if (glint_is_null(buffer, length))
        return glint_null_refusal();
    glint_written_file written = glint_start_device_file(glint_bytes_mut(buffer), length, magic, version, flags);
    writer->used = written.used;
    return written.outcome;
}

/* Appends a record by type and content. A refusal leaves the buffer and the bytes in use. */
static inline glint_outcome glint_device_writer_append(glint_device_writer *writer, uint32_t kind, const void *content, size_t length)
{
    if (glint_is_null(writer->buffer, writer->length) || glint_is_null(content, length))
        return glint_null_refusal();
    glint_written_file written = glint_append_device_record(glint_bytes_mut(writer->buffer), writer->length, writer->used, kind,
                                                            glint_bytes(content), length);
    if (!written.outcome.refused)
        writer->used = written.used;
    return written.outcome;
}

/* The records by their fields. */

static inline glint_outcome glint_device_writer_region(glint_device_writer *writer, uint32_t flags, uint64_t offset, uint64_t length)
{
    uint8_t content[20];
    memcpy(content, &flags, sizeof flags);
    memcpy(content + 4, &offset, sizeof offset);
    memcpy(content + 12, &length, sizeof length);
    return glint_device_writer_append(writer, GLINT_RECORD_REGION, content, sizeof content);
}

/* The path of a string, without the 0 behind it. */
static inline glint_outcome glint_device_writer_dtpath(glint_device_writer *writer, const char *path)
{
    return glint_device_writer_append(writer, GLINT_RECORD_DTPATH, path, strlen(path));
}

static inline glint_outcome glint_device_writer_dtindex(glint_device_writer *writer, uint32_t property, uint32_t index)
{
    const uint32_t content[2] = {property, index};
    return glint_device_writer_append(writer, GLINT_RECORD_DTINDEX, content, sizeof content);
}

static inline glint_outcome glint_device_writer_interrupt(glint_device_writer *writer, uint32_t flags, uint32_t handle)
{
    const uint32_t content[2] = {flags, handle};
    return glint_device_writer_append(writer, GLINT_RECORD_INTERRUPT, content, sizeof content);
}

static inline glint_outcome glint_device_writer_pci_config_space(glint_device_writer *writer, uint32_t flags)
{
    return glint_device_writer_append(writer, GLINT_RECORD_PCI_CONFIG_SPACE, &flags, sizeof flags);
}

static inline glint_outcome glint_device_writer_pci_bar_index(glint_device_writer *writer, uint32_t flags, uint32_t index)
{
    const uint32_t content[2] = {flags, index};
    return glint_device_writer_append(writer, GLINT_RECORD_PCI_BAR_INDEX, content, sizeof content);
}

static inline glint_outcome glint_device_writer_phys_addr(glint_device_writer *writer, uint32_t flags, uint64_t address)
{
    uint8_t content[12];
    memcpy(content, &flags, sizeof flags);
    memcpy(content + 4, &address, sizeof address);
    return glint_device_writer_append(writer, GLINT_RECORD_PHYS_ADDR, content, sizeof content);
}

#ifdef __cplusplus
}
#endif

#endif
