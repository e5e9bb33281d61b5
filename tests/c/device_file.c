// Device files of the old layout from C over the static library: written and read by the structs of their specification, packed. The last
// line is 'N passed, M failed', over the tests in main.
#define TEST_FILE "device_file.c"
#include "check.h"

// ---- the structs as the specification lists them

#define PACKED __attribute__((packed))

struct PACKED devfd_header {
    uint32_t magic, version, flags;
};

struct PACKED devfd_region {
    uint32_t type, record_len, flags;
    uint64_t offset, len;
};

struct PACKED devfd_dtpath {
    uint32_t type, record_len;
    char path[];
};

struct PACKED devfd_dtindex {
    uint32_t type, record_len, prop_type, prop_index;
};

struct PACKED devfd_interrupts {
    uint32_t type, record_len, flags, handle;
};

struct PACKED devfd_cfgspace {
    uint32_t type, record_len, flags;
};

struct PACKED devfd_barindex {
    uint32_t type, record_len, flags, bar_index;
};

struct PACKED devfd_physaddr {
    uint32_t type, record_len, flags;
    uint64_t phys_addr;
};

_Static_assert(sizeof(struct devfd_header) == GLINT_DEVICE_FILE_HEADER, "header");
_Static_assert(sizeof(struct devfd_dtpath) == GLINT_DEVICE_RECORD_HEADER, "header of a record");
_Static_assert(sizeof(struct devfd_region) == 28 && sizeof(struct devfd_physaddr) == 20, "no gaps before 8 bytes");

// ---- a buffer with bytes on both sides that nobody may write: the library is not built with the sanitizer

enum { FILLER = 0xa5, GUARD = 16, MOST = GLINT_DEVICE_FILE_LIMIT + 1 };

static uint8_t all_bytes[GUARD + MOST + GUARD];
static uint8_t *const buffer = all_bytes + GUARD;

static void clear(void)
{
    memset(all_bytes, FILLER, sizeof all_bytes);
}

static bool is_filler(const uint8_t *bytes, size_t length)
{
    for (size_t i = 0; i < length; i++)
        if (bytes[i] != FILLER)
            return false;
    return true;
}

static void guards_stay(void)
{
    CHECK(is_filler(all_bytes, GUARD));
    CHECK(is_filler(buffer + MOST, GUARD));
}

// ---- a file with every type of record, as one struct: what a device tree and a PCI bus would say is mixed

struct PACKED whole_file {
    struct devfd_header header;
    struct devfd_region bar;
    struct devfd_barindex bar_index;
    struct devfd_physaddr address;
    struct devfd_interrupts interrupt;
    struct devfd_region config;
    struct devfd_cfgspace space;
    struct devfd_dtpath path;
    char path_bytes[4];
    struct devfd_dtindex index;
};

static const struct whole_file whole = {
    .header = {GLINT_MAGIC_PCI, 7, 0xffffffff},
    .bar = {1, 28 + 16 + 20, 1, UINT64_C(0x10000000000), 0x4000},
    .bar_index = {6, 16, 0x80000000, 2},
    .address = {7, 20, 0, UINT64_C(0xfedcba9876543210)},
    .interrupt = {4, 16, 0, 0xffffffff},
    .config = {1, 28 + 12 + 12 + 16, 0, UINT64_C(0x70000000000), 0x100},
    .space = {5, 12, 3},
    .path = {.type = 2, .record_len = 12},
    .path_bytes = {'/', 's', 'o', 'c'},
    .index = {3, 16, GLINT_PROPERTY_INTERRUPT_MAP, 9},
};

#define START(field) offsetof(struct whole_file, field)

// Types, starts and lengths of contents, in file order.
static const struct {
    uint32_t kind;
    size_t start, content_length;
} expected[] = {
    {GLINT_RECORD_REGION, START(bar), 20},
    {GLINT_RECORD_PCI_BAR_INDEX, START(bar_index), 8},
    {GLINT_RECORD_PHYS_ADDR, START(address), 12},
    {GLINT_RECORD_INTERRUPT, START(interrupt), 8},
    {GLINT_RECORD_REGION, START(config), 20},
    {GLINT_RECORD_PCI_CONFIG_SPACE, START(space), 4},
    {GLINT_RECORD_DTPATH, START(path), 4},
    {GLINT_RECORD_DTINDEX, START(index), 8},
};

static bool same_header(glint_device_header header, uint32_t magic, uint32_t version, uint32_t flags)
{
    return header.magic == magic && header.version == version && header.flags == flags;
}

static bool is_no_record(glint_device_record record)
{
    return record.kind == 0 && record.start == 0 && record.content_start == 0 && record.content_length == 0;
}

// ---- reading

static void read_header(void)
{
    glint_device_header header = glint_read_device_file((const uint8_t *)&whole, sizeof whole);
    CHECK_DONE(header.outcome, GLINT_COUNT(expected));
    CHECK(same_header(header, GLINT_MAGIC_PCI, 7, 0xffffffff));
    const struct devfd_header dt = {GLINT_MAGIC_DT, 0, 0};
    header = glint_device_file_header(&dt, sizeof dt);
    CHECK_DONE(header.outcome, 0);
    CHECK(same_header(header, GLINT_MAGIC_DT, 0, 0));
}

static void read_records(void)
{
    const uint8_t *file = (const uint8_t *)&whole, *content = NULL;
    for (size_t n = 0; n < GLINT_COUNT(expected); n++) {
        glint_device_record record = glint_device_file_record(&whole, sizeof whole, n, &content);
        CHECK_DONE(record.outcome, 0);
        CHECK(!record.end);
        CHECK(record.kind == expected[n].kind);
        CHECK(record.start == expected[n].start);
        CHECK(record.content_start == expected[n].start + GLINT_DEVICE_RECORD_HEADER);
        CHECK(record.content_length == expected[n].content_length);
        CHECK(content == file + record.content_start);
    }
    for (size_t i = 0; i < 3; i++) {
        const uint64_t past[] = {GLINT_COUNT(expected), GLINT_COUNT(expected) + 1, UINT64_MAX};
        const uint8_t *before = content;
        glint_device_record record = glint_device_file_record(&whole, sizeof whole, past[i], &content);
        CHECK_DONE(record.outcome, 0);
        CHECK(record.end);
        CHECK(is_no_record(record));
        CHECK(content == before);
    }
}

static void read_fields(void)
{
    const uint8_t *content = NULL;
    glint_device_file_record(&whole, sizeof whole, 0, &content);
    CHECK(glint_content_32(content, 0) == 1);
    CHECK(glint_content_64(content, 4) == UINT64_C(0x10000000000));
    CHECK(glint_content_64(content, 12) == 0x4000);
    glint_device_file_record(&whole, sizeof whole, 2, &content);
    CHECK(glint_content_64(content, 4) == UINT64_C(0xfedcba9876543210));
    glint_device_file_record(&whole, sizeof whole, 6, &content);
    CHECK_BYTES(content, "/soc", 4);
    glint_device_file_record(&whole, sizeof whole, 7, &content);
    CHECK(glint_content_32(content, 0) == GLINT_PROPERTY_INTERRUPT_MAP);
    CHECK(glint_content_32(content, 4) == 9);
}

// Both calls refuse a file alike, and all else in their answers is 0.
static void check_refused(const void *file, size_t length, uint32_t code, uint64_t place, int line)
{
    glint_device_header header = glint_read_device_file(glint_bytes(file), length);
    glint_device_record record = glint_read_device_record(glint_bytes(file), length, 0);
    const glint_outcome refused = {.refused = true, .code = code, .place = place};
    check_outcome(header.outcome, refused, line);
    check_outcome(record.outcome, refused, line);
    check(same_header(header, 0, 0, 0) && !record.end && is_no_record(record), "all else is 0", line);
}

#define CHECK_FILE_REFUSED(file, length, code, place) check_refused((file), (length), (code), (place), __LINE__)

static void header_refusals(void)
{
    clear();
    CHECK_FILE_REFUSED(buffer, GLINT_DEVICE_FILE_LIMIT + 1, GLINT_TOO_LONG, 0);
    CHECK_FILE_REFUSED(buffer, GLINT_DEVICE_FILE_LIMIT, GLINT_MAGIC, 0);
    CHECK_FILE_REFUSED(NULL, 0, GLINT_TRUNCATED, 0);
    CHECK_FILE_REFUSED(buffer, 11, GLINT_TRUNCATED, 0);
    CHECK_FILE_REFUSED(buffer, 12, GLINT_MAGIC, 0);
    for (size_t i = 0; i < 4; i++) {
        struct devfd_header header = {GLINT_MAGIC_PCI, 0, 0};
        header.magic ^= 1u << (8 * i);
        CHECK_FILE_REFUSED(&header, sizeof header, GLINT_MAGIC, 0);
    }
}

// A file of one INTERRUPT, whose type and length are others.
static void check_record(uint32_t type, uint32_t length, uint32_t code, int line)
{
    const struct PACKED {
        struct devfd_header header;
        struct devfd_interrupts interrupt;
    } file = {{GLINT_MAGIC_DT, 1, 0}, {type, length, 0, 0}};
    check_refused(&file, sizeof file, code, sizeof file.header, line);
}

// Type and level come before a length past the end, and that before the type's own length.
static void record_refusals(void)
{
    check_record(8, UINT32_MAX, GLINT_UNKNOWN_PART, __LINE__);
    check_record(0, 16, GLINT_UNKNOWN_PART, __LINE__);
    check_record(0x10004, 16, GLINT_UNKNOWN_PART, __LINE__);
    check_record(2, UINT32_MAX, GLINT_HEADER, __LINE__);
    const uint32_t inside[] = {2, 3, 5, 6, 7};
    for (size_t i = 0; i < GLINT_COUNT(inside); i++)
        check_record(inside[i], 16, GLINT_HEADER, __LINE__);
    check_record(4, UINT32_MAX, GLINT_TRUNCATED, __LINE__);
    check_record(4, 17, GLINT_TRUNCATED, __LINE__);
    check_record(4, 15, GLINT_VALUE, __LINE__);
    check_record(4, 8, GLINT_VALUE, __LINE__);
    check_record(4, 0, GLINT_VALUE, __LINE__);
    check_record(1, 16, GLINT_VALUE, __LINE__);
    check_record(1, 0, GLINT_VALUE, __LINE__);
    check_record(1, 28, GLINT_TRUNCATED, __LINE__);
}

// A beginning of a file is a file where an outside record ends there. Otherwise it is refused at the outside record that does not.
static void every_beginning(void)
{
    const struct {
        size_t start;
        uint64_t records; // before it
    } outside[] = {{START(bar), 0}, {START(interrupt), 3}, {START(config), 4}};
    size_t place = 0, next = 0;
    for (size_t length = 0; length < sizeof whole; length++) {
        if (next < GLINT_COUNT(outside) && length == outside[next].start) {
            CHECK_DONE(glint_read_device_file((const uint8_t *)&whole, length).outcome, outside[next].records);
            place = outside[next++].start;
        } else {
            CHECK_FILE_REFUSED(&whole, length, GLINT_TRUNCATED, place);
        }
    }
    CHECK(next == GLINT_COUNT(outside));
}

// The room around a sub-record is its REGION, and not the file.
static void room_of_a_region(void)
{
    struct whole_file file = whole;
    for (uint32_t left = 1; left < 8; left++) {
        file.bar.record_len = 28 + left;
        CHECK_FILE_REFUSED(&file, sizeof file, GLINT_TRUNCATED, START(bar_index));
    }
    file.bar.record_len = 28 + 15;
    CHECK_FILE_REFUSED(&file, sizeof file, GLINT_TRUNCATED, START(bar_index));
    file.bar.record_len = 28 + 16 + 7;
    CHECK_FILE_REFUSED(&file, sizeof file, GLINT_TRUNCATED, START(address));
    file.bar.record_len = 28 + 16;
    CHECK_FILE_REFUSED(&file, sizeof file, GLINT_HEADER, START(address));
    file.bar.record_len = 28;
    CHECK_FILE_REFUSED(&file, sizeof file, GLINT_HEADER, START(bar_index));
    file.bar.record_len = 27;
    CHECK_FILE_REFUSED(&file, sizeof file, GLINT_VALUE, START(bar));
    file.bar.record_len = 28 + 16 + 20 + 16;
    CHECK_FILE_REFUSED(&file, sizeof file, GLINT_HEADER, START(interrupt));
    file = whole;
    file.bar_index.type = 1;
    CHECK_FILE_REFUSED(&file, sizeof file, GLINT_HEADER, START(bar_index));
}

static void lengths_and_properties(void)
{
    struct whole_file file = whole;
    file.bar_index.record_len = 12;
    CHECK_FILE_REFUSED(&file, sizeof file, GLINT_VALUE, START(bar_index));
    file = whole;
    file.address.record_len = 16;
    CHECK_FILE_REFUSED(&file, sizeof file, GLINT_VALUE, START(address));
    file = whole;
    file.space.record_len = 8;
    CHECK_FILE_REFUSED(&file, sizeof file, GLINT_VALUE, START(space));
    file = whole;
    file.path.record_len = 7;
    CHECK_FILE_REFUSED(&file, sizeof file, GLINT_VALUE, START(path));
    file = whole;
    file.index.record_len = 15;
    CHECK_FILE_REFUSED(&file, sizeof file, GLINT_VALUE, START(index));
    file = whole;
    for (uint32_t property = 1; property <= 4; property++) {
        file.index.prop_type = property;
        CHECK_DONE(glint_read_device_file((const uint8_t *)&file, sizeof file).outcome, GLINT_COUNT(expected));
    }
    const uint32_t wrong[] = {0, 5, 0x101, UINT32_MAX};
    for (size_t i = 0; i < GLINT_COUNT(wrong); i++) {
        file.index.prop_type = wrong[i];
        CHECK_FILE_REFUSED(&file, sizeof file, GLINT_VALUE, START(index));
    }
}

// ---- writing

static void write_a_file(void)
{
    clear();
    glint_device_writer writer;
    CHECK_DONE(glint_device_writer_start(&writer, buffer, sizeof whole, GLINT_MAGIC_PCI, 7, 0xffffffff), 0);
    CHECK(writer.used == GLINT_DEVICE_FILE_HEADER);
    CHECK_DONE(glint_device_writer_region(&writer, 1, UINT64_C(0x10000000000), 0x4000), 0);
    CHECK(writer.used == GLINT_DEVICE_FILE_HEADER + sizeof(struct devfd_region));
    CHECK_DONE(glint_device_writer_pci_bar_index(&writer, 0x80000000, 2), 0);
    CHECK_DONE(glint_device_writer_phys_addr(&writer, 0, UINT64_C(0xfedcba9876543210)), 0);
    CHECK_DONE(glint_device_writer_interrupt(&writer, 0, 0xffffffff), 0);
    CHECK_DONE(glint_device_writer_region(&writer, 0, UINT64_C(0x70000000000), 0x100), 0);
    CHECK_DONE(glint_device_writer_pci_config_space(&writer, 3), 0);
    CHECK_DONE(glint_device_writer_dtpath(&writer, "/soc"), 0);
    CHECK_DONE(glint_device_writer_dtindex(&writer, GLINT_PROPERTY_INTERRUPT_MAP, 9), 0);
    CHECK(writer.used == sizeof whole);
    CHECK_BYTES(buffer, &whole, sizeof whole);
    CHECK(is_filler(buffer + sizeof whole, MOST - sizeof whole));
    CHECK_REFUSED(glint_device_writer_dtpath(&writer, ""), GLINT_NO_SPACE, 0);
    CHECK(writer.used == sizeof whole);
    CHECK_BYTES(buffer, &whole, sizeof whole);
}

// What is read, written back record by record, is the same bytes.
static void copy_a_file(void)
{
    clear();
    glint_device_header header = glint_read_device_file((const uint8_t *)&whole, sizeof whole);
    glint_device_writer writer;
    CHECK_DONE(glint_device_writer_start(&writer, buffer, MOST - 1, header.magic, header.version, header.flags), 0);
    for (uint64_t n = 0; n < header.outcome.result; n++) {
        const uint8_t *content = NULL;
        glint_device_record record = glint_device_file_record(&whole, sizeof whole, n, &content);
        CHECK_DONE(glint_device_writer_append(&writer, record.kind, content, record.content_length), 0);
    }
    CHECK(writer.used == sizeof whole);
    CHECK_BYTES(buffer, &whole, sizeof whole);
    CHECK(is_filler(buffer + sizeof whole, MOST - sizeof whole));
}

static void start_refusals(void)
{
    clear();
    glint_written_file written = glint_start_device_file(buffer, MOST, 0, 0, 0);
    CHECK_REFUSED(written.outcome, GLINT_TOO_LONG, 0);
    CHECK(written.used == 0);
    CHECK_REFUSED(glint_start_device_file(buffer, 11, 0, 0, 0).outcome, GLINT_MAGIC, 0);
    CHECK_REFUSED(glint_start_device_file(buffer, 11, GLINT_MAGIC_DT, 0, 0).outcome, GLINT_NO_SPACE, 0);
    CHECK(is_filler(buffer, MOST));
    written = glint_start_device_file(buffer, 12, GLINT_MAGIC_DT, 0, 0);
    CHECK_DONE(written.outcome, 0);
    CHECK(written.used == 12);
}

// An append that is refused, and leaves the buffer.
static void check_append(size_t length, size_t used, uint32_t kind, size_t content_length, uint32_t code, uint64_t place, int line)
{
    static uint8_t before[MOST];
    static const uint8_t content[32];
    memcpy(before, buffer, MOST);
    glint_written_file written = glint_append_device_record(buffer, length, used, kind, content, content_length);
    check_outcome(written.outcome, (glint_outcome){.refused = true, .code = code, .place = place}, line);
    check(written.used == 0, "no bytes in use are given", line);
    check(memcmp(before, buffer, MOST) == 0, "the buffer stays", line);
}

#define CHECK_APPEND_REFUSED(length, used, kind, content_length, code, place) \
    check_append((length), (used), (kind), (content_length), (code), (place), __LINE__)

static void append_refusals(void)
{
    clear();
    memcpy(buffer, &whole, sizeof whole);
    CHECK_APPEND_REFUSED(MOST, MOST + 1, 8, 0, GLINT_TOO_LONG, 0);
    CHECK_APPEND_REFUSED(sizeof whole, sizeof whole + 1, 8, 0, GLINT_TRUNCATED, 0);
    CHECK_APPEND_REFUSED(100, SIZE_MAX, 8, 0, GLINT_TRUNCATED, 0);
    CHECK_APPEND_REFUSED(sizeof whole, 0, 8, 0, GLINT_TRUNCATED, 0);
    CHECK_APPEND_REFUSED(sizeof whole, START(space), 8, 0, GLINT_TRUNCATED, START(config));
    CHECK_APPEND_REFUSED(sizeof whole, sizeof whole, 8, 0, GLINT_UNKNOWN_PART, 0);
    CHECK_APPEND_REFUSED(sizeof whole, sizeof whole, 0, 0, GLINT_UNKNOWN_PART, 0);
    // In an empty file, and behind an INTERRUPT, no REGION stands last.
    CHECK_APPEND_REFUSED(12, 12, GLINT_RECORD_PCI_CONFIG_SPACE, 5, GLINT_HEADER, 0);
    CHECK_APPEND_REFUSED(sizeof whole, START(config), GLINT_RECORD_DTPATH, 0, GLINT_HEADER, 0);
    const size_t sizes[] = {0, 20, 0, 8, 8, 4, 8, 12};
    for (uint32_t kind = 1; kind <= 7; kind++) {
        if (kind == GLINT_RECORD_DTPATH)
            continue;
        CHECK_APPEND_REFUSED(sizeof whole, sizeof whole, kind, sizes[kind] - 1, GLINT_VALUE, 0);
        CHECK_APPEND_REFUSED(sizeof whole, sizeof whole, kind, sizes[kind] + 1, GLINT_VALUE, 0);
        CHECK_APPEND_REFUSED(sizeof whole, sizeof whole, kind, 0, GLINT_VALUE, 0);
        // The content is zeros, which are no property.
        uint32_t code = kind == GLINT_RECORD_DTINDEX ? GLINT_VALUE : GLINT_NO_SPACE;
        CHECK_APPEND_REFUSED(sizeof whole + 8 + sizes[kind] - 1, sizeof whole, kind, sizes[kind], code, 0);
    }
    CHECK_APPEND_REFUSED(sizeof whole + 7, sizeof whole, GLINT_RECORD_DTPATH, 0, GLINT_NO_SPACE, 0);
    buffer[0] ^= 1;
    CHECK_APPEND_REFUSED(sizeof whole, sizeof whole, 8, 0, GLINT_MAGIC, 0);
}

// A path as long as can be: the file is then 65,536 bytes, and reads back.
static void the_longest_file(void)
{
    static uint8_t path[GLINT_DEVICE_FILE_LIMIT];
    const size_t longest = GLINT_DEVICE_FILE_LIMIT - 12 - 28 - 8;
    clear();
    glint_device_writer writer;
    CHECK_DONE(glint_device_writer_start(&writer, buffer, GLINT_DEVICE_FILE_LIMIT, GLINT_MAGIC_DT, 0, 0), 0);
    CHECK_DONE(glint_device_writer_region(&writer, 0, 0, 0), 0);
    CHECK_REFUSED(glint_device_writer_append(&writer, GLINT_RECORD_DTPATH, path, longest + 1), GLINT_NO_SPACE, 0);
    CHECK_DONE(glint_device_writer_append(&writer, GLINT_RECORD_DTPATH, path, longest), 0);
    CHECK(writer.used == GLINT_DEVICE_FILE_LIMIT);
    CHECK(glint_content_32(buffer, 12 + 4) == GLINT_DEVICE_FILE_LIMIT - 12);
    CHECK_DONE(glint_device_file_header(buffer, writer.used).outcome, 2);
    const uint8_t *content = NULL;
    glint_device_record record = glint_device_file_record(buffer, writer.used, 1, &content);
    CHECK(record.content_length == longest && content == buffer + 48);
}

static void null_pointers(void)
{
    const uint8_t *content = NULL;
    CHECK_REFUSED(glint_device_file_header(NULL, 0).outcome, GLINT_TRUNCATED, 0);
    CHECK_REFUSED(glint_device_file_header(NULL, 1).outcome, GLINT_NULL_POINTER, 0);
    CHECK_REFUSED(glint_device_file_record(NULL, 0, 0, &content).outcome, GLINT_TRUNCATED, 0);
    CHECK_REFUSED(glint_device_file_record(NULL, 1, 0, &content).outcome, GLINT_NULL_POINTER, 0);
    CHECK(content == NULL);
    clear();
    glint_device_writer writer;
    CHECK_REFUSED(glint_device_writer_start(&writer, NULL, 0, GLINT_MAGIC_PCI, 0, 0), GLINT_NO_SPACE, 0);
    CHECK_REFUSED(glint_device_writer_append(&writer, 1, NULL, 0), GLINT_TRUNCATED, 0);
    CHECK_REFUSED(glint_device_writer_start(&writer, NULL, 1, GLINT_MAGIC_PCI, 0, 0), GLINT_NULL_POINTER, 0);
    CHECK_REFUSED(glint_device_writer_append(&writer, 1, NULL, 0), GLINT_NULL_POINTER, 0);
    CHECK_DONE(glint_device_writer_start(&writer, buffer, 100, GLINT_MAGIC_PCI, 0, 0), 0);
    CHECK_DONE(glint_device_writer_region(&writer, 0, 0, 0), 0);
    CHECK_REFUSED(glint_device_writer_append(&writer, GLINT_RECORD_DTPATH, NULL, 1), GLINT_NULL_POINTER, 0);
    CHECK_DONE(glint_device_writer_append(&writer, GLINT_RECORD_DTPATH, NULL, 0), 0);
    CHECK(writer.used == 12 + 28 + 8);
}

int main(void)
{
    static const struct test tests[] = {
        TEST(read_header),     TEST(read_records),     TEST(read_fields),            TEST(header_refusals), TEST(record_refusals),
        TEST(every_beginning), TEST(room_of_a_region), TEST(lengths_and_properties), TEST(write_a_file),    TEST(copy_a_file),
        TEST(start_refusals),  TEST(append_refusals),  TEST(the_longest_file),       TEST(null_pointers),
    };
    clear();
    return run_tests(tests, GLINT_COUNT(tests), guards_stay);
}
