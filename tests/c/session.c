// A session from C over the static library, with the structs and request numbers of the machine's own <linux/vfio.h>.
// The last line is 'N passed, M failed', over the tests in main.
#include <linux/vfio.h>
#include <sys/ioctl.h>

#define TEST_FILE "session.c"
#include "check.h"

// ---- the kernel's layout is the emulator's

#define SAME_FIELD(kernel, field, ours, name, offset)                                                                                   \
    _Static_assert(offsetof(struct kernel, field) == (offset) && offsetof(ours, name) == (offset) &&                                     \
                       sizeof(((struct kernel *)0)->field) == sizeof(((ours *)0)->name),                                                \
                   #kernel "." #field)

// Every struct begins with these two.
#define SAME_START(kernel, ours)                                                                                                        \
    SAME_FIELD(kernel, argsz, ours, argsz, 0);                                                                                          \
    SAME_FIELD(kernel, flags, ours, flags, 4)

_Static_assert(sizeof(struct vfio_iommu_type1_dma_map) == 32, "map");
SAME_START(vfio_iommu_type1_dma_map, glint_dma_map);
SAME_FIELD(vfio_iommu_type1_dma_map, vaddr, glint_dma_map, memory, 8);
SAME_FIELD(vfio_iommu_type1_dma_map, iova, glint_dma_map, device, 16);
SAME_FIELD(vfio_iommu_type1_dma_map, size, glint_dma_map, size, 24);

_Static_assert(sizeof(struct vfio_iommu_type1_dma_unmap) == 24, "unmap");
SAME_START(vfio_iommu_type1_dma_unmap, glint_dma_unmap);
SAME_FIELD(vfio_iommu_type1_dma_unmap, iova, glint_dma_unmap, device, 8);
SAME_FIELD(vfio_iommu_type1_dma_unmap, size, glint_dma_unmap, size, 16);

// Later headers add capabilities behind the first 16 bytes.
_Static_assert(sizeof(struct vfio_iommu_type1_info) >= 16, "iommu info");
SAME_START(vfio_iommu_type1_info, glint_iommu_info);
SAME_FIELD(vfio_iommu_type1_info, iova_pgsizes, glint_iommu_info, page_sizes, 8);

_Static_assert(sizeof(struct vfio_device_info) >= 16, "device info");
SAME_START(vfio_device_info, glint_device_info);
SAME_FIELD(vfio_device_info, num_regions, glint_device_info, regions, 8);
SAME_FIELD(vfio_device_info, num_irqs, glint_device_info, irqs, 12);

_Static_assert(sizeof(struct vfio_region_info) == 32, "region info");
SAME_START(vfio_region_info, glint_region_info);
SAME_FIELD(vfio_region_info, index, glint_region_info, index, 8);
SAME_FIELD(vfio_region_info, cap_offset, glint_region_info, reserved, 12);
SAME_FIELD(vfio_region_info, size, glint_region_info, size, 16);
SAME_FIELD(vfio_region_info, offset, glint_region_info, offset, 24);

_Static_assert(sizeof(struct vfio_irq_info) == 16, "irq info");
SAME_START(vfio_irq_info, glint_irq_info);
SAME_FIELD(vfio_irq_info, index, glint_irq_info, index, 8);
SAME_FIELD(vfio_irq_info, count, glint_irq_info, count, 12);

// A request's number is the low byte of the kernel's.
#define SAME_NUMBER(name) _Static_assert(_IOC_NR(VFIO_##name) == GLINT_##name, #name)

SAME_NUMBER(GET_API_VERSION);
SAME_NUMBER(CHECK_EXTENSION);
SAME_NUMBER(SET_IOMMU);
SAME_NUMBER(IOMMU_GET_INFO);
SAME_NUMBER(IOMMU_MAP_DMA);
SAME_NUMBER(IOMMU_UNMAP_DMA);
SAME_NUMBER(DEVICE_GET_INFO);
SAME_NUMBER(DEVICE_GET_REGION_INFO);
SAME_NUMBER(DEVICE_GET_IRQ_INFO);
SAME_NUMBER(DEVICE_RESET);

_Static_assert(VFIO_TYPE1_IOMMU == GLINT_TYPE1_IOMMU && VFIO_TYPE1v2_IOMMU == GLINT_TYPE1V2_IOMMU, "IOMMU types");
_Static_assert(VFIO_DMA_MAP_FLAG_READ == GLINT_READ && VFIO_DMA_MAP_FLAG_WRITE == GLINT_WRITE, "rights");

// ---- lent bytes with a fence on both sides: the library is not built with the sanitizer, so its stores are looked for here

enum { FENCE = 64, ROOM = 3 * 4096, FILLER = 0xa5 };

struct fenced {
    uint8_t all[FENCE + ROOM + FENCE];
    size_t length;
};

static uint8_t *fenced_bytes(struct fenced *fenced)
{
    return fenced->all + FENCE;
}

static uint8_t *fill(struct fenced *fenced, size_t length)
{
    memset(fenced->all, FILLER, sizeof fenced->all);
    fenced->length = length;
    return fenced_bytes(fenced);
}

static uint8_t *lend(struct fenced *fenced, const void *bytes, size_t length)
{
    memcpy(fill(fenced, length), bytes, length);
    return fenced_bytes(fenced);
}

static bool all_filler(const uint8_t *bytes, size_t length)
{
    for (size_t i = 0; i < length; i++)
        if (bytes[i] != FILLER)
            return false;
    return true;
}

static bool fence_holds(const struct fenced *fenced)
{
    size_t end = FENCE + fenced->length;
    return all_filler(fenced->all, FENCE) && all_filler(fenced->all + end, sizeof fenced->all - end);
}

// ---- the bench of a test: three pages, and records that hold filler until they are put to use

enum { PAGE = 4096, RECORDS = 64 };

// Each field of a state but the lines, which have padding that a copy need not keep (interrupts.c compares them).
enum { STATE_BYTES = offsetof(glint_state, lines) };

static struct fenced memory, marks, buffer;
static struct {
    glint_mapping before, records[GLINT_RECORDS_LIMIT + 1], behind;
} table;
static glint_bench bench;

// Whether the records from place `from` up to but not including `to` hold what nobody put there.
static bool stale(size_t from, size_t to)
{
    return all_filler((const uint8_t *)(table.records + from), (to - from) * sizeof(glint_mapping));
}

// Fresh start on so many records.
static glint_outcome start_with(size_t records)
{
    memset(&table, FILLER, sizeof table);
    uint8_t *bytes = fill(&memory, ROOM), *bits = fill(&marks, GLINT_MARKS(ROOM));
    return glint_bench_init(&bench, table.records, records, bytes, bits, ROOM);
}

static void fresh_bench(void)
{
    CHECK_DONE(start_with(RECORDS), 0);
}

// Whether a record is a mapping of one page, by the page of its device address.
static bool is_page(const glint_mapping *record, uint64_t page)
{
    return record->device.value == page * PAGE && record->memory.value == 0 && record->size == PAGE && record->rights == GLINT_READ;
}

// A request with the kernel's struct, in a fenced buffer; the struct is then what the buffer holds.
static glint_outcome request(uint32_t target, unsigned long kernel_number, void *arg, size_t length)
{
    uint8_t *bytes = lend(&buffer, arg, length);
    glint_outcome outcome = glint_bench_request(&bench, target, _IOC_NR(kernel_number), bytes, length);
    CHECK(fence_holds(&buffer));
    memcpy(arg, bytes, length);
    return outcome;
}

static glint_outcome map(uint64_t vaddr, uint64_t iova, uint64_t size, uint32_t flags)
{
    struct vfio_iommu_type1_dma_map arg = {.argsz = sizeof arg, .flags = flags, .vaddr = vaddr, .iova = iova, .size = size};
    struct vfio_iommu_type1_dma_map given = arg;
    glint_outcome outcome = request(GLINT_CONTAINER, VFIO_IOMMU_MAP_DMA, &arg, sizeof arg);
    CHECK_BYTES(&arg, &given, sizeof arg);
    return outcome;
}

// The buffer's length is the kernel's size; `removed` is its size field afterwards.
static glint_outcome unmap(uint64_t iova, uint64_t size, uint64_t *removed)
{
    struct vfio_iommu_type1_dma_unmap arg = {.argsz = sizeof arg, .iova = iova, .size = size};
    glint_outcome outcome = request(GLINT_CONTAINER, VFIO_IOMMU_UNMAP_DMA, &arg, sizeof arg);
    CHECK(arg.argsz == sizeof arg && arg.flags == 0 && arg.iova == iova);
    *removed = arg.size;
    return outcome;
}

// A request whose buffer is one number, which it leaves.
static glint_outcome number_request(uint32_t target, unsigned long kernel_number, uint32_t number)
{
    uint32_t arg = number;
    glint_outcome outcome = request(target, kernel_number, &arg, sizeof arg);
    CHECK(arg == number);
    return outcome;
}

static glint_outcome check_extension(uint32_t extension)
{
    return number_request(GLINT_CONTAINER, VFIO_CHECK_EXTENSION, extension);
}

static glint_outcome set_iommu(uint32_t iommu_type)
{
    return number_request(GLINT_CONTAINER, VFIO_SET_IOMMU, iommu_type);
}

static glint_outcome device_read(uint64_t iova, size_t length)
{
    glint_outcome outcome = glint_bench_device_read(&bench, glint_device(iova), fill(&buffer, length), length);
    CHECK(fence_holds(&buffer));
    return outcome;
}

// A look-up's whole answer: of one that is refused, all but the refusal and, with 14, the probes is 0.
static void check_look_up(uint64_t iova, glint_found want, int line)
{
    glint_found is = glint_bench_look_up(&bench, glint_device(iova));
    check_outcome(is.outcome, want.outcome, line);
    if (is.address.value == want.address.value && is.rights == want.rights && is.left == want.left && is.probes == want.probes)
        return;
    fprintf(stderr, TEST_FILE ":%d: look-up of %llx: address %llu rights %u left %llu probes %llu, not %llu, %u, %llu and %llu\n", line,
            (unsigned long long)iova, (unsigned long long)is.address.value, is.rights, (unsigned long long)is.left,
            (unsigned long long)is.probes, (unsigned long long)want.address.value, want.rights, (unsigned long long)want.left,
            (unsigned long long)want.probes);
    faults++;
}

#define CHECK_FOUND(iova, at, right, rest, looked)                                                                                      \
    check_look_up((iova), (glint_found){.address = {at}, .rights = (right), .left = (rest), .probes = (looked)}, __LINE__)
#define CHECK_NOT_FOUND(iova, number, looked)                                                                                           \
    check_look_up((iova), (glint_found){.outcome = {.refused = true, .code = (number)}, .probes = (looked)}, __LINE__)

static bool marked(size_t from, size_t to, bool mark)
{
    for (size_t i = from; i < to; i++)
        if (glint_bench_is_written(&bench, glint_memory(i)) != mark)
            return false;
    return true;
}

// ---- tests

static void power_on(void)
{
    fresh_bench();
    CHECK(bench.state.memory_length == ROOM);
    CHECK(bench.state.count == 0);
    CHECK(bench.state.running == 0);
    CHECK(bench.state.iommu_type == VFIO_TYPE1v2_IOMMU);
    CHECK(marked(0, ROOM, 0));
    CHECK(all_filler(fenced_bytes(&memory), ROOM));

    CHECK_DONE(set_iommu(VFIO_TYPE1_IOMMU), 0);
    CHECK_DONE(map(0, 0, PAGE, GLINT_READ), 0);
    CHECK_DONE(glint_bench_host_write(&bench, glint_memory(5), "x", 1), 0);
    CHECK_DONE(glint_bench_start(&bench), 0);
    CHECK_DONE(glint_bench_power_on(&bench), 0);
    CHECK(bench.state.count == 0);
    CHECK(bench.state.running == 0);
    CHECK(bench.state.iommu_type == VFIO_TYPE1v2_IOMMU);
    CHECK(marked(0, ROOM, 0));
    CHECK(fenced_bytes(&memory)[5] == 'x');
    // The record that was in use is stale now, and holds what it held.
    CHECK(is_page(&bench.records[0], 0) && stale(1, RECORDS));
}

// 11 bytes of memory have two mark bytes. Bits past the end stay as they are, and a mark byte more or less is refused.
static void packed_marks(void)
{
    uint8_t *bytes = fill(&memory, 11), *bits = lend(&marks, "\xff\xff", 2);
    CHECK(GLINT_MARKS(0) == 0 && GLINT_MARKS(1) == 1 && GLINT_MARKS(8) == 1 && GLINT_MARKS(9) == 2 && GLINT_MARKS(11) == 2);
    CHECK_DONE(glint_bench_init(&bench, table.records, RECORDS, bytes, bits, 11), 0);
    CHECK_BYTES(bits, "\x00\xf8", 2);
    CHECK_DONE(glint_bench_host_write(&bench, glint_memory(7), "ab", 2), 0);
    CHECK_BYTES(bits, "\x80\xf9", 2);
    CHECK(marked(0, 7, false) && marked(7, 9, true) && marked(9, 20, false));
    CHECK_DONE(glint_bench_host_write(&bench, glint_memory(9), "cd", 2), 0);
    CHECK_BYTES(bits, "\x80\xff", 2);
    CHECK_REFUSED(glint_bench_host_read(&bench, glint_memory(9), fill(&buffer, 3), 3), GLINT_RANGE, 0);
    CHECK_DONE(glint_bench_invalidate(&bench, glint_memory(0), 11), 0);
    CHECK_BYTES(bits, "\x00\xf8", 2);
    bench.marks_length = 1;
    CHECK_REFUSED(glint_bench_power_on(&bench), GLINT_BAD_BENCH, 0);
    bench.marks_length = 3;
    CHECK_REFUSED(glint_bench_power_on(&bench), GLINT_BAD_BENCH, 0);
}

static void bad_bench(void)
{
    fresh_bench();
    bench.marks_length--;
    CHECK_REFUSED(glint_bench_power_on(&bench), GLINT_BAD_BENCH, 0);
    CHECK_REFUSED(device_read(0, 0), GLINT_BAD_BENCH, 0);
    bench.memory_length -= 8;
    CHECK_REFUSED(device_read(0, 0), GLINT_BAD_BENCH, 0);
    CHECK_DONE(glint_bench_power_on(&bench), 0);
    CHECK_DONE(device_read(0, 0), 0);

    glint_state sound = bench.state;
    bench.state.count = RECORDS + 1;
    CHECK_REFUSED(glint_bench_stop(&bench), GLINT_BAD_BENCH, 0);
    CHECK(bench.state.count == RECORDS + 1);
    CHECK_NOT_FOUND(0, GLINT_BAD_BENCH, 0);
    bench.state = sound;
    bench.state.registers.slots[5].set = 0;
    CHECK_REFUSED(glint_bench_save_parts(&bench, fill(&buffer, 64), 64), GLINT_BAD_BENCH, 0);
    CHECK(all_filler(buffer.all, sizeof buffer.all));
}

static void container(void)
{
    fresh_bench();
    CHECK_DONE(glint_bench_request(&bench, GLINT_CONTAINER, _IOC_NR(VFIO_GET_API_VERSION), NULL, 0), VFIO_API_VERSION);
    CHECK_DONE(check_extension(VFIO_TYPE1v2_IOMMU), 1);
    CHECK_DONE(check_extension(VFIO_TYPE1_IOMMU), 1);
    CHECK_DONE(check_extension(VFIO_SPAPR_TCE_IOMMU), 0);
    CHECK_DONE(check_extension(VFIO_TYPE1_IOMMU | 1u << 24), 0);
    uint32_t number = VFIO_TYPE1_IOMMU;
    CHECK_REFUSED(request(GLINT_CONTAINER, VFIO_CHECK_EXTENSION, &number, 3), GLINT_SHORT, 0);
    CHECK_REFUSED(number_request(GLINT_DEVICE, VFIO_CHECK_EXTENSION, number), GLINT_NO_SUCH_REQUEST, 0);
    CHECK_REFUSED(number_request(2, VFIO_GET_API_VERSION, number), GLINT_NO_SUCH_REQUEST, 0);
}

static void iommu_info(void)
{
    fresh_bench();
    struct vfio_iommu_type1_info info, given;
    memset(&info, FILLER, sizeof info);
    info.argsz = sizeof info;
    given = info;
    CHECK_DONE(request(GLINT_CONTAINER, VFIO_IOMMU_GET_INFO, &info, sizeof info), 0);
    CHECK(info.argsz == sizeof info);
    CHECK(info.flags == VFIO_IOMMU_INFO_PGSIZES);
    CHECK(info.iova_pgsizes == PAGE);
    CHECK_BYTES((uint8_t *)&info + 16, (uint8_t *)&given + 16, sizeof info - 16);

    info = given;
    info.argsz = 15;
    CHECK_REFUSED(request(GLINT_CONTAINER, VFIO_IOMMU_GET_INFO, &info, sizeof info), GLINT_ARG_SIZE, 0);
    info.argsz = sizeof info + 1;
    CHECK_REFUSED(request(GLINT_CONTAINER, VFIO_IOMMU_GET_INFO, &info, sizeof info), GLINT_ARG_SIZE, 0);
    CHECK_BYTES((uint8_t *)&info + 4, (uint8_t *)&given + 4, sizeof info - 4);

    glint_iommu_info ours;
    CHECK_DONE(glint_bench_iommu_info(&bench, &ours), 0);
    CHECK(ours.argsz == 16 && ours.flags == 1 && ours.page_sizes == PAGE);
}

static void map_and_look_up(void)
{
    const uint64_t top = GLINT_DEVICE_LIMIT - PAGE;
    fresh_bench();
    CHECK_DONE(map(PAGE, top, PAGE, VFIO_DMA_MAP_FLAG_READ | VFIO_DMA_MAP_FLAG_WRITE), 0);
    CHECK(bench.state.count == 1);
    CHECK(bench.records[0].device.value == top);
    CHECK(bench.records[0].memory.value == PAGE);
    CHECK(bench.records[0].size == PAGE);
    CHECK(bench.records[0].rights == 3);

    CHECK_FOUND(top + 7, PAGE + 7, 3, PAGE - 7, 1);
    CHECK_NOT_FOUND(top - 1, GLINT_UNMAPPED, 1);
    CHECK_NOT_FOUND(GLINT_DEVICE_LIMIT, GLINT_RANGE, 0);

    glint_state before = bench.state;
    CHECK_REFUSED(map(0, 0, PAGE, 0), GLINT_FLAGS, 0);
    CHECK_REFUSED(map(0, 0, PAGE, VFIO_DMA_MAP_FLAG_READ | VFIO_DMA_MAP_FLAG_VADDR), GLINT_FLAGS, 0);
    CHECK_REFUSED(map(0, 1, 0, GLINT_READ), GLINT_EMPTY, 0);
    CHECK_REFUSED(map(0, 1, PAGE, GLINT_READ), GLINT_UNALIGNED, 0);
    CHECK_REFUSED(map(0, top, 2 * PAGE, GLINT_READ), GLINT_RANGE, 0);
    CHECK_REFUSED(map(2 * PAGE, 0, 2 * PAGE, GLINT_READ), GLINT_RANGE, 0);
    CHECK_REFUSED(map(0, UINT64_C(0xfffffffffffff000), PAGE, GLINT_READ), GLINT_RANGE, 0);
    CHECK_REFUSED(map(0, top - PAGE, 2 * PAGE, GLINT_READ), GLINT_OVERLAP, 0);
    CHECK_BYTES(&bench.state, &before, STATE_BYTES);
}

// A mapping runs on to its own end, also where another adjoins, and whatever memory stands behind the two.
static void bytes_left(void)
{
    fresh_bench();
    CHECK_DONE(map(0, PAGE, 2 * PAGE, GLINT_READ), 0);
    CHECK_DONE(map(2 * PAGE, 3 * PAGE, PAGE, GLINT_READ), 0);
    CHECK_NOT_FOUND(PAGE - 1, GLINT_UNMAPPED, 2);
    CHECK_FOUND(PAGE, 0, GLINT_READ, 2 * PAGE, 2);
    CHECK_FOUND(PAGE + 100, 100, GLINT_READ, 2 * PAGE - 100, 2);
    CHECK_FOUND(2 * PAGE, PAGE, GLINT_READ, PAGE, 2);
    CHECK_FOUND(3 * PAGE - 1, 2 * PAGE - 1, GLINT_READ, 1, 2);
    CHECK_FOUND(3 * PAGE, 2 * PAGE, GLINT_READ, PAGE, 1);
    CHECK_FOUND(4 * PAGE - 1, 3 * PAGE - 1, GLINT_READ, 1, 1);
    CHECK_NOT_FOUND(4 * PAGE, GLINT_UNMAPPED, 1);
}

// A map of a page of its own, by the page of its device address.
static glint_outcome map_page(uint64_t page)
{
    return map(0, page * PAGE, PAGE, GLINT_READ);
}

// How many mappings are looked at, by the number held: below all of them, and above all of them. Of 64 these are the places 32 16 8 4 2 1 0
// and 32 48 56 60 62 63. The one in the middle is looked at first.
static void probes(void)
{
    static const struct {
        size_t held;
        uint64_t below, above;
    } cases[] = {{0, 0, 0}, {1, 1, 1}, {2, 2, 1}, {3, 2, 2}, {63, 6, 6}, {64, 7, 6}, {65, 7, 6}, {4095, 12, 12}, {4096, 13, 12}};
    for (size_t i = 0; i < GLINT_COUNT(cases); i++) {
        const size_t held = cases[i].held;
        CHECK_DONE(start_with(GLINT_RECORDS_LIMIT), 0);
        for (size_t page = 1; page <= held; page++)
            CHECK_DONE(map_page(page), 0);
        CHECK_NOT_FOUND(0, GLINT_UNMAPPED, cases[i].below);
        CHECK_NOT_FOUND((held + 1) * PAGE, GLINT_UNMAPPED, cases[i].above);
        CHECK_NOT_FOUND(GLINT_DEVICE_LIMIT, GLINT_RANGE, 0);
        if (held == 0)
            continue;
        CHECK_FOUND(PAGE, 0, GLINT_READ, PAGE, cases[i].below);
        CHECK_FOUND(held * PAGE, 0, GLINT_READ, PAGE, cases[i].above);
        CHECK_FOUND((held / 2 + 1) * PAGE, 0, GLINT_READ, PAGE, 1);
    }
}

static void table_full(void)
{
    fresh_bench();
    for (uint64_t i = 0; i < RECORDS; i++)
        CHECK_DONE(map_page((RECORDS - i) * 2), 0);
    CHECK_REFUSED(map_page(0), GLINT_NO_ROOM, 0);
    uint64_t removed;
    CHECK_DONE(unmap(2 * PAGE, PAGE, &removed), 0);
    CHECK(removed == PAGE);
    CHECK_DONE(map_page(0), 0);
    CHECK(bench.state.count == RECORDS);
}

// As many mappings are held as there are records, 0 to 4,096 of them; one record more cannot be lent.
static void lent_records(void)
{
    static const size_t lengths[] = {0, 1, 63, 64, 65, GLINT_RECORDS_LIMIT - 1, GLINT_RECORDS_LIMIT};
    for (size_t i = 0; i < GLINT_COUNT(lengths); i++) {
        const size_t length = lengths[i];
        CHECK_DONE(start_with(length), 0);
        CHECK(stale(0, GLINT_RECORDS_LIMIT + 1));
        for (size_t page = length; page > 0; page--)
            CHECK_DONE(map_page(page), 0);
        CHECK_REFUSED(map_page(0), GLINT_NO_ROOM, 0);
        CHECK_REFUSED(map_page(length), length > 0 ? GLINT_OVERLAP : GLINT_NO_ROOM, 0);
        CHECK(bench.state.count == length && stale(length, GLINT_RECORDS_LIMIT + 1));
        for (size_t page = 0; page < length; page++)
            CHECK(is_page(&bench.records[page], page + 1));
        if (length > 0) // the one in the middle, which is looked at first
            CHECK_FOUND((length / 2 + 1) * PAGE, 0, GLINT_READ, PAGE, 1);
    }
    CHECK_REFUSED(start_with(GLINT_RECORDS_LIMIT + 1), GLINT_BAD_BENCH, 0);
    fresh_bench();
    bench.records_length = GLINT_RECORDS_LIMIT + 1;
    CHECK_REFUSED(glint_bench_stop(&bench), GLINT_BAD_BENCH, 0);
    CHECK(stale(0, GLINT_RECORDS_LIMIT + 1));
}

// An unmap copies the records that stay down over those that go: of pages 1 2 3 4, without 2 and 3, 1 4 3 4 remain.
static void stale_records(void)
{
    uint64_t removed;
    fresh_bench();
    for (uint64_t page = 1; page <= 4; page++)
        CHECK_DONE(map_page(page), 0);
    CHECK_DONE(unmap(2 * PAGE, 2 * PAGE, &removed), 0);
    CHECK(bench.state.count == 2 && stale(4, RECORDS));
    CHECK(is_page(&bench.records[0], 1) && is_page(&bench.records[1], 4));
    CHECK(is_page(&bench.records[2], 3) && is_page(&bench.records[3], 4));

    // What the stale ones hold decides nothing: page 3 is free, and others may write there.
    CHECK_NOT_FOUND(3 * PAGE, GLINT_UNMAPPED, 2);
    memset(&bench.records[2], 0xff, 2 * sizeof(glint_mapping));
    CHECK_DONE(map_page(3), 0);
    CHECK(is_page(&bench.records[1], 3) && is_page(&bench.records[2], 4));
    CHECK(bench.records[3].size == UINT64_MAX);
}

// The records may be others at each call, as long as those in use are the same.
static void exchanged_records(void)
{
    static glint_mapping more[RECORDS + 1];
    fresh_bench();
    CHECK_DONE(map_page(1), 0);
    CHECK_DONE(map_page(2), 0);
    memcpy(more, bench.records, 2 * sizeof(glint_mapping));
    bench.records = more;
    bench.records_length = 3;
    CHECK_DONE(map_page(3), 0);
    CHECK_REFUSED(map_page(4), GLINT_NO_ROOM, 0);
    CHECK(stale(2, RECORDS));
    bench.records_length = GLINT_COUNT(more);
    CHECK_DONE(map_page(4), 0);
    // Too few for those in use.
    bench.records_length = 3;
    CHECK_REFUSED(map_page(5), GLINT_BAD_BENCH, 0);
    CHECK_NOT_FOUND(PAGE, GLINT_BAD_BENCH, 0);
    bench.records_length = 4;
    CHECK_FOUND(PAGE, 0, GLINT_READ, PAGE, 3);
    // A record in use that is not sound; a stale one may be anything.
    more[3].rights = 4;
    CHECK_REFUSED(glint_bench_start(&bench), GLINT_BAD_BENCH, 0);
    bench.state.count = 3;
    CHECK_DONE(glint_bench_start(&bench), 0);
}

static void unmap_ranges(void)
{
    uint64_t removed;
    fresh_bench();
    CHECK_DONE(map(0, 0, 2 * PAGE, GLINT_READ), 0);
    CHECK_DONE(map(0, 2 * PAGE, PAGE, GLINT_READ), 0);
    CHECK(glint_bench_mapped_bytes(&bench) == 3 * PAGE);
    CHECK_REFUSED(unmap(PAGE, 2 * PAGE, &removed), GLINT_CUTS, 0);
    CHECK(removed == 2 * PAGE); // the size field as it was given
    CHECK(bench.state.count == 2);
    CHECK(glint_bench_mapped_bytes(&bench) == 3 * PAGE);
    CHECK_REFUSED(unmap(1, 0, &removed), GLINT_EMPTY, 0);
    CHECK_DONE(unmap(0, 3 * PAGE, &removed), 0);
    CHECK(removed == 3 * PAGE);
    CHECK(bench.state.count == 0);
    CHECK_DONE(unmap(0, 3 * PAGE, &removed), 0);
    CHECK(removed == 0);

    CHECK_DONE(glint_bench_map(&bench, glint_memory(0), glint_device(PAGE), PAGE, GLINT_WRITE), 0);
    removed = 1;
    CHECK_REFUSED(glint_bench_unmap(&bench, glint_device(PAGE + 1), PAGE, &removed), GLINT_UNALIGNED, 0);
    CHECK(removed == 1);
    CHECK(glint_bench_mapped_bytes(&bench) == PAGE);
    CHECK_DONE(glint_bench_unmap(&bench, glint_device(PAGE), PAGE, &removed), 0);
    CHECK(removed == PAGE);
    CHECK(glint_bench_mapped_bytes(&bench) == 0);
    bench.state.count = SIZE_MAX; // no record past those that are lent is looked at
    CHECK(glint_bench_mapped_bytes(&bench) >= 3 * PAGE);
}

// Numbers that are no IOMMU type; in those with a high byte, the low one is.
static const uint32_t no_types[] = {0, VFIO_SPAPR_TCE_IOMMU, 4, 0x101, 0x103, 0x10003, 0x1000001, 0x3000000, 0x80000003, UINT32_MAX};

// An older driver: it asks for Type1, takes it, maps, and gives back all that it mapped.
static void older_driver(void)
{
    uint64_t removed;
    fresh_bench();
    CHECK_DONE(check_extension(VFIO_TYPE1_IOMMU), 1);
    CHECK_DONE(set_iommu(VFIO_TYPE1_IOMMU), 0);
    CHECK(bench.state.iommu_type == VFIO_TYPE1_IOMMU);
    CHECK_DONE(map(PAGE, 0x10000, 2 * PAGE, GLINT_READ | GLINT_WRITE), 0);
    CHECK_DONE(glint_bench_host_write(&bench, glint_memory(PAGE), "go", 2), 0);
    CHECK_DONE(device_read(0x10000, 2), 0);
    CHECK_BYTES(fenced_bytes(&buffer), "go", 2);
    CHECK_REFUSED(device_read(0x10000, 3), GLINT_UNWRITTEN, 2);

    // From the second page on: the mapping begins before, so it stays. From the first on, it goes whole.
    CHECK_DONE(unmap(0x10000 + PAGE, PAGE, &removed), 0);
    CHECK(removed == 0 && bench.state.count == 1);
    CHECK_DONE(device_read(0x10000, 2), 0);
    CHECK_DONE(unmap(0x10000, PAGE, &removed), 0);
    CHECK(removed == 2 * PAGE && bench.state.count == 0);
    CHECK_REFUSED(device_read(0x10000, 2), GLINT_UNMAPPED, 0);
}

// The container's type stays while a mapping is held, and is no other than the two.
static void set_iommu_types(void)
{
    static const uint32_t types[] = {VFIO_TYPE1_IOMMU, VFIO_TYPE1v2_IOMMU};
    uint64_t removed;
    fresh_bench();
    for (size_t i = 0; i < GLINT_COUNT(types); i++) {
        CHECK_DONE(set_iommu(types[i]), 0);
        CHECK_DONE(set_iommu(types[i]), 0);
        for (size_t other = 0; other < GLINT_COUNT(no_types); other++)
            CHECK_REFUSED(set_iommu(no_types[other]), GLINT_FLAGS, 0);
        CHECK(bench.state.iommu_type == types[i] && bench.state.count == 0);

        CHECK_DONE(map_page(1), 0);
        CHECK_REFUSED(set_iommu(VFIO_TYPE1_IOMMU), GLINT_FLAGS, 0);
        CHECK_REFUSED(set_iommu(VFIO_TYPE1v2_IOMMU), GLINT_FLAGS, 0);
        CHECK(bench.state.iommu_type == types[i] && bench.state.count == 1);
        CHECK_DONE(unmap(PAGE, PAGE, &removed), 0);
    }

    // Four bytes are the number: fewer are too short, and one more is not looked at.
    uint8_t longer[5] = {VFIO_TYPE1_IOMMU, 0, 0, 0, FILLER};
    CHECK_REFUSED(request(GLINT_CONTAINER, VFIO_SET_IOMMU, longer, 3), GLINT_SHORT, 0);
    CHECK_REFUSED(number_request(GLINT_DEVICE, VFIO_SET_IOMMU, VFIO_TYPE1_IOMMU), GLINT_NO_SUCH_REQUEST, 0);
    CHECK(bench.state.iommu_type == VFIO_TYPE1v2_IOMMU);
    CHECK_DONE(request(GLINT_CONTAINER, VFIO_SET_IOMMU, longer, sizeof longer), 0);
    CHECK(bench.state.iommu_type == VFIO_TYPE1_IOMMU);

    CHECK_DONE(glint_bench_check_extension(&bench, GLINT_TYPE1_IOMMU), 1);
    CHECK_DONE(glint_bench_set_iommu(&bench, GLINT_TYPE1V2_IOMMU), 0);
    CHECK(bench.state.iommu_type == VFIO_TYPE1v2_IOMMU);
    CHECK_REFUSED(glint_bench_set_iommu(&bench, 2), GLINT_FLAGS, 0);
}

// What keeps the type, and what makes of it another one.
static void kept_iommu_type(void)
{
    fresh_bench();
    CHECK_DONE(set_iommu(VFIO_TYPE1_IOMMU), 0);
    CHECK_DONE(glint_bench_request(&bench, GLINT_DEVICE, _IOC_NR(VFIO_DEVICE_RESET), NULL, 0), 0);
    CHECK(bench.state.iommu_type == VFIO_TYPE1_IOMMU);
    CHECK_DONE(glint_bench_power_on_128(&bench), 0);
    CHECK(bench.state.iommu_type == VFIO_TYPE1v2_IOMMU);

    for (size_t i = 0; i < GLINT_COUNT(no_types); i++) {
        bench.state.iommu_type = no_types[i];
        CHECK_REFUSED(glint_bench_stop(&bench), GLINT_BAD_BENCH, 0);
        CHECK_NOT_FOUND(0, GLINT_BAD_BENCH, 0);
        CHECK_REFUSED(device_read(0, 0), GLINT_BAD_BENCH, 0);
        CHECK_REFUSED(check_extension(VFIO_TYPE1_IOMMU), GLINT_BAD_BENCH, 0);
        CHECK_REFUSED(set_iommu(VFIO_TYPE1_IOMMU), GLINT_BAD_BENCH, 0);
        CHECK(bench.state.iommu_type == no_types[i]);
    }
    CHECK_DONE(glint_bench_power_on(&bench), 0);
    CHECK(bench.state.iommu_type == VFIO_TYPE1v2_IOMMU);
}

// What an unmap gives: 12, or the size field, in pages; and how many of three mappings are left.
struct unmapped {
    bool cuts;
    uint64_t pages;
    size_t left;
};

// Of pages 0 to 2, page 3 and pages 5 and 6, each a mapping, an unmap of pages in a container of a type.
static void check_unmap(uint32_t iommu_type, uint64_t page, uint64_t pages, struct unmapped want)
{
    uint64_t field;
    fresh_bench();
    CHECK_DONE(set_iommu(iommu_type), 0);
    CHECK_DONE(map(0, 0, 3 * PAGE, GLINT_READ), 0);
    CHECK_DONE(map(0, 3 * PAGE, PAGE, GLINT_READ), 0);
    CHECK_DONE(map(0, 5 * PAGE, 2 * PAGE, GLINT_READ), 0);
    const glint_outcome is = unmap(page * PAGE, pages * PAGE, &field);
    // A refusal leaves the size field as it was given.
    const uint64_t reported = want.cuts ? pages : want.pages;
    if (is.refused == want.cuts && is.code == (want.cuts ? GLINT_CUTS : 0) && field == reported * PAGE && bench.state.count == want.left)
        return;
    fprintf(stderr, "type %u: unmap of %llu pages from page %llu on: refused %d code %u, size field %llu, %zu left\n", iommu_type,
            (unsigned long long)pages, (unsigned long long)page, is.refused, is.code, (unsigned long long)field, bench.state.count);
    faults++;
}

#define CUT {true, 0, 3}
#define GONE(pages, left) {false, (pages), (left)}

// The same unmaps in containers of both types.
static void unmap_by_type(void)
{
    static const struct {
        uint64_t page, pages;
        struct unmapped type1v2, type1;
    } cases[] = {
        {0, 3, GONE(3, 2), GONE(3, 2)}, // a mapping
        {0, 1, CUT, GONE(3, 2)},        // its first page: it begins at the range's start and goes whole
        {1, 1, CUT, GONE(0, 3)},        // its second: it encloses the range, and blocks
        {2, 1, CUT, GONE(0, 3)},        // its last
        {2, 5, CUT, GONE(0, 3)},        // and all behind it, which stays, too
        {3, 1, GONE(1, 2), GONE(1, 2)}, // it ends at the range's start, and does not block
        {4, 1, GONE(0, 3), GONE(0, 3)}, // another begins at the range's end
        {4, 2, CUT, GONE(2, 2)},        // it begins in the range and ends beyond
        {0, 6, CUT, GONE(6, 0)},        // so does the last of three
        {0, 7, GONE(6, 0), GONE(6, 0)},
        {7, 1, GONE(0, 3), GONE(0, 3)},
    };
    for (size_t i = 0; i < GLINT_COUNT(cases); i++) {
        check_unmap(VFIO_TYPE1v2_IOMMU, cases[i].page, cases[i].pages, cases[i].type1v2);
        check_unmap(VFIO_TYPE1_IOMMU, cases[i].page, cases[i].pages, cases[i].type1);
    }
}

// What goes under Type1 is a run of records; the rest moves down, and records past the count keep what they held.
static void stale_records_type1(void)
{
    uint64_t removed;
    fresh_bench();
    CHECK_DONE(set_iommu(VFIO_TYPE1_IOMMU), 0);
    CHECK_DONE(map_page(1), 0);
    CHECK_DONE(map(0, 2 * PAGE, 2 * PAGE, GLINT_READ), 0);
    CHECK_DONE(map_page(4), 0);
    CHECK_DONE(unmap(2 * PAGE, PAGE, &removed), 0);
    CHECK(removed == 2 * PAGE && bench.state.count == 2 && stale(3, RECORDS));
    CHECK(is_page(&bench.records[0], 1) && is_page(&bench.records[1], 4) && is_page(&bench.records[2], 4));
    removed = 1;
    CHECK_REFUSED(glint_bench_unmap(&bench, glint_device(PAGE), 0, &removed), GLINT_EMPTY, 0);
    CHECK(removed == 1);
    CHECK_DONE(glint_bench_unmap(&bench, glint_device(0), GLINT_DEVICE_LIMIT, &removed), 0);
    CHECK(removed == 2 * PAGE);
}

static void device_reads(void)
{
    fresh_bench();
    CHECK_DONE(map(PAGE, 0x10000, PAGE, GLINT_READ), 0);
    CHECK_DONE(map(0, 0x11000, PAGE, GLINT_WRITE), 0);
    CHECK_DONE(glint_bench_host_write(&bench, glint_memory(PAGE), "ab", 2), 0);
    CHECK_BYTES(fenced_bytes(&memory) + PAGE, "ab", 2);
    CHECK(all_filler(fenced_bytes(&memory), PAGE) && all_filler(fenced_bytes(&memory) + PAGE + 2, ROOM - PAGE - 2));
    CHECK(marked(0, PAGE, 0) && marked(PAGE, PAGE + 2, 1) && marked(PAGE + 2, ROOM, 0));

    CHECK_DONE(device_read(0x10000, 2), 0);
    CHECK_BYTES(fenced_bytes(&buffer), "ab", 2);
    CHECK_REFUSED(device_read(0x10001, 2), GLINT_UNWRITTEN, 1);
    CHECK(all_filler(buffer.all, sizeof buffer.all));
    CHECK_REFUSED(device_read(0x11000, 1), GLINT_NO_RIGHT, 0);
    CHECK_REFUSED(device_read(0x12000, 1), GLINT_UNMAPPED, 0);
    CHECK_REFUSED(device_read(GLINT_DEVICE_LIMIT, 1), GLINT_RANGE, 0);
    CHECK_DONE(device_read(GLINT_DEVICE_LIMIT, 0), 0);

    // Written up to the mapping's end: the first offset behind it has no right to be read.
    uint8_t page[PAGE] = {0};
    CHECK_DONE(glint_bench_host_write(&bench, glint_memory(PAGE), page, PAGE), 0);
    CHECK_REFUSED(device_read(0x10000, PAGE + 1), GLINT_NO_RIGHT, PAGE);
}

static void device_writes(void)
{
    fresh_bench();
    CHECK_DONE(map(0, 0, PAGE, GLINT_WRITE), 0);
    CHECK_DONE(map(0, PAGE, PAGE, GLINT_WRITE), 0);
    CHECK_REFUSED(glint_bench_device_write(&bench, glint_device(2 * PAGE - 1), "xy", 2), GLINT_UNMAPPED, 1);
    CHECK(all_filler(fenced_bytes(&memory), ROOM) && marked(0, ROOM, 0));

    // Both mappings show memory's first page, so offset 4096 is stored over offset 0.
    uint8_t bytes[PAGE + 1];
    memset(bytes, 'a', sizeof bytes);
    bytes[PAGE] = 'z';
    CHECK_DONE(glint_bench_device_write(&bench, glint_device(0), bytes, sizeof bytes), 0);
    CHECK(fenced_bytes(&memory)[0] == 'z');
    CHECK_BYTES(fenced_bytes(&memory) + 1, bytes + 1, PAGE - 1);
    CHECK(all_filler(fenced_bytes(&memory) + PAGE, ROOM - PAGE));
    CHECK(marked(0, PAGE, 1) && marked(PAGE, ROOM, 0));
    CHECK_REFUSED(device_read(0, 1), GLINT_NO_RIGHT, 0);
}

static void host_loads(void)
{
    fresh_bench();
    CHECK_DONE(glint_bench_host_write(&bench, glint_memory(ROOM - 3), "end", 3), 0);
    CHECK_REFUSED(glint_bench_host_write(&bench, glint_memory(ROOM - 2), "end", 3), GLINT_RANGE, 0);
    CHECK_DONE(glint_bench_host_read(&bench, glint_memory(ROOM - 3), fill(&buffer, 3), 3), 0);
    CHECK_BYTES(fenced_bytes(&buffer), "end", 3);
    CHECK(fence_holds(&buffer));
    CHECK_DONE(glint_bench_invalidate(&bench, glint_memory(ROOM - 2), 1), 0);
    CHECK_REFUSED(glint_bench_host_read(&bench, glint_memory(ROOM - 3), fill(&buffer, 3), 3), GLINT_UNWRITTEN, 1);
    CHECK(all_filler(buffer.all, sizeof buffer.all));
    CHECK_BYTES(fenced_bytes(&memory) + ROOM - 3, "end", 3);
    CHECK_REFUSED(glint_bench_invalidate(&bench, glint_memory(1), UINT64_MAX), GLINT_RANGE, 0);

    static uint8_t long_bytes[GLINT_TRANSFER_LIMIT + 1];
    CHECK_REFUSED(glint_bench_host_write(&bench, glint_memory(0), long_bytes, sizeof long_bytes), GLINT_TOO_LONG, 0);
}

static void device_info(void)
{
    fresh_bench();
    struct vfio_device_info info, given;
    memset(&info, FILLER, sizeof info);
    info.argsz = sizeof info;
    given = info;
    CHECK_DONE(request(GLINT_DEVICE, VFIO_DEVICE_GET_INFO, &info, sizeof info), 0);
    CHECK(info.flags == (VFIO_DEVICE_FLAGS_RESET | VFIO_DEVICE_FLAGS_PCI));
    CHECK(info.num_regions == 9 && info.num_irqs == 4);
    CHECK_BYTES((uint8_t *)&info + 16, (uint8_t *)&given + 16, sizeof info - 16);

    glint_device_info ours;
    CHECK_DONE(glint_bench_device_info(&bench, &ours), 0);
    CHECK(ours.argsz == 16 && ours.flags == 3 && ours.regions == 9 && ours.irqs == 4);
}

static void region_info(void)
{
    static const uint8_t config[32] = {0x20, 0, 0, 0, 3, 0, 0, 0, 7, 0, 0, 0, 0, 0, 0, 0, 0, 1, [29] = 7};
    fresh_bench();
    struct vfio_region_info info;
    memset(&info, FILLER, sizeof info);
    info.argsz = sizeof info;
    info.index = VFIO_PCI_CONFIG_REGION_INDEX;
    CHECK_DONE(request(GLINT_DEVICE, VFIO_DEVICE_GET_REGION_INFO, &info, sizeof info), 0);
    CHECK_BYTES(&info, config, sizeof config);

    glint_region_info ours;
    CHECK_DONE(glint_bench_region_info(&bench, VFIO_PCI_BAR0_REGION_INDEX, &ours), 0);
    CHECK(ours.flags == 7 && ours.reserved == 0 && ours.size == 0x4000 && ours.offset == 0);
    CHECK_DONE(glint_bench_region_info(&bench, VFIO_PCI_VGA_REGION_INDEX, &ours), 0);
    CHECK(ours.flags == 0 && ours.size == 0 && ours.offset == UINT64_C(8) << 40);
    CHECK_REFUSED(glint_bench_region_info(&bench, 9, &ours), GLINT_INDEX, 0);
}

static void irq_info(void)
{
    static const struct {
        uint32_t flags, count;
    } irqs[] = {{7, 1}, {9, 8}, {9, 16}, {0, 0}};
    fresh_bench();
    for (uint32_t index = 0; index < 4; index++) {
        struct vfio_irq_info info = {.argsz = sizeof info, .flags = 0xffffffff, .index = index, .count = 0xffffffff};
        CHECK_DONE(request(GLINT_DEVICE, VFIO_DEVICE_GET_IRQ_INFO, &info, sizeof info), 0);
        CHECK(info.argsz == sizeof info && info.index == index);
        CHECK(info.flags == irqs[index].flags && info.count == irqs[index].count);
    }
    glint_irq_info ours;
    CHECK_REFUSED(glint_bench_irq_info(&bench, 4, &ours), GLINT_INDEX, 0);
    CHECK_DONE(glint_bench_irq_info(&bench, 2, &ours), 0);
    CHECK(ours.flags == 9 && ours.count == 16);
}

static void registers(void)
{
    fresh_bench();
    uint8_t queue[32] = {[1] = 1, [4] = 1}; // size 256, enabled
    CHECK_DONE(glint_bench_set_register(&bench, GLINT_QUEUE_CONFIG, 3, queue, sizeof queue), 0);
    CHECK_DONE(glint_bench_read_register(&bench, GLINT_QUEUE_CONFIG, 3, fill(&buffer, 40), 40), 32);
    CHECK_BYTES(fenced_bytes(&buffer), queue, sizeof queue);
    CHECK(all_filler(fenced_bytes(&buffer) + 32, 8) && fence_holds(&buffer));
    CHECK_REFUSED(glint_bench_read_register(&bench, GLINT_QUEUE_CONFIG, 3, fill(&buffer, 31), 31), GLINT_NO_SPACE, 0);
    CHECK(all_filler(buffer.all, sizeof buffer.all));
    CHECK_REFUSED(glint_bench_read_register(&bench, GLINT_QUEUE_CONFIG, 2, fill(&buffer, 40), 40), GLINT_UNSET, 0);
    CHECK_REFUSED(glint_bench_read_register(&bench, GLINT_QUEUE_CONFIG, 4, fill(&buffer, 40), 40), GLINT_INDEX, 0);

    queue[0] = 3;
    CHECK_REFUSED(glint_bench_set_register(&bench, GLINT_QUEUE_CONFIG, 0, queue, sizeof queue), GLINT_VALUE, 0);
    CHECK_REFUSED(glint_bench_set_register(&bench, GLINT_DEVICE_STATUS, 1, "s", 1), GLINT_HEADER, 0);
    CHECK_REFUSED(glint_bench_set_register(&bench, 0x106, 0, "s", 1), GLINT_UNKNOWN_PART, 0);
    CHECK_REFUSED(glint_bench_set_register(&bench, GLINT_OFFERED_FEATURES, 0, queue, 8), GLINT_READ_ONLY, 0);
    CHECK_REFUSED(glint_bench_set_register(&bench, GLINT_DRIVER_FEATURES, 0, queue, 8), GLINT_MISMATCH, 0);

    CHECK_DONE(glint_bench_set_register(&bench, GLINT_DEVICE_STATUS, 0, "\x0f", 1), 0);
    CHECK_DONE(glint_bench_start(&bench), 0);
    CHECK_DONE(glint_bench_request(&bench, GLINT_DEVICE, _IOC_NR(VFIO_DEVICE_RESET), NULL, 0), 0);
    CHECK(bench.state.running == 1);
    CHECK_DONE(glint_bench_read_register(&bench, GLINT_DEVICE_STATUS, 0, fill(&buffer, 1), 1), 1);
    CHECK(fenced_bytes(&buffer)[0] == 0);
    CHECK_REFUSED(glint_bench_read_register(&bench, GLINT_QUEUE_CONFIG, 3, fill(&buffer, 40), 40), GLINT_UNSET, 0);
}

static const uint8_t reset_saved[41] = {0, 1, 1, [12] = 8, [19] = 0x30, 1, [24] = 3, 1, [36] = 1};

static void save_and_load(void)
{
    fresh_bench();
    CHECK_REFUSED(glint_bench_save_parts(&bench, fill(&buffer, 40), 40), GLINT_NO_SPACE, 0);
    CHECK(all_filler(buffer.all, sizeof buffer.all));
    CHECK_DONE(glint_bench_save_parts(&bench, fill(&buffer, GLINT_SAVED_MAX), GLINT_SAVED_MAX), 41);
    CHECK_BYTES(fenced_bytes(&buffer), reset_saved, sizeof reset_saved);
    CHECK(all_filler(fenced_bytes(&buffer) + 41, GLINT_SAVED_MAX - 41) && fence_holds(&buffer));

    CHECK_DONE(glint_bench_set_register(&bench, GLINT_COMMON_FIELD, 22, "\x01\x02", 2), 0);
    CHECK_DONE(glint_bench_load_parts(&bench, reset_saved, sizeof reset_saved), 0);
    CHECK_REFUSED(glint_bench_read_register(&bench, GLINT_COMMON_FIELD, 22, fill(&buffer, 2), 2), GLINT_UNSET, 0);

    uint8_t twice[34];
    memcpy(twice, reset_saved + 24, 17);
    memcpy(twice + 17, reset_saved + 24, 17);
    CHECK_REFUSED(glint_bench_load_parts(&bench, twice, sizeof twice), GLINT_TWICE, 17);
    CHECK_DONE(glint_bench_load_parts(&bench, twice, 17), 0);
    CHECK_REFUSED(glint_bench_load_parts(&bench, NULL, 0), GLINT_MISSING, 0);
    CHECK_REFUSED(glint_bench_load_parts(&bench, reset_saved, 40), GLINT_TRUNCATED, 24);

    // Loading changes the registers alone; a refused one changes nothing.
    CHECK_DONE(glint_bench_set_register(&bench, GLINT_COMMON_FIELD, 22, "\x01\x02", 2), 0);
    const glint_state given = bench.state;
    CHECK_REFUSED(glint_bench_load_parts(&bench, twice, sizeof twice), GLINT_TWICE, 17);
    CHECK_BYTES(&bench.state, &given, STATE_BYTES);
    CHECK_DONE(glint_bench_save_parts(&bench, fill(&buffer, 64), 64), 59);
    CHECK_BYTES(&bench.state, &given, STATE_BYTES);
    CHECK_DONE(glint_bench_load_parts(&bench, reset_saved, sizeof reset_saved), 0);
    CHECK(given.registers.slots[4].set == 1 && bench.state.registers.slots[4].set == 0);
    bench.state.registers = given.registers;
    CHECK_BYTES(&bench.state, &given, STATE_BYTES);
    CHECK_DONE(glint_bench_load_parts(&bench, twice, 17), 0);

    CHECK_DONE(glint_bench_start(&bench), 0);
    CHECK_REFUSED(glint_bench_load_parts(&bench, twice, 17), GLINT_RUNNING, 0);
    CHECK_REFUSED(glint_bench_save_parts(&bench, fill(&buffer, 64), 64), GLINT_RUNNING, 0);
    CHECK_DONE(glint_bench_stop(&bench), 0);
    CHECK_DONE(glint_bench_save_parts(&bench, fill(&buffer, 64), 64), 41);
}

static void steps(void)
{
    const uint8_t *value;
    size_t length;
    glint_walker walker = glint_walk(reset_saved, sizeof reset_saved);
    glint_part_step step = glint_walker_step(&walker, &value, &length);
    CHECK(!step.refused && !step.end && step.code == 0 && step.place == 0);
    CHECK(step.kind == GLINT_OFFERED_FEATURES && step.flags == 1 && step.selector == 0 && step.next == 24);
    CHECK(value == reset_saved + 16 && length == 8);
    step = glint_walker_step(&walker, &value, &length);
    CHECK(step.kind == GLINT_DEVICE_STATUS && step.flags == 0 && step.next == 41);
    CHECK(value == reset_saved + 40 && length == 1);
    CHECK(step.value_start == 40 && step.value_length == 1);
    for (int again = 0; again < 2; again++) {
        length = 99;
        step = glint_walker_step(&walker, &value, &length);
        CHECK(step.end && !step.refused && step.next == 41 && length == 0 && step.value_start == 0);
    }

    // A refusal leaves what the caller had.
    walker = glint_walk(reset_saved, 40);
    walker.place = 24;
    value = reset_saved + 7;
    length = 99;
    for (int again = 0; again < 2; again++) {
        step = glint_walker_step(&walker, &value, &length);
        CHECK(step.refused && !step.end && step.code == GLINT_TRUNCATED && step.place == 24);
        CHECK(walker.place == 24 && value == reset_saved + 7 && length == 99);
    }
    step = glint_step(reset_saved, 41, 42);
    CHECK(step.refused && step.code == GLINT_TRUNCATED && step.place == 42);
    step = glint_step(reset_saved, 41, SIZE_MAX);
    CHECK(step.refused && step.code == GLINT_TRUNCATED && step.place == SIZE_MAX);

    uint8_t part[16] = {4, 1, 0, 0, 1, 2, 3, 4, 5, 6, 7, 8};
    step = glint_step(part, sizeof part, 0);
    CHECK(!step.refused && step.kind == GLINT_QUEUE_CONFIG && step.selector == UINT64_C(0x0807060504030201) && step.next == 16);
    part[2] = 2;
    step = glint_step(part, sizeof part, 0);
    CHECK(step.refused && step.code == GLINT_HEADER && step.place == 0);
}

static void no_memory(void)
{
    static glint_bench empty;
    CHECK_DONE(glint_bench_init(&empty, NULL, 0, NULL, NULL, 0), 0);
    CHECK_DONE(glint_bench_host_write(&empty, glint_memory(0), NULL, 0), 0);
    CHECK_DONE(glint_bench_host_read(&empty, glint_memory(0), NULL, 0), 0);
    CHECK_DONE(glint_bench_device_write(&empty, glint_device(0), NULL, 0), 0);
    CHECK_REFUSED(glint_bench_host_write(&empty, glint_memory(0), "x", 1), GLINT_RANGE, 0);
    CHECK_REFUSED(glint_bench_map(&empty, glint_memory(0), glint_device(0), PAGE, GLINT_READ), GLINT_RANGE, 0);
    CHECK_REFUSED(glint_bench_set_register(&empty, GLINT_DEVICE_STATUS, 0, NULL, 0), GLINT_VALUE, 0);
    CHECK_DONE(glint_bench_reset(&empty), 0);
    CHECK_DONE(glint_bench_api_version(&empty), 0);
    CHECK_DONE(glint_bench_start(&empty), 0);
    CHECK_REFUSED(glint_bench_look_up(&empty, glint_device(0)).outcome, GLINT_UNMAPPED, 0);
    CHECK_DONE(glint_bench_check_extension(&empty, GLINT_TYPE1V2_IOMMU), 1);
    CHECK_DONE(glint_bench_set_iommu(&empty, GLINT_TYPE1_IOMMU), 0);
    const uint8_t *value;
    size_t length;
    glint_walker walker = glint_walk(NULL, 0);
    CHECK(glint_walker_step(&walker, &value, &length).end);
}

// A null pointer with a length above 0 is refused by the header, and nothing is read or written.
static void null_pointers(void)
{
    fresh_bench();
    const glint_state before = bench.state;
    CHECK_REFUSED(glint_bench_host_write(&bench, glint_memory(0), NULL, 1), GLINT_NULL_POINTER, 0);
    CHECK_REFUSED(glint_bench_host_read(&bench, glint_memory(0), NULL, 1), GLINT_NULL_POINTER, 0);
    CHECK_REFUSED(glint_bench_device_write(&bench, glint_device(0), NULL, 1), GLINT_NULL_POINTER, 0);
    CHECK_REFUSED(glint_bench_device_read(&bench, glint_device(0), NULL, 1), GLINT_NULL_POINTER, 0);
    CHECK_REFUSED(glint_bench_request(&bench, GLINT_DEVICE, GLINT_DEVICE_RESET, NULL, 1), GLINT_NULL_POINTER, 0);
    CHECK_REFUSED(glint_bench_set_register(&bench, GLINT_DEVICE_STATUS, 0, NULL, 1), GLINT_NULL_POINTER, 0);
    CHECK_REFUSED(glint_bench_read_register(&bench, GLINT_DEVICE_STATUS, 0, NULL, 1), GLINT_NULL_POINTER, 0);
    CHECK_REFUSED(glint_bench_load_parts(&bench, NULL, 17), GLINT_NULL_POINTER, 0);
    CHECK_REFUSED(glint_bench_save_parts(&bench, NULL, 64), GLINT_NULL_POINTER, 0);
    bench.records = NULL;
    CHECK_REFUSED(glint_bench_power_on(&bench), GLINT_NULL_POINTER, 0);
    CHECK_REFUSED(glint_bench_reset(&bench), GLINT_NULL_POINTER, 0);
    CHECK_NOT_FOUND(0, GLINT_NULL_POINTER, 0);
    CHECK_REFUSED(device_read(0, 1), GLINT_NULL_POINTER, 0);
    CHECK_REFUSED(glint_bench_set_register(&bench, GLINT_DEVICE_STATUS, 0, "x", 1), GLINT_NULL_POINTER, 0);
    CHECK_REFUSED(glint_bench_read_register(&bench, GLINT_DEVICE_STATUS, 0, fill(&buffer, 1), 1), GLINT_NULL_POINTER, 0);
    CHECK_REFUSED(glint_bench_load_parts(&bench, reset_saved, sizeof reset_saved), GLINT_NULL_POINTER, 0);
    CHECK_REFUSED(glint_bench_save_parts(&bench, fill(&buffer, 64), 64), GLINT_NULL_POINTER, 0);
    CHECK_REFUSED(glint_bench_stop(&bench), GLINT_NULL_POINTER, 0);
    CHECK_REFUSED(glint_bench_start(&bench), GLINT_NULL_POINTER, 0);
    CHECK_BYTES(&bench.state, &before, STATE_BYTES);

    static glint_bench half;
    uint8_t byte = FILLER;
    glint_mapping record;
    CHECK_REFUSED(glint_bench_init(&half, &record, 1, NULL, &byte, 1), GLINT_NULL_POINTER, 0);
    CHECK_REFUSED(glint_bench_init(&half, NULL, 1, &byte, &byte, 1), GLINT_NULL_POINTER, 0);
    CHECK_REFUSED(glint_bench_init(&half, &record, 1, &byte, NULL, 1), GLINT_NULL_POINTER, 0);
    CHECK_REFUSED(glint_bench_invalidate(&half, glint_memory(0), 0), GLINT_NULL_POINTER, 0);
    CHECK_REFUSED(glint_bench_reset(&half), GLINT_NULL_POINTER, 0);
    CHECK(byte == FILLER);

    const uint8_t *value = &byte;
    size_t length = 99;
    glint_walker walker = glint_walk(NULL, 17);
    glint_part_step step = glint_walker_step(&walker, &value, &length);
    CHECK(step.refused && !step.end && step.code == GLINT_NULL_POINTER && step.next == 0);
    CHECK(value == &byte && length == 99 && walker.place == 0);

    // No bytes are the empty stream, of which no byte is wrong and no save is made.
    CHECK(glint_check_stream(NULL, 0) == 0 && glint_check_stream_128(NULL, 0) == 0);
    CHECK(glint_check_stream(NULL, 17) == 0 && glint_check_stream_128(NULL, 17) == 0);
}

// A refused call that fills a struct leaves the caller's as it was.
static void refused_info(void)
{
    fresh_bench();
    glint_iommu_info iommu;
    glint_device_info device;
    glint_region_info region;
    glint_irq_info irq;
    memset(&iommu, FILLER, sizeof iommu);
    memset(&device, FILLER, sizeof device);
    memset(&region, FILLER, sizeof region);
    memset(&irq, FILLER, sizeof irq);
    CHECK_REFUSED(glint_bench_region_info(&bench, 9, &region), GLINT_INDEX, 0);
    CHECK_REFUSED(glint_bench_irq_info(&bench, 4, &irq), GLINT_INDEX, 0);
    bench.state.memory_length++;
    CHECK_REFUSED(glint_bench_iommu_info(&bench, &iommu), GLINT_BAD_BENCH, 0);
    CHECK_REFUSED(glint_bench_device_info(&bench, &device), GLINT_BAD_BENCH, 0);
    CHECK(all_filler((const uint8_t *)&iommu, sizeof iommu) && all_filler((const uint8_t *)&device, sizeof device));
    CHECK(all_filler((const uint8_t *)&region, sizeof region) && all_filler((const uint8_t *)&irq, sizeof irq));
}

// Of the bytes that say whether a register is set and whether the device runs, 1 says yes and every other value no.
static void flag_bytes(void)
{
    fresh_bench();
    bench.state.registers.slots[6].set = 3; // a queue that holds no acceptable value
    bench.state.registers.slots[6].bytes[0] = 3;
    bench.state.running = 255;
    CHECK_DONE(glint_bench_save_parts(&bench, fill(&buffer, 41), 41), 41);
    CHECK_REFUSED(glint_bench_read_register(&bench, GLINT_QUEUE_CONFIG, 0, fill(&buffer, 32), 32), GLINT_UNSET, 0);
    CHECK_DONE(glint_bench_stop(&bench), 0);
    CHECK(bench.state.running == 0 && bench.state.registers.slots[6].set == 3);
    bench.state.registers.slots[6].set = 1;
    CHECK_REFUSED(glint_bench_stop(&bench), GLINT_BAD_BENCH, 0);
    bench.state.registers.slots[6].set = 0;
    bench.state.registers.slots[5].set = 129; // status
    CHECK_REFUSED(glint_bench_start(&bench), GLINT_BAD_BENCH, 0);
}

// The second card: its features have 16 bytes, all else is as the first card's.
static void second_card(void)
{
    fresh_bench();
    CHECK(bench.state.words == 1);
    uint8_t first[GLINT_SAVED_MAX];
    CHECK_DONE(glint_bench_save_parts(&bench, first, sizeof first), 41);

    CHECK_DONE(glint_bench_power_on_128(&bench), 0);
    CHECK(bench.state.words == 2);
    static const uint8_t offered[16] = {0, 0, 0, 0x30, 1, 0, 0, 0, 1};
    CHECK_DONE(glint_bench_read_register(&bench, GLINT_OFFERED_FEATURES, 0, fill(&buffer, 16), 16), 16);
    CHECK(memcmp(fenced_bytes(&buffer), offered, 16) == 0);
    CHECK_DONE(glint_bench_set_register(&bench, GLINT_DRIVER_FEATURES, 0, offered, 16), 0);
    CHECK_REFUSED(glint_bench_set_register(&bench, GLINT_DRIVER_FEATURES, 0, offered, 8), GLINT_VALUE, 0);
    const uint8_t foreign[16] = {0, 0, 0, 0, 0, 0, 0, 0, 2};
    CHECK_REFUSED(glint_bench_set_register(&bench, GLINT_DRIVER_FEATURES, 0, foreign, 16), GLINT_MISMATCH, 0);
    CHECK_REFUSED(glint_bench_load_parts(&bench, first, 41), GLINT_VALUE, 0);
    CHECK_DONE(glint_bench_reset(&bench), 0);
    CHECK(bench.state.words == 2);
    uint8_t second[GLINT_SAVED_MAX];
    CHECK_DONE(glint_bench_save_parts(&bench, second, sizeof second), 49);
    CHECK_DONE(glint_bench_load_parts(&bench, second, 49), 0);

    bench.state.words = 3;
    CHECK_REFUSED(glint_bench_stop(&bench), GLINT_BAD_BENCH, 0);
    static glint_bench another;
    uint8_t byte, mark;
    CHECK_DONE(glint_bench_init_128(&another, NULL, 0, &byte, &mark, 1), 0);
    CHECK_REFUSED(glint_bench_load_parts(&another, first, 41), GLINT_VALUE, 0);
    CHECK_DONE(glint_bench_load_parts(&another, second, 49), 0);
}

static void refusal_names(void)
{
    CHECK(strcmp(glint_refusal_name(GLINT_BAD_BENCH), "BadBench") == 0);
    CHECK(strcmp(glint_refusal_name(GLINT_UNALIGNED), "Unaligned") == 0);
    CHECK(strcmp(glint_refusal_name(GLINT_UNMAPPED), "Unmapped") == 0);
    CHECK(strcmp(glint_refusal_name(GLINT_UNWRITTEN), "Unwritten") == 0);
    CHECK(strcmp(glint_refusal_name(GLINT_TWICE), "Twice") == 0);
    CHECK(strcmp(glint_refusal_name(GLINT_NO_SPACE), "NoSpace") == 0);
    CHECK(strcmp(glint_refusal_name(GLINT_NULL_POINTER), "NullPointer") == 0);
    CHECK(strcmp(glint_refusal_name(GLINT_QUEUE_NOT_READY), "QueueNotReady") == 0);
    CHECK(strcmp(glint_refusal_name(GLINT_RING_DISTANCE), "RingDistance") == 0);
    CHECK(strcmp(glint_refusal_name(GLINT_DESCRIPTOR_INDEX), "DescriptorIndex") == 0);
    CHECK(strcmp(glint_refusal_name(GLINT_CHAIN_LENGTH), "ChainLength") == 0);
    CHECK(strcmp(glint_refusal_name(GLINT_INDIRECT), "Indirect") == 0);
    CHECK(strcmp(glint_refusal_name(GLINT_MAGIC), "Magic") == 0);
    CHECK(strcmp(glint_refusal_name(34), "?") == 0);
}

// Whatever a test did, nothing around records, memory and marks was written.
static void nothing_around_written(void)
{
    CHECK(fence_holds(&memory) && fence_holds(&marks));
    CHECK(all_filler((const uint8_t *)&table.before, sizeof table.before) && stale(bench.records_length, GLINT_RECORDS_LIMIT + 1));
    CHECK(all_filler((const uint8_t *)&table.behind, sizeof table.behind));
}

int main(void)
{
    static const struct test tests[] = {
        TEST(power_on),     TEST(bad_bench),     TEST(container),  TEST(iommu_info),  TEST(map_and_look_up), TEST(table_full),
        TEST(unmap_ranges), TEST(device_reads),  TEST(device_writes), TEST(host_loads), TEST(device_info),   TEST(region_info),
        TEST(irq_info),     TEST(registers),     TEST(save_and_load), TEST(steps),      TEST(no_memory),     TEST(refusal_names),
        TEST(null_pointers), TEST(refused_info), TEST(flag_bytes), TEST(second_card), TEST(packed_marks),    TEST(lent_records),
        TEST(stale_records), TEST(exchanged_records), TEST(bytes_left), TEST(probes), TEST(older_driver),    TEST(set_iommu_types),
        TEST(kept_iommu_type), TEST(unmap_by_type), TEST(stale_records_type1),
    };
    return run_tests(tests, GLINT_COUNT(tests), nothing_around_written);
}
