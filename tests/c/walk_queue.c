// Walks of a split virtqueue from C over the static library, on rings built of the structs and flags of the machine's own
// <linux/virtio_ring.h>. The last line is 'N passed, M failed', over the tests in main.
#include <linux/virtio_ring.h>

#define TEST_FILE "walk_queue.c"
#include "check.h"

// ---- the kernel's layout and numbers are the emulator's

_Static_assert(sizeof(struct vring_desc) == 16, "descriptor");
_Static_assert(offsetof(struct vring_desc, len) == 8 && offsetof(struct vring_desc, flags) == 12 && offsetof(struct vring_desc, next) == 14,
               "descriptor");
_Static_assert(offsetof(struct vring_avail, idx) == 2 && offsetof(struct vring_avail, ring) == 4, "ring");
_Static_assert(VRING_DESC_F_NEXT == GLINT_DESCRIPTOR_NEXT && VRING_DESC_F_WRITE == GLINT_DESCRIPTOR_WRITE &&
                   VRING_DESC_F_INDIRECT == GLINT_DESCRIPTOR_INDIRECT,
               "flags");

enum { NEXT = VRING_DESC_F_NEXT, WRITE = VRING_DESC_F_WRITE, INDIRECT = VRING_DESC_F_INDIRECT };

// ---- a bench of two pages: descriptors in the first, the driver's ring in the second

enum { PAGE = 4096, DEVICE = 0x10000, RING = PAGE, QUEUE = 2, FILLER = 0xa5 };

#define STALE UINT64_C(0xa5a5a5a5a5a5a5a5)

static glint_mapping records[2];
static uint8_t memory[2 * PAGE], marks[GLINT_MARKS(2 * PAGE)];
static glint_bench bench;

// The array, with a number on each side that nobody may write: the library is not built with the sanitizer.
static uint64_t all_numbers[1 + GLINT_WALKED_MAX + 1];
static uint64_t *const numbers = all_numbers + 1;

static void set_queue(uint16_t size, uint16_t enabled, uint64_t descriptors, uint64_t driver)
{
    const glint_queue_config config = {
        .size = size, .enabled = enabled, .descriptors = glint_device(descriptors), .driver = glint_device(driver)};
    CHECK_DONE(glint_bench_set_register(&bench, GLINT_QUEUE_CONFIG, QUEUE, &config, sizeof config), 0);
}

// Two pages for the device to read, of which nobody wrote a byte, and a queue of this size.
static void fresh_queue(uint16_t size)
{
    memset(memory, FILLER, sizeof memory);
    CHECK_DONE(glint_bench_init(&bench, records, GLINT_COUNT(records), memory, marks, sizeof memory), 0);
    CHECK_DONE(glint_bench_map(&bench, glint_memory(0), glint_device(DEVICE), sizeof memory, GLINT_READ), 0);
    set_queue(size, 1, DEVICE, DEVICE + RING);
}

static void store(uint64_t address, const void *bytes, size_t length)
{
    CHECK_DONE(glint_bench_host_write(&bench, glint_memory(address), bytes, length), 0);
}

// Descriptor i is a buffer of 100 + i bytes at 2^48 + i, which no mapping shows.
static void describe(uint16_t i, uint16_t flags, uint16_t next)
{
    const struct vring_desc desc = {.addr = GLINT_DEVICE_LIMIT + i, .len = 100u + i, .flags = flags, .next = next};
    store(i * sizeof desc, &desc, sizeof desc);
}

static void set_index(uint16_t index)
{
    store(RING + offsetof(struct vring_avail, idx), &index, sizeof index);
}

static void set_head(uint16_t place, uint16_t head)
{
    store(RING + offsetof(struct vring_avail, ring) + place * sizeof head, &head, sizeof head);
}

// ---- walks and answers

static bool all_stale(size_t from, size_t to)
{
    for (size_t i = from; i < to; i++)
        if (numbers[i] != STALE)
            return false;
    return true;
}

// A walk of QUEUE into so many numbers. A refused one, and the numbers behind the buffers of another, leave what was there.
static glint_walked walk(uint16_t last, size_t room)
{
    const glint_bench before = bench;
    for (size_t i = 0; i < GLINT_COUNT(all_numbers); i++)
        all_numbers[i] = STALE;
    glint_walked walked = glint_bench_walk_queue(&bench, QUEUE, last, numbers, room);
    size_t written = walked.outcome.refused ? 0 : GLINT_BUFFER_NUMBERS * (size_t)walked.outcome.result;
    CHECK(written <= room && all_stale(written, GLINT_WALKED_MAX + 1) && all_numbers[0] == STALE);
    CHECK_BYTES(&bench, &before, offsetof(glint_bench, state) + offsetof(glint_state, lines));
    return walked;
}

static void check_walked(glint_walked is, uint64_t buffers, uint16_t index, int line)
{
    check_outcome(is.outcome, (glint_outcome){.result = buffers}, line);
    check(is.index == index, "the ring's index", line);
}

static void check_refused(glint_walked is, uint32_t code, uint64_t place, int line)
{
    check_outcome(is.outcome, (glint_outcome){.refused = true, .code = code, .place = place}, line);
    check(is.index == 0, "no index", line);
}

#define CHECK_WALKED(last, buffers, ring_index) check_walked(walk((last), GLINT_WALKED_MAX), (buffers), (ring_index), __LINE__)
#define CHECK_NOT_WALKED(last, number, at) check_refused(walk((last), GLINT_WALKED_MAX), (number), (at), __LINE__)

// Whether the buffer at a place of the last walk is that of a descriptor.
static bool is_buffer(size_t place, uint16_t descriptor, uint16_t flags)
{
    glint_buffer buffer = glint_walked_buffer(numbers, place);
    return buffer.address.value == GLINT_DEVICE_LIMIT + descriptor && buffer.length == 100u + descriptor && buffer.flags == flags &&
           numbers[3 * place + 1] == buffer.length && numbers[3 * place + 2] == flags;
}

// ---- tests

// Two heads, the first with a chain of two. All 16 bits of flags come back, and next of a chain's last descriptor may be any.
static void heads_and_chains(void)
{
    fresh_queue(4);
    describe(2, NEXT, 0);
    describe(0, 0xfff8 | WRITE, 9);
    describe(3, 0, 0xffff);
    set_head(0, 2);
    set_head(1, 3);
    set_index(2);
    CHECK_WALKED(0, 3, 2);
    CHECK(is_buffer(0, 2, NEXT) && is_buffer(1, 0, 0xfff8 | WRITE) && is_buffer(2, 3, 0));
    CHECK_WALKED(1, 1, 2);
    CHECK(is_buffer(0, 3, 0));
    CHECK_WALKED(2, 0, 2);
    CHECK_DONE(glint_bench_start(&bench), 0);
    CHECK_WALKED(0, 3, 2);
}

static void indices_wrap(void)
{
    fresh_queue(2);
    describe(0, 0, 0);
    describe(1, 0, 0);
    set_head(0, 0);
    set_head(1, 1);
    set_index(1);
    CHECK_WALKED(65535, 2, 1);
    CHECK(is_buffer(0, 1, 0) && is_buffer(1, 0, 0));
    CHECK_NOT_WALKED(65534, GLINT_RING_DISTANCE, 0);
    CHECK_NOT_WALKED(2, GLINT_RING_DISTANCE, 0);
    CHECK_NOT_WALKED(32769, GLINT_RING_DISTANCE, 0);
    set_index(65535);
    CHECK_WALKED(65533, 2, 65535);
    CHECK_NOT_WALKED(0, GLINT_RING_DISTANCE, 0);
}

// As many descriptors as the queue has are good. Of one descriptor indirect comes before too long, and that before a wrong next.
static void chain_length(void)
{
    fresh_queue(4);
    for (uint16_t i = 0; i < 3; i++)
        describe(i, NEXT, i + 1);
    describe(3, 0, 0);
    set_head(0, 0);
    set_index(1);
    CHECK_WALKED(0, 4, 1);
    describe(3, NEXT, 0);
    CHECK_NOT_WALKED(0, GLINT_CHAIN_LENGTH, 0);
    describe(3, NEXT, 4);
    CHECK_NOT_WALKED(0, GLINT_CHAIN_LENGTH, 0);
    describe(3, NEXT | INDIRECT, 4);
    CHECK_NOT_WALKED(0, GLINT_INDIRECT, 0);
    describe(3, INDIRECT, 0);
    CHECK_NOT_WALKED(0, GLINT_INDIRECT, 0);
    describe(2, NEXT, 4);
    CHECK_NOT_WALKED(0, GLINT_DESCRIPTOR_INDEX, 0);
}

// The place of 30, 31 and 32 counts heads, and neither descriptors nor indices.
static void heads_finished(void)
{
    fresh_queue(4);
    describe(0, NEXT, 1);
    describe(1, 0, 0);
    for (uint16_t place = 0; place < 4; place++)
        set_head(place, 0);
    set_head(2, 4);
    set_index(11);
    CHECK_NOT_WALKED(8, GLINT_DESCRIPTOR_INDEX, 2);
    CHECK_NOT_WALKED(10, GLINT_DESCRIPTOR_INDEX, 0);
    set_head(2, 3);
    describe(3, NEXT, 0xffff);
    CHECK_NOT_WALKED(8, GLINT_DESCRIPTOR_INDEX, 2);
    describe(3, NEXT, 3);
    CHECK_NOT_WALKED(8, GLINT_CHAIN_LENGTH, 2);
    describe(3, INDIRECT, 3);
    CHECK_NOT_WALKED(8, GLINT_INDIRECT, 2);
    describe(3, 0, 0);
    CHECK_WALKED(8, 5, 11);
}

static void queue_not_ready(void)
{
    static const uint32_t none[] = {4, 5, 0x100 + QUEUE, UINT32_MAX};
    fresh_queue(4);
    set_index(0);
    CHECK_WALKED(0, 0, 0);
    for (size_t i = 0; i < GLINT_COUNT(none); i++)
        check_refused(glint_bench_walk_queue(&bench, none[i], 0, numbers, 0), GLINT_INDEX, 0, __LINE__);
    for (uint32_t queue = 0; queue < 4; queue++)
        if (queue != QUEUE)
            check_refused(glint_bench_walk_queue(&bench, queue, 0, numbers, 0), GLINT_QUEUE_NOT_READY, 0, __LINE__);
    set_queue(4, 0, DEVICE, DEVICE + RING);
    CHECK_NOT_WALKED(0, GLINT_QUEUE_NOT_READY, 0);
    set_queue(0, 0, DEVICE, DEVICE + RING);
    CHECK_NOT_WALKED(0, GLINT_QUEUE_NOT_READY, 0);
    set_queue(4, 1, DEVICE, DEVICE + RING);
    // 1 says that a register is set, and no other value does; what it holds is not looked at then.
    bench.state.registers.slots[6 + QUEUE].set = 255;
    CHECK_NOT_WALKED(0, GLINT_QUEUE_NOT_READY, 0);
    bench.state.registers.slots[6 + QUEUE].set = 1;
    CHECK_WALKED(0, 0, 0);
    CHECK_DONE(glint_bench_reset(&bench), 0);
    CHECK_NOT_WALKED(0, GLINT_QUEUE_NOT_READY, 0);
}

// A byte that cannot be read is told by its device address. The ring's flags, and heads that are not taken, need not be written.
static void faulty_bytes(void)
{
    const uint8_t low = 1;
    fresh_queue(4);
    CHECK_NOT_WALKED(0, GLINT_UNWRITTEN, DEVICE + RING + 2);
    store(RING + 2, &low, 1);
    CHECK_NOT_WALKED(0, GLINT_UNWRITTEN, DEVICE + RING + 3);
    set_index(1);
    CHECK_NOT_WALKED(0, GLINT_UNWRITTEN, DEVICE + RING + 4);
    set_head(0, 3);
    CHECK_NOT_WALKED(0, GLINT_UNWRITTEN, DEVICE + 48);
    describe(3, 0, 0);
    CHECK_WALKED(0, 1, 1);
    CHECK(!glint_bench_is_written(&bench, glint_memory(RING)) && !glint_bench_is_written(&bench, glint_memory(RING + 6)));
    // A head is read when the chain before it is finished.
    set_index(2);
    CHECK_NOT_WALKED(0, GLINT_UNWRITTEN, DEVICE + RING + 6);
    describe(3, INDIRECT, 0);
    CHECK_NOT_WALKED(0, GLINT_INDIRECT, 0);
    describe(3, 0, 0);
    set_index(1);
    CHECK_DONE(glint_bench_invalidate(&bench, glint_memory(62), 2), 0);
    CHECK_NOT_WALKED(0, GLINT_UNWRITTEN, DEVICE + 62);

    set_queue(4, 1, DEVICE + 2 * PAGE - 32, DEVICE + RING);
    CHECK_NOT_WALKED(0, GLINT_UNMAPPED, DEVICE + 2 * PAGE + 16);
    CHECK_DONE(glint_bench_unmap(&bench, glint_device(DEVICE), 2 * PAGE, NULL), 0);
    CHECK_NOT_WALKED(0, GLINT_UNMAPPED, DEVICE + RING + 2);
    CHECK_DONE(glint_bench_map(&bench, glint_memory(0), glint_device(DEVICE), 2 * PAGE, GLINT_WRITE), 0);
    CHECK_NOT_WALKED(0, GLINT_NO_RIGHT, DEVICE + RING + 2);
}

// Where a read begins is a whole number: no sum wraps, and a place is 2^64 - 1 at most.
static void past_the_end(void)
{
    static const struct {
        uint64_t driver, place;
        uint32_t code;
    } rings[] = {
        {GLINT_DEVICE_LIMIT - 4, GLINT_DEVICE_LIMIT - 2, GLINT_UNMAPPED},
        {GLINT_DEVICE_LIMIT - 2, GLINT_DEVICE_LIMIT, GLINT_RANGE},
        {UINT64_MAX - 3, UINT64_MAX - 1, GLINT_RANGE},
        {UINT64_MAX - 1, UINT64_MAX, GLINT_RANGE},
    };
    static const struct {
        uint64_t descriptors, place;
        uint32_t code;
    } tables[] = {
        {GLINT_DEVICE_LIMIT - 64, GLINT_DEVICE_LIMIT - 16, GLINT_UNMAPPED},
        {GLINT_DEVICE_LIMIT - 48, GLINT_DEVICE_LIMIT, GLINT_RANGE},
        {UINT64_MAX - 63, UINT64_MAX - 15, GLINT_RANGE},
        {UINT64_MAX - 47, UINT64_MAX, GLINT_RANGE},
        {UINT64_MAX - 15, UINT64_MAX, GLINT_RANGE},
    };
    fresh_queue(4);
    for (size_t i = 0; i < GLINT_COUNT(rings); i++) {
        set_queue(4, 1, DEVICE, rings[i].driver);
        CHECK_NOT_WALKED(0, rings[i].code, rings[i].place);
    }
    set_head(0, 3);
    set_index(1);
    for (size_t i = 0; i < GLINT_COUNT(tables); i++) {
        set_queue(4, 1, tables[i].descriptors, DEVICE + RING);
        CHECK_NOT_WALKED(0, tables[i].code, tables[i].place);
    }
}

// Room is asked for last. walk() sees to it that nothing is written then.
static void room(void)
{
    fresh_queue(2);
    describe(0, NEXT, 1);
    describe(1, 0, 0);
    set_head(0, 0);
    set_index(1);
    check_walked(walk(0, 6), 2, 1, __LINE__);
    check_walked(walk(0, 7), 2, 1, __LINE__);
    check_refused(walk(0, 5), GLINT_NO_SPACE, 0, __LINE__);
    check_refused(walk(0, 0), GLINT_NO_SPACE, 0, __LINE__);
    check_walked(walk(1, 0), 0, 1, __LINE__);
    describe(1, NEXT, 2);
    check_refused(walk(0, 0), GLINT_CHAIN_LENGTH, 0, __LINE__);
    check_refused(walk(0, 5), GLINT_CHAIN_LENGTH, 0, __LINE__);
}

// Every head of the largest queue leads through all of its descriptors.
static void longest_walk(void)
{
    fresh_queue(GLINT_QUEUE_MAX);
    for (uint16_t i = 0; i < GLINT_QUEUE_MAX; i++) {
        describe(i, i < GLINT_QUEUE_MAX - 1 ? NEXT : 0, i + 1);
        set_head(i, 0);
    }
    set_index(GLINT_QUEUE_MAX);
    CHECK_WALKED(0, GLINT_WALKED_MAX / GLINT_BUFFER_NUMBERS, GLINT_QUEUE_MAX);
    CHECK(is_buffer(0, 0, NEXT) && is_buffer(GLINT_QUEUE_MAX * GLINT_QUEUE_MAX - 1, GLINT_QUEUE_MAX - 1, 0));
    check_refused(walk(0, GLINT_WALKED_MAX - 1), GLINT_NO_SPACE, 0, __LINE__);
}

// Nothing is walked on what does not fit; a null pointer is for no number.
static void bad_bench_and_null_pointers(void)
{
    fresh_queue(4);
    set_index(0);
    bench.marks_length--;
    CHECK_NOT_WALKED(0, GLINT_BAD_BENCH, 0);
    bench.marks_length++;
    bench.state.words = 3;
    check_refused(glint_bench_walk_queue(&bench, 9, 0, NULL, 0), GLINT_BAD_BENCH, 0, __LINE__);
    bench.state.words = 2;
    CHECK_WALKED(0, 0, 0);
    check_walked(glint_bench_walk_queue(&bench, QUEUE, 0, NULL, 0), 0, 0, __LINE__);
    check_refused(glint_bench_walk_queue(&bench, QUEUE, 0, NULL, 1), GLINT_NULL_POINTER, 0, __LINE__);
    glint_bench none = bench;
    none.records = NULL;
    check_refused(glint_bench_walk_queue(&none, QUEUE, 0, numbers, 1), GLINT_NULL_POINTER, 0, __LINE__);
    none = bench;
    none.memory = NULL;
    check_refused(glint_bench_walk_queue(&none, QUEUE, 0, numbers, 1), GLINT_NULL_POINTER, 0, __LINE__);
    none = bench;
    none.marks = NULL;
    check_refused(glint_bench_walk_queue(&none, QUEUE, 0, numbers, 1), GLINT_NULL_POINTER, 0, __LINE__);
}

// Whatever a test did, nothing around the array was written.
static void nothing_around_written(void)
{
    CHECK(all_numbers[0] == STALE && all_numbers[GLINT_COUNT(all_numbers) - 1] == STALE);
}

int main(void)
{
    static const struct test tests[] = {
        TEST(heads_and_chains), TEST(indices_wrap), TEST(chain_length), TEST(heads_finished), TEST(queue_not_ready),
        TEST(faulty_bytes),     TEST(past_the_end), TEST(room),         TEST(longest_walk),   TEST(bad_bench_and_null_pointers),
    };
    return run_tests(tests, GLINT_COUNT(tests), nothing_around_written);
}
