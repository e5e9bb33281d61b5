// Interrupt lines from C over the static library, driven by struct vfio_irq_set, flags and numbers of the machine's own <linux/vfio.h>.
// The last line is 'N passed, M failed', over the tests in main.
#include <linux/vfio.h>
#include <sys/ioctl.h>

#define TEST_FILE "interrupts.c"
#include "check.h"

// ---- the kernel's layout and numbers are the emulator's

#define SAME_FIELD(field, offset)                                                                                                       \
    _Static_assert(offsetof(struct vfio_irq_set, field) == (offset) && offsetof(glint_irq_set, field) == (offset) &&                     \
                       sizeof(((struct vfio_irq_set *)0)->field) == sizeof(((glint_irq_set *)0)->field),                                \
                   #field)
#define SAME_FLAG(name) _Static_assert(VFIO_IRQ_SET_##name == GLINT_IRQ_SET_##name, #name)

_Static_assert(_IOC_NR(VFIO_DEVICE_SET_IRQS) == GLINT_DEVICE_SET_IRQS, "number");
_Static_assert(sizeof(struct vfio_irq_set) == 20 && offsetof(struct vfio_irq_set, data) == 20, "size");
SAME_FIELD(argsz, 0);
SAME_FIELD(flags, 4);
SAME_FIELD(index, 8);
SAME_FIELD(start, 12);
SAME_FIELD(count, 16);
SAME_FLAG(DATA_NONE);
SAME_FLAG(DATA_BOOL);
SAME_FLAG(DATA_EVENTFD);
SAME_FLAG(ACTION_MASK);
SAME_FLAG(ACTION_UNMASK);
SAME_FLAG(ACTION_TRIGGER);

enum {
    INTX = VFIO_PCI_INTX_IRQ_INDEX,
    MSI = VFIO_PCI_MSI_IRQ_INDEX,
    MSIX = VFIO_PCI_MSIX_IRQ_INDEX,
    ERR = VFIO_PCI_ERR_IRQ_INDEX,

    NONE = VFIO_IRQ_SET_DATA_NONE,
    BOOL = VFIO_IRQ_SET_DATA_BOOL,
    EVENTFD = VFIO_IRQ_SET_DATA_EVENTFD,
    MASK = VFIO_IRQ_SET_ACTION_MASK,
    UNMASK = VFIO_IRQ_SET_ACTION_UNMASK,
    TRIGGER = VFIO_IRQ_SET_ACTION_TRIGGER,
};

// ---- a bench without memory

static glint_mapping records[1];
static glint_bench bench;

static void fresh_bench(void)
{
    CHECK_DONE(glint_bench_init(&bench, records, GLINT_COUNT(records), NULL, NULL, 0), 0);
}

// The lines of a state, for comparison field by field: a line has padding.
static bool same_lines(const glint_state *one, const glint_state *other)
{
    for (size_t i = 0; i < GLINT_LINES; i++) {
        const glint_line *a = &one->lines[i], *b = &other->lines[i];
        if (a->number != b->number || a->tally != b->tally || a->masked != b->masked || a->pending != b->pending)
            return false;
    }
    return true;
}

static void fill_lines(glint_line line)
{
    for (size_t i = 0; i < GLINT_LINES; i++)
        bench.state.lines[i] = line;
}

static bool all_lines(glint_line line)
{
    glint_state state = bench.state;
    for (size_t i = 0; i < GLINT_LINES; i++)
        state.lines[i] = line;
    return same_lines(&bench.state, &state);
}

static const glint_line disabled = {.number = -1};

// ---- requests and answers

// The kernel's struct with its data behind it. The request writes no byte, and nothing of the state where it is refused.
static glint_outcome request(const struct vfio_irq_set *set, const void *data, size_t length)
{
    static uint8_t buffer[256], before[sizeof buffer];
    const glint_state state = bench.state;
    memset(buffer, 0xa5, sizeof buffer);
    memcpy(buffer, set, sizeof *set);
    if (length)
        memcpy(buffer + sizeof *set, data, length);
    memcpy(before, buffer, sizeof buffer);
    glint_outcome outcome = glint_bench_request(&bench, GLINT_DEVICE, _IOC_NR(VFIO_DEVICE_SET_IRQS), buffer, sizeof *set + length);
    CHECK_BYTES(buffer, before, sizeof buffer);
    if (outcome.refused)
        CHECK(same_lines(&bench.state, &state));
    return outcome;
}

static glint_outcome set_irqs(uint32_t flags, uint32_t index, uint32_t start, uint32_t count, const void *data, size_t length)
{
    struct vfio_irq_set set = {
        .argsz = (uint32_t)(sizeof set + length), .flags = flags, .index = index, .start = start, .count = count};
    return request(&set, data, length);
}

static glint_outcome act(uint32_t action, uint32_t index, uint32_t start, uint32_t count)
{
    return set_irqs(NONE | action, index, start, count, NULL, 0);
}

static glint_outcome store(uint32_t index, uint32_t start, uint32_t count, const int32_t *numbers)
{
    return set_irqs(EVENTFD | TRIGGER, index, start, count, numbers, count * sizeof *numbers);
}

// A shown line's whole answer: of one that is refused, all but the refusal is 0.
static void check_line(uint32_t index, uint32_t line, glint_shown_line want, int at)
{
    glint_shown_line is = glint_bench_show_line(&bench, index, line);
    check_outcome(is.outcome, want.outcome, at);
    if (is.number == want.number && is.masked == want.masked && is.pending == want.pending && is.tally == want.tally)
        return;
    fprintf(stderr, TEST_FILE ":%d: line %u of %u: number %d masked %d pending %d tally %u, not %d, %d, %d and %u\n", at, line, index,
            is.number, is.masked, is.pending, is.tally, want.number, want.masked, want.pending, want.tally);
    faults++;
}

#define CHECK_LINE(index, line, event, is_masked, is_pending, events)                                                                   \
    check_line((index), (line),                                                                                                         \
               (glint_shown_line){.number = (event), .masked = (is_masked), .pending = (is_pending), .tally = (events)}, __LINE__)
#define CHECK_NO_LINE(index, line, refusal)                                                                                             \
    check_line((index), (line), (glint_shown_line){.outcome = {.refused = true, .code = (refusal)}}, __LINE__)

// ---- tests

// A handler on INTx, which is masked as it fires: two events that come while it is masked are one when it unmasks.
static void handler(void)
{
    const int32_t event = 7;
    fresh_bench();
    CHECK_LINE(INTX, 0, -1, false, false, 0);
    CHECK_DONE(store(INTX, 0, 1, &event), 0);
    CHECK_LINE(INTX, 0, 7, false, false, 0);
    CHECK_DONE(act(TRIGGER, INTX, 0, 1), 0);
    CHECK_LINE(INTX, 0, 7, true, false, 1);
    CHECK_DONE(act(UNMASK, INTX, 0, 1), 0);
    CHECK_LINE(INTX, 0, 7, false, false, 1);

    CHECK_DONE(act(MASK, INTX, 0, 1), 0);
    CHECK_DONE(act(TRIGGER, INTX, 0, 1), 0);
    CHECK_DONE(act(TRIGGER, INTX, 0, 1), 0);
    CHECK_LINE(INTX, 0, 7, true, true, 1);
    CHECK_DONE(act(UNMASK, INTX, 0, 1), 0);
    CHECK_LINE(INTX, 0, 7, true, false, 2);
    CHECK_DONE(act(UNMASK, INTX, 0, 1), 0);
    CHECK_LINE(INTX, 0, 7, false, false, 2);
}

// MSI is not masked as it fires. Lines without a number stay as they are, and storing a number clears all else.
static void message_signalled(void)
{
    static const int32_t events[] = {3, -1, 0};
    fresh_bench();
    CHECK_DONE(store(MSI, 5, 3, events), 0);
    CHECK_DONE(act(TRIGGER, MSI, 0, 8), 0);
    CHECK_DONE(act(TRIGGER, MSI, 7, 1), 0);
    CHECK_LINE(MSI, 4, -1, false, false, 0);
    CHECK_LINE(MSI, 5, 3, false, false, 1);
    CHECK_LINE(MSI, 6, -1, false, false, 0);
    CHECK_LINE(MSI, 7, 0, false, false, 2);
    CHECK_DONE(store(MSI, 7, 1, events + 1), 0);
    CHECK_LINE(MSI, 7, -1, false, false, 0);
    CHECK_DONE(store(MSI, 5, 1, events), 0);
    CHECK_LINE(MSI, 5, 3, false, false, 0);
    CHECK(bench.state.lines[1 + 5].number == 3);
}

static void refusals_in_order(void)
{
    static const int32_t low[] = {-2, -2};
    static const struct {
        uint32_t flags, index, start, count, code;
    } cases[] = {
        // Flags that are not one kind of data and one action, before the index.
        {0, 9, 99, 0, GLINT_FLAGS},
        {NONE, 9, 99, 0, GLINT_FLAGS},
        {TRIGGER, 9, 99, 0, GLINT_FLAGS},
        {NONE | BOOL | TRIGGER, 9, 99, 0, GLINT_FLAGS},
        {NONE | MASK | TRIGGER, 9, 99, 0, GLINT_FLAGS},
        {NONE | TRIGGER | 64, 9, 99, 0, GLINT_FLAGS},
        {NONE | TRIGGER | 0x80000000, 9, 99, 0, GLINT_FLAGS},
        // Event numbers are for trigger alone, also before the index.
        {EVENTFD | MASK, 9, 99, 0, GLINT_FLAGS},
        {EVENTFD | UNMASK, INTX, 0, 1, GLINT_FLAGS},
        // The index, before whether it is maskable.
        {NONE | MASK, 4, 99, 0, GLINT_INDEX},
        {BOOL | TRIGGER, UINT32_MAX, 99, 0, GLINT_INDEX},
        // Only INTx is maskable; before the range.
        {NONE | MASK, MSI, 99, 0, GLINT_FLAGS},
        {BOOL | UNMASK, MSIX, 99, 0, GLINT_FLAGS},
        {NONE | MASK, ERR, 99, 0, GLINT_FLAGS},
        // The range, before an empty one.
        {BOOL | TRIGGER, MSI, 9, 0, GLINT_RANGE},
        {NONE | TRIGGER, MSI, 9, 0, GLINT_RANGE},
        {EVENTFD | TRIGGER, MSI, 1, 8, GLINT_RANGE},
        {NONE | MASK, INTX, 1, 1, GLINT_RANGE},
        {NONE | TRIGGER, ERR, 0, 1, GLINT_RANGE},
        // start + count as 32 bits would be 1.
        {NONE | TRIGGER, MSI, UINT32_MAX, 2, GLINT_RANGE},
        {NONE | TRIGGER, MSI, 2, UINT32_MAX, GLINT_RANGE},
        // No line, before the data.
        {BOOL | TRIGGER, MSI, 8, 0, GLINT_EMPTY},
        {EVENTFD | TRIGGER, MSI, 0, 0, GLINT_EMPTY},
        {NONE | UNMASK, INTX, 0, 0, GLINT_EMPTY},
        {EVENTFD | TRIGGER, ERR, 0, 0, GLINT_EMPTY},
        // Too few data, before what they are.
        {EVENTFD | TRIGGER, MSI, 0, 3, GLINT_ARG_SIZE},
        {BOOL | TRIGGER, MSIX, 0, 9, GLINT_ARG_SIZE},
        {EVENTFD | TRIGGER, MSI, 0, 2, GLINT_VALUE},
    };
    fresh_bench();
    for (size_t i = 0; i < GLINT_COUNT(cases); i++)
        CHECK_REFUSED(set_irqs(cases[i].flags, cases[i].index, cases[i].start, cases[i].count, low, sizeof low), cases[i].code, 0);
    CHECK(all_lines(disabled));
}

// argsz is the bytes that count: at least the size, at most the buffer, and as many as the data take, of which more may lie there.
static void argument_size(void)
{
    static const int32_t events[] = {1, 2};
    struct vfio_irq_set set = {.flags = EVENTFD | TRIGGER, .index = MSI, .count = 2};
    fresh_bench();
    static const uint32_t wrong[] = {0, 19, 20, 27, 29, UINT32_MAX};
    for (size_t i = 0; i < GLINT_COUNT(wrong); i++) {
        set.argsz = wrong[i];
        CHECK_REFUSED(request(&set, events, sizeof events), GLINT_ARG_SIZE, 0);
    }
    set.argsz = 28;
    CHECK_DONE(request(&set, events, sizeof events), 0);
    set.argsz = 20;
    set.flags = NONE | TRIGGER;
    CHECK_DONE(request(&set, events, sizeof events), 0);
    CHECK_LINE(MSI, 0, 1, false, false, 1);
    CHECK_LINE(MSI, 1, 2, false, false, 1);
    uint8_t shorter[19] = {20};
    CHECK_REFUSED(glint_bench_request(&bench, GLINT_DEVICE, GLINT_DEVICE_SET_IRQS, shorter, sizeof shorter), GLINT_SHORT, 0);
    CHECK_REFUSED(glint_bench_request(&bench, GLINT_CONTAINER, GLINT_DEVICE_SET_IRQS, shorter, sizeof shorter), GLINT_NO_SUCH_REQUEST, 0);
}

// Each byte but 0 means its line, not 1 alone.
static void bytes_select(void)
{
    static const int32_t events[] = {0, 1, 2, 3};
    static const uint8_t bytes[] = {2, 0, 255, 1};
    fresh_bench();
    CHECK_DONE(store(MSIX, 12, 4, events), 0);
    CHECK_DONE(set_irqs(BOOL | TRIGGER, MSIX, 12, 4, bytes, sizeof bytes), 0);
    for (uint32_t i = 0; i < GLINT_COUNT(bytes); i++)
        CHECK_LINE(MSIX, 12 + i, events[i], false, false, bytes[i] != 0);
}

// A later number below -1: the lines before it keep what they had.
static void later_number(void)
{
    static const int32_t good[] = {1, 2, 3}, bad[] = {4, -1, INT32_MIN};
    fresh_bench();
    CHECK_DONE(store(MSI, 0, 3, good), 0);
    CHECK_REFUSED(store(MSI, 0, 3, bad), GLINT_VALUE, 0);
    for (uint32_t i = 0; i < GLINT_COUNT(good); i++)
        CHECK_LINE(MSI, i, good[i], false, false, 0);
    // Of fewer lines, it is not looked at.
    CHECK_DONE(set_irqs(EVENTFD | TRIGGER, MSI, 0, 2, bad, sizeof bad), 0);
    CHECK_LINE(MSI, 0, 4, false, false, 0);
    CHECK_LINE(MSI, 2, 3, false, false, 0);
}

// An index is disabled as a whole, wherever start is.
static void disables(void)
{
    static const uint32_t starts[] = {0, 3, 8};
    const glint_line any = {.number = 5, .tally = 9, .masked = 1, .pending = 1};
    fresh_bench();
    for (size_t i = 0; i < GLINT_COUNT(starts); i++) {
        fill_lines(any);
        CHECK_DONE(act(TRIGGER, MSI, starts[i], 0), 0);
        for (uint32_t line = 0; line < 8; line++)
            CHECK_LINE(MSI, line, -1, false, false, 0);
        CHECK_LINE(INTX, 0, 5, true, true, 9);
        CHECK_LINE(MSIX, 0, 5, true, true, 9);
    }
    fill_lines(any);
    CHECK_DONE(act(TRIGGER, ERR, 0, 0), 0);
    CHECK(all_lines(any));
    CHECK_REFUSED(act(TRIGGER, ERR, 1, 0), GLINT_RANGE, 0);
}

// A reset and a fresh start disable all lines; loading, saving, stopping and setting the status none.
static void what_keeps_lines(void)
{
    const glint_line any = {.number = 5, .tally = 9, .masked = 1, .pending = 1};
    uint8_t saved[GLINT_SAVED_MAX];
    fresh_bench();
    fill_lines(any);
    CHECK_DONE(glint_bench_save_parts(&bench, saved, sizeof saved), 41);
    CHECK_DONE(glint_bench_load_parts(&bench, saved, 41), 0);
    CHECK_DONE(glint_bench_set_register(&bench, GLINT_DEVICE_STATUS, 0, "", 1), 0);
    CHECK_DONE(glint_bench_start(&bench), 0);
    CHECK_DONE(glint_bench_stop(&bench), 0);
    CHECK(all_lines(any));
    CHECK_DONE(glint_bench_reset(&bench), 0);
    CHECK(all_lines(disabled));
    fill_lines(any);
    CHECK_DONE(glint_bench_power_on(&bench), 0);
    CHECK(all_lines(disabled));
    fill_lines(any);
    CHECK_DONE(glint_bench_power_on_128(&bench), 0);
    CHECK(all_lines(disabled));
}

// Lines of any values are sound, and are shown and acted on as they are.
static void kept_lines(void)
{
    fresh_bench();
    bench.state.lines[0] = (glint_line){.number = -1, .tally = 9, .masked = 1, .pending = 1};
    CHECK_LINE(INTX, 0, -1, true, true, 9);
    CHECK_DONE(act(UNMASK, INTX, 0, 1), 0);
    CHECK_DONE(act(TRIGGER, INTX, 0, 1), 0);
    CHECK_LINE(INTX, 0, -1, true, true, 9);
    // Pending without a mask: unmask triggers, a trigger leaves it pending.
    bench.state.lines[0] = (glint_line){.number = INT32_MAX, .tally = UINT32_MAX, .pending = 1};
    CHECK_DONE(act(UNMASK, INTX, 0, 1), 0);
    CHECK_LINE(INTX, 0, INT32_MAX, true, false, 0);
    bench.state.lines[1] = (glint_line){.number = 0, .tally = UINT32_MAX, .pending = 1};
    CHECK_DONE(act(TRIGGER, MSI, 0, 1), 0);
    CHECK_LINE(MSI, 0, 0, false, true, 0);
    // A mask on an index that is not maskable.
    bench.state.lines[24] = (glint_line){.number = 4, .masked = 1};
    CHECK_DONE(act(TRIGGER, MSIX, 15, 1), 0);
    CHECK_LINE(MSIX, 15, 4, true, true, 0);
    // Of the flags 1 says yes, and every other byte no; a byte stays until a call writes it.
    bench.state.lines[2] = (glint_line){.number = 4, .masked = 255, .pending = 2};
    CHECK_LINE(MSI, 1, 4, false, false, 0);
    CHECK_DONE(act(TRIGGER, MSI, 1, 1), 0);
    CHECK_LINE(MSI, 1, 4, false, false, 1);
    CHECK(bench.state.lines[2].masked == 255 && bench.state.lines[2].pending == 2);
}

// A number below -1, in any line, is not sound, and nothing but a fresh start is done with it.
static void unsound_lines(void)
{
    static const int32_t numbers[] = {-2, INT32_MIN};
    static const size_t places[] = {0, 1, 8, 9, 24};
    for (size_t i = 0; i < GLINT_COUNT(numbers); i++) {
        for (size_t j = 0; j < GLINT_COUNT(places); j++) {
            fresh_bench();
            bench.state.lines[places[j]].number = numbers[i];
            CHECK_NO_LINE(INTX, 0, GLINT_BAD_BENCH);
            CHECK_NO_LINE(9, 9, GLINT_BAD_BENCH);
            CHECK_REFUSED(act(TRIGGER, MSI, 0, 0), GLINT_BAD_BENCH, 0);
            CHECK_REFUSED(glint_bench_reset(&bench), GLINT_BAD_BENCH, 0);
            CHECK_REFUSED(glint_bench_stop(&bench), GLINT_BAD_BENCH, 0);
            CHECK_REFUSED(glint_bench_host_write(&bench, glint_memory(0), NULL, 0), GLINT_BAD_BENCH, 0);
            CHECK(glint_bench_look_up(&bench, glint_device(0)).outcome.code == GLINT_BAD_BENCH);
            CHECK(bench.state.lines[places[j]].number == numbers[i]);
            CHECK_DONE(glint_bench_power_on(&bench), 0);
            CHECK(all_lines(disabled));
        }
    }
}

static void shown_lines(void)
{
    static const uint32_t counts[] = {1, 8, 16, 0};
    fresh_bench();
    // Each line has a place of its own, one index behind the other.
    for (size_t i = 0; i < GLINT_LINES; i++)
        bench.state.lines[i].number = (int32_t)i;
    int32_t number = 0;
    for (uint32_t index = 0; index < GLINT_COUNT(counts); index++) {
        for (uint32_t line = 0; line < counts[index]; line++)
            CHECK_LINE(index, line, number++, false, false, 0);
        CHECK_NO_LINE(index, counts[index], GLINT_INDEX);
        CHECK_NO_LINE(index, UINT32_MAX, GLINT_INDEX);
    }
    CHECK(number == GLINT_LINES);
    CHECK_NO_LINE(4, 0, GLINT_INDEX);
    CHECK_NO_LINE(UINT32_MAX, 0, GLINT_INDEX);
}

// The functions of the second half of the header.
static void conveniences(void)
{
    static const int32_t events[17] = {10, 11, 12, 13, 14, 15, 16, 17, 18, 19, 20, 21, 22, 23, 24, 25, -2};
    static const uint8_t bytes[] = {1, 0, 1};
    fresh_bench();
    CHECK_DONE(glint_bench_set_events(&bench, MSIX, 0, events, 16), 0);
    CHECK_LINE(MSIX, 0, 10, false, false, 0);
    CHECK_LINE(MSIX, 15, 25, false, false, 0);
    CHECK_REFUSED(glint_bench_set_events(&bench, MSIX, 0, events, 17), GLINT_RANGE, 0);
    CHECK_REFUSED(glint_bench_set_events(&bench, MSIX, 15, events + 16, 1), GLINT_VALUE, 0);
    CHECK_REFUSED(glint_bench_set_events(&bench, MSIX, 0, events, 0), GLINT_EMPTY, 0);
    CHECK_DONE(glint_bench_set_irqs(&bench, GLINT_IRQ_SET_DATA_BOOL | GLINT_IRQ_SET_ACTION_TRIGGER, MSIX, 1, 3, bytes, 3), 0);
    CHECK_LINE(MSIX, 1, 11, false, false, 1);
    CHECK_LINE(MSIX, 2, 12, false, false, 0);
    CHECK_LINE(MSIX, 3, 13, false, false, 1);
    CHECK_REFUSED(glint_bench_set_irqs(&bench, BOOL | TRIGGER, MSIX, 0, 4, bytes, 3), GLINT_ARG_SIZE, 0);
    CHECK_DONE(glint_bench_disable_irqs(&bench, MSIX), 0);
    CHECK(all_lines(disabled));
    CHECK_REFUSED(glint_bench_disable_irqs(&bench, 4), GLINT_INDEX, 0);

    CHECK_REFUSED(glint_bench_set_events(&bench, MSI, 0, NULL, 1), GLINT_NULL_POINTER, 0);
    CHECK_REFUSED(glint_bench_set_irqs(&bench, BOOL | TRIGGER, MSI, 0, 1, NULL, 1), GLINT_NULL_POINTER, 0);
    bench.records = NULL;
    CHECK_NO_LINE(MSI, 0, GLINT_NULL_POINTER);
    CHECK_REFUSED(glint_bench_disable_irqs(&bench, MSI), GLINT_NULL_POINTER, 0);
    CHECK(all_lines(disabled));
}

// Whatever a test did, it changed neither the record nor the table.
static void no_mapping_made(void)
{
    static const glint_mapping untouched;
    CHECK(bench.state.count == 0);
    CHECK_BYTES(records, &untouched, sizeof records);
}

int main(void)
{
    static const struct test tests[] = {
        TEST(handler),          TEST(message_signalled), TEST(refusals_in_order), TEST(argument_size), TEST(bytes_select),
        TEST(later_number),     TEST(disables),          TEST(what_keeps_lines),  TEST(kept_lines),    TEST(unsound_lines),
        TEST(shown_lines),      TEST(conveniences),
    };
    return run_tests(tests, GLINT_COUNT(tests), no_mapping_made);
}
