// What the C tests share: checks that count faults, and the loop over tests. A program defines TEST_FILE, its name, before this.
#ifndef GLINT_TESTS_CHECK_H
#define GLINT_TESTS_CHECK_H

#include <stdio.h>
#include <stdlib.h>
#include <string.h>

#include "glintbasket.h"

static unsigned faults;

static void check(bool holds, const char *what, int line)
{
    if (holds)
        return;
    fprintf(stderr, TEST_FILE ":%d: does not hold: %s\n", line, what);
    faults++;
}

static void check_outcome(glint_outcome is, glint_outcome want, int line)
{
    if (is.refused == want.refused && is.code == want.code && is.place == want.place && is.result == want.result)
        return;
    fprintf(stderr, TEST_FILE ":%d: refused %d code %u (%s) place %llu result %llu, not refused %d code %u (%s) place %llu result %llu\n",
            line, is.refused, is.code, glint_refusal_name(is.code), (unsigned long long)is.place, (unsigned long long)is.result,
            want.refused, want.code, glint_refusal_name(want.code), (unsigned long long)want.place, (unsigned long long)want.result);
    faults++;
}

#define CHECK(condition) check((condition), #condition, __LINE__)
#define CHECK_BYTES(is, want, length) check(memcmp((is), (want), (length)) == 0, #is " is " #want, __LINE__)
#define CHECK_DONE(is, value) check_outcome((is), (glint_outcome){.result = (value)}, __LINE__)
#define CHECK_REFUSED(is, number, at) check_outcome((is), (glint_outcome){.refused = true, .code = (number), .place = (at)}, __LINE__)

// ---- tests

struct test {
    const char *name;
    void (*run)(void);
};

#define TEST(name) {#name, name}

// Runs the tests, each with what must hold behind it. The last line printed is 'N passed, M failed'.
static int run_tests(const struct test *tests, size_t count, void (*behind_each)(void))
{
    size_t failed = 0;
    for (size_t i = 0; i < count; i++) {
        unsigned before = faults;
        tests[i].run();
        behind_each();
        if (faults > before) {
            fprintf(stderr, "failed: %s\n", tests[i].name);
            failed++;
        }
    }
    printf("%zu passed, %zu failed\n", count - failed, failed);
    return failed == 0 ? EXIT_SUCCESS : EXIT_FAILURE;
}

#endif
