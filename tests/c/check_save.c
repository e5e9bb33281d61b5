// Says of a file whether it is a save, as a program that gets saves from others would: the answer yes, or the place of the first byte
// that no save has there and what stands there. Exit status 0 for yes, 1 for no, 2 where the file cannot be read.
#include <errno.h>
#include <stdio.h>
#include <stdlib.h>

#include "glintbasket.h"

// A save is short: of a longer file these bytes tell as much as all of it.
enum { ENOUGH = GLINT_SAVED_MAX + 1 };

int main(int count, char **words)
{
    const bool second = count == 3 && strcmp(words[1], "--128") == 0;
    if (count != (second ? 3 : 2)) {
        fprintf(stderr, "usage: %s [--128] FILE\n", words[0]);
        return 2;
    }
    const char *name = words[count - 1];
    FILE *file = fopen(name, "rb");
    if (!file) {
        fprintf(stderr, "%s: %s\n", name, strerror(errno));
        return 2;
    }
    // An empty file is a null pointer and length 0.
    uint8_t bytes[ENOUGH];
    size_t length = fread(bytes, 1, sizeof bytes, file);
    if (ferror(file)) {
        fprintf(stderr, "%s: cannot be read\n", name);
        fclose(file);
        return 2;
    }
    fclose(file);
    const uint8_t *stream = length > 0 ? bytes : NULL;
    uint64_t answer = second ? glint_check_stream_128(stream, length) : glint_check_stream(stream, length);
    if (answer == GLINT_IS_SAVE) {
        printf("yes\n");
        return 0;
    }
    if (answer < length)
        printf("no: byte %llu is 0x%02x, which no save has there\n", (unsigned long long)answer, bytes[answer]);
    else
        printf("no: it ends after %llu bytes, where every save goes on\n", (unsigned long long)answer);
    return 1;
}
