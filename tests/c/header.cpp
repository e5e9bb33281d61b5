// The header from C++: it compiles, its functions have C's names, and the library answers.
#include <cstdio>
#include <cstdlib>
#include <string>
#include <vector>

#include "glintbasket.h"

int main()
{
    std::vector<std::uint8_t> memory(8192), marks(GLINT_MARKS(8192), 1);
    glint_mapping records[2];
    glint_bench bench;
    glint_outcome started = glint_bench_init(&bench, records, GLINT_COUNT(records), memory.data(), marks.data(), memory.size());
    glint_outcome mapped = glint_bench_map(&bench, glint_memory(0), glint_device(4096), 4096, GLINT_READ);
    std::uint8_t byte = 7;
    glint_outcome read = glint_bench_device_read(&bench, glint_device(4096), &byte, 1);

    std::uint8_t file[GLINT_DEVICE_FILE_HEADER];
    glint_device_writer writer;
    glint_outcome begun = glint_device_writer_start(&writer, file, sizeof file, GLINT_MAGIC_PCI, 1, 0);
    glint_outcome full = glint_device_writer_region(&writer, 0, 0, 4096);

    bool good = !started.refused && marks[GLINT_MARKS(8192) - 1] == 0 && !mapped.refused && read.refused && read.code == GLINT_UNWRITTEN &&
                read.place == 0 && byte == 7 && glint_refusal_name(read.code) == std::string("Unwritten") &&
                !begun.refused && full.code == GLINT_NO_SPACE && glint_device_file_header(file, writer.used).version == 1;
    std::printf("%d passed, %d failed\n", good ? 1 : 0, good ? 0 : 1);
    return good ? EXIT_SUCCESS : EXIT_FAILURE;
}
