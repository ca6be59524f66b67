/*
 * Converts the tree and the text of two files with buffers in std::vectors, and prints what tools/convert prints. Without files it takes the
 * twelve types that open every tree, over an empty text, whose vector hands over a null pointer.
 *
 *   tools/staticlib rudderplum
 *   c++ -std=c++11 -Ibindings/c bindings/c/example.cpp target/staticlib/librudderplum.a -o target/example++ && target/example++
 */
#include <cstdio>
#include <fstream>
#include <iterator>
#include <vector>

#include "rudderplum.h"

typedef std::vector<uint8_t> bytes;

static bool read(const char *name, bytes &into)
{
    std::ifstream file(name, std::ios::binary);
    into.assign(std::istreambuf_iterator<char>(file), std::istreambuf_iterator<char>());
    return file.is_open();
}

/* Detail and word A of the twelve types. */
static bytes twelve_types()
{
    static const uint8_t types[12][2] = {{1, 0}, {17, 0}, {33, 0}, {49, 0}, {2, 0}, {18, 0},
                                         {3, 0}, {4, 0},  {5, 0},  {9, 0},  {6, 7}, {6, 9}};
    bytes tree(12 * RUDDERPLUM_RECORD_BYTES);
    for (size_t i = 0; i < 12; i++) {
        uint8_t *record = &tree[i * RUDDERPLUM_RECORD_BYTES];
        record[0] = 1;
        record[1] = types[i][0];
        record[4] = types[i][1];
    }
    return tree;
}

int main(int count, char **names)
{
    bytes tree = twelve_types(), text;
    if (count == 3 && !(read(names[1], tree) && read(names[2], text))) {
        std::fprintf(stderr, "a file cannot be read\n");
        return 1;
    }
    const size_t n = tree.size() / RUDDERPLUM_RECORD_BYTES;
    bytes instructions(RUDDERPLUM_INSTRUCTIONS_PER_RECORD * n), variables(RUDDERPLUM_VARIABLES_PER_RECORD * n);
    bytes labels(RUDDERPLUM_LABELS_PER_RECORD * n), functions(RUDDERPLUM_FUNCTIONS_PER_RECORD * n);
    bytes strings(RUDDERPLUM_STRINGS_PER_RECORD * n), floats(RUDDERPLUM_FLOATS_PER_RECORD * n);
    bytes scratch(RUDDERPLUM_SCRATCH_PER_RECORD * n);
    rudderplum_buffers lent = {
        {instructions.data(), instructions.size()}, {variables.data(), variables.size()}, {labels.data(), labels.size()},
        {functions.data(), functions.size()},       {strings.data(), strings.size()},     {floats.data(), floats.size()},
        {scratch.data(), scratch.size()},
    };
    rudderplum_answer a = rudderplum_run(tree.data(), tree.size(), text.data(), text.size(), 0, lent);
    if (a.number == RUDDERPLUM_ACCEPTED) {
        std::printf("0 %u %u %u %u %u %u\n", a.functions, a.instructions, a.variables, a.labels, a.strings, a.floats);
    } else {
        std::printf("%u %u %u %u\n", a.number, a.place, a.start, a.end);
    }
    return 0;
}
