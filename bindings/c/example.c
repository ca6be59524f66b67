/*
 * Converts 'return p and q', p and q Bool parameters, and prints the body; then the same tree with a wrong record.
 *
 *   tools/staticlib rudderplum
 *   cc -std=c99 -Ibindings/c bindings/c/example.c target/staticlib/librudderplum.a -o target/example && target/example
 */
#include <stdio.h>
#include <string.h>

#include "rudderplum.h"

enum { RECORDS = 24 };

#define NONE RUDDERPLUM_NONE

/* Kind, detail, and words A to E of each record; the text is below. The twelve types come first. */
static const uint32_t records[RECORDS][7] = {
    {1, 1},          {1, 1 | 16},     {1, 1 | 32},        {1, 1 | 16 | 32}, {1, 2},
    {1, 2 | 16},     {1, 3},          {1, 4},             {1, 5},           {1, 9},
    {1, 6, 7},       {1, 6, 9},
    {24, 0, 0, 1, 6},          /* 12: p, a Bool */
    {24, 0, 1, 1, 6},          /* 13: q, a Bool */
    {12, 0, 13, NONE},         /* 14: the list of q */
    {12, 0, 12, 14},           /* 15: the list of p and q */
    {6, 0, 2, 3},              /* 16: the function's name */
    {6, 0, 2, 3},              /* 17: its mangled name */
    {6, 0, 0, 1},              /* 18: p */
    {6, 0, 1, 1},              /* 19: q */
    {10, 1, 18, 19},           /* 20: p and q */
    {17, 0, 20},               /* 21: return */
    {12, 0, 21, NONE},         /* 22: the body */
    {25, 4, 16, 17, 15, 6, 22} /* 23: the function */
};

static const uint8_t text[] = {'p', 'q', 0xEA, 0xB0, 0x80};

static const char *const kinds[] = {"?",     "Copy", "Unary", "Binary", "Cast",      "Zero",   "Arg",
                                    "Call",  "Label", "Jump", "JumpIfNot", "Return", "Comment"};

static uint8_t instructions[RECORDS * RUDDERPLUM_INSTRUCTIONS_PER_RECORD];
static uint8_t variables[RECORDS * RUDDERPLUM_VARIABLES_PER_RECORD];
static uint8_t labels[RECORDS * RUDDERPLUM_LABELS_PER_RECORD];
static uint8_t functions[RECORDS * RUDDERPLUM_FUNCTIONS_PER_RECORD];
static uint8_t strings[RECORDS * RUDDERPLUM_STRINGS_PER_RECORD];
static uint8_t floats[RECORDS * RUDDERPLUM_FLOATS_PER_RECORD];
static uint8_t scratch[RECORDS * RUDDERPLUM_SCRATCH_PER_RECORD];

static void convert(const uint8_t *tree, size_t tree_len)
{
    struct rudderplum_buffers lent = {
        {instructions, sizeof instructions}, {variables, sizeof variables}, {labels, sizeof labels},
        {functions, sizeof functions},       {strings, sizeof strings},     {floats, sizeof floats},
        {scratch, sizeof scratch},
    };
    struct rudderplum_answer a = rudderplum_run(tree, tree_len, text, sizeof text, 0, lent);
    if (a.number != RUDDERPLUM_ACCEPTED) {
        printf("refused: %u at record %u\n", (unsigned)a.number, (unsigned)a.place);
        return;
    }
    printf("%u functions, %u instructions, %u expressions typed\n", (unsigned)a.functions, (unsigned)a.instructions,
           (unsigned)a.visits);
    for (uint32_t i = 0; i < a.instructions; i++) {
        const uint8_t *at = instructions + RUDDERPLUM_INSTRUCTION_ENTRY * i;
        if (at[0] == 12) {
            printf("statement of record %u\n", (unsigned)rudderplum_word(at + 24));
        } else {
            printf("  %-9s %u, operand %u of tag %u\n", kinds[at[0]], (unsigned)rudderplum_word(at + 4),
                   (unsigned)rudderplum_word(at + 8), (unsigned)at[2]);
        }
    }
}

int main(void)
{
    uint8_t tree[RECORDS * RUDDERPLUM_RECORD_BYTES];
    memset(tree, 0, sizeof tree);
    for (int r = 0; r < RECORDS; r++) {
        uint8_t *record = tree + r * RUDDERPLUM_RECORD_BYTES;
        record[0] = (uint8_t)records[r][0];
        record[1] = (uint8_t)records[r][1];
        for (int w = 0; w < 5; w++) {
            for (int b = 0; b < 4; b++) {
                record[4 + 4 * w + b] = (uint8_t)(records[r][2 + w] >> 8 * b);
            }
        }
    }
    convert(tree, sizeof tree);
    tree[5 * RUDDERPLUM_RECORD_BYTES + 2] = 1;
    convert(tree, sizeof tree);
    return 0;
}
