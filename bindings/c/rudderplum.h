/*
 * Rudderplum: judges trees of records, and converts them to flat bodies.
 *
 * Link with target/staticlib/librudderplum.a, which `tools/staticlib rudderplum` writes (x86-64 Linux).
 *
 * Every slice is a pointer and its length in bytes, and the pointer points to that many bytes. The buffers that a call
 * writes overlap neither each other nor the tree or the text. Where a length is 0, rudderplum_run takes a null pointer (as
 * an empty std::vector hands one over); the two functions of the library itself want one that is not null.
 */
#ifndef RUDDERPLUM_H
#define RUDDERPLUM_H

#include <stddef.h>
#include <stdint.h>

#ifdef __cplusplus
extern "C" {
#endif

/* Bytes of a record, and how many bytes each buffer needs for each record of a tree. */
#define RUDDERPLUM_RECORD_BYTES 32
#define RUDDERPLUM_INSTRUCTIONS_PER_RECORD 320
#define RUDDERPLUM_VARIABLES_PER_RECORD 12
#define RUDDERPLUM_LABELS_PER_RECORD 24
#define RUDDERPLUM_FUNCTIONS_PER_RECORD 32
#define RUDDERPLUM_STRINGS_PER_RECORD 8
#define RUDDERPLUM_FLOATS_PER_RECORD 32
#define RUDDERPLUM_SCRATCH_PER_RECORD 72

/* Bytes of an entry of each table; docs/FORM.md says what they are. */
#define RUDDERPLUM_INSTRUCTION_ENTRY 32
#define RUDDERPLUM_VARIABLE_ENTRY 4
#define RUDDERPLUM_LABEL_ENTRY 8
#define RUDDERPLUM_FUNCTION_ENTRY 32
#define RUDDERPLUM_STRING_ENTRY 8
#define RUDDERPLUM_FLOAT_ENTRY 16

/* The fewest and the most records that a tree may have. */
#define RUDDERPLUM_FEWEST_RECORDS 12
#define RUDDERPLUM_MOST_RECORDS 16384

/* Bytes of the judge's answer, four little-endian words of 32 bits, and of a conversion's, eight. */
#define RUDDERPLUM_JUDGE_ANSWER_BYTES 16
#define RUDDERPLUM_ANSWER_BYTES 32

/* The place of an answer that has none. */
#define RUDDERPLUM_NONE 0xFFFFFFFFu

/* Numbers of answers: 0 is a tree that was accepted or converted; 1 to 23 are Krc's ConvertErrorKind in its order. */
enum rudderplum_number {
    RUDDERPLUM_ACCEPTED = 0,
    RUDDERPLUM_SAME_SIGNATURE = 1,
    RUDDERPLUM_SAME_SYMBOL,
    RUDDERPLUM_ALREADY_DECLARED,
    RUDDERPLUM_UNKNOWN_VARIABLE,
    RUDDERPLUM_UNKNOWN_FUNCTION,
    RUDDERPLUM_ASSIGN_TO_CONSTANT,
    RUDDERPLUM_RETURN_WITHOUT_TYPE,
    RUDDERPLUM_NO_VALUE,
    RUDDERPLUM_MISSING_RETURN,
    RUDDERPLUM_NO_MAIN,
    RUDDERPLUM_MAIN_NOT_INTEGER,
    RUDDERPLUM_WRONG_RETURN_TYPE,
    RUDDERPLUM_WRONG_ASSIGN_TYPE,
    RUDDERPLUM_WRONG_OPERANDS,
    RUDDERPLUM_AMBIGUOUS_CALL,
    RUDDERPLUM_LITERAL_OUT_OF_RANGE,
    RUDDERPLUM_INVALID_CAST,
    RUDDERPLUM_NOT_BOOL,
    RUDDERPLUM_NOT_INTEGER,
    RUDDERPLUM_BREAK_OUT_OF_LOOP,
    RUDDERPLUM_CONTINUE_OUT_OF_LOOP,
    RUDDERPLUM_LATIN_CHAR_IN_NON_LIB_C_FUNCTION,
    RUDDERPLUM_EXTERN_NOT_LATIN,
    RUDDERPLUM_BAD_TREE,
    RUDDERPLUM_TOO_DEEP,
    RUDDERPLUM_SHORT_BUFFER,
    RUDDERPLUM_WOULD_PANIC
};

/*
 * Judges a tree. Returns 1 and writes the answer to the first 16 bytes of `answer`: number, place, span start, span end.
 * With an `answer` of fewer than 16 bytes it returns 0 and writes nothing anywhere.
 *
 * Afterwards:
 *   accepted                                   scratch is zero, the six outputs are as found
 *   refused with a place (24, 25)              scratch and the six outputs are zero
 *   refused without a place (24, 26)           nothing but the answer was written
 * Bytes of `answer` past the first 16 stay as found.
 */
uint32_t rudderplum_judge(const uint8_t *tree, size_t tree_len,
                          const uint8_t *text, size_t text_len,
                          uint8_t *instructions, size_t instructions_len,
                          uint8_t *variables, size_t variables_len,
                          uint8_t *labels, size_t labels_len,
                          uint8_t *functions, size_t functions_len,
                          uint8_t *strings, size_t strings_len,
                          uint8_t *floats, size_t floats_len,
                          uint8_t *scratch, size_t scratch_len,
                          uint8_t *answer, size_t answer_len);

/*
 * Converts a tree; with `needs_main` other than 0 a program without a `main` is refused. Returns 1 and writes the answer to
 * the first 32 bytes of `answer`: 0, the counts of functions, instructions, variables, labels, strings and floats, and the
 * visits; or number, place, span start, span end, and zeros. A visit is an expression record whose type was worked out, and
 * no record is visited twice. With an `answer` of fewer than 32 bytes it returns 0 and writes nothing anywhere.
 *
 * Afterwards:
 *   converted                                  each table is at the start of its buffer, zero behind it; scratch is zero
 *   refused by lengths or buffers (24, 26, without a place)   nothing but the answer was written
 *   refused otherwise                          scratch and the six outputs are zero
 * Bytes of `answer` past the first 32 stay as found.
 */
uint32_t rudderplum_convert(const uint8_t *tree, size_t tree_len,
                            const uint8_t *text, size_t text_len,
                            uint32_t needs_main,
                            uint8_t *instructions, size_t instructions_len,
                            uint8_t *variables, size_t variables_len,
                            uint8_t *labels, size_t labels_len,
                            uint8_t *functions, size_t functions_len,
                            uint8_t *strings, size_t strings_len,
                            uint8_t *floats, size_t floats_len,
                            uint8_t *scratch, size_t scratch_len,
                            uint8_t *answer, size_t answer_len);

/* A lent buffer; null is fine where the length is 0. */
struct rudderplum_slice {
    uint8_t *bytes;
    size_t len;
};

struct rudderplum_buffers {
    struct rudderplum_slice instructions, variables, labels, functions, strings, floats, scratch;
};

/* What a conversion answers: counts where `number` is 0, else place and span. */
struct rudderplum_answer {
    uint32_t number;
    uint32_t place;
    uint32_t start;
    uint32_t end;
    uint32_t functions;
    uint32_t instructions;
    uint32_t variables;
    uint32_t labels;
    uint32_t strings;
    uint32_t floats;
    uint32_t visits;
};

/* The little-endian word at `bytes`. */
static inline uint32_t rudderplum_word(const uint8_t *bytes)
{
    return (uint32_t)bytes[0] | (uint32_t)bytes[1] << 8 | (uint32_t)bytes[2] << 16 | (uint32_t)bytes[3] << 24;
}

/* The answer that rudderplum_convert wrote. */
static inline struct rudderplum_answer rudderplum_read_answer(const uint8_t *answer)
{
    uint32_t w[8];
    for (int i = 0; i < 8; i++) {
        w[i] = rudderplum_word(answer + 4 * i);
    }
    struct rudderplum_answer refused = {w[0], w[1], w[2], w[3], 0, 0, 0, 0, 0, 0, 0};
    struct rudderplum_answer converted = {0, RUDDERPLUM_NONE, 0, 0, w[1], w[2], w[3], w[4], w[5], w[6], w[7]};
    return w[0] == 0 ? converted : refused;
}

/* Converts; any pointer may be null where its length is 0. */
static inline struct rudderplum_answer rudderplum_run(const uint8_t *tree, size_t tree_len, const uint8_t *text,
                                                      size_t text_len, uint32_t needs_main, struct rudderplum_buffers b)
{
    uint8_t answer[RUDDERPLUM_ANSWER_BYTES];
    uint8_t none[9] = {0};
    struct rudderplum_slice *all[7] = {&b.instructions, &b.variables, &b.labels, &b.functions,
                                       &b.strings,      &b.floats,    &b.scratch};
    for (int i = 0; i < 7; i++) {
        if (all[i]->len == 0) {
            all[i]->bytes = none + i;
        }
    }
    rudderplum_convert(tree_len == 0 ? none + 7 : tree, tree_len, text_len == 0 ? none + 8 : text, text_len, needs_main,
                       b.instructions.bytes, b.instructions.len, b.variables.bytes, b.variables.len,
                       b.labels.bytes, b.labels.len, b.functions.bytes, b.functions.len,
                       b.strings.bytes, b.strings.len, b.floats.bytes, b.floats.len,
                       b.scratch.bytes, b.scratch.len, answer, sizeof answer);
    return rudderplum_read_answer(answer);
}

#ifdef __cplusplus
}
#endif

#endif
