/* How a C program runs a session of Wuldgisp: one call that is given all its steps. Reads an image on standard input, imports its functions in output
 * order and finishes with its entry points, which links it; then maps spans by two offsets. It prints a line for each step and its answer, as
 * vectors/README.md has them. With a file's name as argument it writes the linked image there. At the root of the repository:
 *
 *     tools/build.sh
 *     cc -std=c99 -Iinclude examples/session.c target/staticlib/libwuldgisp.a -o target/session_c
 *     target/session_c target/linked.img < vectors/001.img
 *
 * Exit status: 0 every step accepted; 1 one refused, or a ring of calls; 2 misuse: more than one argument, standard input that cannot be read, standard
 * output or the file that cannot be written.
 */
#include <errno.h>
#include <stdio.h>
#include <string.h>

#include "wuldgisp.h"

enum { ACCEPTED = 0, REFUSED = 1, MISUSE = 2 };

/* The operations in use. */
enum { SET = 0, MAP_SPAN = 2, IMPORT_FUNCTION = 9, FINISH_WITH_ENTRY_POINTS = 14 };

/* The most functions of an image, and room for the steps that import them and for the eight others. */
enum { FUNCTIONS = 256, STEPS = FUNCTIONS + 8 };

/* One byte more than an image may have, so that one that is too long is seen to be. */
static uint8_t image[65537];
static uint8_t linked[65536];
static uint32_t order[FUNCTIONS];
static uint32_t steps[4 * STEPS];
static uint32_t answers[3 * STEPS];
static size_t count;

/* The low half of an answer is a refusal, or 0; the high half is the value. */
static uint32_t refusal(uint64_t answer) { return (uint32_t)answer; }
static uint32_t value(uint64_t answer) { return (uint32_t)(answer >> 32); }

/* One more step; its number. */
static size_t step(uint32_t operation, uint32_t a, uint32_t b, uint32_t c) {
    uint32_t *own = &steps[4 * count];
    own[0] = operation;
    own[1] = a;
    own[2] = b;
    own[3] = c;
    return count++;
}

static const char *name(uint32_t operation) {
    switch (operation) {
    case SET:
        return "set";
    case MAP_SPAN:
        return "map_span";
    case IMPORT_FUNCTION:
        return "import_function";
    default:
        return "finish_with_entry_points";
    }
}

/* A step, its answer, and the name of its operation. */
static void print_step(size_t i) {
    const uint32_t *s = &steps[4 * i], *a = &answers[3 * i];
    printf("%u %u %u %u = %u %u %u # %s\n", (unsigned)s[0], (unsigned)s[1], (unsigned)s[2], (unsigned)s[3], (unsigned)a[0], (unsigned)a[1],
           (unsigned)a[2], name(s[0]));
}

/* The steps for the first length bytes of the image, of which so many functions are in order; the number of the step that finishes. */
static size_t make_steps(uint32_t length, uint32_t functions) {
    step(SET, 0, length, 0);
    for (uint32_t i = 0; i < functions; i++) {
        step(IMPORT_FUNCTION, order[i], 0, 0);
    }
    size_t finish = step(FINISH_WITH_ENTRY_POINTS, 0, sizeof linked, 0);
    /* P1 to P4 of docs/RULES.md, 14. */
    step(SET, 0, length, 10);
    step(MAP_SPAN, 0, 0, 0);
    step(MAP_SPAN, 0, 4, 0);
    step(SET, 0, length, 4294967290);
    step(MAP_SPAN, 5, 9, 0);
    step(MAP_SPAN, 6, 6, 0);
    return finish;
}

/* Runs the session for the first length bytes of the image. Of an image that intake refuses there is no order: setting it is refused in the same way,
 * and then every other step. How many bytes were linked goes to linked_len; it is 0 where finishing was refused. */
static int answer_for(size_t length, size_t *linked_len) {
    uint64_t ordered = wuldgisp_order(image, length, order, FUNCTIONS);
    if (refusal(ordered) == 12) {
        printf("refused 12 left %u\n", (unsigned)value(ordered));
        return REFUSED;
    }
    size_t finish = make_steps((uint32_t)length, refusal(ordered) == 0 ? value(ordered) : 0);
    uint64_t answer = wuldgisp_session(image, length, steps, 4 * count, answers, 3 * count, linked, sizeof linked);
    for (size_t i = 0; i < count; i++) {
        print_step(i);
    }
    *linked_len = answers[3 * finish + 1];
    if (answer != 0) {
        printf("step %u was refused first, by %u\n", (unsigned)value(answer), (unsigned)refusal(answer));
        return REFUSED;
    }
    return ACCEPTED;
}

/* Writes the linked image to a file; whether that could be done. */
static int written(const char *file, size_t linked_len) {
    FILE *out = fopen(file, "wb");
    if (out == NULL) {
        return 0;
    }
    int whole = fwrite(linked, 1, linked_len, out) == linked_len;
    return fclose(out) == 0 && whole;
}

int main(int argc, char **argv) {
    size_t linked_len = 0;
    if (argc > 2) {
        fprintf(stderr, "usage: %s [FILE] < IMAGE\n", argv[0]);
        return MISUSE;
    }
    size_t length = fread(image, 1, sizeof image, stdin);
    if (ferror(stdin)) {
        fprintf(stderr, "%s: standard input: %s\n", argv[0], strerror(errno));
        return MISUSE;
    }
    int status = answer_for(length, &linked_len);
    /* What was printed is written here at the latest. */
    if (fflush(stdout) != 0 || ferror(stdout)) {
        fprintf(stderr, "%s: standard output: %s\n", argv[0], strerror(errno));
        return MISUSE;
    }
    if (argc == 2 && linked_len != 0 && !written(argv[1], linked_len)) {
        fprintf(stderr, "%s: %s: %s\n", argv[0], argv[1], strerror(errno));
        return MISUSE;
    }
    return status;
}
