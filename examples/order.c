/* How a C program calls Wuldgisp: reads an image on standard input and prints whether intake accepts it and in which order its functions come out.
 * With two name numbers as arguments it first redirects calls of the first function to the second. At the root of the repository:
 *
 *     tools/build.sh
 *     cc -std=c99 -Iinclude examples/order.c target/staticlib/libwuldgisp.a -o target/order_c
 *     target/order_c < vectors/001.img
 *
 * Exit status: 0 accepted; 1 refused; 2 misuse: an argument that is no number, standard input that cannot be read, standard output that cannot be
 * written.
 */
#include <errno.h>
#include <stdio.h>
#include <string.h>

#include "wuldgisp.h"

enum { ACCEPTED = 0, REFUSED = 1, MISUSE = 2 };

/* One byte more than an image may have, so that one that is too long is seen to be. */
static uint8_t image[65537];
static uint32_t order[256];

/* The low half of an answer is a refusal, or 0; the high half is the value. */
static uint32_t refusal(uint64_t answer) { return (uint32_t)answer; }
static uint32_t value(uint64_t answer) { return (uint32_t)(answer >> 32); }

/* A decimal number of 32 bits, and nothing else; whether it is one. */
static int number(const char *text, uint32_t *out) {
    uint64_t n = 0;
    if (*text == '\0') {
        return 0;
    }
    for (; *text != '\0'; text++) {
        if (*text < '0' || *text > '9') {
            return 0;
        }
        n = 10 * n + (uint64_t)(*text - '0');
        if (n > UINT32_MAX) {
            return 0;
        }
    }
    *out = (uint32_t)n;
    return 1;
}

static int refused(uint64_t answer) {
    if (refusal(answer) == 12) {
        printf("refused 12 left %u\n", (unsigned)value(answer));
    } else {
        printf("refused %u\n", (unsigned)refusal(answer));
    }
    return REFUSED;
}

/* The answers for the first length bytes of the image; names, where they are given, are the original's and the replacement's. */
static int answer_for(size_t length, const uint32_t *names) {
    uint32_t test = wuldgisp_intake(image, length);
    if (test != 0) {
        return refused(test);
    }
    puts("accepted");
    if (names != NULL) {
        uint64_t answer = wuldgisp_redirect(image, length, names[0], names[1], NULL, 0);
        if (refusal(answer) != 0) {
            return refused(answer);
        }
        printf("calls of function %u are calls of function %u\n", (unsigned)(value(answer) % 65536), (unsigned)(value(answer) / 65536));
    }
    uint64_t answer = wuldgisp_order(image, length, order, sizeof order / sizeof order[0]);
    if (refusal(answer) != 0) {
        return refused(answer);
    }
    for (uint32_t i = 0; i < value(answer); i++) {
        printf("%u %u\n", (unsigned)i, (unsigned)order[i]);
    }
    return ACCEPTED;
}

int main(int argc, char **argv) {
    uint32_t names[2];
    if (argc != 1 && argc != 3) {
        fprintf(stderr, "usage: %s [ORIGINAL REPLACEMENT] < IMAGE\n", argv[0]);
        return MISUSE;
    }
    for (int i = 1; i < argc; i++) {
        if (!number(argv[i], &names[i - 1])) {
            fprintf(stderr, "%s: argument %d is no number of a name\n", argv[0], i);
            return MISUSE;
        }
    }
    size_t length = fread(image, 1, sizeof image, stdin);
    if (ferror(stdin)) {
        fprintf(stderr, "%s: standard input: %s\n", argv[0], strerror(errno));
        return MISUSE;
    }
    int status = answer_for(length, argc == 3 ? names : NULL);
    /* What was printed is written here at the latest. */
    if (fflush(stdout) != 0 || ferror(stdout)) {
        fprintf(stderr, "%s: standard output: %s\n", argv[0], strerror(errno));
        return MISUSE;
    }
    return status;
}
