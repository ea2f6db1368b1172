/* How a C program links many images with Wuldgisp: in memory that it keeps and lends to every call. Links each file that is named and writes the linked
 * image beside it, to FILE.linked, which stays as it was where the image is refused. Prints a line for each file. At the root of the repository:
 *
 *     tools/build.sh
 *     cc -std=c99 -Iinclude examples/many.c target/staticlib/libwuldgisp.a -o target/many_c
 *     cp vectors/000.img vectors/001.img target && target/many_c target/000.img target/001.img
 *
 * Exit status: 0 every image was linked; 1 one was refused; 2 misuse: no file is named, one that cannot be read or written, standard output that cannot
 * be written. The files behind one that is refused, or that cannot be read or written, are linked all the same.
 */
#include <errno.h>
#include <stdio.h>
#include <stdlib.h>
#include <string.h>

#include "wuldgisp.h"

enum { ACCEPTED = 0, REFUSED = 1, MISUSE = 2 };

/* One byte more than an image may have, so that one that is too long is seen to be. */
static uint8_t image[65537];
static uint8_t linked[65537];
/* Lent to every call, and never cleared. */
static wuldgisp_memory memory;

/* The low half of an answer is a refusal, or 0; the high half is the value. */
static uint32_t refusal(uint64_t answer) { return (uint32_t)answer; }
static uint32_t value(uint64_t answer) { return (uint32_t)(answer >> 32); }

/* Reads a file into the image; whether that could be done. */
static int read_image(const char *file, size_t *length) {
    FILE *in = fopen(file, "rb");
    if (in == NULL) {
        return 0;
    }
    *length = fread(image, 1, sizeof image, in);
    int whole = !ferror(in);
    int error = errno;
    fclose(in);
    errno = error;
    return whole;
}

/* Writes the linked image to a file; whether that could be done. */
static int write_linked(const char *file, size_t length) {
    FILE *out = fopen(file, "wb");
    if (out == NULL) {
        return 0;
    }
    int whole = fwrite(linked, 1, length, out) == length;
    return fclose(out) == 0 && whole;
}

static int failed(const char *program, const char *file) {
    fprintf(stderr, "%s: %s: %s\n", program, file, strerror(errno));
    return MISUSE;
}

/* Links one file into another. */
static int link_file(const char *program, const char *file, const char *target) {
    size_t length = 0;
    if (!read_image(file, &length)) {
        return failed(program, file);
    }
    uint64_t answer = wuldgisp_link_in(image, length, linked, sizeof linked, WULDGISP_MEMORY(&memory));
    if (refusal(answer) == 12) {
        printf("%s: refused 12 left %u\n", file, (unsigned)value(answer));
        return REFUSED;
    }
    if (refusal(answer) != 0) {
        printf("%s: refused %u\n", file, (unsigned)refusal(answer));
        return REFUSED;
    }
    if (!write_linked(target, value(answer))) {
        return failed(program, target);
    }
    printf("%s: linked, %u bytes\n", file, (unsigned)value(answer));
    return ACCEPTED;
}

/* Links one file into that of its name with .linked behind it. */
static int link_beside(const char *program, const char *file) {
    static const char behind[] = ".linked";
    char *target = malloc(strlen(file) + sizeof behind);
    if (target == NULL) {
        return failed(program, file);
    }
    strcpy(target, file);
    strcat(target, behind);
    int status = link_file(program, file, target);
    free(target);
    return status;
}

int main(int argc, char **argv) {
    int status = ACCEPTED;
    if (argc < 2) {
        fprintf(stderr, "usage: %s FILE...\n", argv[0]);
        return MISUSE;
    }
    for (int i = 1; i < argc; i++) {
        int own = link_beside(argv[0], argv[i]);
        if (own > status) {
            status = own;
        }
    }
    /* What was printed is written here at the latest. */
    if (fflush(stdout) != 0 || ferror(stdout)) {
        fprintf(stderr, "%s: standard output: %s\n", argv[0], strerror(errno));
        return MISUSE;
    }
    return status;
}
