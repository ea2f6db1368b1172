/* Wuldgisp: a proved linker for shader modules. The functions of libwuldgisp.a, which `tools/build.sh` writes to target/staticlib.
 *
 * Every function returns for every input, reads and writes nothing but what it is lent, and keeps nothing. A null pointer may be given only with
 * length 0. Several threads may call at the same time.
 *
 * Stack: give a thread that calls wuldgisp_intake, wuldgisp_order or wuldgisp_redirect at least WULDGISP_STACK bytes, and one that calls wuldgisp_link,
 * wuldgisp_link_in, wuldgisp_session or wuldgisp_session_in at least WULDGISP_LINK_STACK. Measured (docs/PERFORMANCE.md): 120 KiB for the first three;
 * 1,220 KiB for link; for a session 1,324 KiB where 256 functions nest, and 1,920 KiB where, at their end, 1,024 initialisers, 181 constants and 512 types
 * nest too; 476 KiB less in lent memory.
 *
 * docs/RULES.md has the rules behind every refusal, and docs/IMAGE.md the image word by word.
 */
#ifndef WULDGISP_H
#define WULDGISP_H

#include <stddef.h>
#include <stdint.h>

/* The stack that a calling thread should have at least: 256 KiB. */
#define WULDGISP_STACK 262144
/* The same for link and sessions: 4 MiB. */
#define WULDGISP_LINK_STACK 4194304

#ifdef __cplusplus
extern "C" {
#endif

/* Intake: is this an image that the linker takes?
 *
 * image, image_len: the bytes of a module image; they are only read.
 * Answers 0 if it is accepted, else the number of the first test that fails, each made over the whole image before the next (docs/RULES.md, 6):
 *   1  size, edition or total: from 80 to 65,536 bytes, edition 1, four times word 1 long
 *   2  layout, padding or a limit
 *   3  a number or a code out of range, or a kind barred from its place
 *   4  a reference that is not lower
 *   5  something unnamed, or names, named expressions or special keys that are equal
 *   6  scope, Emit or control flow
 */
uint32_t wuldgisp_intake(const uint8_t *image, size_t image_len);

/* Order: the functions of an image, callees first, by rank and then by source number (docs/RULES.md, 9).
 *
 * image, image_len: the bytes of a module image; they are only read.
 * order, order_len: room for source numbers. Of an image that is accepted the function that comes out as number i has the source number order[i],
 *   as far as there is room; 256 is always enough. What is not written, like all of it where the image is refused, stays as it was.
 * Answers in the low half (its lowest 32 bits) 0 if it is accepted, and then in the high half the count of functions. Else the low half is a refusal:
 *   1 to 6  as intake answers
 *   12      a ring of calls; the high half is the count of functions from which a chain of calls reaches a ring
 */
uint64_t wuldgisp_order(const uint8_t *image, size_t image_len, uint32_t *order, size_t order_len);

/* Redirect: calls of one function become calls of another, in the image itself (docs/RULES.md, 10).
 *
 * image, image_len: the bytes of a module image. Where the call is accepted, Call statements and CallResult expressions that name the original name
 *   the replacement, everywhere but in the replacement and in the omitted functions; entry points always change. Where it is refused, no byte changes.
 * original, replacement: the functions, by the numbers of their names.
 * omit, omit_len: the functions that stay as they are, by the numbers of their names; they are only read.
 * Answers in the low half 0 if it is accepted, and then in the high half the original's function number and 65,536 times the replacement's. Else the
 * low half is a refusal and the high half is 0:
 *   1 to 6  as intake answers
 *   13      a name number outside the table of names
 *   8       no function has the original's name
 *   9       no function has the replacement's name
 *   10      an argument type differs, up to the shorter list
 *   11      the result types differ, or one of the two has none
 */
uint64_t wuldgisp_redirect(uint8_t *image, size_t image_len, uint32_t original, uint32_t replacement, const uint32_t *omit, size_t omit_len);

/* Link: the functions of an image in the order of wuldgisp_order, each with what it refers to, as one image (docs/RULES.md, 11).
 *
 * image, image_len: the bytes of a module image; they are only read.
 * output, output_len: where the linked image goes; image_len bytes are always enough. Bytes behind it stay as they were, and where the call is refused
 *   every byte does. It may not overlap the image.
 * Answers in the low half 0 if it is accepted, and then in the high half the count of bytes written. Else the low half is a refusal:
 *   1 to 6  as intake answers
 *   7       the output is shorter than the image
 *   12      a ring of calls; the high half is the count of functions from which a chain of calls reaches a ring
 */
uint64_t wuldgisp_link(const uint8_t *image, size_t image_len, uint8_t *output, size_t output_len);

/* The memory that wuldgisp_link_in and wuldgisp_session_in are lent: eight arrays, 476 KiB in all. Too much for many a stack: keep it in static storage,
 * or allocate it. */
typedef struct wuldgisp_memory {
    uint32_t words[16384];
    uint8_t tags[16384];
    uint32_t log[16384];
    uint8_t classes[16384];
    uint32_t starts[8][512];
    uint32_t maps[6][512];
    uint16_t marks[16384];
    uint32_t stacks[4][16384];
} wuldgisp_memory;

/* The last eight arguments of wuldgisp_link_in and wuldgisp_session_in, from a wuldgisp_memory *. */
#define WULDGISP_MEMORY(m) (m)->words, (m)->tags, (m)->log, (m)->classes, (m)->starts[0], (m)->maps[0], (m)->marks, (m)->stacks[0]

/* Link in memory that is lent: for a caller that links many images. wuldgisp_link has this memory on its stack and clears all of it in every call.
 *
 * image, image_len, output, output_len: as in wuldgisp_link.
 * words, tags, log, classes, starts, maps, marks, stacks: as long as in wuldgisp_memory, rows one behind the other: starts 4,096 numbers, maps 3,072,
 *   stacks 65,536, each of the others 16,384. They may hold anything before the call and hold anything after it, so they need no clearing, neither at
 *   first nor between calls. None of them may be null, or overlap the image, the output or another of them. Two calls at the same time want memory of
 *   their own.
 * Answers, and writes the output, as wuldgisp_link does.
 *
 *     static wuldgisp_memory memory;
 *     uint64_t answer = wuldgisp_link_in(image, image_len, output, output_len, WULDGISP_MEMORY(&memory));
 */
uint64_t wuldgisp_link_in(const uint8_t *image, size_t image_len, uint8_t *output, size_t output_len, uint32_t *words, uint8_t *tags, uint32_t *log,
                          uint8_t *classes, uint32_t *starts, uint32_t *maps, uint16_t *marks, uint32_t *stacks);

/* Session: records and functions of several images drawn into derived images, by a list of steps (docs/RULES.md, 12).
 *
 * sources, sources_len: the images that steps set, one behind the other; they are only read.
 * steps, steps_len: four words a step: its operation, a, b and c. Words behind the last whole step are not read.
 * answers, answers_len: three words a step: the refusal or 0, and two values, which are 0 where there are none and where the step is refused. They are
 *   written as far as there is room.
 * output, output_len: where steps write derived images. All other bytes stay as they were. None of the four may overlap another that is written.
 *
 *   operation                      a, b, c                                             values                    refusals
 *    0  set                        a part of sources: start and length; span offset                              1 to 6, 21
 *    1  clear
 *    2  map_span                   start, end                                          start, end                20
 *    3  import_type                type                                                derived type              20, 13, 21
 *    4  rename_type                type, number of a name                              derived type              20, 13, 21
 *    5  import_const               constant                                            derived constant          20, 13, 21
 *    6  import_pipeline_override   override                                            derived override          20, 13, 21
 *    7  import_global              global                                              derived global            20, 13, 21
 *    8  import_global_expression   expression                                          derived expression        20, 13, 21
 *    9  import_function            function                                            derived function          20, 13, 22, 21
 *   10  import_function_if_new     function                                            derived function          20, 13, 22, 21
 *   11  map_function_handle        function                                            derived function          20, 13, 22, 21
 *   12  has_required_special_types                                                     0 or 1
 *   13  finish                     a part of output: start and length                  bytes written             21, 7
 *   14  finish, with the entry points of the source: a part of output                  bytes written             20, 22, 21, 7
 *   any other                                                                                                    13
 *
 * Starts and lengths are in bytes; a part that reaches past the end is cut there. A refused step changes nothing, and the next one follows:
 *   1 to 6  the source, as intake answers
 *   7       the part of the output is shorter than the derived image
 *   13      a number outside its table, or no operation
 *   20      no source is set
 *   21      the derived image would pass 65,536 bytes, or a table its limit
 *   22      the import would follow calls, through functions of unknown name, back to one of those
 * Answers 0 if every step was accepted; else the low half is the refusal of the first refused step, and the high half that step's number, from 0.
 */
uint64_t wuldgisp_session(const uint8_t *sources, size_t sources_len, const uint32_t *steps, size_t steps_len, uint32_t *answers, size_t answers_len,
                          uint8_t *output, size_t output_len);

/* Session in memory that is lent: for a caller that runs many. Answers and writes as wuldgisp_session does. The last eight arguments are those of
 * wuldgisp_link_in, and the same memory may be lent to both, one call behind the other; nothing goes over from one call to the next.
 */
uint64_t wuldgisp_session_in(const uint8_t *sources, size_t sources_len, const uint32_t *steps, size_t steps_len, uint32_t *answers, size_t answers_len,
                             uint8_t *output, size_t output_len, uint32_t *words, uint8_t *tags, uint32_t *log, uint8_t *classes, uint32_t *starts,
                             uint32_t *maps, uint16_t *marks, uint32_t *stacks);

#ifdef __cplusplus
}
#endif

#endif
