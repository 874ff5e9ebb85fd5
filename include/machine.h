/* The machine of processes, regions and frames on lent memory; crates/machine_c has the calls and their proofs.
 *
 * A machine is 11,844 words, the bytes of its frames (4,096 times 0 to 256) and the bytes of its files. `out` is one word, of a list of
 * regions and of machine_call 65 words; each call that has it sets all of it: to what is named below, and to zeros on a refusal. Of another
 * length it stays as it was, and so it does where the words that machine_call takes are no call.
 *
 * Each call answers 0, or the number of its refusal: 1 BadTable (the memory is no sound machine, or a length is wrong), 2 NoProcess,
 * 3 BadAddress, 4 BadRange, 5 BadFlags, 6 NoFile, 7 NoRegion, 8 NoSpace, 9 SegmentReserved, 12 NotAccessible, 13 NotWritable,
 * 14 OutOfMemory, 15 ReadFailed, 16 MapFailed, 17 UnsupportedRegion, 18 EagerBacking, 19 Shared, 20 InUse, 21 TableFull, 22 Denied; of
 * several the lowest, but that the clone of a region says 9, 21 and 14 in this order.
 *
 * A refusal leaves the words and the frames as they were. Four calls do a thing at a time and keep what they did before the one that is
 * refused: machine_carve, machine_populate, machine_eager and machine_clone.
 *
 * The slices of a call must not overlap. */
#ifndef MACHINE_H
#define MACHINE_H

#include <stddef.h>
#include <stdint.h>

#define MACHINE_WORDS 11844
#define MACHINE_FRAME 4096
#define MACHINE_REGIONS 65
#define MACHINE_ROW 66

/* The number of each call, and the arguments that machine_call takes for it. `given`, `eager`, `copy`, `thread` and `write` are 0 or 1. */
#define MACHINE_CALL_START 0           /* rows, three words a file */
#define MACHINE_CALL_SOUND 1           /* none */
#define MACHINE_CALL_OPEN 2            /* start, size */
#define MACHINE_CALL_CLOSE 3           /* process */
#define MACHINE_CALL_CREATE_PRIVATE 4  /* process, given, start, eager, size, flags, copy, thread */
#define MACHINE_CALL_CREATE_FILE 5     /* process, given, start, size, flags, copy, thread, file, offset, length */
#define MACHINE_CALL_CREATE_SHARED 6   /* process, given, start, size */
#define MACHINE_CALL_REMOVE 7          /* process, addr */
#define MACHINE_CALL_CLEAR 8           /* process */
#define MACHINE_CALL_CARVE 9           /* process, start, end */
#define MACHINE_CALL_COVERS 10         /* process, start, end */
#define MACHINE_CALL_REGION 11         /* process, addr */
#define MACHINE_CALL_REGIONS 12        /* process */
#define MACHINE_CALL_FAULT 13          /* process, addr, write */
#define MACHINE_CALL_POPULATE 14       /* process, addr, len, write */
#define MACHINE_CALL_EAGER 15          /* process */
#define MACHINE_CALL_CLONE_REGION 16   /* process, addr, target */
#define MACHINE_CALL_CLONE 17          /* process, target */
#define MACHINE_CALL_PROTECT 18        /* process, addr, flags */
#define MACHINE_CALL_PIN 19            /* process, addr */
#define MACHINE_CALL_UNPIN 20          /* process, addr */
#define MACHINE_CALL_LOAD 21           /* process, addr */
#define MACHINE_CALL_STORE 22          /* process, addr, byte */

#ifdef __cplusplus
extern "C" {
#endif

/* Makes an empty machine with these frames and files, whatever the words were. A file is three words of `rows`: 1 or 0 for whether it
 * can be read, where its bytes stand in `files`, and how many they are. Leaves the frames' bytes; refuses 1. */
uint64_t machine_start(uint64_t *words, size_t words_len, const uint8_t *frames, size_t frames_len, const uint8_t *files,
                       size_t files_len, const uint64_t *rows, size_t rows_len);

/* Answers 0 for a sound machine and 1 for anything else; changes nothing. */
uint64_t machine_sound(const uint64_t *words, size_t words_len, const uint8_t *frames, size_t frames_len, const uint8_t *files,
                       size_t files_len);

/* Opens the lowest closed process, out[0], with an arena of `size` bytes from `start` on; refuses 1, 3, 4 and 21. */
uint64_t machine_open(uint64_t *words, size_t words_len, const uint8_t *frames, size_t frames_len, const uint8_t *files,
                      size_t files_len, uint64_t start, uint64_t size, uint64_t *out, size_t out_len);

/* Removes all regions of a process and closes it; refuses 1, 2 and, while a region is pinned, 20. */
uint64_t machine_close(uint64_t *words, size_t words_len, const uint8_t *frames, size_t frames_len, const uint8_t *files,
                       size_t files_len, uint64_t process);

/* Creates a private region of `size` bytes and answers its start, out[0]: `start` where `given` is not 0, else the lowest free one.
 * `copy` not 0 means CopyEager, else CopyOnWrite; `thread` not 0 is the per-thread mark; `eager` not 0 gives it a run of zeroed
 * frames. Refuses 1 to 5, 8, 9, 14 and 21. */
uint64_t machine_create_private(uint64_t *words, size_t words_len, uint8_t *frames, size_t frames_len, const uint8_t *files,
                                size_t files_len, uint64_t process, uint64_t given, uint64_t start, uint64_t size, uint64_t flags,
                                uint64_t copy, uint64_t thread, uint64_t eager, uint64_t *out, size_t out_len);

/* The same, never eager, with the contents of `length` bytes of a file from `offset` on; refuses 1 to 6, 8, 9 and 21. */
uint64_t machine_create_file(uint64_t *words, size_t words_len, uint8_t *frames, size_t frames_len, const uint8_t *files,
                             size_t files_len, uint64_t process, uint64_t given, uint64_t start, uint64_t size, uint64_t flags,
                             uint64_t copy, uint64_t thread, uint64_t file, uint64_t offset, uint64_t length, uint64_t *out,
                             size_t out_len);

/* Creates a shared region, a run of zeroed frames, and answers its start, out[0]; refuses 1 to 4, 8, 9, 14 and 21. */
uint64_t machine_create_shared(uint64_t *words, size_t words_len, uint8_t *frames, size_t frames_len, const uint8_t *files,
                               size_t files_len, uint64_t process, uint64_t given, uint64_t start, uint64_t size, uint64_t *out,
                               size_t out_len);

/* Takes the region at an address out of its process and unmaps its pages. A pinned one stays, detached: it keeps its frames and its
 * addresses until its last unpin. Refuses 1, 2, 3 and 7. */
uint64_t machine_remove(uint64_t *words, size_t words_len, const uint8_t *frames, size_t frames_len, const uint8_t *files,
                        size_t files_len, uint64_t process, uint64_t addr);

/* Does so with all regions of a process; refuses 1 and 2. */
uint64_t machine_clear(uint64_t *words, size_t words_len, const uint8_t *frames, size_t frames_len, const uint8_t *files,
                       size_t files_len, uint64_t process);

/* Splits the regions that cross `start` or `end`, which are multiples of 4,096, at most 2^47, and moves the parts to the end of the list;
 * answers the regions that lie inside as machine_regions does. Refuses 1, 2 and 4; at a region with a run 18, at a shared one 19, at a
 * pinned one 20, for want of a slot 21, and the splits before it stay; 20 too where a region inside is pinned, and all splits stay. */
uint64_t machine_carve(uint64_t *words, size_t words_len, const uint8_t *frames, size_t frames_len, const uint8_t *files,
                       size_t files_len, uint64_t process, uint64_t start, uint64_t end, uint64_t *out, size_t out_len);

/* Answers the start of the attached region at an address, out[0]; refuses 1, 2, 3 and 7. */
uint64_t machine_region(const uint64_t *words, size_t words_len, const uint8_t *frames, size_t frames_len, const uint8_t *files,
                        size_t files_len, uint64_t process, uint64_t addr, uint64_t *out, size_t out_len);

/* Sets out[0] to how many regions of a process are attached, and the words behind it to their starts in list order, then zeros: `out` is
 * MACHINE_REGIONS words. Refuses 1 and 2. */
uint64_t machine_regions(const uint64_t *words, size_t words_len, const uint8_t *frames, size_t frames_len, const uint8_t *files,
                         size_t files_len, uint64_t process, uint64_t *out, size_t out_len);

/* Sets out[0] to 1 if every address from `start` up to `end` lies in an attached region, else to 0; refuses 1 and 2. */
uint64_t machine_covers(const uint64_t *words, size_t words_len, const uint8_t *frames, size_t frames_len, const uint8_t *files,
                        size_t files_len, uint64_t process, uint64_t start, uint64_t end, uint64_t *out, size_t out_len);

/* Has the page of an address in place for a read, or for a write where `write` is not 0: maps it, fills or copies a frame where it must.
 * Refuses 1, 2, 3, 7, 12, 13, 14, 15, with 128 pages mapped 16, and for want of a page entry 21. */
uint64_t machine_fault(uint64_t *words, size_t words_len, uint8_t *frames, size_t frames_len, const uint8_t *files,
                       size_t files_len, uint64_t process, uint64_t addr, uint64_t write);

/* Does so for each page of `len` bytes from `addr` on that lies in a region, in rising order. Does nothing where `len` is 0, where the sum
 * passes 2^64 - 1 or where the last address is not canonical. Refuses 1, 2, 3 and, where the last address is in the upper half, 4; at a
 * page 12 to 16 and 21, and the pages before it stay. */
uint64_t machine_populate(uint64_t *words, size_t words_len, uint8_t *frames, size_t frames_len, const uint8_t *files,
                          size_t files_len, uint64_t process, uint64_t addr, uint64_t len, uint64_t write);

/* Does so, for a write, with every private region that is CopyEager, in list order. Refuses 1 and 2; at a page 12, 13, 14, 16 and 21, and
 * the pages before it stay. */
uint64_t machine_eager(uint64_t *words, size_t words_len, uint8_t *frames, size_t frames_len, const uint8_t *files,
                       size_t files_len, uint64_t process);

/* Gives process `target` a clone of the region at an address, at the same addresses: CopyOnWrite shares all frames and makes the source's
 * pages read-only, CopyEager copies each. Refuses 1, 2, 3, 7, then 9, 21 and 14 in this order. */
uint64_t machine_clone_region(uint64_t *words, size_t words_len, uint8_t *frames, size_t frames_len, const uint8_t *files,
                              size_t files_len, uint64_t process, uint64_t addr, uint64_t target);

/* Does so with every region of a process that is not per-thread, in list order. Refuses 1 and 2; at a region 9, 21 and 14 in this order,
 * and the clones before it stay. */
uint64_t machine_clone(uint64_t *words, size_t words_len, uint8_t *frames, size_t frames_len, const uint8_t *files,
                       size_t files_len, uint64_t process, uint64_t target);

/* Gives the region at an address other flags, and its mapped pages too, read-only where a frame has more than one holder; refuses 1, 2,
 * 3, 5, 7 and, for a shared region, 17. */
uint64_t machine_protect(uint64_t *words, size_t words_len, const uint8_t *frames, size_t frames_len, const uint8_t *files,
                         size_t files_len, uint64_t process, uint64_t addr, uint64_t flags);

/* Pins the region at an address once more; refuses 1, 2, 3, 7 and, with 65,535 pins, 21. */
uint64_t machine_pin(uint64_t *words, size_t words_len, const uint8_t *frames, size_t frames_len, const uint8_t *files,
                     size_t files_len, uint64_t process, uint64_t addr);

/* Takes a pin off the region at an address, a detached one too, which goes with its last; refuses 1, 2, 3 and, where there is no pin, 7. */
uint64_t machine_unpin(uint64_t *words, size_t words_len, const uint8_t *frames, size_t frames_len, const uint8_t *files,
                       size_t files_len, uint64_t process, uint64_t addr);

/* Answers the byte at an address, out[0]; refuses 1, 2, 3 and, without the right, 22. */
uint64_t machine_load(const uint64_t *words, size_t words_len, const uint8_t *frames, size_t frames_len, const uint8_t *files,
                      size_t files_len, uint64_t process, uint64_t addr, uint64_t *out, size_t out_len);

/* Puts a byte at an address and changes nothing else; refuses 1, 2, 3 and, without the right, 22. */
uint64_t machine_store(const uint64_t *words, size_t words_len, uint8_t *frames, size_t frames_len, const uint8_t *files,
                       size_t files_len, uint64_t process, uint64_t addr, uint8_t byte);

/* Any call by its number, MACHINE_CALL_..: `call` is the number and then exactly its arguments, `out` is MACHINE_REGIONS words, the call's
 * results and then zeros. Answers as the function of that name. Refuses 1 too, and changes nothing, `out` neither, where the words are no
 * call: where the number is none, where the arguments are not as many, where a flag is neither 0 nor 1 or a byte is above 255. */
uint64_t machine_call(uint64_t *words, size_t words_len, uint8_t *frames, size_t frames_len, const uint8_t *files, size_t files_len,
                      const uint64_t *call, size_t call_len, uint64_t *out, size_t out_len);

/* Many calls with one soundness test for all: every call keeps the rules, so that a test before each would say the same. `calls` has, for each
 * call, how many words it is and then these words, as machine_call takes them, start too: 4, MACHINE_CALL_FAULT, process, addr, write. Each
 * answer is MACHINE_ROW words of `answers`: the number that machine_call answers, then its `out`, zeros where the words are no call. Answers how
 * many calls ran: all that stand there whole, up to the first that does not, and no more than `answers` has rows for; what stands behind
 * these rows stays. A refusal ends nothing. Where the memory is no sound machine every call is refused 1, up to a start that is granted. */
uint64_t machine_run(uint64_t *words, size_t words_len, uint8_t *frames, size_t frames_len, const uint8_t *files, size_t files_len,
                     const uint64_t *calls, size_t calls_len, uint64_t *answers, size_t answers_len);

#ifdef __cplusplus
}
#endif

#endif
