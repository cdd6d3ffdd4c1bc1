/* The library of llbm for C: it assembles, shows, disassembles, runs and steps through definitions of LLB.
 * Link libllbm.a, which llbm-tools library builds. docs/EMBEDDING.md describes each call, and says what is proved of it.
 *
 * What a caller has to promise, since nothing checks it: A handle is a struct of zeroes until a call sets it, and then what the last call
 * left there. Its fields are neither read nor written. It may be moved (copied to another place), if the handle in the old place is not used
 * any more. All calls of a handle are made by one thread, one after another, none from a signal handler and none in the forked child of a
 * process with several threads. No call is left by `longjmp`, or because its thread is canceled. `it` is not null and leads to a handle.
 * Each other pointer is to as many bytes as the length after it says, and is not null, also where the length is 0. Bytes behind a `const`
 * pointer do not change while the call runs, and no other pointer of the call leads to what is behind a pointer that is not `const`, `it`
 * included. `malloc`, `realloc` and `free` are those of one allocator, and align a block to each power of two up to 16 that divides its
 * size. The thread's stack has 256 KiB; no proof covers how deep it gets.
 *
 * What a call returns: the status of the program's command. 0: done. 1: of llb_run, a vertex failed; of llb_line, the line ended the
 * session. 2: what was handed in is refused. 3: memory was refused. 4: of llb_line, no session is open. At 2 the messages are a line `fault`
 * with its number (docs/FAULTS.md); llb_findings and llb_script have their lines in the output instead. At 3 output and messages may be cut
 * short anywhere, or be empty, since there may be no memory for them.
 *
 * If a call returns 2 or 3, the local trees and the session are as they were: a line, too, is either done, with its whole reply as the
 * output, or not done. What the call before wrote, its output and its messages, is removed by each call but llb_output and llb_messages. */
#ifndef LLBM_H
#define LLBM_H

#include <stdbool.h>
#include <stddef.h>
#include <stdint.h>

#ifdef __cplusplus
extern "C" {
#endif

/* A handle: local trees, at most one session, and the last call's output and messages. `llb it = {0};` makes one. */
typedef struct {
    bool is_set;
    void *at;
} llb;

/* Adds the tree of a text, as `llbm run` prints it, as the local tree of a name in UTF-8. Of two under one name, the later holds. */
uint8_t llb_local(llb *it, const uint8_t *name, size_t name_length, const uint8_t *text, size_t text_length);

/* Opens a session on a definition by 1 to 64 workers and the local trees. The session that was open before, if any, ends. */
uint8_t llb_open(llb *it, const uint8_t *definition, size_t length, uint32_t workers);

/* Sends a line, without its end, to the session. The output is its reply, which is that of `llbm step`; `quit` ends the session. */
uint8_t llb_line(llb *it, const uint8_t *line, size_t length);

/* Runs a definition by one worker on the local trees. The output is the text of the result's tree; at 1 the messages have a line for each
 * vertex that failed. */
uint8_t llb_run(llb *it, const uint8_t *definition, size_t length);

/* Writes the graph of a definition, as `llbm show`, the definition of a text, as `llbm asm`, or the text of a definition, as `llbm dis`,
 * to the output. */
uint8_t llb_show(llb *it, const uint8_t *definition, size_t length);
uint8_t llb_asm(llb *it, const uint8_t *text, size_t length);
uint8_t llb_dis(llb *it, const uint8_t *definition, size_t length);

/* Writes the ops of a definition's entries, as `llbm show --ops`, to the output: each entry that can be read, whatever its encoding is, in the words
 * of llb_dis. */
uint8_t llb_ops(llb *it, const uint8_t *definition, size_t length);

/* Writes a line for each fault of a definition, as `llbm show --findings`, to the output: 0 if there is none, 2 if there is any. At 2 the
 * messages are empty. */
uint8_t llb_findings(llb *it, const uint8_t *definition, size_t length);

/* Writes a line for each vertex of a definition to the output: whether what it reads goes by value, as `llbm show --plan`, or which vertex of
 * an older definition it matches, as `llbm show --matches`. */
uint8_t llb_plan(llb *it, const uint8_t *definition, size_t length);
uint8_t llb_matches(llb *it, const uint8_t *old, size_t old_length, const uint8_t *definition, size_t length);

/* Writes the line of the fault of a text as a script, which `/bin/sh -c` would run, to the output: 0 if it is a script, 2 if it is none. At 2 the
 * messages are empty, unless the text is not UTF-8. */
uint8_t llb_script(llb *it, const uint8_t *text, size_t length);

/* Copies what fits of the last call's output, or messages, to the front of `out`, and returns the length of the whole. */
size_t llb_output(llb *it, uint8_t *out, size_t room);
size_t llb_messages(llb *it, uint8_t *out, size_t room);

/* The version, as the program prints it: a line without its end, which says `not proved` if the library was compiled without proof. */
const char *llb_version(void);

/* Frees what is held. The handle is then as one of zeroes: it may be used and closed again. */
void llb_close(llb *it);

#ifdef __cplusplus
}
#endif

#endif
