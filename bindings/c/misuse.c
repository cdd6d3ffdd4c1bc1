/* What a caller may do wrong, or do oddly, and want of memory.
 *
 *     cc -pthread -Wl,--wrap=malloc,--wrap=realloc,--wrap=free -o misuse misuse.c ../../out/libllbm.a
 *     ./misuse ../../examples/tour.text ../../examples/tour.tree
 *
 * Out: a line for each check that failed; a line for each call with the requests for memory that were refused in turn, and the statuses that
 * it returned then; and `N passed, M failed`. Exit status: 0 all passed; 1 some failed; 9 a file can't be read. */
#include <llbm.h>
#include <pthread.h>
#include <stdio.h>
#include <stdlib.h>
#include <string.h>

enum { ROOM = 1 << 16, THREADS = 2, TURNS = 20 };

/* Which request of this thread is refused, counted from 1; 0 for none. */
static _Thread_local long left;
static int passed, failed;
static uint8_t text[ROOM], tree[ROOM], definition[ROOM];
static size_t text_length, tree_length, definition_length;

/* How many blocks of this thread are not freed. */
static _Thread_local long blocks;

void *__real_malloc(size_t size);
void *__real_realloc(void *at, size_t size);
void __real_free(void *at);

static bool is_refused(void) { return left > 0 && --left == 0; }

void *__wrap_malloc(size_t size) {
    void *made = is_refused() ? NULL : __real_malloc(size);
    blocks += made != NULL;
    return made;
}

void *__wrap_realloc(void *at, size_t size) {
    void *made = is_refused() ? NULL : __real_realloc(at, size);
    blocks += made != NULL && at == NULL;
    return made;
}

void __wrap_free(void *at) {
    blocks -= at != NULL;
    __real_free(at);
}

static void check(bool is_right, const char *what) {
    if (is_right) {
        passed++;
    } else {
        failed++;
        printf("failed: %s\n", what);
    }
}

static size_t file(const char *name, uint8_t *to) {
    FILE *from = fopen(name, "rb");
    if (!from) exit(9);
    size_t length = fread(to, 1, ROOM, from);
    fclose(from);
    return length;
}

static uint8_t line(llb *it, const char *words) { return llb_line(it, (const uint8_t *)words, strlen(words)); }

static uint8_t add(llb *it) { return llb_local(it, (const uint8_t *)"source", 6, tree, tree_length); }

/* Whether the last call's output, or messages, are this text. */
static bool is(llb *it, size_t (*from)(llb *, uint8_t *, size_t), const char *wanted) {
    uint8_t found[ROOM];
    size_t length = from(it, found, sizeof found);
    return length == strlen(wanted) && memcmp(found, wanted, length) == 0;
}

/* Whether the messages are a line `fault` with its number, or a front of this line. */
static bool is_front_of_a_fault(llb *it) {
    const char *word = "fault ";
    uint8_t found[ROOM];
    size_t length = llb_messages(it, found, sizeof found), i = 0;
    while (i < length && i < strlen(word) && found[i] == word[i]) i++;
    while (i >= strlen(word) && i < length && found[i] >= '0' && found[i] <= '9') i++;
    return i == length || (found[i] == '\n' && i + 1 == length);
}

static const char *OPENED = "0 ready\n1 ready\n2 waiting\n";
static const char *STEPPED = "0 running 0\n1 ready\n2 waiting\n";

/* A handle with a local tree, and a session in which one event was done. */
static llb begun(void) {
    llb it = {0};
    check(add(&it) == 0, "a tree is added");
    check(llb_open(&it, definition, definition_length, 2) == 0, "a session is opened");
    check(line(&it, "next") == 0, "an event is done");
    return it;
}

/* ---- misuse */

static void try_ends(void) {
    llb it = begun();
    check(line(&it, "quit") == 1, "quit ends the session");
    check(is(&it, llb_output, ""), "quit has no reply");
    check(line(&it, "status") == 4, "no session is open after it");
    check(line(&it, "quit") == 4, "nor for a second quit");
    check(llb_open(&it, definition, definition_length, 2) == 0, "the local trees are kept");
    check(line(&it, "status") == 0 && is(&it, llb_output, OPENED), "the next session begins at its beginning");
    llb_close(&it);
    llb_close(&it);
    check(line(&it, "status") == 4, "no session is open after a close");
    check(llb_run(&it, definition, definition_length) == 2 && is(&it, llb_messages, "fault 121 source\n"), "no tree is left after a close");
    llb_close(&it);
    llb none = {0};
    llb_close(&none);
    check(is(&none, llb_output, "") && is(&none, llb_messages, ""), "a handle of zeroes has no output");
}

static void try_refusals(void) {
    llb it = begun();
    check(line(&it, "nonsense") == 0 && is(&it, llb_output, "fault 173 2\n"), "a bad line has its number in its reply");
    check(llb_open(&it, (const uint8_t *)"\1", 1, 2) == 2, "bad bytes are refused");
    check(is(&it, llb_output, ""), "a refusal has no output");
    check(llb_open(&it, definition, definition_length, 0) == 2 && is(&it, llb_messages, "fault 122\n"), "no workers are refused");
    check(llb_open(&it, definition, definition_length, 65) == 2 && is(&it, llb_messages, "fault 122\n"), "65 workers are refused");
    check(llb_local(&it, (const uint8_t *)"\xff", 1, tree, tree_length) == 2 && is(&it, llb_messages, "fault 183\n"), "a name is UTF-8");
    check(llb_local(&it, (const uint8_t *)"source", 6, (const uint8_t *)"d", 1) == 2, "a text of no tree is refused");
    check(line(&it, "status") == 0 && is(&it, llb_output, STEPPED), "the session is as it was");
    check(llb_open(&it, (const uint8_t *)"", 0, 1) == 2, "no bytes are refused");
    llb_close(&it);
}

static void try_lengths(void) {
    llb it = {0};
    uint8_t room[8] = "-------", none;
    check(llb_asm(&it, text, text_length) == 0, "a text is assembled");
    check(llb_output(&it, &none, 0) == definition_length, "the whole length is returned for no room");
    check(llb_output(&it, room, 4) == definition_length, "the whole length is returned for little room");
    check(memcmp(room, definition, 4) == 0 && memcmp(room + 4, "---", 4) == 0, "no more is written than there is room for");
    check(llb_output(&it, room, 7) == definition_length && memcmp(room, definition, 7) == 0, "the output can be copied twice");
    check(llb_dis(&it, definition, definition_length) == 0 && llb_output(&it, &none, 0) == text_length, "a call replaces the output");
    llb_close(&it);
}

/* ---- threads */

static void *run_many(void *held) {
    long *wrong = held;
    llb it = {0};
    uint8_t first[ROOM], found[ROOM];
    size_t length = 0;
    *wrong += add(&it) != 0;
    for (int i = 0; i < TURNS; i++) {
        *wrong += llb_run(&it, definition, definition_length) != 0;
        size_t n = llb_output(&it, found, ROOM);
        if (i == 0) memcpy(first, found, length = n);
        *wrong += n != length || memcmp(found, first, n) != 0;
        *wrong += llb_open(&it, definition, definition_length, 4) != 0 || line(&it, "go") != 0 || line(&it, "quit") != 1;
    }
    llb_close(&it);
    return NULL;
}

static void try_threads(void) {
    pthread_t threads[THREADS];
    long wrong[THREADS] = {0};
    for (int i = 0; i < THREADS; i++)
        if (pthread_create(&threads[i], NULL, run_many, &wrong[i])) exit(9);
    for (int i = 0; i < THREADS; i++) {
        pthread_join(threads[i], NULL);
        check(wrong[i] == 0, "a handle in a thread of its own");
    }
}

/* ---- memory */

static uint8_t call_local(llb *it) { return add(it); }
static uint8_t call_open(llb *it) { return llb_open(it, definition, definition_length, 2); }
static uint8_t call_run(llb *it) { return llb_run(it, definition, definition_length); }
static uint8_t call_show(llb *it) { return llb_show(it, definition, definition_length); }
static uint8_t call_findings(llb *it) { return llb_findings(it, definition, definition_length); }
static uint8_t call_plan(llb *it) { return llb_plan(it, definition, definition_length); }
static uint8_t call_matches(llb *it) { return llb_matches(it, definition, definition_length, definition, definition_length); }
static uint8_t call_script(llb *it) { return llb_script(it, (const uint8_t *)"true", 4); }
static uint8_t call_asm(llb *it) { return llb_asm(it, text, text_length); }
static uint8_t call_dis(llb *it) { return llb_dis(it, definition, definition_length); }
static uint8_t call_ops(llb *it) { return llb_ops(it, definition, definition_length); }
static uint8_t call_next(llb *it) { return line(it, "next"); }
static uint8_t call_status(llb *it) { return line(it, "status"); }

/* Whether a session is as it was before a call: or, of a line with this reply, after it, if the output says that it was done. */
static bool is_as_it_was(llb *it, const char *reply) {
    bool is_done = reply && is(it, llb_output, reply);
    return line(it, "status") == 0 && (is_done || is(it, llb_output, STEPPED));
}

/* Refuses each request of a call in turn, each time on a handle that is made anew; a line also has its reply. */
static void refuse(const char *name, uint8_t (*call)(llb *), const char *reply) {
    long refused = 0, threes = 0;
    for (long k = 1;; k++) {
        llb it = begun();
        left = k;
        uint8_t status = call(&it);
        bool was_refused = left == 0;
        left = 0;
        if (was_refused) {
            refused++;
            threes += status == 3;
            check(status == 3 || reply, name);
            check(status != 3 || is_front_of_a_fault(&it), "the messages are a front of the fault's line");
            check(is_as_it_was(&it, reply), "the session is as it was");
        }
        check(!was_refused || call(&it) == 0, "the same call with memory");
        check(llb_run(&it, definition, definition_length) == 0, "the local trees are as they were");
        llb_close(&it);
        check(blocks == 0, "a handle that is closed has freed all its memory");
        if (!was_refused) {
            check(status == 0, name);
            break;
        }
    }
    printf("%s: %ld refused, %ld with status 3\n", name, refused, threes);
}

/* The first call of a handle, whose own memory is refused. */
static void refuse_first(void) {
    llb it = {0};
    left = 1;
    uint8_t status = llb_show(&it, definition, definition_length);
    check(status == 3 && left == 0, "memory for the handle is refused");
    check(is(&it, llb_messages, ""), "and then it holds nothing");
    check(llb_show(&it, definition, definition_length) == 0, "and can be used");
    llb_close(&it);
}

int main(int count, char **words) {
    if (count != 3) return 9;
    text_length = file(words[1], text);
    tree_length = file(words[2], tree);
    llb it = {0};
    check(llb_asm(&it, text, text_length) == 0, "a text is assembled");
    definition_length = llb_output(&it, definition, ROOM);
    llb_close(&it);
    try_ends();
    try_refusals();
    try_lengths();
    try_threads();
    refuse_first();
    refuse("llb_local", call_local, NULL);
    refuse("llb_open", call_open, NULL);
    refuse("llb_run", call_run, NULL);
    refuse("llb_show", call_show, NULL);
    refuse("llb_findings", call_findings, NULL);
    refuse("llb_plan", call_plan, NULL);
    refuse("llb_matches", call_matches, NULL);
    refuse("llb_script", call_script, NULL);
    refuse("llb_asm", call_asm, NULL);
    refuse("llb_dis", call_dis, NULL);
    refuse("llb_ops", call_ops, NULL);
    refuse("llb_line next", call_next, "2 claim 1 1 -> file 1\n");
    refuse("llb_line status", call_status, STEPPED);
    printf("%d passed, %d failed\n", passed, failed);
    return failed != 0;
}
