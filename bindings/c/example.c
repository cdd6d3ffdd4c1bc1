/* Assembles a text, runs it on a local tree, and sends the lines of standard input to a session on it.
 *
 *     cc -I.. -o example example.c ../../out/libllbm.a
 *     ./example ../../examples/tour.text source ../../examples/tour.tree < ../../examples/tour.commands
 *
 * Out: the text of the result's tree, and then the reply to each line. Exit status: that of the first call that failed, 9 for a file that
 * can't be read. */
#include <llbm.h>
#include <stdio.h>
#include <stdlib.h>
#include <string.h>

typedef struct {
    uint8_t *at;
    size_t length;
} bytes;

static bytes file(const char *name) {
    bytes found = {malloc(1 << 20), 0};
    FILE *from = fopen(name, "rb");
    if (!found.at || !from) exit(9);
    found.length = fread(found.at, 1, 1 << 20, from);
    fclose(from);
    return found;
}

/* Returns the last call's output or messages. */
static bytes copy(llb *it, size_t (*from)(llb *, uint8_t *, size_t)) {
    uint8_t none;
    bytes copied = {NULL, from(it, &none, 0)};
    copied.at = malloc(copied.length + 1);
    if (!copied.at) exit(3);
    from(it, copied.at, copied.length);
    return copied;
}

static void print(FILE *to, bytes what) {
    fwrite(what.at, 1, what.length, to);
    free(what.at);
}

/* Ends the program with the status of a call that failed, and prints its messages. */
static void check(llb *it, uint8_t status) {
    if (status == 0) return;
    print(stderr, copy(it, llb_messages));
    llb_close(it);
    exit(status);
}

int main(int count, char **words) {
    if (count != 4) return 9;
    bytes text = file(words[1]), tree = file(words[3]);
    llb it = {0};
    check(&it, llb_asm(&it, text.at, text.length));
    bytes definition = copy(&it, llb_output);
    check(&it, llb_local(&it, (uint8_t *)words[2], strlen(words[2]), tree.at, tree.length));
    check(&it, llb_run(&it, definition.at, definition.length));
    print(stdout, copy(&it, llb_output));
    check(&it, llb_open(&it, definition.at, definition.length, 2));
    char line[4096];
    while (fgets(line, sizeof line, stdin)) {
        uint8_t status = llb_line(&it, (uint8_t *)line, strcspn(line, "\n"));
        print(stdout, copy(&it, llb_output));
        if (status == 1) break;
        check(&it, status);
    }
    llb_close(&it);
    free(text.at), free(tree.at), free(definition.at);
    return 0;
}
