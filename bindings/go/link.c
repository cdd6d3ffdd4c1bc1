// The functions of the library, where it is not linked into the program: each leads to the shared object that llbm_load opened.
// They are weak, so that those of an archive that is linked as a whole take their place.
#include "llbm.h"
#include <dlfcn.h>

#define WEAK __attribute__((weak))

static struct {
    __typeof__(llb_local) *local;
    __typeof__(llb_open) *open;
    __typeof__(llb_line) *line;
    __typeof__(llb_run) *run;
    __typeof__(llb_show) *show;
    __typeof__(llb_findings) *findings;
    __typeof__(llb_plan) *plan;
    __typeof__(llb_matches) *matches;
    __typeof__(llb_script) *script;
    __typeof__(llb_asm) *assemble;
    __typeof__(llb_dis) *disassemble;
    __typeof__(llb_ops) *ops;
    __typeof__(llb_output) *output;
    __typeof__(llb_messages) *messages;
    __typeof__(llb_version) *version;
    __typeof__(llb_close) *close;
} calls;

// Opens the shared object at a path, and returns why that failed, or nothing.
const char *llbm_load(const char *path) {
    void *library = dlopen(path, RTLD_NOW | RTLD_LOCAL);
    if (!library) return dlerror();
    const struct {
        const char *name;
        void **at;
    } names[] = {
        {"llb_local", (void **)&calls.local},       {"llb_open", (void **)&calls.open},
        {"llb_line", (void **)&calls.line},         {"llb_run", (void **)&calls.run},
        {"llb_show", (void **)&calls.show},         {"llb_asm", (void **)&calls.assemble},
        {"llb_dis", (void **)&calls.disassemble},   {"llb_output", (void **)&calls.output},
        {"llb_messages", (void **)&calls.messages}, {"llb_close", (void **)&calls.close},
        {"llb_version", (void **)&calls.version},   {"llb_findings", (void **)&calls.findings},
        {"llb_plan", (void **)&calls.plan},         {"llb_matches", (void **)&calls.matches},
        {"llb_script", (void **)&calls.script},     {"llb_ops", (void **)&calls.ops},
    };
    for (size_t i = 0; i < sizeof names / sizeof *names; i++) {
        *names[i].at = dlsym(library, names[i].name);
        if (!*names[i].at) return dlerror();
    }
    return NULL;
}

WEAK const char *llb_version(void) { return calls.version ? calls.version() : NULL; }

WEAK uint8_t llb_local(llb *it, const uint8_t *name, size_t name_length, const uint8_t *text, size_t text_length) {
    return calls.local(it, name, name_length, text, text_length);
}

WEAK uint8_t llb_open(llb *it, const uint8_t *definition, size_t length, uint32_t workers) {
    return calls.open(it, definition, length, workers);
}

WEAK uint8_t llb_line(llb *it, const uint8_t *line, size_t length) { return calls.line(it, line, length); }

WEAK uint8_t llb_run(llb *it, const uint8_t *definition, size_t length) { return calls.run(it, definition, length); }

WEAK uint8_t llb_show(llb *it, const uint8_t *definition, size_t length) { return calls.show(it, definition, length); }

WEAK uint8_t llb_findings(llb *it, const uint8_t *definition, size_t length) { return calls.findings(it, definition, length); }

WEAK uint8_t llb_plan(llb *it, const uint8_t *definition, size_t length) { return calls.plan(it, definition, length); }

WEAK uint8_t llb_matches(llb *it, const uint8_t *old, size_t old_length, const uint8_t *definition, size_t length) {
    return calls.matches(it, old, old_length, definition, length);
}

WEAK uint8_t llb_script(llb *it, const uint8_t *text, size_t length) { return calls.script(it, text, length); }

WEAK uint8_t llb_asm(llb *it, const uint8_t *text, size_t length) { return calls.assemble(it, text, length); }

WEAK uint8_t llb_dis(llb *it, const uint8_t *definition, size_t length) { return calls.disassemble(it, definition, length); }

WEAK uint8_t llb_ops(llb *it, const uint8_t *definition, size_t length) { return calls.ops(it, definition, length); }

WEAK size_t llb_output(llb *it, uint8_t *out, size_t room) { return calls.output(it, out, room); }

WEAK size_t llb_messages(llb *it, uint8_t *out, size_t room) { return calls.messages(it, out, room); }

WEAK void llb_close(llb *it) { calls.close(it); }
