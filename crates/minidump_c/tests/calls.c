/* Calls each function of minidump.h, with arguments whose order shows, and prints what it tells of six dumps: one with
 * regions of memory, one of a crash, one with the frames of a stack, one that can't be read in part, one of a crash on a
 * thread that its list lacks, with a context that is cut, and one of a signal that was sent; the last argument is a text of
 * names. */
#include "minidump.h"

#include <stdio.h>
#include <stdlib.h>
#include <string.h>

static uint8_t *load(const char *path, size_t *len) {
    FILE *file = fopen(path, "rb");
    if (!file) exit(2);
    long size = fseek(file, 0, SEEK_END) ? -1 : ftell(file);
    uint8_t *bytes = size < 0 ? NULL : malloc((size_t)size + 1);
    if (!bytes) exit(2);
    rewind(file);
    *len = fread(bytes, 1, (size_t)size, file);
    fclose(file);
    return bytes;
}

static void tell(const char *call, uint32_t status) {
    char name[32] = {0};
    size_t size = minidump_error_name(status, (uint8_t *)name, sizeof name);
    printf("%s: %u %s %zu\n", call, status, name, size);
}

typedef uint32_t text_call(const uint8_t *, size_t, uint8_t *, size_t, size_t *);

/* The text twice: asked for its size, and whole; and as much of it as fits, with the bytes after it as they were. */
static void text(const char *name, text_call *call, const uint8_t *bytes, size_t len) {
    size_t size = 77, again = 77, cut = 77;
    uint8_t none = 'n', few[8];
    tell(name, call(bytes, len, &none, 0, &size));
    uint8_t *whole = malloc(size + 3);
    if (!whole) exit(2);
    memset(whole, '#', size + 3);
    tell(name, call(bytes, len, whole, size + 3, &again));
    fwrite(whole, 1, size + 3, stdout);
    call(bytes, len, few, 5, &cut);
    printf("\n%c %zu %zu %zu %.5s\n", none, size, again, cut, (char *)few);
    free(whole);
    memset(few, '#', 8);
    cut = 77;
    tell(name, call(bytes, 31, few, 8, &cut));
    printf("%.8s %zu\n", (char *)few, cut);
}

static void memory(const uint8_t *bytes, size_t len, uint64_t address) {
    struct minidump_region region = {77, 78};
    uint8_t read[6] = "######";
    size_t count = 77;
    tell("memory_at", minidump_memory_at(bytes, len, address, &region));
    printf("0x%llx 0x%llx\n", (unsigned long long)region.base, (unsigned long long)region.size);
    tell("read_memory", minidump_read_memory(bytes, len, address, read, 4, &count));
    printf("%zu: %02x %02x %02x %02x %02x %02x\n", count, read[0], read[1], read[2], read[3], read[4], read[5]);
}

static void table(const uint8_t *bytes, size_t len, size_t room) {
    struct minidump_region rows[3] = {{71, 72}, {73, 74}, {75, 76}};
    size_t count = 77;
    tell("memory_table", minidump_memory_table(bytes, len, rows, room, &count));
    printf("%zu:", count);
    for (int i = 0; i < 3; i++) printf(" 0x%llx 0x%llx", (unsigned long long)rows[i].base, (unsigned long long)rows[i].size);
    printf("\n");
}

/* All that minidump_crash writes, filled with numbers that show what it left as it was. */
static struct rows {
    struct minidump_crash crash;
    struct minidump_frame frames[6];
    struct minidump_register registers[3];
    struct minidump_thread threads[3];
    struct minidump_module modules[3];
    struct minidump_unloaded unloaded[3];
    uint8_t texts[4096];
    uint64_t line;
} rows;

/* Calls minidump_crash with room for so many items of each table, at most 3, and so many bytes of texts. */
static void read_crash(const uint8_t *bytes, size_t len, const char *names, size_t names_len, size_t scan, size_t room, size_t texts) {
    memset(&rows, '#', sizeof rows);
    tell("crash", minidump_crash(bytes, len, (const uint8_t *)names, names_len, scan, &rows.crash, rows.frames, 2 * room,
                                 rows.registers, room, rows.threads, room, rows.modules, room, rows.unloaded, room, rows.texts, texts,
                                 &rows.line));
}

/* A text with ? for each control character, where the buffer has it. */
static void print_text(const char *name, struct minidump_span span) {
    printf(" %s %zu+%zu ", name, span.offset, span.len);
    if (span.offset < sizeof rows.texts && span.len <= sizeof rows.texts - span.offset)
        for (size_t i = 0; i < span.len; i++) putchar(rows.texts[span.offset + i] < ' ' ? '?' : rows.texts[span.offset + i]);
    printf(";");
}

typedef unsigned long long number;

/* Tells whether a call left a row as it was, and prints its name if so. */
static int is_left(const char *name, const void *row, size_t size) {
    for (size_t i = 0; i < size; i++)
        if (((const char *)row)[i] != '#') return 0;
    printf("  %s as it was\n", name);
    return 1;
}

static void print_exception(const struct minidump_exception *e) {
    printf("exception %u thread %u 0x%x 0x%x at 0x%llx nested 0x%llx; access %u; sender %u %u %u %u %u; problem %u; parameters %u:",
           e->has_exception, e->thread, e->code, e->flags, (number)e->address, (number)e->nested, e->access, e->is_sent, e->has_sender, e->sender,
           e->has_sender_user, e->sender_user, e->context_problem, e->parameter_count);
    for (int i = 0; i < 15; i++) printf(" 0x%llx", (number)e->parameters[i]);
    printf("\n");
}

static void print_facts(const struct minidump_facts *a) {
    printf("address %u 0x%llx; null %u 0x%llx; canonical %u; module %u %zu 0x%llx; unloaded %u %zu; stack %u %zu below %u %zu; ",
           a->has_address, (number)a->address, a->has_null_offset, (number)a->null_offset, a->is_canonical, a->has_module, a->module,
           (number)a->module_offset, a->has_unloaded, a->unloaded, a->has_stack_of, a->stack_of, a->has_below_stack, a->below_stack);
    printf("memory %u %u %u%u%u%u\n", a->has_memory, a->memory_state, a->is_readable, a->is_writable, a->is_executable, a->is_guarded);
}

static void print_crash(const struct minidump_crash *c) {
    print_exception(&c->exception);
    print_facts(&c->facts);
    printf("thread %u %zu %u; context %u %zu; end %u; damage %zu; ", c->has_thread, c->thread_index, c->thread, c->context,
           c->register_size, c->walk_end, c->damage_count);
    printf("system %u %u %u %u; process %u %u; uptime %u %llu; written %u\n", c->has_system, c->os, c->cpu, c->processors,
           c->has_process_id, c->process_id, c->has_uptime, (number)c->uptime, c->written);
    printf("frames %zu registers %zu threads %zu modules %zu unloaded %zu texts %zu\n", c->frame_count, c->register_count,
           c->thread_count, c->module_count, c->unloaded_count, c->texts_len);
}

static void crash(const uint8_t *bytes, size_t len, const char *names, size_t names_len, size_t scan, size_t room, size_t texts) {
    read_crash(bytes, len, names, names_len, scan, room, texts);
    struct minidump_crash *c = &rows.crash;
    if (is_left("crash", &rows, sizeof rows)) return;
    print_crash(c);
    print_text("reason", c->reason);
    print_text("version", c->version);
    print_text("build", c->build);
    print_text("cpu_model", c->cpu_model);
    printf("\n");
    for (int i = 0; i < 6; i++) {
        struct minidump_frame *f = &rows.frames[i];
        if (is_left("frame", f, sizeof *f)) continue;
        printf("  frame 0x%llx 0x%llx 0x%llx %u 0x%llx %u %zu 0x%llx %u\n", (number)f->address, (number)f->instruction,
               (number)f->stack_pointer, f->has_frame_pointer, (number)f->frame_pointer, f->has_module, f->module,
               (number)f->module_offset, f->trust);
    }
    for (int i = 0; i < 3; i++) {
        if (is_left("register", &rows.registers[i], sizeof rows.registers[i])) continue;
        printf("  register 0x%llx", (number)rows.registers[i].value);
        print_text("name", rows.registers[i].name);
        printf("\n");
    }
    for (int i = 0; i < 3; i++) {
        struct minidump_thread *t = &rows.threads[i];
        if (is_left("thread", t, sizeof *t)) continue;
        printf("  thread %u %u %u 0x%llx 0x%llx %zu %zu %zu %zu", t->id, t->has_context, t->is_listed, (number)t->stack_base,
               (number)t->stack_size, t->frame_count, t->candidate_count, t->short_size, t->whole_size);
        print_text("name", t->name);
        print_text("last_error", t->last_error);
        printf("\n");
    }
    for (int i = 0; i < 3; i++) {
        struct minidump_module *m = &rows.modules[i];
        if (is_left("module", m, sizeof *m)) continue;
        printf("  module 0x%llx 0x%llx", (number)m->base, (number)m->end);
        print_text("path", m->path);
        print_text("version", m->version);
        print_text("code_id", m->code_id);
        print_text("debug_file", m->debug_file);
        print_text("debug_id", m->debug_id);
        printf("\n");
    }
    for (int i = 0; i < 3; i++) {
        struct minidump_unloaded *u = &rows.unloaded[i];
        if (is_left("unloaded", u, sizeof *u)) continue;
        printf("  unloaded 0x%llx 0x%llx", (number)u->base, (number)u->end);
        print_text("path", u->path);
        print_text("code_id", u->code_id);
        printf("\n");
    }
    printf("%llx %.8s\n", (number)rows.line, (char *)rows.texts);
}

/* The reason in the report and in the crash, by a text of names. */
static void named(const uint8_t *bytes, size_t len, const char *names, size_t names_len) {
    static char report[1 << 17];
    size_t size = 77;
    uint64_t line = 78;
    memset(report, '#', 32);
    tell("report_named", minidump_report_named(bytes, len, (const uint8_t *)names, names_len, (uint8_t *)report,
                                               sizeof report - 1, &size, &line));
    report[size < sizeof report ? size : sizeof report - 1] = 0;
    const char *reason = strstr(report, "crash_reason");
    printf("%llu %.8s %.*s\n", (unsigned long long)line, report, reason ? (int)strcspn(reason, "\n") : 0, reason);

    read_crash(bytes, len, names, names_len, 8, 3, sizeof rows.texts);
    printf("%llx", (number)rows.line);
    print_text("reason", rows.crash.reason);
    printf("\n");
}

/* Whether the JSON text is whole and has variables of the environment, its beginning, and what stands at its end, and after
 * it or after the room for it. */
static void json(const uint8_t *bytes, size_t len, const char *names, size_t names_len, uint8_t environment, size_t room) {
    static char text[1 << 16];
    size_t size = 77;
    uint64_t line = 78;
    memset(text, '#', sizeof text - 1);
    tell("crash_json", minidump_crash_json(bytes, len, (const uint8_t *)names, names_len, 8, 10, environment, (uint8_t *)text, room,
                                           &size, &line));
    size_t end = size < room ? size : room;
    printf("%llu %d %d %.30s .. %.3s\n", (number)line, size < room, strstr(text, "\"environment\":[{") != NULL, text,
           text + (end < 3 ? 0 : end - 2));
}

/* NULL is taken where the number after it is 0. */
static void nulls(const uint8_t *bytes, size_t len) {
    size_t size[6] = {77, 77, 77, 77, 77, 77};
    uint64_t line = 78;
    struct minidump_crash c;
    struct minidump_region region;
    printf("%zu", minidump_error_name(MINIDUMP_DATA_ERROR, NULL, 0));
    printf(" %u", minidump_dir(bytes, len, NULL, 0, &size[0]));
    printf(" %u", minidump_report(bytes, len, NULL, 0, &size[1]));
    printf(" %u", minidump_report_named(bytes, len, NULL, 0, NULL, 0, &size[2], &line));
    printf(" %u", minidump_read_memory(bytes, len, 0x12f000, NULL, 0, &size[3]));
    printf(" %u", minidump_memory_table(bytes, len, NULL, 0, &size[4]));
    printf(" %u", minidump_crash_json(bytes, len, NULL, 0, 8, 10, 0, NULL, 0, &size[5], &line));
    printf(" %u:", minidump_crash(bytes, len, NULL, 0, 8, &c, NULL, 0, NULL, 0, NULL, 0, NULL, 0, NULL, 0, NULL, 0, &line));
    for (int i = 0; i < 5; i++) printf(" %zu", size[i]);
    printf(" %d", size[5] > 1000);
    printf(" %zu %zu %zu %llu\n", c.frame_count, c.module_count, c.texts_len, (number)line);
    printf("%u", minidump_dir(NULL, 0, NULL, 0, &size[0]));
    printf(" %u", minidump_report(NULL, 0, NULL, 0, &size[1]));
    printf(" %u", minidump_crash(NULL, 0, NULL, 0, 0, &c, NULL, 0, NULL, 0, NULL, 0, NULL, 0, NULL, 0, NULL, 0, &line));
    printf(" %u\n", minidump_memory_at(NULL, 0, 0, &region));
}

int main(int argc, char **argv) {
    if (argc != 8) return 2;
    size_t len = 0, dump_len = 0, trace_len = 0, damaged_len = 0, unlisted_len = 0, sent_len = 0, names_len = 0;
    uint8_t *regions = load(argv[1], &len), *dump = load(argv[2], &dump_len), *trace = load(argv[3], &trace_len);
    uint8_t *damaged = load(argv[4], &damaged_len), *unlisted = load(argv[5], &unlisted_len);
    uint8_t *sent = load(argv[6], &sent_len);
    char *names = (char *)load(argv[7], &names_len);

    printf("version %d\n", minidump_version() == MINIDUMP_VERSION);
    for (uint32_t status = 0; status <= 18; status++) tell("error_name", status);
    text("dir", minidump_dir, regions, len);
    text("report", minidump_report, regions, len);
    memory(regions, len, 0x1008);
    memory(regions, len, 1);
    memory(regions, 31, 0x1008);
    table(regions, len, 3);
    table(regions, len, 1);
    table(regions, 31, 3);
    crash(dump, dump_len, "", 0, 8, 3, sizeof rows.texts);
    crash(dump, dump_len, names, names_len, 8, 1, 7);
    crash(trace, trace_len, "", 0, 8, 3, sizeof rows.texts);
    crash(trace, trace_len, names, names_len, 0, 2, sizeof rows.texts);
    crash(damaged, damaged_len, "", 0, 8, 3, sizeof rows.texts);
    crash(unlisted, unlisted_len, "", 0, 8, 3, sizeof rows.texts);
    crash(sent, sent_len, "", 0, 8, 3, sizeof rows.texts);
    crash(regions, len, "", 0, 8, 3, sizeof rows.texts);
    crash(dump, 31, "", 0, 8, 3, sizeof rows.texts);
    json(dump, dump_len, names, names_len, 0, 1 << 15);
    json(dump, dump_len, names, names_len, 1, 1 << 15);
    json(dump, dump_len, "", 0, 0, 40);
    json(dump, 31, "", 0, 0, 40);
    json(dump, dump_len, "Linux\n", 6, 0, 40);
    named(dump, dump_len, names, names_len);
    named(trace, trace_len, names, names_len);
    named(dump, dump_len, "", 0);
    named(dump, dump_len, "# none\n\nWindows 0xc0000005\n", 27);
    named(dump, 31, "Linux 11 SIGSEGV\nLinux 11 SIGSEGV\n", 34);
    named(dump, 31, names, names_len);
    named(regions, len, names, names_len);
    nulls(dump, dump_len);
    free(regions);
    free(dump);
    free(trace);
    free(damaged);
    free(unlisted);
    free(sent);
    free(names);
    return 0;
}
