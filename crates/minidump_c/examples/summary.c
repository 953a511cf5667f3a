/* Prints the crash that a minidump is of, with the frames of its thread: summary FILE */
#include "minidump.h"

#include <stdio.h>
#include <stdlib.h>

/* Returns the bytes of a file, or NULL after it has said why it can't be read. */
static uint8_t *load(const char *path, size_t *len) {
    FILE *file = fopen(path, "rb");
    if (!file) return perror(path), NULL;
    uint8_t *bytes = NULL, *more = NULL;
    *len = 0;
    for (size_t room = 1 << 16; (more = realloc(bytes, room)) != NULL; room *= 2) {
        bytes = more;
        *len += fread(bytes + *len, 1, room - *len, file);
        if (*len < room) break;
    }
    if (!more || ferror(file)) {
        perror(path);
        free(bytes);
        bytes = NULL;
    }
    fclose(file);
    return bytes;
}

static const uint8_t *texts;

/* Returns where the last part of a path begins. */
static struct minidump_span file_name(struct minidump_span path) {
    struct minidump_span name = path;
    for (size_t i = 0; i < path.len; i++) {
        uint8_t byte = texts[path.offset + i];
        if (byte == '/' || byte == '\\') name.offset = path.offset + i + 1, name.len = path.len - i - 1;
    }
    return name;
}

static void print_text(struct minidump_span span) { fwrite(texts + span.offset, 1, span.len, stdout); }

static void print_place(const struct minidump_module *module, uint64_t offset) {
    printf(" in ");
    print_text(file_name(module->path));
    printf("+0x%llx", (unsigned long long)offset);
}

static void print_crash(const struct minidump_crash *crash, const struct minidump_frame *frames,
                        const struct minidump_module *modules) {
    static const char *const known_by[] = {"", "context", "frame pointer", "scan", "cfi", "link register"};
    const struct minidump_facts *facts = &crash->facts;
    if (crash->has_thread) printf("thread  %u\n", (unsigned)crash->thread);
    if (facts->has_address) printf("address 0x%llx", (unsigned long long)facts->address);
    if (facts->has_null_offset) printf(", null + 0x%llx", (unsigned long long)facts->null_offset);
    if (facts->has_module) print_place(&modules[facts->module], facts->module_offset);
    if (facts->has_address) printf("\n");
    if (crash->reason.len) printf("reason  "), print_text(crash->reason), printf("\n");
    if (crash->exception.has_sender) printf("sent by process %u\n", (unsigned)crash->exception.sender);
    for (size_t i = 0; i < crash->frame_count; i++) {
        printf("#%-2zu     0x%llx", i, (unsigned long long)frames[i].address);
        if (frames[i].has_module) print_place(&modules[frames[i].module], frames[i].module_offset);
        printf(", %s\n", known_by[frames[i].trust]);
    }
    if (crash->damage_count) printf("something of the dump can't be read\n");
}

/* Asks for the sizes first, and then for the tables. Pass a text of names in place of NULL for the names of codes. */
static uint32_t summarise(const uint8_t *bytes, size_t len) {
    struct minidump_crash crash;
    uint64_t line;
    uint32_t status =
        minidump_crash(bytes, len, NULL, 0, 8, &crash, NULL, 0, NULL, 0, NULL, 0, NULL, 0, NULL, 0, NULL, 0, &line);
    if (status != MINIDUMP_OK) return status;
    struct minidump_frame *frames = malloc((crash.frame_count + 1) * sizeof *frames);
    struct minidump_module *modules = malloc((crash.module_count + 1) * sizeof *modules);
    uint8_t *room = malloc(crash.texts_len + 1);
    status = MINIDUMP_OUT_OF_MEMORY;
    if (frames && modules && room)
        status = minidump_crash(bytes, len, NULL, 0, 8, &crash, frames, crash.frame_count, NULL, 0, NULL, 0, modules,
                                crash.module_count, NULL, 0, room, crash.texts_len, &line);
    texts = room;
    if (status == MINIDUMP_OK) print_crash(&crash, frames, modules);
    free(frames);
    free(modules);
    free(room);
    return status;
}

int main(int argc, char **argv) {
    if (argc != 2) return fprintf(stderr, "usage: summary FILE\n"), 2;
    if (minidump_version() != MINIDUMP_VERSION) return fprintf(stderr, "the library is of another version\n"), 2;
    size_t len = 0;
    uint8_t *bytes = load(argv[1], &len);
    if (!bytes) return 1;
    uint32_t status = summarise(bytes, len);
    free(bytes);
    if (status == MINIDUMP_OK) return 0;
    char name[32];
    size_t size = minidump_error_name(status, (uint8_t *)name, sizeof name);
    return fprintf(stderr, "%s: %.*s\n", argv[1], (int)(size < sizeof name ? size : sizeof name), name), 1;
}
