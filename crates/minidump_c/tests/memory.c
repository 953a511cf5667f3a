/* Lets each allocation fail in turn. Each call then returns MINIDUMP_OUT_OF_MEMORY and leaves what it was passed as it was, or
 * it gets on without and does what it does otherwise. It keeps no memory, and works again later. */
#include "minidump.h"

#include <stdio.h>
#include <stdlib.h>
#include <string.h>

static long left = -1, live = 0;

void *__real_malloc(size_t size);
void *__real_realloc(void *block, size_t size);
void __real_free(void *block);

static int fails(void) { return left >= 0 && left-- == 0; }

void *__wrap_malloc(size_t size) {
    void *block = fails() ? NULL : __real_malloc(size);
    live += block != NULL;
    return block;
}

void *__wrap_realloc(void *block, size_t size) {
    void *moved = fails() ? NULL : __real_realloc(block, size);
    live += !block && moved;
    return moved;
}

void __wrap_free(void *block) {
    live -= block != NULL;
    __real_free(block);
}

static uint8_t bytes[1 << 20];
static const uint8_t names[] = "Linux 11 SIGSEGV\nWindows 0xc0000005 EXCEPTION_ACCESS_VIOLATION\nWindowsAccess 0 READ\n";
static size_t len;

/* All that a call may write. */
static struct written {
    uint8_t text[1 << 16];
    size_t size;
    struct minidump_region region, regions[64];
    struct minidump_crash crash;
    struct minidump_frame frames[8];
    struct minidump_register registers[32];
    struct minidump_thread threads[8];
    struct minidump_module modules[8];
    struct minidump_unloaded unloaded[8];
    uint64_t line;
} written, whole, before;

static uint32_t call(int which) {
    struct written *w = &written;
    memset(w, '#', sizeof *w);
    switch (which) {
    case 0: return minidump_dir(bytes, len, w->text, sizeof w->text, &w->size);
    case 1: return minidump_report(bytes, len, w->text, sizeof w->text, &w->size);
    case 2: return minidump_memory_at(bytes, len, 0x12f000, &w->region);
    case 3: return minidump_memory_table(bytes, len, w->regions, 64, &w->size);
    case 4: return minidump_report_named(bytes, len, names, sizeof names - 1, w->text, sizeof w->text, &w->size, &w->line);
    case 5: return minidump_crash(bytes, len, names, sizeof names - 1, 8, &w->crash, w->frames, 8, w->registers, 32, w->threads, 8,
                                  w->modules, 8, w->unloaded, 8, w->text, sizeof w->text, &w->line);
    case 6: return minidump_crash_json(bytes, len, names, sizeof names - 1, 8, 10, 1, w->text, sizeof w->text, &w->size, &w->line);
    default: return minidump_read_memory(bytes, len, 0x12f000, w->text, sizeof w->text, &w->size);
    }
}

int main(int argc, char **argv) {
    FILE *file = argc == 2 ? fopen(argv[1], "rb") : NULL;
    if (!file) return 2;
    len = fread(bytes, 1, sizeof bytes, file);
    fclose(file);
    memset(&before, '#', sizeof before);
    int bad = 0;
    for (int which = 0; which < 8; which++) {
        long held = live, told = 0;
        uint32_t wanted = call(which);
        memcpy(&whole, &written, sizeof whole);
        for (long turn = 0, reached = 1; reached; turn++) {
            left = turn;
            uint32_t status = call(which);
            reached = left < 0;
            left = -1;
            int fails = reached && status == MINIDUMP_OUT_OF_MEMORY;
            told += fails;
            bad += live != held || (!fails && status != wanted);
            bad += memcmp(&written, fails ? &before : &whole, sizeof written) != 0;
        }
        bad += call(which) != wanted || wanted != MINIDUMP_OK || told == 0;
    }
    if (bad) printf("%d calls did not bear a failed allocation\n", bad);
    return bad != 0;
}
