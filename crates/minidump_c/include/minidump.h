/* minidump: reads the crash files that Windows, Breakpad and Crashpad write.
 *
 * A call about a dump takes the bytes of the whole file, which may be damaged or forged, and keeps nothing: no call frees
 * or holds what it is passed. A buffer is a pointer and, after it, the number of its items; a call writes no more of
 * them. What a call writes to need not be initialised. The pointer of a buffer or a text may be NULL where the number
 * after it is 0; no other pointer may be. What a call writes may not overlap anything else that it is passed, and no
 * other thread may touch it meanwhile; the bytes of a dump may be read by several threads at once. There is no state, so
 * calls may run at the same time.
 *
 * A call about a dump returns MINIDUMP_OK or an error, but never MINIDUMP_FILE_NOT_FOUND or MINIDUMP_IO_ERROR. After an
 * error every buffer, number and struct is as it was, but for the line of a malformed text of names. A missing or malformed
 * stream is no error of a call: it counts as none; in a report a malformed one is a line, and minidump_crash counts it in
 * damage_count.
 *
 * Names and reasons are UTF-8; a report also has bytes of the dump as they are. A text that is cut may end within a
 * character. No zero is written after a text, and a name may hold zeros.
 *
 * Codes have no names of their own, so most reasons are numbers, as "unknown 0xc0000005". minidump_report_named,
 * minidump_crash and minidump_crash_json take names from a text, such as a file of the folder names, or several of them
 * one after another: with these it is "EXCEPTION_ACCESS_VIOLATION_READ".
 *
 * An end may be 2^64, which is 0 as a number: test `address - base < size`, not `address < base + size`.
 *
 * Link libminidump_c.a, which `rt lib` makes, and the toolchain's liblibc_c.a, or what `crates/minidump_c/install` makes of
 * both. Memory is taken by malloc and realloc and given back by free.
 * Numbers are those of the machine, which must be a 64-bit one; on x86-64 it needs SSE4.2 and POPCNT (x86-64-v2),
 * which is not tested. Call from no signal handler, and not after a fork of a process with threads.
 *
 * What each call returns and writes is proved from the format's definitions. That this header says what the library
 * does is not; a test calls each function through it. That a call gives back its memory before it returns, and reads
 * nothing of what it writes to before it has written it, is reviewed and tested under the sanitizers. */
#ifndef MINIDUMP_H
#define MINIDUMP_H

#include <stddef.h>
#include <stdint.h>

/* The version of what this header declares. It changes with a struct or a call. The structs have no padding. */
#define MINIDUMP_VERSION 6

#ifdef __cplusplus
extern "C" {
#endif

/* Returns the version of the library. Only where it is MINIDUMP_VERSION may its other functions be called: a program that
 * loads the library when it runs asks for it first. */
uint32_t minidump_version(void);

enum minidump_status {
    MINIDUMP_OK = 0,
    MINIDUMP_FILE_NOT_FOUND = 1,
    MINIDUMP_IO_ERROR = 2,
    MINIDUMP_MISSING_HEADER = 3,
    MINIDUMP_HEADER_MISMATCH = 4,
    MINIDUMP_VERSION_MISMATCH = 5,
    MINIDUMP_MISSING_DIRECTORY = 6,
    MINIDUMP_STREAM_READ_FAILURE = 7,
    MINIDUMP_STREAM_SIZE_MISMATCH = 8,
    MINIDUMP_STREAM_NOT_FOUND = 9,
    MINIDUMP_MODULE_READ_FAILURE = 10,
    MINIDUMP_MEMORY_READ_FAILURE = 11,
    MINIDUMP_DATA_ERROR = 12,
    MINIDUMP_CODE_VIEW_READ_FAILURE = 13,
    MINIDUMP_UNKNOWN_ELEMENT_TYPE = 14,
    MINIDUMP_OUT_OF_MEMORY = 15,
    /* of a text of names: */
    MINIDUMP_NOT_A_LINE = 16,  /* a line is no line of names */
    MINIDUMP_OUT_OF_ORDER = 17 /* the number of a line is not above the earlier ones of its family */
};

/* Writes the name of a status, such as MissingHeader, to the front of out, as far as it fits, and returns the size of
 * the whole name: 0 for MINIDUMP_OK and for numbers that are no status. */
size_t minidump_error_name(uint32_t status, uint8_t *out, size_t out_len);

/* Writes the header and the directory as text to the front of out, as far as it fits, and the size of the whole text
 * to *size. What lies after the text stays as it was. To ask for the size alone, pass an out_len of 0. */
uint32_t minidump_dir(const uint8_t *bytes, size_t len, uint8_t *out, size_t out_len, size_t *size);

/* The same for the report: the header, the directory, each stream that can be read, and where and why the process
 * crashed. A malformed stream is a line with its error. The text is made anew at each call, so begin with a buffer of a
 * guess, and call again if *size is larger. The whole text is in memory besides. */
uint32_t minidump_report(const uint8_t *bytes, size_t len, uint8_t *out, size_t out_len, size_t *size);

/* The same with the names of codes of a text, which is read first. A line is a code, FAMILY NUMBER NAME with one space
 * between the parts; a comment, which begins with #; or empty. A line ends at a line feed; a carriage return may stand in
 * comments alone. A FAMILY is one of those in the files of the folder names, and its numbers ascend strictly; a NUMBER is
 * below 2^32, decimal, or hexadecimal after 0x; a NAME is UTF-8 without white space and #. A text that breaks
 * these rules has MINIDUMP_NOT_A_LINE or MINIDUMP_OUT_OF_ORDER, and the number of its first such line is written to *line,
 * from 1 on; otherwise *line stays as it was. A text of 0 bytes lists no names. */
uint32_t minidump_report_named(const uint8_t *bytes, size_t len, const uint8_t *names, size_t names_len, uint8_t *out,
                               size_t out_len, size_t *size, uint64_t *line);

/* A region of memory, or none, where the size is 0. */
struct minidump_region {
    uint64_t base;
    uint64_t size;
};

/* Writes the region of memory that contains the address to *region, zeros if there is none. */
uint32_t minidump_memory_at(const uint8_t *bytes, size_t len, uint64_t address, struct minidump_region *region);

/* Copies the memory from the address on to the front of out, as far as it fits, and writes the number of bytes that
 * its region has from there on to *count: 0 where no region contains the address. */
uint32_t minidump_read_memory(const uint8_t *bytes, size_t len, uint64_t address, uint8_t *out, size_t out_len,
                              size_t *count);

/* Writes the regions of memory that minidump_memory_at finds, ascending by address, to the front of regions, as far as they
 * fit, and their number to *count. Regions are taken in the order of their first addresses, of two with the same one the shorter
 * first, and each is found that overlaps none found before; one without a size, or that would go on beyond the last
 * address, isn't. A program that asks often keeps this table and searches it by itself. */
uint32_t minidump_memory_table(const uint8_t *bytes, size_t len, struct minidump_region *regions, size_t regions_len,
                               size_t *count);

/* An operating system. */
enum minidump_os {
    MINIDUMP_OS_UNKNOWN = 0,
    MINIDUMP_OS_WINDOWS = 1,
    MINIDUMP_OS_MACOS = 2,
    MINIDUMP_OS_IOS = 3,
    MINIDUMP_OS_LINUX = 4,
    MINIDUMP_OS_SOLARIS = 5,
    MINIDUMP_OS_ANDROID = 6,
    MINIDUMP_OS_PS3 = 7,
    MINIDUMP_OS_NACL = 8
};

/* The architecture of a processor. */
enum minidump_cpu {
    MINIDUMP_CPU_UNKNOWN = 0,
    MINIDUMP_CPU_X86 = 1,
    MINIDUMP_CPU_X86_64 = 2,
    MINIDUMP_CPU_PPC = 3,
    MINIDUMP_CPU_PPC64 = 4,
    MINIDUMP_CPU_SPARC = 5,
    MINIDUMP_CPU_ARM = 6,
    MINIDUMP_CPU_ARM64 = 7,
    MINIDUMP_CPU_MIPS = 8,
    MINIDUMP_CPU_MIPS64 = 9
};

/* Whose context the registers are of. */
enum minidump_context {
    MINIDUMP_CONTEXT_OF_EXCEPTION = 1, /* the exception's, which happened on the thread */
    MINIDUMP_CONTEXT_OF_THREAD = 2     /* the thread's own, from when the dump was written */
};

/* Why there are no registers in a context. */
enum minidump_problem {
    MINIDUMP_PROBLEM_OUTSIDE = 1,     /* its bytes are not in the file */
    MINIDUMP_PROBLEM_NO_SYSTEM = 2,   /* the system is unknown, whose processor says how to read it */
    MINIDUMP_PROBLEM_NOT_ACCEPTED = 3 /* it isn't a context of the processor, nor the front of one with all general registers */
};

/* How memory was accessed. */
enum minidump_access {
    MINIDUMP_ACCESS_READ = 1,
    MINIDUMP_ACCESS_WRITE = 2,
    MINIDUMP_ACCESS_EXECUTE = 3
};

/* The state of memory. */
enum minidump_state {
    MINIDUMP_STATE_FREE = 1,     /* nothing is there */
    MINIDUMP_STATE_RESERVED = 2, /* addresses are kept for later, without memory */
    MINIDUMP_STATE_COMMITTED = 3 /* memory is there */
};

/* What a frame is known by. */
enum minidump_trust {
    MINIDUMP_TRUST_CONTEXT = 1,       /* the registers of the thread */
    MINIDUMP_TRUST_FRAME_POINTER = 2, /* the frame pointer of the frame before */
    MINIDUMP_TRUST_SCAN = 3,          /* a word of the stack that may be a return address: a candidate */
    MINIDUMP_TRUST_CFI = 4,           /* call frame information of symbols, which no call of this library reads */
    MINIDUMP_TRUST_LINK = 5           /* the link register of ARM or ARM64: a candidate */
};

/* Why the last frame has no caller. */
enum minidump_end {
    MINIDUMP_END_NO_MEMORY = 1,           /* the dump has no memory of the stack */
    MINIDUMP_END_UNKNOWN_WIDTH = 2,       /* the width of an address isn't known */
    MINIDUMP_END_NO_FRAME_POINTER = 3,    /* the frame pointer isn't known */
    MINIDUMP_END_ZERO_FRAME_POINTER = 4,  /* without Swift's mark it is 0, as a thread's first function finds it */
    MINIDUMP_END_BELOW_STACK_POINTER = 5, /* it lies below the stack pointer */
    MINIDUMP_END_NO_RECORD = 6,           /* the stack doesn't hold both words at it, or they end at 2^64 or beyond, on 32 bits
                                           * at 2^32 or beyond */
    MINIDUMP_END_NO_CODE = 7,             /* the return address is 0, or neither a module nor memory that may be run contains
                                           * the address below it */
    MINIDUMP_END_NO_RETURN_RULE = 8,      /* call frame information of symbols, which no call of this library reads, has no
                                           * rule for the return address */
    MINIDUMP_END_ZERO_RETURN_ADDRESS = 9  /* the return address is 0 by that information */
};

/* Where a text lies in the buffer of texts: how many bytes stand before it, and how many it has. That of an absent text has
 * a len of 0. It may lie past the end of a buffer that is too small: compare both numbers with the buffer's size. */
struct minidump_span {
    size_t offset;
    size_t len;
};

/* An exception. What is absent has 0 in has_.., and 0 for its numbers. */
struct minidump_exception {
    uint64_t address;         /* at which it happened, as its record has it */
    uint64_t nested;          /* the address of the record of another exception, during which it happened; 0 if there is none */
    uint64_t parameters[15];  /* of its record, and zeros after them */
    uint32_t thread;          /* the id of the thread on which it happened */
    uint32_t code;            /* on Linux and Android the number of the signal */
    uint32_t flags;           /* on Linux and Android the si_code of the signal */
    uint32_t parameter_count; /* how many parameters its record has, at most 15 */
    uint32_t sender;          /* the id of the process that sent the signal, on Linux and Android */
    uint32_t sender_user;     /* the id of the user of that process */
    uint16_t access;          /* enum minidump_access, of access violations, in-page errors and accesses to guard pages of Windows;
                               * 0 for others, for a general protection, and where LLDB's text stands */
    uint16_t context_problem; /* enum minidump_problem: why its context gives no registers; 0 if it gives some */
    uint8_t has_exception;
    uint8_t is_sent; /* a process sent the signal; has_sender tells whether its id is known */
    uint8_t has_sender;
    uint8_t has_sender_user; /* 0 where the record doesn't have it, as in an address of 32 bits */
};

/* What is known of an address. What is unknown has 0 in has_.., and 0 for its numbers. */
struct minidump_facts {
    uint64_t address;
    uint64_t null_offset;   /* the address once more, where it is below 0x10000: an offset from a null pointer */
    uint64_t module_offset; /* of the address in its module */
    size_t module;          /* the index of the module that contains it, in the table of modules */
    size_t unloaded;        /* the index of the last unloaded module that contains it, in the table of these */
    size_t stack_of;        /* the index of the last thread whose stack, as the dump's list has it, contains it */
    size_t below_stack;     /* the index of the last thread whose stack begins above it, by at most 4,096 bytes */
    uint32_t memory_state;  /* enum minidump_state, of the memory that contains it */
    uint8_t has_address;    /* 0 where no exception counts, without a system, and where the record has no address that was
                             * accessed, as that of a signal that a process sent; docs/DECISIONS.md has each case */
    uint8_t has_null_offset;
    uint8_t is_canonical; /* 0 for an address of x86-64 whose bits 47 to 63 differ, and where has_address is 0; else 1 */
    uint8_t has_module;
    uint8_t has_unloaded;
    uint8_t has_stack_of;
    uint8_t has_below_stack;
    uint8_t has_memory;  /* the dump has information on the memory that contains it */
    uint8_t is_readable; /* that memory is committed and may be read; written; run as code */
    uint8_t is_writable;
    uint8_t is_executable;
    uint8_t is_guarded; /* it is committed, and the first access to it raises an exception */
};

/* What a dump says of a crash. What is absent has 0 in has_.., and 0 for its numbers. */
struct minidump_crash {
    struct minidump_exception exception; /* that counts: the last whose code isn't 0, else the last that can be read */
    struct minidump_facts facts;         /* of the address that the crash is about */
    uint64_t uptime;     /* for how many seconds the process had run when the dump was written */
    size_t thread_index; /* of the thread that crashed, in the table of threads */
    size_t damage_count; /* how many streams, exceptions, contexts and stacks are there and can't be read; one more for
                          * each of these kinds that there is: entries of the directory outside the file beside a stream
                          * that is in it, regions of memory outside the file, and modules without addresses; one for
                          * each stream with texts, or with records, that can't be read; and one for each exception
                          * whose record has no room for all of its parameters. minidump_crash_json names them */
    size_t register_size; /* how many bytes a register has */
    size_t frame_count;   /* the sizes of the whole tables, and of all texts */
    size_t register_count;
    size_t thread_count;
    size_t module_count;
    size_t unloaded_count;
    size_t texts_len;
    struct minidump_span reason;    /* in words */
    struct minidump_span version;   /* of the operating system, such as 10.0.19041 */
    struct minidump_span build;     /* of that version: on Windows the service pack, on Linux and Android what the kernel says of itself after it */
    struct minidump_span cpu_model; /* the description of the processor */
    uint32_t thread;                /* the id of the thread that crashed */
    uint32_t process_id;
    uint32_t written; /* when, in seconds since 1970; 0 says nothing */
    uint16_t os;      /* enum minidump_os */
    uint16_t cpu;     /* enum minidump_cpu */
    uint16_t processors; /* how many */
    uint8_t has_thread;
    uint8_t has_system; /* the three numbers of the system, and its texts */
    uint8_t has_process_id;
    uint8_t has_uptime;
    uint8_t context;  /* enum minidump_context; 0 without registers */
    uint8_t walk_end; /* enum minidump_end; 0 without frames */
};

/* A frame of a stack. */
struct minidump_frame {
    uint64_t address;           /* by which it is looked up: for a return address the one below it, within the call;
                                 * on ARM of 32 bits bit 0 of the return address is cleared first; the return
                                 * address itself where no address lies below it */
    uint64_t instruction;       /* of the context, or else the return address of the frame before, on ARM64 without its
                                 * signature */
    uint64_t stack_pointer;     /* where no context has it, the address after the return address; of the link register
                                 * that of the context */
    uint64_t frame_pointer;     /* 0 if it isn't known */
    size_t module;              /* the index of the module that contains the address, 0 if there is none */
    uint64_t module_offset;     /* of the address in it */
    uint32_t trust;             /* enum minidump_trust */
    uint16_t has_frame_pointer; /* 1 or 0 */
    uint16_t has_module;        /* 1 or 0 */
};

/* A register. */
struct minidump_register {
    uint64_t value;
    struct minidump_span name;
};

/* A thread. Its stack is where the dump's list says, whether its bytes are in the dump or not. */
struct minidump_thread {
    uint64_t stack_base;
    uint64_t stack_size; /* 0 for none */
    struct minidump_span name;
    struct minidump_span last_error; /* in words, which Windows alone keeps */
    size_t frame_count;              /* how many frames and candidates it has */
    size_t candidate_count;          /* how many of these are candidates, the last ones */
    size_t short_size;               /* how many bytes its context has, where its writer cut it, else 0 */
    size_t whole_size;               /* how many a whole one has, where it is cut, else 0 */
    uint32_t id;
    uint16_t has_context; /* 1 where there are registers of the thread, else 0 */
    uint16_t is_listed;   /* 1 for a thread of the dump's list, 0 for that of the exception where the list lacks it */
};

/* A module. */
struct minidump_module {
    uint64_t base;
    uint64_t end; /* the address after it, 0 if that has more than 64 bits */
    struct minidump_span path;
    struct minidump_span version;
    struct minidump_span code_id;
    struct minidump_span debug_file; /* the last part of its path */
    struct minidump_span debug_id;   /* as Breakpad writes it */
};

/* A module that was unloaded before the dump was written. */
struct minidump_unloaded {
    uint64_t base;
    uint64_t end; /* the address after it, 0 if that has more than 64 bits */
    struct minidump_span path;
    struct minidump_span code_id;
};

/* Reads the crash of a dump, with the names of codes of a text, as in minidump_report_named, and writes its numbers to
 * *crash. To the fronts of the other buffers go, as far as they fit:
 * - to frames, those of the thread that crashed, the innermost first, and after them the candidates, at most scan of them;
 * - to registers, those of that thread;
 * - to threads, those of the dump's list in its order, and after them that of the exception, where the list lacks it;
 * - to modules, those of the dump's list in its order, and to unloaded those of the list of unloaded ones;
 * - to texts, all texts, in which the spans lie.
 * The numbers of *crash say how large the whole tables and texts are: to ask for these alone, pass lengths of 0. The dump
 * is read anew at each call, so begin with buffers of a guess, and call again where one was too small.
 *
 * The registers are those of the exception's context on its thread, if it can be read, and else of the thread's own; one
 * that its writer cut after these registers, as LLDB does, is read only where there is no whole one. The stack is the
 * region of the dump that holds the stack pointer, and where none does the thread's own; callers follow by frame
 * pointers. Frames, registers and the address are those that whocrashed prints without --symbols, with the same names of
 * codes and --scan of this number. */
uint32_t minidump_crash(const uint8_t *bytes, size_t len, const uint8_t *names, size_t names_len, size_t scan,
                        struct minidump_crash *crash, struct minidump_frame *frames, size_t frames_len,
                        struct minidump_register *registers, size_t registers_len, struct minidump_thread *threads,
                        size_t threads_len, struct minidump_module *modules, size_t modules_len,
                        struct minidump_unloaded *unloaded, size_t unloaded_len, uint8_t *texts, size_t texts_len,
                        uint64_t *line);

/* Reads the crash of a dump, as minidump_crash does, and writes its JSON text to the front of out, as far as it fits, and the
 * size of the whole text to *size: the line of `whocrashed --json` without path and line feed, with at most frames frames
 * of a thread, and with the variables of the environment, which may hold secrets, unless environment is 0. With 0 frames it
 * lacks the registers of the thread that crashed, too: its first frame has them. */
uint32_t minidump_crash_json(const uint8_t *bytes, size_t len, const uint8_t *names, size_t names_len, size_t scan,
                             size_t frames, uint8_t environment, uint8_t *out, size_t out_len, size_t *size, uint64_t *line);

#ifdef __cplusplus
}
#endif

#endif
