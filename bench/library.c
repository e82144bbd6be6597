/* Calls the commands of libdwg; built and run by bench/library, with malloc, realloc and free wrapped.
 *
 *   hostile COUNT SEED FILE..   damaged copies of the files, in buffers that end at a guard page
 *   stack FILE..                each command over each file; prints the stack that calls took
 *   memory FILE..               each growth of memory refused in turn
 *   calls N COMMAND FILE        N calls in buffers that suffice: microseconds of the processor a call, and by how many kilobytes the process grew
 *
 * What is wrong ends it with 1 and a line.
 */
#define _GNU_SOURCE
#include <pthread.h>
#include <stdio.h>
#include <stdlib.h>
#include <string.h>
#include <sys/mman.h>
#include <sys/wait.h>
#include <time.h>
#include <unistd.h>
#include "dwg.h"

typedef uint8_t call_of(const uint8_t *, size_t, uint8_t *, size_t, size_t *, uint8_t *, size_t, size_t *);

static const struct { const char *word; call_of *call; } COMMANDS[] = {
    {"sections", dwg_sections}, {"classes", dwg_classes}, {"show", dwg_show}, {"rewrite", dwg_rewrite}, {"carry", dwg_carry},
    {"audit", dwg_audit}, {"appdata", dwg_appdata}, {"certify", dwg_certify}, {"accept", dwg_accept}, {"recover", dwg_recover},
};

enum { COUNT = sizeof COMMANDS / sizeof *COMMANDS, ROOM = 1 << 28, STACK = 1 << 22, BEFORE = 64 };

/* What the library takes of the heap. A block has its size before it. */

static size_t growths, fail_at, live;

void *__real_malloc(size_t);
void *__real_realloc(void *, size_t);
void __real_free(void *);

static int refused(void)
{
    return ++growths == fail_at;
}

void *__wrap_realloc(void *old, size_t size)
{
    size_t *block = old ? (size_t *)old - 2 : NULL, had = block ? block[0] : 0;
    if (refused() || !(block = __real_realloc(block, size + 16)))
        return NULL;
    block[0] = size;
    live += size - had;
    return block + 2;
}

void *__wrap_malloc(size_t size)
{
    return __wrap_realloc(NULL, size);
}

void __wrap_free(void *old)
{
    if (!old)
        return;
    live -= ((size_t *)old - 2)[0];
    __real_free((size_t *)old - 2);
}

static void wrong(const char *what, const char *word, size_t number)
{
    fprintf(stderr, "library: %s: dwg_%s, %zu\n", what, word, number);
    exit(1);
}

/* Buffers that end at a guard page. */

struct pool {
    uint8_t *end;
};

static struct pool new_pool(void)
{
    uint8_t *begin = mmap(NULL, ROOM + 4096, PROT_READ | PROT_WRITE, MAP_PRIVATE | MAP_ANONYMOUS | MAP_NORESERVE, -1, 0);
    if (begin == MAP_FAILED || mprotect(begin + ROOM, 4096, PROT_NONE))
        exit(2);
    return (struct pool){begin + ROOM};
}

static struct pool inputs, outputs, notes;

struct answer {
    uint8_t status;
    size_t written, noted;
};

static uint8_t *lowest;

/* A call in buffers of these sizes: nothing before them may change, nor the input. */
static struct answer ask(int at, size_t size, size_t room, size_t note_room)
{
    uint8_t *output = outputs.end - room, *note = notes.end - note_room;
    memset(output - BEFORE, 0xEE, BEFORE);
    memset(note - BEFORE, 0xEE, BEFORE);
    struct answer one = {0, 0, 0};
    one.status = COMMANDS[at].call(inputs.end - size, size, output, room, &one.written, note, note_room, &one.noted);
    for (int i = 1; i <= BEFORE; i++)
        if (output[-i] != 0xEE || note[-i] != 0xEE)
            wrong("written before a buffer", COMMANDS[at].word, room);
    if (one.status != DWG_NO_MEMORY && (one.status == DWG_TOO_SMALL) != (one.written > room || one.noted > note_room))
        wrong("a status that isn't that of the sizes", COMMANDS[at].word, one.status);
    return one;
}

static uint8_t kept_output[ROOM], kept_notes[1 << 20];

/* A command over an input, in buffers of some sizes, of those that suffice, and of one byte fewer. */
static void try_command(int at, size_t size, size_t room, size_t note_room)
{
    const char *word = COMMANDS[at].word;
    struct answer first = ask(at, size, room, note_room), again = ask(at, size, first.written, first.noted);
    if (first.status == DWG_NO_MEMORY || again.status == DWG_TOO_SMALL || again.written != first.written || again.noted != first.noted)
        wrong("another answer in buffers that suffice", word, again.status);
    if (first.status != DWG_TOO_SMALL && first.status != again.status)
        wrong("another status", word, again.status);
    memcpy(kept_output, outputs.end - again.written, again.written);
    memcpy(kept_notes, notes.end - again.noted, again.noted);
    if (first.status != DWG_TOO_SMALL) {
        ask(at, size, room, note_room);
        if (memcmp(kept_output, outputs.end - room, again.written) || memcmp(kept_notes, notes.end - note_room, again.noted))
            wrong("other bytes", word, again.written);
    }
    if (again.written && ask(at, size, again.written - 1, again.noted).status != DWG_TOO_SMALL)
        wrong("a byte fewer suffices", word, again.written);
    if (again.noted && ask(at, size, again.written, again.noted - 1).status != DWG_TOO_SMALL)
        wrong("a byte fewer of notes suffices", word, again.noted);
    if (live)
        wrong("memory that is left", word, live);
}

/* Damage. */

static uint64_t state;

static size_t below(size_t limit)
{
    state = state * 6364136223846793005u + 1442695040888963407u;
    return limit ? (size_t)(state >> 33) % limit : 0;
}

static struct file {
    uint8_t *bytes;
    size_t size;
} files[256];
static int file_count;

static void read_files(char **names)
{
    for (; *names && file_count < 256; names++) {
        FILE *file = fopen(*names, "rb");
        static uint8_t bytes[1 << 25];
        if (!file)
            exit(2);
        struct file *one = &files[file_count++];
        one->size = fread(bytes, 1, sizeof bytes, file);
        fclose(file);
        one->bytes = mmap(NULL, one->size + 1, PROT_READ | PROT_WRITE, MAP_PRIVATE | MAP_ANONYMOUS, -1, 0);
        memcpy(one->bytes, bytes, one->size);
    }
}

/* A damaged copy of one of the files, at the end of the inputs: how many bytes it has. */
static size_t damaged(void)
{
    static uint8_t made[1 << 24];
    struct file one = files[below(file_count)], other = files[below(file_count)];
    size_t size = one.size;
    memcpy(made, one.bytes, size);
    switch (below(6)) {
    case 0:
        size = below(size + 1);
        break;
    case 1:
        for (size_t left = 1 + below(8); left && size; left--)
            made[below(size)] ^= 1 << below(8);
        break;
    case 2: {
        size_t head = below(size + 1), from = below(other.size + 1);
        memcpy(made + head, other.bytes + from, other.size - from);
        size = head + other.size - from;
        break;
    }
    case 3: {
        size_t from = below(size + 1);
        memset(made + from, (int)below(256), below(size - from + 1));
        break;
    }
    case 4: {
        size_t at = below(size + 1), more = below(64);
        memmove(made + at + more, made + at, size - at);
        for (size_t i = 0; i < more; i++)
            made[at + i] = (uint8_t)below(256);
        size += more;
        break;
    }
    default:
        for (size_t left = 1 + below(4); left && size > 4; left--)
            memcpy(made + below(size - 3), (uint32_t[]){(uint32_t)(below(2) ? below(size) : 0xFFFFFFFF)}, 4);
    }
    memcpy(inputs.end - size, made, size);
    return size;
}

static size_t some_room(void)
{
    static const size_t ROOMS[] = {0, 1, 100, 4096, 1 << 20};
    size_t room = ROOMS[below(5)];
    return below(2) ? room : below(room + 1);
}

static size_t cases;

static void hostile(void)
{
    for (size_t i = 0; i < cases; i++) {
        size_t size = damaged();
        try_command((int)(i % COUNT), size, some_room(), some_room());
    }
}

/* Each command over each file. */
static void *whole(void *ignored)
{
    lowest = (uint8_t *)__builtin_frame_address(0);
    for (int f = 0; f < file_count; f++)
        for (int at = 0; at < COUNT; at++, cases++) {
            memcpy(inputs.end - files[f].size, files[f].bytes, files[f].size);
            ask(at, files[f].size, ROOM - BEFORE, ROOM - BEFORE);
        }
    return ignored;
}

/* The same in a thread whose stack is painted: how deep it went below the function that calls. */
static void run_stack(void)
{
    uint8_t *stack = mmap(NULL, STACK, PROT_READ | PROT_WRITE, MAP_PRIVATE | MAP_ANONYMOUS, -1, 0);
    memset(stack, 0xA5, STACK);
    pthread_attr_t how;
    pthread_t thread;
    pthread_attr_init(&how);
    pthread_attr_setstack(&how, stack, STACK);
    if (pthread_create(&thread, &how, whole, NULL) || pthread_join(thread, NULL))
        exit(2);
    size_t untouched = 0;
    while (untouched < STACK && stack[untouched] == 0xA5)
        untouched++;
    printf("%zu calls, %zu bytes of stack\n", cases, (size_t)(lowest - stack) - untouched);
}

static void run_memory(void)
{
    for (int f = 0; f < file_count; f++)
        for (int at = 0; at < COUNT; at++) {
            memcpy(inputs.end - files[f].size, files[f].bytes, files[f].size);
            growths = fail_at = 0;
            struct answer whole = ask(at, files[f].size, 1 << 20, 1 << 16);
            size_t all = growths;
            for (size_t k = 1; k <= all; k++) {
                growths = 0, fail_at = k;
                struct answer one = ask(at, files[f].size, 1 << 20, 1 << 16);
                fail_at = 0;
                if (one.status != DWG_NO_MEMORY)
                    wrong("a growth that failed isn't answered by 6", COMMANDS[at].word, k);
                if (live)
                    wrong("memory that is left", COMMANDS[at].word, k);
            }
            cases += all;
            if (whole.status == DWG_TOO_SMALL || whole.status == DWG_NO_MEMORY)
                wrong("no answer", COMMANDS[at].word, whole.status);
        }
    printf("%zu growths refused\n", cases);
}

/* A number of /proc/self/status, in kilobytes. */
static long kilobytes(const char *name)
{
    char line[256];
    long number = -1;
    FILE *file = fopen("/proc/self/status", "r");
    while (file && fgets(line, sizeof line, file))
        if (!strncmp(line, name, strlen(name)))
            number = strtol(line + strlen(name), NULL, 10);
    if (file)
        fclose(file);
    return number;
}

static void run_calls(size_t count, const char *word)
{
    int at = 0;
    while (at < COUNT && strcmp(COMMANDS[at].word, word))
        at++;
    if (at == COUNT)
        exit(2);
    size_t size = files[0].size;
    memcpy(inputs.end - size, files[0].bytes, size);
    /* What it needs is found out by another process, so that this one takes no memory for it. */
    struct answer *needed = mmap(NULL, sizeof *needed, PROT_READ | PROT_WRITE, MAP_SHARED | MAP_ANONYMOUS, -1, 0);
    pid_t child = fork();
    if (child == 0) {
        *needed = ask(at, size, 0, 0);
        _exit(0);
    }
    waitpid(child, NULL, 0);
    struct answer one = *needed;
    uint8_t *output = outputs.end - needed->written, *note = notes.end - needed->noted;
    memset(output, 1, needed->written);
    memset(note, 1, needed->noted);
    struct timespec before, after;
    /* From here on the most memory is counted anew. */
    FILE *counts = fopen("/proc/self/clear_refs", "w");
    if (!counts || fputs("5", counts) < 0 || fclose(counts))
        exit(2);
    long held = kilobytes("VmRSS:");
    clock_gettime(CLOCK_PROCESS_CPUTIME_ID, &before);
    for (size_t i = 0; i < count; i++)
        one.status = COMMANDS[at].call(inputs.end - size, size, output, needed->written, &one.written, note, needed->noted, &one.noted);
    clock_gettime(CLOCK_PROCESS_CPUTIME_ID, &after);
    double micros = ((double)(after.tv_sec - before.tv_sec) * 1e9 + (double)(after.tv_nsec - before.tv_nsec)) / 1e3 / (double)count;
    printf("%.1f us, %ld KB, status %d\n", micros, kilobytes("VmHWM:") - held, one.status);
}

int main(int argc, char **argv)
{
    inputs = new_pool(), outputs = new_pool(), notes = new_pool();
    if (argc > 4 && !strcmp(argv[1], "hostile")) {
        cases = strtoul(argv[2], NULL, 10), state = strtoul(argv[3], NULL, 10);
        read_files(argv + 4);
        hostile();
        printf("%zu cases\n", cases);
    } else if (argc > 2 && !strcmp(argv[1], "stack")) {
        read_files(argv + 2);
        run_stack();
    } else if (argc > 2 && !strcmp(argv[1], "memory")) {
        read_files(argv + 2);
        run_memory();
    } else if (argc == 5 && !strcmp(argv[1], "calls")) {
        read_files(argv + 4);
        run_calls(strtoul(argv[2], NULL, 10), argv[3]);
    } else {
        return 2;
    }
    return 0;
}
