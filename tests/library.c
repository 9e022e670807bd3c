/* Answers calls of the library, one for each line of standard input, and tests with each what no proof reaches:

       CALL FROM TO ORDER DEPTH NUMBER PLACE FILE [FILE]

   A call is normalise, show, check or compare, one of these with -one, same, end, explain, or words, which has no file. It has
   each number, also those that it makes nothing of. TO is that of the second file, if there is one.

   Each gets a line 'CODE PLACE LENGTH', and then LENGTH bytes. What is tested: inputs and buffers end where memory
   ends, so that an access one byte too far ends the program. For a buffer one byte too small, and for NULL with length 0,
   the length is reported and nothing is written. A longer buffer is unchanged after the answer. All memory is freed. With
   each growth refused in turn (with some, for a long input) the answer is the same, or out of memory. The stack is no more
   than CBORN_STACK(depth). At the end all short calls are made once more, from eight threads at once, and answer the same.
   Linked with --wrap for malloc, realloc and free. The first wrong thing ends the program with a line on standard error
   and status 1. */
#define _GNU_SOURCE
#include "cborn.h"
#include <fcntl.h>
#include <pthread.h>
#include <stdbool.h>
#include <stdio.h>
#include <stdlib.h>
#include <string.h>
#include <sys/mman.h>
#include <sys/stat.h>
#include <unistd.h>

enum { NAME_SIZE = 4096, THREADS = 8, ROUNDS = 4, LONG = 1 << 20, SHORT = 512, MOST_REFUSED = 400, MOST_OF_LONGER = 10, FILL = 0xee, PAINT = 0xa5 };

typedef struct {
    uint8_t *bytes;
    size_t length;
} input;

typedef struct {
    char name[16];
    bool one;
    unsigned from, to, order, number;
    unsigned long depth, place;
    input first, second;
} call;

typedef struct {
    uint32_t code;
    cborn_told told;
} answer;

static void fail(const char *what, const call *asked, long number)
{
    fprintf(stderr, "%s: %s (%ld)\n", asked ? asked->name : "library", what, number);
    exit(1);
}

/* Memory: taken and given back, counted by thread; and one request that is refused. */
void *__real_malloc(size_t size);
void *__real_realloc(void *old, size_t size);
void __real_free(void *old);

static _Thread_local long held, requests, to_refuse;
static _Thread_local bool was_refused;

static bool is_refused(void)
{
    requests++;
    return to_refuse > 0 && --to_refuse == 0 && (was_refused = true);
}

void *__wrap_malloc(size_t size)
{
    void *made = is_refused() ? NULL : __real_malloc(size);
    held += made != NULL;
    return made;
}

void *__wrap_realloc(void *old, size_t size)
{
    void *made = is_refused() ? NULL : __real_realloc(old, size);
    held += old == NULL && made != NULL;
    return made;
}

void __wrap_free(void *old)
{
    held -= old != NULL;
    __real_free(old);
}

/* So many bytes, right in front of a page that can't be touched. */
static uint8_t *guarded(size_t length)
{
    size_t page = (size_t)sysconf(_SC_PAGESIZE), room = (length + page - 1) / page * page;
    uint8_t *start = mmap(NULL, room + page, PROT_READ | PROT_WRITE, MAP_PRIVATE | MAP_ANONYMOUS, -1, 0);
    if (start == MAP_FAILED || mprotect(start + room, page, PROT_NONE) != 0)
        fail("no memory to test with", NULL, (long)length);
    return start + room - length;
}

static void unguard(uint8_t *bytes, size_t length)
{
    size_t page = (size_t)sysconf(_SC_PAGESIZE), room = (length + page - 1) / page * page;
    munmap(bytes + length - room, room + page);
}

/* A file's bytes. An empty one is NULL. */
static input opened(const char *name)
{
    int file = open(name, O_RDONLY);
    struct stat about;
    if (file < 0 || fstat(file, &about) != 0)
        fail(name, NULL, file);
    input it = {NULL, (size_t)about.st_size};
    if (it.length > LONG) {
        it.bytes = mmap(NULL, it.length, PROT_READ, MAP_PRIVATE, file, 0);
    } else if (it.length != 0) {
        it.bytes = guarded(it.length);
        if (read(file, it.bytes, it.length) != (ssize_t)it.length)
            fail(name, NULL, (long)it.length);
    }
    close(file);
    return it;
}

static bool is_called(const call *asked, const char *name) { return strcmp(asked->name, name) == 0; }
static bool has_output(const call *asked) { return is_called(asked, "normalise") || is_called(asked, "show") || is_called(asked, "explain"); }

static answer answered(const call *asked, uint8_t *out, size_t room)
{
    answer it = {0, {99, 99}};
    const input a = asked->first, b = asked->second;
    if (is_called(asked, "normalise"))
        it.code = (asked->one ? cborn_normalise_one : cborn_normalise)(asked->from, asked->to, asked->order, asked->depth, a.bytes, a.length, out, room, &it.told);
    else if (is_called(asked, "show"))
        it.code = (asked->one ? cborn_show_one : cborn_show)(asked->from, asked->to, asked->depth, a.bytes, a.length, out, room, &it.told);
    else if (is_called(asked, "explain"))
        it.code = cborn_explain(asked->from, asked->depth, a.bytes, a.length, asked->number, asked->place, (char *)out, room, &it.told);
    else if (is_called(asked, "end"))
        it.code = cborn_item_end(asked->depth, a.bytes, a.length, asked->place, &it.told.place);
    else if (is_called(asked, "check"))
        it.code = (asked->one ? cborn_check_one : cborn_check)(asked->order, asked->depth, a.bytes, a.length, &it.told.place);
    else if (is_called(asked, "compare"))
        it.code = (asked->one ? cborn_compare_one : cborn_compare)(asked->from, asked->to, asked->depth, a.bytes, a.length, b.bytes, b.length, &it.told.place);
    else
        it.code = cborn_same(asked->from, asked->to, asked->depth, a.bytes, a.length, b.bytes, b.length, &it.told.place);
    if (it.code == CBORN_BAD_ARGUMENT && it.told.place != 99)
        fail("a bad argument is told a place", asked, (long)it.told.place);
    if (it.code == CBORN_BAD_ARGUMENT)
        it.told.place = 0;
    if (it.code == CBORN_BAD_ARGUMENT || !has_output(asked))
        it.told.length = 0;
    if (held != 0)
        fail("memory was not given back", asked, held);
    return it;
}

static bool is_filled(const uint8_t *bytes, size_t length, int with)
{
    for (size_t i = 0; i < length; i++)
        if (bytes[i] != with)
            return false;
    return true;
}

static bool are_same(answer a, answer b) { return a.code == b.code && a.told.place == b.told.place && a.told.length == b.told.length; }

/* The answer, and its bytes in a buffer that they fill. */
static answer filled(const call *asked, uint8_t **out)
{
    answer told = answered(asked, NULL, 0);
    *out = NULL;
    if (told.code != CBORN_TOO_SMALL)
        return told;
    size_t length = told.told.length, given = asked->first.length;
    /* docs/LIBRARY.md says how much room is enough from bytes to bytes */
    if (is_called(asked, "normalise") && asked->from == CBORN_WIRE && asked->to == CBORN_WIRE && length > given + given / 3)
        fail("an answer is longer than its bound", asked, (long)length);
    *out = guarded(length);
    memset(*out, FILL, length);
    answer small = answered(asked, *out, length - 1);
    if (!are_same(small, told) || !is_filled(*out, length, FILL))
        fail("a buffer too small by one isn't told so, or written", asked, (long)length);
    told = answered(asked, *out, length);
    if (told.code != CBORN_OK || told.told.length != length)
        fail("a buffer that fits is refused", asked, told.code);
    return told;
}

static void test_longer_buffer(const call *asked, answer told, const uint8_t *out)
{
    size_t length = told.told.length, room = length + 9;
    uint8_t *longer = guarded(room);
    memset(longer, FILL, room);
    if (!are_same(answered(asked, longer, room), told))
        fail("a longer buffer has another answer", asked, (long)length);
    if ((length != 0 && memcmp(longer, out, length) != 0) || !is_filled(longer + length, room - length, FILL))
        fail("a longer buffer isn't the answer and what was there", asked, (long)length);
    unguard(longer, room);
}

/* What a call answers with one growth refused. */
static void test_refused(const call *asked, answer told, const uint8_t *out, uint8_t *again, long nth)
{
    size_t length = told.told.length;
    memset(again, FILL, length + 1);
    to_refuse = nth, was_refused = false;
    answer got = answered(asked, again, length);
    to_refuse = 0;
    bool is_want = got.code == CBORN_OUT_OF_MEMORY && got.told.place == 0 && got.told.length == 0;
    bool is_same = are_same(got, told) && (length == 0 || memcmp(again, out, length) == 0);
    if (!was_refused || again[length] != FILL)
        fail("a growth isn't refused, or the buffer isn't kept to", asked, nth);
    if (is_want ? !is_filled(again, length, FILL) : !is_same)
        fail("a growth that is refused gives neither the answer nor want of memory", asked, nth);
}

/* Each growth refused in turn, or so many of them, spread over all; how many they were. */
static long test_growths(const call *asked, answer told, const uint8_t *out)
{
    size_t length = told.told.length;
    uint8_t *again = guarded(length + 1);
    requests = 0;
    answered(asked, again, length);
    long all = requests, tried = 0, most = asked->first.length <= SHORT ? MOST_REFUSED : MOST_OF_LONGER;
    for (long nth = 1; nth <= all; nth += 1 + all / most, tried++)
        test_refused(asked, told, out, again, nth);
    unguard(again, length + 1);
    return tried;
}

/* A call and what it has to answer. */
typedef struct {
    call asked;
    answer told;
} run;

/* The stack of one call, on a thread whose stack is painted. */
static void *answered_on_thread(void *given)
{
    run *it = given;
    uint8_t *out = it->told.told.length ? __real_malloc(it->told.told.length) : NULL;
    answer got = answered(&it->asked, out, it->told.told.length);
    if (!are_same(got, it->told))
        fail("another thread has another answer", &it->asked, got.code);
    __real_free(out);
    return NULL;
}

static void *nothing_on_thread(void *given) { return given; }

static size_t stack_of(void *(*body)(void *), run *given)
{
    static uint8_t *stack;
    const size_t size = 4 << 20;
    if (stack == NULL)
        stack = mmap(NULL, size, PROT_READ | PROT_WRITE, MAP_PRIVATE | MAP_ANONYMOUS, -1, 0);
    /* the lowest word that the last thread wrote: all from there on is painted over */
    static size_t lowest;
    memset(stack + lowest, PAINT, size - lowest);
    uint64_t painted;
    memcpy(&painted, stack, sizeof painted);
    pthread_attr_t how;
    pthread_t thread;
    pthread_attr_init(&how);
    pthread_attr_setstack(&how, stack, size);
    if (pthread_create(&thread, &how, body, given) != 0)
        fail("no thread", &given->asked, 0);
    pthread_join(thread, NULL);
    pthread_attr_destroy(&how);
    lowest = 0;
    while (lowest < size && *(const uint64_t *)(const void *)(stack + lowest) == painted)
        lowest += sizeof painted;
    return size - lowest;
}

static size_t most_stack[CBORN_MOST_DEPTH + 1];

static void test_stack(run *it)
{
    static size_t bare;
    if (bare == 0)
        bare = stack_of(nothing_on_thread, it);
    size_t used = stack_of(answered_on_thread, it) - bare;
    unsigned long depth = it->asked.depth;
    if (depth <= CBORN_MOST_DEPTH && used > most_stack[depth])
        most_stack[depth] = used;
    if (it->told.code != CBORN_BAD_ARGUMENT && used > CBORN_STACK(depth))
        fail("more stack than CBORN_STACK", &it->asked, (long)used);
}

static run *runs;
static size_t count;

static void keep(run it)
{
    runs = __real_realloc(runs, (count + 1) * sizeof *runs);
    if (runs == NULL)
        fail("no memory to test with", NULL, (long)count);
    runs[count++] = it;
}

static void *all_on_thread(void *given)
{
    for (int round = 0; round < ROUNDS; round++)
        /* each thread begins elsewhere, so that different calls meet */
        for (size_t i = 0; i < count; i++)
            answered_on_thread(&runs[(i + (size_t)given * count / THREADS) % count]);
    return NULL;
}

static void test_threads(void)
{
    pthread_t threads[THREADS];
    for (size_t i = 0; i < THREADS; i++)
        if (pthread_create(&threads[i], NULL, all_on_thread, (void *)i) != 0)
            fail("no thread", NULL, (long)i);
    for (size_t i = 0; i < THREADS; i++)
        pthread_join(threads[i], NULL);
}

/* The words of a number, into buffers of each size up to the one that is always enough. */
static void tell_words(uint32_t number)
{
    char *out = NULL;
    size_t length = 0;
    uint32_t code = cborn_words(number, NULL, 0);
    for (size_t room = 1; room <= CBORN_MOST_WORDS && code == CBORN_TOO_SMALL; room++) {
        out = (char *)guarded(room);
        memset(out, FILL, room);
        code = cborn_words(number, out, room);
        if (code != CBORN_OK && !is_filled((uint8_t *)out, room, FILL))
            fail("words are written where they don't fit", NULL, (long)number);
        length = room - 1;
    }
    if (code != CBORN_OK && code != CBORN_BAD_ARGUMENT)
        fail("CBORN_MOST_WORDS bytes aren't enough", NULL, (long)number);
    if (code == CBORN_OK && (length == 0 || strlen(out) != length))
        fail("words don't end with their zero", NULL, (long)number);
    char longer[CBORN_MOST_WORDS];
    memset(longer, FILL, sizeof longer);
    if (cborn_words(number, longer, sizeof longer) != code || (code == CBORN_OK && memcmp(longer, out, length + 1) != 0) ||
        !is_filled((uint8_t *)longer + (code == CBORN_OK ? length + 1 : 0), sizeof longer - (code == CBORN_OK ? length + 1 : 0), FILL))
        fail("a longer buffer isn't the words and what was there", NULL, (long)number);
    printf("%u 0 %zu\n%s", code, code == CBORN_OK ? length : 0, code == CBORN_OK ? out : "");
    fflush(stdout);
}

static bool parsed(const char *line, call *asked, char *first, char *second)
{
    memset(asked, 0, sizeof *asked);
    *first = *second = 0;
    int count = sscanf(line, "%15s %u %u %u %lu %u %lu %4095s %4095s", asked->name, &asked->from, &asked->to, &asked->order, &asked->depth,
                       &asked->number, &asked->place, first, second);
    char *suffix = strstr(asked->name, "-one");
    asked->one = suffix != NULL;
    if (asked->one)
        *suffix = 0;
    return count == (is_called(asked, "words") ? 7 : is_called(asked, "compare") || is_called(asked, "same") ? 9 : 8);
}

/* A place beyond the end counts as the end, where one is explained, and what is no argument leaves all as it was. */
static void test_arguments(void)
{
    static const uint8_t array[] = {0x81};
    static const char *end = "  path  item 0 [0]\n  bytes 81 ><\n";
    char out[SHORT];
    cborn_told told = {99, 99};
    uint32_t wrong[] = {
        cborn_normalise(3, CBORN_WIRE, CBORN_BYTEWISE, 128, array, 1, (uint8_t *)out, SHORT, &told),
        cborn_normalise(CBORN_WIRE, 3, CBORN_BYTEWISE, 128, array, 1, (uint8_t *)out, SHORT, &told),
        cborn_normalise(CBORN_WIRE, CBORN_WIRE, 2, 128, array, 1, (uint8_t *)out, SHORT, &told),
        cborn_explain(3, 128, array, 1, 0x108, 1, out, SHORT, &told),
        cborn_explain(CBORN_WIRE, 1025, array, 1, 0x108, 1, out, SHORT, &told),
        cborn_explain(CBORN_WIRE, 128, array, 1, 0x208, 1, out, SHORT, &told),
        cborn_explain_comparison(3, CBORN_WIRE, CBORN_BYTEWISE, 128, array, 1, array, 1, out, SHORT, &told),
        cborn_explain_comparison(CBORN_WIRE, 3, CBORN_BYTEWISE, 128, array, 1, array, 1, out, SHORT, &told),
        cborn_explain_comparison(CBORN_WIRE, CBORN_WIRE, 2, 128, array, 1, array, 1, out, SHORT, &told),
        cborn_explain_comparison(CBORN_WIRE, CBORN_WIRE, CBORN_BYTEWISE, 0, array, 1, array, 1, out, SHORT, &told),
        cborn_item_end(128, array, 1, 2, &told.place),
        cborn_item_end(128, array, 1, UINT64_MAX, &told.place),
        cborn_item_end(0, array, 1, 0, &told.place),
        cborn_item_end(1025, array, 1, 0, &told.place),
    };
    for (size_t i = 0; i < sizeof wrong / sizeof *wrong; i++)
        if (wrong[i] != CBORN_BAD_ARGUMENT || told.place != 99 || told.length != 99)
            fail("a number that stands for nothing is taken", NULL, (long)i);
    uint32_t code = cborn_explain(CBORN_WIRE, 128, array, 1, 0x108, UINT64_MAX, out, SHORT, &told);
    if (code != CBORN_OK || memcmp(out, end, strlen(end)) != 0)
        fail("a place beyond the end isn't explained as the end", NULL, (long)code);
}

/* Where two inputs differ is explained, nothing is said of equal bytes, and a refused input is told with its offset. */
static void test_comparisons(void)
{
    static const uint8_t one[] = {0x81, 0x01}, two[] = {0x81, 0x02};
    static const char *path = "  path   item 0 [0]\n";
    char out[SHORT];
    cborn_told told = {99, 99};
    uint32_t code = cborn_explain_comparison(0, 0, 0, 128, one, 2, two, 2, out, SHORT, &told);
    if (code != CBORN_OK || told.place != 0 || told.length < strlen(path) || memcmp(out, path, strlen(path)) != 0)
        fail("another difference is explained", NULL, (long)code);
    code = cborn_explain_comparison(0, 0, 0, 128, one, 2, one, 2, out, SHORT, &told);
    if (code != CBORN_OK || told.length != 0)
        fail("equal bytes are explained", NULL, (long)code);
    code = cborn_explain_comparison(0, 0, 0, 128, one, 2, two, 1, out, SHORT, &told);
    if (code != CBORN_OF_SECOND + 0x108 || told.place != 1 || told.length != 0)
        fail("a refused input is compared", NULL, (long)code);
}

int main(void)
{
    char line[3 * NAME_SIZE], first[NAME_SIZE], second[NAME_SIZE];
    long growths = 0;
    if (cborn_version() != CBORN_VERSION)
        fail("library and header have different versions", NULL, (long)cborn_version());
    test_arguments();
    test_comparisons();
    while (fgets(line, sizeof line, stdin)) {
        call asked;
        uint8_t *out;
        if (!parsed(line, &asked, first, second))
            fail(line, NULL, 0);
        if (is_called(&asked, "words")) {
            tell_words(asked.number);
            continue;
        }
        asked.first = opened(first);
        if (*second)
            asked.second = opened(second);
        answer told = filled(&asked, &out);
        printf("%u %llu %llu\n", told.code, (unsigned long long)told.told.place, (unsigned long long)told.told.length);
        if (out)
            fwrite(out, 1, told.told.length, stdout);
        fflush(stdout);
        if (asked.first.length > LONG) {
            munmap(asked.first.bytes, asked.first.length);
            continue;
        }
        if (told.code == CBORN_OK && has_output(&asked))
            test_longer_buffer(&asked, told, out);
        growths += test_growths(&asked, told, out);
        run it = {asked, told};
        test_stack(&it);
        if (asked.first.length <= SHORT)
            keep(it);
        if (out)
            unguard(out, told.told.length);
    }
    test_threads();
    printf("%ld growths refused in turn; %zu calls again from %d threads; stack", growths, count, THREADS);
    for (size_t depth = 0; depth <= CBORN_MOST_DEPTH; depth++)
        if (most_stack[depth] != 0)
            printf(", %zu bytes at depth %zu", most_stack[depth], depth);
    printf("\n");
    return 0;
}
