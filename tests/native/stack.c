/*
 * How much stack the calls take: every call of the library in a thread whose stack was painted before, on an empty
 * sheet, on a full one and on one where a line or a block releases the edits that wait for it, on heaps, lists and
 * archives of every kind and on sheets that other programs write. It is told for each call, and none may come nearer
 * than a margin to what the header says, below the frame that the calls are made from.
 */
#include "wimtaze.h"

#include <pthread.h>
#include <stdio.h>
#include <string.h>

/* No call may come nearer than MARGIN to what the header says. */
enum { PAINT = 0xa5, PAGE = 4096, PAINTED = 4 * WIMTAZE_STACK, MARGIN = 8192 };

enum call {
    EMPTY, BUILD, LOAD, RECEIVE, RECEIVE_AT, TYPE, ERASE, RESTORE, PASTE, TEXT, COUNTS, LIST, ANSWER,
    UPGRADE, DOWNGRADE, ARCHIVE, UNARCHIVE, CALLS
};

static const char *const names[CALLS] = {"empty", "build", "load", "receive", "receive_at", "type", "erase", "restore",
                                         "paste", "text", "counts", "list", "answer", "upgrade", "downgrade",
                                         "archive", "unarchive"};

/* The most that each call took. */
static size_t most[CALLS];

static uint8_t sheet[WIMTAZE_SHEET_MAX], after[WIMTAZE_SHEET_MAX], line[WIMTAZE_LINE_MAX], text[WIMTAZE_TEXT_MAX];
static uint8_t lines[WIMTAZE_LINES_MAX], heap[2 * WIMTAZE_HEAP_MAX];
static uint8_t list[2 * WIMTAZE_LIST_MAX], answer[WIMTAZE_ANSWER_MAX], archive[2 * WIMTAZE_ARCHIVE_MAX];
static size_t length, heap_length;
static int failures;

static uint8_t space[PAGE + PAINTED];
static uint8_t *stack;

/* How high in it the frame is that the calls are made from. */
static size_t top;

/* How many bytes of the stack are still as they were painted. */
static size_t untouched(void)
{
    size_t k = 0;
    while (stack[k] == PAINT)
        k++;
    return k;
}

/* Paints all but a page below the frame that the calls are made from: painting itself works in that. */
static void paint(void)
{
    size_t from = untouched();
    if (from + PAGE < top)
        memset(stack + from, PAINT, top - PAGE - from);
}

/* Notes what the call took that has just replied. */
static uint64_t noted(enum call call, uint64_t reply)
{
    size_t took = top - untouched();
    if (took > most[call])
        most[call] = took;
    return reply;
}

#define WEIGH(call, reply) (paint(), noted(call, reply))

/* Keeps the new sheet if there is one, and counts an answer that was not expected. */
static void keep(uint64_t reply, unsigned word)
{
    if (wimtaze_word(reply) != word) {
        failures++;
        return;
    }
    if (word == WIMTAZE_DONE || word == WIMTAZE_WAITS) {
        length = wimtaze_written(reply);
        memcpy(sheet, after, length);
    }
}

static void receive(unsigned clock, unsigned previous, unsigned word)
{
    char edit[64];
    int n = sprintf(edit, "I\t2\t%u\t66\t%d\t%u\t0\t1\n", clock, previous == 0 ? 0 : 2, previous);
    keep(WEIGH(RECEIVE, wimtaze_receive(sheet, length, (const uint8_t *)edit, (size_t)n, after, sizeof after)), word);
}

/* Receives with a cursor, and keeps nothing of it. */
static void receive_at(const char *edit, uint64_t gap, unsigned word, uint64_t moved)
{
    uint64_t reply =
        WEIGH(RECEIVE_AT,
              wimtaze_receive_at(sheet, length, (const uint8_t *)edit, strlen(edit), gap, after, sizeof after));
    if (wimtaze_word(reply) != word || wimtaze_moved(gap, wimtaze_shift(reply)) != moved)
        failures++;
}

/* Pastes so many characters of four bytes each, and keeps the sheet. */
static void paste(unsigned count, unsigned word, unsigned carried, unsigned thrown)
{
    for (unsigned k = 0; k < count; k++)
        memcpy(text + 4 * k, "\xf4\x8f\xbf\xbf", 4);
    uint64_t reply =
        WEIGH(PASTE, wimtaze_paste(sheet, length, 0, text, 4 * count, after, sizeof after, lines, sizeof lines));
    if (wimtaze_carried(reply) != carried || wimtaze_thrown(reply) != thrown)
        failures++;
    keep(reply, word);
}

/* Laptop 1, whose clock is 4,000, with 512 edits that wait for what it types next. */
enum awaiting { TURNS, INSERTS, INSERTS_THROWN_OUT };

static void begin_awaited(enum awaiting what)
{
    char *at = (char *)sheet + sprintf((char *)sheet, "S2\t1\t4000\n");
    for (unsigned k = 0; k < 512; k++) {
        unsigned sender = 1 + k / 32, clock = 1 + k % 32, awaited = 4001 + k;
        if (what == TURNS)
            at += sprintf(at, "E\t%u\t1\t%u\t1\n", sender, awaited);
        else if (what == INSERTS)
            at += sprintf(at, "I\t%u\t%u\t66\t1\t%u\t0\t1\n", sender, clock, awaited);
        else
            at += sprintf(at, "I\t%u\t%u\t66\t1\t%u\t1\t%u\n", sender, clock, awaited, awaited);
    }
    length = (size_t)(at - (char *)sheet);
}

/* The largest block, and those that release or throw out 512 edits. */
static void blocks(void)
{
    keep(WEIGH(EMPTY, wimtaze_empty(1, after, sizeof after)), WIMTAZE_DONE);
    paste(1024, WIMTAZE_DONE, 1024, 0);
    paste(1, WIMTAZE_REFUSED, 0, 0);
    begin_awaited(TURNS);
    paste(1024, WIMTAZE_DONE, 1536, 0);
    begin_awaited(INSERTS);
    paste(513, WIMTAZE_REFUSED, 0, 0);
    paste(512, WIMTAZE_DONE, 1024, 0);
    begin_awaited(INSERTS_THROWN_OUT);
    paste(512, WIMTAZE_DONE, 512, 512);
    text[0] = 0xff;
    keep(WEIGH(PASTE, wimtaze_paste(sheet, length, 0, text, 2048, after, sizeof after, lines, sizeof lines)),
         WIMTAZE_REFUSED);
}

/* Adds an insert with this clock and previous, and an erase of it. */
static void heap_put(unsigned clock, unsigned previous)
{
    heap_length += (size_t)sprintf((char *)heap + heap_length, "I\t2\t%u\t66\t%d\t%u\t0\t1\nE\t3\t2\t%u\t1\n", clock,
                                   previous == 0 ? 0 : 2, previous, clock);
}

static void build(unsigned word, unsigned left_out)
{
    uint64_t reply = WEIGH(BUILD, wimtaze_build(2, heap, heap_length, after, sizeof after));
    if (wimtaze_left_out(reply) != left_out)
        failures++;
    keep(reply, word);
}

/*
 * A heap of nothing, of a chain from its end, of inserts between the marks, of such as all lack something, of one line
 * too many; one with two that disagree, and one whose last line is cut.
 */
static void heaps(void)
{
    unsigned k;
    build(WIMTAZE_DONE, 0);
    for (k = 1024; k > 0; k--)
        heap_put(k, k - 1);
    build(WIMTAZE_DONE, 0);
    heap_put(1, 0);
    build(WIMTAZE_REFUSED, 0);
    for (k = 1024, heap_length = 0; k > 0; k--)
        heap_put(k, 0);
    build(WIMTAZE_DONE, 0);
    for (k = 1024, heap_length = 0; k > 0; k--)
        heap_put(k, k + 1);
    build(WIMTAZE_DONE, 2048);
    heap_length = 0;
    heap_put(1, 0);
    heap_put(1, 2);
    build(WIMTAZE_REFUSED, 0);
    heap_length--;
    build(WIMTAZE_REFUSED, 0);
}

/* 1,024 rows: a chain, rows between the marks, and each with one that no typing could make. */
static void foreign(void)
{
    for (unsigned kind = 0; kind < 4; kind++) {
        char *at = (char *)sheet + sprintf((char *)sheet, "S2\t1\t0\n");
        for (unsigned k = 1; k <= 1024; k++) {
            unsigned clock = kind == 3 ? 1025 - k : k, previous = kind < 2 ? k - 1 : 0;
            at += sprintf(at, "C\t2\t%u\t66\t1\t%d\t%u\t%d\t%u\n", clock, previous == 0 ? 0 : 2, previous,
                          kind == 1 && k == 1 ? 2 : 0, kind == 1 && k == 1 ? 1024u : 1u);
        }
        length = (size_t)(at - (char *)sheet);
        keep(WEIGH(LOAD, wimtaze_load(sheet, length, after, sizeof after)),
             kind % 2 == 0 ? WIMTAZE_DONE : WIMTAZE_REFUSED);
    }
}

static void answered(size_t list_length, unsigned word)
{
    if (wimtaze_word(WEIGH(ANSWER, wimtaze_answer(sheet, length, list, list_length, answer, sizeof answer))) != word)
        failures++;
}

/* Lists of nothing, with another total, and of far too many words. */
static void other_lists(void)
{
    char *at = (char *)list + sprintf((char *)list, "H\t1\t0\n");
    answered((size_t)(at - (char *)list), WIMTAZE_DONE);
    list[4]++;
    answered((size_t)(at - (char *)list), WIMTAZE_REFUSED);
    for (unsigned k = 0; k < 2000; k++)
        at += sprintf(at, "K\t%u\t%u\t18446744073709551615\n", 1 + k / 1000, 1 + k % 1000);
    answered((size_t)(at - (char *)list), WIMTAZE_REFUSED);
}

/*
 * 1,024 rows, each in a word of its own: between the marks, in a chain, and such that each needs the next and the one
 * before; what they list themselves is answered, and other lists are.
 */
static void lists(void)
{
    for (unsigned kind = 0; kind < 3; kind++) {
        char *at = (char *)sheet + sprintf((char *)sheet, "S2\t2\t65535\n");
        for (unsigned k = 0; k < 1024; k++) {
            unsigned clock = 64 * k + 63, above = kind > 0 && k > 0, below = kind > 1 && k < 1023;
            at += sprintf(at, "C\t2\t%u\t66\t255\t%u\t%u\t%u\t%u\n", clock, 2 * above, above * (clock - 64), 2 * below,
                          below ? clock + 64 : 1);
        }
        length = (size_t)(at - (char *)sheet);
        uint64_t reply = WEIGH(LIST, wimtaze_list(sheet, length, list, sizeof list));
        if (wimtaze_word(reply) != WIMTAZE_DONE)
            failures++;
        answered(wimtaze_written(reply), WIMTAZE_DONE);
        answered(wimtaze_written(reply) - 1, WIMTAZE_REFUSED);
        other_lists();
    }
    length--;
    answered(0, WIMTAZE_REFUSED);
}

/* Brings so many bytes of the archive back, and keeps the sheet. */
static void bring_back(size_t archive_length, unsigned word)
{
    keep(WEIGH(UNARCHIVE, wimtaze_unarchive(archive, archive_length, after, sizeof after)), word);
}

/* Takes the sheet at hand to its archive and back, and brings that back cut and with the clock lowered. */
static void rearrange(void)
{
    uint64_t reply = WEIGH(ARCHIVE, wimtaze_archive(sheet, length, archive, sizeof archive));
    size_t archive_length = wimtaze_written(reply);
    if (wimtaze_word(reply) != WIMTAZE_DONE)
        failures++;
    bring_back(archive_length, WIMTAZE_DONE);
    bring_back(archive_length - 1, WIMTAZE_REFUSED);
    memcpy(archive + 6, "10000", 5);
    bring_back(archive_length, WIMTAZE_REFUSED);
    memcpy(sheet + 6, "10000", 5);
    keep(WEIGH(ARCHIVE, wimtaze_archive(sheet, length, archive, sizeof archive)), WIMTAZE_REFUSED);
}

/*
 * 1,024 rows and 512 edits that wait: by rising identifier, by falling, and of sixteen laptops in turn. Then an archive
 * of far too many rows.
 */
static void archives(void)
{
    char *at;
    for (unsigned kind = 0; kind < 3; kind++) {
        at = (char *)sheet + sprintf((char *)sheet, "S2\t16\t65535\n");
        for (unsigned k = 0; k < 1024; k++) {
            unsigned laptop = kind == 2 ? 1 + k % 16 : 16, clock = kind == 1 ? 65023 - k : 64000 + k;
            at += sprintf(at, "C\t%u\t%u\t1114111\t255\t0\t0\t0\t1\n", laptop, clock);
        }
        for (unsigned k = 0; k < 512; k++)
            at += sprintf(at, "E\t%u\t15\t%u\t255\n", 1 + k / 32, 10000 + k % 32);
        length = (size_t)(at - (char *)sheet);
        rearrange();
    }
    at = (char *)archive + sprintf((char *)archive, "S2\t16\t65535\n");
    for (unsigned k = 0; k < 2000; k++)
        at += sprintf(at, "P\t%u\t1\t%u\t1114111\t255\t0\t0\t0\t1\n", 1 + k % 1024, 1 + k);
    bring_back((size_t)(at - (char *)archive), WIMTAZE_REFUSED);
}

static void *calls(void *unused)
{
    uint8_t here;
    unsigned k;
    top = (uintptr_t)&here - (uintptr_t)stack;
    keep(WEIGH(EMPTY, wimtaze_empty(1, after, sizeof after)), WIMTAZE_DONE);
    for (k = 2; k <= 33; k++)
        receive(k, k - 1, WIMTAZE_WAITS);
    receive_at("I\t2\t1\t66\t0\t0\t0\t1\n", 0, WIMTAZE_DONE, 0);
    receive(1, 0, WIMTAZE_DONE);
    for (k = 33; k < 1024; k++)
        keep(WEIGH(TYPE, wimtaze_type(sheet, length, k, 0x10FFFF, after, sizeof after, line, sizeof line)),
             WIMTAZE_DONE);
    keep(WEIGH(TYPE, wimtaze_type(sheet, length, 0, 'x', after, sizeof after, line, sizeof line)), WIMTAZE_REFUSED);
    if (wimtaze_word(WEIGH(TEXT, wimtaze_text(sheet, length, text, sizeof text))) != WIMTAZE_DONE)
        failures++;
    if (wimtaze_character_count(WEIGH(COUNTS, wimtaze_counts(sheet, length))) != 1024)
        failures++;
    keep(WEIGH(ERASE, wimtaze_erase(sheet, length, 512, after, sizeof after, line, sizeof line)), WIMTAZE_DONE);
    keep(WEIGH(DOWNGRADE, wimtaze_downgrade(sheet, length, after, sizeof after)), WIMTAZE_DONE);
    keep(WEIGH(UPGRADE, wimtaze_upgrade(sheet, length, after, sizeof after)), WIMTAZE_DONE);
    keep(WEIGH(RESTORE, wimtaze_restore(sheet, length, 1, 512 - 33, after, sizeof after, line, sizeof line)),
         WIMTAZE_DONE);
    keep(WEIGH(RESTORE, wimtaze_restore(sheet, length, 1, 512 - 33, after, sizeof after, line, sizeof line)),
         WIMTAZE_REFUSED);
    keep(WEIGH(DOWNGRADE, wimtaze_downgrade(sheet, length, after, sizeof after)), WIMTAZE_REFUSED);
    receive_at("E\t2\t2\t1\t255\n", 1024, WIMTAZE_DONE, 1023);
    receive_at("E\t2\t2\t1\t255\n", 1025, WIMTAZE_REFUSED, 1025);
    receive_at("E\t2\t3\t1\t255\n", 1024, WIMTAZE_WAITS, 1024);
    keep(WEIGH(RECEIVE,
               wimtaze_receive(sheet, length, (const uint8_t *)"E\t2\t2\t1\t255\n", 12, after, sizeof after)),
         WIMTAZE_DONE);
    blocks();
    heaps();
    foreign();
    lists();
    archives();
    return unused;
}

int main(void)
{
    pthread_attr_t attributes;
    pthread_t thread;
    int too_much = 0;
    stack = space + PAGE - (uintptr_t)space % PAGE;
    memset(stack, PAINT, PAINTED);
    if (pthread_attr_init(&attributes) != 0 || pthread_attr_setstack(&attributes, stack, PAINTED) != 0 ||
        pthread_create(&thread, &attributes, calls, NULL) != 0 || pthread_join(thread, NULL) != 0) {
        puts("no thread");
        return 1;
    }
    for (unsigned k = 0; k < CALLS; k++) {
        printf("%-10s %7u bytes of stack\n", names[k], (unsigned)most[k]);
        if (most[k] == 0 || most[k] + MARGIN > WIMTAZE_STACK)
            too_much++;
    }
    printf("%d answers were not expected; %d calls take more than %u bytes of stack less %u, or were not made\n",
           failures, too_much, (unsigned)WIMTAZE_STACK, (unsigned)MARGIN);
    return failures != 0 || too_much != 0;
}
