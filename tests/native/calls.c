/*
 * Document 01's situations, the requests, each refusal and the limits of the outputs, through the C calls.
 * Lines and sheets are written with spaces for tabs. Every call is made on outputs between guard bytes.
 */
#include "wimtaze.h"

#include <stdio.h>
#include <stdlib.h>
#include <string.h>

enum {
    GUARD = 64,
    ROOM = WIMTAZE_ARCHIVE_MAX + 64,
    LINE_ROOM = WIMTAZE_LINE_MAX + 27,
    LINES_ROOM = WIMTAZE_LINES_MAX + 64,
    HEAP_ROOM = 2 * WIMTAZE_HEAP_MAX,
    LIST_ROOM = 2 * WIMTAZE_LIST_MAX
};

static unsigned passed, failed, group_failed;
static unsigned refusals_seen;

/* The sheet that a test works on, and the outputs of the last call. */
static uint8_t sheet[ROOM], first[GUARD + ROOM + GUARD], second[GUARD + LINES_ROOM + GUARD];
static size_t sheet_length;

/* The heap that a sheet is built of. */
static uint8_t heap[HEAP_ROOM];
static size_t heap_length;

/* The list that is answered. */
static uint8_t list[LIST_ROOM];
static size_t list_length;

#define CHECK(held) check((held), __LINE__, #held)

static void check(int held, int line, const char *what)
{
    if (held) {
        passed++;
        return;
    }
    failed++;
    group_failed++;
    printf("calls.c:%d: not so: %s\n", line, what);
}

/* ---- bytes */

static size_t tabbed(const char *text, uint8_t *out)
{
    size_t n = strlen(text);
    for (size_t k = 0; k < n; k++)
        out[k] = text[k] == ' ' ? 9 : (uint8_t)text[k];
    return n;
}

static uint8_t fill_at(size_t k)
{
    return (uint8_t)(0x80 | (k * 37 + k / 128));
}

static void fill(uint8_t *buffer, size_t n)
{
    for (size_t k = 0; k < n; k++)
        buffer[k] = fill_at(k);
}

static int is_filled(const uint8_t *buffer, size_t from, size_t to)
{
    for (size_t k = from; k < to; k++)
        if (buffer[k] != fill_at(k))
            return 0;
    return 1;
}

/* Whether the last call wrote these bytes and no other; text is as in a test, with spaces for tabs. */
static int first_is(uint64_t reply, const char *text)
{
    static uint8_t want[ROOM];
    size_t n = tabbed(text, want);
    return wimtaze_written(reply) == n && memcmp(first + GUARD, want, n) == 0;
}

/* The same of the line, or the lines. */
static int line_is(uint64_t reply, const char *text)
{
    static uint8_t want[LINES_ROOM];
    size_t n = tabbed(text, want);
    return wimtaze_line_written(reply) == n && memcmp(second + GUARD, want, n) == 0;
}

static int sheet_is(const char *text)
{
    static uint8_t want[ROOM];
    size_t n = tabbed(text, want);
    return sheet_length == n && memcmp(sheet, want, n) == 0;
}

static void load(const char *text)
{
    sheet_length = tabbed(text, sheet);
}

static void append(const char *text)
{
    sheet_length += tabbed(text, sheet + sheet_length);
}

/* ---- calls: each on the sheet at hand, which takes the new bytes where there are any */

static void before(void)
{
    fill(first, sizeof first);
    fill(second, sizeof second);
}

/* What holds of every reply: the lengths fit, nothing else is touched, and what is not done counts nothing. */
static uint64_t after(uint64_t reply, size_t room, size_t line_room)
{
    size_t n = wimtaze_written(reply), m = wimtaze_line_written(reply);
    enum wimtaze_words word = wimtaze_word(reply);
    enum wimtaze_refusals refusal = wimtaze_refusal(reply);
    CHECK(n <= room && m <= line_room);
    CHECK(is_filled(first, 0, GUARD) && is_filled(first, GUARD + n, sizeof first));
    CHECK(is_filled(second, 0, GUARD) && is_filled(second, GUARD + m, sizeof second));
    CHECK((word == WIMTAZE_REFUSED) == (refusal != WIMTAZE_REFUSAL_NONE));
    if (word == WIMTAZE_KNOWN || word == WIMTAZE_REFUSED)
        CHECK(n == 0 && m == 0);
    if (word != WIMTAZE_DONE)
        CHECK(wimtaze_carried(reply) == 0 && wimtaze_thrown(reply) == 0);
    refusals_seen |= 1u << refusal;
    return reply;
}

/* Pasting an empty block is done, and nothing is written: the sheet at hand stays. */
static void keep(uint64_t reply)
{
    if (wimtaze_written(reply) > 0) {
        sheet_length = wimtaze_written(reply);
        memcpy(sheet, first + GUARD, sheet_length);
    }
}

static uint64_t empty(uint64_t number, size_t room)
{
    before();
    uint64_t reply = after(wimtaze_empty(number, first + GUARD, room), room, 0);
    keep(reply);
    return reply;
}

static uint64_t receive_bytes(const uint8_t *line, size_t length, size_t room)
{
    static uint8_t was[ROOM];
    size_t sheet_was = sheet_length;
    memcpy(was, sheet, sheet_was);
    before();
    uint64_t reply = after(wimtaze_receive(sheet, sheet_length, line, length, first + GUARD, room), room, 0);
    CHECK(memcmp(was, sheet, sheet_was) == 0);
    keep(reply);
    return reply;
}

static uint64_t receive_in(const char *line, size_t room)
{
    uint8_t bytes[256];
    return receive_bytes(bytes, tabbed(line, bytes), room);
}

static uint64_t receive(const char *line)
{
    return receive_in(line, ROOM);
}

/*
 * With a cursor: the last part of the reply is the shift, which is 0 where nothing changed and within its bounds
 * elsewhere. But for that and for refusal 4, wimtaze_receive answers the same and writes the same bytes.
 */
static uint64_t receive_at_in(uint64_t gap, const char *line, size_t room)
{
    static uint8_t was[ROOM], plain[ROOM];
    uint8_t bytes[256];
    size_t sheet_was = sheet_length, length = tabbed(line, bytes);
    memcpy(was, sheet, sheet_was);
    before();
    uint64_t reply = wimtaze_receive_at(sheet, sheet_length, bytes, length, gap, first + GUARD, room);
    uint64_t other = wimtaze_receive(sheet, sheet_length, bytes, length, plain, room);
    after(reply & UINT64_C(0xffffffffffff), room, 0);
    CHECK(memcmp(was, sheet, sheet_was) == 0);
    if (wimtaze_word(reply) == WIMTAZE_DONE)
        CHECK(wimtaze_shift(reply) >= -1 && wimtaze_shift(reply) <= 513);
    else
        CHECK(wimtaze_shift(reply) == 0);
    if (wimtaze_refusal(reply) != WIMTAZE_REFUSAL_POSITION) {
        CHECK((reply & UINT64_C(0xffffffffffff)) == other);
        CHECK(memcmp(first + GUARD, plain, wimtaze_written(reply)) == 0);
    }
    keep(reply);
    return reply;
}

static uint64_t receive_at(uint64_t gap, const char *line)
{
    return receive_at_in(gap, line, ROOM);
}

static uint64_t type_in(uint64_t gap, uint32_t code_point, size_t room, size_t line_room)
{
    before();
    uint64_t reply = wimtaze_type(sheet, sheet_length, gap, code_point, first + GUARD, room, second + GUARD, line_room);
    keep(after(reply, room, line_room));
    return reply;
}

static uint64_t type(uint64_t gap, uint32_t code_point)
{
    return type_in(gap, code_point, ROOM, LINE_ROOM);
}

static uint64_t erase_in(uint64_t place, size_t room, size_t line_room)
{
    before();
    uint64_t reply = wimtaze_erase(sheet, sheet_length, place, first + GUARD, room, second + GUARD, line_room);
    keep(after(reply, room, line_room));
    return reply;
}

static uint64_t erase(uint64_t place)
{
    return erase_in(place, ROOM, LINE_ROOM);
}

static uint64_t restore_in(uint64_t laptop, uint64_t clock, size_t room, size_t line_room)
{
    before();
    uint64_t reply =
        wimtaze_restore(sheet, sheet_length, laptop, clock, first + GUARD, room, second + GUARD, line_room);
    keep(after(reply, room, line_room));
    return reply;
}

static uint64_t restore(uint64_t laptop, uint64_t clock)
{
    return restore_in(laptop, clock, ROOM, LINE_ROOM);
}

/* The number in field k of a line; field 0 is its letter. */
static unsigned field(const uint8_t *line, unsigned k)
{
    unsigned number = 0;
    while (k > 0)
        if (*line++ == '\t')
            k--;
    for (; *line >= '0' && *line <= '9'; line++)
        number = 10 * number + (unsigned)(*line - '0');
    return number;
}

/*
 * The gap just below the last character that was typed here, whose identifier is in the first line of the sheet at
 * hand; if it is hidden, below the nearest shown one above it: so many are shown from the top through it. It is a gap
 * of no sheet if there is no such character.
 */
static uint64_t gap_below_last(void)
{
    unsigned laptop = field(sheet, 1), clock = field(sheet, 2);
    uint64_t gap = 0;
    const uint8_t *line = sheet, *end = sheet + sheet_length;
    while ((line = (const uint8_t *)memchr(line, '\n', (size_t)(end - line)) + 1) < end && *line == 'C') {
        gap += field(line, 4) % 2 == 0;
        if (field(line, 1) == laptop && field(line, 2) == clock)
            return gap;
    }
    return UINT64_MAX;
}

/* The next character of a block that the library has read, and how many bytes it takes. */
static uint32_t code_point_at(const uint8_t *block, size_t *bytes)
{
    *bytes = block[0] < 0x80 ? 1 : block[0] < 0xe0 ? 2 : block[0] < 0xf0 ? 3 : 4;
    uint32_t point = block[0] & (*bytes == 1 ? 0x7fu : 0xffu >> (*bytes + 1));
    for (size_t k = 1; k < *bytes; k++)
        point = point << 6 | (block[k] & 0x3fu);
    return point;
}

/* Whether typing the characters one after another on the sheet at hand comes to what pasting them did. */
static int typing_does(uint64_t gap, const uint8_t *block, size_t length, uint64_t reply)
{
    static uint8_t lines[LINES_ROOM], pasted[ROOM];
    unsigned carried = 0, thrown = 0;
    size_t bytes, lines_length = wimtaze_line_written(reply), at = 0;
    memcpy(lines, second + GUARD, lines_length);
    memcpy(pasted, first + GUARD, wimtaze_written(reply));
    for (size_t k = 0; k < length; k += bytes) {
        uint64_t one = type(gap, code_point_at(block + k, &bytes));
        size_t n = wimtaze_line_written(one);
        if (wimtaze_word(one) != WIMTAZE_DONE || at + n > lines_length || memcmp(second + GUARD, lines + at, n) != 0)
            return 0;
        at += n;
        carried += wimtaze_carried(one);
        thrown += wimtaze_thrown(one);
        gap = gap_below_last();
    }
    return at == lines_length && carried == wimtaze_carried(reply) && thrown == wimtaze_thrown(reply) &&
           sheet_length == wimtaze_written(reply) && memcmp(sheet, pasted, sheet_length) == 0;
}

/* How many lines the last call wrote. */
static size_t line_feeds(uint64_t reply)
{
    size_t count = 0;
    for (size_t k = 0; k < wimtaze_line_written(reply); k++)
        count += second[GUARD + k] == '\n';
    return count;
}

/*
 * Whether its lines, received in turn on the sheet at hand, leave the same sheet; and a cursor at the gap above the new
 * characters, if nothing came with them.
 */
static int receiving_does(uint64_t gap, uint64_t reply)
{
    static uint8_t lines[LINES_ROOM], pasted[ROOM], next[ROOM];
    uint64_t cursor = gap;
    const uint8_t *line = lines, *end = lines + wimtaze_line_written(reply);
    memcpy(lines, second + GUARD, wimtaze_line_written(reply));
    memcpy(pasted, first + GUARD, wimtaze_written(reply));
    while (line < end) {
        const uint8_t *behind = (const uint8_t *)memchr(line, '\n', (size_t)(end - line)) + 1;
        uint64_t one =
            wimtaze_receive_at(sheet, sheet_length, line, (size_t)(behind - line), cursor, next, sizeof next);
        if (wimtaze_word(one) != WIMTAZE_DONE)
            return 0;
        cursor = wimtaze_moved(cursor, wimtaze_shift(one));
        sheet_length = wimtaze_written(one);
        memcpy(sheet, next, sheet_length);
        line = behind;
    }
    return sheet_length == wimtaze_written(reply) && memcmp(sheet, pasted, sheet_length) == 0 &&
           (wimtaze_carried(reply) > line_feeds(reply) || cursor == gap);
}

/*
 * Pastes. A block that was pasted is also typed, and its lines received, on the sheet as it was. Where nothing came
 * with the characters, the gap below the last of them is as many further as there are.
 */
static uint64_t paste_in(uint64_t gap, const uint8_t *block, size_t length, size_t room, size_t lines_room)
{
    static uint8_t was[ROOM], text_was[LINES_ROOM], one[GUARD + ROOM + GUARD], two[GUARD + LINES_ROOM + GUARD];
    size_t sheet_was = sheet_length;
    memcpy(was, sheet, sheet_was);
    memcpy(text_was, block, length);
    before();
    uint64_t reply =
        wimtaze_paste(sheet, sheet_length, gap, block, length, first + GUARD, room, second + GUARD, lines_room);
    after(reply, room, lines_room);
    CHECK(memcmp(was, sheet, sheet_was) == 0 && memcmp(text_was, block, length) == 0);
    if (wimtaze_word(reply) != WIMTAZE_DONE || length == 0)
        return reply;
    memcpy(one, first, sizeof first);
    memcpy(two, second, sizeof second);
    CHECK(typing_does(gap, block, length, reply));
    memcpy(sheet, was, sheet_length = sheet_was);
    memcpy(first, one, sizeof first);
    memcpy(second, two, sizeof second);
    CHECK(receiving_does(gap, reply));
    keep(reply);
    if (wimtaze_carried(reply) == line_feeds(reply))
        CHECK(gap_below_last() == gap + line_feeds(reply));
    return reply;
}

static uint64_t paste_bytes(uint64_t gap, const void *block, size_t length)
{
    return paste_in(gap, (const uint8_t *)block, length, ROOM, LINES_ROOM);
}

static uint64_t paste(uint64_t gap, const char *block)
{
    return paste_bytes(gap, block, strlen(block));
}

static void heap_load(const char *text)
{
    heap_length = tabbed(text, heap);
}

static void heap_append(const char *text)
{
    heap_length += tabbed(text, heap + heap_length);
}

/* The lines of the heap from the last to the first. */
static void heap_turned(uint8_t *out)
{
    for (size_t end = heap_length, start; end > 0; end = start) {
        for (start = end - 1; start > 0 && heap[start - 1] != '\n'; start--)
            ;
        memcpy(out, heap + start, end - start);
        out += end - start;
    }
}

/* Of the heap at hand. From the last line to the first it gives the same reply and the same bytes. */
static uint64_t build_in(uint64_t number, size_t room)
{
    static uint8_t was[HEAP_ROOM], turned[HEAP_ROOM], again[ROOM];
    memcpy(was, heap, heap_length);
    before();
    uint64_t reply = after(wimtaze_build(number, heap, heap_length, first + GUARD, room), room, 0);
    CHECK(memcmp(was, heap, heap_length) == 0);
    CHECK(wimtaze_word(reply) == WIMTAZE_DONE || wimtaze_word(reply) == WIMTAZE_REFUSED);
    CHECK(wimtaze_carried(reply) == 0 && wimtaze_left_out(reply) <= 2048 && wimtaze_line_written(reply) == 0);
    if (wimtaze_word(reply) == WIMTAZE_DONE) {
        heap_turned(turned);
        CHECK(wimtaze_build(number, turned, heap_length, again, room) == reply);
        CHECK(memcmp(again, first + GUARD, wimtaze_written(reply)) == 0);
        keep(reply);
    }
    return reply;
}

static uint64_t build(uint64_t number, const char *lines)
{
    heap_load(lines);
    return build_in(number, ROOM);
}

static void list_load(const char *text)
{
    list_length = tabbed(text, list);
}

static void list_append(const char *text)
{
    list_length += tabbed(text, list + list_length);
}

/* A call that takes the sheet at hand and leaves it, and writes to one output. */
static uint64_t looked(uint64_t reply, size_t room, const uint8_t *was)
{
    after(reply, room, 0);
    CHECK(memcmp(was, sheet, sheet_length) == 0);
    CHECK(wimtaze_word(reply) == WIMTAZE_DONE || wimtaze_word(reply) == WIMTAZE_REFUSED);
    CHECK(wimtaze_carried(reply) == 0 && wimtaze_thrown(reply) == 0 && wimtaze_line_written(reply) == 0);
    return reply;
}

/* Lists the sheet at hand. What is listed is not answered: on the same sheet the answer has no insert. */
static uint64_t write_list_in(size_t room)
{
    static uint8_t was[ROOM], lines[WIMTAZE_ANSWER_MAX];
    memcpy(was, sheet, sheet_length);
    before();
    uint64_t reply = looked(wimtaze_list(sheet, sheet_length, first + GUARD, room), room, was);
    if (wimtaze_word(reply) == WIMTAZE_DONE) {
        uint64_t own =
            wimtaze_answer(sheet, sheet_length, first + GUARD, wimtaze_written(reply), lines, sizeof lines);
        CHECK(wimtaze_word(own) == WIMTAZE_DONE && memchr(lines, 'I', wimtaze_written(own)) == NULL);
    }
    return reply;
}

static uint64_t write_list(void)
{
    return write_list_in(ROOM);
}

/* Answers the list at hand. */
static uint64_t answer_in(size_t room)
{
    static uint8_t was[ROOM], list_was[LIST_ROOM];
    memcpy(was, sheet, sheet_length);
    memcpy(list_was, list, list_length);
    before();
    uint64_t reply = wimtaze_answer(sheet, sheet_length, list, list_length, first + GUARD, room);
    CHECK(memcmp(list_was, list, list_length) == 0);
    return looked(reply, room, was);
}

static uint64_t answer(const char *lines)
{
    list_load(lines);
    return answer_in(ROOM);
}

static uint64_t text_in(size_t room)
{
    before();
    return after(wimtaze_text(sheet, sheet_length, first + GUARD, room), room, 0);
}

static uint64_t text(void)
{
    return text_in(ROOM);
}

static uint64_t counts(void)
{
    static uint8_t was[ROOM];
    memcpy(was, sheet, sheet_length);
    uint64_t reply = wimtaze_counts(sheet, sheet_length);
    CHECK(memcmp(was, sheet, sheet_length) == 0);
    refusals_seen |= 1u << wimtaze_refusal(reply);
    return reply;
}

/* A call that takes the sheet at hand, and writes it anew, in another form or in the same. */
static uint64_t change_form_in(uint64_t (*call)(const uint8_t *, size_t, uint8_t *, size_t), size_t room)
{
    static uint8_t was[ROOM];
    size_t sheet_was = sheet_length;
    memcpy(was, sheet, sheet_was);
    before();
    uint64_t reply = after(call(sheet, sheet_length, first + GUARD, room), room, 0);
    CHECK(memcmp(was, sheet, sheet_was) == 0);
    keep(reply);
    return reply;
}

static uint64_t upgrade_in(size_t room)
{
    return change_form_in(wimtaze_upgrade, room);
}

static uint64_t upgrade(void)
{
    return upgrade_in(ROOM);
}

static uint64_t downgrade_in(size_t room)
{
    return change_form_in(wimtaze_downgrade, room);
}

static uint64_t downgrade(void)
{
    return downgrade_in(ROOM);
}

static uint64_t archive_in(size_t room)
{
    return change_form_in(wimtaze_archive, room);
}

static uint64_t archive(void)
{
    return archive_in(ROOM);
}

static uint64_t unarchive_in(size_t room)
{
    return change_form_in(wimtaze_unarchive, room);
}

static uint64_t unarchive(void)
{
    return unarchive_in(ROOM);
}

/* Loads the sheet at hand for use. What is loaded then is loaded once more, which gives the same reply and bytes. */
static uint64_t use_in(size_t room)
{
    static uint8_t again[ROOM];
    uint64_t reply = change_form_in(wimtaze_load, room);
    CHECK(wimtaze_word(reply) == WIMTAZE_DONE || wimtaze_word(reply) == WIMTAZE_REFUSED);
    CHECK(wimtaze_carried(reply) == 0 && wimtaze_thrown(reply) == 0 && wimtaze_line_written(reply) == 0);
    if (wimtaze_word(reply) == WIMTAZE_DONE) {
        CHECK(wimtaze_load(sheet, sheet_length, again, room) == reply);
        CHECK(memcmp(again, sheet, sheet_length) == 0);
    }
    return reply;
}

static uint64_t use(void)
{
    return use_in(ROOM);
}

/* ---- replies */

static int done(uint64_t reply, unsigned carried, unsigned thrown)
{
    return wimtaze_word(reply) == WIMTAZE_DONE && wimtaze_carried(reply) == carried && wimtaze_thrown(reply) == thrown;
}

static int waits(uint64_t reply)
{
    return wimtaze_word(reply) == WIMTAZE_WAITS;
}

/* Known and refused replies have no counts and no lengths, so the whole number is fixed. */
static int known(uint64_t reply)
{
    return reply == WIMTAZE_KNOWN;
}

static int refused(uint64_t reply, enum wimtaze_refusals refusal)
{
    return reply == ((uint64_t)refusal << 2 | WIMTAZE_REFUSED);
}

/* Whether wimtaze_counts tells these four, and nothing else. */
static int counted(unsigned shown, unsigned waiting, unsigned characters, unsigned room)
{
    uint64_t reply = counts();
    return wimtaze_word(reply) == WIMTAZE_DONE && wimtaze_refusal(reply) == WIMTAZE_REFUSAL_NONE &&
           wimtaze_shown_count(reply) == shown && wimtaze_waiting_count(reply) == waiting &&
           wimtaze_character_count(reply) == characters && wimtaze_room(reply) == room;
}

/* ---- the situations marked P */

static const char *const FOUR_ROWS = "S2 16 0\n"
                                     "C 3 1 67 0 0 0 1 1\n"
                                     "C 1 1 65 0 0 0 0 1\n"
                                     "C 2 1 66 0 0 0 0 1\n"
                                     "C 3 2 68 0 1 1 0 1\n";

static void p1(void)
{
    empty(16, ROOM);
    CHECK(done(receive("I 1 1 65 0 0 0 1\n"), 1, 0));
    CHECK(done(receive("I 3 1 67 0 0 1 1\n"), 1, 0));
    CHECK(done(receive("I 3 2 68 1 1 0 1\n"), 1, 0));
    CHECK(done(receive("I 2 1 66 0 0 0 1\n"), 1, 0));
    CHECK(sheet_is(FOUR_ROWS));
}

static void p2(void)
{
    empty(16, ROOM);
    CHECK(done(receive("I 2 1 66 0 0 0 1\n"), 1, 0));
    CHECK(done(receive("I 1 1 65 0 0 0 1\n"), 1, 0));
    CHECK(done(receive("I 3 1 67 0 0 1 1\n"), 1, 0));
    CHECK(done(receive("I 3 2 68 1 1 0 1\n"), 1, 0));
    CHECK(sheet_is(FOUR_ROWS));
}

static void p3(void)
{
    empty(16, ROOM);
    CHECK(done(receive("I 1 1 65 0 0 0 1\n"), 1, 0));
    CHECK(done(receive("I 3 1 67 0 0 1 1\n"), 1, 0));
    CHECK(done(receive("I 2 1 66 0 0 0 1\n"), 1, 0));
    CHECK(sheet_is("S2 16 0\nC 3 1 67 0 0 0 1 1\nC 1 1 65 0 0 0 0 1\nC 2 1 66 0 0 0 0 1\n"));
}

static void p4(void)
{
    static const char *const both = "S2 16 0\nC 1 1 65 0 0 0 0 1\nC 2 1 66 0 0 0 0 1\n";
    empty(16, ROOM);
    CHECK(done(receive("I 1 1 65 0 0 0 1\n"), 1, 0));
    CHECK(done(receive("I 2 1 66 0 0 0 1\n"), 1, 0));
    CHECK(sheet_is(both));
    empty(16, ROOM);
    CHECK(done(receive("I 2 1 66 0 0 0 1\n"), 1, 0));
    CHECK(done(receive("I 1 1 65 0 0 0 1\n"), 1, 0));
    CHECK(sheet_is(both));
}

static void p5(void)
{
    load("S2 16 0\nC 1 1 65 1 0 0 0 1\n");
    CHECK(done(receive("I 2 1 66 1 1 0 1\n"), 1, 0));
    CHECK(sheet_is("S2 16 0\nC 1 1 65 1 0 0 0 1\nC 2 1 66 0 1 1 0 1\n"));
}

static void p6(void)
{
    load("S2 16 0\nC 1 1 65 0 0 0 0 1\nC 2 1 66 0 0 0 0 1\n");
    CHECK(refused(receive("I 3 1 67 2 1 1 1\n"), WIMTAZE_REFUSAL_CROSSED));
}

static void p7(void)
{
    load("S2 16 0\nC 1 1 65 0 0 0 2 1\nC 2 1 66 0 1 1 0 1\n");
    CHECK(refused(receive("I 3 1 67 0 0 0 1\n"), WIMTAZE_REFUSAL_UNPLACEABLE));
}

static void p8(void)
{
    uint64_t reply;
    empty(5, ROOM);
    CHECK(done(type(0, 'x'), 1, 0));
    CHECK(done(type(1, 'y'), 1, 0));
    CHECK(done(type(2, 'z'), 1, 0));
    CHECK(refused(type(4, 'w'), WIMTAZE_REFUSAL_POSITION));
    reply = type(1, 'w');
    CHECK(done(reply, 1, 0));
    CHECK(line_is(reply, "I 5 4 119 5 1 5 2\n"));
    CHECK(sheet_is("S2 5 4\nC 5 1 120 0 0 0 0 1\nC 5 4 119 0 5 1 5 2\nC 5 2 121 0 5 1 0 1\nC 5 3 122 0 5 2 0 1\n"));
    CHECK(first_is(text(), "xwyz"));
}

static void p9(void)
{
    static const uint8_t utf8[] = {0xef, 0xbf, 0xbd, 0xc2, 0x80, 0xe0, 0xa0, 0x80, 0xf0, 0x90, 0x80, 0x80};
    empty(1, ROOM);
    CHECK(done(type(0, 127), 1, 0));
    CHECK(done(type(1, 128), 1, 0));
    CHECK(done(type(2, 2048), 1, 0));
    CHECK(done(type(3, 65536), 1, 0));
    uint64_t reply = text();
    CHECK(done(reply, 0, 0));
    CHECK(wimtaze_written(reply) == sizeof utf8 && memcmp(first + GUARD, utf8, sizeof utf8) == 0);
}

/* Req 01: control characters go out as U+FFFD in the text alone, and each counts three bytes there. */
static void controls(void)
{
    static const uint32_t points[] = {0, 8, 9, 10, 11, 31, 32, 126, 127, 128, 159};
    static const char shown[] = "\xef\xbf\xbd\xef\xbf\xbd\t\n\xef\xbf\xbd\xef\xbf\xbd ~\xef\xbf\xbd\xc2\x80\xc2\x9f";
    uint64_t reply;
    empty(1, ROOM);
    for (size_t k = 0; k < sizeof points / sizeof points[0]; k++)
        CHECK(done(type(k, points[k]), 1, 0));
    reply = text();
    CHECK(done(reply, 0, 0));
    CHECK(wimtaze_written(reply) == sizeof shown - 1 && memcmp(first + GUARD, shown, sizeof shown - 1) == 0);
    empty(1, ROOM);
    CHECK(line_is(type(0, 127), "I 1 1 127 0 0 0 1\n"));
    CHECK(sheet_is("S2 1 1\nC 1 1 127 0 0 0 0 1\n"));
    CHECK(refused(text_in(2), WIMTAZE_REFUSAL_OUTPUT));
    reply = text_in(3);
    CHECK(done(reply, 0, 0) && wimtaze_written(reply) == 3);
    CHECK(done(receive("I 2 1 13 1 1 0 1\n"), 1, 0));
    CHECK(sheet_is("S2 1 1\nC 1 1 127 0 0 0 0 1\nC 2 1 13 0 1 1 0 1\n"));
}

/* ---- the other situations */

static void thirty_one_waiting(void)
{
    char line[64];
    empty(16, ROOM);
    for (int k = 1; k <= 31; k++) {
        sprintf(line, k % 2 ? "I 2 %d 66 1 9 0 1\n" : "D 2 1 %d\n", k);
        CHECK(waits(receive(line)));
    }
    CHECK(waits(receive("I 2 32 66 1 9 0 1\n")));
    CHECK(refused(receive("I 2 33 66 1 9 0 1\n"), WIMTAZE_REFUSAL_SENDER_FULL));
    CHECK(refused(receive("D 2 1 40\n"), WIMTAZE_REFUSAL_SENDER_FULL));
    CHECK(known(receive("D 2 1 2\n")));
    CHECK(waits(receive("I 3 1 67 1 9 0 1\n")));
    CHECK(done(receive("I 1 9 65 0 0 0 1\n"), 19, 0));
}

/* Rows 1/1 to 1/count of laptop 1, each typed after the one before. */
static void load_rows(int count)
{
    char line[64];
    load("S2 4 0\n");
    for (int k = 1; k <= count; k++) {
        sprintf(line, k == 1 ? "C 1 1 97 0 0 0 0 1\n" : "C 1 %d 97 0 1 %d 0 1\n", k, k - 1);
        append(line);
    }
}

static void full(void)
{
    char line[64];
    load_rows(1023);
    append("I 2 1 98 3 1 0 1\n");
    CHECK(refused(type(0, 'x'), WIMTAZE_REFUSAL_DOCUMENT_FULL));
    CHECK(refused(receive("I 5 1 98 0 0 0 1\n"), WIMTAZE_REFUSAL_DOCUMENT_FULL));
    CHECK(refused(receive("I 5 1 98 6 1 0 1\n"), WIMTAZE_REFUSAL_DOCUMENT_FULL));
    CHECK(known(receive("I 2 1 98 3 1 0 1\n")));
    CHECK(known(receive("I 1 7 97 1 6 0 1\n")));
    CHECK(waits(receive("D 2 3 1\n")));
    CHECK(done(erase(1023), 1, 0));
    CHECK(refused(erase(1023), WIMTAZE_REFUSAL_POSITION));
    load_rows(1023);
    CHECK(done(type(1023, 'x'), 1, 0));
    CHECK(refused(type(1024, 'y'), WIMTAZE_REFUSAL_DOCUMENT_FULL));
    load_rows(1025);
    CHECK(refused(text(), WIMTAZE_REFUSAL_FORM));
    load_rows(992);
    for (int k = 1; k <= 32; k++) {
        sprintf(line, "I 2 %d 98 3 1 0 1\n", k);
        append(line);
    }
    CHECK(refused(receive("I 2 33 98 3 1 0 1\n"), WIMTAZE_REFUSAL_SENDER_FULL));
    CHECK(refused(receive("I 2 33 98 0 0 0 1\n"), WIMTAZE_REFUSAL_DOCUMENT_FULL));
    CHECK(refused(receive("I 4 1 98 3 1 0 1\n"), WIMTAZE_REFUSAL_DOCUMENT_FULL));
    CHECK(waits(receive("D 4 3 1\n")));
}

static void clocks(void)
{
    load("S2 7 65534\n");
    uint64_t reply = type(0, 'x');
    CHECK(done(reply, 1, 0));
    CHECK(line_is(reply, "I 7 65535 120 0 0 0 1\n"));
    CHECK(sheet_is("S2 7 65535\nC 7 65535 120 0 0 0 0 1\n"));
    CHECK(refused(type(0, 'y'), WIMTAZE_REFUSAL_CLOCK));
    CHECK(refused(type(2, 'y'), WIMTAZE_REFUSAL_POSITION));
    CHECK(done(erase(1), 1, 0));
}

/* The line that the last call wrote, with spaces for tabs. */
static void line_written(uint64_t reply, char *text)
{
    size_t n = wimtaze_line_written(reply);
    for (size_t k = 0; k < n; k++)
        text[k] = second[GUARD + k] == 9 ? ' ' : (char)second[GUARD + k];
    text[n] = 0;
}

/*
 * Laptop 2 types abc, which laptop 1 takes in, and loses its sheet. It begins anew, gets its lines back in each order,
 * and types on; laptop 1 takes that in too.
 */
static void set_up_anew(void)
{
    static const int orders[][3] = {{0, 1, 2}, {0, 2, 1}, {1, 0, 2}, {1, 2, 0}, {2, 0, 1}, {2, 1, 0}};
    static char lines[3][LINE_ROOM], next[LINE_ROOM];
    empty(2, ROOM);
    for (unsigned j = 0; j < 3; j++)
        line_written(type(j, 'a' + j), lines[j]);
    for (size_t k = 0; k < sizeof orders / sizeof *orders; k++) {
        empty(2, ROOM);
        for (size_t j = 0; j < 3; j++)
            CHECK(wimtaze_word(receive(lines[orders[k][j]])) != WIMTAZE_REFUSED);
        uint64_t reply = type(3, 'd');
        CHECK(done(reply, 1, 0));
        CHECK(line_is(reply, "I 2 4 100 2 3 0 1\n"));
        line_written(reply, next);
        empty(1, ROOM);
        for (size_t j = 0; j < 3; j++)
            CHECK(done(receive(lines[j]), 1, 0));
        CHECK(done(receive(next), 1, 0));
        CHECK(first_is(text(), "abcd"));
    }
    empty(2, ROOM);
    CHECK(waits(receive(lines[2])));
    CHECK(sheet_is("S2 2 3\nI 2 3 99 2 2 0 1\n"));
    CHECK(line_is(type(0, 'x'), "I 2 4 120 0 0 0 1\n"));
}

/* What raises the clock, and what does not. */
static void clock_follows(void)
{
    empty(2, ROOM);
    CHECK(done(receive("I 3 9 65 0 0 0 1\n"), 1, 0));
    CHECK(done(receive("I 1 1 66 0 0 0 1\n"), 1, 0));
    CHECK(refused(receive("I 2 9 67 3 9 1 1\n"), WIMTAZE_REFUSAL_CROSSED));
    CHECK(sheet_is("S2 2 0\nC 1 1 66 0 0 0 0 1\nC 3 9 65 0 0 0 0 1\n"));
    CHECK(done(receive("I 2 5 68 3 9 0 1\n"), 1, 0));
    CHECK(done(receive("I 2 2 69 2 5 0 1\n"), 1, 0));
    CHECK(line_is(type(4, 'x'), "I 2 6 120 2 2 0 1\n"));
    empty(2, ROOM);
    CHECK(waits(receive("I 2 9 65 1 1 1 1\n")));
    CHECK(done(receive("I 1 1 66 0 0 0 1\n"), 1, 1));
    CHECK(sheet_is("S2 2 9\nC 1 1 66 0 0 0 0 1\n"));
    CHECK(done(receive("I 2 65535 65 0 0 0 1\n"), 1, 0));
    CHECK(refused(type(0, 'x'), WIMTAZE_REFUSAL_CLOCK));
}

/* Nor does an own insert that is refused for want of room. */
static void clock_stays(void)
{
    char line[64];
    load("S2 2 0\n");
    for (int k = 1; k <= 32; k++) {
        sprintf(line, "E 2 9 %d 1\n", k);
        append(line);
    }
    CHECK(refused(receive("I 2 99 65 9 9 0 1\n"), WIMTAZE_REFUSAL_SENDER_FULL));
    CHECK(line_is(type(0, 'x'), "I 2 1 120 0 0 0 1\n"));
    load_rows(1024);
    CHECK(refused(receive("I 4 9 98 0 0 0 1\n"), WIMTAZE_REFUSAL_DOCUMENT_FULL));
    CHECK(done(erase(1), 1, 0));
    CHECK(memcmp(sheet, "S2\t4\t0\n", 7) == 0);
}

/* A saved clock that is too low is raised by loading, which shows only where a sheet is written. */
static void clock_raised(void)
{
    load("S2 2 0\nC 2 5 65 0 0 0 0 1\n");
    CHECK(known(receive("I 2 5 65 0 0 0 1\n")));
    CHECK(refused(type(2, 'x'), WIMTAZE_REFUSAL_POSITION));
    CHECK(sheet_is("S2 2 0\nC 2 5 65 0 0 0 0 1\n"));
    CHECK(done(text(), 0, 0));
    CHECK(counted(1, 0, 1, 1023));
    CHECK(done(erase(1), 1, 0));
    CHECK(sheet_is("S2 2 5\nC 2 5 65 1 0 0 0 1\n"));
    load("S2 2 1\nC 2 3 65 0 0 0 0 1\nC 1 9 66 0 0 0 0 1\nI 2 7 67 3 1 0 1\nI 4 8 67 3 1 0 1\n");
    CHECK(line_is(type(0, 'x'), "I 2 8 120 0 0 2 3\n"));
    load("S2 2 9\nC 2 5 65 0 0 0 0 1\n");
    CHECK(waits(receive("D 1 3 3\n")));
    CHECK(sheet_is("S2 2 9\nC 2 5 65 0 0 0 0 1\nE 1 3 3 1\n"));
    load("S2 2 0\nC 2 65535 65 0 0 0 0 1\n");
    CHECK(refused(type(0, 'x'), WIMTAZE_REFUSAL_CLOCK));
}

static void hall(void)
{
    empty(16, ROOM);
    CHECK(waits(receive("I 2 1 66 1 1 0 1\n")));
    CHECK(sheet_is("S2 16 0\nI 2 1 66 1 1 0 1\n"));
    CHECK(done(receive("I 1 1 65 0 0 0 1\n"), 2, 0));
    CHECK(done(receive("D 3 1 1\n"), 1, 0));
    CHECK(known(receive("I 1 1 65 0 0 0 1\n")));
    CHECK(refused(receive("I 1 1 67 0 0 0 1\n"), WIMTAZE_REFUSAL_CONFLICT));
    CHECK(sheet_is("S2 16 0\nC 1 1 65 1 0 0 0 1\nC 2 1 66 0 1 1 0 1\n"));
    CHECK(first_is(text(), "B"));
}

/* ---- Req 05: turns */

/*
 * Laptop 1 types a bye request and erases it, the wrong one; laptop 2, which took all that in, brings it back. On a
 * third the six lines come in every order, and on each of the three the request stands as it was typed.
 */
static void brought_back(void)
{
    static const char *const rows = "C 1 1 79 2 0 0 0 1\nC 1 2 75 2 1 1 0 1\n";
    static char lines[6][LINE_ROOM];
    char want[128];
    empty(1, ROOM);
    line_written(type(0, 'O'), lines[0]);
    line_written(type(1, 'K'), lines[1]);
    line_written(erase(1), lines[2]);
    line_written(erase(1), lines[3]);
    CHECK(first_is(text(), ""));
    CHECK(sheet_is("S2 1 2\nC 1 1 79 1 0 0 0 1\nC 1 2 75 1 1 1 0 1\n"));
    empty(2, ROOM);
    for (size_t k = 0; k < 4; k++)
        CHECK(done(receive(lines[k]), 1, 0));
    CHECK(counted(0, 0, 2, 1022));
    line_written(restore(1, 2), lines[4]);
    line_written(restore(1, 1), lines[5]);
    CHECK(strcmp(lines[2], "E 1 1 1 1\n") == 0 && strcmp(lines[3], "E 1 1 2 1\n") == 0);
    CHECK(strcmp(lines[4], "E 2 1 2 2\n") == 0 && strcmp(lines[5], "E 2 1 1 2\n") == 0);
    CHECK(first_is(text(), "OK"));
    CHECK(counted(2, 0, 2, 1022));
    load("S2 1 2\nC 1 1 79 1 0 0 0 1\nC 1 2 75 1 1 1 0 1\n");
    CHECK(done(receive(lines[5]), 1, 0));
    CHECK(first_is(text(), "O"));
    CHECK(done(receive(lines[4]), 1, 0));
    sprintf(want, "S2 1 2\n%s", rows);
    CHECK(sheet_is(want));
    sprintf(want, "S2 3 0\n%s", rows);
    for (int number = 0; number < 720; number++) {
        unsigned left[6] = {0, 1, 2, 3, 4, 5};
        empty(3, ROOM);
        for (int k = 6, code = number; k > 0; code /= k, k--) {
            int j = code % k;
            CHECK(wimtaze_word(receive(lines[left[j]])) != WIMTAZE_REFUSED);
            left[j] = left[k - 1];
        }
        CHECK(sheet_is(want));
    }
    CHECK(first_is(text(), "OK"));
}

/* The row takes the larger turn, and what is not larger is known. */
static void larger_turn(void)
{
    load("S2 9 0\nC 1 1 65 2 0 0 0 1\n");
    CHECK(known(receive_in("D 3 1 1\n", 0)));
    CHECK(known(receive_in("E 3 1 1 1\n", 0)));
    CHECK(known(receive_in("E 3 1 1 2\n", 0)));
    CHECK(first_is(text(), "A"));
    CHECK(done(receive("E 3 1 1 3\n"), 1, 0));
    CHECK(sheet_is("S2 9 0\nC 1 1 65 3 0 0 0 1\n"));
    CHECK(first_is(text(), ""));
    CHECK(known(receive("E 4 1 1 2\n")));
    CHECK(done(receive("E 4 1 1 5\n"), 1, 0));
    CHECK(done(receive("E 4 1 1 100\n"), 1, 0));
    CHECK(first_is(text(), "A"));
    CHECK(known(receive("I 1 1 65 0 0 0 1\n")));
    CHECK(done(receive("E 4 1 1 255\n"), 1, 0));
    CHECK(known(receive("E 4 1 1 255\n")));
    CHECK(known(receive("E 16 1 1 254\n")));
    CHECK(sheet_is("S2 9 0\nC 1 1 65 255 0 0 0 1\n"));
    /* Erased on two laptops at once; and on one while another erased it and brought it back. */
    load("S2 9 0\nC 1 1 65 0 0 0 0 1\n");
    CHECK(line_is(erase(1), "E 9 1 1 1\n"));
    CHECK(known(receive("E 3 1 1 1\n")));
    CHECK(known(receive("D 4 1 1\n")));
    CHECK(done(receive("E 5 1 1 2\n"), 1, 0));
    CHECK(known(receive("D 6 1 1\n")));
    CHECK(first_is(text(), "A"));
    CHECK(line_is(erase(1), "E 9 1 1 3\n"));
}

/* What waits is told apart by all four numbers, and each counts towards its sender's 32. */
static void waiting_turns(void)
{
    char line[64];
    empty(9, ROOM);
    CHECK(waits(receive("E 3 1 1 2\n")));
    CHECK(waits(receive("D 3 1 1\n")));
    CHECK(known(receive("D 3 1 1\n")));
    CHECK(known(receive("E 3 1 1 1\n")));
    CHECK(known(receive("E 3 1 1 2\n")));
    CHECK(waits(receive("E 4 1 1 2\n")));
    CHECK(waits(receive("E 3 2 1 2\n")));
    CHECK(waits(receive("E 3 1 2 2\n")));
    CHECK(sheet_is("S2 9 0\nE 3 1 1 2\nE 3 1 1 1\nE 4 1 1 2\nE 3 2 1 2\nE 3 1 2 2\n"));
    CHECK(counted(0, 5, 0, 1024));
    CHECK(refused(restore(1, 1), WIMTAZE_REFUSAL_NOT_HIDDEN));
    CHECK(done(receive("I 1 1 65 0 0 0 1\n"), 4, 0));
    CHECK(sheet_is("S2 9 0\nC 1 1 65 2 0 0 0 1\nE 3 2 1 2\nE 3 1 2 2\n"));
    empty(9, ROOM);
    for (int k = 1; k <= 32; k++) {
        sprintf(line, "E 3 1 1 %d\n", k);
        CHECK(waits(receive(line)));
    }
    CHECK(refused(receive("E 3 1 1 33\n"), WIMTAZE_REFUSAL_SENDER_FULL));
    CHECK(refused(receive("D 3 1 2\n"), WIMTAZE_REFUSAL_SENDER_FULL));
    CHECK(known(receive("D 3 1 1\n")));
    CHECK(waits(receive("E 4 1 1 33\n")));
    CHECK(done(receive("I 1 1 65 0 0 0 1\n"), 34, 0));
    CHECK(sheet_is("S2 9 0\nC 1 1 65 33 0 0 0 1\n"));
    /* Typing releases them too. */
    load("S2 9 4\nE 1 9 5 2\nE 2 9 5 1\n");
    CHECK(done(type(0, 'x'), 3, 0));
    CHECK(sheet_is("S2 9 5\nC 9 5 120 2 0 0 0 1\n"));
}

static void restoring(void)
{
    uint64_t reply;
    load("S2 9 0\nC 1 1 65 0 0 0 0 1\nC 1 2 66 1 1 1 0 1\nC 2 7 67 0 1 2 0 1\n");
    reply = restore(1, 2);
    CHECK(done(reply, 1, 0));
    CHECK(line_is(reply, "E 9 1 2 2\n"));
    CHECK(sheet_is("S2 9 0\nC 1 1 65 0 0 0 0 1\nC 1 2 66 2 1 1 0 1\nC 2 7 67 0 1 2 0 1\n"));
    CHECK(first_is(text(), "ABC"));
    CHECK(refused(restore(1, 2), WIMTAZE_REFUSAL_NOT_HIDDEN));
    CHECK(line_is(erase(2), "E 9 1 2 3\n"));
    CHECK(line_is(restore(1, 2), "E 9 1 2 4\n"));
    /* To the last turn: 254 is shown, and 255 is hidden for good. */
    load("S2 9 0\nC 1 1 65 253 0 0 0 1\n");
    CHECK(line_is(restore(1, 1), "E 9 1 1 254\n"));
    CHECK(refused(restore(1, 1), WIMTAZE_REFUSAL_NOT_HIDDEN));
    CHECK(line_is(erase(1), "E 9 1 1 255\n"));
    CHECK(sheet_is("S2 9 0\nC 1 1 65 255 0 0 0 1\n"));
    CHECK(refused(restore(1, 1), WIMTAZE_REFUSAL_LAST_TURN));
    CHECK(refused(erase(1), WIMTAZE_REFUSAL_POSITION));
    /* Every turn there is, from the first. */
    empty(9, ROOM);
    type(0, 'x');
    for (int k = 0; k < 127; k++) {
        CHECK(done(erase(1), 1, 0));
        CHECK(done(restore(9, 1), 1, 0));
    }
    CHECK(done(erase(1), 1, 0));
    CHECK(refused(restore(9, 1), WIMTAZE_REFUSAL_LAST_TURN));
    CHECK(sheet_is("S2 9 1\nC 9 1 120 255 0 0 0 1\n"));
    /* What waits is kept, and a clock that is too low is raised. */
    load("S2 2 0\nC 2 5 65 1 0 0 0 1\nI 3 1 67 4 1 0 1\nE 5 4 1 1\n");
    CHECK(line_is(restore(2, 5), "E 2 2 5 2\n"));
    CHECK(sheet_is("S2 2 5\nC 2 5 65 2 0 0 0 1\nI 3 1 67 4 1 0 1\nE 5 4 1 1\n"));
}

/* Refusals 2, 13 and 14 of restoring, and all six in their order. */
static void not_restored(void)
{
    static const uint64_t numbers[][2] = {{0, 0}, {0, 1}, {0, 2}, {1, 0}, {17, 1}, {1, 65536}, {257, 1}, {1, 65537},
        {65537, 1}, {4294967297u, 1}, {1, 4294967297u}, {UINT64_MAX - 254, 1}, {1, UINT64_MAX - 65534},
        {UINT64_MAX, UINT64_MAX}};
    static const char *const hidden = "S2 9 0\nC 1 1 65 1 0 0 0 1\n";
    for (size_t k = 0; k < sizeof numbers / sizeof *numbers; k++) {
        load(hidden);
        CHECK(refused(restore(numbers[k][0], numbers[k][1]), WIMTAZE_REFUSAL_RANGE));
    }
    empty(9, ROOM);
    CHECK(refused(restore(1, 1), WIMTAZE_REFUSAL_NOT_HIDDEN));
    load("S2 9 0\nC 1 1 65 0 0 0 0 1\nC 1 2 65 2 0 0 0 1\nC 1 3 65 254 0 0 0 1\nI 2 1 66 3 1 0 1\nE 5 4 1 1\n");
    for (unsigned clock = 1; clock <= 4; clock++)
        CHECK(refused(restore(1, clock), WIMTAZE_REFUSAL_NOT_HIDDEN));
    CHECK(refused(restore(2, 1), WIMTAZE_REFUSAL_NOT_HIDDEN));
    CHECK(refused(restore(4, 1), WIMTAZE_REFUSAL_NOT_HIDDEN));
    CHECK(refused(restore(16, 65535), WIMTAZE_REFUSAL_NOT_HIDDEN));
    CHECK(refused(restore_in(1, 1, 0, 0), WIMTAZE_REFUSAL_NOT_HIDDEN));
    load("S2 9 0\nC 1 1 65 255 0 0 0 1\n");
    CHECK(refused(restore(1, 1), WIMTAZE_REFUSAL_LAST_TURN));
    CHECK(refused(restore_in(1, 1, 0, 0), WIMTAZE_REFUSAL_LAST_TURN));
    CHECK(refused(restore(1, 2), WIMTAZE_REFUSAL_NOT_HIDDEN));
    load(hidden);
    CHECK(refused(restore_in(0, 0, 0, 0), WIMTAZE_REFUSAL_RANGE));
    CHECK(refused(restore_in(1, 1, 0, 0), WIMTAZE_REFUSAL_OUTPUT));
    append("I 2 1 66 0 0 0 1\n");
    CHECK(refused(restore(0, 0), WIMTAZE_REFUSAL_RANGE));
    CHECK(refused(restore_in(1, 1, 0, 0), WIMTAZE_REFUSAL_FORM));
    CHECK(refused(restore(1, 2), WIMTAZE_REFUSAL_FORM));
    append("E 1 1 1 256\n");
    CHECK(refused(restore(1, 2), WIMTAZE_REFUSAL_RANGE));
    append("D 1 1 1\n");
    CHECK(refused(restore_in(0, 0, 0, 0), WIMTAZE_REFUSAL_LAYOUT));
}

/* ---- Req 06: the first saved form */

/* Whether a call between the forms wrote this, which is then at hand, and told its length and nothing else. */
static int changed(uint64_t reply, const char *text)
{
    return reply == (uint64_t)strlen(text) << 32 && first_is(reply, text) && sheet_is(text);
}

/*
 * Last season's note, with a bye request that was erased, comes forward, is read, and goes back to the association as
 * it was. Brought back in between, the request keeps the sheet from going back.
 */
static void last_season(void)
{
    static const char *const old = "S 2 4\nC 2 1 66 1 0 0 0 1\nC 1 1 33 1 2 1 2 2\nC 2 2 121 0 2 1 0 1\n"
                                   "C 2 3 101 0 2 2 0 1\nI 5 2 88 5 1 0 1\nD 6 5 2\nD 6 5 1\nI 2 4 89 5 2 0 1\n";
    static const char *const now = "S2 2 4\nC 2 1 66 0 0 0 0 1\nC 1 1 33 0 2 1 2 2\nC 2 2 121 1 2 1 0 1\n"
                                   "C 2 3 101 1 2 2 0 1\nI 5 2 88 5 1 0 1\nE 6 5 2 1\nE 6 5 1 1\nI 2 4 89 5 2 0 1\n";
    load(old);
    CHECK(refused(text(), WIMTAZE_REFUSAL_LAYOUT));
    CHECK(changed(upgrade(), now));
    CHECK(first_is(text(), "B!"));
    CHECK(counted(2, 4, 4, 1018));
    CHECK(changed(downgrade(), old));
    CHECK(changed(upgrade(), now));
    CHECK(line_is(restore(2, 2), "E 2 2 2 2\n"));
    CHECK(first_is(text(), "B!y"));
    CHECK(refused(downgrade(), WIMTAZE_REFUSAL_HIGH_TURN));
    CHECK(first_is(text(), "B!y"));
    load(now);
    CHECK(waits(receive("D 7 5 2\n")));
    CHECK(done(downgrade(), 0, 0));
    CHECK(done(upgrade(), 0, 0));
    CHECK(waits(receive("E 7 5 2 2\n")));
    CHECK(refused(downgrade(), WIMTAZE_REFUSAL_HIGH_TURN));
}

/* Both trips give the same bytes, from either form. */
static void both_trips(void)
{
    static const char *const pairs[][2] = {{"S 1 0\n", "S2 1 0\n"}, {"S 16 65535\n", "S2 16 65535\n"},
        {"S 2 1\nC 2 1 65 1 0 0 0 1\n", "S2 2 1\nC 2 1 65 0 0 0 0 1\n"},
        {"S 2 1\nC 2 1 65 0 0 0 0 1\n", "S2 2 1\nC 2 1 65 1 0 0 0 1\n"},
        {"S 9 7\nD 1 1 1\n", "S2 9 7\nE 1 1 1 1\n"},
        {"S 9 7\nD 1 1 1\nD 2 1 1\nD 1 1 2\nD 1 2 1\n", "S2 9 7\nE 1 1 1 1\nE 2 1 1 1\nE 1 1 2 1\nE 1 2 1 1\n"},
        {"S 9 7\nI 9 7 0 1 1 2 2\nD 16 16 65535\n", "S2 9 7\nI 9 7 0 1 1 2 2\nE 16 16 65535 1\n"},
        {"S 3 2\nC 1 1 0 0 0 0 2 1\nC 2 1 1114111 1 1 1 0 1\n",
         "S2 3 2\nC 1 1 0 1 0 0 2 1\nC 2 1 1114111 0 1 1 0 1\n"}};
    for (size_t k = 0; k < sizeof pairs / sizeof *pairs; k++) {
        load(pairs[k][0]);
        CHECK(changed(upgrade(), pairs[k][1]));
        CHECK(changed(downgrade(), pairs[k][0]));
        CHECK(changed(upgrade(), pairs[k][1]));
    }
}

/* A clock that is too low, for a row or for what waits, is raised both ways, and nothing else is changed. */
static void clock_raised_on_the_way(void)
{
    load("S 2 0\nC 2 5 65 1 0 0 0 1\n");
    CHECK(changed(upgrade(), "S2 2 5\nC 2 5 65 0 0 0 0 1\n"));
    CHECK(changed(downgrade(), "S 2 5\nC 2 5 65 1 0 0 0 1\n"));
    load("S2 2 4\nC 2 5 65 1 0 0 0 1\n");
    CHECK(changed(downgrade(), "S 2 5\nC 2 5 65 0 0 0 0 1\n"));
    CHECK(changed(upgrade(), "S2 2 5\nC 2 5 65 1 0 0 0 1\n"));
    load("S 2 6\nC 2 5 65 1 0 0 0 1\nI 2 9 66 3 1 0 1\nI 3 12 66 3 1 0 1\nD 2 2 13\n");
    CHECK(changed(upgrade(), "S2 2 9\nC 2 5 65 0 0 0 0 1\nI 2 9 66 3 1 0 1\nI 3 12 66 3 1 0 1\nE 2 2 13 1\n"));
    load("S2 2 6\nC 2 5 65 0 0 0 0 1\nI 2 9 66 3 1 0 1\nI 3 12 66 3 1 0 1\nE 2 2 13 1\n");
    CHECK(changed(downgrade(), "S 2 9\nC 2 5 65 1 0 0 0 1\nI 2 9 66 3 1 0 1\nI 3 12 66 3 1 0 1\nD 2 2 13\n"));
    load("S 2 0\nC 2 65535 65 1 0 0 0 1\n");
    CHECK(changed(upgrade(), "S2 2 65535\nC 2 65535 65 0 0 0 0 1\n"));
    CHECK(refused(type(0, 'x'), WIMTAZE_REFUSAL_CLOCK));
    /* The raised clock may be longer, which counts where an output is short. */
    load("S 2 0\nC 2 5000 65 1 0 0 0 1\n");
    CHECK(refused(upgrade_in(sheet_length + 3), WIMTAZE_REFUSAL_OUTPUT));
    CHECK(done(upgrade_in(sheet_length + 4), 0, 0));
    load("S2 2 0\nC 2 5000 65 1 0 0 0 1\n");
    CHECK(refused(downgrade_in(sheet_length + 1), WIMTAZE_REFUSAL_OUTPUT));
    CHECK(done(downgrade_in(sheet_length + 2), 0, 0));
}

/* Each refusal of the way forward. */
static void not_upgraded(void)
{
    static const char *const layouts[] = {"", "\n", "S2 1 0\n", "S 1 0", "S 1\n", "S 1 0 0\n", "S 01 0\n", "S 1 0\n\n",
        "S 1 0\r\n", "s 1 0\n", "S1 1 0\n", "S  1 0\n", "S 1 0 \n", "S 2 1 0\n", "D 1 1 1\n", "C 1 1 65 1 0 0 0 1\n",
        "S 1 0\nE 1 1 1 1\n", "S 1 0\nD 1 1 1\nE 1 2 1 1\n", "S 1 0\nE 1 1 1\n", "S 1 0\nD 1 1 1 1\n",
        "S 1 0\nD 1 1\n", "S 1 0\nD 1 1 01\n", "S 1 0\nC 1 1 65 01 0 0 0 1\n", "S 1 0\nC 1 1 65 00 0 0 0 1\n",
        "S 1 0\nC 1 1 65 -1 0 0 0 1\n", "S 1 0\nC 1 1 65  0 0 0 1\n", "S 1 0\nC 1 1 65 1 0 0 1\n",
        "S 1 0\nD 1 1 1\nC 1 1 65 1 0 0 0 1\n", "S 1 0\nS 1 0\n", "S 1 0\nS2 1 0\n", "S2 1 0\nC 1 1 65 1 0 0 0 1\n",
        "S2 1 0\nD 1 1 1\n", "S 1 0\nD 1 1 1"};
    static const char *const numbers[] = {"S 0 0\n", "S 17 0\n", "S 1 65536\n", "S 257 0\n",
        "S 1 18446744073709551616\n",
        "S 1 0\nC 2 1 65 2 0 0 0 1\n", "S 1 0\nC 2 1 65 3 0 0 0 1\n", "S 1 0\nC 2 1 65 255 0 0 0 1\n",
        "S 1 0\nC 2 1 65 256 0 0 0 1\n", "S 1 0\nC 2 1 65 257 0 0 0 1\n", "S 1 0\nC 2 1 65 65537 0 0 0 1\n",
        "S 1 0\nC 2 1 65 4294967296 0 0 0 1\n", "S 1 0\nC 2 1 65 18446744073709551616 0 0 0 1\n",
        "S 1 0\nC 2 1 65 18446744073709551617 0 0 0 1\n", "S 1 0\nC 17 1 65 1 0 0 0 1\n",
        "S 1 0\nC 2 0 65 1 0 0 0 1\n", "S 1 0\nC 2 1 55296 1 0 0 0 1\n", "S 1 0\nC 2 1 65 1 2 1 0 1\n",
        "S 1 0\nD 0 1 1\n", "S 1 0\nD 17 1 1\n", "S 1 0\nD 1 0 1\n", "S 1 0\nD 1 1 0\n", "S 1 0\nD 1 1 65536\n",
        "S 1 0\nI 1 1 65 0 1 0 1\n"};
    static const char *const forms[] = {"S 1 0\nD 1 1 1\nD 1 1 1\n", "S 1 0\nD 1 1 1\nD 2 1 1\nD 1 1 1\n",
        "S 1 0\nC 1 1 65 0 0 0 0 1\nD 2 1 1\n", "S 1 0\nC 1 1 65 1 0 0 0 1\nC 1 1 65 1 0 0 0 1\n",
        "S 1 0\nI 1 1 65 0 0 0 1\n", "S 1 0\nC 1 1 65 1 2 1 0 1\n", "S 1 0\nC 1 1 65 1 0 0 0 1\nI 1 1 65 2 1 0 1\n",
        "S 1 0\nC 1 1 65 1 2 1 0 1\nC 2 1 66 1 0 0 0 1\n"};
    for (size_t k = 0; k < sizeof layouts / sizeof *layouts; k++) {
        load(layouts[k]);
        CHECK(refused(upgrade(), WIMTAZE_REFUSAL_LAYOUT));
    }
    for (size_t k = 0; k < sizeof numbers / sizeof *numbers; k++) {
        load(numbers[k]);
        CHECK(refused(upgrade(), WIMTAZE_REFUSAL_RANGE));
    }
    for (size_t k = 0; k < sizeof forms / sizeof *forms; k++) {
        load(forms[k]);
        CHECK(refused(upgrade(), WIMTAZE_REFUSAL_FORM));
    }
    load("S 1 0\nC 2 1 65 1 0 0 0 1\nD 1 1 1\n");
    CHECK(refused(upgrade_in(0), WIMTAZE_REFUSAL_OUTPUT));
    CHECK(refused(upgrade_in(sheet_length + 2), WIMTAZE_REFUSAL_OUTPUT));
    CHECK(done(upgrade_in(sheet_length + 3), 0, 0));
}

/* Each refusal of the way back. */
static void not_downgraded(void)
{
    static const char *const layouts[] = {"", "\n", "S 1 0\n", "S 1 0\nC 2 1 65 1 0 0 0 1\n", "S2 1 0", "S2 1\n",
        "S2 1 0\nD 1 1 1\n", "S2 1 0\nE 1 2 1 1\nD 1 1 1\n", "S2 1 0\nE 1 1 1\n", "S2 1 0\nC 1 1 65 01 0 0 0 1\n",
        "S2 1 0\nE 1 1 1 01\n", "S2 1 0\n\n", "S1 1 0\n", "S2 1 0\nE 1 1 1 1"};
    static const char *const numbers[] = {"S2 0 0\n", "S2 17 0\n", "S2 1 65536\n", "S2 1 0\nC 2 1 65 256 0 0 0 1\n",
        "S2 1 0\nC 2 1 65 18446744073709551617 0 0 0 1\n", "S2 1 0\nE 1 1 1 0\n", "S2 1 0\nE 1 1 1 256\n",
        "S2 1 0\nE 1 1 1 257\n", "S2 1 0\nE 17 1 1 1\n", "S2 1 0\nC 2 1 65 0 2 1 0 1\n"};
    static const char *const forms[] = {"S2 1 0\nE 1 1 1 1\nE 1 1 1 1\n", "S2 1 0\nC 1 1 65 1 0 0 0 1\nE 2 1 1 1\n",
        "S2 1 0\nC 1 1 65 0 0 0 0 1\nC 1 1 65 0 0 0 0 1\n", "S2 1 0\nI 1 1 65 0 0 0 1\n",
        "S2 1 0\nC 1 1 65 0 2 1 0 1\n"};
    static const char *const turns[] = {"S2 1 0\nC 2 1 65 2 0 0 0 1\n", "S2 1 0\nC 2 1 65 3 0 0 0 1\n",
        "S2 1 0\nC 2 1 65 255 0 0 0 1\n", "S2 1 0\nC 2 1 65 0 0 0 0 1\nC 2 2 65 2 0 0 0 1\n",
        "S2 1 0\nC 2 1 65 254 0 0 0 1\nC 2 2 65 1 0 0 0 1\n", "S2 1 0\nE 1 1 1 2\n", "S2 1 0\nE 1 1 1 255\n",
        "S2 1 0\nC 2 1 65 1 0 0 0 1\nE 1 1 1 1\nE 1 1 1 2\n", "S2 1 0\nE 1 1 1 3\nE 1 1 1 1\n",
        "S2 2 0\nC 2 1 65 2 0 0 0 1\n"};
    for (size_t k = 0; k < sizeof layouts / sizeof *layouts; k++) {
        load(layouts[k]);
        CHECK(refused(downgrade(), WIMTAZE_REFUSAL_LAYOUT));
    }
    for (size_t k = 0; k < sizeof numbers / sizeof *numbers; k++) {
        load(numbers[k]);
        CHECK(refused(downgrade(), WIMTAZE_REFUSAL_RANGE));
    }
    for (size_t k = 0; k < sizeof forms / sizeof *forms; k++) {
        load(forms[k]);
        CHECK(refused(downgrade(), WIMTAZE_REFUSAL_FORM));
    }
    for (size_t k = 0; k < sizeof turns / sizeof *turns; k++) {
        load(turns[k]);
        CHECK(refused(downgrade(), WIMTAZE_REFUSAL_HIGH_TURN));
    }
    load("S2 1 0\nC 2 1 65 0 0 0 0 1\nE 1 1 1 1\n");
    CHECK(refused(downgrade_in(0), WIMTAZE_REFUSAL_OUTPUT));
    CHECK(refused(downgrade_in(sheet_length - 4), WIMTAZE_REFUSAL_OUTPUT));
    CHECK(done(downgrade_in(sheet_length - 3), 0, 0));
}

/* Two grounds that hold at once, every such pair: the first in checking order is told. */
static void first_of_two(void)
{
    static const struct {
        const char *sheet;
        int told, other;
    } forward[] = {{"S 1 0\nD 1 1 0\nE 1 1 1 1\n", 1, 2}, {"S 1 0\nC 2 1 65 2 0 0 0 1\nE 1 1 1 1\n", 1, 2},
        {"S 1 0\nI 1 1 65 0 0 0 1\nE 1 1 1 1\n", 1, 3}, {"S 1 0\nE 1 1 1 1\n", 1, 12},
        {"S 1 0\nI 1 1 65 0 0 0 1\nD 1 1 0\n", 2, 3},
        {"S 1 0\nC 2 1 65 2 0 0 0 1\nC 2 1 65 1 0 0 0 1\n", 2, 3}, {"S 1 0\nC 2 1 65 2 0 0 0 1\n", 2, 12},
        {"S 1 0\nD 1 1 1\nD 1 1 1\n", 3, 12}},
      back[] = {{"S2 1 0\nE 1 1 1 0\nD 1 1 1\n", 1, 2}, {"S2 1 0\nI 1 1 65 0 0 0 1\nD 1 1 1\n", 1, 3},
        {"S2 1 0\nC 2 1 65 2 0 0 0 1\nD 1 1 1\n", 1, 15}, {"S2 1 0\nE 1 1 1 2\nD 1 1 1\n", 1, 15},
        {"S2 1 0\nD 1 1 1\n", 1, 12}, {"S2 1 0\nI 1 1 65 0 0 0 1\nE 1 1 1 0\n", 2, 3},
        {"S2 1 0\nC 2 1 65 2 0 0 0 1\nE 1 1 1 256\n", 2, 15}, {"S2 1 0\nE 1 1 1 2\nE 1 1 1 0\n", 2, 15},
        {"S2 1 0\nE 1 1 1 0\n", 2, 12}, {"S2 1 0\nC 2 1 65 2 0 0 0 1\nE 1 2 1 1\n", 3, 15},
        {"S2 1 0\nE 1 1 1 2\nE 1 1 1 2\n", 3, 15}, {"S2 1 0\nE 1 1 1 1\nE 1 1 1 1\n", 3, 12},
        {"S2 1 0\nC 2 1 65 2 0 0 0 1\n", 15, 12}, {"S2 1 0\nE 1 1 1 2\n", 15, 12}};
    for (size_t k = 0; k < sizeof forward / sizeof *forward; k++) {
        load(forward[k].sheet);
        CHECK(refused(upgrade_in(forward[k].other == 12 ? 0 : ROOM), forward[k].told));
    }
    for (size_t k = 0; k < sizeof back / sizeof *back; k++) {
        load(back[k].sheet);
        CHECK(refused(downgrade_in(back[k].other == 12 ? 0 : ROOM), back[k].told));
    }
}

/* ---- Req 02: the cursor */

/* How far a cursor at this gap goes by a line on the sheet at hand, which stays; 9999 unless it is done. */
static int shift_of(uint64_t gap, const char *line)
{
    static uint8_t was[ROOM];
    size_t length = sheet_length;
    memcpy(was, sheet, length);
    uint64_t reply = receive_at(gap, line);
    memcpy(sheet, was, length);
    sheet_length = length;
    return wimtaze_word(reply) == WIMTAZE_DONE ? wimtaze_shift(reply) : 9999;
}

/* Whether a line moves the cursors at gaps 0, 1, 2 ... so far, for as many as there are. */
static int shifts_are(const char *line, const int *shifts, size_t count)
{
    int same = 1;
    for (size_t gap = 0; gap < count; gap++)
        same &= shift_of(gap, line) == shifts[gap];
    return same;
}

#define SHIFTS(line, ...) shifts_are(line, (const int[]){__VA_ARGS__}, sizeof((int[]){__VA_ARGS__}) / sizeof(int))

/* Shown abcd, with a hidden row x between b and c and another, y, above a. */
static const char *const ABCD = "S2 9 0\nC 3 9 121 1 0 0 0 1\nC 1 1 97 0 0 0 0 1\nC 1 2 98 0 1 1 0 1\n"
                                "C 3 1 120 1 1 2 0 1\nC 1 3 99 0 1 2 0 1\nC 1 4 100 0 1 3 0 1\n";

/* A row above the cursor moves it by one; one that comes in just there, or below, leaves it. */
static void row_above_cursor(void)
{
    load(ABCD);
    CHECK(SHIFTS("I 5 1 110 0 0 3 9\n", 0, 1, 1, 1, 1));
    CHECK(SHIFTS("I 5 1 110 3 9 1 1\n", 0, 1, 1, 1, 1));
    CHECK(SHIFTS("I 5 1 110 1 1 1 2\n", 0, 0, 1, 1, 1));
    CHECK(SHIFTS("I 5 1 110 1 2 3 1\n", 0, 0, 0, 1, 1));
    CHECK(SHIFTS("I 5 1 110 3 1 1 3\n", 0, 0, 0, 1, 1));
    CHECK(SHIFTS("I 5 1 110 1 3 1 4\n", 0, 0, 0, 0, 1));
    CHECK(SHIFTS("I 5 1 110 1 4 0 1\n", 0, 0, 0, 0, 0));
    /* Where placing decides, with the identifier below and above those that are there. */
    load("S2 9 0\nC 2 1 97 0 0 0 0 1\nC 4 1 98 0 0 0 0 1\n");
    CHECK(SHIFTS("I 1 1 110 0 0 0 1\n", 0, 1, 1));
    CHECK(SHIFTS("I 3 1 110 0 0 0 1\n", 0, 0, 1));
    CHECK(SHIFTS("I 5 1 110 0 0 0 1\n", 0, 0, 0));
    empty(9, ROOM);
    CHECK(SHIFTS("I 1 1 110 0 0 0 1\n", 0));
    /* On a sheet that shows nothing, the begin mark is on the left of the only cursor. */
    load("S2 9 0\nC 1 1 97 1 0 0 0 1\nC 1 2 97 3 1 1 0 1\n");
    CHECK(SHIFTS("I 5 1 110 0 0 1 1\n", 0));
    CHECK(SHIFTS("I 5 1 110 1 2 0 1\n", 0));
    CHECK(SHIFTS("E 5 1 1 2\n", 0));
    CHECK(SHIFTS("E 5 1 2 5\n", 0));
}

/* What is hidden at or above the cursor takes one from it, and what is shown above it gives one. */
static void turn_above_cursor(void)
{
    load(ABCD);
    CHECK(SHIFTS("E 5 1 1 1\n", 0, -1, -1, -1, -1));
    CHECK(SHIFTS("D 5 1 2\n", 0, 0, -1, -1, -1));
    CHECK(SHIFTS("E 5 1 3 3\n", 0, 0, 0, -1, -1));
    CHECK(SHIFTS("E 5 1 4 255\n", 0, 0, 0, 0, -1));
    CHECK(SHIFTS("E 5 1 1 2\n", 0, 0, 0, 0, 0));
    CHECK(SHIFTS("E 5 1 2 254\n", 0, 0, 0, 0, 0));
    CHECK(SHIFTS("E 5 3 9 2\n", 0, 1, 1, 1, 1));
    CHECK(SHIFTS("E 5 3 1 2\n", 0, 0, 0, 1, 1));
    CHECK(SHIFTS("E 5 3 1 254\n", 0, 0, 0, 1, 1));
    CHECK(SHIFTS("E 5 3 1 3\n", 0, 0, 0, 0, 0));
    CHECK(SHIFTS("E 5 3 9 255\n", 0, 0, 0, 0, 0));
    /* The row on the left: from turn 0 to 2 nothing, from 0 to 3 one back. */
    load("S2 9 0\nC 1 1 97 0 0 0 0 1\n");
    CHECK(SHIFTS("E 5 1 1 2\n", 0, 0));
    CHECK(SHIFTS("E 5 1 1 3\n", 0, -1));
    /* With rows hidden above it, the nearest shown one; where it is brought back the cursor stays. */
    load("S2 9 0\nC 1 1 97 0 0 0 0 1\nC 1 2 98 1 1 1 0 1\nC 1 3 99 1 1 2 0 1\nC 1 4 100 0 1 3 0 1\n");
    CHECK(done(receive_at(2, "E 5 1 4 1\n"), 1, 0) && sheet_is("S2 9 0\nC 1 1 97 0 0 0 0 1\nC 1 2 98 1 1 1 0 1\n"
                                                               "C 1 3 99 1 1 2 0 1\nC 1 4 100 1 1 3 0 1\n"));
    CHECK(SHIFTS("E 6 1 4 2\n", 0, 0));
    CHECK(SHIFTS("E 6 1 1 1\n", 0, -1));
}

/* What an insert releases counts as well, if it is shown and above the cursor. */
static void released_above_cursor(void)
{
    static const char *const rows = "S2 9 0\nC 1 1 97 0 0 0 0 1\nC 1 2 98 0 1 1 0 1\nC 1 3 99 0 1 2 0 1\n";
    /* 6/1 comes between a and b: rows beside it, one hidden at once, one that waits for another of them. */
    load(rows);
    append("I 5 1 110 1 1 6 1\nI 5 2 110 6 1 1 2\nI 5 3 110 5 2 1 2\nI 5 4 110 6 1 5 2\nE 7 5 4 1\n");
    CHECK(SHIFTS("I 6 1 109 1 1 1 2\n", 0, 0, 5 - 1, 5 - 1));
    uint64_t reply = receive_at(2, "I 6 1 109 1 1 1 2\n");
    CHECK(done(reply, 6, 0) && wimtaze_shift(reply) == 4);
    CHECK(first_is(text(), "anmnnbc"));
    /* The insert itself is hidden by what waited for it; brought back by a higher turn it counts again. */
    load(rows);
    append("E 7 6 1 1\n");
    CHECK(SHIFTS("I 6 1 109 1 1 1 2\n", 0, 0, 0, 0));
    append("I 5 1 110 6 1 1 2\n");
    CHECK(SHIFTS("I 6 1 109 1 1 1 2\n", 0, 0, 1, 1));
    append("E 8 6 1 2\n");
    CHECK(SHIFTS("I 6 1 109 1 1 1 2\n", 0, 0, 2, 2));
    /* One that is thrown out does not count; nor does what still waits. */
    load(rows);
    append("I 5 1 110 6 1 1 1\nI 5 2 110 6 1 1 2\nI 5 3 110 6 1 8 1\n");
    reply = receive_at(3, "I 6 1 109 1 1 1 2\n");
    CHECK(done(reply, 2, 1) && wimtaze_shift(reply) == 2);
    /* Released far from the insert: above the cursor although the insert is below it, and the other way round. */
    load("S2 9 0\nC 8 1 97 0 0 0 0 1\nC 8 2 98 0 8 1 0 1\nI 5 1 110 0 0 6 1\n");
    CHECK(SHIFTS("I 6 1 109 8 2 0 1\n", 0, 1, 1));
    load("S2 9 0\nC 2 1 97 0 0 0 0 1\nC 2 2 98 0 2 1 0 1\nI 5 1 110 6 1 0 1\n");
    CHECK(SHIFTS("I 6 1 109 0 0 2 1\n", 0, 1, 1));
    CHECK(done(receive_at(2, "I 6 1 109 0 0 2 1\n"), 2, 0));
    CHECK(first_is(text(), "mabn"));
}

/* 512 that wait above the cursor and the one that they wait for: the most that a call can bring. */
static void largest_shift(void)
{
    static const uint64_t gaps[] = {1, 2, 255, 511};
    char line[64];
    for (size_t k = 0; k < sizeof gaps / sizeof *gaps; k++) {
        load_rows(511);
        for (int n = 0; n < 512; n++) {
            sprintf(line, n % 2 ? "I %d %d 98 5 9999 1 1\n" : "I %d %d 98 0 0 5 9999\n", 1 + n / 32, 1000 + n % 32);
            append(line);
        }
        CHECK(counted(511, 512, 511, 1));
        CHECK(shift_of(0, "I 5 9999 98 0 0 1 1\n") == 0);
        uint64_t reply = receive_at_in(gaps[k], "I 5 9999 98 0 0 1 1\n", WIMTAZE_SHEET_MAX);
        CHECK(done(reply, 513, 0) && wimtaze_shift(reply) == 513);
        CHECK(wimtaze_moved(gaps[k], wimtaze_shift(reply)) == gaps[k] + 513);
        CHECK(counted(1024, 0, 1024, 0));
    }
    /* The same where half of them hide the other half. */
    load_rows(511);
    for (int n = 0; n < 256; n++) {
        int laptop = 1 + n / 16, clock = 1000 + n % 16;
        sprintf(line, "I %d %d 98 0 0 5 9999\nE %d %d %d 1\n", laptop, clock, laptop, laptop, clock);
        append(line);
    }
    CHECK(shift_of(511, "I 5 9999 98 0 0 1 1\n") == 1);
    CHECK(done(receive_at(511, "I 5 9999 98 0 0 1 1\n"), 513, 0));
    CHECK(counted(512, 0, 768, 256));
}

/* Nothing is carried out, and the cursor stays: what waits, what is known, and what is refused. */
static void cursor_stays(void)
{
    uint64_t reply;
    load(ABCD);
    reply = receive_at(4, "I 9 7 110 8 1 1 1\n");
    CHECK(waits(reply) && wimtaze_shift(reply) == 0);
    CHECK(wimtaze_line_written(reply) == 0);
    CHECK(memcmp(sheet, "S2\t9\t7\n", 7) == 0);
    CHECK(waits(receive_at(0, "E 9 8 1 2\n")));
    CHECK(counted(4, 2, 6, 1017));
    /* Known before the gap is looked at, whatever it is and however short the output. */
    for (unsigned k = 0; k < 6; k++) {
        static const uint64_t gaps[] = {0, 4, 5, 6, 4294967296u, UINT64_MAX};
        CHECK(known(receive_at_in(gaps[k], "I 1 2 98 1 1 0 1\n", 0)));
        CHECK(known(receive_at_in(gaps[k], "I 3 1 120 1 2 0 1\n", ROOM)));
        CHECK(known(receive_at_in(gaps[k], "I 9 7 110 8 1 1 1\n", 0)));
        CHECK(known(receive_at_in(gaps[k], "E 9 8 1 2\n", ROOM)));
        CHECK(known(receive_at_in(gaps[k], "D 7 3 9\n", 0)));
    }
    /* A gap beyond the shown rows, hidden ones not counted, for what would be done and for what would wait. */
    for (unsigned k = 0; k < 7; k++) {
        static const uint64_t gaps[] = {5, 6, 7, 65536, 4294967296u, 4294967300u, UINT64_MAX};
        CHECK(refused(receive_at(gaps[k], "I 5 1 110 0 0 0 1\n"), WIMTAZE_REFUSAL_POSITION));
        CHECK(refused(receive_at(gaps[k], "I 5 1 110 6 1 0 1\n"), WIMTAZE_REFUSAL_POSITION));
        CHECK(refused(receive_at(gaps[k], "E 5 1 1 1\n"), WIMTAZE_REFUSAL_POSITION));
        CHECK(refused(receive_at(gaps[k], "E 5 6 1 1\n"), WIMTAZE_REFUSAL_POSITION));
        CHECK(refused(receive_at(gaps[k], "E 5 3 1 2\n"), WIMTAZE_REFUSAL_POSITION));
    }
    empty(9, ROOM);
    CHECK(refused(receive_at(1, "I 5 1 110 0 0 0 1\n"), WIMTAZE_REFUSAL_POSITION));
    CHECK(done(receive_at(0, "I 5 1 110 0 0 0 1\n"), 1, 0));
    CHECK(done(receive_at(1, "E 5 5 1 1\n"), 1, 0));
    CHECK(refused(receive_at(1, "E 5 5 1 2\n"), WIMTAZE_REFUSAL_POSITION));
}

/* Two grounds that hold at once, every such pair: the first in the order 1 2 3 known 4 7 8 9 10 11 12 is told. */
static void first_of_two_at_a_gap(void)
{
    enum { KNOWN = 0 };
    static const char *const two = "S2 9 0\nC 1 1 65 0 0 0 0 1\nC 2 1 66 0 0 0 0 1\n";
    static const char *const p7_sheet = "S2 9 0\nC 1 1 65 0 0 0 2 1\nC 2 1 66 0 1 1 0 1\n";
    static const char *const no_form = "S2 9 0\nC 1 1 65 0 0 0 0 1\nI 9 9 66 0 0 0 1\n";
    static const char *const two_no_form = "S2 9 0\nC 1 1 65 0 0 0 0 1\nC 2 1 66 0 0 0 0 1\nI 9 9 66 0 0 0 1\n";
    static const char *const p7_no_form = "S2 9 0\nC 1 1 65 0 0 0 2 1\nC 2 1 66 0 1 1 0 1\nI 9 9 66 0 0 0 1\n";
    static const char *const no_range = "S2 9 0\nC 1 1 65 256 0 0 0 1\n", *const no_layout = "S2 9 0\nD 1 1 1\n";
    const struct {
        const char *sheet, *line;
        uint64_t gap;
        int told, other;
    } pairs[] = {{no_range, "D 1 1\n", 0, 1, 2}, {no_layout, "D 1 1 0\n", 0, 1, 2}, {two, "D 1 1 0", 0, 1, 2},
        {no_form, "D 1 1\n", 0, 1, 3}, {two, "D 1 1\n", 3, 1, 4}, {no_layout, "E 1 1 1 1\n", 9, 1, 4},
        {two, "D 1 1\n", 0, 1, 12}, {no_layout, "E 1 1 1 1\n", 0, 1, 12},
        {no_form, "E 1 1 1 256\n", 0, 2, 3}, {two, "E 1 1 1 0\n", 3, 2, 4}, {no_range, "E 1 1 1 1\n", 9, 2, 4},
        {two, "I 1 1 65 1 1 0 1\n", 0, 2, 12}, {no_range, "E 1 1 1 1\n", 0, 2, 12},
        {no_form, "I 1 1 65 0 0 0 1\n", 0, 3, KNOWN}, {no_form, "E 1 1 1 1\n", 9, 3, 4},
        {no_form, "I 1 1 66 0 0 0 1\n", 0, 3, 7}, {two_no_form, "I 3 1 67 2 1 1 1\n", 0, 3, 8},
        {p7_no_form, "I 3 1 67 0 0 0 1\n", 0, 3, 9}, {no_form, "E 1 1 1 1\n", 0, 3, 12},
        {two, "I 1 1 65 0 0 0 1\n", 3, KNOWN, 4}, {two, "I 1 1 65 0 0 0 1\n", 2, KNOWN, 12},
        {two, "I 1 1 67 0 0 0 1\n", 3, 4, 7}, {two, "I 3 1 67 2 1 1 1\n", 3, 4, 8},
        {p7_sheet, "I 3 1 67 0 0 0 1\n", 3, 4, 9}, {two, "I 3 1 67 0 0 0 1\n", 3, 4, 12},
        {two, "I 3 1 67 4 1 0 1\n", 3, 4, 12}, {two, "I 2 1 67 0 0 1 1\n", 0, 7, 12},
        {"S2 9 0\nC 1 1 65 0 0 0 0 1\nC 2 1 66 0 0 0 0 1\nC 3 1 67 0 0 0 0 1\n", "I 3 1 67 2 1 1 1\n", 1, 7, 8},
        {p7_sheet, "I 2 1 67 0 0 0 1\n", 1, 7, 9}, {two, "I 3 1 67 2 1 1 1\n", 2, 8, 12},
        {p7_sheet, "I 3 1 67 0 0 0 1\n", 2, 9, 12}};
    char line[64];
    for (size_t k = 0; k < sizeof pairs / sizeof *pairs; k++) {
        load(pairs[k].sheet);
        uint64_t reply = receive_at_in(pairs[k].gap, pairs[k].line, pairs[k].other == 12 ? 0 : ROOM);
        CHECK(pairs[k].told == KNOWN ? known(reply) : refused(reply, pairs[k].told));
    }
    /* Laptop 2 has 32 waiting. */
    load("S2 9 0\nC 1 1 65 0 0 0 0 1\n");
    for (int k = 1; k <= 32; k++) {
        sprintf(line, "I 2 %d 98 3 1 0 1\n", k);
        append(line);
    }
    CHECK(refused(receive_at(2, "I 2 33 98 3 1 0 1\n"), WIMTAZE_REFUSAL_POSITION));
    CHECK(refused(receive_at(2, "E 2 3 1 1\n"), WIMTAZE_REFUSAL_POSITION));
    CHECK(known(receive_at(2, "I 2 32 98 3 1 0 1\n")));
    CHECK(known(receive_at(1, "I 2 32 98 3 1 0 1\n")));
    CHECK(refused(receive_at(1, "I 2 32 99 3 1 0 1\n"), WIMTAZE_REFUSAL_CONFLICT));
    CHECK(refused(receive_at(1, "I 2 33 98 3 1 0 1\n"), WIMTAZE_REFUSAL_SENDER_FULL));
    CHECK(refused(receive_at_in(1, "I 2 33 98 3 1 0 1\n", 0), WIMTAZE_REFUSAL_SENDER_FULL));
    CHECK(refused(receive_at_in(1, "I 4 1 98 3 1 0 1\n", 0), WIMTAZE_REFUSAL_OUTPUT));
    CHECK(waits(receive_at(1, "I 4 1 98 3 1 0 1\n")));
    append("I 9 9 66 0 0 0 1\n");
    CHECK(refused(receive_at(1, "I 2 33 98 3 1 0 1\n"), WIMTAZE_REFUSAL_FORM));
    /* And the sheet is full besides. */
    load_rows(992);
    for (int k = 1; k <= 32; k++) {
        sprintf(line, "I 2 %d 98 3 1 0 1\n", k);
        append(line);
    }
    CHECK(refused(receive_at(993, "I 4 1 98 0 0 0 1\n"), WIMTAZE_REFUSAL_POSITION));
    CHECK(known(receive_at(993, "I 1 7 97 1 6 0 1\n")));
    CHECK(known(receive_at(992, "I 1 7 97 1 6 0 1\n")));
    CHECK(refused(receive_at(992, "I 1 7 98 1 6 0 1\n"), WIMTAZE_REFUSAL_CONFLICT));
    CHECK(refused(receive_at(992, "I 4 1 98 1 7 1 6\n"), WIMTAZE_REFUSAL_CROSSED));
    CHECK(refused(receive_at(992, "I 2 33 98 3 1 0 1\n"), WIMTAZE_REFUSAL_SENDER_FULL));
    CHECK(refused(receive_at(992, "I 4 1 98 3 1 0 1\n"), WIMTAZE_REFUSAL_DOCUMENT_FULL));
    CHECK(refused(receive_at_in(992, "I 4 1 98 0 0 0 1\n", 0), WIMTAZE_REFUSAL_DOCUMENT_FULL));
    CHECK(refused(receive_at_in(992, "E 4 1 5 1\n", sheet_length - 1), WIMTAZE_REFUSAL_OUTPUT));
    uint64_t reply = receive_at_in(992, "E 4 1 5 1\n", sheet_length);
    CHECK(done(reply, 1, 0) && wimtaze_shift(reply) == -1);
    /* A full sheet that gives an insert no place. */
    load("S2 9 0\nC 1 1 97 0 0 0 1 2\n");
    for (int k = 2; k <= 1024; k++) {
        sprintf(line, k == 1024 ? "C 1 %d 97 0 1 %d 0 1\n" : "C 1 %d 97 0 1 %d 1 %d\n", k, k - 1, k + 1);
        append(line);
    }
    CHECK(refused(receive_at(1024, "I 3 1 67 0 0 0 1\n"), WIMTAZE_REFUSAL_UNPLACEABLE));
    CHECK(refused(receive_at(1025, "I 3 1 67 0 0 0 1\n"), WIMTAZE_REFUSAL_POSITION));
    append("E 1 1 1 1\n");
    CHECK(refused(receive_at(1024, "I 3 1 67 1 1 1 2\n"), WIMTAZE_REFUSAL_FORM));
}

/* A refused sheet or line is refused by the cursor's call in the same way. */
static void not_received_at(void)
{
    static const char *const sheets[][2] = {{"", "1"}, {"S 9 0\n", "1"}, {"S2 9 0", "1"},
        {"S2 9 0\nD 1 1 1\n", "1"}, {"S2 0 0\n", "2"}, {"S2 9 65536\n", "2"}, {"S2 9 0\nC 1 1 65 256 0 0 0 1\n", "2"},
        {"S2 9 0\nI 1 1 65 0 0 0 1\n", "3"}, {"S2 9 0\nE 1 1 1 1\nE 1 1 1 1\n", "3"},
        {"S2 9 0\nC 1 1 65 0 2 1 0 1\n", "3"}};
    static const char *const lines[][2] = {{"", "1"}, {"\n", "1"}, {"E 5 1 1 1", "1"}, {"E 5 1 1 1\n\n", "1"},
        {"E 5 1 1 1\nx", "1"}, {"C 5 1 65 0 0 0 0 1\n", "1"}, {"E 5 1 1\n", "1"}, {"E 5 1 1 01\n", "1"},
        {"E 5 1 1 0\n", "2"}, {"E 5 1 1 256\n", "2"}, {"E 17 1 1 1\n", "2"}, {"I 5 1 55296 0 0 0 1\n", "2"},
        {"I 5 1 65 5 1 0 1\n", "2"}, {"I 0 1 65 0 0 0 1\n", "2"}};
    for (size_t k = 0; k < sizeof sheets / sizeof *sheets; k++) {
        load(sheets[k][0]);
        CHECK(refused(receive_at(0, "I 5 1 110 0 0 0 1\n"), (enum wimtaze_refusals)(sheets[k][1][0] - '0')));
    }
    for (size_t k = 0; k < sizeof lines / sizeof *lines; k++) {
        load(ABCD);
        CHECK(refused(receive_at(2, lines[k][0]), (enum wimtaze_refusals)(lines[k][1][0] - '0')));
    }
    load(ABCD);
    CHECK(refused(receive_at(2, "I 1 1 98 0 0 0 1\n"), WIMTAZE_REFUSAL_CONFLICT));
    CHECK(refused(receive_at(2, "I 5 1 98 1 2 1 1\n"), WIMTAZE_REFUSAL_CROSSED));
    CHECK(refused(receive_at_in(2, "I 5 1 98 1 1 1 2\n", sheet_length), WIMTAZE_REFUSAL_OUTPUT));
    CHECK(done(receive_at_in(2, "I 5 1 98 1 1 1 2\n", sheet_length + 20), 1, 0));
}

/* What the header says of edits that are made here: the line of each, received before it, tells how a cursor moves. */
static void own_edits(void)
{
    static uint8_t was[ROOM], now[ROOM];
    char line[LINE_ROOM];
    for (unsigned edit = 0; edit < 11; edit++) {
        load(ABCD);
        size_t was_length = sheet_length;
        memcpy(was, sheet, was_length);
        uint64_t made = edit < 5 ? type(edit, 'n') : edit < 9 ? erase(edit - 4) : restore(3, edit == 9 ? 9 : 1);
        CHECK(done(made, 1, 0));
        line_written(made, line);
        size_t now_length = sheet_length;
        memcpy(now, sheet, now_length);
        for (unsigned cursor = 0; cursor <= 4; cursor++) {
            memcpy(sheet, was, was_length);
            sheet_length = was_length;
            uint64_t reply = receive_at(cursor, line);
            CHECK(sheet_length == now_length && memcmp(sheet, now, now_length) == 0);
            int above = edit < 5 ? cursor > edit : edit < 9 ? cursor >= edit - 4 : cursor > (edit == 9 ? 0u : 2u);
            CHECK(wimtaze_shift(reply) == (!above ? 0 : edit >= 5 && edit < 9 ? -1 : 1));
        }
    }
}

/*
 * What waits for the character about to be typed comes with it: it is erased at once, or another goes above it. Then its
 * own line, received with the cursor on the sheet as it was, says where a cursor goes that keeps to its left.
 */
static void typed_with_others(void)
{
    static const struct {
        const char *before, *text;
        unsigned carried;
    } cases[] = {{"S2 16 0\n", "n", 1}, {"S2 16 0\nE 2 16 1 1\n", "", 2}, {"S2 16 0\nI 2 1 98 0 0 16 1\n", "bn", 2},
        {"S2 16 0\nI 2 1 98 16 1 0 1\n", "nb", 2}, {"S2 16 0\nE 2 16 1 2\n", "n", 2}};
    char line[LINE_ROOM];
    for (size_t k = 0; k < sizeof cases / sizeof *cases; k++) {
        load(cases[k].before);
        uint64_t made = type(0, 'n');
        line_written(made, line);
        CHECK(done(made, cases[k].carried, 0) && first_is(text(), cases[k].text));
        load(cases[k].before);
        uint64_t reply = receive_at(0, line);
        CHECK(done(reply, cases[k].carried, 0) && wimtaze_shift(reply) == 0 && first_is(text(), cases[k].text));
    }
}

/* The shift is read off sixteen bits, whatever the others are, and added to any gap. */
static void shifts_and_sums(void)
{
    static const struct {
        unsigned bits;
        int shift;
    } parts[] = {{0, 0}, {1, 1}, {2, 2}, {513, 513}, {32767, 32767}, {32768, -32768}, {65534, -2}, {65535, -1}};
    static const struct {
        uint64_t gap;
        int32_t shift;
        uint64_t sum;
    } sums[] = {{0, 0, 0}, {0, -1, 0}, {1, -1, 0}, {2, -1, 1}, {1024, -1, 1023}, {0, 1, 1}, {511, 513, 1024},
        {0, INT32_MIN, 0}, {0, INT32_MAX, 2147483647}, {2147483647, INT32_MIN, 0}, {2147483648u, INT32_MIN, 0},
        {2147483649u, INT32_MIN, 1}, {2147483647, INT32_MAX, 4294967294u}, {4294967295u, 1, 4294967296u},
        {4294967296u, -1, 4294967295u}, {4294967296u, 513, 4294967809u}, {4294967295u, INT32_MIN, 2147483647},
        {INT64_MAX, 1, UINT64_C(9223372036854775808)}, {UINT64_C(9223372036854775808), -1, INT64_MAX},
        {UINT64_C(9223372036854775808), 513, UINT64_C(9223372036854776321)}, {UINT64_MAX, 0, UINT64_MAX},
        {UINT64_MAX, 1, UINT64_MAX}, {UINT64_MAX, 513, UINT64_MAX}, {UINT64_MAX, INT32_MAX, UINT64_MAX},
        {UINT64_MAX, -1, UINT64_MAX - 1}, {UINT64_MAX, INT32_MIN, UINT64_MAX - 2147483648u},
        {UINT64_MAX - 1, 1, UINT64_MAX}, {UINT64_MAX - 1, 2, UINT64_MAX}, {UINT64_MAX - 2, 1, UINT64_MAX - 1},
        {UINT64_MAX - INT32_MAX, INT32_MAX, UINT64_MAX}, {UINT64_MAX - INT32_MAX + 1, INT32_MAX, UINT64_MAX},
        {UINT64_MAX - INT32_MAX - 1, INT32_MAX, UINT64_MAX - 1}};
    for (size_t k = 0; k < sizeof parts / sizeof *parts; k++) {
        uint64_t bits = (uint64_t)parts[k].bits << 48;
        CHECK(wimtaze_shift(bits) == parts[k].shift);
        CHECK(wimtaze_shift(bits | UINT64_C(0xffffffffffff)) == parts[k].shift);
    }
    for (size_t k = 0; k < sizeof sums / sizeof *sums; k++)
        CHECK(wimtaze_moved(sums[k].gap, sums[k].shift) == sums[k].sum);
}

/* ---- Req 11: pasting */

/*
 * Results come from the pairing screen as UTF-8 and go in below what is there; another laptop gets their lines, from
 * the last to the first, and shows the same. Byte by byte: sheet, lines and counts.
 */
static void results_pasted(void)
{
    static const char *const results = "1: 1-0\n2: \xc2\xbd-\xc2\xbd \xe2\x99\x9e\xf0\x9f\x8f\x86";
    static const char *const lines = "I 3 2 49 3 1 2 1\nI 3 3 58 3 2 2 1\n";
    static const char *const both = "S2 3 3\nC 3 1 65 0 0 0 0 1\nC 3 2 49 0 3 1 2 1\nC 3 3 58 0 3 2 2 1\n"
                                    "C 2 1 66 0 3 1 0 1\n";
    static uint8_t sent[LINES_ROOM];
    load("S2 3 1\nC 3 1 65 0 0 0 0 1\nC 2 1 66 0 3 1 0 1\n");
    uint64_t reply = paste(1, "1:");
    CHECK(reply == ((uint64_t)2 << 8 | (uint64_t)strlen(both) << 32 | (uint64_t)strlen(lines) << 48));
    CHECK(sheet_is(both) && line_is(reply, lines));
    empty(3, ROOM);
    CHECK(done(paste(0, "Round 4\n"), 8, 0));
    reply = paste(8, results);
    CHECK(done(reply, 16, 0));
    CHECK(line_is(reply, "I 3 9 49 3 8 0 1\nI 3 10 58 3 9 0 1\nI 3 11 32 3 10 0 1\nI 3 12 49 3 11 0 1\n"
                         "I 3 13 45 3 12 0 1\nI 3 14 48 3 13 0 1\nI 3 15 10 3 14 0 1\nI 3 16 50 3 15 0 1\n"
                         "I 3 17 58 3 16 0 1\nI 3 18 32 3 17 0 1\nI 3 19 189 3 18 0 1\nI 3 20 45 3 19 0 1\n"
                         "I 3 21 189 3 20 0 1\nI 3 22 32 3 21 0 1\nI 3 23 9822 3 22 0 1\nI 3 24 127942 3 23 0 1\n"));
    memcpy(sent, second + GUARD, wimtaze_line_written(reply));
    CHECK(counted(24, 0, 24, 1000));
    reply = text();
    CHECK(wimtaze_written(reply) == 8 + strlen(results));
    CHECK(memcmp(first + GUARD, "Round 4\n", 8) == 0 && memcmp(first + GUARD + 8, results, strlen(results)) == 0);
    /* In the middle, at the top and at the end of what is shown. */
    CHECK(done(paste(6, "no "), 3, 0) && done(paste(0, ">"), 1, 0) && done(paste(28, "<"), 1, 0));
    reply = text();
    CHECK(memcmp(first + GUARD, ">Round no 4\n1: 1-0\n2: ", 22) == 0);
    CHECK(wimtaze_written(reply) == 13 + strlen(results) && first[GUARD + wimtaze_written(reply) - 1] == '<');
    /* On another laptop the lines come the other way round. */
    load("S2 9 0\nC 3 8 66 0 0 0 0 1\n");
    for (size_t end = strlen((const char *)sent), start; end > 0; end = start) {
        for (start = end - 1; start > 0 && sent[start - 1] != '\n'; start--)
            ;
        CHECK(wimtaze_word(receive_bytes(sent + start, end - start, ROOM)) != WIMTAZE_REFUSED);
    }
    reply = text();
    CHECK(wimtaze_written(reply) == 1 + strlen(results) && memcmp(first + GUARD + 1, results, strlen(results)) == 0);
}

/* RFC 3629's syntax of a character: the first bytes, how many follow, and which of them may stand second. */
static const struct {
    unsigned low, high, follow, second_low, second_high;
} syntax[] = {{0x00, 0x7f, 0, 0, 0},       {0xc2, 0xdf, 1, 0x80, 0xbf}, {0xe0, 0xe0, 2, 0xa0, 0xbf},
              {0xe1, 0xec, 2, 0x80, 0xbf}, {0xed, 0xed, 2, 0x80, 0x9f}, {0xee, 0xef, 2, 0x80, 0xbf},
              {0xf0, 0xf0, 3, 0x90, 0xbf}, {0xf1, 0xf3, 3, 0x80, 0xbf}, {0xf4, 0xf4, 3, 0x80, 0x8f}};

/* How many bytes a character with these two first takes, if the others are 10xxxxxx; 0 if there is none such. */
static size_t syntax_length(unsigned first_byte, unsigned second_byte)
{
    for (size_t k = 0; k < sizeof syntax / sizeof *syntax; k++) {
        int begins = syntax[k].low <= first_byte && first_byte <= syntax[k].high;
        int goes_on = syntax[k].second_low <= second_byte && second_byte <= syntax[k].second_high;
        if (begins && (goes_on || syntax[k].follow == 0))
            return 1 + syntax[k].follow;
    }
    return 0;
}

/* Whether so many bytes of a block are pasted on an empty sheet as one character, or refused. */
static int is_character(const uint8_t *block, size_t length, int wanted)
{
    load("S2 9 0\n");
    uint64_t reply = wimtaze_paste(sheet, sheet_length, 0, block, length, first, ROOM, second, LINES_ROOM);
    return wanted ? done(reply, 1, 0) : refused(reply, WIMTAZE_REFUSAL_NOT_UTF8);
}

/*
 * Every first byte with every second one (with some where the first decides), before bytes 10xxxxxx: a character where
 * the RFC has one, and none with a byte less or more, or with any number of bytes where it has none.
 */
static void every_two_bytes(void)
{
    for (unsigned a = 0; a < 256; a++)
        for (unsigned b = a < 0x80 ? 0x80 : 0; b < 256; b += a < 0xc2 || a > 0xf4 ? 85 : 1) {
            const uint8_t block[] = {(uint8_t)a, (uint8_t)b, 0x80, 0xbf, 0x80};
            size_t length = syntax_length(a, b);
            int held = 1;
            for (size_t n = length < 2 ? 1 : length - 1; n <= (length == 0 ? 4 : length + 1); n++)
                held &= is_character(block, n, n == length);
            if (!held)
                printf("first bytes %02x %02x\n", a, b);
            CHECK(held);
        }
}

/* The first and the last character of each row of the syntax, by their code points, and of each length. */
static void edges_pasted(void)
{
    static const struct {
        const char *block;
        uint32_t point;
    } edges[] = {{"\x01", 1}, {"\x7f", 127}, {"\xc2\x80", 128}, {"\xdf\xbf", 2047}, {"\xe0\xa0\x80", 2048},
        {"\xe0\xbf\xbf", 4095}, {"\xe1\x80\x80", 4096}, {"\xec\xbf\xbf", 53247}, {"\xed\x80\x80", 53248},
        {"\xed\x9f\xbf", 55295}, {"\xee\x80\x80", 57344}, {"\xef\xbf\xbf", 65535}, {"\xf0\x90\x80\x80", 65536},
        {"\xf0\xbf\xbf\xbf", 262143}, {"\xf1\x80\x80\x80", 262144}, {"\xf3\xbf\xbf\xbf", 1048575},
        {"\xf4\x80\x80\x80", 1048576}, {"\xf4\x8f\xbf\xbf", 1114111}, {"\xef\xbb\xbf", 65279},
        {"\xe2\x89\xa2", 8802}, {"\xce\x91", 913}, {"\xed\x95\x9c", 54620}, {"\xf0\xa3\x8e\xb4", 144308}};
    char line[64];
    for (size_t k = 0; k < sizeof edges / sizeof *edges; k++) {
        empty(9, ROOM);
        sprintf(line, "I 9 1 %u 0 0 0 1\n", (unsigned)edges[k].point);
        uint64_t reply = paste(0, edges[k].block);
        CHECK(done(reply, 1, 0) && line_is(reply, line));
    }
    /* Zero is a character too; and a mark at the front, U+FEFF, is one like any other, wherever it stands. */
    empty(9, ROOM);
    CHECK(line_is(paste_bytes(0, "\0", 1), "I 9 1 0 0 0 0 1\n"));
    CHECK(line_is(paste_bytes(1, "a\0b", 3), "I 9 2 97 9 1 0 1\nI 9 3 0 9 2 0 1\nI 9 4 98 9 3 0 1\n"));
    empty(9, ROOM);
    CHECK(line_is(paste(0, "\xef\xbb\xbfn\xef\xbb\xbf"),
                  "I 9 1 65279 0 0 0 1\nI 9 2 110 9 1 0 1\nI 9 3 65279 9 2 0 1\n"));
    CHECK(first_is(text(), "\xef\xbb\xbfn\xef\xbb\xbf"));
    /* Control characters are pasted as they are, and shown as Req 01 has it. */
    empty(9, ROOM);
    CHECK(line_is(paste(0, "\r\n"), "I 9 1 13 0 0 0 1\nI 9 2 10 9 1 0 1\n"));
    CHECK(first_is(text(), "\xef\xbf\xbd\n"));
}

/* What is not UTF-8, at the front of a block, in the middle, at its end, and alone: nothing of the block is pasted. */
static void not_utf8(void)
{
    static const char *const blocks[] = {
        /* longer forms than needed, of each length, first and last */
        "\xc0\x80", "\xc0\xaf", "\xc1\x81", "\xc1\xbf", "\xe0\x80\x80", "\xe0\x80\xaf", "\xe0\x9f\xbf",
        "\xf0\x80\x80\x80", "\xf0\x80\x80\xaf", "\xf0\x82\x82\xac", "\xf0\x8f\xbf\xbf", "\xf8\x80\x80\x80\xaf",
        "\xfc\x80\x80\x80\x80\xaf",
        /* surrogates, alone and as a pair */
        "\xed\xa0\x80", "\xed\xaf\xbf", "\xed\xb0\x80", "\xed\xbf\xbf", "\xed\xa1\x8c\xed\xbe\xb4",
        /* above U+10FFFF */
        "\xf4\x90\x80\x80", "\xf4\xbf\xbf\xbf", "\xf5\x80\x80\x80", "\xf6\x80\x80\x80", "\xf7\xbf\xbf\xbf",
        "\xf8\x88\x80\x80\x80", "\xfb\xbf\xbf\xbf\xbf", "\xfc\x84\x80\x80\x80\x80", "\xfd\xbf\xbf\xbf\xbf\xbf", "\xfe",
        "\xff", "\xff\xfe", "\xfe\xff",
        /* 10xxxxxx alone, and one too many */
        "\x80", "\xbf", "\x80\x80", "\xc2\x80\x80", "\xe2\x82\xac\x82", "\xf0\x9f\x98\x80\x80",
        /* each cut */
        "\xc2", "\xdf", "\xe0", "\xe0\xa0", "\xe2", "\xe2\x82", "\xed", "\xed\x9f", "\xef\xbf", "\xf0", "\xf0\x90",
        "\xf0\x9f\x98", "\xf4", "\xf4\x8f", "\xf4\x8f\xbf",
        /* another first byte where 10xxxxxx is due */
        "\xc2\xc2\x80", "\xe2\x82\xe2\x82\xac", "\xe2\xc2\x80", "\xf0\x9f\x98\xf0\x9f\x98\x80", "\xf0\x9f\xc2\x80",
        "\xc3\x28", "\xe2\x28\xa1", "\xe2\x82\x28", "\xf0\x28\x8c\xbc", "\xf0\x90\x28\xbc", "\xf0\x28\x8c\x28"};
    static const char *const around[][2] = {{"", ""}, {"", "b"}, {"a", ""}, {"a", "b"},
        {"\xf0\x9f\x98\x80", "\xe2\x82\xac"}, {"Board 7: 1-0\n", "\n"}};
    char block[64];
    for (size_t k = 0; k < sizeof blocks / sizeof *blocks; k++)
        for (size_t j = 0; j < sizeof around / sizeof *around; j++) {
            load("S2 9 0\nC 1 1 97 0 0 0 0 1\n");
            sprintf(block, "%s%s%s", around[j][0], blocks[k], around[j][1]);
            CHECK(refused(paste(1, block), WIMTAZE_REFUSAL_NOT_UTF8));
        }
    /* A character that ends where the given length does not, although the rest of it stands in memory behind. */
    load("S2 9 0\n");
    CHECK(refused(paste_bytes(0, "a\xf0\x9f\x98\x80", 4), WIMTAZE_REFUSAL_NOT_UTF8));
    CHECK(done(paste_bytes(0, "a\xf0\x9f\x98\x80", 5), 2, 0));
}

/* What waits for characters of the block comes with each, before the next is typed. */
static void pasted_with_others(void)
{
    uint64_t reply;
    /* Above the first, between the two, below both; the next gap is just below the character all the same. */
    load("S2 5 0\nI 2 1 98 0 0 5 1\n");
    reply = paste(0, "xy");
    CHECK(done(reply, 3, 0) && line_is(reply, "I 5 1 120 0 0 0 1\nI 5 2 121 5 1 0 1\n"));
    CHECK(sheet_is("S2 5 2\nC 2 1 98 0 0 0 5 1\nC 5 1 120 0 0 0 0 1\nC 5 2 121 0 5 1 0 1\n"));
    load("S2 5 0\nI 2 1 98 5 1 0 1\n");
    reply = paste(0, "xy");
    CHECK(done(reply, 3, 0) && line_is(reply, "I 5 1 120 0 0 0 1\nI 5 2 121 5 1 2 1\n"));
    CHECK(first_is(text(), "xyb"));
    load("S2 5 0\nI 2 1 98 5 1 5 2\n");
    reply = paste(0, "xy");
    CHECK(done(reply, 3, 0) && line_is(reply, "I 5 1 120 0 0 0 1\nI 5 2 121 5 1 0 1\n"));
    CHECK(first_is(text(), "xby"));
    /* One that waits for another of them, and one that still waits. */
    load("S2 5 0\nC 1 1 97 0 0 0 0 1\nI 3 1 99 2 1 0 1\nI 2 1 98 5 2 0 1\nI 4 1 100 6 1 0 1\n");
    reply = paste(1, "xyz");
    CHECK(done(reply, 5, 0) && line_is(reply, "I 5 1 120 1 1 0 1\nI 5 2 121 5 1 0 1\nI 5 3 122 5 2 2 1\n"));
    CHECK(first_is(text(), "axyzbc"));
    CHECK(counted(6, 1, 6, 1017));
    /* Thrown out, at the first character and at the second. */
    load("S2 5 0\nI 2 1 98 5 1 5 1\nI 3 1 98 5 2 5 1\nI 4 1 98 5 1 5 2\n");
    CHECK(done(paste(0, "xy"), 3, 2));
    CHECK(sheet_is("S2 5 2\nC 5 1 120 0 0 0 0 1\nC 4 1 98 0 5 1 5 2\nC 5 2 121 0 5 1 0 1\n"));
    /* Turns that leave a character shown. */
    load("S2 5 0\nE 2 5 1 2\nE 3 5 2 1\nE 4 5 2 4\n");
    reply = paste(0, "xyz");
    CHECK(done(reply, 6, 0) && line_is(reply, "I 5 1 120 0 0 0 1\nI 5 2 121 5 1 0 1\nI 5 3 122 5 2 0 1\n"));
    CHECK(sheet_is("S2 5 3\nC 5 1 120 2 0 0 0 1\nC 5 2 121 4 5 1 0 1\nC 5 3 122 0 5 2 0 1\n"));
}

/* A waiting `E` hides a character at once: the next goes below the nearest shown row above it, or to gap 0. */
static void hidden_at_once(void)
{
    uint64_t reply;
    load("S2 5 0\nE 2 5 1 1\n");
    reply = paste(0, "xy");
    CHECK(done(reply, 3, 0) && line_is(reply, "I 5 1 120 0 0 0 1\nI 5 2 121 0 0 0 1\n"));
    CHECK(sheet_is("S2 5 2\nC 5 1 120 1 0 0 0 1\nC 5 2 121 0 0 0 0 1\n"));
    load("S2 5 0\nC 1 1 97 0 0 0 0 1\nE 2 5 1 1\n");
    reply = paste(1, "xy");
    CHECK(done(reply, 3, 0) && line_is(reply, "I 5 1 120 1 1 0 1\nI 5 2 121 1 1 0 1\n"));
    CHECK(first_is(text(), "ay"));
    reply = paste(0, "z");
    CHECK(line_is(reply, "I 5 3 122 0 0 1 1\n"));
    /* With hidden rows above it, and shown ones above those; with nothing shown above, though something below. */
    load("S2 5 0\nC 1 1 97 0 0 0 0 1\nC 1 2 98 1 1 1 0 1\nC 1 3 99 3 1 2 0 1\nC 1 4 100 0 1 3 0 1\nE 2 5 1 255\n");
    reply = paste(1, "xy");
    CHECK(done(reply, 3, 0) && line_is(reply, "I 5 1 120 1 1 1 4\nI 5 2 121 1 1 1 4\n"));
    load("S2 5 0\nC 1 1 97 1 0 0 0 1\nC 1 2 98 0 1 1 0 1\nE 2 5 1 1\nE 2 5 2 1\n");
    reply = paste(0, "xyz");
    CHECK(done(reply, 5, 0) && line_is(reply, "I 5 1 120 0 0 1 2\nI 5 2 121 0 0 1 2\nI 5 3 122 0 0 1 2\n"));
    /* The middle one of three, the last, and all of them. */
    load("S2 5 0\nE 2 5 2 1\n");
    CHECK(line_is(paste(0, "xyz"), "I 5 1 120 0 0 0 1\nI 5 2 121 5 1 0 1\nI 5 3 122 5 1 0 1\n"));
    CHECK(first_is(text(), "xz"));
    load("S2 5 0\nE 2 5 3 1\n");
    CHECK(done(paste(0, "xyz"), 4, 0) && first_is(text(), "xy"));
    load("S2 5 0\nE 2 5 3 1\nE 2 5 1 1\nE 7 5 2 3\n");
    reply = paste(0, "xyz");
    CHECK(done(reply, 6, 0) && line_is(reply, "I 5 1 120 0 0 0 1\nI 5 2 121 0 0 0 1\nI 5 3 122 0 0 0 1\n"));
    CHECK(first_is(text(), ""));
    /* Something came in above the hidden one, and is now the nearest. */
    load("S2 5 0\nE 2 5 1 1\nI 3 1 98 0 0 5 1\n");
    reply = paste(0, "xy");
    CHECK(done(reply, 4, 0) && line_is(reply, "I 5 1 120 0 0 0 1\nI 5 2 121 3 1 0 1\n"));
    CHECK(first_is(text(), "by"));
}

/* The clock must reach the last character: otherwise nothing is pasted, and the clock stays. */
static void clock_ends(void)
{
    load("S2 7 65533\n");
    CHECK(refused(paste(0, "abc"), WIMTAZE_REFUSAL_CLOCK));
    CHECK(sheet_is("S2 7 65533\n"));
    uint64_t reply = paste(0, "ab");
    CHECK(done(reply, 2, 0) && line_is(reply, "I 7 65534 97 0 0 0 1\nI 7 65535 98 7 65534 0 1\n"));
    CHECK(refused(paste(0, "c"), WIMTAZE_REFUSAL_CLOCK));
    CHECK(done(paste(1, ""), 0, 0));
    /* Characters count, and not bytes. */
    load("S2 7 65533\n");
    CHECK(done(paste(0, "\xf0\x9f\x98\x80\xf0\x9f\x98\x80"), 2, 0));
    /* A clock that is too low in the saved sheet counts as loading raises it, for a row and for what waits. */
    load("S2 7 0\nC 7 65534 97 0 0 0 0 1\n");
    CHECK(refused(paste(0, "ab"), WIMTAZE_REFUSAL_CLOCK));
    CHECK(line_is(paste(0, "a"), "I 7 65535 97 0 0 7 65534\n"));
    load("S2 7 3\nI 7 65535 97 9 9 0 1\n");
    CHECK(refused(paste(0, "a"), WIMTAZE_REFUSAL_CLOCK));
    load("S2 7 3\nC 7 9 97 0 0 0 0 1\nI 7 6 97 9 9 0 1\n");
    CHECK(line_is(paste(1, "ab"), "I 7 10 97 7 9 0 1\nI 7 11 98 7 10 0 1\n"));
    CHECK(memcmp(sheet, "S2\t7\t11\n", 8) == 0);
}

/* Rows, waiting inserts and new characters are at most 1,024 together. */
static void no_room_to_paste(void)
{
    char line[64];
    load_rows(1021);
    CHECK(refused(paste(1021, "abcd"), WIMTAZE_REFUSAL_DOCUMENT_FULL));
    CHECK(counted(1021, 0, 1021, 3));
    CHECK(done(paste(1021, "\xf0\x9f\x98\x80\xe2\x82\xac\xc2\xbd"), 3, 0));
    CHECK(refused(paste(0, "a"), WIMTAZE_REFUSAL_DOCUMENT_FULL));
    CHECK(done(paste(1024, ""), 0, 0));
    CHECK(counted(1024, 0, 1024, 0));
    /* Erased ones count, and waiting inserts do; waiting turns do not. */
    CHECK(done(erase(1), 1, 0));
    CHECK(refused(paste(0, "a"), WIMTAZE_REFUSAL_DOCUMENT_FULL));
    load_rows(1021);
    append("I 2 1 98 3 1 0 1\nE 2 3 1 1\n");
    CHECK(refused(paste(0, "abc"), WIMTAZE_REFUSAL_DOCUMENT_FULL));
    CHECK(done(paste(0, "ab"), 2, 0));
    /* What the first character would throw out, and so make room, still counts. */
    load_rows(1022);
    append("I 2 1 98 4 1 4 1\n");
    CHECK(refused(paste(0, "ab"), WIMTAZE_REFUSAL_DOCUMENT_FULL));
    CHECK(done(paste(0, "a"), 1, 1));
    CHECK(done(paste(1, "b"), 1, 0));
    CHECK(counted(1024, 0, 1024, 0));
    /* More than 1,024 into an empty sheet, and more than any sheet or clock has. */
    static char block[70000];
    memset(block, 'n', sizeof block);
    load("S2 4 0\n");
    CHECK(refused(paste_bytes(0, block, 1025), WIMTAZE_REFUSAL_DOCUMENT_FULL));
    CHECK(refused(wimtaze_paste(sheet, sheet_length, 0, (const uint8_t *)block, 65535, first, ROOM, second, LINES_ROOM),
                  WIMTAZE_REFUSAL_DOCUMENT_FULL));
    CHECK(refused(wimtaze_paste(sheet, sheet_length, 0, (const uint8_t *)block, 65536, first, ROOM, second, LINES_ROOM),
                  WIMTAZE_REFUSAL_CLOCK));
    CHECK(refused(wimtaze_paste(sheet, sheet_length, 0, (const uint8_t *)block, 70000, first, ROOM, second, LINES_ROOM),
                  WIMTAZE_REFUSAL_CLOCK));
    block[69999] = '\x80';
    CHECK(refused(wimtaze_paste(sheet, sheet_length, 0, (const uint8_t *)block, 70000, first, ROOM, second, LINES_ROOM),
                  WIMTAZE_REFUSAL_NOT_UTF8));
    /* A full sheet that gives an insert no place: typing is told 9 there, and pasting 11. */
    load("S2 9 0\nC 1 1 97 1 0 0 1 2\n");
    for (int k = 2; k <= 1024; k++) {
        sprintf(line, k == 1024 ? "C 1 %d 97 1 1 %d 0 1\n" : "C 1 %d 97 1 1 %d 1 %d\n", k, k - 1, k + 1);
        append(line);
    }
    CHECK(refused(type(0, 'x'), WIMTAZE_REFUSAL_UNPLACEABLE));
    CHECK(refused(paste(0, "x"), WIMTAZE_REFUSAL_DOCUMENT_FULL));
    CHECK(done(paste(0, ""), 0, 0));
}

/* P7's rows, hidden, and rows where the second character of a block is the first that finds no place. */
static const char *const SHUT = "S2 5 0\nC 1 1 97 1 0 0 2 1\nC 2 1 97 1 1 1 0 1\n";
static const char *const SHUT_BEHIND = "S2 5 0\nC 1 1 97 1 0 0 0 1\nC 9 1 97 1 1 1 9 2\nC 1 2 97 1 1 1 0 1\n"
                                       "C 2 1 97 1 1 2 2 2\nC 2 2 97 1 2 1 9 2\nC 9 2 97 1 0 0 0 1\n";

/* Refusal 9 at any character refuses the block: those before it are not pasted either. */
static void no_place_in_block(void)
{
    load(SHUT);
    CHECK(refused(paste(0, "x"), WIMTAZE_REFUSAL_UNPLACEABLE));
    CHECK(done(paste(0, ""), 0, 0));
    load(SHUT_BEHIND);
    CHECK(refused(paste(0, "xy"), WIMTAZE_REFUSAL_UNPLACEABLE));
    CHECK(refused(paste(0, "xyz"), WIMTAZE_REFUSAL_UNPLACEABLE));
    CHECK(sheet_is(SHUT_BEHIND));
    CHECK(done(paste(0, "x"), 1, 0));
    CHECK(refused(paste(1, "y"), WIMTAZE_REFUSAL_UNPLACEABLE));
    CHECK(refused(type(1, 'y'), WIMTAZE_REFUSAL_UNPLACEABLE));
}

/* An empty block: done with nothing counted and nothing written, unless 1 to 4 hold. */
static void nothing_pasted(void)
{
    static const char *const sheets[] = {"S2 9 0\n", "S2 9 65535\n", "S2 2 0\nC 2 5 65 0 0 0 0 1\n",
        "S2 9 0\nI 2 1 98 9 1 0 1\nE 2 9 1 1\n", "S2 5 0\nC 1 1 97 1 0 0 2 1\nC 2 1 97 1 1 1 0 1\n"};
    static const size_t rooms[][2] = {{0, 0}, {0, LINES_ROOM}, {ROOM, 0}, {1, 1}, {ROOM, LINES_ROOM}};
    for (size_t k = 0; k < sizeof sheets / sizeof *sheets; k++)
        for (size_t j = 0; j < sizeof rooms / sizeof *rooms; j++) {
            load(sheets[k]);
            CHECK(paste_in(0, (const uint8_t *)"x", 0, rooms[j][0], rooms[j][1]) == WIMTAZE_DONE);
            CHECK(sheet_is(sheets[k]));
        }
    load_rows(1024);
    CHECK(paste_in(1024, (const uint8_t *)"x", 0, 0, 0) == WIMTAZE_DONE);
    CHECK(refused(paste_in(1025, (const uint8_t *)"x", 0, 0, 0), WIMTAZE_REFUSAL_POSITION));
    load("S2 9 65535\n");
    CHECK(refused(paste(1, ""), WIMTAZE_REFUSAL_POSITION));
    CHECK(refused(paste(UINT64_MAX, ""), WIMTAZE_REFUSAL_POSITION));
    load("S2 9 0\nI 1 1 65 0 0 0 1\n");
    CHECK(refused(paste(0, ""), WIMTAZE_REFUSAL_FORM));
    CHECK(refused(paste(7, ""), WIMTAZE_REFUSAL_FORM));
    load("S2 0 0\n");
    CHECK(refused(paste(0, ""), WIMTAZE_REFUSAL_RANGE));
    load("S2 9 0");
    CHECK(refused(paste(0, ""), WIMTAZE_REFUSAL_LAYOUT));
}

/* Two grounds that hold at once, every such pair: the first in the order 1 2 20 3 4 5 11 9 12 is told. */
static void first_of_two_pasting(void)
{
    static const char *const no_layout = "S2 9 65535\nD 1 1 1\n", *const no_range = "S2 9 65536\n";
    static const char *const neither = "S2 9 65536\nD 1 1 1\n", *const no_form = "S2 9 0\nI 9 9 66 0 0 0 1\n";
    static const char *const no_form_late = "S2 9 65535\nC 1 1 97 0 0 0 0 1\nE 1 1 1 1\n";
    static const char *const shut_no_form = "S2 5 0\nC 1 1 97 1 0 0 2 1\nC 2 1 97 1 1 1 0 1\nE 1 1 1 2\n";
    static const char *const shut_late = "S2 5 65534\nC 1 1 97 1 0 0 2 1\nC 2 1 97 1 1 1 0 1\n";
    static const char *const one = "S2 9 0\nC 1 1 97 0 0 0 0 1\n", *const late = "S2 9 65534\nC 1 1 97 0 0 0 0 1\n";
    const struct {
        const char *sheet, *block;
        uint64_t gap;
        int told, other;
    } pairs[] = {{neither, "x", 0, 1, 2}, {no_layout, "\xff", 0, 1, 20},
        {"S2 9 0\nI 9 9 66 0 0 0 1\nD 1 1 1\n", "x", 0, 1, 3}, {no_layout, "x", 9, 1, 4}, {no_layout, "x", 0, 1, 5},
        {"S2 5 0\nC 1 1 97 1 0 0 2 1\nC 2 1 97 1 1 1 0 1\nD 1 3 1\n", "x", 0, 1, 9}, {no_layout, "x", 0, 1, 12},
        {no_layout, "", 0, 1, 12}, {no_range, "\xff", 0, 2, 20}, {"S2 9 65536\nI 9 9 66 0 0 0 1\n", "x", 0, 2, 3},
        {no_range, "x", 9, 2, 4}, {no_range, "x", 0, 2, 5},
        {"S2 5 0\nC 1 1 97 1 0 0 2 1\nC 2 1 97 1 1 1 0 1\nE 1 3 1 0\n", "x", 0, 2, 9}, {no_range, "x", 0, 2, 12},
        {no_form, "a\xff", 0, 20, 3}, {no_form, "\xe2\x82", 9, 20, 3}, {one, "\xc0\x80", 2, 20, 4},
        {late, "ab\x80", 1, 20, 5}, {SHUT, "a\xed\xa0\x80", 0, 20, 9}, {one, "a\xf5", 1, 20, 12},
        {no_form, "x", 9, 3, 4}, {no_form_late, "x", 0, 3, 5}, {shut_no_form, "x", 0, 3, 9}, {no_form, "x", 0, 3, 12},
        {late, "ab", 2, 4, 5}, {late, "ab", UINT64_MAX, 4, 5}, {SHUT, "x", 1, 4, 9}, {one, "x", 2, 4, 12},
        {one, "", 2, 4, 12}, {shut_late, "xy", 0, 5, 9}, {late, "ab", 1, 5, 12}, {SHUT, "x", 0, 9, 12},
        {SHUT_BEHIND, "xy", 0, 9, 12}, {one, "x", 1, 12, 12}};
    for (size_t k = 0; k < sizeof pairs / sizeof *pairs; k++) {
        load(pairs[k].sheet);
        size_t room = pairs[k].other == 12 ? 0 : ROOM, lines_room = pairs[k].other == 12 ? 0 : LINES_ROOM;
        const uint8_t *block = (const uint8_t *)pairs[k].block;
        CHECK(refused(paste_in(pairs[k].gap, block, strlen(pairs[k].block), room, lines_room), pairs[k].told));
    }
}

/* The same on a full sheet, with 11. */
static void first_of_two_pasting_full(void)
{
    char line[64];
    load_rows(1024);
    CHECK(refused(paste(0, "x\x80"), WIMTAZE_REFUSAL_NOT_UTF8));
    CHECK(refused(paste(1025, "x"), WIMTAZE_REFUSAL_POSITION));
    CHECK(refused(paste_in(0, (const uint8_t *)"x", 1, 0, 0), WIMTAZE_REFUSAL_DOCUMENT_FULL));
    append("E 1 1 1 2\n");
    CHECK(refused(paste(0, "x"), WIMTAZE_REFUSAL_FORM));
    load_rows(1025);
    CHECK(refused(paste(0, "x"), WIMTAZE_REFUSAL_FORM));
    append("E 1 1 1 0\n");
    CHECK(refused(paste(0, "x"), WIMTAZE_REFUSAL_RANGE));
    append("D 1 1 1\n");
    CHECK(refused(paste(0, "x"), WIMTAZE_REFUSAL_LAYOUT));
    /* No clock and no room left: 5 comes before 11; and both before 9. */
    load("S2 1 65534\nC 1 1 97 1 0 0 1 2\n");
    for (int k = 2; k <= 1023; k++) {
        sprintf(line, k == 1023 ? "C 1 %d 97 1 1 %d 0 1\n" : "C 1 %d 97 1 1 %d 1 %d\n", k, k - 1, k + 1);
        append(line);
    }
    CHECK(refused(paste(0, "xy"), WIMTAZE_REFUSAL_CLOCK));
    CHECK(refused(paste(0, "x"), WIMTAZE_REFUSAL_UNPLACEABLE));
    append("I 2 1 98 3 1 0 1\n");
    CHECK(refused(paste(0, "xy"), WIMTAZE_REFUSAL_CLOCK));
    CHECK(refused(paste(0, "x"), WIMTAZE_REFUSAL_DOCUMENT_FULL));
    CHECK(refused(paste_in(0, (const uint8_t *)"x", 1, 0, 0), WIMTAZE_REFUSAL_DOCUMENT_FULL));
}

/* Each output short by a byte, and by all of it: neither is written. */
static void short_of_a_block(void)
{
    static const char *const pasted = "S2 3 3\nC 3 1 120 0 0 0 0 1\nC 3 2 1114111 0 3 1 0 1\nC 3 3 10 0 3 2 0 1\n";
    static const char *const lines = "I 3 2 1114111 3 1 0 1\nI 3 3 10 3 2 0 1\n";
    static const uint8_t block[] = {0xf4, 0x8f, 0xbf, 0xbf, 10};
    const size_t rooms[][2] = {{strlen(pasted) - 1, LINES_ROOM}, {ROOM, strlen(lines) - 1}, {0, LINES_ROOM}, {ROOM, 0},
        {strlen(pasted) - 1, strlen(lines)}, {strlen(pasted), strlen(lines) - 1}, {0, 0}};
    for (size_t k = 0; k < sizeof rooms / sizeof *rooms; k++) {
        load("S2 3 1\nC 3 1 120 0 0 0 0 1\n");
        CHECK(refused(paste_in(1, block, sizeof block, rooms[k][0], rooms[k][1]), WIMTAZE_REFUSAL_OUTPUT));
    }
    uint64_t reply = paste_in(1, block, sizeof block, strlen(pasted), strlen(lines));
    CHECK(done(reply, 2, 0) && sheet_is(pasted) && line_is(reply, lines));
}

/* The largest block: 1,024 characters of four bytes each, in outputs of just the sizes that the header names. */
static void largest_block(void)
{
    static uint8_t block[4 * WIMTAZE_CHARACTER_MAX];
    for (size_t k = 0; k < sizeof block; k += 4)
        memcpy(block + k, "\xf4\x8f\xbf\xbf", 4);
    load("S2 16 64511\n");
    uint64_t reply = paste_in(0, block, sizeof block, WIMTAZE_SHEET_MAX, WIMTAZE_LINES_MAX);
    CHECK(done(reply, 1024, 0));
    CHECK(wimtaze_line_written(reply) == 27 + 1023 * 32 && wimtaze_written(reply) == 12 + 29 + 1023 * 34);
    CHECK(counted(1024, 0, 1024, 0));
    uint64_t shown = text_in(WIMTAZE_TEXT_MAX);
    CHECK(wimtaze_written(shown) == sizeof block && memcmp(first + GUARD, block, sizeof block) == 0);
    size_t lines_length = wimtaze_line_written(reply), length = sheet_length;
    load("S2 16 64511\n");
    CHECK(refused(paste_in(0, block, sizeof block, length - 1, WIMTAZE_LINES_MAX), WIMTAZE_REFUSAL_OUTPUT));
    CHECK(refused(paste_in(0, block, sizeof block, WIMTAZE_SHEET_MAX, lines_length - 1), WIMTAZE_REFUSAL_OUTPUT));
    /* The longest lines: between two rows of laptop 16. One character more is beyond its clock, and the room. */
    load("S2 16 64513\nC 16 64512 97 0 0 0 0 1\nC 16 64513 97 0 16 64512 0 1\n");
    CHECK(refused(paste_in(1, block, sizeof block - 4, WIMTAZE_SHEET_MAX, WIMTAZE_LINES_MAX), WIMTAZE_REFUSAL_CLOCK));
    reply = paste_in(1, block, sizeof block - 8, WIMTAZE_SHEET_MAX, WIMTAZE_LINES_MAX);
    CHECK(done(reply, 1022, 0) && wimtaze_line_written(reply) == WIMTAZE_LINES_MAX - 2 * WIMTAZE_INSERT_MAX);
}

/* The most that a block can bring and throw out: 512 that wait, for each of its characters or for the first. */
static void most_counts(void)
{
    static uint8_t block[WIMTAZE_CHARACTER_MAX];
    char line[64];
    memset(block, 'n', sizeof block);
    load("S2 9 0\n");
    for (int k = 0; k < 512; k++) {
        sprintf(line, "E %d 9 %d %d\n", 1 + k / 32, 1 + 2 * k, 1 + k % 2);
        append(line);
    }
    CHECK(done(paste_bytes(0, block, 1024), 1536, 0));
    CHECK(counted(768, 0, 1024, 0));
    /* The laptop's own inserts that wait make its clock 691; all are thrown out with 8/700. */
    load("S2 8 0\n");
    for (int k = 0; k < 512; k++) {
        sprintf(line, "I %d %d 98 8 700 8 700\n", 1 + k / 32, 660 + k % 32);
        append(line);
    }
    CHECK(refused(paste_bytes(0, block, 513), WIMTAZE_REFUSAL_DOCUMENT_FULL));
    CHECK(done(paste_bytes(0, block, 512), 512, 512));
    CHECK(counted(512, 0, 512, 512));
    /* 512 inserts, each behind a character of the block. */
    load("S2 9 0\n");
    for (int k = 0; k < 512; k++) {
        int n = sprintf(line, "I %d %d 98 9 %d ", 1 + k / 32, 2000 + k % 32, 2032 + k);
        sprintf(line + n, k == 511 ? "0 1\n" : "9 %d\n", 2033 + k);
        append(line);
    }
    CHECK(done(paste_bytes(0, block, 512), 1024, 0));
    CHECK(counted(1024, 0, 1024, 0));
}

/* ---- Req 08: building from a heap */

/* Whether a sheet was built, just this one, with so many edits left out: then the whole number is fixed. */
static int built(uint64_t reply, unsigned left_out, const char *text)
{
    return reply == ((uint64_t)left_out << 20 | (uint64_t)strlen(text) << 32) && sheet_is(text);
}

/* P1's rows, one of them erased and brought back, for a laptop that joins at round four: in every order. */
static void joined_late(void)
{
    static const char *const lines[] = {"I 1 1 97 0 0 0 1\n", "I 2 1 98 0 0 0 1\n", "I 3 1 99 0 0 1 1\n",
        "I 3 2 100 1 1 0 1\n", "E 2 3 1 1\n", "E 5 3 1 2\n"};
    static const char *const want = "S2 4 0\nC 3 1 99 2 0 0 1 1\nC 1 1 97 0 0 0 0 1\nC 2 1 98 0 0 0 0 1\n"
                                    "C 3 2 100 0 1 1 0 1\n";
    for (int number = 0; number < 720; number++) {
        unsigned left[6] = {0, 1, 2, 3, 4, 5};
        heap_load("");
        for (int k = 6, code = number; k > 0; code /= k, k--) {
            int j = code % k;
            heap_append(lines[left[j]]);
            if (number % 7 == k)
                heap_append(lines[left[j]]);
            left[j] = left[k - 1];
        }
        CHECK(built(build_in(4, ROOM), 0, want));
    }
    CHECK(first_is(text(), "cabd"));
    CHECK(counted(4, 0, 4, 1020));
    empty(4, ROOM);
    for (size_t k = 0; k < 6; k++)
        CHECK(done(receive(lines[k]), 1, 0));
    CHECK(sheet_is(want));
    for (unsigned number = 1; number <= 16; number++) {
        char other[256];
        sprintf(other, "S2 %u %u%s", number, number == 3 ? 2 : number <= 2, want + 6);
        CHECK(built(build_in(number, ROOM), 0, other));
    }
}

/* No lines: what wimtaze_empty writes. */
static void nothing_to_build(void)
{
    static uint8_t want[ROOM];
    heap_load("");
    for (uint64_t number = 0; number <= 17; number++) {
        uint64_t reply = empty(number, ROOM);
        memcpy(want, sheet, sheet_length);
        CHECK(build_in(number, ROOM) == reply);
        CHECK(memcmp(want, sheet, sheet_length) == 0);
    }
    CHECK(refused(build_in(1, 6), WIMTAZE_REFUSAL_OUTPUT) && built(build_in(1, 7), 0, "S2 1 0\n"));
}

/* What lacks something, what crosses, and all that needs these. */
static void left_out(void)
{
    static const char *const ab = "S2 9 0\nC 1 1 97 0 0 0 0 1\nC 2 1 98 0 0 0 0 1\n";
    const struct {
        const char *lines;
        unsigned count;
    } cases[] = {
        /* a previous, a next and a row that never come, and what needs them in turn */
        {"I 3 1 99 4 1 0 1\n", 1}, {"I 3 1 99 0 0 4 1\n", 1}, {"E 3 4 1 1\n", 1},
        {"I 3 1 99 4 1 0 1\nI 3 2 99 3 1 0 1\nI 3 3 99 1 1 3 2\nE 1 3 3 2\n", 4},
        /* two that need each other, and each needs the one before and the next one of them */
        {"I 3 1 99 4 1 0 1\nI 4 1 99 3 1 0 1\n", 2}, {"I 3 1 99 4 1 0 1\nI 4 1 99 1 1 3 1\n", 2},
        {"I 3 1 99 5 1 4 1\nI 4 1 99 3 1 5 1\nI 5 1 99 4 1 3 1\n", 3},
        /* condition 8: next above previous, and next the same as previous; with what needs them */
        {"I 3 1 99 2 1 1 1\n", 1}, {"I 3 1 99 1 1 1 1\n", 1},
        {"I 3 1 99 2 1 1 1\nI 3 2 99 3 1 0 1\nI 4 1 99 1 1 3 2\nE 3 3 1 1\nE 3 3 2 1\n", 5},
        /* repeats count once, and a D line is the E line with turn 1; another sender or another turn is another */
        {"I 3 1 99 4 1 0 1\nI 3 1 99 4 1 0 1\nI 3 1 99 4 1 0 1\n", 1}, {"E 3 4 1 1\nE 3 4 1 1\n", 1},
        {"E 3 4 1 1\nD 3 4 1\nD 3 4 1\n", 1}, {"E 3 4 1 2\nD 3 4 1\n", 2}, {"E 3 4 1 1\nE 5 4 1 1\n", 2},
        {"D 3 4 1\nD 5 4 1\nE 3 4 1 255\nE 3 4 2 1\n", 4}, {"I 1 1 97 0 0 0 1\nI 2 1 98 0 0 0 1\n", 0}};
    for (size_t k = 0; k < sizeof cases / sizeof *cases; k++) {
        heap_load(cases[k].lines);
        heap_append("I 2 1 98 0 0 0 1\nI 1 1 97 0 0 0 1\n");
        CHECK(built(build_in(9, ROOM), cases[k].count, ab));
        heap_load("I 1 1 97 0 0 0 1\nI 2 1 98 0 0 0 1\n");
        heap_append(cases[k].lines);
        CHECK(built(build_in(9, ROOM), cases[k].count, ab));
    }
    /* A turn that is not larger is not left out. */
    CHECK(built(build(9, "E 1 1 1 4\nD 1 1 1\nE 2 1 1 3\nE 1 1 1 4\nI 1 1 97 0 0 0 1\nE 3 1 1 4\n"), 0,
                "S2 9 0\nC 1 1 97 4 0 0 0 1\n"));
    CHECK(built(build(9, "E 1 1 1 254\nE 2 1 1 255\nI 1 1 97 0 0 0 1\n"), 0, "S2 9 0\nC 1 1 97 255 0 0 0 1\n"));
    CHECK(built(build(9, "D 2 1 1\nI 1 1 97 0 0 0 1\n"), 0, "S2 9 0\nC 1 1 97 1 0 0 0 1\n"));
    /* All of it. */
    CHECK(built(build(9, "I 3 1 99 4 1 0 1\nE 1 1 1 1\n"), 2, "S2 9 0\n"));
}

/* The clock is the largest of the heap's inserts of the laptop's own number, left out or not; no turn counts. */
static void built_clock(void)
{
    CHECK(built(build(3, "I 3 7 97 0 0 0 1\nI 3 5 98 0 0 3 7\nI 4 9 99 3 7 0 1\n"), 0,
                "S2 3 7\nC 3 5 98 0 0 0 3 7\nC 3 7 97 0 0 0 0 1\nC 4 9 99 0 3 7 0 1\n"));
    CHECK(built(build(3, "I 3 7 97 9 9 0 1\nI 3 2 98 0 0 0 1\nI 3 4 98 3 7 0 1\n"), 2, "S2 3 7\nC 3 2 98 0 0 0 0 1\n"));
    CHECK(built(build(3, "I 3 7 97 3 2 3 2\nI 3 2 98 0 0 0 1\nE 3 3 2 1\n"), 1, "S2 3 7\nC 3 2 98 1 0 0 0 1\n"));
    CHECK(built(build(3, "E 3 3 9 1\nE 3 4 9 200\nI 4 1 98 3 11 0 1\n"), 3, "S2 3 0\n"));
    CHECK(built(build(16, "I 16 65535 97 1 1 0 1\n"), 1, "S2 16 65535\n"));
    CHECK(refused(type(0, 'x'), WIMTAZE_REFUSAL_CLOCK));
    /* What is typed then has the next clock. */
    CHECK(built(build(3, "I 3 7 97 9 9 0 1\n"), 1, "S2 3 7\n"));
    CHECK(done(type(0, 'x'), 1, 0) && sheet_is("S2 3 8\nC 3 8 120 0 0 0 0 1\n"));
}

/* A sheet that was built is a sheet like any other; what was left out is received as ever. */
static void built_and_used(void)
{
    static const char *const lines[] = {"I 2 3 99 2 2 0 1\n", "I 2 2 98 2 1 0 1\n", "E 4 2 2 1\n",
        "I 5 1 100 0 0 0 1\n", "E 6 5 1 1\n"};
    heap_load("");
    for (size_t k = 0; k < 5; k++)
        heap_append(lines[k]);
    CHECK(built(build_in(7, ROOM), 3, "S2 7 0\nC 5 1 100 1 0 0 0 1\n"));
    CHECK(waits(receive(lines[0])) && waits(receive(lines[1])) && waits(receive(lines[2])));
    CHECK(known(receive(lines[3])) && known(receive(lines[4])));
    CHECK(done(receive("I 2 1 97 0 0 0 1\n"), 4, 0));
    CHECK(counted(2, 0, 4, 1020) && first_is(text(), "ac"));
    CHECK(done(restore(5, 1), 1, 0) && done(paste(1, "xy"), 2, 0) && done(erase(1), 1, 0));
    CHECK(first_is(text(), "xycd") && refused(downgrade(), WIMTAZE_REFUSAL_HIGH_TURN));
    /* The line that was missing comes to the heap, and the whole is built anew. */
    heap_append("I 2 1 97 0 0 0 1\n");
    CHECK(built(build_in(7, ROOM), 0, "S2 7 0\nC 2 1 97 0 0 0 0 1\nC 2 2 98 1 2 1 0 1\nC 2 3 99 0 2 2 0 1\n"
                                      "C 5 1 100 1 0 0 0 1\n"));
}

/* A heap of so many lines, each from its form, with k from 1. */
static void heap_of(int count, const char *form)
{
    char line[64];
    for (int k = 1; k <= count; k++) {
        sprintf(line, form, k, k - 1);
        heap_append(line);
    }
}

/* The limits of either kind, repeats counted. */
static void heap_limits(void)
{
    const struct {
        int inserts, copies, turns, turn_copies, erases;
        int refused;
        unsigned left_out;
    } heaps[] = {{0, 1024, 0, 0, 0, 0, 0}, {0, 1025, 0, 0, 0, 1, 0}, {1023, 1, 0, 0, 0, 0, 1023},
        {1024, 0, 0, 0, 0, 0, 1024}, {1025, 0, 0, 0, 0, 1, 0}, {1023, 2, 0, 0, 0, 1, 0}, {0, 0, 1024, 0, 0, 0, 1024},
        {0, 0, 1025, 0, 0, 1, 0}, {0, 0, 0, 1024, 0, 0, 1}, {0, 0, 0, 1025, 0, 1, 0}, {0, 0, 0, 0, 1024, 0, 1},
        {0, 0, 0, 0, 1025, 1, 0}, {0, 0, 512, 256, 256, 0, 513}, {0, 0, 512, 256, 257, 1, 0},
        {1024, 0, 1024, 0, 0, 0, 2048}, {1025, 0, 1024, 0, 0, 1, 0}, {1024, 0, 1024, 1, 0, 1, 0},
        {1025, 0, 1025, 0, 0, 1, 0}, {0, 1024, 1024, 0, 0, 0, 1024}, {0, 2000, 0, 0, 0, 1, 0}};
    for (size_t k = 0; k < sizeof heaps / sizeof *heaps; k++) {
        heap_load("");
        heap_of(heaps[k].inserts, "I 2 %d 98 3 1 0 1\n");
        heap_of(heaps[k].copies, "I 1 1 97 0 0 0 1\n");
        heap_of(heaps[k].turns, "E 1 4 %d 1\n");
        heap_of(heaps[k].turn_copies, "E 1 5 1 1\n");
        heap_of(heaps[k].erases, "D 1 5 1\n");
        uint64_t reply = build_in(9, ROOM);
        if (heaps[k].refused)
            CHECK(refused(reply, WIMTAZE_REFUSAL_HEAP_FULL));
        else
            CHECK(built(reply, heaps[k].left_out, heaps[k].copies ? "S2 9 0\nC 1 1 97 0 0 0 0 1\n" : "S2 9 0\n"));
    }
    /* Far above the limits. */
    heap_load("");
    heap_of(HEAP_ROOM / 22, "I 1 1 97 0 0 0 1\n");
    CHECK(refused(build_in(9, ROOM), WIMTAZE_REFUSAL_HEAP_FULL));
}

/* The longest heap that is not refused, and the deepest: each of 1,024 needs the one that stands behind it. */
static void longest_heap(void)
{
    char line[64];
    heap_load("");
    heap_of(1024, "I 16 65535 1114111 16 65534 16 65533\n");
    heap_of(1024, "E 16 16 65535 255\n");
    CHECK(heap_length == WIMTAZE_HEAP_MAX);
    CHECK(built(build_in(16, ROOM), 2, "S2 16 65535\n"));
    heap_append("D 1 1 1\n");
    CHECK(refused(build_in(16, ROOM), WIMTAZE_REFUSAL_HEAP_FULL));
    heap_load("");
    for (int k = 1024; k > 0; k--) {
        sprintf(line, k == 1 ? "I 1 1 97 0 0 0 1\n" : "I 1 %d 97 1 %d 0 1\n", k, k - 1);
        heap_append(line);
    }
    heap_of(1024, "E 9 1 %d 255\n");
    uint64_t reply = build_in(2, WIMTAZE_SHEET_MAX);
    CHECK(done(reply, 0, 0) && wimtaze_left_out(reply) == 0 && counted(0, 0, 1024, 0));
    CHECK(refused(receive("I 3 1 97 0 0 0 1\n"), WIMTAZE_REFUSAL_DOCUMENT_FULL));
    size_t length = sheet_length;
    CHECK(refused(build_in(2, length - 1), WIMTAZE_REFUSAL_OUTPUT) && refused(build_in(2, 0), WIMTAZE_REFUSAL_OUTPUT));
    CHECK(build_in(2, length) == reply);
}

/* Refusals 1, 2 and 7 of a heap, whatever else stands in it before and behind. */
static void not_built(void)
{
    static const char *const no_layout[] = {"\n", " \n", "I\n", "I 1 1 97 0 0 0\n", "I 1 1 97 0 0 0 1 1\n",
        "I 1 1 97 0 0 0 1\r\n", "I 01 1 97 0 0 0 1\n", "I 1 1 97 0 0 0 +1\n", "I 1 1 97 0 0 0 1 \n",
        "i 1 1 97 0 0 0 1\n", "E 1 1 1\n", "E 1 1 1 1 1\n", "E 1 1 1 \n", "D 1 1 1 1\n", "D 1 1\n", "S2 1 0\n",
        "S 1 0\n", "C 1 1 97 0 0 0 0 1\n", "K 1 1 1\n", "\x01\n", "I 1 1 97 0 0 0 1\n\n", "I 1 1 97 0 0 0 x\n"};
    static const char *const no_range[] = {"I 0 1 97 0 0 0 1\n", "I 17 1 97 0 0 0 1\n", "I 1 0 97 0 0 0 1\n",
        "I 1 65536 97 0 0 0 1\n", "I 1 1 55296 0 0 0 1\n", "I 1 1 1114112 0 0 0 1\n", "I 1 1 97 0 1 0 1\n",
        "I 1 1 97 0 0 0 0\n", "I 1 1 97 0 0 0 2\n", "I 1 1 97 1 1 0 1\n", "I 1 1 97 0 0 1 1\n", "I 1 1 97 17 1 0 1\n",
        "I 1 1 97 0 0 1 65536\n", "I 257 1 97 0 0 0 1\n", "I 4294967297 1 97 0 0 0 1\n",
        "I 1 18446744073709551617 97 0 0 0 1\n", "E 0 1 1 1\n", "E 17 1 1 1\n", "E 1 0 0 1\n", "E 1 1 0 1\n",
        "E 1 1 1 0\n", "E 1 1 1 256\n", "E 1 1 65536 1\n", "D 0 1 1\n", "D 1 0 1\n", "D 1 1 0\n", "D 1 17 1\n"};
    static const char *const conflicts[] = {"I 5 1 98 0 0 0 1\n", "I 5 1 97 6 1 0 1\n", "I 5 1 97 0 0 6 1\n",
        "I 5 1 98 6 1 6 2\n"};
    static const char *const around[] = {"", "I 7 1 97 0 0 0 1\n", "D 1 7 1\nE 2 7 1 9\n",
        "I 7 2 97 8 8 8 9\nE 1 8 8 1\n"};
    static const uint64_t numbers[] = {0, 17, 256, 257, 65537, UINT64_C(1) << 32 | 1, UINT64_MAX};
    for (size_t k = 0; k < sizeof around / sizeof *around; k++) {
        const char *const before_it = around[k], *const behind_it = around[(k + 1) % 4];
        for (size_t j = 0; j < sizeof no_layout / sizeof *no_layout; j++) {
            heap_load(before_it), heap_append(no_layout[j]), heap_append(behind_it);
            CHECK(refused(build_in(9, ROOM), WIMTAZE_REFUSAL_LAYOUT));
        }
        for (size_t j = 0; j < sizeof no_range / sizeof *no_range; j++) {
            heap_load(before_it), heap_append(no_range[j]), heap_append(behind_it);
            CHECK(refused(build_in(9, ROOM), WIMTAZE_REFUSAL_RANGE));
        }
        for (size_t j = 0; j < sizeof numbers / sizeof *numbers; j++) {
            heap_load(before_it);
            CHECK(refused(build_in(numbers[j], ROOM), WIMTAZE_REFUSAL_RANGE));
        }
        /* With and without the row that the two have between the marks; and both left out. */
        for (size_t j = 0; j < sizeof conflicts / sizeof *conflicts; j++) {
            heap_load("I 5 1 97 0 0 0 1\n"), heap_append(before_it), heap_append(conflicts[j]);
            CHECK(refused(build_in(9, ROOM), WIMTAZE_REFUSAL_CONFLICT));
            heap_append("I 5 1 97 0 0 0 1\n"), heap_append(behind_it);
            CHECK(refused(build_in(5, ROOM), WIMTAZE_REFUSAL_CONFLICT));
        }
        heap_load("I 5 1 97 6 1 0 1\n"), heap_append(before_it), heap_append("I 5 1 98 6 1 0 1\n");
        CHECK(refused(build_in(9, ROOM), WIMTAZE_REFUSAL_CONFLICT));
        heap_load("I 5 1 97 7 1 7 1\n"), heap_append(before_it), heap_append("I 5 1 97 7 1 8 1\n");
        CHECK(refused(build_in(9, ROOM), WIMTAZE_REFUSAL_CONFLICT));
    }
    /* The last line without its line feed, and every shorter part of it. */
    for (size_t cut = 1; cut < 17; cut++) {
        heap_load("I 1 1 97 0 0 0 1\nI 2 1 97 0 0 0 1\n");
        heap_length -= cut;
        CHECK(refused(build_in(9, ROOM), WIMTAZE_REFUSAL_LAYOUT));
    }
}

/* Of two grounds that a heap gives, and a short output, the first is told. */
static void first_of_two_building(void)
{
    static const char *const layout = "I 1 1 97 0 0 0\n", *const range = "E 1 1 1 256\n";
    static const char *const conflict = "I 2 1 97 0 0 0 1\nI 2 1 98 0 0 0 1\n", *const fine = "I 3 1 97 0 0 0 1\n";
    const struct {
        const char *lines, *other;
        uint64_t number;
        int copies, told;
        size_t room;
    } pairs[] = {{layout, range, 9, 0, 1, ROOM}, {range, layout, 9, 0, 1, ROOM}, {layout, "", 0, 0, 1, ROOM},
        {layout, "", 9, 1025, 1, ROOM}, {layout, conflict, 9, 0, 1, ROOM}, {layout, "", 9, 0, 1, 0},
        {range, "", 9, 1025, 2, ROOM}, {fine, "", 17, 1025, 2, ROOM}, {range, conflict, 9, 0, 2, ROOM},
        {conflict, "", 0, 0, 2, ROOM}, {range, "", 9, 0, 2, 0}, {fine, "", 0, 0, 2, 0},
        {conflict, "", 9, 1023, 17, ROOM}, {conflict, "", 9, 1022, 7, ROOM}, {fine, "", 9, 1024, 17, 0},
        {fine, "", 9, 1023, 12, 0}, {conflict, "", 9, 0, 7, 0}, {fine, "", 9, 0, 12, 0}};
    for (size_t k = 0; k < sizeof pairs / sizeof *pairs; k++)
        for (int behind = 0; behind < 2; behind++) {
            heap_load(behind ? "" : pairs[k].lines);
            heap_append(pairs[k].other);
            heap_of(pairs[k].copies, "I 1 1 97 0 0 0 1\n");
            heap_append(behind ? pairs[k].lines : "");
            CHECK(refused(build_in(pairs[k].number, pairs[k].room), pairs[k].told));
        }
}

/* ---- Req 07: sheets of other programs */

static const char *const MADE[] = {"S2 16 0\n", "S2 16 0\nC 3 1 67 0 0 0 1 1\nC 1 1 65 0 0 0 0 1\nC 2 1 66 0 0 0 0 1\n",
    "S2 9 0\nC 1 1 65 0 0 0 0 1\nC 2 1 66 0 0 0 0 1\n",
    /* One was typed behind the other, or in front of it, so that their identifiers do not matter. */
    "S2 9 0\nC 2 1 66 0 0 0 0 1\nC 1 1 65 0 2 1 0 1\n", "S2 9 0\nC 2 1 66 0 0 0 1 1\nC 1 1 65 0 0 0 0 1\n",
    /* Any turns. */
    "S2 9 0\nC 1 1 65 255 0 0 0 1\nC 2 1 66 254 0 0 0 1\nC 3 1 66 1 2 1 0 1\n",
    /* The second was typed between the first and the third. */
    "S2 9 0\nC 5 1 65 0 0 0 0 1\nC 1 1 66 0 5 1 6 1\nC 6 1 67 0 0 0 0 1\n",
    /* One typed in front of a row, and one behind it. */
    "S2 9 0\nC 7 1 65 0 0 0 8 1\nC 8 1 66 0 0 0 0 1\nC 1 1 67 0 8 1 0 1\n",
    "S2 16 65535\nC 16 65535 1114111 0 0 0 0 1\n"};

/* Sheets in form that nothing received leaves. */
static const char *const NOT_MADE[] = {
    /* P7's: each needs the other. */
    "S2 16 0\nC 1 1 65 0 0 0 2 1\nC 2 1 66 0 1 1 0 1\n",
    /* Between the marks, the higher identifier above; 9 never comes there. */
    "S2 9 0\nC 2 1 66 0 0 0 0 1\nC 1 1 65 0 0 0 0 1\n", "S2 9 0\nC 1 2 66 0 0 0 0 1\nC 1 1 65 0 0 0 0 1\n",
    "S2 9 0\nC 2 1 66 0 0 0 0 1\nC 1 9 65 0 0 0 0 1\n",
    /* The same of rows that are hidden, one or both. */
    "S2 9 0\nC 2 1 66 1 0 0 0 1\nC 1 1 65 0 0 0 0 1\n", "S2 9 0\nC 2 1 66 0 0 0 0 1\nC 1 1 65 3 0 0 0 1\n",
    "S2 9 0\nC 2 1 66 1 0 0 0 1\nC 1 1 65 255 0 0 0 1\n",
    /* Rows that need each other in a circle of three, alone and beside others. */
    "S2 9 0\nC 1 1 65 0 0 0 3 1\nC 2 1 66 0 1 1 0 1\nC 3 1 67 0 2 1 0 1\n",
    "S2 9 0\nC 1 1 65 0 0 0 0 1\nC 2 1 66 0 1 1 4 1\nC 3 1 67 0 2 1 0 1\nC 4 1 68 0 3 1 0 1\nC 5 1 69 0 4 1 0 1\n",
    /* The first and the last stand between each other's neighbours, with a row between them that needs the first. */
    "S2 9 0\nC 3 1 65 0 0 0 0 1\nC 4 1 66 0 3 1 0 1\nC 2 1 67 0 0 0 0 1\n",
    /* Two that were typed after one row, the higher above, that row hidden. */
    "S2 9 0\nC 1 1 65 1 0 0 0 1\nC 3 1 66 0 1 1 0 1\nC 2 1 67 0 1 1 0 1\n",
    /* Two that were typed between hidden rows, the higher above. */
    "S2 9 0\nC 1 1 65 1 0 0 0 1\nC 5 1 66 0 1 1 9 1\nC 4 1 67 0 1 1 9 1\nC 9 1 65 1 1 1 0 1\n",
    /* The first row in front of the last, and the second between the marks: each between the other's neighbours. */
    "S2 9 0\nC 7 1 65 0 0 0 8 1\nC 6 1 67 0 0 0 0 1\nC 8 1 66 0 0 0 0 1\n"};

/* Lines that wait, in form: one would meet 8 if what it needs came, and two need each other. */
static const char *const AWAITING[] = {"I 7 1 97 8 1 0 1\n", "I 7 1 97 8 1 8 1\n", "E 7 8 1 1\n",
    "I 7 1 97 8 1 0 1\nI 8 1 97 7 1 0 1\nE 1 7 1 2\nE 16 8 1 255\n"};

/* Sheets that can be made come out as they are, whatever waits on them. */
static void loaded(void)
{
    char with_waiting[512];
    for (size_t k = 0; k < sizeof MADE / sizeof *MADE; k++) {
        load(MADE[k]);
        CHECK(changed(use(), MADE[k]));
        for (size_t j = 0; k < 3 && j < sizeof AWAITING / sizeof *AWAITING; j++) {
            sprintf(with_waiting, "%s%s", MADE[k], AWAITING[j]);
            load(with_waiting);
            CHECK(changed(use(), with_waiting));
        }
    }
    load(FOUR_ROWS);
    CHECK(changed(use(), FOUR_ROWS));
}

/* Sheets that cannot, whatever waits, and whatever their own laptop's number and clock; the sheet at hand stays. */
static void not_loaded(void)
{
    char with_waiting[512];
    for (size_t k = 0; k < sizeof NOT_MADE / sizeof *NOT_MADE; k++) {
        load(NOT_MADE[k]);
        CHECK(refused(use(), WIMTAZE_REFUSAL_UNREACHABLE) && sheet_is(NOT_MADE[k]));
        CHECK(done(text(), 0, 0));
        for (size_t laptop = 1; laptop <= 16; laptop++) {
            sprintf(with_waiting, "S2 %u %u\n%s", (unsigned)laptop, laptop % 2 ? 0u : 65535u,
                    strchr(NOT_MADE[k], '\n') + 1);
            load(with_waiting);
            CHECK(refused(use(), WIMTAZE_REFUSAL_UNREACHABLE));
        }
        for (size_t j = 0; k < 3 && j < sizeof AWAITING / sizeof *AWAITING; j++) {
            sprintf(with_waiting, "%s%s", NOT_MADE[k], AWAITING[j]);
            load(with_waiting);
            CHECK(refused(use(), WIMTAZE_REFUSAL_UNREACHABLE));
        }
    }
}

/* A clock that is too low, for a row or for what waits, is raised, and nothing else is changed. */
static void loaded_clock(void)
{
    load("S2 2 0\nC 2 5 65 3 0 0 0 1\n");
    CHECK(changed(use(), "S2 2 5\nC 2 5 65 3 0 0 0 1\n"));
    load("S2 2 6\nC 2 5 65 3 0 0 0 1\n");
    CHECK(changed(use(), "S2 2 6\nC 2 5 65 3 0 0 0 1\n"));
    load("S2 2 6\nC 2 5 65 0 0 0 0 1\nI 2 9 66 3 1 0 1\nI 3 12 66 3 1 0 1\nE 2 2 13 1\n");
    CHECK(changed(use(), "S2 2 9\nC 2 5 65 0 0 0 0 1\nI 2 9 66 3 1 0 1\nI 3 12 66 3 1 0 1\nE 2 2 13 1\n"));
    load("S2 2 0\nC 2 65535 65 0 0 0 0 1\n");
    CHECK(changed(use(), "S2 2 65535\nC 2 65535 65 0 0 0 0 1\n"));
    CHECK(refused(type(0, 'x'), WIMTAZE_REFUSAL_CLOCK));
    /* The raised clock may be longer, which counts where an output is short. */
    load("S2 2 0\nC 2 5000 65 1 0 0 0 1\n");
    CHECK(refused(use_in(sheet_length + 2), WIMTAZE_REFUSAL_OUTPUT));
    CHECK(done(use_in(sheet_length + 3), 0, 0));
    /* 16 is told whatever the clock. */
    load("S2 2 0\nC 2 5 65 0 0 0 0 1\nC 1 5 65 0 0 0 0 1\n");
    CHECK(refused(use(), WIMTAZE_REFUSAL_UNREACHABLE));
}

/* What is done with a sheet that was loaded: what other programs' sheets refuse with 9 comes in here. */
static void loaded_and_used(void)
{
    load("S2 16 0\nC 1 1 65 0 0 0 0 1\nC 2 1 66 0 1 1 0 1\nI 4 1 67 5 1 0 1\nI 4 2 68 5 1 1 1\n");
    CHECK(done(use(), 0, 0));
    CHECK(done(receive("I 3 1 67 0 0 0 1\n"), 1, 0));
    CHECK(sheet_is("S2 16 0\nC 1 1 65 0 0 0 0 1\nC 2 1 66 0 1 1 0 1\nC 3 1 67 0 0 0 0 1\nI 4 1 67 5 1 0 1\n"
                   "I 4 2 68 5 1 1 1\n"));
    /* What waited is carried out, or thrown out since it meets 8. */
    CHECK(done(receive("I 5 1 69 1 1 0 1\n"), 2, 1));
    CHECK(done(type(0, 'x'), 1, 0) && done(paste(1, "yz"), 2, 0) && done(erase(1), 1, 0) && done(use(), 0, 0));
    CHECK(done(restore(16, 1), 1, 0) && done(use(), 0, 0));
    /* P7's sheet, for comparison. */
    load(NOT_MADE[0]);
    CHECK(refused(use(), WIMTAZE_REFUSAL_UNREACHABLE));
    CHECK(refused(receive("I 3 1 67 0 0 0 1\n"), WIMTAZE_REFUSAL_UNPLACEABLE));
}

/* Every sheet that the calls make is loaded as it is: begun, received, typed, pasted, erased, restored, built. */
static void own_sheets_loaded(void)
{
    size_t length;
    CHECK(done(empty(7, ROOM), 0, 0) && done(use(), 0, 0));
    CHECK(done(paste(0, "Board 7: 1-0"), 12, 0) && done(type(3, 'x'), 1, 0) && done(erase(5), 1, 0));
    CHECK(done(receive("I 3 1 67 0 0 7 1\n"), 1, 0) && waits(receive("E 3 4 1 9\n")));
    length = sheet_length;
    CHECK(done(use(), 0, 0) && sheet_length == length);
    CHECK(done(build(9, "I 2 1 66 0 0 0 1\nI 1 1 65 0 0 0 1\nI 3 1 67 0 0 1 1\nI 3 2 68 1 1 0 1\nE 4 1 1 7\n"), 0, 0));
    length = sheet_length;
    CHECK(done(use(), 0, 0) && sheet_length == length);
}

/* The refusals 1, 2 and 3 of a sheet to be loaded, and 12 by one byte. */
static void not_read_for_use(void)
{
    static const char *const layouts[] = {"", "\n", "S 1 0\n", "S2 1 0", "S2 1\n", "S2 1 0 0\n", "S2 01 0\n",
        "S2 1 0\n\n", "S2 1 0\nD 1 1 1\n", "S2 1 0\nC 1 1 65 0 0 0 0\n", "S2 1 0\nE 1 1 1 1\nC 1 1 65 0 0 0 0 1\n",
        "S2 1 0\nK 1 1 1\n", "C 1 1 65 0 0 0 0 1\n", "S2 1 0\nC 1 1 65 0 0 0 0 1"};
    static const char *const numbers[] = {"S2 0 0\n", "S2 17 0\n", "S2 1 65536\n", "S2 1 0\nC 2 1 65 256 0 0 0 1\n",
        "S2 1 0\nC 17 1 65 0 0 0 0 1\n", "S2 1 0\nC 2 0 65 0 0 0 0 1\n", "S2 1 0\nC 2 1 55296 0 0 0 0 1\n",
        "S2 1 0\nC 2 1 65 0 2 1 0 1\n", "S2 1 0\nE 1 1 1 0\n", "S2 1 0\nI 1 1 65 0 1 0 1\n"};
    static const char *const forms[] = {"S2 1 0\nE 1 1 1 1\nE 1 1 1 1\n", "S2 1 0\nC 1 1 65 1 0 0 0 1\nE 2 1 1 1\n",
        "S2 1 0\nC 1 1 65 0 0 0 0 1\nC 1 1 65 0 0 0 0 1\n", "S2 1 0\nI 1 1 65 0 0 0 1\n",
        "S2 1 0\nC 1 1 65 0 2 1 0 1\n", "S2 1 0\nC 1 1 65 0 2 1 0 1\nC 2 1 66 0 0 0 0 1\n",
        "S2 1 0\nC 1 1 65 0 0 0 0 1\nI 1 1 65 2 1 0 1\n"};
    for (size_t k = 0; k < sizeof layouts / sizeof *layouts; k++) {
        load(layouts[k]);
        CHECK(refused(use(), WIMTAZE_REFUSAL_LAYOUT));
    }
    for (size_t k = 0; k < sizeof numbers / sizeof *numbers; k++) {
        load(numbers[k]);
        CHECK(refused(use(), WIMTAZE_REFUSAL_RANGE));
    }
    for (size_t k = 0; k < sizeof forms / sizeof *forms; k++) {
        load(forms[k]);
        CHECK(refused(use(), WIMTAZE_REFUSAL_FORM));
    }
    load(FOUR_ROWS);
    CHECK(refused(use_in(0), WIMTAZE_REFUSAL_OUTPUT) && refused(use_in(sheet_length - 1), WIMTAZE_REFUSAL_OUTPUT));
    CHECK(done(use_in(sheet_length), 0, 0));
}

/* Two grounds that hold at once, every such pair: the first in checking order is told. */
static void first_of_two_loading(void)
{
    static const struct {
        const char *sheet;
        int told, other;
    } pairs[] = {{"S2 1 0\nE 1 1 1 0\nD 1 1 1\n", 1, 2}, {"S2 1 0\nI 1 1 65 0 0 0 1\nD 1 1 1\n", 1, 3},
        {"S2 9 0\nC 2 1 66 0 0 0 0 1\nC 1 1 65 0 0 0 0 1\nD 1 1 1\n", 1, 16}, {"S2 1 0\nD 1 1 1\n", 1, 12},
        {"S2 1 0\nI 1 1 65 0 0 0 1\nE 1 1 1 0\n", 2, 3},
        {"S2 9 0\nC 2 1 66 0 0 0 0 1\nC 1 1 65 256 0 0 0 1\n", 2, 16}, {"S2 1 0\nE 1 1 1 0\n", 2, 12},
        {"S2 9 0\nC 2 1 66 0 0 0 0 1\nC 1 1 65 0 0 0 0 1\nE 3 1 1 1\n", 3, 16},
        {"S2 9 0\nC 2 1 66 0 0 0 0 1\nC 1 1 65 0 0 0 0 1\nC 2 1 66 0 0 0 0 1\n", 3, 16},
        {"S2 9 0\nC 1 1 65 0 0 0 2 1\nC 2 1 66 0 1 1 0 1\nI 3 1 67 1 1 2 1\n", 3, 16},
        {"S2 1 0\nE 1 1 1 1\nE 1 1 1 1\n", 3, 12}, {"S2 9 0\nC 2 1 66 0 0 0 0 1\nC 1 1 65 0 0 0 0 1\n", 16, 12},
        {"S2 9 0\nC 1 1 65 0 0 0 2 1\nC 2 1 66 0 1 1 0 1\n", 16, 12}};
    for (size_t k = 0; k < sizeof pairs / sizeof *pairs; k++) {
        load(pairs[k].sheet);
        CHECK(refused(use_in(pairs[k].other == 12 ? 0 : ROOM), pairs[k].told));
    }
}

/* The largest sheets: typed, all between the marks, and both with one pair the wrong way round or one circle of all. */
static void largest_loaded(void)
{
    char row[64];
    for (int circle = 0; circle < 2; circle++) {
        load("S2 9 0\n");
        for (int k = 1; k <= 1024; k++) {
            int first_in_circle = circle && k == 1;
            sprintf(row, first_in_circle ? "C 1 1 97 1 0 0 1 1024\n" : k == 1 ? "C 1 1 97 1 0 0 0 1\n"
                                         : "C 1 %d 97 1 1 %d 0 1\n", k, k - 1);
            append(row);
        }
        CHECK(circle ? refused(use(), WIMTAZE_REFUSAL_UNREACHABLE) : done(use_in(sheet_length), 0, 0));
    }
    for (int wrong = 0; wrong < 2; wrong++) {
        load("S2 9 0\n");
        for (int k = 1; k <= 1024; k++) {
            sprintf(row, "C 1 %d 97 0 0 0 0 1\n", wrong && k == 1024 ? 1 : wrong ? k + 1 : k);
            append(row);
        }
        CHECK(wrong ? refused(use(), WIMTAZE_REFUSAL_UNREACHABLE) : done(use_in(sheet_length), 0, 0));
    }
}

/* ---- Req 09: catching up */

/* Whether a call wrote just this to its one output, and told its length and nothing else. */
static int wrote(uint64_t reply, const char *text)
{
    return reply == (uint64_t)strlen(text) << 32 && first_is(reply, text);
}

/* Rows are listed, hidden ones too, and what waits is not; by rising laptop and then rising index. */
static void listed(void)
{
    static const struct {
        const char *sheet, *list;
    } cases[] = {{"S2 7 0\n", "H 7 0\n"}, {"S2 16 65535\n", "H 16 0\n"},
        {"S2 3 0\nC 1 1 65 0 0 0 0 1\n", "H 3 1\nK 1 0 2\n"},
        {"S2 9 0\nC 1 1 65 0 0 0 0 1\nC 1 63 65 0 0 0 0 1\nC 1 64 65 0 0 0 0 1\nC 2 65535 65 0 0 0 0 1\n",
            "H 9 4\nK 1 0 9223372036854775810\nK 1 1 1\nK 2 1023 9223372036854775808\n"},
        {"S2 9 0\nC 16 1 65 0 0 0 0 1\nC 2 130 65 0 16 1 0 1\nC 2 5 65 0 2 130 0 1\nC 2 3 65 0 2 5 0 1\n",
            "H 9 4\nK 2 0 40\nK 2 2 4\nK 16 0 2\n"},
        {"S2 3 0\nC 1 1 65 1 0 0 0 1\nC 2 1 65 255 0 0 0 1\nC 3 1 65 254 0 0 0 1\nI 4 1 66 5 1 0 1\n"
         "I 3 2 66 5 1 0 1\nE 2 5 1 1\n",
            "H 3 3\nK 1 0 2\nK 2 0 2\nK 3 0 2\n"},
        {"S2 3 0\nI 4 1 66 5 1 0 1\n", "H 3 0\n"}};
    char row[64];
    for (size_t k = 0; k < sizeof cases / sizeof *cases; k++) {
        load(cases[k].sheet);
        CHECK(wrote(write_list(), cases[k].list) && wrote(write_list_in(strlen(cases[k].list)), cases[k].list));
        CHECK(refused(write_list_in(strlen(cases[k].list) - 1), WIMTAZE_REFUSAL_OUTPUT));
        CHECK(refused(write_list_in(0), WIMTAZE_REFUSAL_OUTPUT));
    }
    /* A whole word, and all but its ends. */
    load("S2 9 0\n");
    for (int clock = 63; clock <= 190; clock++) {
        sprintf(row, "C 4 %d 65 0 0 0 0 1\n", clock);
        append(row);
    }
    CHECK(wrote(write_list(), "H 9 128\nK 4 0 9223372036854775808\nK 4 1 18446744073709551615\n"
                              "K 4 2 9223372036854775807\n"));
}

/* The inserts that are not listed, the lowest first of those whose needs are not still to be sent; then the turns. */
static void answered(void)
{
    static const struct {
        const char *sheet, *list, *lines;
    } cases[] = {
        /* Asked anew each time: 1/2 comes before 2/1, since 1/1 was sent. */
        {"S2 9 0\nC 1 1 65 0 0 0 0 1\nC 1 2 66 0 1 1 0 1\nC 2 1 67 0 0 0 0 1\n", "H 1 0\n",
            "I 1 1 65 0 0 0 1\nI 1 2 66 1 1 0 1\nI 2 1 67 0 0 0 1\n"},
        {"S2 9 0\nC 1 1 65 0 0 0 0 1\nC 1 2 66 0 1 1 0 1\nC 2 1 67 0 0 0 0 1\n", "H 1 1\nK 1 0 2\n",
            "I 1 2 66 1 1 0 1\nI 2 1 67 0 0 0 1\n"},
        {"S2 9 0\nC 1 1 65 0 0 0 0 1\nC 1 2 66 0 1 1 0 1\nC 2 1 67 0 0 0 0 1\n", "H 1 1\nK 1 0 4\n",
            "I 1 1 65 0 0 0 1\nI 2 1 67 0 0 0 1\n"},
        /* A need still to be sent, above and below. */
        {"S2 9 0\nC 2 1 65 0 0 0 0 1\nC 1 1 66 0 2 1 0 1\n", "H 1 0\n", "I 2 1 65 0 0 0 1\nI 1 1 66 2 1 0 1\n"},
        {"S2 9 0\nC 1 1 66 0 0 0 2 1\nC 2 1 65 0 0 0 0 1\n", "H 1 0\n", "I 2 1 65 0 0 0 1\nI 1 1 66 0 0 2 1\n"},
        {"S2 9 0\nC 1 1 66 0 0 0 2 1\nC 2 1 65 0 0 0 0 1\n", "H 1 1\nK 2 0 2\n", "I 1 1 66 0 0 2 1\n"},
        /* P7's sheet, where none is free; and one where the lowest is the third in need. */
        {"S2 16 0\nC 1 1 65 0 0 0 2 1\nC 2 1 66 0 1 1 0 1\n", "H 1 0\n", "I 1 1 65 0 0 2 1\nI 2 1 66 1 1 0 1\n"},
        {"S2 16 0\nC 5 1 65 0 0 0 6 1\nC 6 1 66 0 5 1 0 1\nC 2 1 67 0 6 1 0 1\n", "H 1 0\n",
            "I 2 1 67 6 1 0 1\nI 5 1 65 0 0 6 1\nI 6 1 66 5 1 0 1\n"},
        {"S2 16 0\nC 5 1 65 0 0 0 6 1\nC 6 1 66 0 5 1 0 1\nC 9 1 67 0 0 0 0 1\n", "H 1 0\n",
            "I 9 1 67 0 0 0 1\nI 5 1 65 0 0 6 1\nI 6 1 66 5 1 0 1\n"},
        {"S2 16 0\nC 5 1 65 0 0 0 6 1\nC 6 1 66 0 5 1 0 1\n", "H 1 1\nK 6 0 2\n", "I 5 1 65 0 0 6 1\n"},
        /* An E line for each turn above 0, listed or not, from the top, and from the laptop that answers. */
        {"S2 7 0\nC 3 1 65 1 0 0 0 1\nC 1 1 66 2 3 1 0 1\nC 2 1 67 0 1 1 0 1\nC 4 1 68 255 2 1 0 1\n",
            "H 2 2\nK 1 0 2\nK 3 0 2\n",
            "I 2 1 67 1 1 0 1\nI 4 1 68 2 1 0 1\nE 7 3 1 1\nE 7 1 1 2\nE 7 4 1 255\n"},
        /* What waits is not sent. */
        {"S2 7 0\nC 3 1 65 0 0 0 0 1\nI 4 1 66 5 1 0 1\nE 3 5 1 9\n", "H 2 0\n", "I 3 1 65 0 0 0 1\n"},
        /* What is listed and is not there; the laptop's own number; nothing to send. */
        {"S2 7 0\nC 3 1 65 0 0 0 0 1\n", "H 7 3\nK 1 1023 9223372036854775808\nK 3 0 4\nK 3 1 1\n",
            "I 3 1 65 0 0 0 1\n"},
        {"S2 7 0\nC 3 1 65 0 0 0 0 1\n", "H 7 1\nK 3 0 2\n", ""}, {"S2 7 0\n", "H 16 0\n", ""},
        {"S2 7 0\n", "H 16 1\nK 1 1 1\n", ""}};
    for (size_t k = 0; k < sizeof cases / sizeof *cases; k++) {
        load(cases[k].sheet);
        CHECK(wrote(answer(cases[k].list), cases[k].lines) && wrote(answer_in(strlen(cases[k].lines)), cases[k].lines));
        if (*cases[k].lines == '\0')
            CHECK(wrote(answer_in(0), ""));
        else
            CHECK(refused(answer_in(strlen(cases[k].lines) - 1), WIMTAZE_REFUSAL_OUTPUT) &&
                  refused(answer_in(0), WIMTAZE_REFUSAL_OUTPUT));
    }
}

/* A sheet that is put aside, and taken up again. */
struct kept {
    uint8_t sheet[WIMTAZE_SHEET_MAX];
    size_t length;
};

static void put_aside(struct kept *kept)
{
    kept->length = sheet_length;
    memcpy(kept->sheet, sheet, sheet_length);
}

static void take_up(const struct kept *kept)
{
    sheet_length = kept->length;
    memcpy(sheet, kept->sheet, sheet_length);
}

/* Lists the sheet at hand, and has it answered from another; the lines are left in the output. */
static uint64_t ask(const struct kept *other)
{
    struct kept own;
    uint64_t reply = write_list();
    list_length = wimtaze_written(reply);
    memcpy(list, first + GUARD, list_length);
    put_aside(&own);
    take_up(other);
    reply = answer_in(WIMTAZE_ANSWER_MAX);
    take_up(&own);
    return reply;
}

/* Takes in the lines that the last call wrote; answers how many were done, and -1 if one waits or is refused. */
static int take_in(uint64_t reply)
{
    static uint8_t lines[WIMTAZE_ANSWER_MAX];
    size_t length = wimtaze_written(reply);
    int count = 0, taken = 1;
    memcpy(lines, first + GUARD, length);
    for (size_t k = 0, end; k < length; k = end) {
        for (end = k; lines[end++] != '\n';)
            ;
        enum wimtaze_words word = wimtaze_word(receive_bytes(lines + k, end - k, WIMTAZE_SHEET_MAX));
        count += word == WIMTAZE_DONE;
        taken = taken && (word == WIMTAZE_DONE || word == WIMTAZE_KNOWN);
    }
    return taken ? count : -1;
}

/* The rows of the sheet at hand, without its first line. */
static int rows_are(const char *text)
{
    size_t head = (size_t)((const uint8_t *)memchr(sheet, '\n', sheet_length) + 1 - sheet);
    static uint8_t want[ROOM];
    size_t n = tabbed(text, want);
    return sheet_length - head == n && memcmp(sheet + head, want, n) == 0;
}

/*
 * The network drops for a quarter of an hour: laptop 1 goes on with the results, laptop 2 types a bye request and
 * erases a character. Then each lists and the other answers, the second before it has taken in the first's answer, or
 * after.
 */
static void quarter_of_an_hour(void)
{
    static struct kept one, two, after_one, after_two;
    static const char *const want = "C 1 1 82 0 0 0 0 1\nC 1 2 53 1 1 1 0 1\nC 1 3 46 0 1 2 0 1\nC 1 4 49 0 1 3 0 1\n"
                                    "C 2 1 66 0 1 3 0 1\n";
    for (int behind = 0; behind < 2; behind++) {
        empty(1, ROOM);
        CHECK(done(paste(0, "R5"), 2, 0));
        put_aside(&one);
        CHECK(done(build(2, "I 1 2 53 1 1 0 1\nI 1 1 82 0 0 0 1\n"), 0, 0));
        CHECK(done(receive("I 1 3 46 1 2 0 1\n"), 1, 0));
        CHECK(done(type(3, 'B'), 1, 0) && done(erase(2), 1, 0));
        put_aside(&two);
        take_up(&one);
        CHECK(done(paste(2, ".1"), 2, 0));
        put_aside(&one);
        take_up(&two);
        uint64_t reply = ask(&one);
        CHECK(wrote(reply, "I 1 4 49 1 3 0 1\n") && take_in(reply) == 1 && rows_are(want));
        put_aside(&after_two);
        take_up(&one);
        reply = ask(behind ? &after_two : &two);
        CHECK(wrote(reply, "I 2 1 66 1 3 0 1\nE 2 1 2 1\n") && take_in(reply) == 2 && rows_are(want));
        put_aside(&after_one);
        /* Asked once more, there is nothing but what is known. */
        reply = ask(&after_two);
        CHECK(wrote(reply, "E 2 1 2 1\n") && take_in(reply) == 0);
        take_up(&after_two);
        reply = ask(&after_one);
        CHECK(wrote(reply, "E 1 1 2 1\n") && take_in(reply) == 0);
        CHECK(counted(4, 0, 5, 1019) && first_is(text(), "R.1B"));
    }
}

/* What waits on the sheet of who asks is not listed. It comes with what it needs, and is known when its line comes. */
static void waiting_asked(void)
{
    static struct kept other;
    load("S2 9 0\nC 1 1 65 3 0 0 0 1\nC 1 2 66 0 1 1 0 1\nC 2 1 67 0 1 2 0 1\nC 5 1 68 0 0 0 0 1\n");
    put_aside(&other);
    load("S2 2 1\nI 2 1 67 1 2 0 1\nI 1 2 66 1 1 0 1\nE 4 1 1 1\nE 4 8 1 1\n");
    uint64_t reply = ask(&other);
    CHECK(wrote(reply, "I 1 1 65 0 0 0 1\nI 1 2 66 1 1 0 1\nI 2 1 67 1 2 0 1\nI 5 1 68 0 0 0 1\nE 9 1 1 3\n"));
    CHECK(take_in(reply) == 3);
    CHECK(sheet_is("S2 2 1\nC 1 1 65 3 0 0 0 1\nC 1 2 66 0 1 1 0 1\nC 2 1 67 0 1 2 0 1\nC 5 1 68 0 0 0 0 1\n"
                   "E 4 8 1 1\n"));
    /* A turn that is higher here stays. */
    load("S2 2 1\nC 1 1 65 5 0 0 0 1\n");
    CHECK(take_in(ask(&other)) == 3);
    CHECK(rows_are("C 1 1 65 5 0 0 0 1\nC 1 2 66 0 1 1 0 1\nC 2 1 67 0 1 2 0 1\nC 5 1 68 0 0 0 0 1\n"));
}

/* Where a premise does not hold a line is refused: 7 against what waits, 11 where there is no space. */
static void no_premise(void)
{
    static struct kept other;
    load("S2 9 0\nC 5 1 65 0 0 0 0 1\n");
    put_aside(&other);
    load("S2 2 0\nI 5 1 65 7 7 0 1\n");
    CHECK(wrote(ask(&other), "I 5 1 65 0 0 0 1\n"));
    CHECK(refused(receive("I 5 1 65 0 0 0 1\n"), WIMTAZE_REFUSAL_CONFLICT));
    load("S2 2 0\nC 5 1 66 0 0 0 0 1\n");
    CHECK(wrote(ask(&other), ""));
    load_rows(1023);
    CHECK(take_in(ask(&other)) == 1);
    load_rows(1023);
    append("I 2 1 98 3 1 0 1\n");
    CHECK(take_in(ask(&other)) == -1);
    CHECK(refused(receive("I 5 1 65 0 0 0 1\n"), WIMTAZE_REFUSAL_DOCUMENT_FULL));
    load_rows(1024);
    CHECK(take_in(ask(&other)) == -1);
    /* What waits here and is sent counts twice in the premise, and once in what there is room for. */
    load("S2 9 0\nC 2 1 65 0 0 0 0 1\n");
    put_aside(&other);
    load_rows(1022);
    append("E 4 2 1 1\nI 3 1 98 2 1 0 1\n");
    CHECK(take_in(ask(&other)) == 1 && counted(1023, 0, 1024, 0));
}

/* Refusals 1, 2 and 18 of a list, alone and with many lines before. */
static void not_answered(void)
{
    static const char *const layouts[] = {"", "\n", "H\n", "H 1\n", "H 1 0", "H 1 0 0\n", "h 1 0\n", "H 01 0\n",
        "H 1 00\n", "H 1 0\n\n", "\nH 1 0\n", "H 1 0\r\n", "H 1 0 \n", " H 1 0\n", "H2 1 0\n", "H 1 +0\n",
        "H 1 0\nH 1 0\n", "H 1 1\nK 1 1 1\nH 1 1\n", "K 1 1 1\n", "K 1 1 1\nH 1 1\n", "H 1 1\nK 1 1 1",
        "H 1 1\nK 1 1\n", "H 1 1\nK 1 1 1 1\n", "H 1 1\nK 1 1 01\n", "H 1 1\nK 1 1 +1\n", "H 1 1\nK 1 1 -1\n",
        "H 1 1\nK 1 1 0x1\n", "H 1 1\nk 1 1 1\n", "H 1 1\nK 1 1 1\n ", "H 1 1\nK 1 1 1\n\n", "H 1 1\nK 1 1 \n",
        "H 1 0\nI 1 1 65 0 0 0 1\n", "H 1 0\nE 1 1 1 1\n", "H 1 0\nC 1 1 65 0 0 0 0 1\n", "S2 1 0\n",
        "H 1 0\nS2 1 0\n"};
    static const char *const ranges[] = {"H 0 0\n", "H 17 0\n", "H 257 0\n", "H 18446744073709551617 0\n", "H 1 1025\n",
        "H 1 65536\n", "H 1 4294967296\n", "H 1 18446744073709551616\n", "H 1 1\nK 0 1 1\n", "H 1 1\nK 17 1 1\n",
        "H 1 1\nK 257 1 1\n", "H 1 1\nK 1 1024 1\n", "H 1 1\nK 1 65536 1\n", "H 1 1\nK 1 4294967297 1\n",
        "H 1 1\nK 1 18446744073709551617 1\n", "H 1 0\nK 1 1 0\n", "H 1 1\nK 1 1 18446744073709551616\n",
        "H 1 1\nK 1 1 18446744073709551617\n", "H 1 1\nK 1 1 340282366920938463463374607431768211457\n",
        "H 1 1\nK 1 1 9999999999999999999999999999999999999999\n"};
    static const char *const mislisted[] = {
        /* another total */
        "H 1 1\n", "H 1 1024\n", "H 1 0\nK 1 1 1\n", "H 1 2\nK 1 1 1\n", "H 1 63\nK 1 1 18446744073709551615\n",
        /* clock 0 */
        "H 1 1\nK 1 0 1\n", "H 1 2\nK 1 0 3\n", "H 1 64\nK 16 0 18446744073709551615\n", "H 1 2\nK 1 0 2\nK 2 0 1\n",
        /* out of sequence, by laptop and by index; repeated; two words of one place */
        "H 1 2\nK 2 0 2\nK 1 0 2\n", "H 1 2\nK 1 1 1\nK 1 0 2\n", "H 1 2\nK 1 1 1\nK 1 1 1\n",
        "H 1 1\nK 1 1 1\nK 1 1 1\n", "H 1 2\nK 1 1 1\nK 1 1 2\n", "H 1 3\nK 1 1 1\nK 1 2 1\nK 1 1 2\n",
        "H 1 3\nK 1 5 1\nK 2 1 1\nK 1 9 1\n"};
    load("S2 4 0\nC 2 1 65 1 0 0 0 1\n");
    for (size_t k = 0; k < sizeof layouts / sizeof *layouts; k++)
        CHECK(refused(answer(layouts[k]), WIMTAZE_REFUSAL_LAYOUT));
    for (size_t k = 0; k < sizeof ranges / sizeof *ranges; k++)
        CHECK(refused(answer(ranges[k]), WIMTAZE_REFUSAL_RANGE));
    for (size_t k = 0; k < sizeof mislisted / sizeof *mislisted; k++)
        CHECK(refused(answer(mislisted[k]), WIMTAZE_REFUSAL_MISLISTED));
    /* What is just within its range, and not mislisted. */
    CHECK(wrote(answer("H 16 66\nK 1 0 2\nK 1 1 1\nK 16 1023 18446744073709551615\n"),
                "I 2 1 65 0 0 0 1\nE 4 2 1 1\n"));
    /* Every shorter part of a list is cut in a line, or its total is wrong. */
    list_load("H 1 3\nK 1 0 2\nK 2 0 2\nK 3 0 2\n");
    for (list_length--; list_length > 0; list_length--) {
        int whole = list[list_length - 1] == '\n';
        CHECK(refused(answer_in(ROOM), whole ? WIMTAZE_REFUSAL_MISLISTED : WIMTAZE_REFUSAL_LAYOUT));
    }
}

/* A list of so many words, each with its index, and of laptop 1 or 2. */
static void list_words(int total, int count, const char *word)
{
    char line[64];
    sprintf(line, "H 5 %d\n", total);
    list_load(line);
    for (int k = 1; k <= count; k++) {
        sprintf(line, "K %d %d %s\n", k < 1024 ? 1 : 2, k < 1024 ? k : k - 1023, word);
        list_append(line);
    }
}

/* At most 1,024 are listed, in as many words at most; of a longer list all is looked at. */
static void list_limits(void)
{
    static const char *const whole = "18446744073709551615", *const one = "9223372036854775808";
    load("S2 4 0\nC 1 127 65 0 0 0 0 1\nC 2 127 66 0 0 0 0 1\n");
    list_words(1024, 16, whole);
    CHECK(wrote(answer_in(ROOM), "I 2 127 66 0 0 0 1\n"));
    list_words(1024, 1024, one);
    CHECK(wrote(answer_in(ROOM), ""));
    list_words(1024, 1023, one);
    CHECK(refused(answer_in(ROOM), WIMTAZE_REFUSAL_MISLISTED));
    list_words(1023, 1023, one);
    CHECK(wrote(answer_in(ROOM), "I 2 127 66 0 0 0 1\n"));
    static const struct {
        int total, count;
        const char *word;
    } overfull[] = {{1024, 17, whole}, {0, 17, whole}, {64, 17, whole}, {1024, 1025, one}, {1, 1025, one},
        {1024, 2000, one}, {1024, 1024, whole}, {0, 2000, whole}};
    for (size_t k = 0; k < sizeof overfull / sizeof *overfull; k++) {
        list_words(overfull[k].total, overfull[k].count, overfull[k].word);
        CHECK(refused(answer_in(ROOM), WIMTAZE_REFUSAL_MISLISTED));
        list_append("K 16 1023 0\n");
        CHECK(refused(answer_in(ROOM), WIMTAZE_REFUSAL_RANGE));
        list_append("K 16 1023\n");
        CHECK(refused(answer_in(ROOM), WIMTAZE_REFUSAL_LAYOUT));
    }
    list_words(1025, 1025, one);
    CHECK(refused(answer_in(ROOM), WIMTAZE_REFUSAL_RANGE));
}

/* Grounds that hold at once, of the sheet and of the list, every pair: the first in the order 1 2 18 3 12 is told. */
static void first_of_two_answering(void)
{
    static const char *const sheets[] = {"S2 4 0\nC 2 1 65 1 0 0 0 1\n", "S2 4 0\nC 2 1 65 1 0 0 0\n",
        "S2 4 0\nC 2 1 65 256 0 0 0 1\n", "S2 4 0\nC 2 1 65 1 0 0 0 1\nE 1 2 1 1\n"};
    static const struct {
        const char *list;
        int told[4];
    } lists[] = {{"H 1 0\n", {12, 1, 2, 3}}, {"H 1\n", {1, 1, 1, 1}}, {"H 17 0\n", {2, 1, 2, 2}},
        {"H 1 1\n", {18, 1, 2, 18}}, {"H 17 0\nK 1 1\n", {1, 1, 1, 1}}, {"H 1 0\nK 1 0 1\nK 1 1 1 1\n", {1, 1, 1, 1}},
        {"H 1 1\nK 1 1024 1\n", {2, 1, 2, 2}}, {"H 1 0\nK 2 0 3\nK 1 0 0\n", {2, 1, 2, 2}},
        {"H 1 2\nK 2 0 3\n", {18, 1, 2, 18}}, {"H 1 2\nK 2 0 2\nK 1 0 2\n", {18, 1, 2, 18}}};
    static const int listing[] = {12, 1, 2, 3};
    for (size_t k = 0; k < 4; k++) {
        load(sheets[k]);
        CHECK(refused(write_list_in(0), listing[k]));
        for (size_t j = 0; j < sizeof lists / sizeof *lists; j++) {
            list_load(lists[j].list);
            CHECK(refused(answer_in(0), lists[j].told[k]));
        }
    }
}

/* The longest list: 1,024 words of one clock each, the last of 64. */
static void longest_list(void)
{
    static char want[WIMTAZE_LIST_MAX];
    char row[64];
    char *at = want + sprintf(want, "H 16 1024\n");
    load("S2 16 65535\n");
    for (int k = 0; k < 1024; k++) {
        sprintf(row, "C 16 %d 97 %d 0 0 0 1\n", 64 * k + 63, k % 256);
        append(row);
        at += sprintf(at, "K 16 %d 9223372036854775808\n", k);
    }
    CHECK(wrote(write_list_in(WIMTAZE_LIST_MAX), want) && wrote(write_list_in(strlen(want)), want));
    CHECK(refused(write_list_in(strlen(want) - 1), WIMTAZE_REFUSAL_OUTPUT));
    CHECK(strlen(want) == WIMTAZE_LIST_MAX - 1024 - 3 * 10 - 2 * 90 - 900);
}

/* The longest answer: only the marks keep it below what the header names. And one that goes from the top. */
static void longest_answer(void)
{
    static char want[WIMTAZE_ANSWER_MAX + 1];
    char row[128], ends[64], *at = want;
    load("S2 16 65535\n");
    for (int k = 0; k < 1024; k++) {
        int n = sprintf(ends, k == 0 ? "0 0 " : "16 %d ", 64000 + k - 1);
        sprintf(ends + n, k == 1023 ? "0 1\n" : "16 %d\n", 64000 + k + 1);
        sprintf(row, "C 16 %d 1114111 255 %s", 64000 + k, ends);
        append(row);
        at += sprintf(at, "I 16 %d 1114111 %s", 64000 + k, ends);
    }
    for (int k = 0; k < 1024; k++)
        at += sprintf(at, "E 16 16 %d 255\n", 64000 + k);
    list_load("H 1 0\n");
    CHECK(strlen(want) == WIMTAZE_ANSWER_MAX - 10);
    CHECK(wrote(answer_in(WIMTAZE_ANSWER_MAX), want) && wrote(answer_in(strlen(want)), want));
    CHECK(refused(answer_in(strlen(want) - 1), WIMTAZE_REFUSAL_OUTPUT));
    load("S2 4 0\n");
    at = want;
    for (int k = 1024; k > 0; k--) {
        sprintf(ends, k == 1024 ? "0 0 0 1\n" : "1 %d 0 1\n", k + 1);
        sprintf(row, "C 1 %d 97 0 %s", k, ends);
        append(row);
        at += sprintf(at, "I 1 %d 97 %s", k, ends);
    }
    CHECK(wrote(answer_in(WIMTAZE_ANSWER_MAX), want));
}

/* ---- Req 10: the archive by author */

/* A saved sheet and its archive, each taken to the other, into outputs of every length up to one too long. */
static int rearranged(const char *saved, const char *archived)
{
    int all = 1;
    for (size_t room = 0; room <= strlen(archived) + 1; room++) {
        load(saved);
        uint64_t reply = archive_in(room);
        all = all && (room < strlen(archived) ? refused(reply, WIMTAZE_REFUSAL_OUTPUT) : changed(reply, archived));
    }
    for (size_t room = 0; room <= strlen(saved) + 1; room++) {
        load(archived);
        uint64_t reply = unarchive_in(room);
        all = all && (room < strlen(saved) ? refused(reply, WIMTAZE_REFUSAL_OUTPUT) : changed(reply, saved));
    }
    return all;
}

/* Rows go by laptop and then by clock, each with its place, hidden ones too; what waits stays as it was. */
static void archived(void)
{
    static const char *const pairs[][2] = {{"S2 7 0\n", "S2 7 0\n"}, {"S2 16 65535\n", "S2 16 65535\n"},
        {"S2 7 0\nI 3 1 65 4 1 0 1\nE 2 5 1 9\nE 1 5 1 9\nI 2 1 66 3 1 0 1\n",
         "S2 7 0\nI 3 1 65 4 1 0 1\nE 2 5 1 9\nE 1 5 1 9\nI 2 1 66 3 1 0 1\n"},
        {"S2 7 0\nC 1 1 65 0 0 0 0 1\n", "S2 7 0\nP 1 1 1 65 0 0 0 0 1\n"},
        {"S2 16 0\nC 3 1 67 0 0 0 1 1\nC 1 1 65 0 0 0 0 1\nC 2 1 66 0 0 0 0 1\nC 3 2 68 0 1 1 0 1\n",
         "S2 16 0\nP 2 1 1 65 0 0 0 0 1\nP 3 2 1 66 0 0 0 0 1\nP 1 3 1 67 0 0 0 1 1\nP 4 3 2 68 0 1 1 0 1\n"},
        /* a hidden row has a place, and those below it count it */
        {"S2 3 7\nC 3 7 66 1 0 0 0 1\nC 2 1 65 255 0 0 0 1\nC 1 9 33 254 3 7 0 1\n",
         "S2 3 7\nP 3 1 9 33 254 3 7 0 1\nP 2 2 1 65 255 0 0 0 1\nP 1 3 7 66 1 0 0 0 1\n"},
        /* clocks by number and not by digits, laptops likewise */
        {"S2 1 0\nC 2 10 65 0 0 0 0 1\nC 2 9 65 0 0 0 0 1\nC 16 1 65 0 0 0 0 1\nC 9 1 65 0 0 0 0 1\n",
         "S2 1 0\nP 2 2 9 65 0 0 0 0 1\nP 1 2 10 65 0 0 0 0 1\nP 4 9 1 65 0 0 0 0 1\nP 3 16 1 65 0 0 0 0 1\n"},
        {"S2 1 0\nC 16 65535 1114111 0 0 0 0 1\nC 2 1 0 3 16 65535 0 1\nI 3 1 65 4 1 0 1\nE 6 4 9 5\n",
         "S2 1 0\nP 2 2 1 0 3 16 65535 0 1\nP 1 16 65535 1114111 0 0 0 0 1\nI 3 1 65 4 1 0 1\nE 6 4 9 5\n"},
        /* a clock that is just high enough */
        {"S2 2 5\nC 2 5 65 0 0 0 0 1\n", "S2 2 5\nP 1 2 5 65 0 0 0 0 1\n"},
        {"S2 2 5\nI 2 5 65 9 9 0 1\n", "S2 2 5\nI 2 5 65 9 9 0 1\n"},
        /* P7's sheet, and one that no typing makes: whatever the rows */
        {"S2 16 0\nC 1 1 65 0 0 0 2 1\nC 2 1 66 0 1 1 0 1\n",
         "S2 16 0\nP 1 1 1 65 0 0 0 2 1\nP 2 2 1 66 0 1 1 0 1\n"},
        {"S2 4 0\nC 2 1 65 0 0 0 0 1\nC 1 1 66 0 0 0 0 1\n", "S2 4 0\nP 2 1 1 66 0 0 0 0 1\nP 1 2 1 65 0 0 0 0 1\n"}};
    for (size_t k = 0; k < sizeof pairs / sizeof *pairs; k++)
        CHECK(rearranged(pairs[k][0], pairs[k][1]));
}

/* The desk and the hall type a note between them, and an arbiter reads who typed what; then they go on. */
static void who_typed_what(void)
{
    empty(1, ROOM);
    CHECK(done(paste(0, "R5."), 3, 0));
    CHECK(done(receive("I 2 1 54 1 1 1 2\n"), 1, 0));
    CHECK(done(receive("E 2 1 2 1\n"), 1, 0));
    CHECK(waits(receive("I 3 2 33 3 1 0 1\n")));
    CHECK(first_is(text(), "R6."));
    CHECK(changed(archive(), "S2 1 3\nP 1 1 1 82 0 0 0 0 1\nP 3 1 2 53 1 1 1 0 1\nP 4 1 3 46 0 1 2 0 1\n"
                             "P 2 2 1 54 0 1 1 1 2\nI 3 2 33 3 1 0 1\n"));
    CHECK(refused(text(), WIMTAZE_REFUSAL_LAYOUT) && refused(use(), WIMTAZE_REFUSAL_LAYOUT));
    CHECK(refused(archive(), WIMTAZE_REFUSAL_LAYOUT));
    CHECK(changed(unarchive(), "S2 1 3\nC 1 1 82 0 0 0 0 1\nC 2 1 54 0 1 1 1 2\nC 1 2 53 1 1 1 0 1\n"
                               "C 1 3 46 0 1 2 0 1\nI 3 2 33 3 1 0 1\n"));
    CHECK(refused(unarchive(), WIMTAZE_REFUSAL_LAYOUT));
    CHECK(done(receive("I 3 1 45 1 3 0 1\n"), 2, 0) && first_is(text(), "R6.-!"));
    CHECK(done(archive(), 0, 0) && done(unarchive(), 0, 0) && first_is(text(), "R6.-!"));
}

/* A clock that loading raises is 3 on either way: that of a row, of a hidden one, of what waits. */
static void archive_clock(void)
{
    static const char *const low[][2] = {
        {"S2 2 4\nC 2 5 65 0 0 0 0 1\n", "S2 2 4\nP 1 2 5 65 0 0 0 0 1\n"},
        {"S2 2 0\nC 1 1 65 0 0 0 0 1\nC 2 1 65 1 0 0 0 1\n", "S2 2 0\nP 1 1 1 65 0 0 0 0 1\nP 2 2 1 65 1 0 0 0 1\n"},
        {"S2 2 6\nI 2 7 65 9 9 0 1\n", "S2 2 6\nI 2 7 65 9 9 0 1\n"},
        {"S2 16 65534\nC 16 65535 65 0 0 0 0 1\n", "S2 16 65534\nP 1 16 65535 65 0 0 0 0 1\n"}};
    for (size_t k = 0; k < sizeof low / sizeof *low; k++) {
        load(low[k][0]);
        CHECK(refused(archive(), WIMTAZE_REFUSAL_FORM) && refused(archive_in(0), WIMTAZE_REFUSAL_FORM));
        load(low[k][1]);
        CHECK(refused(unarchive(), WIMTAZE_REFUSAL_FORM) && refused(unarchive_in(0), WIMTAZE_REFUSAL_FORM));
        /* Loaded for use it is raised, and then it can go. */
        load(low[k][0]);
        CHECK(done(use(), 0, 0) && done(archive(), 0, 0));
    }
}

/* Refusals 1, 2 and 3 of a sheet that is to be archived. */
static void not_archived(void)
{
    static const char *const layouts[] = {"", "\n", "S 1 0\n", "S2 1 0", "S2 1\n", "S2 1 0\n\n", "S2 1 0\r\n",
        "S2 01 0\n", "S2 1 0\nD 1 1 1\n", "S2 1 0\nP 1 2 1 65 0 0 0 0 1\n", "S2 1 0\nC 1 2 1 65 0 0 0 0 1\n",
        "S2 1 0\nC 2 1 65 0 0 0 0 1\nP 2 3 1 65 0 0 0 0 1\n", "S2 1 0\nE 1 1 1 1\nC 2 1 65 0 0 0 0 1\n",
        "S2 1 0\nC 2 1 65 0 0 0 0 1"};
    static const char *const numbers[] = {"S2 0 0\n", "S2 17 0\n", "S2 1 65536\n", "S2 1 0\nC 2 1 65 256 0 0 0 1\n",
        "S2 1 0\nC 17 1 65 0 0 0 0 1\n", "S2 1 0\nC 2 0 65 0 0 0 0 1\n", "S2 1 0\nC 2 1 55296 0 0 0 0 1\n",
        "S2 1 0\nC 2 1 65 0 2 1 0 1\n", "S2 1 0\nC 2 1 65 0 0 0 0 0\n", "S2 1 0\nE 1 1 1 0\n",
        "S2 1 0\nC 2 18446744073709551617 65 0 0 0 0 1\n"};
    static const char *const forms[] = {"S2 1 0\nC 2 1 65 0 0 0 0 1\nC 2 1 65 0 0 0 0 1\n",
        "S2 1 0\nC 2 1 65 0 3 1 0 1\n", "S2 1 0\nC 2 1 65 0 3 1 0 1\nC 3 1 65 0 0 0 0 1\n",
        "S2 1 0\nI 2 1 65 0 0 0 1\n", "S2 1 0\nE 1 1 1 1\nE 1 1 1 1\n", "S2 1 0\nC 2 1 65 1 0 0 0 1\nE 3 2 1 2\n",
        "S2 1 0\nC 2 1 65 0 0 0 0 1\nI 2 1 65 3 1 0 1\n"};
    for (size_t k = 0; k < sizeof layouts / sizeof *layouts; k++) {
        load(layouts[k]);
        CHECK(refused(archive(), WIMTAZE_REFUSAL_LAYOUT));
    }
    for (size_t k = 0; k < sizeof numbers / sizeof *numbers; k++) {
        load(numbers[k]);
        CHECK(refused(archive(), WIMTAZE_REFUSAL_RANGE));
    }
    for (size_t k = 0; k < sizeof forms / sizeof *forms; k++) {
        load(forms[k]);
        CHECK(refused(archive(), WIMTAZE_REFUSAL_FORM));
    }
    load_rows(1025);
    CHECK(refused(archive(), WIMTAZE_REFUSAL_FORM));
}

/* Refusals 1 and 2 of an archive. */
static void not_read_as_archive(void)
{
    static const char *const layouts[] = {"", "\n", "S 1 0\n", "S2 1 0", "S2 1\n", "S2 1 0 0\n", "S2 1 0\n\n",
        "P 1 2 1 65 0 0 0 0 1\n", "S2 1 0\nC 2 1 65 0 0 0 0 1\n", "S2 1 0\nC 1 2 1 65 0 0 0 0 1\n",
        "S2 1 0\nP 2 1 65 0 0 0 0 1\n", "S2 1 0\nP 1 2 1 65 0 0 0 0 1 1\n", "S2 1 0\np 1 2 1 65 0 0 0 0 1\n",
        "S2 1 0\nP 01 2 1 65 0 0 0 0 1\n", "S2 1 0\nP +1 2 1 65 0 0 0 0 1\n", "S2 1 0\nP -1 2 1 65 0 0 0 0 1\n",
        "S2 1 0\nP  2 1 65 0 0 0 0 1\n", "S2 1 0\nP 1 2 1 65 00 0 0 0 1\n", "S2 1 0\nP 1 2 1 65 0 0 0 0 1 \n",
        "S2 1 0\nP 1 2 1 65 0 0 0 0 1\r\n", "S2 1 0\nP 1 2 1 65 0 0 0 0 1", "S2 1 0\nP 1 2 1 65 0 0 0 0 1\n\n",
        "S2 1 0\nP 1 2 1 65 0 0 0 0 1\nC 3 1 65 0 0 0 0 1\n", "S2 1 0\nP 1 2 1 65 0 0 0 0 1\nS2 1 0\n",
        "S2 1 0\nE 1 1 1 1\nP 1 2 1 65 0 0 0 0 1\n", "S2 1 0\nD 1 1 1\n", "S2 1 0\nH 1 0\n",
        "S2 1 0\nP 1 2 1 65 0 0 0 0 1\nD 1 1 1\n", "S 1 0\nP 1 2 1 65 0 0 0 0 1\n"};
    static const char *const numbers[] = {"S2 0 0\n", "S2 17 0\n", "S2 1 65536\n", "S2 1 0\nP 0 2 1 65 0 0 0 0 1\n",
        "S2 1 0\nP 1025 2 1 65 0 0 0 0 1\n", "S2 1 0\nP 65537 2 1 65 0 0 0 0 1\n",
        "S2 1 0\nP 4294967297 2 1 65 0 0 0 0 1\n", "S2 1 0\nP 18446744073709551617 2 1 65 0 0 0 0 1\n",
        "S2 1 0\nP 9999999999999999999999999999999999999999 2 1 65 0 0 0 0 1\n",
        "S2 1 0\nP 1 17 1 65 0 0 0 0 1\n", "S2 1 0\nP 1 0 1 65 0 0 0 0 1\n", "S2 1 0\nP 1 2 0 65 0 0 0 0 1\n",
        "S2 1 0\nP 1 2 65536 65 0 0 0 0 1\n", "S2 1 0\nP 1 2 1 55296 0 0 0 0 1\n",
        "S2 1 0\nP 1 2 1 1114112 0 0 0 0 1\n", "S2 1 0\nP 1 2 1 65 256 0 0 0 1\n",
        "S2 1 0\nP 1 2 1 65 0 2 1 0 1\n", "S2 1 0\nP 1 2 1 65 0 0 1 0 1\n", "S2 1 0\nP 1 2 1 65 0 0 0 0 0\n",
        "S2 1 0\nP 1 2 1 65 0 0 0 2 1\n", "S2 1 0\nP 1 2 1 65 0 0 0 0 1\nP 0 3 1 65 0 0 0 0 1\n",
        "S2 1 0\nP 1 2 1 65 0 0 0 0 1\nE 1 1 1 0\n", "S2 1 0\nI 1 1 65 1 1 0 1\n"};
    for (size_t k = 0; k < sizeof layouts / sizeof *layouts; k++) {
        load(layouts[k]);
        CHECK(refused(unarchive(), WIMTAZE_REFUSAL_LAYOUT));
    }
    for (size_t k = 0; k < sizeof numbers / sizeof *numbers; k++) {
        load(numbers[k]);
        CHECK(refused(unarchive(), WIMTAZE_REFUSAL_RANGE));
    }
}

/* Places that are not 1 to the number of rows, each once; identifiers that do not rise, by laptop or by clock. */
static void misarranged(void)
{
    static const char *const places[] = {"S2 1 0\nP 2 2 1 65 0 0 0 0 1\n", "S2 1 0\nP 1024 2 1 65 0 0 0 0 1\n",
        "S2 1 0\nP 1 2 1 65 0 0 0 0 1\nP 1 3 1 65 0 0 0 0 1\n",
        "S2 1 0\nP 2 2 1 65 0 0 0 0 1\nP 2 3 1 65 0 0 0 0 1\n",
        "S2 1 0\nP 1 2 1 65 0 0 0 0 1\nP 3 3 1 65 0 0 0 0 1\n",
        "S2 1 0\nP 2 2 1 65 0 0 0 0 1\nP 3 3 1 65 0 0 0 0 1\n",
        "S2 1 0\nP 3 2 1 65 0 0 0 0 1\nP 1 3 1 65 0 0 0 0 1\nP 3 4 1 65 0 0 0 0 1\n",
        "S2 1 0\nP 1 2 1 65 0 0 0 0 1\nP 1024 3 1 65 0 0 0 0 1\nP 2 4 1 65 0 0 0 0 1\n"};
    static const char *const identifiers[] = {
        "S2 1 0\nP 1 3 1 65 0 0 0 0 1\nP 2 2 1 65 0 0 0 0 1\n", "S2 1 0\nP 2 3 1 65 0 0 0 0 1\nP 1 2 1 65 0 0 0 0 1\n",
        "S2 1 0\nP 1 2 2 65 0 0 0 0 1\nP 2 2 1 65 0 0 0 0 1\n", "S2 1 0\nP 1 3 1 65 0 0 0 0 1\nP 2 2 9 65 0 0 0 0 1\n",
        "S2 1 0\nP 1 10 1 65 0 0 0 0 1\nP 2 9 1 65 0 0 0 0 1\n",
        "S2 1 0\nP 1 2 10 65 0 0 0 0 1\nP 2 2 9 65 0 0 0 0 1\n",
        /* a repeated one, with the same fields and with others */
        "S2 1 0\nP 1 2 1 65 0 0 0 0 1\nP 2 2 1 65 0 0 0 0 1\n", "S2 1 0\nP 1 2 1 65 0 0 0 0 1\nP 2 2 1 66 1 3 1 0 1\n",
        "S2 1 0\nP 1 2 1 65 0 0 0 0 1\nP 3 4 1 65 0 0 0 0 1\nP 2 3 1 65 0 0 0 0 1\n",
        "S2 1 0\nP 1 2 1 65 0 0 0 0 1\nP 3 4 1 65 0 0 0 0 1\nP 2 4 1 65 0 0 0 0 1\nP 4 5 1 65 0 0 0 0 1\n"};
    for (size_t k = 0; k < sizeof places / sizeof *places; k++) {
        load(places[k]);
        CHECK(refused(unarchive(), WIMTAZE_REFUSAL_MISARRANGED));
    }
    for (size_t k = 0; k < sizeof identifiers / sizeof *identifiers; k++) {
        load(identifiers[k]);
        CHECK(refused(unarchive(), WIMTAZE_REFUSAL_MISARRANGED));
    }
}

/* Where a line is lost a place is missing, unless it was the last: then the archive is that of another sheet. */
static void line_lost(void)
{
    static const char *const lines[] = {"P 3 1 1 65 0 0 0 0 1\n", "P 1 1 2 66 0 0 0 0 1\n", "P 4 2 1 67 0 0 0 0 1\n",
        "P 2 3 1 68 0 0 0 0 1\n"};
    for (size_t lost = 0; lost <= 4; lost++) {
        load("S2 9 0\n");
        for (size_t k = 0; k < 4; k++)
            if (k != lost)
                append(lines[k]);
        if (lost == 2)
            CHECK(changed(unarchive(), "S2 9 0\nC 1 2 66 0 0 0 0 1\nC 3 1 68 0 0 0 0 1\nC 1 1 65 0 0 0 0 1\n"));
        else
            CHECK(lost == 4 ? done(unarchive(), 0, 0) : refused(unarchive(), WIMTAZE_REFUSAL_MISARRANGED));
    }
}

/* The rows go to their places first, and then the form is looked at: the sheet of an archive may be out of it. */
static void archive_form(void)
{
    static const char *const forms[] = {
        /* 2/1 needs 3/1 above it */
        "S2 1 0\nP 1 2 1 65 0 3 1 0 1\nP 2 3 1 65 0 0 0 0 1\n", "S2 1 0\nP 1 2 1 65 0 3 1 0 1\n",
        "S2 1 0\nP 2 2 1 65 0 0 0 3 1\nP 1 3 1 65 0 0 0 0 1\n",
        "S2 1 0\nP 1 2 1 65 0 0 0 0 1\nI 2 1 65 3 1 0 1\n", "S2 1 0\nP 1 2 1 65 0 0 0 0 1\nE 3 2 1 1\n",
        "S2 1 0\nP 1 2 1 65 0 0 0 0 1\nI 3 1 65 2 1 0 1\n", "S2 1 0\nE 1 1 1 1\nE 1 1 1 1\n"};
    for (size_t k = 0; k < sizeof forms / sizeof *forms; k++) {
        load(forms[k]);
        CHECK(refused(unarchive(), WIMTAZE_REFUSAL_FORM));
    }
    CHECK(rearranged("S2 1 0\nC 3 1 65 0 0 0 0 1\nC 2 1 65 0 3 1 0 1\n",
                     "S2 1 0\nP 2 2 1 65 0 3 1 0 1\nP 1 3 1 65 0 0 0 0 1\n"));
    load("S2 1 0\n");
    for (int k = 0; k < 33; k++) {
        char line[64];
        sprintf(line, "E 2 9 %d 1\n", 1 + k);
        append(line);
    }
    CHECK(refused(unarchive(), WIMTAZE_REFUSAL_FORM) && refused(archive(), WIMTAZE_REFUSAL_FORM));
}

/* Two grounds that hold at once, every such pair: the first in the order 1 2 19 3 12 is told, and 1 2 3 12 forward. */
static void first_of_two_archiving(void)
{
    static const struct {
        const char *file;
        int told, other;
    } forth[] = {{"S2 1 0\nC 2 1 65 256 0 0 0 1\nP 1 3 1 65 0 0 0 0 1\n", 1, 2},
        {"S2 2 0\nC 2 1 65 0 0 0 0 1\nD 1 1 1\n", 1, 3}, {"S2 1 0\nD 1 1 1\n", 1, 12},
        {"S2 2 0\nC 2 1 65 0 0 0 0 1\nE 1 1 1 0\n", 2, 3}, {"S2 17 0\n", 2, 12},
        {"S2 2 0\nC 2 1 65 0 0 0 0 1\n", 3, 12}},
      back[] = {{"S2 1 0\nP 0 2 1 65 0 0 0 0 1\nC 3 1 65 0 0 0 0 1\n", 1, 2},
        {"S2 1 0\nP 2 2 1 65 0 0 0 0 1\nD 1 1 1\n", 1, 19},
        {"S2 1 0\nP 1 3 1 65 0 0 0 0 1\nP 2 2 1 65 0 0 0 0 1\nD 1 1 1\n", 1, 19},
        {"S2 2 0\nP 1 2 1 65 0 0 0 0 1\nD 1 1 1\n", 1, 3}, {"S2 1 0\nD 1 1 1\n", 1, 12},
        {"S2 1 0\nP 2 2 1 65 0 0 0 0 1\nE 1 1 1 0\n", 2, 19},
        {"S2 17 0\nP 1 3 1 65 0 0 0 0 1\nP 2 2 1 65 0 0 0 0 1\n", 2, 19},
        {"S2 1 0\nP 1025 2 1 65 0 0 0 0 1\n", 2, 19}, {"S2 1 0\nP 0 2 1 65 0 0 0 0 1\n", 2, 19},
        {"S2 2 0\nP 1 2 1 65 0 0 0 0 1\nE 1 1 1 256\n", 2, 3}, {"S2 1 0\nP 0 2 1 65 0 0 0 0 1\n", 2, 12},
        {"S2 2 0\nP 2 2 1 65 0 0 0 0 1\n", 19, 3}, {"S2 1 0\nP 1 2 1 65 0 0 0 0 1\nP 2 2 1 65 0 0 0 0 1\n", 19, 3},
        {"S2 1 0\nP 2 2 1 65 0 0 0 0 1\nE 1 1 1 1\nE 1 1 1 1\n", 19, 3},
        {"S2 1 0\nP 1 3 1 65 0 0 0 0 1\nP 2 2 1 65 0 9 9 0 1\n", 19, 3}, {"S2 1 0\nP 2 2 1 65 0 0 0 0 1\n", 19, 12},
        {"S2 2 0\nP 1 2 1 65 0 0 0 0 1\n", 3, 12}};
    for (size_t k = 0; k < sizeof forth / sizeof *forth; k++) {
        load(forth[k].file);
        CHECK(refused(archive_in(forth[k].other == 12 ? 0 : ROOM), forth[k].told));
    }
    for (size_t k = 0; k < sizeof back / sizeof *back; k++) {
        load(back[k].file);
        CHECK(refused(unarchive_in(back[k].other == 12 ? 0 : ROOM), back[k].told));
    }
}

/* An archive of so many rows between the marks, which stand there the other way round; the highest places are 1,024. */
static void load_archive(int count)
{
    char line[64];
    load("S2 1 0\n");
    for (int k = 1; k <= count; k++) {
        int place = count + 1 - k;
        sprintf(line, "P %d 2 %d 97 0 0 0 0 1\n", place < 1024 ? place : 1024, k);
        append(line);
    }
}

/* 1,024 rows are brought back. One more is 19, and never 3; what is wrong with its last line is still told. */
static void archive_limits(void)
{
    static const struct {
        const char *line;
        int told;
    } more[] = {{"P 1 3 1 97 0 0 0 0 1\n", 19}, {"P 1024 3 1 97 0 0 0 0 1\n", 19}, {"P 1025 3 1 97 0 0 0 0 1\n", 2},
        {"P 1 3 1 97 0 0 0 0\n", 1}, {"C 3 1 97 0 0 0 0 1\n", 1}, {"E 1 9 9 0\n", 2}, {"I 3 1 97 9 9 0 1\n", 3},
        {"E 1 9 9 1\n", 0}};
    load_archive(1024);
    CHECK(done(unarchive(), 0, 0) && counted(1024, 0, 1024, 0));
    CHECK(done(archive(), 0, 0) && done(unarchive(), 0, 0) && counted(1024, 0, 1024, 0));
    load_archive(1025);
    CHECK(refused(unarchive(), WIMTAZE_REFUSAL_MISARRANGED));
    for (size_t k = 0; k < sizeof more / sizeof *more; k++) {
        load_archive(1024);
        append(more[k].line);
        CHECK(more[k].told == 0 ? done(unarchive(), 0, 0) : refused(unarchive(), more[k].told));
    }
    /* Far too many, and what comes after them. */
    load_archive(1600);
    CHECK(refused(unarchive(), WIMTAZE_REFUSAL_MISARRANGED));
    append("P 0 3 1 97 0 0 0 0 1\n");
    CHECK(refused(unarchive(), WIMTAZE_REFUSAL_RANGE));
    append("P 1 3 1 97 0 0 0 0 1 1\n");
    CHECK(refused(unarchive(), WIMTAZE_REFUSAL_LAYOUT));
}

/* The longest archive: the places, the marks and senders of one digit keep it below what the header names. */
static void longest_archive(void)
{
    static uint8_t saved[ROOM];
    char line[64];
    load("S2 16 65535\n");
    for (int k = 0; k < 1024; k++) {
        int n = sprintf(line, "C 16 %d 1114111 255 ", 65023 - k);
        n += sprintf(line + n, k == 0 ? "0 0 " : "16 %d ", 65023 - k + 1);
        sprintf(line + n, k == 1023 ? "0 1\n" : "16 %d\n", 65023 - k - 1);
        append(line);
    }
    for (int k = 0; k < 512; k++) {
        sprintf(line, "E %d 15 %d 255\n", 1 + k / 32, 10000 + k % 32);
        append(line);
    }
    size_t length = sheet_length, places = 2 * 9 + 3 * 90 + 4 * 900 + 5 * 25;
    memcpy(saved, sheet, length);
    CHECK(length == WIMTAZE_SHEET_MAX - 10 - 9 * 32);
    CHECK(refused(archive_in(length + places - 1), WIMTAZE_REFUSAL_OUTPUT));
    CHECK(done(archive_in(WIMTAZE_ARCHIVE_MAX), 0, 0) && sheet_length == length + places);
    CHECK(sheet_length == WIMTAZE_ARCHIVE_MAX - 10 - 9 * 32 - 3 * 9 - 2 * 90 - 900);
    CHECK(refused(unarchive_in(length - 1), WIMTAZE_REFUSAL_OUTPUT));
    CHECK(done(unarchive_in(length), 0, 0) && sheet_length == length && memcmp(sheet, saved, length) == 0);
    CHECK(done(archive_in(length + places), 0, 0) && done(unarchive_in(WIMTAZE_SHEET_MAX), 0, 0));
    CHECK(sheet_length == length && memcmp(sheet, saved, length) == 0);
}

/* ---- waiting, throwing out, and what releases it */

static void released(void)
{
    empty(9, ROOM);
    CHECK(waits(receive("I 2 1 66 1 1 1 1\n")));
    CHECK(done(receive("I 1 1 65 0 0 0 1\n"), 1, 1));
    CHECK(refused(receive("I 2 1 66 1 1 1 1\n"), WIMTAZE_REFUSAL_CROSSED));
    CHECK(done(receive("I 2 1 66 1 1 0 1\n"), 1, 0));
    empty(9, ROOM);
    CHECK(waits(receive("D 3 1 1\n")));
    CHECK(waits(receive("D 5 1 1\n")));
    CHECK(done(receive("I 1 1 65 0 0 0 1\n"), 3, 0));
    CHECK(sheet_is("S2 9 0\nC 1 1 65 1 0 0 0 1\n"));
    /* The later in the list is ready first, and releases the earlier. */
    empty(9, ROOM);
    CHECK(waits(receive("D 1 3 1\n")));
    CHECK(waits(receive("I 3 1 67 2 1 0 1\n")));
    CHECK(waits(receive("I 2 1 66 1 1 0 1\n")));
    CHECK(done(receive("I 1 1 65 0 0 0 1\n"), 4, 0));
    CHECK(sheet_is("S2 9 0\nC 1 1 65 0 0 0 0 1\nC 2 1 66 0 1 1 0 1\nC 3 1 67 1 2 1 0 1\n"));
    /* Typing releases what waited for the new identifier. */
    load("S2 9 4\nE 1 9 5 1\nI 2 1 66 9 5 0 1\n");
    uint64_t reply = type(0, 'x');
    CHECK(done(reply, 3, 0));
    CHECK(line_is(reply, "I 9 5 120 0 0 0 1\n"));
    CHECK(sheet_is("S2 9 5\nC 9 5 120 1 0 0 0 1\nC 2 1 66 0 9 5 0 1\n"));
    /* Thrown out by condition 9. */
    load("S2 9 0\nC 1 1 65 0 0 0 2 1\nC 2 1 66 0 1 1 0 1\nI 3 1 67 0 0 4 1\n");
    CHECK(done(receive("I 4 1 68 2 1 0 1\n"), 1, 1));
}

/* Passing stops at the first not below, candidates are taken afresh, the clock counts, hidden rows stand between. */
static void placing(void)
{
    load("S2 9 0\nC 1 1 65 0 0 0 0 1\nC 5 1 66 0 0 0 0 1\nC 2 1 67 0 0 0 0 1\n");
    CHECK(done(receive("I 3 1 68 0 0 0 1\n"), 1, 0));
    CHECK(sheet_is("S2 9 0\nC 1 1 65 0 0 0 0 1\nC 3 1 68 0 0 0 0 1\nC 5 1 66 0 0 0 0 1\nC 2 1 67 0 0 0 0 1\n"));
    load("S2 9 0\nC 1 1 65 0 0 0 0 1\nC 2 5 66 0 1 1 0 1\nC 4 1 67 0 2 5 0 1\n");
    CHECK(done(receive("I 3 1 68 0 0 0 1\n"), 1, 0));
    CHECK(sheet_is("S2 9 0\nC 1 1 65 0 0 0 0 1\nC 2 5 66 0 1 1 0 1\nC 3 1 68 0 0 0 0 1\nC 4 1 67 0 2 5 0 1\n"));
    load("S2 9 0\nC 3 2 65 0 0 0 0 1\nC 3 12 66 0 0 0 0 1\n");
    CHECK(done(receive("I 3 9 67 0 0 0 1\n"), 1, 0));
    CHECK(done(receive("I 2 13 68 0 0 0 1\n"), 1, 0));
    CHECK(sheet_is("S2 9 0\nC 2 13 68 0 0 0 0 1\nC 3 2 65 0 0 0 0 1\nC 3 9 67 0 0 0 0 1\nC 3 12 66 0 0 0 0 1\n"));
    load("S2 9 0\nC 1 1 65 1 0 0 0 1\nC 2 1 66 1 0 0 0 1\n");
    uint64_t reply = type(0, 'x');
    CHECK(done(reply, 1, 0));
    CHECK(line_is(reply, "I 9 1 120 0 0 0 1\n"));
    CHECK(sheet_is("S2 9 1\nC 1 1 65 1 0 0 0 1\nC 2 1 66 1 0 0 0 1\nC 9 1 120 0 0 0 0 1\n"));
}

/* ---- refusals */

static void layout(void)
{
    static const char *const lines[] = {"", "\n", "I 1 1 65 0 0 0 1", "I 1 1 65 0 0 0 1\n\n", "I 1 1 65 0 0 0 1\nx",
        "D 1 1 1\nD 1 1 1\n", "D 1 1\n", "D 1 1 1 1\n", "D 1 1 01\n", "D 1  1\n", "D 1 1 1 \n", "D 1 1 1\r\n",
        "D 1 1 -1\n", "d 1 1 1\n", "S2 1 0\n", "C 1 1 65 0 0 0 0 1\n", " D 1 1 1\n", "D 1 1 +1\n", "DD 1 1 1\n",
        "E 1 1 1\n", "E 1 1 1 1 1\n", "E 1 1 1 01\n", "E 1 1 1 \n", "E 1 1 1 -1\n", "e 1 1 1 1\n", "E 1 1 1 1",
        "E 1 1 1 1\n\n", "E1 1 1 1\n", "S 1 0\n"};
    static const char *const sheets[] = {"", "\n", "S2 1 0", "S2 1\n", "S2 01 0\n", "S2 1 0\n\n", "S2 1 0\nS2 1 0\n",
        "S2 1 0\nC 1 1 65 01 0 0 0 1\n", "S2 1 0\nE 1 1 1 1\nC 1 1 65 0 0 0 0 1\n", "C 1 1 65 0 0 0 0 1\n",
        "S2 1 0\nC 1 1 65 1 0 0 1\n", "S2 1 0\r\n", "S2 1 0 \n", "S 1 0\n", "S 1 0\nC 2 1 65 1 0 0 0 1\n",
        "S 1 0\nD 1 1 1\n", "S2 1 0\nD 1 1 1\n", "S2 1 0\nE 1 1 1\n", "S2 1 0\nE 1 2 1 1\nD 1 1 1\n",
        "S2 1 0\nC 1 1 65 0 0 0 0 1\nD 1 2 1\n", "S1 1 0\n", "S3 1 0\n", "S 2 1 0\n", "s2 1 0\n", "S2 2 1 0\n",
        "S02 1 0\n", "S21 0\n", "S2 1 0\nC 1 1 65 0 0 0 0 0 1\n"};
    for (size_t k = 0; k < sizeof lines / sizeof *lines; k++) {
        load("S2 1 0\n");
        CHECK(refused(receive(lines[k]), WIMTAZE_REFUSAL_LAYOUT));
    }
    for (size_t k = 0; k < sizeof sheets / sizeof *sheets; k++) {
        load(sheets[k]);
        CHECK(refused(receive("D 1 1 1\n"), WIMTAZE_REFUSAL_LAYOUT));
        CHECK(refused(type(0, 'x'), WIMTAZE_REFUSAL_LAYOUT));
        CHECK(refused(erase(1), WIMTAZE_REFUSAL_LAYOUT));
        CHECK(refused(restore(1, 1), WIMTAZE_REFUSAL_LAYOUT));
        CHECK(refused(paste(0, "x"), WIMTAZE_REFUSAL_LAYOUT));
        CHECK(refused(write_list(), WIMTAZE_REFUSAL_LAYOUT));
        CHECK(refused(answer("H 1 0\n"), WIMTAZE_REFUSAL_LAYOUT));
        CHECK(refused(text(), WIMTAZE_REFUSAL_LAYOUT));
        CHECK(refused(counts(), WIMTAZE_REFUSAL_LAYOUT));
    }
    /* A line that ends where the given length does, although a line feed stands in memory behind it. */
    load("S2 1 0\n");
    CHECK(refused(receive_bytes((const uint8_t *)"D\t1\t1\t1\n", 7, ROOM), WIMTAZE_REFUSAL_LAYOUT));
}

static void ranges(void)
{
    static const char *const lines[] = {"I 0 1 65 0 0 0 1\n", "I 17 1 65 0 0 0 1\n", "I 1 0 65 0 0 0 1\n",
        "I 1 65536 65 0 0 0 1\n", "I 1 1 55296 0 0 0 1\n", "I 1 1 57343 0 0 0 1\n", "I 1 1 1114112 0 0 0 1\n",
        "I 1 1 65 0 1 0 1\n", "I 1 1 65 0 5 0 1\n", "I 1 1 65 3 0 0 1\n", "I 1 1 65 0 0 0 0\n", "I 1 1 65 1 1 0 1\n",
        "I 1 1 65 0 0 1 1\n", "D 0 1 1\n", "D 17 1 1\n", "D 1 0 1\n", "D 1 0 0\n", "D 1 1 0\n", "D 257 1 1\n",
        "D 1 1 65537\n", "D 4294967297 1 1\n", "D 18446744073709551617 1 1\n",
        "D 1 1 9999999999999999999999999999999999999999\n", "E 1 1 1 0\n", "E 1 1 1 256\n", "E 1 1 1 257\n",
        "E 1 1 1 65537\n", "E 1 1 1 4294967297\n", "E 1 1 1 18446744073709551617\n", "E 0 1 1 1\n", "E 17 1 1 1\n",
        "E 1 0 0 1\n", "E 1 0 1 1\n", "E 1 17 1 1\n", "E 1 1 0 1\n", "E 1 1 65536 1\n"};
    static const char *const sheets[] = {"S2 0 0\n", "S2 17 0\n", "S2 1 65536\n", "S2 1 0\nC 1 1 65 256 0 0 0 1\n",
        "S2 1 0\nC 1 1 65 0 1 1 0 1\n", "S2 1 0\nC 1 1 65 0 0 1 0 1\n", "S2 1 0\nC 1 0 65 0 0 0 0 1\n",
        "S2 1 0\nE 1 0 1 1\n", "S2 257 0\n", "S2 1 18446744073709551616\n", "S2 1 0\nC 1 1 65 257 0 0 0 1\n",
        "S2 1 0\nC 1 1 65 18446744073709551617 0 0 0 1\n", "S2 1 0\nE 1 1 1 0\n", "S2 1 0\nE 1 1 1 256\n"};
    static const uint32_t code_points[] = {55296, 57343, 1114112, 4294967295u};
    static const uint64_t numbers[] = {0, 17, 257, 4294967297u, UINT64_MAX};
    for (size_t k = 0; k < sizeof lines / sizeof *lines; k++) {
        load("S2 1 0\n");
        CHECK(refused(receive(lines[k]), WIMTAZE_REFUSAL_RANGE));
    }
    for (size_t k = 0; k < sizeof sheets / sizeof *sheets; k++) {
        load(sheets[k]);
        CHECK(refused(receive("D 1 1 1\n"), WIMTAZE_REFUSAL_RANGE));
        CHECK(refused(type(0, 'x'), WIMTAZE_REFUSAL_RANGE));
        CHECK(refused(erase(1), WIMTAZE_REFUSAL_RANGE));
        CHECK(refused(restore(1, 1), WIMTAZE_REFUSAL_RANGE));
        CHECK(refused(paste(0, "x"), WIMTAZE_REFUSAL_RANGE));
        CHECK(refused(write_list(), WIMTAZE_REFUSAL_RANGE));
        CHECK(refused(answer("H 1 0\n"), WIMTAZE_REFUSAL_RANGE));
        CHECK(refused(text(), WIMTAZE_REFUSAL_RANGE));
        CHECK(refused(counts(), WIMTAZE_REFUSAL_RANGE));
    }
    for (size_t k = 0; k < sizeof code_points / sizeof *code_points; k++) {
        load("S2 1 0\n");
        CHECK(refused(type(0, code_points[k]), WIMTAZE_REFUSAL_RANGE));
    }
    for (size_t k = 0; k < sizeof numbers / sizeof *numbers; k++)
        CHECK(refused(empty(numbers[k], ROOM), WIMTAZE_REFUSAL_RANGE));
}

static void form(void)
{
    static const char *const sheets[] = {"S2 1 0\nI 1 1 65 0 0 0 1\n", "S2 1 0\nC 1 1 65 0 0 0 0 1\nE 2 1 1 1\n",
        "S2 1 0\nC 1 1 65 0 0 0 0 1\nC 1 1 65 0 0 0 0 1\n", "S2 1 0\nC 1 1 65 0 0 0 0 1\nI 1 1 65 2 1 0 1\n",
        "S2 1 0\nI 1 1 65 2 1 0 1\nI 1 1 66 2 1 0 1\n", "S2 1 0\nE 1 1 1 1\nE 1 1 1 1\n",
        "S2 1 0\nC 1 1 65 0 2 1 0 1\n", "S2 1 0\nC 1 1 65 0 2 1 0 1\nC 2 1 66 0 0 0 0 1\n",
        "S2 1 0\nC 1 1 65 0 0 0 0 1\nC 2 1 66 0 0 0 1 1\n", "S2 1 0\nC 1 1 65 3 0 0 0 1\nE 2 1 1 2\n",
        "S2 1 0\nE 1 1 1 7\nE 1 1 1 1\nE 1 1 1 7\n"};
    for (size_t k = 0; k < sizeof sheets / sizeof *sheets; k++) {
        load(sheets[k]);
        CHECK(refused(receive("D 1 9 9\n"), WIMTAZE_REFUSAL_FORM));
        CHECK(refused(type(0, 'x'), WIMTAZE_REFUSAL_FORM));
        CHECK(refused(erase(1), WIMTAZE_REFUSAL_FORM));
        CHECK(refused(restore(1, 1), WIMTAZE_REFUSAL_FORM));
        CHECK(refused(paste(0, "x"), WIMTAZE_REFUSAL_FORM));
        CHECK(refused(write_list(), WIMTAZE_REFUSAL_FORM));
        CHECK(refused(answer("H 1 0\n"), WIMTAZE_REFUSAL_FORM));
        CHECK(refused(text(), WIMTAZE_REFUSAL_FORM));
        CHECK(refused(counts(), WIMTAZE_REFUSAL_FORM));
    }
    load("S2 1 0\nE 1 2 1 1\nE 3 2 1 1\nE 1 2 1 2\nE 1 2 2 1\n");
    CHECK(done(text(), 0, 0));
}

/* Positions, and an identifier that is taken. */
static void positions(void)
{
    load("S2 1 0\nC 2 1 65 0 0 0 0 1\nC 2 2 66 1 2 1 0 1\n");
    CHECK(refused(type(2, 'x'), WIMTAZE_REFUSAL_POSITION));
    CHECK(refused(type(UINT64_MAX, 'x'), WIMTAZE_REFUSAL_POSITION));
    CHECK(refused(paste(2, "x"), WIMTAZE_REFUSAL_POSITION));
    CHECK(refused(paste(4294967296u, "x"), WIMTAZE_REFUSAL_POSITION));
    CHECK(refused(paste(UINT64_MAX, "x"), WIMTAZE_REFUSAL_POSITION));
    CHECK(refused(erase(0), WIMTAZE_REFUSAL_POSITION));
    CHECK(refused(erase(2), WIMTAZE_REFUSAL_POSITION));
    CHECK(refused(erase(UINT64_MAX), WIMTAZE_REFUSAL_POSITION));
    uint64_t reply = erase(1);
    CHECK(done(reply, 1, 0));
    CHECK(line_is(reply, "E 1 2 1 1\n"));
    CHECK(sheet_is("S2 1 0\nC 2 1 65 1 0 0 0 1\nC 2 2 66 1 2 1 0 1\n"));
    load("S2 2 0\nI 2 1 65 3 1 0 1\n");
    CHECK(refused(receive("I 2 1 66 3 1 0 1\n"), WIMTAZE_REFUSAL_CONFLICT));
    load("S2 9 0\nC 1 1 65 1 0 0 2 1\nC 2 1 66 1 1 1 0 1\n");
    CHECK(refused(type(0, 'x'), WIMTAZE_REFUSAL_UNPLACEABLE));
}

/* Where several grounds hold, the first in checking order is told. */
static void order(void)
{
    load("S2 1 0\nI 1 1 65 0 0 0 1\n");
    CHECK(refused(receive("D 1 1\n"), WIMTAZE_REFUSAL_LAYOUT));
    CHECK(refused(receive("D 1 1 0\n"), WIMTAZE_REFUSAL_RANGE));
    CHECK(refused(receive("D 1 1 1\n"), WIMTAZE_REFUSAL_FORM));
    CHECK(refused(type(9, 55296), WIMTAZE_REFUSAL_RANGE));
    CHECK(refused(type_in(9, 'x', 0, 0), WIMTAZE_REFUSAL_FORM));
    CHECK(refused(counts(), WIMTAZE_REFUSAL_FORM));
    append("E 1 0 1 1\n");
    CHECK(refused(receive("D 1 1\n"), WIMTAZE_REFUSAL_LAYOUT));
    CHECK(refused(text_in(0), WIMTAZE_REFUSAL_RANGE));
    CHECK(refused(counts(), WIMTAZE_REFUSAL_RANGE));
    append("C 1 1 65 0 0 0 0 1\n");
    CHECK(refused(receive("D 1 1 0\n"), WIMTAZE_REFUSAL_LAYOUT));
    CHECK(refused(counts(), WIMTAZE_REFUSAL_LAYOUT));
    CHECK(refused(type(9, 55296), WIMTAZE_REFUSAL_LAYOUT));
    load("S2 1 65535\n");
    CHECK(refused(type_in(0, 'x', 0, 0), WIMTAZE_REFUSAL_CLOCK));
    CHECK(refused(empty(0, 0), WIMTAZE_REFUSAL_RANGE));
}

/* ---- counts */

/* The room is what typing finds: 11 exactly where it is 0. */
static void rooms(void)
{
    char line[64];
    load_rows(1023);
    CHECK(counted(1023, 0, 1023, 1));
    CHECK(done(type(1023, 'x'), 1, 0));
    CHECK(counted(1024, 0, 1024, 0));
    CHECK(refused(type(1024, 'y'), WIMTAZE_REFUSAL_DOCUMENT_FULL));
    CHECK(done(erase(5), 1, 0));
    CHECK(counted(1023, 0, 1024, 0));
    load_rows(1025);
    CHECK(refused(counts(), WIMTAZE_REFUSAL_FORM));
    load_rows(992);
    for (int k = 1; k <= 32; k++) {
        CHECK(counted(992, (unsigned)k - 1, 992, 33 - (unsigned)k));
        sprintf(line, "I 2 %d 98 3 1 0 1\n", k);
        append(line);
    }
    CHECK(counted(992, 32, 992, 0));
    append("I 3 2 98 3 1 0 1\n");
    CHECK(refused(counts(), WIMTAZE_REFUSAL_FORM));
}

/* What waits is counted whoever sent it; only inserts take room. */
static void waiting(void)
{
    char line[64];
    load("S2 4 0\n");
    CHECK(counts() == (uint64_t)1024 << 48);
    for (int sender = 1; sender <= 16; sender++)
        for (int k = 1; k <= 32; k++) {
            sprintf(line, k % 2 ? "E %d 9 %d 1\n" : "I %d %d 98 9 9 0 1\n", sender, 100 + k);
            append(line);
        }
    CHECK(counted(0, 512, 0, 768));
    append("E 4 9 9 1\n");
    CHECK(refused(counts(), WIMTAZE_REFUSAL_FORM));
}

static void counting(void)
{
    empty(16, ROOM);
    CHECK(counted(0, 0, 0, 1024));
    CHECK(done(type(0, 'a'), 1, 0));
    CHECK(done(type(1, 'b'), 1, 0));
    CHECK(counted(2, 0, 2, 1022));
    CHECK(done(erase(1), 1, 0));
    CHECK(counted(1, 0, 2, 1022));
    CHECK(waits(receive("I 2 1 99 3 1 0 1\n")));
    CHECK(counted(1, 1, 2, 1021));
    CHECK(waits(receive("D 2 3 1\n")));
    CHECK(counted(1, 2, 2, 1021));
    CHECK(known(receive("D 2 3 1\n")));
    CHECK(refused(receive("D 2 3 0\n"), WIMTAZE_REFUSAL_RANGE));
    CHECK(counted(1, 2, 2, 1021));
    CHECK(done(receive("I 3 1 99 0 0 0 1\n"), 3, 0));
    CHECK(counted(2, 0, 4, 1020));
    CHECK(waits(receive("I 5 1 99 6 1 6 1\n")));
    CHECK(counted(2, 1, 4, 1019));
    CHECK(done(receive("I 6 1 99 0 0 0 1\n"), 1, 1));
    CHECK(counted(3, 0, 5, 1019));
}

/* ---- outputs */

static void known_needs_no_output(void)
{
    load("S2 1 0\nC 1 1 65 0 0 0 0 1\nC 2 1 66 1 0 0 0 1\nI 3 1 67 4 1 0 1\nE 5 4 1 1\n");
    CHECK(known(receive_in("I 1 1 65 0 0 0 1\n", 0)));
    CHECK(known(receive_in("I 2 1 66 0 0 0 1\n", 0)));
    CHECK(known(receive_in("I 3 1 67 4 1 0 1\n", 0)));
    CHECK(known(receive_in("D 9 2 1\n", 0)));
    CHECK(known(receive_in("D 5 4 1\n", 0)));
    CHECK(known(receive("D 5 4 1\n")));
    CHECK(refused(receive_in("D 6 4 1\n", 0), WIMTAZE_REFUSAL_OUTPUT));
    CHECK(waits(receive("D 6 4 1\n")));
}

static void short_outputs(void)
{
    static const char *const start = "S2 3 1\nC 3 1 120 0 0 0 0 1\n";
    static const char *const typed = "S2 3 2\nC 3 1 120 0 0 0 0 1\nC 3 2 1114111 0 3 1 0 1\n";
    static const char *const erased = "S2 3 1\nC 3 1 120 1 0 0 0 1\n";
    static const char *const insert = "I 3 2 1114111 3 1 0 1\n";
    load(start);
    CHECK(refused(type_in(1, 1114111, strlen(typed) - 1, LINE_ROOM), WIMTAZE_REFUSAL_OUTPUT));
    CHECK(refused(type_in(1, 1114111, ROOM, strlen(insert) - 1), WIMTAZE_REFUSAL_OUTPUT));
    CHECK(refused(type_in(1, 1114111, 0, LINE_ROOM), WIMTAZE_REFUSAL_OUTPUT));
    CHECK(refused(type_in(1, 1114111, ROOM, 0), WIMTAZE_REFUSAL_OUTPUT));
    CHECK(done(type_in(1, 1114111, strlen(typed), strlen(insert)), 1, 0));
    CHECK(sheet_is(typed));
    load(start);
    CHECK(refused(erase_in(1, strlen(erased) - 1, LINE_ROOM), WIMTAZE_REFUSAL_OUTPUT));
    CHECK(refused(erase_in(1, ROOM, strlen("E 3 3 1 1\n") - 1), WIMTAZE_REFUSAL_OUTPUT));
    CHECK(refused(erase_in(1, 0, 0), WIMTAZE_REFUSAL_OUTPUT));
    CHECK(done(erase_in(1, strlen(erased), strlen("E 3 3 1 1\n")), 1, 0));
    CHECK(sheet_is(erased));
    CHECK(refused(restore_in(3, 1, strlen(erased) - 1, LINE_ROOM), WIMTAZE_REFUSAL_OUTPUT));
    CHECK(refused(restore_in(3, 1, ROOM, strlen("E 3 3 1 2\n") - 1), WIMTAZE_REFUSAL_OUTPUT));
    CHECK(refused(restore_in(3, 1, 0, LINE_ROOM), WIMTAZE_REFUSAL_OUTPUT));
    CHECK(refused(restore_in(3, 1, ROOM, 0), WIMTAZE_REFUSAL_OUTPUT));
    CHECK(done(restore_in(3, 1, strlen(erased), strlen("E 3 3 1 2\n")), 1, 0));
    CHECK(sheet_is("S2 3 1\nC 3 1 120 2 0 0 0 1\n"));
    load(start);
    CHECK(refused(receive_in("D 1 3 1\n", strlen(erased) - 1), WIMTAZE_REFUSAL_OUTPUT));
    CHECK(done(receive_in("D 1 3 1\n", strlen(erased)), 1, 0));
    load(start);
    CHECK(refused(text_in(0), WIMTAZE_REFUSAL_OUTPUT));
    CHECK(done(text_in(1), 0, 0));
    CHECK(refused(empty(16, 7), WIMTAZE_REFUSAL_OUTPUT));
    CHECK(done(empty(16, 8), 0, 0));
    CHECK(sheet_is("S2 16 0\n"));
    CHECK(done(text_in(0), 0, 0));
}

/* The longest lines and text, in outputs of just the sizes that the header names. */
static void longest(void)
{
    load("S2 16 65534\nC 16 65533 65 253 0 0 0 1\nC 16 65534 66 0 0 0 0 1\n");
    uint64_t reply = restore_in(16, 65533, WIMTAZE_SHEET_MAX, WIMTAZE_ERASE_MAX);
    CHECK(done(reply, 1, 0));
    CHECK(line_is(reply, "E 16 16 65533 254\n") && wimtaze_line_written(reply) == WIMTAZE_ERASE_MAX);
    reply = type_in(1, 1114111, WIMTAZE_SHEET_MAX, WIMTAZE_INSERT_MAX);
    CHECK(done(reply, 1, 0));
    CHECK(wimtaze_line_written(reply) == WIMTAZE_INSERT_MAX);
    reply = erase_in(1, WIMTAZE_SHEET_MAX, WIMTAZE_ERASE_MAX);
    CHECK(done(reply, 1, 0));
    CHECK(line_is(reply, "E 16 16 65533 255\n") && wimtaze_line_written(reply) == WIMTAZE_ERASE_MAX);
    load("S2 16 65535\n");
    for (int k = 0; k < 1024; k++) {
        char line[64];
        sprintf(line, "C 16 %d 1114111 0 0 0 0 1\n", 64000 + k);
        append(line);
    }
    CHECK(refused(text_in(WIMTAZE_TEXT_MAX - 1), WIMTAZE_REFUSAL_OUTPUT));
    reply = text_in(WIMTAZE_TEXT_MAX);
    CHECK(done(reply, 0, 0));
    CHECK(wimtaze_written(reply) == WIMTAZE_TEXT_MAX);
    CHECK(done(erase_in(1024, WIMTAZE_SHEET_MAX, WIMTAZE_LINE_MAX), 1, 0));
    CHECK(done(restore_in(16, 64000 + 1023, WIMTAZE_SHEET_MAX, WIMTAZE_LINE_MAX), 1, 0));
}

/* The largest sheet there is: only the marks, and senders of one digit, keep it below what the header names. */
static void largest(void)
{
    char line[64];
    load("S2 16 65535\n");
    for (int k = 0; k < 1024; k++) {
        int n = sprintf(line, "C 16 %d 1114111 %d ", 64000 + k, k == 500 ? 254 : 255);
        n += sprintf(line + n, k == 0 ? "0 0 " : "16 %d ", 64000 + k - 1);
        sprintf(line + n, k == 1023 ? "0 1\n" : "16 %d\n", 64000 + k + 1);
        append(line);
    }
    for (int k = 0; k < 512; k++) {
        sprintf(line, "E %d 15 %d 255\n", 1 + k / 32, 10000 + k % 32);
        append(line);
    }
    CHECK(sheet_length == WIMTAZE_SHEET_MAX - 10 - 9 * 32);
    CHECK(counted(1, 512, 1024, 0));
    CHECK(refused(erase_in(1, sheet_length - 1, WIMTAZE_LINE_MAX), WIMTAZE_REFUSAL_OUTPUT));
    uint64_t reply = erase_in(1, sheet_length, WIMTAZE_ERASE_MAX);
    CHECK(done(reply, 1, 0));
    CHECK(line_is(reply, "E 16 16 64500 255\n"));
    CHECK(counted(0, 512, 1024, 0));
    CHECK(refused(restore(16, 64500), WIMTAZE_REFUSAL_LAST_TURN));
}

/* The same of the first form; forward, it has a byte more in its first line and two in each waiting line. */
static void largest_old(void)
{
    static uint8_t old[ROOM];
    char line[64];
    load("S 16 65535\n");
    for (int k = 0; k < 1024; k++) {
        int n = sprintf(line, "C 16 %d 1114111 %d ", 64000 + k, k % 2);
        n += sprintf(line + n, k == 0 ? "0 0 " : "16 %d ", 64000 + k - 1);
        sprintf(line + n, k == 1023 ? "0 1\n" : "16 %d\n", 64000 + k + 1);
        append(line);
    }
    for (int k = 0; k < 512; k++) {
        sprintf(line, "D %d 15 %d\n", 1 + k / 32, 10000 + k % 32);
        append(line);
    }
    size_t length = sheet_length;
    memcpy(old, sheet, length);
    CHECK(length == WIMTAZE_OLD_SHEET_MAX - 10 - 9 * 32);
    CHECK(refused(upgrade_in(length + 1 + 2 * 512 - 1), WIMTAZE_REFUSAL_OUTPUT));
    CHECK(done(upgrade_in(length + 1 + 2 * 512), 0, 0));
    CHECK(sheet_length == length + 1 + 2 * 512);
    CHECK(counted(512, 512, 1024, 0));
    CHECK(refused(downgrade_in(length - 1), WIMTAZE_REFUSAL_OUTPUT));
    CHECK(done(downgrade_in(length), 0, 0));
    CHECK(sheet_length == length && memcmp(sheet, old, length) == 0);
    append("D 4 9 9\n");
    CHECK(refused(upgrade(), WIMTAZE_REFUSAL_FORM));
}

static void version(void)
{
    char parts[32];
    sprintf(parts, "%d.%d.%d", WIMTAZE_VERSION_MAJOR, WIMTAZE_VERSION_MINOR, WIMTAZE_VERSION_PATCH);
    CHECK(strcmp(parts, WIMTAZE_VERSION) == 0);
}

static void every_refusal(void)
{
    for (unsigned n = 1; n <= 20; n++)
        CHECK((refusals_seen >> n & 1) == (n != WIMTAZE_REFUSAL_TAKEN));
    CHECK(refusals_seen >> 21 == 0);
}

/* ---- */

static const struct {
    const char *name;
    void (*run)(void);
} groups[] = {
    {"P1: four rows as they arrive in 001's example", p1},
    {"P2: the same rows, arriving in another order", p2},
    {"P3: three of them", p3},
    {"P4: two rows, either arrival", p4},
    {"P5: below a hidden row", p5},
    {"P6: neighbours in the other order", p6},
    {"P7: rows between and no candidate", p7},
    {"P8: typing at a gap", p8},
    {"P9: UTF-8 of the text", p9},
    {"Req 01: control characters", controls},
    {"laptop 2 with 31 waiting", thirty_one_waiting},
    {"1,023 rows and one waiting insert", full},
    {"clocks 65,534 and 65,535", clocks},
    {"Req 04: a laptop set up anew", set_up_anew},
    {"Req 04: what raises the clock", clock_follows},
    {"Req 04: a refusal raises no clock", clock_stays},
    {"Req 04: a saved clock that is too low", clock_raised},
    {"the hall's example", hall},
    {"Req 05: a request that was erased is brought back", brought_back},
    {"Req 05: the larger turn", larger_turn},
    {"Req 05: turns that wait", waiting_turns},
    {"Req 05: restoring", restoring},
    {"Req 05: refusals of restoring", not_restored},
    {"Req 06: last season's note, forward and back", last_season},
    {"Req 06: both trips", both_trips},
    {"Req 06: a clock that is too low", clock_raised_on_the_way},
    {"Req 06: refusals of the way forward", not_upgraded},
    {"Req 06: refusals of the way back", not_downgraded},
    {"Req 06: the first of two refusals", first_of_two},
    {"Req 02: a row above the cursor", row_above_cursor},
    {"Req 02: rows hidden and shown", turn_above_cursor},
    {"Req 02: what is released", released_above_cursor},
    {"Req 02: the largest shift", largest_shift},
    {"Req 02: where the cursor stays", cursor_stays},
    {"Req 02: refusals of receiving with a cursor", not_received_at},
    {"Req 02: the first of two refusals", first_of_two_at_a_gap},
    {"Req 02: edits that are made here", own_edits},
    {"Req 02: what waits for a typed character", typed_with_others},
    {"Req 02: shifts and sums", shifts_and_sums},
    {"Req 11: results are pasted", results_pasted},
    {"Req 11: every two first bytes", every_two_bytes},
    {"Req 11: the first and last of each length", edges_pasted},
    {"Req 11: what is not UTF-8", not_utf8},
    {"Req 11: what waits for a pasted character", pasted_with_others},
    {"Req 11: characters that are hidden at once", hidden_at_once},
    {"Req 11: the clock ends in the middle", clock_ends},
    {"Req 11: no room for all", no_room_to_paste},
    {"Req 11: no place for one of them", no_place_in_block},
    {"Req 11: an empty block", nothing_pasted},
    {"Req 11: the first of two refusals", first_of_two_pasting},
    {"Req 11: the same on a full sheet", first_of_two_pasting_full},
    {"Req 11: short outputs", short_of_a_block},
    {"Req 11: the largest block", largest_block},
    {"Req 11: the most that it brings", most_counts},
    {"Req 08: a laptop that joins late, in every order of the lines", joined_late},
    {"Req 08: an empty heap", nothing_to_build},
    {"Req 08: what is left out", left_out},
    {"Req 08: the clock", built_clock},
    {"Req 08: what is done with the sheet", built_and_used},
    {"Req 08: the limits of a heap", heap_limits},
    {"Req 08: the longest heap and the deepest", longest_heap},
    {"Req 08: refusals of building", not_built},
    {"Req 08: the first of two refusals", first_of_two_building},
    {"Req 07: sheets that can be made", loaded},
    {"Req 07: sheets that cannot", not_loaded},
    {"Req 07: the clock", loaded_clock},
    {"Req 07: what is done with the sheet", loaded_and_used},
    {"Req 07: sheets that the calls made", own_sheets_loaded},
    {"Req 07: refusals 1, 2, 3 and 12", not_read_for_use},
    {"Req 07: the first of two refusals", first_of_two_loading},
    {"Req 07: the largest sheets", largest_loaded},
    {"Req 09: what is listed", listed},
    {"Req 09: what is answered", answered},
    {"Req 09: a quarter of an hour", quarter_of_an_hour},
    {"Req 09: what waits where the list was made", waiting_asked},
    {"Req 09: where a premise does not hold", no_premise},
    {"Req 09: refusals of a list", not_answered},
    {"Req 09: the limits of a list", list_limits},
    {"Req 09: the first of two refusals", first_of_two_answering},
    {"Req 09: the longest list", longest_list},
    {"Req 09: the longest answer", longest_answer},
    {"Req 10: sheets and their archives", archived},
    {"Req 10: who typed what", who_typed_what},
    {"Req 10: a clock that is too low", archive_clock},
    {"Req 10: refusals 1, 2 and 3 of archiving", not_archived},
    {"Req 10: refusals 1 and 2 of the way back", not_read_as_archive},
    {"Req 10: refusal 19", misarranged},
    {"Req 10: a line that was lost", line_lost},
    {"Req 10: refusal 3 of the way back", archive_form},
    {"Req 10: the first of two refusals", first_of_two_archiving},
    {"Req 10: the limits of an archive", archive_limits},
    {"Req 10: the longest archive", longest_archive},
    {"what an insert releases", released},
    {"placing", placing},
    {"layout of lines and sheets", layout},
    {"ranges", ranges},
    {"form", form},
    {"positions, and a taken identifier", positions},
    {"the first ground is told", order},
    {"counts after each call", counting},
    {"counts and room at the limit", rooms},
    {"counts of 512 waiting edits", waiting},
    {"known with an output of length 0", known_needs_no_output},
    {"short outputs are left untouched", short_outputs},
    {"the longest lines and text", longest},
    {"the largest sheet", largest},
    {"the largest sheet of the first form", largest_old},
    {"the version and its parts", version},
    {"each refusal was met, and 6 never", every_refusal},
};

int main(void)
{
    for (size_t k = 0; k < sizeof groups / sizeof *groups; k++) {
        unsigned before_group = passed + failed;
        group_failed = 0;
        groups[k].run();
        unsigned checks = passed + failed - before_group;
        printf("%s: %u checks, %u failed\n", groups[k].name, checks, group_failed);
    }
    printf("%u passed, %u failed\n", passed, failed);
    return failed == 0 ? EXIT_SUCCESS : EXIT_FAILURE;
}
