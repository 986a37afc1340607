/*
 * An editor's cursor while others type. Laptop 8 types and pastes at its cursor, erases, restores, and moves the cursor
 * about. The other fifteen type, paste, erase and restore anywhere, and often just where the cursor is. Lines come in
 * any order, some twice, and what is lost is sent again later. After every line that the editor takes in, and every
 * edit of its own, the character on the left of the cursor must be the one that was there, or, if it is hidden, the
 * nearest shown one above it. Both are looked up by identifier in the rows of the saved sheets, and the shift has no
 * say in that. At the end, when all have everything, the sheet that is built of all lines at once must be the one that
 * each has, and each is loaded for use as it is. The first run where that is not so is the last.
 *
 *     editor [RUNS [SEED]]
 */
#include "wimtaze.h"

#include <stdio.h>
#include <stdlib.h>
#include <string.h>

enum {
    LAPTOPS = 16,
    EDITOR = 8, /* with laptops below and above it, so that their characters go to either side of its own */
    BUSY = 3,   /* types each character after its last, so that many wait where one is lost */
    STEPS = 2000,
    LINES = 4096
};

/* ---- what is counted */

static unsigned passed, failed;

/* What has to come up, or the run would show little. */
enum situation {
    AT_CURSOR,      /* a character came in just at the cursor, */
    ABOVE,          /* one above it, */
    BELOW,          /* one below it; */
    SEVERAL,        /* the line released others, and more than one of all came in above the cursor; */
    LEFT_ERASED,    /* the character on the left was erased, */
    TO_BEGINNING,   /* and none is left above it; */
    LEFT_STAYED,    /* its turn rose and it is shown still; */
    ABOVE_ERASED,   /* a character above the cursor was erased, but for the one on the left, */
    ABOVE_RESTORED, /* one was brought back; */
    AT_BEGINNING,   /* a character came in at the beginning of the text, and the cursor there stayed; */
    WAITED,         /* the line waits, */
    KNOWN,          /* is known, */
    PUT_OFF,        /* is refused with 10; */
    OWN_TYPED,      /* the editor typed, */
    OWN_PASTED,     /* pasted several characters, */
    OWN_ERASED,     /* erased at or above its cursor, */
    OWN_RESTORED,   /* restored above it */
    SITUATIONS
};

static const char *const names[SITUATIONS] = {"at the cursor", "above", "below", "several", "left one erased",
    "to the beginning", "left one turned twice", "erased above", "restored above", "at the beginning", "waits",
    "known", "refused with 10", "typed", "pasted", "erased", "restored"};
static unsigned met[SITUATIONS];

/* ---- chance */

/* SplitMix64. */
static uint64_t chance;

static unsigned below(unsigned n)
{
    uint64_t a = chance += 0x9e3779b97f4a7c15u;
    a = (a ^ a >> 30) * 0xbf58476d1ce4e5b9u;
    a = (a ^ a >> 27) * 0x94d049bb133111ebu;
    return (unsigned)((a ^ a >> 31) % n);
}

/* What the run begins from. In every second one the busy laptop types much, and in every third the others little. */
static uint64_t seed;

static unsigned share(unsigned number)
{
    if (number == EDITOR)
        return 40;
    return number == BUSY && seed % 2 == 0 ? 80 : seed % 3 == 0 ? 4 : 16;
}

static void check(int held, const char *what)
{
    if (held) {
        passed++;
        return;
    }
    failed++;
    printf("run %llu: not so: %s\n", (unsigned long long)seed, what);
}

/* ---- the rows of a saved sheet */

struct row {
    unsigned laptop, clock, turn;
};

static const struct row BEGINNING = {0, 0, 0}, NOWHERE = {0, 2, 0};

struct rows {
    struct row row[WIMTAZE_CHARACTER_MAX];
    unsigned count;
};

static int same(struct row a, struct row b)
{
    return a.laptop == b.laptop && a.clock == b.clock;
}

/* The number after the next tab, which the library has written. */
static unsigned next_number(const uint8_t **at)
{
    unsigned number = 0;
    while (*(*at)++ != '\t')
        ;
    for (; **at >= '0' && **at <= '9'; ++*at)
        number = 10 * number + (unsigned)(**at - '0');
    return number;
}

static void read_rows(const uint8_t *sheet, size_t length, struct rows *rows)
{
    const uint8_t *at = sheet, *end = sheet + length;
    rows->count = 0;
    while ((at = (const uint8_t *)memchr(at, '\n', (size_t)(end - at)) + 1) < end && *at == 'C') {
        struct row *row = &rows->row[rows->count++];
        row->laptop = next_number(&at);
        row->clock = next_number(&at);
        next_number(&at);
        row->turn = next_number(&at);
    }
}

static unsigned shown_count(const struct rows *rows)
{
    unsigned shown = 0;
    for (unsigned k = 0; k < rows->count; k++)
        shown += rows->row[k].turn % 2 == 0;
    return shown;
}

/* Where a row stands, from 1; 0 where it is not. */
static unsigned place_of(const struct rows *rows, struct row row)
{
    for (unsigned k = 0; k < rows->count; k++)
        if (same(rows->row[k], row))
            return k + 1;
    return 0;
}

/* The character on the left of a gap. */
static struct row left_of(const struct rows *rows, uint64_t gap)
{
    uint64_t shown = 0;
    if (gap == 0)
        return BEGINNING;
    for (unsigned k = 0; k < rows->count; k++)
        if (rows->row[k].turn % 2 == 0 && ++shown == gap)
            return rows->row[k];
    return NOWHERE;
}

/* A character, if it is shown, or else the nearest shown one above it. */
static struct row nearest(const struct rows *rows, struct row row)
{
    for (unsigned k = place_of(rows, row); k > 0; k--)
        if (rows->row[k - 1].turn % 2 == 0)
            return rows->row[k - 1];
    return BEGINNING;
}

/* ---- the laptops and the lines */

static struct line {
    char bytes[WIMTAZE_LINE_MAX];
    size_t length;
} lines[LINES];
static unsigned line_count;

enum delivery { COMING, LOST, CUT_OFF, TAKEN };

static struct laptop {
    uint8_t sheet[WIMTAZE_SHEET_MAX];
    size_t length;
    unsigned typed;
    uint8_t delivery[LINES]; /* of each line to this laptop */
} laptops[LAPTOPS + 1];

static uint8_t after[WIMTAZE_SHEET_MAX], line_out[WIMTAZE_LINES_MAX];

/* The editor's cursor, and the rows of a sheet before and after a call. */
static uint64_t cursor;
static struct rows old, new;

static void keep(struct laptop *laptop, uint64_t reply)
{
    if (wimtaze_word(reply) == WIMTAZE_DONE || wimtaze_word(reply) == WIMTAZE_WAITS) {
        laptop->length = wimtaze_written(reply);
        memcpy(laptop->sheet, after, laptop->length);
    }
}

/*
 * Sends a line of an edit that was made here to the others. To some it is lost at first; and from a laptop that types
 * much the editor is cut off to the end of the run.
 */
static void send(unsigned number, const uint8_t *line, size_t length)
{
    lines[line_count].length = length;
    memcpy(lines[line_count].bytes, line, length);
    for (unsigned k = 1; k <= LAPTOPS; k++)
        laptops[k].delivery[line_count] = k == number ? TAKEN : below(k == EDITOR ? 2 : 4) == 0 ? LOST : COMING;
    if (number == BUSY && seed % 2 == 0)
        laptops[EDITOR].delivery[line_count] = CUT_OFF;
    line_count++;
}

/* Takes the new sheet of an edit that was made here, and sends its lines; answers how many they are. */
static unsigned made(unsigned number, uint64_t reply)
{
    unsigned count = 0;
    const uint8_t *line = line_out, *end = line_out + wimtaze_line_written(reply);
    if (wimtaze_word(reply) != WIMTAZE_DONE || line_count > LINES - WIMTAZE_CHARACTER_MAX)
        return 0;
    keep(&laptops[number], reply);
    for (; line < end; count++) {
        const uint8_t *behind = (const uint8_t *)memchr(line, '\n', (size_t)(end - line)) + 1;
        send(number, line, (size_t)(behind - line));
        line = behind;
    }
    return count;
}

/* Pastes some characters, of one to four bytes each, at most so many; answers how many. */
static unsigned paste(unsigned number, uint64_t gap, unsigned most)
{
    static const char *const characters[] = {"n", "\xc2\xbd", "\xe2\x99\x9e", "\xf0\x9f\x8f\x86", "\n"};
    struct laptop *laptop = &laptops[number];
    char block[64] = "";
    for (unsigned count = 1 + below(most < 6 ? most : 6); count > 0; count--)
        strcat(block, characters[below(5)]);
    uint64_t reply = wimtaze_paste(laptop->sheet, laptop->length, gap, (const uint8_t *)block, strlen(block), after,
                                   sizeof after, line_out, sizeof line_out);
    unsigned pasted = made(number, reply);
    check(pasted == 0 || pasted == wimtaze_carried(reply), "nothing waited for characters that nobody knew");
    laptop->typed += pasted;
    return pasted;
}

static void send_again(struct laptop *laptop, enum delivery what)
{
    for (unsigned k = 0; k < line_count; k++)
        if (laptop->delivery[k] == what)
            laptop->delivery[k] = COMING;
}

/* A line that comes to the laptop now, now and then one that it has taken in already; line_count if there is none. */
static unsigned next_line(const struct laptop *laptop, int in_order)
{
    unsigned from = in_order ? 0 : below(line_count + 1), again = !in_order && below(8) == 0;
    for (unsigned k = 0; k < line_count; k++) {
        unsigned line = (from + k) % line_count;
        if (laptop->delivery[line] == COMING || (again && laptop->delivery[line] == TAKEN))
            return line;
    }
    return line_count;
}

/* ---- the editor */

static void check_cursor(struct row want, const char *what)
{
    struct row got = left_of(&new, cursor);
    if (same(got, want)) {
        passed++;
        return;
    }
    failed++;
    printf("run %llu: after %s, cursor %llu has %u/%u on its left and not %u/%u\n", (unsigned long long)seed, what,
           (unsigned long long)cursor, got.laptop, got.clock, want.laptop, want.clock);
}

/* What a line that was carried out did around the cursor, from the rows alone; left is what stood on its left. */
static void count_situations(const struct line *line, struct row left, uint64_t gap, unsigned carried)
{
    int inserts = line->bytes[0] == 'I';
    unsigned above = 0, was_left = place_of(&old, left), is_left = place_of(&new, left);
    struct row right_was = left_of(&old, gap + 1), kept = nearest(&new, left);
    struct row right_is = NOWHERE;
    for (unsigned k = is_left; k < new.count && same(right_is, NOWHERE); k++)
        if (new.row[k].turn % 2 == 0)
            right_is = new.row[k];
    for (unsigned k = 0; k < is_left; k++)
        above += place_of(&old, new.row[k]) == 0 && new.row[k].turn % 2 == 0;
    int at_cursor = inserts && !same(right_is, right_was);
    met[AT_CURSOR] += at_cursor;
    met[AT_BEGINNING] += at_cursor && gap == 0;
    met[ABOVE] += above == 1;
    met[SEVERAL] += above > 1 && carried > 1;
    met[BELOW] += inserts && above == 0 && !at_cursor;
    if (inserts || gap == 0)
        return;
    int left_hidden = !same(kept, left);
    met[LEFT_ERASED] += left_hidden;
    met[TO_BEGINNING] += left_hidden && same(kept, BEGINNING);
    met[LEFT_STAYED] += !left_hidden && new.row[is_left - 1].turn > old.row[was_left - 1].turn;
    for (unsigned k = 0; k + 1 < was_left; k++) {
        int was = old.row[k].turn % 2 == 0, is = new.row[k].turn % 2 == 0;
        met[ABOVE_ERASED] += was && !is;
        met[ABOVE_RESTORED] += !was && is;
    }
}

/* The editor takes in a line, with its cursor, and moves it. */
static uint64_t editor_receive(const struct line *line)
{
    struct laptop *editor = &laptops[EDITOR];
    read_rows(editor->sheet, editor->length, &old);
    struct row left = left_of(&old, cursor);
    uint64_t gap = cursor;
    uint64_t reply = wimtaze_receive_at(editor->sheet, editor->length, (const uint8_t *)line->bytes, line->length,
                                        cursor, after, sizeof after);
    keep(editor, reply);
    cursor = wimtaze_moved(cursor, wimtaze_shift(reply));
    read_rows(editor->sheet, editor->length, &new);
    check_cursor(nearest(&new, left), "a line came");
    if (wimtaze_word(reply) == WIMTAZE_DONE)
        count_situations(line, left, gap, wimtaze_carried(reply));
    met[WAITED] += wimtaze_word(reply) == WIMTAZE_WAITS;
    met[KNOWN] += wimtaze_word(reply) == WIMTAZE_KNOWN;
    met[PUT_OFF] += wimtaze_refusal(reply) == WIMTAZE_REFUSAL_SENDER_FULL;
    return reply;
}

static void editor_type(void)
{
    struct laptop *editor = &laptops[EDITOR];
    uint64_t reply = wimtaze_type(editor->sheet, editor->length, cursor, 'a' + below(26), after, sizeof after, line_out,
                                  sizeof line_out);
    if (!made(EDITOR, reply))
        return;
    struct row typed = {EDITOR, ++editor->typed, 0};
    cursor++;
    read_rows(editor->sheet, editor->length, &new);
    check_cursor(typed, "typing");
    met[OWN_TYPED]++;
}

/* The same of several characters at once: the cursor goes behind the last. */
static void editor_paste(void)
{
    struct laptop *editor = &laptops[EDITOR];
    unsigned count = paste(EDITOR, cursor, share(EDITOR) - editor->typed);
    if (count == 0)
        return;
    struct row last = {EDITOR, editor->typed, 0};
    cursor += count;
    read_rows(editor->sheet, editor->length, &new);
    check_cursor(last, "pasting");
    met[OWN_PASTED] += count > 1;
}

/* Erases the character on either side of the cursor, or another. */
static void editor_erase(void)
{
    struct laptop *editor = &laptops[EDITOR];
    read_rows(editor->sheet, editor->length, &old);
    struct row left = left_of(&old, cursor);
    uint64_t place = below(3) == 0 ? 1 + below(shown_count(&old) + 1) : cursor + below(2);
    uint64_t reply =
        wimtaze_erase(editor->sheet, editor->length, place, after, sizeof after, line_out, sizeof line_out);
    if (!made(EDITOR, reply))
        return;
    if (place <= cursor) {
        cursor--;
        met[OWN_ERASED]++;
    }
    read_rows(editor->sheet, editor->length, &new);
    check_cursor(nearest(&new, left), "erasing");
}

/* The first hidden row from a place on, and round; NOWHERE if there is none. */
static struct row hidden_from(const struct rows *rows, unsigned place)
{
    for (unsigned k = 0; k < rows->count; k++)
        if (rows->row[(place + k) % rows->count].turn % 2 == 1)
            return rows->row[(place + k) % rows->count];
    return NOWHERE;
}

/* Restores a character. What that does to the cursor is told by the line, received on the sheet as it was. */
static void editor_restore(void)
{
    static uint8_t again[WIMTAZE_SHEET_MAX];
    struct laptop *editor = &laptops[EDITOR];
    read_rows(editor->sheet, editor->length, &old);
    struct row left = left_of(&old, cursor), row = hidden_from(&old, below(old.count + 1));
    uint64_t reply = wimtaze_restore(editor->sheet, editor->length, row.laptop, row.clock, after, sizeof after,
                                     line_out, sizeof line_out);
    if (wimtaze_word(reply) != WIMTAZE_DONE)
        return;
    uint64_t told = wimtaze_receive_at(editor->sheet, editor->length, line_out, wimtaze_line_written(reply), cursor,
                                       again, sizeof again);
    check(wimtaze_written(told) == wimtaze_written(reply) && memcmp(again, after, wimtaze_written(reply)) == 0,
          "the line of an edit gives the same sheet");
    if (!made(EDITOR, reply))
        return;
    cursor = wimtaze_moved(cursor, wimtaze_shift(told));
    read_rows(editor->sheet, editor->length, &new);
    check_cursor(left, "restoring");
    met[OWN_RESTORED] += place_of(&new, row) < place_of(&new, left);
}

/* To the beginning, behind the first character, to the end, or anywhere. */
static void editor_move(void)
{
    read_rows(laptops[EDITOR].sheet, laptops[EDITOR].length, &old);
    unsigned shown = shown_count(&old);
    uint64_t places[] = {0, shown > 0, shown, below(shown + 1), below(shown + 1)};
    cursor = places[below(5)];
}

static void editor_edit(void)
{
    unsigned n = below(20);
    if (n < 7 && laptops[EDITOR].typed < share(EDITOR))
        editor_type();
    else if (n < 9 && laptops[EDITOR].typed < share(EDITOR))
        editor_paste();
    else if (n < 12)
        editor_erase();
    else if (n < 15)
        editor_restore();
    else
        editor_move();
}

/* ---- the others */

/* The place of the row to edit at: the busy laptop's last one, the one where the editor's cursor is, or any. */
static unsigned some_place(unsigned number, const struct rows *rows)
{
    static struct rows seen;
    struct row own = {number, laptops[number].typed, 0};
    if (number == BUSY && below(8) > 0)
        return place_of(rows, own);
    if (below(2) == 0)
        return below(rows->count + 1);
    read_rows(laptops[EDITOR].sheet, laptops[EDITOR].length, &seen);
    return place_of(rows, left_of(&seen, cursor));
}

static void restore(unsigned number, struct row row)
{
    struct laptop *laptop = &laptops[number];
    made(number, wimtaze_restore(laptop->sheet, laptop->length, row.laptop, row.clock, after, sizeof after, line_out,
                                 sizeof line_out));
}

/* Types, pastes, erases, now and then by a slip that is mended at once, or restores. */
static void edit(unsigned number)
{
    struct laptop *laptop = &laptops[number];
    unsigned n = below(10), place, gap = 0;
    read_rows(laptop->sheet, laptop->length, &old);
    place = some_place(number, &old);
    for (unsigned k = 0; k < place; k++)
        gap += old.row[k].turn % 2 == 0;
    if (n < 5) {
        if (laptop->typed == share(number))
            return;
        gap -= number != BUSY && gap > 0 ? below(2) : 0;
        if (below(5) == 0)
            paste(number, gap, share(number) - laptop->typed);
        else
            laptop->typed += made(number, wimtaze_type(laptop->sheet, laptop->length, gap, 'A' + below(26), after,
                                                       sizeof after, line_out, sizeof line_out));
    } else if (n < 8) {
        struct row row = left_of(&old, gap);
        if (made(number, wimtaze_erase(laptop->sheet, laptop->length, gap, after, sizeof after, line_out,
                                       sizeof line_out)) && below(3) == 0)
            restore(number, row);
    } else {
        restore(number, hidden_from(&old, place == 0 ? 0 : place - 1));
    }
}

/* Takes in a line that comes; one that is refused with 10 comes again. */
static void receive(unsigned number, int in_order)
{
    struct laptop *laptop = &laptops[number];
    unsigned k = next_line(laptop, in_order);
    if (k == line_count)
        return;
    uint64_t reply;
    if (number == EDITOR) {
        reply = editor_receive(&lines[k]);
    } else {
        reply = wimtaze_receive(laptop->sheet, laptop->length, (const uint8_t *)lines[k].bytes, lines[k].length, after,
                                sizeof after);
        keep(laptop, reply);
    }
    if (wimtaze_word(reply) != WIMTAZE_REFUSED)
        laptop->delivery[k] = TAKEN;
    else
        check(wimtaze_refusal(reply) == WIMTAZE_REFUSAL_SENDER_FULL, "a line is refused with 10 alone");
}

/* ---- a run */

static int lacks_lines(const struct laptop *laptop)
{
    for (unsigned k = 0; k < line_count; k++)
        if (laptop->delivery[k] != TAKEN)
            return 1;
    return 0;
}

/* Whether all lines on one heap, in any order, give the sheet that the laptop has: another begins with it late. */
static int is_built(unsigned number)
{
    static uint8_t heap[LINES * WIMTAZE_LINE_MAX];
    unsigned order[LINES], kinds[2] = {0, 0};
    size_t length = 0;
    for (unsigned k = 0; k < line_count; k++) {
        unsigned other = below(k + 1);
        order[k] = order[other];
        order[other] = k;
    }
    for (unsigned k = 0; k < line_count; k++) {
        const struct line *line = &lines[order[k]];
        memcpy(heap + length, line->bytes, line->length);
        length += line->length;
        kinds[line->bytes[0] == 'I']++;
    }
    uint64_t reply = wimtaze_build(number, heap, length, after, sizeof after);
    if (kinds[0] > 1024)
        return wimtaze_refusal(reply) == WIMTAZE_REFUSAL_HEAP_FULL;
    return wimtaze_word(reply) == WIMTAZE_DONE && wimtaze_left_out(reply) == 0 &&
           wimtaze_written(reply) == laptops[number].length &&
           memcmp(after, laptops[number].sheet, laptops[number].length) == 0;
}

/* Whether the laptop's sheet is loaded for use as it is. */
static int is_loaded(const struct laptop *laptop)
{
    uint64_t reply = wimtaze_load(laptop->sheet, laptop->length, after, sizeof after);
    return wimtaze_word(reply) == WIMTAZE_DONE && wimtaze_written(reply) == laptop->length &&
           memcmp(after, laptop->sheet, laptop->length) == 0;
}

/* All that was lost comes, in any order, until every laptop has everything; then all show the same. */
static void mend(void)
{
    static uint8_t text[WIMTAZE_TEXT_MAX], other[WIMTAZE_TEXT_MAX];
    size_t length = 0;
    for (unsigned number = 1; number <= LAPTOPS; number++) {
        struct laptop *laptop = &laptops[number];
        send_again(laptop, LOST);
        send_again(laptop, CUT_OFF);
        for (unsigned tries = 0; tries < 20 * LINES && failed == 0 && lacks_lines(laptop); tries++)
            receive(number, 0);
        check(!lacks_lines(laptop) && wimtaze_waiting_count(wimtaze_counts(laptop->sheet, laptop->length)) == 0,
              "everything came");
        size_t n = wimtaze_written(wimtaze_text(laptop->sheet, laptop->length, other, sizeof other));
        if (number == 1) {
            length = n;
            memcpy(text, other, n);
        }
        check(n == length && memcmp(text, other, n) == 0, "all show the same");
        check(is_built(number), "building gives the same sheet");
        check(is_loaded(laptop), "loading gives the same sheet");
    }
}

static void run(void)
{
    chance = seed;
    line_count = 0;
    cursor = 0;
    for (unsigned number = 1; number <= LAPTOPS; number++) {
        keep(&laptops[number], wimtaze_empty(number, after, sizeof after));
        laptops[number].typed = 0;
    }
    for (unsigned step = 0; step < STEPS && failed == 0; step++) {
        unsigned number = below(4) == 0 ? EDITOR : below(8) == 0 ? BUSY : 1 + below(LAPTOPS);
        if (below(50) == 0)
            send_again(&laptops[number], LOST);
        for (unsigned count = below(8); count > 0; count--)
            receive(number, count % 2);
        if (below(2) == 0)
            continue;
        if (number == EDITOR)
            editor_edit();
        else
            edit(number);
    }
    if (failed == 0)
        mend();
}

int main(int argc, char **argv)
{
    unsigned runs = argc > 1 ? (unsigned)strtoul(argv[1], NULL, 10) : 12;
    uint64_t first = argc > 2 ? strtoull(argv[2], NULL, 10) : 1;
    for (seed = first; seed < first + runs && failed == 0; seed++)
        run();
    for (unsigned k = 0; k < SITUATIONS && failed == 0; k++) {
        printf("%s%s (%u)", k == 0 ? "" : ", ", names[k], met[k]);
        if (met[k] > 0)
            passed++;
        else
            failed++;
    }
    printf("\n%u passed, %u failed\n", passed, failed);
    return failed == 0 ? EXIT_SUCCESS : EXIT_FAILURE;
}
