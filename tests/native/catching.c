/*
 * Laptops that come together by lists alone. Sixteen of them type, paste, erase and restore; a line reaches the others
 * at once or never, since each is cut off from time to time and nothing is sent again. One joins late, of a heap that
 * has a part of the lines. Then two at a time list what they hold and answer each other, until all have equal rows.
 *
 * At each exchange document 02's claims are checked: a list is of the rows and of nothing else; where the premises hold
 * none of the lines of an answer waits and none is refused, and then every row of the other is there, with at least its
 * turn; where besides nothing waited, both have equal rows, whether the second answers before it took in the first's
 * answer or afterwards. The premises are looked up in the saved sheets, rows and waiting lines. Where the laptops keep
 * the rules they must hold each time. In some runs they do not keep them, or the sheet gets full: then the exchanges
 * where a premise fails are counted, with what became of the lines. The first run with a claim that fails is the last.
 *
 *     catching [RUNS [SEED]]
 */
#include "wimtaze.h"

#include <stdio.h>
#include <stdlib.h>
#include <string.h>

enum { LAPTOPS = 16, STEPS = 160, LATE = LAPTOPS, MOST_ROUNDS = 60, MOST_WAITING = 512 };

/* ---- what is counted */

static unsigned passed, failed, exchanges, most_rounds, lines_done, lines_known;

/* What has to come up, or the runs would show little. */
enum situation {
    NO_INSERT,      /* there was no insert to send; */
    WAITED,         /* something waited where the list was made, */
    WAITING_SENT,   /* an insert that waited there was sent, */
    WAITED_BEFORE,  /* and came before its line, with what it needed, so that the line is known; */
    RELEASED,       /* a line of an answer released others; */
    HIDDEN,         /* a row that was listed is turned, */
    TURN_KNOWN,     /* or its turn is known, */
    HIGHER,         /* and is higher where the list was made; */
    EQUAL_BEFORE,   /* equal rows, the second answering before, */
    EQUAL_AFTER,    /* and afterwards; */
    SOME_WAIT,      /* something waited, so that equal rows are not claimed; */
    JOINED,         /* one of the two was built of a heap; */
    NO_SPACE,       /* the space is not enough, */
    TAKEN_YET,      /* and all lines were taken all the same, */
    OTHER_INSERT,   /* an identifier stands for different inserts; */
    NOT_TAKEN_7,    /* where a premise fails a line is refused with 7, */
    NOT_TAKEN_11,   /* with 11, */
    NOT_TAKEN_WAITS, /* or waits */
    SITUATIONS
};

static const char *const names[SITUATIONS] = {"no insert to send", "something waits at the asker", "it is sent",
    "it came before", "released others", "listed and turned", "turn known", "turn higher at the asker",
    "equal, before", "equal, after", "something waited", "one was built", "no space", "all taken yet", "other insert",
    "then 7", "then 11", "then waits"};
static unsigned met[SITUATIONS];

/* ---- chance, and the kinds of runs */

static uint64_t chance, seed;

/* SplitMix64. */
static unsigned below(unsigned n)
{
    uint64_t a = chance += 0x9e3779b97f4a7c15u;
    a = (a ^ a >> 30) * 0xbf58476d1ce4e5b9u;
    a = (a ^ a >> 27) * 0x94d049bb133111ebu;
    return (unsigned)((a ^ a >> 31) % n);
}

/*
 * Most runs keep the rules. In the others four laptops type all that there is room for, or more than that; or two
 * laptops have one number; or one begins anew of a part of the lines, and types before it has its own back.
 */
enum kind { KEPT, FULL, TOO_MANY, ONE_NUMBER, BEGUN_ANEW };

static enum kind kind_of(uint64_t run)
{
    static const enum kind kinds[] = {KEPT, ONE_NUMBER, KEPT, FULL, KEPT, TOO_MANY, KEPT, BEGUN_ANEW};
    return kinds[run % 8];
}

static void check(int held, const char *what)
{
    if (held) {
        passed++;
        return;
    }
    failed++;
    printf("run %llu: not so: %s\n", (unsigned long long)seed, what);
}

/* ---- what a saved sheet has */

struct sheet {
    uint8_t bytes[WIMTAZE_SHEET_MAX];
    size_t length;
};

struct insert {
    unsigned laptop, clock, code_point, previous[2], next[2];
};

struct row {
    struct insert insert;
    unsigned turn;
};

/* The rows from the top, the inserts that wait, and how many edits wait in all. */
struct view {
    struct row row[WIMTAZE_CHARACTER_MAX];
    struct insert waiting[MOST_WAITING];
    unsigned rows, inserts, waits;
};

/* The number after the next tab, which the library has written. */
static uint64_t next_number(const uint8_t **at)
{
    uint64_t number = 0;
    while (*(*at)++ != '\t')
        ;
    for (; **at >= '0' && **at <= '9'; ++*at)
        number = 10 * number + (uint64_t)(**at - '0');
    return number;
}

/* The numbers of a row or of an insert that waits; a row has its turn in the middle. */
static void read_insert(const uint8_t **at, struct insert *insert, unsigned *turn)
{
    insert->laptop = (unsigned)next_number(at);
    insert->clock = (unsigned)next_number(at);
    insert->code_point = (unsigned)next_number(at);
    if (turn != NULL)
        *turn = (unsigned)next_number(at);
    for (int k = 0; k < 2; k++)
        insert->previous[k] = (unsigned)next_number(at);
    for (int k = 0; k < 2; k++)
        insert->next[k] = (unsigned)next_number(at);
}

static void look_at(const struct sheet *sheet, struct view *view)
{
    const uint8_t *at = sheet->bytes, *end = at + sheet->length;
    view->rows = view->inserts = view->waits = 0;
    while ((at = (const uint8_t *)memchr(at, '\n', (size_t)(end - at)) + 1) < end) {
        if (*at == 'C') {
            struct row *row = &view->row[view->rows++];
            read_insert(&at, &row->insert, &row->turn);
            continue;
        }
        view->waits++;
        if (*at == 'I')
            read_insert(&at, &view->waiting[view->inserts++], NULL);
    }
}

static int same_identifier(const struct insert *a, const struct insert *b)
{
    return a->laptop == b->laptop && a->clock == b->clock;
}

static const struct row *row_of(const struct view *view, const struct insert *insert)
{
    for (unsigned k = 0; k < view->rows; k++)
        if (same_identifier(&view->row[k].insert, insert))
            return &view->row[k];
    return NULL;
}

/* Whether the rows are equal: as many, and each, from the top, agrees in every field. */
static int same_rows(const struct sheet *a, const struct sheet *b)
{
    static struct view one, other;
    look_at(a, &one);
    look_at(b, &other);
    return one.rows == other.rows && memcmp(one.row, other.row, one.rows * sizeof *one.row) == 0;
}

/* ---- the claims */

/* Whether a list has all rows and nothing else: each is marked, and there are as many ones as rows. */
static int is_list_of(const struct view *view, const uint8_t *list, size_t length)
{
    static uint64_t words[WIMTAZE_LAPTOP_MAX + 1][1024];
    const uint8_t *at = list, *end = list + length;
    unsigned ones = 0;
    memset(words, 0, sizeof words);
    next_number(&at);
    if (next_number(&at) != view->rows)
        return 0;
    while (++at < end) {
        unsigned laptop = (unsigned)next_number(&at), index = (unsigned)next_number(&at);
        words[laptop][index] = next_number(&at);
        for (uint64_t word = words[laptop][index]; word > 0; word &= word - 1)
            ones++;
    }
    for (unsigned k = 0; k < view->rows; k++) {
        const struct insert *insert = &view->row[k].insert;
        if ((words[insert->laptop][insert->clock / 64] >> insert->clock % 64 & 1) == 0)
            return 0;
    }
    return ones == view->rows;
}

/* "The asker's rows, its waiting inserts and the inserts sent are together at most 1,024." */
static int has_space(const struct view *asker, const uint8_t *answer, size_t length)
{
    unsigned sent = 0;
    for (size_t k = 0; k < length; k++)
        sent += answer[k] == 'I';
    return asker->rows + asker->inserts + sent <= WIMTAZE_CHARACTER_MAX;
}

/* "No identifier stands for different inserts on the two": the asker's rows and what waits there, the other's rows. */
static int has_one_meaning(const struct view *asker, const struct view *other)
{
    for (unsigned k = 0; k < asker->rows + asker->inserts; k++) {
        const struct insert *insert = k < asker->rows ? &asker->row[k].insert : &asker->waiting[k - asker->rows];
        const struct row *row = row_of(other, insert);
        if (row != NULL && memcmp(&row->insert, insert, sizeof *insert) != 0)
            return 0;
    }
    return 1;
}

/* "The asker then holds every row the other had when it answered, with at least its turn then." */
static int holds_all(const struct view *asker, const struct view *other)
{
    for (unsigned k = 0; k < other->rows; k++) {
        const struct row *theirs = &other->row[k], *row = row_of(asker, &theirs->insert);
        if (row == NULL || memcmp(&row->insert, &theirs->insert, sizeof row->insert) != 0 || row->turn < theirs->turn)
            return 0;
    }
    return 1;
}

/* ---- an exchange */

static void keep(struct sheet *sheet, const uint8_t *written, uint64_t reply)
{
    if (wimtaze_written(reply) > 0) {
        sheet->length = wimtaze_written(reply);
        memcpy(sheet->bytes, written, sheet->length);
    }
}

static uint64_t receive(struct sheet *sheet, const uint8_t *line, size_t length)
{
    static uint8_t after[WIMTAZE_SHEET_MAX];
    uint64_t reply = wimtaze_receive(sheet->bytes, sheet->length, line, length, after, sizeof after);
    keep(sheet, after, reply);
    return reply;
}

/* How long the line is that begins here, its line feed counted. */
static size_t line_length(const uint8_t *line)
{
    size_t length = 1;
    while (line[length - 1] != '\n')
        length++;
    return length;
}

/* What a line of an answer met that was taken in. */
static void note_taken(const struct view *before, const uint8_t *line, uint64_t reply)
{
    int known = wimtaze_word(reply) == WIMTAZE_KNOWN;
    lines_known += known;
    lines_done += !known;
    if (*line == 'I') {
        struct insert insert;
        const uint8_t *at = line;
        read_insert(&at, &insert, NULL);
        for (unsigned k = 0; k < before->inserts; k++)
            if (same_identifier(&before->waiting[k], &insert)) {
                met[WAITING_SENT]++;
                met[WAITED_BEFORE] += known;
            }
        met[RELEASED] += wimtaze_carried(reply) > 1;
        return;
    }
    struct insert target;
    const uint8_t *at = line;
    next_number(&at);
    target.laptop = (unsigned)next_number(&at);
    target.clock = (unsigned)next_number(&at);
    const struct row *row = row_of(before, &target);
    if (row != NULL) {
        met[HIDDEN] += !known;
        met[TURN_KNOWN] += known;
        met[HIGHER] += row->turn > (unsigned)next_number(&at);
    }
}

/* Hands the lines over in their sequence; answers whether each was taken in. */
static int take_in(struct sheet *sheet, const struct view *before, const uint8_t *lines, size_t length)
{
    int taken = 1;
    for (size_t k = 0, n; k < length; k += n) {
        n = line_length(lines + k);
        uint64_t reply = receive(sheet, lines + k, n);
        if (wimtaze_word(reply) == WIMTAZE_DONE || wimtaze_word(reply) == WIMTAZE_KNOWN) {
            note_taken(before, lines + k, reply);
            continue;
        }
        taken = 0;
        met[NOT_TAKEN_7] += wimtaze_refusal(reply) == WIMTAZE_REFUSAL_CONFLICT;
        met[NOT_TAKEN_11] += wimtaze_refusal(reply) == WIMTAZE_REFUSAL_DOCUMENT_FULL;
        met[NOT_TAKEN_WAITS] += wimtaze_word(reply) == WIMTAZE_WAITS;
    }
    return taken;
}

/* One laptop asks another, and takes in its answer. Answers whether the premises hold. */
static int catch_up(struct sheet *asker, const struct sheet *other)
{
    static uint8_t list[WIMTAZE_LIST_MAX], answer[WIMTAZE_ANSWER_MAX];
    static struct view mine, theirs, after;
    look_at(asker, &mine);
    look_at(other, &theirs);
    uint64_t listed = wimtaze_list(asker->bytes, asker->length, list, sizeof list);
    size_t length = wimtaze_written(listed);
    check(wimtaze_word(listed) == WIMTAZE_DONE && is_list_of(&mine, list, length), "a list has the rows alone");
    uint64_t reply = wimtaze_answer(other->bytes, other->length, list, length, answer, sizeof answer);
    check(wimtaze_word(reply) == WIMTAZE_DONE, "a list that the library wrote is answered");
    length = wimtaze_written(reply);
    int space = has_space(&mine, answer, length), one_meaning = has_one_meaning(&mine, &theirs);
    int taken = take_in(asker, &mine, answer, length);
    met[NO_INSERT] += length == 0 || *answer != 'I';
    met[WAITED] += mine.waits > 0;
    met[NO_SPACE] += !space;
    met[TAKEN_YET] += !space && one_meaning && taken;
    met[OTHER_INSERT] += !one_meaning;
    if (!space || !one_meaning)
        return 0;
    look_at(asker, &after);
    check(taken, "no line of an answer waits, and none is refused");
    check(holds_all(&after, &theirs), "who caught up holds every row of the other, with at least its turn");
    return 1;
}

/* Each asks the other. The second answers before it has taken in the first's answer, and, tried apart, afterwards. */
static int exchange(struct sheet *one, struct sheet *two)
{
    static struct sheet was, before, after;
    static struct view first, second;
    was = *one;
    before = after = *two;
    look_at(one, &first);
    look_at(two, &second);
    exchanges++;
    int hold = catch_up(one, two);
    hold = catch_up(&before, &was) && hold;
    hold = catch_up(&after, one) && hold;
    met[SOME_WAIT] += first.waits + second.waits > 0;
    if (hold && first.waits + second.waits == 0) {
        check(same_rows(one, &before), "each answered the other, and they have equal rows");
        check(same_rows(one, &after), "each answered the other, one after the other, and they have equal rows");
        met[EQUAL_BEFORE]++;
        met[EQUAL_AFTER]++;
    }
    *two = below(2) == 0 ? before : after;
    return hold;
}

/* ---- the laptops and their lines */

static struct laptop {
    unsigned number, typed;
    int here, cut_off, built;
    struct sheet sheet;
} laptops[LAPTOPS + 1];

static unsigned laptop_count, share;

/* All lines that were sent: as a heap they have no more of either kind than it may have. */
static uint8_t sent[2 * WIMTAZE_HEAP_MAX];
static size_t sent_length;
static unsigned turns_sent;

/* A line reaches each laptop that is not cut off, but for one in eight. */
static void send(const struct laptop *from, const uint8_t *line, size_t length)
{
    memcpy(sent + sent_length, line, length);
    sent_length += length;
    for (unsigned k = 1; k <= laptop_count; k++) {
        struct laptop *to = &laptops[k];
        if (to != from && to->here && !from->cut_off && !to->cut_off && below(8) != 0)
            receive(&to->sheet, line, length);
    }
}

/* A character that is erased is brought back. */
static uint64_t restore_one(const struct sheet *sheet, uint8_t *after, uint8_t *lines)
{
    static struct view view;
    look_at(sheet, &view);
    const struct insert *insert = &view.row[below(view.rows)].insert;
    return wimtaze_restore(sheet->bytes, sheet->length, insert->laptop, insert->clock, after, WIMTAZE_SHEET_MAX, lines,
                           WIMTAZE_LINES_MAX);
}

/* Types, pastes, erases or restores, whatever the library lets pass. */
static void edit(struct laptop *laptop)
{
    static const uint8_t text[] = "Board 7: 1-0. Board 9 is adjourned. Bye: Novak. Round 5 begins at 15:00 in hall A.";
    static uint8_t after[WIMTAZE_SHEET_MAX], lines[WIMTAZE_LINES_MAX];
    const struct sheet *sheet = &laptop->sheet;
    uint64_t counts = wimtaze_counts(sheet->bytes, sheet->length), reply;
    unsigned shown = wimtaze_shown_count(counts), many = 1 + below(share > 64 ? sizeof text - 1 : 4);
    if (many > share - laptop->typed)
        many = share - laptop->typed;
    unsigned what = many == 0 ? 6 + below(4) : below(10);
    if (what < 7 && many > 0)
        reply = wimtaze_paste(sheet->bytes, sheet->length, below(2) ? shown : below(shown + 1), text, many, after,
                              sizeof after, lines, sizeof lines);
    else if (shown > 0 && what < 9 && turns_sent < WIMTAZE_CHARACTER_MAX / 2)
        reply = wimtaze_erase(sheet->bytes, sheet->length, 1 + below(shown), after, sizeof after, lines, sizeof lines);
    else if (wimtaze_character_count(counts) > 0 && turns_sent < WIMTAZE_CHARACTER_MAX / 2)
        reply = restore_one(sheet, after, lines);
    else
        return;
    if (wimtaze_word(reply) != WIMTAZE_DONE)
        return;
    if (*lines == 'I')
        laptop->typed += many;
    else
        turns_sent++;
    keep(&laptop->sheet, after, reply);
    for (size_t k = 0, n; k < wimtaze_line_written(reply); k += n) {
        n = line_length(lines + k);
        send(laptop, lines + k, n);
    }
}

/* A laptop that joins late, or begins anew: of a part of the lines that were sent so far. If two disagree, empty. */
static void build(struct laptop *laptop, enum kind kind)
{
    static uint8_t heap[sizeof sent];
    size_t length = 0;
    for (size_t k = 0, n; k < sent_length; k += n) {
        n = line_length(sent + k);
        if (below(3) != 0) {
            memcpy(heap + length, sent + k, n);
            length += n;
        }
    }
    uint64_t reply = wimtaze_build(laptop->number, heap, length, laptop->sheet.bytes, sizeof laptop->sheet.bytes);
    laptop->here = laptop->built = 1;
    if (kind == ONE_NUMBER && wimtaze_refusal(reply) == WIMTAZE_REFUSAL_CONFLICT)
        return;
    check(wimtaze_word(reply) == WIMTAZE_DONE, "a sheet is built of lines that were sent");
    laptop->sheet.length = wimtaze_written(reply);
}

static void begin(enum kind kind)
{
    laptop_count = kind == FULL || kind == TOO_MANY ? 4 : LAPTOPS;
    share = kind == FULL ? 256 : kind == TOO_MANY ? 320 : 14;
    sent_length = turns_sent = 0;
    for (unsigned k = 1; k <= laptop_count; k++) {
        struct laptop *laptop = &laptops[k];
        laptop->number = kind == ONE_NUMBER && k == 5 ? 4 : k;
        laptop->typed = 0;
        laptop->here = k != LATE;
        laptop->built = 0;
        laptop->cut_off = below(3) == 0;
        uint64_t reply = wimtaze_empty(laptop->number, laptop->sheet.bytes, sizeof laptop->sheet.bytes);
        laptop->sheet.length = wimtaze_written(reply);
    }
}

static void go_on(enum kind kind)
{
    for (unsigned step = 0; step < STEPS; step++) {
        struct laptop *laptop = &laptops[1 + below(laptop_count)];
        if (step == STEPS / 2 && laptop_count == LAPTOPS)
            build(&laptops[LATE], kind);
        if (step == STEPS / 2 && kind == BEGUN_ANEW)
            build(&laptops[3], kind);
        if (below(12) == 0)
            laptop->cut_off = !laptop->cut_off;
        if (laptop->here)
            edit(laptop);
    }
}

/* ---- a run */

static int all_equal(void)
{
    for (unsigned k = 2; k <= laptop_count; k++)
        if (!same_rows(&laptops[1].sheet, &laptops[k].sheet))
            return 0;
    return 1;
}

/* Each laptop has an exchange with another one in a round. Answers how many there were until all rows are equal. */
static unsigned go_round(enum kind kind)
{
    unsigned rounds = 0, most = kind == KEPT ? MOST_ROUNDS : 2;
    for (; rounds < most && !all_equal(); rounds++)
        for (unsigned k = 1; k <= laptop_count && failed == 0; k++) {
            unsigned other = 1 + below(laptop_count - 1);
            other += other >= k;
            met[JOINED] += laptops[k].built || laptops[other].built;
            int hold = exchange(&laptops[k].sheet, &laptops[other].sheet);
            if (kind == KEPT)
                check(hold, "laptops that keep the rules have what the claims ask for");
        }
    return rounds;
}

/* All rows are equal, nothing waits anywhere, and the same comes of all lines at once. */
static void finish(unsigned rounds)
{
    static struct sheet built;
    static struct view view;
    check(all_equal(), "all laptops have equal rows");
    most_rounds = rounds > most_rounds ? rounds : most_rounds;
    uint64_t reply = wimtaze_build(1, sent, sent_length, built.bytes, sizeof built.bytes);
    built.length = wimtaze_written(reply);
    check(wimtaze_word(reply) == WIMTAZE_DONE && wimtaze_left_out(reply) == 0, "a sheet is built of all lines");
    for (unsigned k = 1; k <= laptop_count; k++) {
        look_at(&laptops[k].sheet, &view);
        check(view.waits == 0, "nothing waits in the end");
        check(same_rows(&laptops[k].sheet, &built), "each has the rows that are built of all lines");
    }
}

static void run(uint64_t number)
{
    enum kind kind = kind_of(number);
    seed = chance = number;
    begin(kind);
    go_on(kind);
    unsigned rounds = go_round(kind);
    if (kind == KEPT)
        finish(rounds);
}

int main(int argc, char **argv)
{
    unsigned long long runs = argc > 1 ? strtoull(argv[1], NULL, 10) : 16;
    unsigned long long first = argc > 2 ? strtoull(argv[2], NULL, 10) : 0;
    for (unsigned long long k = 0; k < runs && failed == 0; k++)
        run(first + k);
    printf("%u exchanges, at most %u rounds until all rows are equal; lines of answers done %u, known %u\n", exchanges,
           most_rounds, lines_done, lines_known);
    for (unsigned k = 0; k < SITUATIONS; k++)
        printf("%s %u%s", names[k], met[k], k + 1 < SITUATIONS ? ", " : "\n");
    if (argc == 1)
        for (unsigned k = 0; k < SITUATIONS; k++)
            check(met[k] > 0, names[k]);
    printf("%u passed, %u failed\n", passed, failed);
    return failed == 0 ? EXIT_SUCCESS : EXIT_FAILURE;
}
