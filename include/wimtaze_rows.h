/*
 * What is on a saved sheet, character by character: who typed the one at a place, its identifier and its turn; and what
 * waits, and for what. It is for programs that show more than the text, and would read the lines by hand otherwise.
 *
 *     struct wimtaze_rows rows = wimtaze_read_sheet(sheet, length);
 *     struct wimtaze_row row;
 *     while (wimtaze_next_row(&rows, &row))
 *         if (wimtaze_is_shown(&row))
 *             printf("%u: U+%04X, typed by laptop %u\n", row.shown, (unsigned)row.code_point, row.id.laptop);
 *
 *     struct wimtaze_waiting edit;
 *     struct wimtaze_identifier needs[2];
 *     while (wimtaze_next_waiting(&rows, &edit))
 *         if (wimtaze_needs(sheet, length, &edit, needs) > 0)
 *             printf("an edit of laptop %u waits for %u/%u\n", edit.sender, needs[0].laptop, needs[0].clock);
 *
 * All of a sheet that a call of the library has written or accepted is read, and rows.broken is 0 at the end. Of any
 * other bytes the lines are read up to the first that has not its layout, which sets rows.broken; nothing outside the
 * bytes is ever read. The ranges and the form are the library's to check: wimtaze_counts tells whether it accepts a
 * sheet. The sheet's bytes must stay where they are while they are read.
 *
 * It is a part of no library: the functions below are all there is.
 */
#ifndef WIMTAZE_ROWS_H
#define WIMTAZE_ROWS_H

#include <stddef.h>
#include <stdint.h>

#ifdef __cplusplus
extern "C" {
#endif

/* A laptop and a clock; 0 and 0 is the beginning of the text, 0 and 1 its end. */
struct wimtaze_identifier {
    unsigned laptop, clock;
};

/* A character on the sheet. */
struct wimtaze_row {
    unsigned place; /* from 1 at the top, erased ones counted */
    unsigned shown; /* how many are shown down to here, this one counted: its place in the text, if it is shown */
    struct wimtaze_identifier id;
    uint32_t code_point;
    unsigned turn;
    struct wimtaze_identifier previous, next; /* what it was typed between */
};

/* An edit that waits. */
struct wimtaze_waiting {
    char kind;                    /* I, a typed character, or E, an erased or restored one */
    unsigned sender;              /* of I the laptop that typed it, of E the one that sent it */
    struct wimtaze_identifier id; /* of the character */
    uint32_t code_point;          /* of I; else 0 */
    unsigned turn;                /* of E; else 0 */
    struct wimtaze_identifier previous, next; /* of I; else the marks */
    const uint8_t *line;          /* the line as it came, with its line feed */
    size_t length;
};

/* How far a sheet is read. */
struct wimtaze_rows {
    const uint8_t *at, *end;
    unsigned laptop, clock; /* of the first line: whose sheet it is, and how many that laptop has typed */
    unsigned place, shown;  /* of the last row that was read */
    int broken;             /* whether a line has not its layout: nothing more is read */
};

/* ---- steps of the functions below */

/*
 * Reads the field after a tab, digits up to the next tab or line feed, and stops there. A number that has too many
 * digits for 32 bits, and a field that has none, is not read.
 */
static inline int wimtaze_rows_field(const uint8_t **at, const uint8_t *end, unsigned *number)
{
    const uint8_t *p = *at;
    uint64_t n = 0;
    if (p == end || *p != '\t' || ++p == end || *p < '0' || *p > '9')
        return 0;
    for (; p != end && *p >= '0' && *p <= '9'; p++) {
        n = 10 * n + (uint64_t)(*p - '0');
        if (n > 0xffffffffu)
            return 0;
    }
    *number = (unsigned)n;
    *at = p;
    return 1;
}

/* Reads so many fields of a line, from the first tab on, and its line feed. */
static inline int wimtaze_rows_fields(const uint8_t **at, const uint8_t *end, unsigned count, unsigned *numbers)
{
    const uint8_t *p = *at;
    for (unsigned k = 0; k < count; k++)
        if (!wimtaze_rows_field(&p, end, &numbers[k]))
            return 0;
    if (p == end || *p != '\n')
        return 0;
    *at = p + 1;
    return 1;
}

/* A reader that came to something that is no line of a sheet reads nothing more. */
static inline int wimtaze_rows_break(struct wimtaze_rows *rows)
{
    rows->broken = 1;
    rows->at = rows->end;
    return 0;
}

static inline struct wimtaze_identifier wimtaze_rows_pair(const unsigned *numbers)
{
    struct wimtaze_identifier id;
    id.laptop = numbers[0];
    id.clock = numbers[1];
    return id;
}

/* ---- reading */

/* Begins to read a sheet. */
static inline struct wimtaze_rows wimtaze_read_sheet(const uint8_t *sheet, size_t length)
{
    struct wimtaze_rows rows = {sheet, sheet + length, 0, 0, 0, 0, 0};
    unsigned numbers[2];
    const uint8_t *p = sheet + 2;
    if (length < 2 || sheet[0] != 'S' || sheet[1] != '2' || !wimtaze_rows_fields(&p, rows.end, 2, numbers)) {
        wimtaze_rows_break(&rows);
        return rows;
    }
    rows.at = p;
    rows.laptop = numbers[0];
    rows.clock = numbers[1];
    return rows;
}

/* Reads the next character, from the top. Answers 0 when there is none left: what waits comes after them. */
static inline int wimtaze_next_row(struct wimtaze_rows *rows, struct wimtaze_row *row)
{
    unsigned numbers[8];
    const uint8_t *p = rows->at;
    if (p == rows->end || *p != 'C')
        return 0;
    p++;
    if (!wimtaze_rows_fields(&p, rows->end, 8, numbers))
        return wimtaze_rows_break(rows);
    rows->at = p;
    row->id = wimtaze_rows_pair(numbers);
    row->code_point = numbers[2];
    row->turn = numbers[3];
    row->previous = wimtaze_rows_pair(numbers + 4);
    row->next = wimtaze_rows_pair(numbers + 6);
    row->place = ++rows->place;
    row->shown = rows->shown += row->turn % 2 == 0;
    return 1;
}

static inline int wimtaze_is_shown(const struct wimtaze_row *row)
{
    return row->turn % 2 == 0;
}

/*
 * Reads one line, of an edit that waits or of any other, with its line feed; answers its length, 0 if it is none. D is
 * read as E with turn 1.
 */
static inline size_t wimtaze_read_line(const uint8_t *line, size_t length, struct wimtaze_waiting *edit)
{
    static const struct wimtaze_identifier beginning = {0, 0}, end_mark = {0, 1};
    unsigned numbers[7];
    const uint8_t *p = line + 1, *end = line + length;
    int typed = length > 0 && *line == 'I';
    numbers[3] = 1;
    if (length == 0 || (*line != 'I' && *line != 'E' && *line != 'D') ||
        !wimtaze_rows_fields(&p, end, typed ? 7 : *line == 'E' ? 4 : 3, numbers))
        return 0;
    edit->kind = typed ? 'I' : 'E';
    edit->sender = numbers[0];
    edit->id = wimtaze_rows_pair(typed ? numbers : numbers + 1);
    edit->code_point = typed ? numbers[2] : 0;
    edit->turn = typed ? 0 : numbers[3];
    edit->previous = typed ? wimtaze_rows_pair(numbers + 3) : beginning;
    edit->next = typed ? wimtaze_rows_pair(numbers + 5) : end_mark;
    edit->line = line;
    edit->length = (size_t)(p - line);
    return edit->length;
}

/* Reads the next edit that waits, the earliest first, past the characters that were not read. Answers 0 at the end. */
static inline int wimtaze_next_waiting(struct wimtaze_rows *rows, struct wimtaze_waiting *edit)
{
    struct wimtaze_row row;
    while (wimtaze_next_row(rows, &row))
        ;
    if (rows->at == rows->end)
        return 0;
    size_t length = wimtaze_read_line(rows->at, (size_t)(rows->end - rows->at), edit);
    if (length == 0 || *rows->at == 'D')
        return wimtaze_rows_break(rows);
    rows->at += length;
    return 1;
}

/* ---- looking up */

/* The character that is shown at a place of the text, from 1. Answers 0 if there is none. */
static inline int wimtaze_shown_at(const uint8_t *sheet, size_t length, unsigned place, struct wimtaze_row *row)
{
    struct wimtaze_rows rows = wimtaze_read_sheet(sheet, length);
    while (wimtaze_next_row(&rows, row))
        if (wimtaze_is_shown(row) && row->shown == place)
            return 1;
    return 0;
}

/* The character with this identifier, shown or erased. Answers 0 if it is not on the sheet. */
static inline int wimtaze_row_of(const uint8_t *sheet, size_t length, struct wimtaze_identifier id,
                                 struct wimtaze_row *row)
{
    struct wimtaze_rows rows = wimtaze_read_sheet(sheet, length);
    while (wimtaze_next_row(&rows, row))
        if (row->id.laptop == id.laptop && row->id.clock == id.clock)
            return 1;
    return 0;
}

/*
 * What an edit needs that is not on the sheet: of I its neighbours, of E its character. Answers how many, at most 2.
 * What waits on a sheet that the library wrote needs at least one.
 */
static inline unsigned wimtaze_needs(const uint8_t *sheet, size_t length, const struct wimtaze_waiting *edit,
                                     struct wimtaze_identifier *needs)
{
    struct wimtaze_row row;
    unsigned count = 0;
    if (edit->kind == 'E') {
        if (!wimtaze_row_of(sheet, length, edit->id, &row))
            needs[count++] = edit->id;
        return count;
    }
    if (edit->previous.laptop != 0 && !wimtaze_row_of(sheet, length, edit->previous, &row))
        needs[count++] = edit->previous;
    if (edit->next.laptop != 0 && !wimtaze_row_of(sheet, length, edit->next, &row))
        needs[count++] = edit->next;
    return count;
}

#ifdef __cplusplus
}
#endif

#endif
