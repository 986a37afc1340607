/*
 * A laptop that joins late. Each of the others writes down the lines of all that its sheet holds; the files are carried
 * over in any way, put one behind the other, and the sheet of the new laptop is built of them.
 *
 *     joining lines <SHEET >LINES
 *     cat LINES... | joining NUMBER >SHEET
 *
 * The sheet has all that the others held, and the laptop goes on from it. If something is refused nothing is printed,
 * the reason is told on standard error, and the exit status is 1. So it is if an edit had to be left out, since a line
 * that it needs is in none of the files: then the sheet is printed, but not all of the lines are on it.
 */
#include <wimtaze.h>
#include <wimtaze_rows.h>

#include <stdio.h>
#include <stdlib.h>
#include <string.h>

/* As many bytes as the lines of sixteen laptops have at most, and one more, so that a longer file is not cut. */
static char from[WIMTAZE_LAPTOP_MAX * (WIMTAZE_HEAP_MAX + WIMTAZE_SHEET_MAX) + 1];
static uint8_t heap[sizeof from], sheet[WIMTAZE_SHEET_MAX];

static int refused(uint64_t reply, const char *what)
{
    fprintf(stderr, "%s refused with %d: %s\n", what, (int)wimtaze_refusal(reply),
            wimtaze_refusal_text(wimtaze_refusal(reply)));
    return EXIT_FAILURE;
}

static int failed(void)
{
    perror("joining");
    return EXIT_FAILURE;
}

/* ---- the lines of a sheet */

/* Of a character, and of what became of it since, with the sheet's own laptop as the sender. */
static void write_row(const struct wimtaze_row *row, unsigned own)
{
    printf("I\t%u\t%u\t%u\t%u\t%u\t%u\t%u\n", row->id.laptop, row->id.clock, (unsigned)row->code_point,
           row->previous.laptop, row->previous.clock, row->next.laptop, row->next.clock);
    if (row->turn > 0)
        printf("E\t%u\t%u\t%u\t%u\n", own, row->id.laptop, row->id.clock, row->turn);
}

/* What waits on the sheet is lines already. */
static int write_lines(size_t length)
{
    uint64_t reply = wimtaze_counts((const uint8_t *)from, length);
    if (wimtaze_word(reply) != WIMTAZE_DONE)
        return refused(reply, "the sheet is");
    struct wimtaze_rows rows = wimtaze_read_sheet((const uint8_t *)from, length);
    struct wimtaze_row row;
    struct wimtaze_waiting edit;
    while (wimtaze_next_row(&rows, &row))
        write_row(&row, rows.laptop);
    while (wimtaze_next_waiting(&rows, &edit))
        printf("%.*s", (int)edit.length, (const char *)edit.line);
    return fflush(stdout) == 0 ? EXIT_SUCCESS : failed();
}

/* ---- the sheet of lines */

struct edit {
    const char *line;
    size_t length;
    unsigned laptop, clock, turn; /* of a line that erases or restores; else turn is 0 */
};

/* A line that is refused as a heap by itself was damaged. It stays as it is, and the whole heap is refused with it. */
static struct edit edit_of(const char *line, size_t length)
{
    struct edit edit = {line, length, 0, 0, 0};
    struct wimtaze_waiting read;
    uint64_t reply = wimtaze_build(1, (const uint8_t *)line, length, sheet, sizeof sheet);
    if (wimtaze_word(reply) == WIMTAZE_DONE && wimtaze_read_line((const uint8_t *)line, length, &read) > 0 &&
        read.kind == 'E') {
        edit.laptop = read.id.laptop;
        edit.clock = read.id.clock;
        edit.turn = read.turn;
    }
    return edit;
}

/* The lines of one character that erase or restore it stand together, the highest turn first; and so do equal lines. */
static int compare(const void *a, const void *b)
{
    const struct edit *x = a, *y = b;
    if (x->turn > 0 && y->turn > 0) {
        if (x->laptop != y->laptop)
            return x->laptop < y->laptop ? -1 : 1;
        if (x->clock != y->clock)
            return x->clock < y->clock ? -1 : 1;
        if (x->turn != y->turn)
            return x->turn < y->turn ? 1 : -1;
    }
    int order = memcmp(x->line, y->line, x->length < y->length ? x->length : y->length);
    return order != 0 ? order : (x->length > y->length) - (x->length < y->length);
}

/* Whether the second line says nothing that the first does not, which stands before it. */
static int is_idle(const struct edit *x, const struct edit *y)
{
    if (x->turn > 0 && y->turn > 0)
        return x->laptop == y->laptop && x->clock == y->clock;
    return x->length == y->length && memcmp(x->line, y->line, x->length) == 0;
}

/* Puts the lines on the heap, but those that only repeat others: a heap has no more than 1,024 of either kind. */
static size_t fill_heap(size_t length)
{
    size_t count = 0, filled = 0;
    struct edit *edits = malloc((length + 1) * sizeof *edits);
    if (edits == NULL)
        exit(failed());
    for (const char *line = from, *end = from + length; line < end; line += edits[count++].length) {
        const char *feed = memchr(line, '\n', (size_t)(end - line));
        edits[count] = edit_of(line, (size_t)((feed == NULL ? end : feed + 1) - line));
    }
    qsort(edits, count, sizeof *edits, compare);
    for (size_t k = 0, kept = 0; k < count; k++)
        if (k == 0 || !is_idle(&edits[kept], &edits[k])) {
            memcpy(heap + filled, edits[k].line, edits[k].length);
            filled += edits[k].length;
            kept = k;
        }
    free(edits);
    return filled;
}

static int build(uint64_t number, size_t length)
{
    uint64_t reply = wimtaze_build(number, heap, fill_heap(length), sheet, sizeof sheet);
    if (wimtaze_word(reply) != WIMTAZE_DONE)
        return refused(reply, "the lines are");
    size_t written = wimtaze_written(reply);
    if (fwrite(sheet, 1, written, stdout) != written || fflush(stdout) != 0)
        return failed();
    if (wimtaze_left_out(reply) == 0)
        return EXIT_SUCCESS;
    fprintf(stderr, "left out, since a line that it needs is not there: %u\n", wimtaze_left_out(reply));
    return EXIT_FAILURE;
}

int main(int argc, char **argv)
{
    unsigned long number = argc == 2 ? strtoul(argv[1], NULL, 10) : 0;
    int lines = argc == 2 && strcmp(argv[1], "lines") == 0;
    if (!lines && number == 0) {
        fputs("usage: joining lines <SHEET >LINES\n       joining NUMBER <LINES >SHEET\n", stderr);
        return 2;
    }
    size_t length = fread(from, 1, sizeof from - 1, stdin);
    if (ferror(stdin))
        return failed();
    return lines ? write_lines(length) : build(number, length);
}
