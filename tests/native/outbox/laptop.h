/*
 * A laptop's end of a shared sheet, by the rules of wimtaze.h, "What your program must do". It is there to be copied:
 * how lines travel from laptop to laptop is left to the program around it. pairing.c has two laptops and a network in
 * memory, playing_hall.c sixteen processes that send datagrams. Both go round and round in this order:
 *
 *     take in what has come            laptop_receive, laptop_acknowledged
 *     type, paste, erase, restore      laptop_type, laptop_paste, laptop_erase, laptop_restore
 *     save                             laptop_save
 *     send                             an acknowledgement for each line that was taken in, and the outbox
 *
 * so that nothing is sent, lines and acknowledgements alike, before the sheet that has it is on the disk.
 *
 * An acknowledgement is the line itself, sent back. (If lines were numbered for this, they would be numbered anew after
 * a crash, and a late acknowledgement be taken for that of another line.)
 *
 * (A laptop that lost its sheet and keeps its number is opened by anew.h. Until it has all it saves nothing and makes
 * no edits; if it ends before that, everything is sent to it again.)
 *
 * The laptops are 1 to some count, at most 16, and share out the sheet's 1,024 characters evenly. Include this file
 * before any other, in one file of a program.
 */
#ifndef LAPTOP_H
#define LAPTOP_H

#ifndef _POSIX_C_SOURCE
#define _POSIX_C_SOURCE 200809L
#endif

#include <wimtaze.h>

#include <errno.h>
#include <fcntl.h>
#include <stdio.h>
#include <stdlib.h>
#include <string.h>
#include <unistd.h>

/* A line to be sent, until every laptop that it is for has acknowledged it. */
struct letter {
    uint8_t line[WIMTAZE_LINE_MAX];
    size_t length;
    uint32_t missing; /* bit n is set as long as laptop n has not acknowledged it */
    uint64_t due;     /* when to send it again: for the program's use, 0 at first */
};

enum { LAPTOP_HELD = 64, LAPTOP_PATH = 1024 };

struct laptop {
    unsigned number;
    unsigned count; /* how many laptops there are */

    uint8_t sheet[WIMTAZE_SHEET_MAX], after[WIMTAZE_SHEET_MAX];
    size_t length;
    int saved; /* whether the file has this sheet */
    char file[LAPTOP_PATH], new_file[LAPTOP_PATH], anew_file[LAPTOP_PATH], lock_file[LAPTOP_PATH];
    int directory, lock;

    /*
     * A gap, at most the count of shown characters, which the program sets when its user moves the cursor. It keeps its
     * place in the text through everything that comes and is edited here.
     */
    uint64_t cursor;

    struct letter *outbox; /* the oldest first */
    size_t outbox_count, outbox_room;

    struct letter held[LAPTOP_HELD]; /* lines that were refused with 10 */
    size_t held_count;

    /* See anew.h. */
    uint64_t anew;                          /* opened anew under this number; else 0 */
    uint32_t awaited;                       /* bit n is set as long as laptop n has not told it that it has all */
    uint64_t asked[WIMTAZE_LAPTOP_MAX + 1]; /* the numbers under which others, opened anew, asked for everything */
};

/* Ends the program, since its disk or memory fails it: a laptop that cannot save must not send. */
static void laptop_die(const char *what)
{
    perror(what);
    exit(EXIT_FAILURE);
}

/* ---- reading a sheet, which the library wrote */

/* The number in field k of a line; field 0 is its letter. */
static unsigned laptop_field(const uint8_t *line, unsigned k)
{
    unsigned number = 0;
    while (k > 0)
        if (*line++ == '\t')
            k--;
    for (; *line >= '0' && *line <= '9'; line++)
        number = 10 * number + (unsigned)(*line - '0');
    return number;
}

/* The first character's line of the sheet, and the one after a given one; NULL when there is none left. */
static const uint8_t *laptop_row_after(const struct laptop *laptop, const uint8_t *line)
{
    while (*line++ != '\n')
        ;
    return line < laptop->sheet + laptop->length && *line == 'C' ? line : NULL;
}

static const uint8_t *laptop_first_row(const struct laptop *laptop)
{
    return laptop_row_after(laptop, laptop->sheet);
}

/* Whether the character of this line of the sheet is shown. */
static int laptop_is_shown(const uint8_t *row)
{
    return laptop_field(row, 4) % 2 == 0;
}

/*
 * How many characters this laptop may still type: what is left of its share, if the sheet can take so many; none as
 * long as some of its own characters may not have come back.
 */
static unsigned laptop_room(const struct laptop *laptop)
{
    if (laptop->awaited != 0)
        return 0;
    unsigned room = wimtaze_room(wimtaze_counts(laptop->sheet, laptop->length));
    unsigned share = WIMTAZE_CHARACTER_MAX / laptop->count, typed = laptop_field(laptop->sheet, 2);
    unsigned left = typed < share ? share - typed : 0;
    return left < room ? left : room;
}

/* ---- the outbox */

static void laptop_post(struct laptop *laptop, const void *line, size_t length, uint32_t to)
{
    for (size_t k = 0; k < laptop->outbox_count; k++)
        if (laptop->outbox[k].length == length && memcmp(laptop->outbox[k].line, line, length) == 0) {
            laptop->outbox[k].missing |= to;
            return;
        }
    if (laptop->outbox_count == laptop->outbox_room) {
        laptop->outbox_room = laptop->outbox_room == 0 ? 64 : 2 * laptop->outbox_room;
        laptop->outbox = realloc(laptop->outbox, laptop->outbox_room * sizeof *laptop->outbox);
        if (laptop->outbox == NULL)
            laptop_die("outbox");
    }
    struct letter *letter = &laptop->outbox[laptop->outbox_count++];
    memcpy(letter->line, line, length);
    letter->length = length;
    letter->missing = to;
    letter->due = 0;
}

/* The other laptops, a bit for each. */
static uint32_t laptop_others(const struct laptop *laptop)
{
    return (2u << laptop->count) - 2 - (1u << laptop->number);
}

/* Makes the lines of the sheet's characters again: of its own or of all, and of every one erased or restored. */
static void laptop_post_rows(struct laptop *laptop, int all, uint32_t to)
{
    for (const uint8_t *row = laptop_first_row(laptop); row != NULL; row = laptop_row_after(laptop, row)) {
        char line[WIMTAZE_LINE_MAX + 1];
        unsigned by = laptop_field(row, 1), clock = laptop_field(row, 2), turn = laptop_field(row, 4);
        if (all || by == laptop->number) {
            int n = sprintf(line, "I\t%u\t%u\t%u\t%u\t%u\t%u\t%u\n", by, clock, laptop_field(row, 3),
                            laptop_field(row, 5), laptop_field(row, 6), laptop_field(row, 7), laptop_field(row, 8));
            laptop_post(laptop, line, (size_t)n, to);
        }
        if (turn > 0) {
            int n = sprintf(line, "E\t%u\t%u\t%u\t%u\n", laptop->number, by, clock, turn);
            laptop_post(laptop, line, (size_t)n, to);
        }
    }
}

/* The same of the edits that wait, which are lines already: its own or all. */
static void laptop_post_waiting(struct laptop *laptop, int all, uint32_t to)
{
    const uint8_t *end = laptop->sheet + laptop->length;
    for (const uint8_t *line = laptop->sheet; line < end;) {
        const uint8_t *next = (const uint8_t *)memchr(line, '\n', (size_t)(end - line)) + 1;
        if ((*line == 'I' || *line == 'E') && (all || laptop_field(line, 1) == laptop->number))
            laptop_post(laptop, line, (size_t)(next - line), to);
        line = next;
    }
}

/* The lines that some laptop may lack after a crash. */
static void laptop_fill_outbox(struct laptop *laptop)
{
    laptop_post_rows(laptop, 0, laptop_others(laptop));
    laptop_post_waiting(laptop, 0, laptop_others(laptop));
}

/* Takes in that laptop `from` has acknowledged a line. */
static void laptop_acknowledged(struct laptop *laptop, unsigned from, const uint8_t *line, size_t length)
{
    for (size_t k = 0; k < laptop->outbox_count; k++) {
        struct letter *letter = &laptop->outbox[k];
        if (letter->length != length || memcmp(letter->line, line, length) != 0)
            continue;
        letter->missing &= ~(1u << from);
        if (letter->missing == 0)
            memmove(letter, letter + 1, (--laptop->outbox_count - k) * sizeof *letter);
        return;
    }
}

/* ---- the sheet */

/* Takes the new sheet, if the call wrote one. */
static void laptop_keep(struct laptop *laptop, uint64_t reply)
{
    enum wimtaze_words word = wimtaze_word(reply);
    if (word == WIMTAZE_DONE || word == WIMTAZE_WAITS) {
        laptop->length = wimtaze_written(reply);
        memcpy(laptop->sheet, laptop->after, laptop->length);
        laptop->saved = 0;
    }
}

/*
 * Brings the sheet to the disk, whole or not at all: to a new file, which then takes the old one's name. The sheet of a
 * laptop that was opened anew is no sheet to go on from until it has all.
 */
static void laptop_save(struct laptop *laptop)
{
    if (laptop->saved || laptop->awaited != 0)
        return;
    FILE *file = fopen(laptop->new_file, "wb");
    if (file == NULL || fwrite(laptop->sheet, 1, laptop->length, file) != laptop->length || fflush(file) != 0 ||
        fsync(fileno(file)) != 0 || fclose(file) != 0 || rename(laptop->new_file, laptop->file) != 0 ||
        fsync(laptop->directory) != 0)
        laptop_die(laptop->file);
    laptop->saved = 1;
}

/* Receives a line on the sheet as it is, and moves the cursor as it will be on the new one. */
static uint64_t laptop_receive_at_cursor(struct laptop *laptop, const uint8_t *line, size_t length)
{
    uint64_t reply = wimtaze_receive_at(laptop->sheet, laptop->length, line, length, laptop->cursor, laptop->after,
                                        sizeof laptop->after);
    laptop->cursor = wimtaze_moved(laptop->cursor, wimtaze_shift(reply));
    return reply;
}

/*
 * Takes the new sheet of an edit that was made here, and posts its line. Before that the line, received like one that
 * comes, writes the same sheet again, for the cursor's sake.
 */
static enum wimtaze_refusals laptop_made(struct laptop *laptop, uint64_t reply, const uint8_t *line)
{
    if (wimtaze_word(reply) == WIMTAZE_DONE) {
        laptop_receive_at_cursor(laptop, line, wimtaze_line_written(reply));
        laptop_keep(laptop, reply);
        laptop_post(laptop, line, wimtaze_line_written(reply), laptop_others(laptop));
    }
    return wimtaze_refusal(reply);
}

/*
 * Types a character; refused with 11 also at the end of the laptop's share, and as long as it awaits others. The cursor
 * goes behind a character that is typed at it, unless something that waited for the character came with it.
 */
static enum wimtaze_refusals laptop_type(struct laptop *laptop, uint64_t gap, uint32_t code_point)
{
    uint8_t line[WIMTAZE_LINE_MAX];
    if (laptop_room(laptop) == 0)
        return WIMTAZE_REFUSAL_DOCUMENT_FULL;
    int at_cursor = gap == laptop->cursor;
    uint64_t reply = wimtaze_type(laptop->sheet, laptop->length, gap, code_point, laptop->after, sizeof laptop->after,
                                  line, sizeof line);
    enum wimtaze_refusals refusal = laptop_made(laptop, reply, line);
    if (at_cursor && wimtaze_carried(reply) == 1)
        laptop->cursor = wimtaze_moved(laptop->cursor, 1);
    return refusal;
}

/*
 * Takes the new sheet of a pasted block, and posts its lines. The cursor goes behind a block that is pasted at it.
 * Where it is elsewhere, or something that waited came with the characters, the lines are received one by one instead,
 * like lines that come: they leave the same sheet, and the cursor in its place.
 */
static void laptop_pasted(struct laptop *laptop, uint64_t gap, uint64_t reply, const uint8_t *lines, unsigned count)
{
    int behind = gap == laptop->cursor && wimtaze_carried(reply) == count;
    if (behind) {
        laptop_keep(laptop, reply);
        laptop->cursor = wimtaze_moved(laptop->cursor, (int32_t)count);
    }
    for (; count > 0; count--) {
        size_t length = (size_t)((const uint8_t *)memchr(lines, '\n', WIMTAZE_LINE_MAX) + 1 - lines);
        if (!behind)
            laptop_keep(laptop, laptop_receive_at_cursor(laptop, lines, length));
        laptop_post(laptop, lines, length, laptop_others(laptop));
        lines += length;
    }
}

/* Pastes a text in UTF-8, all of it or nothing; refused with 11 also where it is more than the laptop may type. */
static enum wimtaze_refusals laptop_paste(struct laptop *laptop, uint64_t gap, const void *text, size_t length)
{
    static uint8_t lines[WIMTAZE_LINES_MAX];
    unsigned count = 0;
    uint64_t reply = wimtaze_paste(laptop->sheet, laptop->length, gap, (const uint8_t *)text, length, laptop->after,
                                   sizeof laptop->after, lines, sizeof lines);
    for (size_t k = 0; k < wimtaze_line_written(reply); k++)
        count += lines[k] == '\n';
    if (count > laptop_room(laptop))
        return WIMTAZE_REFUSAL_DOCUMENT_FULL;
    laptop_pasted(laptop, gap, reply, lines, count);
    return wimtaze_refusal(reply);
}

/* Erases a character; refused with 4 also as long as the laptop awaits others. */
static enum wimtaze_refusals laptop_erase(struct laptop *laptop, uint64_t place)
{
    uint8_t line[WIMTAZE_LINE_MAX];
    if (laptop->awaited != 0)
        return WIMTAZE_REFUSAL_POSITION;
    uint64_t reply = wimtaze_erase(laptop->sheet, laptop->length, place, laptop->after, sizeof laptop->after, line,
                                   sizeof line);
    return laptop_made(laptop, reply, line);
}

/* Brings back an erased character, by its identifier; refused with 13 also as long as the laptop awaits others. */
static enum wimtaze_refusals laptop_restore(struct laptop *laptop, unsigned by, unsigned clock)
{
    uint8_t line[WIMTAZE_LINE_MAX];
    if (laptop->awaited != 0)
        return WIMTAZE_REFUSAL_NOT_HIDDEN;
    uint64_t reply = wimtaze_restore(laptop->sheet, laptop->length, by, clock, laptop->after, sizeof laptop->after,
                                     line, sizeof line);
    return laptop_made(laptop, reply, line);
}

/* ---- receiving */

static uint64_t laptop_try(struct laptop *laptop, const uint8_t *line, size_t length)
{
    uint64_t reply = laptop_receive_at_cursor(laptop, line, length);
    laptop_keep(laptop, reply);
    return reply;
}

/* Holds a line that was refused with 10. Where there is no space it is dropped: its sender sends it again. */
static void laptop_hold(struct laptop *laptop, const uint8_t *line, size_t length)
{
    for (size_t k = 0; k < laptop->held_count; k++)
        if (laptop->held[k].length == length && memcmp(laptop->held[k].line, line, length) == 0)
            return;
    if (laptop->held_count < LAPTOP_HELD && length <= WIMTAZE_LINE_MAX) {
        struct letter *held = &laptop->held[laptop->held_count++];
        memcpy(held->line, line, length);
        held->length = length;
    }
}

/*
 * Tries the held lines again, after something was carried out, and from the start when that carries out more. One that
 * comes in is acknowledged when its sender sends it again, since it is known then.
 */
static void laptop_try_held(struct laptop *laptop)
{
    for (size_t k = 0; k < laptop->held_count;) {
        uint64_t reply = laptop_try(laptop, laptop->held[k].line, laptop->held[k].length);
        if (wimtaze_refusal(reply) == WIMTAZE_REFUSAL_SENDER_FULL) {
            k++;
        } else {
            laptop->held[k] = laptop->held[--laptop->held_count];
            if (wimtaze_word(reply) == WIMTAZE_DONE)
                k = 0;
        }
    }
}

/*
 * Takes in a line. Acknowledge it, once the sheet is saved, unless the word is WIMTAZE_REFUSED. A refusal other than 10
 * means that the line was damaged or that some laptop broke the rules, and is a person's business.
 */
static uint64_t laptop_receive(struct laptop *laptop, const uint8_t *line, size_t length)
{
    uint64_t reply = laptop_try(laptop, line, length);
    enum wimtaze_refusals refusal = wimtaze_refusal(reply);
    if (wimtaze_word(reply) == WIMTAZE_DONE)
        laptop_try_held(laptop);
    else if (refusal == WIMTAZE_REFUSAL_SENDER_FULL)
        laptop_hold(laptop, line, length);
    else if (refusal != WIMTAZE_REFUSAL_NONE)
        fprintf(stderr, "laptop %u refuses a line with %d\n", laptop->number, (int)refusal);
    return reply;
}

/* ---- starting and stopping */

/* Lets no second program on the file: it would be another laptop with the same number. */
static void laptop_lock(struct laptop *laptop)
{
    struct flock whole = {.l_type = F_WRLCK, .l_whence = SEEK_SET};
    laptop->lock = open(laptop->lock_file, O_RDWR | O_CREAT, 0666);
    if (laptop->lock < 0 || fcntl(laptop->lock, F_SETLK, &whole) != 0)
        laptop_die(laptop->lock_file);
}

static void laptop_begin(struct laptop *laptop)
{
    laptop_keep(laptop, wimtaze_empty(laptop->number, laptop->after, sizeof laptop->after));
    laptop_save(laptop);
}

/*
 * Goes on from the file. Where there is none yet, and not where one was lost, it begins an empty sheet. A file that is
 * refused was damaged, or another program wrote it: with 16 it is one that no typing leaves.
 */
static void laptop_load(struct laptop *laptop)
{
    if (access(laptop->anew_file, F_OK) == 0) {
        fprintf(stderr, "%s: this laptop was opened anew and does not have all yet\n", laptop->anew_file);
        exit(EXIT_FAILURE);
    }
    FILE *file = fopen(laptop->file, "rb");
    if (file == NULL && errno != ENOENT)
        laptop_die(laptop->file);
    if (file == NULL) {
        laptop_begin(laptop);
        return;
    }
    size_t length = fread(laptop->after, 1, sizeof laptop->after, file);
    if (ferror(file) || fclose(file) != 0)
        laptop_die(laptop->file);
    uint64_t reply = wimtaze_load(laptop->after, length, laptop->sheet, sizeof laptop->sheet);
    if (wimtaze_word(reply) != WIMTAZE_DONE || laptop_field(laptop->sheet, 1) != laptop->number) {
        fprintf(stderr, "%s: not the sheet of laptop %u (%d)\n", laptop->file, laptop->number,
                (int)wimtaze_refusal(reply));
        exit(EXIT_FAILURE);
    }
    laptop->length = wimtaze_written(reply);
    laptop->saved = laptop->length == length && memcmp(laptop->sheet, laptop->after, length) == 0;
    laptop_fill_outbox(laptop);
}

static void laptop_path(char *path, const char *directory, unsigned number, const char *ending)
{
    if (snprintf(path, LAPTOP_PATH, "%s/laptop-%u%s", directory, number, ending) >= LAPTOP_PATH) {
        errno = ENAMETOOLONG;
        laptop_die(directory);
    }
}

/* Everything about laptop `number` of `count` but its sheet. */
static void laptop_prepare(struct laptop *laptop, const char *directory, unsigned number, unsigned count)
{
    memset(laptop, 0, sizeof *laptop);
    laptop->number = number;
    laptop->count = count;
    laptop_path(laptop->file, directory, number, "");
    laptop_path(laptop->new_file, directory, number, ".new");
    laptop_path(laptop->anew_file, directory, number, ".anew");
    laptop_path(laptop->lock_file, directory, number, ".lock");
    laptop->directory = open(directory, O_RDONLY);
    if (laptop->directory < 0)
        laptop_die(directory);
    laptop_lock(laptop);
}

/* Opens laptop `number` of `count`, whose sheet is the file "laptop-<number>" of the directory. */
static void laptop_open(struct laptop *laptop, const char *directory, unsigned number, unsigned count)
{
    laptop_prepare(laptop, directory, number, count);
    laptop_load(laptop);
}

static void laptop_close(struct laptop *laptop)
{
    free(laptop->outbox);
    close(laptop->directory);
    close(laptop->lock);
}

#endif
