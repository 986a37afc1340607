/*
 * A laptop's end of a shared sheet, by the rules of wimtaze.h, "What your program must do". It is there to be copied.
 * It opens no connection: the program hands in the datagrams that come, and sends those that it is given. It keeps the
 * file, the cursor, what is to be sent and when, and who is who. playing_hall.c runs sixteen such laptops, pairing.c
 * two. It is C99 and C++, and allocates nothing.
 *
 * Beginning. A laptop has a file in a folder, "laptop-<number>". All laptops of a sheet agree on the sheet's number,
 * 0 to 65,535, and on their count, at most 16; each has a number of its own, 1 to the count. The sheet's number keeps
 * sheets apart: what belongs to another is dropped, and a full sheet is followed by one with the next number. Each of
 * these returns LAPTOP_FINE, or what is wrong, with a sentence for a person in laptop->why; nothing is open then.
 *
 *     laptop_create(laptop, folder, sheet, number, count)         a number that was never used on this sheet; refused
 *                                                                 if there is a file
 *     laptop_open(laptop, folder, sheet, number, count)           goes on from its file; refused if there is none
 *     laptop_set_up_anew(laptop, folder, sheet, number, count)    its file is lost, damaged or old, or the laptop joins
 *                                                                 late: it asks the others first, see below
 *     laptop_adopt(laptop, folder, sheet, number, count, bytes, length)
 *                                                                 makes the file of a saved sheet that is known to be
 *                                                                 whole and this laptop's last, as one that an earlier
 *                                                                 version of this file kept; refused if there is a file
 *     laptop_close(laptop)                                        saves, and lets go of the file
 *
 * One round of the program's loop. `now` is a clock in milliseconds that never goes back.
 *
 *     laptop_take_in(laptop, now, bytes, length)    for each datagram that came: answers whether the sheet changed
 *     laptop_type(laptop, gap, code_point)          the edits of the user, at laptop->cursor or anywhere; each answers
 *     laptop_paste(laptop, gap, text, length)       WIMTAZE_REFUSAL_NONE or why not: wimtaze_refusal_text tells it
 *     laptop_erase(laptop, place)
 *     laptop_restore(laptop, by, clock)
 *     laptop_next(laptop, now, &datagram)           again and again while it answers 1: send datagram.bytes, of
 *                                                   datagram.length, to laptop datagram.to, or to each of the others if
 *                                                   that is 0. It saves first; -1 says that the disk fails, and nothing
 *                                                   may be sent: laptop->why
 *     laptop_pause(laptop, now)                     how many milliseconds to wait for a datagram or a key until
 *                                                   laptop_next is to be called again
 *
 * What there is to show.
 *
 *     laptop->cursor                    a gap, which the program sets when the user moves it; it keeps its place
 *                                       through everything that comes and is edited
 *     laptop_text(laptop, text)         the text in UTF-8, at most WIMTAZE_TEXT_MAX bytes; answers its length
 *     laptop_shown(laptop, rows)        the shown characters from the top, at most WIMTAZE_CHARACTER_MAX, each with who
 *                                       typed it, its identifier and its turn (wimtaze_rows.h); answers their count
 *     laptop->sheet, laptop->length     the saved sheet: wimtaze_rows.h reads what is erased on it, and what waits and
 *                                       for what
 *     laptop_room(laptop)               how many characters the user may still type
 *     laptop_may_edit(laptop)           0 as long as it asks the others, and once it was stopped
 *     laptop->awaited                   bit n is set as long as laptop n has not told it what it needs
 *     laptop->stopped                   not LAPTOP_FINE when it must not go on: laptop->why tells the person
 *     laptop->other[n]                  when laptop n was heard last, how many of our characters its last list lacked
 *     laptop_message(laptop)            what a person should know, one sentence after another; NULL when there is none
 *
 * Saving. laptop_next and laptop_close save; laptop_save does so too. The file has a first line, the frame, and then
 * the saved sheet as it is (tail -n +2 prints it). The frame tells the length of the sheet and a checksum over all that
 * follows, so that no part of a file is taken for the whole. It goes to a new file, is synced, takes the old one's
 * name, and the folder is synced. A lock keeps a second program away.
 *
 * Sending. A line that is made here goes to all the others at once, and never again. Instead each laptop asks: it sends
 * its list to one of the others, in turn, and the other answers with what is not listed, cut at line ends into
 * datagrams of at most LAPTOP_DATAGRAM bytes. Any of these may be lost, come twice or late, since the next list asks
 * again. It asks soon when something waits, or when another's list has what it lacks; a little later after something
 * came; and otherwise with pauses that double, so that a quiet hall is quiet. Nobody is told when all have everything;
 * who wants to show it looks at laptop->other[n].lacked.
 *
 * Lives. A laptop that is created or set up anew begins a life, a number which is the time of day in milliseconds and
 * stands in every datagram. The others keep the highest life that they know for each number, in their files, and drop
 * what an earlier life sent, however late it comes. A laptop that is set up anew types nothing until each of the others
 * has told it the highest clock of its number that is named on that sheet, and knows of all lives that it knows of.
 * Then its clock goes above them all. So nothing that an earlier life typed comes to any sheet any more, but what is
 * below that clock, and no identifier stands for two characters: docs/DECISIONS.md, "The program over lists", has the
 * argument. A clock that was set back does no harm: the others tell it a higher life, and it goes above that. A laptop
 * that is gone for good, or was never begun, is left out with laptop_gone(laptop, number); if it comes after all, it is
 * set up anew too.
 *
 * Include this file before any other, in one file of a program.
 */
#ifndef LAPTOP_H
#define LAPTOP_H

#ifndef _POSIX_C_SOURCE
#define _POSIX_C_SOURCE 200809L
#endif

#include <wimtaze.h>
#include <wimtaze_rows.h>

#include <errno.h>
#include <fcntl.h>
#include <stdarg.h>
#include <stdio.h>
#include <stdlib.h>
#include <string.h>
#include <time.h>
#include <unistd.h>

/* What is wrong with a file, or with a laptop that must not go on. */
enum laptop_trouble {
    LAPTOP_FINE = 0,
    LAPTOP_RANGE,       /* the sheet's number, the laptop's or the count is out of its range */
    LAPTOP_DISK,        /* the system fails: no such folder, no space, no right */
    LAPTOP_LOCKED,      /* another program has the file open */
    LAPTOP_MISSING,     /* there is no file to open */
    LAPTOP_EXISTS,      /* there is a file where one is to be made */
    LAPTOP_NO_FRAME,    /* the file is none of this program's: a bare sheet, for instance */
    LAPTOP_FIRST_FORM,  /* the file is a sheet in the first form */
    LAPTOP_CUT,         /* the file is shorter or longer than it says */
    LAPTOP_DAMAGED,     /* the checksum is another, or the library refuses the sheet */
    LAPTOP_ANOTHERS,    /* it is the file of another laptop */
    LAPTOP_OTHER_SHEET, /* it is of another sheet, or of one with another count of laptops */
    LAPTOP_REPLACED,    /* stopped: another laptop was set up anew under this number */
    LAPTOP_USED_BEFORE, /* stopped: it was created under a number that was in use */
    LAPTOP_OLD_FILE     /* stopped: it goes on from a file that is not its last */
};

enum {
    LAPTOP_DATAGRAM = 1200,  /* the bytes of a datagram but one with a long list: it passes any network in one piece */
    LAPTOP_HEADER = 64,      /* more than the bytes of a datagram's first line, and of what goes before a list */
    LAPTOP_FRAME = 512,      /* more than the bytes of a file's first line */
    LAPTOP_PATH = 1024,
    LAPTOP_WORDS = 640,      /* a sentence for a person */
    LAPTOP_MESSAGES = 8,
    LAPTOP_LISTS = 65536     /* the bytes of the lists that are to be answered; what has no place here asks again */
};

/* A datagram to be sent, to one laptop or, with 0, to each of the others. */
struct laptop_datagram {
    unsigned to;
    size_t length;
    uint8_t bytes[LAPTOP_HEADER + WIMTAZE_LIST_MAX];
};

/* What is known of another laptop. */
struct laptop_other {
    uint64_t life;    /* the highest that is known; 0 if none is */
    uint64_t heard;   /* when a datagram of this life came last; 0 if none did */
    unsigned lacked;  /* how many characters of this sheet its last list lacked */
    uint32_t refused; /* bit r is set once a person was told that a line of it was refused with r */
};

struct laptop {
    unsigned sheet_number, number, count;
    uint64_t life;
    int renewed;      /* whether this life was set up anew */
    uint32_t awaited; /* bit n is set as long as laptop n has not told what this life needs */
    uint32_t gone;    /* bit n is set if a person said that laptop n is gone for good */
    struct laptop_other other[WIMTAZE_LAPTOP_MAX + 1];

    uint8_t sheet[WIMTAZE_SHEET_MAX], after[WIMTAZE_SHEET_MAX];
    size_t length;
    int saved; /* whether the file has this sheet and these lives */
    char file[LAPTOP_PATH], new_file[LAPTOP_PATH], lock_file[LAPTOP_PATH], old_file[LAPTOP_PATH];
    int folder, lock; /* -1 where it is not open */

    uint64_t cursor; /* a gap; one beyond the text stands for its end */

    enum laptop_trouble stopped;
    char why[LAPTOP_WORDS];
    char messages[LAPTOP_MESSAGES][LAPTOP_WORDS];
    unsigned message_count, messages_read;

    uint8_t fresh[WIMTAZE_LINES_MAX]; /* lines that were made here and not yet sent */
    size_t fresh_length, fresh_sent;

    uint8_t lists[LAPTOP_LISTS]; /* the lists that are to be answered, one behind the other, */
    size_t lists_length;
    unsigned asker[WIMTAZE_LAPTOP_MAX]; /* whose they are, at most one of each, */
    size_t list_length[WIMTAZE_LAPTOP_MAX];
    unsigned askers;

    uint8_t answer[WIMTAZE_ANSWER_MAX]; /* and the answer that is on its way out */
    size_t answer_length, answer_sent;
    unsigned answer_to;

    uint32_t tell;      /* bit n is set if laptop n is to be told what we know of its number and of all lives */
    uint32_t introduce; /* bit n is set if laptop n is to be asked so that it learns of this life */

    /*
     * When to ask, in milliseconds. The program may set the first four to suit its network: so soon after a sign that
     * something is missing, so soon after something came, at most so long, and so long between two datagrams where many
     * are to be sent (eight may go at once).
     */
    unsigned soon, after_news, longest, between;
    uint64_t pause, ask_at, send_at, chance;
    unsigned ask_whom; /* who has what is missing; 0 if nobody is known to */
    unsigned asked;    /* who was asked last, of those in turn */
};

/* ---- words for a person */

/* Keeps a sentence for laptop_message; if too many were not read, the oldest goes. */
static inline void laptop_say(struct laptop *laptop, const char *words, ...)
{
    va_list values;
    va_start(values, words);
    vsnprintf(laptop->messages[laptop->message_count++ % LAPTOP_MESSAGES], LAPTOP_WORDS, words, values);
    va_end(values);
    if (laptop->message_count - laptop->messages_read > LAPTOP_MESSAGES)
        laptop->messages_read = laptop->message_count - LAPTOP_MESSAGES;
}

static inline const char *laptop_message(struct laptop *laptop)
{
    if (laptop->messages_read == laptop->message_count)
        return NULL;
    return laptop->messages[laptop->messages_read++ % LAPTOP_MESSAGES];
}

/* Writes into `why`, after the name of the file, and answers the trouble. */
static inline enum laptop_trouble laptop_fails(struct laptop *laptop, enum laptop_trouble trouble, const char *words)
{
    char why[LAPTOP_WORDS];
    snprintf(why, sizeof why, "%.300s: %.300s", laptop->file, words);
    memcpy(laptop->why, why, sizeof why);
    return trouble;
}

/* From now on it makes no edits and sends nothing: what it would send could not be told from another's. */
static inline void laptop_stop(struct laptop *laptop, enum laptop_trouble trouble, const char *words)
{
    if (laptop->stopped != LAPTOP_FINE)
        return;
    laptop->stopped = trouble;
    laptop_fails(laptop, trouble, words);
    laptop_say(laptop, "%s", laptop->why);
}

/* ---- numbers in bytes */

/* CRC-32 as in Ethernet, zip and PNG, of bytes that follow those with this one; 0 to begin with. */
static inline uint32_t laptop_crc(uint32_t crc, const uint8_t *bytes, size_t length)
{
    crc = ~crc;
    for (size_t k = 0; k < length; k++) {
        crc ^= bytes[k];
        for (int bit = 0; bit < 8; bit++)
            crc = crc >> 1 ^ (0xedb88320u & (0u - (crc & 1u)));
    }
    return ~crc;
}

/* Reads digits and the tab or line feed behind them. What has too many digits is not read. */
static inline int laptop_read(const uint8_t **at, const uint8_t *end, char behind, uint64_t *number)
{
    const uint8_t *p = *at;
    uint64_t n = 0;
    if (p == end || *p < '0' || *p > '9')
        return 0;
    for (; p != end && *p >= '0' && *p <= '9'; p++) {
        uint64_t digit = (uint64_t)(*p - '0');
        if (n > (UINT64_MAX - digit) / 10)
            return 0;
        n = 10 * n + digit;
    }
    if (p == end || *p != (uint8_t)behind)
        return 0;
    *number = n;
    *at = p + 1;
    return 1;
}

/* Reads so many numbers with a tab behind each, and a line feed behind the last. */
static inline int laptop_read_line(const uint8_t **at, const uint8_t *end, unsigned count, uint64_t *numbers)
{
    for (unsigned k = 0; k < count; k++)
        if (!laptop_read(at, end, k + 1 < count ? '\t' : '\n', &numbers[k]))
            return 0;
    return 1;
}

/* The lives of laptops 1 to 16 that are known here, its own among them, as a line; answers its length. */
static inline size_t laptop_write_lives(const struct laptop *laptop, char *line, size_t room)
{
    size_t n = 0;
    for (unsigned k = 1; k <= WIMTAZE_LAPTOP_MAX; k++)
        n += (size_t)snprintf(line + n, room - n, "%llu%c", (unsigned long long)laptop->other[k].life,
                              k < WIMTAZE_LAPTOP_MAX ? '\t' : '\n');
    return n;
}

/* ---- the sheet */

/* The other laptops that are not gone, a bit for each. */
static inline uint32_t laptop_others(const struct laptop *laptop)
{
    return ((2u << laptop->count) - 2 - (1u << laptop->number)) & ~laptop->gone;
}

static inline int laptop_may_edit(const struct laptop *laptop)
{
    return laptop->awaited == 0 && laptop->stopped == LAPTOP_FINE;
}

/* The larger of a clock and that of an identifier, if this has the number. */
static inline unsigned laptop_higher(unsigned clock, unsigned number, struct wimtaze_identifier id)
{
    return id.laptop == number && id.clock > clock ? id.clock : clock;
}

/*
 * The highest clock of a laptop's number that is named on the sheet: of its characters, of those that wait, and of
 * those that others wait for. What waits for a character that was lost must not meet another with its identifier.
 */
static inline unsigned laptop_highest(const struct laptop *laptop, unsigned number)
{
    struct wimtaze_rows rows = wimtaze_read_sheet(laptop->sheet, laptop->length);
    struct wimtaze_row row;
    struct wimtaze_waiting edit;
    unsigned highest = number == rows.laptop ? rows.clock : 0;
    while (wimtaze_next_row(&rows, &row))
        highest = laptop_higher(highest, number, row.id);
    while (wimtaze_next_waiting(&rows, &edit)) {
        highest = laptop_higher(highest, number, edit.id);
        highest = laptop_higher(highest, number, edit.previous);
        highest = laptop_higher(highest, number, edit.next);
    }
    return highest;
}

/* What is left of the laptop's share, if the sheet can take so many; 0 where it may not edit. */
static inline unsigned laptop_room(const struct laptop *laptop)
{
    unsigned room = wimtaze_room(wimtaze_counts(laptop->sheet, laptop->length));
    unsigned share = WIMTAZE_CHARACTER_MAX / laptop->count;
    unsigned typed = wimtaze_read_sheet(laptop->sheet, laptop->length).clock;
    unsigned left = typed < share && laptop_may_edit(laptop) ? share - typed : 0;
    return left < room ? left : room;
}

static inline size_t laptop_text(const struct laptop *laptop, uint8_t *text)
{
    return wimtaze_written(wimtaze_text(laptop->sheet, laptop->length, text, WIMTAZE_TEXT_MAX));
}

static inline unsigned laptop_shown(const struct laptop *laptop, struct wimtaze_row *shown)
{
    struct wimtaze_rows rows = wimtaze_read_sheet(laptop->sheet, laptop->length);
    struct wimtaze_row row;
    unsigned count = 0;
    while (count < WIMTAZE_CHARACTER_MAX && wimtaze_next_row(&rows, &row))
        if (wimtaze_is_shown(&row))
            shown[count++] = row;
    return count;
}

/* Takes the new sheet, if the call wrote one. */
static inline void laptop_keep(struct laptop *laptop, uint64_t reply)
{
    enum wimtaze_words word = wimtaze_word(reply);
    if ((word == WIMTAZE_DONE || word == WIMTAZE_WAITS) && wimtaze_written(reply) > 0) {
        laptop->length = wimtaze_written(reply);
        memcpy(laptop->sheet, laptop->after, laptop->length);
        laptop->saved = 0;
    }
}

/*
 * Receives a line on the sheet as it is, and moves the cursor as it will be on the new one. A cursor that the program
 * has set beyond the text goes to its end first, since the line would be refused for it.
 */
static inline uint64_t laptop_receive_at_cursor(struct laptop *laptop, const uint8_t *line, size_t length)
{
    uint64_t reply = wimtaze_receive_at(laptop->sheet, laptop->length, line, length, laptop->cursor, laptop->after,
                                        sizeof laptop->after);
    if (wimtaze_refusal(reply) == WIMTAZE_REFUSAL_POSITION) {
        laptop->cursor = wimtaze_shown_count(wimtaze_counts(laptop->sheet, laptop->length));
        reply = wimtaze_receive_at(laptop->sheet, laptop->length, line, length, laptop->cursor, laptop->after,
                                   sizeof laptop->after);
    }
    laptop->cursor = wimtaze_moved(laptop->cursor, wimtaze_shift(reply));
    return reply;
}

/* ---- the user's edits */

/* Lines that are made here are to be sent to all. Where there is no space the others get them by their lists. */
static inline void laptop_post(struct laptop *laptop, const uint8_t *lines, size_t length)
{
    if (laptop->fresh_sent == laptop->fresh_length)
        laptop->fresh_sent = laptop->fresh_length = 0;
    if (length > sizeof laptop->fresh - laptop->fresh_length)
        return;
    memcpy(laptop->fresh + laptop->fresh_length, lines, length);
    laptop->fresh_length += length;
}

/*
 * Takes the new sheet of an edit that was made here, and posts its line. Before that the line, received like one that
 * comes, writes the same sheet again, for the cursor's sake.
 */
static inline enum wimtaze_refusals laptop_made(struct laptop *laptop, uint64_t reply, const uint8_t *line)
{
    if (wimtaze_word(reply) == WIMTAZE_DONE) {
        laptop_receive_at_cursor(laptop, line, wimtaze_line_written(reply));
        laptop_keep(laptop, reply);
        laptop_post(laptop, line, wimtaze_line_written(reply));
    }
    return wimtaze_refusal(reply);
}

/*
 * Types a character; refused with 11 also at the end of the laptop's share, and while it may not edit. The cursor goes
 * behind a character that is typed at it, unless something that waited for the character came with it.
 */
static inline enum wimtaze_refusals laptop_type(struct laptop *laptop, uint64_t gap, uint32_t code_point)
{
    uint8_t line[WIMTAZE_LINE_MAX];
    if (laptop_room(laptop) == 0)
        return WIMTAZE_REFUSAL_DOCUMENT_FULL;
    int at_cursor = gap == laptop->cursor;
    uint64_t reply = wimtaze_type(laptop->sheet, laptop->length, gap, code_point, laptop->after, sizeof laptop->after,
                                  line, sizeof line);
    enum wimtaze_refusals refusal = laptop_made(laptop, reply, line);
    if (at_cursor && wimtaze_carried(reply) == 1)
        laptop->cursor = wimtaze_moved(laptop->cursor, 1);
    return refusal;
}

/*
 * Takes the new sheet of a pasted block. The cursor goes behind a block that is pasted at it. Where it is elsewhere, or
 * something that waited came with the characters, the lines are received one by one instead, like lines that come: they
 * leave the same sheet, and the cursor in its place.
 */
static inline void laptop_pasted(struct laptop *laptop, uint64_t gap, uint64_t reply, const uint8_t *lines,
                                 unsigned count)
{
    if (gap == laptop->cursor && wimtaze_carried(reply) == count) {
        laptop_keep(laptop, reply);
        laptop->cursor = wimtaze_moved(laptop->cursor, (int32_t)count);
        return;
    }
    for (; count > 0; count--) {
        size_t length = (size_t)((const uint8_t *)memchr(lines, '\n', WIMTAZE_LINE_MAX) + 1 - lines);
        laptop_keep(laptop, laptop_receive_at_cursor(laptop, lines, length));
        lines += length;
    }
}

/* Pastes a text in UTF-8, all of it or nothing; refused with 11 also where it is more than the laptop may type. */
static inline enum wimtaze_refusals laptop_paste(struct laptop *laptop, uint64_t gap, const void *text, size_t length)
{
    static uint8_t lines[WIMTAZE_LINES_MAX];
    unsigned count = 0;
    uint64_t reply = wimtaze_paste(laptop->sheet, laptop->length, gap, (const uint8_t *)text, length, laptop->after,
                                   sizeof laptop->after, lines, sizeof lines);
    for (size_t k = 0; k < wimtaze_line_written(reply); k++)
        count += lines[k] == '\n';
    if (count > laptop_room(laptop))
        return WIMTAZE_REFUSAL_DOCUMENT_FULL;
    laptop_pasted(laptop, gap, reply, lines, count);
    laptop_post(laptop, lines, wimtaze_line_written(reply));
    return wimtaze_refusal(reply);
}

/* Erases the character at a place of the text, from 1; refused with 4 also while the laptop may not edit. */
static inline enum wimtaze_refusals laptop_erase(struct laptop *laptop, uint64_t place)
{
    uint8_t line[WIMTAZE_LINE_MAX];
    if (!laptop_may_edit(laptop))
        return WIMTAZE_REFUSAL_POSITION;
    uint64_t reply = wimtaze_erase(laptop->sheet, laptop->length, place, laptop->after, sizeof laptop->after, line,
                                   sizeof line);
    return laptop_made(laptop, reply, line);
}

/* Brings back an erased character, by its identifier; refused with 13 also while the laptop may not edit. */
static inline enum wimtaze_refusals laptop_restore(struct laptop *laptop, unsigned by, unsigned clock)
{
    uint8_t line[WIMTAZE_LINE_MAX];
    if (!laptop_may_edit(laptop))
        return WIMTAZE_REFUSAL_NOT_HIDDEN;
    uint64_t reply = wimtaze_restore(laptop->sheet, laptop->length, by, clock, laptop->after, sizeof laptop->after,
                                     line, sizeof line);
    return laptop_made(laptop, reply, line);
}

/* ---- when to ask */

/* A number below n, for pauses that do not fall together: xorshift. */
static inline unsigned laptop_below(struct laptop *laptop, unsigned n)
{
    laptop->chance ^= laptop->chance << 13;
    laptop->chance ^= laptop->chance >> 7;
    laptop->chance ^= laptop->chance << 17;
    return n == 0 ? 0 : (unsigned)(laptop->chance % n);
}

/* Asks no later than so long from now, and a quarter more. */
static inline void laptop_ask_within(struct laptop *laptop, uint64_t now, unsigned pause)
{
    uint64_t at = now + pause + laptop_below(laptop, pause / 4);
    laptop->pause = laptop->after_news;
    if (at < laptop->ask_at)
        laptop->ask_at = at;
}

/* Something is missing here that this laptop has. */
static inline void laptop_hurry(struct laptop *laptop, uint64_t now, unsigned whom)
{
    laptop->ask_whom = whom;
    laptop_ask_within(laptop, now, laptop->soon);
}

/* Whom to ask: who has what is missing, and otherwise the others in turn. */
static inline unsigned laptop_whom(struct laptop *laptop)
{
    unsigned whom = laptop->ask_whom;
    laptop->ask_whom = 0;
    if (whom != 0)
        return whom;
    do
        laptop->asked = laptop->asked % laptop->count + 1;
    while (laptop->asked == laptop->number);
    return laptop->asked;
}

/* It asks now: the next time comes after a pause twice as long, unless something comes. */
static inline void laptop_asks(struct laptop *laptop, uint64_t now, uint64_t longest)
{
    laptop->ask_at = now + laptop->pause + laptop_below(laptop, (unsigned)laptop->pause / 4);
    laptop->pause = 2 * laptop->pause < longest ? 2 * laptop->pause : longest;
}

/* ---- taking in lines */

/* Tells a person, once for each laptop and reason, that a line which it sent was refused or thrown out. */
static inline void laptop_complain(struct laptop *laptop, unsigned from, enum wimtaze_refusals refusal,
                                   const uint8_t *line, size_t length)
{
    char shown[WIMTAZE_LINE_MAX + 1];
    size_t n = 0;
    if (laptop->other[from].refused >> refusal & 1)
        return;
    laptop->other[from].refused |= 1u << refusal;
    for (; n < length && n < WIMTAZE_LINE_MAX && line[n] != '\n'; n++)
        shown[n] = (char)(line[n] == '\t' ? ' ' : line[n] < ' ' || line[n] > '~' ? '?' : line[n]);
    shown[n] = '\0';
    laptop_say(laptop, "Laptop %u refuses a line of laptop %u with %d, \"%s\": %s. %s", laptop->number, from,
               (int)refusal, shown, wimtaze_refusal_text(refusal),
               refusal == WIMTAZE_REFUSAL_LAYOUT || refusal == WIMTAZE_REFUSAL_RANGE
                   ? "The line was damaged on the way, or another program sent it."
                   : refusal == WIMTAZE_REFUSAL_DOCUMENT_FULL
                         ? "The laptops have typed more than their shares: begin a new sheet on every laptop."
                         : "Two laptops have one number, or one went on from an old file: the texts differ for good. "
                           "Begin a new sheet on every laptop.");
}

/* Whether a line says nothing new, for a moment's reading instead of a call: answers repeat what was erased. */
static inline int laptop_is_idle(const struct laptop *laptop, const struct wimtaze_waiting *edit)
{
    struct wimtaze_row row;
    return edit->kind == 'E' && wimtaze_row_of(laptop->sheet, laptop->length, edit->id, &row) &&
           row.turn >= edit->turn;
}

/*
 * Takes in a line; answers whether the sheet changed. One that is refused with 10 comes again with the next list. What
 * carries this laptop's own number is never above its clock, since it saves before it sends, unless it went on from a
 * file that is not its last.
 */
static inline int laptop_take_line(struct laptop *laptop, uint64_t now, unsigned from, const uint8_t *line,
                                   size_t length)
{
    struct wimtaze_waiting edit;
    if (length > 0 && wimtaze_read_line(line, length, &edit) == length) {
        if (laptop_is_idle(laptop, &edit))
            return 0;
        if (edit.kind == 'I' && edit.id.laptop == laptop->number &&
            edit.id.clock > wimtaze_read_sheet(laptop->sheet, laptop->length).clock) {
            laptop_stop(laptop, LAPTOP_OLD_FILE,
                        "this is not the laptop's last file, since another laptop has characters of it that it does "
                        "not know. Close it, and set it up anew.");
            return 0;
        }
    }
    uint64_t reply = laptop_receive_at_cursor(laptop, line, length);
    enum wimtaze_refusals refusal = wimtaze_refusal(reply);
    laptop_keep(laptop, reply);
    if (wimtaze_word(reply) == WIMTAZE_WAITS || refusal == WIMTAZE_REFUSAL_SENDER_FULL)
        laptop_hurry(laptop, now, from);
    else if (refusal != WIMTAZE_REFUSAL_NONE)
        laptop_complain(laptop, from, refusal, line, length);
    if (wimtaze_thrown(reply) > 0)
        laptop_complain(laptop, from, WIMTAZE_REFUSAL_CROSSED, line, length);
    if (wimtaze_word(reply) == WIMTAZE_DONE)
        laptop_ask_within(laptop, now, laptop->after_news);
    return wimtaze_word(reply) == WIMTAZE_DONE || wimtaze_word(reply) == WIMTAZE_WAITS;
}

static inline int laptop_take_lines(struct laptop *laptop, uint64_t now, unsigned from, const uint8_t *lines,
                                    size_t length)
{
    int changed = 0;
    for (size_t k = 0, n; k < length && laptop->stopped == LAPTOP_FINE; k += n) {
        const uint8_t *feed = (const uint8_t *)memchr(lines + k, '\n', length - k);
        n = feed == NULL ? length - k : (size_t)(feed + 1 - (lines + k));
        changed |= laptop_take_line(laptop, now, from, lines + k, n);
    }
    return changed;
}

/* ---- taking in lists */

/* The next word of a list, and where it belongs; 0 at the end. */
static inline int laptop_read_word(const uint8_t **at, const uint8_t *end, uint64_t *key, uint64_t *word)
{
    uint64_t numbers[3];
    if (end - *at < 2 || (*at)[0] != 'K')
        return 0;
    *at += 2;
    if (!laptop_read_line(at, end, 3, numbers))
        return 0;
    *key = numbers[0] << 32 | (numbers[1] & 0xffffffffu);
    *word = numbers[2];
    return 1;
}

static inline unsigned laptop_ones(uint64_t word)
{
    unsigned ones = 0;
    for (; word != 0; word &= word - 1)
        ones++;
    return ones;
}

/* How many characters are listed in the first list and not in the second. */
static inline unsigned laptop_missing(const uint8_t *list, size_t length, const uint8_t *other, size_t other_length)
{
    const uint8_t *end = list + length, *other_end = other + other_length;
    const uint8_t *at = (const uint8_t *)memchr(list, '\n', length);
    const uint8_t *other_at = (const uint8_t *)memchr(other, '\n', other_length);
    uint64_t key, word, other_key = 0, other_word = 0;
    unsigned missing = 0;
    if (at == NULL || other_at == NULL)
        return 0;
    at++;
    other_at++;
    while (laptop_read_word(&at, end, &key, &word)) {
        while (other_key < key && laptop_read_word(&other_at, other_end, &other_key, &other_word))
            ;
        missing += laptop_ones(other_key == key ? word & ~other_word : word);
    }
    return missing;
}

/* Keeps a list until it is answered, in place of an earlier one of the same laptop. */
static inline void laptop_keep_list(struct laptop *laptop, unsigned from, const uint8_t *list, size_t length)
{
    size_t before = 0;
    for (unsigned k = 0; k < laptop->askers; before += laptop->list_length[k++])
        if (laptop->asker[k] == from) {
            size_t gone = laptop->list_length[k], rest = laptop->lists_length - before - gone;
            memmove(laptop->lists + before, laptop->lists + before + gone, rest);
            laptop->lists_length -= gone;
            laptop->askers--;
            memmove(&laptop->asker[k], &laptop->asker[k + 1], (laptop->askers - k) * sizeof *laptop->asker);
            memmove(&laptop->list_length[k], &laptop->list_length[k + 1],
                    (laptop->askers - k) * sizeof *laptop->list_length);
            break;
        }
    if (laptop->askers == WIMTAZE_LAPTOP_MAX || length > sizeof laptop->lists - laptop->lists_length)
        return;
    memcpy(laptop->lists + laptop->lists_length, list, length);
    laptop->lists_length += length;
    laptop->asker[laptop->askers] = from;
    laptop->list_length[laptop->askers++] = length;
}

/*
 * The checksum of the rows, which goes with a list. A list has no turns, so that two who lack nothing of each other may
 * still differ in what is erased; then their checksums tell them to ask. It decides nothing else.
 */
static inline uint32_t laptop_rows_crc(const struct laptop *laptop)
{
    struct wimtaze_rows rows = wimtaze_read_sheet(laptop->sheet, laptop->length);
    struct wimtaze_row row;
    const uint8_t *begin = rows.at;
    while (wimtaze_next_row(&rows, &row))
        ;
    return laptop_crc(0, begin, (size_t)(rows.at - begin));
}

/* A list is kept to be answered, and looked at for what is missing here: then this laptop asks back. */
static inline void laptop_take_list(struct laptop *laptop, uint64_t now, unsigned from, const uint8_t *list,
                                    const uint8_t *end)
{
    static uint8_t own[WIMTAZE_LIST_MAX];
    uint64_t crc;
    if (!laptop_read_line(&list, end, 1, &crc))
        return;
    size_t length = (size_t)(end - list);
    size_t own_length = wimtaze_written(wimtaze_list(laptop->sheet, laptop->length, own, sizeof own));
    unsigned lacked = laptop_missing(own, own_length, list, length);
    laptop_keep_list(laptop, from, list, length);
    laptop->other[from].lacked = lacked;
    if (laptop_missing(list, length, own, own_length) > 0 || (lacked == 0 && crc != laptop_rows_crc(laptop)))
        laptop_hurry(laptop, now, from);
}

/* ---- lives */

/* Takes the clock above what an earlier life of this laptop used, on a sheet that is empty still. */
static inline void laptop_raise_clock(struct laptop *laptop, unsigned clock)
{
    if (clock <= wimtaze_read_sheet(laptop->sheet, laptop->length).clock)
        return;
    laptop->length = (size_t)snprintf((char *)laptop->sheet, sizeof laptop->sheet, "S2\t%u\t%u\n", laptop->number,
                                      clock);
    laptop->saved = 0;
}

/* Begins to ask all the others, in a life above this one. */
static inline void laptop_live(struct laptop *laptop, uint64_t above)
{
    laptop->life = laptop->other[laptop->number].life = above + 1;
    laptop->awaited = laptop_others(laptop);
    laptop->ask_at = 0;
    laptop->saved = 0;
}

/* Another laptop lives this life. Who awaits answers needs them anew, from laptops that know of it. */
static inline void laptop_learn(struct laptop *laptop, unsigned number, uint64_t life)
{
    if (number == laptop->number || life <= laptop->other[number].life)
        return;
    laptop->other[number].life = life;
    laptop->other[number].lacked = 0;
    laptop->saved = 0;
    if (laptop->awaited != 0) {
        laptop->awaited = laptop_others(laptop);
        laptop->ask_at = 0;
    }
}

/* Takes in the lives that another knows. Of this laptop's own number there is no later one, or it is stopped. */
static inline void laptop_learn_all(struct laptop *laptop, const uint64_t *lives)
{
    for (unsigned k = 1; k <= WIMTAZE_LAPTOP_MAX; k++)
        laptop_learn(laptop, k, lives[k - 1]);
    if (lives[laptop->number - 1] <= laptop->life)
        return;
    if (laptop->awaited != 0)
        laptop_live(laptop, lives[laptop->number - 1]);
    else
        laptop_stop(laptop, LAPTOP_REPLACED,
                    "another laptop was set up anew under this number. Close this one; it must not go on.");
}

/* Whether another knows of every life that is known here. */
static inline int laptop_covers(const struct laptop *laptop, const uint64_t *lives)
{
    for (unsigned k = 1; k <= WIMTAZE_LAPTOP_MAX; k++)
        if (lives[k - 1] < laptop->other[k].life)
            return 0;
    return 1;
}

/*
 * What laptop `from` tells: the highest clock of this laptop's number named on its sheet, and the lives known there. It
 * counts if every life that is known here is among them, this laptop's own too.
 */
static inline void laptop_told(struct laptop *laptop, unsigned from, const uint8_t *body, const uint8_t *end)
{
    uint64_t clock, lives[WIMTAZE_LAPTOP_MAX];
    if (!laptop_read_line(&body, end, 1, &clock) || !laptop_read_line(&body, end, WIMTAZE_LAPTOP_MAX, lives) ||
        body != end || clock > 65535)
        return;
    laptop_learn_all(laptop, lives);
    uint64_t own = lives[laptop->number - 1];
    if (own != 0 && own < laptop->life && laptop->awaited == 0) {
        if (laptop->renewed)
            laptop->introduce |= 1u << from;
        else
            laptop_stop(laptop, LAPTOP_USED_BEFORE,
                        "this number was in use on this sheet before. Close the laptop, and set it up anew.");
    }
    if (laptop->awaited >> from & 1 && laptop_covers(laptop, lives)) {
        laptop_raise_clock(laptop, (unsigned)clock);
        laptop->awaited &= ~(1u << from);
        laptop->saved = 0;
        if (laptop->awaited == 0)
            laptop->ask_at = 0;
    }
}

/* Another laptop asks what is known of its number. It is told so once that is saved; and it is not gone any more. */
static inline void laptop_asked_by(struct laptop *laptop, unsigned from, uint64_t life, const uint8_t *body,
                                   const uint8_t *end)
{
    uint64_t lives[WIMTAZE_LAPTOP_MAX];
    if (!laptop_read_line(&body, end, WIMTAZE_LAPTOP_MAX, lives) || body != end)
        return;
    laptop->gone &= ~(1u << from);
    laptop_learn(laptop, from, life);
    laptop_learn_all(laptop, lives);
    laptop->tell |= 1u << from;
}

/* A laptop that is gone for good, or was never begun, is awaited no longer. */
static inline void laptop_gone(struct laptop *laptop, unsigned number)
{
    if (number < 1 || number > laptop->count)
        return;
    laptop->gone |= 1u << number;
    laptop->awaited &= ~(1u << number);
    laptop->saved = 0;
}

/* ---- datagrams */

/*
 * A datagram begins with a line: W1 and what it has, L lines, Q a list behind a checksum of the rows, A a question for
 * the lives, T what is told; and then the sheet's number, from whom and to whom (0 for all), and the sender's life,
 * parted by tabs.
 */
struct laptop_letter {
    char kind;
    unsigned from;
    uint64_t life;
    const uint8_t *body, *end;
};

/* Reads the first line; answers 0 where it is none, or not for this laptop. */
static inline int laptop_read_letter(const struct laptop *laptop, const uint8_t *bytes, size_t length,
                                     struct laptop_letter *letter)
{
    uint64_t numbers[4];
    letter->end = bytes + length;
    letter->body = bytes + 4;
    if (length < 4 || bytes[0] != 'W' || bytes[1] != '1' || bytes[3] != '\t' ||
        !laptop_read_line(&letter->body, letter->end, 4, numbers))
        return 0;
    letter->kind = (char)bytes[2];
    letter->from = (unsigned)numbers[1];
    letter->life = numbers[3];
    return numbers[0] == laptop->sheet_number && numbers[1] >= 1 && numbers[1] <= laptop->count &&
           numbers[1] != laptop->number && (numbers[2] == 0 || numbers[2] == laptop->number) && numbers[3] != 0;
}

/*
 * Whether a letter is of the life that its sender lives, as far as is known. A laptop that was never heard of may begin
 * so; a later life than the known one is learnt by its asking alone. What another life sent is dropped, and where it
 * was a list its sender is told.
 */
static inline int laptop_is_of_now(struct laptop *laptop, uint64_t now, const struct laptop_letter *letter)
{
    struct laptop_other *other = &laptop->other[letter->from];
    if (other->life == 0)
        laptop_learn(laptop, letter->from, letter->life);
    if (other->life == letter->life) {
        other->heard = now;
        return 1;
    }
    if (letter->kind == 'Q')
        laptop->tell |= 1u << letter->from;
    return 0;
}

/* Takes in a datagram, whatever it has; answers whether the sheet changed. */
static inline int laptop_take_in(struct laptop *laptop, uint64_t now, const uint8_t *bytes, size_t length)
{
    struct laptop_letter letter;
    if (laptop->stopped != LAPTOP_FINE || !laptop_read_letter(laptop, bytes, length, &letter))
        return 0;
    if (letter.kind == 'A')
        laptop_asked_by(laptop, letter.from, letter.life, letter.body, letter.end);
    if (letter.kind == 'T')
        laptop_told(laptop, letter.from, letter.body, letter.end);
    if ((letter.kind != 'L' && letter.kind != 'Q') || laptop->awaited != 0 || !laptop_is_of_now(laptop, now, &letter))
        return 0;
    if (letter.kind == 'L')
        return laptop_take_lines(laptop, now, letter.from, letter.body, (size_t)(letter.end - letter.body));
    laptop_take_list(laptop, now, letter.from, letter.body, letter.end);
    return 0;
}

/* ---- the file */

/* The file's first line up to its checksum: what a file of this program begins with. */
static const char LAPTOP_MAGIC[] = "wimtaze-laptop\t1\t";

/*
 * Writes the frame: the magic words and the version, the checksum of all that follows, the sheet's number, whose file
 * it is, the count, the life, whether it was set up anew, whom it awaits and who is gone, the sheet's length, and the
 * lives that are known. Answers its length.
 */
static inline size_t laptop_write_frame(const struct laptop *laptop, char *frame)
{
    char rest[LAPTOP_FRAME];
    size_t n = (size_t)snprintf(rest, sizeof rest, "%u\t%u\t%u\t%llu\t%d\t%u\t%u\t%u\t", laptop->sheet_number,
                                laptop->number, laptop->count, (unsigned long long)laptop->life, laptop->renewed,
                                (unsigned)laptop->awaited, (unsigned)laptop->gone, (unsigned)laptop->length);
    n += laptop_write_lives(laptop, rest + n, sizeof rest - n);
    uint32_t crc = laptop_crc(laptop_crc(0, (const uint8_t *)rest, n), laptop->sheet, laptop->length);
    return (size_t)snprintf(frame, LAPTOP_FRAME, "%s%08x\t%s", LAPTOP_MAGIC, (unsigned)crc, rest);
}

/* Brings frame and sheet to the disk, whole or not at all: to a new file, which then takes the old one's name. */
static inline enum laptop_trouble laptop_save(struct laptop *laptop)
{
    char frame[LAPTOP_FRAME];
    if (laptop->saved)
        return LAPTOP_FINE;
    size_t n = laptop_write_frame(laptop, frame);
    FILE *file = fopen(laptop->new_file, "wb");
    int good = file != NULL && fwrite(frame, 1, n, file) == n &&
               fwrite(laptop->sheet, 1, laptop->length, file) == laptop->length && fflush(file) == 0 &&
               fsync(fileno(file)) == 0;
    if (file != NULL && fclose(file) != 0)
        good = 0;
    if (!good || rename(laptop->new_file, laptop->file) != 0 || fsync(laptop->folder) != 0)
        return laptop_fails(laptop, LAPTOP_DISK, strerror(errno));
    laptop->saved = 1;
    return LAPTOP_FINE;
}

/* A file that does not begin as those of this program do. */
static inline enum laptop_trouble laptop_no_frame(struct laptop *laptop, const uint8_t *bytes, size_t length)
{
    if (length < sizeof LAPTOP_MAGIC - 1 && memcmp(bytes, LAPTOP_MAGIC, length) == 0)
        return laptop_fails(laptop, LAPTOP_CUT, "the file is cut off. Set the laptop up anew.");
    if (wimtaze_word(wimtaze_upgrade(bytes, length, laptop->after, sizeof laptop->after)) == WIMTAZE_DONE)
        return laptop_fails(laptop, LAPTOP_FIRST_FORM,
                            "this is a sheet in the first form, of a version before 0.5. Take it forward with "
                            "wimtaze_upgrade (first_form.c does) and adopt what that writes; or set the laptop up "
                            "anew.");
    if (wimtaze_word(wimtaze_counts(bytes, length)) == WIMTAZE_DONE)
        return laptop_fails(laptop, LAPTOP_NO_FRAME,
                            "this is a sheet without a frame, which nothing shows to be whole. If it is, and is this "
                            "laptop's last, move it away and adopt it; or set the laptop up anew.");
    return laptop_fails(laptop, LAPTOP_NO_FRAME,
                        "this is no file of this program, or its first bytes are damaged. Set the laptop up anew.");
}

/* Takes in the numbers of the frame; the sheet begins behind it. */
static inline enum laptop_trouble laptop_read_frame(struct laptop *laptop, const uint8_t **at, const uint8_t *end)
{
    uint64_t numbers[8], lives[WIMTAZE_LAPTOP_MAX];
    const char *damaged = "the file is damaged. Set the laptop up anew.";
    const uint8_t *crc_text = *at + sizeof LAPTOP_MAGIC - 1, *body = crc_text + 9;
    char crc[9];
    if (memchr(*at, '\n', (size_t)(end - *at)) == NULL)
        return laptop_fails(laptop, LAPTOP_CUT, "the file is cut off. Set the laptop up anew.");
    if (end - crc_text < 9)
        return laptop_fails(laptop, LAPTOP_DAMAGED, damaged);
    *at = body;
    for (unsigned k = 0; k < 8; k++)
        if (!laptop_read(at, end, '\t', &numbers[k]))
            return laptop_fails(laptop, LAPTOP_DAMAGED, damaged);
    if (!laptop_read_line(at, end, WIMTAZE_LAPTOP_MAX, lives))
        return laptop_fails(laptop, LAPTOP_DAMAGED, damaged);
    if ((uint64_t)(end - *at) != numbers[7])
        return laptop_fails(laptop, LAPTOP_CUT, "the file is not as long as it says. Set the laptop up anew.");
    snprintf(crc, sizeof crc, "%08x", (unsigned)laptop_crc(0, body, (size_t)(end - body)));
    if (memcmp(crc, crc_text, 8) != 0 || crc_text[8] != '\t')
        return laptop_fails(laptop, LAPTOP_DAMAGED, damaged);
    if (numbers[1] != laptop->number)
        return laptop_fails(laptop, LAPTOP_ANOTHERS, "this is the file of another laptop. Open the right one.");
    if (numbers[0] != laptop->sheet_number || numbers[2] != laptop->count)
        return laptop_fails(laptop, LAPTOP_OTHER_SHEET,
                            "this is of another sheet, or of one with another count of laptops. Open it with its own "
                            "numbers, or begin the new sheet in another folder.");
    laptop->life = numbers[3];
    laptop->renewed = numbers[4] != 0;
    laptop->gone = (uint32_t)numbers[6];
    laptop->awaited = (uint32_t)numbers[5] & laptop_others(laptop);
    for (unsigned k = 1; k <= WIMTAZE_LAPTOP_MAX; k++)
        laptop->other[k].life = lives[k - 1];
    return LAPTOP_FINE;
}

/* Takes a saved sheet that another run, or another program, wrote. */
static inline enum laptop_trouble laptop_load(struct laptop *laptop, const uint8_t *sheet, size_t length)
{
    uint64_t reply = wimtaze_load(sheet, length, laptop->after, sizeof laptop->after);
    if (wimtaze_word(reply) != WIMTAZE_DONE) {
        char words[LAPTOP_WORDS / 2];
        snprintf(words, sizeof words, "the sheet is refused with %d: %s. Set the laptop up anew.",
                 (int)wimtaze_refusal(reply), wimtaze_refusal_text(wimtaze_refusal(reply)));
        return laptop_fails(laptop, LAPTOP_DAMAGED, words);
    }
    if (wimtaze_read_sheet(laptop->after, wimtaze_written(reply)).laptop != laptop->number)
        return laptop_fails(laptop, LAPTOP_ANOTHERS, "this is the sheet of another laptop. Open the right one.");
    laptop_keep(laptop, reply);
    return LAPTOP_FINE;
}

static inline enum laptop_trouble laptop_read_file(struct laptop *laptop)
{
    static uint8_t bytes[LAPTOP_FRAME + WIMTAZE_SHEET_MAX + 1];
    FILE *file = fopen(laptop->file, "rb");
    if (file == NULL && errno == ENOENT)
        return laptop_fails(laptop, LAPTOP_MISSING,
                            "there is no such file. Create the laptop if its number was never used on this sheet; if "
                            "its file was lost, or it joins late, set it up anew.");
    if (file == NULL)
        return laptop_fails(laptop, LAPTOP_DISK, strerror(errno));
    size_t length = fread(bytes, 1, sizeof bytes, file);
    int failed = ferror(file);
    fclose(file);
    if (failed)
        return laptop_fails(laptop, LAPTOP_DISK, "the file cannot be read.");
    if (length < sizeof LAPTOP_MAGIC - 1 || memcmp(bytes, LAPTOP_MAGIC, sizeof LAPTOP_MAGIC - 1) != 0)
        return laptop_no_frame(laptop, bytes, length);
    const uint8_t *at = bytes, *end = bytes + length;
    enum laptop_trouble trouble = laptop_read_frame(laptop, &at, end);
    if (trouble == LAPTOP_FINE)
        trouble = laptop_load(laptop, at, (size_t)(end - at));
    laptop->saved = trouble == LAPTOP_FINE && laptop->length == (size_t)(end - at) &&
                    memcmp(laptop->sheet, at, laptop->length) == 0;
    return trouble;
}

/* ---- beginning and ending */

/* Lets go of the file. The kernel drops the lock with it. */
static inline void laptop_let_go(struct laptop *laptop)
{
    if (laptop->lock >= 0)
        close(laptop->lock);
    if (laptop->folder >= 0)
        close(laptop->folder);
    laptop->lock = laptop->folder = -1;
}

/* Lets no second program on the file: it would be another laptop with the same number. */
static inline enum laptop_trouble laptop_take_lock(struct laptop *laptop)
{
    struct flock whole;
    memset(&whole, 0, sizeof whole);
    whole.l_type = F_WRLCK;
    whole.l_whence = SEEK_SET;
    laptop->lock = open(laptop->lock_file, O_RDWR | O_CREAT, 0666);
    if (laptop->lock >= 0 && fcntl(laptop->lock, F_SETLK, &whole) == 0)
        return LAPTOP_FINE;
    if (laptop->lock >= 0 && (errno == EACCES || errno == EAGAIN))
        return laptop_fails(laptop, LAPTOP_LOCKED, "another program has this file open. End that one first.");
    return laptop_fails(laptop, LAPTOP_DISK, strerror(errno));
}

/* The name of a laptop's file, or of one beside it; 0 where it is too long. */
static inline int laptop_path(char *path, const char *folder, unsigned number, const char *ending)
{
    int n = snprintf(path, LAPTOP_PATH, "%s/laptop-%u%s", folder, number, ending);
    return n > 0 && n < LAPTOP_PATH;
}

/* Everything about a laptop but its sheet and its life; the paths, the pauses, the folder and the lock. */
static inline enum laptop_trouble laptop_prepare(struct laptop *laptop, const char *folder, unsigned sheet_number,
                                                 unsigned number, unsigned count)
{
    memset(laptop, 0, sizeof *laptop);
    laptop->folder = laptop->lock = -1;
    laptop->sheet_number = sheet_number;
    laptop->number = number;
    laptop->count = count;
    laptop->soon = 400;
    laptop->after_news = 1500;
    laptop->longest = 8000;
    laptop->between = 5;
    laptop->pause = laptop->soon;
    laptop->asked = number;
    int named = laptop_path(laptop->file, folder, number, "") &&
                laptop_path(laptop->new_file, folder, number, ".new") &&
                laptop_path(laptop->lock_file, folder, number, ".lock") &&
                laptop_path(laptop->old_file, folder, number, ".before");
    if (sheet_number > 65535 || count < 1 || count > WIMTAZE_LAPTOP_MAX || number < 1 || number > count)
        return laptop_fails(laptop, LAPTOP_RANGE,
                            "the count is 1 to 16, the laptop's number 1 to the count, the sheet's 0 to 65535.");
    if (!named)
        return laptop_fails(laptop, LAPTOP_DISK, "the folder's name is too long.");
    laptop->folder = open(folder, O_RDONLY);
    if (laptop->folder < 0)
        return laptop_fails(laptop, LAPTOP_DISK, strerror(errno));
    return laptop_take_lock(laptop);
}

/* Begins a life, above all that this laptop had: the time of day, in milliseconds. */
static inline void laptop_begin_life(struct laptop *laptop, uint64_t above)
{
    struct timespec now;
    clock_gettime(CLOCK_REALTIME, &now);
    laptop->life = (uint64_t)now.tv_sec * 1000 + (uint64_t)now.tv_nsec / 1000000;
    if (laptop->life <= above)
        laptop->life = above + 1;
    laptop->other[laptop->number].life = laptop->life;
}

/* The end of a beginning: with a first saving, and where anything is wrong with nothing open. */
static inline enum laptop_trouble laptop_begun(struct laptop *laptop, enum laptop_trouble trouble)
{
    if (trouble == LAPTOP_FINE)
        trouble = laptop_save(laptop);
    if (trouble != LAPTOP_FINE)
        laptop_let_go(laptop);
    laptop->chance = laptop->life * 16 + laptop->number + 1;
    return trouble;
}

/* A new file, of an empty sheet or of one that is handed over. */
static inline enum laptop_trouble laptop_adopt(struct laptop *laptop, const char *folder, unsigned sheet_number,
                                               unsigned number, unsigned count, const void *bytes, size_t length)
{
    enum laptop_trouble trouble = laptop_prepare(laptop, folder, sheet_number, number, count);
    if (trouble == LAPTOP_FINE && access(laptop->file, F_OK) == 0)
        trouble = laptop_fails(laptop, LAPTOP_EXISTS,
                               "there is such a file already. Open it, or begin in another folder.");
    if (trouble == LAPTOP_FINE)
        trouble = laptop_load(laptop, (const uint8_t *)bytes, length);
    if (trouble == LAPTOP_FINE)
        laptop_begin_life(laptop, 0);
    return laptop_begun(laptop, trouble);
}

static inline enum laptop_trouble laptop_create(struct laptop *laptop, const char *folder, unsigned sheet_number,
                                                unsigned number, unsigned count)
{
    uint8_t empty[32];
    size_t length = wimtaze_written(wimtaze_empty(number, empty, sizeof empty));
    return laptop_adopt(laptop, folder, sheet_number, number, count, empty, length);
}

static inline enum laptop_trouble laptop_open(struct laptop *laptop, const char *folder, unsigned sheet_number,
                                              unsigned number, unsigned count)
{
    enum laptop_trouble trouble = laptop_prepare(laptop, folder, sheet_number, number, count);
    if (trouble == LAPTOP_FINE)
        trouble = laptop_read_file(laptop);
    return laptop_begun(laptop, trouble);
}

/* A file that is there is kept beside the new one, as "laptop-<number>.before". */
static inline enum laptop_trouble laptop_set_up_anew(struct laptop *laptop, const char *folder, unsigned sheet_number,
                                                     unsigned number, unsigned count)
{
    enum laptop_trouble trouble = laptop_prepare(laptop, folder, sheet_number, number, count);
    if (trouble != LAPTOP_FINE)
        return laptop_begun(laptop, trouble);
    if (laptop_read_file(laptop) != LAPTOP_FINE)
        laptop->life = 0;
    uint64_t life = laptop->life;
    if (rename(laptop->file, laptop->old_file) != 0 && errno != ENOENT)
        return laptop_begun(laptop, laptop_fails(laptop, LAPTOP_DISK, strerror(errno)));
    memset(laptop->other, 0, sizeof laptop->other);
    laptop_keep(laptop, wimtaze_empty(number, laptop->after, sizeof laptop->after));
    laptop_begin_life(laptop, life);
    laptop->renewed = 1;
    laptop->awaited = laptop_others(laptop);
    laptop->why[0] = '\0';
    return laptop_begun(laptop, LAPTOP_FINE);
}

static inline enum laptop_trouble laptop_close(struct laptop *laptop)
{
    enum laptop_trouble trouble = laptop->stopped == LAPTOP_FINE ? laptop_save(laptop) : LAPTOP_FINE;
    laptop_let_go(laptop);
    return trouble;
}

/* ---- what is to be sent */

/* Begins a datagram; the rest of it is written behind its first line. */
static inline uint8_t *laptop_address(const struct laptop *laptop, struct laptop_datagram *datagram, char kind,
                                      unsigned to)
{
    datagram->to = to;
    datagram->length = (size_t)snprintf((char *)datagram->bytes, LAPTOP_HEADER, "W1%c\t%u\t%u\t%u\t%llu\n", kind,
                                        laptop->sheet_number, laptop->number, to, (unsigned long long)laptop->life);
    return datagram->bytes + datagram->length;
}

/* Puts as many whole lines into a datagram as it takes; answers where the next begin. */
static inline size_t laptop_put_lines(const struct laptop *laptop, struct laptop_datagram *datagram, unsigned to,
                                      const uint8_t *lines, size_t begin, size_t length)
{
    uint8_t *body = laptop_address(laptop, datagram, 'L', to);
    size_t room = LAPTOP_DATAGRAM - datagram->length, end = length - begin > room ? begin + room : length;
    while (lines[end - 1] != '\n')
        end--;
    memcpy(body, lines + begin, end - begin);
    datagram->length += end - begin;
    return end;
}

static inline void laptop_put_list(struct laptop *laptop, struct laptop_datagram *datagram)
{
    uint8_t *body = laptop_address(laptop, datagram, 'Q', laptop_whom(laptop));
    size_t n = (size_t)snprintf((char *)body, 12, "%u\n", (unsigned)laptop_rows_crc(laptop));
    datagram->length += n + wimtaze_written(wimtaze_list(laptop->sheet, laptop->length, body + n, WIMTAZE_LIST_MAX));
}

/* What is known of a laptop's number and of all lives, or the question for that, to the first of several. */
static inline void laptop_put_lives(struct laptop *laptop, struct laptop_datagram *datagram, char kind,
                                    uint32_t *whom)
{
    unsigned to = 1;
    while ((*whom >> to & 1) == 0)
        to++;
    *whom &= ~(1u << to);
    char *body = (char *)laptop_address(laptop, datagram, kind, to);
    size_t n = 0, room = WIMTAZE_LIST_MAX;
    if (kind == 'T')
        n = (size_t)snprintf(body, room, "%u\n", laptop_highest(laptop, to));
    datagram->length += n + laptop_write_lives(laptop, body + n, room - n);
}

/* Answers the list that has waited longest, from the sheet as it is saved. */
static inline void laptop_answer_next(struct laptop *laptop)
{
    size_t length = laptop->list_length[0];
    laptop->answer_to = laptop->asker[0];
    laptop->answer_sent = 0;
    laptop->answer_length = wimtaze_written(wimtaze_answer(laptop->sheet, laptop->length, laptop->lists, length,
                                                           laptop->answer, sizeof laptop->answer));
    laptop->askers--;
    laptop->lists_length -= length;
    memmove(laptop->lists, laptop->lists + length, laptop->lists_length);
    memmove(laptop->asker, laptop->asker + 1, laptop->askers * sizeof *laptop->asker);
    memmove(laptop->list_length, laptop->list_length + 1, laptop->askers * sizeof *laptop->list_length);
}

/* Lines, fresh ones first and then those of answers; answers whether there were any. */
static inline int laptop_next_lines(struct laptop *laptop, struct laptop_datagram *datagram)
{
    if (laptop->fresh_sent < laptop->fresh_length) {
        laptop->fresh_sent =
            laptop_put_lines(laptop, datagram, 0, laptop->fresh, laptop->fresh_sent, laptop->fresh_length);
        return 1;
    }
    while (laptop->answer_sent == laptop->answer_length && laptop->askers > 0)
        laptop_answer_next(laptop);
    if (laptop->answer_sent == laptop->answer_length)
        return 0;
    laptop->answer_sent = laptop_put_lines(laptop, datagram, laptop->answer_to, laptop->answer, laptop->answer_sent,
                                           laptop->answer_length);
    return 1;
}

/* Questions and answers for the lives; answers whether there were any. */
static inline int laptop_next_lives(struct laptop *laptop, uint64_t now, struct laptop_datagram *datagram)
{
    if (laptop->awaited != 0 && now >= laptop->ask_at) {
        laptop->introduce |= laptop->awaited;
        laptop_asks(laptop, now, 4 * laptop->soon);
    }
    if (laptop->tell != 0)
        laptop_put_lives(laptop, datagram, 'T', &laptop->tell);
    else if (laptop->introduce != 0)
        laptop_put_lives(laptop, datagram, 'A', &laptop->introduce);
    else
        return 0;
    return 1;
}

/* Whether another datagram of lines may go: eight at once, and then one after each pause. */
static inline int laptop_may_send(const struct laptop *laptop, uint64_t now)
{
    return laptop->send_at <= now + 7 * laptop->between;
}

static inline int laptop_next(struct laptop *laptop, uint64_t now, struct laptop_datagram *datagram)
{
    if (laptop->stopped != LAPTOP_FINE)
        return 0;
    if (laptop_save(laptop) != LAPTOP_FINE)
        return -1;
    if (laptop_next_lives(laptop, now, datagram))
        return 1;
    if (laptop->awaited != 0)
        return 0;
    if (laptop_may_send(laptop, now) && laptop_next_lines(laptop, datagram)) {
        laptop->send_at = (laptop->send_at > now ? laptop->send_at : now) + laptop->between;
        return 1;
    }
    if (laptop->count == 1 || now < laptop->ask_at)
        return 0;
    laptop_put_list(laptop, datagram);
    laptop_asks(laptop, now, laptop->longest);
    return 1;
}

static inline unsigned laptop_pause(const struct laptop *laptop, uint64_t now)
{
    uint64_t at = laptop->ask_at;
    if (laptop->stopped != LAPTOP_FINE)
        return laptop->longest;
    if (!laptop->saved || (laptop->tell | laptop->introduce) != 0)
        return 0;
    if (laptop->fresh_sent < laptop->fresh_length || laptop->answer_sent < laptop->answer_length || laptop->askers > 0)
        at = laptop->send_at < now + 7 * laptop->between ? now : laptop->send_at - 7 * laptop->between;
    return at <= now ? 0 : at - now < laptop->longest ? (unsigned)(at - now) : laptop->longest;
}

#endif
