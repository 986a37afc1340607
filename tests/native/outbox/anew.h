/*
 * A laptop that lost its sheet and keeps its number, by rule 1 of wimtaze.h: it begins with an empty sheet and asks
 * each of the others for everything, again and again, until each has told it that it has all. Its clock follows its own
 * characters as they come back. Until it has all it makes no edits, and no sheet of it is on the disk to go on from: a
 * file "laptop-<number>.anew" says so, with which laptop_open refuses. If it ends before that, it is opened anew again.
 * It never has all if more than 32 of its own edits wait on the others for one that was lost, or if one of the others
 * is gone for good: then it takes a number that nobody has had.
 *
 *     laptop that was opened anew     send laptop->anew to each laptop in laptop->awaited, from time to time;
 *                                     laptop_told, when one answers
 *     every other laptop              laptop_asked, when such a number comes; answer with it where that says so
 */
#ifndef ANEW_H
#define ANEW_H

#include "laptop.h"

/* Everything that the sheet holds, for one laptop. */
static void laptop_post_all(struct laptop *laptop, unsigned to)
{
    laptop_post_rows(laptop, 1, 1u << to);
    laptop_post_waiting(laptop, 1, 1u << to);
}

/* Drops the lines of a laptop that were never taken in: they are lost with its sheet. */
static void laptop_drop_held(struct laptop *laptop, unsigned from)
{
    for (size_t k = 0; k < laptop->held_count;)
        if (laptop_field(laptop->held[k].line, 1) == from)
            laptop->held[k] = laptop->held[--laptop->held_count];
        else
            k++;
}

/*
 * Laptop `from` was opened anew under this number, and asks for everything. Answers whether it has acknowledged all
 * that this one held when it asked first: then tell it so.
 */
static int laptop_asked(struct laptop *laptop, unsigned from, uint64_t anew)
{
    if (laptop->asked[from] != anew) {
        laptop->asked[from] = anew;
        laptop_drop_held(laptop, from);
        laptop_post_all(laptop, from);
    }
    for (size_t k = 0; k < laptop->outbox_count; k++)
        if (laptop->outbox[k].missing >> from & 1)
            return 0;
    return 1;
}

/* Has all: the sheet is saved as any other, and its own edits go to those that lack some. */
static void laptop_has_all(struct laptop *laptop)
{
    laptop_save(laptop);
    if (unlink(laptop->anew_file) != 0 || fsync(laptop->directory) != 0)
        laptop_die(laptop->anew_file);
    laptop_fill_outbox(laptop);
}

/* Laptop `from` tells that this one has all that it held. */
static void laptop_told(struct laptop *laptop, unsigned from, uint64_t anew)
{
    if (laptop->awaited == 0 || anew != laptop->anew)
        return;
    laptop->awaited &= ~(1u << from);
    if (laptop->awaited == 0)
        laptop_has_all(laptop);
}

/*
 * Opens a laptop that lost its sheet, as laptop_open does, under a number, not 0, that it was never opened anew with
 * before: a random one, or the time where its clock can be relied on. It begins with an empty sheet, whatever its file
 * holds. Nothing that it sent before, line or acknowledgement, may still be on its way.
 */
static void laptop_open_anew(struct laptop *laptop, const char *directory, unsigned number, unsigned count,
                             uint64_t anew)
{
    laptop_prepare(laptop, directory, number, count);
    int file = open(laptop->anew_file, O_WRONLY | O_CREAT, 0666);
    if (file < 0 || close(file) != 0 || fsync(laptop->directory) != 0 ||
        (unlink(laptop->file) != 0 && errno != ENOENT) || fsync(laptop->directory) != 0)
        laptop_die(laptop->anew_file);
    laptop->anew = anew;
    laptop->awaited = laptop_others(laptop);
    laptop_begin(laptop);
    if (laptop->awaited == 0)
        laptop_has_all(laptop);
}

#endif
