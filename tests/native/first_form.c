/*
 * The sheets of first_form/, which version 0.4.0 saved in the first form, on the way forward and back. What the way
 * forward writes is read by the other calls, is loaded for use as it is, and shows what 0.4.0 showed; the way back
 * gives the file again, byte for byte. A file whose clock was lowered comes back with the clock that it had, and else
 * as it was handed over.
 *
 *     first_form DIRECTORY
 */
#include "wimtaze.h"

#include <stdio.h>
#include <stdlib.h>
#include <string.h>

static const struct {
    const char *name;
    const char *text; /* what it shows, so many times */
    unsigned times;
    unsigned shown, waiting, characters, room;
    const char *low; /* a first line with too low a clock, where the laptop's own characters are on the sheet */
} sheets[] = {
    {"empty", "", 1, 0, 0, 0, 1024, NULL},
    {"erased",
     "Bye: Nov\xc3\xa1k, rd 4\xe2\x99\x9e.\nResult\t\xe2\x80\x93"
     "0\xef\xbf\xbd\xf0\x9f\x8f\x86",
     1, 30, 0, 39, 985, "S\t3\t37\n"},
    {"waiting", "Rond 4.", 1, 7, 10, 8, 1012, "S\t5\t0\n"},
    {"anew", "Be: ok", 1, 6, 5, 7, 1012, "S\t2\t14\n"},
    {"hall",
     "Bye: Ie: Ae. ate: 12. Bd 4 raw. I: Bd 9: 1 3: 1-0. B 8: Bye: Lee. Aped 6 draw. Bd 1: 1-0. Clock 7 bBBd 2: 0"
     "Lnch 13h. d : 1-0. ",
     1, 126, 18, 140, 866, "S\t16\t10\n"},
    {"full", "\xf4\x8f\xbf\xbf", 624, 624, 512, 1024, 0, "S\t16\t64999\n"},
};

static unsigned passed, failed;

static uint8_t file[WIMTAZE_OLD_SHEET_MAX + 1], low[WIMTAZE_OLD_SHEET_MAX + 1], back[WIMTAZE_OLD_SHEET_MAX];
static uint8_t sheet[WIMTAZE_SHEET_MAX], forward[WIMTAZE_SHEET_MAX], text[WIMTAZE_TEXT_MAX];

static void check(int held, const char *name, const char *what)
{
    if (held) {
        passed++;
        return;
    }
    failed++;
    printf("%s.sheet: not so: %s\n", name, what);
}

static size_t read_file(const char *directory, const char *name)
{
    char path[1024];
    size_t length = 0;
    snprintf(path, sizeof path, "%s/%s.sheet", directory, name);
    FILE *from = fopen(path, "rb");
    if (from == NULL) {
        perror(path);
        return 0;
    }
    length = fread(file, 1, sizeof file, from);
    fclose(from);
    return length;
}

static int shows(size_t length, const char *part, unsigned times)
{
    uint64_t reply = wimtaze_text(sheet, length, text, sizeof text);
    size_t n = strlen(part);
    if (wimtaze_word(reply) != WIMTAZE_DONE || wimtaze_written(reply) != n * times)
        return 0;
    for (unsigned k = 0; k < times; k++)
        if (memcmp(text + n * k, part, n) != 0)
            return 0;
    return 1;
}

/* Forward, to `sheet`, and back, to `back`: how long each is, 0 where it is refused. */
static size_t trip(const uint8_t *old, size_t length, size_t *reached)
{
    uint64_t reply = wimtaze_upgrade(old, length, sheet, sizeof sheet);
    *reached = wimtaze_written(reply);
    if (wimtaze_word(reply) != WIMTAZE_DONE)
        return 0;
    reply = wimtaze_downgrade(sheet, *reached, back, sizeof back);
    return wimtaze_word(reply) == WIMTAZE_DONE ? wimtaze_written(reply) : 0;
}

static void go(const char *directory, size_t k)
{
    const char *name = sheets[k].name;
    size_t length = read_file(directory, name), reached, reached_low;
    check(length > 0 && length <= WIMTAZE_OLD_SHEET_MAX, name, "the file is there and not too long");
    if (length == 0)
        return;
    check(wimtaze_refusal(wimtaze_counts(file, length)) == WIMTAZE_REFUSAL_LAYOUT, name, "it is no sheet yet");

    check(trip(file, length, &reached) == length && memcmp(back, file, length) == 0, name, "back it is the file");
    check(shows(reached, sheets[k].text, sheets[k].times), name, "forward it shows the text");
    uint64_t counts = wimtaze_counts(sheet, reached);
    uint64_t loaded = wimtaze_load(sheet, reached, forward, sizeof forward);
    check(wimtaze_word(loaded) == WIMTAZE_DONE && wimtaze_written(loaded) == reached &&
              memcmp(forward, sheet, reached) == 0,
          name, "forward it is loaded as it is");
    check(wimtaze_word(counts) == WIMTAZE_DONE && wimtaze_shown_count(counts) == sheets[k].shown &&
              wimtaze_waiting_count(counts) == sheets[k].waiting &&
              wimtaze_character_count(counts) == sheets[k].characters && wimtaze_room(counts) == sheets[k].room,
          name, "forward it has the counts");

    if (sheets[k].low == NULL)
        return;
    memcpy(forward, sheet, reached);
    size_t head = strcspn((const char *)file, "\n") + 1, low_head = strlen(sheets[k].low);
    size_t rest = length - head;
    memcpy(low, sheets[k].low, low_head);
    memcpy(low + low_head, file + head, rest);
    check(low_head + rest != length || memcmp(low, file, length) != 0, name, "the clock is lowered");
    check(trip(low, low_head + rest, &reached_low) == length && memcmp(back, file, length) == 0, name,
          "with a lower clock it comes back as the file");
    check(reached_low == reached && memcmp(sheet, forward, reached) == 0, name, "and so it does on the way forward");
}

int main(int argc, char **argv)
{
    if (argc != 2) {
        fputs("usage: first_form DIRECTORY\n", stderr);
        return 2;
    }
    for (size_t k = 0; k < sizeof sheets / sizeof *sheets; k++)
        go(argv[1], k);
    printf("%u passed, %u failed\n", passed, failed);
    return failed == 0 ? EXIT_SUCCESS : EXIT_FAILURE;
}
