/*
 * Tells who typed what on a saved sheet, as an arbiter reads it; puts the sheet away in that sequence, and brings it
 * back.
 *
 *     archive tell <SHEET
 *     archive away <SHEET >ARCHIVE
 *     archive back <ARCHIVE >SHEET
 *
 * What is told is, for each laptop that typed, its characters in the sequence in which it typed them, with their places
 * from the top of the sheet; a new line begins where they do not follow each other there, or are erased and the others
 * are not. Places count erased characters too.
 *
 * If the sheet or the archive is refused nothing is printed, the reason is told on standard error, and the exit status
 * is 1.
 */
#include <wimtaze.h>

#include <stdio.h>
#include <stdlib.h>
#include <string.h>

/* A byte more than the longest archive, so that a longer file is refused and not cut. */
static uint8_t from[WIMTAZE_ARCHIVE_MAX + 1], to[WIMTAZE_ARCHIVE_MAX + 1];

/* A character of the archive. */
struct typed {
    unsigned place, laptop, clock, code_point, turn;
};

/* The next line of the archive, if it is a character's. The library wrote it, and a line feed ends it. */
static const char *next(const char *line, struct typed *typed)
{
    int read = sscanf(line, "P\t%u\t%u\t%u\t%u\t%u", &typed->place, &typed->laptop, &typed->clock, &typed->code_point,
                      &typed->turn);
    return read == 5 ? strchr(line, '\n') + 1 : NULL;
}

/* In UTF-8; a control character, a line feed too, as U+FFFD. */
static void show(unsigned code_point)
{
    unsigned c = code_point < 32 || code_point == 127 ? 0xfffd : code_point;
    unsigned more = c < 0x80 ? 0 : c < 0x800 ? 1 : c < 0x10000 ? 2 : 3;
    putchar((int)(more == 0 ? c : (0xff << (7 - more) & 0xff) | c >> 6 * more));
    while (more-- > 0)
        putchar((int)(0x80 | (c >> 6 * more & 0x3f)));
}

/* Whether a character goes on where the one before it ended: by the same laptop, just below it, erased as it is. */
static int goes_on(const struct typed *before, const struct typed *typed)
{
    return typed->laptop == before->laptop && typed->place == before->place + 1 &&
           typed->turn % 2 == before->turn % 2;
}

/* The lines of an archive, as a person reads them. */
static void tell(const char *archive)
{
    struct typed typed, before = {0, 0, 0, 0, 0};
    const char *line = strchr(archive, '\n') + 1;
    for (const char *rest; (rest = next(line, &typed)) != NULL; line = rest) {
        if (typed.laptop != before.laptop)
            printf("%slaptop %u typed\n", before.laptop == 0 ? "" : "\n", typed.laptop);
        if (!goes_on(&before, &typed))
            printf("%s%5u %s ", typed.laptop == before.laptop ? "\n" : "", typed.place,
                   typed.turn % 2 == 1 ? "erased" : "      ");
        show(typed.code_point);
        before = typed;
    }
    if (before.laptop != 0)
        putchar('\n');
}

static const char *reason(int back, enum wimtaze_refusals refusal)
{
    switch (refusal) {
    case WIMTAZE_REFUSAL_LAYOUT:
        return back ? "it is no archive, or is damaged" : "it is no saved sheet, or is damaged";
    case WIMTAZE_REFUSAL_MISARRANGED:
        return "a place is missing or stands twice, or the lines are not by author";
    case WIMTAZE_REFUSAL_FORM:
        return "it is damaged, or its clock is too low";
    default:
        return "it is damaged";
    }
}

int main(int argc, char **argv)
{
    const char *what = argc == 2 ? argv[1] : "";
    int back = strcmp(what, "back") == 0, told = strcmp(what, "tell") == 0;
    if (!back && !told && strcmp(what, "away") != 0) {
        fputs("usage: archive tell <SHEET\n       archive away <SHEET >ARCHIVE\n       archive back <ARCHIVE >SHEET\n",
              stderr);
        return 2;
    }
    size_t length = fread(from, 1, sizeof from, stdin);
    if (ferror(stdin)) {
        perror("archive");
        return EXIT_FAILURE;
    }
    uint64_t reply = back ? wimtaze_unarchive(from, length, to, WIMTAZE_SHEET_MAX)
                          : wimtaze_archive(from, length, to, WIMTAZE_ARCHIVE_MAX);
    enum wimtaze_refusals refusal = wimtaze_refusal(reply);
    if (refusal != WIMTAZE_REFUSAL_NONE) {
        fprintf(stderr, "it is refused with %d: %s\n", (int)refusal, reason(back, refusal));
        return EXIT_FAILURE;
    }
    if (told)
        tell((const char *)to);
    else
        fwrite(to, 1, wimtaze_written(reply), stdout);
    if (fflush(stdout) != 0 || ferror(stdout)) {
        perror("archive");
        return EXIT_FAILURE;
    }
    return EXIT_SUCCESS;
}
