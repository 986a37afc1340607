/*
 * Takes a saved sheet in the first form, as versions before 0.5 wrote it, to the form that the library works on; and
 * back, for programs that read the first form only.
 *
 *     first_form forward <OLD >SHEET
 *     first_form back <SHEET >OLD
 *
 * If the sheet is refused nothing is printed, the reason is told on standard error, and the exit status is 1.
 */
#include <wimtaze.h>

#include <stdio.h>
#include <stdlib.h>
#include <string.h>

/* A byte more than the longest sheet, so that a longer file is refused and not cut. */
static uint8_t from[WIMTAZE_SHEET_MAX + 1], to[WIMTAZE_SHEET_MAX];

static const char *reason(int forward, enum wimtaze_refusals refusal)
{
    switch (refusal) {
    case WIMTAZE_REFUSAL_LAYOUT:
        return forward ? "it is not in the first form, or is damaged" : "it is no saved sheet, or is damaged";
    case WIMTAZE_REFUSAL_HIGH_TURN:
        return "something was erased and brought back, and the first form has no place for that";
    default:
        return "it is damaged";
    }
}

int main(int argc, char **argv)
{
    int forward = argc == 2 && strcmp(argv[1], "forward") == 0;
    if (!forward && (argc != 2 || strcmp(argv[1], "back") != 0)) {
        fputs("usage: first_form forward <OLD >SHEET\n       first_form back <SHEET >OLD\n", stderr);
        return 2;
    }
    size_t length = fread(from, 1, sizeof from, stdin);
    if (ferror(stdin)) {
        perror("first_form");
        return EXIT_FAILURE;
    }
    uint64_t reply =
        forward ? wimtaze_upgrade(from, length, to, sizeof to) : wimtaze_downgrade(from, length, to, sizeof to);
    enum wimtaze_refusals refusal = wimtaze_refusal(reply);
    if (refusal != WIMTAZE_REFUSAL_NONE) {
        fprintf(stderr, "the sheet is refused with %d: %s\n", (int)refusal, reason(forward, refusal));
        return EXIT_FAILURE;
    }
    size_t written = wimtaze_written(reply);
    if (fwrite(to, 1, written, stdout) != written || fflush(stdout) != 0) {
        perror("first_form");
        return EXIT_FAILURE;
    }
    return EXIT_SUCCESS;
}
