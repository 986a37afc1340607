/*
 * Two laptops of a playing hall keep one note together, over a network that loses every third datagram, delivers every
 * fifth twice, and the last one first. One pastes the results from its pairing screen while the other types; neither
 * waits for the other, and the one is switched off and on again in between. The other is in the middle of a word when
 * the results come in above it, and types on at its cursor, which has kept its place. Then the first erases, by
 * mistake, what the other typed, and the other brings it back. Both end with the same note.
 *
 *     pairing FOLDER new     creates the two laptops, with their files in the folder
 *     pairing FOLDER         goes on from them
 *
 * What a laptop must see to is in laptop.h. `go_round` is one round of a program's loop; in yours, send_datagram and
 * next_datagram are the network, and type, paste, correct, erase, bring_back and show are the screen.
 */
#include "laptop.h"

enum { LAPTOPS = 2, SHEET = 1, ON_THE_WAY = 256, ROUND = 100 /* milliseconds */ };

static void end_with(const char *words)
{
    fprintf(stderr, "%s\n", words);
    exit(EXIT_FAILURE);
}

/* ---- the network */

static struct laptop_datagram on_the_way[ON_THE_WAY];
static size_t on_the_way_count;
static unsigned sent, lost, doubled;

/* With two laptops, a datagram for all the others is for the other one. */
static void send_datagram(const struct laptop *from, const struct laptop_datagram *datagram)
{
    unsigned copies = ++sent % 3 == 0 ? 0 : sent % 5 == 0 ? 2 : 1;
    lost += copies == 0;
    doubled += copies == 2;
    for (; copies > 0 && on_the_way_count < ON_THE_WAY; copies--) {
        on_the_way[on_the_way_count] = *datagram;
        on_the_way[on_the_way_count++].to = 3 - from->number;
    }
}

/* The last datagram on the way to a laptop, if there is one. */
static int next_datagram(unsigned to, struct laptop_datagram *datagram)
{
    for (size_t k = on_the_way_count; k > 0; k--) {
        if (on_the_way[k - 1].to != to)
            continue;
        *datagram = on_the_way[k - 1];
        memmove(&on_the_way[k - 1], &on_the_way[k], (on_the_way_count-- - k) * sizeof *on_the_way);
        return 1;
    }
    return 0;
}

/* ---- one round of a laptop's loop */

static uint64_t now;

static void go_round(struct laptop *laptop)
{
    static struct laptop_datagram datagram;
    int more;
    while (next_datagram(laptop->number, &datagram))
        laptop_take_in(laptop, now, datagram.bytes, datagram.length);
    while ((more = laptop_next(laptop, now, &datagram)) == 1)
        send_datagram(laptop, &datagram);
    if (more < 0)
        end_with(laptop->why);
    for (const char *words; (words = laptop_message(laptop)) != NULL;)
        fprintf(stderr, "%s\n", words);
}

static int same_text(const struct laptop *a, const struct laptop *b)
{
    static uint8_t text[WIMTAZE_TEXT_MAX], other[WIMTAZE_TEXT_MAX];
    size_t length = laptop_text(a, text);
    return laptop_text(b, other) == length && memcmp(text, other, length) == 0;
}

/* Rounds of both until they show the same text, for ten minutes of the program's clock at most. */
static void exchange(struct laptop *desk, struct laptop *hall)
{
    for (unsigned rounds = 0; !same_text(desk, hall) && rounds < 6000; rounds++) {
        now += ROUND;
        go_round(hall);
        go_round(desk);
    }
}

/* ---- what a person does */

/* Types a text at the cursor, all of it or, where there is no room for it, nothing. */
static void type(struct laptop *laptop, const char *text)
{
    if (laptop_room(laptop) < strlen(text)) {
        printf("laptop %u has no room for: %s\n", laptop->number, text);
        return;
    }
    for (; *text != '\0'; text++)
        if (laptop_type(laptop, laptop->cursor, (uint8_t)*text) != WIMTAZE_REFUSAL_NONE)
            return;
}

/* Pastes a text at a gap, all of it or nothing. */
static void paste(struct laptop *laptop, uint64_t gap, const char *text)
{
    enum wimtaze_refusals refusal = laptop_paste(laptop, gap, text, strlen(text));
    if (refusal != WIMTAZE_REFUSAL_NONE)
        printf("laptop %u cannot paste \"%s\": %s\n", laptop->number, text, wimtaze_refusal_text(refusal));
}

/* Puts another character in the place of one. */
static void correct(struct laptop *laptop, uint64_t place, char character)
{
    if (laptop_type(laptop, place, (uint8_t)character) == WIMTAZE_REFUSAL_NONE)
        laptop_erase(laptop, place);
}

/*
 * Pastes a heading and a result at the cursor, and corrects a slip. Then the cursor goes back behind the heading: it
 * stays there while another result is pasted at the end, and the name of the hall is typed at it. Answers how many
 * characters that makes.
 */
static size_t paste_results(struct laptop *laptop)
{
    static const char heading[] = "Round 5. ", hall[] = "Hall A. ", result[] = "Board 4: 1-0. ";
    static const char next[] = "Board 9 was adjourned. ";
    uint64_t top = laptop->cursor;
    paste(laptop, laptop->cursor, heading);
    paste(laptop, laptop->cursor, result);
    correct(laptop, laptop->cursor - strlen(": 1-0. "), '7');
    uint64_t end = laptop->cursor;
    laptop->cursor = top + strlen(heading);
    paste(laptop, end, next);
    type(laptop, hall);
    return strlen(heading) + strlen(hall) + strlen(result) + strlen(next);
}

/* Erases so many characters, the first of them at a place. */
static void erase(struct laptop *laptop, uint64_t place, size_t count)
{
    for (; count > 0; count--)
        laptop_erase(laptop, place);
}

/* Brings back what was typed here and erased anywhere. After each call the sheet is another one. */
static void bring_back(struct laptop *laptop)
{
    struct wimtaze_rows rows = wimtaze_read_sheet(laptop->sheet, laptop->length);
    struct wimtaze_row row;
    while (wimtaze_next_row(&rows, &row)) {
        if (row.id.laptop != laptop->number || wimtaze_is_shown(&row))
            continue;
        if (laptop_restore(laptop, row.id.laptop, row.id.clock) != WIMTAZE_REFUSAL_NONE)
            return;
        rows = wimtaze_read_sheet(laptop->sheet, laptop->length);
    }
}

static void show(const struct laptop *laptop)
{
    static uint8_t text[WIMTAZE_TEXT_MAX];
    size_t length = laptop_text(laptop, text);
    printf("%.*s\n", (int)length, (const char *)text);
}

/* Goes on from a laptop's file, or creates it. A file that is not there is never taken for one that is to be made. */
static void begin(struct laptop *laptop, const char *folder, unsigned number, int create)
{
    if (create)
        laptop_create(laptop, folder, SHEET, number, LAPTOPS);
    else
        laptop_open(laptop, folder, SHEET, number, LAPTOPS);
    if (laptop->why[0] != '\0')
        end_with(laptop->why);
}

int main(int argc, char **argv)
{
    static const char bye[] = "Bye: No", rest[] = "vak. ";
    static struct laptop desk, hall;
    int create = argc == 3 && strcmp(argv[2], "new") == 0;
    if (argc < 2 || argc > 3 || (argc == 3 && !create))
        end_with("usage: pairing FOLDER [new]");
    begin(&desk, argv[1], 1, create);
    begin(&hall, argv[1], 2, create);

    size_t above = paste_results(&desk);
    type(&hall, bye);
    go_round(&desk);
    laptop_close(&desk);
    begin(&desk, argv[1], 1, 0);

    exchange(&desk, &hall);
    type(&hall, rest);
    exchange(&desk, &hall);
    erase(&desk, above + 1, strlen(bye) + strlen(rest));
    exchange(&desk, &hall);
    puts("the bye request is erased by mistake:");
    show(&hall);
    bring_back(&hall);
    exchange(&desk, &hall);
    printf("%u ms: %u datagrams, %u of them lost, %u delivered twice\n", (unsigned)now, sent, lost, doubled);
    show(&desk);
    show(&hall);
    int equal = same_text(&desk, &hall);
    puts(equal ? "equal" : "different");
    int closed = laptop_close(&desk) == LAPTOP_FINE && laptop_close(&hall) == LAPTOP_FINE;
    return closed && equal ? EXIT_SUCCESS : EXIT_FAILURE;
}
