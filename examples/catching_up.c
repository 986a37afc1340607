/*
 * Two laptops of a playing hall, one of which misses a quarter of an hour. Both have the heading of a note when the
 * network drops. The desk goes on with the results; the hall corrects the heading and types a bye request, and all of
 * these lines are lost. When the network is back each lists what it holds, the other answers with what is not listed,
 * and both show the same note.
 *
 *     catching_up
 *
 * In your program `ask` is two messages over the network, the list and the answer, and the laptop that asked saves its
 * sheet as with any line that comes: laptop.h shows how.
 */
#include <wimtaze.h>

#include <stdio.h>
#include <stdlib.h>
#include <string.h>

struct laptop {
    const char *name;
    uint8_t sheet[WIMTAZE_SHEET_MAX];
    size_t length;
};

/* The new sheet of a call, and the lines that it wrote: those of an edit, or of an answer. */
static uint8_t after[WIMTAZE_SHEET_MAX], lines[WIMTAZE_ANSWER_MAX];

/* Takes the new sheet if there is one; answers the call's word. */
static enum wimtaze_words keep(struct laptop *laptop, uint64_t reply)
{
    if (wimtaze_written(reply) > 0) {
        laptop->length = wimtaze_written(reply);
        memcpy(laptop->sheet, after, laptop->length);
    }
    return wimtaze_word(reply);
}

static void begin(struct laptop *laptop, const char *name, uint64_t number)
{
    laptop->name = name;
    keep(laptop, wimtaze_empty(number, after, sizeof after));
}

/* ---- what a person does; what these write into `lines` is to be sent */

static size_t shown(const struct laptop *laptop)
{
    return wimtaze_shown_count(wimtaze_counts(laptop->sheet, laptop->length));
}

static size_t write_at(struct laptop *laptop, uint64_t gap, const char *text)
{
    uint64_t reply = wimtaze_paste(laptop->sheet, laptop->length, gap, (const uint8_t *)text, strlen(text), after,
                                   sizeof after, lines, sizeof lines);
    keep(laptop, reply);
    return wimtaze_line_written(reply);
}

static size_t erase(struct laptop *laptop, uint64_t place)
{
    uint64_t reply =
        wimtaze_erase(laptop->sheet, laptop->length, place, after, sizeof after, lines, sizeof lines);
    keep(laptop, reply);
    return wimtaze_line_written(reply);
}

static void show(const struct laptop *laptop)
{
    static uint8_t text[WIMTAZE_TEXT_MAX];
    size_t length = wimtaze_written(wimtaze_text(laptop->sheet, laptop->length, text, sizeof text));
    printf("the %s shows: %.*s\n", laptop->name, (int)length, (const char *)text);
}

/* ---- catching up */

/* Takes in lines one by one, in their sequence. None of an answer waits or is refused. */
static void take_in(struct laptop *laptop, size_t length)
{
    unsigned count[4] = {0};
    for (size_t k = 0, end; k < length; k = end) {
        for (end = k; lines[end++] != '\n';)
            ;
        count[keep(laptop, wimtaze_receive(laptop->sheet, laptop->length, lines + k, end - k, after, sizeof after))]++;
    }
    printf("the %s takes in %u lines, and knows %u\n", laptop->name, count[WIMTAZE_DONE], count[WIMTAZE_KNOWN]);
    if (count[WIMTAZE_WAITS] + count[WIMTAZE_REFUSED] > 0)
        exit(EXIT_FAILURE);
}

/* The one lists what it holds, and the other answers with what is not listed. */
static void ask(struct laptop *laptop, const struct laptop *other)
{
    static uint8_t list[WIMTAZE_LIST_MAX];
    uint64_t reply = wimtaze_list(laptop->sheet, laptop->length, list, sizeof list);
    size_t length = wimtaze_written(reply);
    printf("the %s lists:\n%.*s", laptop->name, (int)length, (const char *)list);
    reply = wimtaze_answer(other->sheet, other->length, list, length, lines, sizeof lines);
    if (wimtaze_word(reply) != WIMTAZE_DONE) {
        fprintf(stderr, "the list is refused with %d\n", (int)wimtaze_refusal(reply));
        exit(EXIT_FAILURE);
    }
    take_in(laptop, wimtaze_written(reply));
}

int main(void)
{
    static struct laptop desk, hall;
    begin(&desk, "desk", 1);
    begin(&hall, "hall", 2);
    take_in(&hall, write_at(&desk, 0, "Round 6. "));

    puts("the network drops for a quarter of an hour");
    write_at(&desk, shown(&desk), "Board 7: 1-0. Board 9: draw. ");
    write_at(&hall, 7, "5");
    erase(&hall, 7);
    write_at(&hall, shown(&hall), "Bye: Novak. ");
    show(&desk);
    show(&hall);

    puts("the network is back");
    ask(&hall, &desk);
    ask(&desk, &hall);
    show(&desk);
    show(&hall);
    return EXIT_SUCCESS;
}
