/*
 * Two laptops of a playing hall keep one note together, over a network that loses every third packet, delivers every
 * fifth twice, and the last one first. One pastes the results from its pairing screen while the other types; neither
 * waits for the other, and the one is switched off and on again in between. The other is in the middle of a word when
 * the results come in above it, and types on at its cursor, which has kept its place. Then the first erases, by
 * mistake, what the other typed, and the other brings it back. Both end with the same note.
 *
 *     pairing [DIRECTORY]     keeps the two sheets there, and goes on from them when it is run again
 *
 * What a laptop must see to is in laptop.h. `go_round` is one round of a program's loop; in yours, send_packet and
 * next_packet are the network, and type, paste, correct, erase, bring_back and show are the screen.
 */
#include "laptop.h"

enum { LAPTOPS = 2, PACKETS = 4096 };

/* ---- the network */

struct packet {
    unsigned from, to;
    int acknowledges; /* whether it is an acknowledgement of the line or the line */
    uint8_t line[WIMTAZE_LINE_MAX];
    size_t length;
};

static struct packet on_the_way[PACKETS];
static size_t on_the_way_count;

static void send_packet(const struct packet *packet)
{
    static unsigned sent;
    unsigned copies = ++sent % 3 == 0 ? 0 : sent % 5 == 0 ? 2 : 1;
    for (; copies > 0 && on_the_way_count < PACKETS; copies--)
        on_the_way[on_the_way_count++] = *packet;
}

/* The last packet on the way to a laptop, if there is one. */
static int next_packet(unsigned to, struct packet *packet)
{
    for (size_t k = on_the_way_count; k > 0; k--) {
        if (on_the_way[k - 1].to != to)
            continue;
        *packet = on_the_way[k - 1];
        memmove(&on_the_way[k - 1], &on_the_way[k], (on_the_way_count-- - k) * sizeof *on_the_way);
        return 1;
    }
    return 0;
}

/* ---- one round of a laptop's loop */

static unsigned answers[4], put_off;

/* Takes in what has come, and keeps the acknowledgements that are due for it. */
static size_t take_in(struct laptop *laptop, struct packet *due)
{
    size_t count = 0;
    struct packet packet;
    while (count < PACKETS && next_packet(laptop->number, &packet)) {
        if (packet.acknowledges) {
            laptop_acknowledged(laptop, packet.from, packet.line, packet.length);
            continue;
        }
        uint64_t reply = laptop_receive(laptop, packet.line, packet.length);
        answers[wimtaze_word(reply)]++;
        put_off += wimtaze_refusal(reply) == WIMTAZE_REFUSAL_SENDER_FULL;
        if (wimtaze_word(reply) != WIMTAZE_REFUSED) {
            packet.to = packet.from;
            packet.from = laptop->number;
            packet.acknowledges = 1;
            due[count++] = packet;
        }
    }
    return count;
}

/* Sends each line of the outbox to the laptops that have not acknowledged it. */
static void send_outbox(const struct laptop *laptop)
{
    for (size_t k = 0; k < laptop->outbox_count; k++) {
        const struct letter *letter = &laptop->outbox[k];
        struct packet packet = {.from = laptop->number, .length = letter->length};
        memcpy(packet.line, letter->line, letter->length);
        for (packet.to = 1; packet.to <= laptop->count; packet.to++)
            if (letter->missing >> packet.to & 1)
                send_packet(&packet);
    }
}

static void go_round(struct laptop *laptop)
{
    static struct packet due[PACKETS];
    size_t count = take_in(laptop, due);
    laptop_save(laptop);
    for (size_t k = 0; k < count; k++)
        send_packet(&due[k]);
    send_outbox(laptop);
}

/* ---- what a person does */

/* Types a text at the cursor, all of it or, where there is no room for it, nothing. */
static void type(struct laptop *laptop, const char *text)
{
    if (laptop_room(laptop) < strlen(text)) {
        printf("laptop %u has no room for: %s\n", laptop->number, text);
        return;
    }
    for (; *text != '\0'; text++)
        if (laptop_type(laptop, laptop->cursor, (uint8_t)*text) != WIMTAZE_REFUSAL_NONE)
            return;
}

/* Pastes a text at a gap, all of it or nothing. */
static void paste(struct laptop *laptop, uint64_t gap, const char *text)
{
    enum wimtaze_refusals refusal = laptop_paste(laptop, gap, text, strlen(text));
    if (refusal != WIMTAZE_REFUSAL_NONE)
        printf("laptop %u is refused with %d: %s\n", laptop->number, (int)refusal, text);
}

/* Puts another character in the place of one. */
static void correct(struct laptop *laptop, uint64_t place, char character)
{
    if (laptop_type(laptop, place, (uint8_t)character) == WIMTAZE_REFUSAL_NONE)
        laptop_erase(laptop, place);
}

/*
 * Pastes a heading and a result at the cursor, and corrects a slip. Then the cursor goes back behind the heading: it
 * stays there while another result is pasted at the end, and the name of the hall is typed at it. Answers how many
 * characters that makes.
 */
static size_t paste_results(struct laptop *laptop)
{
    static const char heading[] = "Round 5. ", hall[] = "Hall A. ", result[] = "Board 4: 1-0. ";
    static const char next[] = "Board 9 was adjourned. ";
    uint64_t top = laptop->cursor;
    paste(laptop, laptop->cursor, heading);
    paste(laptop, laptop->cursor, result);
    correct(laptop, laptop->cursor - strlen(": 1-0. "), '7');
    uint64_t end = laptop->cursor;
    laptop->cursor = top + strlen(heading);
    paste(laptop, end, next);
    type(laptop, hall);
    return strlen(heading) + strlen(hall) + strlen(result) + strlen(next);
}

/* Erases so many characters, the first of them at a place. */
static void erase(struct laptop *laptop, uint64_t place, size_t count)
{
    for (; count > 0; count--)
        laptop_erase(laptop, place);
}

/* Brings back what was typed here and erased anywhere. After each call the sheet is another one. */
static void bring_back(struct laptop *laptop)
{
    for (const uint8_t *row = laptop_first_row(laptop); row != NULL;)
        if (laptop_field(row, 1) != laptop->number || laptop_is_shown(row))
            row = laptop_row_after(laptop, row);
        else if (laptop_restore(laptop, laptop->number, laptop_field(row, 2)) == WIMTAZE_REFUSAL_NONE)
            row = laptop_first_row(laptop);
        else
            return;
}

static size_t show(const struct laptop *laptop, uint8_t *text)
{
    size_t length = wimtaze_written(wimtaze_text(laptop->sheet, laptop->length, text, WIMTAZE_TEXT_MAX));
    printf("%.*s\n", (int)length, (const char *)text);
    return length;
}

/* Rounds of both laptops until every line is delivered; answers how many. */
static unsigned exchange(struct laptop *desk, struct laptop *hall)
{
    unsigned rounds = 0;
    for (; desk->outbox_count + hall->outbox_count > 0 && rounds < 1000; rounds++) {
        go_round(hall);
        go_round(desk);
    }
    return rounds;
}

int main(int argc, char **argv)
{
    static const char bye[] = "Bye: No", rest[] = "vak. ";
    const char *directory = argc > 1 ? argv[1] : ".";
    static struct laptop desk, hall;
    static uint8_t desk_text[WIMTAZE_TEXT_MAX], hall_text[WIMTAZE_TEXT_MAX];

    laptop_open(&desk, directory, 1, LAPTOPS);
    laptop_open(&hall, directory, 2, LAPTOPS);

    size_t above = paste_results(&desk);
    type(&hall, bye);
    go_round(&desk);
    laptop_close(&desk);
    laptop_open(&desk, directory, 1, LAPTOPS);

    unsigned rounds = exchange(&desk, &hall);
    type(&hall, rest);
    rounds += exchange(&desk, &hall);
    erase(&desk, above + 1, strlen(bye) + strlen(rest));
    rounds += exchange(&desk, &hall);
    puts("the bye request is erased by mistake:");
    show(&hall, hall_text);
    bring_back(&hall);
    rounds += exchange(&desk, &hall);
    printf("%u rounds: %u lines done, %u had to wait, %u known, %u refused with 10 and tried again\n", rounds,
           answers[WIMTAZE_DONE], answers[WIMTAZE_WAITS], answers[WIMTAZE_KNOWN], put_off);

    size_t length = show(&desk, desk_text);
    int equal = show(&hall, hall_text) == length && memcmp(desk_text, hall_text, length) == 0;
    puts(equal ? "equal" : "different");
    laptop_close(&desk);
    laptop_close(&hall);
    return equal ? EXIT_SUCCESS : EXIT_FAILURE;
}
