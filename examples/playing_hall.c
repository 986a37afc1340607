/*
 * Sixteen laptops of a playing hall write one sheet together, over a bad network. Each laptop is a process with a file
 * for its sheet, and types a note, with slips in it that any of them erases; laptop 1 has its note on the pairing
 * screen and pastes it. They talk by UDP datagrams on the loopback interface, all through one relay. It loses one in
 * five, delivers one in eight twice, and holds each back for some time, so that they overtake each other. For a while
 * it cuts laptops 13 to 16 off from the others; in that time laptop 5 is killed, and started again from its file, and
 * laptop 9 is killed, loses its file, and is set up anew under its number: it gets its characters back from the others,
 * and types on, while what it had sent before may still be on its way. When all is typed, laptop 11 erases the note of
 * laptop 2 by mistake, and laptop 2 brings it back. At the end the sixteen files must show the same text.
 *
 *     playing_hall [SECONDS [SEED [MINUTES]]]     types for so long, 2 to 60 seconds; 20 if nothing is said
 *
 * With MINUTES it goes on with one sheet after another until these are over. Then any laptop may be killed at any time,
 * several at once, one in four of them loses its file, and each erases and mends its note until the time of the sheet
 * is over.
 *
 * The seed decides what chance has to decide; when each process gets its turn is up to the system. Nothing leaves the
 * machine: each socket has an address 127.0.0.1 and a port that the system picks.
 */
#include "laptop.h"

#include <arpa/inet.h>
#include <netinet/in.h>
#include <poll.h>
#include <signal.h>
#include <sys/socket.h>
#include <sys/wait.h>

enum {
    LAPTOPS = 16,
    SECTION = 13,      /* the first laptop of the section that is cut off */
    KILLED = 5,        /* the laptop that is killed */
    RENEWED = 9,       /* the laptop that loses its file too */
    SCREEN = 1,        /* the laptop that pastes its note */
    CARELESS = 11,     /* the laptop that erases a note by mistake, */
    AUTHOR = 2,        /* and the one that typed it and brings it back */
    EDITS = 30,        /* of a laptop in the time of the typing */
    BATCH = 64,        /* datagrams that a laptop takes in before it saves */
    ON_THE_WAY = 8192, /* datagrams that the relay can hold back; more are lost */
    PATIENCE = 120     /* seconds after the typing until the referee gives up */
};

/*
 * What version 0.12 needed, which kept each line in an outbox until all others had acknowledged it, with the same notes
 * and the same network: measured over the seeds 1, 2 and 3, 20 seconds each, for each edit.
 */
static const unsigned long OUTBOX_BYTES = 2326, OUTBOX_DATAGRAMS = 109;

static const char SLIP = '#';

static const char *const NOTES[LAPTOPS] = {
    "Board 1: 1-0 on time.\n",      "Novak: bye in round 4.\n",    "Board 3 is adjourned.\n",
    "Board 4: clock set back.\n",   "Board 5: draw, move 40.\n",   "Ivanova wants a recount.\n",
    "Board 7: 0-1, flag fell.\n",   "Pencils to table 8.\n",       "Board 9: claim turned down.\n",
    "Player 41 has gone home.\n",   "Board 11: 1-0, corrected.\n", "Round 5 starts at three.\n",
    "Board 13: phone, warning.\n",  "Section B is complete.\n",    "Board 15: perpetual check.\n",
    "The lamp of 16 is out.\n",
};

/* On the way through the relay a datagram has two bytes before it: to whom and from whom. Laptop 0 is the referee. */
enum { HEADER = 2, LONGEST = 1500 };

struct packet {
    uint8_t bytes[HEADER + LONGEST];
    size_t length;
};

/* What a laptop tells the referee about itself. */
struct status {
    uint32_t sheet, characters, waiting, edits, rows_crc, erased, finished;
};

static void die(const char *what)
{
    perror(what);
    exit(EXIT_FAILURE);
}

static uint64_t milliseconds(void)
{
    struct timespec now;
    clock_gettime(CLOCK_MONOTONIC, &now);
    return (uint64_t)now.tv_sec * 1000 + (uint64_t)now.tv_nsec / 1000000;
}

/* SplitMix64. */
static uint64_t chance;

static unsigned below(unsigned n)
{
    uint64_t a = chance += 0x9e3779b97f4a7c15u;
    a = (a ^ a >> 30) * 0xbf58476d1ce4e5b9u;
    a = (a ^ a >> 27) * 0x94d049bb133111ebu;
    return (unsigned)((a ^ a >> 31) % n);
}

/* ---- a laptop's user */

static struct laptop laptop;
static struct wimtaze_row rows[WIMTAZE_CHARACTER_MAX];
static unsigned row_count;
static int many_sheets;

static void look(void)
{
    struct wimtaze_rows reader = wimtaze_read_sheet(laptop.sheet, laptop.length);
    for (row_count = 0; row_count < WIMTAZE_CHARACTER_MAX && wimtaze_next_row(&reader, &rows[row_count]);)
        row_count++;
}

static int is_of(const struct wimtaze_row *row, unsigned author)
{
    return row->id.laptop == author && row->code_point != (uint32_t)SLIP;
}

/*
 * How the text of an author differs from the note at its first difference, read off the sheet, which is all that is
 * left after a crash: a character that is too much, one that was erased, or one that is to be typed.
 */
struct difference {
    enum { COMPLETE, TOO_MUCH, ERASED, MISSING } kind;
    unsigned place; /* in the text: of what is too much; or the gap behind the last character that is right */
    struct wimtaze_identifier id; /* of what was erased */
    size_t typed; /* how many are right */
};

/*
 * A shown row that is not the note's next character: too much if the note is complete, or if what follows the row is
 * that character; and else something is missing.
 */
static int is_too_much(unsigned k, unsigned author, const char *rest)
{
    if (*rest == '\0')
        return 1;
    for (unsigned n = k + 1; n < row_count; n++)
        if (is_of(&rows[n], author) && wimtaze_is_shown(&rows[n]))
            return rows[n].code_point == (uint8_t)*rest;
    return 0;
}

static struct difference compare_note(unsigned author)
{
    const char *note = NOTES[author - 1];
    struct difference d = {COMPLETE, 0, {0, 0}, 0};
    int erased = 0;
    for (unsigned k = 0; k < row_count; k++) {
        const struct wimtaze_row *row = &rows[k];
        if (!is_of(row, author))
            continue;
        if (!wimtaze_is_shown(row)) {
            if (!erased && row->code_point == (uint8_t)note[d.typed] && note[d.typed] != '\0') {
                d.id = row->id;
                erased = 1;
            }
        } else if (row->code_point == (uint8_t)note[d.typed] && note[d.typed] != '\0') {
            d.place = row->shown;
            d.typed++;
            erased = 0;
        } else if (is_too_much(k, author, note + d.typed)) {
            d.kind = TOO_MUCH;
            d.place = row->shown;
            return d;
        } else {
            break;
        }
    }
    d.kind = note[d.typed] == '\0' ? COMPLETE : erased ? ERASED : MISSING;
    return d;
}

/* The place of the first slip that is shown, or 0. */
static unsigned first_slip(void)
{
    for (unsigned k = 0; k < row_count; k++)
        if (rows[k].code_point == (uint32_t)SLIP && wimtaze_is_shown(&rows[k]))
            return rows[k].shown;
    return 0;
}

/* How many characters of the note of laptop 2 had so many turns, at least. */
static unsigned turned(unsigned least)
{
    unsigned count = 0;
    for (unsigned k = 0; k < row_count; k++)
        count += is_of(&rows[k], AUTHOR) && rows[k].turn >= least;
    return count;
}

/* The mistake: the whole note of laptop 2. It is made once, when all notes are complete. */
static int makes_mistake(void)
{
    if (many_sheets || laptop.number != CARELESS || turned(1) > 0)
        return 0;
    for (unsigned author = 1; author <= LAPTOPS; author++)
        if (compare_note(author).kind != COMPLETE)
            return 0;
    for (unsigned k = row_count; k > 0; k--)
        if (is_of(&rows[k - 1], AUTHOR) && wimtaze_is_shown(&rows[k - 1]))
            laptop_erase(&laptop, rows[k - 1].shown);
    return 1;
}

/* Brings the note nearer to what it is to be; all that was erased comes back at once. */
static void mend(struct difference d)
{
    const char *note = NOTES[laptop.number - 1];
    for (; d.kind == ERASED; d = compare_note(laptop.number)) {
        if (laptop_restore(&laptop, d.id.laptop, d.id.clock) != WIMTAZE_REFUSAL_NONE)
            return;
        look();
    }
    if (d.kind == TOO_MUCH)
        laptop_erase(&laptop, d.place);
    else if (d.kind == MISSING && d.typed == 0 && laptop.number == SCREEN)
        laptop_paste(&laptop, 0, note, strlen(note));
    else if (d.kind == MISSING)
        laptop_type(&laptop, d.place, (uint8_t)note[d.typed]);
}

/*
 * A laptop that was set up anew sees its own characters come back, and types on when they are there. Some may be lost;
 * then it types on when none came for as long as it takes to ask a few others. It is patient: what it typed anew before
 * the old ones come would stand beside them.
 */
static int is_back(uint64_t now)
{
    static int back;
    static unsigned seen;
    static uint64_t since;
    unsigned own = 0;
    for (unsigned k = 0; k < row_count; k++)
        own += rows[k].id.laptop == laptop.number;
    if (own != seen || since == 0)
        since = now;
    seen = own;
    back = back || !laptop.renewed || own == laptop_highest(&laptop, laptop.number) ||
           now - since > 4 * (uint64_t)laptop.longest;
    return back;
}

/*
 * Erases a slip, makes one, mends the note or types its next character; or, if there is time, erases a character. A
 * slip is made within a note, where no other note begins. If one began in front of a slip that is erased, a third note
 * could come between its characters.
 */
static void edit(uint64_t now, int in_time)
{
    look();
    if (!laptop_may_edit(&laptop) || !is_back(now) || makes_mistake())
        return;
    const char *note = NOTES[laptop.number - 1];
    struct difference d = compare_note(laptop.number);
    unsigned slip = first_slip();
    if (slip != 0 && below(4) == 0)
        laptop_erase(&laptop, slip);
    else if (d.kind == MISSING && d.typed > 0 && below(12) == 0 && laptop_room(&laptop) > strlen(note) + 8 - d.typed)
        laptop_type(&laptop, d.place, (uint32_t)SLIP);
    else if (d.kind != COMPLETE)
        mend(d);
    else if (many_sheets && in_time && d.place > 0)
        laptop_erase(&laptop, d.place - below((unsigned)d.typed - 1));
}

/* ---- a laptop's program */

/* What cannot be sent now is lost, as on any network. */
static void send_packet(int net, unsigned to, const void *bytes, size_t length)
{
    uint8_t packet[HEADER + LONGEST] = {(uint8_t)to, (uint8_t)laptop.number};
    if (length > LONGEST)
        return;
    memcpy(packet + HEADER, bytes, length);
    if (send(net, packet, HEADER + length, 0) < 0 && errno != ENOBUFS && errno != ECONNREFUSED)
        die("send");
}

static void take_in(int net, uint64_t now)
{
    uint8_t bytes[HEADER + LONGEST];
    for (unsigned k = 0; k < BATCH; k++) {
        ssize_t n = recv(net, bytes, sizeof bytes, MSG_DONTWAIT);
        if (n < 0)
            return;
        if (n > HEADER)
            laptop_take_in(&laptop, now, bytes + HEADER, (size_t)n - HEADER);
    }
}

static void send_all(int net, uint64_t now)
{
    static struct laptop_datagram datagram;
    int more;
    while ((more = laptop_next(&laptop, now, &datagram)) == 1)
        for (unsigned to = 1; to <= LAPTOPS; to++)
            if (to != laptop.number && (datagram.to == 0 || datagram.to == to))
                send_packet(net, to, datagram.bytes, datagram.length);
    for (const char *words; (words = laptop_message(&laptop)) != NULL;)
        fprintf(stderr, "%s\n", words);
    if (more < 0) {
        fprintf(stderr, "%s\n", laptop.why);
        exit(EXIT_FAILURE);
    }
}

static void send_status(int net)
{
    uint64_t counts = wimtaze_counts(laptop.sheet, laptop.length);
    struct status status = {.sheet = laptop.sheet_number, .rows_crc = laptop_rows_crc(&laptop)};
    look();
    status.characters = wimtaze_character_count(counts);
    status.waiting = wimtaze_waiting_count(counts);
    for (unsigned k = 0; k < row_count; k++)
        status.edits += 1 + rows[k].turn;
    status.erased = !many_sheets && turned(1) > turned(2);
    status.finished = laptop_may_edit(&laptop) && compare_note(laptop.number).kind == COMPLETE && first_slip() == 0 &&
                      (many_sheets || turned(2) == strlen(NOTES[AUTHOR - 1]));
    send_packet(net, 0, &status, sizeof status);
}

/* Where they type fast for a short time, they ask as fast: with 5 seconds or less, four times as often. */
static void keep_pace(unsigned seconds)
{
    unsigned part = seconds < 5 ? 5 : seconds < 20 ? seconds : 20;
    laptop.soon = laptop.soon * part / 20;
    laptop.after_news = laptop.after_news * part / 20;
    laptop.longest = laptop.longest * part / 20;
}

/* The process of a laptop, until the referee lets go of the other end of `life`, or ends. */
static void run_laptop(int net, int life, unsigned pace, uint64_t end)
{
    struct pollfd ready[2] = {{.fd = net, .events = POLLIN}, {.fd = life, .events = POLLIN}};
    uint64_t next_edit = milliseconds() + below(pace), next_status = 0, now = milliseconds();
    unsigned pause = 0;
    while (poll(ready, 2, pause < 20 ? (int)pause : 20) >= 0 && ready[1].revents == 0) {
        now = milliseconds();
        take_in(net, now);
        if (now >= next_edit) {
            edit(now, now < end);
            next_edit = now + pace / 2 + below(pace);
        }
        send_all(net, now);
        if (now >= next_status) {
            send_status(net);
            next_status = now + 200;
        }
        pause = laptop_pause(&laptop, now);
    }
}

/* ---- the relay */

static struct {
    uint64_t until;
    struct packet packet;
} on_the_way[ON_THE_WAY];
static size_t on_the_way_count;
static unsigned long passed, passed_bytes, lost, doubled, cut;

static int relay, nets[LAPTOPS + 1];
static struct sockaddr_in address[LAPTOPS + 1];

static void hold_back(const struct packet *packet, uint64_t now)
{
    if (on_the_way_count == ON_THE_WAY) {
        lost++;
        return;
    }
    on_the_way[on_the_way_count].until = now + (below(8) == 0 ? below(400) : below(60));
    on_the_way[on_the_way_count++].packet = *packet;
}

/* What becomes of a datagram from one laptop to another. */
static void pass_on(const struct packet *packet, uint64_t now, int section_cut)
{
    passed++;
    passed_bytes += packet->length - HEADER;
    if (section_cut && (packet->bytes[0] >= SECTION) != (packet->bytes[1] >= SECTION)) {
        cut++;
    } else if (below(5) == 0) {
        lost++;
    } else {
        hold_back(packet, now);
        if (below(8) == 0) {
            doubled++;
            hold_back(packet, now);
        }
    }
}

static void deliver(uint64_t now)
{
    for (size_t k = 0; k < on_the_way_count;) {
        const struct packet *packet = &on_the_way[k].packet;
        if (now < on_the_way[k].until) {
            k++;
            continue;
        }
        sendto(relay, packet->bytes, packet->length, 0, (struct sockaddr *)&address[packet->bytes[0]],
               sizeof *address);
        on_the_way[k] = on_the_way[--on_the_way_count];
    }
}

/* Takes in what the laptops sent: what they say of themselves, and what is for another. */
static void relay_all(struct status *status, uint64_t now, int section_cut)
{
    static struct packet packet;
    for (unsigned k = 0; k < 1000; k++) {
        struct sockaddr_in source;
        socklen_t size = sizeof source;
        ssize_t n = recvfrom(relay, packet.bytes, sizeof packet.bytes, MSG_DONTWAIT, (struct sockaddr *)&source, &size);
        if (n < 0)
            return;
        packet.length = (size_t)n;
        unsigned to = packet.bytes[0], from = packet.bytes[1];
        if (n < HEADER || to > LAPTOPS || from < 1 || from > LAPTOPS || source.sin_port != address[from].sin_port)
            continue;
        if (to > 0)
            pass_on(&packet, now, section_cut);
        else if (packet.length == HEADER + sizeof *status)
            memcpy(&status[from], packet.bytes + HEADER, sizeof *status);
    }
}

/* ---- the referee */

static int open_socket(struct sockaddr_in *at)
{
    socklen_t size = sizeof *at;
    int fd = socket(AF_INET, SOCK_DGRAM, 0);
    memset(at, 0, sizeof *at);
    at->sin_family = AF_INET;
    at->sin_addr.s_addr = htonl(INADDR_LOOPBACK);
    if (fd < 0 || bind(fd, (struct sockaddr *)at, size) != 0 || getsockname(fd, (struct sockaddr *)at, &size) != 0)
        die("a socket on 127.0.0.1");
    return fd;
}

static void open_sockets(void)
{
    relay = open_socket(&address[0]);
    for (unsigned k = 1; k <= LAPTOPS; k++) {
        nets[k] = open_socket(&address[k]);
        if (connect(nets[k], (struct sockaddr *)&address[0], sizeof *address) != 0)
            die("connect");
    }
}

static volatile sig_atomic_t interrupted;

static void interrupt(int signal_number)
{
    (void)signal_number;
    interrupted = 1;
}

static void catch_signals(void (*handler)(int))
{
    struct sigaction action = {.sa_handler = handler};
    sigaction(SIGINT, &action, NULL);
    sigaction(SIGTERM, &action, NULL);
}

struct hall {
    const char *folder;
    uint64_t seed, start;
    unsigned seconds, sheet, starts;
    pid_t process[LAPTOPS + 1];
    uint64_t back_at[LAPTOPS + 1]; /* when a laptop that is dead is started again */
    int file_lost[LAPTOPS + 1];
    struct status status[LAPTOPS + 1];
    int life[2];
    unsigned kills, losses;
};

typedef enum laptop_trouble beginning(struct laptop *, const char *, unsigned, unsigned, unsigned);

static void start_laptop(struct hall *hall, unsigned number, beginning *begin)
{
    fflush(stdout);
    hall->starts++;
    memset(&hall->status[number], 0, sizeof *hall->status);
    hall->process[number] = fork();
    if (hall->process[number] < 0)
        die("fork");
    if (hall->process[number] > 0)
        return;
    catch_signals(SIG_DFL);
    alarm(hall->seconds + PATIENCE + 10);
    close(hall->life[1]);
    close(relay);
    for (unsigned k = 1; k <= LAPTOPS; k++)
        if (k != number)
            close(nets[k]);
    chance = hall->seed * 1000 + number + hall->starts * LAPTOPS;
    if (begin(&laptop, hall->folder, hall->sheet, number, LAPTOPS) != LAPTOP_FINE) {
        fprintf(stderr, "%s\n", laptop.why);
        _exit(EXIT_FAILURE);
    }
    keep_pace(hall->seconds);
    run_laptop(nets[number], hall->life[0], hall->seconds * 1000 / EDITS, hall->start + hall->seconds * 1000);
    _exit(EXIT_SUCCESS);
}

static int is_cut(const struct hall *hall, uint64_t elapsed)
{
    return elapsed >= hall->seconds * 200 && elapsed < hall->seconds * 700;
}

/* The laptop's process ends at once; where the file is lost too, nothing is left of it. */
static void kill_laptop(struct hall *hall, unsigned number, int file_lost, uint64_t back_at)
{
    char path[LAPTOP_PATH];
    kill(hall->process[number], SIGKILL);
    waitpid(hall->process[number], NULL, 0);
    hall->process[number] = 0;
    hall->back_at[number] = back_at;
    hall->file_lost[number] = file_lost;
    memset(&hall->status[number], 0, sizeof *hall->status);
    hall->kills++;
    hall->losses += file_lost != 0;
    if (file_lost && laptop_path(path, hall->folder, number, ""))
        unlink(path);
}

/* With one sheet laptops 5 and 9 are killed at their time; with many any, when it has said that it is there. */
static void kill_some(struct hall *hall, uint64_t elapsed)
{
    static uint64_t next_kill;
    if (!many_sheets) {
        for (unsigned k = KILLED; k <= RENEWED; k += RENEWED - KILLED)
            if (elapsed >= hall->seconds * 400 && hall->kills < 2 && hall->process[k] != 0 && hall->back_at[k] == 0)
                kill_laptop(hall, k, k == RENEWED, hall->seconds * 600);
        return;
    }
    unsigned number = 1 + below(LAPTOPS);
    if (elapsed < 1000)
        next_kill = 1000;
    if (elapsed < next_kill || elapsed > hall->seconds * 1000 || hall->status[number].sheet != hall->sheet)
        return;
    kill_laptop(hall, number, below(4) == 0, elapsed + below(3000));
    next_kill = elapsed + below(1500);
}

static void start_dead(struct hall *hall, uint64_t elapsed)
{
    for (unsigned k = 1; k <= LAPTOPS; k++)
        if (hall->process[k] == 0 && elapsed >= hall->back_at[k])
            start_laptop(hall, k, hall->file_lost[k] ? laptop_set_up_anew : laptop_open);
}

static void report(const struct hall *hall, uint64_t elapsed)
{
    unsigned least = WIMTAZE_CHARACTER_MAX, most = 0, waiting = 0, erased = 0, dead = 0;
    for (unsigned k = 1; k <= LAPTOPS; k++) {
        const struct status *status = &hall->status[k];
        if (hall->process[k] != 0 && status->characters < least)
            least = status->characters;
        most = status->characters > most ? status->characters : most;
        waiting += status->waiting;
        erased += status->erased;
        dead += hall->process[k] == 0;
    }
    printf("%3u s %8u to %4u %8u %11lu %9lu %8lu %8lu %8lu  %s", (unsigned)(elapsed / 1000), least, most, waiting,
           passed, passed_bytes, lost, doubled, cut, is_cut(hall, elapsed) ? "13 to 16 are cut off" : "");
    if (dead > 0)
        printf("%s%u dead", is_cut(hall, elapsed) ? ", " : "", dead);
    puts(erased > 0 ? "the bye request is erased" : "");
    fflush(stdout);
}

/* Every note is complete, and all sheets have the same rows. */
static int all_finished(const struct hall *hall)
{
    for (unsigned k = 1; k <= LAPTOPS; k++)
        if (!hall->status[k].finished || hall->status[k].rows_crc != hall->status[1].rows_crc)
            return 0;
    return 1;
}

/* Whether every laptop came to its end before the time was up; each second a line on how far they are. */
static int run_hall(struct hall *hall)
{
    uint64_t next_report = 1000, last_unfinished = 0;
    struct pollfd ready = {.fd = relay, .events = POLLIN};
    while (!interrupted) {
        uint64_t now = milliseconds(), elapsed = now - hall->start;
        relay_all(hall->status, now, is_cut(hall, elapsed));
        deliver(now);
        kill_some(hall, elapsed);
        start_dead(hall, elapsed);
        if (elapsed >= next_report) {
            if (!many_sheets)
                report(hall, elapsed);
            next_report += 1000;
        }
        if (!all_finished(hall) || is_cut(hall, elapsed) || (many_sheets && elapsed < hall->seconds * 1000))
            last_unfinished = elapsed;
        if (elapsed > last_unfinished + 500)
            return 1;
        if (elapsed > (hall->seconds + PATIENCE) * 1000 || waitpid(-1, NULL, WNOHANG) > 0)
            return 0;
        poll(&ready, 1, on_the_way_count > 0 ? 2 : 20);
    }
    return 0;
}

/* Reads a laptop's file, and writes the text that it shows. */
static size_t saved_text(const struct hall *hall, unsigned number, uint8_t *text)
{
    static struct laptop reader;
    if (laptop_open(&reader, hall->folder, hall->sheet, number, LAPTOPS) != LAPTOP_FINE) {
        fprintf(stderr, "%s\n", reader.why);
        return 0;
    }
    size_t length = laptop_text(&reader, text);
    laptop_close(&reader);
    return length;
}

/* Prints the text of the first file, and in how many it is. */
static int compare(const struct hall *hall)
{
    static uint8_t first[WIMTAZE_TEXT_MAX], text[WIMTAZE_TEXT_MAX];
    size_t length = saved_text(hall, 1, first);
    unsigned equal = length > 0;
    for (unsigned k = 2; k <= LAPTOPS; k++)
        equal += length > 0 && saved_text(hall, k, text) == length && memcmp(first, text, length) == 0;
    if (many_sheets)
        printf("sheet %u: %u edits, %u kills, %u files lost, %u s: ", hall->sheet, hall->status[1].edits, hall->kills,
               hall->losses, (unsigned)((milliseconds() - hall->start) / 1000));
    else
        printf("\n%.*s\n", (int)length, (const char *)first);
    printf("%u of %d laptops show this text, byte for byte\n", equal, LAPTOPS);
    fflush(stdout);
    return equal == LAPTOPS;
}

static void remove_files(const char *folder)
{
    static const char *const endings[] = {"", ".new", ".lock", ".before"};
    for (unsigned k = 0; k < 4 * LAPTOPS; k++) {
        char path[LAPTOP_PATH];
        if (laptop_path(path, folder, k / 4 + 1, endings[k % 4]))
            unlink(path);
    }
}

static int usage(void)
{
    fputs("usage: playing_hall [SECONDS [SEED [MINUTES]]], with 2 to 60 seconds\n", stderr);
    return EXIT_FAILURE;
}

static void tell_failure(const struct hall *hall)
{
    puts("interrupted, or a laptop ended, or not every line was delivered in time");
    for (unsigned k = 1; k <= LAPTOPS; k++)
        printf("laptop %u: %u characters with checksum %08x, %u edits waiting, %s\n", k, hall->status[k].characters,
               hall->status[k].rows_crc, hall->status[k].waiting,
               hall->status[k].finished ? "finished" : "not finished");
}

/* Lets the sixteen write one sheet, and tells whether all came to an end and show the same text. */
static int play(struct hall *hall)
{
    memset(hall->process, 0, sizeof hall->process);
    memset(hall->back_at, 0, sizeof hall->back_at);
    memset(hall->status, 0, sizeof hall->status);
    hall->kills = hall->losses = 0;
    if (pipe(hall->life) != 0)
        die("pipe");
    hall->start = milliseconds();
    for (unsigned k = 1; k <= LAPTOPS; k++)
        start_laptop(hall, k, laptop_create);
    int in_time = run_hall(hall);
    close(hall->life[1]);
    close(hall->life[0]);
    for (unsigned k = 1; k <= LAPTOPS; k++)
        if (hall->process[k] != 0)
            waitpid(hall->process[k], NULL, 0);
    if (!in_time)
        tell_failure(hall);
    return !interrupted && in_time && compare(hall);
}

/* One sheet, or sheet after sheet until the time is over, and what they cost. */
static int play_all(struct hall *hall, uint64_t minutes)
{
    uint64_t end = milliseconds() + minutes * 60000;
    unsigned long edits = 0;
    int equal;
    printf("Sixteen laptops write %s for %u seconds over a bad network (seed %llu).\n\n", many_sheets ?
           "sheet after sheet," : "one sheet", hall->seconds, (unsigned long long)hall->seed);
    if (!many_sheets)
        puts("         characters    edits   datagrams\n"
             " time    on a sheet  waiting        sent     bytes     lost  doubled  cut off");
    do {
        hall->sheet++;
        equal = play(hall);
        edits += hall->status[1].edits;
        remove_files(hall->folder);
    } while (equal && milliseconds() < end);
    printf("%lu edits took %lu datagrams with %lu bytes; with an outbox they took about %lu with %lu\n", edits, passed,
           passed_bytes, edits * OUTBOX_DATAGRAMS, edits * OUTBOX_BYTES);
    return equal;
}

int main(int argc, char **argv)
{
    static struct hall hall = {.seconds = 20, .seed = 1};
    static char folder[LAPTOP_PATH / 2];
    const char *temporary = getenv("TMPDIR");
    uint64_t minutes = argc > 3 ? strtoull(argv[3], NULL, 10) : 0;
    if (argc > 1)
        hall.seconds = (unsigned)strtoul(argv[1], NULL, 10);
    if (argc > 2)
        hall.seed = strtoull(argv[2], NULL, 10);
    if (argc > 4 || hall.seconds < 2 || hall.seconds > 60)
        return usage();
    many_sheets = minutes > 0;
    chance = hall.seed;
    open_sockets();
    snprintf(folder, sizeof folder, "%s/playing_hall.XXXXXX", temporary == NULL ? "/tmp" : temporary);
    hall.folder = folder;
    if (mkdtemp(folder) == NULL)
        die(folder);
    catch_signals(interrupt);
    int equal = play_all(&hall, minutes);
    rmdir(folder);
    return equal ? EXIT_SUCCESS : EXIT_FAILURE;
}
