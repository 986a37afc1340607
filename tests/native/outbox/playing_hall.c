/*
 * Sixteen laptops of a playing hall write one sheet together, over a bad network. Each laptop is a process with a file
 * for its sheet, and types a note, with slips in it that any of them erases; laptop 1 has its note on the pairing
 * screen and pastes it. They talk by UDP datagrams on the loopback interface, all through one relay. It loses one in
 * five, delivers one in eight twice, and holds each back for some time, so that they overtake each other. For a while
 * it cuts laptops 13 to 16 off from the others; in that time laptop 5 is killed, and started again from its file, and
 * laptop 9 is killed, loses its file, and is set up anew under its number: the others send it everything, its own
 * characters among it, and it types on. When all is typed, laptop 11 erases the note of laptop 2 by mistake, and laptop
 * 2 brings it back. At the end the sixteen files must show the same text.
 *
 *     playing_hall [SECONDS [SEED]]     types for so long, 2 to 60 seconds; 20 if nothing is said
 *
 * The seed decides what chance has to decide; when each process gets its turn is up to the system. Nothing leaves the
 * machine: each socket has an address 127.0.0.1 and a port that the system picks.
 */
#include "anew.h"

#include <arpa/inet.h>
#include <netinet/in.h>
#include <poll.h>
#include <signal.h>
#include <sys/socket.h>
#include <sys/wait.h>
#include <time.h>

enum {
    LAPTOPS = 16,
    SECTION = 13,       /* the first laptop of the section that is cut off */
    KILLED = 5,         /* the laptop that is killed */
    RENEWED = 9,        /* the laptop that loses its file too */
    SCREEN = 1,         /* the laptop that pastes its note */
    CARELESS = 11,      /* the laptop that erases a note by mistake, */
    AUTHOR = 2,         /* and the one that typed it and brings it back */
    EDITS = 30,         /* of a laptop in the time of the typing */
    RESEND = 200,       /* milliseconds until a line is sent again, */
    RESEND_EACH = 30,   /* and so many more for each line that all others lack: with many, they are busy or away */
    BATCH = 64,         /* datagrams that a laptop takes in before it saves */
    ON_THE_WAY = 16384, /* datagrams that the relay can hold back; more are lost */
    PATIENCE = 60       /* seconds after the typing until the referee gives up */
};

static const char SLIP = '#';

static const char *const NOTES[LAPTOPS] = {
    "Board 1: 1-0 on time.\n",      "Novak: bye in round 4.\n",    "Board 3 is adjourned.\n",
    "Board 4: clock set back.\n",   "Board 5: draw, move 40.\n",   "Ivanova wants a recount.\n",
    "Board 7: 0-1, flag fell.\n",   "Pencils to table 8.\n",       "Board 9: claim turned down.\n",
    "Player 41 has gone home.\n",   "Board 11: 1-0, corrected.\n", "Round 5 starts at three.\n",
    "Board 13: phone, warning.\n",  "Section B is complete.\n",    "Board 15: perpetual check.\n",
    "The lamp of 16 is out.\n",
};

/* A datagram has three bytes, to whom, from whom and what it is, and then a line. Laptop 0 is the referee. */
enum {
    LINE = 'L',
    ACKNOWLEDGEMENT = 'A',
    ASKING = '?', /* for everything, by a laptop that was opened anew: under which number stands for the line */
    TOLD = '.',   /* that it has all, with the same number */
    STATUS = 'S',
    HEADER = 3,
    DATAGRAM = 64
};

struct datagram {
    uint8_t bytes[DATAGRAM];
    size_t length;
};

/* What a laptop tells the referee about itself. */
struct status {
    uint32_t characters, waiting, unacknowledged, erased, finished;
};

static uint64_t milliseconds(void)
{
    struct timespec now;
    clock_gettime(CLOCK_MONOTONIC, &now);
    return (uint64_t)now.tv_sec * 1000 + (uint64_t)now.tv_nsec / 1000000;
}

/* SplitMix64. */
static uint64_t chance;

static unsigned below(unsigned n)
{
    uint64_t a = chance += 0x9e3779b97f4a7c15u;
    a = (a ^ a >> 30) * 0xbf58476d1ce4e5b9u;
    a = (a ^ a >> 27) * 0x94d049bb133111ebu;
    return (unsigned)((a ^ a >> 31) % n);
}

/* ---- a laptop */

static struct laptop laptop;
static const char *note;

/* Where the laptop is with its note, read off the sheet, which is all that is left after a crash. */
struct desk {
    size_t typed;       /* characters of the note */
    unsigned gap;       /* the gap behind the last of them */
    unsigned slip;      /* the place of the first slip that is shown, or 0 */
    size_t all_typed;   /* characters of all notes */
    unsigned untouched; /* the place of the first character of laptop 2's note that was never erased, or 0 */
    unsigned erased;    /* the clock of the first that is erased, or 0 */
};

static struct desk look(void)
{
    struct desk desk = {0, 0, 0, 0, 0, 0};
    unsigned shown = 0;
    const uint8_t *row = laptop_first_row(&laptop);
    for (; row != NULL; row = laptop_row_after(&laptop, row)) {
        unsigned by = laptop_field(row, 1), turn = laptop_field(row, 4);
        shown += laptop_is_shown(row) ? 1 : 0;
        if (laptop_field(row, 3) == (unsigned)SLIP) {
            if (laptop_is_shown(row) && desk.slip == 0)
                desk.slip = shown;
            continue;
        }
        desk.all_typed++;
        if (by == laptop.number) {
            desk.typed++;
            desk.gap = shown;
        }
        if (by == AUTHOR && turn == 0 && desk.untouched == 0)
            desk.untouched = shown;
        if (by == AUTHOR && turn == 1 && desk.erased == 0)
            desk.erased = laptop_field(row, 2);
    }
    return desk;
}

static size_t notes_length(void)
{
    size_t length = 0;
    for (unsigned k = 0; k < LAPTOPS; k++)
        length += strlen(NOTES[k]);
    return length;
}

/* The mistake: the whole note of laptop 2. It waits until nobody types any more, so that no note comes between it. */
static void erase_note(void)
{
    for (struct desk desk = look(); desk.untouched != 0; desk = look())
        if (laptop_erase(&laptop, desk.untouched) != WIMTAZE_REFUSAL_NONE)
            return;
}

static void bring_back_note(void)
{
    for (struct desk desk = look(); desk.erased != 0; desk = look())
        if (laptop_restore(&laptop, AUTHOR, desk.erased) != WIMTAZE_REFUSAL_NONE)
            return;
}

/*
 * Erases a slip, makes one, pastes the note, or types its next character; or makes the mistake, or mends it. A slip is
 * made within a note, where no other note begins. If one began in front of a slip that is erased, a third note could
 * come between its characters.
 */
static void edit(void)
{
    struct desk desk = look();
    size_t left = strlen(note) - desk.typed;
    if (laptop.number == CARELESS && desk.all_typed == notes_length() && desk.untouched != 0)
        erase_note();
    else if (laptop.number == AUTHOR && desk.erased != 0)
        bring_back_note();
    else if (desk.slip != 0 && below(4) == 0)
        laptop_erase(&laptop, desk.slip);
    else if (left > 0 && desk.typed > 0 && below(12) == 0 && laptop_room(&laptop) > left)
        laptop_type(&laptop, desk.gap, (uint32_t)SLIP);
    else if (left > 0 && laptop.number == SCREEN)
        laptop_paste(&laptop, desk.gap, note + desk.typed, left);
    else if (left > 0)
        laptop_type(&laptop, desk.gap, (uint32_t)note[desk.typed]);
}

static struct datagram addressed(unsigned to, char kind, const void *bytes, size_t length)
{
    struct datagram datagram = {{(uint8_t)to, (uint8_t)laptop.number, (uint8_t)kind}, HEADER + length};
    memcpy(datagram.bytes + HEADER, bytes, length);
    return datagram;
}

/* What cannot be sent now is lost, as on any network. */
static void send_datagram(int net, struct datagram datagram)
{
    if (send(net, datagram.bytes, datagram.length, 0) < 0 && errno != ENOBUFS && errno != ECONNREFUSED)
        laptop_die("send");
}

/* Takes in what has come, and keeps the acknowledgements that are due for it. */
static size_t take_in(int net, struct datagram *due)
{
    size_t count = 0;
    for (size_t k = 0; k < BATCH; k++) {
        uint8_t bytes[DATAGRAM];
        ssize_t n = recv(net, bytes, sizeof bytes, MSG_DONTWAIT);
        if (n < 0)
            break;
        if (n < HEADER || bytes[1] < 1 || bytes[1] > LAPTOPS)
            continue;
        const uint8_t *line = bytes + HEADER;
        size_t length = (size_t)n - HEADER;
        uint64_t anew = 0;
        if (length == sizeof anew)
            memcpy(&anew, line, sizeof anew);
        if (bytes[2] == ACKNOWLEDGEMENT)
            laptop_acknowledged(&laptop, bytes[1], line, length);
        else if (bytes[2] == TOLD)
            laptop_told(&laptop, bytes[1], anew);
        else if (bytes[2] == ASKING ? laptop_asked(&laptop, bytes[1], anew)
                                    : wimtaze_word(laptop_receive(&laptop, line, length)) != WIMTAZE_REFUSED)
            due[count++] = addressed(bytes[1], bytes[2] == ASKING ? TOLD : ACKNOWLEDGEMENT, line, length);
    }
    return count;
}

/* Asks the laptops that have not told it that it has all. */
static void ask_again(int net)
{
    for (unsigned to = 1; to <= LAPTOPS; to++)
        if (laptop.awaited >> to & 1)
            send_datagram(net, addressed(to, ASKING, &laptop.anew, sizeof laptop.anew));
}

/* How many deliveries of lines to a laptop are not acknowledged. */
static size_t missing(void)
{
    size_t count = 0;
    for (size_t k = 0; k < laptop.outbox_count; k++)
        for (uint32_t bits = laptop.outbox[k].missing; bits != 0; bits &= bits - 1)
            count++;
    return count;
}

/* Sends the lines that are due to the laptops that have not acknowledged them. */
static void send_outbox(int net, uint64_t now)
{
    uint64_t pause = RESEND + RESEND_EACH * missing() / (LAPTOPS - 1);
    for (size_t k = 0; k < laptop.outbox_count; k++) {
        struct letter *letter = &laptop.outbox[k];
        if (now < letter->due)
            continue;
        letter->due = now + pause;
        for (unsigned to = 1; to <= LAPTOPS; to++)
            if (letter->missing >> to & 1)
                send_datagram(net, addressed(to, LINE, letter->line, letter->length));
    }
}

static void send_status(int net)
{
    uint64_t counts = wimtaze_counts(laptop.sheet, laptop.length);
    struct desk desk = look();
    struct status status = {
        .characters = wimtaze_character_count(counts),
        .waiting = wimtaze_waiting_count(counts),
        .unacknowledged = (uint32_t)laptop.outbox_count,
        .erased = desk.erased != 0,
        .finished = desk.typed == strlen(note) && desk.slip == 0 && desk.untouched == 0 && desk.erased == 0 &&
                    laptop.outbox_count == 0 && laptop.awaited == 0,
    };
    send_datagram(net, addressed(0, STATUS, &status, sizeof status));
}

/* One round of the laptop's loop: nothing is sent before the sheet is saved. */
static void go_round(int net, uint64_t now, int may_edit)
{
    static struct datagram due[BATCH];
    size_t count = take_in(net, due);
    if (may_edit)
        edit();
    laptop_save(&laptop);
    for (size_t k = 0; k < count; k++)
        send_datagram(net, due[k]);
    send_outbox(net, now);
}

/* The process of a laptop, until the referee lets go of the other end of `life`, or ends. */
static void run_laptop(int net, int life, unsigned pace)
{
    struct pollfd ready[2] = {{.fd = net, .events = POLLIN}, {.fd = life, .events = POLLIN}};
    uint64_t next_edit = milliseconds() + below(pace), next_status = 0;
    while (poll(ready, 2, 20) >= 0 && ready[1].revents == 0) {
        uint64_t now = milliseconds();
        go_round(net, now, now >= next_edit);
        if (now >= next_edit)
            next_edit = now + pace / 2 + below(pace);
        if (now >= next_status) {
            ask_again(net);
            send_status(net);
            next_status = now + 200;
        }
    }
}

/* ---- the relay */

static struct {
    uint64_t until;
    struct datagram datagram;
} on_the_way[ON_THE_WAY];
static size_t on_the_way_count;
static unsigned long passed, lost, doubled, cut;

static int relay, nets[LAPTOPS + 1];
static struct sockaddr_in address[LAPTOPS + 1];

static void hold_back(const struct datagram *datagram, uint64_t now)
{
    if (on_the_way_count == ON_THE_WAY) {
        lost++;
        return;
    }
    on_the_way[on_the_way_count].until = now + (below(8) == 0 ? below(400) : below(60));
    on_the_way[on_the_way_count++].datagram = *datagram;
}

/* Forgets what a laptop has sent and is on its way, as a laptop that is set up anew under its number needs it. */
static void forget(unsigned from)
{
    for (size_t k = 0; k < on_the_way_count;) {
        if (on_the_way[k].datagram.bytes[1] != from) {
            k++;
            continue;
        }
        lost++;
        on_the_way[k] = on_the_way[--on_the_way_count];
    }
}

/* What becomes of a datagram from one laptop to another. */
static void pass_on(const struct datagram *datagram, uint64_t now, int section_cut)
{
    passed++;
    if (section_cut && (datagram->bytes[0] >= SECTION) != (datagram->bytes[1] >= SECTION)) {
        cut++;
    } else if (below(5) == 0) {
        lost++;
    } else {
        hold_back(datagram, now);
        if (below(8) == 0) {
            doubled++;
            hold_back(datagram, now);
        }
    }
}

static void deliver(uint64_t now)
{
    for (size_t k = 0; k < on_the_way_count;) {
        const struct datagram *datagram = &on_the_way[k].datagram;
        if (now < on_the_way[k].until) {
            k++;
            continue;
        }
        sendto(relay, datagram->bytes, datagram->length, 0, (struct sockaddr *)&address[datagram->bytes[0]],
               sizeof *address);
        on_the_way[k] = on_the_way[--on_the_way_count];
    }
}

/* Takes in what the laptops sent: what they say of themselves, and what is for another. */
static void relay_all(struct status *status, uint64_t now, int section_cut)
{
    for (unsigned k = 0; k < 1000; k++) {
        struct datagram datagram;
        struct sockaddr_in source;
        socklen_t size = sizeof source;
        ssize_t n = recvfrom(relay, datagram.bytes, DATAGRAM, MSG_DONTWAIT, (struct sockaddr *)&source, &size);
        if (n < 0)
            return;
        datagram.length = (size_t)n;
        unsigned to = datagram.bytes[0], from = datagram.bytes[1];
        if (n < HEADER || to > LAPTOPS || from < 1 || from > LAPTOPS || source.sin_port != address[from].sin_port)
            continue;
        if (to > 0)
            pass_on(&datagram, now, section_cut);
        else if (datagram.length == HEADER + sizeof *status)
            memcpy(&status[from], datagram.bytes + HEADER, sizeof *status);
    }
}

/* ---- the referee */

static int open_socket(struct sockaddr_in *at)
{
    socklen_t size = sizeof *at;
    int fd = socket(AF_INET, SOCK_DGRAM, 0);
    memset(at, 0, sizeof *at);
    at->sin_family = AF_INET;
    at->sin_addr.s_addr = htonl(INADDR_LOOPBACK);
    if (fd < 0 || bind(fd, (struct sockaddr *)at, size) != 0 || getsockname(fd, (struct sockaddr *)at, &size) != 0)
        laptop_die("a socket on 127.0.0.1");
    return fd;
}

static void open_sockets(void)
{
    relay = open_socket(&address[0]);
    for (unsigned k = 1; k <= LAPTOPS; k++) {
        nets[k] = open_socket(&address[k]);
        if (connect(nets[k], (struct sockaddr *)&address[0], sizeof *address) != 0)
            laptop_die("connect");
    }
}

static volatile sig_atomic_t interrupted;

static void interrupt(int signal_number)
{
    (void)signal_number;
    interrupted = 1;
}

static void catch_signals(void (*handler)(int))
{
    struct sigaction action = {.sa_handler = handler};
    sigaction(SIGINT, &action, NULL);
    sigaction(SIGTERM, &action, NULL);
}

struct hall {
    const char *directory;
    uint64_t seed, start;
    unsigned seconds;
    pid_t process[LAPTOPS + 1];
    struct status status[LAPTOPS + 1];
    int life[2];
};

static void start_laptop(struct hall *hall, unsigned number, unsigned times_before, int anew)
{
    fflush(stdout);
    hall->process[number] = fork();
    if (hall->process[number] < 0)
        laptop_die("fork");
    if (hall->process[number] > 0)
        return;
    catch_signals(SIG_DFL);
    alarm(hall->seconds + PATIENCE + 10);
    close(hall->life[1]);
    close(relay);
    for (unsigned k = 1; k <= LAPTOPS; k++)
        if (k != number)
            close(nets[k]);
    chance = hall->seed * 1000 + number + times_before * LAPTOPS;
    note = NOTES[number - 1];
    if (anew)
        laptop_open_anew(&laptop, hall->directory, number, LAPTOPS, (uint64_t)time(NULL));
    else
        laptop_open(&laptop, hall->directory, number, LAPTOPS);
    run_laptop(nets[number], hall->life[0], hall->seconds * 1000 / EDITS);
    _exit(EXIT_SUCCESS);
}

/* What goes wrong at this time: when the section is cut off, and when laptops 5 and 9 are dead. */
static int is_cut(const struct hall *hall, uint64_t elapsed)
{
    return elapsed >= hall->seconds * 200 && elapsed < hall->seconds * 700;
}

static int is_dead(const struct hall *hall, uint64_t elapsed)
{
    return elapsed >= hall->seconds * 400 && elapsed < hall->seconds * 600;
}

static void report(const struct hall *hall, uint64_t elapsed)
{
    unsigned least = WIMTAZE_CHARACTER_MAX, most = 0, waiting = 0, unacknowledged = 0, erased = 0;
    for (unsigned k = 1; k <= LAPTOPS; k++) {
        const struct status *status = &hall->status[k];
        least = status->characters < least ? status->characters : least;
        most = status->characters > most ? status->characters : most;
        waiting += status->waiting;
        unacknowledged += status->unacknowledged;
        erased += status->erased;
    }
    printf("%3u s %8u to %4u %8u %10u %11lu %8lu %8lu %8lu  %s%s\n", (unsigned)(elapsed / 1000), least, most, waiting,
           unacknowledged, passed, lost, doubled, cut, is_cut(hall, elapsed) ? "13 to 16 are cut off" : "",
           is_dead(hall, elapsed) ? ", 5 and 9 are dead" : erased > 0 ? "the bye request is erased" : "");
    fflush(stdout);
}

static int all_finished(const struct hall *hall)
{
    for (unsigned k = 1; k <= LAPTOPS; k++)
        if (!hall->status[k].finished)
            return 0;
    return 1;
}

/*
 * The file of laptop 9 is lost with it, and so is what the relay holds of it. What lies in another's socket already is
 * read there before 9 asks.
 */
static void kill_or_start(struct hall *hall, unsigned number, uint64_t elapsed)
{
    pid_t *process = &hall->process[number];
    if (is_dead(hall, elapsed) && *process != 0) {
        kill(*process, SIGKILL);
        waitpid(*process, NULL, 0);
        *process = 0;
        hall->status[number].finished = 0;
    }
    if (number == RENEWED && *process == 0) {
        char path[LAPTOP_PATH];
        laptop_path(path, hall->directory, RENEWED, "");
        unlink(path);
        forget(RENEWED);
    }
    if (!is_dead(hall, elapsed) && *process == 0)
        start_laptop(hall, number, 1, number == RENEWED);
}

/* Whether every laptop came to its end before the time was up; each second a line on how far they are. */
static int run_hall(struct hall *hall)
{
    uint64_t next_report = 1000, last_unfinished = 0;
    struct pollfd ready = {.fd = relay, .events = POLLIN};
    while (!interrupted) {
        uint64_t now = milliseconds(), elapsed = now - hall->start;
        relay_all(hall->status, now, is_cut(hall, elapsed));
        deliver(now);
        kill_or_start(hall, KILLED, elapsed);
        kill_or_start(hall, RENEWED, elapsed);
        if (elapsed >= next_report) {
            report(hall, elapsed);
            next_report += 1000;
        }
        if (!all_finished(hall) || is_cut(hall, elapsed))
            last_unfinished = elapsed;
        if (elapsed > last_unfinished + 500)
            return 1;
        if (elapsed > (hall->seconds + PATIENCE) * 1000 || waitpid(-1, NULL, WNOHANG) > 0)
            return 0;
        poll(&ready, 1, on_the_way_count > 0 ? 2 : 20);
    }
    return 0;
}

/* Reads a laptop's file, and writes the text that it shows. */
static size_t saved_text(const char *directory, unsigned number, uint8_t *text)
{
    static struct laptop reader;
    laptop_open(&reader, directory, number, LAPTOPS);
    size_t length = wimtaze_written(wimtaze_text(reader.sheet, reader.length, text, WIMTAZE_TEXT_MAX));
    laptop_close(&reader);
    return length;
}

/* Prints the text of the first file, and in how many it is. */
static int compare(const char *directory)
{
    static uint8_t first[WIMTAZE_TEXT_MAX], text[WIMTAZE_TEXT_MAX];
    size_t length = saved_text(directory, 1, first);
    unsigned equal = 1;
    for (unsigned k = 2; k <= LAPTOPS; k++)
        equal += saved_text(directory, k, text) == length && memcmp(first, text, length) == 0;
    printf("\n%.*s\n", (int)length, (const char *)first);
    printf("%u of %d laptops show this text, byte for byte\n", equal, LAPTOPS);
    return equal == LAPTOPS;
}

static void remove_files(const char *directory)
{
    static const char *const kinds[] = {"", ".new", ".anew", ".lock"};
    for (unsigned k = 0; k < 4 * LAPTOPS; k++) {
        char path[LAPTOP_PATH];
        laptop_path(path, directory, k / 4 + 1, kinds[k % 4]);
        unlink(path);
    }
    rmdir(directory);
}

static int usage(void)
{
    fputs("usage: playing_hall [SECONDS [SEED]], with 2 to 60 seconds\n", stderr);
    return EXIT_FAILURE;
}

/* Lets the sixteen write, and tells whether all came to an end and show the same text. */
static int play(struct hall *hall)
{
    printf("Sixteen laptops write one sheet for %u seconds over a bad network (seed %llu).\n\n"
           "         characters    edits   lines to   datagrams\n"
           " time    on a sheet  waiting    deliver        sent     lost  doubled  cut off\n",
           hall->seconds, (unsigned long long)hall->seed);
    chance = hall->seed;
    hall->start = milliseconds();
    for (unsigned k = 1; k <= LAPTOPS; k++)
        start_laptop(hall, k, 0, 0);
    int in_time = run_hall(hall);
    close(hall->life[1]);
    for (unsigned k = 1; k <= LAPTOPS; k++)
        if (hall->process[k] != 0)
            waitpid(hall->process[k], NULL, 0);
    if (!in_time)
        puts("interrupted, or a laptop ended, or not every line was delivered in time");
    return !interrupted && in_time && compare(hall->directory);
}

int main(int argc, char **argv)
{
    static struct hall hall = {.seconds = 20, .seed = 1};
    static char directory[LAPTOP_PATH / 2];
    const char *temporary = getenv("TMPDIR");
    if (argc > 1)
        hall.seconds = (unsigned)strtoul(argv[1], NULL, 10);
    if (argc > 2)
        hall.seed = strtoull(argv[2], NULL, 10);
    if (argc > 3 || hall.seconds < 2 || hall.seconds > 60)
        return usage();
    open_sockets();
    snprintf(directory, sizeof directory, "%s/playing_hall.XXXXXX", temporary == NULL ? "/tmp" : temporary);
    hall.directory = directory;
    if (mkdtemp(directory) == NULL || pipe(hall.life) != 0)
        laptop_die(directory);
    catch_signals(interrupt);
    int equal = play(&hall);
    remove_files(directory);
    return equal ? EXIT_SUCCESS : EXIT_FAILURE;
}
