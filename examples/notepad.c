/*
 * A shared notepad in the terminal: one text that up to sixteen people edit at once, each on a laptop, by datagrams and
 * with no server between them. It is laptop.h with a screen and a network: laptop.h keeps the file, the cursor and what
 * is to be sent, and this program draws, reads keys and carries the datagrams (UDP, IPv4).
 *
 * notepad --help tells how it is started, and the last lines of its screen what to press. It needs ncurses with wide
 * characters: make notepad builds it, and make try opens three of them side by side.
 */
#ifndef _XOPEN_SOURCE
#define _XOPEN_SOURCE 700
#endif
#define NCURSES_WIDECHAR 1

#include "laptop.h"

#include <arpa/inet.h>
#include <curses.h>
#include <langinfo.h>
#include <locale.h>
#include <netinet/in.h>
#include <poll.h>
#include <signal.h>
#include <sys/socket.h>
#include <wchar.h>

enum {
    PORT = 7400,    /* laptop n has port 7400 + n unless another is given */
    DATAGRAMS = 64, /* so many are taken in before the keyboard is looked at again */
    ERASED = 4096,  /* so many erased characters are remembered, to be brought back in turn */
    BLOCK = 65536,  /* the bytes of a pasted block, far more than a sheet takes */
    WORDS = 512,    /* the words of the sentences at the foot of the screen */
    WORD = 256,     /* the bytes of one, or of an item of the status line */
    SECOND = 1000,  /* in milliseconds */
    ESCAPE = 27,
    PASTE_BEGINS = KEY_MAX + 1, /* what the terminal sends around a pasted block */
    PASTE_ENDS
};

/* What the user asked for on the command line. */
struct wishes {
    const char *folder;
    unsigned sheet, port, number, count;
    uint32_t gone;
    char begin; /* n for a new laptop, a for one that is set up anew, o to go on */
};

/* Where a character stands on the screen, in lines from the top of the text. */
struct cell {
    int line, column, width;
    int joined; /* it is shown together with the one before it, or is not seen: the cursor passes over it */
};

/* A word at the foot of the screen, and how it looks. */
struct item {
    char words[WORD];
    attr_t look;
};

/* How far a page is written, and which of its lines are on the screen. */
struct pen {
    int line, column, top, height;
};

static struct {
    const char *name; /* of this program, as it was started */
    struct laptop laptop;
    struct sockaddr_in address[WIMTAZE_LAPTOP_MAX + 1];
    int socket;
    int plugged;    /* whether the network cable is in: if not, all that is sent or comes is lost */
    int disk_fails; /* nothing is sent before it is saved, so a full disk stops the sending */
    int quit;
    int telling; /* whether the screen tells who typed what, in place of the text */
    int tell_top, tell_lines;

    struct wimtaze_row shown[WIMTAZE_CHARACTER_MAX];
    struct cell cell[WIMTAZE_CHARACTER_MAX + 1]; /* of each shown character, and of the end of the text */
    unsigned count;
    int top, height; /* the first line that is on the screen, and how many are */
    int wish;        /* the column that the cursor goes back to when it moves up and down; -1 for its own */

    struct wimtaze_identifier erased[ERASED]; /* what was erased here, the last at the end */
    unsigned erased_count;

    uint8_t block[BLOCK]; /* a block that is being pasted, */
    size_t block_length;
    int pasting;
    uint64_t pasted_at;
    uint8_t partial[4]; /* and a character that has not come whole */
    size_t partial_length;

    char note[LAPTOP_WORDS];  /* what became of the last key */
    char alert[LAPTOP_WORDS]; /* what laptop.h says, until it is read */
    struct item item[WORDS];
    unsigned items;
} pad;

static volatile sig_atomic_t signalled;

static void on_signal(int number)
{
    (void)number;
    signalled = 1;
}

static uint64_t milliseconds(void)
{
    struct timespec now;
    clock_gettime(CLOCK_MONOTONIC, &now);
    return (uint64_t)now.tv_sec * 1000 + (uint64_t)now.tv_nsec / 1000000 + 1;
}

/* What the next screen says of the last key. */
static void note(const char *words, ...)
{
    va_list values;
    va_start(values, words);
    vsnprintf(pad.note, sizeof pad.note, words, values);
    va_end(values);
}

/* ---- the command line */

static const char HELP[] =
    "usage: notepad [OPTION...] NUMBER COUNT                 COUNT laptops, all on this machine\n"
    "       notepad [OPTION...] NUMBER ADDRESS ADDRESS...    laptops 1, 2, ... of one network, at these addresses\n"
    "       notepad [OPTION...] NUMBER @FILE                 the same, with an address on each line of a file\n"
    "\n"
    "NUMBER is this laptop's own: 1 to 16, and no other laptop has it. All laptops are given the same COUNT, or the\n"
    "same addresses in the same sequence.\n"
    "\n"
    "  --new          begin: this number was never used on this sheet\n"
    "  --anew         begin again: the file of this laptop is lost, damaged or old, or it joins late. It asks all\n"
    "                 the others what they hold before anything can be typed\n"
    "                 With neither, it goes on from its file.\n"
    "  --gone N       laptop N is gone for good: do not wait for it\n"
    "  --folder F     where the file of this laptop is, and its lock; else where you are\n"
    "  --sheet S      the number of the sheet, 0 to 65535; else 1. A full sheet is followed by one with another\n"
    "                 number, in another folder\n"
    "  --port P       laptop n has port P + n where its address names none; else 7400 + n\n"
    "  --help, --version\n"
    "\n"
    "Three on this machine, each in a terminal of its own:\n"
    "\n"
    "    notepad --new 1 3        notepad --new 2 3        notepad --new 3 3\n"
    "\n"
    "Two laptops of one network, where ip addr says 192.168.1.11 on the first and 192.168.1.12 on the second; let UDP\n"
    "ports 7401 and 7402 through if there is a firewall:\n"
    "\n"
    "    notepad --new 1 192.168.1.11 192.168.1.12        on the first\n"
    "    notepad --new 2 192.168.1.11 192.168.1.12        on the second\n"
    "\n"
    "The next time leave out --new. An address is IPv4, with :PORT behind it if you like. In a file, # begins a\n"
    "comment. Nothing is sent to an address that is not given, and nothing is taken in from one; without addresses it\n"
    "is 127.0.0.1 alone. Datagrams are neither signed nor hidden: use it among people who trust each other.\n";

/* The program may be installed under another name, which its help then has. */
static void print_help(void)
{
    const char *words = HELP, *name;
    for (; (name = strstr(words, "notepad")) != NULL; words = name + strlen("notepad"))
        printf("%.*s%s", (int)(name - words), words, pad.name);
    fputs(words, stdout);
}

/* Says on standard error what is wrong with the command line, and ends the program. */
static void misused(const char *words, const char *about)
{
    fprintf(stderr, "%s: %s%s%s\n%s --help tells how it is started.\n", pad.name, about,
            about[0] == '\0' ? "" : ": ", words, pad.name);
    exit(2);
}

static unsigned number_of(const char *words, unsigned least, unsigned most, const char *what)
{
    char *end;
    unsigned long number = words[0] >= '0' && words[0] <= '9' ? strtoul(words, &end, 10) : (end = "?", 0);
    if (*end != '\0' || number < least || number > most)
        misused(what, words);
    return (unsigned)number;
}

/* Takes the next address of the list, "192.168.1.11" or "192.168.1.11:7401". */
static void add_address(struct wishes *wishes, const char *words)
{
    char host[WORD];
    const char *colon = strchr(words, ':');
    if (wishes->count == WIMTAZE_LAPTOP_MAX)
        misused("there are more than 16 addresses", words);
    struct sockaddr_in *address = &pad.address[++wishes->count];
    unsigned port = wishes->port + wishes->count;
    if (colon != NULL)
        port = number_of(colon + 1, 1, 65535, "a port is 1 to 65535");
    snprintf(host, sizeof host, "%.*s", colon == NULL ? (int)sizeof host : (int)(colon - words), words);
    address->sin_family = AF_INET;
    address->sin_port = htons((uint16_t)port);
    if (inet_pton(AF_INET, host, &address->sin_addr) != 1 || address->sin_addr.s_addr == htonl(INADDR_ANY))
        misused("this is no IPv4 address of a laptop, such as 192.168.1.11", words);
    for (unsigned n = 1; n < wishes->count; n++)
        if (pad.address[n].sin_addr.s_addr == address->sin_addr.s_addr && pad.address[n].sin_port == address->sin_port)
            misused("two laptops have this address and port", words);
}

/* Takes the addresses of a file, one on each line; a # begins a comment. */
static void add_file(struct wishes *wishes, const char *name)
{
    char line[256], *word;
    FILE *file = fopen(name, "r");
    if (file == NULL)
        misused(strerror(errno), name);
    while (fgets(line, sizeof line, file) != NULL) {
        line[strcspn(line, "#")] = '\0';
        for (word = strtok(line, " \t\r\n"); word != NULL; word = strtok(NULL, " \t\r\n"))
            add_address(wishes, word);
    }
    fclose(file);
}

/* The number, and the count or the addresses. */
static void read_operands(struct wishes *wishes, char **word, int count)
{
    if (count < 2)
        misused("it needs this laptop's number, and how many there are or their addresses", "");
    wishes->number = number_of(word[0], 1, WIMTAZE_LAPTOP_MAX, "a laptop's number is 1 to 16");
    if (count == 2 && word[1][0] == '@')
        add_file(wishes, word[1] + 1);
    else if (count == 2 && strchr(word[1], '.') == NULL) {
        unsigned laptops = number_of(word[1], 1, WIMTAZE_LAPTOP_MAX, "the count of laptops is 1 to 16");
        while (wishes->count < laptops)
            add_address(wishes, "127.0.0.1");
    } else
        for (int k = 1; k < count; k++)
            add_address(wishes, word[k]);
    if (wishes->number > wishes->count)
        misused("there are not so many laptops", word[0]);
}

/* Takes an option that has a value behind it; answers whether it is one. */
static int read_option(struct wishes *wishes, const char *option, const char *value)
{
    if (strcmp(option, "--folder") == 0)
        wishes->folder = value;
    else if (strcmp(option, "--sheet") == 0)
        wishes->sheet = number_of(value, 0, 65535, "a sheet's number is 0 to 65535");
    else if (strcmp(option, "--port") == 0)
        wishes->port = number_of(value, 1, 65519, "the port is 1 to 65519");
    else if (strcmp(option, "--gone") == 0)
        wishes->gone |= 1u << number_of(value, 1, WIMTAZE_LAPTOP_MAX, "a laptop's number is 1 to 16");
    else
        return 0;
    return 1;
}

static struct wishes read_arguments(int count, char **word)
{
    struct wishes wishes = {".", 1, PORT, 0, 0, 0, 'o'};
    int k = 1;
    for (; k < count && word[k][0] == '-'; k++) {
        if (strcmp(word[k], "--help") == 0 || strcmp(word[k], "--version") == 0) {
            if (word[k][2] == 'h')
                print_help();
            else
                printf("%s of Wimtaze %s\n", pad.name, wimtaze_version());
            exit(fflush(stdout) == 0 ? EXIT_SUCCESS : EXIT_FAILURE);
        }
        if (strcmp(word[k], "--new") == 0 || strcmp(word[k], "--anew") == 0)
            wishes.begin = word[k][2];
        else if (k + 1 < count && read_option(&wishes, word[k], word[k + 1]))
            k++;
        else
            misused("this is no option, or lacks its value", word[k]);
    }
    read_operands(&wishes, word + k, count - k);
    return wishes;
}

/* ---- the network */

/* Takes this laptop's own address and port; ends the program where that fails. */
static void open_socket(unsigned number)
{
    char host[INET_ADDRSTRLEN];
    const struct sockaddr_in *own = &pad.address[number];
    pad.socket = socket(AF_INET, SOCK_DGRAM, 0);
    if (pad.socket >= 0 && bind(pad.socket, (const struct sockaddr *)own, sizeof *own) == 0 &&
        fcntl(pad.socket, F_SETFL, O_NONBLOCK) == 0)
        return;
    fprintf(stderr, "%s: %s port %u cannot be taken: %s. It must be an address of this laptop (ip addr tells), and no "
                    "other program may have the port.\n",
            pad.name, inet_ntop(AF_INET, &own->sin_addr, host, sizeof host), (unsigned)ntohs(own->sin_port),
            strerror(errno));
    exit(EXIT_FAILURE);
}

/* Whether an address is one of those that were given. */
static int is_known(const struct sockaddr_in *from)
{
    for (unsigned n = 1; n <= pad.laptop.count; n++)
        if (from->sin_addr.s_addr == pad.address[n].sin_addr.s_addr && from->sin_port == pad.address[n].sin_port)
            return 1;
    return 0;
}

/* Takes in what came, and loses it where the cable is out; answers whether the sheet changed. */
static int take_in(uint64_t now)
{
    static uint8_t bytes[65536];
    struct sockaddr_in from;
    int changed = 0;
    for (int k = 0; k < DATAGRAMS; k++) {
        socklen_t size = sizeof from;
        ssize_t length = recvfrom(pad.socket, bytes, sizeof bytes, 0, (struct sockaddr *)&from, &size);
        if (length < 0)
            break;
        if (pad.plugged && is_known(&from))
            changed |= laptop_take_in(&pad.laptop, now, bytes, (size_t)length);
    }
    return changed;
}

/* Saves, and sends what is to be sent. A datagram that is lost here is like one that is lost on the way. */
static void send_out(uint64_t now)
{
    static struct laptop_datagram datagram;
    int more;
    while ((more = laptop_next(&pad.laptop, now, &datagram)) == 1)
        for (unsigned n = 1; pad.plugged && n <= pad.laptop.count; n++)
            if (n != pad.laptop.number && (datagram.to == 0 || datagram.to == n))
                (void)!sendto(pad.socket, datagram.bytes, datagram.length, 0, (const struct sockaddr *)&pad.address[n],
                              sizeof pad.address[n]);
    pad.disk_fails = more < 0;
}

/* ---- where characters stand */

/* Joiners, marks of direction and the like. Terminals differ in what they make of them, so they are not sent there. */
static int is_unseen(uint32_t c)
{
    return (c >= 0x200b && c <= 0x200f) || (c >= 0x202a && c <= 0x202e) || (c >= 0x2060 && c <= 0x206f) ||
           (c >= 0xfe00 && c <= 0xfe0f) || c == 0xfeff || (c >= 0xe0000 && c <= 0xe0fff);
}

/*
 * What stands on the screen for a character: U+FFFD for a control character, and for what some terminals show in
 * another width than others (the soft hyphen, letters of flags, tones of skin).
 */
static wchar_t glyph(uint32_t c)
{
    if (c == '\t' || c == '\n')
        return L' ';
    if (c == 0 || wcwidth((wchar_t)c) < 0 || c == 0xad || (c >= 0x1f1e6 && c <= 0x1f1ff) ||
        (c >= 0x1f3fb && c <= 0x1f3ff))
        return 0xfffd;
    return (wchar_t)c;
}

/* A mark that is written over the character before it. */
static int is_combining(uint32_t c)
{
    return !is_unseen(c) && wcwidth(glyph(c)) == 0;
}

/*
 * The columns of a character at this column, of so many. Space at the end of a line takes no more than is left, down to
 * nothing, so that no line begins with what parts two words.
 */
static int width_at(uint32_t c, int column, int columns)
{
    int left = columns - column, tab = 8 - column % 8;
    if (c == '\n')
        return 0;
    if (c == '\t')
        return tab < left ? tab : left;
    if (c == ' ')
        return left > 0;
    return wcwidth(glyph(c)) > columns ? 1 : wcwidth(glyph(c));
}

/*
 * Gives each shown character its place: lines break at line feeds, and between words where they are too long. A
 * combining character with nothing before it on its line has a place of its own.
 */
static void lay_out(int columns)
{
    int line = 0, column = 0, carries = 0;
    unsigned first = 0, word = 0;
    for (unsigned k = 0; k < pad.count; k++) {
        uint32_t c = pad.shown[k].code_point;
        int joined = is_unseen(c) || (is_combining(c) && carries);
        int width = joined ? 0 : is_combining(c) ? 1 : width_at(c, column, columns);
        if (column + width > columns && k > first) {
            k = first = word = word > first ? word : k;
            k--;
            line++;
            column = carries = 0;
            continue;
        }
        pad.cell[k] = (struct cell){line, column, width, joined};
        column += width;
        carries = is_unseen(c) ? carries : c != '\t' && c != '\n';
        if (c == ' ' || c == '\t' || c == '\n')
            word = k + 1;
        if (c == '\n') {
            line++;
            column = 0;
            first = k + 1;
        }
    }
    pad.cell[pad.count] = (struct cell){line, column, 0, 0};
}

/* Reads the text from the sheet again, after anything that may have changed it. The last column is the cursor's. */
static void read_text(void)
{
    pad.count = laptop_shown(&pad.laptop, pad.shown);
    lay_out(COLS > 2 ? COLS - 1 : 1);
}

/* The gap on a line that is nearest to a column from the left. */
static unsigned gap_at(int line, int column)
{
    unsigned k = 0;
    if (line < 0 || line > pad.cell[pad.count].line)
        return line < 0 ? 0 : pad.count;
    while (pad.cell[k].line < line)
        k++;
    while (k < pad.count && pad.cell[k + 1].line == line && pad.cell[k + 1].column <= column)
        k++;
    return k;
}

/* ---- the screen */

/* The look of what a laptop typed: a colour of its own, or where there are none as many looks as there can be. */
static attr_t look_of(unsigned laptop)
{
    static const attr_t plain[] = {A_NORMAL, A_BOLD, A_UNDERLINE, A_BOLD | A_UNDERLINE};
    if (!has_colors())
        return plain[(laptop - 1) % 4];
    return (attr_t)COLOR_PAIR(laptop) | (COLORS < 256 && laptop > 7 ? A_BOLD : A_NORMAL);
}

static void choose_colours(void)
{
    static const short many[] = {33, 208, 35, 170, 44, 178, 203, 99, 70, 137, 67, 162, 29, 136, 61, 245};
    static const short few[] = {COLOR_GREEN, COLOR_YELLOW, COLOR_CYAN, COLOR_MAGENTA,
                                COLOR_RED,   COLOR_BLUE,   COLOR_WHITE};
    if (!has_colors() || start_color() == ERR)
        return;
    short ground = use_default_colors() == OK ? -1 : COLOR_BLACK;
    for (short n = 1; n <= WIMTAZE_LAPTOP_MAX; n++)
        init_pair(n, COLORS >= 256 ? many[n - 1] : few[(n - 1) % 7], ground);
}

/* Draws one character with its marks. */
static void draw_wide(int row, int column, const wchar_t *wide, attr_t look)
{
    cchar_t drawn;
    if (setcchar(&drawn, wide, look & ~A_COLOR, (short)PAIR_NUMBER(look), NULL) == OK)
        mvadd_wch(row, column, &drawn);
}

/* Draws a shown character and the marks over it. A mark with nothing under it stands over a dotted circle. */
static void draw_character(int row, unsigned k)
{
    wchar_t wide[CCHARW_MAX + 1];
    int n = 0, column = pad.cell[k].column;
    uint32_t c = pad.shown[k].code_point;
    attr_t look = look_of(pad.shown[k].id.laptop);
    if (is_combining(c))
        wide[n++] = 0x25cc;
    wide[n++] = wcwidth(glyph(c)) > pad.cell[k].width ? 0xfffd : glyph(c);
    while (++k < pad.count && pad.cell[k].joined && n < CCHARW_MAX)
        if (!is_unseen(pad.shown[k].code_point))
            wide[n++] = glyph(pad.shown[k].code_point);
    wide[n] = L'\0';
    draw_wide(row, column, wide, look);
}

static void draw_text(void)
{
    for (unsigned k = 0; k < pad.count; k++) {
        int row = pad.cell[k].line - pad.top;
        if (row >= 0 && row < pad.height && pad.cell[k].width > 0 && pad.shown[k].code_point != '\t')
            draw_character(row, k);
    }
}

/* ---- the foot of the screen */

/* Adds an item to those that flow puts on the screen. */
static void item(attr_t look, const char *words, ...)
{
    va_list values;
    if (pad.items == WORDS)
        return;
    va_start(values, words);
    vsnprintf(pad.item[pad.items].words, WORD, words, values);
    va_end(values);
    pad.item[pad.items++].look = look;
}

/* Adds the words of a sentence as items. One that is longer than a line, a path for instance, is cut. */
static void sentence(attr_t look, const char *words)
{
    size_t most = COLS < 2 ? 1 : COLS > WORD - 1 ? WORD - 1 : (size_t)COLS - 1;
    while (*(words += strspn(words, " ")) != '\0') {
        size_t length = strcspn(words, " ");
        if (length > most)
            length = most;
        while (length > 1 && (words[length] & 0xc0) == 0x80)
            length--;
        item(look, "%.*s", (int)length, words);
        words += length;
    }
}

/* What is on the screen for the words of an item, cut at the edge; answers its columns. */
static int widen(const char *words, wchar_t *wide)
{
    int columns = 0, n = 0;
    mbstate_t state;
    memset(&state, 0, sizeof state);
    for (size_t left = strlen(words), length; left > 0; words += length, left -= length) {
        wchar_t c;
        length = mbrtowc(&c, words, left, &state);
        if (length == (size_t)-1 || length == (size_t)-2) {
            memset(&state, 0, sizeof state);
            length = 1;
            c = 0xfffd;
        }
        if (is_unseen((uint32_t)c) || wcwidth(glyph((uint32_t)c)) < 1)
            c = 0xfffd;
        if (columns + wcwidth(glyph((uint32_t)c)) > COLS)
            break;
        wide[n++] = glyph((uint32_t)c);
        columns += wcwidth(wide[n - 1]);
    }
    wide[n] = L'\0';
    return columns;
}

/* Puts the items one behind the other, with so many spaces between them, on at most so many rows from this one on. */
static int flow(int row, int rows, int spaces)
{
    wchar_t wide[WORD + 1];
    int used = 0, column = 0;
    for (unsigned k = 0; k < pad.items; k++) {
        int width = widen(pad.item[k].words, wide);
        column += column > 0 ? spaces : 0;
        if (column + width > COLS) {
            used++;
            column = 0;
        }
        for (int n = 0, at = column; used < rows && wide[n] != L'\0'; at += wcwidth(wide[n++])) {
            wchar_t one[2] = {wide[n], L'\0'};
            draw_wide(row + used, at, one, pad.item[k].look);
        }
        column += width;
    }
    return pad.items == 0 ? 0 : used + 1;
}

/* What is known of another laptop: whether it has all that is here. It asks the others in turn, and is heard then. */
static void status_of(unsigned n, uint64_t now)
{
    const struct laptop_other *other = &pad.laptop.other[n];
    attr_t look = look_of(n) | A_REVERSE;
    unsigned long long silent = other->heard == 0 || other->heard > now ? 0 : (now - other->heard) / SECOND;
    if (pad.laptop.gone >> n & 1)
        item(look, " %u is gone ", n);
    else if (other->heard == 0)
        item(look, " %u not heard yet ", n);
    else if (silent > 2 * pad.laptop.count * pad.laptop.longest / SECOND)
        item(look | A_BOLD, " %u silent for %llu s ", n, silent);
    else if (other->lacked > 0)
        item(look | A_BOLD, " %u lacks %u ", n, other->lacked);
    else
        item(look, " %u has all ", n);
}

static void status_items(uint64_t now)
{
    uint64_t counts = wimtaze_counts(pad.laptop.sheet, pad.laptop.length);
    unsigned number = pad.laptop.number;
    pad.items = 0;
    item(look_of(number) | A_REVERSE | A_BOLD, " Laptop %u of %u ", number, pad.laptop.count);
    item(pad.plugged ? A_REVERSE : A_BOLD, pad.plugged ? " cable in " : " CABLE OUT ");
    item(A_REVERSE, " room %u ", laptop_room(&pad.laptop));
    item(wimtaze_waiting_count(counts) > 0 ? A_BOLD : A_REVERSE, " waiting %u ", wimtaze_waiting_count(counts));
    for (unsigned n = 1; n <= pad.laptop.count; n++)
        if (n != number)
            status_of(n, now);
}

/* What a person should know now: why it cannot go on, whom it asks, what laptop.h said, what became of the last key. */
static void note_items(void)
{
    char whom[LAPTOP_WORDS] = "";
    pad.items = 0;
    if (pad.laptop.stopped != LAPTOP_FINE || pad.disk_fails)
        sentence(A_BOLD, pad.laptop.why);
    if (pad.disk_fails)
        sentence(A_BOLD, "Nothing is sent until it can be saved. It is tried again each second.");
    if (pad.laptop.stopped == LAPTOP_FINE && pad.laptop.awaited != 0) {
        for (unsigned n = 1, k = 0; n <= pad.laptop.count; n++)
            if (pad.laptop.awaited >> n & 1)
                k += (unsigned)snprintf(whom + k, sizeof whom - k, " %u", n);
        sentence(A_BOLD, "It was set up anew, and asks the others. Nothing can be typed until these have answered:");
        sentence(A_BOLD, whom);
    }
    if (pad.alert[0] != '\0' && pad.laptop.stopped == LAPTOP_FINE) {
        sentence(A_BOLD, pad.alert);
        sentence(A_BOLD, "(Esc when you have read it.)");
    }
    sentence(A_NORMAL, pad.note);
}

static void help_items(void)
{
    static const char *const text[] = {"^Z undo erase", "^U bring back above", "^O pull the cable", "^N plug it in",
                                       "^W who typed what", "^Q quit", NULL};
    static const char *const told[] = {"arrows, page up and down", "^W back to the text", "^Q quit", NULL};
    pad.items = 0;
    for (const char *const *words = pad.telling ? told : text; *words != NULL; words++)
        item(A_DIM, "%s", *words);
}

/* ---- who typed what */

static void next_line(struct pen *pen)
{
    pen->line++;
    pen->column = 0;
}

/* Writes a character on the page; what follows a full line or a line feed goes on below, under its own text. */
static void write_character(struct pen *pen, uint32_t c, attr_t look)
{
    wchar_t wide[3] = {glyph(c), L'\0', L'\0'};
    if (c == '\n')
        wide[0] = 0x21b5;
    else if (is_unseen(c))
        wide[0] = 0xfffd;
    else if (is_combining(c)) {
        wide[1] = wide[0];
        wide[0] = 0x25cc;
    }
    int width = wcwidth(wide[0]);
    if (pen->column + width > COLS) {
        next_line(pen);
        pen->column = COLS > 26 ? 13 : 0;
    }
    if (pen->line >= pen->top && pen->line < pen->top + pen->height)
        draw_wide(pen->line - pen->top, pen->column, wide, look);
    pen->column = c == '\n' ? COLS : pen->column + width;
}

static void write_words(struct pen *pen, attr_t look, const char *words, ...)
{
    char all[LAPTOP_WORDS];
    va_list values;
    va_start(values, words);
    vsnprintf(all, sizeof all, words, values);
    va_end(values);
    for (const char *c = all; *c != '\0'; c++)
        write_character(pen, (uint8_t)*c, look);
}

/* A character of the archive. */
struct typed {
    unsigned place, laptop, clock, code_point, turn;
};

/* Reads a character's line of the archive; answers what follows it, or NULL where it is none. */
static const char *read_typed(const char *line, struct typed *typed)
{
    int read = sscanf(line, "P\t%u\t%u\t%u\t%u\t%u", &typed->place, &typed->laptop, &typed->clock, &typed->code_point,
                      &typed->turn);
    return read == 5 ? strchr(line, '\n') + 1 : NULL;
}

/* The line above what a laptop typed. */
static void write_author(struct pen *pen, unsigned laptop, const char *line)
{
    struct typed typed;
    unsigned all = 0, erased = 0;
    for (; (line = read_typed(line, &typed)) != NULL && typed.laptop == laptop; all++)
        erased += typed.turn % 2;
    write_words(pen, look_of(laptop) | A_REVERSE, " Laptop %u typed %u, %u of them erased ", laptop, all, erased);
    next_line(pen);
}

/* What waits on the sheet, and for what. */
static void write_waiting(struct pen *pen)
{
    struct wimtaze_rows rows = wimtaze_read_sheet(pad.laptop.sheet, pad.laptop.length);
    struct wimtaze_waiting edit;
    struct wimtaze_identifier needs[2];
    while (wimtaze_next_waiting(&rows, &edit)) {
        if (wimtaze_needs(pad.laptop.sheet, pad.laptop.length, &edit, needs) > 0)
            write_words(pen, A_NORMAL, "An edit of laptop %u waits for character %u of laptop %u.", edit.sender,
                        needs[0].clock, needs[0].laptop);
        next_line(pen);
    }
}

/*
 * The archive by author: what each laptop typed, in the sequence in which it typed it, with places from the top of the
 * sheet. A new line begins where the characters do not follow each other there, or are erased and the others are not.
 */
static void draw_archive(void)
{
    static char archive[WIMTAZE_ARCHIVE_MAX + 1];
    struct pen pen = {0, 0, pad.tell_top, pad.height};
    struct typed typed, before = {0, 0, 0, 0, 0};
    uint64_t reply = wimtaze_archive(pad.laptop.sheet, pad.laptop.length, (uint8_t *)archive, WIMTAZE_ARCHIVE_MAX);
    if (wimtaze_word(reply) != WIMTAZE_DONE)
        return;
    archive[wimtaze_written(reply)] = '\0';
    const char *line = strchr(archive, '\n') + 1;
    for (const char *rest; (rest = read_typed(line, &typed)) != NULL; line = rest, before = typed) {
        int erased = typed.turn % 2 == 1;
        int goes_on = typed.laptop == before.laptop && typed.place == before.place + 1 &&
                      typed.turn % 2 == before.turn % 2;
        if (!goes_on && before.laptop != 0)
            next_line(&pen);
        if (typed.laptop != before.laptop)
            write_author(&pen, typed.laptop, line);
        if (!goes_on)
            write_words(&pen, A_DIM, "%5u %s ", typed.place, erased ? "erased" : "      ");
        write_character(&pen, typed.code_point, erased ? A_DIM : look_of(typed.laptop));
    }
    if (before.laptop == 0)
        write_words(&pen, A_NORMAL, "Nothing was typed yet.");
    next_line(&pen);
    write_waiting(&pen);
    pad.tell_lines = pen.line;
}

/* ---- the whole screen */

/* What an empty sheet says. */
static void draw_hint(void)
{
    pad.items = 0;
    sentence(A_DIM, "Nothing is typed yet. Type here, and look at the others. Then pull the cable with ^O, type on "
                    "both sides, and plug it in with ^N: all show the same text.");
    sentence(A_DIM, pad.name);
    sentence(A_DIM, "--help tells how to run it on two laptops of one network.");
    flow(0, pad.height, 1);
}

/* Moves the lines that are on the screen so that the cursor is among them. */
static void follow_cursor(void)
{
    int line = pad.cell[pad.laptop.cursor].line, last = pad.cell[pad.count].line;
    if (pad.top > last + 1 - pad.height)
        pad.top = last + 1 - pad.height;
    if (pad.top < 0)
        pad.top = 0;
    if (line < pad.top)
        pad.top = line;
    if (line >= pad.top + pad.height)
        pad.top = line + 1 - pad.height;
}

static void draw_main(void)
{
    follow_cursor();
    if (pad.telling) {
        draw_archive();
        return;
    }
    uint64_t counts = wimtaze_counts(pad.laptop.sheet, pad.laptop.length);
    if (wimtaze_character_count(counts) == 0 && laptop_may_edit(&pad.laptop))
        draw_hint();
    draw_text();
}

/*
 * Shares out the rows. The text gets what the foot leaves, at least one; help gives way first, then what is said. On
 * one or two columns nothing can be read, and ncurses reads outside its memory: nothing is drawn there.
 */
static void draw(uint64_t now)
{
    erase();
    if (COLS < 3) {
        refresh();
        return;
    }
    status_items(now);
    int status = flow(0, 0, 0);
    note_items();
    int notes = flow(0, 0, 1);
    help_items();
    int help = flow(0, 0, 2);
    status = status < LINES ? status : LINES - 1;
    notes = notes < LINES - status - 1 ? notes : LINES - status - 1;
    help = help < LINES - status - notes - 2 ? help : LINES - status - notes - 2;
    help = help < 0 ? 0 : help;
    pad.height = LINES - status - notes - help;
    draw_main();
    for (int row = 0; row < status; row++)
        mvhline(pad.height + row, 0, ' ' | A_REVERSE, COLS);
    status_items(now);
    flow(pad.height, status, 0);
    note_items();
    flow(pad.height + status, notes, 1);
    help_items();
    flow(pad.height + status + notes, help, 2);
    const struct cell *at = &pad.cell[pad.laptop.cursor];
    curs_set(!pad.telling);
    move(at->line - pad.top, at->column < COLS ? at->column : COLS - 1);
    refresh();
}

/* ---- edits */

/* Says in words why an edit was turned away. */
static void say_refused(enum wimtaze_refusals refusal)
{
    if (refusal == WIMTAZE_REFUSAL_NONE)
        return;
    if (!laptop_may_edit(&pad.laptop))
        note("Refused: this laptop may not edit now.");
    else if (refusal == WIMTAZE_REFUSAL_DOCUMENT_FULL)
        note("Refused: a sheet takes %u characters in its life, %u of each laptop, and erasing makes no room. There is "
             "room for %u here. Begin a new sheet when you need more (--sheet).",
             (unsigned)WIMTAZE_CHARACTER_MAX, WIMTAZE_CHARACTER_MAX / pad.laptop.count, laptop_room(&pad.laptop));
    else
        note("Refused with %d: %s.", (int)refusal, wimtaze_refusal_text(refusal));
}

/* A character that came from the keyboard, in UTF-8. The library refuses what is not. */
static void type_bytes(const uint8_t *bytes, size_t length)
{
    if (length == 1 && bytes[0] < 0x80)
        say_refused(laptop_type(&pad.laptop, pad.laptop.cursor, bytes[0]));
    else
        say_refused(laptop_paste(&pad.laptop, pad.laptop.cursor, bytes, length));
}

/* Takes a byte of a typed character. Its first byte tells how many belong together. */
static void type_byte(uint8_t byte)
{
    if (pad.partial_length > 0 && (byte & 0xc0) != 0x80) {
        type_bytes(pad.partial, pad.partial_length);
        pad.partial_length = 0;
    }
    pad.partial[pad.partial_length++] = byte;
    uint8_t lead = pad.partial[0];
    size_t whole = lead < 0xc0 ? 1 : lead < 0xe0 ? 2 : lead < 0xf0 ? 3 : 4;
    if (pad.partial_length < whole)
        return;
    type_bytes(pad.partial, whole);
    pad.partial_length = 0;
}

/* Erases the shown character at a place, from 1, and remembers it. */
static void erase_at(uint64_t place)
{
    if (place < 1 || place > pad.count)
        return;
    struct wimtaze_identifier id = pad.shown[place - 1].id;
    enum wimtaze_refusals refusal = laptop_erase(&pad.laptop, place);
    say_refused(refusal);
    if (refusal != WIMTAZE_REFUSAL_NONE)
        return;
    if (pad.erased_count == ERASED)
        memmove(pad.erased, pad.erased + 1, --pad.erased_count * sizeof *pad.erased);
    pad.erased[pad.erased_count++] = id;
    read_text();
}

/* Erases the character behind the cursor, with the marks over it. */
static void erase_behind(void)
{
    int joined;
    do {
        joined = pad.laptop.cursor + 1 < pad.count && pad.cell[pad.laptop.cursor + 1].joined;
        uint64_t before = pad.count;
        erase_at(pad.laptop.cursor + 1);
        if (pad.count == before)
            return;
    } while (joined);
}

/* Brings a character back, says so, and tells the place where it is shown; 0 where it was refused. */
static unsigned bring_back(struct wimtaze_identifier id)
{
    struct wimtaze_row row;
    enum wimtaze_refusals refusal = laptop_restore(&pad.laptop, id.laptop, id.clock);
    say_refused(refusal);
    if (refusal != WIMTAZE_REFUSAL_NONE || !wimtaze_row_of(pad.laptop.sheet, pad.laptop.length, id, &row))
        return 0;
    note("Brought back: a character that laptop %u typed.", id.laptop);
    return row.shown;
}

/* Brings back what was erased here last and nobody brought back since; the cursor goes behind it. */
static void undo_erase(void)
{
    struct wimtaze_row row;
    while (pad.erased_count > 0 && laptop_may_edit(&pad.laptop)) {
        struct wimtaze_identifier id = pad.erased[--pad.erased_count];
        if (!wimtaze_row_of(pad.laptop.sheet, pad.laptop.length, id, &row) || wimtaze_is_shown(&row))
            continue;
        unsigned place = bring_back(id);
        if (place > 0)
            pad.laptop.cursor = place;
        return;
    }
    note("Nothing is left that was erased here since the program began. ^U brings back what is erased above the "
         "cursor, whoever erased it.");
}

/*
 * Brings back the nearest erased character above the cursor, or just at it, whoever erased it. So the key brings back a
 * whole line when it is pressed again and again, the last character first, and the cursor stays behind it.
 */
static void bring_back_above(void)
{
    struct wimtaze_rows rows = wimtaze_read_sheet(pad.laptop.sheet, pad.laptop.length);
    struct wimtaze_row row;
    struct wimtaze_identifier nearest = {0, 0};
    while (wimtaze_next_row(&rows, &row) && row.shown <= pad.laptop.cursor)
        if (!wimtaze_is_shown(&row))
            nearest = row.id;
    if (nearest.laptop == 0) {
        note("Nothing is erased above the cursor.");
        return;
    }
    unsigned place = bring_back(nearest);
    if (place > pad.laptop.cursor)
        pad.laptop.cursor = place;
}

/* ---- pasting */

/* Puts the block in, whole or not at all. Terminals send a carriage return for the end of a line. */
static void end_paste(void)
{
    size_t length = 0;
    uint8_t before = '\0';
    pad.pasting = 0;
    for (size_t k = 0; k < pad.block_length; k++) {
        uint8_t c = pad.block[k];
        if (c != '\n' || before != '\r')
            pad.block[length++] = c == '\r' ? '\n' : c;
        before = c;
    }
    unsigned room = laptop_room(&pad.laptop);
    enum wimtaze_refusals refusal = pad.block_length == BLOCK ? WIMTAZE_REFUSAL_DOCUMENT_FULL
                                    : laptop_paste(&pad.laptop, pad.laptop.cursor, pad.block, length);
    if (refusal == WIMTAZE_REFUSAL_NONE)
        note("Pasted %u characters.", room - laptop_room(&pad.laptop));
    say_refused(refusal);
}

static void paste_key(int key, uint64_t now)
{
    pad.pasted_at = now;
    if (key == PASTE_ENDS)
        end_paste();
    else if (key < KEY_MIN && pad.block_length < BLOCK)
        pad.block[pad.block_length++] = (uint8_t)key;
}

/* ---- keys */

/* Moves the cursor so many lines, to the column that it had when it began to move so. */
static void move_lines(int lines)
{
    const struct cell *at = &pad.cell[pad.laptop.cursor];
    if (pad.wish < 0)
        pad.wish = at->column;
    pad.laptop.cursor = gap_at(at->line + lines, pad.wish);
}

static void move_left(void)
{
    if (pad.laptop.cursor == 0)
        return;
    do
        pad.laptop.cursor--;
    while (pad.laptop.cursor > 0 && pad.cell[pad.laptop.cursor].joined);
}

static void move_right(void)
{
    if (pad.laptop.cursor == pad.count)
        return;
    do
        pad.laptop.cursor++;
    while (pad.laptop.cursor < pad.count && pad.cell[pad.laptop.cursor].joined);
}

/* Keys that move the cursor; answers whether it is one. */
static int moving_key(int key)
{
    int line = pad.cell[pad.laptop.cursor].line;
    if (key == KEY_UP || key == KEY_DOWN)
        move_lines(key == KEY_UP ? -1 : 1);
    else if (key == KEY_PPAGE || key == KEY_NPAGE)
        move_lines(key == KEY_PPAGE ? -pad.height : pad.height);
    else if (key == KEY_LEFT)
        move_left();
    else if (key == KEY_RIGHT)
        move_right();
    else if (key == KEY_HOME)
        pad.laptop.cursor = gap_at(line, 0);
    else if (key == KEY_END)
        pad.laptop.cursor = gap_at(line, COLS);
    else
        return 0;
    if (key != KEY_UP && key != KEY_DOWN && key != KEY_PPAGE && key != KEY_NPAGE)
        pad.wish = -1;
    return 1;
}

/* Keys while the screen tells who typed what; answers whether it is one. */
static int telling_key(int key)
{
    int lines = key == KEY_UP ? -1 : key == KEY_DOWN ? 1 : key == KEY_PPAGE ? -pad.height
                : key == KEY_NPAGE ? pad.height : key == KEY_HOME ? -pad.tell_lines : key == KEY_END ? pad.tell_lines
                : 0;
    if (key == ('W' & 31) || key == ESCAPE || key == '\r' || key == 'q')
        pad.telling = 0;
    int most = pad.tell_lines > pad.height ? pad.tell_lines - pad.height : 0;
    pad.tell_top += lines;
    pad.tell_top = pad.tell_top > most ? most : pad.tell_top < 0 ? 0 : pad.tell_top;
    return pad.telling == 0 || lines != 0;
}

/* Keys for the network, the screen and the end; answers whether it is one. */
static int ruling_key(int key)
{
    if (key == ('Q' & 31) || key == ('C' & 31))
        pad.quit = 1;
    else if (key == ('O' & 31) || key == ('N' & 31)) {
        pad.plugged = key == ('N' & 31);
        note(pad.plugged ? "The network cable is in: what was missed comes with the next lists."
                         : "The network cable is out: all that is sent or comes is lost. Go on typing.");
    } else if (key == ('L' & 31))
        clearok(stdscr, TRUE);
    else if (key == ('W' & 31)) {
        pad.telling = 1;
        pad.tell_top = 0;
    } else if (key == ESCAPE)
        pad.alert[0] = '\0';
    else if (key != KEY_RESIZE)
        return 0;
    return 1;
}

/* Keys that change the text. */
static void editing_key(int key, uint64_t now)
{
    pad.wish = -1;
    if (key == KEY_BACKSPACE || key == 127 || key == '\b')
        erase_at(pad.laptop.cursor);
    else if (key == KEY_DC)
        erase_behind();
    else if (key == ('Z' & 31))
        undo_erase();
    else if (key == ('U' & 31))
        bring_back_above();
    else if (key == PASTE_BEGINS) {
        pad.pasting = 1;
        pad.block_length = 0;
        pad.pasted_at = now;
    } else if (key == '\r' || key == '\n' || key == KEY_ENTER)
        type_byte('\n');
    else if (key == '\t' || (key >= ' ' && key < KEY_MIN))
        type_byte((uint8_t)key);
    else
        note("This key does nothing.");
}

static void on_key(int key, uint64_t now)
{
    if (pad.pasting) {
        paste_key(key, now);
        read_text();
        return;
    }
    if (key != KEY_RESIZE)
        pad.note[0] = '\0';
    if (pad.telling && telling_key(key))
        return;
    if (!ruling_key(key) && !pad.telling && !moving_key(key))
        editing_key(key, now);
    read_text();
}

/* Takes the keys that were pressed. A block whose end does not come is taken as it is after a second. */
static void take_keys(uint64_t now)
{
    for (int key; (key = getch()) != ERR && !pad.quit;)
        on_key(key, now);
    if (pad.pasting && now > pad.pasted_at + SECOND)
        on_key(PASTE_ENDS, now);
}

/* ---- the program */

/* Waits for a key, for a datagram or until something is to be sent; once a second the status is looked at. */
static void wait_for_something(uint64_t now)
{
    struct pollfd from[2] = {{STDIN_FILENO, POLLIN, 0}, {pad.socket, POLLIN, 0}};
    unsigned pause = laptop_pause(&pad.laptop, now);
    if (pause > SECOND || pad.disk_fails)
        pause = SECOND;
    if (poll(from, 2, (int)pause) > 0 && (from[0].revents & (POLLHUP | POLLERR | POLLNVAL)) != 0)
        pad.quit = 1;
}

/* Shows the next thing that laptop.h says, once the last was read. */
static void take_messages(void)
{
    const char *words = pad.alert[0] == '\0' ? laptop_message(&pad.laptop) : NULL;
    if (words != NULL)
        snprintf(pad.alert, sizeof pad.alert, "%s", words);
}

/* When others type above the cursor, the lines move under it, and it stays where it is on the screen. */
static void run(void)
{
    read_text();
    pad.laptop.cursor = pad.count;
    while (!pad.quit && !signalled) {
        uint64_t now = milliseconds();
        int row = pad.cell[pad.laptop.cursor].line - pad.top;
        if (take_in(now)) {
            read_text();
            pad.top = pad.cell[pad.laptop.cursor].line - row;
        }
        take_keys(now);
        send_out(now);
        take_messages();
        draw(now);
        if (!pad.quit)
            wait_for_something(now);
    }
}

/*
 * Opens, makes or sets up the laptop; ends the program where that fails. Somebody looks on, so it asks the others more
 * often than laptop.h does by itself: what was missed comes in a second or two.
 */
static void begin(const struct wishes *wishes)
{
    enum laptop_trouble (*how)(struct laptop *, const char *, unsigned, unsigned, unsigned) =
        wishes->begin == 'n' ? laptop_create : wishes->begin == 'a' ? laptop_set_up_anew : laptop_open;
    enum laptop_trouble trouble = how(&pad.laptop, wishes->folder, wishes->sheet, wishes->number, wishes->count);
    if (trouble != LAPTOP_FINE) {
        fprintf(stderr, "%s: %s\n", pad.name, pad.laptop.why);
        if (trouble == LAPTOP_MISSING)
            fprintf(stderr, "%s: to create it is --new, to set it up anew is --anew.\n", pad.name);
        exit(EXIT_FAILURE);
    }
    for (unsigned n = 1; n <= wishes->count; n++)
        if (n != wishes->number && (wishes->gone >> n & 1) != 0)
            laptop_gone(&pad.laptop, n);
    pad.laptop.soon = 100;
    pad.laptop.after_news = 500;
    pad.laptop.longest = SECOND;
    pad.plugged = 1;
    pad.wish = -1;
}

/* The terminal and the language must be fit for it; ends the program where they are not. */
static SCREEN *open_screen(void)
{
    setlocale(LC_ALL, "");
    if (strcmp(nl_langinfo(CODESET), "UTF-8") != 0)
        setlocale(LC_ALL, "C.UTF-8");
    if (strcmp(nl_langinfo(CODESET), "UTF-8") != 0) {
        fprintf(stderr, "%s: this needs UTF-8: set LC_ALL to a locale that has it, such as C.UTF-8.\n", pad.name);
        exit(EXIT_FAILURE);
    }
    SCREEN *screen = isatty(STDIN_FILENO) && isatty(STDOUT_FILENO) ? newterm(NULL, stdout, stdin) : NULL;
    if (screen == NULL) {
        fprintf(stderr, "%s: this needs a terminal whose kind is known: see TERM.\n", pad.name);
        exit(EXIT_FAILURE);
    }
    choose_colours();
    raw();
    noecho();
    nonl();
    keypad(stdscr, TRUE);
    nodelay(stdscr, TRUE);
    set_escdelay(100);
    define_key("\033[200~", PASTE_BEGINS);
    define_key("\033[201~", PASTE_ENDS);
    fputs("\033[?2004h", stdout);
    fflush(stdout);
    return screen;
}

static void close_screen(SCREEN *screen)
{
    endwin();
    fputs("\033[?2004l", stdout);
    fflush(stdout);
    delscreen(screen);
}

static void heed_signals(void)
{
    struct sigaction action;
    memset(&action, 0, sizeof action);
    action.sa_handler = on_signal;
    sigaction(SIGHUP, &action, NULL);
    sigaction(SIGINT, &action, NULL);
    sigaction(SIGTERM, &action, NULL);
}

int main(int count, char **word)
{
    const char *slash = count > 0 ? strrchr(word[0], '/') : NULL;
    pad.name = slash != NULL ? slash + 1 : count > 0 ? word[0] : "notepad";
    struct wishes wishes = read_arguments(count, word);
    heed_signals();
    open_socket(wishes.number);
    begin(&wishes);
    SCREEN *screen = open_screen();
    run();
    close_screen(screen);
    enum laptop_trouble stopped = pad.laptop.stopped, trouble = laptop_close(&pad.laptop);
    close(pad.socket);
    if (stopped != LAPTOP_FINE || trouble != LAPTOP_FINE) {
        fprintf(stderr, "%s: %s\n", pad.name, pad.laptop.why);
        return EXIT_FAILURE;
    }
    printf("Laptop %u is saved in %s.\n", wishes.number, pad.laptop.file);
    return EXIT_SUCCESS;
}
