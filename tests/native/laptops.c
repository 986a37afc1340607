/*
 * What examples/laptop.h and include/wimtaze_rows.h promise, without a network. Laptops of one process hand each other
 * their datagrams, with a clock that the program moves.
 *
 *   - A file that is cut anywhere, or has one bit changed anywhere, is not opened; nor is one that is missing, open
 *     elsewhere, of another laptop or sheet, bare or in the first form, and each is told as what it is.
 *   - What an earlier life sent is dropped; a laptop that was set up anew uses no identifier twice, also if its clock
 *     was set back, or another is set up anew at the same time; a number in use cannot be created again; an old file
 *     and a laptop that was replaced are stopped.
 *   - Up to sixteen laptops come together over a network that loses, repeats and reorders, with kills and lost files.
 *   - The rows that are read off a sheet are those that the library counts and shows.
 *
 *     laptops FOLDER [RUNS [SEED]]     keeps its files in the folder
 */
#define _POSIX_C_SOURCE 200809L
#include <sys/wait.h>
#include <unistd.h>
#define fsync(file) ((void)(file), 0) /* the disk is not what is tried here */
#include "../../examples/laptop.h"

enum { LAPTOPS = 16, ON_THE_WAY = 8192, STEP = 20, SHEET = 7 };

/* ---- what is counted */

static unsigned passed, failed;
static unsigned long long seed;

/* What has to come up in the runs, or they would show little. */
enum situation {
    KILLED,        /* a laptop was killed, and goes on from its file; */
    RENEWED,       /* one lost its file, and was set up anew, */
    RENEWED_TWICE, /* while another one awaited answers; */
    KILLED_ASKING, /* it was killed while it awaited them; */
    LATE_DROPPED,  /* a datagram of an earlier life came; */
    NEVER_CAME,    /* an identifier was used twice, since the first never came to any sheet; */
    WAITED,        /* something waited, */
    CUT_ANSWER,    /* an answer took several datagrams */
    SITUATIONS
};

static const char *const names[SITUATIONS] = {"killed", "set up anew", "two at once", "killed while it asked",
    "a late datagram", "an identifier that never came", "waited", "an answer in pieces"};
static unsigned met[SITUATIONS];

static void check(int held, const char *what)
{
    if (held) {
        passed++;
        return;
    }
    failed++;
    printf("seed %llu: not so: %s\n", seed, what);
}

/* ---- chance */

/* SplitMix64. */
static uint64_t chance;

static unsigned below(unsigned n)
{
    uint64_t a = chance += 0x9e3779b97f4a7c15u;
    a = (a ^ a >> 30) * 0xbf58476d1ce4e5b9u;
    a = (a ^ a >> 27) * 0x94d049bb133111ebu;
    return (unsigned)((a ^ a >> 31) % n);
}

/* A life is a millisecond of the time of day: two of them need two. */
static void pass_time(void)
{
    struct timespec pause = {0, 1500000};
    nanosleep(&pause, NULL);
}

/* ---- the files */

static const char *folder;
static struct laptop one, two, three;
static struct laptop_datagram datagram;

static const char *path_of(unsigned number, const char *ending)
{
    static char path[LAPTOP_PATH];
    snprintf(path, sizeof path, "%s/laptop-%u%s", folder, number, ending);
    return path;
}

static void remove_files(void)
{
    static const char *const endings[] = {"", ".new", ".lock", ".before"};
    for (unsigned k = 0; k < 4 * LAPTOPS; k++)
        unlink(path_of(k / 4 + 1, endings[k % 4]));
}

static size_t read_file(unsigned number, uint8_t *bytes, size_t room)
{
    FILE *file = fopen(path_of(number, ""), "rb");
    size_t length = file == NULL ? 0 : fread(bytes, 1, room, file);
    if (file != NULL)
        fclose(file);
    return length;
}

static void write_file(unsigned number, const void *bytes, size_t length)
{
    unlink(path_of(number, ""));
    FILE *file = fopen(path_of(number, ""), "wb");
    if (file == NULL || fwrite(bytes, 1, length, file) != length || fclose(file) != 0) {
        perror(path_of(number, ""));
        exit(EXIT_FAILURE);
    }
}

/* Whether laptop 3 of 4 on sheet 7 is refused so, and the words say why. */
static int refused(enum laptop_trouble trouble, const char *words)
{
    enum laptop_trouble met_with = laptop_open(&one, folder, SHEET, 3, 4);
    if (met_with == LAPTOP_FINE)
        laptop_close(&one);
    return met_with == trouble && strstr(one.why, words) != NULL && one.folder == -1 && one.lock == -1;
}

/* Every cut and every bit of a small file, and bytes behind it. */
static void try_damage(void)
{
    static uint8_t bytes[4096], damaged[4096];
    unsigned taken = 0;
    check(laptop_create(&one, folder, SHEET, 3, 4) == LAPTOP_FINE, "a laptop is created");
    check(laptop_paste(&one, 0, "Bye: Novak", 10) == WIMTAZE_REFUSAL_NONE, "it types");
    laptop_erase(&one, 2);
    laptop_close(&one);
    size_t length = read_file(3, bytes, sizeof bytes);
    check(laptop_open(&one, folder, SHEET, 3, 4) == LAPTOP_FINE, "it goes on from its file");
    laptop_close(&one);
    for (size_t k = 0; k < length; k++) {
        write_file(3, bytes, k);
        check(refused(LAPTOP_CUT, "Set the laptop up anew"), "a file that is cut is not opened");
    }
    for (size_t k = 0; k < 8 * length; k++) {
        memcpy(damaged, bytes, length);
        damaged[k / 8] ^= (uint8_t)(1u << k % 8);
        write_file(3, damaged, length);
        taken += laptop_open(&one, folder, SHEET, 3, 4) == LAPTOP_FINE;
    }
    check(taken == 0, "a file with one other bit is not opened");
    memcpy(damaged, bytes, length);
    damaged[length] = '\n';
    write_file(3, damaged, length + 1);
    check(refused(LAPTOP_CUT, "not as long"), "a file with more behind it is not opened");
    write_file(3, bytes, length);
    check(laptop_open(&one, folder, SHEET, 3, 4) == LAPTOP_FINE, "the whole file is opened again");
    laptop_close(&one);
}

/* A frame with the right checksum around any sheet. */
static void write_framed(const char *sheet)
{
    char frame[LAPTOP_FRAME];
    static char whole[LAPTOP_FRAME + 256];
    laptop_prepare(&two, folder, SHEET, 3, 4);
    two.life = 1;
    two.length = strlen(sheet);
    memcpy(two.sheet, sheet, two.length);
    size_t n = laptop_write_frame(&two, frame);
    laptop_let_go(&two);
    memcpy(whole, frame, n);
    memcpy(whole + n, sheet, two.length);
    write_file(3, whole, n + two.length);
}

/* What is no file of laptop 3 of 4 on sheet 7, each told as what it is. */
static void try_others(void)
{
    static const char old[] = "S\t3\t1\nC\t3\t1\t65\t1\t0\t0\t0\t1\n";
    static const char bare[] = "S2\t3\t1\nC\t3\t1\t65\t0\t0\t0\t0\t1\n";
    static uint8_t bytes[4096];
    size_t length = read_file(3, bytes, sizeof bytes);
    check(laptop_create(&one, folder, SHEET, 3, 4) == LAPTOP_EXISTS, "a file is not created over another");
    check(laptop_open(&one, folder, SHEET + 1, 3, 4) == LAPTOP_OTHER_SHEET, "another sheet's file is not opened");
    check(laptop_open(&one, folder, SHEET, 3, 5) == LAPTOP_OTHER_SHEET, "nor one with another count");
    write_file(4, bytes, length);
    check(laptop_open(&one, folder, SHEET, 4, 4) == LAPTOP_ANOTHERS, "another laptop's file is not opened");
    unlink(path_of(4, ""));
    check(laptop_open(&one, folder, SHEET, 4, 4) == LAPTOP_MISSING && strstr(one.why, "set it up anew") != NULL &&
              access(path_of(4, ""), F_OK) != 0,
          "a missing file is not opened, and none is made");
    check(laptop_open(&one, folder, SHEET, 5, 4) == LAPTOP_RANGE && laptop_open(&one, folder, 65536, 1, 4) ==
              LAPTOP_RANGE && laptop_create(&one, folder, SHEET, 0, 4) == LAPTOP_RANGE &&
              laptop_set_up_anew(&one, folder, SHEET, 1, 17) == LAPTOP_RANGE, "numbers are in their ranges");
    check(laptop_open(&one, "/nowhere at all", SHEET, 1, 4) == LAPTOP_DISK, "a folder that is not there");
    write_file(3, old, strlen(old));
    check(refused(LAPTOP_FIRST_FORM, "first form"), "a sheet in the first form is told");
    write_file(3, bare, strlen(bare));
    check(refused(LAPTOP_NO_FRAME, "without a frame"), "a bare sheet is told");
    write_file(3, "some other file", 15);
    check(refused(LAPTOP_NO_FRAME, "no file of this program"), "any other file is told");
    write_framed("S2\t3\t0\nC\t2\t1\t66\t0\t0\t0\t0\t1\nC\t1\t1\t65\t0\t0\t0\t0\t1\n");
    check(refused(LAPTOP_DAMAGED, "refused with 16: no typing"), "a sheet that no typing leaves is told");
    write_framed("S2\t4\t0\n");
    check(refused(LAPTOP_ANOTHERS, "another laptop"), "a sheet of another laptop in the frame is told");
    write_file(3, bytes, length);
}

/* A sheet without a frame is adopted where a person says that it is whole. */
static void try_adopting(void)
{
    static const char bare[] = "S2\t4\t1\nC\t4\t1\t65\t0\t0\t0\t0\t1\n", crossed[] = "S2\t4\t1\n\n";
    uint8_t text[WIMTAZE_TEXT_MAX];
    check(laptop_adopt(&one, folder, SHEET, 4, 4, crossed, strlen(crossed)) == LAPTOP_DAMAGED &&
              access(path_of(4, ""), F_OK) != 0, "what the library refuses is not adopted");
    check(laptop_adopt(&one, folder, SHEET, 4, 4, bare, strlen(bare)) == LAPTOP_FINE, "a bare sheet is adopted");
    check(laptop_text(&one, text) == 1 && text[0] == 'A', "with its text");
    laptop_close(&one);
    check(laptop_adopt(&one, folder, SHEET, 4, 4, bare, strlen(bare)) == LAPTOP_EXISTS, "and not twice");
}

/* The lock is another process's business. */
static void try_lock(void)
{
    int status = 0;
    check(laptop_open(&one, folder, SHEET, 3, 4) == LAPTOP_FINE, "a laptop is open");
    fflush(stdout);
    pid_t child = fork();
    if (child == 0) {
        int locked = laptop_open(&two, folder, SHEET, 3, 4) == LAPTOP_LOCKED &&
                     laptop_set_up_anew(&two, folder, SHEET, 3, 4) == LAPTOP_LOCKED &&
                     laptop_open(&two, folder, SHEET, 4, 4) == LAPTOP_FINE;
        _exit(locked ? 0 : 1);
    }
    check(waitpid(child, &status, 0) == child && status == 0, "and open for one program alone");
    check(access(path_of(3, ""), F_OK) == 0, "whose file stays where it is");
    laptop_close(&one);
}

/* ---- lives */

/* Hands over all that one laptop has to send now to the others that are given, and keeps the last datagram. */
static void hand_over(struct laptop *from, struct laptop **to, unsigned count, uint64_t now)
{
    static struct laptop_datagram next;
    while (laptop_next(from, now, &next) == 1) {
        datagram = next;
        for (unsigned k = 0; k < count; k++)
            if (next.to == 0 || next.to == to[k]->number)
                laptop_take_in(to[k], now, next.bytes, next.length);
    }
}

/* Three laptops hand each other everything for a while. */
static void settle(uint64_t *now)
{
    struct laptop *all[] = {&one, &two, &three};
    for (unsigned k = 0; k < 40; k++, *now += 500)
        for (unsigned n = 0; n < 3; n++)
            hand_over(all[n], all, 3, *now);
}

static int same_text(const struct laptop *a, const struct laptop *b)
{
    static uint8_t text[WIMTAZE_TEXT_MAX], other[WIMTAZE_TEXT_MAX];
    size_t length = laptop_text(a, text);
    return laptop_text(b, other) == length && memcmp(text, other, length) == 0;
}

static void begin_three(void)
{
    remove_files();
    laptop_create(&one, folder, SHEET, 1, 3);
    laptop_create(&two, folder, SHEET, 2, 3);
    laptop_create(&three, folder, SHEET, 3, 3);
}

/*
 * Laptop 3 types A, which comes, and B, which stays on its way; it loses its file and is set up anew. B comes when it
 * asks already. Then it types with a clock above A and may use B's identifier, since B is dropped.
 */
static void try_late(void)
{
    struct laptop *others[] = {&one, &two};
    uint64_t now = 1000;
    begin_three();
    laptop_type(&three, 0, 'A');
    settle(&now);
    laptop_type(&three, 1, 'B');
    laptop_next(&three, now, &datagram);
    struct laptop_datagram late = datagram;
    uint64_t life = three.life;
    laptop_let_go(&three);
    unlink(path_of(3, ""));
    check(laptop_open(&three, folder, SHEET, 3, 3) == LAPTOP_MISSING, "a lost file is not opened");
    pass_time();
    check(laptop_set_up_anew(&three, folder, SHEET, 3, 3) == LAPTOP_FINE && three.life > life, "it is set up anew");
    check(three.awaited == 6 && !laptop_may_edit(&three) && laptop_room(&three) == 0, "and awaits two others");
    check(laptop_type(&three, 0, 'X') == WIMTAZE_REFUSAL_DOCUMENT_FULL &&
              laptop_erase(&three, 1) == WIMTAZE_REFUSAL_POSITION &&
              laptop_restore(&three, 3, 1) == WIMTAZE_REFUSAL_NOT_HIDDEN, "until then it makes no edits");
    laptop_type(&one, 0, 'D');
    laptop_next(&one, now, &datagram);
    check(datagram.bytes[2] == 'L' && !laptop_take_in(&three, now, datagram.bytes, datagram.length),
          "and takes in no lines, since it cannot tell whose lives are over");
    hand_over(&three, others, 2, now);
    check(!laptop_take_in(&one, now, late.bytes, late.length), "what an earlier life sent is dropped");
    settle(&now);
    check(three.awaited == 0 && laptop_may_edit(&three) && laptop_highest(&three, 3) == 1, "it has what it needs");
    check(!laptop_take_in(&two, now, late.bytes, late.length), "also later on");
    check(laptop_type(&three, 1, 'C') == WIMTAZE_REFUSAL_NONE, "it types");
    settle(&now);
    check(same_text(&one, &three) && same_text(&two, &three) && laptop_highest(&one, 3) == 2, "and all have it");
    check(laptop_message(&one) == NULL && laptop_message(&two) == NULL && laptop_message(&three) == NULL,
          "nobody has anything to tell");
}

/*
 * Laptops 2 and 3 lose their files at once. What 2 had sent on for 3 comes to 1 only after 1 told 3 what it has: then 3
 * needs to be told again, and what 1 told before does not count, however often it comes.
 */
static void try_two_anew(void)
{
    struct laptop *first[] = {&one}, *second[] = {&two}, *third[] = {&three};
    struct laptop_datagram late;
    uint64_t now = 1000;
    begin_three();
    laptop_type(&three, 0, 'A');
    settle(&now);
    laptop_type(&three, 1, 'B');
    hand_over(&three, second, 1, now);
    two.ask_at = one.ask_at = now + 100000;
    laptop_hurry(&one, now, 2);
    hand_over(&one, second, 1, now + 1000);
    check(laptop_next(&two, now + 1000, &late) == 1 && strstr((char *)late.bytes, "I\t3\t2\t66") != NULL,
          "2 answers 1 with what 3 typed, and it is on its way");
    laptop_let_go(&two);
    laptop_let_go(&three);
    pass_time();
    laptop_set_up_anew(&two, folder, SHEET, 2, 3);
    laptop_set_up_anew(&three, folder, SHEET, 3, 3);
    hand_over(&three, first, 1, now);
    hand_over(&one, third, 1, now);
    struct laptop_datagram told = datagram;
    check(told.bytes[2] == 'T' && three.awaited == 1u << 2, "1 has told 3, and 2 has not");
    check(laptop_take_in(&one, now, late.bytes, late.length), "what was on its way comes to 1");
    hand_over(&three, second, 1, now + 5000);
    hand_over(&two, third, 1, now + 5000);
    laptop_take_in(&three, now, told.bytes, told.length);
    check(three.awaited >> 1 & 1, "3 awaits 1 again, since it learnt that 2 lives anew");
    now += 10000;
    settle(&now);
    check(laptop_may_edit(&three) && laptop_highest(&three, 3) == 2, "and its clock goes above what came");
    laptop_type(&three, 0, 'C');
    settle(&now);
    check(same_text(&one, &three) && same_text(&two, &three) && laptop_message(&one) == NULL, "and all have it");
}

/*
 * Laptop 3 types B, which comes to 2 alone, and 2 erases it; that line comes to 1, and waits there. 2 and 3 lose their
 * files, and B is lost. What 3 types then must not be taken for B, and erased by the line that waits.
 */
static void try_named(void)
{
    struct laptop *second[] = {&two};
    struct wimtaze_row shown[3];
    uint64_t now = 1000;
    begin_three();
    laptop_type(&three, 0, 'A');
    settle(&now);
    laptop_type(&three, 1, 'B');
    hand_over(&three, second, 1, now);
    laptop_erase(&two, 2);
    laptop_next(&two, now, &datagram);
    laptop_take_in(&one, now, datagram.bytes, datagram.length);
    check(wimtaze_waiting_count(wimtaze_counts(one.sheet, one.length)) == 1, "a line waits for what 3 typed");
    laptop_let_go(&two);
    laptop_let_go(&three);
    pass_time();
    laptop_set_up_anew(&two, folder, SHEET, 2, 3);
    laptop_set_up_anew(&three, folder, SHEET, 3, 3);
    settle(&now);
    check(laptop_type(&three, 1, 'C') == WIMTAZE_REFUSAL_NONE, "set up anew it types");
    settle(&now);
    check(laptop_shown(&one, shown) == 2 && shown[1].id.clock == 3 && shown[1].code_point == 'C' &&
              same_text(&one, &two) && same_text(&one, &three), "and nothing of before erases that");
}

/* The earlier life goes on, beside the new one: it is told, and stops. An old file is noticed too. */
static void try_stopping(void)
{
    uint64_t now = 1000;
    static uint8_t bytes[4096];
    struct laptop *others[] = {&one, &two}, *all[] = {&one, &two, &three};
    begin_three();
    laptop_type(&three, 0, 'A');
    settle(&now);
    size_t length = read_file(3, bytes, sizeof bytes);
    laptop_type(&three, 1, 'B');
    settle(&now);
    laptop_let_go(&three);
    write_file(3, bytes, length);
    check(laptop_open(&three, folder, SHEET, 3, 3) == LAPTOP_FINE, "an old file of this life is opened");
    settle(&now);
    check(three.stopped == LAPTOP_OLD_FILE && laptop_message(&three) != NULL && laptop_type(&three, 0, 'X') ==
              WIMTAZE_REFUSAL_DOCUMENT_FULL && laptop_next(&three, now, &datagram) == 0, "but stopped");
    laptop_close(&three);
    pass_time();
    check(laptop_set_up_anew(&three, folder, SHEET, 3, 3) == LAPTOP_FINE, "set up anew it goes on");
    settle(&now);
    check(laptop_may_edit(&three) && same_text(&one, &three), "with its own characters");
    laptop_let_go(&three);
    write_file(3, bytes, length);
    check(laptop_open(&three, folder, SHEET, 3, 3) == LAPTOP_FINE, "the file of an earlier life is opened");
    for (unsigned k = 0; k < 4; k++, now += 500) {
        hand_over(&three, others, 2, now);
        hand_over(&one, all, 3, now);
    }
    check(three.stopped == LAPTOP_REPLACED && strstr(three.why, "set up anew") != NULL, "but stopped");
}

/* A number that was in use is created again, as if it were new. */
static void try_used(void)
{
    uint64_t now = 1000;
    begin_three();
    laptop_type(&three, 0, 'A');
    settle(&now);
    laptop_let_go(&three);
    unlink(path_of(3, ""));
    pass_time();
    check(laptop_create(&three, folder, SHEET, 3, 3) == LAPTOP_FINE, "a used number is created again");
    laptop_type(&three, 0, 'X');
    settle(&now);
    check(three.stopped == LAPTOP_USED_BEFORE && laptop_highest(&one, 3) == 1 && laptop_message(&one) == NULL,
          "but nothing of it comes in, and it is stopped");
    laptop_close(&three);
    pass_time();
    laptop_set_up_anew(&three, folder, SHEET, 3, 3);
    settle(&now);
    check(laptop_type(&three, 1, 'Y') == WIMTAZE_REFUSAL_NONE, "set up anew it types");
    settle(&now);
    check(same_text(&one, &three) && same_text(&two, &three), "and all have it");
}

/* The time of day was set back; and one of the others is gone for good. */
static void try_clock_and_gone(void)
{
    uint64_t now = 1000;
    struct laptop *pair[] = {&one, &three};
    begin_three();
    laptop_type(&three, 0, 'A');
    settle(&now);
    uint64_t life = three.life;
    laptop_let_go(&three);
    unlink(path_of(3, ""));
    laptop_set_up_anew(&three, folder, SHEET, 3, 3);
    three.life = three.other[3].life = 5;
    settle(&now);
    check(three.awaited == 0 && three.life > life && laptop_highest(&three, 3) == 1, "a life goes above the others");
    laptop_let_go(&two);
    laptop_let_go(&three);
    unlink(path_of(3, ""));
    pass_time();
    laptop_set_up_anew(&three, folder, SHEET, 3, 3);
    for (unsigned k = 0; k < 20; k++, now += 500) {
        hand_over(&three, pair, 2, now);
        hand_over(&one, pair, 2, now);
    }
    check(three.awaited == 4, "one that is off is awaited");
    laptop_gone(&three, 2);
    check(laptop_may_edit(&three) && laptop_highest(&three, 3) == 1, "unless it is gone for good");
    laptop_close(&three);
    check(laptop_open(&three, folder, SHEET, 3, 3) == LAPTOP_FINE && three.gone == 4, "which the file keeps");
    laptop_set_up_anew(&two, folder, SHEET, 2, 3);
    settle(&now);
    check(three.gone == 0 && laptop_may_edit(&two) && same_text(&two, &three), "until it is set up anew too");
}

/* The cursor keeps its place, and where it is beyond the text lines are taken in all the same. */
static void try_cursor(void)
{
    uint64_t now = 1000;
    begin_three();
    laptop_paste(&one, 0, "Board 7", 7);
    two.cursor = 1000;
    settle(&now);
    check(two.cursor == 0 && same_text(&one, &two), "a cursor beyond the text goes to its end");
    two.cursor = 5;
    laptop_paste(&one, 0, "1. ", 3);
    laptop_erase(&one, 4);
    settle(&now);
    check(two.cursor == 7 && same_text(&one, &two), "and keeps its place while another types and erases above");
    check(laptop_type(&two, two.cursor, '!') == WIMTAZE_REFUSAL_NONE && two.cursor == 8, "typing moves it on");
    check(laptop_paste(&two, 0, "\342\202\254", 3) == WIMTAZE_REFUSAL_NONE && two.cursor == 9, "pasting above too");
    check(laptop_paste(&two, 0, "\377", 1) == WIMTAZE_REFUSAL_NOT_UTF8 && two.cursor == 9, "a refusal does not");
    settle(&now);
    check(same_text(&one, &two) && same_text(&one, &three) && laptop_message(&two) == NULL, "and all have it");
}

/* Whether laptop 1 takes in a line with these numbers before it: the sheet's, from whom, to whom, and the life. */
static int takes(unsigned sheet, unsigned from, unsigned to, uint64_t life)
{
    char words[LAPTOP_WORDS];
    int n = snprintf(words, sizeof words, "W1L\t%u\t%u\t%u\t%llu\nI\t2\t1\t65\t0\t0\t0\t1\n", sheet, from, to,
                     (unsigned long long)life);
    return laptop_take_in(&one, 1000, (const uint8_t *)words, (size_t)n);
}

/* What is of another sheet, for another laptop or from nobody is dropped. */
static void try_addressed(void)
{
    begin_three();
    check(!takes(SHEET + 1, 2, 0, two.life), "what is of another sheet is dropped");
    check(!takes(SHEET, 2, 3, two.life), "what is for another laptop is dropped");
    check(!takes(SHEET, 0, 0, two.life) && !takes(SHEET, 4, 0, two.life) && !takes(SHEET, 1, 0, two.life),
          "what is from no other laptop is dropped");
    check(!takes(SHEET, 2, 0, 0), "what has no life is dropped");
    check(takes(SHEET, 2, 1, two.life) && laptop_highest(&one, 2) == 1, "and any other is taken in");
}

/* Two laptops with one number: told once for each pair, with who sent it, the line and the reason. */
static void try_conflict(void)
{
    uint64_t now = 1000;
    begin_three();
    uint64_t life = three.life;
    char words[LAPTOP_WORDS];
    for (unsigned k = 0; k < 3; k++) {
        static const char *const lines[] = {"I\t3\t1\t65\t0\t0\t0\t1\n", "I\t3\t1\t66\t0\t0\t0\t1\n",
                                            "I\t3\t1\t67\t0\t0\t0\t1\n"};
        for (unsigned from = 2; from <= 3; from++) {
            int n = snprintf(words, sizeof words, "W1L\t%u\t%u\t0\t%llu\n%s", SHEET, from,
                             (unsigned long long)(from == 3 ? life : two.life), lines[k]);
            laptop_take_in(&one, now, (const uint8_t *)words, (size_t)n);
        }
    }
    for (unsigned from = 2; from <= 3; from++) {
        const char *said = laptop_message(&one);
        snprintf(words, sizeof words,
                 "line of laptop %u with 7, \"I 3 1 66 0 0 0 1\": the identifier stands for another", from);
        check(said != NULL && strstr(said, words) != NULL && strstr(said, "Begin a new sheet") != NULL,
              "a conflict is told with sender, line and reason");
    }
    check(laptop_message(&one) == NULL, "and told once for each pair");
}

/* ---- the rows of a sheet */

static size_t write_code_point(uint32_t code, uint8_t *out)
{
    if (code <= 8 || (code >= 11 && code <= 31) || code == 127)
        code = 0xfffd;
    if (code < 128) {
        out[0] = (uint8_t)code;
        return 1;
    }
    size_t length = code < 2048 ? 2 : code < 65536 ? 3 : 4;
    for (size_t k = length - 1; k > 0; k--, code >>= 6)
        out[k] = (uint8_t)(128 | (code & 63));
    out[0] = (uint8_t)((length == 2 ? 192 : length == 3 ? 224 : 240) | code);
    return length;
}

/* What is read of a sheet that the library accepts is what it counts and shows; what waits needs something. */
static void try_rows(const uint8_t *sheet, size_t length)
{
    static uint8_t text[WIMTAZE_TEXT_MAX], shown[WIMTAZE_TEXT_MAX + 4];
    uint64_t counts = wimtaze_counts(sheet, length);
    size_t written = wimtaze_written(wimtaze_text(sheet, length, text, sizeof text)), n = 0;
    struct wimtaze_rows rows = wimtaze_read_sheet(sheet, length);
    struct wimtaze_row row, same;
    struct wimtaze_waiting edit;
    struct wimtaze_identifier needs[2];
    unsigned waiting = 0, found = 1, needing = 1;
    while (wimtaze_next_row(&rows, &row)) {
        n += wimtaze_is_shown(&row) ? write_code_point(row.code_point, shown + n) : 0;
        if (row.place % 16 == 1) {
            found &= wimtaze_row_of(sheet, length, row.id, &same) && same.place == row.place;
            found &= !wimtaze_is_shown(&row) || (wimtaze_shown_at(sheet, length, row.shown, &same) &&
                                                 same.place == row.place);
        }
    }
    unsigned characters = rows.place;
    for (; wimtaze_next_waiting(&rows, &edit); waiting++)
        needing &= wimtaze_needs(sheet, length, &edit, needs) > 0;
    check(!rows.broken && rows.at == rows.end, "a whole sheet is read");
    check(characters == wimtaze_character_count(counts) && rows.shown == wimtaze_shown_count(counts) &&
              waiting == wimtaze_waiting_count(counts), "there are as many rows and waiting lines as are counted");
    check(n == written && memcmp(text, shown, n) == 0, "the shown rows are the text");
    check(found, "each row is found by its identifier and its place");
    check(needing, "what waits needs something");
    check(!wimtaze_shown_at(sheet, length, rows.shown + 1, &row) && !wimtaze_shown_at(sheet, length, 0, &row),
          "there is no place beyond the text");
}

/* Bytes of the length that they have, so that a sanitizer sees what is read behind them. */
static uint8_t *copy_of(const uint8_t *bytes, size_t length)
{
    uint8_t *copy = (uint8_t *)malloc(length > 0 ? length : 1);
    if (copy == NULL)
        exit(EXIT_FAILURE);
    memcpy(copy, bytes, length);
    return copy;
}

/* Of other bytes nothing outside is read, and what the library accepts is read whole. */
static void try_damaged_rows(const uint8_t *sheet, size_t length)
{
    for (unsigned k = 0; k < 40; k++) {
        size_t n = below((unsigned)length + 1);
        uint8_t *bytes = copy_of(sheet, n);
        struct wimtaze_rows rows;
        struct wimtaze_waiting edit;
        for (unsigned flips = below(3); flips > 0 && n > 0; flips--)
            bytes[below((unsigned)n)] = (uint8_t)"\t\n09CIES2\0\377"[below(11)];
        rows = wimtaze_read_sheet(bytes, n);
        size_t lines = 0;
        while (wimtaze_next_waiting(&rows, &edit))
            lines++;
        check(rows.at == rows.end && lines <= n, "any bytes are read to their end");
        check(wimtaze_word(wimtaze_counts(bytes, n)) != WIMTAZE_DONE || !rows.broken, "and a sheet whole");
        free(bytes);
    }
}

/* Each refusal has words of its own, and any other number those of an unknown one. */
static void try_words(void)
{
    int distinct = 1;
    for (int a = -1; a <= 21; a++)
        for (int b = 0; b < a; b++)
            distinct &= strcmp(wimtaze_refusal_text(a), wimtaze_refusal_text(b)) != 0;
    check(distinct && strlen(wimtaze_refusal_text(0)) > 0, "the refusals have words of their own");
    check(strcmp(wimtaze_refusal_text(21), wimtaze_refusal_text(-1)) == 0 &&
              strcmp(wimtaze_refusal_text(1000000), wimtaze_refusal_text(-1)) == 0, "any number has words");
    check(strcmp(wimtaze_refusal_text(WIMTAZE_REFUSAL_NOT_UTF8), "the text is not UTF-8") == 0 &&
              strcmp(wimtaze_refusal_text(WIMTAZE_REFUSAL_FORM), "the saved sheet contradicts itself") == 0,
          "and the right ones");
    check(strcmp(wimtaze_version(), WIMTAZE_VERSION) == 0, "the version is told");
}

/* ---- a network */

static struct {
    uint64_t at;
    unsigned to, from;
    uint64_t life;
    size_t length;
    uint8_t bytes[LAPTOP_DATAGRAM + LAPTOP_HEADER];
} on_the_way[ON_THE_WAY];
static unsigned on_the_way_count;

static struct laptop laptops[LAPTOPS + 1];
static unsigned count;
static uint64_t now;
static uint32_t cut_off; /* bit n is set as long as laptop n is cut off from the others that are not */

/* One in five is lost, one in eight comes twice, and one in forty comes very late. */
static void send_one(const struct laptop *from, unsigned to)
{
    unsigned copies = below(5) == 0 ? 0 : below(8) == 0 ? 2 : 1;
    if ((cut_off >> to & 1) != (cut_off >> from->number & 1) || datagram.length > sizeof on_the_way->bytes)
        return;
    for (; copies > 0 && on_the_way_count < ON_THE_WAY; copies--) {
        unsigned k = on_the_way_count++;
        on_the_way[k].at = now + (below(40) == 0 ? below(20000) : below(8) == 0 ? below(400) : below(60));
        on_the_way[k].to = to;
        on_the_way[k].from = from->number;
        on_the_way[k].life = from->life;
        on_the_way[k].length = datagram.length;
        memcpy(on_the_way[k].bytes, datagram.bytes, datagram.length);
    }
}

static void send_all(struct laptop *laptop)
{
    while (laptop_next(laptop, now, &datagram) == 1) {
        met[CUT_ANSWER] += laptop->answer_length > LAPTOP_DATAGRAM && datagram.bytes[2] == 'L';
        for (unsigned to = 1; to <= count; to++)
            if (to != laptop->number && (datagram.to == 0 || datagram.to == to))
                send_one(laptop, to);
    }
}

static void deliver(void)
{
    for (unsigned k = 0; k < on_the_way_count;) {
        if (on_the_way[k].at > now) {
            k++;
            continue;
        }
        struct laptop *to = &laptops[on_the_way[k].to];
        if (to->folder >= 0) {
            laptop_take_in(to, now, on_the_way[k].bytes, on_the_way[k].length);
            met[LATE_DROPPED] += on_the_way[k].life < laptops[on_the_way[k].from].life;
        }
        on_the_way[k] = on_the_way[--on_the_way_count];
    }
}

/* ---- what happens in a run */

static unsigned typed[LAPTOPS + 1][WIMTAZE_CHARACTER_MAX + 1];

/* Types, pastes, erases or restores anywhere. */
static void edit(struct laptop *laptop)
{
    static struct wimtaze_row shown[WIMTAZE_CHARACTER_MAX];
    unsigned length = laptop_shown(laptop, shown), kind = below(8);
    struct wimtaze_rows rows = wimtaze_read_sheet(laptop->sheet, laptop->length);
    struct wimtaze_row row;
    if (kind < 5 && laptop_room(laptop) > 0) {
        unsigned code = 'a' + below(26), clock = rows.clock + 1;
        uint64_t gap = below(3) > 0 ? laptop->cursor : below(length + 1);
        if (laptop_type(laptop, gap, code) == WIMTAZE_REFUSAL_NONE) {
            met[NEVER_CAME] += typed[laptop->number][clock] != 0;
            typed[laptop->number][clock] = code;
        }
    } else if (kind == 5 && below(4) == 0) {
        laptop_paste(laptop, below(length + 1), "1-0\n", 4);
    } else if (kind == 6 && length > 0) {
        laptop_erase(laptop, 1 + below(length));
    } else {
        while (wimtaze_next_row(&rows, &row))
            if (!wimtaze_is_shown(&row) && below(4) == 0) {
                laptop_restore(laptop, row.id.laptop, row.id.clock);
                break;
            }
    }
}

/* Any datagram may come: the laptop stays one with a sheet that the library accepts, and what it sends has its form. */
static void try_noise(void)
{
    static const char bytes[] = "\t\n0123456789WLQATHKIEDS\377";
    uint64_t now = 1000;
    unsigned sent = 0, formed = 0;
    begin_three();
    chance = 5;
    for (unsigned k = 0; k < 4000; k++, now += 50) {
        struct laptop *from = below(2) == 0 ? &two : &three;
        edit(from);
        from->tell |= below(8) == 0 ? 2 : 0;
        from->introduce |= below(8) == 0 ? 2 : 0;
        if (laptop_next(from, now, &datagram) != 1)
            continue;
        size_t length = below(3) == 0 ? below((unsigned)datagram.length + 1) : datagram.length;
        uint8_t *copy = copy_of(datagram.bytes, length);
        for (unsigned changes = below(4); changes > 0 && length > 0; changes--)
            copy[below((unsigned)length)] = (uint8_t)bytes[below(sizeof bytes - 1)];
        laptop_take_in(&one, now, copy, length);
        free(copy);
        for (; laptop_next(&one, now, &datagram) == 1; sent++)
            formed += datagram.bytes[0] == 'W' && datagram.bytes[datagram.length - 1] == '\n';
        while (laptop_message(&one) != NULL)
            ;
        if (one.stopped != LAPTOP_FINE)
            one.stopped = LAPTOP_FINE;
    }
    check(wimtaze_word(wimtaze_counts(one.sheet, one.length)) == WIMTAZE_DONE, "the sheet is one after any datagrams");
    check(sent > 100 && sent == formed, "and what is sent ends in a line feed");
    laptop_close(&one);
    check(laptop_open(&one, folder, SHEET, 1, 3) == LAPTOP_FINE, "and it is opened again");
}

static unsigned asking(void)
{
    unsigned n = 0;
    for (unsigned k = 1; k <= count; k++)
        n += laptops[k].folder >= 0 && laptops[k].awaited != 0;
    return n;
}

/* A laptop ends without a word, and is back after a while: from its file, or set up anew. */
static void end_one(unsigned number, uint64_t *back_at)
{
    met[KILLED_ASKING] += laptops[number].awaited != 0;
    laptop_let_go(&laptops[number]);
    *back_at = now + below(1000);
}

static void bring_back(unsigned number)
{
    struct laptop *laptop = &laptops[number];
    if (below(3) == 0) {
        unlink(path_of(number, ""));
        pass_time();
        met[RENEWED]++;
        met[RENEWED_TWICE] += asking() > 0;
        check(laptop_set_up_anew(laptop, folder, SHEET, number, count) == LAPTOP_FINE, "a laptop is set up anew");
    } else {
        met[KILLED]++;
        check(laptop_open(laptop, folder, SHEET, number, count) == LAPTOP_FINE, "a laptop goes on from its file");
    }
    laptop->chance = chance + 1;
}

/* On all sheets no identifier stands for different characters, among rows and what waits. */
static void try_one_meaning(void)
{
    static struct wimtaze_waiting of[LAPTOPS + 1][WIMTAZE_CHARACTER_MAX + 1];
    int agree = 1;
    memset(of, 0, sizeof of);
    for (unsigned k = 1; k <= count; k++) {
        struct wimtaze_rows rows = wimtaze_read_sheet(laptops[k].sheet, laptops[k].length);
        struct wimtaze_row row;
        struct wimtaze_waiting it;
        for (int more = 1; more;) {
            memset(&it, 0, sizeof it);
            if (wimtaze_next_row(&rows, &row)) {
                it.id = row.id;
                it.code_point = row.code_point;
                it.previous = row.previous;
                it.next = row.next;
            } else if ((more = wimtaze_next_waiting(&rows, &it)) != 0) {
                met[WAITED]++;
            }
            it.kind = 'I';
            it.line = NULL;
            it.sender = 0;
            it.length = 0;
            if (!more || it.turn > 0)
                continue;
            struct wimtaze_waiting *other = &of[it.id.laptop][it.id.clock];
            if (other->kind == 0)
                *other = it;
            agree &= other->code_point == it.code_point && other->previous.laptop == it.previous.laptop &&
                     other->previous.clock == it.previous.clock && other->next.laptop == it.next.laptop &&
                     other->next.clock == it.next.clock;
        }
    }
    check(agree, "no identifier stands for different characters");
}

/* The rows of a sheet: its bytes without the first line and what waits. */
static size_t rows_of(const struct laptop *laptop, const uint8_t **begin)
{
    struct wimtaze_rows rows = wimtaze_read_sheet(laptop->sheet, laptop->length);
    struct wimtaze_row row;
    *begin = rows.at;
    while (wimtaze_next_row(&rows, &row))
        ;
    return (size_t)(rows.at - *begin);
}

static int all_equal(void)
{
    const uint8_t *first, *other;
    size_t length = rows_of(&laptops[1], &first);
    for (unsigned k = 1; k <= count; k++)
        if (laptops[k].folder < 0 || laptops[k].awaited != 0 || rows_of(&laptops[k], &other) != length ||
            memcmp(first, other, length) != 0)
            return 0;
    return 1;
}

/* One step: what has come is taken in, some edit, and each sends what it has to send. */
static void go_round(int busy)
{
    static uint64_t back_at[LAPTOPS + 1];
    now += STEP;
    deliver();
    for (unsigned k = 1; k <= count; k++) {
        if (laptops[k].folder < 0 && now >= back_at[k])
            bring_back(k);
        if (laptops[k].folder < 0)
            continue;
        if (busy && below(12) == 0)
            edit(&laptops[k]);
        if (busy && below(150) == 0) {
            end_one(k, &back_at[k]);
            continue;
        }
        send_all(&laptops[k]);
    }
    if (busy && below(100) == 0)
        cut_off = cut_off == 0 ? below(1u << (count + 1)) : 0;
}

static void run(unsigned long long number)
{
    unsigned steps = 0;
    seed = chance = number;
    count = number % 4 == 0 ? (unsigned)LAPTOPS : 2 + below(5);
    on_the_way_count = 0;
    cut_off = 0;
    memset(typed, 0, sizeof typed);
    remove_files();
    for (unsigned k = 1; k <= count; k++) {
        check(laptop_create(&laptops[k], folder, SHEET, k, count) == LAPTOP_FINE, "a laptop is created");
        laptops[k].chance = number * LAPTOPS + k;
    }
    for (; steps < (count == LAPTOPS ? 150 : 400); steps++)
        go_round(1);
    try_one_meaning();
    cut_off = 0;
    for (steps = 0; steps < 20000 && !all_equal(); steps++)
        go_round(0);
    check(all_equal(), "all come together");
    try_one_meaning();
    for (unsigned k = 1; k <= count; k++) {
        check(same_text(&laptops[1], &laptops[k]), "all show the same text");
        const char *said = laptop_message(&laptops[k]);
        check(said == NULL, said == NULL ? "" : said);
        try_rows(laptops[k].sheet, laptops[k].length);
        laptop_close(&laptops[k]);
    }
    try_damaged_rows(laptops[1].sheet, laptops[1].length);
}

int main(int argc, char **argv)
{
    unsigned long long runs = argc > 2 ? strtoull(argv[2], NULL, 10) : 12;
    unsigned long long first = argc > 3 ? strtoull(argv[3], NULL, 10) : 0;
    if (argc < 2) {
        fputs("usage: laptops FOLDER [RUNS [SEED]]\n", stderr);
        return 2;
    }
    folder = argv[1];
    remove_files();
    try_words();
    try_damage();
    try_others();
    try_adopting();
    try_lock();
    try_late();
    try_two_anew();
    try_named();
    try_stopping();
    try_used();
    try_clock_and_gone();
    try_cursor();
    try_addressed();
    try_noise();
    try_conflict();
    for (unsigned long long k = 0; k < runs && failed == 0; k++)
        run(first + k);
    remove_files();
    for (unsigned k = 0; k < SITUATIONS; k++)
        printf("%s %u%s", names[k], met[k], k + 1 < SITUATIONS ? ", " : "\n");
    if (argc == 2)
        for (unsigned k = 0; k < SITUATIONS; k++)
            check(met[k] > 0, names[k]);
    printf("%u passed, %u failed\n", passed, failed);
    return failed == 0 ? EXIT_SUCCESS : EXIT_FAILURE;
}
