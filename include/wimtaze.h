/*
 * Wimtaze: one shared text that up to sixteen laptops edit at once, with no server between them.
 *
 * Each laptop keeps a sheet: the characters typed so far, those erased among them, and the edits that came before
 * something that they need. Your program holds a sheet as bytes, the saved sheet. A call takes a saved sheet and
 * writes a new one; the library keeps nothing between calls, allocates nothing, and opens no file or connection.
 * Typing, erasing and restoring also write a line, which ends in a line feed, its only one, and pasting writes one for
 * each character. Send them to the other laptops in any way you like: lines may be lost, come twice, or come in another
 * order, and what a laptop lacks it gets by asking. Laptops that have carried out the same edits show the same text.
 *
 *     static uint8_t sheet[WIMTAZE_SHEET_MAX], after[WIMTAZE_SHEET_MAX];
 *     uint8_t line[WIMTAZE_LINE_MAX];
 *     size_t length = wimtaze_written(wimtaze_empty(3, sheet, sizeof sheet));
 *
 *     uint64_t reply = wimtaze_type(sheet, length, 0, 'x', after, sizeof after, line, sizeof line);
 *     if (wimtaze_word(reply) == WIMTAZE_DONE) {
 *         length = wimtaze_written(reply);
 *         memcpy(sheet, after, length);
 *         save_to_the_disk(sheet, length);
 *         send_to_all_others(line, wimtaze_line_written(reply));
 *     }
 *
 * On the other laptops, give each line that comes to wimtaze_receive. If its word is WIMTAZE_DONE or WIMTAZE_WAITS,
 * keep and save the new sheet as above. If it is WIMTAZE_KNOWN the edit is there already: keep the sheet you have. If
 * it is WIMTAZE_REFUSED, wimtaze_refusal says why (wimtaze_refusal_text in words), and the sheet you have stands. Now
 * and then ask another laptop for what you lack: rule 3. Link with -lwimtaze.
 *
 * An erased character stays on the sheet, hidden, and any laptop can bring it back with wimtaze_restore, by its
 * identifier. For that the program remembers what it erased, from the lines that wimtaze_erase wrote, or looks through
 * the saved sheet, which has what others erased too. A whole line of text is brought back character by character, and
 * in the place where it was.
 *
 * The header wimtaze_rows.h reads a saved sheet for you: who typed the character at a place, its identifier and its
 * turn, what was erased, and what waits and for what.
 *
 * A program that shows a cursor receives with wimtaze_receive_at, which tells how far to move it: see the cursor.
 *
 * A text that is there already, as the results on the pairing screen, goes in with one call of wimtaze_paste: see
 * pasting.
 *
 * A laptop that joins late gets everything at once and in no useful order, and builds its sheet of it with one call of
 * wimtaze_build: see joining late.
 *
 * A laptop that was cut off lists what it holds, with wimtaze_list, and any other answers with what that lacks, with
 * wimtaze_answer: see catching up.
 *
 * A sheet that another program may have written goes through wimtaze_load before it is used: see sheets of other
 * programs.
 *
 * Who wants to read who typed what takes a sheet to its archive, with wimtaze_archive: see the archive by author.
 *
 *
 * What your program must do
 *
 * The library sees to it that the same edits give the same text. That every edit reaches every laptop is your program's
 * work. These rules are enough for it; without any one of them laptops can end with different texts for good.
 *
 *  1. One number for each laptop, 1 to 16, for the life of the sheet, and one running program on its file. A laptop
 *     whose file is lost, damaged or old keeps its number if it is set up anew as follows; otherwise it takes a number
 *     that nobody has had, and its old one is gone for good. Every datagram carries its sender's life, a number that
 *     grows with each new beginning: the time of day will do. Each laptop saves the highest life that it knows of every
 *     other, and drops what a lower one sent, however late it comes. The laptop that is set up anew begins an empty
 *     sheet in a new life, and makes no edit and takes in no line until each of the others has told it the highest
 *     clock of its number that is named on that sheet, by its characters or by what waits, and, from then on, knows its
 *     new life and every other that it knows itself. It then writes the highest of these clocks into the first line of
 *     its sheet (S2 laptop clock), and goes on like any other: its own characters come back with the answers to its
 *     lists. A laptop that joins late under a new number does the same.
 *  2. Save before you send. The new sheet is on the disk (a new file, synced, renamed over the old one, and the folder
 *     synced) before its line is sent, and before a list or an answer is made of it. A laptop that crashed goes on from
 *     its file. Keep a length and a checksum with it: a sheet that is accepted need not be whole, see the file.
 *  3. Ask each other now and then. A line that you make goes to each of the others once, so that typing is seen at
 *     once, and needs not be kept. Instead each laptop sends its list (wimtaze_list) to one of the others from time to
 *     time, to another each time, and hands over the lines of the answer; and it answers (wimtaze_answer) the lists
 *     that come. An answer that is too long for one datagram is cut at line ends and goes in several. Any list, answer
 *     or part of one may be lost, and any line refused with 10: the next list asks again. See catching up, which tells
 *     why this is enough, and how often to ask.
 *  4. Share out the room. A sheet holds 1,024 characters in its life, erased ones counted. If the laptops type more
 *     between them, each ends with its own 1,024. So agree beforehand how many each may type, 1,024 in all (64 each for
 *     sixteen laptops), and type no more. How many a laptop has typed, in all its lives, is at most the clock in its
 *     saved sheet; how many its sheet can still take is wimtaze_room. When the room is used up, begin a new sheet on
 *     every laptop, with a number of its own in each datagram, so that nothing of the old one comes to it.
 *  5. Trust. Let lines come unchanged, and only from laptops that you trust: they carry no checksum and no signature.
 *
 * What to do after a refusal:
 *
 *   1, 2  Receiving: the line was damaged on the way, or is no line of this library; drop it, and it comes again with
 *         the next list. If wimtaze_counts refuses the sheet too, the file is damaged: rule 1; or it is, with 1, in the
 *         first form: wimtaze_upgrade takes it. Typing, and 2: what was given is no code point.
 *         Restoring, and 2: what was given is no identifier. Upgrading: the file is damaged, or it is, with 1, not in
 *         the first form. Loading: the file is damaged, or another program wrote it, and wrongly; or it is, with 1, in
 *         the first form. Building: some line of the heap was damaged, and is refused as a heap by itself too: drop it,
 *         and get it again; or, with 2, the number is not 1 to 16. Answering: the list was damaged on the way, or is
 *         none: drop it, and whoever asked lists anew. If wimtaze_counts refuses the sheet too, as for receiving.
 *         Archiving: as loading. The way back: the archive is damaged, or is none.
 *   3     The file is damaged: rule 1; or another program wrote it, and wrongly. Archiving and the way back: or the
 *         clock in its first line is too low, and a sheet comes right by wimtaze_load.
 *   4     Typing, pasting, erasing: the text is shorter than you thought. It may change with every line that comes.
 *         Receiving with a cursor: the cursor is beyond the text, and the line was not taken in. Set the cursor right,
 *         and hand the line over again.
 *   5     Typing, pasting: this laptop has typed 65,535 characters, or would have before the end of the block; or a
 *         line with its number and such a clock came. Rule 4 or 5 was broken.
 *   6     Reserved. No call answers it.
 *   7     Two laptops have one number, or one went on from an old sheet, or typed before the others told it what rule 1
 *         asks for: rule 1 or 2 was broken. It is told when the line comes, or when a sheet is built of a heap that has
 *         both lines. The copies differ for good: tell a person, once for each laptop that sent such a line and with
 *         the line, and begin a new sheet on every laptop.
 *   8     Receiving: never between laptops that keep the rules. Otherwise as 7.
 *   9     Receiving, typing, pasting: never on a sheet that began empty or was built of a heap, or that wimtaze_load
 *         took, as long as every call gets the sheet as the call before left it. Otherwise as 7.
 *   10    Receiving: nothing is wrong. Drop the line: it comes again with the next list.
 *   11    Typing: the sheet is full, and erasing makes no room. Pasting: it has no room for the whole block. Receiving:
 *         rule 4 was broken, and the copies differ for good. Begin a new sheet on every laptop.
 *   12    The output is too short. With the sizes below it never is.
 *   13    Restoring: the character is shown already, or has not come. Nothing is wrong: look at the sheet again. It may
 *         change with every line that comes.
 *   14    Restoring: the character was erased for the 128th time, or a line said so and rule 5 was broken. It stays
 *         hidden for good: type it anew.
 *   15    Downgrading: a character was brought back, or a line waits that says so, and the first form has no place
 *         for that. Nothing is wrong: keep the sheet as it is.
 *   16    Loading: no typing leaves such a sheet. Another program wrote it, or it is damaged: as 3. Do not go on from
 *         it.
 *   17    Building: the heap has more than 1,024 I lines, or more than 1,024 E and D lines, repeats counted. Leave out
 *         the repeats, and of the lines that erase or restore one character all but one with the highest turn. If it
 *         has more than 1,024 I lines still, rule 4 was broken.
 *   18    Answering: the list contradicts itself. It was damaged on the way, or another program wrote it, and wrongly:
 *         drop it, and whoever asked lists anew.
 *   19    The way back: the lines of the archive do not fit together. It is damaged, or somebody changed it: take
 *         another copy of it.
 *   20    Pasting: the text is not UTF-8, or is cut in the middle of a character. Nothing is wrong with the sheet:
 *         bring the text to UTF-8, or give all of it.
 *
 * If wimtaze_thrown is not 0, an edit that waited has met 8 or 9. The file laptop.h, which is installed with the
 * examples, keeps all these rules and can be copied; playing_hall.c there runs sixteen such laptops over a bad network,
 * joining.c builds a sheet of files of lines, catching_up.c has one laptop that was cut off, and archive.c is for who
 * wants to read who typed what.
 *
 *
 * The file
 *
 * A saved sheet that a call accepts need not be whole. Cut at the end of a line it often is a sheet still, in form and
 * one that typing could make, and no call can tell that something is missing: going on from it breaks rule 2, and the
 * copies differ for good. An old sheet is accepted too. So keep more in the file than the sheet. The file of laptop.h
 * has one line before it, with whose it is, its life, the sheet's length and a CRC-32 of all that follows, and laptop.h
 * opens no file that is missing, cut, damaged, another's or open elsewhere; it tells what is wrong, and what to do.
 * Creating a file is another call than opening one: a file that is missing was lost, unless a person says that the
 * laptop is new.
 *
 *
 * The cursor
 *
 * A program that shows a cursor gives each line that comes to wimtaze_receive_at in place of wimtaze_receive, with the
 * cursor, and moves it by the shift that the reply tells:
 *
 *     uint64_t reply = wimtaze_receive_at(sheet, length, line, line_length, cursor, after, sizeof after);
 *     cursor = wimtaze_moved(cursor, wimtaze_shift(reply));
 *
 * A cursor is a gap, the count of shown characters above it. It keeps to the last of these, the character on its left,
 * or to the beginning of the text; so what comes in just at the cursor stands below it. If that character is erased the
 * cursor goes below the nearest shown one above it, or to the beginning. It stays there when the character is brought
 * back, since the library remembers no cursor. Where nothing changed the shift is 0, so the two lines are right after
 * any answer. For a second cursor, as the other end of a selection, make the call again with the same sheet and line.
 *
 * What is edited here moves the cursor too:
 *
 *     typing at the cursor     one further, behind the new character, if wimtaze_carried is 1
 *     pasting at the cursor    as many further as there are characters in the block, if wimtaze_carried is that number
 *     erasing                  one back if the place is at most the cursor, and else not
 *     restoring                one further if the character is above the cursor, and else not
 *
 * Whether it is above, and how far any edit made here moves another cursor, is learnt as for a line that comes: hand
 * the line that the edit wrote to wimtaze_receive_at, with the sheet as it was before. It writes the same new sheet.
 * The lines of a block are handed over so in turn, each with the sheet that the one before wrote; the last writes the
 * sheet that pasting wrote. The same goes for typing and pasting where wimtaze_carried is more than the number of
 * characters: something that waited for a new character came with it, and may have erased it at once or put another
 * above it. The cursor then keeps to what it had on its left, above the new characters. To have it behind them all the
 * same, count the shown characters of the new sheet from the top through the last new one: its identifier is the
 * laptop and the clock in the sheet's first line.
 *
 *
 * Pasting
 *
 * A block of text in UTF-8, such as the results that the pairing screen gives, is pasted whole or not at all:
 *
 *     static uint8_t lines[WIMTAZE_LINES_MAX];
 *     uint64_t reply = wimtaze_paste(sheet, length, cursor, text, text_length, after, sizeof after, lines,
 *                                    sizeof lines);
 *     if (wimtaze_word(reply) == WIMTAZE_DONE && text_length > 0) {
 *         length = wimtaze_written(reply);
 *         memcpy(sheet, after, length);
 *         save_to_the_disk(sheet, length);
 *         send_to_all_others(lines, wimtaze_line_written(reply));
 *     }
 *
 * It does what wimtaze_type does for each character in turn, the first at the gap and each other just below the one
 * before. The lines stand one behind the other, a line feed at the end of each, so that there are as many line feeds as
 * characters. Each is a line like any other: several may go in one datagram, and each is received by itself. The
 * characters count towards the laptop's share, rule 4.
 *
 * The text is read strictly, by RFC 3629. If any of it is not UTF-8 nothing is pasted: 20. A mark at its front, U+FEFF,
 * is pasted like any other character; leave it out of what you hand over if you do not want it on the sheet. So is a
 * carriage return, which wimtaze_text then shows as U+FFFD.
 *
 * With an empty text the answer is done and nothing is written: wimtaze_written is 0, and the sheet you have stands.
 *
 *
 * Joining late
 *
 * A laptop that joins in the middle of an event can ask like any other, with the list of an empty sheet. Where the
 * lines come in another way, as files that are carried over, they come in no useful order, and receiving one by one
 * lets no more than 32 of a sender wait. Then it puts the lines one behind the other, and builds its sheet of this
 * heap:
 *
 *     static uint8_t heap[WIMTAZE_HEAP_MAX];
 *     uint64_t reply = wimtaze_build(number, heap, heap_length, sheet, sizeof sheet);
 *     if (wimtaze_word(reply) == WIMTAZE_DONE) {
 *         length = wimtaze_written(reply);
 *         save_to_the_disk(sheet, length);
 *     }
 *
 * A heap is lines as they are sent, I, E and D, in any order, each with its line feed and nothing else between them.
 * The same line may stand in it several times. It has at most 1,024 I lines, and at most 1,024 E and D lines; every
 * line counts here, a repeated one each time, so that 1,025 times the same I line are refused with 17. No bytes at all
 * are a heap too, and the empty sheet is built of it.
 *
 * The characters of the sheet, their order and their turns are those that wimtaze_receive leaves on an empty sheet when
 * the lines come one by one, each after all that it needs, in any such sequence. So the order of the heap and its
 * repeats make no difference, and laptops that build of the same lines show the same text, whatever their numbers.
 *
 * Nothing waits on the sheet. An edit that needs something that is not there is left out, and so is an I line whose
 * neighbours stand in the other order, which receiving refuses with 8; and with each of them all that needs it.
 * wimtaze_left_out tells how many edits were left out, a repeated one counted once, and a D line as the E line with
 * turn 1 that it is read as. A line whose turn is not higher than the character's is not left out. If anything was,
 * some line has not come, or a rule was broken. Then hand each line of the heap to wimtaze_receive: what is on the
 * sheet is known, and the rest waits there, or is refused, and what to do then is said above. Or, as long as nothing
 * was edited on the sheet, put what comes next to the heap, and build anew.
 *
 * The clock is the highest among the heap's I lines of the laptop's own number, those that are left out among them, or
 * 0. So no identifier of the heap is used again; but what is not in the heap may still come, and rule 1 is for your
 * program to keep. The clock can be higher than receiving leaves it, which passes over the clocks of lines that it
 * refuses.
 *
 * Two I lines with one identifier that differ in anything else make the whole heap refused with 7, also if both would
 * be left out.
 *
 * A full heap takes some milliseconds. One that somebody chose to be slow can take more than a second: rule 5.
 *
 *
 * Catching up
 *
 * A laptop that was off the network for a while has missed lines, and does not know which. It lists the characters that
 * it holds, and sends the list to any other:
 *
 *     static uint8_t list[WIMTAZE_LIST_MAX];
 *     uint64_t reply = wimtaze_list(sheet, length, list, sizeof list);
 *     send(other, list, wimtaze_written(reply));
 *
 * The other answers with the lines that are missing, one behind the other as in a heap:
 *
 *     static uint8_t lines[WIMTAZE_ANSWER_MAX];
 *     uint64_t reply = wimtaze_answer(sheet, length, list, list_length, lines, sizeof lines);
 *     if (wimtaze_word(reply) == WIMTAZE_DONE)
 *         send(asker, lines, wimtaze_written(reply));
 *
 * And the laptop that asked hands them over one by one, in the sequence in which they stand, and keeps and saves the
 * sheet as with any line:
 *
 *     for (size_t k = 0, end; k < lines_length; k = end) {
 *         for (end = k; lines[end++] != '\n';)
 *             ;
 *         reply = wimtaze_receive(sheet, length, lines + k, end - k, after, sizeof after);
 *         if (wimtaze_written(reply) > 0) {
 *             length = wimtaze_written(reply);
 *             memcpy(sheet, after, length);
 *         }
 *     }
 *
 * The list has every character on the sheet, erased ones too, and none that waits. The answer has the I line of every
 * character that the other's sheet holds and the list does not: the next is always the one with the lowest identifier
 * among those whose two neighbours are not still to be sent, or, if there is none such, among all that are left. Then
 * come the E lines, from the top, of every character whose turn is above 0, listed or not, with the answering laptop as
 * the sender. What waits there is not sent. Where nothing is to be sent the answer is done, with length 0.
 *
 * What is promised of these lines: handed over in this sequence, into outputs of WIMTAZE_SHEET_MAX bytes, with no other
 * call that changes the asker's sheet since it listed, each is done or known. None waits, and none is refused. The
 * asker then holds every character that the other held when it answered, each with at least its turn then. This needs
 * that
 *
 *   - both sheets began empty, or were built of a heap, or were loaded with wimtaze_load, and since then every call on
 *     them got the sheet as the call before left it;
 *   - there is room: the asker's characters, those that wait on its sheet and the I lines of the answer are together at
 *     most 1,024, where one that waits there and is sent counts twice;
 *   - no identifier stands for different characters on the two, those that wait on the asker's sheet counted.
 *
 * Rules 1, 2 and 5 see to the first and the last, and rule 4 to the room: where it is not enough only since one counts
 * twice, that one is known when it comes.
 *
 * Where, besides, nothing waits on either sheet, and each answers the other, with no other call that changes either in
 * between, both end with the same characters, in the same order and with the same turns, and show the same text. It
 * makes no difference whether the second answers before, after or while it takes in the first's answer. Where there was
 * room for the first's answer there is room for the second's.
 *
 * If something else came in between, or one of these points does not hold, hand the lines over all the same: each is a
 * line like any other, and what to do after each answer is said above. What was not taken in is not listed, and comes
 * with the next answer.
 *
 * Why asking is enough. One exchange that nothing disturbs leaves the asker with all that the other held, each
 * character with at least its turn: that is proved of the bytes of these calls (AnswerTaken and AnswerHolds in the
 * crate consistency). No character ever leaves a sheet, and no turn falls. So a laptop that has asked each of the
 * others holds all that was on any of their sheets when they answered; and when nothing is edited any more, and each
 * has asked each, all hold the same characters with the same turns, and show the same text (CopiesConverge there; two
 * alone meet by one answer each: BothAnswersMeet). What your program has to see to is that each goes on asking each of
 * the others, and that an answer comes through whole from time to time. A list has nothing that waits, so an answer may
 * repeat that: it is known, and is shown once what it needs has come. What waits for a character that was lost with a
 * file, before it came to anybody, waits for ever and is never shown; it takes room on that sheet.
 *
 * How often to ask. With a short pause that is always the same, asking can fill a slow network so that nobody gets an
 * answer any more: let the pauses grow. laptop.h asks 0.4 seconds after a sign that something is missing (a line that
 * waits, or another's list that has more), 1.5 seconds after something came, and then with pauses that double up to 8
 * seconds; each pause is up to a quarter longer by chance, so that laptops do not ask all at once. The lines of an
 * answer go out in datagrams of 1,200 bytes, eight at once and then one in 5 milliseconds.
 *
 * How large they get. A list has a line for each 64 clocks of a laptop that has typed, so it is short where clocks go
 * up from 1 without gaps: 574 bytes were measured for sixteen laptops that typed 1,023 characters. An answer has about
 * 20 bytes for each character that is missing (at most 37), and 12 to 18 for each that was ever erased or restored,
 * missing or not; 20,944 bytes were measured where all of these were missing and none erased, and it is never more than
 * WIMTAZE_ANSWER_MAX.
 *
 * What a call costs, in milliseconds, by the characters on the sheet; the best of 300 on one machine (x86-64, 2026):
 *
 *     characters                                       64     256     512    1023
 *     receiving, typing, erasing, restoring          0.02    0.05    0.08    0.15
 *     listing                                        0.02    0.04    0.06    0.10
 *     answering one who lacks nothing                0.01    0.03    0.05    0.10
 *     answering one who lacks everything             0.02    0.10    0.31    1.02
 *     the text, the counts                           0.01    0.03    0.05    0.09
 *
 * Saving, with its two syncs, took 6 milliseconds there, more than any call: save once for all that came together. An
 * answer repeats what was erased, so a program that has many such lines may look first whether the sheet has the turn
 * already, with wimtaze_rows.h, as laptop.h does.
 *
 * The list of an empty sheet is its H line alone, and is answered with everything. A list may come from any laptop,
 * also from one with your own number, and its laptop is asked for its range alone. What is listed and is not on your
 * sheet is passed over.
 *
 *
 * In the middle of a round
 *
 * Laptops that have not yet carried out the same edits show different texts. But what two of them have in common stands
 * in the same order on both, whatever else each holds or lacks: of two characters that both hold, erased or not, the
 * same one stands above the other on both sheets, and those that both show stand in the same sequence in both texts. So
 * two arbiters who read their sheets in the middle of a round see the notes that both have in the same order. It is so
 * from the first call on, whatever the calls, for sheets that began empty, were built of a heap or that wimtaze_load
 * took. It needs that no identifier stands for different characters on the two sheets, among those that they hold:
 * rules 1, 2 and 5 see to that.
 *
 *
 * Sheets of other programs
 *
 * Every call reads a sheet for its layout, its ranges and its form: refusals 1, 2 and 3. A sheet in form may still be
 * one that no typing could make, and there an insert that comes later can fail with 9, or be thrown out for that. The
 * library makes no such sheet, but another program may. So a program that reads sheets which it did not write hands
 * each to wimtaze_load first, and goes on from what that writes:
 *
 *     uint64_t reply = wimtaze_load(file, file_length, sheet, sizeof sheet);
 *     if (wimtaze_word(reply) == WIMTAZE_DONE)
 *         length = wimtaze_written(reply);
 *     else
 *         tell_a_person(wimtaze_refusal(reply));
 *
 * It takes a sheet in form exactly when some lines, received one after another on an empty sheet, leave its
 * characters, each with its neighbours and its turn, in this order; it makes no difference whose the empty sheet is.
 * Any other is refused with 16. The lines that wait on the sheet are looked at for their form only, and are kept.
 *
 * What it writes is the same sheet, its clock raised where it is too low (see the layouts); if it is not, the same
 * bytes. From there on 9 is never answered, and nothing that waits is thrown out but for 8, through any list of calls,
 * as long as every call gets the sheet as the call before left it. And laptops agree as ever: one that loaded its sheet
 * and one that did not show the same text when they hold the same characters and have carried out the same edits since.
 *
 * It cannot tell who typed the characters, nor whether the sheet is an old one: rule 1 is for your program to keep.
 *
 *
 * The archive by author
 *
 * A saved sheet has its characters from the top, whoever typed them. To read who typed what, take it to its archive,
 * which has the same characters by author:
 *
 *     static uint8_t archive[WIMTAZE_ARCHIVE_MAX];
 *     uint64_t reply = wimtaze_archive(sheet, length, archive, sizeof archive);
 *
 * It lists the characters by rising identifier, erased ones too: all that laptop 1 typed, in the sequence in which it
 * typed them, then all of laptop 2, and so on. Each line tells the place of its character on the sheet, counted from 1
 * at the top, erased ones counted. What waits follows as in a saved sheet. The layouts have the lines, and archive.c
 * among the examples prints them for a person.
 *
 * Nothing is lost or added. The way back, wimtaze_unarchive, gives the sheet that was rearranged, byte for byte,
 * whatever its characters; and an archive that it takes is that of one sheet and no other. So neither raises a clock: a
 * sheet or an archive with a clock that is too low (see the layouts) is refused with 3.
 *
 * The way back takes an archive whose places are 1 to the number of its characters, each once, and whose identifiers
 * rise. Any other is refused with 19: where a place is missing or stands twice, where two lines were exchanged, where
 * there are more than 1,024 of them. Then the characters go to their places, and the form of that sheet is looked at,
 * as ever. An archive that somebody changed so that it fits together is taken, as that of another sheet: it carries no
 * signature.
 *
 * No other call takes an archive: it is refused with 1, unless it has no character, and is then the saved sheet too. To
 * go on from the sheet of an archive is to go on from an old one: see rule 1.
 *
 *
 * The layouts
 *
 * Lines and saved sheets are text, to be sent and kept in files as they are. Fields are parted by one tab, each line
 * ends in one line feed, and numbers are decimal digits without sign or leading zero. Here a space stands for the tab.
 *
 *     I laptop clock codepoint prevlaptop prevclock nextlaptop nextclock         the line of a typed character
 *     E sender laptop clock turn                                                 the line of an erased or restored one
 *
 * A saved sheet has, in this order:
 *
 *     S2 laptop clock                                                            whose it is, how many it has typed
 *     C laptop clock codepoint turn prevlaptop prevclock nextlaptop nextclock    each character, from the top
 *     I and E lines                                                              the edits that wait, earliest first
 *
 * A character's laptop and clock are its identifier: the laptop that typed it, and how many that laptop had typed then,
 * this one counted. Prev and next are the identifiers of the two that it was typed between; 0 0 is the beginning of the
 * text and 0 1 its end. Turn is how many times the character was erased and restored, both counted: it is shown when
 * its turn is even. Laptops are 1 to 16, clocks 1 to 65,535 (after S2 from 0), turns 0 to 255 (after E from 1), and
 * code points 0 to 1,114,111 without 55,296 to 57,343. A clock after S2 that is below that of one of the laptop's own
 * characters on the sheet, waiting ones among them, is taken as that one's; archiving and the way back refuse it.
 *
 * An archive has, in this order:
 *
 *     S2 laptop clock                                                            whose it is, how many it has typed
 *     P place laptop clock codepoint turn prevlaptop prevclock nextlaptop nextclock
 *                                                                                each character, by rising identifier
 *     I and E lines                                                              the edits that wait, earliest first
 *
 * A P line is the C line of its character with the place before the other numbers, 1 to 1,024 from the top. Identifiers
 * rise by laptop and then by clock.
 *
 * A list of the characters on a sheet has, in this order:
 *
 *     H laptop total                                                             whose it is, how many are listed
 *     K laptop index word                                                        which of 64 clocks of a laptop are
 *
 * The bit of weight 2 to the power j of a word, j from 0 to 63, stands for the identifier with this laptop and the
 * clock 64 times index plus j. There is a K line for each word that is not 0, by rising laptop and then rising index.
 * Total is 0 to 1,024, index 0 to 1,023, word 1 to 18,446,744,073,709,551,615. Total is the number of ones in the
 * words, and the bit for clock 0 is never set: a list with another total, with that bit, or with its K lines in another
 * sequence, one of them twice for instance, is refused with 18.
 *
 * A character takes the highest turn that comes for it, in whatever order the lines come; a line whose turn is not
 * higher than the character's is known. Two laptops that erase one character at once both make its turn 1, and it is
 * erased once. Where one erases it while another erases it and brings it back, it is shown.
 *
 * The lines can be made again from a sheet. A C line without its turn and with I for C is the line of that character.
 * Where the turn is above 0, E with your own number and the character's laptop, clock and turn is the line of what
 * became of it since. So a laptop can send everything that it holds, whoever typed it. What the other has already is
 * known to it.
 *
 * Versions before 0.5 saved sheets in a first form. wimtaze_upgrade alone reads it, and wimtaze_downgrade alone writes
 * it; every other call refuses it with 1. It has
 *
 *     S laptop clock                                                             in place of S2
 *     C laptop clock codepoint shown prevlaptop prevclock nextlaptop nextclock   shown is 1 for turn 0, 0 for turn 1
 *     I and D lines                                                              D sender laptop clock: E with turn 1
 *
 * Those versions sent D lines too, for erased characters. They are read still when they come, as E with turn 1. But
 * those versions refuse E lines: let all laptops of a sheet change to this version together, each with its own sheet
 * upgraded. To go on from a sheet that was put away is to go on from an old one: see rule 1.
 *
 *
 * The calls
 *
 * Inputs. A length is in bytes. Any bytes and any numbers may be passed: what is not a sheet, a line, a heap, a list,
 * an archive or UTF-8 is refused. Inputs are only read, and are not needed after the call.
 *
 * Outputs. They are yours; the library writes only between the pointer and its length. When the word is done or
 * waits, the new sheet (or the text, the list, the answer, the archive) stands from the first byte of the first output,
 * wimtaze_written bytes of it, and the line from the first byte of line_out, or the lines from that of lines_out,
 * wimtaze_line_written bytes of it; no zero byte is added, and the bytes after them are as they were. When the word is
 * known or refused, no byte of any output is changed. Buffers of the sizes below are always long enough.
 *
 * Pointers. Every pointer must be non-null, also with length 0: the compiled library relies on that. No output may
 * overlap an input or another output, so the new sheet cannot be written over the old one in the same call.
 *
 * Calls on different buffers may run in several threads at once. Everything is on the stack of the caller, which must
 * have room for it: see WIMTAZE_STACK.
 */
#ifndef WIMTAZE_H
#define WIMTAZE_H

#include <stddef.h>
#include <stdint.h>

#ifdef __cplusplus
extern "C" {
#endif

/* The version of this header and of the library that it came with. */
#define WIMTAZE_VERSION "0.13.0"
#define WIMTAZE_VERSION_MAJOR 0
#define WIMTAZE_VERSION_MINOR 13
#define WIMTAZE_VERSION_PATCH 0

/* The limits of a sheet. */
#define WIMTAZE_LAPTOP_MAX 16      /* the highest number of a laptop */
#define WIMTAZE_CHARACTER_MAX 1024 /* characters in its life, erased and waiting ones counted */

/* The most bytes that a call writes. */
#define WIMTAZE_SHEET_MAX 51212     /* a saved sheet */
#define WIMTAZE_OLD_SHEET_MAX 47115 /* a saved sheet in the first form */
#define WIMTAZE_INSERT_MAX 37       /* the line of a typed character */
#define WIMTAZE_ERASE_MAX 18        /* the line of an erased or restored character */
#define WIMTAZE_LINE_MAX 37         /* either line */
#define WIMTAZE_LINES_MAX 37888     /* the lines of a pasted block */
#define WIMTAZE_TEXT_MAX 4096       /* the text */
#define WIMTAZE_LIST_MAX 31754      /* the list of the characters on a sheet */
#define WIMTAZE_ANSWER_MAX 56320    /* the lines that answer a list */
#define WIMTAZE_ARCHIVE_MAX 56332   /* the archive of a sheet */

/* The bytes of the longest heap that is not refused: 1,024 lines of typed characters and 1,024 of erased ones. */
#define WIMTAZE_HEAP_MAX 56320

/*
 * The most bytes of stack that a call takes (less than 204 KiB was measured on x86-64). They must be free when the call
 * is made: a thread needs them besides its own frames and besides its thread-local data, which many C libraries keep on
 * the thread's stack.
 */
#define WIMTAZE_STACK 262144

/* What a call answers. */
enum wimtaze_words {
    WIMTAZE_DONE = 0,   /* carried out; the outputs are written */
    WIMTAZE_WAITS = 1,  /* the edit waits for one that has not come; the new sheet is written, and holds it */
    WIMTAZE_KNOWN = 2,  /* the edit is on the sheet already, or a later turn; nothing is written */
    WIMTAZE_REFUSED = 3 /* turned away; nothing is written */
};

/*
 * Why a call is turned away. Where several hold, the first is told, in this order: 1, 2, 17, 18, 19, 20, 3, 15, 16, 4,
 * 13, 14, 5 to 12; but in pasting 11 comes before 9.
 */
enum wimtaze_refusals {
    WIMTAZE_REFUSAL_NONE = 0,           /* not refused */
    WIMTAZE_REFUSAL_LAYOUT = 1,         /* the line, the heap, the list, the archive or the sheet lacks its layout */
    WIMTAZE_REFUSAL_RANGE = 2,          /* a number, in one of these or handed to the call, is out of its range */
    WIMTAZE_REFUSAL_FORM = 3,           /* the saved sheet contradicts itself: the library never writes such a one */
    WIMTAZE_REFUSAL_POSITION = 4,       /* no such gap or place: above the count of shown characters, or place 0 */
    WIMTAZE_REFUSAL_CLOCK = 5,          /* the laptop's clock is 65,535, or too near to it for the block to be pasted */
    WIMTAZE_REFUSAL_TAKEN = 6,          /* reserved: the clock follows the laptop's own characters; never answered */
    WIMTAZE_REFUSAL_CONFLICT = 7,       /* an identifier stands for another insert on the sheet or in the heap */
    WIMTAZE_REFUSAL_CROSSED = 8,        /* the insert's two neighbours stand in the other order on the sheet */
    WIMTAZE_REFUSAL_UNPLACEABLE = 9,    /* the sheet gives the insert no place between its neighbours */
    WIMTAZE_REFUSAL_SENDER_FULL = 10,   /* the edit would wait, and its sender has 32 waiting: try it again later */
    WIMTAZE_REFUSAL_DOCUMENT_FULL = 11, /* it would be more than 1,024 characters, erased and waiting ones counted */
    WIMTAZE_REFUSAL_OUTPUT = 12,        /* an output is too short for its result */
    WIMTAZE_REFUSAL_NOT_HIDDEN = 13,    /* the character to be restored is shown, or is not on the sheet */
    WIMTAZE_REFUSAL_LAST_TURN = 14,     /* the turn of the character to be restored is 255: it stays hidden */
    WIMTAZE_REFUSAL_HIGH_TURN = 15,     /* a turn on the sheet is above 1: the first form has no place for it */
    WIMTAZE_REFUSAL_UNREACHABLE = 16,   /* the saved sheet is one that no typing could make */
    WIMTAZE_REFUSAL_HEAP_FULL = 17,     /* the heap has more than 1,024 lines of a kind, repeats counted */
    WIMTAZE_REFUSAL_MISLISTED = 18,     /* the list's total, a clock 0 or the sequence of its lines is wrong */
    WIMTAZE_REFUSAL_MISARRANGED = 19,   /* the archive's places are not 1 to their number, or identifiers do not rise */
    WIMTAZE_REFUSAL_NOT_UTF8 = 20       /* the text to be pasted is not UTF-8 */
};

/* The version of this header, as a string: a program can show it. */
static inline const char *wimtaze_version(void)
{
    return WIMTAZE_VERSION;
}

/*
 * A refusal in words, for a message to a person: "an output is too short". Any number may be given; one that is no
 * refusal is said to be unknown. The string is constant, and has no capital and no full stop.
 */
static inline const char *wimtaze_refusal_text(int refusal)
{
    static const char *const texts[] = {
        "not refused",
        "it lacks its layout",
        "a number is out of its range",
        "the saved sheet contradicts itself",
        "there is no such gap or place in the text",
        "the laptop's clock is at its end",
        "the identifier is taken",
        "the identifier stands for another character",
        "the two neighbours stand in the other order",
        "the sheet gives it no place between its neighbours",
        "its sender has 32 edits waiting already",
        "the sheet is full",
        "an output is too short",
        "the character is shown, or is not on the sheet",
        "the character was erased for the last time",
        "the first form has no place for a turn above 1",
        "no typing could make the saved sheet",
        "the heap has too many lines",
        "the list contradicts itself",
        "the lines of the archive do not fit together",
        "the text is not UTF-8",
    };
    return refusal < 0 || refusal > 20 ? "an unknown refusal" : texts[refusal];
}

/*
 * Writes the empty sheet of laptop `number`, 1 to 16. Each laptop needs a number of its own.
 * Refusals: 2, 12.
 */
uint64_t wimtaze_empty(uint64_t number, uint8_t *sheet_out, size_t sheet_out_length);

/*
 * Takes in one line from another laptop, with its line feed and nothing after it, and writes the new sheet.
 * This also carries out the edits that waited for this one. The word may be any of the four.
 * Refusals: 1, 2, 3, 7, 8, 9, 10, 11, 12. Known is answered whatever the output's length.
 */
uint64_t wimtaze_receive(const uint8_t *sheet, size_t sheet_length, const uint8_t *line, size_t line_length,
                         uint8_t *sheet_out, size_t sheet_out_length);

/*
 * Does all that wimtaze_receive does, and tells how far to move a cursor, wimtaze_shift of the reply. The gap is the
 * cursor, the count of shown characters above it. It keeps to the character on its left, or to the beginning of the
 * text; if the line hides that character it goes below the nearest shown one above, or to the beginning.
 * Refusals: 1, 2, 3, 4, 7, 8, 9, 10, 11, 12. Known is answered whatever the gap and the output's length.
 */
uint64_t wimtaze_receive_at(const uint8_t *sheet, size_t sheet_length, const uint8_t *line, size_t line_length,
                            uint64_t gap, uint8_t *sheet_out, size_t sheet_out_length);

/*
 * Adds the shift to the gap: with those of wimtaze_receive_at, the gap of the cursor on the new sheet. Any two numbers
 * may be given. Where the sum is below 0 the answer is 0, and where it is above 2^64 - 1 it is that.
 */
uint64_t wimtaze_moved(uint64_t gap, int32_t shift);

/*
 * Types one character, given as its Unicode code point, and writes the new sheet and the line to send.
 * The gap is the count of shown characters above it: 0 puts it first.
 * Refusals: 1, 2, 3, 4, 5, 9, 11, 12 (if either output is short, neither is written).
 */
uint64_t wimtaze_type(const uint8_t *sheet, size_t sheet_length, uint64_t gap, uint32_t code_point, uint8_t *sheet_out,
                      size_t sheet_out_length, uint8_t *line_out, size_t line_out_length);

/*
 * Erases the shown character at `place`, counted from 1, and writes the new sheet and the line to send.
 * Refusals: 1, 2, 3, 4, 12 (if either output is short, neither is written).
 */
uint64_t wimtaze_erase(const uint8_t *sheet, size_t sheet_length, uint64_t place, uint8_t *sheet_out,
                       size_t sheet_out_length, uint8_t *line_out, size_t line_out_length);

/*
 * Brings back the erased character with this identifier, laptop 1 to 16 and clock 1 to 65,535, in the place where it
 * was, and writes the new sheet and the line to send. The identifier stands in the line that erased it and in the saved
 * sheet; whoever typed or erased the character, any laptop may bring it back. One that waits is not on the sheet yet.
 * Refusals: 1, 2, 3, 13, 14, 12 (if either output is short, neither is written).
 */
uint64_t wimtaze_restore(const uint8_t *sheet, size_t sheet_length, uint64_t laptop, uint64_t clock, uint8_t *sheet_out,
                         size_t sheet_out_length, uint8_t *line_out, size_t line_out_length);

/*
 * Pastes a text in UTF-8, all of it or nothing: types each of its characters, the first at the gap and each other at
 * the gap just below the one before, and writes the new sheet and the lines to send, one for each character, in the
 * same sequence. If something that waited erased the one before at once, the next goes below the nearest shown
 * character above it, or to the beginning. With an empty text that meets none of 1 to 4 the answer is done, with all
 * counts and lengths 0, and nothing is written.
 * Refusals: 1, 2, 20, 3, 4, 5, 11, 9, 12 (if either output is short, neither is written). Each is of the whole text: 9
 * at any character refuses all of them.
 */
uint64_t wimtaze_paste(const uint8_t *sheet, size_t sheet_length, uint64_t gap, const uint8_t *text, size_t text_length,
                       uint8_t *sheet_out, size_t sheet_out_length, uint8_t *lines_out, size_t lines_out_length);

/*
 * Builds the sheet of laptop `number`, 1 to 16, of a heap of lines in any order: see joining late. It holds what
 * receiving leaves when each line comes after all that it needs. What never has all that it needs is left out, and
 * nothing waits. How many edits were left out is wimtaze_left_out of the reply.
 * Refusals: 1, 2, 17, 7, 12. Each is of the whole heap, however long it is.
 */
uint64_t wimtaze_build(uint64_t number, const uint8_t *heap, size_t heap_length, uint8_t *sheet_out,
                       size_t sheet_out_length);

/*
 * Takes a saved sheet that another program may have written, and writes it again for use: the same sheet, its clock
 * raised where it is too low. A sheet that no lines received from an empty one leave is refused with 16; on one that is
 * taken, 9 never comes: see sheets of other programs. What waits on it is looked at for its form only.
 * Refusals: 1, 2, 3, 16, 12.
 */
uint64_t wimtaze_load(const uint8_t *sheet, size_t sheet_length, uint8_t *sheet_out, size_t sheet_out_length);

/*
 * Lists the characters on the sheet, erased ones too and none that waits, for a laptop that has what is missing: see
 * catching up.
 * Refusals: 1, 2, 3, 12.
 */
uint64_t wimtaze_list(const uint8_t *sheet, size_t sheet_length, uint8_t *list_out, size_t list_out_length);

/*
 * Answers the list of another laptop: writes the lines of the characters on the sheet that are not listed, in a
 * sequence in which the other can take in each, and then those of every character that was erased or restored: see
 * catching up. They are wimtaze_written bytes, which may be 0.
 * Refusals: 1, 2, 18, 3, 12. 1, 2 and 18 are of the whole list, however long it is.
 */
uint64_t wimtaze_answer(const uint8_t *sheet, size_t sheet_length, const uint8_t *list, size_t list_length,
                        uint8_t *answer_out, size_t answer_out_length);

/*
 * Writes the text that the sheet shows, in UTF-8. It is for showing and printing, and not the characters themselves:
 * code points 0 to 8, 11 to 31 and 127 stand in it as U+FFFD, bytes EF BF BD. The sheet and the lines keep the real
 * ones.
 * Refusals: 1, 2, 3, 12.
 */
uint64_t wimtaze_text(const uint8_t *sheet, size_t sheet_length, uint8_t *text_out, size_t text_out_length);

/*
 * Counts what is on the sheet, and how many characters it can still take: ask before you type. Nothing is written.
 * Refusals: 1, 2, 3.
 */
uint64_t wimtaze_counts(const uint8_t *sheet, size_t sheet_length);

/*
 * Takes a saved sheet in the first form, as versions before 0.5 wrote it, and writes the same sheet as the other calls
 * read it: see the layouts. wimtaze_downgrade undoes it to the byte, but for a clock in the first line that is too low,
 * which both calls raise.
 * Refusals: 1, 2, 3, 12.
 */
uint64_t wimtaze_upgrade(const uint8_t *old, size_t old_length, uint8_t *sheet_out, size_t sheet_out_length);

/*
 * Takes a saved sheet and writes it in the first form, for programs that read that one only. wimtaze_upgrade undoes it
 * in the same way. A sheet that has a turn above 1, of a character or in a line that waits, cannot be written so: 15.
 * Refusals: 1, 2, 3, 15, 12.
 */
uint64_t wimtaze_downgrade(const uint8_t *sheet, size_t sheet_length, uint8_t *old_out, size_t old_out_length);

/*
 * Takes a saved sheet and writes its archive: the characters by rising identifier, each with its place on the sheet,
 * erased ones too, and then what waits. wimtaze_unarchive undoes it to the byte. No clock is raised: one that is too
 * low is 3.
 * Refusals: 1, 2, 3, 12.
 */
uint64_t wimtaze_archive(const uint8_t *sheet, size_t sheet_length, uint8_t *archive_out, size_t archive_out_length);

/*
 * Takes an archive and writes the saved sheet that it was made of: the characters at their places. wimtaze_archive
 * undoes it to the byte. Places that are not 1 to the number of characters, each once, and identifiers that do not rise
 * are 19; the form, the clock in it, is looked at afterwards.
 * Refusals: 1, 2, 19, 3, 12. 1, 2 and 19 are of the whole archive, however long it is.
 */
uint64_t wimtaze_unarchive(const uint8_t *archive, size_t archive_length, uint8_t *sheet_out, size_t sheet_out_length);

/*
 * Every call but wimtaze_moved returns one number, from the lowest bit up: the word (2 bits), the refusal (6), the
 * counts carried and thrown (12 each), and the lengths of what was written to the first output and to the line's (16
 * each). wimtaze_receive_at has the shift in place of the last, in two's complement, and wimtaze_build what it left out
 * in place of thrown. wimtaze_counts has, in place of these four, the shown characters, the waiting edits, all
 * characters and the room. Each part has room for its largest value, so none is ever cut; what has no meaning for an
 * answer is 0. The functions below take the number apart.
 */

/* The answer. */
static inline enum wimtaze_words wimtaze_word(uint64_t reply)
{
    return (enum wimtaze_words)(reply & 3);
}

/* Why it was turned away, or WIMTAZE_REFUSAL_NONE. */
static inline enum wimtaze_refusals wimtaze_refusal(uint64_t reply)
{
    return (enum wimtaze_refusals)(reply >> 2 & 63);
}

/*
 * How many edits the call carried out, its own and those that waited for it: at most 513, by pasting at most 1,536, and
 * 1 by erasing and by restoring; 0 by building, loading, listing, answering and archiving, and unless the word is done.
 */
static inline unsigned wimtaze_carried(uint64_t reply)
{
    return (unsigned)(reply >> 8 & 4095);
}

/* How many waiting edits the call threw out, which met refusal 8 or 9 when they had all they needed: at most 512. */
static inline unsigned wimtaze_thrown(uint64_t reply)
{
    return (unsigned)(reply >> 20 & 4095);
}

/* Of wimtaze_build: how many different edits of the heap are not on the sheet, at most 2,048; 0 unless it is done. */
static inline unsigned wimtaze_left_out(uint64_t reply)
{
    return (unsigned)(reply >> 20 & 4095);
}

/*
 * How many bytes were written to the first output: the saved sheet, in either form, the text, the list, the answer, the
 * archive.
 */
static inline size_t wimtaze_written(uint64_t reply)
{
    return (size_t)(reply >> 32 & 65535);
}

/* How many bytes were written to line_out or lines_out, of a call that has it. */
static inline size_t wimtaze_line_written(uint64_t reply)
{
    return (size_t)(reply >> 48 & 65535);
}

/* Of wimtaze_receive_at: how far to move the cursor, -1 to 513; 0 unless the word is done. */
static inline int wimtaze_shift(uint64_t reply)
{
    unsigned bits = (unsigned)(reply >> 48 & 65535);
    return bits < 32768 ? (int)bits : -(int)(65535 - bits) - 1;
}

/* Of wimtaze_counts: how many characters the sheet shows. It is the last gap to type at and the last place to erase. */
static inline unsigned wimtaze_shown_count(uint64_t counts)
{
    return (unsigned)(counts >> 8 & 4095);
}

/* Of wimtaze_counts: how many edits wait on the sheet for one that has not come, whatever they do. */
static inline unsigned wimtaze_waiting_count(uint64_t counts)
{
    return (unsigned)(counts >> 20 & 4095);
}

/* Of wimtaze_counts: how many characters the sheet holds, erased ones counted and waiting ones not. */
static inline unsigned wimtaze_character_count(uint64_t counts)
{
    return (unsigned)(counts >> 32 & 65535);
}

/*
 * Of wimtaze_counts: how many characters the sheet can still take: 1,024 less those that it holds and those that wait.
 * What others have typed and has not come yet is not taken off: see rule 4. All four are 0 if the sheet is refused.
 */
static inline unsigned wimtaze_room(uint64_t counts)
{
    return (unsigned)(counts >> 48 & 65535);
}

#ifdef __cplusplus
}
#endif

#endif
