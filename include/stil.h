/*
 * A reader of STIL test patterns (IEEE 1450) whose answers are proved, for programs in C and C++.
 *
 * `tools/library` writes the library, target/libstil.a, for x86-64 Linux. It wants memcpy and
 * memset, and nothing else.
 *
 * A text is all the bytes of a STIL file, as they are. There is nothing to open or to close: each call is handed
 * the whole text and reads it anew. Every call ends, for any bytes, numbers and lengths, with one number:
 *
 *   0           The call has its answer, which stands at the front of the buffers that were lent. What stands
 *               behind it there is left as it was.
 *   any other   The call is refused, and all buffers are as they were (but see lutemeteor_waveforms). answer % 32 is the refusal's number, 1 to 19, or 21 to 25;
 *               answer / 32 is its place, a byte of the text counted from 0, or the text's length for its end. Where
 *               lutemeteor_report refuses a report, the answer is 2 to the 32nd more, and its place is one of the report.
 *
 * The intake, at the end of this file, is for a text that arrives in blocks: its state stands between the calls in
 * numbers of the caller's, also where it is refused. It has a refusal of its own, 20.
 *
 * Where several refusals fit, the first of these is given: 1, 2, 3; then, of 4 to 14, the one that stands first in
 * the text; then 15, 16, 17, 25, 18, 21, 23, 22, 19. A text that lutemeteor_check accepts is refused by lutemeteor_name and
 * lutemeteor_waveform for 18 or 19 only, by lutemeteor_waveforms for 8 too, and by lutemeteor_window for 19,
 * or for 12 at 0 before that: its mark is none; by lutemeteor_index for 19 only, by lutemeteor_belongs for 21 only, and by
 * lutemeteor_holds for 21 or 19, and by lutemeteor_fold for 23, 22 or 19; by lutemeteor_report for 19, or before that for
 * a fault of the report. lutemeteor_save refuses it for 19 only, and answers for many texts that lutemeteor_check refuses.
 *
 * Pointers   Behind each pointer stands how many bytes or numbers are there; for a buffer, how many it has room
 *            for. All of them must be there during the call, numbers must be aligned as uint64_t is, and no buffer
 *            may overlap the text or another buffer. The text of lutemeteor_save is a buffer. No pointer may be null, not even with a length of 0: hand over
 *            the address of anything instead.
 * Threads    The library has no state: no variable outlives a call, nothing is allocated, no file is touched. Any
 *            number of threads may call it at once, also with one text, each with buffers of its own.
 * Stack      A call keeps its tables on the stack. With texts that have bodies 8 deep, the widest and the longest ones
 *            among them, these were measured, the caller's own with them: 1,470,000 bytes, and 1,540,000 for lutemeteor_save;
 *            1,940,000 for lutemeteor_waveforms and lutemeteor_report, and 2,070,000 for lutemeteor_fold. A text with an
 *            event outside its own cycle, at or behind its period or before its start, takes 2,440,000 bytes more. That
 *            is a measurement and no bound: have 5 MiB, more than many systems give a thread by themselves.
 *            lutemeteor_token, lutemeteor_line and the intake take less than 4,000 bytes.
 */
#ifndef LUTEMETEOR_STIL_H
#define LUTEMETEOR_STIL_H

#include <stddef.h>
#include <stdint.h>

#ifdef __cplusplus
extern "C" {
#endif

/* Bounds of every accepted text: buffers of these sizes are always enough. */
enum {
    LUTEMETEOR_TEXT_MOST = 65536,  /* bytes of a text */
    LUTEMETEOR_RAW_MOST = 1048576, /* bytes of a raw text, for the intake */
    LUTEMETEOR_STATE = 6,          /* numbers of an intake's state */
    LUTEMETEOR_SIGNALS_MOST = 256,
    LUTEMETEOR_TABLES_MOST = 8,
    LUTEMETEOR_NAME_MOST = 32,   /* bytes of a name */
    LUTEMETEOR_ROW_MOST = 258,   /* bytes of a row: a character for each signal, the table's digit, and LF */
    LUTEMETEOR_EVENTS_MOST = 16, /* events of one waveform */
    LUTEMETEOR_CHART_MOST = 64,  /* waveforms of one list */
    LUTEMETEOR_INDEX_MOST = 1357, /* bytes of an index */
    LUTEMETEOR_FAILS_MOST = 32768 /* answers to one report */
};

/* The refusals; behind the semicolon, their place. */
enum {
    LUTEMETEOR_TEXT_TOO_LONG = 1,    /* more than 65,536 bytes; 0 */
    LUTEMETEOR_BYTE_NOT_ALLOWED = 2, /* neither tab, LF, CR nor 32 to 126; the first such byte */
    LUTEMETEOR_COMMENT_OPEN = 3,     /* a comment is not closed; its first byte */
    LUTEMETEOR_NOT_HERE = 4,         /* a token is not allowed here, or the text ended; the token, or the text's end */
    LUTEMETEOR_NOT_A_NAME = 5,       /* a name is needed, and this word is none; the word */
    LUTEMETEOR_NAME_UNKNOWN = 6,     /* nothing has this name; the name */
    LUTEMETEOR_NAME_USED = 7,        /* something has this name already; the name */
    LUTEMETEOR_TOO_MANY = 8,         /* one item, bracket, event, character or list entry too many; its first token. Or
                                        more than 64 waveforms asked for; 0 */
    LUTEMETEOR_BAD_NUMBER = 9,       /* a number or time is malformed or out of bounds; its word */
    LUTEMETEOR_BAD_GROUP = 10,       /* a signal is added twice, or removed and absent; the term's last token.
                                        Or the group is empty; the closing quote */
    LUTEMETEOR_BAD_WAVEFORM = 11,    /* a character has its waveform already; the characters' word. Or there are too few
                                        or too many letters, or a time does not rise; the event's semicolon */
    LUTEMETEOR_BAD_DATA = 12,        /* no waveform character; the word. A signal assigned twice; its name. A wrong
                                        length; the semicolon. A letter, digit or LF as a window's mark; 0 */
    LUTEMETEOR_BAD_ARGUMENT = 13,    /* a `#` where none may stand; the `#`. An argument that no `#` takes, or of more
                                        signals than one; its name. A Shift without `#`; its closing brace. Arguments
                                        missing or of unfit lengths; the statement's last token */
    LUTEMETEOR_TOO_DEEP = 14,        /* bodies nested more than 8 deep; the Loop, Shift or used name that makes it so */
    LUTEMETEOR_NOT_DEFINED = 15,     /* a listed pattern is not defined; its name in the PatList */
    LUTEMETEOR_RUN_TOO_LARGE = 16,   /* the run's size is above 65,536, or its cycles above 2 to the 40th; 0 */
    LUTEMETEOR_NOT_PLAYABLE = 17,    /* a cycle has no table, or a character that has no waveform in it; its V */
    LUTEMETEOR_NO_SUCH = 18,         /* the text has no such signal, table or waveform; 0 */
    LUTEMETEOR_NO_ROOM = 19,         /* a buffer is too short for what is due; 0 */
    LUTEMETEOR_NO_STORE = 20,        /* of the intake: the store lacks room; the raw byte that adds to it, or the raw
                                        length */
    LUTEMETEOR_NOT_THE_INDEX = 21,   /* an index is not what a rebuild of it writes; 0 */
    LUTEMETEOR_MANY_PATTERNS = 22,   /* the folded text would have more than 16 Patterns; 0 */
    LUTEMETEOR_MANY_CYCLES = 23,     /* the run has more than 1,000,000 cycles, which are not folded; 0 */
    LUTEMETEOR_NOT_IN_PATTERN = 24,  /* of a report: its pattern is not listed exactly once; its name. A reference is unknown;
                                        the reference. A cycle falls outside the pattern; the offset, or the reference
                                        where there is none */
    LUTEMETEOR_ACROSS_EDGE = 25      /* a cycle's last drive or compare event of a signal does not come before the next
                                        cycle's first of its kind; the later cycle's V */
};

/* Of an answer that is not 0: the refusal's number, and its place. */
static inline unsigned lutemeteor_refusal(uint64_t answer)
{
    return (unsigned)(answer % 32);
}

static inline size_t lutemeteor_place(uint64_t answer)
{
    return (size_t)(answer % 4294967296u / 32);
}

/* Is its place one of the report that was handed to lutemeteor_report, and not of the text? */
static inline int lutemeteor_of_report(uint64_t answer)
{
    return answer / 4294967296u != 0;
}

/*
 * Check: is the text sound, and how much is in it?
 *
 *   numbers[0]   signals, 1 to 256
 *   numbers[1]   tables (WaveformTable blocks), 1 to 8
 *   numbers[2]   listed patterns (entries of the PatList), 0 to 16
 *   numbers[3]   cycles of the whole run, 0 to 2 to the 40th
 *   numbers[4]   size of the run, 0 to 65,536: its statements, with a Loop's body counted once
 *
 * Refused 1 to 17 or 25; 19 where `room` is less than 5.
 */
uint64_t lutemeteor_check(const uint8_t *text, size_t length, uint64_t *numbers, size_t room);

/*
 * Name: where the text declares the name of a signal (`table` is 0) or of a table (`table` is any other). `number`
 * counts from 0, in the order of the text.
 *
 *   numbers[0]   the name's place in the text
 *   numbers[1]   its length, 1 to 32 bytes
 *
 * Refused 1 to 17 or 25; 18 where the text has no such number; 19 where `room` is less than 2.
 */
uint64_t lutemeteor_name(const uint8_t *text, size_t length, uint8_t table, uint64_t number, uint64_t *numbers,
                         size_t room);

/*
 * Window: what the pins do in `wanted` cycles of the run from the cycle `first` on, counted from 0. There are fewer
 * rows where the run ends before, and none at or past its end. The cycles before `first` are not played.
 *
 *   rows         a row for each cycle, one behind the other: each signal's character in the order of the text (`mark`
 *                where none is assigned yet), the number of the cycle's table as a digit, and LF
 *   numbers[0]   how many rows there are: the lesser of `wanted` and the cycles from `first` on
 *   numbers[1]   the visits: the steps that led to the first cycle, at most ten times the size of the run
 *
 * A row has signals + 2 bytes. wanted * (signals + 2) bytes are always enough for `rows`; it need have room only for
 * the rows that there are. `mark` is any byte but a letter, a digit or LF: '?' where none is chosen, '.' in filed
 * listings. Nothing else in a row depends on it.
 *
 * Refused 1 to 17 or 25; 12 at 0 where `mark` is a letter, a digit or LF, whatever is wanted; 19 where `rows_room` is less
 * than the bytes of those rows, or `room` is less than 2.
 */
uint64_t lutemeteor_window(const uint8_t *text, size_t length, uint64_t first, uint64_t wanted, uint8_t mark,
                           uint8_t *rows, size_t rows_room, uint64_t *numbers, size_t room);

/*
 * Waveform: the events of a character, as it stands in rows, for a signal in a table, both by their numbers.
 *
 *   times[i]     when the i-th event comes, in picoseconds from the start of the cycle, negative before it: -1,000,000,000
 *                to 1,000,000,000; the order is the text's
 *   letters[i]   its letter: D U Z P drive the pin, L H X T l h x compare it
 *   count[0]     how many events there are, 1 to 16
 *
 * Refused 1 to 17 or 25; 18 where the text has no such waveform; 19 where `times` or `letters` has room for less than all
 * events (16 are always enough), or `count_room` is 0.
 */
uint64_t lutemeteor_waveform(const uint8_t *text, size_t length, uint64_t table, uint64_t signal, uint8_t character,
                             int64_t *times, size_t times_room, uint8_t *letters, size_t letters_room,
                             uint64_t *count, size_t count_room);

/*
 * Waveforms by the list: up to 64 of them in one call, as calls of lutemeteor_waveform in the list's order would give
 * them, each on the room that those before it left; the text is read for its refusals once.
 *
 *   asked        three numbers for each waveform: its table, its signal and its character. A character above 255, and one
 *                or two numbers left over at the end, count as a waveform that the text doesn't have
 *   times        the events' times, signed as those of lutemeteor_waveform, one group behind the other
 *   letters      their letters, in the same places
 *   counts[i]    how many events the i-th waveform of the list has
 *   numbers[0]   where the answer is 0, how many events there are in all
 *
 * Refused 1 to 17 or 25; then 8, at place 0, where more than 64 waveforms are asked for; then 19 where `counts_room` is less
 * than the waveforms asked for, or `numbers_room` is 0. In all these cases all buffers are as they were.
 *
 * Then the first waveform that is refused, by 18 or by 19, stops the call. The answer is that refusal; what the waveforms
 * before it wrote to times, letters and counts stays written, all behind it is left as it was, and
 *
 *   numbers[0]   is how many waveforms were served
 */
uint64_t lutemeteor_waveforms(const uint8_t *text, size_t length, const uint64_t *asked, size_t asked_length,
                              int64_t *times, size_t times_room, uint8_t *letters, size_t letters_room,
                              uint64_t *counts, size_t counts_room, uint64_t *numbers, size_t numbers_room);

/*
 * Index: a text's index, to be kept beside it. Lines of words with one space between, LF behind each: `PATTERNS` and how
 * many are listed; for each listed pattern, in the list's order, its name, the number of its first cycle in the run, how
 * many cycles it has, and the byte place of its Pattern keyword; `TABLES` and how many there are; each table's name. A
 * pattern without cycles has a count of 0 and the cycle at which it would begin.
 *
 *   index        its bytes, at most 1,357
 *   numbers[0]   how many there are
 *
 * Refused 1 to 17 or 25; 19 where `index_room` is less than those bytes, or `room` is 0.
 */
uint64_t lutemeteor_index(const uint8_t *text, size_t length, uint8_t *index, size_t index_room, uint64_t *numbers,
                          size_t room);

/*
 * Belongs: is an index the text's, byte for byte what lutemeteor_index writes of it? 0 where it is.
 *
 * Refused 1 to 17 or 25; 21, at place 0, where it isn't.
 */
uint64_t lutemeteor_belongs(const uint8_t *text, size_t length, const uint8_t *index, size_t index_length);

/*
 * Holds: which listed pattern holds a cycle of the run, counted from 0, by an index that belongs to the text.
 *
 *   numbers[0]   1; or 0 where the run has no such cycle
 *   numbers[1]   the pattern's number in the list, counted from 0, or 0
 *
 * Refused 1 to 17 or 25; 21, at place 0, where the index doesn't belong to the text, whatever the cycle is; 19 where `room` is
 * less than 2.
 */
uint64_t lutemeteor_holds(const uint8_t *text, size_t length, const uint8_t *index, size_t index_length, uint64_t cycle,
                          uint64_t *numbers, size_t room);

/*
 * Save: where blocks of a text got damaged, the rest. What lutemeteor_check refuses with 4 to 14 or 17 at a place in a
 * Pattern block is overwritten with spaces, the whole block, from its word Pattern outside all braces to the brace that
 * matches its first one, or to the text's end where none does; what it refuses with 15, from that name in the PatList
 * to its `;`. So it goes on until the text is accepted, or beyond help. Pattern blocks are found by tokens: what stands
 * in comments counts nothing.
 *
 *   text         where the answer is 0, the saved text, which lutemeteor_check accepts. It differs from what was lent only
 *                in the spans, which are spaces there; its length and all other bytes are the same
 *   spans        two numbers for each overwritten span, in order of overwriting: its first byte, and the one behind its
 *                last. Twice `length` numbers are always enough, and none are used of a text that is sound
 *   numbers[0]   how many spans there are
 *
 * Refused by the last refusal of the check where the text is beyond help; its place is the same in the text as it was lent.
 * Else 19, at place 0, where `spans_room` is less than two numbers for each span, or `room` is 0.
 */
uint64_t lutemeteor_save(uint8_t *text, size_t length, uint64_t *spans, size_t spans_room, uint64_t *numbers,
                         size_t room);

/*
 * Fold: the text rewritten flat, without macros, procedures and groups: the same signals and tables in the same order, with
 * all their waveforms, and Patterns of V's that give every pin with a value, and of Loops around one V for stretches of
 * equal rows. lutemeteor_check accepts it, and lutemeteor_window and lutemeteor_waveform answer of it as they do of the text
 * (but for the visits). Folding it again gives the same bytes. docs/FOLDED.md has its layout.
 *
 *   folded       the folded text; 65,536 bytes are always enough
 *   numbers[0]   its length
 *
 * Refused 1 to 17 or 25; then, at place 0, 23 above 1,000,000 cycles, 22 for more than 16 Patterns, and 19 where the folded text is
 * longer than 65,536 bytes or than `folded_room`, or where `room` is 0.
 */
uint64_t lutemeteor_fold(const uint8_t *text, size_t length, uint8_t *folded, size_t folded_room, uint64_t *numbers,
                         size_t room);

/*
 * Report: what a tester's fail report (`PatternFailReport { Pattern NAME; FailData { .. } }`) says of the run. Its pattern is
 * one that the text lists once; each record has a reference (that pattern, or an X name in it), a signal, and offsets, which
 * count from the first cycle at or behind the reference, at its first execution. A record without offset stands for offset 0.
 *
 *   cycles       the run's cycle of each offset, counted from 0, in the report's order
 *   signals      the signal's number, in the same places
 *   letters      the state letter H, L, T or X, in the same places; 0 where the offset has none
 *   numbers[0]   how many there are; half of the report's bytes are always enough
 *
 * Refused 1 to 17 or 25 by the text; then by the report, with places in it and with 2 to the 32nd added to the answer: its own
 * faults, 1, 2, 3, then 4 to 9 from the left, and then the first 24. Last 19, at place 0 and nothing added, where one of the three
 * rows has less room than there are offsets, or `room` is 0.
 */
uint64_t lutemeteor_report(const uint8_t *text, size_t length, const uint8_t *report, size_t report_length,
                           uint64_t *cycles, size_t cycles_room, uint64_t *signals, size_t signals_room,
                           uint8_t *letters, size_t letters_room, uint64_t *numbers, size_t room);

/*
 * Token: the first token at or behind the place `at`, as if the text began there; blanks and comments are passed over.
 * Only the rules of bytes, words and comments are used, so that other tools can read by them. Asked again from the
 * token's end (its place plus its length), it gives the next.
 *
 *   numbers[0]   1; or 0 where there is no further token, also past the text's end
 *   numbers[1]   the token's place in the whole text, or 0
 *   numbers[2]   its length, or 0
 *
 * Refused 1 by the length of the whole text; 2 or 3 for what stands before the token or in its place; 19 where `room`
 * is less than 3.
 */
uint64_t lutemeteor_token(const uint8_t *text, size_t length, uint64_t at, uint64_t *numbers, size_t room);

/*
 * Line: where an editor shows a place of the text, a token's or a refusal's. A new line begins behind each LF and
 * nowhere else; columns are counted in bytes. At the text's length, and past it, where one more byte would stand. The
 * text may have any length.
 *
 *   numbers[0]   the line, from 1
 *   numbers[1]   the column, from 1
 *
 * Refused 19 at 0 where `room` is less than 2, and for nothing else.
 */
uint64_t lutemeteor_line(const uint8_t *text, size_t length, uint64_t place, uint64_t *numbers, size_t room);

/*
 * Intake: the next bytes of a raw text of up to 1,048,576, in chunks of any length, also none. Blanks and comments are
 * squeezed: each longest run of them is stored as one LF if it holds an LF, else as one space; all other bytes are
 * stored as they are. The store then reads as the same tokens, and once closed is a text for the functions above.
 *
 *   state        six numbers, all 0 before the first chunk; numbers behind them are left as they are. Each call wants
 *                them, and the store, as the last one left them. state[0] tells what it answered:
 *                  0  open: state[1] bytes were taken, state[2] are stored; state[3] is the mark of a run that waits,
 *                     state[4] where the intake stands, state[5] the place of a `/`, which are its own
 *                  1  refused: state[1] is the refusal's number, state[2] its place, a byte of the raw text. Every
 *                     later call answers the same and writes nothing to the store
 *                  2  closed: state[1] is how many bytes are stored. Later calls answer 0 and write nothing
 *                All other of the six are 0. The six may hold any numbers: a first one above 2 counts as refused, and
 *                of a mark, a standing and a refusal's number above 255 the last eight bits are taken.
 *   store        what is stored stands at its front, what was there before stands behind. Of a store longer than
 *                65,536 bytes only so many are filled. A run's mark, or a `/` that might open a comment, waits for the
 *                byte that shows the run over, or that no comment opens, or for the close
 *
 * The answer is 0 where the intake is open or closed. Refused by the first byte of which one of these holds: 1 past
 * 1,048,576 bytes, 2, 20 where the store has no room for what the byte adds. A refused chunk writes nothing to the
 * store; the state tells the refusal, so that later calls can repeat it. The place, in the answer and in state[2], is one of
 * the raw text. 19 where `state_room` is less than 6: then nothing is written at all, and the intake stands as before.
 */
uint64_t lutemeteor_intake(uint64_t *state, size_t state_room, const uint8_t *chunk, size_t length, uint8_t *store,
                           size_t store_room);

/*
 * Close: the raw text ends here, and what still waits is stored. state and store as above; state[0] is 2 then, and the
 * first state[1] bytes of the store, at most 65,536, are the text.
 *
 * Refused 3 where a comment is open, at its first byte; 20 where the store has no room for what waits, at the raw
 * length; or as the intake was refused before; 19 where `state_room` is less than 6.
 */
uint64_t lutemeteor_intake_close(uint64_t *state, size_t state_room, uint8_t *store, size_t store_room);

#ifdef __cplusplus
}
#endif

#endif
