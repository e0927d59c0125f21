/* pasdrongel.h: a Vietnamese input composer for a host in C: letters, input methods, compositions, drafts of them for
 * keeping, the speller, note lines, the list of all accepted syllables, and UTF-8.
 *
 * tools/install-host builds the library, to be linked statically or shared, with a file for pkg-config and with this header
 * as the page pasdrongel(3).
 *
 * Every call returns an answer: 0 when it is done, else the number of the refusal. It takes every value there is, always
 * ends, keeps nothing between calls and allocates nothing. After a refusal nothing is written; the one exception is the state
 * of a note line, which records a refused letter (pasdrongel_line_part). After success what it found stands at the start of the
 * lent output, and the rest of that output keeps its values.
 *
 * A letter is a code point: U+0000 to U+007F, or one of the 134 Vietnamese letters outside ASCII. */

#ifndef PASDRONGEL_H
#define PASDRONGEL_H

#include <stddef.h>
#include <stdint.h>

#ifdef __cplusplus
extern "C" {
#endif

/* The version of this header, and its three parts in one number. */
#define PASDRONGEL_VERSION_MAJOR 0
#define PASDRONGEL_VERSION_MINOR 7
#define PASDRONGEL_VERSION_PATCH 0
#define PASDRONGEL_VERSION \
    (PASDRONGEL_VERSION_MAJOR * 1000000 + PASDRONGEL_VERSION_MINOR * 1000 + PASDRONGEL_VERSION_PATCH)

/* The platform. The library is position-independent code for x86-64, with the calling convention of Linux (System V). It may
 * use what x86-64-v2 has, SSE up to 4.2 and POPCNT, and does not test for it. Of the C library it needs memcpy and memset, and
 * nothing else. It has no data that is ever written: calls may run at the same time, in threads or in a handler of signals,
 * where what one of them writes is lent to no other. */

/* No call takes more bytes of stack than this, counted from its return address on, memcpy and memset included. A loader
 * that binds these two at their first call takes its own then; a program that is linked with -z now has none.
 *
 * That holds of pasdrongel_line_check too, whatever the line: its two readers call each other for each word and gap, and the
 * compiler has made jumps of these calls, which leave nothing on the stack. */
#define PASDRONGEL_STACK_BYTES 768

/* Memory. A call is lent buffers, each a pointer and a length, and places for one number, each a pointer. It reads and
 * writes nothing else, and keeps no pointer. The rest is for the host to see to: no call can test it.
 *
 * A buffer has as many items as its length says. An empty one may stand anywhere, and its pointer may be NULL; no other
 * pointer may. Where a call says of pointers that they lie apart, what they point to shares no byte; if it does, nothing is
 * known of what the call writes. Until the call returns, nobody else writes what it is lent, or reads what it writes. */

/* Answers. */

/* The refusal of an answer, or 0: its low byte. A host reads an answer by this, and compares no whole answers: the bytes
 * above are 0 in this version, and a later one says there where the foreign letter stands. */
#define PASDRONGEL_REFUSAL(answer) ((answer) & 0xffu)

/* The call is done. */
#define PASDRONGEL_DONE 0

/* Refusals. Where several hold, a call gives the first of 10, 11, 6, 8 or 1, then 2, 4, 5 or 7, last 3. Of a note line 10 comes
 * first too, and then the first letter that is refused decides. */

/* A code point is no letter. */
#define PASDRONGEL_REFUSED_FOREIGN 1
/* A letter must be appended, and all cells of the composition are used. */
#define PASDRONGEL_REFUSED_FULL 2
/* The lent output is shorter than the answer. */
#define PASDRONGEL_REFUSED_SHORT 3
/* The last cell must be removed, and there is none. */
#define PASDRONGEL_REFUSED_EMPTY 4
/* There is nothing to undo. */
#define PASDRONGEL_REFUSED_NO_UNDO 5
/* A word, a raw string, a line, or the letters or bytes of UTF-8 are over the limit. */
#define PASDRONGEL_REFUSED_LONG 6
/* There is no such listed word. */
#define PASDRONGEL_REFUSED_NO_WORD 7
/* The bytes are not UTF-8. */
#define PASDRONGEL_REFUSED_MALFORMED 8
/* The first line of the program names no method. */
#define PASDRONGEL_REFUSED_NO_METHOD 9
/* The composition, or the state of a note line, is not sound. */
#define PASDRONGEL_REFUSED_UNSOUND 10
/* The bytes are not the draft of a sound composition. */
#define PASDRONGEL_REFUSED_NO_DRAFT 11

/* Limits, and outputs that always suffice. */

/* The most letters of a word, of a raw string, and of what is written as UTF-8. The text of a composition may have more, up to
 * PASDRONGEL_CELLS. Then it is no word: the speller and pasdrongel_next_word refuse it by 6. As UTF-8 it is written in pieces
 * of at most so many letters, cut anywhere: their bytes, one after another, are those of the whole. */
#define PASDRONGEL_WORD_LETTERS 64
/* The most bytes of a line, and of what is read as UTF-8. */
#define PASDRONGEL_LINE_BYTES 256
/* The most letters of a note line. */
#define PASDRONGEL_LINE_LETTERS 4096
/* The bytes of the state of a note line that is handed over in parts. */
#define PASDRONGEL_LINE_STATE_BYTES 26
/* The bytes of a composition, and the most cells that it uses. */
#define PASDRONGEL_COMPOSITION_BYTES 776
#define PASDRONGEL_CELLS 96
/* With this many letters of room the calls that write a composition's text never refuse by 3. */
#define PASDRONGEL_TEXT_ROOM 96
/* With this many bytes of room pasdrongel_write_draft never refuses by 3. */
#define PASDRONGEL_DRAFT_ROOM 687
/* With this many letters of room the calls that write a listed word never refuse by 3. */
#define PASDRONGEL_LISTED_ROOM 8
/* With this many letters of room pasdrongel_read_utf8 never refuses by 3. */
#define PASDRONGEL_READ_ROOM 256
/* With this many bytes of room pasdrongel_write_utf8 never refuses by 3: no letter takes more than three. */
#define PASDRONGEL_WRITE_ROOM 192

/* Numbers that calls take and give. */

/* The input methods. */
#define PASDRONGEL_TELEX 0
#define PASDRONGEL_VNI 1
/* The modes. */
#define PASDRONGEL_VIETNAMESE 0
#define PASDRONGEL_ENGLISH 1
/* The setting of capitals. */
#define PASDRONGEL_CAPITALS_OFF 0
#define PASDRONGEL_CAPITALS_ON 1
/* What becomes of the key that asked for an undo. */
#define PASDRONGEL_APPEND 0
#define PASDRONGEL_CONSUME 1

/* The library. These three return what they find, and refuse nothing. */

/* The version of the library that is linked: PASDRONGEL_VERSION of the header that it was built with. */
uint32_t pasdrongel_version(void);

/* The bytes of a composition in the library that is linked: PASDRONGEL_COMPOSITION_BYTES of the header that it was built
 * with. A host that may meet another library than it was compiled for compares the two when it starts. One that was compiled
 * for version 0.6.0 has 264 bytes for a composition, and every call that is given them refuses by 10, pasdrongel_new too. */
size_t pasdrongel_composition_bytes(void);

/* A text for a whole answer, of which the low byte decides: in English, in ASCII, on one line and of at most 63 letters. A
 * number that is no refusal has a text too. It is never NULL, and stays as it is for as long as the program runs. */
const char *pasdrongel_refusal_text(uint32_t answer);

/* Letters. */

/* Is `letter` a letter? 0 if it is, 1 if it is not. */
uint32_t pasdrongel_check_letter(uint32_t letter);

/* The small letter of a capital; every other letter is its own. Refuses by 1 what is no letter. */
uint32_t pasdrongel_lower(uint32_t letter, uint32_t *small);

/* The capital of a small letter; every other letter is its own. Refuses by 1 what is no letter. */
uint32_t pasdrongel_upper(uint32_t letter, uint32_t *capital);

/* `*yes` is 1 for A to Z and the 67 Vietnamese capitals, else 0. Refuses by 1 what is no letter. */
uint32_t pasdrongel_is_capital(uint32_t letter, uint32_t *yes);

/* `*yes` is 1 for U+0009 to U+000D and U+0020, else 0. Refuses by 1 what is no letter. */
uint32_t pasdrongel_is_white_space(uint32_t letter, uint32_t *yes);

/* `*yes` is 1 for white space and for . , ! ? ; : which end a syllable; else 0. Refuses by 1 what is no letter. */
uint32_t pasdrongel_is_separator(uint32_t letter, uint32_t *yes);

/* The letter with a tone. The tone keys are s 1 (acute), f 2 (grave), r 3 (hook), x 4 (tilde), j 5 (dot below).
 * An ASCII capital vowel gives the small toned letter. A letter that is no composer vowel stays as it is, and so does
 * every letter under a `tone` that is no key. Refuses by 1 if `letter` or `tone` is no letter. */
uint32_t pasdrongel_tone_on(uint32_t letter, uint32_t tone, uint32_t *toned);

/* The vowel of a small toned letter; every other letter is its own. Refuses by 1 what is no letter. */
uint32_t pasdrongel_tone_off(uint32_t letter, uint32_t *plain);

/* `*yes` is 1 for a e i o u y of either case, and for the small letters U+0103, U+00E2, U+00EA, U+00F4, U+01A1 and
 * U+01B0 (a with breve, a e o with circumflex, o u with horn); else 0. Refuses by 1 what is no letter. */
uint32_t pasdrongel_is_composer_vowel(uint32_t letter, uint32_t *yes);

/* `*yes` is 1 for those twelve small vowels, each plain or with any of the five tones; else 0, and 0 for every
 * capital. Refuses by 1 what is no letter. */
uint32_t pasdrongel_is_speller_vowel(uint32_t letter, uint32_t *yes);

/* Input methods. `method` is PASDRONGEL_TELEX or PASDRONGEL_VNI; every other number is refused by 10. Letters are taken as
 * they stand: the rules are in small letters. */

/* `*yes` is 1 if `key` is a tone key of the method (f s r x j; 1 2 3 4 5), else 0. Refuses by 1 if `key` is no letter. */
uint32_t pasdrongel_is_tone_key(uint32_t method, uint32_t key, uint32_t *yes);

/* `*yes` is 1 if `key` makes the pair of horned vowels (w; 7), else 0. Refuses by 1 if `key` is no letter. */
uint32_t pasdrongel_is_horn_key(uint32_t method, uint32_t key, uint32_t *yes);

/* The letter that `base` and `key` make by a rule of the method (Telex aw aa ee oo ow uw dd; VNI a6 e6 o6 o7 u7 a8 d9),
 * or 0. Refuses by 1 if `base` or `key` is no letter. */
uint32_t pasdrongel_mark_for(uint32_t method, uint32_t base, uint32_t key, uint32_t *mark);

/* Compositions. A composition is what a grower is typing: its cells, the input method, the mode, and the setting of capitals.
 * It stands in `size` bytes of the host at `state`, PASDRONGEL_COMPOSITION_BYTES of them, and a call finds and leaves it
 * there. What the bytes say is stated in docs/BYTES.md. A call that is given a composition refuses by 10 where the bytes are
 * not that many, or are not those of a sound composition; `state` may be NULL if `size` is 0, and is then refused. Two
 * compositions are equal exactly where their bytes are. */

/* Makes `state` an empty composition under the input method, in Vietnamese mode, with capitals off, whatever the bytes were.
 * Refuses by 10 if `size` is another number, or `method` is no method. */
uint32_t pasdrongel_new(uint8_t *state, size_t size, uint32_t method);

/* Are these the bytes of a sound composition? 0 if they are, 10 if they are not. */
uint32_t pasdrongel_check_composition(const uint8_t *state, size_t size);

/* The input method: `*method` is PASDRONGEL_TELEX or PASDRONGEL_VNI. `state` and `method` lie apart. */
uint32_t pasdrongel_method(const uint8_t *state, size_t size, uint32_t *method);

/* The mode: `*mode` is PASDRONGEL_VIETNAMESE or PASDRONGEL_ENGLISH. `state` and `mode` lie apart. */
uint32_t pasdrongel_mode(const uint8_t *state, size_t size, uint32_t *mode);

/* The setting of capitals: `*on` is PASDRONGEL_CAPITALS_OFF or PASDRONGEL_CAPITALS_ON. `state` and `on` lie apart. */
uint32_t pasdrongel_capitals(const uint8_t *state, size_t size, uint32_t *on);

/* How many cells are in use, from 0 to PASDRONGEL_CELLS, to `*count`. The text has as many letters. `state` and `count` lie
 * apart. */
uint32_t pasdrongel_count(const uint8_t *state, size_t size, size_t *count);

/* Takes a key of the input method, and writes the text that stands then, as pasdrongel_text; in English mode the key changes
 * nothing, and that one letter is written. Where a key makes the pair of horned vowels, an o that was a capital is still one
 * if capitals are on, and none any more if they are off. Refuses by 1 if `key` is no letter, by 2 if a letter must be
 * appended and all cells are used, by 3 if `room` is less than the letters; then the key is not taken. `text` may be NULL if
 * `room` is 0. `state`, `text` and `count` lie apart. */
uint32_t pasdrongel_key(
    uint8_t *state, size_t size, uint32_t key, uint32_t *text, size_t room, size_t *count);

/* The text, from the start of `text`, which has room for `room` letters, and their number to `*count`. A capital that a mark
 * or a tone has changed is shown as the setting of capitals says (pasdrongel_set_capitals). Refuses by 3 if `room` is less
 * than the letters. `text` may be NULL if `room` is 0. `state`, `text` and `count` lie apart. */
uint32_t pasdrongel_text(const uint8_t *state, size_t size, uint32_t *text, size_t room, size_t *count);

/* Appends a letter as it is, in either mode: no key of the method. Refuses by 1 if `letter` is no letter, by 2 if all cells
 * are used. */
uint32_t pasdrongel_literal(uint8_t *state, size_t size, uint32_t letter);

/* Removes the last cell, and writes the text that is left, as pasdrongel_text. Refuses by 4 if there is no cell, by 3 if
 * `room` is less than the letters. `text` may be NULL if `room` is 0. `state`, `text` and `count` lie apart. */
uint32_t pasdrongel_remove_last(uint8_t *state, size_t size, uint32_t *text, size_t room, size_t *count);

/* Takes back a tone or a mark of Telex, because its key is pressed again. `trigger` is that key, and `raw` the keys of the
 * word that were taken before it, `length` of them: the trigger is not among them. If `raw` ends in the trigger and a cell
 * has that tone, the last such cell loses it (as, then s). Else the last cell that has a mark of the trigger and no tone
 * loses the mark, if the two keys that make it stand in `raw` with none of a e i o u y after them (dd, then d; aan, then a).
 * `*behaviour` is PASDRONGEL_APPEND if the host is to append the trigger, by pasdrongel_literal and not by pasdrongel_key,
 * which would put the tone back; it is PASDRONGEL_CONSUME if the trigger does no more.
 *
 * A host in Vietnamese mode asks at each key, before pasdrongel_key, and takes it as a key where this refuses by 5, as
 * examples/panel.c does; the mode is not looked at here. The host keeps each key that was taken, triggers too; it drops the
 * last at pasdrongel_remove_last, and all at pasdrongel_reset. Where they are more than PASDRONGEL_WORD_LETTERS it gives the
 * last so many; a mark whose keys are not among these stays. Refuses by 6 if `length` is over PASDRONGEL_WORD_LETTERS, by 1
 * if `trigger` or one of `raw` is no letter, by 5 if there is nothing to undo, which is always so under VNI. `raw` may be
 * NULL if `length` is 0. `state`, `raw` and `behaviour` lie apart. */
uint32_t pasdrongel_undo(
    uint8_t *state, size_t size, uint32_t trigger, const uint32_t *raw, size_t length, uint32_t *behaviour);

/* Empties the cells; method, mode and capitals stay. A host does so at each separator (pasdrongel_is_separator), when it has
 * taken the text over. Else a key of the next word may go to a vowel of the last: of the VNI keys pha6n, space, 2 the 2
 * becomes a tone, and is lost. */
uint32_t pasdrongel_reset(uint8_t *state, size_t size);

/* Sets the input method and empties the cells; mode and capitals stay. Refuses by 10 also if `method` is no method. */
uint32_t pasdrongel_set_method(uint8_t *state, size_t size, uint32_t method);

/* Sets the mode, PASDRONGEL_VIETNAMESE or PASDRONGEL_ENGLISH. Turning to English empties the cells, always; turning to
 * Vietnamese empties nothing; method and capitals stay. Refuses by 10 also if `mode` is neither. */
uint32_t pasdrongel_set_mode(uint8_t *state, size_t size, uint32_t mode);

/* Sets how capitals are shown, PASDRONGEL_CAPITALS_OFF or PASDRONGEL_CAPITALS_ON. A cell is a capital if its letter was one
 * when it was appended. Off, a capital that a mark or a tone has changed is shown small: the Telex keys AAN give U+00E2 and
 * N. On, every capital is shown as one, with its mark and tone: they give U+00C2 and N. All else is shown the same under
 * both. No cell changes, so that a host may set it at any time, and the next text shows it; but an o that has lost its
 * capital to a horn (pasdrongel_key) does not get it back. A capital whose mark pasdrongel_undo takes back is a plain
 * capital under both. Refuses by 10 also if `on` is neither. */
uint32_t pasdrongel_set_capitals(uint8_t *state, size_t size, uint32_t on);

/* Drafts. A draft is a composition as bytes for keeping, in a file or on a line to another machine: its method, mode, cells
 * and setting of capitals, as tagged fields. What the bytes say is stated in docs/DRAFTS.md, and a later version of the
 * library reads them as this one does. A sound composition has one draft, of 15 bytes and 7 for each cell in use. Version
 * 0.6.0 has at most 32 cells: up to there it writes and reads the same bytes, and it refuses a longer draft by 11. */

/* Writes the draft of a composition, from the start of `draft`, which has room for `room` bytes, and their number to
 * `*count`. Refuses by 3 if `room` is less than the bytes. `draft` may be NULL if `room` is 0. `state`, `draft` and `count`
 * lie apart. */
uint32_t pasdrongel_write_draft(const uint8_t *state, size_t size, uint8_t *draft, size_t room, size_t *count);

/* Makes `state` the composition whose draft these `length` bytes are, whatever it was: what stands there is not looked at,
 * and need not be sound. Refuses by 10 if `size` is not PASDRONGEL_COMPOSITION_BYTES, by 11 if the bytes are no draft: cut
 * short, with a byte too many, with another field, tag or length, or of a composition that is not sound. `draft` may be
 * NULL if `length` is 0, and is then refused. `draft` and `state` lie apart. */
uint32_t pasdrongel_read_draft(const uint8_t *draft, size_t length, uint8_t *state, size_t size);

/* The speller. A word has `length` letters. Refuses by 6 if `length` is over PASDRONGEL_WORD_LETTERS, by 1 if a code point
 * among them is no letter. */

/* Cuts the word into onset, vowels and coda: the onset ends before place `*onset`, the vowels before place `*vowels`, and
 * what is left is the coda. `word` may be NULL if `length` is 0. `word`, `onset` and `vowels` lie apart. */
uint32_t pasdrongel_cut(const uint32_t *word, size_t length, size_t *onset, size_t *vowels);

/* `*yes` is 1 if the word is accepted as a Vietnamese syllable, else 0. Capitals and tones make no difference. `word` may be
 * NULL if `length` is 0, and is then no syllable. `word` and `yes` lie apart. */
uint32_t pasdrongel_verdict(const uint32_t *word, size_t length, uint32_t *yes);

/* Note lines. A note line is words and gaps by turns: a gap is made of separators (pasdrongel_is_separator), among which U+000A
 * is one like any other, and a word is made of all letters between two gaps. Each word is judged as by pasdrongel_verdict.
 *
 * Told of a line are how many words it has, how many of them are judged no, and the place of the first letter of the first of
 * these, in letters from 0; that is the line's length if none is judged no. The line "an za, qu" gives 3, 2 and 3, and the
 * empty one 0, 0 and 0.
 *
 * A letter is refused by 1 if it is no letter; by 6 if it is the 4,097th of the line, whatever it is (PASDRONGEL_LINE_LETTERS),
 * or the 65th of a word (PASDRONGEL_WORD_LETTERS), where a separator is none and ends the word. The first place at which a
 * letter is refused decides, and where both hold of that letter, 1 does. */

/* Checks a whole line of `length` letters: the number of its words to `*words`, that of the words judged no to `*no`, and the
 * place to `*first`. Refuses by 1 or 6, by place as above. `line` may be NULL if `length` is 0. `line`, `words`, `no` and
 * `first` lie apart. */
uint32_t pasdrongel_line_check(const uint32_t *line, size_t length, size_t *words, size_t *no, size_t *first);

/* Note lines in parts. A line may be handed over as it comes in, cut anywhere, within a word too: what has come of it stands in
 * `size` bytes of the host at `state`, PASDRONGEL_LINE_STATE_BYTES of them. What the bytes say is stated in docs/BYTES.md; like
 * those of a composition they are not for keeping. A call that is given a state refuses by 10 where the bytes are not that many,
 * or are not those of a sound state, and then changes nothing; `state` may be NULL if `size` is 0, and is then refused.
 *
 * However a line is cut, it is answered and refused as pasdrongel_line_check does the whole of it. A refused letter ends the
 * line: the rest of its part is not read, and the state records the refusal. It is then the answer to each later part, an empty
 * one too, and to pasdrongel_line_answer, until pasdrongel_line_begin. */

/* Makes `state` a line of which nothing has come, whatever the bytes were. Refuses by 10 if `size` is another number. */
uint32_t pasdrongel_line_begin(uint8_t *state, size_t size);

/* Takes the next `length` letters of the line. Refuses by 10; then by the refusal that is recorded, or by 1 or 6, by place as
 * above, which it records. What it takes of time goes by the letters of the part, and not by those before. `letters` may be NULL
 * if `length` is 0. `state` and `letters` lie apart. */
uint32_t pasdrongel_line_part(uint8_t *state, size_t size, const uint32_t *letters, size_t length);

/* Tells of the letters that have come what pasdrongel_line_check tells of a line; a word that stands open is counted and judged
 * as it stands. It may be asked at any time, and the line goes on as if it were not. Refuses by 10, then by the refusal that is
 * recorded. `state`, `words`, `no` and `first` lie apart. */
uint32_t pasdrongel_line_answer(const uint8_t *state, size_t size, size_t *words, size_t *no, size_t *first);

/* The list. It has all accepted syllables, small and without tones, in dictionary order by code point. A word is written from
 * the start of `word`, which has room for `room` letters, and its length to `*count`. */

/* How many words the list has. */
uint32_t pasdrongel_total(size_t *total);

/* The word of a number, from 0. Refuses by 7 if there is none, by 3 if `room` is less than its letters. `word` may be NULL if
 * `room` is 0. `word` and `count` lie apart. */
uint32_t pasdrongel_word(size_t number, uint32_t *word, size_t room, size_t *count);

/* The first listed word that comes after `after`, which has `length` letters and need not be listed itself. Refuses by 6 if
 * `length` is over PASDRONGEL_WORD_LETTERS, by 1 if a code point among them is no letter, by 7 if no listed word follows, by
 * 3 if `room` is less than the letters. `after` may be NULL if `length` is 0, and comes before every word; `word` may be NULL
 * if `room` is 0. `after`, `word` and `count` lie apart: the next word is not written over the last. */
uint32_t pasdrongel_next_word(const uint32_t *after, size_t length, uint32_t *word, size_t room, size_t *count);

/* UTF-8, as RFC 3629 defines it. */

/* The letters that `length` bytes spell. They are written from the start of `letters`, which has room for `room`, and
 * their number to `*count`. Refuses by 6 if `length` is over PASDRONGEL_LINE_BYTES. Otherwise the first faulty
 * character decides: 8 if it is malformed, 1 if it is no letter. Refuses by 3 if `room` is less than the letters. `bytes`
 * may be NULL if `length` is 0, `letters` may be NULL if `room` is 0. `bytes`, `letters` and `count` lie apart. */
uint32_t pasdrongel_read_utf8(const uint8_t *bytes, size_t length, uint32_t *letters, size_t room, size_t *count);

/* The bytes that spell `length` letters. They are written from the start of `bytes`, which has room for `room`, and
 * their number to `*count`; no byte 0 is added. Refuses by 6 if `length` is over PASDRONGEL_WORD_LETTERS, by 1 if a
 * code point among them is no letter, by 3 if `room` is less than the bytes. `letters` may be NULL if `length` is 0, `bytes`
 * may be NULL if `room` is 0. `letters`, `bytes` and `count` lie apart. */
uint32_t pasdrongel_write_utf8(const uint32_t *letters, size_t length, uint8_t *bytes, size_t room, size_t *count);

#ifdef __cplusplus
}
#endif

#endif
