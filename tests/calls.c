/* Every call of the header on good and bad input, with each refusal that it has, in their order.
 *
 *   calls      prints what does not hold, then `N facts about M calls, F do not hold`
 *
 * All that a call is lent is guarded: after a refusal nothing has changed, after an answer nothing but the answer. A
 * ladder is an input with everything wrong that can be; the call says the first refusal, that fault is mended, and so on
 * down to the answer. */
#include "lent.h"
#include "pasdrongel.h"

#define GUARD 0xa5
#define MOST (2 * STATE)
#define STATE PASDRONGEL_COMPOSITION_BYTES
#define OLD_STATE 264         /* the bytes of a composition in version 0.6.0, and its cells */
#define OLD_CELLS 32
#define CELLS PASDRONGEL_CELLS
#define HEAD 8                /* where the cells begin, as docs/BYTES.md has it */
#define FOREIGN 0xc4u /* a with diaeresis, a capital */

static unsigned long facts, calls, failures;

#define FACT(fact) told((fact) != 0, #fact, __LINE__)

static void told(int holds, const char *fact, int line)
{
    facts++;
    if (!holds) {
        failures++;
        printf("tests/calls.c:%d: not so: %s\n", line, fact);
    }
}

/* ---- what is lent, and what a call left there */

static struct lent the_state, the_input, the_output, the_first, the_second;
static struct lent *const everything[] = {&the_state, &the_input, &the_output, &the_first, &the_second};
#define EVERYTHING (sizeof everything / sizeof *everything)
/* What is lent of a note line beside, and held by who lends it: a third number, and letters that are more than a page. */
static struct lent the_third, the_line;

static uint8_t state[MOST];   /* the composition, or the state of a note line, that a call is given, and its size */
static size_t state_size;
static uint32_t letters[MOST]; /* the answer of the last call that was done: letters or bytes, their count, numbers */
static uint8_t bytes[MOST];
static size_t count, place, third;
static uint32_t number;

static void *lent(struct lent *where, const void *content, size_t size)
{
    return lend(where, content, size, HIGH, GUARD);
}

static void begin(void)
{
    size_t i;
    for (i = 0; i < EVERYTHING; i++)
        lent(everything[i], NULL, 0);
    calls++;
}

/* Lends the state, room for an answer, or a number. */
static uint8_t *given(void)
{
    return lent(&the_state, state, state_size);
}

static uint32_t *room_for(size_t room)
{
    return lent(&the_output, NULL, room * sizeof(uint32_t));
}

static size_t *counted(void)
{
    return lent(&the_first, NULL, sizeof(size_t));
}

static size_t *second_count(void)
{
    return lent(&the_second, NULL, sizeof(size_t));
}

static size_t *third_count(void)
{
    return lent(&the_third, NULL, sizeof(size_t));
}

static uint32_t *told_yes(void)
{
    return lent(&the_first, NULL, sizeof(uint32_t));
}

/* What a call that is done may have written; and RECORDS: by 1 and 6 the state may change too. */
enum writes {
    NOTHING = 0, THE_STATE = 1, THE_LETTERS = 2, THE_BYTES = 4, THE_NUMBER = 8, A_COUNT = 16, TWO_PLACES = 32, THREE_COUNTS = 64,
    RECORDS = 128
};

static uint32_t end_of_call(uint32_t answer, int writes)
{
    size_t i, unit = writes & THE_LETTERS ? sizeof *letters : writes & THE_BYTES ? sizeof *bytes : 0;
    uint32_t refusal = PASDRONGEL_REFUSAL(answer);
    int recorded = writes & RECORDS && (refusal == PASDRONGEL_REFUSED_FOREIGN || refusal == PASDRONGEL_REFUSED_LONG);
    FACT(refusal == answer); /* nothing stands above the refusal in this version */
    if (refusal != PASDRONGEL_DONE) {
        for (i = 0; i < EVERYTHING; i++)
            FACT(kept(everything[i], recorded && everything[i] == &the_state ? the_state.size : 0));
        if (writes & THREE_COUNTS)
            FACT(kept(&the_third, 0));
        if (recorded)
            memcpy(state, the_state.at, the_state.size);
        return refusal;
    }
    if (unit != 0 || writes & (A_COUNT | TWO_PLACES | THREE_COUNTS))
        memcpy(&count, the_first.at, sizeof count);
    if (unit != 0) {
        FACT(count * unit <= the_output.size);
        memcpy(unit == sizeof *letters ? (void *)letters : (void *)bytes, the_output.at, count * unit);
    }
    if (writes & THE_NUMBER)
        memcpy(&number, the_first.at, sizeof number);
    if (writes & (TWO_PLACES | THREE_COUNTS))
        memcpy(&place, the_second.at, sizeof place);
    if (writes & THREE_COUNTS)
        memcpy(&third, the_third.at, sizeof third);
    memcpy(state, the_state.at, the_state.size);
    FACT(kept(&the_state, writes & THE_STATE ? the_state.size : 0));
    FACT(kept(&the_input, 0));
    FACT(kept(&the_output, unit * count));
    FACT(kept(&the_first, writes & ~(THE_STATE | RECORDS) ? the_first.size : 0));
    FACT(kept(&the_second, writes & (TWO_PLACES | THREE_COUNTS) ? the_second.size : 0));
    if (writes & THREE_COUNTS)
        FACT(kept(&the_third, the_third.size));
    return refusal;
}

/* ---- text in this file is UTF-8, and read by a reader of its own */

static size_t spelt(const char *text, uint32_t *code_points)
{
    size_t n = 0;
    while (*text != '\0') {
        unsigned char lead = (unsigned char)*text++;
        uint32_t code_point = lead < 0x80 ? lead : lead < 0xe0 ? lead & 0x1fu : lead < 0xf0 ? lead & 0xfu : lead & 7u;
        while (((unsigned char)*text & 0xc0) == 0x80)
            code_point = code_point << 6 | ((unsigned char)*text++ & 0x3fu);
        code_points[n++] = code_point;
    }
    return n;
}

static uint32_t letter_of(const char *text)
{
    uint32_t code_points[MOST];
    return spelt(text, code_points) == 1 ? code_points[0] : FOREIGN;
}

/* Is this the answer of the last call? */
static int wrote(const char *text)
{
    uint32_t code_points[MOST];
    size_t n = spelt(text, code_points);
    return count == n && memcmp(letters, code_points, n * sizeof *letters) == 0;
}

/* ---- the calls, each with guarded places */

typedef uint32_t letter_call(uint32_t letter, uint32_t *answer);

static uint32_t of_letter(letter_call *call, uint32_t letter)
{
    begin();
    return end_of_call(call(letter, told_yes()), THE_NUMBER);
}

static uint32_t check_letter(uint32_t letter)
{
    begin();
    return end_of_call(pasdrongel_check_letter(letter), NOTHING);
}

static uint32_t tone_on(uint32_t letter, uint32_t tone)
{
    begin();
    return end_of_call(pasdrongel_tone_on(letter, tone, told_yes()), THE_NUMBER);
}

static uint32_t read_utf8(const void *from, size_t length, size_t room)
{
    begin();
    return end_of_call(pasdrongel_read_utf8(lent(&the_input, from, length), length, room_for(room), room, counted()), THE_LETTERS);
}

static uint32_t write_utf8(const uint32_t *from, size_t length, size_t room)
{
    begin();
    return end_of_call(pasdrongel_write_utf8(lent(&the_input, from, length * sizeof *from), length,
                                             lent(&the_output, NULL, room), room, counted()), THE_BYTES);
}

static uint32_t start(uint32_t method)
{
    begin();
    return end_of_call(pasdrongel_new(given(), state_size, method), THE_STATE);
}

static uint32_t check_composition(void)
{
    begin();
    return end_of_call(pasdrongel_check_composition(given(), state_size), NOTHING);
}

typedef uint32_t number_call(const uint8_t *state, size_t size, uint32_t *answer);

static uint32_t of_state(number_call *call)
{
    begin();
    return end_of_call(call(given(), state_size, told_yes()), THE_NUMBER);
}

static uint32_t count_cells(void)
{
    begin();
    return end_of_call(pasdrongel_count(given(), state_size, counted()), A_COUNT);
}

static uint32_t key(uint32_t letter, size_t room)
{
    begin();
    return end_of_call(pasdrongel_key(given(), state_size, letter, room_for(room), room, counted()), THE_STATE | THE_LETTERS);
}

static uint32_t literal(uint32_t letter)
{
    begin();
    return end_of_call(pasdrongel_literal(given(), state_size, letter), THE_STATE);
}

static uint32_t text(size_t room)
{
    begin();
    return end_of_call(pasdrongel_text(given(), state_size, room_for(room), room, counted()), THE_LETTERS);
}

static uint32_t remove_last(size_t room)
{
    begin();
    return end_of_call(pasdrongel_remove_last(given(), state_size, room_for(room), room, counted()), THE_STATE | THE_LETTERS);
}

static uint32_t reset(void)
{
    begin();
    return end_of_call(pasdrongel_reset(given(), state_size), THE_STATE);
}

static uint32_t set_method(uint32_t method)
{
    begin();
    return end_of_call(pasdrongel_set_method(given(), state_size, method), THE_STATE);
}

static uint32_t set_mode(uint32_t mode)
{
    begin();
    return end_of_call(pasdrongel_set_mode(given(), state_size, mode), THE_STATE);
}

static uint32_t set_capitals(uint32_t on)
{
    begin();
    return end_of_call(pasdrongel_set_capitals(given(), state_size, on), THE_STATE);
}

static uint32_t undo_raw(uint32_t trigger, const uint32_t *raw, size_t length)
{
    begin();
    return end_of_call(pasdrongel_undo(given(), state_size, trigger, lent(&the_input, raw, length * sizeof *raw), length,
                                       told_yes()), THE_STATE | THE_NUMBER);
}

static uint32_t undo(uint32_t trigger, const char *raw)
{
    uint32_t code_points[MOST];
    size_t length = spelt(raw, code_points);
    return undo_raw(trigger, code_points, length);
}

static uint32_t write_draft(size_t room)
{
    begin();
    return end_of_call(pasdrongel_write_draft(given(), state_size, lent(&the_output, NULL, room), room, counted()), THE_BYTES);
}

static uint32_t read_draft(const void *from, size_t length)
{
    begin();
    return end_of_call(pasdrongel_read_draft(lent(&the_input, from, length), length, given(), state_size), THE_STATE);
}

typedef uint32_t key_call(uint32_t method, uint32_t key, uint32_t *answer);

static uint32_t of_key(key_call *call, uint32_t method, uint32_t letter)
{
    begin();
    return end_of_call(call(method, letter, told_yes()), THE_NUMBER);
}

static uint32_t mark_for(uint32_t method, uint32_t base, uint32_t letter)
{
    begin();
    return end_of_call(pasdrongel_mark_for(method, base, letter, told_yes()), THE_NUMBER);
}

static uint32_t cut_letters(const uint32_t *word, size_t length)
{
    begin();
    return end_of_call(pasdrongel_cut(lent(&the_input, word, length * sizeof *word), length, counted(), second_count()), TWO_PLACES);
}

static uint32_t judge_letters(const uint32_t *word, size_t length)
{
    begin();
    return end_of_call(pasdrongel_verdict(lent(&the_input, word, length * sizeof *word), length, told_yes()), THE_NUMBER);
}

/* Where so many letters of a line are lent: most are few, and need no more than other inputs. */
static struct lent *line_space(size_t length)
{
    return length * sizeof(uint32_t) <= the_input.space_size ? &the_input : &the_line;
}

static uint32_t line_check(const uint32_t *line, size_t length)
{
    struct lent *space = line_space(length);
    uint32_t answer;
    begin();
    answer = pasdrongel_line_check(lent(space, line, length * sizeof *line), length, counted(), second_count(), third_count());
    FACT(kept(space, 0));
    return end_of_call(answer, THREE_COUNTS);
}

static uint32_t line_begin(void)
{
    begin();
    return end_of_call(pasdrongel_line_begin(given(), state_size), THE_STATE);
}

static uint32_t line_part(const uint32_t *part, size_t length)
{
    struct lent *space = line_space(length);
    uint32_t answer;
    begin();
    answer = pasdrongel_line_part(given(), state_size, lent(space, part, length * sizeof *part), length);
    FACT(kept(space, 0));
    return end_of_call(answer, THE_STATE | RECORDS);
}

static uint32_t line_answer(void)
{
    begin();
    return end_of_call(pasdrongel_line_answer(given(), state_size, counted(), second_count(), third_count()), THREE_COUNTS);
}

static uint32_t total(void)
{
    begin();
    return end_of_call(pasdrongel_total(counted()), A_COUNT);
}

static uint32_t word_of(size_t wanted, size_t room)
{
    begin();
    return end_of_call(pasdrongel_word(wanted, room_for(room), room, counted()), THE_LETTERS);
}

static uint32_t next_letters(const uint32_t *after, size_t length, size_t room)
{
    begin();
    return end_of_call(pasdrongel_next_word(lent(&the_input, after, length * sizeof *after), length, room_for(room), room,
                                            counted()), THE_LETTERS);
}

/* ---- letters */

static void letters_facts(void)
{
    static letter_call *const of_one[] = {pasdrongel_lower, pasdrongel_upper, pasdrongel_is_capital,
        pasdrongel_is_white_space, pasdrongel_is_separator, pasdrongel_tone_off, pasdrongel_is_composer_vowel,
        pasdrongel_is_speller_vowel};
    static const uint32_t foreign[] = {0x80, FOREIGN, 0xd7, 0x10f, 0x1e9f, 0x1efa, 0x301, 0xd800, 0xfffd, 0x10ffff,
        0x110000, 0x80000061, 0xffffffff};
    static const uint32_t letter[] = {0, 0x7f, 0xc0, 0xfd, 0x102, 0x110, 0x1b0, 0x1ea0, 0x1ef9};
    size_t i, j;
    for (i = 0; i < sizeof letter / sizeof *letter; i++)
        FACT(check_letter(letter[i]) == PASDRONGEL_DONE);
    for (i = 0; i < sizeof foreign / sizeof *foreign; i++) {
        FACT(check_letter(foreign[i]) == PASDRONGEL_REFUSED_FOREIGN);
        for (j = 0; j < sizeof of_one / sizeof *of_one; j++)
            FACT(of_letter(of_one[j], foreign[i]) == PASDRONGEL_REFUSED_FOREIGN);
        FACT(tone_on(foreign[i], foreign[i]) == PASDRONGEL_REFUSED_FOREIGN);
        FACT(tone_on(foreign[i], 's') == PASDRONGEL_REFUSED_FOREIGN);
        FACT(tone_on('a', foreign[i]) == PASDRONGEL_REFUSED_FOREIGN);
    }
#define GIVES(call, letter, answer) FACT(of_letter(call, letter) == PASDRONGEL_DONE && number == (answer))
    GIVES(pasdrongel_lower, 'A', 'a');
    GIVES(pasdrongel_lower, letter_of("Ấ"), letter_of("ấ"));
    GIVES(pasdrongel_lower, letter_of("Đ"), letter_of("đ"));
    GIVES(pasdrongel_lower, '1', '1');
    GIVES(pasdrongel_upper, letter_of("ỹ"), letter_of("Ỹ"));
    GIVES(pasdrongel_upper, letter_of("à"), letter_of("À"));
    GIVES(pasdrongel_upper, 'Z', 'Z');
    GIVES(pasdrongel_is_capital, letter_of("Ư"), 1);
    GIVES(pasdrongel_is_capital, letter_of("ư"), 0);
    GIVES(pasdrongel_is_white_space, 0x20, 1);
    GIVES(pasdrongel_is_white_space, 0x0d, 1);
    GIVES(pasdrongel_is_white_space, 0x1c, 0);
    for (i = 0; i < 0x80; i++)
        GIVES(pasdrongel_is_separator, (uint32_t)i, (i >= 9 && i <= 13) || (i != 0 && strchr(" .,!?;:", (int)i) != NULL));
    for (i = 2; i < sizeof letter / sizeof *letter; i++)
        GIVES(pasdrongel_is_separator, letter[i], 0);
    GIVES(pasdrongel_tone_off, letter_of("ầ"), letter_of("â"));
    GIVES(pasdrongel_tone_off, letter_of("Ầ"), letter_of("Ầ"));
    GIVES(pasdrongel_is_composer_vowel, 'Y', 1);
    GIVES(pasdrongel_is_composer_vowel, letter_of("ă"), 1);
    GIVES(pasdrongel_is_composer_vowel, letter_of("Ă"), 0);
    GIVES(pasdrongel_is_composer_vowel, letter_of("ầ"), 0);
    GIVES(pasdrongel_is_speller_vowel, letter_of("ầ"), 1);
    GIVES(pasdrongel_is_speller_vowel, 'A', 0);
#undef GIVES
    FACT(tone_on('a', 's') == PASDRONGEL_DONE && number == letter_of("á"));
    FACT(tone_on('A', '5') == PASDRONGEL_DONE && number == letter_of("ạ"));
    FACT(tone_on(letter_of("ư"), 'x') == PASDRONGEL_DONE && number == letter_of("ữ"));
    FACT(tone_on(letter_of("Ư"), 'x') == PASDRONGEL_DONE && number == letter_of("Ư"));
    FACT(tone_on('b', 's') == PASDRONGEL_DONE && number == 'b');
    FACT(tone_on('a', 'z') == PASDRONGEL_DONE && number == 'a');
    FACT(tone_on('a', 0) == PASDRONGEL_DONE && number == 'a');
}

/* ---- UTF-8 */

static void utf8_facts(void)
{
    uint8_t line[PASDRONGEL_LINE_BYTES + 1];
    uint32_t word[PASDRONGEL_WORD_LETTERS + 1];
    size_t i;
    /* the ladder of the reader: 6, then 8 or 1 by the first faulty character, 3 */
    memset(line, 'a', sizeof line);
    line[100] = 0xff;
    FACT(read_utf8(line, PASDRONGEL_LINE_BYTES + 1, 0) == PASDRONGEL_REFUSED_LONG);
    FACT(read_utf8(line, PASDRONGEL_LINE_BYTES, 0) == PASDRONGEL_REFUSED_MALFORMED);
    line[98] = 0xc3, line[99] = 0x84;
    FACT(read_utf8(line, PASDRONGEL_LINE_BYTES, 0) == PASDRONGEL_REFUSED_FOREIGN);
    line[97] = 0xc3;
    FACT(read_utf8(line, PASDRONGEL_LINE_BYTES, 0) == PASDRONGEL_REFUSED_MALFORMED);
    memset(line, 'a', sizeof line);
    FACT(read_utf8(line, PASDRONGEL_LINE_BYTES, PASDRONGEL_READ_ROOM - 1) == PASDRONGEL_REFUSED_SHORT);
    FACT(read_utf8(line, PASDRONGEL_LINE_BYTES, PASDRONGEL_READ_ROOM) == PASDRONGEL_DONE && count == PASDRONGEL_LINE_BYTES);
    FACT(read_utf8("", 0, 0) == PASDRONGEL_DONE && count == 0);
    FACT(read_utf8("pha\xcc\x82n", 6, 8) == PASDRONGEL_REFUSED_FOREIGN);
    FACT(read_utf8("ph\xc3\xa2n", 5, 3) == PASDRONGEL_REFUSED_SHORT);
    FACT(read_utf8("ph\xc3\xa2n", 5, 4) == PASDRONGEL_DONE && wrote("phân"));
    FACT(read_utf8("\xe1\xbb\xb9", 3, 9) == PASDRONGEL_DONE && wrote("ỹ"));
    FACT(read_utf8("\xe1\xbb", 2, 9) == PASDRONGEL_REFUSED_MALFORMED);
    FACT(read_utf8("\xc1\xa1", 2, 9) == PASDRONGEL_REFUSED_MALFORMED);
    FACT(read_utf8("\xed\xa0\x80", 3, 9) == PASDRONGEL_REFUSED_MALFORMED);
    FACT(read_utf8("\xf0\x9f\x8c\xbf", 4, 9) == PASDRONGEL_REFUSED_FOREIGN);
    FACT(read_utf8("\xf4\x90\x80\x80", 4, 9) == PASDRONGEL_REFUSED_MALFORMED);
    FACT(read_utf8("\0", 1, 1) == PASDRONGEL_DONE && count == 1 && letters[0] == 0);

    /* the ladder of the writer: 6, 1, 3 */
    for (i = 0; i < sizeof word / sizeof *word; i++)
        word[i] = letter_of("ỹ");
    word[63] = FOREIGN;
    FACT(write_utf8(word, PASDRONGEL_WORD_LETTERS + 1, 0) == PASDRONGEL_REFUSED_LONG);
    FACT(write_utf8(word, PASDRONGEL_WORD_LETTERS, 0) == PASDRONGEL_REFUSED_FOREIGN);
    word[63] = word[0];
    FACT(write_utf8(word, PASDRONGEL_WORD_LETTERS, PASDRONGEL_WRITE_ROOM - 1) == PASDRONGEL_REFUSED_SHORT);
    FACT(write_utf8(word, PASDRONGEL_WORD_LETTERS, PASDRONGEL_WRITE_ROOM) == PASDRONGEL_DONE && count == PASDRONGEL_WRITE_ROOM);
    FACT(write_utf8(word, 0, 0) == PASDRONGEL_DONE && count == 0);
    FACT(write_utf8(word, spelt("đầy", word), 9) == PASDRONGEL_DONE && count == 6 && memcmp(bytes, "đầy", 6) == 0);
}

/* ---- the composition */

static void fresh(uint32_t method)
{
    memset(state, GUARD, sizeof state);
    state_size = STATE;
    FACT(start(method) == PASDRONGEL_DONE);
}

/* Types keys, each with room for the whole text; the composition stays sound. */
static void type(const char *keys)
{
    uint32_t code_points[MOST];
    size_t i, n = spelt(keys, code_points);
    for (i = 0; i < n; i++) {
        FACT(key(code_points[i], PASDRONGEL_TEXT_ROOM) == PASDRONGEL_DONE);
        FACT(check_composition() == PASDRONGEL_DONE);
    }
}

/* Is the text of the composition this one, by the last answer and by the call for it? */
static int shows(const char *expected)
{
    return text(PASDRONGEL_TEXT_ROOM) == PASDRONGEL_DONE && wrote(expected);
}

static int types(uint32_t method, const char *keys, const char *expected)
{
    fresh(method);
    type(keys);
    return wrote(expected) && shows(expected);
}

/* The cell i of the composition. */
static uint8_t *cell(size_t i)
{
    return state + HEAD + 8 * i;
}

/* Every call that is given a composition refuses this one by 10, whatever else is wrong, and leaves it. */
static void unsound(void)
{
    uint32_t raw[PASDRONGEL_WORD_LETTERS + 1] = {FOREIGN};
    FACT(check_composition() == PASDRONGEL_REFUSED_UNSOUND);
    FACT(of_state(pasdrongel_method) == PASDRONGEL_REFUSED_UNSOUND);
    FACT(of_state(pasdrongel_mode) == PASDRONGEL_REFUSED_UNSOUND);
    FACT(of_state(pasdrongel_capitals) == PASDRONGEL_REFUSED_UNSOUND);
    FACT(count_cells() == PASDRONGEL_REFUSED_UNSOUND);
    FACT(key(FOREIGN, 0) == PASDRONGEL_REFUSED_UNSOUND);
    FACT(key('a', PASDRONGEL_TEXT_ROOM) == PASDRONGEL_REFUSED_UNSOUND);
    FACT(literal(FOREIGN) == PASDRONGEL_REFUSED_UNSOUND);
    FACT(literal('a') == PASDRONGEL_REFUSED_UNSOUND);
    FACT(text(0) == PASDRONGEL_REFUSED_UNSOUND);
    FACT(text(PASDRONGEL_TEXT_ROOM) == PASDRONGEL_REFUSED_UNSOUND);
    FACT(remove_last(0) == PASDRONGEL_REFUSED_UNSOUND);
    FACT(remove_last(PASDRONGEL_TEXT_ROOM) == PASDRONGEL_REFUSED_UNSOUND);
    FACT(reset() == PASDRONGEL_REFUSED_UNSOUND);
    FACT(set_method(PASDRONGEL_VNI) == PASDRONGEL_REFUSED_UNSOUND);
    FACT(set_mode(PASDRONGEL_ENGLISH) == PASDRONGEL_REFUSED_UNSOUND);
    FACT(set_capitals(PASDRONGEL_CAPITALS_OFF) == PASDRONGEL_REFUSED_UNSOUND);
    FACT(set_capitals(PASDRONGEL_CAPITALS_ON) == PASDRONGEL_REFUSED_UNSOUND);
    FACT(set_capitals(2) == PASDRONGEL_REFUSED_UNSOUND);
    FACT(undo_raw(FOREIGN, raw, PASDRONGEL_WORD_LETTERS + 1) == PASDRONGEL_REFUSED_UNSOUND);
    FACT(undo('s', "as") == PASDRONGEL_REFUSED_UNSOUND);
    FACT(write_draft(0) == PASDRONGEL_REFUSED_UNSOUND);
    FACT(write_draft(PASDRONGEL_DRAFT_ROOM) == PASDRONGEL_REFUSED_UNSOUND);
}

/* Puts one byte of the composition to a value that makes it unsound, and back. */
static void unsound_at(size_t at, uint8_t value)
{
    uint8_t old = state[at];
    FACT(check_composition() == PASDRONGEL_DONE);
    state[at] = value;
    unsound();
    state[at] = old;
}

static void soundness_facts(void)
{
    static const char tones[] = "fsrxj12345";
    static const char *const marks[] = {"ă", "â", "ê", "ô", "ơ", "ư", "đ"};
    size_t i, j;
    /* another length, with bytes that would do */
    fresh(PASDRONGEL_TELEX);
    memset(state + STATE, 0, sizeof state - STATE);
    for (state_size = 0; state_size <= 2 * STATE; state_size += state_size == STATE - 2 ? 1 : STATE / 7)
        if (state_size != STATE)
            unsound();
    for (state_size = STATE - 1; state_size <= STATE + 1; state_size += 2)
        unsound();
    state_size = STATE;
    /* bytes that spell no method, mode, count, setting of capitals or cell: a cell with mark, tone and flag, and one without */
    fresh(PASDRONGEL_TELEX);
    type("DDaf");
    FACT(shows("đà") && state[2] == 2 && cell(0)[7] == 1 && cell(1)[6] == 'f');
    unsound_at(0, 2);
    unsound_at(0, 0xff);
    unsound_at(1, 2);
    unsound_at(2, CELLS + 1);
    unsound_at(2, 0xff);
    for (i = 2; i < 256; i++) {               /* each count up to the last cell, where the cells between are U+0000 */
        state[2] = (uint8_t)i;
        FACT(check_composition() == (i <= CELLS ? PASDRONGEL_DONE : PASDRONGEL_REFUSED_UNSOUND));
        FACT(count_cells() == (i <= CELLS ? PASDRONGEL_DONE : PASDRONGEL_REFUSED_UNSOUND) && (i > CELLS || count == i));
    }
    state[2] = 2;
    unsound_at(2, 1);                         /* the second cell stands past the count */
    unsound_at(3, 2);
    unsound_at(3, 0x80);
    unsound_at(3, 0xff);
    for (i = 4; i < HEAD; i++) {              /* the reserved bytes are 0 */
        unsound_at(i, 1);
        unsound_at(i, 0xff);
    }
    state[3] = PASDRONGEL_CAPITALS_ON;        /* and so they are with capitals on */
    FACT(check_composition() == PASDRONGEL_DONE && shows("Đà"));
    for (i = 4; i < HEAD; i++)
        unsound_at(i, 1);
    state[3] = PASDRONGEL_CAPITALS_OFF;
    for (i = 0; i < 6; i++)
        unsound_at(HEAD + i, (uint8_t)(cell(0)[i] ^ 0x10)); /* a mark that is not its base, a base that is no letter */
    unsound_at(HEAD + 6, 'z');
    unsound_at(HEAD + 6, 'F');
    unsound_at(HEAD + 6, '6');
    unsound_at(HEAD + 7, 2);
    unsound_at(HEAD + 7, 0xff);
    unsound_at(HEAD + 8, 0x80);
    unsound_at(HEAD + 8 + 2, 1);
    unsound_at(HEAD + 8 + 3, 0x80);
    unsound_at(HEAD + 8 + 4, 'a');            /* a is no mark, even as its own base */
    for (i = HEAD + 16; i < STATE; i++) {     /* every cell past the count is blank, byte by byte */
        uint8_t old = state[i];
        state[i] = 1;
        FACT(check_composition() == PASDRONGEL_REFUSED_UNSOUND);
        FACT(reset() == PASDRONGEL_REFUSED_UNSOUND);
        state[i] = old;
    }
    /* and so is each cell up to the last tested: its base, its mark, its tone and its flag */
    fresh(PASDRONGEL_TELEX);
    while (state[2] < CELLS)
        FACT(literal('b') == PASDRONGEL_DONE);
    for (i = 0; i < CELLS; i++)
        for (j = 0; j < 8; j++) {
            uint8_t old = cell(i)[j];
            cell(i)[j] = 0x80;
            FACT(check_composition() == PASDRONGEL_REFUSED_UNSOUND);
            FACT(text(PASDRONGEL_TEXT_ROOM) == PASDRONGEL_REFUSED_UNSOUND);
            cell(i)[j] = old;
        }
    FACT(check_composition() == PASDRONGEL_DONE);
    /* sound cells that no key makes: a capital with no flag, a flag on U+0000, every tone on a consonant, every mark's
     * letter with no mark and with it */
    for (i = 0; tones[i] != '\0'; i++) {
        fresh(PASDRONGEL_VNI);
        state[2] = 3;
        cell(0)[0] = 'B', cell(1)[7] = 1, cell(2)[0] = 'c', cell(2)[6] = (uint8_t)tones[i];
        FACT(check_composition() == PASDRONGEL_DONE);
        FACT(text(3) == PASDRONGEL_DONE && count == 3 && letters[0] == 'B' && letters[1] == 0 && letters[2] == 'c');
    }
    for (i = 0; i < 7; i++)
        for (j = 0; j < 2; j++) {
            uint32_t mark = letter_of(marks[i]);
            fresh(PASDRONGEL_TELEX);
            state[2] = 1;
            cell(0)[0] = (uint8_t)mark, cell(0)[1] = (uint8_t)(mark >> 8);
            cell(0)[4] = (uint8_t)(j * mark), cell(0)[5] = (uint8_t)(j * mark >> 8);
            FACT(check_composition() == PASDRONGEL_DONE && shows(marks[i]));
        }
    /* new takes bytes of any content, but so many of them and a method */
    memset(state, GUARD, sizeof state);
    for (state_size = STATE - 1; state_size <= STATE + 1; state_size += 2)
        FACT(start(PASDRONGEL_TELEX) == PASDRONGEL_REFUSED_UNSOUND);
    state_size = 0;
    FACT(start(PASDRONGEL_TELEX) == PASDRONGEL_REFUSED_UNSOUND);
    state_size = STATE;
    FACT(start(2) == PASDRONGEL_REFUSED_UNSOUND);
    FACT(start(0x100) == PASDRONGEL_REFUSED_UNSOUND);
    FACT(start(0xffffffff) == PASDRONGEL_REFUSED_UNSOUND);
    FACT(start(PASDRONGEL_VNI) == PASDRONGEL_DONE && state[0] == 1 && shows(""));
    for (i = 1; i < STATE; i++)
        FACT(state[i] == 0);
}

/* A host that was compiled for version 0.6.0 lends 264 bytes, and has made them as that version does: the same head, and 32 cells.
 * Every call that is given them refuses them by 10, and so do the two that make a composition, whatever stands there. */
static void old_bytes_facts(void)
{
    uint8_t draft[MOST];
    uint32_t method;
    size_t i, length;
    for (method = 0; method < 2; method++)
        for (i = 0; i <= OLD_CELLS; i++) {
            fresh(method);
            while (state[2] < i)
                FACT(literal(letter_of("Ấ")) == PASDRONGEL_DONE);
            FACT(write_draft(PASDRONGEL_DRAFT_ROOM) == PASDRONGEL_DONE);
            length = count;
            memcpy(draft, bytes, length);
            state_size = OLD_STATE;
            unsound();
            FACT(start(method) == PASDRONGEL_REFUSED_UNSOUND && read_draft(draft, length) == PASDRONGEL_REFUSED_UNSOUND);
            state_size = STATE;
            FACT(check_composition() == PASDRONGEL_DONE && read_draft(draft, length) == PASDRONGEL_DONE && state[2] == i);
        }
}

/* Are these the numbers of the composition? */
static int has(uint32_t method, uint32_t mode, size_t cells)
{
    return of_state(pasdrongel_method) == PASDRONGEL_DONE && number == method
        && of_state(pasdrongel_mode) == PASDRONGEL_DONE && number == mode && count_cells() == PASDRONGEL_DONE && count == cells;
}

/* Is capitals on or off, by the call and by the byte? */
static int capitals_are(uint32_t on)
{
    return of_state(pasdrongel_capitals) == PASDRONGEL_DONE && number == on && state[3] == on;
}

/* The numbers of a composition; that they refuse by 10, `unsound` asks. */
static void number_facts(void)
{
    size_t i;
    fresh(PASDRONGEL_TELEX);
    FACT(has(PASDRONGEL_TELEX, PASDRONGEL_VIETNAMESE, 0));
    FACT(types(PASDRONGEL_TELEX, "Vieetj", "Việt") && has(PASDRONGEL_TELEX, PASDRONGEL_VIETNAMESE, 4));
    FACT(remove_last(PASDRONGEL_TEXT_ROOM) == PASDRONGEL_DONE && has(PASDRONGEL_TELEX, PASDRONGEL_VIETNAMESE, 3));
    FACT(set_mode(PASDRONGEL_ENGLISH) == PASDRONGEL_DONE && has(PASDRONGEL_TELEX, PASDRONGEL_ENGLISH, 0));
    FACT(set_method(PASDRONGEL_VNI) == PASDRONGEL_DONE && has(PASDRONGEL_VNI, PASDRONGEL_ENGLISH, 0));
    for (i = 1; i <= PASDRONGEL_CELLS; i++)
        FACT(literal('x') == PASDRONGEL_DONE && has(PASDRONGEL_VNI, PASDRONGEL_ENGLISH, i));
    FACT(literal('x') == PASDRONGEL_REFUSED_FULL && has(PASDRONGEL_VNI, PASDRONGEL_ENGLISH, PASDRONGEL_CELLS));
    FACT(set_mode(PASDRONGEL_VIETNAMESE) == PASDRONGEL_DONE && has(PASDRONGEL_VNI, PASDRONGEL_VIETNAMESE, PASDRONGEL_CELLS));
    FACT(reset() == PASDRONGEL_DONE && has(PASDRONGEL_VNI, PASDRONGEL_VIETNAMESE, 0));
    state[2] = 5;  /* cells of U+0000 */
    FACT(has(PASDRONGEL_VNI, PASDRONGEL_VIETNAMESE, 5));
}

/* The paper's examples for the composer. */
static void example_facts(void)
{
    static const struct {
        uint32_t method;
        const char *keys, *text;
    } examples[] = {
        {PASDRONGEL_TELEX, "dad", "đa"}, {PASDRONGEL_TELEX, "osaf", "óà"}, {PASDRONGEL_TELEX, "uosw", "ươ"},
        {PASDRONGEL_TELEX, "uows", "ướ"}, {PASDRONGEL_TELEX, "AAN", "âN"}, {PASDRONGEL_TELEX, "quar", "quả"},
        {PASDRONGEL_TELEX, "gif", "gì"}, {PASDRONGEL_TELEX, "quow", "qươ"}, {PASDRONGEL_TELEX, "quaw", "quă"},
        {PASDRONGEL_TELEX, "xuaw", "xưa"}, {PASDRONGEL_TELEX, "a.s", "a."}, {PASDRONGEL_TELEX, "abbbbw", "ăbbbb"},
        {PASDRONGEL_TELEX, "abbbbbw", "abbbbbw"}, {PASDRONGEL_TELEX, "uobbbbw", "ươbbbb"},
        {PASDRONGEL_TELEX, "uobbbbbw", "uobbbbbw"}, {PASDRONGEL_TELEX, "As", "á"}, {PASDRONGEL_TELEX, "Âs", "Âs"},
        {PASDRONGEL_TELEX, "uOw", "ươ"}, {PASDRONGEL_TELEX, "nguyeenx", "nguyễn"}, {PASDRONGEL_TELEX, "s", "s"},
        {PASDRONGEL_TELEX, "pha6n2", "pha6n2"}, {PASDRONGEL_VNI, "pha6n2", "phần"}, {PASDRONGEL_VNI, "d9u7o7ng2", "đường"},
        {PASDRONGEL_VNI, "duo7c5", "dược"}, {PASDRONGEL_VNI, "a8", "ă"}, {PASDRONGEL_VNI, "dd", "dd"},
        {PASDRONGEL_VNI, "1", "1"},
    };
    size_t i;
    for (i = 0; i < sizeof examples / sizeof *examples; i++) {
        FACT(types(examples[i].method, examples[i].keys, examples[i].text));
        if (!wrote(examples[i].text))
            printf("    that is: %s gives %s\n", examples[i].keys, examples[i].text);
    }
    /* the tone that stands on a separator is in the composition, and no text shows it */
    FACT(types(PASDRONGEL_TELEX, "a.s", "a.") && cell(1)[6] == 's');
    /* the pale house: the tank's number is taken for a tone key, and set on the space */
    FACT(types(PASDRONGEL_VNI, "pha6n 2", "phân ") && cell(4)[6] == '2');
    /* and how a host avoids it: a reset at each separator */
    FACT(types(PASDRONGEL_VNI, "pha6n", "phân"));
    FACT(reset() == PASDRONGEL_DONE);
    type("2");
    FACT(wrote("2"));
}

static void key_facts(void)
{
    uint32_t i;
    /* the ladder of the key: 10, 1, 2, 3 */
    fresh(PASDRONGEL_TELEX);
    for (i = 0; i < CELLS; i++)
        FACT(key('b', PASDRONGEL_TEXT_ROOM) == PASDRONGEL_DONE && count == i + 1);
    FACT(text(PASDRONGEL_TEXT_ROOM) == PASDRONGEL_DONE && count == PASDRONGEL_TEXT_ROOM); /* the room that always suffices */
    FACT(text(PASDRONGEL_TEXT_ROOM - 1) == PASDRONGEL_REFUSED_SHORT);
    state[0] = 2;
    FACT(key(FOREIGN, 0) == PASDRONGEL_REFUSED_UNSOUND);
    state[0] = PASDRONGEL_TELEX;
    FACT(key(FOREIGN, 0) == PASDRONGEL_REFUSED_FOREIGN);
    FACT(key('b', 0) == PASDRONGEL_REFUSED_FULL);
    FACT(key('b', PASDRONGEL_TEXT_ROOM) == PASDRONGEL_REFUSED_FULL);
    FACT(remove_last(CELLS - 2) == PASDRONGEL_REFUSED_SHORT);
    FACT(remove_last(PASDRONGEL_TEXT_ROOM) == PASDRONGEL_DONE && count == CELLS - 1);
    FACT(key('d', CELLS - 1) == PASDRONGEL_REFUSED_SHORT);
    FACT(key('d', CELLS) == PASDRONGEL_DONE && count == CELLS);
    /* a mark key on 96 cells works, and so does a tone key; each still needs the room */
    FACT(key('d', CELLS - 1) == PASDRONGEL_REFUSED_SHORT);
    FACT(key('d', CELLS) == PASDRONGEL_DONE && letters[CELLS - 1] == letter_of("đ"));
    FACT(remove_last(CELLS - 1) == PASDRONGEL_DONE);
    FACT(key('a', CELLS) == PASDRONGEL_DONE && key('j', CELLS) == PASDRONGEL_DONE && letters[CELLS - 1] == letter_of("ạ"));
    FACT(key('j', 0) == PASDRONGEL_REFUSED_SHORT);
    FACT(key('b', 0) == PASDRONGEL_REFUSED_FULL);
    FACT(key('w', CELLS) == PASDRONGEL_DONE && letters[CELLS - 1] == letter_of("ặ"));
    /* and so do the keys of the horned pair */
    fresh(PASDRONGEL_VNI);
    for (i = 0; i < CELLS; i++)
        FACT(key(i == CELLS - 2 ? 'u' : i == CELLS - 1 ? 'o' : 'b', PASDRONGEL_TEXT_ROOM) == PASDRONGEL_DONE);
    FACT(key('7', CELLS) == PASDRONGEL_DONE && letters[CELLS - 2] == letter_of("ư") && letters[CELLS - 1] == letter_of("ơ"));
    FACT(key('2', CELLS) == PASDRONGEL_DONE && letters[CELLS - 1] == letter_of("ờ") && count == CELLS);
    FACT(key('n', CELLS) == PASDRONGEL_REFUSED_FULL);
    /* English: the letter passes through, nothing changes; no 2, and 3 where one letter has no room */
    FACT(set_mode(PASDRONGEL_ENGLISH) == PASDRONGEL_DONE);
    for (i = 0; i < CELLS; i++)
        FACT(literal('x') == PASDRONGEL_DONE);
    FACT(key(FOREIGN, 0) == PASDRONGEL_REFUSED_FOREIGN);
    FACT(key('s', 0) == PASDRONGEL_REFUSED_SHORT);
    FACT(key('s', 1) == PASDRONGEL_DONE && wrote("s") && state[2] == CELLS);
    FACT(key('S', 9) == PASDRONGEL_DONE && wrote("S"));
}

static void change_facts(void)
{
    uint8_t before[STATE];
    size_t i;
    /* the ladder of the literal: 10, 1, 2; it is appended in either mode and composes nothing */
    FACT(types(PASDRONGEL_TELEX, "a", "a"));
    FACT(literal('s') == PASDRONGEL_DONE && shows("as"));
    FACT(literal(letter_of("Ấ")) == PASDRONGEL_DONE && shows("asẤ") && cell(2)[7] == 1);
    FACT(set_mode(PASDRONGEL_ENGLISH) == PASDRONGEL_DONE && shows(""));
    for (i = 0; i < CELLS; i++)
        FACT(literal('a') == PASDRONGEL_DONE);
    state[1] = 7;
    FACT(literal(FOREIGN) == PASDRONGEL_REFUSED_UNSOUND);
    state[1] = PASDRONGEL_ENGLISH;
    FACT(literal(FOREIGN) == PASDRONGEL_REFUSED_FOREIGN);
    FACT(literal('a') == PASDRONGEL_REFUSED_FULL);
    FACT(set_mode(PASDRONGEL_VIETNAMESE) == PASDRONGEL_DONE && state[2] == CELLS);

    /* the ladder of the text: 10, 3 */
    FACT(types(PASDRONGEL_TELEX, "tieens", "tiến"));
    state[1] = 2;
    FACT(text(0) == PASDRONGEL_REFUSED_UNSOUND);
    state[1] = PASDRONGEL_VIETNAMESE;
    FACT(text(0) == PASDRONGEL_REFUSED_SHORT);
    FACT(text(3) == PASDRONGEL_REFUSED_SHORT);
    FACT(text(4) == PASDRONGEL_DONE && wrote("tiến"));

    /* the ladder of the removal: 10, 4, 3. It needs room for what is left alone */
    FACT(remove_last(2) == PASDRONGEL_REFUSED_SHORT);
    FACT(remove_last(3) == PASDRONGEL_DONE && wrote("tiế") && shows("tiế"));
    FACT(remove_last(2) == PASDRONGEL_DONE && remove_last(1) == PASDRONGEL_DONE && wrote("t"));
    FACT(remove_last(0) == PASDRONGEL_DONE && count == 0);
    FACT(remove_last(0) == PASDRONGEL_REFUSED_EMPTY);
    cell(0)[0] = 't';
    FACT(remove_last(0) == PASDRONGEL_REFUSED_UNSOUND);
    cell(0)[0] = 0;
    fresh(PASDRONGEL_TELEX);
    memcpy(before, state, STATE);
    type("DDeens");
    for (i = state[2]; i > 0; i--)
        FACT(remove_last(PASDRONGEL_TEXT_ROOM) == PASDRONGEL_DONE);
    FACT(memcmp(before, state, STATE) == 0);  /* a removed cell is blank again */

    /* reset and settings refuse by 10 alone: an unsound composition, or a number that is no method or mode */
    FACT(types(PASDRONGEL_VNI, "a1", "á"));
    FACT(set_method(2) == PASDRONGEL_REFUSED_UNSOUND && set_method(0x100) == PASDRONGEL_REFUSED_UNSOUND);
    FACT(set_mode(2) == PASDRONGEL_REFUSED_UNSOUND && set_mode(0xffffffff) == PASDRONGEL_REFUSED_UNSOUND);
    FACT(set_mode(PASDRONGEL_VIETNAMESE) == PASDRONGEL_DONE && shows("á"));
    FACT(reset() == PASDRONGEL_DONE && shows("") && state[0] == PASDRONGEL_VNI && state[1] == PASDRONGEL_VIETNAMESE);
    FACT(set_mode(PASDRONGEL_ENGLISH) == PASDRONGEL_DONE && literal('a') == PASDRONGEL_DONE && shows("a"));
    FACT(set_mode(PASDRONGEL_ENGLISH) == PASDRONGEL_DONE && shows(""));
    FACT(literal('a') == PASDRONGEL_DONE && set_method(PASDRONGEL_TELEX) == PASDRONGEL_DONE && shows(""));
    FACT(state[0] == PASDRONGEL_TELEX && state[1] == PASDRONGEL_ENGLISH);
    FACT(literal('a') == PASDRONGEL_DONE && reset() == PASDRONGEL_DONE && shows("") && state[1] == PASDRONGEL_ENGLISH);
    FACT(literal('a') == PASDRONGEL_DONE && set_mode(PASDRONGEL_VIETNAMESE) == PASDRONGEL_DONE && shows("a"));
    type("s");
    FACT(wrote("á"));
}

/* Sets capitals; that byte alone has changed. */
static int turns(uint32_t on)
{
    uint8_t expected[STATE];
    memcpy(expected, state, STATE);
    expected[3] = (uint8_t)on;
    return set_capitals(on) == PASDRONGEL_DONE && memcmp(state, expected, STATE) == 0 && capitals_are(on);
}

static int types_with(uint32_t on, uint32_t method, const char *keys, const char *expected)
{
    fresh(method);
    FACT(turns(on));
    type(keys);
    return wrote(expected) && shows(expected) && capitals_are(on);
}

/* What the keys give off and on. A cell that is no capital is the same under both, and so is what the keys have not changed. */
static void capital_examples(void)
{
    static const struct {
        uint32_t method;
        const char *keys, *off, *on;
    } examples[] = {
        {PASDRONGEL_TELEX, "AAN", "âN", "ÂN"}, {PASDRONGEL_TELEX, "As", "á", "Á"}, {PASDRONGEL_TELEX, "AS", "á", "Á"},
        {PASDRONGEL_TELEX, "DD", "đ", "Đ"}, {PASDRONGEL_TELEX, "Dd", "đ", "Đ"}, {PASDRONGEL_TELEX, "dD", "đ", "đ"},
        {PASDRONGEL_TELEX, "aA", "â", "â"}, {PASDRONGEL_TELEX, "aS", "á", "á"}, {PASDRONGEL_TELEX, "UOW", "ươ", "ƯƠ"},
        {PASDRONGEL_TELEX, "uOw", "ươ", "ưƠ"}, {PASDRONGEL_TELEX, "Uow", "ươ", "Ươ"}, {PASDRONGEL_TELEX, "uoW", "ươ", "ươ"},
        {PASDRONGEL_TELEX, "UOWS", "ướ", "ƯỚ"}, {PASDRONGEL_TELEX, "UOSW", "ươ", "ƯƠ"}, {PASDRONGEL_TELEX, "uOsw", "ươ", "ưƠ"},
        {PASDRONGEL_TELEX, "QUAR", "QUả", "QUẢ"}, {PASDRONGEL_TELEX, "Quar", "Quả", "Quả"}, {PASDRONGEL_TELEX, "GIF", "Gì", "GÌ"},
        {PASDRONGEL_TELEX, "DAD", "đA", "ĐA"}, {PASDRONGEL_TELEX, "OSAF", "óà", "ÓÀ"}, {PASDRONGEL_TELEX, "QUOW", "Qươ", "QƯƠ"},
        {PASDRONGEL_TELEX, "QUAW", "QUă", "QUĂ"}, {PASDRONGEL_TELEX, "XUAW", "XưA", "XƯA"}, {PASDRONGEL_TELEX, "A.S", "A.", "A."},
        {PASDRONGEL_TELEX, "UOBBBBW", "ươBBBB", "ƯƠBBBB"}, {PASDRONGEL_TELEX, "UOBBBBBW", "UOBBBBBW", "UOBBBBBW"},
        {PASDRONGEL_TELEX, "NGUYEENX", "NGUYễN", "NGUYỄN"}, {PASDRONGEL_TELEX, "Nguyeenx", "Nguyễn", "Nguyễn"},
        {PASDRONGEL_TELEX, "aan", "ân", "ân"}, {PASDRONGEL_TELEX, "Âs", "Âs", "Âs"}, {PASDRONGEL_TELEX, "âS", "ấ", "ấ"},
        {PASDRONGEL_TELEX, "Ấđ", "Ấđ", "Ấđ"}, {PASDRONGEL_TELEX, "Ab.Bs", "Ab.B", "Ab.B"}, {PASDRONGEL_TELEX, "S1", "S1", "S1"},
        {PASDRONGEL_VNI, "PHA6N", "PHâN", "PHÂN"}, {PASDRONGEL_VNI, "PHA6N2", "PHầN", "PHẦN"}, {PASDRONGEL_VNI, "A61", "ấ", "Ấ"},
        {PASDRONGEL_VNI, "D9", "đ", "Đ"}, {PASDRONGEL_VNI, "A8", "ă", "Ă"}, {PASDRONGEL_VNI, "d9U7o7ng2", "đường", "đƯờng"},
        {PASDRONGEL_VNI, "uO7", "ươ", "ưƠ"}, {PASDRONGEL_VNI, "Uo7", "ươ", "Ươ"}, {PASDRONGEL_VNI, "UO7", "ươ", "ƯƠ"},
        {PASDRONGEL_VNI, "PHA6N 2", "PHâN ", "PHÂN "}, {PASDRONGEL_VNI, "DD", "DD", "DD"},
    };
    size_t i;
    for (i = 0; i < sizeof examples / sizeof *examples; i++) {
        FACT(types_with(PASDRONGEL_CAPITALS_OFF, examples[i].method, examples[i].keys, examples[i].off));
        if (!wrote(examples[i].off))
            printf("    that is: off, %s gives %s\n", examples[i].keys, examples[i].off);
        FACT(types(examples[i].method, examples[i].keys, examples[i].off)); /* off at first */
        FACT(types_with(PASDRONGEL_CAPITALS_ON, examples[i].method, examples[i].keys, examples[i].on));
        if (!wrote(examples[i].on))
            printf("    that is: on, %s gives %s\n", examples[i].keys, examples[i].on);
        /* off again the same cells show what the keys give off */
        FACT(turns(PASDRONGEL_CAPITALS_OFF) && shows(examples[i].off));
    }
}

static void capitals_facts(void)
{
    static const uint32_t neither[] = {2, 0xff, 0x100, 0x101, 0x80000001, 0xffffffff};
    uint32_t on;
    size_t i;
    /* a new composition has it off, whatever stood there */
    fresh(PASDRONGEL_TELEX);
    FACT(capitals_are(PASDRONGEL_CAPITALS_OFF));
    FACT(turns(PASDRONGEL_CAPITALS_ON) && start(PASDRONGEL_VNI) == PASDRONGEL_DONE && capitals_are(PASDRONGEL_CAPITALS_OFF));
    memset(state, 1, sizeof state);
    FACT(start(PASDRONGEL_TELEX) == PASDRONGEL_DONE && capitals_are(PASDRONGEL_CAPITALS_OFF));

    capital_examples();

    /* it refuses by 10 alone: an unsound composition, which `unsound` asks, or a number that is neither */
    for (on = 0; on < 2; on++) {
        FACT(types_with(on, PASDRONGEL_TELEX, "AAN", on ? "ÂN" : "âN"));
        for (i = 0; i < sizeof neither / sizeof *neither; i++)
            FACT(set_capitals(neither[i]) == PASDRONGEL_REFUSED_UNSOUND && capitals_are(on));
        unsound_at(3, 2);
        unsound_at(4, 1);
        state_size = STATE + 1;
        unsound();
        state_size = STATE - 1;
        unsound();
        state_size = STATE;
    }

    /* it may be turned between keys, and to what it is; the text has it at once */
    FACT(types(PASDRONGEL_TELEX, "AA", "â"));
    FACT(turns(PASDRONGEL_CAPITALS_ON) && shows("Â") && turns(PASDRONGEL_CAPITALS_ON) && shows("Â"));
    type("N");
    FACT(wrote("ÂN") && turns(PASDRONGEL_CAPITALS_OFF) && shows("âN") && turns(PASDRONGEL_CAPITALS_OFF) && shows("âN"));
    type("S");
    FACT(wrote("ấN") && turns(PASDRONGEL_CAPITALS_ON) && shows("ẤN"));
    FACT(remove_last(PASDRONGEL_TEXT_ROOM) == PASDRONGEL_DONE && wrote("Ấ"));
    FACT(turns(PASDRONGEL_CAPITALS_OFF) && text(0) == PASDRONGEL_REFUSED_SHORT && text(1) == PASDRONGEL_DONE && wrote("ấ"));
    /* of the horned pair the key decides what becomes of the o, and no turn after it */
    FACT(types_with(PASDRONGEL_CAPITALS_OFF, PASDRONGEL_TELEX, "UO", "UO") && turns(PASDRONGEL_CAPITALS_ON));
    type("w");
    FACT(wrote("ƯƠ") && cell(0)[7] == 1 && cell(1)[7] == 1 && turns(PASDRONGEL_CAPITALS_OFF) && shows("ươ") && cell(1)[7] == 1);
    FACT(types_with(PASDRONGEL_CAPITALS_ON, PASDRONGEL_TELEX, "UO", "UO") && turns(PASDRONGEL_CAPITALS_OFF));
    type("w");
    FACT(wrote("ươ") && cell(0)[7] == 1 && cell(1)[7] == 0 && turns(PASDRONGEL_CAPITALS_ON) && shows("Ươ") && cell(1)[7] == 0);

    /* every other call keeps it */
    for (on = 0; on < 2; on++) {
        FACT(types_with(on, PASDRONGEL_TELEX, "DDaf", on ? "Đà" : "đà"));
        FACT(key(FOREIGN, 0) == PASDRONGEL_REFUSED_FOREIGN && capitals_are(on));
        FACT(check_composition() == PASDRONGEL_DONE && capitals_are(on));
        FACT(literal(letter_of("Ấ")) == PASDRONGEL_DONE && capitals_are(on) && shows(on ? "ĐàẤ" : "đàẤ"));
        FACT(remove_last(PASDRONGEL_TEXT_ROOM) == PASDRONGEL_DONE && wrote(on ? "Đà" : "đà") && capitals_are(on));
        FACT(undo('f', "DDaf") == PASDRONGEL_DONE && capitals_are(on) && shows(on ? "Đa" : "đa"));
        FACT(undo('x', "DDaf") == PASDRONGEL_REFUSED_NO_UNDO && capitals_are(on));
        FACT(reset() == PASDRONGEL_DONE && capitals_are(on) && shows(""));
        FACT(remove_last(0) == PASDRONGEL_REFUSED_EMPTY && capitals_are(on));
        FACT(set_method(PASDRONGEL_VNI) == PASDRONGEL_DONE && has(PASDRONGEL_VNI, PASDRONGEL_VIETNAMESE, 0) && capitals_are(on));
        FACT(set_mode(PASDRONGEL_ENGLISH) == PASDRONGEL_DONE && has(PASDRONGEL_VNI, PASDRONGEL_ENGLISH, 0) && capitals_are(on));
        /* English: the key passes through as it is, and a literal shows what it is */
        FACT(key('a', 1) == PASDRONGEL_DONE && wrote("a") && key('A', 1) == PASDRONGEL_DONE && wrote("A") && capitals_are(on));
        FACT(key(letter_of("ấ"), 9) == PASDRONGEL_DONE && wrote("ấ") && state[2] == 0);
        FACT(literal('D') == PASDRONGEL_DONE && literal(letter_of("ấ")) == PASDRONGEL_DONE && shows("Dấ") && capitals_are(on));
        FACT(set_mode(PASDRONGEL_VIETNAMESE) == PASDRONGEL_DONE && has(PASDRONGEL_VNI, PASDRONGEL_VIETNAMESE, 2));
        type("9");
        FACT(wrote(on ? "Đấ" : "đấ") && capitals_are(on));
        FACT(set_method(PASDRONGEL_TELEX) == PASDRONGEL_DONE && capitals_are(on) && start(PASDRONGEL_TELEX) == PASDRONGEL_DONE);
        FACT(capitals_are(PASDRONGEL_CAPITALS_OFF));
    }

    /* undo gives the rule's first letter back, a capital where it was one, under both */
    for (on = 0; on < 2; on++) {
        FACT(types_with(on, PASDRONGEL_TELEX, "DD", on ? "Đ" : "đ") && undo('D', "DD") == PASDRONGEL_DONE);
        FACT(number == PASDRONGEL_CONSUME && shows("D"));
        FACT(types_with(on, PASDRONGEL_TELEX, "dD", "đ") && undo('D', "dD") == PASDRONGEL_DONE && shows("d"));
        FACT(types_with(on, PASDRONGEL_TELEX, "AAN", on ? "ÂN" : "âN") && undo('a', "AAN") == PASDRONGEL_DONE);
        FACT(number == PASDRONGEL_APPEND && shows("AN"));
        FACT(types_with(on, PASDRONGEL_TELEX, "As", on ? "Á" : "á") && undo('s', "As") == PASDRONGEL_DONE && shows("A"));
        FACT(types_with(on, PASDRONGEL_TELEX, "AAS", on ? "Ấ" : "ấ") && undo('s', "AAS") == PASDRONGEL_DONE);
        FACT(shows(on ? "Â" : "â"));
        FACT(types_with(on, PASDRONGEL_TELEX, "UOW", on ? "ƯƠ" : "ươ") && undo('w', "UOW") == PASDRONGEL_DONE);
        FACT(shows(on ? "ƯO" : "ưo"));
    }

    /* cells that no key makes: a flag on a small letter is shown, no flag on a capital changes nothing */
    fresh(PASDRONGEL_TELEX);
    state[2] = 4;
    cell(0)[0] = 0xe2, cell(0)[7] = 1, cell(1)[0] = 'b', cell(1)[7] = 1, cell(2)[0] = 'B', cell(3)[0] = 0xc2;
    FACT(shows("âBBÂ") && turns(PASDRONGEL_CAPITALS_ON) && shows("ÂBBÂ"));
    cell(0)[7] = 0, cell(1)[7] = 0;
    FACT(shows("âbBÂ"));
}

static void undo_facts(void)
{
    uint32_t raw[PASDRONGEL_WORD_LETTERS + 1];
    size_t i;
    /* the paper's, and the other rules */
    FACT(types(PASDRONGEL_TELEX, "uaw", "ưa") && undo('w', "uaw") == PASDRONGEL_REFUSED_NO_UNDO && shows("ưa"));
    FACT(types(PASDRONGEL_TELEX, "dd", "đ") && undo('d', "dd") == PASDRONGEL_DONE && number == PASDRONGEL_CONSUME && shows("d"));
    FACT(types(PASDRONGEL_TELEX, "DD", "đ") && undo('D', "DD") == PASDRONGEL_DONE && number == PASDRONGEL_CONSUME && shows("D"));
    FACT(types(PASDRONGEL_TELEX, "as", "á") && undo('s', "as") == PASDRONGEL_DONE && number == PASDRONGEL_APPEND && shows("a"));
    FACT(types(PASDRONGEL_TELEX, "as", "á") && undo('S', "as") == PASDRONGEL_DONE && number == PASDRONGEL_APPEND && shows("a"));
    FACT(types(PASDRONGEL_TELEX, "as", "á") && undo('s', "asx") == PASDRONGEL_REFUSED_NO_UNDO);
    FACT(types(PASDRONGEL_TELEX, "aa", "â") && undo('a', "aa") == PASDRONGEL_DONE && number == PASDRONGEL_APPEND && shows("a"));
    FACT(types(PASDRONGEL_TELEX, "aan", "ân") && undo('a', "aan") == PASDRONGEL_DONE && shows("an"));
    FACT(types(PASDRONGEL_TELEX, "aai", "âi") && undo('a', "aai") == PASDRONGEL_REFUSED_NO_UNDO && shows("âi"));
    FACT(types(PASDRONGEL_TELEX, "aas", "ấ") && undo('a', "aas") == PASDRONGEL_REFUSED_NO_UNDO && shows("ấ"));
    FACT(types(PASDRONGEL_TELEX, "a", "a") && undo(0, "a") == PASDRONGEL_REFUSED_NO_UNDO);
    fresh(PASDRONGEL_TELEX);
    FACT(undo('s', "") == PASDRONGEL_REFUSED_NO_UNDO && shows(""));

    /* as a host does it: raw is the keys before the trigger. The tone key must be the last of them, so that the trigger in raw
     * would take back too much */
    FACT(types(PASDRONGEL_TELEX, "a", "a") && undo('s', "a") == PASDRONGEL_REFUSED_NO_UNDO);
    FACT(types(PASDRONGEL_TELEX, "asb", "áb") && undo('s', "asb") == PASDRONGEL_REFUSED_NO_UNDO && shows("áb"));
    FACT(types(PASDRONGEL_TELEX, "asb", "áb") && undo('s', "asbs") == PASDRONGEL_DONE && shows("ab"));
    /* the trigger is appended by the literal; by the key the tone comes back */
    FACT(types(PASDRONGEL_TELEX, "as", "á") && undo('s', "as") == PASDRONGEL_DONE && number == PASDRONGEL_APPEND);
    FACT(literal('s') == PASDRONGEL_DONE && shows("as"));
    FACT(types(PASDRONGEL_TELEX, "as", "á") && undo('s', "as") == PASDRONGEL_DONE && number == PASDRONGEL_APPEND);
    type("s");
    FACT(wrote("á"));
    /* the mode is not asked: in English mode a host does not call it */
    FACT(types(PASDRONGEL_TELEX, "as", "á"));
    state[1] = PASDRONGEL_ENGLISH;
    FACT(undo('s', "as") == PASDRONGEL_DONE && shows("a"));

    /* the ladder: 10, 6, 1 (trigger, then raw string), 5 */
    for (i = 0; i < sizeof raw / sizeof *raw; i++)
        raw[i] = 'b';
    raw[63] = FOREIGN;
    FACT(types(PASDRONGEL_TELEX, "as", "á"));
    state[2] = CELLS + 1;
    FACT(undo_raw(FOREIGN, raw, PASDRONGEL_WORD_LETTERS + 1) == PASDRONGEL_REFUSED_UNSOUND);
    state[2] = 1;
    FACT(undo_raw(FOREIGN, raw, PASDRONGEL_WORD_LETTERS + 1) == PASDRONGEL_REFUSED_LONG);
    FACT(undo_raw(FOREIGN, raw, PASDRONGEL_WORD_LETTERS) == PASDRONGEL_REFUSED_FOREIGN);
    FACT(undo_raw('s', raw, PASDRONGEL_WORD_LETTERS) == PASDRONGEL_REFUSED_FOREIGN);
    raw[63] = 'b';
    FACT(undo_raw(FOREIGN, raw, PASDRONGEL_WORD_LETTERS) == PASDRONGEL_REFUSED_FOREIGN);
    FACT(undo_raw('s', raw, PASDRONGEL_WORD_LETTERS) == PASDRONGEL_REFUSED_NO_UNDO);
    raw[63] = 's';
    FACT(undo_raw('s', raw, PASDRONGEL_WORD_LETTERS) == PASDRONGEL_DONE && number == PASDRONGEL_APPEND && shows("a"));
    /* under VNI the same ladder, and always 5 at its end */
    FACT(types(PASDRONGEL_VNI, "a1", "á"));
    raw[63] = FOREIGN;
    FACT(undo_raw('1', raw, PASDRONGEL_WORD_LETTERS + 1) == PASDRONGEL_REFUSED_LONG);
    FACT(undo_raw('1', raw, PASDRONGEL_WORD_LETTERS) == PASDRONGEL_REFUSED_FOREIGN);
    FACT(undo('1', "a1") == PASDRONGEL_REFUSED_NO_UNDO && shows("á"));
    /* on 96 cells, with a raw string of the last keys: the mark and the tone, of the last cell and of the first */
    for (i = 0; i < sizeof raw / sizeof *raw; i++)
        raw[i] = 'b';
    fresh(PASDRONGEL_TELEX);
    type("dd");
    for (i = 2; i < CELLS; i++)
        FACT(key('b', PASDRONGEL_TEXT_ROOM) == PASDRONGEL_DONE);
    type("as");
    FACT(state[2] == CELLS && letters[0] == letter_of("đ") && letters[CELLS - 1] == letter_of("á"));
    raw[0] = raw[1] = 'd', raw[62] = 'a', raw[63] = 's';
    FACT(undo_raw('s', raw, PASDRONGEL_WORD_LETTERS + 1) == PASDRONGEL_REFUSED_LONG);
    FACT(undo_raw('s', raw, PASDRONGEL_WORD_LETTERS) == PASDRONGEL_DONE && number == PASDRONGEL_APPEND);
    FACT(literal('s') == PASDRONGEL_REFUSED_FULL && text(CELLS) == PASDRONGEL_DONE && letters[CELLS - 1] == 'a');
    FACT(undo_raw('d', raw, PASDRONGEL_WORD_LETTERS) == PASDRONGEL_REFUSED_NO_UNDO); /* an a stands after its keys */
    raw[62] = 'b';
    FACT(undo_raw('d', raw, PASDRONGEL_WORD_LETTERS) == PASDRONGEL_DONE && text(CELLS) == PASDRONGEL_DONE && letters[0] == 'd');
}

/* ---- drafts, by what request 2026-02 says of them */

#define FRAME 15 /* the bytes of a draft without its cells */
#define CELL 7
#define DRAFT(text) (const uint8_t *)(text), sizeof(text) - 1

/* A draft as it stands in this file, field by field; `cells` has the length too. */
#define FIELDS(method, mode, cells, capitals) "\1\0\1" method "\2\0\1" mode "\3" cells "\4\0\1" capitals

/* Is the composition written as these bytes, and read from them, whatever stood where it is read to? */
static int drafted(const uint8_t *draft, size_t length)
{
    uint8_t before[STATE];
    memcpy(before, state, STATE);
    FACT(length > 0 && write_draft(length - 1) == PASDRONGEL_REFUSED_SHORT);
    FACT(write_draft(length) == PASDRONGEL_DONE && count == length && memcmp(bytes, draft, length) == 0);
    FACT(write_draft(PASDRONGEL_DRAFT_ROOM) == PASDRONGEL_DONE && count == length && memcmp(bytes, draft, length) == 0);
    memset(state, GUARD, sizeof state); /* no sound composition */
    FACT(read_draft(draft, length) == PASDRONGEL_DONE && memcmp(state, before, STATE) == 0);
    memset(state, 0xff, sizeof state);
    FACT(read_draft(draft, length) == PASDRONGEL_DONE);
    return memcmp(state, before, STATE) == 0;
}

static void draft_examples(void)
{
    fresh(PASDRONGEL_TELEX);
    FACT(drafted(DRAFT(FIELDS("\0", "\0", "\0\0", "\0"))));
    FACT(set_capitals(PASDRONGEL_CAPITALS_ON) == PASDRONGEL_DONE && drafted(DRAFT(FIELDS("\0", "\0", "\0\0", "\1"))));
    fresh(PASDRONGEL_VNI);
    FACT(drafted(DRAFT(FIELDS("\1", "\0", "\0\0", "\0"))));
    FACT(set_mode(PASDRONGEL_ENGLISH) == PASDRONGEL_DONE && drafted(DRAFT(FIELDS("\1", "\1", "\0\0", "\0"))));
    FACT(literal(letter_of("Ấ")) == PASDRONGEL_DONE && drafted(DRAFT(FIELDS("\1", "\1", "\0\7" "\0\0\x1e\xa4\0\0\1", "\0"))));
    FACT(types(PASDRONGEL_TELEX, "a", "a") && drafted(DRAFT(FIELDS("\0", "\0", "\0\7" "\0\0\0a\0\0\0", "\0"))));
    FACT(types(PASDRONGEL_TELEX, "DDaf", "đà"));
    FACT(drafted(DRAFT(FIELDS("\0", "\0", "\0\x0e" "\0\0\1\x11\1\0\1" "\0\0\0a\0f\0", "\0"))));
    FACT(types(PASDRONGEL_VNI, "u7o71", "ướ"));
    FACT(drafted(DRAFT(FIELDS("\1", "\0", "\0\x0e" "\0\0\1\xb0\1\0\0" "\0\0\1\xa1\1" "1\0", "\0"))));
    FACT(types_with(PASDRONGEL_CAPITALS_ON, PASDRONGEL_TELEX, "AAN", "ÂN"));
    FACT(drafted(DRAFT(FIELDS("\0", "\0", "\0\x0e" "\0\0\0\xe2\1\0\1" "\0\0\0N\0\0\1", "\1"))));
    /* the pale house: the tone that no text shows is kept too */
    FACT(types(PASDRONGEL_VNI, "a 2", "a "));
    FACT(drafted(DRAFT(FIELDS("\1", "\0", "\0\x0e" "\0\0\0a\0\0\0" "\0\0\0 \0" "2\0", "\0"))));
    /* cells that no key makes: a flag on U+0000, a toned consonant that is a capital with no flag, â with no mark */
    fresh(PASDRONGEL_TELEX);
    state[2] = 3;
    cell(0)[7] = 1, cell(1)[0] = 'B', cell(1)[6] = '5', cell(2)[0] = 0xe2;
    FACT(drafted(DRAFT(FIELDS("\0", "\0", "\0\x15" "\0\0\0\0\0\0\1" "\0\0\0B\0" "5\0" "\0\0\0\xe2\0\0\0", "\0"))));
}

/* The composition of a draft, byte by byte as docs/BYTES.md has it, if the bytes are one. This is the request's sentence a
 * second time: which bytes are a draft, every change below is held to. */
static int composition_of(const uint8_t *draft, size_t length, uint8_t *composition)
{
    static const char *const marks[] = {"ă", "â", "ê", "ô", "ơ", "ư", "đ"};
    size_t i, j, n = length < FRAME ? 0 : (length - FRAME) / CELL;
    const uint8_t *tail = draft + FRAME - 4 + CELL * n;
    memset(composition, 0, STATE);
    if (length < FRAME || length != FRAME + CELL * n || n > PASDRONGEL_CELLS)
        return 0;
    if (memcmp(draft, "\1\0\1", 3) != 0 || memcmp(draft + 4, "\2\0\1", 3) != 0 || memcmp(tail, "\4\0\1", 3) != 0)
        return 0;
    if (draft[8] != 3 || draft[9] * 256u + draft[10] != CELL * n || draft[3] > 1 || draft[7] > 1 || tail[3] > 1)
        return 0;
    composition[0] = draft[3], composition[1] = draft[7], composition[2] = (uint8_t)n, composition[3] = tail[3];
    for (i = 0; i < n; i++) {
        const uint8_t *from = draft + 11 + CELL * i;
        uint8_t *to = composition + HEAD + 8 * i;
        uint32_t base = (uint32_t)from[0] << 24 | (uint32_t)from[1] << 16 | (uint32_t)from[2] << 8 | from[3];
        int marked = 0;
        for (j = 0; j < sizeof marks / sizeof *marks; j++)
            marked = marked || base == letter_of(marks[j]);
        if (PASDRONGEL_REFUSAL(pasdrongel_check_letter(base)) != PASDRONGEL_DONE || from[4] > marked || from[6] > 1)
            return 0;
        if (from[5] != 0 && memchr("fsrxj12345", from[5], 10) == NULL)
            return 0;
        for (j = 0; j < 4; j++)
            to[j] = from[3 - j];
        for (j = 0; j < 2 && from[4] == 1; j++)
            to[4 + j] = to[j];
        to[6] = from[5], to[7] = from[6];
    }
    return 1;
}

static size_t drafts; /* how many have been */

/* These bytes are read as the composition that they are the draft of, and written back as they are; or refused by 11. */
static void reads(const uint8_t *draft, size_t length)
{
    uint8_t composition[STATE], before[MOST];
    memcpy(before, draft, length);
    if (!composition_of(before, length, composition)) {
        FACT(read_draft(before, length) == PASDRONGEL_REFUSED_NO_DRAFT);
        return;
    }
    FACT(read_draft(before, length) == PASDRONGEL_DONE && memcmp(state, composition, STATE) == 0);
    FACT(check_composition() == PASDRONGEL_DONE);
    FACT(write_draft(length) == PASDRONGEL_DONE && count == length && memcmp(bytes, before, length) == 0);
    drafts++;
}

/* Each byte changed, one put in, one left out, cut off and added; with every value, or with some that stand at an edge. */
static void changed(const uint8_t *draft, size_t length, int every)
{
    static const uint8_t edges[] = {0, 1, 2, 3, 4, 7, 'a', 'f', 0x80, 0xff};
    uint8_t other[MOST];
    size_t at, i, values = every ? 256 : sizeof edges;
    for (i = 0; i < values; i++) {
        uint8_t value = every ? (uint8_t)i : edges[i];
        for (at = 0; at < length; at++) {
            memcpy(other, draft, length);
            other[at] = value;
            reads(other, length);
        }
        for (at = 0; at <= length; at++) {
            memcpy(other, draft, at);
            other[at] = value;
            memcpy(other + at + 1, draft + at, length - at);
            FACT(read_draft(other, length + 1) == PASDRONGEL_REFUSED_NO_DRAFT);
        }
    }
    for (at = 0; at < length; at++) {
        FACT(read_draft(draft, at) == PASDRONGEL_REFUSED_NO_DRAFT); /* cut off before `at`: no draft begins another */
        memcpy(other, draft, at);
        memcpy(other + at, draft + at + 1, length - at - 1);
        FACT(read_draft(other, length - 1) == PASDRONGEL_REFUSED_NO_DRAFT);
    }
    memset(other, 0, sizeof other);
    memcpy(other, draft, length);
    for (at = length + 1; at <= 2 * length && at <= MOST; at++)
        FACT(read_draft(other, at) == PASDRONGEL_REFUSED_NO_DRAFT);
    FACT(read_draft(draft, length) == PASDRONGEL_DONE);
}

/* Fields that are there twice, not at all, in another order, of another tag or length: a whole of them is no draft. */
static void field_facts(void)
{
    static const uint8_t fields[4][11] = {"\1\0\1\0", "\2\0\1\0", "\3\0\7\0\0\0a\0\0\0", "\4\0\1\0"};
    static const size_t lengths[4] = {4, 4, 10, 4};
    uint8_t other[MOST];
    size_t chosen, code, i, n, length, all = 1;
    for (n = 0; n <= 5; n++, all *= 4)
        for (chosen = 0; chosen < all; chosen++) { /* every row of up to five of the four fields */
            for (i = 0, length = 0, code = chosen; i < n; i++, code /= 4) {
                memcpy(other + length, fields[code % 4], lengths[code % 4]);
                length += lengths[code % 4];
            }
            FACT((read_draft(other, length) == PASDRONGEL_DONE) == (n == 4 && chosen == 0 + 4 * 1 + 16 * 2 + 64 * 3));
        }
    /* what a later version may add: a field more, here of tag 5, before, between or after them */
    FACT(read_draft(DRAFT(FIELDS("\0", "\0", "\0\0", "\0") "\5\0\1\1")) == PASDRONGEL_REFUSED_NO_DRAFT);
    FACT(read_draft(DRAFT("\5\0\1\1" FIELDS("\0", "\0", "\0\0", "\0"))) == PASDRONGEL_REFUSED_NO_DRAFT);
    FACT(read_draft(DRAFT("\1\0\1\0" "\2\0\1\0" "\5\0\4\0\0\0\0" "\4\0\1\0")) == PASDRONGEL_REFUSED_NO_DRAFT);
    /* a field of another length that says it: none, two bytes; and bytes that a length skips */
    FACT(read_draft(DRAFT("\1\0\0" "\2\0\1\0" "\3\0\0" "\4\0\1\0")) == PASDRONGEL_REFUSED_NO_DRAFT);
    FACT(read_draft(DRAFT("\1\0\2\0\0" "\2\0\1\0" "\3\0\0" "\4\0\1\0")) == PASDRONGEL_REFUSED_NO_DRAFT);
    FACT(read_draft(DRAFT(FIELDS("\0", "\0", "\0\1\0", "\0"))) == PASDRONGEL_REFUSED_NO_DRAFT);
    FACT(read_draft(DRAFT(FIELDS("\0", "\0", "\0\6\0\0\0a\0\0", "\0"))) == PASDRONGEL_REFUSED_NO_DRAFT);
    FACT(read_draft(DRAFT(FIELDS("\0", "\0", "\0\x8\0\0\0a\0\0\0\0", "\0"))) == PASDRONGEL_REFUSED_NO_DRAFT);
    FACT(read_draft(DRAFT(FIELDS("\0", "\0", "\0\0\0\0\0a\0\0\0", "\0"))) == PASDRONGEL_REFUSED_NO_DRAFT);
    /* the length of a field with its low byte first */
    FACT(read_draft(DRAFT("\1\1\0\0" "\2\0\1\0" "\3\0\0" "\4\0\1\0")) == PASDRONGEL_REFUSED_NO_DRAFT);
    FACT(read_draft(DRAFT(FIELDS("\0", "\0", "\7\0" "\0\0\0a\0\0\0", "\0"))) == PASDRONGEL_REFUSED_NO_DRAFT);
}

/* Cells alone: each base at the alphabet's edges, with and without a mark; every tone and flag byte. */
static void cell_facts(void)
{
    static const uint32_t bases[] = {0, 0x7f, 0x80, 'a', 0xc4, 0xe2, 0xea, 0xf4, 0x103, 0x102, 0x111, 0x110, 0x1a1, 0x1b0, 0x1af,
        0x1ea0, 0x1ea4, 0x1ef9, 0x1efa, 0x10061, 0x100e2, 0x61000000, 0x80000061, 0xe2000000, 0xffffffff};
    uint8_t draft[FRAME + CELL], *x = draft + 11;
    size_t i, j;
    memcpy(draft, FIELDS("\1", "\0", "\0\7" "\0\0\0\0\0\0\0", "\1"), sizeof draft);
    for (i = 0; i < sizeof bases / sizeof *bases; i++)
        for (j = 0; j < 4; j++) {
            x[0] = (uint8_t)(bases[i] >> 24), x[1] = (uint8_t)(bases[i] >> 16);
            x[2] = (uint8_t)(bases[i] >> 8), x[3] = (uint8_t)bases[i];
            x[4] = j == 3 ? (uint8_t)bases[i] : (uint8_t)j; /* no, yes, and what is neither: a mark by its own letter */
            reads(draft, sizeof draft);
        }
    /* a mark is its base, and no mark is 0: so U+0000 with a mark would be read as U+0000 without, which has a form already */
    FACT(read_draft(DRAFT(FIELDS("\0", "\0", "\0\7" "\0\0\0\0\1\0\0", "\0"))) == PASDRONGEL_REFUSED_NO_DRAFT);
    for (i = 0; i < 256; i++) {
        x[0] = x[1] = x[4] = 0, x[2] = 0x1e, x[3] = 0xa4, x[5] = (uint8_t)i, x[6] = 0;
        reads(draft, sizeof draft);
        x[5] = 0, x[6] = (uint8_t)i;
        reads(draft, sizeof draft);
    }
}

/* Broken off after each of the keys, kept as a draft, and read where something else stood. */
static void goes_on(uint32_t on, uint32_t method, const char *keys)
{
    uint8_t whole[STATE], draft[MOST];
    char first[MOST];
    size_t i;
    fresh(method);
    FACT(turns(on));
    type(keys);
    memcpy(whole, state, STATE);
    for (i = 0; i <= strlen(keys); i++) {
        memcpy(first, keys, i);
        first[i] = '\0';
        fresh(method);
        FACT(turns(on));
        type(first);
        FACT(write_draft(PASDRONGEL_DRAFT_ROOM) == PASDRONGEL_DONE);
        memcpy(draft, bytes, count);
        memset(state, GUARD, STATE);
        FACT(read_draft(draft, count) == PASDRONGEL_DONE);
        type(keys + i);
        FACT(memcmp(state, whole, STATE) == 0);
    }
}

static void draft_facts(void)
{
    uint8_t draft[MOST];
    size_t i, length;

    draft_examples();

    /* the ladder of the writer: 10, 3 */
    FACT(types_with(PASDRONGEL_CAPITALS_ON, PASDRONGEL_TELEX, "DDaf", "Đà"));
    state[3] = 2;
    FACT(write_draft(0) == PASDRONGEL_REFUSED_UNSOUND && write_draft(PASDRONGEL_DRAFT_ROOM) == PASDRONGEL_REFUSED_UNSOUND);
    state[3] = PASDRONGEL_CAPITALS_ON;
    for (i = 0; i <= PASDRONGEL_DRAFT_ROOM + 1; i++)
        FACT(write_draft(i) == (i < FRAME + 2 * CELL ? PASDRONGEL_REFUSED_SHORT : PASDRONGEL_DONE));
    length = count;
    memcpy(draft, bytes, length);
    FACT(length == FRAME + 2 * CELL);

    /* the ladder of the reader: 10, 11. The composition that stands there is not looked at: a sound one, and none */
    for (i = 0; i < 5; i++) {
        static const size_t sizes[] = {0, 1, STATE - 1, STATE + 1, MOST};
        state_size = sizes[i];
        FACT(read_draft(draft, length - 1) == PASDRONGEL_REFUSED_UNSOUND && read_draft(draft, 0) == PASDRONGEL_REFUSED_UNSOUND);
        FACT(read_draft(draft, length) == PASDRONGEL_REFUSED_UNSOUND);
    }
    state_size = STATE;
    for (i = 0; i < 256; i += 51) {
        memset(state, (int)i, sizeof state);
        FACT(read_draft(draft, length - 1) == PASDRONGEL_REFUSED_NO_DRAFT && read_draft(draft, 0) == PASDRONGEL_REFUSED_NO_DRAFT);
        FACT(state[0] == i && state[STATE - 1] == i);
        FACT(read_draft(draft, length) == PASDRONGEL_DONE && shows("Đà") && capitals_are(PASDRONGEL_CAPITALS_ON));
    }

    /* no other bytes are this composition's, and what else is read is another's */
    changed(draft, length, 1);
    FACT(types(PASDRONGEL_VNI, "a61", "ấ") && write_draft(PASDRONGEL_DRAFT_ROOM) == PASDRONGEL_DONE);
    length = count;
    memcpy(draft, bytes, length);
    changed(draft, length, 1);
    fresh(PASDRONGEL_TELEX);
    FACT(set_mode(PASDRONGEL_ENGLISH) == PASDRONGEL_DONE && write_draft(FRAME) == PASDRONGEL_DONE && count == FRAME);
    memcpy(draft, bytes, FRAME);
    drafts = 0;
    changed(draft, FRAME, 1);
    FACT(drafts == 12 + 3 * 2); /* twelve bytes have one value, and each setting has two */
    field_facts();
    cell_facts();

    /* one cell after the other, up to the last: the room that always suffices, and one byte less */
    FACT(PASDRONGEL_DRAFT_ROOM == FRAME + CELL * PASDRONGEL_CELLS);
    fresh(PASDRONGEL_VNI);
    for (i = 0; i <= PASDRONGEL_CELLS; i++) {
        FACT(i == 0 || literal(letter_of(i % 2 == 0 ? "Ấ" : "đ")) == PASDRONGEL_DONE);
        length = FRAME + CELL * i;
        FACT(write_draft(length - 1) == PASDRONGEL_REFUSED_SHORT);
        FACT(write_draft(length) == PASDRONGEL_DONE && count == length);
        reads(bytes, length);
    }
    FACT(length == PASDRONGEL_DRAFT_ROOM);
    memcpy(draft, bytes, length);
    changed(draft, length, 0);
    /* a cell more, and so on, twice as many: its fields are in order, and no composition has so many cells */
    for (i = PASDRONGEL_CELLS + 1; FRAME + CELL * i <= MOST; i++) {
        memmove(draft + 11 + CELL, draft + 11, FRAME + CELL * i - 11 - CELL);
        draft[9] = (uint8_t)(CELL * i / 256), draft[10] = (uint8_t)(CELL * i % 256);
        reads(draft, FRAME + CELL * i);
    }

    /* a composition that is taken up goes on as if it had never been left */
    goes_on(PASDRONGEL_CAPITALS_OFF, PASDRONGEL_TELEX, "DDUOWNGF");
    goes_on(PASDRONGEL_CAPITALS_ON, PASDRONGEL_TELEX, "DDUOWNGF");
    goes_on(PASDRONGEL_CAPITALS_OFF, PASDRONGEL_VNI, "nguye6n4 2");
    goes_on(PASDRONGEL_CAPITALS_ON, PASDRONGEL_VNI, "LU7O71I");
}

/* ---- input methods */

static void method_facts(void)
{
    static const char *const rules[2][7] = {
        {"awă", "aaâ", "eeê", "ooô", "owơ", "uwư", "ddđ"}, {"a6â", "e6ê", "o6ô", "o7ơ", "u7ư", "a8ă", "d9đ"}};
    static const char tones[2][6] = {"fsrxj", "12345"};
    static const char horns[2] = {'w', '7'};
    uint32_t method, letter, rule[3];
    size_t i;
    /* the ladder: 10, 1 */
    FACT(of_key(pasdrongel_is_tone_key, 2, FOREIGN) == PASDRONGEL_REFUSED_UNSOUND);
    FACT(of_key(pasdrongel_is_horn_key, 0xffffffff, FOREIGN) == PASDRONGEL_REFUSED_UNSOUND);
    FACT(mark_for(2, FOREIGN, FOREIGN) == PASDRONGEL_REFUSED_UNSOUND);
    for (method = 0; method < 2; method++) {
        FACT(of_key(pasdrongel_is_tone_key, method, FOREIGN) == PASDRONGEL_REFUSED_FOREIGN);
        FACT(of_key(pasdrongel_is_horn_key, method, FOREIGN) == PASDRONGEL_REFUSED_FOREIGN);
        FACT(mark_for(method, FOREIGN, FOREIGN) == PASDRONGEL_REFUSED_FOREIGN);
        FACT(mark_for(method, 'a', FOREIGN) == PASDRONGEL_REFUSED_FOREIGN);
        FACT(mark_for(method, FOREIGN, 'a') == PASDRONGEL_REFUSED_FOREIGN);
        for (letter = 0; letter < 0x80; letter++) {
            FACT(of_key(pasdrongel_is_tone_key, method, letter) == PASDRONGEL_DONE);
            FACT(number == (letter != 0 && strchr(tones[method], (int)letter) != NULL));
            FACT(of_key(pasdrongel_is_horn_key, method, letter) == PASDRONGEL_DONE);
            FACT(number == (letter == (uint32_t)horns[method]));
        }
        for (i = 0; i < 7; i++) {
            FACT(spelt(rules[method][i], rule) == 3);
            FACT(mark_for(method, rule[0], rule[1]) == PASDRONGEL_DONE && number == rule[2]);
            FACT(mark_for(1 - method, rule[0], rule[1]) == PASDRONGEL_DONE && number == 0);
            FACT(mark_for(method, rule[0] - 32, rule[1]) == PASDRONGEL_DONE && number == 0);
        }
    }
}

/* ---- the speller */

/* Is the word cut into these parts? */
static int cuts(const char *onset, const char *vowels, const char *coda)
{
    uint32_t word[MOST];
    size_t first = spelt(onset, word), second = first + spelt(vowels, word + first);
    size_t length = second + spelt(coda, word + second);
    return cut_letters(word, length) == PASDRONGEL_DONE && count == first && place == second;
}

static int judged(const char *text, uint32_t verdict)
{
    uint32_t word[MOST];
    size_t length = spelt(text, word);
    return judge_letters(word, length) == PASDRONGEL_DONE && number == verdict;
}

static void speller_facts(void)
{
    uint32_t word[PASDRONGEL_WORD_LETTERS + 1];
    size_t i;
    FACT(cuts("gi", "a", "") && cuts("", "", "") && cuts("Anh", "", "") && cuts("qu", "ả", "") && cuts("ngh", "iê", "ng"));
    FACT(cuts("q", "u", "") && cuts("g", "ì", "") && cuts("gi", "ê", "ng") && cuts("b", "a", "nana") && cuts("GI", "a", ""));
    FACT(judged("", 0) && judged("qu", 0) && judged("gi", 1) && judged("bic", 1) && judged("băk", 1) && judged("màt", 1));
    FACT(judged("uơ", 1) && judged("uơn", 0) && judged("za", 0) && judged("PHÂN", 1) && judged("Phần", 1) && judged("b", 1));
    FACT(judged("giếng", 0) && judged("a ", 0) && judged("phân2", 0) && judged("nghuyêch", 1) && judged("nghuyêchh", 0));
    /* the ladder of both: 6, 1 */
    for (i = 0; i < sizeof word / sizeof *word; i++)
        word[i] = 'a';
    word[63] = FOREIGN;
    FACT(cut_letters(word, PASDRONGEL_WORD_LETTERS + 1) == PASDRONGEL_REFUSED_LONG);
    FACT(judge_letters(word, PASDRONGEL_WORD_LETTERS + 1) == PASDRONGEL_REFUSED_LONG);
    FACT(cut_letters(word, PASDRONGEL_WORD_LETTERS) == PASDRONGEL_REFUSED_FOREIGN);
    FACT(judge_letters(word, PASDRONGEL_WORD_LETTERS) == PASDRONGEL_REFUSED_FOREIGN);
    word[63] = 'a';
    FACT(cut_letters(word, PASDRONGEL_WORD_LETTERS) == PASDRONGEL_DONE && count == 0 && place == PASDRONGEL_WORD_LETTERS);
    FACT(judge_letters(word, PASDRONGEL_WORD_LETTERS) == PASDRONGEL_DONE && number == 0);
}

/* A text may have more letters than a word: up to 64 it is taken as one, and a longer text is refused by 6 by each call that takes
 * letters. Its UTF-8 comes in pieces, whatever the cut. */
static void long_text_facts(void)
{
    static const char *const turns[] = {"ỹ", "đ", "a"};
    uint32_t shown[CELLS];
    uint8_t spelt_out[3 * CELLS], pieces[3 * CELLS];
    uint32_t refused;
    size_t i, at, size = 0;
    fresh(PASDRONGEL_TELEX);
    for (i = 1; i <= CELLS; i++) {
        const char *letter = turns[i % 3];
        memcpy(spelt_out + size, letter, strlen(letter));
        size += strlen(letter);
        FACT(literal(letter_of(letter)) == PASDRONGEL_DONE && text(i) == PASDRONGEL_DONE && count == i);
        memcpy(shown, letters, i * sizeof *shown);
        refused = i <= PASDRONGEL_WORD_LETTERS ? PASDRONGEL_DONE : PASDRONGEL_REFUSED_LONG;
        FACT(judge_letters(shown, i) == refused && cut_letters(shown, i) == refused);
        FACT(next_letters(shown, i, PASDRONGEL_LISTED_ROOM) == refused);
        FACT(write_utf8(shown, i, PASDRONGEL_WRITE_ROOM) == refused);
        FACT(refused != PASDRONGEL_DONE || (count == size && memcmp(bytes, spelt_out, size) == 0));
    }
    for (at = CELLS - PASDRONGEL_WORD_LETTERS; at <= PASDRONGEL_WORD_LETTERS; at++) {
        FACT(write_utf8(shown, at, PASDRONGEL_WRITE_ROOM) == PASDRONGEL_DONE);
        i = count;
        memcpy(pieces, bytes, i);
        FACT(write_utf8(shown + at, CELLS - at, PASDRONGEL_WRITE_ROOM) == PASDRONGEL_DONE && i + count == size);
        memcpy(pieces + i, bytes, size - i);
        FACT(memcmp(pieces, spelt_out, size) == 0);
    }
}

/* ---- note lines, by what request 2026-04 says of them */

#define LINE PASDRONGEL_LINE_LETTERS
#define WORD PASDRONGEL_WORD_LETTERS
#define LINE_STATE PASDRONGEL_LINE_STATE_BYTES

static uint32_t note[LINE + 2]; /* a line that is built up here */
static size_t note_length;

/* Adds so many times the letters of a text. */
static void add(const char *text, size_t times)
{
    uint32_t code_points[MOST];
    size_t n = spelt(text, code_points);
    for (; times > 0; times--) {
        memcpy(note + note_length, code_points, n * sizeof *note);
        note_length += n;
    }
}

static void add_letter(uint32_t letter)
{
    note[note_length++] = letter;
}

static void write_note(const char *text)
{
    note_length = 0;
    add(text, 1);
}

/* Are these the numbers that were told of the line? */
static int tells(size_t words, size_t no, size_t first)
{
    return count == words && place == no && third == first;
}

static size_t two(const uint8_t *at)
{
    return at[0] + 256u * at[1];
}

static int is_gap(uint32_t letter)
{
    return letter != 0 && letter < 0x80 && strchr("\t\n\v\f\r .,!?;:", (int)letter) != NULL;
}

/* Is this the state of a line, by the sentences of docs/BYTES.md? */
static int is_line(const uint8_t *line)
{
    size_t run = line[1], length = two(line + 2), words = two(line + 4), noes = two(line + 6), first = two(line + 8), i;
    if (line[0] != 0 && line[0] != PASDRONGEL_REFUSED_FOREIGN && line[0] != PASDRONGEL_REFUSED_LONG)
        return 0;
    if (length > LINE || run > WORD || (line[0] == PASDRONGEL_REFUSED_LONG && run < WORD && length < LINE))
        return 0;
    if (noes == 0 ? first != 0 || 2 * words + run > length
                  : noes > words || first + 2 * noes + run > length || 2 * words + run + first % 2 > length)
        return 0;
    for (i = 0; i < 8; i++) {
        uint32_t letter = (uint32_t)two(line + 10 + 2 * i);
        if (i < run ? PASDRONGEL_REFUSAL(pasdrongel_check_letter(letter)) != PASDRONGEL_DONE || is_gap(letter) : letter != 0)
            return 0;
    }
    return 1;
}

/* A line of which nothing has come, over bytes of no meaning: every byte is 0. */
static void begun(void)
{
    static const uint8_t zeros[LINE_STATE];
    memset(state, GUARD, sizeof state);
    state_size = LINE_STATE;
    FACT(line_begin() == PASDRONGEL_DONE && memcmp(state, zeros, LINE_STATE) == 0);
}

/* After a letter that is refused: the state says so, and repeats it, whatever comes. */
static void repeats(uint32_t refusal)
{
    static const uint32_t more[] = {'a', ' ', FOREIGN};
    uint8_t recorded[LINE_STATE];
    size_t i;
    memcpy(recorded, state, LINE_STATE);
    FACT(recorded[0] == refusal && is_line(recorded));
    for (i = 0; i <= sizeof more / sizeof *more; i++)
        FACT(line_part(more, i) == refusal && line_answer() == refusal && memcmp(state, recorded, LINE_STATE) == 0);
    FACT(line_part(more + 2, 1) == refusal && memcmp(state, recorded, LINE_STATE) == 0);
}

/* Cut before the place `cut`, the note is answered and refused as it is whole. What is told between the parts is told of the first
 * alone. */
static void cut_before(size_t cut)
{
    uint32_t start = line_check(note, cut), whole;
    size_t words = count, no = place, first = third;
    begun();
    FACT(line_part(note, cut) == start && is_line(state));
    FACT(line_answer() == start && (start != PASDRONGEL_DONE || tells(words, no, first)));
    whole = line_check(note, note_length);
    words = count, no = place, first = third;
    FACT(line_part(note + cut, note_length - cut) == whole && is_line(state));
    FACT(line_answer() == whole && (whole != PASDRONGEL_DONE || tells(words, no, first)));
    if (whole != PASDRONGEL_DONE)
        repeats(whole);
}

/* In parts of so many letters, with an empty part and an answer after each: the state is that of the note in one part. */
static void in_parts(size_t size)
{
    uint8_t whole[LINE_STATE];
    size_t at, left;
    begun();
    line_part(note, note_length);
    memcpy(whole, state, LINE_STATE);
    begun();
    for (at = 0; at < note_length; at += size) {
        uint32_t refusal = line_part(note + at, (left = note_length - at) < size ? left : size);
        FACT(line_answer() == refusal && line_part(note, 0) == refusal && is_line(state));
    }
    FACT(memcmp(state, whole, LINE_STATE) == 0);
}

/* The note in every cutting into two parts, and letter by letter; a long one in some cuttings. */
static void every_cut(void)
{
    int is_long = note_length > 3 * WORD;
    size_t cut;
    for (cut = 0; cut <= note_length; cut++)
        if (!is_long || cut % 512 == 0 || cut + 2 >= note_length)
            cut_before(cut);
    in_parts(is_long ? 31 : 1);
}

static int told_of(const char *text, size_t words, size_t no, size_t first)
{
    write_note(text);
    every_cut();
    return line_check(note, note_length) == PASDRONGEL_DONE && tells(words, no, first);
}

/* Is the note done, and told so; or refused? */
static int note_told(size_t words, size_t no, size_t first)
{
    every_cut();
    return line_check(note, note_length) == PASDRONGEL_DONE && tells(words, no, first);
}

static int note_refused(uint32_t refusal)
{
    every_cut();
    return line_check(note, note_length) == refusal;
}

static void line_facts(void)
{
    uint32_t letter;
    size_t i;
    FACT(LINE == 4096 && WORD == 64 && LINE_STATE == 26);
    /* the request's and others */
    FACT(told_of("", 0, 0, 0) && told_of("an za. qu", 3, 2, 3) && told_of("an", 1, 0, 2) && told_of("za", 1, 1, 0));
    FACT(told_of(" ", 0, 0, 1) && told_of(" .,!?;:\t\n\v\f\r", 0, 0, 12) && told_of("an\nza", 2, 1, 3) && told_of("\nan", 1, 0, 3));
    FACT(told_of(" za ", 1, 1, 1) && told_of("an  an", 2, 0, 6) && told_of("za za za", 3, 3, 0) && told_of("an,an;za", 3, 1, 6));
    FACT(told_of("phân 2", 2, 1, 5) && told_of("PHÂN Phần phần", 3, 0, 14) && told_of("giếng nghiêng", 2, 1, 0));
    FACT(told_of("nghuyêch nghuyêchh", 2, 1, 9) && told_of("a-b", 1, 1, 0) && told_of("a'a", 1, 1, 0) && told_of("b q", 2, 1, 2));
    /* every ASCII letter between two words is a gap, or makes one word of the three */
    for (letter = 0; letter < 0x80; letter++) {
        write_note("an");
        add_letter(letter);
        add("an", 1);
        FACT(is_gap(letter) ? note_told(2, 0, 5) : note_told(1, 1, 0));
    }
    /* a word of 64 letters; a 65th, which is refused; a separator there, which is none */
    note_length = 0, add("a", WORD);
    FACT(note_told(1, 1, 0));
    add("a", 1);
    FACT(note_refused(PASDRONGEL_REFUSED_LONG));
    note_length = WORD, add(" ", 1);
    FACT(note_told(1, 1, 0));
    add("a", WORD);
    FACT(note_told(2, 2, 0));
    add(".an", 1);
    FACT(note_told(3, 2, 0));
    add(" ", 1), add("b", WORD + 1);
    FACT(note_refused(PASDRONGEL_REFUSED_LONG));
    /* 1 and 6 by place: at one place it is 1, a place later 6 has decided, and before it 1 has */
    for (i = WORD - 2; i <= WORD + 2; i++) {
        note_length = 0, add("a", i), add_letter(FOREIGN), add("a", WORD);
        FACT(note_refused(i <= WORD ? PASDRONGEL_REFUSED_FOREIGN : PASDRONGEL_REFUSED_LONG));
    }
    note_length = 0, add("a", WORD), add(" ", 1), add_letter(FOREIGN);
    FACT(note_refused(PASDRONGEL_REFUSED_FOREIGN));
    write_note("za "), add_letter(0x110000), add("an", 1);
    FACT(note_refused(PASDRONGEL_REFUSED_FOREIGN));
    /* 4,096 letters: of gaps, of words; the 4,097th is refused whatever it is, and by 1 where it is foreign */
    note_length = 0, add(" ", LINE);
    FACT(note_told(0, 0, LINE));
    add(" ", 1);
    FACT(note_refused(PASDRONGEL_REFUSED_LONG));
    note[LINE] = 'a';
    FACT(note_refused(PASDRONGEL_REFUSED_LONG));
    note[LINE] = FOREIGN;
    FACT(note_refused(PASDRONGEL_REFUSED_FOREIGN));
    note[LINE] = ' ', add_letter(FOREIGN);
    FACT(note_refused(PASDRONGEL_REFUSED_LONG));
    note[LINE - 1] = FOREIGN;
    FACT(note_refused(PASDRONGEL_REFUSED_FOREIGN));
    note_length = 0, add("a ", LINE / 2);
    FACT(note_told(LINE / 2, 0, LINE));
    note_length = 0, add("z ", LINE / 2);
    FACT(note_told(LINE / 2, LINE / 2, 0));
    note_length = 0, add(" a", LINE / 2 - 1), add(" z", 1);
    FACT(note_told(LINE / 2, 1, LINE - 1));
    /* both limits at one place, and a word that is cut off by the line's */
    note_length = 0, add(" ", LINE - WORD), add("a", WORD + 1);
    FACT(note_refused(PASDRONGEL_REFUSED_LONG));
    note[LINE] = FOREIGN;
    FACT(note_refused(PASDRONGEL_REFUSED_FOREIGN));
    note_length = LINE;
    FACT(note_told(1, 1, LINE - WORD));
}

/* A refused letter leaves what came before it, and the rest of its part is not read. */
static void ended_by(uint32_t letter, uint32_t refusal)
{
    uint8_t before[LINE_STATE];
    begun();
    write_note("an za. "), add("q", WORD);
    FACT(line_part(note, note_length) == PASDRONGEL_DONE);
    memcpy(before, state, LINE_STATE);
    note_length = 0, add_letter(letter), add(" an an", 1);
    FACT(line_part(note, note_length) == refusal && state[0] == refusal && before[0] == 0);
    FACT(memcmp(state + 1, before + 1, LINE_STATE - 1) == 0);
    repeats(refusal);
    FACT(line_begin() == PASDRONGEL_DONE && line_part(note, 0) == PASDRONGEL_DONE);
    FACT(line_answer() == PASDRONGEL_DONE && tells(0, 0, 0));
}

/* The line in parts: what the cuttings above do not ask. */
static void line_part_facts(void)
{
    /* the open word is counted as it stands, and goes on; nothing that is asked changes what follows */
    begun();
    FACT(line_answer() == PASDRONGEL_DONE && tells(0, 0, 0));
    write_note("an z");
    FACT(line_part(note, 1) == PASDRONGEL_DONE && line_answer() == PASDRONGEL_DONE && tells(1, 0, 1));
    FACT(line_part(note + 1, 3) == PASDRONGEL_DONE && line_answer() == PASDRONGEL_DONE && tells(2, 1, 3));
    FACT(line_answer() == PASDRONGEL_DONE && tells(2, 1, 3) && line_part(note, 0) == PASDRONGEL_DONE);
    write_note("a. qu");
    FACT(line_part(note, note_length) == PASDRONGEL_DONE && line_answer() == PASDRONGEL_DONE && tells(3, 2, 3));
    /* what is judged no as it stands may be judged yes when it has grown */
    begun();
    write_note("qua");
    FACT(line_part(note, 1) == PASDRONGEL_DONE && line_answer() == PASDRONGEL_DONE && tells(1, 1, 0));
    FACT(line_part(note + 1, 1) == PASDRONGEL_DONE && line_answer() == PASDRONGEL_DONE && tells(1, 1, 0));
    FACT(line_part(note + 2, 1) == PASDRONGEL_DONE && line_answer() == PASDRONGEL_DONE && tells(1, 0, 3));
    ended_by(FOREIGN, PASDRONGEL_REFUSED_FOREIGN);
    ended_by('q', PASDRONGEL_REFUSED_LONG);
}

/* The state is refused by 10, whatever the part, and left. */
static void no_line(void)
{
    static const uint32_t part[] = {'a', FOREIGN};
    FACT(line_part(part, 0) == PASDRONGEL_REFUSED_UNSOUND && line_part(part, 1) == PASDRONGEL_REFUSED_UNSOUND);
    FACT(line_part(part, 2) == PASDRONGEL_REFUSED_UNSOUND && line_answer() == PASDRONGEL_REFUSED_UNSOUND);
}

/* Puts one byte to a value that makes the state unsound, and back. */
static void no_line_at(size_t at, uint8_t value)
{
    uint8_t old = state[at];
    FACT(is_line(state) && (line_answer() == PASDRONGEL_DONE || line_answer() == state[0]));
    state[at] = value;
    FACT(!is_line(state));
    no_line();
    state[at] = old;
}

/* Each byte put to every value, and asked by turns for an answer and a part: refused by 10 where the state is none, else as it
 * stands. */
static void every_byte(void)
{
    uint8_t whole[LINE_STATE];
    uint32_t standing;
    size_t at, value;
    memcpy(whole, state, LINE_STATE);
    for (at = 0; at < LINE_STATE; at++)
        for (value = 0; value < 256; value++) {
            memcpy(state, whole, LINE_STATE);
            state[at] = (uint8_t)value;
            standing = is_line(state) ? state[0] : PASDRONGEL_REFUSED_UNSOUND;
            FACT((value % 2 == 0 ? line_answer() : line_part(note, 0)) == standing);
        }
    memcpy(state, whole, LINE_STATE);
}

/* A state by its numbers, with no word open. */
static int counts_are_sound(size_t length, size_t words, size_t noes, size_t first)
{
    size_t numbers[4], i;
    numbers[0] = length, numbers[1] = words, numbers[2] = noes, numbers[3] = first;
    memset(state, 0, sizeof state);
    for (i = 0; i < 4; i++)
        state[2 + 2 * i] = (uint8_t)numbers[i], state[3 + 2 * i] = (uint8_t)(numbers[i] / 256);
    FACT(is_line(state) == (line_answer() == PASDRONGEL_DONE));
    return line_answer() == PASDRONGEL_DONE;
}

static void line_state_facts(void)
{
    size_t i;
    /* another size, with bytes that would do; only that is asked where a line is begun */
    begun();
    memset(state, 0, sizeof state);
    for (state_size = 0; state_size <= 2 * LINE_STATE; state_size++)
        if (state_size != LINE_STATE) {
            FACT(line_begin() == PASDRONGEL_REFUSED_UNSOUND);
            no_line();
        }
    state_size = STATE;
    no_line();
    for (i = 0; i < 256; i++) {
        memset(state, (int)i, sizeof state);
        state_size = LINE_STATE - 1;
        FACT(line_begin() == PASDRONGEL_REFUSED_UNSOUND);
        state_size = LINE_STATE + 1;
        FACT(line_begin() == PASDRONGEL_REFUSED_UNSOUND);
        state_size = LINE_STATE;
        FACT(line_begin() == PASDRONGEL_DONE && line_answer() == PASDRONGEL_DONE && tells(0, 0, 0));
    }
    /* the bytes, as docs/BYTES.md has them: an, za at 3, and of the open word qưa three letters */
    begun();
    write_note("an za. qưa");
    FACT(line_part(note, note_length) == PASDRONGEL_DONE);
    FACT(memcmp(state, "\0\3\x0a\0\2\0\1\0\3\0q\0\xb0\1a\0\0\0\0\0\0\0\0\0\0\0", LINE_STATE) == 0);
    for (i = 1; i < 256; i++)
        if (i != PASDRONGEL_REFUSED_FOREIGN)
            no_line_at(0, (uint8_t)i);
    no_line_at(1, 2);      /* a kept letter past the open word */
    no_line_at(1, WORD + 1);
    no_line_at(1, 255);
    no_line_at(2, 7);      /* the open word does not fit after those that have ended */
    no_line_at(3, 17);     /* over 4,096 letters */
    no_line_at(4, 0);      /* a no that is no word */
    no_line_at(4, 4);      /* more words than there are letters and gaps for */
    no_line_at(5, 1);
    no_line_at(6, 3);      /* more noes than words */
    no_line_at(6, 0);      /* a place of none */
    no_line_at(7, 1);
    no_line_at(8, 6);      /* a place from which on there are no letters for it */
    no_line_at(9, 1);
    no_line_at(10, ' ');   /* kept letters that no word has */
    no_line_at(10, '.');
    no_line_at(11, 2);
    no_line_at(12, 0xb1);
    no_line_at(13, 0x80);
    for (i = 16; i < LINE_STATE; i++)
        no_line_at(i, 1);
    every_byte();
    state[0] = PASDRONGEL_REFUSED_FOREIGN;
    repeats(PASDRONGEL_REFUSED_FOREIGN);
    /* eight letters are kept, and no ninth; 6 has ended a line of 64 letters in a word or of 4,096 */
    begun();
    write_note("nghuyêchh"), add("h", WORD - 9);
    FACT(line_part(note, WORD) == PASDRONGEL_DONE && state[1] == WORD && state[24] == 'h' && state[25] == 0);
    every_byte();
    FACT(line_part(note, 1) == PASDRONGEL_REFUSED_LONG);
    every_byte();
    no_line_at(1, WORD - 1);
    begun();
    note_length = 0, add(" ", LINE), add("b", 1);
    FACT(line_part(note, LINE) == PASDRONGEL_DONE && two(state + 2) == LINE);
    FACT(line_part(note + LINE, 1) == PASDRONGEL_REFUSED_LONG);
    every_byte();
    no_line_at(2, 1);
    /* the counts at their edges: each word that has ended took a letter and a gap, from its place on */
    FACT(counts_are_sound(2, 1, 0, 0) && !counts_are_sound(1, 1, 0, 0) && !counts_are_sound(2, 1, 0, 1) && !counts_are_sound(2, 0, 0, 1));
    FACT(counts_are_sound(2, 1, 1, 0) && !counts_are_sound(2, 1, 1, 1) && counts_are_sound(3, 1, 1, 1) && !counts_are_sound(3, 1, 2, 0));
    FACT(counts_are_sound(4, 2, 1, 2) && !counts_are_sound(4, 2, 1, 1) && counts_are_sound(5, 2, 1, 1) && !counts_are_sound(5, 2, 1, 4));
    FACT(counts_are_sound(LINE, LINE / 2, LINE / 2, 0) && !counts_are_sound(LINE, LINE / 2 + 1, 0, 0));
    FACT(counts_are_sound(LINE, 1, 1, LINE - 2) && !counts_are_sound(LINE, 1, 1, LINE - 1) && !counts_are_sound(LINE + 1, 0, 0, 0));
    FACT(!counts_are_sound(65535, 65535, 65535, 65535) && !counts_are_sound(LINE, 32768, 0, 0) && !counts_are_sound(LINE, 32768, 32768, 0));
}

/* ---- the list */

static int followed(const char *after, const char *expected)
{
    uint32_t word[MOST];
    size_t length = spelt(after, word);
    return next_letters(word, length, PASDRONGEL_LISTED_ROOM) == PASDRONGEL_DONE && wrote(expected);
}

static void list_facts(void)
{
    static const char *const first[] = {"a", "ac", "ach", "ai", "am", "an", "ang", "anh", "ao", "ap", "at", "au", "ay", "b"};
    uint32_t word[PASDRONGEL_WORD_LETTERS + 1];
    size_t i, words, length = 0, longest = 0;
    FACT(total() == PASDRONGEL_DONE && count == 5963);
    words = count;
    for (i = 0; i < sizeof first / sizeof *first; i++)
        FACT(word_of(i, PASDRONGEL_LISTED_ROOM) == PASDRONGEL_DONE && wrote(first[i]));
    FACT(followed("ay", "b") && followed("az", "b") && followed("B", "a") && followed("", "a") && followed("z", "â"));
    FACT(followed("á", "â") && followed("đ", "đa") && followed("bà", "bâ") && followed("ươi", "ươm"));
    /* the ladder of the word: 7, 3 */
    FACT(word_of(5963, 0) == PASDRONGEL_REFUSED_NO_WORD && word_of(SIZE_MAX, 0) == PASDRONGEL_REFUSED_NO_WORD);
    FACT(word_of(5962, 2) == PASDRONGEL_REFUSED_SHORT);
    FACT(word_of(5962, 3) == PASDRONGEL_DONE && wrote("ươu"));
    /* the ladder of the next word: 6, 1, 7, 3 */
    for (i = 0; i < sizeof word / sizeof *word; i++)
        word[i] = letter_of("ỹ");
    word[63] = FOREIGN;
    FACT(next_letters(word, PASDRONGEL_WORD_LETTERS + 1, 0) == PASDRONGEL_REFUSED_LONG);
    FACT(next_letters(word, PASDRONGEL_WORD_LETTERS, 0) == PASDRONGEL_REFUSED_FOREIGN);
    word[63] = word[0];
    FACT(next_letters(word, PASDRONGEL_WORD_LETTERS, 0) == PASDRONGEL_REFUSED_NO_WORD);
    FACT(next_letters(word, spelt("ươu", word), PASDRONGEL_LISTED_ROOM) == PASDRONGEL_REFUSED_NO_WORD);
    FACT(next_letters(word, spelt("ươi", word), 2) == PASDRONGEL_REFUSED_SHORT);
    /* the whole list: each word is accepted, and is the next after the one before */
    for (i = 0; i < words; i++) {
        FACT(next_letters(word, length, PASDRONGEL_LISTED_ROOM) == PASDRONGEL_DONE);
        length = count;
        memcpy(word, letters, length * sizeof *word);
        FACT(word_of(i, PASDRONGEL_LISTED_ROOM) == PASDRONGEL_DONE && count == length);
        FACT(memcmp(word, letters, length * sizeof *word) == 0);
        FACT(judge_letters(word, length) == PASDRONGEL_DONE && number == 1);
        longest = length > longest ? length : longest;
    }
    FACT(longest == PASDRONGEL_LISTED_ROOM);
    FACT(next_letters(word, length, PASDRONGEL_LISTED_ROOM) == PASDRONGEL_REFUSED_NO_WORD);
}

/* ---- NULL, which an empty buffer may be: each buffer of each call */

#define TRIED(call, writes) (begin(), end_of_call(call, writes))

static void null_facts(void)
{
    uint32_t a = 'a';
    uint8_t byte = 'a';
    FACT(types(PASDRONGEL_TELEX, "as", "á"));
    FACT(TRIED(pasdrongel_new(NULL, 0, PASDRONGEL_TELEX), NOTHING) == PASDRONGEL_REFUSED_UNSOUND);
    FACT(TRIED(pasdrongel_check_composition(NULL, 0), NOTHING) == PASDRONGEL_REFUSED_UNSOUND);
    FACT(TRIED(pasdrongel_method(NULL, 0, told_yes()), NOTHING) == PASDRONGEL_REFUSED_UNSOUND);
    FACT(TRIED(pasdrongel_mode(NULL, 0, told_yes()), NOTHING) == PASDRONGEL_REFUSED_UNSOUND);
    FACT(TRIED(pasdrongel_capitals(NULL, 0, told_yes()), NOTHING) == PASDRONGEL_REFUSED_UNSOUND);
    FACT(TRIED(pasdrongel_count(NULL, 0, counted()), NOTHING) == PASDRONGEL_REFUSED_UNSOUND);
    FACT(TRIED(pasdrongel_key(NULL, 0, 'a', room_for(9), 9, counted()), NOTHING) == PASDRONGEL_REFUSED_UNSOUND);
    FACT(TRIED(pasdrongel_key(given(), STATE, 'b', NULL, 0, counted()), NOTHING) == PASDRONGEL_REFUSED_SHORT);
    FACT(TRIED(pasdrongel_text(NULL, 0, room_for(9), 9, counted()), NOTHING) == PASDRONGEL_REFUSED_UNSOUND);
    FACT(TRIED(pasdrongel_text(given(), STATE, NULL, 0, counted()), NOTHING) == PASDRONGEL_REFUSED_SHORT);
    FACT(TRIED(pasdrongel_literal(NULL, 0, 'a'), NOTHING) == PASDRONGEL_REFUSED_UNSOUND);
    FACT(TRIED(pasdrongel_undo(NULL, 0, 's', NULL, 0, told_yes()), NOTHING) == PASDRONGEL_REFUSED_UNSOUND);
    FACT(TRIED(pasdrongel_undo(given(), STATE, 's', NULL, 0, told_yes()), NOTHING) == PASDRONGEL_REFUSED_NO_UNDO);
    FACT(TRIED(pasdrongel_reset(NULL, 0), NOTHING) == PASDRONGEL_REFUSED_UNSOUND);
    FACT(TRIED(pasdrongel_set_method(NULL, 0, PASDRONGEL_VNI), NOTHING) == PASDRONGEL_REFUSED_UNSOUND);
    FACT(TRIED(pasdrongel_set_mode(NULL, 0, PASDRONGEL_ENGLISH), NOTHING) == PASDRONGEL_REFUSED_UNSOUND);
    FACT(TRIED(pasdrongel_set_capitals(NULL, 0, PASDRONGEL_CAPITALS_ON), NOTHING) == PASDRONGEL_REFUSED_UNSOUND);
    FACT(TRIED(pasdrongel_write_draft(NULL, 0, lent(&the_output, NULL, 99), 99, counted()), NOTHING) == PASDRONGEL_REFUSED_UNSOUND);
    FACT(TRIED(pasdrongel_write_draft(NULL, 0, NULL, 0, counted()), NOTHING) == PASDRONGEL_REFUSED_UNSOUND);
    FACT(TRIED(pasdrongel_write_draft(given(), STATE, NULL, 0, counted()), NOTHING) == PASDRONGEL_REFUSED_SHORT);
    FACT(TRIED(pasdrongel_read_draft(NULL, 0, NULL, 0), NOTHING) == PASDRONGEL_REFUSED_UNSOUND);
    FACT(TRIED(pasdrongel_read_draft(DRAFT(FIELDS("\0", "\0", "\0\0", "\0")), NULL, 0), NOTHING) == PASDRONGEL_REFUSED_UNSOUND);
    FACT(TRIED(pasdrongel_read_draft(NULL, 0, given(), STATE), NOTHING) == PASDRONGEL_REFUSED_NO_DRAFT);
    FACT(TRIED(pasdrongel_remove_last(NULL, 0, NULL, 0, counted()), NOTHING) == PASDRONGEL_REFUSED_UNSOUND);
    FACT(TRIED(pasdrongel_remove_last(given(), STATE, NULL, 0, counted()), THE_STATE | A_COUNT) == PASDRONGEL_DONE && count == 0);
    FACT(TRIED(pasdrongel_text(given(), STATE, NULL, 0, counted()), A_COUNT) == PASDRONGEL_DONE && count == 0);
    FACT(TRIED(pasdrongel_cut(NULL, 0, counted(), second_count()), TWO_PLACES) == PASDRONGEL_DONE);
    FACT(count == 0 && place == 0);
    FACT(TRIED(pasdrongel_line_check(NULL, 0, counted(), second_count(), third_count()), THREE_COUNTS) == PASDRONGEL_DONE);
    FACT(tells(0, 0, 0));
    FACT(TRIED(pasdrongel_line_begin(NULL, 0), NOTHING) == PASDRONGEL_REFUSED_UNSOUND);
    FACT(TRIED(pasdrongel_line_part(NULL, 0, NULL, 0), RECORDS) == PASDRONGEL_REFUSED_UNSOUND);
    FACT(TRIED(pasdrongel_line_part(NULL, 0, &a, 1), RECORDS) == PASDRONGEL_REFUSED_UNSOUND);
    FACT(TRIED(pasdrongel_line_answer(NULL, 0, counted(), second_count(), third_count()), THREE_COUNTS) == PASDRONGEL_REFUSED_UNSOUND);
    begun();
    FACT(TRIED(pasdrongel_line_part(given(), LINE_STATE, NULL, 0), THE_STATE) == PASDRONGEL_DONE && is_line(state));
    FACT(TRIED(pasdrongel_verdict(NULL, 0, told_yes()), THE_NUMBER) == PASDRONGEL_DONE && number == 0);
    FACT(TRIED(pasdrongel_word(0, NULL, 0, counted()), NOTHING) == PASDRONGEL_REFUSED_SHORT);
    FACT(TRIED(pasdrongel_next_word(NULL, 0, room_for(9), 9, counted()), THE_LETTERS) == PASDRONGEL_DONE && wrote("a"));
    FACT(TRIED(pasdrongel_next_word(&a, 1, NULL, 0, counted()), NOTHING) == PASDRONGEL_REFUSED_SHORT);
    FACT(TRIED(pasdrongel_next_word(NULL, 0, NULL, 0, counted()), NOTHING) == PASDRONGEL_REFUSED_SHORT);
    FACT(TRIED(pasdrongel_read_utf8(NULL, 0, room_for(9), 9, counted()), THE_LETTERS) == PASDRONGEL_DONE && count == 0);
    FACT(TRIED(pasdrongel_read_utf8(NULL, 0, NULL, 0, counted()), A_COUNT) == PASDRONGEL_DONE && count == 0);
    FACT(TRIED(pasdrongel_read_utf8(&byte, 1, NULL, 0, counted()), NOTHING) == PASDRONGEL_REFUSED_SHORT);
    FACT(TRIED(pasdrongel_write_utf8(NULL, 0, lent(&the_output, NULL, 9), 9, counted()), THE_BYTES) == PASDRONGEL_DONE && count == 0);
    FACT(TRIED(pasdrongel_write_utf8(NULL, 0, NULL, 0, counted()), A_COUNT) == PASDRONGEL_DONE && count == 0);
    FACT(TRIED(pasdrongel_write_utf8(&a, 1, NULL, 0, counted()), NOTHING) == PASDRONGEL_REFUSED_SHORT);
}

/* ---- the library */

static void library_facts(void)
{
    uint32_t i, j;
    FACT(pasdrongel_version() == PASDRONGEL_VERSION);
    FACT(pasdrongel_composition_bytes() == PASDRONGEL_COMPOSITION_BYTES);
    FACT(PASDRONGEL_VERSION_MINOR < 1000 && PASDRONGEL_VERSION_PATCH < 1000);
    for (i = 0; i <= PASDRONGEL_REFUSED_NO_DRAFT + 1; i++) {
        const char *text = pasdrongel_refusal_text(i), *at;
        FACT(text != NULL && *text != '\0' && strlen(text) <= 63);
        for (at = text; *at != '\0'; at++)
            FACT(*at >= ' ' && *at <= '~');
        for (j = 0; j < i; j++)
            FACT(strcmp(text, pasdrongel_refusal_text(j)) != 0);
        FACT(PASDRONGEL_REFUSAL(0x700u + i) == i && PASDRONGEL_REFUSAL(0xffffff00u | i) == i);
        FACT(pasdrongel_refusal_text(0x700u + i) == text && pasdrongel_refusal_text(0xffffff00u | i) == text);
    }
    FACT(pasdrongel_refusal_text(0xffffffff) == pasdrongel_refusal_text(PASDRONGEL_REFUSED_NO_DRAFT + 1));
}

int main(void)
{
    size_t i;
    for (i = 0; i < EVERYTHING; i++)
        lent_open(everything[i], 1);
    lent_open(&the_third, 1);
    lent_open(&the_line, 5); /* 4,097 letters and some more */
    library_facts();
    letters_facts();
    utf8_facts();
    soundness_facts();
    old_bytes_facts();
    number_facts();
    example_facts();
    key_facts();
    change_facts();
    capitals_facts();
    undo_facts();
    draft_facts();
    method_facts();
    speller_facts();
    long_text_facts();
    line_facts();
    line_part_facts();
    line_state_facts();
    list_facts();
    null_facts();
    printf("%lu facts about %lu calls, %lu do not hold\n", facts, calls, failures);
    return failures != 0;
}
