/* Replays the fixed lists through the C calls: each line's calls, their arguments, and the answer that the oracle gave.
 *
 *   replay FILE..      prints the first lines that differ, then `N answers replayed, M differ`
 *
 * tests/fixed/README.md has the form of a line. Every lent output has guarded places around it, and the whole of it is
 * held to the answer: what is no part of the answer keeps its value. */
#include "pasdrongel.h"

#include <stdio.h>
#include <stdlib.h>
#include <string.h>

#define GUARD 0xa5a5a5a5u
#define GUARD_BYTE 0xa5
#define MARGIN 4
#define MOST 1024
#define MOST_SHOWN 20
#define COMPOSITION_BYTES PASDRONGEL_COMPOSITION_BYTES
#define CELLS PASDRONGEL_CELLS
/* Where the cells begin, as docs/BYTES.md has it. */
#define HEAD 8
/* The room of a session's outputs where it names no other. */
#define ROOM (CELLS + 8)

/* Code points or bytes, as a line spells them. */
struct list {
    uint32_t items[MOST];
    size_t length;
};

/* The answer that a line expects. */
struct answer {
    uint32_t refusal;
    struct list list;
};

typedef uint32_t one_letter(uint32_t letter, uint32_t *out);

static const struct {
    const char *name;
    one_letter *call;
} one_letter_calls[] = {
    {"lower", pasdrongel_lower},
    {"upper", pasdrongel_upper},
    {"tone_off", pasdrongel_tone_off},
    {"is_capital", pasdrongel_is_capital},
    {"is_white_space", pasdrongel_is_white_space},
    {"is_separator", pasdrongel_is_separator},
    {"is_composer_vowel", pasdrongel_is_composer_vowel},
    {"is_speller_vowel", pasdrongel_is_speller_vowel},
};

static const char *file, *called;
static unsigned long line_number;

static void bad_line(const char *why)
{
    fprintf(stderr, "%s:%lu: %s\n", file, line_number, why);
    exit(2);
}

/* Appends an item: `U+0061`, `61`, or either with `*256` for as many times. */
static void add_item(struct list *list, const char *word)
{
    char *end;
    unsigned long times = 1, item = strtoul(strncmp(word, "U+", 2) == 0 ? word + 2 : word, &end, 16);
    if (*end == '*')
        times = strtoul(end + 1, &end, 10);
    if (*end != '\0' || item > UINT32_MAX || times > MOST - list->length)
        bad_line("this is no item");
    while (times-- > 0)
        list->items[list->length++] = (uint32_t)item;
}

/* The letter that UTF-8 has at `*text`, which goes on behind it; the lists are well formed. */
static uint32_t next_letter(const char **text)
{
    const unsigned char *byte = (const unsigned char *)*text;
    size_t width = byte[0] < 0x80 ? 1 : byte[0] < 0xe0 ? 2 : 3, i;
    uint32_t letter = width == 1 ? byte[0] : byte[0] & (0x7fu >> width);
    for (i = 1; i < width; i++)
        letter = letter << 6 | (byte[i] & 0x3fu);
    *text += width;
    return letter;
}

/* Appends letters: `U+002E`, `dad`, or a single one with `*96` for as many times. */
static void add_letters(struct list *list, const char *word)
{
    const char *text = word;
    if (strncmp(word, "U+", 2) == 0) {
        add_item(list, word);
        return;
    }
    while (*text != '\0') {
        uint32_t letter = next_letter(&text);
        unsigned long times = 1;
        if (*text == '*')
            times = strtoul(text + 1, (char **)&text, 10);
        if (times > MOST - list->length)
            bad_line("these are too many letters");
        while (times-- > 0)
            list->items[list->length++] = letter;
    }
}

static const char *next_word(void)
{
    const char *word = strtok(NULL, " ");
    if (word == NULL)
        bad_line("this line ends too soon");
    return word;
}

/* The next word must be this one. */
static void expect(const char *word)
{
    if (strcmp(next_word(), word) != 0)
        bad_line(word);
}

static unsigned long read_number(void)
{
    char *end;
    unsigned long number = strtoul(next_word(), &end, 10);
    if (*end != '\0')
        bad_line("this is no number");
    return number;
}

/* What stands in brackets, of which the first is read already. */
static void read_bracketed(struct list *list)
{
    const char *word;
    list->length = 0;
    while (strcmp(word = next_word(), "]") != 0)
        add_letters(list, word);
}

/* The words up to `stop` (NULL: all that are left), as items. */
static void read_list(struct list *list, const char *stop)
{
    const char *word;
    list->length = 0;
    while ((word = strtok(NULL, " ")) != NULL && (stop == NULL || strcmp(word, stop) != 0))
        if (strcmp(word, "nothing") != 0)
            add_item(list, word);
    if (word == NULL && stop != NULL)
        bad_line("this line has no answer");
}

static void read_answer(struct answer *answer)
{
    const char *word = strtok(NULL, " ");
    answer->refusal = 0;
    answer->list.length = 0;
    if (word == NULL)
        bad_line("this line has no answer");
    if (strcmp(word, "refused") == 0) {
        word = strtok(NULL, " ");
        answer->refusal = word == NULL ? 0 : (uint32_t)strtoul(word, NULL, 10);
        if (answer->refusal == 0)
            bad_line("this refusal has no number");
    } else if (strcmp(word, "[") == 0) {
        read_bracketed(&answer->list);
    } else if (strcmp(word, "yes") == 0) {
        add_item(&answer->list, "1");
    } else if (strcmp(word, "no") == 0 || strcmp(word, "none") == 0) {
        add_item(&answer->list, "0");
    } else if (strcmp(word, "done") != 0 && strcmp(word, "nothing") != 0) {
        struct list rest;
        size_t i;
        add_item(&answer->list, word);
        read_list(&rest, NULL);
        for (i = 0; i < rest.length; i++)
            answer->list.items[answer->list.length++] = rest.items[i];
    }
}

/* What one lent number must be after the call. */
static uint32_t number_after(const struct answer *answer)
{
    return answer->refusal == 0 && answer->list.length > 0 ? answer->list.items[0] : GUARD;
}

static size_t count_after(const struct answer *answer)
{
    return answer->refusal == 0 ? answer->list.length : GUARD;
}

/* A lent output of letters, with guarded places around it. */
static uint32_t output[MOST + 2 * MARGIN];
static size_t count;

static void lend_output(void)
{
    size_t i;
    for (i = 0; i < MOST + 2 * MARGIN; i++)
        output[i] = GUARD;
    count = GUARD;
}

/* Does the output have the letters at its start, and all else as it was? */
static int output_has(const struct list *letters)
{
    size_t i;
    for (i = 0; i < MOST + 2 * MARGIN; i++)
        if (output[i] != (i >= MARGIN && i - MARGIN < letters->length ? letters->items[i - MARGIN] : GUARD))
            return 0;
    return 1;
}

static int replay_read(const struct list *input, size_t room, const struct answer *answer)
{
    static uint8_t bytes[MOST];
    size_t i;
    uint32_t refusal;
    for (i = 0; i < input->length; i++)
        bytes[i] = (uint8_t)input->items[i];
    lend_output();
    refusal = PASDRONGEL_REFUSAL(pasdrongel_read_utf8(bytes, input->length, output + MARGIN, room, &count));
    return refusal == answer->refusal && count == count_after(answer) && output_has(&answer->list);
}

static int replay_write(const struct list *input, size_t room, const struct answer *answer)
{
    static uint8_t bytes[MOST + 2 * MARGIN];
    size_t i;
    uint32_t refusal;
    count = GUARD;
    memset(bytes, GUARD_BYTE, sizeof bytes);
    refusal = PASDRONGEL_REFUSAL(pasdrongel_write_utf8(input->items, input->length, bytes + MARGIN, room, &count));
    for (i = 0; i < room + 2 * MARGIN; i++)
        if (bytes[i] != (i >= MARGIN && i - MARGIN < answer->list.length ? answer->list.items[i - MARGIN] : GUARD_BYTE))
            return 0;
    return refusal == answer->refusal && count == count_after(answer);
}

/* `room N : INPUT = ANSWER`: what follows the name of a call that fills a lent output. */
static size_t read_room(void)
{
    const char *room = strtok(NULL, " "), *number = strtok(NULL, " "), *colon = strtok(NULL, " ");
    unsigned long size = number == NULL ? 0 : strtoul(number, NULL, 10);
    if (colon == NULL || strcmp(room, "room") != 0 || strcmp(colon, ":") != 0 || size > MOST)
        bad_line("this line has no room");
    return size;
}

/* `cut [ gia ] = 2 3`: where the onset ends, and where the vowels end. */
static int replay_cut(void)
{
    struct list word;
    size_t onset = GUARD, vowels = GUARD;
    uint32_t refusal;
    const char *answer;
    expect("[");
    read_bracketed(&word);
    refusal = PASDRONGEL_REFUSAL(pasdrongel_cut(word.items, word.length, &onset, &vowels));
    expect("=");
    answer = next_word();
    if (strcmp(answer, "refused") == 0)
        return refusal == read_number() && onset == GUARD && vowels == GUARD;
    return refusal == 0 && onset == strtoul(answer, NULL, 10) && vowels == read_number();
}

static int replay_verdict(void)
{
    struct list word;
    struct answer answer;
    uint32_t yes = GUARD, refusal;
    expect("[");
    read_bracketed(&word);
    refusal = PASDRONGEL_REFUSAL(pasdrongel_verdict(word.items, word.length, &yes));
    expect("=");
    read_answer(&answer);
    return refusal == answer.refusal && yes == number_after(&answer);
}

/* `mark_for 0 [ aw ] = [ \304\203 ]`, `is_tone_key 0 [ s ] = yes`: a method and letters. */
static int replay_method(void)
{
    struct list letters;
    struct answer answer;
    uint32_t method = (uint32_t)read_number(), out = GUARD, refusal;
    expect("[");
    read_bracketed(&letters);
    expect("=");
    read_answer(&answer);
    if (letters.length == 2)
        refusal = PASDRONGEL_REFUSAL(pasdrongel_mark_for(method, letters.items[0], letters.items[1], &out));
    else if (called[3] == 't')
        refusal = PASDRONGEL_REFUSAL(pasdrongel_is_tone_key(method, letters.items[0], &out));
    else
        refusal = PASDRONGEL_REFUSAL(pasdrongel_is_horn_key(method, letters.items[0], &out));
    return refusal == answer.refusal && out == number_after(&answer);
}

static int replay_total(void)
{
    size_t total = GUARD;
    uint32_t refusal = PASDRONGEL_REFUSAL(pasdrongel_total(&total));
    expect("=");
    return refusal == 0 && total == read_number();
}

static int letters_answered(uint32_t refusal)
{
    struct answer answer;
    expect("=");
    read_answer(&answer);
    return refusal == answer.refusal && count == count_after(&answer) && output_has(&answer.list);
}

/* `word 13 room 8 = [ b ]` */
static int replay_word(void)
{
    size_t number = read_number(), room;
    expect("room");
    room = read_number();
    lend_output();
    return letters_answered(PASDRONGEL_REFUSAL(pasdrongel_word(number, output + MARGIN, room, &count)));
}

/* `next_word room 8 : [ az ] = [ b ]` */
static int replay_next_word(void)
{
    struct list word;
    size_t room = read_room();
    expect("[");
    read_bracketed(&word);
    lend_output();
    return letters_answered(
        PASDRONGEL_REFUSAL(pasdrongel_next_word(word.items, word.length, output + MARGIN, room, &count)));
}

/* A lent draft, with guarded bytes around it. */
static uint8_t draft[MOST + 2 * MARGIN];

/* Does the draft have the bytes at its start, and all else as it was? */
static int draft_has(const struct list *bytes)
{
    size_t i;
    for (i = 0; i < MOST + 2 * MARGIN; i++)
        if (draft[i] != (i >= MARGIN && i - MARGIN < bytes->length ? bytes->items[i - MARGIN] : GUARD_BYTE))
            return 0;
    return 1;
}

/* A session: the bytes of its composition, with guarded ones around, and what the last call left. */
static struct {
    uint8_t bytes[MOST + 2 * MARGIN], before[MOST + 2 * MARGIN];
    size_t length, room, draft_room;
    const char *call; /* the last one */
    uint32_t refusal, number;
    size_t cells;
} session;

/* The bytes of a cell: `a`, `U+0020,s`, `\303\242,marked,s,capital`. */
static void write_cell(uint8_t *bytes, char *word)
{
    struct list base;
    char *part = strchr(word, ',');
    if (part != NULL)
        *part++ = '\0';
    base.length = 0;
    add_letters(&base, word);
    if (base.length != 1)
        bad_line("a cell has one base");
    bytes[0] = (uint8_t)base.items[0];
    bytes[1] = (uint8_t)(base.items[0] >> 8);
    bytes[2] = (uint8_t)(base.items[0] >> 16);
    bytes[3] = (uint8_t)(base.items[0] >> 24);
    while (part != NULL) {
        char *next = strchr(part, ',');
        if (next != NULL)
            *next++ = '\0';
        if (strcmp(part, "marked") == 0) {
            bytes[4] = bytes[0];
            bytes[5] = bytes[1];
        } else if (strcmp(part, "capital") == 0) {
            bytes[7] = 1;
        } else {
            bytes[6] = (uint8_t)part[0];
        }
        part = next;
    }
}

/* The bytes of a composition, `telex vietnamese a b,s`, with capitals on `telex vietnamese capitals a b,s`, up to the word
 * `stop` (NULL: to the end of the line). */
static void read_composition(uint8_t *bytes, const char *stop)
{
    char *word, *star;
    memset(bytes, 0, COMPOSITION_BYTES);
    bytes[0] = strcmp(next_word(), "vni") == 0;
    bytes[1] = strcmp(next_word(), "english") == 0;
    while ((word = strtok(NULL, " ")) != NULL && (stop == NULL || strcmp(word, stop) != 0)) {
        unsigned long times = 1;
        if (strcmp(word, "nothing") == 0)
            continue;
        if (strcmp(word, "capitals") == 0) {
            bytes[3] = 1;
            continue;
        }
        if ((star = strchr(word, '*')) != NULL) {
            times = strtoul(star + 1, NULL, 10);
            *star = '\0';
        }
        for (; times > 0; times--) {
            char cell[64];
            if (bytes[2] == CELLS || strlen(word) >= sizeof cell)
                bad_line("these are too many cells");
            strcpy(cell, word);
            write_cell(bytes + HEAD + 8 * bytes[2]++, cell);
        }
    }
}
/* Lends everything anew, and keeps the composition as it is before the call. */
static void lend(const char *call)
{
    lend_output();
    memset(draft, GUARD_BYTE, sizeof draft);
    session.call = call;
    session.number = GUARD;
    session.cells = GUARD;
    memcpy(session.before, session.bytes, sizeof session.before);
}

static void press(const struct list *keys)
{
    size_t i;
    for (i = 0; i < keys->length; i++) {
        lend("key");
        session.refusal = PASDRONGEL_REFUSAL(pasdrongel_key(
            session.bytes + MARGIN, session.length, keys->items[i], output + MARGIN, session.room, &count));
    }
}

static uint32_t read_letter(void)
{
    struct list letter;
    letter.length = 0;
    add_letters(&letter, next_word());
    if (letter.length != 1)
        bad_line("this is not one letter");
    return letter.items[0];
}

static uint32_t undo(void)
{
    struct list raw;
    uint32_t trigger = read_letter();
    expect("[");
    read_bracketed(&raw);
    return pasdrongel_undo(session.bytes + MARGIN, session.length, trigger, raw.items, raw.length, &session.number);
}

/* `read_draft 01 00 .. ;`: bytes up to the semicolon. */
static uint32_t read_draft(void)
{
    static uint8_t bytes[MOST];
    struct list given;
    size_t i;
    read_list(&given, ";");
    for (i = 0; i < given.length; i++)
        bytes[i] = (uint8_t)given.items[i];
    return pasdrongel_read_draft(bytes, given.length, session.bytes + MARGIN, session.length);
}

/* A call of a session by its name; the keys are no call of their own. */
static uint32_t session_call(const char *name)
{
    uint8_t *state = session.bytes + MARGIN;
    size_t length = session.length;
    lend(name);
    if (strcmp(name, "telex") == 0 || strcmp(name, "vni") == 0)
        return pasdrongel_new(state, length, name[0] == 'v');
    if (strcmp(name, "new") == 0)
        return pasdrongel_new(state, length, (uint32_t)read_number());
    if (strcmp(name, "literal") == 0)
        return pasdrongel_literal(state, length, read_letter());
    if (strcmp(name, "text") == 0)
        return pasdrongel_text(state, length, output + MARGIN, session.room, &count);
    if (strcmp(name, "remove_last") == 0)
        return pasdrongel_remove_last(state, length, output + MARGIN, session.room, &count);
    if (strcmp(name, "reset") == 0)
        return pasdrongel_reset(state, length);
    if (strcmp(name, "set_method") == 0)
        return pasdrongel_set_method(state, length, (uint32_t)read_number());
    if (strcmp(name, "set_mode") == 0)
        return pasdrongel_set_mode(state, length, (uint32_t)read_number());
    if (strcmp(name, "set_capitals") == 0)
        return pasdrongel_set_capitals(state, length, (uint32_t)read_number());
    if (strcmp(name, "undo") == 0)
        return undo();
    if (strcmp(name, "write_draft") == 0)
        return pasdrongel_write_draft(state, length, draft + MARGIN, session.draft_room, &count);
    if (strcmp(name, "read_draft") == 0)
        return read_draft();
    if (strcmp(name, "check_composition") == 0)
        return pasdrongel_check_composition(state, length);
    if (strcmp(name, "method") == 0)
        return pasdrongel_method(state, length, &session.number);
    if (strcmp(name, "mode") == 0)
        return pasdrongel_mode(state, length, &session.number);
    if (strcmp(name, "capitals") == 0)
        return pasdrongel_capitals(state, length, &session.number);
    if (strcmp(name, "count") == 0)
        return pasdrongel_count(state, length, &session.cells);
    bad_line("this call is not known");
    return 0;
}

/* The next step of a session: a call, keys, or a change of what is lent. */
static void session_step(const char *word)
{
    uint8_t *state = session.bytes + MARGIN;
    struct list keys;
    if (strcmp(word, "handed") == 0) {
        read_composition(state, ";");
    } else if (strcmp(word, "keys") == 0) {
        expect("[");
        read_bracketed(&keys);
        press(&keys);
    } else if (strcmp(word, "room") == 0) {
        session.room = session.draft_room = read_number();
    } else if (strcmp(word, "poke") == 0) {
        size_t place = read_number();
        state[place] = (uint8_t)read_number();
    } else if (strcmp(word, "length") == 0) {
        size_t length = read_number(), shorter = length < session.length ? length : session.length;
        memset(state + shorter, 0, length - shorter);
        memset(state + length, GUARD_BYTE, MOST + MARGIN - length);
        session.length = length;
    } else {
        session.refusal = PASDRONGEL_REFUSAL(session_call(word));
    }
}

/* `session STEPS = ANSWER / COMPOSITION`: the answer of the last call, and what it leaves. */
static int replay_session(void)
{
    struct list text, bytes;
    size_t expected_count = GUARD, expected_cells = GUARD;
    uint32_t expected_refusal = 0, expected_number = GUARD;
    const char *word;
    memset(session.bytes, GUARD_BYTE, sizeof session.bytes);
    session.length = COMPOSITION_BYTES;
    session.room = ROOM;
    session.draft_room = PASDRONGEL_DRAFT_ROOM;
    while (strcmp(word = next_word(), "=") != 0)
        session_step(word);
    text.length = bytes.length = 0;
    word = next_word();
    if (strcmp(word, "refused") == 0) {
        expected_refusal = (uint32_t)read_number();
    } else {
        if (strcmp(word, "[") == 0) {
            read_bracketed(&text);
            expected_count = text.length;
        } else if (strcmp(session.call, "write_draft") == 0) {
            for (; strcmp(word, ";") != 0; word = next_word())
                add_item(&bytes, word);
            expected_count = bytes.length;
        } else if (strcmp(word, "append") == 0 || strcmp(word, "consume") == 0) {
            expected_number = word[0] == 'c';
        } else if (word[0] >= '0' && word[0] <= '9' && strcmp(session.call, "count") == 0) {
            expected_cells = strtoul(word, NULL, 10);
        } else if (word[0] >= '0' && word[0] <= '9') {
            expected_number = (uint32_t)strtoul(word, NULL, 10);
        } else if (strcmp(word, "done") != 0) {
            bad_line("this answer is not known");
        }
        expect("/");
        read_composition(session.before + MARGIN, NULL);
    }
    return session.refusal == expected_refusal && session.number == expected_number && session.cells == expected_cells
        && count == expected_count && output_has(&text) && draft_has(&bytes)
        && memcmp(session.bytes, session.before, sizeof session.bytes) == 0;
}

/* ---- note lines */

/* The letters of a line, and some that are too many. */
static uint32_t note[PASDRONGEL_LINE_LETTERS + MOST];
static size_t note_length;

/* `[ an ] times 2048 [ a U+0020 ]`: letters one after another, some of them so many times. Returns the word after them. */
static const char *read_note(void)
{
    static struct list letters;
    const char *word;
    note_length = 0;
    while (strcmp(word = next_word(), "[") == 0 || strcmp(word, "times") == 0) {
        unsigned long times = 1;
        if (word[0] == 't') {
            times = read_number();
            expect("[");
        }
        read_bracketed(&letters);
        if (times > sizeof note / sizeof *note || times * letters.length > sizeof note / sizeof *note - note_length)
            bad_line("these are too many letters of a line");
        for (; times > 0; times--) {
            memcpy(note + note_length, letters.items, letters.length * sizeof *note);
            note_length += letters.length;
        }
    }
    return word;
}

/* What a call on a line left: its refusal, and the three numbers. */
struct told {
    uint32_t refusal;
    size_t words, no, first;
};

/* `3 2 3`, `done` or `refused 6`: is it the answer? Where nothing is told, the numbers keep their values. */
static int is_told(const struct told *told)
{
    const char *answer = next_word();
    if (strcmp(answer, "refused") == 0)
        return told->refusal == read_number() && told->words == GUARD && told->no == GUARD && told->first == GUARD;
    if (strcmp(answer, "done") == 0)
        return told->refusal == 0 && told->words == GUARD && told->no == GUARD && told->first == GUARD;
    return told->refusal == 0 && told->words == strtoul(answer, NULL, 10) && told->no == read_number() && told->first == read_number();
}

/* `line_check [ an U+0020 za ] = 2 1 3`: the words, those judged no, and where the first of these begins. */
static int replay_line_check(void)
{
    struct told told = {0, GUARD, GUARD, GUARD};
    if (strcmp(read_note(), "=") != 0)
        bad_line("this line has no answer");
    told.refusal = PASDRONGEL_REFUSAL(pasdrongel_line_check(note, note_length, &told.words, &told.no, &told.first));
    return is_told(&told);
}

/* `line STEPS = ANSWER / BYTES`: the answer of the last call, and the state that it leaves. */
static int replay_line(void)
{
    static uint8_t bytes[MOST + 2 * MARGIN], expected[MOST + 2 * MARGIN];
    uint8_t *state = bytes + MARGIN;
    size_t i, length = PASDRONGEL_LINE_STATE_BYTES;
    struct told told = {0, GUARD, GUARD, GUARD};
    struct list left;
    const char *word = next_word();
    memset(bytes, GUARD_BYTE, sizeof bytes);
    while (strcmp(word, "=") != 0) {
        const char *step = word;
        told.words = told.no = told.first = GUARD;
        if (strcmp(step, "part") == 0) {
            word = read_note();
            told.refusal = PASDRONGEL_REFUSAL(pasdrongel_line_part(state, length, note, note_length));
            continue;
        }
        if (strcmp(step, "begin") == 0) {
            told.refusal = PASDRONGEL_REFUSAL(pasdrongel_line_begin(state, length));
        } else if (strcmp(step, "answer") == 0) {
            told.refusal = PASDRONGEL_REFUSAL(pasdrongel_line_answer(state, length, &told.words, &told.no, &told.first));
        } else if (strcmp(step, "poke") == 0) {
            size_t place = read_number();
            state[place] = (uint8_t)read_number();
        } else if (strcmp(step, "length") == 0) {
            size_t other = read_number(), shorter = other < length ? other : length;
            memset(state + shorter, 0, other - shorter);
            memset(state + other, GUARD_BYTE, MOST + MARGIN - other);
            length = other;
        } else {
            bad_line("this step is not known");
        }
        word = next_word();
    }
    if (!is_told(&told))
        return 0;
    expect("/");
    read_list(&left, NULL);
    memset(expected, GUARD_BYTE, sizeof expected);
    for (i = 0; i < left.length; i++)
        expected[MARGIN + i] = (uint8_t)left.items[i];
    return left.length == length && memcmp(bytes, expected, sizeof bytes) == 0;
}

static const struct {
    const char *name;
    int (*replay)(void);
} spelled_calls[] = {
    {"session", replay_session},
    {"line", replay_line},
    {"line_check", replay_line_check},
    {"is_tone_key", replay_method},
    {"is_horn_key", replay_method},
    {"mark_for", replay_method},
    {"cut", replay_cut},
    {"verdict", replay_verdict},
    {"total", replay_total},
    {"word", replay_word},
    {"next_word", replay_next_word},
};

/* Replays one line; 1 if the call answers as the oracle. */
static int replay(char *line)
{
    static struct list input;
    static struct answer answer;
    const char *name = called = strtok(line, " ");
    uint32_t out = GUARD;
    size_t i;
    for (i = 0; i < sizeof spelled_calls / sizeof *spelled_calls; i++)
        if (strcmp(name, spelled_calls[i].name) == 0)
            return spelled_calls[i].replay();
    if (strcmp(name, "read_utf8") == 0 || strcmp(name, "write_utf8") == 0) {
        size_t room = read_room();
        read_list(&input, "=");
        read_answer(&answer);
        return (name[0] == 'r' ? replay_read : replay_write)(&input, room, &answer);
    }
    read_list(&input, "=");
    read_answer(&answer);
    if (strcmp(name, "check_letter") == 0 && input.length == 1)
        return PASDRONGEL_REFUSAL(pasdrongel_check_letter(input.items[0])) == answer.refusal;
    if (strcmp(name, "tone_on") == 0 && input.length == 2)
        return PASDRONGEL_REFUSAL(pasdrongel_tone_on(input.items[0], input.items[1], &out)) == answer.refusal
            && out == number_after(&answer);
    for (i = 0; i < sizeof one_letter_calls / sizeof *one_letter_calls; i++)
        if (strcmp(name, one_letter_calls[i].name) == 0 && input.length == 1)
            return PASDRONGEL_REFUSAL(one_letter_calls[i].call(input.items[0], &out)) == answer.refusal
                && out == number_after(&answer);
    bad_line("this call is not known");
    return 0;
}

int main(int count, char **files)
{
    static char line[16384], kept[16384];
    unsigned long replayed = 0, differ = 0;
    int i;
    for (i = 1; i < count; i++) {
        FILE *list = fopen(file = files[i], "r");
        if (list == NULL) {
            perror(file);
            return 2;
        }
        for (line_number = 1; fgets(line, sizeof line, list) != NULL; line_number++) {
            char *end = strpbrk(line, "#\n");
            if (end == NULL)
                bad_line("this line is too long");
            *end = '\0';
            if (line[strspn(line, " ")] == '\0')
                continue;
            strcpy(kept, line);
            replayed++;
            if (!replay(line) && ++differ <= MOST_SHOWN)
                printf("%s:%lu: not so: %s\n", file, line_number, kept);
        }
        fclose(list);
    }
    printf("%lu answers replayed, %lu differ\n", replayed, differ);
    return replayed == 0 || differ != 0;
}
