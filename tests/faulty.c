/* Calls with a fault, to try tests/fuzz on: it must find each of them. FAULT in the environment says which one; the
 * linker puts `__wrap_NAME` in the place of NAME (see tests/fuzz). */
#include "pasdrongel.h"

#include <stdlib.h>
#include <string.h>

#define STATE PASDRONGEL_COMPOSITION_BYTES
#define HEAD 8 /* where the cells begin */
#define OLD_CELLS 32 /* the most cells up to version 0.6.0 */
#define WRAPPED(result, name, ...) result __real_pasdrongel_##name(__VA_ARGS__); result __wrap_pasdrongel_##name(__VA_ARGS__)
#define WRAP(name, ...) WRAPPED(uint32_t, name, __VA_ARGS__)
#define WRAP_SIZE(name, ...) WRAPPED(size_t, name, __VA_ARGS__)

WRAP(key, uint8_t *state, size_t size, uint32_t key, uint32_t *out, size_t room, size_t *count);
WRAP(literal, uint8_t *state, size_t size, uint32_t letter);
WRAP(remove_last, uint8_t *state, size_t size, uint32_t *out, size_t room, size_t *count);
WRAP(text, const uint8_t *state, size_t size, uint32_t *out, size_t room, size_t *count);
WRAP(check_composition, const uint8_t *state, size_t size);
WRAP_SIZE(composition_bytes, void);
WRAP(method, const uint8_t *state, size_t size, uint32_t *method);
WRAP(mode, const uint8_t *state, size_t size, uint32_t *mode);
WRAP(count, const uint8_t *state, size_t size, size_t *count);
WRAP(capitals, const uint8_t *state, size_t size, uint32_t *on);
WRAP(set_capitals, uint8_t *state, size_t size, uint32_t on);
WRAP(new, uint8_t *state, size_t size, uint32_t method);
WRAP(reset, uint8_t *state, size_t size);
WRAP(set_method, uint8_t *state, size_t size, uint32_t method);
WRAP(undo, uint8_t *state, size_t size, uint32_t trigger, const uint32_t *raw, size_t length, uint32_t *behaviour);
WRAP(write_draft, const uint8_t *state, size_t size, uint8_t *draft, size_t room, size_t *count);
WRAP(read_draft, const uint8_t *draft, size_t length, uint8_t *state, size_t size);
WRAP(line_check, const uint32_t *line, size_t length, size_t *words, size_t *no, size_t *first);
WRAP(line_begin, uint8_t *state, size_t size);
WRAP(line_part, uint8_t *state, size_t size, const uint32_t *letters, size_t length);
WRAP(line_answer, const uint8_t *state, size_t size, size_t *words, size_t *no, size_t *first);
WRAP(is_separator, uint32_t letter, uint32_t *yes);
WRAP(read_utf8, const uint8_t *bytes, size_t length, uint32_t *letters, size_t room, size_t *count);

static int fault(int n)
{
    static int asked;
    if (asked == 0)
        asked = atoi(getenv("FAULT"));
    return asked == n;
}

/* A text that was written while capitals are on. */
static void spoil(uint32_t refusal, const uint8_t *state, uint32_t *out, const size_t *count)
{
    size_t i;
    if (refusal != PASDRONGEL_DONE || state[3] != PASDRONGEL_CAPITALS_ON)
        return;
    for (i = 0; i < *count; i++) {
        if (fault(26) && out[i] > 0x7f)
            pasdrongel_lower(out[i], &out[i]); /* an accented letter is small, as it is off */
        if (fault(27))
            pasdrongel_upper(out[i], &out[i]); /* every letter is a capital, flagged or not */
    }
}

/* The flags are those that the key leaves with the other setting of capitals. They differ in the o of a horned pair, which is
 * then shown small. */
static void exchange_flags(uint8_t *state, const uint8_t *before, uint32_t key, uint32_t *out)
{
    uint8_t other[STATE];
    uint32_t text[PASDRONGEL_TEXT_ROOM];
    size_t i, count;
    memcpy(other, before, STATE);
    other[3] ^= 1;
    __real_pasdrongel_key(other, STATE, key, text, PASDRONGEL_TEXT_ROOM, &count);
    for (i = 0; i < other[2]; i++)
        if (state[HEAD + 8 * i + 7] != other[HEAD + 8 * i + 7]) {
            state[HEAD + 8 * i + 7] ^= 1;
            out[i] = 0x1a1;
        }
}

uint32_t __wrap_pasdrongel_key(uint8_t *state, size_t size, uint32_t key, uint32_t *out, size_t room, size_t *count)
{
    uint8_t before[STATE] = {0};
    uint32_t refusal;
    if (size == STATE)
        memcpy(before, state, STATE);
    if (fault(97) && size == STATE && state[2] == PASDRONGEL_CELLS - 1)
        return PASDRONGEL_REFUSED_FULL; /* the last cell is not used */
    refusal = __real_pasdrongel_key(state, size, key, out, room, count);
    if (fault(1) && refusal == PASDRONGEL_DONE && *count < room)
        out[*count] = 0;    /* the answer is ended by a 0 */
    if (fault(2) && refusal == PASDRONGEL_DONE)
        out[room] = 0;      /* a letter past what is lent */
    if (fault(3) && refusal == PASDRONGEL_DONE)
        out[-1] = 0;        /* a letter before it */
    if (fault(4) && refusal == PASDRONGEL_REFUSED_SHORT && room > 0)
        out[0] = 'a';       /* a refusal that has begun to write */
    if (fault(28) && refusal == PASDRONGEL_DONE && state[3] == PASDRONGEL_CAPITALS_ON)
        exchange_flags(state, before, key, out); /* the horn takes the o's flag, as it does off */
    if (fault(29) && refusal == PASDRONGEL_DONE && state[3] == PASDRONGEL_CAPITALS_OFF)
        exchange_flags(state, before, key, out); /* the horn leaves the o's flag, as it does on */
    spoil(refusal, state, out, count);
    return refusal;
}

uint32_t __wrap_pasdrongel_literal(uint8_t *state, size_t size, uint32_t letter)
{
    uint32_t refusal;
    if (fault(98) && size == STATE && state[2] == OLD_CELLS)
        return PASDRONGEL_REFUSED_FULL; /* by the limit that was */
    refusal = __real_pasdrongel_literal(state, size, letter);
    if (fault(5) && refusal == PASDRONGEL_REFUSED_FOREIGN)
        state[2]++;         /* a refusal that counts its cell */
    if (fault(6) && refusal == PASDRONGEL_REFUSED_FULL)
        return PASDRONGEL_REFUSED_SHORT;
    return refusal;
}

uint32_t __wrap_pasdrongel_remove_last(uint8_t *state, size_t size, uint32_t *out, size_t room, size_t *count)
{
    uint32_t refusal = __real_pasdrongel_remove_last(state, size, out, room, count);
    if (fault(7) && refusal == PASDRONGEL_DONE && state[2] < PASDRONGEL_CELLS)
        state[HEAD + 8 * state[2]] = 'a'; /* the cell is not blank: unsound */
    if (fault(8) && refusal == PASDRONGEL_DONE && *count > 0)
        out[0] = 'a';       /* not the text of what is left */
    spoil(refusal, state, out, count);
    return refusal;
}

uint32_t __wrap_pasdrongel_text(const uint8_t *state, size_t size, uint32_t *out, size_t room, size_t *count)
{
    uint32_t refusal;
    if (fault(9) && room > 0 && out[0] % 2 == 0)
        return PASDRONGEL_REFUSED_SHORT; /* goes by what stood in the output */
    if (fault(10) && room == 0)
        return PASDRONGEL_REFUSED_SHORT; /* there may be nothing to write */
    if (fault(11) && out == NULL)
        return PASDRONGEL_REFUSED_SHORT; /* asks where an empty output stands */
    refusal = __real_pasdrongel_text(state, size, out, room, count);
    if (fault(99) && refusal == PASDRONGEL_DONE && *count > OLD_CELLS)
        *count = OLD_CELLS; /* the text up to the limit that was */
    spoil(refusal, state, out, count);
    return refusal;
}

uint32_t __wrap_pasdrongel_check_composition(const uint8_t *state, size_t size)
{
    if (fault(12) && state[size] == 7)
        return PASDRONGEL_REFUSED_UNSOUND; /* reads past what is lent */
    if (fault(13) && size == STATE && state[2] == PASDRONGEL_CELLS + 1)
        return PASDRONGEL_DONE;
    if (fault(14) && size == STATE && state[HEAD - 1] != 0)
        return PASDRONGEL_DONE; /* a reserved byte says something */
    if (fault(30) && size == STATE && state[3] == 2)
        return PASDRONGEL_DONE; /* capitals are neither on nor off */
    return __real_pasdrongel_check_composition(state, size);
}

uint32_t __wrap_pasdrongel_read_utf8(const uint8_t *bytes, size_t length, uint32_t *letters, size_t room, size_t *count)
{
    uint32_t refusal = __real_pasdrongel_read_utf8(bytes, length, letters, room, count);
    if (fault(15) && refusal == PASDRONGEL_REFUSED_MALFORMED)
        *count = 0;         /* a refusal that says a count */
    if (fault(16) && refusal == PASDRONGEL_REFUSED_LONG && bytes[length - 1] == bytes[-1])
        return PASDRONGEL_REFUSED_MALFORMED; /* reads before what is lent */
    return refusal;
}

uint32_t __wrap_pasdrongel_method(const uint8_t *state, size_t size, uint32_t *method)
{
    uint32_t refusal = __real_pasdrongel_method(state, size, method);
    if (fault(17) && refusal == PASDRONGEL_DONE)
        *method = PASDRONGEL_TELEX; /* whatever it is */
    if (fault(18) && refusal != PASDRONGEL_DONE)
        *method = PASDRONGEL_TELEX; /* a refusal that answers */
    return refusal;
}

uint32_t __wrap_pasdrongel_mode(const uint8_t *state, size_t size, uint32_t *mode)
{
    uint32_t refusal = __real_pasdrongel_mode(state, size, mode);
    if (fault(19) && refusal == PASDRONGEL_DONE)
        *mode = 1 - *mode;
    if (fault(20) && size == STATE && state[0] <= 1 && state[1] <= 1 && state[2] <= PASDRONGEL_CELLS) {
        *mode = state[1]; /* the cells are not tested */
        return PASDRONGEL_DONE;
    }
    return refusal;
}

uint32_t __wrap_pasdrongel_count(const uint8_t *state, size_t size, size_t *count)
{
    size_t before = *count;
    uint32_t refusal = __real_pasdrongel_count(state, size, count);
    if (fault(21) && refusal == PASDRONGEL_DONE && *count == PASDRONGEL_CELLS)
        *count = PASDRONGEL_CELLS - 1; /* the last cell is not counted */
    if (fault(22) && refusal == PASDRONGEL_DONE)
        *count |= before & ~(size_t)UINT32_MAX; /* the low half of the number is written */
    return refusal;
}

uint32_t __wrap_pasdrongel_capitals(const uint8_t *state, size_t size, uint32_t *on)
{
    uint32_t refusal = __real_pasdrongel_capitals(state, size, on);
    if (fault(31) && refusal == PASDRONGEL_DONE)
        *on = PASDRONGEL_CAPITALS_OFF; /* whatever it is */
    if (fault(32) && refusal != PASDRONGEL_DONE)
        *on = PASDRONGEL_CAPITALS_OFF; /* a refusal that answers */
    if (fault(33) && size == STATE && state[3] <= 1) {
        *on = state[3]; /* the rest is not tested */
        return PASDRONGEL_DONE;
    }
    return refusal;
}

uint32_t __wrap_pasdrongel_set_capitals(uint8_t *state, size_t size, uint32_t on)
{
    uint32_t refusal = __real_pasdrongel_set_capitals(state, size, fault(34) && on == 2 ? 1 : on); /* 2 is on */
    if (fault(35) && refusal == PASDRONGEL_DONE)
        memset(state + HEAD, 0, STATE - HEAD), state[2] = 0; /* it empties the cells, as setting the method does */
    if (fault(36) && refusal != PASDRONGEL_DONE && size == STATE && on > 1)
        state[3] = (uint8_t)on; /* a refusal that sets the byte */
    if (fault(37) && refusal == PASDRONGEL_DONE && state[2] > 0)
        state[HEAD + 7] = 0; /* the first cell loses its flag */
    return refusal;
}

uint32_t __wrap_pasdrongel_new(uint8_t *state, size_t size, uint32_t method)
{
    uint8_t before = size == STATE ? state[3] : 0;
    uint32_t refusal = __real_pasdrongel_new(state, size, method);
    if (fault(38) && refusal == PASDRONGEL_DONE && before == PASDRONGEL_CAPITALS_ON)
        state[3] = before; /* capitals are as they were */
    return refusal;
}

/* Capitals are off after the call. */
static void turn_off(uint32_t refusal, uint8_t *state)
{
    if (refusal == PASDRONGEL_DONE)
        state[3] = PASDRONGEL_CAPITALS_OFF;
}

uint32_t __wrap_pasdrongel_reset(uint8_t *state, size_t size)
{
    uint32_t refusal = __real_pasdrongel_reset(state, size);
    if (fault(39))
        turn_off(refusal, state);
    return refusal;
}

uint32_t __wrap_pasdrongel_set_method(uint8_t *state, size_t size, uint32_t method)
{
    uint32_t refusal = __real_pasdrongel_set_method(state, size, method);
    if (fault(40))
        turn_off(refusal, state);
    return refusal;
}

uint32_t __wrap_pasdrongel_undo(
    uint8_t *state, size_t size, uint32_t trigger, const uint32_t *raw, size_t length, uint32_t *behaviour)
{
    uint32_t refusal = __real_pasdrongel_undo(state, size, trigger, raw, length, behaviour);
    if (fault(41))
        turn_off(refusal, state);
    return refusal;
}

#define CELLS 11 /* where the cells of a draft begin */
#define CELL 7

/* A draft that was written. */
static void spoil_draft(const uint8_t *state, uint8_t *draft, size_t room, const size_t *count)
{
    size_t i;
    uint8_t low;
    if (fault(42) && *count < room)
        draft[*count] = 0;  /* a byte past the draft */
    if (fault(43))
        draft[*count - 1] = PASDRONGEL_CAPITALS_OFF; /* capitals are lost */
    if (fault(44))
        draft[7] = PASDRONGEL_VIETNAMESE; /* the mode is */
    for (i = 0; i < state[2]; i++) {
        uint8_t *cell = draft + CELLS + CELL * i;
        if (fault(45))
            low = cell[3], cell[3] = cell[2], cell[2] = low; /* a base has its low byte before the next */
        if (fault(46))
            cell[4] = 0;    /* no cell has a mark */
        if (fault(47) && cell[5] != 0)
            cell[5] = 's';  /* every tone is this one */
        if (fault(48) && cell[3] > 0x7f)
            cell[6] = 0;    /* a flag is lost where the letter is no longer a capital of ASCII */
    }
}

uint32_t __wrap_pasdrongel_write_draft(const uint8_t *state, size_t size, uint8_t *draft, size_t room, size_t *count)
{
    uint8_t mended[STATE];
    uint32_t refusal;
    if (fault(49) && room < PASDRONGEL_DRAFT_ROOM)
        return PASDRONGEL_REFUSED_SHORT; /* asks for the room of the longest draft, and before 10 */
    if (fault(50) && size == STATE && state[2] <= PASDRONGEL_CELLS) { /* what stands past the count is not tested */
        memset(mended, 0, STATE);
        memcpy(mended, state, HEAD + 8 * (size_t)state[2]);
        state = mended;
    }
    refusal = __real_pasdrongel_write_draft(state, size, draft, room, count);
    if (fault(51) && refusal == PASDRONGEL_REFUSED_SHORT)
        *count = 15 + CELL * (size_t)state[2]; /* a refusal that says how much room it wants */
    if (fault(52) && refusal == PASDRONGEL_REFUSED_SHORT && room > 0)
        draft[0] = 1;       /* a refusal that has begun to write */
    if (refusal == PASDRONGEL_DONE)
        spoil_draft(state, draft, room, count);
    return refusal;
}

/* Bytes that are no draft, changed to those that this fault takes them for. */
static size_t taken_for(const uint8_t *draft, size_t length, uint8_t *other)
{
    size_t i, n = length < 15 ? 0 : (length - 15) / CELL;
    memcpy(other, draft, length);
    if (fault(53) && length > 15 && (length - 15) % CELL == 1)
        return length - 1;  /* a byte is left over */
    for (i = 0; i < n; i++) {
        uint8_t *cell = other + CELLS + CELL * i;
        if (fault(54) && cell[2] == 0 && cell[3] < 0x80)
            cell[4] = 0;    /* a mark on a letter that has none is no mark */
        if (fault(55) && cell[2] == 0 && cell[3] == 0)
            cell[4] = 0;    /* nor is one on U+0000, which a mark that is its base cannot say */
        if (fault(56))
            cell[0] = cell[1] = 0; /* a base has two bytes */
    }
    return length;
}

uint32_t __wrap_pasdrongel_read_draft(const uint8_t *draft, size_t length, uint8_t *state, size_t size)
{
    uint8_t other[4096], before[STATE] = {0};
    uint32_t refusal;
    size_t i;
    if (size == STATE)
        memcpy(before, state, STATE);
    if (fault(57) && __real_pasdrongel_check_composition(state, size) != PASDRONGEL_DONE)
        return PASDRONGEL_REFUSED_UNSOUND; /* looks at what stands there */
    if (fault(58) && draft == NULL)
        return PASDRONGEL_REFUSED_UNSOUND; /* asks where an empty draft stands */
    if (fault(59) && draft[length] == 7)
        return PASDRONGEL_REFUSED_NO_DRAFT; /* reads past what is lent */
    if (fault(100) && size == STATE && length > 15 + CELL * OLD_CELLS)
        return PASDRONGEL_REFUSED_NO_DRAFT; /* reads drafts up to the limit that was */
    length = length == 0 ? 0 : taken_for(draft, length, other);
    refusal = __real_pasdrongel_read_draft(length == 0 ? draft : other, length, state, size);
    if (fault(60) && refusal == PASDRONGEL_REFUSED_NO_DRAFT)
        memset(state, 0, STATE); /* what stood there is gone before the draft is known to be one */
    if (fault(61) && refusal == PASDRONGEL_REFUSED_NO_DRAFT && length > 3)
        state[0] = draft[3]; /* a refusal that has begun to read */
    if (refusal != PASDRONGEL_DONE)
        return refusal;
    if (fault(62))
        state[3] = before[3] <= 1 ? before[3] : 0; /* capitals are as they were */
    if (fault(63))
        state[1] = PASDRONGEL_VIETNAMESE; /* the mode is not read */
    if (fault(64) && state[2] < PASDRONGEL_CELLS)
        memcpy(state + HEAD + 8 * state[2], before + HEAD + 8 * state[2], 8); /* a cell past the count is as it was */
    for (i = 0; i < state[2]; i++)
        if (fault(65))
            state[HEAD + 8 * i + 6] = 0; /* no tone is read */
    if (fault(66) && state[2] == PASDRONGEL_CELLS)
        memset(state + STATE - 8, 0, 8), state[2]--; /* the last cell of all is not read */
    return refusal;
}

#define LINE PASDRONGEL_LINE_LETTERS
#define LINE_STATE PASDRONGEL_LINE_STATE_BYTES

static int separates(uint32_t letter)
{
    return letter < 0x80 && letter != 0 && strchr("\t\n\v\f\r .,!?;:", (int)letter) != NULL;
}

/* Where the last word that is judged no begins. */
static size_t last_no(const uint32_t *line, size_t length)
{
    size_t at = length, end;
    uint32_t yes;
    for (;;) {
        while (at > 0 && separates(line[at - 1]))
            at--;
        end = at;
        while (at > 0 && !separates(line[at - 1]))
            at--;
        if (end == at || (pasdrongel_verdict(line + at, end - at, &yes) == PASDRONGEL_DONE && yes == 0))
            return at;
    }
}

uint32_t __wrap_pasdrongel_line_check(const uint32_t *line, size_t length, size_t *words, size_t *no, size_t *first)
{
    size_t i, before = *first, end = length;
    uint32_t refusal;
    if (fault(67) && length > LINE)
        return PASDRONGEL_REFUSED_LONG; /* before its letters are looked at */
    if (fault(68) && length > 0 && line[length] == 7)
        return PASDRONGEL_REFUSED_FOREIGN; /* reads past what is lent */
    for (i = length; fault(69) && i > 0; i--)
        if (line[i - 1] == 0x0a)
            end = i - 1;    /* a line ends at the first line feed */
    refusal = __real_pasdrongel_line_check(line, end, words, no, first);
    if (fault(70) && refusal != PASDRONGEL_DONE)
        *words = 0;         /* a refusal that answers */
    if (refusal != PASDRONGEL_DONE)
        return refusal;
    if (fault(71) && *no == 0)
        *first = 0;         /* a line without such a word has a place of one */
    if (fault(72))
        *first |= before & ~(size_t)UINT32_MAX; /* the low half of the number is written */
    if (fault(73) && *no > 0)
        *first = last_no(line, length); /* the place of the last one */
    if (fault(74) && length > 0 && separates(line[length - 1]))
        ++*words;           /* what stands after the last gap is a word, of no letters */
    if (fault(75))
        *words &= 0xff;     /* they are counted in one byte */
    return refusal;
}

uint32_t __wrap_pasdrongel_line_begin(uint8_t *state, size_t size)
{
    size_t words, no, first;
    uint8_t before = size == LINE_STATE ? state[24] : 0;
    uint32_t refusal;
    if (fault(76) && size == LINE_STATE && __real_pasdrongel_line_answer(state, size, &words, &no, &first) == PASDRONGEL_REFUSED_UNSOUND)
        return PASDRONGEL_REFUSED_UNSOUND; /* looks at what stood there */
    if (fault(77) && size > LINE_STATE)
        size = LINE_STATE;  /* takes what is longer */
    refusal = __real_pasdrongel_line_begin(state, size);
    if (fault(78) && refusal == PASDRONGEL_DONE)
        state[24] = before; /* the last letter of a word is left */
    return refusal;
}

uint32_t __wrap_pasdrongel_line_part(uint8_t *state, size_t size, const uint32_t *letters, size_t length)
{
    uint8_t before[LINE_STATE] = {0};
    uint32_t space = ' ', refusal;
    if (size == LINE_STATE)
        memcpy(before, state, LINE_STATE);
    if (fault(79) && letters == NULL)
        return PASDRONGEL_REFUSED_UNSOUND; /* asks where an empty part stands */
    if (fault(80) && length == 0 && size == LINE_STATE)
        state[0] = 0;       /* an empty part forgets the refusal */
    if (fault(81) && size == LINE_STATE && state[0] == PASDRONGEL_REFUSED_LONG)
        state[0] = 0;       /* so does any part after a 6 */
    refusal = __real_pasdrongel_line_part(state, size, letters, length);
    if (fault(82) && refusal == PASDRONGEL_REFUSED_UNSOUND && size == LINE_STATE)
        state[0] = 0;       /* a refusal by 10 that changes something */
    if (fault(83) && refusal == PASDRONGEL_REFUSED_FOREIGN)
        memcpy(state, before, LINE_STATE); /* a refused letter takes back its part, and is not recorded */
    if (fault(84) && refusal == PASDRONGEL_REFUSED_LONG)
        memcpy(state + 1, before + 1, LINE_STATE - 1); /* it is recorded, and its part taken back */
    if (fault(85) && refusal == PASDRONGEL_DONE && state[1] > 0 && state[1] < 9)
        __real_pasdrongel_line_part(state, size, &space, 1); /* a word ends with its part */
    if (fault(86) && refusal == PASDRONGEL_DONE && state[1] < 8)
        state[24] = 1;      /* a letter is kept past the open word: unsound */
    return refusal;
}

/* A state that is not sound, changed to one that this fault takes it for. */
static void taken_for_line(const uint8_t *state, uint8_t *other)
{
    size_t i, length = state[2] + 256u * state[3], words = state[4] + 256u * state[5];
    memcpy(other, state, LINE_STATE);
    if (fault(87) && state[8] % 2 == 1 && 2 * words + state[1] == length)
        other[8]--;         /* before an odd place there may be half a word */
    if (fault(88) && state[0] == PASDRONGEL_REFUSED_LONG)
        other[0] = PASDRONGEL_REFUSED_FOREIGN; /* 6 may have ended any line */
    if (fault(89) && state[6] == 0 && state[7] == 0)
        other[8] = other[9] = 0; /* the place of none may be any */
    for (i = 0; i < 8; i++)
        if (fault(90) && i < state[1] && state[11 + 2 * i] == 0 && separates(state[10 + 2 * i]))
            other[10 + 2 * i] = 'a'; /* a gap may stand in a word */
    if (fault(91) && state[1] < 8)
        other[24] = other[25] = 0; /* what stands past the open word is not looked at */
}

uint32_t __wrap_pasdrongel_line_answer(const uint8_t *state, size_t size, size_t *words, size_t *no, size_t *first)
{
    uint8_t other[LINE_STATE];
    uint32_t refusal;
    if (fault(92) && size == LINE_STATE && *words % 2 == 0 && state[1] == 0)
        return PASDRONGEL_REFUSED_UNSOUND; /* goes by what stood in an output */
    if (size == LINE_STATE) {
        taken_for_line(state, other);
        state = other;
    }
    refusal = __real_pasdrongel_line_answer(state, size, words, no, first);
    if (fault(93) && refusal != PASDRONGEL_DONE)
        *no = 0;            /* a refusal that answers */
    if (fault(94) && refusal == PASDRONGEL_DONE && state[1] > 0)
        --*words;           /* the open word is not counted */
    if (fault(95) && (refusal == PASDRONGEL_REFUSED_FOREIGN || refusal == PASDRONGEL_REFUSED_LONG)) {
        *words = *no = *first = 0;
        return PASDRONGEL_DONE; /* a line that has ended may be told */
    }
    if (fault(96) && refusal == PASDRONGEL_DONE && *no == 0)
        *first = 0;         /* the place is that of the state */
    return refusal;
}

uint32_t __wrap_pasdrongel_is_separator(uint32_t letter, uint32_t *yes)
{
    uint32_t refusal = __real_pasdrongel_is_separator(letter, yes);
    if (fault(23) && refusal == PASDRONGEL_DONE && letter > ' ')
        *yes = 0; /* white space alone */
    if (fault(24) && refusal != PASDRONGEL_DONE)
        *yes = 0; /* a refusal that answers */
    return refusal;
}

size_t __wrap_pasdrongel_composition_bytes(void)
{
    return __real_pasdrongel_composition_bytes() - (fault(25) ? 1 : 0);
}
