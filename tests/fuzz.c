/* Random calls of the header, in sessions on one composition and one note line, with guards around everything that is lent.
 *
 *   SEED=7 SCALE=20 fuzz      other calls, and twenty times as many; the last line is `N calls, F faults`
 *   FAULTS=1 fuzz             ends with the session that finds a fault, and not with the twentieth fault
 *
 * Of each call it is asked, whatever it is given:
 * - It returns 0 or one of its own refusals, and by 10 exactly where the bytes are no sound composition, or no sound state of a
 *   line.
 * - Nothing outside of what it is lent is read or written (lent.h), and nothing that is lent to be read is written.
 * - After a refusal nothing has changed. After an answer: the answer alone, at the start of the output.
 * - What was a sound composition is one after the call, by a test of the bytes that is written here. The method, the mode,
 *   the setting of capitals and the count are those bytes, and a separator is one of twelve letters.
 * - Capitals are off in a new composition; the call that sets them changes nothing else, and no other call changes them. With
 *   the other setting every call does the same, but for the capitals that it shows and a flag that it takes (hold_capitals).
 * - A letter is refused by 2 where all cells are used, and not before.
 * - A composition is written as the one draft that it has, and that draft is read as this composition, whatever stood there.
 *   Bytes are refused by 11 exactly where they are no draft; what is read of others is written back as the same bytes.
 * - A note line is told and refused as a count of its words says that is made here, by the verdict; in parts it is told and refused
 *   as the whole is, whatever the cuts, its state is that of all letters that have come, and a refused letter stays recorded. This
 *   is the one refusal that changes what is lent.
 * - The same call on other memory, with other content in its outputs, does the same.
 * - It makes no difference whether an empty buffer is NULL.
 * - A refusal by 3 is one for want of room: with enough of it the answer is longer than the room was. And an answer with
 *   room to spare is refused by 3 where the room is one less than the answer.
 * At the end every refusal of every call must have been met, and each of its buffers as NULL, so that the run says something
 * of each; and keys alone must have come to where all cells are used.
 *
 * With PAINTED it makes a fifth as many calls, each on a painted stack, and says instead how much of it each has touched. */
#include "lent.h"
#include "pasdrongel.h"

#define STATE PASDRONGEL_COMPOSITION_BYTES
#define HEAD 8 /* where the cells begin */
#define MOST_STATE (2 * STATE)
#define MOST_INPUT 800 /* more than a draft of a few cells too many */
#define MOST_ROOM 720 /* more than PASDRONGEL_DRAFT_ROOM */
#define CELLS PASDRONGEL_CELLS
#define LINE PASDRONGEL_LINE_LETTERS
#define LINE_STATE PASDRONGEL_LINE_STATE_BYTES
#define MOST_LINE (LINE + 8)
#define MOST_SHOWN 20
#define REFUSALS 12

/* ---- random numbers: xorshift64* */

static uint64_t random_state;

static uint32_t random_word(void)
{
    random_state ^= random_state >> 12;
    random_state ^= random_state << 25;
    random_state ^= random_state >> 27;
    return (uint32_t)((random_state * 0x2545f4914f6cdd1du) >> 32);
}

static uint32_t below(uint32_t limit)
{
    return (uint32_t)((uint64_t)random_word() * limit >> 32);
}

static int one_in(uint32_t n)
{
    return below(n) == 0;
}

/* ---- a call, what it is given, and what it leaves */

struct given {
    uint8_t state[MOST_STATE];
    size_t state_size;
    uint32_t input[MOST_INPUT]; /* letters, or bytes one in each */
    const uint32_t *line;       /* in their place the letters of a note line, which are many */
    size_t length;
    uint32_t a, b, c;           /* numbers */
    size_t room;
};

struct places {
    uint8_t *state;
    size_t state_size;
    void *input;
    size_t length;
    void *output;
    size_t room;
    void *first, *second, *third;
};

typedef uint32_t caller(const struct given *g, const struct places *p);

#define CALL(name, ...)                                                    \
    static uint32_t call_##name(const struct given *g, const struct places *p) \
    {                                                                      \
        (void)g, (void)p;                                                  \
        return pasdrongel_##name(__VA_ARGS__);                             \
    }

#define WITH_STATE p->state, p->state_size
#define WITH_INPUT p->input, p->length
#define WITH_OUTPUT p->output, p->room, p->first

CALL(check_letter, g->a)
CALL(lower, g->a, p->first)
CALL(upper, g->a, p->first)
CALL(is_capital, g->a, p->first)
CALL(is_white_space, g->a, p->first)
CALL(is_separator, g->a, p->first)
CALL(tone_on, g->a, g->b, p->first)
CALL(tone_off, g->a, p->first)
CALL(is_composer_vowel, g->a, p->first)
CALL(is_speller_vowel, g->a, p->first)
CALL(read_utf8, WITH_INPUT, WITH_OUTPUT)
CALL(write_utf8, WITH_INPUT, WITH_OUTPUT)
CALL(new, WITH_STATE, g->a)
CALL(check_composition, WITH_STATE)
CALL(method, WITH_STATE, p->first)
CALL(mode, WITH_STATE, p->first)
CALL(capitals, WITH_STATE, p->first)
CALL(count, WITH_STATE, p->first)
CALL(key, WITH_STATE, g->a, WITH_OUTPUT)
CALL(literal, WITH_STATE, g->a)
CALL(text, WITH_STATE, WITH_OUTPUT)
CALL(remove_last, WITH_STATE, WITH_OUTPUT)
CALL(reset, WITH_STATE)
CALL(set_method, WITH_STATE, g->a)
CALL(set_mode, WITH_STATE, g->a)
CALL(set_capitals, WITH_STATE, g->a)
CALL(undo, WITH_STATE, g->a, WITH_INPUT, p->first)
CALL(write_draft, WITH_STATE, WITH_OUTPUT)
CALL(read_draft, WITH_INPUT, WITH_STATE)
CALL(is_tone_key, g->a, g->b, p->first)
CALL(is_horn_key, g->a, g->b, p->first)
CALL(mark_for, g->a, g->b, g->c, p->first)
CALL(cut, WITH_INPUT, p->first, p->second)
CALL(verdict, WITH_INPUT, p->first)
CALL(line_check, WITH_INPUT, p->first, p->second, p->third)
CALL(line_begin, WITH_STATE)
CALL(line_part, WITH_STATE, WITH_INPUT)
CALL(line_answer, WITH_STATE, p->first, p->second, p->third)
CALL(total, p->first)
CALL(word, g->a, WITH_OUTPUT)
CALL(next_word, WITH_INPUT, WITH_OUTPUT)

/* This one returns no refusal: another number than the header's is given as one that no call has. */
static uint32_t call_composition_bytes(const struct given *g, const struct places *p)
{
    (void)g, (void)p;
    return pasdrongel_composition_bytes() == STATE ? PASDRONGEL_DONE : REFUSALS;
}

/* What `a` is for; `b` and `c` are letters. */
enum numbers { NO_NUMBER, LETTER, KEY, SETTING, PLACE };
/* What becomes of the composition, or of the state of a line. */
enum use { NO_STATE, READ, CHANGED, MADE, LINE_READ, LINE_CHANGED, LINE_MADE };

#define R(n) (1u << (n))

static const struct kind {
    const char *name;
    caller *call;
    unsigned refusals; /* bit n: the call has refusal n */
    enum use use;
    enum numbers numbers;
    size_t input, output;   /* the bytes of an item; 0 if there is none */
    size_t first, second, third; /* the bytes of the lent numbers */
    unsigned weight;        /* how often, against the others */
} kinds[] = {
    {"check_letter", call_check_letter, R(1), NO_STATE, LETTER, 0, 0, 0, 0, 0, 1},
    {"lower", call_lower, R(1), NO_STATE, LETTER, 0, 0, 4, 0, 0, 1},
    {"upper", call_upper, R(1), NO_STATE, LETTER, 0, 0, 4, 0, 0, 1},
    {"is_capital", call_is_capital, R(1), NO_STATE, LETTER, 0, 0, 4, 0, 0, 1},
    {"is_white_space", call_is_white_space, R(1), NO_STATE, LETTER, 0, 0, 4, 0, 0, 1},
    {"is_separator", call_is_separator, R(1), NO_STATE, LETTER, 0, 0, 4, 0, 0, 8},
    {"tone_on", call_tone_on, R(1), NO_STATE, LETTER, 0, 0, 4, 0, 0, 1},
    {"tone_off", call_tone_off, R(1), NO_STATE, LETTER, 0, 0, 4, 0, 0, 1},
    {"is_composer_vowel", call_is_composer_vowel, R(1), NO_STATE, LETTER, 0, 0, 4, 0, 0, 1},
    {"is_speller_vowel", call_is_speller_vowel, R(1), NO_STATE, LETTER, 0, 0, 4, 0, 0, 1},
    {"read_utf8", call_read_utf8, R(6) | R(8) | R(1) | R(3), NO_STATE, NO_NUMBER, 1, 4, sizeof(size_t), 0, 0, 8},
    {"write_utf8", call_write_utf8, R(6) | R(1) | R(3), NO_STATE, NO_NUMBER, 4, 1, sizeof(size_t), 0, 0, 6},
    {"new", call_new, R(10), MADE, SETTING, 0, 0, 0, 0, 0, 1},
    {"composition_bytes", call_composition_bytes, 0, NO_STATE, NO_NUMBER, 0, 0, 0, 0, 0, 1},
    {"check_composition", call_check_composition, R(10), READ, NO_NUMBER, 0, 0, 0, 0, 0, 12},
    {"method", call_method, R(10), READ, NO_NUMBER, 0, 0, 4, 0, 0, 4},
    {"mode", call_mode, R(10), READ, NO_NUMBER, 0, 0, 4, 0, 0, 4},
    {"capitals", call_capitals, R(10), READ, NO_NUMBER, 0, 0, 4, 0, 0, 4},
    {"count", call_count, R(10), READ, NO_NUMBER, 0, 0, sizeof(size_t), 0, 0, 4},
    {"key", call_key, R(10) | R(1) | R(2) | R(3), CHANGED, KEY, 0, 4, sizeof(size_t), 0, 0, 120},
    {"literal", call_literal, R(10) | R(1) | R(2), CHANGED, KEY, 0, 0, 0, 0, 0, 12},
    {"text", call_text, R(10) | R(3), READ, NO_NUMBER, 0, 4, sizeof(size_t), 0, 0, 8},
    {"remove_last", call_remove_last, R(10) | R(4) | R(3), CHANGED, NO_NUMBER, 0, 4, sizeof(size_t), 0, 0, 16},
    {"reset", call_reset, R(10), CHANGED, NO_NUMBER, 0, 0, 0, 0, 0, 1},
    {"set_method", call_set_method, R(10), CHANGED, SETTING, 0, 0, 0, 0, 0, 1},
    {"set_mode", call_set_mode, R(10), CHANGED, SETTING, 0, 0, 0, 0, 0, 1},
    {"set_capitals", call_set_capitals, R(10), CHANGED, SETTING, 0, 0, 0, 0, 0, 8},
    {"undo", call_undo, R(10) | R(6) | R(1) | R(5), CHANGED, KEY, 4, 0, 4, 0, 0, 16},
    {"write_draft", call_write_draft, R(10) | R(3), READ, NO_NUMBER, 0, 1, sizeof(size_t), 0, 0, 12},
    {"read_draft", call_read_draft, R(10) | R(11), MADE, NO_NUMBER, 1, 0, 0, 0, 0, 16},
    {"is_tone_key", call_is_tone_key, R(10) | R(1), NO_STATE, SETTING, 0, 0, 4, 0, 0, 1},
    {"is_horn_key", call_is_horn_key, R(10) | R(1), NO_STATE, SETTING, 0, 0, 4, 0, 0, 1},
    {"mark_for", call_mark_for, R(10) | R(1), NO_STATE, SETTING, 0, 0, 4, 0, 0, 2},
    {"cut", call_cut, R(6) | R(1), NO_STATE, NO_NUMBER, 4, 0, sizeof(size_t), sizeof(size_t), 0, 6},
    {"verdict", call_verdict, R(6) | R(1), NO_STATE, NO_NUMBER, 4, 0, 4, 0, 0, 6},
    {"line_check", call_line_check, R(1) | R(6), NO_STATE, NO_NUMBER, 4, 0, sizeof(size_t), sizeof(size_t), sizeof(size_t), 8},
    {"line_begin", call_line_begin, R(10), LINE_MADE, NO_NUMBER, 0, 0, 0, 0, 0, 2},
    {"line_part", call_line_part, R(10) | R(1) | R(6), LINE_CHANGED, NO_NUMBER, 4, 0, 0, 0, 0, 24},
    {"line_answer", call_line_answer, R(10) | R(1) | R(6), LINE_READ, NO_NUMBER, 0, 0, sizeof(size_t), sizeof(size_t), sizeof(size_t), 8},
    {"total", call_total, 0, NO_STATE, NO_NUMBER, 0, 0, sizeof(size_t), 0, 0, 1},
    {"word", call_word, R(7) | R(3), NO_STATE, PLACE, 0, 4, sizeof(size_t), 0, 0, 6},
    {"next_word", call_next_word, R(6) | R(1) | R(7) | R(3), NO_STATE, NO_NUMBER, 4, 4, sizeof(size_t), 0, 0, 8},
};
#define KINDS (sizeof kinds / sizeof *kinds)

static int on_line(const struct kind *kind)
{
    return kind->use >= LINE_READ;
}

static int makes(const struct kind *kind)
{
    return kind->use == MADE || kind->use == LINE_MADE;
}

static int changes(const struct kind *kind)
{
    return kind->use == CHANGED || kind->use == LINE_CHANGED || makes(kind);
}

/* Does it read the letters of a line? */
static int reads_line(const struct kind *kind)
{
    return kind->call == call_line_check || kind->call == call_line_part;
}

/* The buffers of a call, in the order of `struct places`. */
enum buffers { STATE_BUFFER, INPUT_BUFFER, OUTPUT_BUFFER, BUFFERS };

static unsigned long met[KINDS][REFUSALS], nulls[KINDS][BUFFERS], calls, faults;

static void fault(const struct kind *kind, const char *what)
{
    if (++faults <= MOST_SHOWN)
        printf("call %lu, %s: %s\n", calls, kind->name, what);
}

/* ---- the composition, as docs/BYTES.md has it */

static int is_letter(uint32_t x)
{
    return PASDRONGEL_REFUSAL(pasdrongel_check_letter(x)) == PASDRONGEL_DONE;
}

static int is_cell(const uint8_t *cell)
{
    static const uint16_t marks[] = {0x103, 0xe2, 0xea, 0xf4, 0x1a1, 0x1b0, 0x111};
    uint32_t base = cell[0] | (uint32_t)cell[1] << 8 | (uint32_t)cell[2] << 16 | (uint32_t)cell[3] << 24;
    uint32_t mark = cell[4] | (uint32_t)cell[5] << 8;
    size_t i;
    if (!is_letter(base) || cell[7] > 1 || (cell[6] != 0 && memchr("fsrxj12345", cell[6], 10) == NULL))
        return 0;
    for (i = 0; i < sizeof marks / sizeof *marks; i++)
        if (mark == marks[i])
            return mark == base;
    return mark == 0;
}

static int is_sound(const uint8_t *state, size_t size)
{
    static const uint8_t blank[8];
    size_t i;
    if (size != STATE || state[0] > 1 || state[1] > 1 || state[2] > CELLS || state[3] > 1 || memcmp(state + 4, blank, HEAD - 4) != 0)
        return 0;
    for (i = 0; i < CELLS; i++)
        if (i < state[2] ? !is_cell(state + HEAD + 8 * i) : memcmp(state + HEAD + 8 * i, blank, 8) != 0)
            return 0;
    return 1;
}

/* ---- note lines: the state, as docs/BYTES.md has it, and what is told of a line */

static int separates(uint32_t letter)
{
    static const char separators[] = "\t\n\v\f\r .,!?;:";
    return letter < 0x80 && memchr(separators, (int)letter, sizeof separators - 1) != NULL;
}

static size_t two(const uint8_t *at)
{
    return at[0] | (size_t)at[1] << 8;
}

static int counts_fit(size_t length, size_t words, size_t noes, size_t first)
{
    if (noes == 0)
        return first == 0 && 2 * words <= length;
    return noes <= words && first + 2 * noes <= length && 2 * words + first % 2 <= length;
}

static int is_sound_line(const uint8_t *state, size_t size)
{
    size_t i, run, length;
    if (size != LINE_STATE || (state[0] != 0 && state[0] != 1 && state[0] != 6))
        return 0;
    run = state[1], length = two(state + 2);
    if (run > PASDRONGEL_WORD_LETTERS || length > LINE || run > length)
        return 0;
    if (state[0] == 6 && run != PASDRONGEL_WORD_LETTERS && length != LINE)
        return 0;
    if (!counts_fit(length - run, two(state + 4), two(state + 6), two(state + 8)))
        return 0;
    for (i = 0; i < 8; i++) {
        uint32_t letter = (uint32_t)two(state + 10 + 2 * i);
        if (i < run ? !is_letter(letter) || separates(letter) : letter != 0)
            return 0;
    }
    return 1;
}

/* The refusal of a line: that of the first letter which has one. `*before` letters stand before it, or all. */
static uint32_t line_fault(const uint32_t *line, size_t length, size_t *before)
{
    size_t at, run = 0;
    for (at = 0; at < length; at++) {
        *before = at;
        if (!is_letter(line[at]))
            return PASDRONGEL_REFUSED_FOREIGN;
        run = separates(line[at]) ? 0 : run + 1;
        if (at >= LINE || run > PASDRONGEL_WORD_LETTERS)
            return PASDRONGEL_REFUSED_LONG;
    }
    *before = length;
    return PASDRONGEL_DONE;
}

/* The words of a line that is not refused, those judged no, and where the first of them begins. */
static void line_counts(const uint32_t *line, size_t length, size_t told[3])
{
    size_t at, end;
    uint32_t yes = 0;
    told[0] = told[1] = 0, told[2] = length;
    for (at = 0; at < length; at = end + 1) {
        for (end = at; end < length && !separates(line[end]); end++)
            ;
        if (end == at)
            continue;
        calls++;
        told[0]++;
        if (PASDRONGEL_REFUSAL(pasdrongel_verdict(line + at, end - at, &yes)) == PASDRONGEL_DONE && yes == 0 && told[1]++ == 0)
            told[2] = at;
    }
}

/* The state of a line that has come so far, and was then ended by a refusal or by none. */
static void line_bytes(const uint32_t *line, size_t length, uint32_t refusal, uint8_t *state)
{
    size_t i, run = 0, numbers[12] = {0};
    while (run < length && !separates(line[length - 1 - run]))
        run++;
    numbers[0] = length;
    line_counts(line, length - run, numbers + 1);
    if (numbers[2] == 0)
        numbers[3] = 0;
    for (i = 0; i < 8 && i < run; i++)
        numbers[4 + i] = line[length - run + i];
    state[0] = (uint8_t)refusal, state[1] = (uint8_t)run;
    for (i = 0; i < 12; i++)
        state[2 + 2 * i] = (uint8_t)numbers[i], state[3 + 2 * i] = (uint8_t)(numbers[i] >> 8);
}

/* ---- the draft of a composition, as docs/DRAFTS.md has it */

#define FRAME 15 /* the bytes of a draft without its cells */
#define BEFORE_CELLS 11
#define CELL 7

/* The draft of a sound composition. */
static size_t draft_of(const uint8_t *state, uint8_t *draft)
{
    size_t i, n = state[2];
    const uint8_t before[] = {1, 0, 1, state[0], 2, 0, 1, state[1], 3, (uint8_t)(CELL * n / 256), (uint8_t)(CELL * n % 256)};
    const uint8_t after[] = {4, 0, 1, state[3]};
    memcpy(draft, before, sizeof before);
    for (i = 0; i < n; i++) {
        const uint8_t *from = state + HEAD + 8 * i;
        uint8_t *to = draft + BEFORE_CELLS + CELL * i;
        to[0] = from[3], to[1] = from[2], to[2] = from[1], to[3] = from[0];
        to[4] = (from[4] | from[5]) != 0, to[5] = from[6], to[6] = from[7];
    }
    memcpy(draft + BEFORE_CELLS + CELL * n, after, sizeof after);
    return FRAME + CELL * n;
}

/* Are these bytes a draft? They are if the composition that stands at its places in them is sound, and its draft is these bytes;
 * it is in `state` then. */
static int is_draft(const uint8_t *draft, size_t length, uint8_t *state)
{
    uint8_t form[FRAME + CELL * PASDRONGEL_CELLS];
    size_t i, n = length < FRAME ? 0 : (length - FRAME) / CELL;
    memset(state, 0, STATE);
    if (length < FRAME || n > PASDRONGEL_CELLS)
        return 0;
    state[0] = draft[3], state[1] = draft[7], state[2] = (uint8_t)n, state[3] = draft[length - 1];
    for (i = 0; i < n; i++) {
        const uint8_t *from = draft + BEFORE_CELLS + CELL * i;
        uint8_t *to = state + HEAD + 8 * i;
        to[0] = from[3], to[1] = from[2], to[2] = from[1], to[3] = from[0];
        if (from[4] != 0)
            to[4] = to[0], to[5] = to[1]; /* a mark is its base */
        to[6] = from[5], to[7] = from[6];
    }
    return is_sound(state, STATE) && draft_of(state, form) == length && memcmp(form, draft, length) == 0;
}

/* ---- one call, held to what is asked of it */

static struct lent the_state, the_input, the_output, the_first, the_second, the_third;
static struct lent the_line; /* what stands in the place of the input where that is a line: it has more pages */

struct left {
    uint32_t refusal;
    uint8_t state[MOST_STATE];
    size_t count;
    uint8_t output[4 * MOST_ROOM], first[8], second[8], third[8];
};

#ifdef PAINTED
#include "painted.h"

static const struct kind *ran;
static const struct given *ran_with;
static const struct places *ran_on;
static uint32_t ran_to;
static size_t deepest[KINDS], nothing;

static void run(void)
{
    ran_to = ran->call(ran_with, ran_on);
}

static uint32_t call_nothing(const struct given *g, const struct places *p)
{
    (void)g, (void)p;
    return PASDRONGEL_DONE;
}

/* What a call takes is what it touches more than an empty one, which has touched its return address. */
static uint32_t made(const struct kind *kind, const struct given *g, const struct places *p)
{
    static const struct kind empty = {"nothing", call_nothing, 0, NO_STATE, NO_NUMBER, 0, 0, 0, 0, 0, 0};
    size_t touched;
    ran_with = g, ran_on = p;
    if (nothing == 0)
        ran = &empty, nothing = touched_by(run, SHALLOW) - sizeof(void *);
    ran = kind;
    touched = touched_by(run, kind->call == call_line_check ? PAINTED_WORDS : SHALLOW) - nothing;
    if (touched > deepest[kind - kinds])
        deepest[kind - kinds] = touched;
    return ran_to;
}

#define SESSIONS 200
#else
#define SESSIONS 1000

static uint32_t made(const struct kind *kind, const struct given *g, const struct places *p)
{
    return kind->call(g, p);
}
#endif

/* Lends a buffer; at the low end an empty one is NULL. */
static void *lend_buffer(const struct kind *kind, enum buffers which, struct lent *lent, const void *content, size_t size,
                         enum end end, unsigned char guard)
{
    void *at = lend(lent, content, size, end, guard);
    if (size > 0 || end == HIGH)
        return at;
    nulls[kind - kinds][which]++;
    return NULL;
}

/* Where the input of a call is lent. */
static struct lent *input_of(const struct kind *kind)
{
    return reads_line(kind) ? &the_line : &the_input;
}

static void make_call(const struct kind *kind, const struct given *g, enum end end, unsigned char guard, struct left *left)
{
    uint8_t narrow[MOST_INPUT], before[4 * MOST_ROOM];
    const void *input = kind->input == 1 ? (const void *)narrow : reads_line(kind) ? g->line : g->input;
    struct places p;
    size_t i;
    for (i = 0; kind->input == 1 && i < g->length; i++)
        narrow[i] = (uint8_t)g->input[i];
    for (i = 0; i < sizeof before; i++)
        before[i] = (uint8_t)random_word();
    p.state = lend_buffer(kind, STATE_BUFFER, &the_state, g->state, kind->use == NO_STATE ? 0 : g->state_size, end, guard);
    p.state_size = the_state.size;
    p.input = lend_buffer(kind, INPUT_BUFFER, input_of(kind), input, kind->input * g->length, end, guard);
    p.length = g->length;
    p.output = lend_buffer(kind, OUTPUT_BUFFER, &the_output, before, kind->output * g->room, end, guard);
    p.room = g->room;
    p.first = lend(&the_first, before, kind->first, end, guard);
    p.second = lend(&the_second, before, kind->second, end, guard);
    p.third = lend(&the_third, before, kind->third, end, guard);
    calls++;
    left->refusal = PASDRONGEL_REFUSAL(made(kind, g, &p));
    left->count = 0;
    if (left->refusal == PASDRONGEL_DONE && kind->output != 0)
        memcpy(&left->count, p.first, sizeof left->count);
    if (left->count > g->room) {
        fault(kind, "it counts more than there is room for");
        left->count = 0;
    }
    memcpy(left->state, the_state.at, the_state.size);
    memcpy(left->output, the_output.at, left->count * kind->output);
    memset(left->first, 0, sizeof left->first);
    memset(left->second, 0, sizeof left->second);
    memset(left->third, 0, sizeof left->third);
    if (left->refusal == PASDRONGEL_DONE) {
        memcpy(left->first, p.first, kind->first);
        memcpy(left->second, p.second, kind->second);
        memcpy(left->third, p.third, kind->third);
    }
}

/* The one refusal that changes something: a part whose letter is refused. */
static int records(const struct kind *kind, uint32_t refusal)
{
    return kind->call == call_line_part && (refusal == PASDRONGEL_REFUSED_FOREIGN || refusal == PASDRONGEL_REFUSED_LONG);
}

static void hold_memory(const struct kind *kind, const struct left *left)
{
    int done = left->refusal == PASDRONGEL_DONE;
    if (!kept(input_of(kind), 0))
        fault(kind, "what was lent to be read has changed, or what is beside it");
    if (!kept(&the_state, (done && changes(kind)) || records(kind, left->refusal) ? the_state.size : 0))
        fault(kind, done ? "the composition has changed, or what is beside it" : "a refusal changed the composition");
    if (!kept(&the_output, left->count * kind->output))
        fault(kind, done ? "the output has changed past the answer" : "a refusal changed the output");
    if (!kept(&the_first, done ? kind->first : 0) || !kept(&the_second, done ? kind->second : 0)
        || !kept(&the_third, done ? kind->third : 0))
        fault(kind, done ? "what is beside a lent number has changed" : "a refusal changed a lent number");
}

/* Is this what the call may be given, or may leave? */
static int is_sound_for(const struct kind *kind, const uint8_t *state, size_t size)
{
    return kind->use == NO_STATE || (on_line(kind) ? is_sound_line(state, size) : is_sound(state, size));
}

static void hold_answer(const struct kind *kind, const struct given *g, const struct left *left)
{
    int sound = is_sound_for(kind, g->state, g->state_size);
    uint32_t letter;
    size_t i;
    if (left->refusal != PASDRONGEL_DONE && (left->refusal >= REFUSALS || !(kind->refusals & R(left->refusal)))) {
        fault(kind, "it has no such refusal");
        return;
    }
    met[kind - kinds][left->refusal]++;
    if (makes(kind))
        sound = g->state_size == (on_line(kind) ? LINE_STATE : STATE);
    if (kind->numbers == SETTING)
        sound = sound && g->a <= 1;
    if (sound == (left->refusal == PASDRONGEL_REFUSED_UNSOUND))
        fault(kind, sound ? "a sound composition or line is refused by 10" : "an unsound composition or line is not refused by 10");
    if (sound && !is_sound_for(kind, left->state, g->state_size) && !(makes(kind) && left->refusal != PASDRONGEL_DONE))
        fault(kind, "it left an unsound composition or line");
    if (left->refusal != PASDRONGEL_DONE)
        return;
    for (i = 0; kind->output == 4 && i < left->count; i++) {
        memcpy(&letter, left->output + 4 * i, sizeof letter);
        if (!is_letter(letter))
            fault(kind, "it wrote what is no letter");
    }
}

/* The numbers that are known here too. */
static void hold_number(const struct kind *kind, const struct given *g, const struct left *left)
{
    uint32_t number;
    size_t cells;
    memcpy(&number, left->first, sizeof number);
    memcpy(&cells, left->first, sizeof cells);
    if (left->refusal != PASDRONGEL_DONE)
        return;
    if ((kind->call == call_method && number != g->state[0]) || (kind->call == call_mode && number != g->state[1])
        || (kind->call == call_count && cells != g->state[2]) || (kind->call == call_capitals && number != g->state[3]))
        fault(kind, "it gives another number than the bytes have");
    if (kind->call == call_is_separator && number != (uint32_t)separates(g->a))
        fault(kind, "it takes another letter for a separator");
}

/* A new composition has capitals off, one call sets them and changes nothing else, and every other keeps them. */
static void hold_setting(const struct kind *kind, const struct given *g, const struct left *left)
{
    int sets = kind->call == call_set_capitals;
    uint32_t expected = kind->use == MADE ? PASDRONGEL_CAPITALS_OFF : sets ? g->a : g->state[3];
    if (left->refusal != PASDRONGEL_DONE || !changes(kind) || on_line(kind) || kind->call == call_read_draft)
        return;
    if (left->state[3] != expected)
        fault(kind, "it leaves another setting of capitals");
    if (sets && (memcmp(left->state, g->state, 3) != 0 || memcmp(left->state + 4, g->state + 4, STATE - 4) != 0))
        fault(kind, "it changes more than the setting of capitals");
}

/* A letter that is appended finds a cell, and is refused by 2 where there is none; a key that appends none is not. */
static void hold_full(const struct kind *kind, const struct given *g, const struct left *left)
{
    int full = g->state[2] == CELLS, refused = left->refusal == PASDRONGEL_REFUSED_FULL;
    if ((kind->call != call_key && kind->call != call_literal) || !is_sound(g->state, g->state_size))
        return;
    if (refused && (!full || (kind->call == call_key && g->state[1] == PASDRONGEL_ENGLISH)))
        fault(kind, "it refuses by 2 where a cell is left, or none is needed");
    if (full && kind->call == call_literal && left->refusal == PASDRONGEL_DONE)
        fault(kind, "it takes a letter that has no cell");
}

/* What is written of a sound composition is its draft, and is read back as it, where something else stood. */
static void hold_written(const struct kind *kind, const struct given *g, const struct left *left)
{
    uint8_t draft[FRAME + CELL * PASDRONGEL_CELLS], again[STATE];
    size_t i, length = is_sound(g->state, g->state_size) ? draft_of(g->state, draft) : 0;
    if (length > 0 && (left->refusal == PASDRONGEL_REFUSED_SHORT) != (g->room < length))
        fault(kind, "it refuses by 3 another room than one that is too short");
    if (left->refusal != PASDRONGEL_DONE)
        return;
    if (left->count != length || memcmp(left->output, draft, length) != 0)
        fault(kind, "it writes another draft than the composition's");
    for (i = 0; i < STATE; i++)
        again[i] = (uint8_t)random_word();
    calls++;
    if (PASDRONGEL_REFUSAL(pasdrongel_read_draft(left->output, left->count, again, STATE)) != PASDRONGEL_DONE
        || memcmp(again, g->state, STATE) != 0)
        fault(kind, "what it writes is not read back as the composition");
}

/* What is read is the composition of the draft, and is written back as the same bytes; what is no draft is refused. */
static void hold_read(const struct kind *kind, const struct given *g, const struct left *left)
{
    uint8_t draft[MOST_INPUT], again[MOST_INPUT], state[STATE];
    size_t i, count = 0;
    int known;
    for (i = 0; i < g->length; i++)
        draft[i] = (uint8_t)g->input[i];
    known = is_draft(draft, g->length, state);
    if (g->state_size == STATE && known == (left->refusal == PASDRONGEL_REFUSED_NO_DRAFT))
        fault(kind, known ? "a draft is refused by 11" : "what is no draft is not refused by 11");
    if (left->refusal != PASDRONGEL_DONE)
        return;
    if (memcmp(left->state, state, STATE) != 0)
        fault(kind, "it reads another composition than the draft's");
    calls++;
    if (PASDRONGEL_REFUSAL(pasdrongel_write_draft(left->state, STATE, again, sizeof again, &count)) != PASDRONGEL_DONE
        || count != g->length || memcmp(again, draft, count) != 0)
        fault(kind, "what it reads is not written back as the same bytes");
}

static void hold_draft(const struct kind *kind, const struct given *g, const struct left *left)
{
    if (kind->call == call_write_draft)
        hold_written(kind, g, left);
    if (kind->call == call_read_draft)
        hold_read(kind, g, left);
}

static int same(const struct kind *kind, const struct given *g, const struct left *one, const struct left *other)
{
    return one->refusal == other->refusal && one->count == other->count
        && memcmp(one->state, other->state, kind->use == NO_STATE ? 0 : g->state_size) == 0
        && memcmp(one->output, other->output, one->count * kind->output) == 0
        && memcmp(one->first, other->first, sizeof one->first) == 0
        && memcmp(one->second, other->second, sizeof one->second) == 0
        && memcmp(one->third, other->third, sizeof one->third) == 0;
}

/* The same call with another room. */
static void hold_room(const struct kind *kind, const struct given *g, const struct left *left)
{
    static struct given other;
    static struct left again;
    other = *g;
    if (left->refusal == PASDRONGEL_REFUSED_SHORT)
        other.room = MOST_ROOM;
    else if (left->refusal == PASDRONGEL_DONE && left->count > 0)
        other.room = left->count - 1;
    else
        return;
    make_call(kind, &other, HIGH, 0x3c, &again);
    hold_memory(kind, &again);
    if (left->refusal == PASDRONGEL_DONE && again.refusal != PASDRONGEL_REFUSED_SHORT)
        fault(kind, "it writes an answer that has no room");
    if (left->refusal == PASDRONGEL_REFUSED_SHORT && (again.refusal != PASDRONGEL_DONE || again.count <= g->room))
        fault(kind, "it refuses an answer that has room");
}

static uint32_t letter_at(const struct left *left, size_t i)
{
    uint32_t letter;
    memcpy(&letter, left->output + 4 * i, sizeof letter);
    return letter;
}

static uint32_t capital_of(uint32_t letter)
{
    uint32_t capital = 0;
    calls++;
    return PASDRONGEL_REFUSAL(pasdrongel_upper(letter, &capital)) == PASDRONGEL_DONE ? capital : 0;
}

/* The same call with the other setting of capitals. It answers the same, and leaves the same bytes but for that one and for
 * flags. On, no cell that stays loses or gets its flag; off, the second of two cells whose bases a key changes, a horned pair,
 * has none. A letter of a flagged cell is, on, the capital of what it is off, and every other is the same; so is the letter of
 * a key in English mode. */
static void hold_capitals(const struct kind *kind, const struct given *g, const struct left *left)
{
    static struct given other;
    static struct left again;
    const struct left *on = g->state[3] == 1 ? left : &again, *off = g->state[3] == 1 ? &again : left;
    int passes = kind->call == call_key && g->state[1] == PASDRONGEL_ENGLISH;
    size_t i;
    if (kind->use == NO_STATE || kind->use == MADE || on_line(kind) || kind->call == call_capitals
        || kind->call == call_set_capitals || !is_sound(g->state, g->state_size))
        return;
    other = *g;
    other.state[3] ^= 1;
    make_call(kind, &other, HIGH, 0xc3, &again);
    hold_memory(kind, &again);
    if (on->refusal != off->refusal || on->count != off->count || memcmp(on->first, off->first, sizeof on->first) != 0
        || memcmp(on->state, off->state, 3) != 0 || on->state[3] != 1 || off->state[3] != 0) {
        fault(kind, "it answers by the setting of capitals");
        return;
    }
    for (i = 0; i < PASDRONGEL_CELLS; i++) {
        const uint8_t *a = on->state + HEAD + 8 * i, *b = off->state + HEAD + 8 * i, *before = g->state + HEAD + 8 * i;
        int stays = i < g->state[2] && i < on->state[2];
        int pair = kind->call == call_key && stays && i > 0 && memcmp(b, before, 4) != 0 && memcmp(b - 8, before - 8, 4) != 0;
        if (memcmp(a, b, 7) != 0 || b[7] != (pair ? 0 : a[7]))
            fault(kind, "it leaves other cells by the setting of capitals");
        if (stays && a[7] != before[7])
            fault(kind, "it takes or gives a flag while capitals are on");
    }
    for (i = 0; kind->output == 4 && i < on->count; i++) {
        int flagged = !passes && on->state[HEAD + 8 * i + 7] == 1;
        if (letter_at(on, i) != (flagged ? capital_of(letter_at(off, i)) : letter_at(off, i)))
            fault(kind, "it shows with capitals on what is not the capital of a flagged cell, or no longer the same letter");
    }
}

/* ---- a note line, held to its words, and its parts to the whole */

/* The state of the session's line, the letters of its parts so far, and those of the next part. */
static uint8_t note[LINE_STATE];
static uint32_t come[2 * MOST_LINE], part[MOST_LINE];
static size_t come_length;

/* Are the numbers that were told those of this line, which is not refused? */
static int tells_of(const struct left *left, const uint32_t *line, size_t length)
{
    size_t told[3];
    line_counts(line, length, told);
    return memcmp(&told[0], left->first, sizeof *told) == 0 && memcmp(&told[1], left->second, sizeof *told) == 0
        && memcmp(&told[2], left->third, sizeof *told) == 0;
}

static void hold_check(const struct kind *kind, const struct given *g, const struct left *left)
{
    size_t before;
    if (left->refusal != line_fault(g->line, g->length, &before))
        fault(kind, "it refuses another letter than the first that is to be refused, or none");
    else if (left->refusal == PASDRONGEL_DONE && !tells_of(left, g->line, g->length))
        fault(kind, "it tells something else of the words of a line");
}

/* A part on any sound state: it is the two parts that it is cut into, and after a refusal it is recorded and repeated. */
static void hold_part(const struct kind *kind, const struct given *g, const struct left *left)
{
    uint8_t state[LINE_STATE];
    size_t told[3], cut = below((uint32_t)g->length + 1);
    uint32_t refusal;
    if (!is_sound_line(g->state, g->state_size))
        return;
    memcpy(state, g->state, LINE_STATE);
    calls += 4;
    pasdrongel_line_part(state, LINE_STATE, g->line, cut);
    refusal = PASDRONGEL_REFUSAL(pasdrongel_line_part(state, LINE_STATE, g->line + cut, g->length - cut));
    if (refusal != left->refusal || memcmp(state, left->state, LINE_STATE) != 0)
        fault(kind, "it does something else where the part is cut in two");
    if (left->state[0] != left->refusal || (g->state[0] != 0 && memcmp(left->state, g->state, LINE_STATE) != 0))
        fault(kind, "it does not record the refusal, or changes a line that has ended");
    if (left->refusal == PASDRONGEL_DONE && two(left->state + 2) != two(g->state + 2) + g->length)
        fault(kind, "it counts another number of letters");
    if (PASDRONGEL_REFUSAL(pasdrongel_line_part(state, LINE_STATE, NULL, 0)) != refusal
        || memcmp(state, left->state, LINE_STATE) != 0
        || PASDRONGEL_REFUSAL(pasdrongel_line_answer(state, LINE_STATE, &told[0], &told[1], &told[2])) != refusal)
        fault(kind, "what follows does not repeat its refusal, or is refused after none");
}

/* The session's line, which has come in parts, against the same letters as a whole. */
static void hold_whole(const struct kind *kind, const struct left *left)
{
    uint8_t state[LINE_STATE];
    size_t length;
    uint32_t refusal = line_fault(come, come_length, &length);
    line_bytes(come, length, refusal, state);
    if (left->refusal != refusal)
        fault(kind, "in parts a line is refused otherwise than as a whole");
    else if (memcmp(left->state, state, LINE_STATE) != 0)
        fault(kind, "it leaves another state than that of the letters that have come");
    else if (kind->call == call_line_answer && refusal == PASDRONGEL_DONE && !tells_of(left, come, come_length))
        fault(kind, "in parts something else is told of a line than of the whole");
}

static void hold_line(const struct kind *kind, const struct given *g, const struct left *left)
{
    static const uint8_t zeros[LINE_STATE];
    int is_note = on_line(kind) && g->state_size == LINE_STATE && memcmp(g->state, note, LINE_STATE) == 0;
    if (kind->call == call_line_check)
        hold_check(kind, g, left);
    if (kind->call == call_line_part)
        hold_part(kind, g, left);
    if (kind->call == call_line_begin && left->refusal == PASDRONGEL_DONE && memcmp(left->state, zeros, LINE_STATE) != 0)
        fault(kind, "it begins a line of which something has come");
    if (is_note && kind->call == call_line_part && note[0] == 0 && come_length <= LINE) {
        memcpy(come + come_length, g->line, g->length * sizeof *come);
        come_length += g->length;
    }
    if (is_note && !makes(kind))
        hold_whole(kind, left);
}

/* Makes the call twice and holds it to all that is asked; what it leaves is in `left`. */
static void hold(const struct kind *kind, const struct given *g, struct left *left)
{
    static struct left again;
    make_call(kind, g, HIGH, 0xa5, left);
    hold_memory(kind, left);
    hold_answer(kind, g, left);
    hold_number(kind, g, left);
    hold_setting(kind, g, left);
    hold_full(kind, g, left);
    hold_draft(kind, g, left);
    hold_line(kind, g, left);
    make_call(kind, g, LOW, 0x5a, &again);
    hold_memory(kind, &again);
    if (!same(kind, g, left, &again))
        fault(kind, "the same call does something else on other memory");
    if (kind->output != 0 && one_in(8))
        hold_room(kind, g, left);
    if (one_in(2))
        hold_capitals(kind, g, left);
}

/* ---- what the calls are given */

static uint32_t any_letter(void)
{
    static const uint16_t others[] = {0xc0, 0xc1, 0xc2, 0xc3, 0xc8, 0xc9, 0xca, 0xcc, 0xcd, 0xd2, 0xd3, 0xd4, 0xd5, 0xd9,
        0xda, 0xdd, 0xe0, 0xe1, 0xe2, 0xe3, 0xe8, 0xe9, 0xea, 0xec, 0xed, 0xf2, 0xf3, 0xf4, 0xf5, 0xf9, 0xfa, 0xfd, 0x102,
        0x103, 0x110, 0x111, 0x128, 0x129, 0x168, 0x169, 0x1a0, 0x1a1, 0x1af, 0x1b0};
    switch (below(4)) {
    case 0:
        return others[below(sizeof others / sizeof *others)];
    case 1:
        return 0x1ea0 + below(0x5a);
    default:
        return below(0x80);
    }
}

static uint32_t any_number(void)
{
    return one_in(2) ? random_word() : below(0x2000) + (one_in(2) ? 0 : 0x10f000);
}

static uint32_t a_key(void)
{
    static const char keys[] = "aaaaeeeoooouuuuiyywwwwddddssfrxjbcghklmnpqtvgq123456789 .,!?;:\tAEOUDWSQ";
    return one_in(200) ? any_number() : one_in(12) ? any_letter() : (uint32_t)keys[below(sizeof keys - 1)];
}

/* Keys one after the other: now and then those of a horned pair, of either case, which single keys seldom make. */
static uint32_t next_key(void)
{
    static const char *const pairs[] = {"uow", "uOw", "Uow", "UOW", "uO7", "UO7"};
    static const char *left = "";
    if (*left == '\0' && one_in(20))
        left = pairs[below(sizeof pairs / sizeof *pairs)];
    return *left != '\0' ? (uint32_t)*left++ : a_key();
}

static size_t some_room(void)
{
    return one_in(8) ? below(4) : one_in(4) ? below(CELLS + 8) : CELLS + below(MOST_ROOM - CELLS + 1);
}

static void spell(struct given *g, uint32_t x)
{
    if (x < 0x80) {
        g->input[g->length++] = x;
    } else if (x < 0x800) {
        g->input[g->length++] = 0xc0 | x >> 6;
        g->input[g->length++] = 0x80 | (x & 0x3f);
    } else if (x < 0x10000) {
        g->input[g->length++] = 0xe0 | x >> 12;
        g->input[g->length++] = 0x80 | (x >> 6 & 0x3f);
        g->input[g->length++] = 0x80 | (x & 0x3f);
    } else {
        g->input[g->length++] = 0xf0 | (x >> 18 & 7);
        g->input[g->length++] = 0x80 | (x >> 12 & 0x3f);
        g->input[g->length++] = 0x80 | (x >> 6 & 0x3f);
        g->input[g->length++] = 0x80 | (x & 0x3f);
    }
}

/* Bytes: letters, now and then another code point, a changed byte, the end cut off. */
static void some_bytes(struct given *g)
{
    size_t most = one_in(4) ? 250 + below(50) : one_in(2) ? below(12) : below(250);
    g->length = 0;
    while (g->length + 4 <= most)
        spell(g, one_in(300) ? any_number() : any_letter());
    while (g->length < most)
        g->input[g->length++] = below(0x80);
    if (g->length > 0 && one_in(3))
        g->input[below((uint32_t)g->length)] = below(0x100);
    if (g->length > 0 && one_in(8))
        g->length -= below(3) % g->length;
}

/* Letters: of the alphabet or among the keys, now and then too many, or one that is foreign. */
static void some_letters(struct given *g)
{
    size_t i;
    g->length = one_in(6) ? 60 + below(10) : one_in(20) ? below(301) : below(10);
    for (i = 0; i < g->length; i++)
        g->input[i] = one_in(2) ? any_letter() : a_key();
    if (g->length > 0 && one_in(10))
        g->input[below((uint32_t)g->length)] = any_number();
}

/* A word of the list, now and then one of its longest, of which at times a letter is changed or added; or a run of at most so many
 * letters, none a gap's. */
static size_t some_word(uint32_t *word, uint32_t longest)
{
    static const uint32_t of_eight[] = {'n', 'g', 'h', 'u', 'y', 0xea, 'c', 'h'};
    size_t i, count = 0;
    if (one_in(3)) {
        count = longest > PASDRONGEL_WORD_LETTERS && one_in(2) ? 62 + below(6) : 1 + below(longest);
        for (i = 0; i < count; i++) {
            word[i] = any_letter();
            word[i] = separates(word[i]) ? 'a' : word[i];
        }
        return count;
    }
    calls++;
    pasdrongel_word(below(5963), word, PASDRONGEL_LISTED_ROOM, &count);
    if (one_in(16))
        memcpy(word, of_eight, sizeof of_eight), count = 8;
    if (count > 0 && one_in(4))
        word[below((uint32_t)count)] = any_letter();
    if (one_in(12))
        word[count++] = any_letter();
    return count;
}

/* The letters of a line, of which `before` have come: words, and gaps between most; now and then of long words, up to the limit
 * of the line or over it, and with a letter that is foreign. */
static size_t some_line(uint32_t *line, size_t before)
{
    static const char gaps[] = "      ..,!?;:\t\n\v\f\r";
    size_t most = one_in(8) ? 0 : one_in(16) ? LINE - before + below(8) - 3 : one_in(4) ? below(300) : below(30), at = 0, fill;
    uint32_t word[72], longest = one_in(4) ? 70 : 10, many = one_in(3) ? 200 : 4;
    most = most > MOST_LINE ? 0 : most;
    while (at < most) {
        size_t i, length = some_word(word, longest);
        for (i = 0; i < length && at < most; i++)
            line[at++] = word[i];
        for (fill = one_in(100) ? 0 : one_in(8) ? below(many) : 1; fill > 0 && at < most; fill--)
            line[at++] = (uint32_t)gaps[below(sizeof gaps - 1)];
        if (length >= 62 && one_in(4))
            line[at - 1] = any_number(); /* foreign, mostly, and just where the word is too long */
    }
    if (at > 0 && one_in(8))
        line[one_in(3) ? at - 1 : below((uint32_t)at)] = any_number();
    return at;
}

/* ---- sessions */

static uint8_t composition[STATE];
static uint32_t typed[60]; /* the last keys, for undo */
static size_t typed_length;

static void remember(uint32_t key)
{
    if (typed_length == sizeof typed / sizeof *typed) {
        memmove(typed, typed + 1, sizeof typed - sizeof *typed);
        typed_length--;
    }
    typed[typed_length++] = key;
}

/* The session's composition, or one of another length, or with a byte changed: mostly one that says something, and to a
 * value at some edge. */
static void some_state(struct given *g, uint32_t rarity)
{
    static const uint8_t edges[] = {0, 1, 2, 31, 32, 33, 95, 96, 97, 'f', 'z', 0x80, 0xff};
    uint32_t in_use = HEAD + 8 * composition[2], place;
    memset(g->state, 0, sizeof g->state);
    memcpy(g->state, composition, STATE);
    g->state_size = STATE;
    if (one_in(24))
        g->state_size = 0;
    else if (one_in(3 * rarity))
        g->state_size = one_in(2) ? STATE - 1 + 2 * below(2) : below(MOST_STATE + 1);
    if (one_in(rarity)) {
        place = one_in(3) ? below(one_in(4) ? HEAD : 4) : below(one_in(4) ? STATE : in_use);
        g->state[place] = one_in(2) ? edges[below(sizeof edges)] : (uint8_t)below(256);
        if (place == 2 && one_in(2))
            g->state[place] = (uint8_t)(CELLS - 1 + below(3)); /* the count, at its own edge */
        if (place == 3 && one_in(2))
            g->state[place] = (uint8_t)(1 + below(2)); /* and capitals */
    }
}

/* The state of the session's line, or one of another length, or with a byte changed, mostly to a value at some edge; or one of
 * numbers that stand at the edge of soundness. */
static void some_line_state(struct given *g, uint32_t rarity)
{
    static const uint8_t edges[] = {0, 1, 2, 5, 6, 7, 8, 9, 16, 17, ' ', '.', 63, 64, 65, 'a', 0x80, 0xff};
    size_t i, numbers[4], run = one_in(3) ? 60 + below(6) : one_in(2) ? below(10) : 0;
    memset(g->state, 0, sizeof g->state);
    memcpy(g->state, note, LINE_STATE);
    g->state_size = LINE_STATE;
    if (one_in(24))
        g->state_size = 0;
    else if (one_in(3 * rarity))
        g->state_size = one_in(2) ? LINE_STATE - 1 + 2 * below(2) : below(MOST_STATE + 1);
    if (one_in(rarity))
        g->state[one_in(4) ? 10 + 2 * below(8) : below(LINE_STATE)] = one_in(2) ? edges[below(sizeof edges)] : (uint8_t)below(256);
    if (!one_in(rarity))
        return;
    numbers[0] = one_in(2) ? LINE - 2 + below(4) : below(200);
    numbers[1] = one_in(2) ? (numbers[0] - run) / 2 + below(3) - 1 : below(100);
    numbers[2] = one_in(3) ? 0 : one_in(2) ? numbers[1] + below(2) : below(4);
    numbers[3] = numbers[2] == 0 ? below(8) / 7 : one_in(2) ? numbers[0] - run - 2 * numbers[2] + below(3) - 1 : below(8);
    g->state[0] = one_in(3) ? (uint8_t)(one_in(2) ? 6 : 1) : 0;
    g->state[1] = (uint8_t)run;
    for (i = 0; i < 4; i++)
        g->state[2 + 2 * i] = (uint8_t)numbers[i], g->state[3 + 2 * i] = (uint8_t)(numbers[i] >> 8);
    for (i = 0; i < 8; i++) {
        uint32_t letter = i < run ? any_letter() : 0;
        letter = one_in(64) ? ' ' : separates(letter) ? 'a' : letter;
        g->state[10 + 2 * i] = (uint8_t)letter, g->state[11 + 2 * i] = (uint8_t)(letter >> 8);
    }
}

/* A sound composition that no keys need make. */
static void odd_composition(uint8_t *state)
{
    static const uint16_t marks[] = {0x103, 0xe2, 0xea, 0xf4, 0x1a1, 0x1b0, 0x111};
    static const char tones[] = "fsrxj12345";
    size_t i, n = one_in(4) ? CELLS - 2 + below(3) : one_in(4) ? below(CELLS + 1) : below(12);
    memset(state, 0, STATE);
    state[0] = (uint8_t)below(2), state[1] = (uint8_t)one_in(8), state[2] = (uint8_t)n, state[3] = (uint8_t)below(2);
    for (i = 0; i < n; i++) {
        uint8_t *cell = state + HEAD + 8 * i;
        uint32_t base = one_in(3) ? marks[below(7)] : one_in(4) ? 0 : any_letter();
        cell[0] = (uint8_t)base, cell[1] = (uint8_t)(base >> 8);
        cell[4] = cell[0], cell[5] = cell[1];
        if (one_in(3) || !is_cell(cell))
            cell[4] = cell[5] = 0;
        cell[6] = one_in(2) ? (uint8_t)tones[below(10)] : 0;
        cell[7] = (uint8_t)one_in(3);
    }
}

/* The draft of the session's composition or of an odd one; half of them as it is, the others cut off, with a byte put in, left
 * out or changed, or with more cells than a composition has. */
static void some_draft(struct given *g)
{
    static const uint8_t edges[] = {0, 1, 2, 3, 4, 5, 7, 'f', '5', 0x80, 0xff};
    uint8_t draft[MOST_INPUT + CELL] = {0}, state[STATE];
    size_t i, at, length, n;
    memcpy(state, composition, STATE);
    if (one_in(3))
        odd_composition(state);
    length = draft_of(state, draft);
    at = one_in(2) ? below((uint32_t)length) : one_in(2) ? below(BEFORE_CELLS) : length - 1 - below(4);
    switch (below(14)) {
    case 0:
        length = one_in(3) ? 0 : at;
        break;
    case 1:
        memmove(draft + at + 1, draft + at, length++ - at);
        break;
    case 2:
        memmove(draft + at, draft + at + 1, --length - at);
        break;
    case 3: /* the first cell again and again */
        for (n = state[2]; n > 0 && n < CELLS + 1 + below(8); n++, length += CELL)
            memmove(draft + BEFORE_CELLS + CELL, draft + BEFORE_CELLS, length - BEFORE_CELLS);
        draft[9] = (uint8_t)(CELL * n / 256), draft[10] = (uint8_t)(CELL * n % 256);
        break;
    case 4: /* a byte after the last, of any kind */
        draft[length++] = one_in(2) ? 0 : (uint8_t)below(256);
        break;
    case 5: /* a cell has a mark more or less */
        draft[state[2] > 0 ? BEFORE_CELLS + CELL * below(state[2]) + 4 : at] ^= 1;
        break;
    case 6:
        draft[at] = one_in(2) ? edges[below(sizeof edges)] : (uint8_t)below(256);
        break;
    default:
        break;
    }
    for (i = 0; i < length; i++)
        g->input[i] = draft[i];
    g->length = length;
}

/* What a host gives to undo: the keys of the session, and after them those of a cell that has a tone or a mark, of which
 * the last is the trigger. */
static void to_undo(struct given *g)
{
    static const struct { uint8_t mark; char keys[3]; } rules[] = {
        {0x03, "aw"}, {0xe2, "aa"}, {0xea, "ee"}, {0xf4, "oo"}, {0xa1, "ow"}, {0xb0, "uw"}, {0x11, "DD"}};
    const uint8_t *cell = composition + HEAD;
    size_t i;
    for (i = below(33); i > 0 && (cell[4] | cell[6]) == 0; i--)
        cell = composition + HEAD + 8 * below(composition[2] + 1u) % (STATE - HEAD);
    memcpy(g->input, typed, typed_length * sizeof *typed);
    g->length = typed_length;
    for (i = 0; i < sizeof rules / sizeof *rules; i++)
        if (cell[4] == rules[i].mark && cell[6] == 0) {
            g->input[g->length++] = (uint32_t)rules[i].keys[0];
            g->a = (uint32_t)rules[i].keys[1];
        }
    if (cell[6] != 0)
        g->a = cell[6];
    if (!one_in(8))
        g->input[g->length++] = g->a;
}

static void prepare(const struct kind *kind, struct given *g)
{
    memset(g, 0, sizeof *g);
    g->line = part;
    if (on_line(kind))
        some_line_state(g, kind->use == LINE_READ ? 4 : 8);
    else
        some_state(g, kind->use == READ ? 3 : 12);
    g->room = some_room();
    switch (kind->numbers) {
    case NO_NUMBER:
        break;
    case LETTER:
        g->a = one_in(4) ? any_number() : one_in(2) ? any_letter() : a_key();
        break;
    case KEY:
        g->a = next_key();
        break;
    case SETTING:
        g->a = one_in(3) ? any_number() : below(3);
        break;
    case PLACE:
        g->a = one_in(4) ? random_word() : below(6000);
        break;
    }
    g->b = one_in(4) ? any_number() : a_key();
    g->c = one_in(4) ? any_number() : a_key();
    if (reads_line(kind))
        g->length = some_line(part, kind->call == call_line_part ? two(note + 2) : 0);
    else if (kind->call == call_read_draft)
        some_draft(g);
    else if (kind->input == 1)
        some_bytes(g);
    else if (kind->input == 4 && (kind->use == NO_STATE || one_in(3)))
        some_letters(g);
    else if (kind->input == 4)
        to_undo(g);
}

static const struct kind *kind_of(caller *call)
{
    const struct kind *kind = kinds;
    while (kind->call != call)
        kind++;
    return kind;
}

static const struct kind *some_kind(void)
{
    unsigned total = 0, at;
    size_t i;
    for (i = 0; i < KINDS; i++)
        total += kinds[i].weight;
    at = below(total);
    for (i = 0; at >= kinds[i].weight; i++)
        at -= kinds[i].weight;
    return &kinds[i];
}

/* In Vietnamese mode the key, and always the removal, write the text of what they leave. */
static void hold_text(const struct kind *kind, const struct given *g, const struct left *left)
{
    uint32_t text[CELLS];
    size_t count = 0;
    if (left->refusal != PASDRONGEL_DONE || kind->output != 4 || kind->use == NO_STATE || (kind->numbers == KEY && left->state[1] == 1))
        return;
    calls++;
    if (PASDRONGEL_REFUSAL(pasdrongel_text(left->state, g->state_size, text, CELLS, &count)) != PASDRONGEL_DONE
        || count != left->count || memcmp(text, left->output, count * sizeof *text) != 0)
        fault(kind, "it does not write the text of what it leaves");
}

/* A call of a session that types on and on: any but those that make or empty a composition, in whose place a key comes. */
static const struct kind *kind_that_fills(void)
{
    const struct kind *kind = one_in(2) ? kind_of(call_key) : some_kind();
    return kind->use == MADE || kind->call == call_reset || kind->call == call_set_method || kind->call == call_set_mode
               ? kind_of(call_key)
               : kind;
}

static unsigned long filled; /* the sessions in which keys alone came to where all cells are used */

static void session(void)
{
    static struct given g;
    static struct left left;
    int fills = one_in(16), full = 0;
    unsigned length = fills ? 300 : 1 + below(120);
    typed_length = 0;
    calls++;
    if (PASDRONGEL_REFUSAL(pasdrongel_new(composition, STATE, below(2))) != PASDRONGEL_DONE)
        fault(kind_of(call_new), "there is no new composition");
    calls++;
    if (PASDRONGEL_REFUSAL(pasdrongel_line_begin(note, LINE_STATE)) != PASDRONGEL_DONE)
        fault(kind_of(call_line_begin), "there is no new line");
    come_length = 0;
    while (length-- > 0) {
        const struct kind *kind = fills ? kind_that_fills() : some_kind();
        prepare(kind, &g);
        hold(kind, &g, &left);
        hold_text(kind, &g, &left);
        if (left.refusal == PASDRONGEL_DONE && kind->numbers == KEY && kind->output != 0)
            remember(g.a);
        if (!on_line(kind) && changes(kind) && left.refusal == PASDRONGEL_DONE)
            memcpy(composition, left.state, STATE);
        full = full || (fills && composition[2] == CELLS);
        if (on_line(kind) && g.state_size == LINE_STATE && (makes(kind) || memcmp(g.state, note, LINE_STATE) == 0)) {
            memcpy(note, left.state, LINE_STATE); /* a state that is not the session's is let go */
            come_length = makes(kind) ? 0 : come_length;
        }
    }
    filled += (unsigned long)full;
}

static unsigned long from_environment(const char *name, unsigned long otherwise)
{
    const char *value = getenv(name);
    return value == NULL || *value == '\0' ? otherwise : strtoul(value, NULL, 10);
}

#ifdef PAINTED
static void conclude(void)
{
    size_t i;
    for (i = 0; i < KINDS; i++)
        printf("stack %s %lu\n", kinds[i].name, (unsigned long)deepest[i]);
}
#else
/* Says what was met, and finds a refusal that was not. */
static void conclude(void)
{
    size_t i;
    unsigned r;
    for (i = 0; i < KINDS; i++) {
        printf("%-18s", kinds[i].name);
        for (r = 0; r < REFUSALS; r++) {
            if (met[i][r] > 0 && r == 0)
                printf(" done %lu", met[i][r]);
            else if (met[i][r] > 0)
                printf(", %u: %lu", r, met[i][r]);
            else if (r == 0 || kinds[i].refusals & R(r))
                fault(&kinds[i], "the run has not met every answer that it has");
        }
        if ((kinds[i].use != NO_STATE && nulls[i][STATE_BUFFER] == 0) || (kinds[i].input != 0 && nulls[i][INPUT_BUFFER] == 0)
            || (kinds[i].output != 0 && nulls[i][OUTPUT_BUFFER] == 0))
            fault(&kinds[i], "the run has not met NULL for each of its buffers");
        printf("\n");
    }
    printf("in %lu sessions keys came to where all cells are used\n", filled);
    if (filled == 0)
        fault(kind_of(call_key), "in no session keys came to where all cells are used");
}
#endif

int main(void)
{
    unsigned long seed = from_environment("SEED", 1), sessions = SESSIONS * from_environment("SCALE", 1);
    unsigned long enough = from_environment("FAULTS", MOST_SHOWN);
    random_state = (seed + 1) * 0x9e3779b97f4a7c15u;
    lent_open(&the_state, 1);
    lent_open(&the_input, 1);
    lent_open(&the_output, 1);
    lent_open(&the_first, 1);
    lent_open(&the_second, 1);
    lent_open(&the_third, 1);
    lent_open(&the_line, 5);
    while (sessions-- > 0 && faults < enough)
        session();
    conclude();
    printf("seed %lu\n%lu calls, %lu faults\n", seed, calls, faults);
    return faults != 0;
}
