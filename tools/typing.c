/* What the calls make of words and keys, for tools/typing: a line in, a line out.
 *
 *     verdict METHOD WORD    yes or no, the same for either method
 *     keys METHOD KEYS       the text that the keys leave on a fresh composition
 *     undoing METHOD KEYS    the same on a panel that offers each key to undo first
 *     reach METHOD WORD      the shortest keys that leave the word; `none` if none do; `unknown` if the search grows too large
 *
 * METHOD is telex or vni. Among KEYS the backspace, U+0008, is no key: it has the last letter removed. Where a call refuses,
 * the line out is `refused` and the number. */
#include <pasdrongel.h>
#include <stdio.h>
#include <stdlib.h>
#include <string.h>

#define LINE 512          /* bytes that are kept of a line: more than a refusal needs */
#define REMOVE 8          /* among keys: remove the last letter */
#define MOST 65536        /* compositions that a search may meet */
#define PLACES (4 * MOST) /* of the table by which it finds them again */

/* A composition that a search has met, and the key that made it of an earlier one. */
struct met {
    uint8_t state[PASDRONGEL_COMPOSITION_BYTES];
    uint8_t key;
    uint32_t from;
};

static struct met all[MOST];
static uint32_t all_count, places[PLACES];

static uint32_t given[PASDRONGEL_READ_ROOM], text[PASDRONGEL_TEXT_ROOM]; /* keys or a word; what stands in the composition */
static size_t given_length, text_length;

/* Of a word that is searched: its letters without tone, and the letters that a mark makes them of, or 0. */
static uint32_t plain[PASDRONGEL_READ_ROOM], roots[PASDRONGEL_READ_ROOM];

static int done(uint32_t answer)
{
    return PASDRONGEL_REFUSAL(answer) == PASDRONGEL_DONE;
}

static void say(const uint32_t *letters, size_t length)
{
    uint8_t bytes[3]; /* no letter takes more */
    size_t i, count;
    for (i = 0; i < length; i++)
        if (done(pasdrongel_write_utf8(letters + i, 1, bytes, sizeof bytes, &count)))
            fwrite(bytes, 1, count, stdout);
}

static uint32_t press(uint8_t *state, uint32_t key)
{
    if (key == REMOVE)
        return pasdrongel_remove_last(state, PASDRONGEL_COMPOSITION_BYTES, text, PASDRONGEL_TEXT_ROOM, &text_length);
    return pasdrongel_key(state, PASDRONGEL_COMPOSITION_BYTES, key, text, PASDRONGEL_TEXT_ROOM, &text_length);
}

/* A key on a panel with undo. `raw` are the keys so far, without those that were removed. */
static uint32_t press_undoing(uint8_t *state, uint32_t key, uint32_t *raw, size_t *count)
{
    uint32_t behaviour, answer;
    if (key == REMOVE) {
        *count -= *count > 0;
        return press(state, key);
    }
    answer = pasdrongel_undo(state, PASDRONGEL_COMPOSITION_BYTES, key, raw, *count, &behaviour);
    raw[(*count)++] = key;
    if (PASDRONGEL_REFUSAL(answer) == PASDRONGEL_REFUSED_NO_UNDO)
        return press(state, key);
    if (done(answer) && behaviour == PASDRONGEL_APPEND)
        answer = pasdrongel_literal(state, PASDRONGEL_COMPOSITION_BYTES, key);
    if (done(answer))
        answer = pasdrongel_text(state, PASDRONGEL_COMPOSITION_BYTES, text, PASDRONGEL_TEXT_ROOM, &text_length);
    return answer;
}

static uint32_t type(uint32_t method, int undoing)
{
    uint8_t state[PASDRONGEL_COMPOSITION_BYTES];
    uint32_t raw[PASDRONGEL_READ_ROOM], answer = pasdrongel_new(state, sizeof state, method);
    size_t i, count = 0;
    text_length = 0;
    for (i = 0; done(answer) && i < given_length; i++)
        answer = undoing ? press_undoing(state, given[i], raw, &count) : press(state, given[i]);
    if (done(answer))
        say(text, text_length);
    return answer;
}

static void find_roots(uint32_t method)
{
    uint32_t letter, key, mark;
    size_t i;
    for (i = 0; i < given_length; i++) {
        roots[i] = 0;
        pasdrongel_tone_off(given[i], &plain[i]);
        for (letter = 'a'; letter <= 'z'; letter++)
            for (key = 0; key < 128; key++)
                if (done(pasdrongel_mark_for(method, letter, key, &mark)) && mark == plain[i])
                    roots[i] = letter;
    }
}

/* Can the text still become the word? No key removes a letter, moves one, or takes a mark off; and what a mark makes is
 * made of its root. */
static int may_lead(void)
{
    uint32_t letter;
    size_t i;
    if (text_length > given_length)
        return 0;
    for (i = 0; i < text_length; i++) {
        pasdrongel_tone_off(text[i], &letter);
        if (letter != plain[i] && letter != roots[i])
            return 0;
    }
    return 1;
}

/* Keeps a composition, unless it was met before. */
static int is_new(const uint8_t *state, uint32_t key, uint32_t from)
{
    uint32_t place = 2166136261u;
    size_t i;
    for (i = 0; i < PASDRONGEL_COMPOSITION_BYTES; i++)
        place = (place ^ state[i]) * 16777619u;
    for (place %= PLACES; places[place] != 0; place = (place + 1) % PLACES)
        if (memcmp(all[places[place] - 1].state, state, PASDRONGEL_COMPOSITION_BYTES) == 0)
            return 0;
    memcpy(all[all_count].state, state, PASDRONGEL_COMPOSITION_BYTES);
    all[all_count].key = (uint8_t)key;
    all[all_count].from = from;
    places[place] = ++all_count;
    return 1;
}

static void say_keys(uint32_t last)
{
    if (last == 0)
        return;
    say_keys(all[last].from);
    putchar(all[last].key);
}

/* Meets every composition that ASCII keys make of a fresh one, as long as it may lead to the word, shortest keys first.
 * These are finitely many, so `none` speaks of keys of any length. Capitals are left out: a capital key does what the small
 * one does, and its letter is shown as a capital or not. */
static uint32_t search(uint32_t method)
{
    uint8_t state[PASDRONGEL_COMPOSITION_BYTES];
    uint32_t answer = pasdrongel_new(state, sizeof state, method), key, at;
    if (!done(answer) || given_length == 0)
        return answer;
    find_roots(method);
    memset(places, 0, sizeof places);
    all_count = 0;
    is_new(state, 0, 0);
    for (at = 0; at < all_count; at++)
        for (key = 0; key < 128; key++) {
            if (key == REMOVE || (key >= 'A' && key <= 'Z'))
                continue;
            memcpy(state, all[at].state, sizeof state);
            if (!done(press(state, key)) || !may_lead() || !is_new(state, key, at))
                continue;
            if (text_length == given_length && memcmp(text, given, given_length * sizeof *given) == 0) {
                say_keys(all_count - 1);
                return PASDRONGEL_DONE;
            }
            if (all_count == MOST) {
                fputs("unknown", stdout);
                return PASDRONGEL_DONE;
            }
        }
    fputs("none", stdout);
    return PASDRONGEL_DONE;
}

static uint32_t verdict(void)
{
    uint32_t yes, answer = pasdrongel_verdict(given, given_length, &yes);
    if (done(answer))
        fputs(yes ? "yes" : "no", stdout);
    return answer;
}

static int read_line(char *line, size_t *length)
{
    int byte;
    for (*length = 0; (byte = getchar()) != EOF && byte != '\n';)
        if (*length < LINE)
            line[(*length)++] = (char)byte;
    return byte != EOF;
}

/* Is `name` what the line has from `*at` to a space? Then `*at` goes past that. */
static int next_is(const char *name, const char *line, size_t length, size_t *at)
{
    size_t count = strlen(name);
    if (length - *at <= count || memcmp(line + *at, name, count) != 0 || line[*at + count] != ' ')
        return 0;
    *at += count + 1;
    return 1;
}

static uint32_t answered(const char *line, size_t length)
{
    static const char *const asked[] = {"verdict", "keys", "undoing", "reach"};
    uint32_t method, answer;
    size_t what, at = 0;
    for (what = 0; what < 4 && !next_is(asked[what], line, length, &at); what++)
        ;
    method = next_is("telex", line, length, &at) ? PASDRONGEL_TELEX : PASDRONGEL_VNI;
    if (what == 4 || (method == PASDRONGEL_VNI && !next_is("vni", line, length, &at))) {
        fprintf(stderr, "tools/typing.c: a line asks for what it does not know\n");
        exit(2);
    }
    answer = pasdrongel_read_utf8(
        (const uint8_t *)line + at, length - at, given, PASDRONGEL_READ_ROOM, &given_length);
    if (!done(answer))
        return answer;
    return what == 0 ? verdict() : what == 3 ? search(method) : type(method, what == 2);
}

int main(void)
{
    char line[LINE];
    size_t length;
    uint32_t answer;
    setvbuf(stdout, NULL, _IOLBF, BUFSIZ); /* who asks waits for the answer */
    while (read_line(line, &length)) {
        answer = answered(line, length);
        if (!done(answer))
            printf("refused %lu", (unsigned long)PASDRONGEL_REFUSAL(answer));
        putchar('\n');
    }
    return 0;
}
