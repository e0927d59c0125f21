/* One figure of bench/run over the note, once or twice: bench/count counts the instructions of both, and the difference is
 * that of one time. What a time alters it finds made ready, for both times whichever is asked.
 *
 *   count NOTE FIGURE TIMES      prints how many keys, words or calls one time has */
#include "pasdrongel.h"

#include <stdio.h>
#include <stdlib.h>
#include <string.h>

#define MOST_KEYS 8192
#define MOST_WORDS 1024
/* Both reset a habit's composition at this key (bench/note.rs). */
#define RESET 0x0a
#define TELEX 0
#define MOST_TIMES 2
/* Of one key over so many cells, as in bench/note.rs: what is typed, and the word with which the cells end. */
#define LETTER 'b'
#define TONE 's'
static const uint32_t last_word[] = {'x', 'a', 'n', 'h'};
#define LAST_LENGTH (sizeof last_word / sizeof *last_word)
/* The letters of a part, as in bench/note.rs. */
#define PART 16
/* What the line has that parts are counted on: so many words, and this one open. */
#define FULL_WORDS 2000
static const uint32_t open_word[] = {'n', 'g', 'h', 'u', 'y', 0xea, 'c', 'h'};

/* The loops by value, of p7_bench and p7_bench_inner. */
size_t pasdrongel_bench_keys(const uint32_t *keys, size_t length, uint32_t *text, size_t room);
size_t pasdrongel_bench_sound_keys(const uint32_t *keys, size_t length, uint32_t *text, size_t room);

struct word {
    uint32_t letters[PASDRONGEL_CELLS];
    size_t length;
};

/* The note's keys, and those of the figure's habit: with a RESET wherever its host starts afresh. */
static uint32_t note[MOST_KEYS], keys[MOST_KEYS];
static size_t note_length, key_count;
static struct word words[MOST_WORDS];
static size_t word_count;
/* The composition after the keys up to each gap, for each time. */
static uint8_t states[MOST_TIMES][MOST_WORDS][PASDRONGEL_COMPOSITION_BYTES];
static size_t state_count;
/* The note as one line, and the state on which a part of it is counted. */
static uint32_t line[PASDRONGEL_LINE_LETTERS];
static size_t line_length;
static uint8_t line_state[PASDRONGEL_LINE_STATE_BYTES];

static uint8_t state[PASDRONGEL_COMPOSITION_BYTES];
static uint32_t text[PASDRONGEL_CELLS];
static size_t text_length;

static void fail(const char *why)
{
    fprintf(stderr, "count: %s\n", why);
    exit(2);
}

static void begin(int capitals)
{
    pasdrongel_new(state, sizeof state, TELEX);
    if (capitals)
        pasdrongel_set_capitals(state, sizeof state, 1);
}

static uint32_t press(uint32_t key)
{
    return pasdrongel_key(state, sizeof state, key, text, PASDRONGEL_CELLS, &text_length);
}

static void type(const uint32_t *typed, size_t length, int capitals)
{
    begin(capitals);
    for (size_t at = 0; at < length; at++) {
        if (typed[at] == RESET)
            pasdrongel_reset(state, sizeof state);
        else
            press(typed[at]);
    }
}

static void add_to_line(uint32_t letter)
{
    if (line_length == PASDRONGEL_LINE_LETTERS)
        fail("the note is too long for a line");
    line[line_length++] = letter;
}

static void add_state(void)
{
    if (state_count == MOST_WORDS)
        fail("the note has too many words");
    for (int time = 0; time < MOST_TIMES; time++)
        memcpy(states[time][state_count], state, sizeof state);
    state_count++;
}

/* What the keys of a word make: to the line as it is, and without digits and points, as bench/note.rs parts it. */
static void add_words(const uint32_t *typed, size_t length)
{
    type(typed, length, 0);
    add_state();
    for (size_t at = 0; at < text_length; at++)
        add_to_line(text[at]);
    size_t letters = 0;
    for (size_t at = 0; at <= text_length; at++) {
        uint32_t letter = at < text_length ? text[at] : 0, small = letter | 0x20;
        if ((small >= 'a' && small <= 'z') || letter >= 0x80)
            words[word_count].letters[letters++] = letter;
        else if (letters > 0)
            words[word_count++].length = letters, letters = 0;
        if (word_count == MOST_WORDS)
            fail("the note has too many words");
    }
}

static void read_note(const char *path)
{
    FILE *file = fopen(path, "rb");
    if (!file)
        fail("the note cannot be read");
    size_t from = 0;
    for (int key; (key = getc(file)) != EOF; note[note_length++] = (uint32_t)key) {
        if (note_length == MOST_KEYS)
            fail("the note has too many keys");
        if (key == ' ' || key == RESET) {
            if (from < note_length)
                add_words(note + from, note_length - from);
            from = note_length + 1;
            add_to_line((uint32_t)key);
        }
    }
    fclose(file);
    line_length--; /* the last line's end */
}

static void add_key(uint32_t key)
{
    if (key_count == MOST_KEYS)
        fail("the note has too many keys");
    keys[key_count++] = key;
}

/* One line of all; a key that would need a 97th cell starts afresh. */
static void reset_when_full(void)
{
    begin(0);
    for (size_t at = 0; at < note_length; at++) {
        uint32_t key = note[at] == RESET ? ' ' : note[at];
        if (at + 1 == note_length && key == ' ')
            return;
        if (press(key) != 0) {
            add_key(RESET);
            begin(0);
            press(key);
        }
        add_key(key);
    }
}

static int of_cells(const char *figure)
{
    return strstr(figure, "-at-") != NULL;
}

/* The keys of the note up to the last word, from as far back as so many cells ask, and then one more. */
static void take_cells(const char *figure)
{
    size_t cells = strtoul(strstr(figure, "-at-") + strlen("-at-"), NULL, 10), end = 0, from;
    while (end + LAST_LENGTH <= note_length && memcmp(note + end, last_word, sizeof last_word))
        end++;
    end += LAST_LENGTH;
    if (end > note_length || end < cells)
        fail("the note has too few cells before the word");
    for (size_t at = 0; at < end; at++)
        if (note[at] == RESET)
            note[at] = ' ';
    /* a key makes one cell or none */
    for (from = end - cells;; from--) {
        text_length = 0;
        type(note + from, end - from, 0);
        if (text_length == cells)
            break;
        if (from == 0)
            fail("the note has too few cells before the word");
    }
    for (; from < end; from++)
        add_key(note[from]);
    add_key(strstr(figure, "tone") ? TONE : LETTER);
}

static void take_habit(const char *figure)
{
    if (of_cells(figure)) {
        take_cells(figure);
        return;
    }
    int line = strstr(figure, "line") != NULL, caps_lock = !strcmp(figure, "key-capitals");
    if (strstr(figure, "one")) {
        reset_when_full();
        return;
    }
    for (size_t at = 0; at < note_length; at++) {
        uint32_t key = note[at];
        if (caps_lock && key >= 'a' && key <= 'z')
            key -= 'a' - 'A';
        add_key(key == ' ' && !line ? RESET : key);
    }
}

static int of_part(const char *figure)
{
    return !strncmp(figure, "part-", strlen("part-"));
}

/* The state on which a part is counted: of nothing, or of many words and one that stands open. */
static void take_state(const char *figure)
{
    static const uint32_t one[] = {'a', ' '};
    pasdrongel_line_begin(line_state, sizeof line_state);
    if (!of_part(figure) || !strstr(figure, "full"))
        return;
    for (int times = 0; times < FULL_WORDS; times++)
        pasdrongel_line_part(line_state, sizeof line_state, one, 2);
    if (pasdrongel_line_part(line_state, sizeof line_state, open_word, sizeof open_word / sizeof *open_word) != 0)
        fail("the line is refused");
}

/* How many words the line has. */
static size_t line_words(void)
{
    size_t told, no, first;
    if (pasdrongel_line_check(line, line_length, &told, &no, &first) != 0)
        fail("the line is refused");
    return told;
}

/* The keys that are typed, the words, or the one call or key. */
static size_t units(const char *figure)
{
    size_t typed = 0;
    for (size_t at = 0; at < key_count; at++)
        typed += keys[at] != RESET;
    if (!strcmp(figure, "line") || !strcmp(figure, "line-part"))
        return line_words();
    if (of_part(figure) || of_cells(figure))
        return 1;
    if (!strcmp(figure, "reset"))
        return state_count;
    return !strcmp(figure, "verdict") || !strcmp(figure, "cut") ? word_count : typed;
}

static void run_parts(void)
{
    size_t told, no, first;
    pasdrongel_line_begin(line_state, sizeof line_state);
    for (size_t at = 0; at < line_length; at += PART)
        pasdrongel_line_part(line_state, sizeof line_state, line + at, line_length - at < PART ? line_length - at : PART);
    pasdrongel_line_answer(line_state, sizeof line_state, &told, &no, &first);
}

/* The keys without the last, and with it the second time. */
static void run_cells(const char *figure, int times)
{
    size_t length = key_count - MOST_TIMES + (size_t)times;
    if (strncmp(figure, "key", strlen("key")))
        type(keys, length, 0);
    else
        pasdrongel_bench_keys(keys, length, text, PASDRONGEL_CELLS);
}

/* The figure once over the note. */
static void run(const char *figure, int time)
{
    size_t onset, vowels;
    uint32_t yes;
    uint8_t copy[sizeof line_state];
    if (!strncmp(figure, "key-inner", strlen("key-inner"))) {
        pasdrongel_bench_sound_keys(keys, key_count, text, PASDRONGEL_CELLS);
    } else if (strstr(figure, "capitals")) {
        type(keys, key_count, 1);
    } else if (!strncmp(figure, "key", strlen("key"))) {
        pasdrongel_bench_keys(keys, key_count, text, PASDRONGEL_CELLS);
    } else if (!strncmp(figure, "call", strlen("call"))) {
        type(keys, key_count, 0);
    } else if (!strcmp(figure, "reset")) {
        for (size_t at = 0; at < state_count; at++)
            pasdrongel_reset(states[time][at], sizeof states[time][at]);
    } else if (!strcmp(figure, "verdict")) {
        for (size_t at = 0; at < word_count; at++)
            pasdrongel_verdict(words[at].letters, words[at].length, &yes);
    } else if (!strcmp(figure, "cut")) {
        for (size_t at = 0; at < word_count; at++)
            pasdrongel_cut(words[at].letters, words[at].length, &onset, &vowels);
    } else if (!strcmp(figure, "line")) {
        line_words();
    } else if (!strcmp(figure, "line-part")) {
        run_parts();
    } else if (of_part(figure)) {
        memcpy(copy, line_state, sizeof copy);
        if (pasdrongel_line_part(copy, sizeof copy, line, strtoul(figure + strlen("part-"), NULL, 10)) != 0)
            fail("the part is refused");
    } else {
        fail("no such figure");
    }
}

int main(int argc, char **argv)
{
    if (argc != 4)
        fail("count NOTE FIGURE TIMES");
    read_note(argv[1]);
    take_habit(argv[2]);
    take_state(argv[2]);
    int times = atoi(argv[3]);
    if (times < 1 || times > MOST_TIMES)
        fail("once or twice");
    if (of_cells(argv[2]))
        run_cells(argv[2], times);
    else
        for (int time = 0; time < times; time++)
            run(argv[2], time);
    printf("%zu\n", units(argv[2]));
    return 0;
}
