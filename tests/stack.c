/* The stack that a note line takes. In the source the whole line goes one call deeper for each word, so the lines with the most words decide:
 * they are checked on a painted stack (painted.h), and handed over in parts too.
 *
 *   stack      prints `stack CALL BYTES LINE` for each call and line, and fails if a line is answered otherwise than expected */
#include "painted.h"
#include "pasdrongel.h"

#include <string.h>

#define LINE PASDRONGEL_LINE_LETTERS

/* Each line is a few letters again and again; what is told of it, and the refusal. */
static const struct line {
    const char *letters, *what;
    size_t length;
    uint32_t refusal;
    size_t words, no, first;
} lines[] = {
    {"a ", "2,048 words of one letter, judged yes", LINE, 0, LINE / 2, 0, LINE},
    {"z ", "2,048 words of one letter, judged no", LINE, 0, LINE / 2, LINE / 2, 0},
    {" a", "a gap, and 2,048 words", LINE, 0, LINE / 2, 0, LINE},
    {"z a,", "yes and no by turns", LINE, 0, LINE / 2, LINE / 4, 0},
    {" ", "4,096 gaps", LINE, 0, 0, 0, LINE},
    {"nghieng ", "words of seven letters", LINE, 0, LINE / 8, LINE / 8, 0},
    {"", "nothing", 0, 0, 0, 0, 0},
    {"a ", "a letter too many", LINE + 1, PASDRONGEL_REFUSED_LONG, 0, 0, 0},
};

static uint32_t letters[LINE + 1], answer;
static uint8_t state[PASDRONGEL_LINE_STATE_BYTES];
static const struct line *line;
static size_t words, no, first;

static void nothing(void)
{
}

static void check(void)
{
    answer = pasdrongel_line_check(letters, line->length, &words, &no, &first);
}

static void take_part(void)
{
    answer = pasdrongel_line_part(state, sizeof state, letters, line->length);
}

static void tell(void)
{
    answer = pasdrongel_line_answer(state, sizeof state, &words, &no, &first);
}

/* What a call takes is what it touches more than an empty one, which has touched its return address. */
static void measure(const char *call, void (*run)(void))
{
    size_t empty = touched_by(nothing, SHALLOW) - sizeof(void *);
    printf("stack %s %lu %s\n", call, (unsigned long)(touched_by(run, PAINTED_WORDS) - empty), line->what);
}

static void hold(int holds)
{
    if (holds)
        return;
    fprintf(stderr, "a line of %s is answered by %lu: %lu words, %lu judged no, the first at %lu\n", line->what, (unsigned long)answer,
            (unsigned long)words, (unsigned long)no, (unsigned long)first);
    exit(1);
}

/* Is the line refused as it should be, or told? */
static int is_told(void)
{
    return PASDRONGEL_REFUSAL(answer) == line->refusal
        && (line->refusal != 0 || (words == line->words && no == line->no && first == line->first));
}

int main(void)
{
    size_t i;
    for (line = lines; line < lines + sizeof lines / sizeof *lines; line++) {
        for (i = 0; i < line->length; i++)
            letters[i] = (unsigned char)line->letters[i % strlen(line->letters)];
        measure("line_check", check);
        hold(is_told());
        hold(PASDRONGEL_REFUSAL(pasdrongel_line_begin(state, sizeof state)) == PASDRONGEL_DONE);
        measure("line_part", take_part);
        hold(PASDRONGEL_REFUSAL(answer) == line->refusal);
        measure("line_answer", tell);
        hold(is_told());
    }
    return 0;
}
