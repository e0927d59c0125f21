/* The part of the library that is C: the version, and a text for each refusal, as Rattle has no strings. Nothing here is
 * proved, and no proved call uses it. */
#include "pasdrongel.h"

uint32_t pasdrongel_version(void)
{
    return PASDRONGEL_VERSION;
}

const char *pasdrongel_refusal_text(uint32_t answer)
{
    /* Rows of letters and not pointers to them: these would be written once, when the library is loaded. */
    static const char texts[][64] = {
        [PASDRONGEL_DONE] = "done",
        [PASDRONGEL_REFUSED_FOREIGN] = "a code point is no letter of the alphabet",
        [PASDRONGEL_REFUSED_FULL] = "all cells of the composition are used",
        [PASDRONGEL_REFUSED_SHORT] = "the output is shorter than the answer",
        [PASDRONGEL_REFUSED_EMPTY] = "there is no cell to remove",
        [PASDRONGEL_REFUSED_NO_UNDO] = "there is nothing to undo",
        [PASDRONGEL_REFUSED_LONG] = "a word, a raw string, a line or UTF-8 is over its limit",
        [PASDRONGEL_REFUSED_NO_WORD] = "there is no such listed word",
        [PASDRONGEL_REFUSED_MALFORMED] = "the bytes are not UTF-8",
        [PASDRONGEL_REFUSED_NO_METHOD] = "the first line names no input method",
        [PASDRONGEL_REFUSED_UNSOUND] = "a composition or line is not sound, or a number is no setting",
        [PASDRONGEL_REFUSED_NO_DRAFT] = "the bytes are not the draft of a sound composition",
    };
    uint32_t refusal = PASDRONGEL_REFUSAL(answer);
    return refusal < sizeof texts / sizeof *texts ? texts[refusal] : "no refusal has this number";
}
