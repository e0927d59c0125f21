/* A panel, in little: lines of keys in; out come the words, whether each is a syllable, the word that a dial would offer
 * next, and the whole line as it is composed. A text of more letters than a word may have is told to be no word.
 *
 *     cc -o panel panel.c keep.c $(pkg-config --cflags --libs pasdrongel)
 *     echo 'pha6n 2' | ./panel vni
 *     echo 'NHAF AAN' | ./panel capitals
 *     printf 'pha6n 2 bo' | ./panel vni draft=note
 *     echo '1n la1' | ./panel vni draft=note
 *
 * A separator ends the word: the panel takes its text over, and resets the composition. So a key never meets a word that
 * is finished. In one composition the keys above give "phân " and no 2: 2 is a tone key, and the tone falls on the space.
 *
 * Under Telex a key that is pressed again takes back what it did: as gives á, and ass gives as. Before a key is taken as a
 * key it is offered to pasdrongel_undo, with the keys of the word so far.
 *
 * The composition is made for each line, with its settings: a reset leaves them. With `capitals` the second line above gives
 * NHÀ ÂN, without it NHà âN.
 *
 * With `draft=FILE` a note that is left half typed, here by input that ends in the middle of a line, waits in that file: the last
 * line above goes on with it, and gives "phân 2 bón lá". The note is kept after each key, so that a power cut takes none, and
 * it is removed when its line is done. */
#include "keep.h"

#include <errno.h>
#include <pasdrongel.h>
#include <stdio.h>
#include <stdlib.h>
#include <string.h>

/* What the command line says. */
static uint32_t method = PASDRONGEL_TELEX, capitals = PASDRONGEL_CAPITALS_OFF;
static const char *draft_file; /* NULL if no draft is kept */

static uint8_t composition[PASDRONGEL_COMPOSITION_BYTES];
static uint32_t raw[PASDRONGEL_WORD_LETTERS]; /* the last keys that were taken of the word, as many as undo may be given */
static size_t raw_length;
static uint32_t line[PASDRONGEL_READ_ROOM]; /* the line as it is composed, up to the word that stands open */
static size_t line_length;
static int failed; /* the file is not the note as it stands */

static int done(uint32_t answer)
{
    return PASDRONGEL_REFUSAL(answer) == PASDRONGEL_DONE;
}

/* For what cannot be refused here. */
static void must(uint32_t answer)
{
    if (done(answer))
        return;
    fprintf(stderr, "panel: %s\n", pasdrongel_refusal_text(answer));
    exit(1);
}

/* For what the panel cannot go on without. */
static void stop(const char *what)
{
    fprintf(stderr, "panel: %s: %s\n", what, strerror(errno));
    exit(1);
}

/* Letters as UTF-8: in pieces, as a text or a line may have more of them than one call takes. */
static size_t spell(const uint32_t *letters, size_t length, uint8_t *bytes, size_t room)
{
    size_t piece, count, size = 0;
    for (; length > 0; letters += piece, length -= piece, size += count) {
        piece = length < PASDRONGEL_WORD_LETTERS ? length : PASDRONGEL_WORD_LETTERS;
        must(pasdrongel_write_utf8(letters, piece, bytes + size, room - size, &count));
    }
    return size;
}

static void print(const uint32_t *letters, size_t length)
{
    uint8_t bytes[3 * PASDRONGEL_READ_ROOM]; /* no letter takes more than three */
    fwrite(bytes, 1, spell(letters, length, bytes, sizeof bytes), stdout);
}

static void end_word(void)
{
    uint32_t word[PASDRONGEL_TEXT_ROOM], next[PASDRONGEL_LISTED_ROOM], yes, answer;
    size_t i, length, next_length;
    must(pasdrongel_text(composition, sizeof composition, word, PASDRONGEL_TEXT_ROOM, &length));
    must(pasdrongel_reset(composition, sizeof composition));
    raw_length = 0;
    if (length == 0)
        return;
    memcpy(line + line_length, word, length * sizeof *word);
    line_length += length;
    print(word, length);
    answer = pasdrongel_verdict(word, length, &yes);
    if (PASDRONGEL_REFUSAL(answer) == PASDRONGEL_REFUSED_LONG) { /* and so would the dial refuse it */
        printf("\tno word\t\n");
        return;
    }
    must(answer);
    printf("\t%s\t", yes ? "yes" : "no");
    for (i = 0; i < length; i++) { /* the list has small letters without tones, and so the dial starts from these */
        must(pasdrongel_lower(word[i], &word[i]));
        must(pasdrongel_tone_off(word[i], &word[i]));
    }
    if (done(pasdrongel_next_word(word, length, next, PASDRONGEL_LISTED_ROOM, &next_length)))
        print(next, next_length);
    putchar('\n');
}

/* Takes back what the key did when it was pressed before; refused by 5 where that is nothing. The trigger is appended as a
 * letter: as a key it would do the same again. If there is no cell for it, nothing is taken back. */
static uint32_t undo(uint32_t key)
{
    uint8_t before[sizeof composition];
    uint32_t behaviour, answer;
    memcpy(before, composition, sizeof before);
    answer = pasdrongel_undo(composition, sizeof composition, key, raw, raw_length, &behaviour);
    if (done(answer) && behaviour == PASDRONGEL_APPEND)
        answer = pasdrongel_literal(composition, sizeof composition, key);
    if (!done(answer))
        memcpy(composition, before, sizeof before);
    return answer;
}

/* Of more keys than undo may be given the first are let go. A tone can be taken back all the same, by the last key, and a mark if
 * its keys are among those that are left. */
static void remember(uint32_t key)
{
    if (raw_length == PASDRONGEL_WORD_LETTERS)
        memmove(raw, raw + 1, --raw_length * sizeof *raw);
    raw[raw_length++] = key;
}

static int separates(uint32_t key)
{
    uint32_t yes;
    must(pasdrongel_is_separator(key, &yes));
    return yes != 0;
}

static void press(uint32_t key)
{
    uint32_t text[PASDRONGEL_TEXT_ROOM], answer; /* a panel with a screen shows the text at each key */
    size_t length;
    if (separates(key)) {
        end_word();
        line[line_length++] = key;
        return;
    }
    answer = undo(key);
    if (PASDRONGEL_REFUSAL(answer) == PASDRONGEL_REFUSED_NO_UNDO)
        answer = pasdrongel_key(composition, sizeof composition, key, text, PASDRONGEL_TEXT_ROOM, &length);
    if (done(answer))
        remember(key);
    else
        printf("a key is left out: %s\n", pasdrongel_refusal_text(answer));
}

/* ---- the note in its file */

/* The note is kept as the line so far in UTF-8, a line feed, which no line has, and the draft of the word that stands open. They
 * are one file, because a separator moves a word from the one to the other. */
#define NOTE_ROOM (3 * PASDRONGEL_READ_ROOM + 1 + PASDRONGEL_DRAFT_ROOM)

/* A note that cannot be kept can still be typed: it is said once, and the next key tries again. */
static void tell(int answer)
{
    if (answer != 0 && !failed)
        fprintf(stderr, "panel: %s is not the note as it stands: %s\n", draft_file, strerror(errno));
    failed = answer != 0;
}

/* After each key. A host whose disk is slow, or wears, may do so at each word. */
static void keep_note(void)
{
    uint8_t note[NOTE_ROOM];
    size_t count, size;
    if (draft_file == NULL)
        return;
    size = spell(line, line_length, note, sizeof note);
    note[size++] = '\n';
    must(pasdrongel_write_draft(composition, sizeof composition, note + size, sizeof note - size, &count));
    tell(keep_write(draft_file, note, size + count));
}

/* The letters of the note: the line so far, and the word that stands open. */
static size_t note_length(void)
{
    size_t count;
    must(pasdrongel_count(composition, sizeof composition, &count));
    return line_length + count;
}

/* Takes the line and the composition from the bytes of a note; not if they are none. */
static int read_note(const uint8_t *note, size_t size)
{
    const uint8_t *at, *next, *end = memchr(note, '\n', size);
    size_t count;
    if (end == NULL)
        return 0;
    for (at = note; at < end; at = next) { /* letter by letter, as it was written: the whole may be over the limit of a line */
        for (next = at + 1; next < end && (*next & 0xc0) == 0x80; next++)
            ;
        if (line_length == PASDRONGEL_READ_ROOM
            || !done(pasdrongel_read_utf8(at, (size_t)(next - at), line + line_length, 1, &count)))
            return 0;
        line_length++;
    }
    end++;
    return done(pasdrongel_read_draft(end, size - (size_t)(end - note), composition, sizeof composition))
        && note_length() <= PASDRONGEL_READ_ROOM;
}

/* An empty line, under the settings of the command line. */
static void begin_line(void)
{
    line_length = 0;
    raw_length = 0;
    must(pasdrongel_new(composition, sizeof composition, method));
    must(pasdrongel_set_capitals(composition, sizeof composition, capitals));
}

/* Goes on with the note that was left, if there is one, and shows it. Its word goes on under the method and capitals that it was
 * begun with, which its draft has; those of the command line hold from the next line on. A draft does not have the keys of the
 * word, which undo asks for: so a key takes back nothing that was typed before the break.
 *
 * What is no note is put aside and said, and an empty line is begun. It is not written over: it may come from a later version,
 * whose drafts this one refuses, and someone may still read it. For the same reason the panel stops where it cannot read or
 * put aside what is there. */
static void take_up(void)
{
    uint8_t note[NOTE_ROOM + 1]; /* one byte more than a note has, so that a longer file is none */
    uint32_t text[PASDRONGEL_TEXT_ROOM];
    size_t size, length;
    if (draft_file == NULL)
        return;
    if (keep_read(draft_file, note, sizeof note, &size) != 0) {
        if (errno != ENOENT)
            stop(draft_file);
    } else if (read_note(note, size)) {
        must(pasdrongel_set_mode(composition, sizeof composition, PASDRONGEL_VIETNAMESE)); /* this panel has no other */
        must(pasdrongel_text(composition, sizeof composition, text, PASDRONGEL_TEXT_ROOM, &length));
        fputs("> ", stdout);
        print(line, line_length);
        print(text, length);
        putchar('\n');
    } else {
        if (keep_aside(draft_file) != 0)
            stop(draft_file);
        fprintf(stderr, "panel: %s: %s\n", draft_file, pasdrongel_refusal_text(PASDRONGEL_REFUSED_NO_DRAFT));
        begin_line();
    }
}

/* The line goes out before its draft does: a power cut between the two shows it twice, and never not at all. */
static void end_line(void)
{
    end_word();
    fputs("= ", stdout);
    print(line, line_length);
    putchar('\n');
    if (fflush(stdout) != 0)
        stop("standard output");
    if (draft_file != NULL)
        tell(keep_remove(draft_file));
    begin_line();
}

/* ---- lines of keys */

/* Keeps at most one byte more than a line may have, so that a longer one is refused and no memory is asked for. Returns what
 * ended the line. */
static int read_line(uint8_t *bytes, size_t *length)
{
    int byte;
    for (*length = 0; (byte = getchar()) != EOF && byte != '\n';)
        if (*length <= PASDRONGEL_LINE_BYTES)
            bytes[(*length)++] = (uint8_t)byte;
    return byte;
}

/* Presses the keys of a line. One that is no keys is left out whole, and so is one that could make the note too long: no key
 * adds more than a letter. */
static int press_all(const uint8_t *bytes, size_t length)
{
    uint32_t keys[PASDRONGEL_READ_ROOM], answer;
    size_t i, count;
    answer = pasdrongel_read_utf8(bytes, length, keys, PASDRONGEL_READ_ROOM, &count);
    if (done(answer) && note_length() + count > PASDRONGEL_READ_ROOM)
        answer = PASDRONGEL_REFUSED_LONG;
    if (!done(answer)) {
        printf("a line is left out: %s\n", pasdrongel_refusal_text(answer));
        return 0;
    }
    for (i = 0; i < count; i++) {
        press(keys[i]);
        keep_note();
    }
    return 1;
}

/* Not if the command line has a word which says nothing. */
static int read_words(int count, char **words)
{
    int i;
    for (i = 1; i < count; i++) {
        if (strcmp(words[i], "vni") == 0)
            method = PASDRONGEL_VNI;
        else if (strcmp(words[i], "capitals") == 0)
            capitals = PASDRONGEL_CAPITALS_ON;
        else if (strncmp(words[i], "draft=", 6) == 0 && words[i][6] != '\0')
            draft_file = words[i] + 6;
        else if (strcmp(words[i], "telex") != 0)
            return 0;
    }
    return 1;
}

int main(int count, char **words)
{
    uint8_t bytes[PASDRONGEL_LINE_BYTES + 1];
    size_t length;
    int end;
    if (!read_words(count, words)) {
        fputs("usage: panel [telex | vni] [capitals] [draft=FILE] < keys\n", stderr);
        return 2;
    }
    begin_line();
    take_up();
    while ((end = read_line(bytes, &length)) != EOF || length > 0)
        if (press_all(bytes, length) && (end != EOF || draft_file == NULL)) /* else the note is left half typed */
            end_line();
    return failed;
}
