/* examples/keep.c on a disk where the power goes, at each of its calls one after the other: what is kept is the old or the new
 * file, whole. And so is the note of examples/panel.c, which is linked with it as `panel_main`.
 *
 *   keep FOLDER     prints what does not hold, then `N power cuts and M failed calls, F do not hold`
 *
 * The linker puts `__wrap_NAME` in the place of each call of the system that keep.c makes (see tests/install-host). They make the
 * call, and remember what a disk may still lose: the bytes of a file that was written and not synced, and a name that was changed
 * in a folder that was not synced. A process for each cut makes the calls up to it, loses that, and is gone; half of a write is
 * made. A program that ends has no more power either: what it was told is done must be there.
 *
 * First it tries itself on disks on which a part of keep.c's work is not done: a run that finds nothing there shows nothing. */
#define _DEFAULT_SOURCE
#include "keep.h"

#include <errno.h>
#include <fcntl.h>
#include <pasdrongel.h>
#include <stdarg.h>
#include <stdio.h>
#include <stdlib.h>
#include <string.h>
#include <sys/stat.h>
#include <sys/wait.h>
#include <unistd.h>

#define NAME "note"
#define SAVED "saved" /* what stood under NAME when the folder was synced last */
#define KEYS "keys"   /* what the panel reads and prints */
#define OUT "printed"
#define CUT_OFF 99
#define NEVER 1000

/* What is kept, one after the other; the last is nothing. */
static struct version {
    int there;
    size_t size;
    uint8_t bytes[1000];
} versions[4];
#define VERSIONS 4

int panel_main(int count, char **words);

static struct version printed; /* by the panel, when no power goes */
static unsigned long cuts, failures, faults;
static int quiet; /* while it tries itself */

static void fault(const char *what, const char *where, int at)
{
    faults++;
    if (!quiet)
        printf("%s (%s, call %d)\n", what, where, at);
}

/* ---- the disk */

enum loss { NOTHING_LOST, BYTES_LOST, NAMES_LOST, LOSSES };
enum forgotten { NOTHING_FORGOTTEN, FILE_SYNC, FOLDER_SYNC, FILE_BESIDE, FORGOTTEN };

static struct {
    int calls, cut, fail; /* how many calls there were; the one at which the power goes; the one that fails */
    enum loss loss;
    enum forgotten forgotten;
    int written, held; /* the file that is being written, and a second number for it, which stays open */
    int unsynced_bytes, unsynced_names, was_there;
} disk;

int __real_open(const char *name, int flags, ...);
ssize_t __real_write(int file, const void *bytes, size_t size);
int __real_fsync(int file);
int __real_close(int file);
int __real_rename(const char *from, const char *to);
int __real_unlink(const char *name);

static void lose(void)
{
    struct stat at;
    if (disk.loss == BYTES_LOST && disk.unsynced_bytes && fstat(disk.held, &at) == 0 && ftruncate(disk.held, at.st_size / 2) != 0)
        _exit(1);
    if (disk.loss == NAMES_LOST && disk.unsynced_names) {
        __real_unlink(NAME);
        if (disk.was_there && __real_rename(SAVED, NAME) != 0)
            _exit(1);
    }
}

static void end(int status)
{
    lose();
    _exit(status);
}

/* Is this the call that fails? If it is the one at which the power goes, it does not return. */
static int fails(void)
{
    disk.calls++;
    if (disk.calls == disk.cut)
        end(CUT_OFF);
    errno = EIO;
    return disk.calls == disk.fail;
}

int __wrap_open(const char *name, int flags, ...)
{
    int mode = 0, file;
    va_list rest;
    if (flags & O_CREAT) {
        va_start(rest, flags);
        mode = va_arg(rest, int);
        va_end(rest);
        if (disk.forgotten == FILE_BESIDE)
            name = NAME;
    }
    if (fails())
        return -1;
    file = __real_open(name, flags, mode);
    if (file >= 0 && flags & O_CREAT) {
        disk.written = file;
        disk.held = dup(file);
        disk.unsynced_bytes = 1;
    }
    return file;
}

ssize_t __wrap_write(int file, const void *bytes, size_t size)
{
    size_t most = size < 10 ? size : 10; /* a disk may take less than it is given */
    disk.unsynced_bytes = 1;
    if (disk.calls + 1 == disk.cut)
        __real_write(file, bytes, most / 2);
    return fails() ? -1 : __real_write(file, bytes, most);
}

int __wrap_fsync(int file)
{
    struct stat at;
    if (fails() || fstat(file, &at) != 0)
        return -1;
    if (file == disk.written && !S_ISDIR(at.st_mode) && disk.forgotten != FILE_SYNC)
        disk.unsynced_bytes = 0;
    if (S_ISDIR(at.st_mode) && disk.forgotten != FOLDER_SYNC)
        disk.unsynced_names = 0;
    return 0; /* the disk is this process: a true sync would show nothing more, and take its time */
}

int __wrap_close(int file)
{
    int failed = fails();
    if (file == disk.written)
        disk.written = -1;
    return __real_close(file) != 0 || failed ? -1 : 0;
}

/* A name is about to change. */
static void save_names(void)
{
    if (disk.unsynced_names)
        return;
    __real_unlink(SAVED);
    disk.was_there = link(NAME, SAVED) == 0;
    disk.unsynced_names = 1;
}

int __wrap_rename(const char *from, const char *to)
{
    if (fails())
        return -1;
    if (disk.forgotten == FILE_BESIDE)
        return 0;
    save_names();
    return __real_rename(from, to);
}

int __wrap_unlink(const char *name)
{
    if (fails())
        return -1;
    if (strcmp(name, NAME) == 0)
        save_names();
    return __real_unlink(name);
}

/* ---- what stands there */

static struct version found(const char *name)
{
    struct version it = {0, 0, {0}};
    FILE *file = fopen(name, "rb");
    if (file == NULL)
        return it;
    it.there = 1;
    it.size = fread(it.bytes, 1, sizeof it.bytes, file);
    fclose(file);
    return it;
}

static int same(struct version one, struct version other)
{
    return one.there == other.there && one.size == other.size && memcmp(one.bytes, other.bytes, one.size) == 0;
}

static int has(const char *name, int version)
{
    return same(found(name), versions[version]);
}

static int version_there(void)
{
    int i;
    for (i = 0; i < VERSIONS; i++)
        if (has(NAME, i))
            return i;
    return -1;
}

static struct version spelt(const char *text)
{
    struct version it = {1, 0, {0}};
    it.size = strlen(text);
    memcpy(it.bytes, text, it.size);
    return it;
}

static void put(const char *name, struct version it)
{
    FILE *file = fopen(name, "wb");
    if (file == NULL || fwrite(it.bytes, 1, it.size, file) != it.size || fclose(file) != 0) {
        perror(name);
        exit(2);
    }
}

/* The disk before the calls: the first version, and what an earlier cut has left beside it. */
static void prepare(void)
{
    __real_unlink(SAVED);
    __real_unlink(NAME ".refused");
    put(NAME, versions[0]);
    put(NAME ".new", spelt("left by a cut, and longer than anything that comes after it, be it a text or a note in its file"));
}

static int keep_version(int i)
{
    return versions[i].there ? keep_write(NAME, versions[i].bytes, versions[i].size) : keep_remove(NAME);
}

/* Runs the part in a process of its own, on a disk of this kind, and gives its status. */
static int on_disk(void (*part)(void), int cut, int fail, enum loss loss, enum forgotten forgotten)
{
    int status;
    pid_t child;
    prepare();
    fflush(stdout);
    child = fork();
    if (child == 0) {
        disk.calls = 0, disk.cut = cut, disk.fail = fail, disk.loss = loss, disk.forgotten = forgotten, disk.written = -1;
        part();
        end(0);
    }
    if (child < 0 || waitpid(child, &status, 0) != child || !WIFEXITED(status)) {
        perror("a process");
        exit(2);
    }
    return WEXITSTATUS(status);
}

/* ---- the power goes at each call */

static void keep_all(void)
{
    int i;
    for (i = 1; i < VERSIONS; i++)
        if (keep_version(i) != 0)
            end(1);
}

/* From the first version to the last, and never back; each is there once. */
static void cut_at_each(void (*part)(void), enum loss loss, enum forgotten forgotten)
{
    static const char *const where[] = {"nothing is lost", "bytes are lost", "names are lost"};
    int at, version, last = 0, status = CUT_OFF;
    for (at = 1; status == CUT_OFF; at++, cuts++) {
        status = on_disk(part, at, NEVER, loss, forgotten);
        version = version_there();
        if (version < 0)
            fault("what is kept is neither the old nor the new", where[loss], at);
        else if (version < last || version > last + 1)
            fault("what was kept is lost again", where[loss], at);
        if (part != keep_all && version == VERSIONS - 1 && !same(found(OUT), printed))
            fault("the note goes before its line is printed", where[loss], at);
        last = version < 0 ? last : version;
    }
    if (status != 0 || last != VERSIONS - 1)
        fault("what was kept last is not there after all", where[loss], at);
}

static void cut_keeping(enum forgotten forgotten)
{
    int loss;
    versions[0] = spelt("the old one"); /* they differ in length both ways */
    versions[1] = spelt("the new one, which is longer");
    versions[2] = spelt("the last");
    versions[3].there = 0, versions[3].size = 0;
    for (loss = 0; loss < LOSSES; loss++)
        cut_at_each(keep_all, (enum loss)loss, forgotten);
}

static void put_aside(void)
{
    if (keep_aside(NAME) != 0)
        end(1);
}

static void cut_aside(enum loss loss)
{
    int at, status = CUT_OFF;
    for (at = 1; status == CUT_OFF; at++, cuts++) {
        status = on_disk(put_aside, at, NEVER, loss, NOTHING_FORGOTTEN);
        if (!has(NAME, 0) && !(!found(NAME).there && has(NAME ".refused", 0)))
            fault("what is put aside is under neither name", "putting aside", at);
    }
    if (status != 0 || found(NAME).there)
        fault("what was put aside is back", "putting aside", at);
}

/* ---- the panel's note */

/* The panel, on the keys that are in KEYS. */
static void type_note(void)
{
    static char name[] = "panel", method[] = "vni", draft[] = "draft=" NAME;
    char *words[] = {name, method, draft, NULL};
    if (freopen(KEYS, "rb", stdin) == NULL || freopen(OUT, "wb", stdout) == NULL || panel_main(3, words) != 0)
        end(1);
}

static void type_keys(const char *keys)
{
    put(KEYS, spelt(keys));
    if (on_disk(type_note, NEVER, NEVER, NOTHING_LOST, NOTHING_FORGOTTEN) != 0)
        fault("the panel fails", keys, 0);
}

/* A note is taken up, two keys are typed, and the line is ended. */
static void cut_typing(struct version left, const char *keys, const char *expected)
{
    char first[3] = "";
    int loss;
    versions[0] = left;
    first[0] = keys[0];
    type_keys(first);
    versions[1] = found(NAME);
    first[1] = keys[1];
    type_keys(first);
    versions[2] = found(NAME);
    type_keys(keys);
    printed = found(OUT);
    if (!same(printed, spelt(expected)) || found(NAME).there)
        fault("the note is not taken up", "typing", 0);
    for (loss = 0; loss < LOSSES; loss++)
        cut_at_each(type_note, (enum loss)loss, NOTHING_FORGOTTEN);
}

static void cut_notes(void)
{
    static const struct version left = {1, 38,
        "phân 2 \n" "\1\0\1\1" "\2\0\1\0" "\3\0\16" "\0\0\0b\0\0\0" "\0\0\0o\0\0\0" "\4\0\1\0"};
    struct version full = {1, 12, "\n" "\1\0\1\1" "\2\0\1\0" "\3\2\222"}; /* a word of 94 letters: 658 bytes of cells */
    char expected[400], word[PASDRONGEL_CELLS + 1] = "";
    int i;
    cut_typing(left, "1n\n", "> phân 2 bo\nbón\tyes\tbong\n= phân 2 bón\n");
    for (i = 0; i < PASDRONGEL_CELLS - 2; i++, full.size += 7)
        memcpy(full.bytes + full.size, "\0\0\0b\0\0", 7);
    memcpy(full.bytes + full.size, "\4\0\1", 4);
    full.size += 4;
    memset(word, 'b', PASDRONGEL_CELLS);
    snprintf(expected, sizeof expected, "> %.94s\n%s\tno word\t\n= %s\n", word, word, word);
    cut_typing(full, "bb\n", expected);
}

/* ---- each call fails */

/* What failed has left the old or the new, nothing beside it, and can be tried again. */
static void keep_all_the_same(void)
{
    int i, seen = 0;
    for (i = 1; i < VERSIONS; i++)
        if (keep_version(i) != 0) {
            if (errno != EIO || !(has(NAME, i - 1) || has(NAME, i)) || found(NAME ".new").there)
                _exit(1);
            if (keep_version(i) != 0 || !has(NAME, i))
                _exit(2);
            seen++;
        }
    if (seen > 1 || (seen == 0) != (disk.calls < disk.fail))
        _exit(3); /* told twice, or not at all */
    _exit(seen == 0 ? 0 : CUT_OFF);
}

static void fail_keeping(void)
{
    int at, status = CUT_OFF;
    for (at = 1; status == CUT_OFF; at++, failures++)
        status = on_disk(keep_all_the_same, NEVER, at, NOTHING_LOST, NOTHING_FORGOTTEN);
    if (status != 0)
        fault("a failed call is not told, or leaves something else", "failing", at - 1);
}

/* ---- the rest of keep.h */

static void others(void)
{
    uint8_t bytes[100];
    char long_name[2000];
    size_t size = 0;
    memset(long_name, 'n', sizeof long_name);
    long_name[sizeof long_name - 1] = '\0';
    prepare();
    if (keep_read(NAME, bytes, sizeof bytes, &size) != 0 || size != versions[0].size || memcmp(bytes, versions[0].bytes, size) != 0)
        fault("what is kept is not read", "reading", 0);
    if (keep_read("./" NAME, bytes, 3, &size) != 0 || size != 3)
        fault("a part is not read where there is room for no more", "reading", 0);
    if (keep_remove("./" NAME) != 0 || keep_remove(NAME) != 0)
        fault("nothing is not removed", "removing", 0);
    if (keep_read(NAME, bytes, sizeof bytes, &size) != -1 || errno != ENOENT)
        fault("nothing is read", "reading", 0);
    if (keep_aside(NAME) != -1 || errno != ENOENT)
        fault("nothing is put aside", "putting aside", 0);
    if (keep_write(NAME, bytes, 0) != 0 || keep_read(NAME, bytes, sizeof bytes, &size) != 0 || size != 0)
        fault("an empty file is not kept", "keeping", 0);
    if (keep_read(".", bytes, sizeof bytes, &size) != -1)
        fault("a folder is read", "reading", 0);
    if (keep_write(long_name, bytes, 1) != -1 || errno != ENAMETOOLONG || keep_aside(long_name) != -1 || errno != ENAMETOOLONG)
        fault("a name that is too long is cut", "keeping", 0);
}

int main(int count, char **words)
{
    int i;
    if (count != 2 || chdir(words[1]) != 0) {
        fputs("usage: keep FOLDER\n", stderr);
        return 2;
    }
    disk.cut = disk.fail = NEVER;
    for (i = 1, quiet = 1; i < FORGOTTEN; i++) {
        faults = 0;
        cut_keeping((enum forgotten)i);
        if (faults == 0) {
            printf("tests/keep.c does not find what is forgotten on disk %d\n", i);
            return 1;
        }
    }
    quiet = 0, faults = 0, cuts = 0;
    cut_keeping(NOTHING_FORGOTTEN);
    for (i = 0; i < LOSSES; i++)
        cut_aside((enum loss)i);
    fail_keeping();
    others();
    cut_notes();
    printf("%lu power cuts and %lu failed calls, %lu do not hold\n", cuts, failures, faults);
    return faults != 0;
}
