/* keep.c: see keep.h. The way of POSIX: a new file beside the old one, its bytes brought to the disk, then its name changed to
 * the old one's, which happens whole or not at all, and the folder brought to the disk, in which the name stands.
 *
 * Without the first fsync a disk may have the new name before the new bytes; without the second the old file may come back
 * after keep_write was done. A file NAME.new that a power cut has left is nobody's: it is never read, and the next keep_write
 * writes over it. */
#define _POSIX_C_SOURCE 200809L
#include "keep.h"

#include <errno.h>
#include <fcntl.h>
#include <stdio.h>
#include <string.h>
#include <unistd.h>

#define NAME_ROOM 1024

/* The name with something after it. */
static int extend(char *extended, const char *name, const char *by)
{
    int length = snprintf(extended, NAME_ROOM, "%s%s", name, by);
    if (length >= 0 && length < NAME_ROOM)
        return 0;
    errno = ENAMETOOLONG;
    return -1;
}

/* Brings the folder of the name to the disk. */
static int sync_folder(const char *name)
{
    char folder[NAME_ROOM];
    char *slash;
    int opened, failed;
    if (extend(folder, name, "") != 0)
        return -1;
    slash = strrchr(folder, '/');
    if (slash == NULL)
        strcpy(folder, ".");
    else
        slash[1] = '\0';
    opened = open(folder, O_RDONLY);
    if (opened < 0)
        return -1;
    failed = fsync(opened);
    return close(opened) != 0 || failed != 0 ? -1 : 0;
}

/* A write may take a part of the bytes; the rest is offered again. */
static int write_all(int file, const uint8_t *bytes, size_t size)
{
    while (size > 0) {
        ssize_t taken = write(file, bytes, size);
        if (taken < 0)
            return -1;
        bytes += taken;
        size -= (size_t)taken;
    }
    return 0;
}

static int write_new(const char *name, const uint8_t *bytes, size_t size)
{
    int file = open(name, O_WRONLY | O_CREAT | O_TRUNC, 0666), failed;
    if (file < 0)
        return -1;
    failed = write_all(file, bytes, size) != 0 || fsync(file) != 0;
    return close(file) != 0 || failed ? -1 : 0;
}

int keep_write(const char *name, const uint8_t *bytes, size_t size)
{
    char beside[NAME_ROOM];
    int why;
    if (extend(beside, name, ".new") != 0)
        return -1;
    if (write_new(beside, bytes, size) == 0 && rename(beside, name) == 0)
        return sync_folder(name);
    why = errno;
    unlink(beside);
    errno = why;
    return -1;
}

int keep_read(const char *name, uint8_t *bytes, size_t room, size_t *size)
{
    int file = open(name, O_RDONLY);
    ssize_t given = 1;
    if (file < 0)
        return -1;
    for (*size = 0; given > 0 && *size < room;) {
        given = read(file, bytes + *size, room - *size);
        if (given > 0)
            *size += (size_t)given;
    }
    return close(file) != 0 || given < 0 ? -1 : 0;
}

int keep_remove(const char *name)
{
    if (unlink(name) != 0 && errno != ENOENT)
        return -1;
    return sync_folder(name);
}

int keep_aside(const char *name)
{
    char aside[NAME_ROOM];
    if (extend(aside, name, ".refused") != 0 || rename(name, aside) != 0)
        return -1;
    return sync_folder(name);
}
