/* keep.h: a file that is replaced whole, for what must outlive a power cut. At every moment the bytes that were kept last stand
 * there, or those that are being kept, and never a part of them. One program keeps a file at a time.
 *
 * Each call returns 0 when it is done, else -1, and errno says why. After keep_write has failed what was kept before stands
 * there, or what is new, whole; so a host may go on and try again at the next key. */
#ifndef KEEP_H
#define KEEP_H

#include <stddef.h>
#include <stdint.h>

/* Keeps `size` bytes under the name, in place of what was. */
int keep_write(const char *name, const uint8_t *bytes, size_t size);

/* Reads what is kept, at most `room` bytes of it, and its size to `*size`. errno is ENOENT where nothing is kept. */
int keep_read(const char *name, uint8_t *bytes, size_t room, size_t *size);

/* Removes what is kept; it is no failure if nothing is. */
int keep_remove(const char *name);

/* Gives what is kept the name NAME.refused, so that the next keep_write does not replace it. */
int keep_aside(const char *name);

#endif
