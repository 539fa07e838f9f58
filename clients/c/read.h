/* What the programs of this folder share: a file in memory, and an end with a sentence. */
#ifndef READ_H
#define READ_H

#include <stddef.h>

#include "mseplay.h"

/* The name of the program, which each program defines. */
extern const char program_name[];

/* Tells why on standard error, and ends the program with the status. */
void stop(const char *why, const char *name, int status);

/* Room for at least one byte, so that its pointer is never null. */
void *room_for(void *old, size_t size);

/* The bytes of a file, which the caller frees. */
struct mseplay_byte_slice contents(const char *name);
void free_contents(struct mseplay_byte_slice bytes);

#endif
