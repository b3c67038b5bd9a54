/* Files for a program that is tested, numbered in one directory, and beside each the text that the program must print for it, by
   the reference. */
#ifndef SAVED_H
#define SAVED_H

#include <stddef.h>
#include <stdint.h>
#include <stdio.h>

/* Where the files go, what their names end with (the texts' end with .text), and what prints the texts. */
void save_into(const char *directory, const char *ending, void (*print)(const uint8_t *file, size_t len, FILE *out));
void save(const uint8_t *file, size_t len);
unsigned saved(void);

/* The group's record, with which each file begins; its length. */
size_t put_group(uint8_t *at, uint32_t own, uint32_t far, uint32_t count);

/* Saves files that begin with a record of another kind. */
void save_no_groups(void);

/* Groups good and bad. */
enum { GROUPS = 12 };
extern const uint32_t groups[GROUPS][3];

#endif
