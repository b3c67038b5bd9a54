/* A second reading of the rules in plain C, written from the project's documents 01 and 02, that the tests hold the proved archive
   against and the benchmark measures it by.
   It takes the same arguments as the functions of tup.h and gives the same packed answers, but shares no line with them. */
#ifndef REFERENCE_H
#define REFERENCE_H

#include <stddef.h>
#include <stdint.h>
#include <stdio.h>

/* A table: the counter of releases, then for each circuit its state, its flags and its release rank. */
#define REF_COUNTER_OCTETS 8
#define REF_RECORD_OCTETS 10
#define REF_MESSAGE_OCTETS 23

uint64_t ref_step(uint32_t own, uint32_t far, uint8_t *table, size_t table_len, uint32_t cic, uint32_t kind, uint32_t code,
                  uint32_t detail);
uint64_t ref_select(uint32_t own, uint32_t far, const uint8_t *table, size_t table_len);
uint64_t ref_read(uint32_t own, uint32_t far, uint32_t count, const uint8_t *octets, size_t len, uint8_t *out, size_t out_len);
uint32_t ref_write(uint32_t own, uint32_t far, uint32_t count, uint32_t cic, uint32_t heading, uint32_t acm, uint32_t category,
                   uint32_t indicators, const uint8_t *address, size_t address_len, uint8_t *out, size_t out_len);

/* Prints what the program `replay` prints for this trace. */
void ref_replay(const uint8_t *trace, size_t len, FILE *out);

/* Prints what the program `tup-messages` prints for this file of messages. */
void ref_messages(const uint8_t *file, size_t len, FILE *out);

/* Either of them as a program: a file on standard input, its text on standard output. Answers the status to end with. */
int ref_main(void (*print)(const uint8_t *file, size_t len, FILE *out));

#endif
