/* Files for a program that is tested, each with its text, as saved.h says. */
#include "saved.h"
#include "harness.h"

static const char *into, *ends_with;
static void (*print_text)(const uint8_t *, size_t, FILE *);
static unsigned written;

const uint32_t groups[GROUPS][3] = {{2, 1, 2}, {1, 2, 1}, {16383, 0, 4096}, {0, 16383, 4096}, {5, 5, 2}, {16384, 1, 2},
                                    {1, 16384, 2}, {65535, 1, 2}, {2, 1, 0}, {2, 1, 4097}, {2, 1, 65535}, {0, 0, 0}};

void save_into(const char *directory, const char *ending, void (*print)(const uint8_t *file, size_t len, FILE *out))
{
    into = directory, ends_with = ending, print_text = print;
}

static FILE *create(const char *ending)
{
    char path[512];
    snprintf(path, sizeof path, "%s/%04u.%s", into, written, ending);
    FILE *file = fopen(path, "wb");
    if (file == NULL)
        differ("%s cannot be written", path);
    return file;
}

void save(const uint8_t *octets, size_t len)
{
    FILE *file = create(ends_with);
    if (fwrite(octets, 1, len, file) != len || fclose(file) != 0)
        differ("a file cannot be written");
    file = create("text");
    print_text(octets, len, file);
    if (fclose(file) != 0)
        differ("a text cannot be written");
    written++;
}

unsigned saved(void)
{
    return written;
}

size_t put_group(uint8_t *at, uint32_t own, uint32_t far, uint32_t count)
{
    uint32_t fields[] = {own, far, count};
    at[0] = 0;
    for (int i = 0; i < 3; i++) {
        at[1 + 2 * i] = (uint8_t)fields[i];
        at[2 + 2 * i] = (uint8_t)(fields[i] >> 8);
    }
    return 7;
}

void save_no_groups(void)
{
    uint8_t record[7];
    size_t len = put_group(record, 2, 1, 2);
    for (unsigned kind = 1; kind < 8; kind++) {
        record[0] = (uint8_t)kind;
        save(record, len);
    }
}
