/* Prints the report of a recording through the C functions, as the program `analyse` does.
   usage: check FILE; exit status 0 analysed, 1 refused, 2 not read. */
#include "fennrolka.h"

#include <inttypes.h>
#include <stdint.h>
#include <stdio.h>

#define MOST_BYTES 16384
#define WORK 32768
#define LIST (FENNROLKA_ENTRY_NUMBERS * 8192)

static uint8_t file[MOST_BYTES + 1];
static uint16_t work[WORK];
static uint16_t list[LIST];

static int refused(uint32_t number, uint64_t record)
{
    printf("refused %" PRIu32 " %" PRIu64 "\n", number, record);
    return 1;
}

/* Reads the named file. Answers its length, or more than MOST_BYTES where it is too long or cannot be read. */
static size_t load(const char *name)
{
    size_t length;
    FILE *in = fopen(name, "rb");
    if (in == NULL)
        return MOST_BYTES + 1;
    length = fread(file, 1, sizeof file, in);
    fclose(in);
    return length;
}

/* The line of an entry: its cell, both events, the mark. */
static int print_entry(size_t length, const uint16_t *entry)
{
    uint64_t told[FENNROLKA_EVENT_NUMBERS];
    unsigned lower = entry[FENNROLKA_ENTRY_LOWER], higher = entry[FENNROLKA_ENTRY_HIGHER];
    const char *mark = entry[FENNROLKA_ENTRY_MARK] == FENNROLKA_SURE ? "sure" : "open";
    uint32_t number = fennrolka_event(file, length, lower, told, FENNROLKA_EVENT_NUMBERS);
    if (number != 0)
        return refused(number, told[FENNROLKA_EVENT_RECORD]);
    printf("cell %" PRIu64 " %u %u %s\n", told[FENNROLKA_EVENT_OBJECT], lower, higher, mark);
    return 0;
}

/* Analyses a file of so many events and tasks, and prints the first line and the entries. */
static int analyse(size_t length, uint64_t events, uint64_t tasks)
{
    uint64_t told[FENNROLKA_ANALYSE_NUMBERS], i;
    uint32_t budget = (uint32_t)(events * events + 1);
    uint32_t number = fennrolka_analyse(file, length, budget, work, WORK, list, LIST, told, FENNROLKA_ANALYSE_NUMBERS);
    int status = 0;
    if (number != 0)
        return refused(number, told[FENNROLKA_ANALYSE_RECORD]);
    printf("events %" PRIu64 " tasks %" PRIu64 " passes %" PRIu64, events, tasks, told[FENNROLKA_ANALYSE_PASSES]);
    printf(" settled %s", told[FENNROLKA_ANALYSE_SETTLED] ? "yes" : "no");
    printf(" pairs %" PRIu64 "\n", told[FENNROLKA_ANALYSE_PAIRS]);
    for (i = 0; i < told[FENNROLKA_ANALYSE_PAIRS] && status == 0; i++)
        status = print_entry(length, &list[FENNROLKA_ENTRY_NUMBERS * i]);
    return status;
}

int main(int argc, char **argv)
{
    uint64_t told[FENNROLKA_READ_NUMBERS];
    uint32_t number;
    size_t length;
    if (argc != 2)
        return 2;
    length = load(argv[1]);
    if (length > MOST_BYTES)
        return 2;
    number = fennrolka_read(file, length, told, FENNROLKA_READ_NUMBERS);
    if (number != 0)
        return refused(number, told[FENNROLKA_READ_RECORD]);
    return analyse(length, told[FENNROLKA_READ_EVENTS], told[FENNROLKA_READ_TASKS]);
}
