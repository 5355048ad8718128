/* SPDX-License-Identifier: BSD-3-Clause */
// A plain walk of one key at a time over the words of a table, and its verdicts: what the proved walks are compared with.
// walk TABLE KEYS CATEGORIES ROUNDS
#include <stdint.h>
#include <stdio.h>
#include <stdlib.h>
#include <string.h>
#include <time.h>

enum { KEY_LEN = 13, MAX_KEYS = 65536, CATEGORIES = 16 };

struct table {
    uint64_t root;
    const uint64_t *words;
    const uint64_t (*rows)[CATEGORIES];
    size_t depths;
    uint16_t places[KEY_LEN];
};

static void *whole_file(const char *name, size_t *size)
{
    FILE *file = fopen(name, "rb");
    if (file == NULL)
        exit(1);
    fseek(file, 0, SEEK_END);
    *size = ftell(file);
    rewind(file);
    void *bytes = malloc(*size);
    if (bytes == NULL || fread(bytes, 1, *size, file) != *size)
        exit(1);
    fclose(file);
    return bytes;
}

static struct table table_of(const uint64_t *numbers)
{
    struct table table = {0};
    uint64_t kept = *numbers++;
    for (unsigned place = 0; place < KEY_LEN; place++)
        if (kept >> (place + 3) / 4 & 1)
            table.places[table.depths++] = place;
    numbers += 1 + *numbers;
    table.root = *numbers++;
    table.words = numbers + 1;
    numbers += 1 + *numbers;
    table.rows = (const void *)(numbers + 1);
    return table;
}

static uint64_t walk(const struct table *table, const uint8_t *key, uint32_t *row)
{
    uint64_t word = table->root;
    for (size_t depth = 0; depth < table->depths; depth++) {
        uint8_t byte = key[table->places[depth]];
        size_t place = word & 0x1FFFFFFF;
        switch (word >> 29 & 7) {
        case 0:
            place += byte;
            break;
        case 3:
            place += ((word >> 32 & 0xFF) < byte) + ((word >> 40 & 0xFF) < byte) + ((word >> 48 & 0xFF) < byte) + ((word >> 56) < byte);
            break;
        }
        word = table->words[place];
        if ((word >> 29 & 7) == 4) {
            *row = word & 0x1FFFFFFF;
            return depth + 1;
        }
    }
    abort();
}

int main(int argc, char **argv)
{
    if (argc != 5)
        return 1;
    size_t size;
    const struct table table = table_of(whole_file(argv[1], &size));
    const uint8_t *keys = whole_file(argv[2], &size);
    size_t count = size / KEY_LEN, categories = atoi(argv[3]);
    static uint32_t verdicts[MAX_KEYS * CATEGORIES];
    uint64_t taken = 0, sum = 0;
    double least = 1e9;
    for (int round = atoi(argv[4]); round > 0; round--) {
        struct timespec begin, end;
        clock_gettime(CLOCK_MONOTONIC, &begin);
        for (size_t k = 0; k < count; k++) {
            uint32_t row;
            taken += walk(&table, keys + k * KEY_LEN, &row);
            for (size_t c = 0; c < categories; c++)
                verdicts[k * categories + c] = table.rows[row][c];
        }
        clock_gettime(CLOCK_MONOTONIC, &end);
        double time = end.tv_sec - begin.tv_sec + (end.tv_nsec - begin.tv_nsec) / 1e9;
        least = time < least ? time : least;
    }
    for (size_t i = 0; i < count * categories; i++)
        sum += verdicts[i];
    printf("taken %llu sum %llu ns %.1f\n", (unsigned long long)taken, (unsigned long long)sum, least / count * 1e9);
}
