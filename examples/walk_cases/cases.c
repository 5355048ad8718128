/* SPDX-License-Identifier: BSD-3-Clause */
// Random parts of tables, some sound and some damaged, and whether the answers to them are those of the definitions.
//
//     cases make COUNT SEED > CASES          so many cases, as numbers of eight bytes, low byte first
//     cases compare COUNT SEED < ANSWERS     compares the answers to these cases, as numbers of four bytes
//
// It prints how many cases there were of each damage and answer. At the first difference it names the case and ends
// with code 1.
#include "definitions.h"
#include <stdio.h>
#include <stdlib.h>
#include <string.h>

enum { MOST_KEYS = 9 };

static const char *const ANSWER_NAMES[ANSWERS] = {"accepted", "shape", "root", "word"};

struct test {
    struct parts parts;
    size_t keys;
    uint8_t key[MOST_KEYS][LONGEST_KEY];
    unsigned damages[2];
};

// Random numbers, after Vigna's SplitMix64.

static uint64_t state;

static uint64_t number(void)
{
    uint64_t mixed = state += 0x9E3779B97F4A7C15;
    mixed = (mixed ^ mixed >> 30) * 0xBF58476D1CE4E5B9;
    mixed = (mixed ^ mixed >> 27) * 0x94D049BB133111EB;
    return mixed ^ mixed >> 31;
}

static uint64_t below(uint64_t limit)
{
    return number() % limit;
}

static bool happens(unsigned percent)
{
    return below(100) < percent;
}

static uint64_t of_some_length(void)
{
    uint64_t bits = number();
    return bits >> below(64);
}

// Random cases. A sound table first.

static struct level some_level(struct parts *parts, bool is_empty)
{
    static const uint32_t LENGTHS[] = {1, 1, 1, 2, 5, 5, 6, 7, 10};
    uint32_t len = LENGTHS[below(sizeof LENGTHS / sizeof *LENGTHS)];
    if (is_empty)
        len = 0;
    else if (parts->words < 1024 && happens(3))
        len = 256 + below(3);
    struct level level = {parts->words, len};
    parts->len[parts->lens++] = len;
    parts->words += len;
    return level;
}

// A node that lies whole in the level, at one of its ends more often than between.
static uint64_t some_node(struct level level)
{
    unsigned kind = level.len >= 256 && happens(60) ? FULL : level.len >= 5 && happens(60) ? QUAD : SINGLE;
    uint64_t spare = level.len - node_len(kind);
    uint64_t offset = happens(30) ? 0 : happens(40) ? spare : below(spare + 1);
    uint64_t boundaries = kind == QUAD ? (happens(50) ? number() >> 32 : below(8) * 0x20406080) & 0xFFFFFFFF : 0;
    return word_of(boundaries, kind, level.from + offset);
}

static uint64_t some_match(const struct parts *parts)
{
    return word_of(0, MATCH, happens(30) ? parts->rows - 1 : below(parts->rows));
}

static void add_trie(struct parts *parts)
{
    struct level levels[LONGEST_KEY + 1];
    uint32_t group_count = 1 + (parts->key_len - 1) / 4;
    groups kept = (groups)1 << below(group_count);
    for (unsigned more = below(3); more > 0; more--)
        kept |= (groups)1 << (happens(30) ? group_count - 1 : below(group_count));
    uint32_t depth = depth_of(parts->key_len, kept);
    uint32_t ended = happens(20) ? 1 + below(depth) : depth;
    for (uint32_t i = 0; i < depth; i++)
        levels[i] = some_level(parts, i >= ended && happens(70));
    for (uint32_t i = 0; i < depth; i++)
        for (uint64_t j = 0; j < levels[i].len; j++) {
            bool ends = i + 1 >= ended || levels[i + 1].len == 0 || happens(25);
            parts->word[levels[i].from + j] = ends ? some_match(parts) : some_node(levels[i + 1]);
        }
    parts->kept[parts->kepts++] = kept;
    parts->root[parts->roots++] = some_node(levels[0]);
}

static void make_sound(struct parts *parts)
{
    static const uint32_t KEY_LENGTHS[] = {1, 5, 5, 9, 13, 13, 13, 37};
    memset(parts, 0, sizeof *parts);
    parts->key_len = happens(1) ? LONGEST_KEY : KEY_LENGTHS[below(sizeof KEY_LENGTHS / sizeof *KEY_LENGTHS)];
    parts->rules = number();
    parts->rows = 1 + below(MOST_ROWS - 1);
    for (size_t row = 1; row < parts->rows; row++)
        for (unsigned category = 0; category < CATEGORIES; category++)
            parts->row[row][category] = happens(30) ? 0 : happens(20) ? below(4) << 32 : of_some_length();
    for (size_t tries = happens(15) ? MOST_TRIES : happens(3) ? 0 : 1 + below(3); tries > 0; tries--)
        add_trie(parts);
}

// Then a damage in one place.

static void damage_kept(struct parts *parts)
{
    size_t trie = below(parts->kepts + 1);
    switch (below(4)) {
    case 0:
        parts->kept[trie] = 0;
        break;
    case 1:
        parts->kept[trie] |= (groups)1 << (1 + (parts->key_len - 1) / 4);
        break;
    case 2:
        parts->kept[trie] ^= (groups)1 << below(128);
        break;
    default:
        parts->kepts = below(MOST_TRIES + 2);
    }
}

static void damage_len(struct parts *parts)
{
    size_t i = below(parts->lens + 1);
    parts->len[i] += happens(50) ? 1 : -1;
}

// The sum stays, and a word goes to the level beside.
static void move_word(struct parts *parts)
{
    size_t i = below(parts->lens + 1), j = happens(50) ? i + 1 : below(parts->lens + 1);
    if (parts->len[i] > 0) {
        parts->len[i]--;
        parts->len[j]++;
    }
}

static void damage_lens(struct parts *parts)
{
    parts->lens += happens(50) || parts->lens == 0 ? 1 : -1;
}

static void damage_size(struct parts *parts)
{
    parts->words += happens(50) || parts->words == 0 ? 1 : -1;
}

static void shift_index(uint64_t *word)
{
    *word = word_of(*word >> 32, kind_of(*word), index_of(*word) + (happens(50) ? 1 : -1));
}

static void damage_kind(uint64_t *word)
{
    *word = word_of(*word >> 32, below(8), index_of(*word));
}

static void damage_boundaries(uint64_t *word)
{
    *word ^= (uint64_t)1 << (32 + below(32));
}

static void damage_word(struct parts *parts)
{
    uint64_t *word = &parts->word[below(parts->words + 1)];
    *word = happens(50) ? *word ^ (uint64_t)1 << below(64) : of_some_length();
}

// A node that begins one before a level of the table, or that ends one past it.
static void lead_beside_level(struct parts *parts)
{
    static const unsigned KINDS[] = {FULL, SINGLE, QUAD};
    uint64_t *word = happens(20) ? &parts->root[below(parts->roots + 1)] : &parts->word[below(parts->words + 1)];
    uint64_t from = 0;
    size_t count = below(parts->lens + 1);
    for (size_t i = 0; i < count; i++)
        from += parts->len[i];
    unsigned kind = KINDS[below(3)];
    uint64_t past = from + parts->len[count] - node_len(kind) + 1;
    *word = word_of(0, kind, happens(50) ? from - 1 : past);
}

static void damage_row(struct parts *parts)
{
    uint64_t *word = &parts->word[below(parts->words + 1)];
    *word = word_of(0, MATCH, parts->rows + (happens(60) ? 0 : below(1 << 28)));
}

static void damage_row_0(struct parts *parts)
{
    unsigned category = below(CATEGORIES);
    parts->row[0][category] = happens(50) ? 1 : number();
}

static void damage_rows(struct parts *parts)
{
    parts->rows = happens(80) && parts->rows > 0 ? parts->rows - 1 : 0;
}

static void damage_key_len(struct parts *parts)
{
    static const uint32_t KEY_LENGTHS[] = {0, 1, 3, 5, 501, 505, 506, 509, 0xFFFFFFFD};
    uint32_t given = parts->key_len;
    parts->key_len = happens(40)   ? KEY_LENGTHS[below(sizeof KEY_LENGTHS / sizeof *KEY_LENGTHS)]
                     : happens(50) ? given + (happens(50) ? 4 : -4)
                                   : given + (happens(50) ? 1 : -1);
}

static void damage_roots(struct parts *parts)
{
    parts->roots = below(MOST_TRIES + 2);
}

// More tries than there may be, each of them sound.
static void nine_tries(struct parts *parts)
{
    bool fits = parts->kepts == parts->roots && parts->key_len > 0 && parts->key_len <= LONGEST_KEY && parts->rows > 0;
    while (fits && parts->roots <= MOST_TRIES)
        add_trie(parts);
}

// A trie that keeps nothing, and so has no level.
static void keep_nothing(struct parts *parts)
{
    parts->kept[parts->kepts++] = 0;
    parts->root[parts->roots++] = word_of(0, SINGLE, parts->words);
}

static void damage_index(struct parts *parts)
{
    shift_index(&parts->word[below(parts->words + 1)]);
}

static void damage_root_index(struct parts *parts)
{
    shift_index(&parts->root[below(parts->roots + 1)]);
}

static void damage_word_kind(struct parts *parts)
{
    damage_kind(&parts->word[below(parts->words + 1)]);
}

static void damage_root_kind(struct parts *parts)
{
    damage_kind(&parts->root[below(parts->roots + 1)]);
}

static void damage_word_boundaries(struct parts *parts)
{
    damage_boundaries(&parts->word[below(parts->words + 1)]);
}

static void damage_root_boundaries(struct parts *parts)
{
    damage_boundaries(&parts->root[below(parts->roots + 1)]);
}

static const struct {
    const char *name;
    void (*damage)(struct parts *);
} DAMAGES[] = {
    {"nothing", NULL},
    {"kept words", damage_kept},
    {"a level's length", damage_len},
    {"a word in another level", move_word},
    {"how many lengths", damage_lens},
    {"how many words", damage_size},
    {"a word's index by one", damage_index},
    {"a word's kind", damage_word_kind},
    {"a word's boundaries", damage_word_boundaries},
    {"a word's bits", damage_word},
    {"a node beside a level", lead_beside_level},
    {"a row's number", damage_row},
    {"row 0", damage_row_0},
    {"how many rows", damage_rows},
    {"the key's length", damage_key_len},
    {"how many roots", damage_roots},
    {"a root's index by one", damage_root_index},
    {"a root's kind", damage_root_kind},
    {"a root's boundaries", damage_root_boundaries},
    {"nine tries", nine_tries},
    {"a trie of no group", keep_nothing},
};
enum { DAMAGE_COUNT = sizeof DAMAGES / sizeof *DAMAGES };

static uint8_t some_byte(const struct parts *parts)
{
    uint64_t boundaries = parts->word[below(parts->words + 1)] >> 32;
    uint8_t boundary = boundaries >> below(4) * 8;
    return happens(30) ? number() : boundary + below(3) - 1;
}

static void make_test(struct test *test)
{
    struct parts *parts = &test->parts;
    make_sound(parts);
    test->damages[0] = happens(40) ? 0 : 1 + below(DAMAGE_COUNT - 1);
    test->damages[1] = test->damages[0] == 0 || happens(80) ? 0 : 1 + below(DAMAGE_COUNT - 1);
    for (unsigned i = 0; i < 2; i++)
        if (test->damages[i] != 0)
            DAMAGES[test->damages[i]].damage(parts);
    test->keys = parts->key_len <= LONGEST_KEY ? below(MOST_KEYS + 1) : 0;
    for (size_t k = 0; k < test->keys; k++)
        for (uint32_t place = 0; place < parts->key_len; place++)
            test->key[k][place] = some_byte(parts);
}

// Writing the cases and comparing the answers.

static void put(uint64_t number)
{
    for (unsigned i = 0; i < 8; i++)
        putchar_unlocked(number >> 8 * i & 0xFF);
}

static void put_test(const struct test *test)
{
    const struct parts *parts = &test->parts;
    put(parts->key_len), put(parts->rules), put(parts->kepts);
    for (size_t i = 0; i < parts->kepts; i++)
        put(parts->kept[i]), put(parts->kept[i] >> 64);
    put(parts->roots);
    for (size_t i = 0; i < parts->roots; i++)
        put(parts->root[i]);
    put(parts->lens);
    for (size_t i = 0; i < parts->lens; i++)
        put(parts->len[i]);
    put(parts->words);
    for (size_t i = 0; i < parts->words; i++)
        put(parts->word[i]);
    put(parts->rows);
    for (size_t i = 0; i < CATEGORIES * parts->rows; i++)
        put(parts->row[i / CATEGORIES][i % CATEGORIES]);
    put(test->keys * parts->key_len);
    for (size_t k = 0; k < test->keys; k++)
        for (uint32_t place = 0; place < parts->key_len; place++)
            put(test->key[k][place]);
}

static bool is_next(uint64_t expected)
{
    bool is_same = true;
    for (unsigned i = 0; i < 4; i++)
        is_same &= getchar_unlocked() == (int)(expected >> 8 * i & 0xFF);
    return is_same;
}

static bool are_walks_next(const struct parts *parts, const uint8_t *key)
{
    for (size_t trie = 0; trie < parts->roots; trie++) {
        uint32_t row, taken = walk(parts, trie, key, &row);
        if (!is_next(row) || !is_next(taken))
            return false;
    }
    for (unsigned category = 0; category < CATEGORIES; category++)
        if (!is_next(joined(parts, key, category) != 0))
            return false;
    return true;
}

static bool are_verdicts_next(const struct test *test, unsigned categories)
{
    const struct parts *parts = &test->parts;
    uint64_t taken = 0;
    uint32_t row;
    for (size_t k = 0; k < test->keys; k++)
        for (size_t trie = 0; trie < parts->roots; trie++)
            taken += walk(parts, trie, test->key[k], &row);
    if (!is_next(taken))
        return false;
    for (size_t k = 0; k < test->keys; k++)
        for (unsigned category = 0; category < categories; category++)
            if (!is_next(joined(parts, test->key[k], category) & 0xFFFFFFFF))
                return false;
    return true;
}

// A refused case is answered by the fault twice: as parts were refused, and once more for the parts that came back.
static bool are_answers_next(const struct test *test, struct fault fault)
{
    if (!is_next(fault.kind))
        return false;
    if (fault.kind != SOUND)
        return is_next(fault.place) && is_next(fault.kind) && is_next(fault.place);
    for (size_t k = 0; k < test->keys; k++)
        if (!are_walks_next(&test->parts, test->key[k]))
            return false;
    return are_verdicts_next(test, 1) && are_verdicts_next(test, CATEGORIES);
}

static void print_counts(uint64_t counts[DAMAGE_COUNT + 1][ANSWERS])
{
    for (unsigned i = 0; i <= DAMAGE_COUNT; i++)
        for (unsigned kind = 0; kind < ANSWERS; kind++)
            if (counts[i][kind] != 0)
                printf("%s: %s\t%llu\n", i < DAMAGE_COUNT ? DAMAGES[i].name : "two of these", ANSWER_NAMES[kind],
                       (unsigned long long)counts[i][kind]);
}

static int compare(uint64_t count)
{
    static struct test test;
    static uint64_t counts[DAMAGE_COUNT + 1][ANSWERS];
    uint64_t walks = 0;
    for (uint64_t i = 0; i < count; i++) {
        make_test(&test);
        struct fault fault = fault_of(&test.parts);
        if (!are_answers_next(&test, fault)) {
            printf("case %llu, damaged: %s, %s: not as the definition says, which is %s %u\n", (unsigned long long)i,
                   DAMAGES[test.damages[0]].name, DAMAGES[test.damages[1]].name, ANSWER_NAMES[fault.kind], fault.place);
            return 1;
        }
        counts[test.damages[1] == 0 ? test.damages[0] : DAMAGE_COUNT][fault.kind]++;
        walks += fault.kind == SOUND ? test.keys * test.parts.roots : 0;
    }
    if (getchar() != EOF) {
        printf("more answers than cases\n");
        return 1;
    }
    print_counts(counts);
    printf("walks\t%llu\n", (unsigned long long)walks);
    return 0;
}

int main(int count, char **words)
{
    static struct test test;
    if (count != 4)
        return 2;
    uint64_t cases = strtoull(words[2], NULL, 10);
    state = strtoull(words[3], NULL, 10);
    if (strcmp(words[1], "compare") == 0)
        return compare(cases);
    put(cases);
    for (uint64_t i = 0; i < cases; i++) {
        make_test(&test);
        put_test(&test);
    }
    return fflush(stdout) != 0;
}
