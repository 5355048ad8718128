/* SPDX-License-Identifier: BSD-3-Clause */
// What the definitions say of parts of tables: which are sound, what is wrong with the others first, where walks end,
// and which word wins. It shares no code with the crates.
#pragma once
#include <stdbool.h>
#include <stddef.h>
#include <stdint.h>

enum { CATEGORIES = 16, LONGEST_KEY = 505, MOST_TRIES = 8, MOST_ROWS = 8, ROOM = 8192 };
enum { FULL = 0, SINGLE = 1, QUAD = 3, MATCH = 4 };
enum { SOUND, SHAPE, ROOT, WORD, ANSWERS };

static const uint64_t MOST_WORDS = 67108864;

typedef unsigned __int128 groups;

struct level {
    uint64_t from, len;
};

struct parts {
    uint32_t key_len, rules;
    size_t kepts, roots, lens, words, rows;
    groups kept[MOST_TRIES + 3];
    uint64_t root[MOST_TRIES + 3];
    uint32_t len[ROOM];
    uint64_t word[ROOM];
    uint64_t row[MOST_ROWS][CATEGORIES];
};

struct fault {
    uint32_t kind, place;
};

// Words and levels.

static uint64_t word_of(uint64_t boundaries, uint64_t kind, uint64_t index)
{
    return boundaries << 32 | kind << 29 | (index & 0x1FFFFFFF);
}

static uint64_t index_of(uint64_t word)
{
    return word % (1 << 29);
}

static unsigned kind_of(uint64_t word)
{
    return word / (1 << 29) % 8;
}

static uint64_t node_len(unsigned kind)
{
    return kind == FULL ? 256 : kind == QUAD ? 5 : 1;
}

static bool leads_into(struct level level, uint64_t word)
{
    unsigned kind = kind_of(word);
    bool is_node = kind == QUAD || ((kind == FULL || kind == SINGLE) && word >> 32 == 0);
    return is_node && index_of(word) >= level.from && index_of(word) + node_len(kind) <= level.from + level.len;
}

static bool is_kept(groups kept, uint32_t place)
{
    return kept >> (place + 3) / 4 & 1;
}

static uint32_t depth_of(uint32_t key_len, groups kept)
{
    uint32_t depth = 0;
    for (uint32_t place = 0; place < key_len; place++)
        depth += is_kept(kept, place);
    return depth;
}

// The definition of sound parts.

static bool is_shaped(const struct parts *parts)
{
    if (parts->kepts != parts->roots || parts->roots > MOST_TRIES)
        return false;
    if (parts->key_len % 4 != 1 || parts->key_len > LONGEST_KEY)
        return false;
    uint64_t depths = 0, words = 0;
    for (size_t trie = 0; trie < parts->kepts; trie++) {
        groups kept = parts->kept[trie];
        if (kept == 0 || kept >> (1 + (parts->key_len - 1) / 4) != 0)
            return false;
        depths += depth_of(parts->key_len, kept);
    }
    for (size_t i = 0; i < parts->lens; i++)
        words += parts->len[i];
    if (parts->lens != depths || parts->words != words || parts->rows == 0)
        return false;
    for (unsigned category = 0; category < CATEGORIES; category++)
        if (parts->row[0][category] != 0)
            return false;
    return parts->words + CATEGORIES * parts->rows <= MOST_WORDS;
}

static bool is_sound_word(const struct parts *parts, struct level next, uint64_t word)
{
    if (kind_of(word) == MATCH)
        return word >> 32 == 0 && index_of(word) < parts->rows;
    return leads_into(next, word);
}

// The levels of all tries in order, after those of each trie one without words.
static size_t levels_of(const struct parts *parts, struct level *levels, size_t *firsts)
{
    size_t count = 0, lens = 0;
    uint64_t from = 0;
    for (size_t trie = 0; trie < parts->kepts; trie++) {
        firsts[trie] = count;
        for (uint32_t depth = depth_of(parts->key_len, parts->kept[trie]); depth > 0; depth--) {
            levels[count++] = (struct level){from, parts->len[lens]};
            from += parts->len[lens++];
        }
        levels[count++] = (struct level){0, 0};
    }
    return count;
}

static struct fault fault_of(const struct parts *parts)
{
    static struct level levels[ROOM + MOST_TRIES];
    size_t firsts[MOST_TRIES];
    if (!is_shaped(parts))
        return (struct fault){SHAPE, 0};
    size_t count = levels_of(parts, levels, firsts);
    for (size_t trie = 0; trie < parts->roots; trie++)
        if (!leads_into(levels[firsts[trie]], parts->root[trie]))
            return (struct fault){ROOT, trie};
    for (size_t place = 0; place < parts->words; place++)
        for (size_t i = 0; i + 1 < count; i++) {
            bool is_here = levels[i].from <= place && place - levels[i].from < levels[i].len;
            if (is_here && !is_sound_word(parts, levels[i + 1], parts->word[place]))
                return (struct fault){WORD, place};
        }
    return (struct fault){SOUND, 0};
}

// Walks and verdicts.

static uint64_t next_place(uint64_t word, uint8_t byte)
{
    unsigned boundaries = 0;
    for (unsigned shift = 32; shift < 64; shift += 8)
        boundaries += (word >> shift) % 256 < byte;
    unsigned kind = kind_of(word);
    return index_of(word) + (kind == FULL ? byte : kind == QUAD ? boundaries : 0);
}

static uint32_t walk(const struct parts *parts, size_t trie, const uint8_t *key, uint32_t *row)
{
    uint32_t taken = 0;
    uint64_t word = parts->root[trie];
    for (uint32_t place = 0; place < parts->key_len && kind_of(word) != MATCH; place++)
        if (is_kept(parts->kept[trie], place)) {
            word = parts->word[next_place(word, key[place])];
            taken++;
        }
    *row = index_of(word);
    return taken;
}

static uint64_t joined(const struct parts *parts, const uint8_t *key, unsigned category)
{
    uint64_t greatest = 0;
    for (size_t trie = 0; trie < parts->roots; trie++) {
        uint32_t row;
        walk(parts, trie, key, &row);
        if (parts->row[row][category] > greatest)
            greatest = parts->row[row][category];
    }
    return greatest;
}
