/* SPDX-License-Identifier: BSD-3-Clause */
/*
 * aclc.h: a packet classifier in the shape of DPDK's librte_acl.
 *
 * Rules of one layout are added to a context. A build makes a table of them, and keys of bytes are
 * classified by the table: the answer of a key in a category is the userdata of the matching rule
 * of greatest priority, and of several such rules the one that was added first.
 *
 * HANDLES
 *     A context and a table are held by a handle, which is a struct of two words in your memory. A
 *     handle of zeros is empty:
 *
 *         struct aclc_context context = {0};
 *
 *     A call that fills a handle asks for an empty one, and aclc_free and aclc_table_free make it
 *     empty again. Don't copy a handle, and don't read or write what is inside: the copy would lead
 *     to memory that the other has given back.
 *
 * ANSWERS
 *     Each call answers ACLC_OK or why it was refused. A call that is refused changes nothing:
 *     neither what a handle holds nor what a pointer leads to, but for what its comment says.
 *     Where several answers fit, the one that the comment lists first is given; ACLC_NO_MEMORY
 *     comes at any place of the order, as memory runs out.
 *
 * NULL, AND ONE HANDLE TWICE
 *     A pointer that is null is answered by ACLC_NULL, before anything else is looked at. One that
 *     has a length may be null where the length is 0. aclc_free and aclc_table_free ignore null.
 *     A handle that is given twice in a call is refused. The library's functions see to both, so a
 *     program of another language that calls them without this header is answered likewise.
 *
 * WHAT ONLY THE CALLER CAN KEEP
 *     - Each pointer is aligned as its type asks for. A pointer with a length leads to so many
 *       elements. A length of bytes is below 2 to the 63rd.
 *     - What the pointers of one call lead to doesn't overlap, unless the call only reads it.
 *     - A handle is zeros, or as the last call on it left it.
 *     - malloc, realloc and free come from one allocator, and align a block to each power of two up
 *       to 16 that divides its size.
 *     - No call is made from a signal handler.
 *     - In the forked child of a process with threads, calls are made on new handles, or on handles
 *       on which no other thread was calling at the fork, and malloc may be called there.
 *
 * THREADS
 *     One call at a time on each handle. A handle of a context stays on the thread that filled it.
 *     A handle of a table may go to another thread, where the calls are ordered: by a lock, by the
 *     start or join of a thread, or by an atomic store that releases and a load that acquires what
 *     it stored. Sequentially consistent ones do both. Calls on different handles may run at the
 *     same time, also where the handles share a table (aclc_table_share): its handles are counted
 *     by atomics of the library's own, and nothing else of a table is ever written.
 *
 * MEMORY
 *     It is taken by malloc and realloc, and given back by free. Each comment says whether its call
 *     takes any. Classifying takes none.
 *
 * NUMBERS
 *     Numbers that are passed are in the machine's order. The bytes of keys are in network order.
 */
#ifndef ACLC_H
#define ACLC_H

#include <stddef.h>
#include <stdint.h>

#ifdef __cplusplus
extern "C" {
#endif

/* The version of this header: 65536 times the major number, and the minor number. */
#define ACLC_VERSION_MAJOR 1
#define ACLC_VERSION_MINOR 1
#define ACLC_VERSION 0x00010001u

#define ACLC_MAX_FIELDS 64u        /* fields of a layout */
#define ACLC_MAX_RULES 262144u     /* rules of a context */
#define ACLC_MAX_PRIORITY 536870911 /* priority of a rule; the least is 0 */
#define ACLC_MAX_WORDS 67108864u   /* words of 8 bytes of a table */
#define ACLC_MAX_KEYS 65536u       /* keys of a call */
#define ACLC_MAX_CATEGORIES 16u    /* categories of a call */
#define ACLC_MAX_KEY_LEN 505u      /* bytes of a key */

/* What a call answers. */
typedef uint32_t aclc_code;

enum {
    ACLC_OK = 0,
    /* of any call */
    ACLC_NO_MEMORY = 1,      /* there is no memory for it */
    ACLC_EMPTY = 2,          /* a handle that the call is on is empty */
    ACLC_TAKEN = 3,          /* a handle that the call fills isn't empty */
    ACLC_BAD_LENGTH = 4,     /* the lengths of two arguments don't fit together */
    ACLC_BAD_LIMIT = 5,      /* a context may not be made for more than ACLC_MAX_RULES rules */
    ACLC_BAD_BUDGET = 6,     /* the budget is above ACLC_MAX_WORDS */
    ACLC_BAD_CATEGORIES = 7, /* the number of categories isn't 1, 4, 8, 12 or 16 */
    ACLC_BAD_WALK = 8,       /* the number is none of a walk */
    ACLC_TOO_MANY_KEYS = 9,  /* more than ACLC_MAX_KEYS */
    ACLC_NO_LANES = 10,      /* more keys than aclc_lanes made room for */
    ACLC_NOT_BUILT = 11,     /* the context has no table */
    ACLC_FULL = 12,          /* with these rules the context would hold more than it may */
    ACLC_TOO_LARGE = 13,     /* the table needs more words than the budget */
    ACLC_NULL = 14,          /* a pointer is null */
    ACLC_NO_IMAGE = 15,      /* no image has the tables, as if their keys haven't 13 and 37 bytes */
    ACLC_NO_ROOM = 16,       /* the image has more bytes than there is room for */
    /* of field definitions */
    ACLC_TOO_MANY_FIELDS = 32,    /* more than ACLC_MAX_FIELDS */
    ACLC_BAD_KIND = 33,           /* the number is none of a kind of field */
    ACLC_NO_FIELDS = 34,          /* there is no definition */
    ACLC_FIELD_INDEX = 35,        /* the field index isn't the place of the definition */
    ACLC_BAD_SIZE = 36,           /* the size isn't 1, 2, 4 or 8 */
    ACLC_FIRST_NOT_ONE_BYTE = 37, /* the first field isn't one byte long */
    ACLC_INPUT_ORDER = 38,        /* the input index can't follow the one before */
    ACLC_GROUP_SIZE = 39,         /* the fields of the group are neither 4 bytes nor one of 8 */
    ACLC_GROUP_OFFSETS = 40,      /* the field doesn't lie after the one before in its group */
    ACLC_OFFSET_TOO_LARGE = 41,   /* the offset is above 65,535 */
    /* of a rule */
    ACLC_NO_CATEGORY = 48,    /* none of the low 16 bits of the category mask is set */
    ACLC_PRIORITY_RANGE = 49, /* the priority is below 0 or above ACLC_MAX_PRIORITY */
    ACLC_FIELD_TOO_WIDE = 50, /* a number of the value is wider than the field */
    ACLC_MASK_TOO_LONG = 51,  /* the mask has more bits than the field */
    ACLC_EMPTY_RANGE = 52,    /* the low end of the range is above the high end */
    /* of an image; the place that is told is that of the first byte of the field */
    ACLC_IMAGE_MAGIC = 64,       /* the first field isn't "ACLT" */
    ACLC_IMAGE_VERSION = 65,     /* the version is neither 1 nor 2 */
    ACLC_IMAGE_FAMILY = 66,      /* the family of the first table isn't 4, or of the second 6 */
    ACLC_IMAGE_LENGTH = 67,      /* the bytes end within the field, or before it */
    ACLC_IMAGE_TOO_MANY = 68,    /* more rules, tries or words than a table may have */
    ACLC_IMAGE_UNSOUND = 69,     /* the root or the word leads to no node and no row */
    ACLC_IMAGE_ROW_FORM = 70,    /* the word of a row names no rule */
    ACLC_IMAGE_TRAILING = 71,    /* a byte stands after the last field */
    ACLC_IMAGE_KEPT_GROUPS = 72  /* the trie reads no byte of a key, or one that keys don't have */
};

/* How a rule bounds a field. */
enum {
    ACLC_FIELD_MASK = 0,   /* a value, and how many leading bits have to be equal to it */
    ACLC_FIELD_RANGE = 1,  /* a lowest and a highest number, both in the range */
    ACLC_FIELD_BITMASK = 2 /* a value, and the bits that have to be equal to it */
};

/* How keys are walked through a table. Both give the same answers, so choose by measuring. */
enum {
    ACLC_WALK_SCALAR = 0, /* each key for itself, many in step */
    ACLC_WALK_LANES = 1   /* by a machine of eight lanes, which needs room for each key */
};

/* A context: rules of one layout, and the table of the last build. Zeros are an empty handle. */
struct aclc_context {
    void *inside;
    uint64_t held;
};

/* A table, which nothing changes. Zeros are an empty handle. */
struct aclc_table {
    void *inside;
    uint64_t held;
};

/* The definition of a field. */
struct aclc_field {
    uint8_t kind;        /* ACLC_FIELD_MASK, .._RANGE or .._BITMASK */
    uint8_t size;        /* bytes: 1, 2, 4 or 8 */
    uint8_t field_index; /* the place of the definition, from 0 */
    uint8_t input_index; /* the group of four key bytes that it belongs to; an 8-byte field fills
                            the group that it names and the next one */
    uint32_t offset;     /* the place of its first byte in a searched buffer, at most 65,535 */
};

/* What a rule is for, apart from the keys that it matches. */
struct aclc_rule {
    uint32_t category_mask; /* bit c of the low 16 is set where it takes part in category c */
    int32_t priority;       /* from 0 to ACLC_MAX_PRIORITY; of matching rules the greatest wins */
    uint32_t userdata;      /* the answer for keys that it wins; any number, 0 too */
};

/* The value of a rule for a field, whose kind says what the two numbers are. */
struct aclc_value {
    uint64_t value;      /* the value; of a range the lowest number */
    uint64_t mask_range; /* how many leading bits; the highest number; the bits that count */
};

/*
 * aclc_version - the version of the library, in the form of ACLC_VERSION.
 *
 * A program that compares the two sees whether it was linked with the library of its header. It
 * refuses nothing and takes no memory.
 */
uint32_t aclc_version(void);

/* A text that stays while the program runs, as a string of C. len counts the zero at its end. */
struct aclc_text {
    const char *bytes;
    size_t len;
};

/*
 * aclc_error_text - tells in words what the number of an answer says, also of one that is none.
 *
 * text: is written. Its old bytes have to stay as well, as those of {"", 0} do.
 *
 * It refuses nothing and takes no memory. Since 1.1.
 */
void aclc_error_text(aclc_code code, struct aclc_text *text);

/*
 * aclc_strerror - the same as a string of C. Since 1.2; in 1.1 it was a function of the header.
 */
const char *aclc_strerror(aclc_code code);

/*
 * aclc_create - makes a context without rules and without a table.
 *
 * fields, field_count: the definitions of the fields, in order, at most ACLC_MAX_FIELDS. The first
 * is one byte long and has input index 0; the second has 1; after a field of index k comes k or
 * k + 1, and after an 8-byte field k + 2. The fields of a group fill its four bytes. The bytes of a
 * key are those of the fields, one field after the other.
 * max_rules: how many rules the context may hold, at most ACLC_MAX_RULES.
 * place: is written where a fault of definitions is answered, and else stays: the place of the
 * definition, from 0, or the number of the group for ACLC_GROUP_SIZE, or 0 for ACLC_NO_FIELDS,
 * ACLC_TOO_MANY_FIELDS and ACLC_FIRST_NOT_ONE_BYTE.
 *
 * ACLC_TAKEN: the handle isn't empty.
 * ACLC_BAD_LIMIT: max_rules is above ACLC_MAX_RULES.
 * ACLC_TOO_MANY_FIELDS, ACLC_BAD_KIND: with the first definition whose kind is none; then
 * ACLC_NO_FIELDS to ACLC_OFFSET_TOO_LARGE: each kind of fault is looked for over all definitions
 * before the next, in the order of the codes.
 * ACLC_NO_MEMORY. It takes memory for the context.
 */
aclc_code aclc_create(struct aclc_context *context, const struct aclc_field *fields,
                      size_t field_count, uint32_t max_rules, uint32_t *place);

/*
 * aclc_add_rules - adds rules after those that the context holds, all or none. The table stays.
 *
 * rules, rule_count: what each rule is for.
 * values, value_count: the values of the first rule, one for each field in order, then those of the
 * second. So value_count is rule_count times the number of fields.
 * rule, field: are written where a fault of a rule is answered, and else stay: the place of the
 * rule among those that are given, from 0, and that of the field, which is 0 for ACLC_NO_CATEGORY
 * and ACLC_PRIORITY_RANGE.
 *
 * ACLC_EMPTY: the handle is empty.
 * ACLC_BAD_LENGTH: value_count isn't rule_count times the number of fields.
 * ACLC_FULL: the context would hold more rules than it may.
 * ACLC_NO_CATEGORY to ACLC_EMPTY_RANGE: of the first rule that isn't lawful the first fault, in
 * the order of the codes, and of its field.
 * ACLC_NO_MEMORY. It takes memory for the rules, and as much again until it answers.
 */
aclc_code aclc_add_rules(struct aclc_context *context, const struct aclc_rule *rules,
                         size_t rule_count, const struct aclc_value *values, size_t value_count,
                         uint32_t *rule, uint32_t *field);

/*
 * aclc_build - makes the table of the rules that the context holds, in place of the one before.
 *
 * It leaves out rules that a wide one before them covers, which can't win: that one has no lower
 * priority, has all their categories, and lets through all that they do. Words, and the rules of
 * which aclc_table_sizes tells, are of the others. A rule is wide if three fifths of the key's
 * bytes or more are of fields that let through everything.
 *
 * budget: how many words of 8 bytes the table may have, from 1 to ACLC_MAX_WORDS; or 0, which
 * serves most programs: then groups of rules are looked for that need few words and little time.
 * words: on ACLC_OK the words of the new table, on ACLC_TOO_LARGE those at which the split ended,
 * which are more than the budget: with just so many a build may be refused again; else it stays.
 *
 * ACLC_EMPTY: the handle is empty.
 * ACLC_BAD_BUDGET: the budget is above ACLC_MAX_WORDS.
 * ACLC_TOO_LARGE: the table needs more words than the budget, or under 0 more than ACLC_MAX_WORDS.
 * The table of the build before stays.
 * ACLC_NO_MEMORY: likewise. It takes memory for the table and for what it is made of, and gives
 * that back.
 */
aclc_code aclc_build(struct aclc_context *context, uint64_t budget, uint64_t *words);

/*
 * aclc_lanes - makes room for so many keys of a call with ACLC_WALK_LANES, in place of the room
 * that was there.
 *
 * keys: at most ACLC_MAX_KEYS. A new context has room for none.
 *
 * ACLC_EMPTY: the handle is empty.
 * ACLC_TOO_MANY_KEYS: keys is above ACLC_MAX_KEYS.
 * ACLC_NO_MEMORY: the room that was there stays. It takes memory for a row of 16 words a key.
 */
aclc_code aclc_lanes(struct aclc_context *context, uint32_t keys);

/*
 * aclc_classify - writes the verdicts of keys by the table of the last build.
 *
 * keys, keys_len: the bytes of the keys, one key after the other, in network order. keys_len is a
 * whole number of times the length of a key, and there are at most ACLC_MAX_KEYS.
 * categories: 1, 4, 8, 12 or 16.
 * walk: ACLC_WALK_SCALAR or ACLC_WALK_LANES.
 * verdicts, verdicts_len: categories verdicts for each key: those of the first key in categories 0,
 * 1, and so on, then those of the second. verdicts_len counts verdicts, and fits exactly. A verdict
 * is the userdata of the winner, and 0 where no rule wins. Where a rule has userdata 0, aclc_marks
 * tells the two apart.
 * transitions: how many transitions the walks take, one for each word that leads a walk on. What is
 * read of the table beside them isn't counted, as by a walk in step that has ended.
 *
 * ACLC_EMPTY: the handle is empty.
 * ACLC_NOT_BUILT: no build succeeded since the context was made or reset.
 * ACLC_BAD_CATEGORIES, ACLC_BAD_WALK: the number is none.
 * ACLC_BAD_LENGTH: keys_len is no whole number of keys.
 * ACLC_TOO_MANY_KEYS: there are more than ACLC_MAX_KEYS.
 * ACLC_BAD_LENGTH: verdicts_len doesn't fit.
 * ACLC_NO_LANES: the walk is ACLC_WALK_LANES, and aclc_lanes made room for fewer keys.
 * It takes no memory.
 */
aclc_code aclc_classify(struct aclc_context *context, const uint8_t *keys, size_t keys_len,
                        uint32_t categories, uint32_t walk, uint32_t *verdicts,
                        size_t verdicts_len, uint64_t *transitions);

/* The bytes of a key, which may stand anywhere, and how many they are. */
struct aclc_key {
    const uint8_t *bytes;
    size_t len;
};

/*
 * aclc_classify_keys - writes the verdicts of keys that stand apart. They are those that
 * aclc_classify writes for the same keys in a row, and so are the transitions.
 *
 * keys, key_count: where the bytes of each key are. Keys may overlap. ACLC_NULL is answered for a
 * key at a null pointer, whatever its length is.
 * categories, walk, verdicts, verdicts_len, transitions: as for aclc_classify.
 *
 * ACLC_EMPTY, ACLC_NOT_BUILT: as for aclc_classify.
 * ACLC_TOO_MANY_KEYS: there are more than ACLC_MAX_KEYS.
 * ACLC_BAD_LENGTH: a key hasn't as many bytes as those of the table.
 * ACLC_BAD_CATEGORIES, ACLC_BAD_WALK, ACLC_BAD_LENGTH, ACLC_NO_LANES: as for aclc_classify.
 * It takes no memory but 8,080 bytes of the stack at most, to which it copies some keys at a time.
 * Since 1.1.
 */
aclc_code aclc_classify_keys(struct aclc_context *context, const struct aclc_key *keys,
                             size_t key_count, uint32_t categories, uint32_t walk,
                             uint32_t *verdicts, size_t verdicts_len, uint64_t *transitions);

/*
 * aclc_marks - marks the categories of keys that no rule of the table of the last build wins.
 *
 * keys, keys_len, categories: as for aclc_classify.
 * marks, marks_len: categories marks for each key, in the order of the verdicts of aclc_classify.
 * marks_len counts them, and fits exactly. A mark is 1 where no rule wins, and 0 where one does,
 * also where its userdata is 0.
 *
 * It walks the keys anew, one after the other, and so takes longer than aclc_classify.
 *
 * ACLC_EMPTY: the handle is empty.
 * ACLC_NOT_BUILT: no build succeeded since the context was made or reset.
 * ACLC_BAD_CATEGORIES: the number is none.
 * ACLC_BAD_LENGTH: keys_len is no whole number of keys.
 * ACLC_TOO_MANY_KEYS: there are more than ACLC_MAX_KEYS.
 * ACLC_BAD_LENGTH: marks_len doesn't fit.
 * It takes no memory.
 */
aclc_code aclc_marks(struct aclc_context *context, const uint8_t *keys, size_t keys_len,
                     uint32_t categories, uint8_t *marks, size_t marks_len);

/*
 * aclc_sizes - tells how many rules the context holds, how many bytes a key has, and how many words
 * the table has, or 0 where there is none.
 *
 * ACLC_EMPTY: the handle is empty. It takes no memory.
 */
aclc_code aclc_sizes(struct aclc_context *context, size_t *rules, size_t *key_len,
                     uint64_t *words);

/*
 * aclc_reset_rules - removes all rules. The table stays, and with it the verdicts.
 *
 * ACLC_EMPTY: the handle is empty. It takes no memory, and gives back that of the rules.
 */
aclc_code aclc_reset_rules(struct aclc_context *context);

/*
 * aclc_reset - removes all rules and the table.
 *
 * ACLC_EMPTY: the handle is empty. It takes no memory, and gives back that of both.
 */
aclc_code aclc_reset(struct aclc_context *context);

/*
 * aclc_free - frees the context. The handle is empty then, and may be filled again.
 *
 * An empty handle stays empty. It refuses nothing.
 */
void aclc_free(struct aclc_context *context);

/*
 * aclc_table_copy - fills a handle of a table with a copy of the context's table.
 *
 * The copy stays as it is, whatever happens to the context. It has room for no keys by lanes.
 *
 * ACLC_EMPTY: the handle of the context is empty.
 * ACLC_TAKEN: the handle of the table isn't.
 * ACLC_NOT_BUILT: no build succeeded since the context was made or reset.
 * ACLC_NO_MEMORY. It takes memory for the copy, of which the words take the most.
 */
aclc_code aclc_table_copy(struct aclc_context *context, struct aclc_table *table);

/*
 * aclc_table_share - fills another handle with the same table.
 *
 * Nothing is copied, and both handles are alike. Each thread that classifies has a handle of its
 * own. The table is given back with the last of its handles. The other handle has room for no keys
 * by lanes.
 *
 * ACLC_EMPTY: the handle of the table is empty.
 * ACLC_TAKEN: the other handle isn't, as where it is the same one.
 * ACLC_NO_MEMORY. It takes memory for the handle's own part.
 */
aclc_code aclc_table_share(struct aclc_table *table, struct aclc_table *other);

/*
 * aclc_table_lanes - as aclc_lanes. The room is the handle's own.
 */
aclc_code aclc_table_lanes(struct aclc_table *table, uint32_t keys);

/*
 * aclc_table_classify - as aclc_classify, without ACLC_NOT_BUILT.
 */
aclc_code aclc_table_classify(struct aclc_table *table, const uint8_t *keys, size_t keys_len,
                              uint32_t categories, uint32_t walk, uint32_t *verdicts,
                              size_t verdicts_len, uint64_t *transitions);

/*
 * aclc_table_classify_keys - as aclc_classify_keys, without ACLC_NOT_BUILT. Since 1.1.
 */
aclc_code aclc_table_classify_keys(struct aclc_table *table, const struct aclc_key *keys,
                                   size_t key_count, uint32_t categories, uint32_t walk,
                                   uint32_t *verdicts, size_t verdicts_len, uint64_t *transitions);

/*
 * aclc_table_marks - as aclc_marks, without ACLC_NOT_BUILT.
 */
aclc_code aclc_table_marks(struct aclc_table *table, const uint8_t *keys, size_t keys_len,
                           uint32_t categories, uint8_t *marks, size_t marks_len);

/*
 * aclc_table_sizes - tells of how many rules the table was made, without those that aclc_build
 * left out, how many bytes a key has, and how many words the table has.
 *
 * ACLC_EMPTY: the handle is empty. It takes no memory.
 */
aclc_code aclc_table_sizes(struct aclc_table *table, size_t *rules, size_t *key_len,
                           uint64_t *words);

/*
 * aclc_table_free - frees the handle's part, and the table where no other handle has it. The handle
 * is empty then, and may be filled again.
 *
 * An empty handle stays empty. It refuses nothing.
 */
void aclc_table_free(struct aclc_table *table);

/*
 * aclc_save - writes the image of two tables, of which aclc_load makes the same tables again.
 *
 * An image is a pair: the keys of ip4 have 13 bytes and those of ip6 37, as the five fields of an
 * IPv4 and of an IPv6 packet do; any layout of so many bytes serves. A program that has one of them
 * alone makes the other of a context without rules. An image is the same on every machine, and
 * `aclc` reads it. It has the words and the rows, and neither the layouts nor the rules.
 *
 * image, room: where the image is written, from the first byte on, and how many bytes there are.
 * Those after the image stay.
 * image_len: on ACLC_OK and ACLC_NO_ROOM how many bytes the image has; else it stays. So a call
 * with no room asks for it. Most of them are the 8 bytes of each word and the 128 of each row.
 *
 * ACLC_EMPTY: one of the handles is empty.
 * ACLC_NO_IMAGE: the keys of ip4 haven't 13 bytes, or those of ip6 haven't 37, as where both are
 * one handle. It would come of a table with a row that isn't of its rules, too, and no build and no
 * load makes one.
 * ACLC_NO_ROOM: the image has more bytes. Nothing is written of it.
 * ACLC_NO_MEMORY. It takes memory for the image, and gives that back.
 */
aclc_code aclc_save(struct aclc_table *ip4, struct aclc_table *ip6, uint8_t *image, size_t room,
                    size_t *image_len);

/*
 * aclc_load - fills two handles with the tables of an image, as aclc_save or `aclc` wrote it.
 *
 * What isn't the image of any two tables is refused, whatever its bytes: a table that is loaded can
 * be walked by every key. The tables have room for no keys by lanes.
 *
 * image, image_len: the bytes of the image, all of them.
 * place: is written where a fault of the image is answered, and else stays: the place of the field
 * that fails first, in bytes from 0.
 *
 * ACLC_TAKEN: one of the handles isn't empty, or both are one handle.
 * ACLC_IMAGE_MAGIC to ACLC_IMAGE_KEPT_GROUPS: of the first field that fails its check.
 * ACLC_NO_MEMORY. It takes memory for the tables.
 */
aclc_code aclc_load(struct aclc_table *ip4, struct aclc_table *ip6, const uint8_t *image,
                    size_t image_len, uint64_t *place);

#ifdef __cplusplus
}
#endif

#endif
