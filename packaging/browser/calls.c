/* SPDX-License-Identifier: BSD-3-Clause
 *
 * What compiled code calls by name, for the module for browsers: copies and comparisons of memory, and numbers of 128 bits. It
 * isn't proved; packaging/browser/test_heap.c tries it.
 */
typedef unsigned char byte;
typedef unsigned long long u64;
typedef unsigned __int128 u128;

int memcmp(const void *left, const void *right, u64 len) {
    const byte *one = left, *two = right;
    for (u64 at = 0; at < len; at++)
        if (one[at] != two[at])
            return one[at] - two[at];
    return 0;
}

int bcmp(const void *left, const void *right, u64 len) {
    return memcmp(left, right, len);
}

/* With bulk memory each of these is one instruction. */
void *memcpy(void *to, const void *from, u64 len) {
    return __builtin_memcpy(to, from, len);
}

void *memmove(void *to, const void *from, u64 len) {
    return __builtin_memmove(to, from, len);
}

void *memset(void *to, int value, u64 len) {
    return __builtin_memset(to, value, len);
}

static u128 joined(u64 high, u64 low) {
    return (u128)high << 64 | low;
}

/* The product of two numbers of 64 bits, by halves. */
static u128 product(u64 one, u64 two) {
    u64 low = 0xffffffff;
    u64 lows = (one & low) * (two & low), first = (one >> 32) * (two & low), second = (one & low) * (two >> 32);
    u64 middle = (lows >> 32) + (first & low) + (second & low);
    u64 high = (one >> 32) * (two >> 32) + (first >> 32) + (second >> 32) + (middle >> 32);
    return joined(high, (lows & low) | middle << 32);
}

u128 __multi3(u128 one, u128 two) {
    u128 lows = product((u64)one, (u64)two);
    u64 high = (u64)(lows >> 64) + (u64)one * (u64)(two >> 64) + (u64)(one >> 64) * (u64)two;
    return joined(high, (u64)lows);
}

u128 __ashlti3(u128 number, int bits) {
    u64 high = (u64)(number >> 64), low = (u64)number;
    bits &= 127;
    if (bits == 0)
        return number;
    if (bits >= 64)
        return joined(low << (bits - 64), 0);
    return joined(high << bits | low >> (64 - bits), low << bits);
}

u128 __lshrti3(u128 number, int bits) {
    u64 high = (u64)(number >> 64), low = (u64)number;
    bits &= 127;
    if (bits == 0)
        return number;
    if (bits >= 64)
        return joined(0, high >> (bits - 64));
    return joined(high >> bits, low >> bits | high << (64 - bits));
}
