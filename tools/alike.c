/* Names of globals that the kit's hasher, whose seed is fixed, puts in one place of a table that has room for COUNT
   names, so that a map that finds them by their hash alone compares each of them. Without headers, so that the kit's
   own compiler builds it. */
typedef unsigned long u64;
typedef unsigned __int128 u128;

enum { LENGTH = 12, GROUP = 9 };

static const u64 SEED = 0x243f6a8885a308d3, MULTIPLIER = 0x9e3779b97f4a7c15;
static const char LETTERS[] = "abcdefghijklmnopqrstuvwxyz";

static u64 folded(u64 state, u64 input, u64 length) {
    u128 product = (u128)(state ^ input) * (MULTIPLIER ^ (2 * length));
    return (u64)product ^ (u64)(product >> 64);
}

static u64 with_byte(u64 state, char byte) { return folded(state, 0x10101 * (u64)byte, 1); }

/* The bits that choose a group of a table with room for so many names, and those that tell names in it apart. */
static unsigned bits_for(long count) {
    unsigned groups = 1;
    while (GROUP * (long)groups < count)
        groups *= 2;
    return 0xff000000u | (groups - 1);
}

/* Writes so many names one after another, of LENGTH bytes each. They count up in LETTERS. */
void alike(char *names, long count) {
    int digits[LENGTH] = {0};
    u64 states[LENGTH + 1] = {folded(SEED, LENGTH, 8)};
    unsigned bits = bits_for(count), wanted = 0;
    for (long found = -1; found < count;) {
        int at = LENGTH - 1;
        while (found >= 0 && at > 0 && ++digits[at] == sizeof LETTERS - 1)
            digits[at--] = 0;
        for (int i = found < 0 ? 0 : at; i < LENGTH; i++)
            states[i + 1] = with_byte(states[i], LETTERS[digits[i]]);
        unsigned hash = (unsigned)(states[LENGTH] ^ states[LENGTH] >> 32);
        if (found < 0)
            wanted = hash & bits, found = 0;
        if ((hash & bits) == wanted) {
            for (int i = 0; i < LENGTH; i++)
                names[LENGTH * found + i] = LETTERS[digits[i]];
            found++;
        }
    }
}
