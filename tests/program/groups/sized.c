/* sized RECORDS GROUPS: prints a collection of deals of FreeCell, so many records in so many groups, the same each time.
   The first record of a group is a deck shuffled by the number of the group, for group 0 the four kings with a list that
   wins; each record after these is one of them by chance, with its columns in another order. */
#include <stdint.h>
#include <stdio.h>
#include <stdlib.h>
#include <string.h>

static uint64_t state;

static uint32_t below(uint32_t most) {
    state ^= state << 13;
    state ^= state >> 7;
    state ^= state << 17;
    return (uint32_t)((state >> 32) * (uint64_t)most >> 32);
}

static void shuffle(unsigned char *items, int count) {
    for (int at = count - 1; at > 0; at--) {
        int other = (int)below((uint32_t)at + 1);
        unsigned char item = items[at];
        items[at] = items[other];
        items[other] = item;
    }
}

static void print_deal(uint64_t group, const unsigned char *order) {
    unsigned char deck[52];
    uint64_t kept = state;
    for (int card = 0; card < 52; card++)
        deck[card] = (unsigned char)card;
    state = (group + 1) * 0x9e3779b97f4a7c15u;
    shuffle(deck, 52);
    state = kept;
    fputs("Foundations: H-0 C-0 D-0 S-0\nFreecells: - - - -\n", stdout);
    for (int column = 0; column < 8; column++) {
        putchar(':');
        for (int at = order[column]; at < 52; at += 8) {
            putchar(' ');
            putchar("A23456789TJQK"[deck[at] / 4]);
            putchar("CDHS"[deck[at] % 4]);
        }
        putchar('\n');
    }
}

static void print_kings(const unsigned char *order) {
    static const char *const kings[4] = {": KC", ": KD", ": KH", ": KS"};
    fputs("Foundations: H-Q C-Q D-Q S-Q\nFreecells: - - - -\n", stdout);
    for (int column = 0; column < 8; column++)
        puts(order[column] < 4 ? kings[order[column]] : ":");
    putchar('>');
    for (int column = 0; column < 8; column++)
        if (order[column] < 4)
            printf(" %dh", column + 1);
    putchar('\n');
}

int main(int count, char **words) {
    if (count != 3 || atoll(words[1]) < 1 || atoll(words[2]) < 1)
        return 2;
    uint64_t records = (uint64_t)atoll(words[1]), groups = (uint64_t)atoll(words[2]);
    state = 1;
    for (uint64_t record = 0; record < records; record++) {
        unsigned char order[8] = {0, 1, 2, 3, 4, 5, 6, 7};
        uint64_t group = record < groups ? record : below((uint32_t)groups);
        if (record >= groups)
            shuffle(order, 8);
        printf("@ freecell r%llu\n", (unsigned long long)record + 1);
        if (group == 0)
            print_kings(order);
        else
            print_deal(group, order);
    }
    return fflush(stdout) ? 1 : 0;
}
