/* Giving an address by the roster of document 01 in plain C, for the bench to measure beside: the same bytes, the same tests in the same
 * order, serials compared by memcmp, which the compiler makes a comparison of 16 bytes at once. Reads what `pace_giving` reads, and writes
 * what it writes. */
#include "host.h"

enum { SERIAL = 16, PLACE = 1 + SERIAL, PLACES = 254, ROSTER = PLACES * PLACE };
enum { FREE = 0, USED = 1 };

static int same(const u8 *a, const u8 *b)
{
    return memcmp(a, b, SERIAL) == 0;
}

/* the first place from `from` on that a serial uses */
static size user(const u8 *roster, size from, const u8 *serial)
{
    size k = from;
    while (k < PLACES && !(roster[k * PLACE] == USED && same(roster + k * PLACE + 1, serial)))
        k++;
    return k;
}

static size lowest_free(const u8 *roster)
{
    size k = 0;
    while (k < PLACES && roster[k * PLACE] != FREE)
        k++;
    return k;
}

static int sound(const u8 *roster, size n)
{
    static const u8 nothing[SERIAL];
    if (n != ROSTER)
        return 0;
    for (size k = 0; k < PLACES; k++) {
        const u8 *place = roster + k * PLACE;
        if (place[0] == USED) {
            if (user(roster, k + 1, place + 1) != PLACES)
                return 0;
        } else if (place[0] != FREE || !same(place + 1, nothing)) {
            return 0;
        }
    }
    return 1;
}

/* the address, or the answer number below 0 where it is refused */
static int give(u8 *roster, size n, const u8 *serial, size m)
{
    if (!sound(roster, n))
        return -SPOILT;
    if (m != SERIAL)
        return -NOT_FOR_THIS_CALL;
    size k = user(roster, 0, serial);
    if (k == PLACES) {
        k = lowest_free(roster);
        if (k == PLACES)
            return -ROSTER_FULL;
        roster[k * PLACE] = USED;
        memcpy(roster + k * PLACE + 1, serial, SERIAL);
    }
    return (int)k + 1;
}

/* ---- the host: as `pace_giving` */

enum { INPUT = 65536 };

static size told(int answer)
{
    return answer < 0 ? 1000 + (size)-answer : (size)answer;
}

static size given(u8 *roster, size n, const u8 *serial, size times)
{
    size sum = 0;
    for (size k = 0; k < times; k++)
        sum += told(give(roster, n, serial, SERIAL));
    return sum;
}

int main(void)
{
    static u8 input[INPUT];
    u8 first[1] = {0}, serial[SERIAL] = {0};
    read_full(first, 1);
    read_full(serial, SERIAL);
    size n = read_full(input, INPUT);
    print(given(input, n, serial, first[0]), '\n');
    write(1, input, n);
    return 0;
}
