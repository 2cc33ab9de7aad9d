/* The readers of slices of document 02, Req 10, in plain C, for the bench to measure beside: frame edges are searched for in the whole input, and what
 * lies between them is judged. Reads what `pace_slices` reads, and prints the line that it prints. All stands in one file, so that the
 * compiler may put a reader into its host's loop, as it may in `pace_slices`. */
#include "host.h"

enum { LENT = 255, SLICE = 65536 };
enum { SLICE_TOO_LONG = 23, PLACE_PAST_END = 24 };

/* the tests of every ask, in order */
static int refusal(size n, size place, size room)
{
    if (SLICE < n)
        return SLICE_TOO_LONG;
    if (n < place)
        return PLACE_PAST_END;
    return room < LENT ? NO_ROOM : DONE;
}

/* ---- ComLynx */

enum { CL_HEADER = 8, CL_BODY = 265, CL_TOO_MANY = CL_BODY + 1 };
enum { FLAG = 0x7e, ESCAPE = 0x7d, FLAG_PAIR = 0x5e, ESCAPE_PAIR = 0x5d };

struct comlynx_header {
    u16 source, destination;
    u8 kind;
    size len;
};

#include "checksum.h"

static size flag_from(const u8 *s, size n, size i)
{
    while (i < n && s[i] != FLAG)
        i++;
    return i;
}

/* one whole stretch, unstuffed and judged */
static int comlynx_judge(const u8 *s, size n, u8 *lent, struct comlynx_header *h)
{
    u8 held[CL_BODY];
    size count = 0;
    for (size i = 0; i < n; i++) {
        u8 b = s[i];
        if (b == ESCAPE) {
            if (++i == n || (s[i] != FLAG_PAIR && s[i] != ESCAPE_PAIR))
                return BROKEN_PAIR;
            b = s[i] ^ 0x20;
        }
        if (count < CL_BODY)
            held[count++] = b;
        else
            count = CL_TOO_MANY;
    }
    if (count < CL_HEADER + 2 || CL_BODY < count)
        return WRONG_BODY_LENGTH;
    if (held[0] != 0xff || held[1] != 0x03)
        return WRONG_START;
    if (held[6] != count - CL_HEADER - 2)
        return WRONG_SIZE;
    if (checksum(held, count - 2) != (held[count - 2] | held[count - 1] << 8))
        return WRONG_SUM;
    h->source = (u16)(held[2] << 8 | held[3]);
    h->destination = (u16)(held[4] << 8 | held[5]);
    h->kind = held[7];
    h->len = held[6];
    memcpy(lent, held + CL_HEADER, h->len);
    return MESSAGE;
}

static int comlynx_at(const u8 *s, size n, size place, u8 *lent, size room, struct comlynx_header *h, size *after, u16 *lost)
{
    int refused = refusal(n, place, room);
    *after = 0;
    if (refused)
        return refused;
    size first = place > 0 && s[place - 1] == FLAG ? place : flag_from(s, n, place);
    while (first < n && s[first] == FLAG)
        first++;
    size close = flag_from(s, n, first);
    if (close == n) {
        *after = n;
        return DONE;
    }
    *after = close + 1;
    *lost = (u16)(close - first);
    return comlynx_judge(s + first, close - first, lent, h);
}

/* ---- Eversolar */

struct eversolar_header {
    u8 source[2], destination[2], control, function;
    size len;
};

static int eversolar_at(const u8 *s, size n, size place, u8 *lent, size room, struct eversolar_header *h, size *after, u16 *lost)
{
    int refused = refusal(n, place, room);
    *after = 0;
    if (refused)
        return refused;
    size f = place;
    while (f + 1 < n && !(s[f] == 0xaa && s[f + 1] == 0x55))
        f++;
    *after = n;
    if (n - f < 11)
        return DONE;
    size len = s[f + 8];
    if (n - f < 11 + len)
        return DONE;
    *after = f + 11 + len;
    const u8 *sent = s + f + 9 + len;
    u32 sum = 0;
    for (size i = f; i < f + 9 + len; i++)
        sum += s[i];
    if ((u16)sum != (u16)(sent[0] << 8 | sent[1])) {
        *lost = (u16)(11 + len);
        return WRONG_SUM;
    }
    memcpy(h, s + f + 2, 6);
    h->len = len;
    memcpy(lent, s + f + 9, len);
    return MESSAGE;
}

/* ---- Fronius */

enum { MARK = 0x80 };

struct fronius_header {
    u8 device, number, command;
    size len;
};

static int fronius_at(const u8 *s, size n, size place, u8 *lent, size room, struct fronius_header *h, size *after, u16 *lost)
{
    int refused = refusal(n, place, room);
    *after = 0;
    if (refused)
        return refused;
    size k = place;
    *after = n;
    while (k + 2 < n && !(s[k] == MARK && s[k + 1] == MARK && s[k + 2] == MARK))
        k++;
    if (n <= k + 2)
        return DONE;
    for (k += 3; k < n && s[k] == MARK; k++)
        ;
    if (k == n)
        return DONE;
    size len = s[k];
    if (MARK < len) {
        *after = k + 1;
        *lost = 4;
        return WRONG_LENGTH_BYTE;
    }
    if (n - k < 5 + len)
        return DONE;
    *after = k + 5 + len;
    u8 sum = 0;
    for (size i = k; i < k + 4 + len; i++)
        sum = (u8)(sum + s[i]);
    if (sum != s[k + 4 + len]) {
        *lost = (u16)(8 + len);
        return WRONG_SUM;
    }
    h->device = s[k + 1];
    h->number = s[k + 2];
    h->command = s[k + 3];
    h->len = len;
    memcpy(lent, s + k + 4, len);
    return MESSAGE;
}

/* ---- drives */

struct drives_header {
    u8 opening, station[2], letter;
    size len;
};

/* the characters between an opening byte and EOT, judged */
static int drives_judge(u8 opening, const u8 *s, size n, u8 *lent, struct drives_header *h)
{
    if (n + 2 < DR_LEAST || frame_most(opening) < n + 2)
        return WRONG_BODY_LENGTH;
    if (!is_hex(s[0]) || !is_hex(s[1]) || !is_letter(s[2]))
        return WRONG_CHARACTER;
    for (size i = 3; i < n; i++)
        if (!is_hex(s[i]))
            return WRONG_CHARACTER;
    u8 sum = 0;
    for (size i = 0; i < n - 2; i++)
        sum = (u8)(sum + s[i]);
    if (s[n - 2] != hex_digit(sum >> 4) || s[n - 1] != hex_digit(sum & 15))
        return WRONG_SUM;
    h->opening = opening;
    h->station[0] = s[0];
    h->station[1] = s[1];
    h->letter = s[2];
    h->len = n - 5;
    memcpy(lent, s + 3, h->len);
    return MESSAGE;
}

static int drives_at(const u8 *s, size n, size place, u8 *lent, size room, struct drives_header *h, size *after, u16 *lost)
{
    int refused = refusal(n, place, room);
    *after = 0;
    if (refused)
        return refused;
    size f = place;
    while (f < n && !opens(s[f]))
        f++;
    *after = n;
    if (f == n)
        return DONE;
    size end = f + 1;
    while (end < n && s[end] != EOT)
        end++;
    if (end == n)
        return DONE;
    *after = end + 1;
    size frame = end - f + 1;
    *lost = (u16)(frame < LOST_MAX ? frame : LOST_MAX);
    return drives_judge(s[f], s + f + 1, end - f - 1, lent, h);
}

/* ---- the host */

struct tally {
    size messages, damages, lost, check;
};

static size checked(size check, u8 code, const u8 *payload, size n)
{
    size sum = 0;
    for (size i = 0; i < n; i++)
        sum += payload[i];
    return check * 3 + code + sum;
}

/* one function a family, the same but for its reader and its code byte; a place that is not past the one asked from comes with a refusal */
#define OF(family, code)                                                                                   \
    static struct tally of_##family(const u8 *input, size len, u8 *lent)                                   \
    {                                                                                                      \
        struct tally t = {0, 0, 0, 0};                                                                     \
        size at = 0;                                                                                       \
        while (at < len) {                                                                                 \
            struct family##_header h;                                                                      \
            size after;                                                                                    \
            u16 lost;                                                                                      \
            int answer = family##_at(input, len, at, lent, LENT, &h, &after, &lost);                       \
            if (after <= at)                                                                               \
                break;                                                                                     \
            at = after;                                                                                    \
            if (answer == MESSAGE) {                                                                       \
                t.messages++;                                                                              \
                t.check = checked(t.check, h.code, lent, h.len);                                           \
            } else if (answer != DONE) {                                                                   \
                t.damages++;                                                                               \
                t.lost += lost;                                                                            \
            }                                                                                              \
        }                                                                                                  \
        return t;                                                                                          \
    }

OF(comlynx, kind)
OF(eversolar, function)
OF(fronius, command)
OF(drives, letter)

int main(void)
{
    static u8 input[SLICE];
    u8 lent[LENT], first[3] = {0};
    struct tally t = {0, 0, 0, 0};
    read_full(first, 3);
    size len = read_full(input, SLICE);
    switch (first[0]) {
    case 1:
        t = of_comlynx(input, len, lent);
        break;
    case 2:
        t = of_eversolar(input, len, lent);
        break;
    case 3:
        t = of_fronius(input, len, lent);
        break;
    case 4:
        t = of_drives(input, len, lent);
        break;
    }
    print(first[0], ' ');
    print(t.messages, ' ');
    print(t.damages, ' ');
    print(t.lost, ' ');
    print(t.check, '\n');
    return 0;
}
