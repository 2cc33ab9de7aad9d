/* The writers of documents 01 and 02 and the ComLynx checksum in plain C, for the bench to measure beside. Reads what `pace_writing` reads, and
 * writes what it writes. */
#include "host.h"

/* the length written, or the answer number where it is refused */
struct written {
    size length;
    int refused;
};

static struct written refused(int number)
{
    return (struct written){0, number};
}

static struct written done(size length)
{
    return (struct written){length, 0};
}

/* ---- ComLynx */

enum { CL_HEADER = 8, CL_PAYLOAD = 255, CL_BODY = CL_HEADER + CL_PAYLOAD + 2 };
enum { FLAG = 0x7e, ESCAPE = 0x7d };

#include "checksum.h"

static int special(u8 b)
{
    return b == FLAG || b == ESCAPE;
}

/* The body is put together first, since its checksum may take stuffing and the exact length is tested before anything is stored. */
static struct written comlynx_write(u16 source, u16 destination, u8 kind, const u8 *payload, size n, u8 *to, size room)
{
    u8 body[CL_BODY];
    size len = CL_HEADER + n + 2, frame = len + 2;
    if (CL_PAYLOAD < n)
        return refused(TOO_LONG);
    body[0] = 0xff;
    body[1] = 0x03;
    body[2] = (u8)(source >> 8);
    body[3] = (u8)source;
    body[4] = (u8)(destination >> 8);
    body[5] = (u8)destination;
    body[6] = (u8)n;
    body[7] = kind;
    memcpy(body + CL_HEADER, payload, n);
    u16 sum = checksum(body, CL_HEADER + n);
    body[CL_HEADER + n] = (u8)sum;
    body[CL_HEADER + n + 1] = (u8)(sum >> 8);
    for (size i = 0; i < len; i++)
        frame += (size)special(body[i]);
    if (room < frame)
        return refused(NO_ROOM);
    *to++ = FLAG;
    for (size i = 0; i < len; i++) {
        u8 b = body[i];
        if (special(b)) {
            *to++ = ESCAPE;
            b ^= 0x20;
        }
        *to++ = b;
    }
    *to = FLAG;
    return done(frame);
}

/* ---- Eversolar */

enum { ES_LEAD = 9, ES_PAYLOAD = 255 };

static struct written eversolar_write(const u8 source[2], const u8 destination[2], u8 control, u8 function, const u8 *payload, size n, u8 *to, size room)
{
    size frame = ES_LEAD + n + 2;
    if (ES_PAYLOAD < n)
        return refused(TOO_LONG);
    if (room < frame)
        return refused(NO_ROOM);
    to[0] = 0xaa;
    to[1] = 0x55;
    to[2] = source[0];
    to[3] = source[1];
    to[4] = destination[0];
    to[5] = destination[1];
    to[6] = control;
    to[7] = function;
    to[8] = (u8)n;
    memcpy(to + ES_LEAD, payload, n);
    u32 sum = 0;
    for (size i = 0; i < ES_LEAD + n; i++)
        sum += to[i];
    to[ES_LEAD + n] = (u8)(sum >> 8);
    to[ES_LEAD + n + 1] = (u8)sum;
    return done(frame);
}

/* ---- Fronius */

enum { FR_START = 3, FR_LEAD = FR_START + 4, FR_PAYLOAD = 127 };

static struct written fronius_write(u8 device, u8 number, u8 command, const u8 *payload, size n, u8 *to, size room)
{
    size frame = FR_LEAD + n + 1;
    if (FR_PAYLOAD < n)
        return refused(TOO_LONG);
    if (room < frame)
        return refused(NO_ROOM);
    to[0] = 0x80;
    to[1] = 0x80;
    to[2] = 0x80;
    to[3] = (u8)n;
    to[4] = device;
    to[5] = number;
    to[6] = command;
    memcpy(to + FR_LEAD, payload, n);
    u8 sum = 0;
    for (size i = FR_START; i < FR_LEAD + n; i++)
        sum = (u8)(sum + to[i]);
    to[FR_LEAD + n] = sum;
    return done(frame);
}

/* ---- drives */

enum { DR_LEAD = 4 };

static struct written drives_write(u8 opening, const u8 station[2], u8 letter, const u8 *payload, size n, u8 *to, size room)
{
    size frame = DR_LEAST + n;
    if (frame_most(opening) < frame)
        return refused(TOO_LONG);
    if (!opens(opening) || !is_hex(station[0]) || !is_hex(station[1]) || !is_letter(letter))
        return refused(WRONG_CHARACTER);
    for (size i = 0; i < n; i++)
        if (!is_hex(payload[i]))
            return refused(WRONG_CHARACTER);
    if (room < frame)
        return refused(NO_ROOM);
    to[0] = opening;
    to[1] = station[0];
    to[2] = station[1];
    to[3] = letter;
    memcpy(to + DR_LEAD, payload, n);
    u8 sum = 0;
    for (size i = 1; i < DR_LEAD + n; i++)
        sum = (u8)(sum + to[i]);
    to[DR_LEAD + n] = hex_digit(sum >> 4);
    to[DR_LEAD + n + 1] = hex_digit(sum & 15);
    to[DR_LEAD + n + 2] = EOT;
    return done(frame);
}

/* ---- the host: as `pace_writing` */

enum { INPUT = 65536, LENT = 600 };

/* with the byte looked at: nobody knows before which it is, so that no call can be left out whose bytes the next one writes over */
static size told(struct written w, const u8 *lent, size room, size look)
{
    if (w.refused)
        return 1000 + (size)w.refused;
    return w.length + (look < room ? lent[look] : 0);
}

static size comlynx_frames(size times, const u8 *payload, size n, u8 *lent, size room, size look)
{
    size sum = 0;
    for (size k = 0; k < times; k++)
        sum += told(comlynx_write((u16)k, 0x11ff, 0x15, payload, n, lent, room), lent, room, look);
    return sum;
}

static size eversolar_frames(size times, const u8 *payload, size n, u8 *lent, size room, size look)
{
    static const u8 master[2] = {1, 0};
    size sum = 0;
    for (size k = 0; k < times; k++) {
        u8 destination[2] = {(u8)(k >> 8), (u8)k};
        sum += told(eversolar_write(master, destination, 0x11, 0x02, payload, n, lent, room), lent, room, look);
    }
    return sum;
}

static size fronius_frames(size times, const u8 *payload, size n, u8 *lent, size room, size look)
{
    size sum = 0;
    for (size k = 0; k < times; k++)
        sum += told(fronius_write(1, (u8)(k >> 8), (u8)k, payload, n, lent, room), lent, room, look);
    return sum;
}

static size drives_frames(size times, const u8 *payload, size n, u8 *lent, size room, size look)
{
    size sum = 0;
    for (size k = 0; k < times; k++) {
        u8 station[2] = {hex_digit(k >> 4 & 15), hex_digit(k & 15)};
        sum += told(drives_write(ENQ, station, 'R', payload, n, lent, room), lent, room, look);
    }
    return sum;
}

/* each checksum goes on from the one before, so that none can be left out */
static size checksums(size times, const u8 *bytes, size n)
{
    u16 state = 0xffff;
    for (size k = 0; k < times; k++)
        state = fcs_more(state, bytes, n);
    return state;
}

static size checksums_bitwise(size times, const u8 *bytes, size n)
{
    u16 state = 0xffff;
    for (size k = 0; k < times; k++)
        state = fcs_more_bitwise(state, bytes, n);
    return state;
}

int main(void)
{
    static u8 input[INPUT];
    u8 lent[LENT] = {0}, first[6] = {0};
    read_full(first, 6);
    size len = read_full(input, INPUT), sum = 0;
    size times = (size)(first[1] << 8 | first[2]), room = (size)(first[3] << 8 | first[4]);
    if (LENT < room)
        room = LENT;
    switch (first[0]) {
    case 1:
        sum = comlynx_frames(times, input, len, lent, room, first[5]);
        break;
    case 2:
        sum = eversolar_frames(times, input, len, lent, room, first[5]);
        break;
    case 3:
        sum = fronius_frames(times, input, len, lent, room, first[5]);
        break;
    case 4:
        sum = drives_frames(times, input, len, lent, room, first[5]);
        break;
    case 5:
        sum = checksums(times, input, len);
        break;
    case 6:
        sum = checksums_bitwise(times, input, len);
        break;
    }
    print(sum, '\n');
    write(1, lent, room);
    return 0;
}
