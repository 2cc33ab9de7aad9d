/* The readers of documents 01 and 02 in plain C, for the bench to measure beside: a state machine each, byte by byte, its state
 * in a struct. Reads what `pace_reading` reads, and prints the line that it prints. All stands in one file, so that the compiler
 * may put a reader into its host's loop, as it may in `pace_reading`. */
#include "host.h"

enum { LENT = 255, INPUT = 65536 };

/* ---- ComLynx */

enum { CL_HEADER = 8, CL_BODY = 265, CL_TOO_MANY = CL_BODY + 1 };
enum { CL_BEFORE, CL_INSIDE, CL_ESCAPED, CL_BROKEN };
enum { FLAG = 0x7e, ESCAPE = 0x7d, FLAG_PAIR = 0x5e, ESCAPE_PAIR = 0x5d };

struct comlynx {
    u8 held[CL_BODY]; /* the unstuffed bytes of the stretch */
    u8 stage;
    size came;  /* how many bytes have come since the flag, as they were sent */
    size count; /* how many are held; CL_TOO_MANY where there were more than fit */
};

struct comlynx_header {
    u16 source, destination;
    u8 kind;
    size len;
};

#include "checksum.h"

static void comlynx_keep(struct comlynx *r, u8 b)
{
    if (r->count < CL_BODY)
        r->held[r->count++] = b;
    else
        r->count = CL_TOO_MANY;
}

/* the checks of a closed stretch, in order */
static int comlynx_judge(const struct comlynx *r, u8 *lent, struct comlynx_header *h)
{
    const u8 *s = r->held;
    size n = r->count;
    if (n < CL_HEADER + 2 || CL_BODY < n)
        return WRONG_BODY_LENGTH;
    if (s[0] != 0xff || s[1] != 0x03)
        return WRONG_START;
    if (s[6] != n - CL_HEADER - 2)
        return WRONG_SIZE;
    if (checksum(s, n - 2) != (s[n - 2] | s[n - 1] << 8))
        return WRONG_SUM;
    h->source = (u16)(s[2] << 8 | s[3]);
    h->destination = (u16)(s[4] << 8 | s[5]);
    h->kind = s[7];
    h->len = s[6];
    memcpy(lent, s + CL_HEADER, h->len);
    return MESSAGE;
}

/* what is told of so many lost bytes */
static u16 comlynx_lost(size came)
{
    return (u16)(came < LOST_MAX ? came : LOST_MAX);
}

/* each reader tells with a damage how many bytes were lost */
static int comlynx_step(struct comlynx *r, const u8 *piece, size n, u8 *lent, size room, struct comlynx_header *h, size *used, u16 *lost)
{
    *used = 0;
    if (r->stage == CL_BEFORE ? r->came != 0 || r->count != 0 : CL_BROKEN < r->stage || CL_TOO_MANY < r->count)
        return SPOILT;
    if (room < LENT)
        return NO_ROOM;
    for (size i = 0; i < n; i++) {
        u8 b = piece[i];
        int answer;
        switch (r->stage) {
        case CL_BEFORE:
            if (b == FLAG)
                r->stage = CL_INSIDE;
            break;
        case CL_INSIDE:
            if (b == FLAG) {
                if (r->count == 0)
                    break;
                answer = comlynx_judge(r, lent, h);
                *lost = comlynx_lost(r->came);
                r->came = 0;
                r->count = 0;
                *used = i + 1;
                return answer;
            }
            if (b == ESCAPE)
                r->stage = CL_ESCAPED;
            else
                comlynx_keep(r, b);
            r->came++;
            break;
        case CL_ESCAPED:
            if (b == FLAG_PAIR || b == ESCAPE_PAIR) {
                r->stage = CL_INSIDE;
                comlynx_keep(r, b ^ 0x20);
                r->came++;
                break;
            }
            r->stage = CL_BROKEN;
            /* fall through: the byte may be the flag */
        default:
            if (b == FLAG) {
                *lost = comlynx_lost(r->came);
                r->stage = CL_INSIDE;
                r->came = 0;
                r->count = 0;
                *used = i + 1;
                return BROKEN_PAIR;
            }
            r->came++;
        }
    }
    *used = n;
    return DONE;
}

/* ---- Eversolar */

enum { ES_HEADER = 7, ES_PAYLOAD = 255, ES_BODY = ES_HEADER + ES_PAYLOAD + 1 };
enum { ES_LOOKING, ES_MARK_SEEN, ES_IN_LEAD, ES_FRAME };

struct eversolar {
    u8 held[ES_BODY]; /* the bytes since AA 55; the last one of a frame is not held */
    u8 stage;
    size count; /* how many are held */
    size len;   /* in a frame the length read */
};

struct eversolar_header {
    u8 source[2], destination[2], control, function;
    size len;
};

static int eversolar_in_range(const struct eversolar *r)
{
    switch (r->stage) {
    case ES_LOOKING:
    case ES_MARK_SEEN:
        return r->count == 0 && r->len == 0;
    case ES_IN_LEAD:
        return r->count < ES_HEADER && r->len == 0;
    case ES_FRAME:
        return r->len <= ES_PAYLOAD && ES_HEADER <= r->count && r->count <= ES_HEADER + r->len + 1;
    default:
        return 0;
    }
}

static int eversolar_judge(const struct eversolar *r, u8 last, u8 *lent, struct eversolar_header *h)
{
    const u8 *s = r->held;
    size n = r->len;
    u32 sum = 0xaa + 0x55;
    for (size i = 0; i < ES_HEADER + n; i++)
        sum += s[i];
    if ((sum & 0xffff) != (u32)(s[ES_HEADER + n] << 8 | last))
        return WRONG_SUM;
    h->source[0] = s[0];
    h->source[1] = s[1];
    h->destination[0] = s[2];
    h->destination[1] = s[3];
    h->control = s[4];
    h->function = s[5];
    h->len = n;
    memcpy(lent, s + ES_HEADER, n);
    return MESSAGE;
}

static int eversolar_step(struct eversolar *r, const u8 *piece, size n, u8 *lent, size room, struct eversolar_header *h, size *used, u16 *lost)
{
    *used = 0;
    if (!eversolar_in_range(r))
        return SPOILT;
    if (room < LENT)
        return NO_ROOM;
    for (size i = 0; i < n; i++) {
        u8 b = piece[i];
        int answer;
        switch (r->stage) {
        case ES_LOOKING:
            if (b == 0xaa)
                r->stage = ES_MARK_SEEN;
            break;
        case ES_MARK_SEEN:
            if (b == 0x55)
                r->stage = ES_IN_LEAD;
            else if (b != 0xaa)
                r->stage = ES_LOOKING;
            break;
        case ES_IN_LEAD:
            r->held[r->count++] = b;
            if (r->count == ES_HEADER) {
                r->stage = ES_FRAME;
                r->len = b;
            }
            break;
        default:
            if (r->count < ES_HEADER + r->len + 1) {
                r->held[r->count++] = b;
                break;
            }
            answer = eversolar_judge(r, b, lent, h);
            *lost = (u16)(11 + r->len);
            r->stage = ES_LOOKING;
            r->count = 0;
            r->len = 0;
            *used = i + 1;
            return answer;
        }
    }
    *used = n;
    return DONE;
}

/* ---- Fronius */

enum { FR_HEADER = 3, FR_PAYLOAD = 127, FR_BODY = FR_HEADER + FR_PAYLOAD };
enum { FR_START, FR_FRAME };

struct fronius {
    u8 held[FR_BODY]; /* device, number, command, payload */
    u8 stage;
    size count; /* at the start the successive 80s seen, to 3; in a frame how many bytes are held */
    size len;   /* in a frame the length read */
};

struct fronius_header {
    u8 device, number, command;
    size len;
};

static int fronius_in_range(const struct fronius *r)
{
    switch (r->stage) {
    case FR_START:
        return r->count <= 3 && r->len == 0;
    case FR_FRAME:
        return r->len <= FR_PAYLOAD && r->count <= FR_HEADER + r->len;
    default:
        return 0;
    }
}

static int fronius_judge(const struct fronius *r, u8 last, u8 *lent, struct fronius_header *h)
{
    const u8 *s = r->held;
    size n = r->len;
    u8 sum = (u8)n;
    for (size i = 0; i < FR_HEADER + n; i++)
        sum = (u8)(sum + s[i]);
    if (sum != last)
        return WRONG_SUM;
    h->device = s[0];
    h->number = s[1];
    h->command = s[2];
    h->len = n;
    memcpy(lent, s + FR_HEADER, n);
    return MESSAGE;
}

static int fronius_step(struct fronius *r, const u8 *piece, size n, u8 *lent, size room, struct fronius_header *h, size *used, u16 *lost)
{
    *used = 0;
    if (!fronius_in_range(r))
        return SPOILT;
    if (room < LENT)
        return NO_ROOM;
    for (size i = 0; i < n; i++) {
        u8 b = piece[i];
        int answer;
        switch (r->stage) {
        case FR_START:
            if (r->count < 3) {
                if (b == 0x80)
                    r->count++;
                else
                    r->count = 0;
            } else if (b < 0x80) {
                r->stage = FR_FRAME;
                r->count = 0;
                r->len = b;
            } else if (b > 0x80) {
                r->count = 0;
                *used = i + 1;
                *lost = 4;
                return WRONG_LENGTH_BYTE;
            }
            break;
        default:
            if (r->count < FR_HEADER + r->len) {
                r->held[r->count++] = b;
                break;
            }
            answer = fronius_judge(r, b, lent, h);
            *lost = (u16)(8 + r->len);
            r->stage = FR_START;
            r->count = 0;
            r->len = 0;
            *used = i + 1;
            return answer;
        }
    }
    *used = n;
    return DONE;
}

/* ---- drives */

enum { DR_HEADER = 3, DR_HELD = DR_REQUEST - 2, DR_LOOKING = 0, DR_COUNT_MAX = LOST_MAX - 2 };

struct drives {
    u8 held[DR_HELD]; /* the characters since the opening byte, as far as there is room */
    u8 stage;         /* in a frame its opening byte */
    size count;       /* how many have come since; DR_COUNT_MAX stands for that or more */
};

struct drives_header {
    u8 opening, station[2], letter;
    size len;
};

/* the checks of a frame, in order */
static int drives_judge(const struct drives *r, u8 *lent, struct drives_header *h)
{
    const u8 *s = r->held;
    size n = r->count;
    u8 sum = 0;
    if (n + 2 < DR_LEAST || frame_most(r->stage) < n + 2)
        return WRONG_BODY_LENGTH;
    if (!is_hex(s[0]) || !is_hex(s[1]) || !is_letter(s[2]))
        return WRONG_CHARACTER;
    for (size i = DR_HEADER; i < n; i++)
        if (!is_hex(s[i]))
            return WRONG_CHARACTER;
    for (size i = 0; i < n - 2; i++)
        sum = (u8)(sum + s[i]);
    if (s[n - 2] != hex_digit(sum >> 4) || s[n - 1] != hex_digit(sum & 15))
        return WRONG_SUM;
    h->opening = r->stage;
    h->station[0] = s[0];
    h->station[1] = s[1];
    h->letter = s[2];
    h->len = n - DR_HEADER - 2;
    memcpy(lent, s + DR_HEADER, h->len);
    return MESSAGE;
}

static int drives_step(struct drives *r, const u8 *piece, size n, u8 *lent, size room, struct drives_header *h, size *used, u16 *lost)
{
    *used = 0;
    if (r->stage == DR_LOOKING ? r->count != 0 : !opens(r->stage) || DR_COUNT_MAX < r->count)
        return SPOILT;
    if (room < LENT)
        return NO_ROOM;
    for (size i = 0; i < n; i++) {
        u8 b = piece[i];
        int answer;
        if (r->stage == DR_LOOKING) {
            if (opens(b))
                r->stage = b;
        } else if (b == EOT) {
            answer = drives_judge(r, lent, h);
            *lost = (u16)(r->count + 2);
            r->stage = DR_LOOKING;
            r->count = 0;
            *used = i + 1;
            return answer;
        } else {
            if (r->count < DR_HELD)
                r->held[r->count] = b;
            if (r->count < DR_COUNT_MAX)
                r->count++;
        }
    }
    *used = n;
    return DONE;
}

/* ---- the host: as `pace_reading` */

struct tally {
    size messages, damages, lost, check;
};

static size piece_end(size at, size end, size piece, size len)
{
    if (at < end)
        return end;
    return piece < len - at ? at + piece : len;
}

static size checked(size check, u8 code, const u8 *payload, size n)
{
    size sum = 0;
    for (size i = 0; i < n; i++)
        sum += payload[i];
    return check * 3 + code + sum;
}

/* of a reader's answers: 21 is a damage */
static int refuses(int answer)
{
    return answer > WRONG_LENGTH_BYTE && answer != WRONG_CHARACTER;
}

/* one function a family, the same but for its reader and its code byte */
#define OF(family, code)                                                                                   \
    static struct tally of_##family(const u8 *input, size len, size piece, u8 *lent)                       \
    {                                                                                                      \
        struct family r = {0};                                                                             \
        struct tally t = {0, 0, 0, 0};                                                                     \
        size at = 0, end = 0;                                                                              \
        while (at < len) {                                                                                 \
            struct family##_header h;                                                                      \
            size used;                                                                                     \
            u16 lost;                                                                                      \
            end = piece_end(at, end, piece, len);                                                          \
            int answer = family##_step(&r, input + at, end - at, lent, LENT, &h, &used, &lost);            \
            at += used;                                                                                    \
            if (answer == MESSAGE) {                                                                       \
                t.messages++;                                                                              \
                t.check = checked(t.check, h.code, lent, h.len);                                           \
            } else if (refuses(answer)) {                                                                  \
                break;                                                                                     \
            } else if (answer != DONE) {                                                                   \
                t.damages++;                                                                               \
                t.lost += lost;                                                                            \
            }                                                                                              \
        }                                                                                                  \
        return t;                                                                                          \
    }

OF(comlynx, kind)
OF(eversolar, function)
OF(fronius, command)
OF(drives, letter)

int main(void)
{
    static u8 input[INPUT];
    u8 lent[LENT], first[3] = {0};
    struct tally t = {0, 0, 0, 0};
    read_full(first, 3);
    size len = read_full(input, INPUT);
    size piece = (size)(first[1] << 8 | first[2]);
    if (piece == 0)
        piece = INPUT;
    switch (first[0]) {
    case 1:
        t = of_comlynx(input, len, piece, lent);
        break;
    case 2:
        t = of_eversolar(input, len, piece, lent);
        break;
    case 3:
        t = of_fronius(input, len, piece, lent);
        break;
    case 4:
        t = of_drives(input, len, piece, lent);
        break;
    }
    print(first[0], ' ');
    print(t.messages, ' ');
    print(t.damages, ' ');
    print(t.lost, ' ');
    print(t.check, '\n');
    return 0;
}
