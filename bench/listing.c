/* `sbrlist` in plain C, for the bench to measure beside: the same listing, byte for byte. A state machine for each family,
 * its state in a struct; input and output through buffers of 64 KiB, and a packet's bytes read where they lie. */
#include "host.h"

enum { BUFFER = 65536, PACKETS = 65536, LEAD = 7, PIECE_MAX = 240 };

/* ---- output: a buffer, and what was counted */

enum { TEXT_MAX = 544 }; /* no line of text is longer: 255 bytes of payload are 510 digits */

struct listing {
    u8 text[BUFFER];
    size count;
    size messages, damages;
    int failed; /* a write did */
};

static const char digits[16] = {'0', '1', '2', '3', '4', '5', '6', '7', '8', '9', 'A', 'B', 'C', 'D', 'E', 'F'};

static void flush(struct listing *l)
{
    size done = 0;
    while (done < l->count && !l->failed) {
        long wrote = write(1, l->text + done, l->count - done);
        if (wrote <= 0)
            l->failed = 1;
        else
            done += (size)wrote;
    }
    l->count = 0;
}

/* where the next line is to be put */
static u8 *line_at(struct listing *l)
{
    if (BUFFER - l->count < TEXT_MAX)
        flush(l);
    return l->text + l->count;
}

static void line_ends(struct listing *l, u8 *p)
{
    *p++ = '\n';
    l->count = (size)(p - l->text);
}

static u8 *put_hex(u8 *p, const u8 *s, size n)
{
    for (size i = 0; i < n; i++) {
        *p++ = (u8)digits[s[i] >> 4];
        *p++ = (u8)digits[s[i] & 15];
    }
    return p;
}

static u8 *put_decimal(u8 *p, size n)
{
    u8 text[20];
    size at = 20;
    do {
        text[--at] = (u8)('0' + n % 10);
        n /= 10;
    } while (n);
    while (at < 20)
        *p++ = text[at++];
    return p;
}

static u8 *put_word(u8 *p, const char *word)
{
    while (*word)
        *p++ = (u8)*word++;
    return p;
}

/* each of the four fields; an empty one is a dash */
static u8 *put_field(u8 *p, const u8 *s, size n)
{
    *p++ = ' ';
    if (n == 0) {
        *p++ = '-';
        return p;
    }
    return put_hex(p, s, n);
}

static void message(struct listing *l, char port, const u8 *from, size from_len, const u8 *to, const u8 *code, size code_len,
                    const u8 *payload, size len)
{
    u8 *p = line_at(l);
    *p++ = (u8)port;
    *p++ = ' ';
    *p++ = '1';
    p = put_field(p, from, from_len);
    p = put_field(p, to, 2);
    p = put_field(p, code, code_len);
    p = put_field(p, payload, len);
    line_ends(l, p);
    l->messages++;
}

static void damage(struct listing *l, char port, int number, size lost)
{
    u8 *p = line_at(l);
    *p++ = (u8)port;
    *p++ = ' ';
    p = put_decimal(p, (size)number);
    *p++ = ' ';
    line_ends(l, put_decimal(p, lost < LOST_MAX ? lost : LOST_MAX));
    l->damages++;
}

/* ---- ComLynx */

enum { CL_HEADER = 8, CL_BODY = 265, CL_TOO_MANY = CL_BODY + 1 };
enum { CL_BEFORE, CL_INSIDE, CL_ESCAPED, CL_BROKEN };
enum { FLAG = 0x7e, ESCAPE = 0x7d, FLAG_PAIR = 0x5e, ESCAPE_PAIR = 0x5d };

struct comlynx {
    u8 held[CL_BODY]; /* the unstuffed bytes of the stretch */
    u8 stage;
    size came;  /* how many bytes have come since the flag, as they were sent */
    size count; /* how many are held; CL_TOO_MANY where there were more than fit */
};

#include "checksum.h"

static void comlynx_keep(struct comlynx *r, u8 b)
{
    if (r->count < CL_BODY)
        r->held[r->count++] = b;
    else
        r->count = CL_TOO_MANY;
}

/* the checks of a closed stretch, in order; 0 where all hold */
static int comlynx_judge(const struct comlynx *r)
{
    const u8 *s = r->held;
    size n = r->count;
    if (n < CL_HEADER + 2 || CL_BODY < n)
        return WRONG_BODY_LENGTH;
    if (s[0] != 0xff || s[1] != 0x03)
        return WRONG_START;
    if (s[6] != n - CL_HEADER - 2)
        return WRONG_SIZE;
    if (checksum(s, n - 2) != (s[n - 2] | s[n - 1] << 8))
        return WRONG_SUM;
    return 0;
}

static void comlynx_close(struct comlynx *r, struct listing *l)
{
    const u8 *s = r->held;
    int wrong = comlynx_judge(r);
    if (wrong)
        damage(l, '1', wrong, r->came);
    else
        message(l, '1', s + 2, 2, s + 4, s + 7, 1, s + CL_HEADER, s[6]);
    r->came = 0;
    r->count = 0;
}

static void comlynx_take(struct comlynx *r, const u8 *piece, size n, struct listing *l)
{
    for (size i = 0; i < n; i++) {
        u8 b = piece[i];
        switch (r->stage) {
        case CL_BEFORE:
            if (b == FLAG)
                r->stage = CL_INSIDE;
            break;
        case CL_INSIDE:
            if (b == FLAG) {
                if (r->count != 0)
                    comlynx_close(r, l);
            } else if (b == ESCAPE) {
                r->stage = CL_ESCAPED;
                r->came++;
            } else {
                comlynx_keep(r, b);
                r->came++;
            }
            break;
        case CL_ESCAPED:
            if (b == FLAG_PAIR || b == ESCAPE_PAIR) {
                r->stage = CL_INSIDE;
                comlynx_keep(r, b ^ 0x20);
                r->came++;
                break;
            }
            r->stage = CL_BROKEN;
            /* fall through: the byte may be the flag */
        default:
            if (b == FLAG) {
                damage(l, '1', BROKEN_PAIR, r->came);
                r->stage = CL_INSIDE;
                r->came = 0;
                r->count = 0;
            } else {
                r->came++;
            }
        }
    }
}

/* ---- Eversolar */

enum { ES_HEADER = 7, ES_PAYLOAD = 255, ES_BODY = ES_HEADER + ES_PAYLOAD + 2 };
enum { ES_LOOKING, ES_MARK_SEEN, ES_FRAME };

struct eversolar {
    u8 held[ES_BODY]; /* the bytes since AA 55 */
    u8 stage;
    size count; /* how many are held */
    size whole; /* how many a whole frame has: known with the length */
};

static void eversolar_close(struct eversolar *r, struct listing *l)
{
    const u8 *s = r->held;
    size n = r->whole - 2;
    u32 sum = 0xaa + 0x55;
    for (size i = 0; i < n; i++)
        sum += s[i];
    if ((sum & 0xffff) != (u32)(s[n] << 8 | s[n + 1]))
        damage(l, '2', WRONG_SUM, 2 + r->whole);
    else
        message(l, '2', s, 2, s + 2, s + 4, 2, s + ES_HEADER, n - ES_HEADER);
}

static void eversolar_take(struct eversolar *r, const u8 *piece, size n, struct listing *l)
{
    for (size i = 0; i < n; i++) {
        u8 b = piece[i];
        switch (r->stage) {
        case ES_LOOKING:
            if (b == 0xaa)
                r->stage = ES_MARK_SEEN;
            break;
        case ES_MARK_SEEN:
            if (b == 0x55) {
                r->stage = ES_FRAME;
                r->count = 0;
                r->whole = ES_BODY;
            } else if (b != 0xaa) {
                r->stage = ES_LOOKING;
            }
            break;
        default:
            r->held[r->count++] = b;
            if (r->count == ES_HEADER)
                r->whole = (size)(ES_HEADER + b + 2);
            if (r->count == r->whole) {
                eversolar_close(r, l);
                r->stage = ES_LOOKING;
            }
        }
    }
}

/* ---- Fronius */

enum { FR_HEADER = 3, FR_PAYLOAD = 127, FR_BODY = FR_HEADER + FR_PAYLOAD + 1 };
enum { FR_START, FR_FRAME };

struct fronius {
    u8 held[FR_BODY]; /* device, number, command, payload, checksum */
    u8 stage;
    size count; /* at the start the successive 80s seen, to 3; in a frame how many bytes are held */
    size whole; /* in a frame how many it has */
};

static void fronius_close(struct fronius *r, struct listing *l)
{
    const u8 *s = r->held;
    size n = r->whole - 1;
    u8 sum = (u8)(n - FR_HEADER);
    for (size i = 0; i < n; i++)
        sum = (u8)(sum + s[i]);
    if (sum != s[n])
        damage(l, '3', WRONG_SUM, 4 + r->whole);
    else
        message(l, '3', s, 0, s, s + 2, 1, s + FR_HEADER, n - FR_HEADER);
}

static void fronius_take(struct fronius *r, const u8 *piece, size n, struct listing *l)
{
    for (size i = 0; i < n; i++) {
        u8 b = piece[i];
        switch (r->stage) {
        case FR_START:
            if (r->count < 3) {
                if (b == 0x80)
                    r->count++;
                else
                    r->count = 0;
            } else if (b < 0x80) {
                r->stage = FR_FRAME;
                r->count = 0;
                r->whole = (size)(FR_HEADER + b + 1);
            } else if (b > 0x80) {
                r->count = 0;
                damage(l, '3', WRONG_LENGTH_BYTE, 4);
            }
            break;
        default:
            r->held[r->count++] = b;
            if (r->count == r->whole) {
                fronius_close(r, l);
                r->stage = FR_START;
                r->count = 0;
            }
        }
    }
}

/* ---- drives */

enum { DR_HEADER = 3, DR_HELD = DR_REQUEST - 2, DR_LOOKING = 0, DR_COUNT_MAX = LOST_MAX - 2 };

struct drives {
    u8 held[DR_HELD]; /* the characters since the opening byte, as far as there is room */
    u8 stage;         /* in a frame its opening byte */
    size count;       /* how many have come since; DR_COUNT_MAX stands for that or more */
};

/* the checks of a frame, in order; 0 where all hold */
static int drives_judge(const struct drives *r)
{
    const u8 *s = r->held;
    size n = r->count;
    u8 sum = 0;
    if (n + 2 < DR_LEAST || frame_most(r->stage) < n + 2)
        return WRONG_BODY_LENGTH;
    if (!is_hex(s[0]) || !is_hex(s[1]) || !is_letter(s[2]))
        return WRONG_CHARACTER;
    for (size i = DR_HEADER; i < n; i++)
        if (!is_hex(s[i]))
            return WRONG_CHARACTER;
    for (size i = 0; i < n - 2; i++)
        sum = (u8)(sum + s[i]);
    if (s[n - 2] != hex_digit(sum >> 4) || s[n - 1] != hex_digit(sum & 15))
        return WRONG_SUM;
    return 0;
}

static void drives_close(struct drives *r, struct listing *l)
{
    const u8 *s = r->held;
    int wrong = drives_judge(r);
    if (wrong)
        damage(l, '4', wrong, r->count + 2);
    else
        message(l, '4', &r->stage, 1, s, s + 2, 1, s + DR_HEADER, r->count - DR_HEADER - 2);
    r->stage = DR_LOOKING;
    r->count = 0;
}

static void drives_take(struct drives *r, const u8 *piece, size n, struct listing *l)
{
    for (size i = 0; i < n; i++) {
        u8 b = piece[i];
        if (r->stage == DR_LOOKING) {
            if (opens(b))
                r->stage = b;
        } else if (b == EOT) {
            drives_close(r, l);
        } else {
            if (r->count < DR_HELD)
                r->held[r->count] = b;
            if (r->count < DR_COUNT_MAX)
                r->count++;
        }
    }
}

/* ---- packets */

struct readers {
    struct comlynx comlynx;
    struct eversolar eversolar;
    struct fronius fronius;
    struct drives drives;
};

/* whether packets of a version carry a port */
static int carries(u8 version, u8 port)
{
    return version == 1 ? 1 <= port && port <= 3 : port == 4;
}

/* what is wrong with the packet at the front of n bytes; 0 where it is whole */
static int refusal(const u8 *s, size n)
{
    if (n < LEAD)
        return BYTES_MISSING;
    if (s[0] != 'S' || s[1] != 'B' || s[2] != 'R')
        return WRONG_MARK;
    if (s[3] != 0 || (s[4] != 1 && s[4] != 2))
        return WRONG_VERSION;
    if (!carries(s[4], s[5]) || s[6] < 1 || PIECE_MAX < s[6])
        return WRONG_PORT_OR_COUNT;
    if (n - LEAD < s[6])
        return BYTES_MISSING;
    return 0;
}

static void take(struct readers *r, u8 port, const u8 *piece, size n, struct listing *l)
{
    switch (port) {
    case 1:
        comlynx_take(&r->comlynx, piece, n, l);
        break;
    case 2:
        eversolar_take(&r->eversolar, piece, n, l);
        break;
    case 3:
        fronius_take(&r->fronius, piece, n, l);
        break;
    default:
        drives_take(&r->drives, piece, n, l);
    }
}

/* ---- input: what is read and not yet used lies from `at` to `end` */

struct input {
    u8 bytes[BUFFER];
    size at, end;
    int ended;
};

static void fill(struct input *in)
{
    static const char words[] = "listing: cannot read, so the input ends here\n";
    long got;
    memmove(in->bytes, in->bytes + in->at, in->end - in->at);
    in->end -= in->at;
    in->at = 0;
    got = read(0, in->bytes + in->end, BUFFER - in->end);
    if (got < 0)
        write(2, words, sizeof words - 1);
    if (got <= 0)
        in->ended = 1;
    else
        in->end += (size)got;
}

/* Lists packets until there is none more; the number that it stops with, or 0. What was listed is written before each read,
 * which may wait. */
static int list(struct input *in, struct readers *r, struct listing *l)
{
    size packets = 0;
    while (!l->failed) {
        size n = in->end - in->at;
        const u8 *s = in->bytes + in->at;
        int wrong = n && packets == PACKETS ? TOO_MANY_PACKETS : refusal(s, n);
        if (wrong == 0) {
            take(r, s[5], s + LEAD, s[6], l);
            in->at += (size)(LEAD + s[6]);
            packets++;
        } else if (wrong != BYTES_MISSING) {
            return wrong;
        } else if (in->ended) {
            return n ? wrong : 0;
        } else {
            flush(l);
            fill(in);
        }
    }
    return 0;
}

int main(void)
{
    static struct input in;
    static struct readers readers;
    static struct listing l;
    u8 *p = put_word(line_at(&l), "port answer from to code data");
    int stop;
    line_ends(&l, p);
    stop = list(&in, &readers, &l);
    if (stop) {
        p = put_decimal(put_word(line_at(&l), "stop "), (size)stop);
        line_ends(&l, p);
    }
    p = put_decimal(put_word(line_at(&l), "end "), l.messages);
    *p++ = ' ';
    line_ends(&l, put_decimal(p, l.damages));
    flush(&l);
    return l.failed;
}
