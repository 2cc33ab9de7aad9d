/* What the C programs of this folder share: names of types, the answer numbers, and how a host reads and prints. No header of a C library is
 * at hand where they are built. */
typedef unsigned char u8;
typedef unsigned short u16;
typedef unsigned int u32;
typedef unsigned long size;

/* the answer numbers of documents 01 and 02: 2 to 7 are damages, 8 to 19 refusals, and 21 is either */
enum {
    DONE = 0,
    MESSAGE = 1,
    BROKEN_PAIR = 2,
    WRONG_BODY_LENGTH = 3, /* of a whole ComLynx body: not 10 to 265 bytes; of a drive's frame: not 7 to 44, in a reply 7 to 39 */
    WRONG_START = 4,
    WRONG_SIZE = 5,
    WRONG_SUM = 6,
    WRONG_LENGTH_BYTE = 7, /* Fronius: 81 to FF where the length byte is due */
    TOO_LONG = 8,
    NO_ROOM = 9,
    WRONG_MARK = 10,
    WRONG_VERSION = 11,
    WRONG_PORT_OR_COUNT = 12, /* a port that packets of this version do not carry, or a packet's count that is not 1 to 240 */
    BYTES_MISSING = 13,
    ROSTER_FULL = 14,
    EXPONENT_TOO_HIGH = 15,                 /* above 10, in a measured value */
    WRONG_ADDRESS_OR_EXPONENT_TOO_LOW = 16, /* an address out of range, or free where one is removed; or an exponent below -3 */
    NOT_FOR_THIS_CALL = 17,                 /* a message, a serial or an attempt that this call does not take */
    SPOILT = 18,
    TOO_MANY_PACKETS = 19,
    WRONG_CHARACTER = 21 /* drives: a character outside its set, a damage to the reader and a refusal of the writer */
};

enum { LOST_MAX = 65535 }; /* the number of lost bytes that stands for itself or more */

/* what every program that knows drives needs of them: opening bytes and end, the limits of a frame, and the sets of characters */
enum { EOT = 0x04, ENQ = 0x05, ACK = 0x06, NAK = 0x15 };
enum { DR_LEAST = 7, DR_REQUEST = 44, DR_REPLY = 39 };

static inline int opens(u8 b)
{
    return b == ENQ || b == ACK || b == NAK;
}

static inline size frame_most(u8 opening)
{
    return opening == ENQ ? DR_REQUEST : DR_REPLY;
}

static inline int is_hex(u8 c)
{
    return ('0' <= c && c <= '9') || ('A' <= c && c <= 'F');
}

static inline int is_letter(u8 c)
{
    return c == 'R' || c == 'W' || c == 'X' || c == 'Y';
}

static inline u8 hex_digit(u8 n)
{
    return (u8)(n < 10 ? '0' + n : 'A' + n - 10);
}

long read(int file, void *to, size most);
long write(int file, const void *from, size count);
void *memcpy(void *to, const void *from, size count);
void *memmove(void *to, const void *from, size count);
int memcmp(const void *a, const void *b, size count);

/* reads until there are so many bytes or no more */
static inline size read_full(u8 *to, size most)
{
    size len = 0;
    long more;
    while (len < most && (more = read(0, to + len, most - len)) > 0)
        len += (size)more;
    return len;
}

/* prints a number in decimal, and what comes after it */
static inline void print(size n, char after)
{
    char text[21];
    size at = 20;
    text[20] = after;
    do {
        text[--at] = (char)('0' + n % 10);
        n /= 10;
    } while (n);
    write(1, text + at, 21 - at);
}
