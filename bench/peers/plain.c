/* A peer: a plain C interpreter, which computes a packed instruction lane by lane. */
#include "player.h"

/* A register as its lanes, the lowest first: bytes, words and doublewords, unsigned and signed. */
union lanes {
    uint64_t whole;
    uint8_t bytes[8];
    int8_t signed_bytes[8];
    uint16_t words[4];
    int16_t signed_words[4];
    uint32_t doublewords[2];
    int32_t signed_doublewords[2];
};

static int clamp(int x, int least, int most) {
    return x < least ? least : x > most ? most : x;
}

#define SIGNED_BYTE(X) clamp((X), INT8_MIN, INT8_MAX)
#define BYTE(X) clamp((X), 0, UINT8_MAX)
#define SIGNED_WORD(X) clamp((X), INT16_MIN, INT16_MAX)
#define WORD(X) clamp((X), 0, UINT16_MAX)

/* A case that puts an expression into each lane i of the result; d is the destination, s the source. */
#define EACH(SECOND, LANE, COUNT, EXPRESSION) \
    case SECOND: \
        for (int i = 0; i < COUNT; i++) r.LANE[i] = (EXPRESSION); \
        break;

/* The same for a shift: a count that is not below the lane's width moves every bit out, or leaves copies of the sign. */
#define SHIFT_EACH(SECOND, LANE, COUNT, WIDTH, OPERATOR) \
    case SECOND: \
        for (int i = 0; i < COUNT; i++) r.LANE[i] = s.whole < WIDTH ? d.LANE[i] OPERATOR s.whole : 0; \
        break;
#define SHIFT_SIGNED(SECOND, LANE, COUNT, WIDTH) EACH(SECOND, LANE, COUNT, d.LANE[i] >> (s.whole < WIDTH ? s.whole : WIDTH - 1))

static void operate(unsigned second, uint64_t *destination, const uint64_t *source) {
    const union lanes d = {.whole = *destination}, s = {.whole = *source};
    union lanes r = d;
    switch (second) {
    EACH(0x60, bytes, 8, i % 2 ? s.bytes[i / 2] : d.bytes[i / 2])
    EACH(0x61, words, 4, i % 2 ? s.words[i / 2] : d.words[i / 2])
    EACH(0x62, doublewords, 2, i % 2 ? s.doublewords[0] : d.doublewords[0])
    EACH(0x63, signed_bytes, 8, SIGNED_BYTE(i < 4 ? d.signed_words[i] : s.signed_words[i - 4]))
    EACH(0x64, bytes, 8, d.signed_bytes[i] > s.signed_bytes[i] ? 0xFF : 0)
    EACH(0x65, words, 4, d.signed_words[i] > s.signed_words[i] ? 0xFFFF : 0)
    EACH(0x66, doublewords, 2, d.signed_doublewords[i] > s.signed_doublewords[i] ? 0xFFFFFFFF : 0)
    EACH(0x67, bytes, 8, BYTE(i < 4 ? d.signed_words[i] : s.signed_words[i - 4]))
    EACH(0x68, bytes, 8, i % 2 ? s.bytes[4 + i / 2] : d.bytes[4 + i / 2])
    EACH(0x69, words, 4, i % 2 ? s.words[2 + i / 2] : d.words[2 + i / 2])
    EACH(0x6A, doublewords, 2, i % 2 ? s.doublewords[1] : d.doublewords[1])
    EACH(0x6B, signed_words, 4, SIGNED_WORD(i < 2 ? d.signed_doublewords[i] : s.signed_doublewords[i - 2]))
    EACH(0x74, bytes, 8, d.bytes[i] == s.bytes[i] ? 0xFF : 0)
    EACH(0x75, words, 4, d.words[i] == s.words[i] ? 0xFFFF : 0)
    EACH(0x76, doublewords, 2, d.doublewords[i] == s.doublewords[i] ? 0xFFFFFFFF : 0)
    SHIFT_EACH(0xD1, words, 4, 16, >>)
    SHIFT_EACH(0xD2, doublewords, 2, 32, >>)
    case 0xD3: r.whole = s.whole < 64 ? d.whole >> s.whole : 0; break;
    EACH(0xD5, words, 4, d.signed_words[i] * s.signed_words[i])
    EACH(0xD8, bytes, 8, BYTE(d.bytes[i] - s.bytes[i]))
    EACH(0xD9, words, 4, WORD(d.words[i] - s.words[i]))
    case 0xDB: r.whole = d.whole & s.whole; break;
    EACH(0xDC, bytes, 8, BYTE(d.bytes[i] + s.bytes[i]))
    EACH(0xDD, words, 4, WORD(d.words[i] + s.words[i]))
    case 0xDF: r.whole = ~d.whole & s.whole; break;
    SHIFT_SIGNED(0xE1, signed_words, 4, 16)
    SHIFT_SIGNED(0xE2, signed_doublewords, 2, 32)
    EACH(0xE5, words, 4, d.signed_words[i] * s.signed_words[i] >> 16)
    EACH(0xE8, signed_bytes, 8, SIGNED_BYTE(d.signed_bytes[i] - s.signed_bytes[i]))
    EACH(0xE9, signed_words, 4, SIGNED_WORD(d.signed_words[i] - s.signed_words[i]))
    case 0xEB: r.whole = d.whole | s.whole; break;
    EACH(0xEC, signed_bytes, 8, SIGNED_BYTE(d.signed_bytes[i] + s.signed_bytes[i]))
    EACH(0xED, signed_words, 4, SIGNED_WORD(d.signed_words[i] + s.signed_words[i]))
    case 0xEF: r.whole = d.whole ^ s.whole; break;
    SHIFT_EACH(0xF1, words, 4, 16, <<)
    SHIFT_EACH(0xF2, doublewords, 2, 32, <<)
    case 0xF3: r.whole = s.whole < 64 ? d.whole << s.whole : 0; break;
    EACH(0xF5, doublewords, 2, (uint32_t)(d.signed_words[2 * i] * s.signed_words[2 * i])
        + (uint32_t)(d.signed_words[2 * i + 1] * s.signed_words[2 * i + 1]))
    EACH(0xF8, bytes, 8, d.bytes[i] - s.bytes[i])
    EACH(0xF9, words, 4, d.words[i] - s.words[i])
    EACH(0xFA, doublewords, 2, d.doublewords[i] - s.doublewords[i])
    EACH(0xFC, bytes, 8, d.bytes[i] + s.bytes[i])
    EACH(0xFD, words, 4, d.words[i] + s.words[i])
    EACH(0xFE, doublewords, 2, d.doublewords[i] + s.doublewords[i])
    }
    *destination = r.whole;
}
