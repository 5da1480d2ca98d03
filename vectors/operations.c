/* What the program `operations` prints, from the processor's own MMX instructions: one for each operation, by its name, on the numbers of the
   same generator. The order is that of the operations' numbers in crate `lanes`; then come its functions beside them. */
#include <mmintrin.h>
#include <stdint.h>
#include <stdio.h>

/* X takes an instruction's name; the others have functions of their own. MOVE leaves the source, KEEP (no operation) the destination, and so do
   MASKMOVQ and PINSRW as operations, which have no third number. */
#define OPERATIONS(X, OTHER) \
    X(PUNPCKLBW) X(PUNPCKLWD) X(PUNPCKLDQ) X(PACKSSWB) X(PACKUSWB) X(PACKSSDW) X(PCMPGTB) X(PCMPGTW) X(PCMPGTD) X(PUNPCKHBW) X(PUNPCKHWD) \
    X(PUNPCKHDQ) OTHER(MOVE) X(PCMPEQB) X(PCMPEQW) X(PCMPEQD) X(PSRLW) X(PSRLD) X(PSRLQ) X(PSRAW) X(PSRAD) X(PSLLW) X(PSLLD) X(PSLLQ) \
    X(PMULLW) X(PMULHW) X(PMADDWD) X(PSUBUSB) X(PSUBUSW) X(PADDUSB) X(PADDUSW) X(PSUBSB) X(PSUBSW) X(PADDSB) X(PADDSW) X(PAND) X(PANDN) \
    X(POR) X(PXOR) X(PSUBB) X(PSUBW) X(PSUBD) X(PADDB) X(PADDW) X(PADDD) OTHER(MASKMOVQ) X(PAVGB) X(PAVGW) OTHER(PEXTRW) OTHER(PINSRW) \
    X(PMAXSW) X(PMAXUB) X(PMINSW) X(PMINUB) OTHER(PMOVMSKB) X(PMULHUW) X(PSADBW) OTHER(PSHUFW) OTHER(KEEP) \
    OTHER(extract) OTHER(insert) OTHER(shuffle) OTHER(top_bits) OTHER(blend)

static __m64 mmx(uint64_t number) {
    return _mm_cvtsi64_m64((long long)number);
}

static uint64_t number(__m64 mmx) {
    return (uint64_t)_mm_cvtm64_si64(mmx);
}

#define DEFINE(NAME) \
    static uint64_t NAME(uint64_t destination, uint64_t source, uint64_t third) { \
        __m64 result = mmx(destination); \
        (void)third; \
        __asm__(#NAME " %1, %0" : "+y"(result) : "y"(mmx(source))); \
        return number(result); \
    }
#define LEAVE_OUT(NAME)
OPERATIONS(DEFINE, LEAVE_OUT)

static uint64_t MOVE(uint64_t destination, uint64_t source, uint64_t third) {
    (void)destination, (void)third;
    return source;
}

static uint64_t KEEP(uint64_t destination, uint64_t source, uint64_t third) {
    (void)source, (void)third;
    return destination;
}

/* An immediate byte stands in the instruction: one for each. */
#define FOUR(CASE, N) CASE(N) CASE(N + 1) CASE(N + 2) CASE(N + 3)
#define SIXTEEN(CASE, N) FOUR(CASE, N) FOUR(CASE, N + 4) FOUR(CASE, N + 8) FOUR(CASE, N + 12)
#define SIXTY_FOUR(CASE, N) SIXTEEN(CASE, N) SIXTEEN(CASE, N + 16) SIXTEEN(CASE, N + 32) SIXTEEN(CASE, N + 48)
#define EVERY(CASE) SIXTY_FOUR(CASE, 0) SIXTY_FOUR(CASE, 64) SIXTY_FOUR(CASE, 128) SIXTY_FOUR(CASE, 192)

static uint64_t extract(uint64_t source, uint64_t place, uint64_t third) {
    uint32_t result = 0;
    (void)third;
#define EXTRACT(N) case N: __asm__("PEXTRW %2, %1, %0" : "=r"(result) : "y"(mmx(source)), "i"(N)); break;
    switch (place % 256) { EVERY(EXTRACT) }
    return result;
}

static uint64_t insert(uint64_t destination, uint64_t source, uint64_t place) {
    __m64 result = mmx(destination);
#define INSERT(N) case N: __asm__("PINSRW %2, %1, %0" : "+y"(result) : "r"((uint32_t)source), "i"(N)); break;
    switch (place % 256) { EVERY(INSERT) }
    return number(result);
}

static uint64_t shuffle(uint64_t source, uint64_t order, uint64_t third) {
    __m64 result = mmx(0);
    (void)third;
#define SHUFFLE(N) case N: __asm__("PSHUFW %2, %1, %0" : "=y"(result) : "y"(mmx(source)), "i"(N)); break;
    switch (order % 256) { EVERY(SHUFFLE) }
    return number(result);
}

static uint64_t top_bits(uint64_t source, uint64_t second, uint64_t third) {
    uint32_t result;
    (void)second, (void)third;
    __asm__("PMOVMSKB %1, %0" : "=r"(result) : "y"(mmx(source)));
    return result;
}

/* The destination stands in memory, at (E)DI. */
static uint64_t blend(uint64_t destination, uint64_t source, uint64_t mask) {
    __asm__ volatile("MASKMOVQ %2, %1" : "+m"(destination) : "y"(mmx(source)), "y"(mmx(mask)), "D"(&destination) : "memory");
    return destination;
}

#define PEXTRW extract
#define PSHUFW shuffle
#define PMOVMSKB top_bits
#define MASKMOVQ KEEP
#define PINSRW KEEP

static uint64_t next(uint64_t x) {
    x ^= x << 13;
    x ^= x >> 7;
    return x ^ x << 17;
}

/* The source of a round, in turn: any number; one that is a shift count about as often as not; the destination but for one byte. */
static uint64_t source_of(uint64_t x, uint64_t destination, int round) {
    return round % 3 == 0 ? x : round % 3 == 1 ? x % 72 : destination ^ (x & UINT64_C(0xFF00000000));
}

/* The third number of a round is the generator's next one. */
static void print(const char *name, uint64_t (*operate)(uint64_t, uint64_t, uint64_t)) {
    uint64_t destination = UINT64_C(0x0123456789ABCDEF), source = UINT64_C(0x80007FFFFF80017F), total = 1;
    for (int round = 0; round < 1000; round++) {
        uint64_t third = next(source);
        total = next(total) + operate(destination, source_of(source, destination, round), third);
        destination = next(destination);
        source = third;
    }
    _mm_empty();
    printf("%-10s%016llx\n", name, (unsigned long long)total);
}

int main(void) {
#define PRINT(NAME) print(#NAME, NAME);
    OPERATIONS(PRINT, PRINT)
    return 0;
}
