/* A peer: a C interpreter that executes the processor's own MMX instruction for each packed one of a block. No floating point is computed after
   it, so that no EMMS is needed. */
#include "player.h"

#define CASE(SECOND, NAME) \
    case SECOND: __asm__("movq %0, %%mm0; " #NAME " %1, %%mm0; movq %%mm0, %0" : "+m"(*destination) : "m"(*source) : "mm0"); break;

static void operate(unsigned second, uint64_t *destination, const uint64_t *source) {
    switch (second) {
    CASE(0x60, punpcklbw) CASE(0x61, punpcklwd) CASE(0x62, punpckldq) CASE(0x63, packsswb) CASE(0x64, pcmpgtb) CASE(0x65, pcmpgtw)
    CASE(0x66, pcmpgtd) CASE(0x67, packuswb) CASE(0x68, punpckhbw) CASE(0x69, punpckhwd) CASE(0x6A, punpckhdq) CASE(0x6B, packssdw)
    CASE(0x74, pcmpeqb) CASE(0x75, pcmpeqw) CASE(0x76, pcmpeqd) CASE(0xD1, psrlw) CASE(0xD2, psrld) CASE(0xD3, psrlq)
    CASE(0xD5, pmullw) CASE(0xD8, psubusb) CASE(0xD9, psubusw) CASE(0xDB, pand) CASE(0xDC, paddusb) CASE(0xDD, paddusw)
    CASE(0xDF, pandn) CASE(0xE1, psraw) CASE(0xE2, psrad) CASE(0xE5, pmulhw) CASE(0xE8, psubsb) CASE(0xE9, psubsw)
    CASE(0xEB, por) CASE(0xEC, paddsb) CASE(0xED, paddsw) CASE(0xEF, pxor) CASE(0xF1, psllw) CASE(0xF2, pslld)
    CASE(0xF3, psllq) CASE(0xF5, pmaddwd) CASE(0xF8, psubb) CASE(0xF9, psubw) CASE(0xFA, psubd) CASE(0xFC, paddb)
    CASE(0xFD, paddw) CASE(0xFE, paddd)
    }
}
