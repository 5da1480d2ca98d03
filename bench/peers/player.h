/* What the two peers share: a page file on standard input is played, and its text printed as the page program prints it. A peer that includes
   this defines `operate`. The program's argument is how often the page is played, each time from the same start; without one it is once. */
#include <stdbool.h>
#include <stdint.h>
#include <stdio.h>
#include <stdlib.h>
#include <string.h>

enum { LONGEST_FILE = 65536, LONGEST_CODE = 4096, LONGEST_MEMORY = 32768, BUDGET = 4096 };

/* How a run goes on: the numbers of document 01's refusals, and the ends that are none. */
enum {
    GOES_ON = 0, MEMORY_TOO_LONG = 1, CODE_TOO_LONG = 2, CODE_ENDS = 3, PREFIXED = 4, NOT_LISTED = 5, NOT_ALLOWED = 6, INVALID_OPCODE = 7,
    NOT_AVAILABLE = 8, IS_PENDING = 9, OUTSIDE_MEMORY = 10, MALFORMED = 13, DONE = 100, SPENT = 101
};

enum { EM = 1, TS = 2, PENDING = 4, VALID = 8, ZERO = 16, MARKS = 32 };

struct page {
    const uint8_t *code, *memory, *mmx, *integers, *marks;
    size_t code_length, memory_length;
};

struct machine {
    uint64_t mmx[8];
    uint32_t integers[8];
    uint8_t memory[LONGEST_MEMORY];
    size_t memory_length, at;
    unsigned count;
    int barred; /* the refusal that the control marks ask for, or GOES_ON */
    bool valid, zero; /* no instruction here changes the zero mark */
};

/* Performs the packed instruction with this second byte; a shift by an immediate comes as the shift by a register. */
static void operate(unsigned second, uint64_t *destination, const uint64_t *source);

/* The forms of the instructions, with the size of an operand in memory, and by the second byte. */
enum form { ABSENT, ALONE, LOAD_D, STORE_D, LOAD_Q, STORE_Q, SHIFT, LOW, USUAL };

static const uint8_t sizes[] = {[LOAD_D] = 4, [STORE_D] = 4, [LOAD_Q] = 8, [STORE_Q] = 8, [LOW] = 4, [USUAL] = 8};

static const uint8_t forms[256] = {
    [0x60 ... 0x62] = LOW, [0x63 ... 0x6B] = USUAL, [0x6E] = LOAD_D, [0x6F] = LOAD_Q, [0x71 ... 0x73] = SHIFT, [0x74 ... 0x76] = USUAL,
    [0x77] = ALONE, [0x7E] = STORE_D, [0x7F] = STORE_Q, [0xD1 ... 0xD3] = USUAL, [0xD5] = USUAL, [0xD8 ... 0xD9] = USUAL, [0xDB ... 0xDD] = USUAL,
    [0xDF] = USUAL, [0xE1 ... 0xE2] = USUAL, [0xE5] = USUAL, [0xE8 ... 0xE9] = USUAL, [0xEB ... 0xED] = USUAL, [0xEF] = USUAL,
    [0xF1 ... 0xF3] = USUAL, [0xF5] = USUAL, [0xF8 ... 0xFA] = USUAL, [0xFC ... 0xFE] = USUAL,
};

static bool is_prefix(unsigned byte) {
    switch (byte) {
    case 0x26: case 0x2E: case 0x36: case 0x3E: case 0x64: case 0x65: case 0x66: case 0x67: case 0xF0: case 0xF2: case 0xF3: return true;
    default: return false;
    }
}

static uint32_t load32(const uint8_t *from) {
    uint32_t x;
    memcpy(&x, from, sizeof x);
    return x;
}

static uint64_t load64(const uint8_t *from) {
    uint64_t x;
    memcpy(&x, from, sizeof x);
    return x;
}

/* The address of the operand in memory whose ModRM byte was read; false where the code ends inside it. */
static bool read_address(const uint32_t *integers, const uint8_t *code, size_t length, unsigned modrm, size_t *at, uint32_t *address) {
    const unsigned mode = modrm >> 6;
    unsigned base = modrm & 7;
    uint32_t sum = 0;
    if (base == 4) {
        if (*at >= length) return false;
        const unsigned sib = code[(*at)++], index = sib >> 3 & 7;
        base = sib & 7;
        if (index != 4) sum = integers[index] << (sib >> 6);
    }
    const bool has_base = mode != 0 || base != 5;
    if (has_base) sum += integers[base];
    if (mode == 1) {
        if (*at >= length) return false;
        sum += (uint32_t)(int8_t)code[(*at)++];
    } else if (mode == 2 || !has_base) {
        if (length - *at < 4) return false;
        sum += load32(code + *at);
        *at += 4;
    }
    *address = sum;
    return true;
}

/* One instruction at a position below the length: it goes on after the instruction, or a refusal has changed nothing. */
static int step(struct machine *m, const uint8_t *code, size_t length, size_t *position) {
    size_t at = *position;
    const unsigned first = code[at++];
    if (first != 0x0F) return is_prefix(first) ? PREFIXED : NOT_LISTED;
    if (at >= length) return CODE_ENDS;
    unsigned second = code[at++];
    const enum form form = forms[second];
    if (form == ABSENT) return NOT_LISTED;
    if (form == ALONE) {
        if (m->barred) return m->barred;
        m->valid = false;
        *position = at;
        return GOES_ON;
    }
    if (at >= length) return CODE_ENDS;
    const unsigned modrm = code[at++], reg = modrm >> 3 & 7, rm = modrm & 7;
    const bool in_register = modrm >= 0xC0;
    uint32_t address = 0;
    unsigned immediate = 0;
    if (form == SHIFT) {
        if (!in_register || (reg != 2 && reg != 6 && (reg != 4 || second == 0x73))) return NOT_ALLOWED;
        if (at >= length) return CODE_ENDS;
        immediate = code[at++];
        second += 0x50 + 8 * reg;
    } else if (!in_register && !read_address(m->integers, code, length, modrm, &at, &address)) {
        return CODE_ENDS;
    }
    if (m->barred) return m->barred;
    if (!in_register && (uint64_t)address + sizes[form] > m->memory_length) return OUTSIDE_MEMORY;
    uint8_t *const place = m->memory + address;
    uint64_t *destination = &m->mmx[reg], source;
    m->valid = true;
    *position = at;
    switch (form) {
    case LOAD_D: *destination = in_register ? m->integers[rm] : load32(place); return GOES_ON;
    case LOAD_Q: *destination = in_register ? m->mmx[rm] : load64(place); return GOES_ON;
    case STORE_D:
        if (in_register) m->integers[rm] = (uint32_t)m->mmx[reg];
        else memcpy(place, &m->mmx[reg], 4);
        return GOES_ON;
    case STORE_Q:
        if (in_register) m->mmx[rm] = m->mmx[reg];
        else memcpy(place, &m->mmx[reg], 8);
        return GOES_ON;
    case SHIFT:
        destination = &m->mmx[rm];
        source = immediate;
        break;
    case LOW: source = in_register ? m->mmx[rm] : load32(place); break;
    default: source = in_register ? m->mmx[rm] : load64(place); break;
    }
    operate(second, destination, &source);
    return GOES_ON;
}

/* How the run of a code ends: done, spent or refused. */
static int run(struct machine *m, const uint8_t *code, size_t length) {
    size_t at = 0;
    unsigned count = 0;
    int end = DONE;
    while (at < length) {
        end = count < BUDGET ? step(m, code, length, &at) : SPENT;
        if (end != GOES_ON) break;
        end = DONE;
        count++;
    }
    m->at = at;
    m->count = count;
    return end;
}

static void start(struct machine *m, const struct page *page) {
    const uint8_t marks = *page->marks;
    memcpy(m->mmx, page->mmx, sizeof m->mmx);
    memcpy(m->integers, page->integers, sizeof m->integers);
    memcpy(m->memory, page->memory, page->memory_length);
    m->memory_length = page->memory_length;
    m->barred = marks & EM ? INVALID_OPCODE : marks & TS ? NOT_AVAILABLE : marks & PENDING ? IS_PENDING : GOES_ON;
    m->valid = marks & VALID;
    m->zero = marks & ZERO;
}

/* The parts of a page file: fields with ascending tags, each of a length that its tag may have. A part that is absent is empty or zero. */
static int read_page(const uint8_t *file, size_t length, struct page *page) {
    static const uint8_t zeros[64];
    *page = (struct page){.code = zeros, .memory = zeros, .mmx = zeros, .integers = zeros, .marks = zeros};
    if (length > LONGEST_FILE) return MALFORMED;
    uint8_t last = 0;
    for (size_t at = 0; at < length;) {
        if (length - at < 3) return MALFORMED;
        const uint8_t tag = file[at];
        const size_t held = file[at + 1] | (size_t)file[at + 2] << 8;
        const uint8_t *const contents = file + at + 3;
        if (tag <= last || length - at - 3 < held) return MALFORMED;
        switch (tag) {
        case 1: page->code = contents; page->code_length = held; break;
        case 2: page->memory = contents; page->memory_length = held; break;
        case 3: if (held != 64) return MALFORMED; page->mmx = contents; break;
        case 4: if (held != 32) return MALFORMED; page->integers = contents; break;
        case 5: if (held != 1 || *contents >= MARKS) return MALFORMED; page->marks = contents; break;
        default: return MALFORMED;
        }
        last = tag;
        at += 3 + held;
    }
    if (page->memory_length > LONGEST_MEMORY) return MEMORY_TOO_LONG;
    return page->code_length > LONGEST_CODE ? CODE_TOO_LONG : GOES_ON;
}

static void print(const struct machine *m, int end) {
    static const char *const names[8] = {"eax", "ecx", "edx", "ebx", "esp", "ebp", "esi", "edi"};
    if (end == DONE || end == SPENT) fputs(end == DONE ? "done" : "spent", stdout);
    else printf("refused %d", end);
    printf(" %u at %zu\n", m->count, m->at);
    for (int k = 0; k < 8; k++) printf("mm%d %016llX\n", k, (unsigned long long)m->mmx[k]);
    for (int k = 0; k < 8; k++) printf("%s %08X\n", names[k], (unsigned)m->integers[k]);
    printf("tags %s\nzero %d\nmemory %zu\n", m->valid ? "valid" : "empty", m->zero, m->memory_length);
    for (size_t i = 0; i < m->memory_length; i++) printf("%02X%c", m->memory[i], i % 16 == 15 || i + 1 == m->memory_length ? '\n' : ' ');
}

int main(int count, char **arguments) {
    static uint8_t file[LONGEST_FILE + 1];
    static struct machine machine;
    struct page page;
    const size_t length = fread(file, 1, sizeof file, stdin);
    const int refusal = read_page(file, length, &page);
    if (refusal) {
        printf("refused %d\n", refusal);
        return 0;
    }
    int end = DONE;
    for (long rounds = count > 1 ? atol(arguments[1]) : 1; rounds > 0; rounds--) {
        start(&machine, &page);
        end = run(&machine, page.code, page.code_length);
    }
    print(&machine, end);
    return 0;
}
