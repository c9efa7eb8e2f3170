// A plain interpreter of the same lines, over decoded fields: what rv_machine is measured against. It makes the same tests.
#include <stdint.h>
#include <stdio.h>
#include <stdlib.h>
#include <string.h>
#include <time.h>

enum kind { THREE, IMM, LOAD, STORE, BRANCH, LUI, AUIPC, JAL, JALR, FENCE, ECALL, EBREAK };
enum three { ADD, SUB, SLL, SLT, SLTU, XOR, SRL, SRA, OR, AND, MUL, MULH, MULHSU, MULHU, DIV, DIVU, REM, REMU,
             ADDW, SUBW, SLLW, SRLW, SRAW, MULW, DIVW, DIVUW, REMW, REMUW };
enum imm { ADDI, SLTI, SLTIU, XORI, ORI, ANDI, SLLI, SRLI, SRAI, ADDIW, SLLIW, SRLIW, SRAIW };
enum load { LB, LH, LW, LD, LBU, LHU, LWU };
enum store { SB, SH, SW, SD };
enum branch { BEQ, BNE, BLT, BGE, BLTU, BGEU };

struct line {
    uint8_t kind, code, rd, rs1, rs2;
    int32_t imm;     // of lui and auipc the upper 20 bits
    uint32_t target; // the number of a line
};
enum end { DONE, ACCESS, OFF_TEXT, TRAP, BUDGET };
struct answer {
    enum end end;
    uint64_t steps, line, address;
};

static uint64_t half(uint32_t a) { return (uint64_t)(int64_t)(int32_t)a; }

static uint64_t three_value(int code, uint64_t a, uint64_t b) {
    uint32_t p = (uint32_t)a, q = (uint32_t)b;
    int64_t s = (int64_t)a, t = (int64_t)b;
    int32_t u = (int32_t)p, v = (int32_t)q;
    switch (code) {
    case ADD: return a + b;
    case SUB: return a - b;
    case SLL: return a << (b & 63);
    case SLT: return s < t;
    case SLTU: return a < b;
    case XOR: return a ^ b;
    case SRL: return a >> (b & 63);
    case SRA: return (uint64_t)(s >> (b & 63));
    case OR: return a | b;
    case AND: return a & b;
    case MUL: return a * b;
    case MULH: return (uint64_t)(((__int128)s * t) >> 64);
    case MULHSU: return (uint64_t)(((__int128)s * (__int128)b) >> 64);
    case MULHU: return (uint64_t)(((unsigned __int128)a * b) >> 64);
    case DIV: return b == 0 ? UINT64_MAX : s == INT64_MIN && t == -1 ? a : (uint64_t)(s / t);
    case DIVU: return b == 0 ? UINT64_MAX : a / b;
    case REM: return b == 0 ? a : s == INT64_MIN && t == -1 ? 0 : (uint64_t)(s % t);
    case REMU: return b == 0 ? a : a % b;
    case ADDW: return half(p + q);
    case SUBW: return half(p - q);
    case SLLW: return half(p << (q & 31));
    case SRLW: return half(p >> (q & 31));
    case SRAW: return half((uint32_t)(u >> (q & 31)));
    case MULW: return half(p * q);
    case DIVW: return half(q == 0 ? UINT32_MAX : u == INT32_MIN && v == -1 ? p : (uint32_t)(u / v));
    case DIVUW: return half(q == 0 ? UINT32_MAX : p / q);
    case REMW: return half(q == 0 ? p : u == INT32_MIN && v == -1 ? 0 : (uint32_t)(u % v));
    default: return half(q == 0 ? p : p % q);
    }
}

static uint64_t immediate_value(int code, uint64_t a, uint64_t b) {
    switch (code) {
    case ADDI: return a + b;
    case SLTI: return (int64_t)a < (int64_t)b;
    case SLTIU: return a < b;
    case XORI: return a ^ b;
    case ORI: return a | b;
    case ANDI: return a & b;
    case SLLI: return a << (b & 63);
    case SRLI: return a >> (b & 63);
    case SRAI: return (uint64_t)((int64_t)a >> (b & 63));
    case ADDIW: return half((uint32_t)(a + b));
    case SLLIW: return half((uint32_t)a << (b & 31));
    case SRLIW: return half((uint32_t)a >> (b & 31));
    default: return half((uint32_t)((int32_t)(uint32_t)a >> (b & 31)));
    }
}

static int is_taken(int code, uint64_t a, uint64_t b) {
    switch (code) {
    case BEQ: return a == b;
    case BNE: return a != b;
    case BLT: return (int64_t)a < (int64_t)b;
    case BGE: return (int64_t)a >= (int64_t)b;
    case BLTU: return a < b;
    default: return a >= b;
    }
}

static int is_allowed(uint64_t base, uint64_t extent, uint64_t at, uint64_t size) {
    uint64_t offset = at - base;
    return offset % size == 0 && offset + (size - 1) < extent;
}

#define LOADED(type) \
    ({ type v; if (!is_allowed(base, extent, at, sizeof v)) goto access; memcpy(&v, block + (at - base), sizeof v); v; })
#define STORED(type) \
    ({ type v = (type)x[p->rs2]; if (!is_allowed(base, extent, at, sizeof v)) goto access; memcpy(block + (at - base), &v, sizeof v); })

__attribute__((noinline)) struct answer run(const struct line *lines, uint64_t count, uint64_t base, uint8_t *block, uint64_t extent,
                                            uint64_t *x, uint64_t *pc, uint64_t budget) {
    uint64_t k = (*pc - 65536) / 4, made, at;
    if (*pc < 65536 || *pc % 4 != 0 || k > count)
        return (struct answer){ budget == 0 ? BUDGET : OFF_TEXT, 0, 0, *pc };
    for (made = 0; made < budget; made++) {
        if (k == count) {
            *pc = 65536 + 4 * k;
            return (struct answer){ DONE, made, 0, 0 };
        }
        const struct line *const p = lines + k;
        switch (p->kind) {
        case THREE: x[p->rd] = three_value(p->code, x[p->rs1], x[p->rs2]); x[0] = 0; k++; break;
        case IMM: x[p->rd] = immediate_value(p->code, x[p->rs1], (uint64_t)(int64_t)p->imm); x[0] = 0; k++; break;
        case LOAD:
            at = x[p->rs1] + (uint64_t)(int64_t)p->imm;
            switch (p->code) {
            case LB: x[p->rd] = (uint64_t)(int64_t)LOADED(int8_t); break;
            case LH: x[p->rd] = (uint64_t)(int64_t)LOADED(int16_t); break;
            case LW: x[p->rd] = (uint64_t)(int64_t)LOADED(int32_t); break;
            case LD: x[p->rd] = LOADED(uint64_t); break;
            case LBU: x[p->rd] = LOADED(uint8_t); break;
            case LHU: x[p->rd] = LOADED(uint16_t); break;
            default: x[p->rd] = LOADED(uint32_t); break;
            }
            x[0] = 0; k++; break;
        case STORE:
            at = x[p->rs1] + (uint64_t)(int64_t)p->imm;
            switch (p->code) {
            case SB: STORED(uint8_t); break;
            case SH: STORED(uint16_t); break;
            case SW: STORED(uint32_t); break;
            default: STORED(uint64_t); break;
            }
            k++; break;
        case BRANCH: if (is_taken(p->code, x[p->rs1], x[p->rs2])) k = p->target; else k++; break;
        case LUI: x[p->rd] = half((uint32_t)p->imm << 12); x[0] = 0; k++; break;
        case AUIPC: x[p->rd] = 65536 + 4 * k + half((uint32_t)p->imm << 12); x[0] = 0; k++; break;
        case JAL: x[p->rd] = 65536 + 4 * (k + 1); x[0] = 0; k = p->target; break;
        case JALR:
            at = (x[p->rs1] + (uint64_t)(int64_t)p->imm) & ~(uint64_t)1;
            x[p->rd] = 65536 + 4 * (k + 1); x[0] = 0;
            k = (at - 65536) / 4;
            if (at < 65536 || at % 4 != 0 || k > count) {
                *pc = at;
                return (struct answer){ made + 1 == budget ? BUDGET : OFF_TEXT, 0, 0, at };
            }
            break;
        case FENCE: k++; break;
        default: *pc = 65536 + 4 * k; return (struct answer){ TRAP, 0, k, 0 };
        }
    }
    *pc = 65536 + 4 * k;
    return k == count ? (struct answer){ DONE, budget, 0, 0 } : (struct answer){ BUDGET, 0, 0, 0 };
access:
    *pc = 65536 + 4 * k;
    return (struct answer){ ACCESS, 0, k, at };
}

#define ADDI_(d, s, i) { IMM, ADDI, d, s, 0, i, 0 }
#define ADD_(d, a, b) { THREE, ADD, d, a, b, 0, 0 }
static const struct line kernel[] = {
    { LUI, 0, 11, 0, 0, 8, 0 }, { IMM, ADDIW, 11, 11, 0, 0, 0 },
    ADDI_(5, 10, 0), ADD_(6, 5, 11), ADD_(7, 6, 11), ADDI_(11, 6, 0),
    { LOAD, LD, 12, 5, 0, 0, 0 }, { LOAD, LD, 13, 6, 0, 0, 0 }, ADD_(12, 12, 13), { STORE, SD, 0, 7, 12, 0, 0 },
    ADDI_(5, 5, 8), ADDI_(6, 6, 8), ADDI_(7, 7, 8), { BRANCH, BNE, 0, 5, 11, 0, 6 },
    { JALR, 0, 0, 1, 0, 0, 0 },
};

int main(int arguments, char **argument) {
    // From the arguments, so that the compiler cannot build the interpreter for these numbers.
    const uint64_t base = 4294967296 + 8 * (uint64_t)arguments, budget = 1000000 + (uint64_t)arguments;
    const uint64_t count = sizeof kernel / sizeof *kernel, extent = 24 * 4096;
    struct line *lines = malloc(sizeof kernel);
    uint8_t *block = malloc(extent);
    uint64_t best = UINT64_MAX, made = 0;
    memcpy(lines, kernel, sizeof kernel);
    memset(block, 7, extent);
    for (int i = 0; i < 4000; i++) {
        uint64_t x[32] = { 0 }, pc = 65536, nanos;
        struct timespec a, b;
        x[1] = 65536 + 4 * count;
        x[10] = base;
        clock_gettime(CLOCK_MONOTONIC, &a);
        struct answer answer = run(lines, count, base, block, extent, x, &pc, budget);
        clock_gettime(CLOCK_MONOTONIC, &b);
        nanos = (uint64_t)(b.tv_sec - a.tv_sec) * 1000000000 + (uint64_t)(b.tv_nsec - a.tv_nsec);
        if (nanos < best) best = nanos;
        if (answer.end == DONE) made = answer.steps;
    }
    (void)argument;
    printf("%llu %llu\n", (unsigned long long)best, (unsigned long long)made);
    return 0;
}
