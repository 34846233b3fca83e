/* The lines that tests/opcodes.rattle writes, as libz80ex has them: for each opcode its page, its last byte, and a checksum
   of what random instructions of it leave. Where docs/PROFILE.md has a rule of its own, or an opcode isn't listed there,
   what libz80ex leaves is put right by it. */
#include <stdint.h>
#include <stdio.h>
#include <string.h>
#include <z80ex/z80ex.h>

enum { CASES = 400, MAIN = 0, CB = 1, ED = 2, DD = 3, FD = 4, DDCB = 5, FDCB = 6 };
enum { S = 0x80, Z = 0x40, FIVE = 0x20, H = 0x10, THREE = 0x08, PV = 0x04, N = 0x02, C = 0x01 };

typedef struct {
    uint16_t af, bc, de, hl, af2, bc2, de2, hl2, ix, iy, sp, pc;
    uint8_t i, r, mode, iff1, iff2, halted, shadow;
} Registers;

static uint32_t seed;
static uint8_t code[4];
static uint16_t start, addresses[8];
static uint8_t values[8];
static int writes;

static uint32_t mixed(uint32_t seed, uint32_t place) {
    uint32_t hash = (seed ^ place * 0x9e3779b1u) * 0x85ebca6bu;
    hash = (hash ^ hash / 8192) * 0xc2b2ae35u;
    return hash ^ hash / 65536;
}

static uint8_t byte_at(uint32_t place) { return mixed(seed, place); }

static uint8_t edge_at(uint32_t place) {
    static const uint8_t edges[] = {0x00, 0xff, 0x7f, 0x80, 0x0f, 0x01};
    uint32_t number = mixed(seed, place);
    return number % 16 < sizeof edges ? edges[number % 16] : number / 65536;
}

static uint16_t word_at(uint32_t place) { return edge_at(place) | edge_at(place + 1) << 8; }

static Z80EX_BYTE read_memory(Z80EX_CONTEXT *cpu, Z80EX_WORD address, int m1, void *data) {
    for (int k = 0; k < writes; k++)
        if (addresses[k] == address) return values[k];
    uint16_t place = address - start;
    return place < 4 ? code[place] : byte_at(address);
}

static void write_memory(Z80EX_CONTEXT *cpu, Z80EX_WORD address, Z80EX_BYTE value, void *data) {
    addresses[writes] = address;
    values[writes++] = value;
}

static Z80EX_BYTE read_port(Z80EX_CONTEXT *cpu, Z80EX_WORD port, void *data) {
    return mixed(seed ^ 0x5555aaaau, port % 256);
}

static void write_port(Z80EX_CONTEXT *cpu, Z80EX_WORD port, Z80EX_BYTE value, void *data) {}

static Z80EX_BYTE read_vector(Z80EX_CONTEXT *cpu, void *data) { return 0xff; }

static Registers random_registers(void) {
    return (Registers){
        .af = edge_at(1) << 8 | byte_at(2), .bc = edge_at(3) << 8 | edge_at(4),
        .de = edge_at(5) << 8 | edge_at(6), .hl = edge_at(7) << 8 | edge_at(8),
        .af2 = byte_at(9) << 8 | byte_at(10), .bc2 = byte_at(11) << 8 | byte_at(12),
        .de2 = byte_at(13) << 8 | byte_at(14), .hl2 = byte_at(15) << 8 | byte_at(16),
        .ix = word_at(20), .iy = word_at(22), .sp = word_at(24), .pc = word_at(26),
        .i = edge_at(28), .r = edge_at(29), .iff1 = mixed(seed, 30) % 2, .iff2 = mixed(seed, 31) % 2,
        .mode = mixed(seed, 32) % 3, .shadow = mixed(seed, 33) % 2,
    };
}

static const Z80_REG_T words[] = {regAF, regBC, regDE, regHL, regAF_, regBC_, regDE_, regHL_, regIX, regIY, regSP, regPC};

/* One whole instruction: z80ex_step does one opcode, which may be only its prefix. */
static Registers run(Z80EX_CONTEXT *cpu, const Registers *before) {
    Registers after = {0};
    z80ex_reset(cpu);
    for (int k = 0; k < 12; k++) z80ex_set_reg(cpu, words[k], (&before->af)[k]);
    z80ex_set_reg(cpu, regI, before->i);
    z80ex_set_reg(cpu, regIM, before->mode);
    z80ex_set_reg(cpu, regIFF1, before->iff1);
    z80ex_set_reg(cpu, regIFF2, before->iff2);
    do z80ex_step(cpu);
    while (z80ex_last_op_type(cpu) != 0);
    for (int k = 0; k < 12; k++) (&after.af)[k] = z80ex_get_reg(cpu, words[k]);
    after.i = z80ex_get_reg(cpu, regI);
    after.mode = z80ex_get_reg(cpu, regIM);
    after.iff1 = z80ex_get_reg(cpu, regIFF1) != 0;
    after.iff2 = z80ex_get_reg(cpu, regIFF2) != 0;
    return after;
}

static uint8_t flags_of(const Registers *regs) { return regs->af; }

static void set_flags(Registers *regs, uint8_t mask, uint8_t flags) {
    regs->af = (regs->af & ~mask) | (flags & mask);
}

/* The rules of docs/PROFILE.md that are its own. */
static void put_right(int page, int opcode, const Registers *before, Registers *after) {
    uint8_t risen = (before->r & 0x80) | ((before->r + 1) & 0x7f);
    after->r = page == ED && opcode == 0x4f ? before->af >> 8 : risen;
    after->shadow = page == MAIN && opcode == 0xfb;
    if (page == MAIN && opcode == 0x76) after->halted = 1, after->pc = before->pc + 1;
    if (page == ED && opcode == 0x4d) after->iff1 = before->iff1;
    if (page == ED && opcode == 0x5f) {
        after->af = risen << 8 | (before->af & 0xff);
        set_flags(after, S | Z | H | PV | N, (risen & S) | (risen ? 0 : Z) | (before->iff2 ? PV : 0));
    }
    if ((page == CB || page >= DDCB) && opcode / 64 == 1) set_flags(after, S | PV, flags_of(before));
    if (page == ED && opcode >= 0xa0 && opcode % 8 >= 2) {
        set_flags(after, S | H | PV | C, flags_of(before));
        set_flags(after, Z | N, (after->bc / 256 ? 0 : Z) | N);
    }
    if (page != MAIN || (opcode != 0xf1 && opcode != 0x08)) set_flags(after, FIVE | THREE, flags_of(before));
}

/* Whether an opcode is in a list of numbers and of runs of numbers. */
static int is_among(const char *list, int opcode) {
    unsigned first, last;
    for (int length; sscanf(list, " %2x%n", &first, &length) == 1; list += length) {
        list += length, last = first, length = 0;
        sscanf(list, "-%2x%n", &last, &length);
        if (first <= (unsigned)opcode && (unsigned)opcode <= last) return 1;
    }
    return 0;
}

static int is_listed(int page, int opcode) {
    switch (page) {
        case MAIN: case CB: return 1;
        case ED:
            return is_among("40-4B 4D 4F 50-53 56-5B 5E-63 67-6B 6F 72 73 78-7B A0-A3 A8-AB B0-B3 B8-BB", opcode);
        case DD: case FD:
            return is_among("09 19 21-26 29-2E 34-36 39 44-46 4C-4E 54-56 5C-5E 60-75 77 7C-7E 84-86 8C-8E 94-96 "
                            "9C-9E A4-A6 AC-AE B4-B6 BC-BE E1 E3 E5 E9 F9", opcode);
        default: return opcode % 8 == 6 && opcode != 0x36;
    }
}

static uint32_t fold(uint32_t sum, uint8_t byte) { return (sum ^ byte) * 16777619u; }

static uint32_t checksum(uint32_t sum, int has_run, const Registers *regs) {
    uint32_t all = 0;
    sum = fold(sum, has_run);
    for (int k = 0; k < 8; k++) sum = fold(fold(sum, (&regs->af)[k] >> 8), (&regs->af)[k]);
    sum = fold(fold(fold(sum, regs->i), regs->r), regs->mode);
    for (int k = 8; k < 12; k++) sum = fold(fold(sum, (&regs->af)[k]), (&regs->af)[k] >> 8);
    sum = fold(fold(fold(fold(sum, regs->iff1), regs->iff2), regs->halted), regs->shadow);
    for (int k = 0; k < writes; k++) all += mixed(addresses[k] + 1, values[k]);
    for (int k = 0; k < 4; k++) sum = fold(sum, all >> 8 * k);
    return sum;
}

static uint32_t fold_case(uint32_t sum, Z80EX_CONTEXT *cpu, int page, int opcode) {
    static const uint8_t prefixes[][2] = {{0}, {0xcb}, {0xed}, {0xdd}, {0xfd}, {0xdd, 0xcb}, {0xfd, 0xcb}};
    Registers before = random_registers(), after = before;
    uint8_t behind[] = {edge_at(40), edge_at(41), edge_at(42)};
    memcpy(code + 1, behind, 3);
    if (page == MAIN) code[0] = opcode;
    else if (page < DDCB) code[0] = prefixes[page][0], code[1] = opcode, memcpy(code + 2, behind, 2);
    else memcpy(code, prefixes[page], 2), code[2] = behind[0], code[3] = opcode;
    start = before.pc, writes = 0;
    if (is_listed(page, opcode)) {
        after = run(cpu, &before);
        put_right(page, opcode, &before, &after);
    }
    return checksum(sum, is_listed(page, opcode), &after);
}

int main(void) {
    static const char *names[] = {"", "CB ", "ED ", "DD ", "FD ", "DD CB d ", "FD CB d "};
    Z80EX_CONTEXT *cpu = z80ex_create(read_memory, NULL, write_memory, NULL, read_port, NULL, write_port, NULL,
                                      read_vector, NULL);
    for (int page = MAIN; page <= FDCB; page++)
        for (int opcode = 0; opcode < 256; opcode++) {
            uint32_t sum = 2166136261u;
            for (uint32_t number = 0; number < CASES; number++) {
                seed = mixed(mixed(page * 256 + opcode, 77), number);
                sum = fold_case(sum, cpu, page, opcode);
            }
            printf("%s%02X %u\n", names[page], opcode, sum);
        }
    z80ex_destroy(cpu);
    return 0;
}
