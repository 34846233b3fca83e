/* z80ex FILE STEPS: runs the bytes of FILE at 0100h of a Z80 of libz80ex with a flat memory of 64 KiB, for so many
   instructions, and writes the address at which it then is, in four hexadecimal digits. The jump at 0005h leads to
   a gate, where a RET is, and fetching it is a call of a kernel that answers 0130h to every function. */
#include <stdio.h>
#include <stdlib.h>
#include <z80ex/z80ex.h>

enum { PROGRAM = 0x0100, STACK = 0xBEFE, GATE = 0xBF06, JUMP = 0xC3, RETURN = 0xC9, FIRST_STEPS = 1000000 };

static Z80EX_BYTE memory[65536];
static Z80EX_BYTE program[65536 - PROGRAM];
static size_t length;

static Z80EX_BYTE read_memory(Z80EX_CONTEXT *cpu, Z80EX_WORD address, int m1, void *data) {
    return memory[address];
}

/* The same, with the kernel's call: the answer goes to HL, A = L, B = H. */
static Z80EX_BYTE read_with_calls(Z80EX_CONTEXT *cpu, Z80EX_WORD address, int m1, void *data) {
    if (m1 && address == GATE) {
        z80ex_set_reg(cpu, regHL, 0x0130);
        z80ex_set_reg(cpu, regAF, 0x3000 + z80ex_get_reg(cpu, regAF) % 256);
        z80ex_set_reg(cpu, regBC, 0x0100 + z80ex_get_reg(cpu, regBC) % 256);
    }
    return memory[address];
}

static void write_memory(Z80EX_CONTEXT *cpu, Z80EX_WORD address, Z80EX_BYTE value, void *data) {
    memory[address] = value;
}

static Z80EX_BYTE read_port(Z80EX_CONTEXT *cpu, Z80EX_WORD port, void *data) { return 0xFF; }

static void write_port(Z80EX_CONTEXT *cpu, Z80EX_WORD port, Z80EX_BYTE value, void *data) {}

static Z80EX_BYTE read_vector(Z80EX_CONTEXT *cpu, void *data) { return 0xFF; }

static Z80EX_CONTEXT *begin(z80ex_mread_cb read) {
    for (size_t at = 0; at < sizeof memory; at++)
        memory[at] = at >= PROGRAM && at - PROGRAM < length ? program[at - PROGRAM] : 0;
    memory[0x0005] = JUMP, memory[0x0006] = GATE % 256, memory[0x0007] = GATE / 256;
    memory[GATE] = RETURN;
    Z80EX_CONTEXT *cpu = z80ex_create(read, NULL, write_memory, NULL, read_port, NULL, write_port, NULL,
                                      read_vector, NULL);
    z80ex_set_reg(cpu, regPC, PROGRAM);
    z80ex_set_reg(cpu, regSP, STACK);
    return cpu;
}

/* What is met among the first opcodes: time is spent on it only where it is. */
struct Met {
    int prefix, gate;
};

/* z80ex_step does one opcode, which may be only the prefix of an instruction. */
static struct Met meet(unsigned long steps) {
    struct Met met = {0, 0};
    Z80EX_CONTEXT *cpu = begin(read_with_calls);
    for (unsigned long step = 0; step < steps; step++) {
        met.gate |= z80ex_get_reg(cpu, regPC) == GATE;
        z80ex_step(cpu);
        met.prefix |= z80ex_last_op_type(cpu) != 0;
    }
    z80ex_destroy(cpu);
    return met;
}

int main(int count, char **words) {
    FILE *file = count == 3 ? fopen(words[1], "rb") : NULL;
    if (!file) {
        fprintf(stderr, "z80ex FILE STEPS: no such file, or other words\n");
        return 2;
    }
    length = fread(program, 1, sizeof program, file);
    fclose(file);
    unsigned long steps = strtoul(words[2], NULL, 10);
    struct Met met = meet(steps < FIRST_STEPS ? steps : FIRST_STEPS);
    Z80EX_CONTEXT *cpu = begin(met.gate ? read_with_calls : read_memory);
    if (!met.prefix)
        for (unsigned long step = 0; step < steps; step++) z80ex_step(cpu);
    else
        for (unsigned long step = 0; step < steps; step++)
            do z80ex_step(cpu);
            while (z80ex_last_op_type(cpu) != 0);
    printf("%04X\n", z80ex_get_reg(cpu, regPC));
    z80ex_destroy(cpu);
    return 0;
}
