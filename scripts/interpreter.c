/* A plain interpreter of RV32I instructions, to compare the machine with: a switch on the opcode over
   an array of bytes, with a check of each address. It knows those that a loop of the benchmark may
   have: LUI, the operations with and without an immediate, LW, SW, the branches and JAL.

   interpreter WORDS COUNT runs the program in the file WORDS, hexadecimal words with a space or a
   line's end between them, which lies at the RAM's first byte, for COUNT instructions. It prints
   the count and a0. */
#include <inttypes.h>
#include <stdint.h>
#include <stdio.h>
#include <stdlib.h>

#define RAM_START 0x80000000u
#define RAM_SIZE 65536u

static uint8_t ram[RAM_SIZE];
static uint32_t x[32];
static uint32_t pc = RAM_START;

/* The place in the RAM of `width` bytes at an address. The run ends where there is none. */
static uint8_t *place(uint32_t at, uint32_t width)
{
    uint32_t i = at - RAM_START;
    if (i > RAM_SIZE - width || at % width != 0) {
        fprintf(stderr, "no %" PRIu32 " bytes at %08" PRIx32 "\n", width, at);
        exit(1);
    }
    return ram + i;
}

static uint32_t load32(uint32_t at)
{
    const uint8_t *p = place(at, 4);
    return (uint32_t)p[0] | (uint32_t)p[1] << 8 | (uint32_t)p[2] << 16 | (uint32_t)p[3] << 24;
}

static void store32(uint32_t at, uint32_t value)
{
    uint8_t *p = place(at, 4);
    p[0] = value;
    p[1] = value >> 8;
    p[2] = value >> 16;
    p[3] = value >> 24;
}

static uint32_t extend(uint32_t value, unsigned bits)
{
    uint32_t sign = 1u << (bits - 1);
    return (value ^ sign) - sign;
}

static uint32_t operate(uint32_t funct3, uint32_t funct7, uint32_t a, uint32_t b)
{
    switch (funct3) {
    case 0: return funct7 == 0x20 ? a - b : a + b;
    case 1: return a << (b & 31);
    case 2: return (int32_t)a < (int32_t)b;
    case 3: return a < b;
    case 4: return a ^ b;
    case 5: return funct7 == 0x20 ? (uint32_t)((int32_t)a >> (b & 31)) : a >> (b & 31);
    case 6: return a | b;
    default: return a & b;
    }
}

static int taken(uint32_t funct3, uint32_t a, uint32_t b)
{
    switch (funct3) {
    case 0: return a == b;
    case 1: return a != b;
    case 4: return (int32_t)a < (int32_t)b;
    case 5: return (int32_t)a >= (int32_t)b;
    case 6: return a < b;
    case 7: return a >= b;
    default: return 0;
    }
}

static void step(void)
{
    uint32_t word = load32(pc), next = pc + 4;
    uint32_t rd = word >> 7 & 31, funct3 = word >> 12 & 7, funct7 = word >> 25;
    uint32_t a = x[word >> 15 & 31], b = x[word >> 20 & 31];

    switch (word & 0x7F) {
    case 0x37:
        x[rd] = word & 0xFFFFF000;
        break;
    case 0x13:
        x[rd] = operate(funct3, funct3 == 5 ? funct7 : 0, a, extend(word >> 20, 12));
        break;
    case 0x33:
        x[rd] = operate(funct3, funct7, a, b);
        break;
    case 0x03:
        if (funct3 != 2)
            goto unknown;
        x[rd] = load32(a + extend(word >> 20, 12));
        break;
    case 0x23:
        if (funct3 != 2)
            goto unknown;
        store32(a + extend(funct7 << 5 | rd, 12), b);
        break;
    case 0x63:
        if (taken(funct3, a, b))
            next = pc + extend((word >> 31) << 12 | (rd & 1) << 11 | (funct7 & 63) << 5 | (rd & 30), 13);
        break;
    case 0x6F:
        x[rd] = next;
        next = pc + extend((word >> 31) << 20 | (word & 0xFF000) | (word >> 20 & 1) << 11
                               | (word >> 20 & 0x7FE), 21);
        break;
    default:
    unknown:
        fprintf(stderr, "no instruction of this interpreter: %08" PRIx32 "\n", word);
        exit(1);
    }
    x[0] = 0;
    pc = next;
}

int main(int argc, char **argv)
{
    if (argc != 3) {
        fprintf(stderr, "usage: interpreter WORDS COUNT\n");
        return 2;
    }
    FILE *words = fopen(argv[1], "r");
    if (words == NULL) {
        perror(argv[1]);
        return 2;
    }
    uint32_t word, at = RAM_START;
    while (fscanf(words, "%" SCNx32, &word) == 1) {
        store32(at, word);
        at += 4;
    }
    fclose(words);

    uint64_t count = strtoull(argv[2], NULL, 10);
    for (uint64_t i = 0; i < count; i++)
        step();
    printf("instructions %" PRIu64 "\na0 %" PRIu32 "\n", count, x[10]);
    return 0;
}
