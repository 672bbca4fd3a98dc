/*
 * A plugin of qemu 7.2 that counts what a Thumb program executes between the
 * hint instructions yield and sev: instructions, and the cycles that a
 * Cortex-M0+ and a Cortex-M0 take for them by the tables of their Technical
 * Reference Manuals (Arm DDI 0484 and DDI 0432), with memory without wait
 * states and the multiplier of one cycle. Cycles of a Cortex-M0+, and of a
 * Cortex-M0 where they differ:
 *
 *   1            every instruction not named here, also a multiplication and
 *                a conditional branch that is not taken
 *   2            a load or a store of one register
 *   1 + N        ldm, stm, push and pop of N registers
 *   3 + N (4 + N)  pop of N registers, of which pc is one
 *   2 (3)        a branch that is taken, bx, blx, an instruction that writes pc
 *   3 (4)        bl, and the other instructions of 32 bits
 *
 * A line for each pair of hints goes to the file that the argument out names:
 *
 *   instructions|cycles of M0+|cycles of M0|words fetched
 *
 * A word of four bytes of the flash counts as fetched whenever execution
 * comes to it from another one or by a jump, and whenever it is loaded from.
 * The argument profile names a file for the cycles (M0+) at every address.
 *
 * Debian has no package of qemu-plugin.h: the declarations that are used are
 * here.
 */

#include <inttypes.h>
#include <stdio.h>
#include <stdlib.h>
#include <string.h>

typedef uint64_t plugin_id;
struct qemu_plugin_tb;
struct qemu_plugin_insn;
typedef void translate_callback(plugin_id, struct qemu_plugin_tb *);
typedef void execute_callback(unsigned, void *);
typedef void memory_callback(unsigned, uint32_t, uint64_t, void *);
typedef void exit_callback(plugin_id, void *);
extern void qemu_plugin_register_vcpu_tb_trans_cb(plugin_id, translate_callback *);
extern size_t qemu_plugin_tb_n_insns(const struct qemu_plugin_tb *);
extern struct qemu_plugin_insn *qemu_plugin_tb_get_insn(const struct qemu_plugin_tb *, size_t);
extern const void *qemu_plugin_insn_data(const struct qemu_plugin_insn *);
extern uint64_t qemu_plugin_insn_vaddr(const struct qemu_plugin_insn *);
extern void qemu_plugin_register_vcpu_insn_exec_cb(struct qemu_plugin_insn *, execute_callback *,
                                                   int flags, void *);
extern void qemu_plugin_register_vcpu_mem_cb(struct qemu_plugin_insn *, memory_callback *,
                                             int flags, int accesses, void *);
extern void qemu_plugin_register_atexit_cb(plugin_id, exit_callback *, void *);

#define EXPORTED __attribute__((visibility("default")))
#define NO_REGISTERS 0          /* a callback's flags: it reads no register */
#define LOADS 1                 /* the accesses of a callback */

EXPORTED int qemu_plugin_version = 1;

#define FLASH_BYTES 262144      /* as in controller.ld */
#define HALFWORD 2              /* bytes of the shorter instructions */
#define WORD 4
#define FIRST_OF_TWO 0xe800     /* from here on a halfword begins an instruction of two */

enum mark { NO_MARK, BEGIN, END };

/* The cycles are those of a conditional branch that is not taken. */
struct instruction {
    uint32_t address, next;
    uint8_t m0plus, m0;        /* cycles of M0+ and of M0 */
    uint8_t conditional, mark;
};

static struct counts {
    uint64_t instructions, m0plus, m0, words;
} count;

static FILE *out;
static const char *profile;
static uint64_t cycles_at[FLASH_BYTES / HALFWORD];
static struct instruction *known[FLASH_BYTES / HALFWORD];
static const struct instruction *last;
static int counting;

static unsigned ones(unsigned bits)
{
    return (unsigned)__builtin_popcount(bits);
}

static void cost(struct instruction *i, unsigned m0plus, unsigned m0)
{
    i->m0plus = (uint8_t)m0plus;
    i->m0 = (uint8_t)m0;
}

/* Encodings: Arm DDI 0419, the ARMv6-M Architecture Reference Manual. */
static void classify(struct instruction *i, uint16_t code)
{
    cost(i, 1, 1);
    if (i->next - i->address == WORD)
        cost(i, 3, 4);                                  /* bl, mrs, msr, barriers */
    else if ((code & 0xff00) == 0x4700)
        cost(i, 2, 3);                                  /* bx, blx */
    else if ((code & 0xfd00) == 0x4400 && (code & 0x87) == 0x87)
        cost(i, 2, 3);                                  /* add pc, mov pc */
    else if ((code & 0xf800) == 0x4800 || (code >> 12 >= 5 && code >> 12 <= 9))
        cost(i, 2, 2);                                  /* ldr, str and their variants */
    else if ((code & 0xff00) == 0xbd00)
        cost(i, 3 + 1 + ones(code & 0xff), 4 + 1 + ones(code & 0xff));  /* pop with pc */
    else if ((code & 0xf600) == 0xb400)
        cost(i, 1 + ones(code & 0x1ff), 1 + ones(code & 0x1ff));        /* push, pop */
    else if ((code & 0xf000) == 0xc000)
        cost(i, 1 + ones(code & 0xff), 1 + ones(code & 0xff));          /* ldm, stm */
    else if ((code & 0xf000) == 0xd000 && (code & 0x0e00) != 0x0e00)
        i->conditional = 1;
    else if ((code & 0xf800) == 0xe000)
        cost(i, 2, 3);                                  /* b */
    else if (code == 0xbf10)
        i->mark = BEGIN;                                /* yield */
    else if (code == 0xbf40)
        i->mark = END;                                  /* sev */
}

static void spend(const struct instruction *i, unsigned m0plus, unsigned m0)
{
    count.m0plus += m0plus;
    count.m0 += m0;
    cycles_at[i->address / HALFWORD] += m0plus;
}

/* What the step from the last instruction to this one takes beside the two. */
static void count_step(const struct instruction *i)
{
    int jumped = i->address != last->next;
    if (jumped && last->conditional)
        spend(last, 1, 2);
    if (jumped || i->address / WORD != (last->next - 1) / WORD)
        count.words++;
    if (i->address / WORD != (i->next - 1) / WORD)
        count.words++;
}

static void loaded(unsigned processor, uint32_t kind, uint64_t address, void *nothing)
{
    (void)processor;
    (void)kind;
    (void)nothing;
    if (counting && address < FLASH_BYTES)
        count.words++;
}

static void print_counts(void)
{
    fprintf(out, "%" PRIu64 "|%" PRIu64 "|%" PRIu64 "|%" PRIu64 "\n",
            count.instructions, count.m0plus, count.m0, count.words);
    fflush(out);
}

static void executed(unsigned processor, void *instruction)
{
    const struct instruction *i = instruction;
    (void)processor;
    if (counting)
        count_step(i);
    last = i;
    if (i->mark == BEGIN) {
        memset(&count, 0, sizeof count);
        counting = 1;
    } else if (i->mark == END && counting) {
        counting = 0;
        print_counts();
    } else if (counting) {
        count.instructions++;
        spend(i, i->m0plus, i->m0);
    }
}

/* Code that runs from elsewhere than the flash is not counted but an error. */
static uint32_t address_of(const struct qemu_plugin_insn *translated)
{
    uint64_t address = qemu_plugin_insn_vaddr(translated);
    if (address < FLASH_BYTES)
        return (uint32_t)address;
    fprintf(stderr, "cycles: code outside the flash, at %" PRIx64 "\n", address);
    exit(1);
}

/* The instruction as it is known; code in the flash does not change. Its
 * length is read from its code: qemu tells a wrong one where it looks ahead,
 * before the last halfword of a page. */
static struct instruction *instruction_of(struct qemu_plugin_insn *translated)
{
    uint32_t address = address_of(translated);
    struct instruction **place = &known[address / HALFWORD];
    uint16_t code;
    if (!*place) {
        *place = calloc(1, sizeof **place);
        memcpy(&code, qemu_plugin_insn_data(translated), sizeof code);
        (*place)->address = address;
        (*place)->next = address + (code >= FIRST_OF_TWO ? WORD : HALFWORD);
        classify(*place, code);
    }
    return *place;
}

static void translated(plugin_id id, struct qemu_plugin_tb *block)
{
    (void)id;
    for (size_t n = qemu_plugin_tb_n_insns(block), k = 0; k < n; k++) {
        struct qemu_plugin_insn *of = qemu_plugin_tb_get_insn(block, k);
        qemu_plugin_register_vcpu_insn_exec_cb(of, executed, NO_REGISTERS, instruction_of(of));
        qemu_plugin_register_vcpu_mem_cb(of, loaded, NO_REGISTERS, LOADS, NULL);
    }
}

static void ended(plugin_id id, void *nothing)
{
    FILE *to = profile ? fopen(profile, "w") : NULL;
    (void)id;
    (void)nothing;
    if (!to)
        return;
    for (uint32_t at = 0; at < FLASH_BYTES; at += HALFWORD)
        if (cycles_at[at / HALFWORD])
            fprintf(to, "%08" PRIx32 " %" PRIu64 "\n", at, cycles_at[at / HALFWORD]);
    fclose(to);
}

/* What follows the name and the sign = in an argument, or no text. */
static const char *argument(const char *name, int argc, char **argv)
{
    size_t length = strlen(name);
    for (int i = 0; i < argc; i++)
        if (!strncmp(argv[i], name, length) && argv[i][length] == '=')
            return strdup(argv[i] + length + 1);
    return NULL;
}

EXPORTED int qemu_plugin_install(plugin_id id, const void *info, int argc, char **argv)
{
    const char *path = argument("out", argc, argv);
    (void)info;
    profile = argument("profile", argc, argv);
    out = path ? fopen(path, "w") : NULL;
    if (!out)
        return 1;
    qemu_plugin_register_vcpu_tb_trans_cb(id, translated);
    qemu_plugin_register_atexit_cb(id, ended, NULL);
    return 0;
}
