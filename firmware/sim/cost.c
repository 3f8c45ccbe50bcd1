/* A plugin for qemu-system-arm (its plugin interface, version 1): the clocks that a program's steps would take on a Cortex-M,
   after the manuals' timing tables, from memory.

   -plugin cost.so,model=m0p|m3|m4,wait=N,mhz=N,one=AT,two=AT,asked=AT,waited=AT,from=AT,to=AT,flash=AT,size=N
   one, two    places that are executed once after a step of one or two machine cycles
   asked, waited   places that are executed once after the program has asked whether it is time, and has asked so again: what is
               between the two is waiting, and isn't counted
   from, to    code that isn't counted: the simulated PC's
   wait        wait states of the flash memory: at each taken branch, and at each read of data from there

   It prints, in clocks: the mean of a machine cycle, the worst step of one and of two; how late a step ends at most at this
   rate, in nanoseconds; and how many steps were counted. */
#include <inttypes.h>
#include <stdbool.h>
#include <stdio.h>
#include <stdlib.h>
#include <string.h>

/* The declarations of qemu-plugin.h that are used. */
typedef uint64_t qemu_plugin_id_t;
struct qemu_plugin_tb;
struct qemu_plugin_insn;
typedef uint32_t qemu_plugin_meminfo_t;
__attribute__((visibility("default"))) int qemu_plugin_version = 1;
void qemu_plugin_register_vcpu_tb_trans_cb(qemu_plugin_id_t, void (*)(qemu_plugin_id_t, struct qemu_plugin_tb *));
size_t qemu_plugin_tb_n_insns(const struct qemu_plugin_tb *);
struct qemu_plugin_insn *qemu_plugin_tb_get_insn(const struct qemu_plugin_tb *, size_t);
const void *qemu_plugin_insn_data(const struct qemu_plugin_insn *);
size_t qemu_plugin_insn_size(const struct qemu_plugin_insn *);
uint64_t qemu_plugin_insn_vaddr(const struct qemu_plugin_insn *);
void qemu_plugin_register_vcpu_insn_exec_cb(struct qemu_plugin_insn *, void (*)(unsigned, void *), int, void *);
void qemu_plugin_register_vcpu_mem_cb(struct qemu_plugin_insn *, void (*)(unsigned, qemu_plugin_meminfo_t, uint64_t, void *), int, int, void *);
void qemu_plugin_register_atexit_cb(qemu_plugin_id_t, void (*)(qemu_plugin_id_t, void *), void *);

static bool is_m0p;
static uint32_t wait, mhz = 1, one, two, asked, waited, from, to, flash, size;

struct instruction {
    uint32_t at;
    uint8_t size, cost, taken; /* clocks, and how many more if it branches */
    bool moves, outside;       /* whether it loads or stores; whether it isn't counted */
};

static uint32_t next_at; /* where execution goes on if the last instruction doesn't branch */
static uint8_t taken_cost;
static bool moved, was_outside;
static uint64_t clocks, clocks_asked; /* of this step, and of it up to the question */

static uint64_t cycles, all, steps, most[3];
static double behind, most_behind;

static unsigned ones(unsigned x) { return (unsigned)__builtin_popcount(x); }

static void wide(struct instruction *it, uint16_t w, uint16_t v) {
    if ((w & 0xF800) == 0xF000 && v & 0x8000) { /* branches and system */
        if ((v & 0x5000) == 0x5000 || (v & 0x5000) == 0x4000 || (v & 0x5000) == 0x1000) it->cost = 3;
        else if ((w & 0x380) == 0x380) it->cost = 3;
        else it->taken = 2;
    } else if ((w & 0xFE40) == 0xE800) { /* LDM, STM */
        it->cost = (uint8_t)(1 + ones(v));
        it->taken = w & 0x10 && v & 0x8000 ? 2 : 0;
    } else if ((w & 0xFFF0) == 0xE8D0 && (v & 0xFFE0) == 0xF000) { /* TBB, TBH */
        it->cost = 4;
    } else if ((w & 0xFE40) == 0xE840) { /* LDRD, STRD */
        it->cost = 3;
        it->moves = true;
    } else if ((w & 0xFE00) == 0xF800) { /* LDR, STR */
        it->cost = 2;
        it->moves = true;
        it->taken = (w & 0x70) == 0x50 && (v & 0xF000) == 0xF000 ? 2 : 0;
    } else if ((w & 0xFF80) == 0xFB80 && ((w & 0x70) == 0x10 || (w & 0x70) == 0x30)) { /* divides */
        it->cost = 12;
    }
}

static void narrow(struct instruction *it, uint16_t w) {
    uint8_t branch = is_m0p ? 1 : 2; /* the pipeline fills again */
    if ((w & 0xFF00) == 0x4700) it->cost = is_m0p ? 2 : 3; /* BX, BLX */
    else if ((w & 0xFC00) == 0x4400) it->cost = ((w & 7) | (w >> 4 & 8)) == 15 ? 1 + branch : 1;
    else if ((w & 0xF800) == 0x4800 || (w >> 12 >= 5 && w >> 12 <= 9)) it->cost = 2, it->moves = true; /* LDR, STR */
    else if ((w & 0xFE00) == 0xB400) it->cost = (uint8_t)(1 + ones(w & 0x1FF)); /* PUSH */
    else if ((w & 0xFE00) == 0xBC00) it->cost = (uint8_t)(1 + ones(w & 0x1FF) + (w & 0x100 ? 2 : 0)); /* POP */
    else if ((w & 0xF500) == 0xB100) it->taken = 2; /* CBZ, CBNZ */
    else if ((w & 0xF000) == 0xC000) it->cost = (uint8_t)(1 + ones(w & 0xFF)); /* LDM, STM */
    else if ((w & 0xFF00) == 0xDF00) it->cost = 0; /* SVC enters the simulation */
    else if ((w & 0xF000) == 0xD000) it->taken = branch;
    else if ((w & 0xF800) == 0xE000) it->cost = 1 + branch;
}

static void end_step(unsigned machine_cycles) {
    static bool begun;
    if (begun) {
        steps++;
        cycles += machine_cycles;
        all += clocks;
        if (clocks > most[machine_cycles]) most[machine_cycles] = clocks;
        behind += (double)clocks / mhz - 2.5 * machine_cycles;
        if (behind < 0) behind = 0;
        if (behind > most_behind) most_behind = behind;
    }
    begun = true;
    clocks = 0;
}

static void executed(unsigned cpu, void *with) {
    const struct instruction *it = with;
    (void)cpu;
    bool branched = it->at != next_at;
    if (branched && !it->outside && !was_outside) clocks += taken_cost + wait;
    was_outside = it->outside;
    /* Loads and stores in a row overlap on an M3 and an M4. */
    unsigned cost = !is_m0p && it->moves && moved && it->size == 2 ? 1 : it->cost;
    next_at = it->at + it->size;
    taken_cost = it->taken;
    moved = it->moves;
    if (it->at == one) end_step(1);
    else if (it->at == two) end_step(2);
    else if (it->at == asked) clocks_asked = clocks;
    else if (it->at == waited) clocks = clocks_asked;
    if (!it->outside) clocks += cost;
}

static void read_data(unsigned cpu, qemu_plugin_meminfo_t info, uint64_t at, void *with) {
    (void)cpu, (void)info, (void)with;
    if (at - flash < size) clocks += wait;
}

static void translated(qemu_plugin_id_t id, struct qemu_plugin_tb *block) {
    (void)id;
    for (size_t k = 0; k < qemu_plugin_tb_n_insns(block); k++) {
        struct qemu_plugin_insn *insn = qemu_plugin_tb_get_insn(block, k);
        struct instruction *it = calloc(1, sizeof *it);
        const uint16_t *word = qemu_plugin_insn_data(insn);
        it->at = (uint32_t)qemu_plugin_insn_vaddr(insn);
        it->size = (uint8_t)qemu_plugin_insn_size(insn);
        it->outside = it->at - from < to - from;
        it->cost = 1;
        if (it->size == 4) wide(it, word[0], word[1]); else narrow(it, word[0]);
        qemu_plugin_register_vcpu_insn_exec_cb(insn, executed, 0, it);
        if (wait && !it->outside) qemu_plugin_register_vcpu_mem_cb(insn, read_data, 0, 1, 0);
    }
}

static void ended(qemu_plugin_id_t id, void *with) {
    (void)id, (void)with;
    fprintf(stderr, "cost mean %.1f one %" PRIu64 " two %" PRIu64 " late %.0f steps %" PRIu64 "\n", cycles ? (double)all / cycles : 0.0,
            most[1], most[2], 1000 * most_behind, steps);
}

__attribute__((visibility("default"))) int qemu_plugin_install(qemu_plugin_id_t id, const void *info, int argc, char **argv) {
    static const struct { const char *name; uint32_t *value; } words[] = {
        {"wait", &wait}, {"mhz", &mhz}, {"one", &one}, {"two", &two}, {"asked", &asked},
        {"waited", &waited}, {"from", &from}, {"to", &to}, {"flash", &flash}, {"size", &size}};
    (void)info;
    for (int k = 0; k < argc; k++) {
        char *value = strchr(argv[k], '=');
        if (!value) return 1;
        *value++ = 0;
        if (!strcmp(argv[k], "model")) is_m0p = !strcmp(value, "m0p");
        for (size_t n = 0; n < sizeof words / sizeof *words; n++)
            if (!strcmp(argv[k], words[n].name)) *words[n].value = (uint32_t)strtoul(value, 0, 0);
    }
    qemu_plugin_register_vcpu_tb_trans_cb(id, translated);
    qemu_plugin_register_atexit_cb(id, ended, 0);
    return 0;
}
