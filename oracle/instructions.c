/* A plugin of the emulator QEMU: counts the instructions that a program executes, by function, and, if it is given ranges of
   addresses (stores=LOW-HIGH, in hexadecimal), the stores into each. The names below are QEMU's own, declared here since Debian
   has no header for them. */
#include <inttypes.h>
#include <stdbool.h>
#include <stdio.h>
#include <stdlib.h>
#include <string.h>

typedef uint64_t qemu_plugin_id_t;
struct qemu_plugin_tb;
struct qemu_plugin_insn;
typedef void (*translated)(qemu_plugin_id_t id, struct qemu_plugin_tb *block);
typedef void (*executed)(unsigned int processor, void *counted);
typedef void (*accessed)(unsigned int processor, uint32_t about, uint64_t address, void *unused);
typedef void (*ended)(qemu_plugin_id_t id, void *unused);
void qemu_plugin_register_vcpu_tb_trans_cb(qemu_plugin_id_t id, translated then);
void qemu_plugin_register_vcpu_tb_exec_cb(struct qemu_plugin_tb *block, executed then, int flags, void *counted);
void qemu_plugin_register_vcpu_mem_cb(struct qemu_plugin_insn *insn, accessed then, int flags, int kind, void *unused);
bool qemu_plugin_mem_is_store(uint32_t about);
void qemu_plugin_register_atexit_cb(qemu_plugin_id_t id, ended then, void *unused);
size_t qemu_plugin_tb_n_insns(const struct qemu_plugin_tb *block);
struct qemu_plugin_insn *qemu_plugin_tb_get_insn(const struct qemu_plugin_tb *block, size_t place);
const char *qemu_plugin_insn_symbol(const struct qemu_plugin_insn *insn);

int qemu_plugin_version = 1;

struct function {
    char *name;
    uint64_t instructions;
    struct function *next;
};

struct block {
    struct function *of;
    uint64_t length;
};

/* The addresses from low up to high. */
struct range {
    uint64_t low, high, stores;
};

enum { STORE = 2, MOST_RANGES = 8 };

static struct function *functions;
static struct range ranges[MOST_RANGES];
static size_t range_count;

static struct function *named(const char *name) {
    struct function *f;
    for (f = functions; f; f = f->next)
        if (!strcmp(f->name, name)) return f;
    f = calloc(1, sizeof *f);
    f->name = strdup(name);
    f->next = functions;
    return functions = f;
}

static void count(unsigned int processor, void *counted) {
    struct block *b = counted;
    (void)processor;
    b->of->instructions += b->length;
}

static void store(unsigned int processor, uint32_t about, uint64_t address, void *unused) {
    size_t i;
    (void)processor;
    (void)unused;
    /* It was asked for stores alone, but QEMU 7.2 tells it of loads too. */
    if (!qemu_plugin_mem_is_store(about)) return;
    for (i = 0; i < range_count; i++)
        if (ranges[i].low <= address && address < ranges[i].high) ranges[i].stores++;
}

static void translate(qemu_plugin_id_t id, struct qemu_plugin_tb *block) {
    const char *name = qemu_plugin_insn_symbol(qemu_plugin_tb_get_insn(block, 0));
    struct block *b = calloc(1, sizeof *b);
    size_t i;
    (void)id;
    b->of = named(name ? name : "?");
    b->length = qemu_plugin_tb_n_insns(block);
    qemu_plugin_register_vcpu_tb_exec_cb(block, count, 0, b);
    for (i = 0; range_count && i < b->length; i++)
        qemu_plugin_register_vcpu_mem_cb(qemu_plugin_tb_get_insn(block, i), store, 0, STORE, NULL);
}

static void report(qemu_plugin_id_t id, void *unused) {
    struct function *f;
    size_t i;
    (void)id;
    (void)unused;
    for (i = 0; i < range_count; i++)
        fprintf(stderr, "%" PRIu64 " stores\n", ranges[i].stores);
    for (f = functions; f; f = f->next)
        fprintf(stderr, "%" PRIu64 " %s\n", f->instructions, f->name);
}

int qemu_plugin_install(qemu_plugin_id_t id, const void *machine, int words, char **word) {
    int i;
    (void)machine;
    for (i = 0; i < words; i++) {
        struct range *r = &ranges[range_count];
        if (range_count == MOST_RANGES || sscanf(word[i], "stores=%" SCNx64 "-%" SCNx64, &r->low, &r->high) != 2) return 1;
        range_count++;
    }
    qemu_plugin_register_vcpu_tb_trans_cb(id, translate);
    qemu_plugin_register_atexit_cb(id, report, NULL);
    return 0;
}
