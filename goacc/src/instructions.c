/* What an instruction of the program is about to read and to write, as Zydis reads it from its bytes. */
#define _GNU_SOURCE
#include <gnu/libc-version.h>
#include <link.h>
#include <signal.h>
#include <string.h>
#include <ucontext.h>

#include "inner.h"

/* ---- The C library ---- */

static uintptr_t library_from, library_until;

/* The code of the C library. */
static int find_library(struct dl_phdr_info *object, size_t size, void *nothing)
{
    const uintptr_t sought = (uintptr_t)gnu_get_libc_version;

    (void)size, (void)nothing;
    for (int i = 0; i < object->dlpi_phnum; i++) {
        const uintptr_t from = object->dlpi_addr + object->dlpi_phdr[i].p_vaddr;

        if (object->dlpi_phdr[i].p_type == PT_LOAD && sought - from < object->dlpi_phdr[i].p_memsz) {
            library_from = from;
            library_until = from + object->dlpi_phdr[i].p_memsz;
        }
    }
    return library_from != 0;
}

bool lwa_is_of_libc(uintptr_t ip)
{
    if (library_from == 0) {
        dl_iterate_phdr(find_library, NULL);
    }
    return ip >= library_from && ip < library_until;
}

/* ---- Instructions ---- */

#ifndef LWA_ZYDIS

const bool lwa_reads_instructions = false;

size_t lwa_reaches(const void *context, uintptr_t touched, lwa_reach list[LWA_REACHES])
{
    (void)context, (void)touched, (void)list;
    return 0;
}

#else
#include <Zydis/Zydis.h>

const bool lwa_reads_instructions = true;

static const struct {
    int saved;
    ZydisRegister number;
} registers[] = {{REG_RAX, ZYDIS_REGISTER_RAX}, {REG_RCX, ZYDIS_REGISTER_RCX}, {REG_RDX, ZYDIS_REGISTER_RDX},
                 {REG_RBX, ZYDIS_REGISTER_RBX}, {REG_RSP, ZYDIS_REGISTER_RSP}, {REG_RBP, ZYDIS_REGISTER_RBP},
                 {REG_RSI, ZYDIS_REGISTER_RSI}, {REG_RDI, ZYDIS_REGISTER_RDI}, {REG_R8, ZYDIS_REGISTER_R8},
                 {REG_R9, ZYDIS_REGISTER_R9},   {REG_R10, ZYDIS_REGISTER_R10}, {REG_R11, ZYDIS_REGISTER_R11},
                 {REG_R12, ZYDIS_REGISTER_R12}, {REG_R13, ZYDIS_REGISTER_R13}, {REG_R14, ZYDIS_REGISTER_R14},
                 {REG_R15, ZYDIS_REGISTER_R15}};

/* Whether an instruction is repeated as often as RCX says, upwards. */
static bool is_counted(const ZydisDecodedInstruction *i, const greg_t *saved)
{
    return (i->attributes & ZYDIS_ATTRIB_HAS_REP) != 0 && (saved[REG_EFL] & 0x400) == 0
        && (i->meta.category == ZYDIS_CATEGORY_STRINGOP);
}

/* One operand. A push writes below the address that it tells. Of elements that a mask chooses none counts as read. */
static bool read_operand(const ZydisDecodedInstruction *i, const ZydisDecodedOperand *o, const greg_t *saved,
                         const ZydisRegisterContext *values, lwa_reach *a)
{
    const bool masked = i->avx.mask.mode != ZYDIS_MASK_MODE_INVALID && i->avx.mask.mode != ZYDIS_MASK_MODE_DISABLED;
    uintptr_t base;
    ZyanU64 at;

    if (o->type != ZYDIS_OPERAND_TYPE_MEMORY || o->mem.type != ZYDIS_MEMOP_TYPE_MEM
        || !ZYAN_SUCCESS(ZydisCalcAbsoluteAddressEx(i, o, (ZyanU64)saved[REG_RIP], values, &at))) {
        return false;
    }
    if (o->mem.segment == ZYDIS_REGISTER_FS) {
        __asm__("mov %%fs:0, %0" : "=r"(base));
        at += base;
    }
    *a = (lwa_reach){at, o->size / 8, (o->actions & ZYDIS_OPERAND_ACTION_MASK_READ) != 0 && !masked,
                  (o->actions & ZYDIS_OPERAND_ACTION_MASK_WRITE) != 0, false};
    if (o->visibility == ZYDIS_OPERAND_VISIBILITY_HIDDEN && o->mem.base == ZYDIS_REGISTER_RSP && a->writes) {
        a->at -= a->len;
    }
    if (is_counted(i, saved)) {
        a->len *= (size_t)saved[REG_RCX];
    }
    return true;
}

/* Where nothing is known, it is the byte that was touched, and of a write as much as one instruction may write. */
size_t lwa_reaches(const void *given, uintptr_t touched, lwa_reach list[LWA_REACHES])
{
    enum { LONGEST = 15, WIDEST = 64, WORD = 8 };
    const ucontext_t *context = given;
    const greg_t *saved = context->uc_mcontext.gregs;
    const bool writes = (saved[REG_ERR] & 2) != 0;
    ZydisDecodedOperand operands[ZYDIS_MAX_OPERAND_COUNT];
    ZydisDecodedInstruction instruction;
    ZydisRegisterContext values;
    ZydisDecoder decoder;
    size_t count = 0;
    bool is_known = false;

    memset(&values, 0, sizeof values);
    for (size_t i = 0; i < sizeof registers / sizeof *registers; i++) {
        values.values[registers[i].number] = (ZyanU64)saved[registers[i].saved];
    }
    ZydisDecoderInit(&decoder, ZYDIS_MACHINE_MODE_LONG_64, ZYDIS_STACK_WIDTH_64);
    if (ZYAN_SUCCESS(ZydisDecoderDecodeFull(&decoder, (const void *)saved[REG_RIP], LONGEST, &instruction, operands))) {
        for (int i = 0; i < instruction.operand_count && count < LWA_REACHES; i++) {
            if (read_operand(&instruction, &operands[i], saved, &values, &list[count])) {
                is_known |= touched - list[count].at < list[count].len;
                list[count].by_words = list[count].len > WORD && lwa_is_of_libc((uintptr_t)saved[REG_RIP]);
                count++;
            }
        }
    }
    if (!is_known && count < LWA_REACHES) {
        list[count++] = (lwa_reach){touched, writes ? WIDEST : 1, !writes, writes, false};
    }
    return count;
}
#endif
