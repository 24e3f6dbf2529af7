/* Where a fault was. Unicorn 2.0.1 tells the address of the block alone, with the registers as they are at the fault: so the first instruction of the block
 * whose operand in memory comes to the address that failed is the one. */
#include "nt.h"

#include <capstone/capstone.h>

enum { BLOCK_MOST = 512, INSTRUCTIONS_MOST = 64 };

static uint64_t value_of(const thread *t, x86_reg which, uint64_t next) {
    static const x86_reg wide[16] = {X86_REG_RAX, X86_REG_RBX, X86_REG_RCX, X86_REG_RDX, X86_REG_RSI, X86_REG_RDI, X86_REG_RBP, X86_REG_RSP,
                                     X86_REG_R8,  X86_REG_R9,  X86_REG_R10, X86_REG_R11, X86_REG_R12, X86_REG_R13, X86_REG_R14, X86_REG_R15};
    static const x86_reg narrow[16] = {X86_REG_EAX, X86_REG_EBX, X86_REG_ECX,  X86_REG_EDX,  X86_REG_ESI,  X86_REG_EDI,  X86_REG_EBP,  X86_REG_ESP,
                                       X86_REG_R8D, X86_REG_R9D, X86_REG_R10D, X86_REG_R11D, X86_REG_R12D, X86_REG_R13D, X86_REG_R14D, X86_REG_R15D};
    for (int i = 0; i < 16; i++) {
        if (which == wide[i]) {
            return t->now.whole[i];
        }
        if (which == narrow[i]) {
            return (uint32_t)t->now.whole[i];
        }
    }
    return which == X86_REG_RIP ? next : 0;
}

/* Whether one of an instruction's operands in memory, or the stack that it uses, has an address. */
static bool reaches(const thread *t, const cs_insn *one, uint64_t address) {
    const cs_x86 *x = &one->detail->x86;
    uint64_t next = one->address + one->size;
    for (int i = 0; i < x->op_count && one->id != X86_INS_LEA; i++) {
        const cs_x86_op *o = &x->operands[i];
        uint64_t segment = o->mem.segment == X86_REG_GS ? t->block : 0, index = value_of(t, o->mem.index, next) * (uint64_t)o->mem.scale;
        uint64_t at = segment + value_of(t, o->mem.base, next) + index + (uint64_t)o->mem.disp;
        if (o->type == X86_OP_MEM && address - at < (o->size == 0 ? 16u : o->size)) {
            return true;
        }
    }
    uint64_t stack = t->now.whole[RSP];
    bool pushes = one->id == X86_INS_PUSH || one->id == X86_INS_CALL, pops = one->id == X86_INS_POP || one->id == X86_INS_RET;
    return (pushes && address - (stack - 8) < 8) || (pops && address - stack < 8);
}

/* The address of the instruction of a block that failed at an address, or the block's own. */
uint64_t failed_at(const thread *t, uint64_t block, uint64_t address) {
    static csh engine;
    cs_insn *all;
    region *r = region_at(block);
    if (r == NULL || (engine == 0 && cs_open(CS_ARCH_X86, CS_MODE_64, &engine) != CS_ERR_OK)) {
        return block;
    }
    cs_option(engine, CS_OPT_DETAIL, CS_OPT_ON);
    uint64_t left = r->size - (block - r->address), found = block;
    size_t count = cs_disasm(engine, bytes_if(block, 1), left < BLOCK_MOST ? left : BLOCK_MOST, block, INSTRUCTIONS_MOST, &all);
    for (size_t i = 0; i < count; i++) {
        if (reaches(t, &all[i], address)) {
            found = all[i].address;
            break;
        }
        if (cs_insn_group(engine, &all[i], CS_GRP_JUMP) || cs_insn_group(engine, &all[i], CS_GRP_RET) || cs_insn_group(engine, &all[i], CS_GRP_CALL)) {
            break;
        }
    }
    if (count > 0) {
        cs_free(all, count);
    }
    return found;
}
