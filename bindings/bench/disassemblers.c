// Times LLVM's and Capstone's disassemblers on a list of words, through their C interfaces.
//
//   disassemblers DIRECTORY
//
// The directory has texts.bin. The number reported is how many of the words the disassembler took.
#include "measure.h"
#include <capstone/capstone.h>
#include <llvm-c/Disassembler.h>
#include <llvm-c/Target.h>

static uint8_t *bytes;
static size_t length;

static uint64_t by_llvm(void *context) {
    LLVMDisasmContextRef disassembler = context;
    uint64_t taken = 0;
    char text[64];
    for (size_t i = 0; i + 4 <= length; i += 4) {
        taken += LLVMDisasmInstruction(disassembler, bytes + i, 4, i, text, sizeof text) == 4;
    }
    return taken;
}

static uint64_t by_capstone(void *context) {
    csh disassembler = *(csh *)context;
    uint64_t taken = 0;
    cs_insn *instructions;
    size_t found = cs_disasm(disassembler, bytes, length, 0, 0, &instructions);
    for (size_t i = 0; i < found; i++) {
        // Number 0 is a word that was skipped.
        taken += instructions[i].id != 0;
    }
    cs_free(instructions, found);
    return taken;
}

static uint64_t by_capstone_one(void *context) {
    csh disassembler = *(csh *)context;
    cs_insn *instruction = cs_malloc(disassembler);
    const uint8_t *code = bytes;
    size_t left = length;
    uint64_t address = 0, taken = 0;
    while (cs_disasm_iter(disassembler, &code, &left, &address, instruction)) {
        taken += instruction->id != 0;
    }
    cs_free(instruction, 1);
    return taken;
}

static void measure(const char *name, uint64_t (*pass)(void *), void *context) {
    uint64_t taken = pass(context);
    double begin = now(), last = begin, best = 1e9;
    while (last - begin < SECONDS) {
        pass(context);
        double end = now();
        best = end - last < best ? end - last : best;
        last = end;
    }
    report(name, (double)length / 4, best, taken);
}

int main(int arguments, char **argument) {
    if (arguments != 2) {
        fprintf(stderr, "usage: disassemblers DIRECTORY\n");
        return 2;
    }
    bytes = read_file(argument[1], "texts.bin", &length);
    LLVMInitializeAArch64TargetInfo();
    LLVMInitializeAArch64TargetMC();
    LLVMInitializeAArch64Disassembler();
    LLVMDisasmContextRef llvm = LLVMCreateDisasmCPUFeatures("aarch64", "generic", "+all", NULL, 0, NULL, NULL);
    csh capstone;
    if (!llvm || cs_open(CS_ARCH_ARM64, CS_MODE_LITTLE_ENDIAN, &capstone) != CS_ERR_OK) {
        fprintf(stderr, "a disassembler can't be opened\n");
        return 2;
    }
    // Capstone 4 doesn't know the ordered instructions, and would stop at the first.
    cs_option(capstone, CS_OPT_SKIPDATA, CS_OPT_ON);
    measure("LLVM", by_llvm, llvm);
    measure("Capstone", by_capstone, &capstone);
    measure("Capstone, one by one", by_capstone_one, &capstone);
    LLVMDisasmDispose(llvm);
    cs_close(&capstone);
    return 0;
}
