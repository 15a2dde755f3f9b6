// What a program finds around it on Linux: its memory, and the kernel's part. lockstep.c runs it.
#ifndef LINUX_H
#define LINUX_H

#include <stddef.h>
#include <stdint.h>

// The one window that holds all of a program's memory: its files, heap, mappings and stack.
#define ORIGIN UINT64_C(0x4000000000)
#define MEMORY_LENGTH (UINT64_C(256) << 20)

// Memory as the kernel sees it: what it writes goes to the library's memory and to Unicorn's, and what it reads is the
// library's. They stop the run where the bytes aren't all inside the window.
void guest_write(uint64_t address, const void *bytes, size_t length);
void *guest_bytes(uint64_t address, size_t length);

// Where a program begins.
struct entry {
    uint64_t pc, sp;
};

// Loads a program and the dynamic linker that it names, as execve does. Absolute paths are looked up below the root first,
// and then as they stand. The capabilities are those of the processor that the program is shown (AT_HWCAP).
struct entry load_program(const char *root, char **arguments, uint64_t capabilities);

// Does a call, and returns what it leaves in x0. After the program's last one `exited` is set.
uint64_t system_call(uint64_t number, const uint64_t *arguments);
extern int exited, exit_status;

// How many calls were refused because they aren't known here.
extern uint64_t unknown_calls;

// Ends the run with a message.
_Noreturn void fail(const char *message, ...);

#endif
