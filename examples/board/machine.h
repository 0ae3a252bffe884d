/* The machine under the board: two serial ports, a clock, a timer that can be aimed at an instruction, traps, and a console for what the
   board has to say of itself (QEMU's port E9). */
#ifndef MACHINE_H
#define MACHINE_H
#include <stddef.h>
#include <stdint.h>

enum { RADIO = 0, LINE = 1 };

/* What stands on the stack when a trap is handled: the registers as pushed, then the processor's own frame. */
struct trap_frame {
    uint64_t r15, r14, r13, r12, r11, r10, r9, r8, rdi, rsi, rbp, rbx, rdx, rcx, rax, vector, error, rip, cs, rflags, rsp, ss;
};

/* ---- the kernel's command line and console */

uint64_t option(const char *name, uint64_t otherwise); /* name=number */
int chosen(const char *name);                          /* the name stands there alone */
void say(const char *format, ...);                     /* %u and %x take a uint64_t, %s a string; nothing else */
_Noreturn void leave(uint32_t code);                   /* ends QEMU, with status 2 x code + 1 */

/* ---- serial ports: interrupts fill a ring, the main loop empties it */

int serial_take(int port); /* a byte that came, or -1 */
void serial_give(int port, uint8_t byte);

/* ---- time */

extern volatile uint64_t milliseconds; /* of the clock */
void clock_start(void);
void timer_aim(uint32_t instructions); /* one interrupt after so many instructions, where QEMU counts them (-icount shift=0) */

/* ---- interrupts and traps */

extern volatile uint64_t aimed, aimed_inside; /* interrupts of the timer so far; those inside the library's code */
extern volatile uint64_t last_rip;            /* where the last one came */
extern uint32_t wrecking;                     /* handlers change all that they may: boot.S */
void vector_registers(int on);                /* with them off, any use of one is a trap */

/* Where a fault of what is being tried goes back to; null: a fault ends the board. */
struct place { uint64_t at[8]; };
int save(struct place *) __attribute__((returns_twice));
_Noreturn void go_back(struct place *);
extern struct place *on_fault;
extern struct trap_frame fault;

/* From here on a trap before each instruction, which is told of it; until this is called with 0. On a stack apart, or on the same. */
void step_each(void (*told)(const struct trap_frame *), int apart);

void call_off_by_8(void (*)(void));

extern char pager_from[], pager_to[], copies_to[]; /* the library's code, then memmove and memset */

void *memmove(void *to, const void *from, size_t n);
void *memset(void *to, int byte, size_t n);

static inline void interrupts_on(void) { __asm__ volatile("sti" ::: "memory"); }
static inline void interrupts_off(void) { __asm__ volatile("cli" ::: "memory"); }
static inline void sleep_until_interrupt(void) { __asm__ volatile("hlt" ::: "memory"); }

/* ---- what the kernel does, by its command line */

_Noreturn void collect(void); /* board.c */
_Noreturn void sweep(void);   /* sweep.c */
#endif
