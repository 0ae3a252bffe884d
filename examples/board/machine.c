/* The machine under the board; machine.h says what each function is for. */
#include "machine.h"

#include <stdarg.h>

enum { CLOCK_VECTOR = 0x20, LINE_VECTOR = 0x23, RADIO_VECTOR = 0x24, TIMER_VECTOR = 0x30, STEP_VECTOR = 1, VECTORS = 64, FAULTS = 32 };

static inline void port_give(uint16_t port, uint8_t v) { __asm__ volatile("outb %0, %1" ::"a"(v), "Nd"(port)); }

static inline uint8_t port_take(uint16_t port) {
    uint8_t v;
    __asm__ volatile("inb %1, %0" : "=a"(v) : "Nd"(port));
    return v;
}

/* ---- console */

enum { CONSOLE = 0xE9, END = 0x501 };

static void say_number(uint64_t n, uint64_t base) {
    char digits[20];
    int k = 0;
    do digits[k++] = "0123456789abcdef"[n % base];
    while (n /= base);
    while (k) port_give(CONSOLE, (uint8_t)digits[--k]);
}

static void say_text(const char *s) {
    while (*s) port_give(CONSOLE, (uint8_t)*s++);
}

void say(const char *format, ...) {
    va_list more;
    va_start(more, format);
    for (; *format; format++) {
        if (*format != '%') port_give(CONSOLE, (uint8_t)*format);
        else if (*++format == 's') say_text(va_arg(more, const char *));
        else say_number(va_arg(more, uint64_t), *format == 'x' ? 16 : 10);
    }
    va_end(more);
}

_Noreturn void leave(uint32_t code) {
    __asm__ volatile("outl %0, %1" ::"a"(code), "Nd"((uint16_t)END));
    for (;;) {
        interrupts_off();
        sleep_until_interrupt();
    }
}

/* ---- the command line */

static char command_line[256];

/* What stands after the name: a blank or the end for a word alone, '=' and a number for an option. */
static const char *after(const char *name) {
    for (const char *c = command_line; *c;) {
        const char *n = name;
        while (*c == ' ') c++;
        while (*n && *c == *n) c++, n++;
        if (!*n && (!*c || *c == ' ' || *c == '=')) return c;
        while (*c && *c != ' ') c++;
    }
    return 0;
}

int chosen(const char *name) { return after(name) != 0; }

uint64_t option(const char *name, uint64_t otherwise) {
    const char *c = after(name);
    if (!c || *c != '=') return otherwise;
    uint64_t n = 0;
    while (*++c >= '0' && *c <= '9') n = n * 10 + (uint64_t)(*c - '0');
    return n;
}

/* ---- serial ports */

static const uint16_t serial_base[2] = {0x3F8, 0x2F8};
enum { RING = 4096 };
static uint8_t ring[2][RING];
static volatile uint32_t came[2], taken[2];

static void serial_start(int port) {
    uint16_t base = serial_base[port];
    port_give(base + 3, 0x80);                      /* 115,200 baud */
    port_give(base, 1), port_give(base + 1, 0);
    port_give(base + 3, 3);                         /* 8 bits */
    port_give(base + 2, 7);                         /* queues on and empty */
    port_give(base + 4, 0x0B), port_give(base + 1, 1); /* an interrupt for what comes */
}

static void serial_came(int port) {
    while (port_take(serial_base[port] + 5) & 1) {
        uint8_t byte = port_take(serial_base[port]);
        if (came[port] - taken[port] < RING) ring[port][came[port]++ % RING] = byte; /* else it is lost, and the checksum tells */
    }
}

int serial_take(int port) { return taken[port] == came[port] ? -1 : ring[port][taken[port]++ % RING]; }

void serial_give(int port, uint8_t byte) {
    while (!(port_take(serial_base[port] + 5) & 0x20)) {}
    port_give(serial_base[port], byte);
}

/* ---- time: the clock is the PC's old one, the timer the processor's own */

static volatile uint32_t *const processor_timer = (volatile uint32_t *)0xFEE00000ul;
enum { END_OF_INTERRUPT = 0xB0 / 4, SPURIOUS = 0xF0 / 4, TIMER = 0x320 / 4, OLD_INTERRUPTS = 0x350 / 4, COUNT = 0x380 / 4, DIVIDE = 0x3E0 / 4 };

volatile uint64_t milliseconds;

void clock_start(void) {
    enum { HERTZ = 1193182 };
    port_give(0x43, 0x34);
    port_give(0x40, (HERTZ / 1000) & 0xFF), port_give(0x40, HERTZ / 1000 >> 8);
    port_give(0x21, 0xE6); /* IRQ 0, 3 and 4 */
}

void timer_aim(uint32_t instructions) { processor_timer[COUNT] = instructions; }

/* ---- traps */

enum { SAME_STACK = 0, OWN_STACK = 1 };
static struct gate { uint16_t low, code; uint8_t stack, kind; uint16_t middle; uint32_t high, zero; } gates[VECTORS];

volatile uint64_t aimed, aimed_inside, last_rip;
uint32_t wrecking;
struct place *on_fault;
struct trap_frame fault;
static void (*stepped)(const struct trap_frame *);

void step_each(void (*told)(const struct trap_frame *), int apart) {
    if (told) {
        stepped = told;
        gates[STEP_VECTOR].stack = apart ? OWN_STACK : SAME_STACK;
        __asm__ volatile("pushfq; orl $0x100, (%%rsp); popfq" ::: "memory", "cc");
    } else __asm__ volatile("pushfq; andl $~0x100, (%%rsp); popfq" ::: "memory", "cc");
}

void trap(struct trap_frame *f) {
    switch (f->vector) {
    case STEP_VECTOR: stepped(f); return;
    case TIMER_VECTOR:
        last_rip = f->rip;
        aimed++;
        if (f->rip >= (uint64_t)pager_from && f->rip < (uint64_t)pager_to) aimed_inside++;
        processor_timer[END_OF_INTERRUPT] = 0;
        return;
    case CLOCK_VECTOR: milliseconds++; break;
    case RADIO_VECTOR: serial_came(RADIO); break;
    case LINE_VECTOR: serial_came(LINE); break;
    default:
        if (f->vector >= FAULTS) return; /* spurious */
        fault = *f;
        if (on_fault) {
            struct place *to = on_fault;
            on_fault = 0;
            go_back(to);
        }
        say("board: trap %u, error %x, at %x, stack %x\n", f->vector, f->error, f->rip, f->rsp);
        leave(2);
    }
    port_give(0x20, 0x20);
}

struct task_segment { uint32_t r0; uint64_t rsp[3], r1, ist[7], r2; uint16_t r3, ports; } __attribute__((packed)) task_segment;
static uint8_t fault_stack[16384] __attribute__((aligned(16)));
extern char trap_entries[];

/* Faults get a stack of their own, so that a broken one can be told. Interrupts come on the stack of what they interrupt. */
static void traps_start(void) {
    task_segment.ist[0] = (uint64_t)(fault_stack + sizeof fault_stack);
    task_segment.ports = sizeof task_segment;
    for (int v = 0; v < VECTORS; v++) {
        uint64_t entry = (uint64_t)trap_entries + 16 * (uint64_t)v;
        uint8_t stack = v < FAULTS ? OWN_STACK : SAME_STACK;
        gates[v] = (struct gate){(uint16_t)entry, 8, stack, 0x8E, (uint16_t)(entry >> 16), (uint32_t)(entry >> 32), 0};
    }
    struct { uint16_t last; uint64_t at; } __attribute__((packed)) table = {sizeof gates - 1, (uint64_t)gates};
    __asm__ volatile("lidt %0" ::"m"(table));
    /* the two old interrupt controllers: their vectors, one behind the other, IRQ 3 and 4 let through */
    static const uint8_t first[] = {0x11, CLOCK_VECTOR, 4, 1, 0xE7}, second[] = {0x11, CLOCK_VECTOR + 8, 2, 1, 0xFF};
    for (int k = 0; k < 5; k++) port_give(k ? 0x21 : 0x20, first[k]), port_give(k ? 0xA1 : 0xA0, second[k]);
    processor_timer[SPURIOUS] = 0x13F;
    processor_timer[OLD_INTERRUPTS] = 0x700;
    processor_timer[DIVIDE] = 0xB;
    processor_timer[TIMER] = TIMER_VECTOR;
}

void vector_registers(int on) {
    uint64_t r;
    if (on)
        __asm__ volatile("mov %%cr0, %0; and $~0xC, %0; or $2, %0; mov %0, %%cr0; mov %%cr4, %0; or $0x600, %0; mov %0, %%cr4" : "=r"(r)::"cc");
    else __asm__ volatile("mov %%cr4, %0; and $~0x600, %0; mov %0, %%cr4; mov %%cr0, %0; or $4, %0; mov %0, %%cr0" : "=r"(r)::"cc");
}

/* ---- the kernel */

/* The first 2 MiB are left unmapped: a store through a broken small number is a fault. */
static void unmap_low(void) {
    extern uint64_t page_directory[];
    page_directory[0] = 0;
    __asm__ volatile("mov %%cr3, %%rax; mov %%rax, %%cr3" ::: "rax", "memory");
}

void kernel(const uint64_t *start_info) {
    const char *given = (const char *)start_info[3];
    for (size_t k = 0; k + 1 < sizeof command_line && given[k]; k++) command_line[k] = given[k];
    unmap_low();
    traps_start();
    serial_start(RADIO), serial_start(LINE);
    if (chosen("sweep")) sweep();
    collect();
}
