/* The deepest stack and the instructions of one call. x86-64 Linux, natively or under the kit's emulator; no C headers are wanted.
   Two measures of stack, of which the larger counts:
   painted: the call runs on a stack of its own, filled with a pattern; the lowest byte that changed tells the depth, red zone and all;
   stepped: with the trap flag set each instruction raises SIGTRAP, and the handler counts and keeps the lowest stack pointer. */
typedef unsigned char u8;
typedef unsigned u32;
typedef unsigned long u64;
int printf(const char *, ...);
void *memset(void *, int, u64);
int sigaction(int, const void *, void *);
int sigaltstack(const void *, void *);

struct action { void (*handler)(int, void *, void *); u64 mask[16]; int flags; void *restorer; };
struct stack { void *base; int flags; u64 size; };
struct reading { u64 stack, instructions; };

static u64 meter_steps, meter_low, meter_target, meter_entry, meter_inside, meter_before;
static u8 meter_handler_stack[65536], meter_room[1 << 20] __attribute__((aligned(4096)));

/* the words of the interrupted program's registers: RSP is 15, RIP 16 */
static void meter_on_trap(int signal, void *info, void *context) {
    u64 *registers = (u64 *)((char *)context + 40);
    if (!meter_inside && !meter_entry && registers[16] == meter_target) {
        meter_entry = meter_low = registers[15];
        meter_inside = 1;
    }
    if (meter_inside) {
        if (registers[15] > meter_entry) meter_inside = 0;
        else {
            meter_steps++;
            if (registers[15] < meter_low) meter_low = registers[15];
        }
    }
}

#define METER_SPOILED "rbx", "memory", "cc", "rax", "rcx", "rdx", "rsi", "rdi", "r8", "r9", "r10", "r11", "xmm0", "xmm1", "xmm2", "xmm3", \
    "xmm4", "xmm5", "xmm6", "xmm7", "xmm8", "xmm9", "xmm10", "xmm11", "xmm12", "xmm13", "xmm14", "xmm15"
static void meter_plain(void (*call)(void), u8 *top) {
    __asm__ volatile("movq %%rsp, %%rbx\n movq %0, %%rsp\n call *%1\n movq %%rbx, %%rsp" ::"r"(top), "r"(call) : METER_SPOILED);
}
static void meter_stepped(void (*call)(void), u8 *top) {
    __asm__ volatile("movq %%rsp, %%rbx\n movq %0, %%rsp\n pushfq\n orq $0x100, (%%rsp)\n popfq\n call *%1\n"
                     "pushfq\n andq $~0x100, (%%rsp)\n popfq\n movq %%rbx, %%rsp" ::"r"(top), "r"(call) : METER_SPOILED);
}

static void meter_begin(void) {
    struct stack stack = {meter_handler_stack, 0, sizeof meter_handler_stack};
    struct action action;
    sigaltstack(&stack, 0);
    memset(&action, 0, sizeof action);
    action.handler = meter_on_trap;
    action.flags = 0x4 | 0x08000000 | 0x40000000; /* SA_SIGINFO, SA_ONSTACK, SA_NODEFER */
    sigaction(5, &action, 0);
}

/* the bytes of the room that the call touches, from its top on */
static u64 meter_touched(void (*call)(void)) {
    u64 untouched = 0;
    memset(meter_room, 0xA5, sizeof meter_room);
    meter_plain(call, meter_room + sizeof meter_room);
    while (untouched < sizeof meter_room && meter_room[untouched] == 0xA5) untouched++;
    return sizeof meter_room - untouched;
}
/* what `callee` takes where `call` calls it; the return address counts to the caller */
static struct reading meter(void (*call)(void), void *callee) {
    u8 *top = meter_room + sizeof meter_room;
    u64 touched = meter_touched(call);
    meter_steps = meter_entry = meter_inside = 0;
    meter_target = (u64)callee;
    meter_stepped(call, top);
    meter_before = (u64)top - meter_entry;
    u64 painted = touched - meter_before, stepped = meter_entry - meter_low;
    struct reading r = {painted > stepped ? painted : stepped, meter_steps};
    return r;
}
/* the stack alone, where stepping would take minutes; `before` is the caller's share, which `meter` of the same call leaves in meter_before */
static struct reading meter_stack(void (*call)(void), u64 before) {
    struct reading r = {meter_touched(call) - before, 0};
    return r;
}
