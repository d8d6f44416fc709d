/*
 * Every sheet, and every plan that is read, is passed twice: once ending where
 * an unreadable page begins, once beginning where an unreadable page ends. Its
 * own pages are read-only during the call. A read outside it or a write
 * anywhere near it is then a memory fault, which is reported under the name of
 * the case. lending.c and ledgers.c say how the buffers are watched that are
 * written.
 *
 * Every call runs on a stack that was filled with one byte value. The lowest
 * byte that changed tells how much stack the call used.
 */
#include "boundary.h"

#include <signal.h>
#include <stdarg.h>
#include <stdio.h>
#include <stdlib.h>
#include <string.h>
#include <sys/mman.h>
#include <ucontext.h>
#include <unistd.h>

/* More than the header names for any call. */
enum { STACK_BYTES = 2 * 64 * 1024 };

/* ---- failure ---- */

/* The case that runs now, the length of the sheet that it passed last, and the
 * line that a memory fault in it prints. */
static char case_name[128];
static size_t sheet_length;
static char fault_line[320];

static void name_fault(void)
{
    snprintf(fault_line, sizeof fault_line,
             "c boundary: %s: sheet of %zu bytes: memory fault: an access "
             "outside the buffers, a write to one that is only read, or too "
             "much stack\n",
             case_name, sheet_length);
}

void name_case(const char *format, ...)
{
    va_list words;

    va_start(words, format);
    vsnprintf(case_name, sizeof case_name, format, words);
    va_end(words);
    name_fault();
}

/* The versions of a sheet share a case's name; the length tells them apart. */
static void name_sheet(size_t length)
{
    sheet_length = length;
    name_fault();
}

void stop_unless(int done, const char *what)
{
    if (!done) {
        fprintf(stderr, "c boundary: %s: sheet of %zu bytes: %s failed\n",
                case_name, sheet_length, what);
        exit(1);
    }
}

static void on_fault(int signal_number)
{
    ssize_t written = write(STDERR_FILENO, fault_line, strlen(fault_line));

    (void)signal_number;
    (void)written;
    _exit(1);
}

/* The handler has a stack of its own: the fault may lie in the stack. */
static void catch_faults(void)
{
    static unsigned char handler_stack[64 * 1024];
    stack_t other = {.ss_sp = handler_stack, .ss_size = sizeof handler_stack};
    struct sigaction action = {.sa_handler = on_fault, .sa_flags = SA_ONSTACK};

    stop_unless(sigaltstack(&other, NULL) == 0, "sigaltstack");
    stop_unless(sigaction(SIGSEGV, &action, NULL) == 0, "sigaction");
    stop_unless(sigaction(SIGBUS, &action, NULL) == 0, "sigaction");
}

/* ---- memory between two unreadable pages ---- */

static struct room make_room(size_t least)
{
    size_t page = (size_t)sysconf(_SC_PAGESIZE);
    size_t bytes = (least + page - 1) / page * page;
    unsigned char *all = mmap(NULL, bytes + 2 * page, PROT_NONE,
                              MAP_PRIVATE | MAP_ANONYMOUS, -1, 0);
    struct room room;

    stop_unless(all != MAP_FAILED, "mmap");
    room.begin = all + page;
    room.bytes = bytes;
    return room;
}

static void allow(struct room room, int access)
{
    stop_unless(mprotect(room.begin, room.bytes, access) == 0, "mprotect");
}

struct room make_open_room(size_t least)
{
    struct room room = make_room(least);

    allow(room, PROT_READ | PROT_WRITE);
    return room;
}

static unsigned char next_noise(void)
{
    static uint64_t noise = 1;

    noise = noise * UINT64_C(6364136223846793005) + 1442695040888963407u;
    return (unsigned char)(noise >> 56);
}

void fill_with_noise(struct room room, unsigned char *copy)
{
    for (size_t at = 0; at < room.bytes; at++)
        room.begin[at] = next_noise();
    memcpy(copy, room.begin, room.bytes);
}

/* ---- a call on a painted stack ---- */

static struct {
    library_call *call;
    struct input input;
    uint64_t answer;
} job;

static struct room stack;
static ucontext_t outside, inside;

static void do_job(void)
{
    job.answer = job.call(job.input);
}

/* The bytes from the stack's top down to the lowest one that changed. */
static size_t touched(unsigned char paint)
{
    size_t clean = 0;

    while (clean < stack.bytes && stack.begin[clean] == paint)
        clean++;
    return stack.bytes - clean;
}

static size_t run_job(unsigned char paint)
{
    memset(stack.begin, paint, stack.bytes);
    stop_unless(getcontext(&inside) == 0, "getcontext");
    inside.uc_stack.ss_sp = stack.begin;
    inside.uc_stack.ss_size = stack.bytes;
    inside.uc_link = &outside;
    makecontext(&inside, do_job, 0);
    stop_unless(swapcontext(&outside, &inside) == 0, "swapcontext");
    return touched(paint);
}

/* ---- the stack that is not the call's ---- */

/* Two paints are used, since a byte may be overwritten by its own paint. */
enum { PAINT_AT_END = 0xA5, PAINT_AT_START = 0x5A };

static size_t stack_of_no_work;

__attribute__((noinline)) static uint64_t no_work(struct input input)
{
    (void)input;
    return 0;
}

static void measure_no_work(void)
{
    size_t one, other;

    job.call = no_work;
    one = run_job(PAINT_AT_END);
    other = run_job(PAINT_AT_START);
    stack_of_no_work = one > other ? one : other;
}

/* ---- one expectation ---- */

/* A sheet and a plan stand in them during the call. */
static struct room sheet_room, plan_room;

unsigned long calls;

static void note_stack(struct subject *subject, size_t used)
{
    if (used > stack_of_no_work + subject->stack_used)
        subject->stack_used = used - stack_of_no_work;
}

static void print_answer(const char *before, uint64_t answer)
{
    fprintf(stderr, "%s number %u option %u total %llu", before,
            nimovalsa_number(answer), nimovalsa_option(answer),
            (unsigned long long)nimovalsa_total(answer));
}

static void call_and_compare(struct subject *subject, struct input input,
                             unsigned char paint, uint64_t answer)
{
    name_sheet(input.sheet.length);
    job.call = subject->call;
    job.input = input;
    note_stack(subject, run_job(paint));
    calls++;
    if (job.answer != answer) {
        fprintf(stderr, "c boundary: %s: sheet of %zu bytes: %s:", case_name,
                sheet_length, subject->name);
        print_answer(" expected", answer);
        print_answer(", got", job.answer);
        fprintf(stderr, "\n");
        exit(1);
    }
}

static struct bytes place(struct room room, struct bytes content, size_t offset)
{
    unsigned char *at = room.begin + offset;

    allow(room, PROT_READ | PROT_WRITE);
    memset(room.begin, 0xEE, room.bytes);
    if (content.length > 0)
        memcpy(at, content.at, content.length);
    allow(room, PROT_READ);
    return (struct bytes){at, content.length};
}

static struct input placed(struct input input, size_t sheet_offset,
                           size_t plan_offset)
{
    return (struct input){place(sheet_room, input.sheet, sheet_offset),
                          place(plan_room, input.plan, plan_offset)};
}

void expect_answer_at(struct subject *subject, struct input input,
                      size_t sheet_offset, size_t plan_offset, uint64_t answer)
{
    call_and_compare(subject, placed(input, sheet_offset, plan_offset),
                     PAINT_AT_START, answer);
}

void expect_answer_at_end(struct subject *subject, struct input input,
                          uint64_t answer)
{
    size_t sheet_offset = sheet_room.bytes - input.sheet.length;
    size_t plan_offset = plan_room.bytes - input.plan.length;

    call_and_compare(subject, placed(input, sheet_offset, plan_offset),
                     PAINT_AT_END, answer);
}

void expect_answer_at_start(struct subject *subject, struct input input,
                            uint64_t answer)
{
    expect_answer_at(subject, input, 0, 0, answer);
}

void expect_answer(struct subject *subject, struct input input, uint64_t answer)
{
    expect_answer_at_end(subject, input, answer);
    expect_answer_at_start(subject, input, answer);
}

void expect_answer_here(struct subject *subject, struct input input,
                        uint64_t answer)
{
    call_and_compare(subject, input, PAINT_AT_END, answer);
}

void test_stack(const struct subject *subject)
{
    if (subject->stack_used > subject->stack_named) {
        fprintf(stderr,
                "c boundary: stack: %s used %zu bytes, the header says %zu\n",
                subject->name, subject->stack_used, subject->stack_named);
        exit(1);
    }
}

void start_harness(void)
{
    name_case("start");
    catch_faults();
    sheet_room = make_room(LONGEST_SHEET);
    plan_room = make_room(LONGEST_PLAN);
    stack = make_open_room(STACK_BYTES);
    measure_no_work();
}
