/*
 * Measures the stack that the calls need. Each call is made on a stack of its own, which is filled with a pattern before: what of
 * the pattern is gone afterwards, counted from the frame of the function that makes the call, is what the call took, with its
 * arguments and the address that it returns to. The inputs are made up, from a fixed seed. Prints the most that each function
 * took, and fails where that is more than the header says, or where all its calls were refused.
 */
#define _XOPEN_SOURCE 700
#include "additional_pension.h"

#include <stdio.h>
#include <stdlib.h>
#include <string.h>
#include <ucontext.h>

/* The bytes that a call needs at most, as the header says. */
#define LIMIT 2048u

#define ROUNDS 50000
#define STACK_BYTES (4 * LIMIT)
#define PATTERN 0xa5

/* The months of the longest term, and those that a lump sum has marks for. */
#define MOST_MARKS 240u
#define LUMP_SUM_MARKS 12u

/* What the next call is given, and its value. */
static uint32_t age, pnpa_years, pnpa_months, option, payer, term, amount, age_now, increase;
static uint32_t npa, pay, factors[3];
static uint64_t existing_pence, limit_pence;
static uint8_t marks[MOST_MARKS + 1];
static size_t marks_len;
static uint8_t out[AP_SETTLE_BYTES];
static size_t out_len;
static uint32_t value;

static unsigned char stack[STACK_BYTES];
static ucontext_t here, there;
static unsigned char *frame;

static void quote(void)
{
    frame = __builtin_frame_address(0);
    value = ap_quote(age, pnpa_years, pnpa_months, option, payer, term, amount, existing_pence, 41, out, out_len);
}

static void settle(void)
{
    frame = __builtin_frame_address(0);
    value = ap_settle(age, pnpa_years, pnpa_months, option, payer, term, amount, marks, marks_len, out, out_len);
}

static void pay_off(void)
{
    frame = __builtin_frame_address(0);
    value = ap_pay_off(age, pnpa_years, pnpa_months, option, payer, term, amount, marks, marks_len, age_now, increase, out,
                       out_len);
}

static void reduction_limit(void)
{
    frame = __builtin_frame_address(0);
    value = ap_reduction_limit(npa, age, pay, factors[0], factors[1], factors[2], existing_pence, limit_pence, out, out_len);
}

static void interface(void)
{
    frame = __builtin_frame_address(0);
    value = ap_interface() - AP_INTERFACE;
}

static void rules(void)
{
    frame = __builtin_frame_address(0);
    value = ap_rules() - AP_RULES;
}

/* A function that is measured: how often it was called and not refused, and the most bytes that it took. */
static struct call {
    const char *name;
    void (*make)(void);
    unsigned made, answered;
    size_t most;
} calls[] = {
    {"ap_quote", quote, 0, 0, 0},
    {"ap_settle", settle, 0, 0, 0},
    {"ap_pay_off", pay_off, 0, 0, 0},
    {"ap_reduction_limit", reduction_limit, 0, 0, 0},
    {"ap_interface", interface, 0, 0, 0},
    {"ap_rules", rules, 0, 0, 0},
};
#define CALLS (sizeof calls / sizeof *calls)

static void (*volatile made)(void);

static void on_own_stack(void)
{
    made();
    swapcontext(&there, &here);
}

static void measure(struct call *call)
{
    size_t kept = 0, taken;
    made = call->make;
    memset(stack, PATTERN, sizeof stack);
    getcontext(&there);
    there.uc_stack.ss_sp = stack;
    there.uc_stack.ss_size = sizeof stack;
    there.uc_link = NULL;
    makecontext(&there, on_own_stack, 0);
    swapcontext(&here, &there);
    while (kept < sizeof stack && stack[kept] == PATTERN)
        kept++;
    taken = (size_t)(frame - stack) - kept;
    if (taken > call->most)
        call->most = taken;
    call->made++;
    call->answered += value == AP_REFUSED_NOTHING;
}

/* A made-up number of a range, both ends included. */
static uint32_t from_to(uint32_t least, uint32_t most)
{
    static uint64_t state = 20150331;
    state = state * 6364136223846793005u + 1442695040888963407u;
    return least + (uint32_t)(state >> 33) % (most - least + 1);
}

/* Marks: as many as the contract may have, or fewer, or one more; paid, some of them missed, at most one of them bad. */
static void make_up_marks(void)
{
    uint32_t months = term < 20 ? 12 * term : MOST_MARKS, apart = from_to(2, 60);
    if (term == AP_TERM_LUMP_SUM)
        months = LUMP_SUM_MARKS;
    marks_len = from_to(0, 1) ? months : from_to(0, months + 1);
    memset(marks, AP_MARK_PAID, sizeof marks);
    for (uint32_t month = apart; month < marks_len; month += apart)
        marks[month] = AP_MARK_MISSED;
    if (from_to(0, 3) == 0)
        marks[from_to(0, MOST_MARKS)] = (uint8_t)from_to(AP_MARK_MISSED, 3);
}

static void make_up(void)
{
    age = from_to(15, 65);
    pnpa_years = from_to(65, from_to(67, 68));
    pnpa_months = from_to(0, 1) ? 0 : from_to(0, 12);
    option = from_to(AP_OPTION_PERSONAL, from_to(2, 3));
    term = from_to(0, 3) ? from_to(0, 20) : from_to(20, 21);
    payer = term == AP_TERM_LUMP_SUM ? AP_PAYER_EMPLOYER : AP_PAYER_MEMBER;
    amount = 250 * from_to(0, 26) + from_to(0, 20) / 20;
    age_now = from_to(0, 1) ? age + 1 : from_to(15, 66);
    increase = from_to(0, 1) ? 1011 : from_to(999, 10000);
    make_up_marks();
    npa = from_to(66, from_to(70, 71));
    pay = from_to(0, 200001);
    for (size_t candidate = 0; candidate < 3; candidate++)
        factors[candidate] = from_to(700, 1001);
    existing_pence = 100 * from_to(0, 6500);
    limit_pence = 100 * from_to(0, 20000);
    out_len = from_to(0, 20) ? sizeof out : from_to(0, sizeof out);
}

int main(void)
{
    int status = EXIT_SUCCESS;
    for (int round = 0; round < ROUNDS; round++) {
        make_up();
        for (size_t call = 0; call < CALLS; call++)
            measure(&calls[call]);
    }
    for (size_t call = 0; call < CALLS; call++) {
        printf("%-18s %5zu bytes of the stack at most, %u of %u calls not refused\n", calls[call].name, calls[call].most,
               calls[call].answered, calls[call].made);
        if (calls[call].most > LIMIT || calls[call].answered == 0)
            status = EXIT_FAILURE;
    }
    return status;
}
