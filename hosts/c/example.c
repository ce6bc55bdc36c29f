/*
 * Quotes, settles and pays off a few contracts and prints how each stands; then finds a few reduction limits. Before its first call
 * it looks whether the archive is the one that the header describes, and before it passes on a number that was read, whether that
 * fits. Every buffer and every list of marks is a piece of memory of just the length that is passed (of one byte where that is 0),
 * so that a memory checker sees a byte read or written beyond it.
 */
#include "additional_pension.h"

#include <inttypes.h>
#include <stdbool.h>
#include <stdio.h>
#include <stdlib.h>
#include <string.h>

struct terms {
    const char *name;
    uint32_t age, pnpa_years, pnpa_months, option, payer, term, amount;
};

/* Terms as they were read, in a type that holds more than a call takes. */
struct request {
    const char *name;
    long long age, pnpa_years, pnpa_months, option, payer, term, amount;
};

struct application {
    const char *name;
    uint32_t npa, age, pay, erf_first, erf_second, erf_third;
    uint64_t existing_pence, limit_pence;
};

static const char *const REFUSALS[] = {
    "not refused",      "option",           "pension age",   "term",        "payer",
    "no rate",          "no upper rate",    "amount",        "cap",         "last number",
    "number of marks",  "value of a mark",  "order of marks", "",           "short buffer",
    "",                 "nothing to pay off", "increase",     "application",
};

static const char *const STATUSES[] = {
    "not started", "paying", "in a gap", "complete", "ceased", "refunded", "lump sum",
};

/* The marks of a year that is paid. */
#define YEAR "111111111111"

/* What fills a buffer before a call. */
#define UNTOUCHED 0xa5

/*
 * Whether the archive is the one that the header describes. Says so where it is not, and the program then stops: by another
 * interface no other call may be made, and by other rules results may differ.
 */
static bool archive_fits(void)
{
    uint32_t interface = ap_interface(), rules = ap_rules();
    if (interface == AP_INTERFACE && rules == AP_RULES)
        return true;
    fprintf(stderr, "The archive has interface %" PRIu32 " and rules %" PRIu32 ", the header interface %u and rules %u.\n",
            interface, rules, AP_INTERFACE, AP_RULES);
    return false;
}

/* Whether a number fits a parameter, and the number as that. A cast alone would take its low 32 bits without a word. */
static bool fits_u32(long long value, uint32_t *narrow)
{
    if (value < 0 || value > UINT32_MAX)
        return false;
    *narrow = (uint32_t)value;
    return true;
}

/* A piece of memory. It is never null, also where the length is 0: no null pointer may be lent. */
static void *memory(size_t length)
{
    void *piece = malloc(length > 0 ? length : 1);
    if (piece == NULL) {
        fprintf(stderr, "There is no memory left.\n");
        exit(EXIT_FAILURE);
    }
    return piece;
}

/* The number at an offset of a result. */
static uint64_t number(const uint8_t *result, size_t offset)
{
    uint64_t value = 0;
    for (size_t byte = 8; byte-- > 0;)
        value = value << 8 | result[offset + byte];
    return value;
}

static void print_money(const char *name, uint64_t pence)
{
    printf("  %-14s%8" PRIu64 ".%02" PRIu64 "\n", name, pence / 100, pence % 100);
}

static void print_thousandths(uint32_t thousandths)
{
    printf(" %" PRIu32 ".%03" PRIu32, thousandths / 1000, thousandths % 1000);
}

static void print_terms(const struct terms *terms)
{
    printf("%s\n  age %" PRIu32 ", pension age %" PRIu32 " years %" PRIu32 " months, option %" PRIu32 ", payer %" PRIu32
           ", term %" PRIu32 ", %" PRIu32 " pounds a year\n",
           terms->name, terms->age, terms->pnpa_years, terms->pnpa_months, terms->option, terms->payer, terms->term,
           terms->amount);
}

/* Quotes and, on success, moves the caller's register on. */
static void quote(const struct terms *terms, uint64_t existing_pence, uint32_t *last_number)
{
    uint8_t *result = memory(AP_QUOTE_BYTES);
    uint32_t refusal = ap_quote(terms->age, terms->pnpa_years, terms->pnpa_months, terms->option, terms->payer, terms->term,
                                terms->amount, existing_pence, *last_number, result, AP_QUOTE_BYTES);
    printf("Quote: ");
    print_terms(terms);
    print_money("existing", existing_pence);
    if (refusal != AP_REFUSED_NOTHING) {
        printf("  refused %" PRIu32 ": %s\n\n", refusal, REFUSALS[refusal]);
    } else {
        *last_number = (uint32_t)number(result, AP_QUOTE_NEXT_NUMBER);
        print_money("contribution", number(result, AP_QUOTE_CONTRIBUTION));
        printf("  quote number %12" PRIu32 "\n\n", *last_number);
    }
    free(result);
}

/* Whether a number of a request fits. Says where it does not, and what the call would have got. */
static bool fits(const struct request *request, const char *name, long long value, uint32_t *narrow)
{
    if (fits_u32(value, narrow))
        return true;
    printf("Quote: %s\n  %s %lld does not fit and is not passed on: it would become %" PRIu32 "\n\n", request->name, name, value,
           (uint32_t)value);
    return false;
}

/* Quotes what was read, if every number of it fits. */
static void quote_read(const struct request *request, uint32_t *last_number)
{
    struct terms terms = {.name = request->name};
    if (fits(request, "age", request->age, &terms.age) &&
        fits(request, "pension age", request->pnpa_years, &terms.pnpa_years) &&
        fits(request, "odd months", request->pnpa_months, &terms.pnpa_months) &&
        fits(request, "option", request->option, &terms.option) &&
        fits(request, "payer", request->payer, &terms.payer) &&
        fits(request, "term", request->term, &terms.term) &&
        fits(request, "amount", request->amount, &terms.amount))
        quote(&terms, 0, last_number);
}

/* Marks that are given as digits. */
static uint8_t *marks_of(const char *digits)
{
    size_t count = strlen(digits);
    uint8_t *marks = memory(count);

    for (size_t month = 0; month < count; month++)
        marks[month] = (uint8_t)(digits[month] - '0');
    return marks;
}

static void print_marks(const char *digits)
{
    printf("  marks %s\n", digits[0] != '\0' ? digits : "none");
}

static void print_refusal(uint32_t refusal, uint64_t place)
{
    printf("  refused %" PRIu32 " at %" PRIu64 ": %s\n\n", refusal, place, REFUSALS[refusal]);
}

/* Settles a contract. The value is the refusal. */
static uint32_t settle_into(const struct terms *terms, const char *digits, uint8_t *result, size_t length)
{
    uint8_t *marks = marks_of(digits);
    uint32_t refusal = ap_settle(terms->age, terms->pnpa_years, terms->pnpa_months, terms->option, terms->payer, terms->term,
                                 terms->amount, marks, strlen(digits), result, length);
    free(marks);
    return refusal;
}

/* Settles and prints how the contract stands. */
static void settle(const struct terms *terms, const char *digits)
{
    uint8_t *result = memory(AP_SETTLE_BYTES);
    uint32_t refusal = settle_into(terms, digits, result, AP_SETTLE_BYTES);
    printf("Settle: ");
    print_terms(terms);
    print_marks(digits);
    if (refusal != AP_REFUSED_NOTHING) {
        print_refusal(refusal, number(result, AP_SETTLE_PLACE));
    } else {
        printf("  status        %s\n", STATUSES[number(result, AP_SETTLE_STATUS)]);
        print_money("contribution", number(result, AP_SETTLE_CONTRIBUTION));
        print_money("credit a year", number(result, AP_SETTLE_CREDIT));
        print_money("refund", number(result, AP_SETTLE_REFUND));
        printf("\n");
    }
    free(result);
}

/* Pays off a contract. The value is the refusal. */
static uint32_t pay_off_into(const struct terms *terms, const char *digits, uint32_t age_now, uint32_t increase,
                             uint8_t *result, size_t length)
{
    uint8_t *marks = marks_of(digits);
    uint32_t refusal = ap_pay_off(terms->age, terms->pnpa_years, terms->pnpa_months, terms->option, terms->payer, terms->term,
                                  terms->amount, marks, strlen(digits), age_now, increase, result, length);
    free(marks);
    return refusal;
}

/* Pays off and prints what that costs. */
static void pay_off(const struct terms *terms, const char *digits, uint32_t age_now, uint32_t increase)
{
    uint8_t *result = memory(AP_PAY_OFF_BYTES);
    uint32_t refusal = pay_off_into(terms, digits, age_now, increase, result, AP_PAY_OFF_BYTES);
    printf("Pay off: ");
    print_terms(terms);
    print_marks(digits);
    printf("  age now %" PRIu32 ", increase", age_now);
    print_thousandths(increase);
    printf("\n");
    if (refusal != AP_REFUSED_NOTHING) {
        print_refusal(refusal, number(result, AP_PAY_OFF_PLACE));
    } else {
        print_money("remaining", number(result, AP_PAY_OFF_REMAINING));
        print_money("increased", number(result, AP_PAY_OFF_INCREASED));
        print_money("cost", number(result, AP_PAY_OFF_COST));
        printf("\n");
    }
    free(result);
}

/* Finds a reduction limit. The value is the refusal. */
static uint32_t limit_into(const struct application *application, uint8_t *result, size_t length)
{
    return ap_reduction_limit(application->npa, application->age, application->pay, application->erf_first,
                              application->erf_second, application->erf_third, application->existing_pence,
                              application->limit_pence, result, length);
}

static void print_application(const struct application *application)
{
    printf("%s\n  pension age %" PRIu32 ", age %" PRIu32 ", pay %" PRIu32 " pounds a year, factors", application->name,
           application->npa, application->age, application->pay);
    print_thousandths(application->erf_first);
    print_thousandths(application->erf_second);
    print_thousandths(application->erf_third);
    printf("\n");
    print_money("existing", application->existing_pence);
    print_money("limit", application->limit_pence);
}

/* Finds a reduction limit and prints it. */
static void reduction_limit(const struct application *application)
{
    uint8_t *result = memory(AP_REDUCTION_LIMIT_BYTES);
    uint32_t refusal = limit_into(application, result, AP_REDUCTION_LIMIT_BYTES);
    printf("Reduction limit: ");
    print_application(application);
    if (refusal != AP_REFUSED_NOTHING) {
        printf("  refused %" PRIu32 ": %s\n\n", refusal, REFUSALS[refusal]);
    } else {
        uint64_t age = number(result, AP_REDUCTION_LIMIT_AGE);
        print_money("B, first", number(result, AP_REDUCTION_LIMIT_B_FIRST));
        print_money("B, second", number(result, AP_REDUCTION_LIMIT_B_SECOND));
        print_money("B, third", number(result, AP_REDUCTION_LIMIT_B_THIRD));
        if (age == 0)
            printf("  no scope\n\n");
        else
            printf("  earliest age %12" PRIu64 "\n\n", age);
    }
    free(result);
}

/* A buffer as it is before a call. */
static uint8_t *untouched(size_t length)
{
    uint8_t *result = memory(length);
    memset(result, UNTOUCHED, length);
    return result;
}

/* Prints how much of what the buffer held is still there. */
static void print_kept(const char *call, uint32_t refusal, const uint8_t *result, size_t length)
{
    size_t kept = 0;
    while (kept < length && result[kept] == UNTOUCHED)
        kept++;
    printf("%s into %zu bytes\n  refused %" PRIu32 ": %s, %zu bytes kept\n", call, length, refusal, REFUSALS[refusal], kept);
}

/* Buffers that are a byte too short keep what they hold. */
static void short_buffers(const struct terms *terms, const struct application *application)
{
    size_t settled = AP_SETTLE_BYTES - 1, paid_off = AP_PAY_OFF_BYTES - 1, limited = AP_REDUCTION_LIMIT_BYTES - 1;
    uint8_t *result = untouched(settled);
    print_kept("Settle", settle_into(terms, "", result, settled), result, settled);
    free(result);

    printf("\n");
    result = untouched(paid_off);
    print_kept("Pay off", pay_off_into(terms, "", 65, 999, result, paid_off), result, paid_off);
    free(result);

    printf("\n");
    result = untouched(limited);
    print_kept("Reduction limit", limit_into(application, result, limited), result, limited);
    free(result);
}

int main(void)
{
    const struct terms nine_years = {"nine years, with dependant's pension", 50, 67, 0, AP_OPTION_WITH_DEPENDANT,
                                     AP_PAYER_MEMBER, 9, 1250};
    const struct terms five_years = {"five years, with dependant's pension", 50, 65, 0, AP_OPTION_WITH_DEPENDANT,
                                     AP_PAYER_MEMBER, 5, 1000};
    const struct terms odd_months = {"ten years, pension age with odd months", 54, 66, 5, AP_OPTION_WITH_DEPENDANT,
                                     AP_PAYER_MEMBER, 10, 1750};
    const struct terms lump_sum = {"lump sum of the employer, personal", 40, 68, 0, AP_OPTION_PERSONAL, AP_PAYER_EMPLOYER,
                                   AP_TERM_LUMP_SUM, 2000};
    const struct terms own_lump_sum = {"lump sum of the member, pension age with odd months", 50, 66, 5, AP_OPTION_WITH_DEPENDANT,
                                       AP_PAYER_MEMBER, AP_TERM_LUMP_SUM, 1000};
    const struct terms no_multiple = {"not a multiple", 50, 65, 0, AP_OPTION_WITH_DEPENDANT, AP_PAYER_MEMBER, 5, 1100};
    const struct request as_read = {"as it was read", 50, 65, 0, AP_OPTION_WITH_DEPENDANT, AP_PAYER_MEMBER, 5, 1000};
    const struct request wide_age = {"an age of ten digits", 4294967346, 65, 0, AP_OPTION_WITH_DEPENDANT, AP_PAYER_MEMBER, 5, 1000};
    const struct request below_0 = {"an amount below 0", 50, 65, 0, AP_OPTION_WITH_DEPENDANT, AP_PAYER_MEMBER, 5, -1000};
    const struct application first_taken = {"room for the first age", 67, 50, 30000, 896, 946, 1000, 400000, 692400};
    const struct application third_taken = {"room for the third age", 68, 35, 70000, 850, 896, 946, 200000, 692400};
    const struct application no_existing = {"no existing pension", 68, 35, 70000, 850, 896, 946, 0, 692400};
    const struct application used_up = {"limit just used up", 68, 35, 70000, 850, 896, 946, 200000, 560713};
    const struct application one_age = {"one age below the pension age", 66, 35, 70000, 896, 1000, 1000, 200000, 692400};
    const struct application factor_above_1 = {"a factor above 1", 66, 35, 70000, 896, 1000, 1001, 200000, 692400};
    uint32_t last_number = 41;

    if (!archive_fits())
        return EXIT_FAILURE;

    quote(&nine_years, 0, &last_number);
    quote(&odd_months, 0, &last_number);
    quote(&lump_sum, 450000, &last_number);
    quote(&lump_sum, 450001, &last_number);
    quote(&no_multiple, 0, &last_number);
    quote_read(&as_read, &last_number);
    quote_read(&wide_age, &last_number);
    quote_read(&below_0, &last_number);

    settle(&nine_years, "");
    settle(&nine_years, "11111");
    settle(&nine_years, "111112");
    settle(&five_years, "111111111111111111");
    settle(&five_years, "1111111111111111110000111111");
    settle(&five_years, "1111111111112");
    settle(&five_years, "10000000000001");
    settle(&five_years, "1131");
    settle(&odd_months, "111111111111111");
    settle(&lump_sum, "");
    settle(&lump_sum, YEAR);
    settle(&lump_sum, "111111111112");
    settle(&own_lump_sum, "11111");
    settle(&own_lump_sum, "111112222222");
    settle(&own_lump_sum, "2");
    settle(&own_lump_sum, "1110");
    settle(&own_lump_sum, "11121");
    settle(&own_lump_sum, "13");
    settle(&own_lump_sum, YEAR "1");

    pay_off(&five_years, "111111111111111111", 51, 1011);
    pay_off(&five_years, "1111111111111111110000111111", 52, 1011);
    pay_off(&five_years, "1111111111112", 51, 1000);
    pay_off(&odd_months, "111111111111111", 55, 1250);
    pay_off(&five_years, YEAR YEAR YEAR YEAR YEAR, 55, 1011);
    pay_off(&five_years, "10000000000001", 51, 1011);
    pay_off(&five_years, "", 50, 1000);
    pay_off(&five_years, "111112", 50, 1000);
    pay_off(&lump_sum, "", 41, 1011);
    pay_off(&lump_sum, "112", 41, 1011);
    pay_off(&five_years, "111111111111111111", 51, 999);
    pay_off(&five_years, "111111111111111111", 51, 10000);
    pay_off(&five_years, "111111111111111111", 65, 1011);

    reduction_limit(&first_taken);
    reduction_limit(&third_taken);
    reduction_limit(&no_existing);
    reduction_limit(&used_up);
    reduction_limit(&one_age);
    reduction_limit(&factor_above_1);

    short_buffers(&five_years, &factor_above_1);
    return EXIT_SUCCESS;
}
