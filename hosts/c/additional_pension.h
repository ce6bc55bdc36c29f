/*
 * Additional Pension of the HSC Pension Scheme 2015: quoting an election, settling a contract and paying off its rest; and, by
 * the guidance of the NHS Pension Scheme 2015, the limit on buying out the reduction of an early pension.
 *
 * Link with libadditional_pension.a, which is for x86-64 (System V calling convention, instructions of level x86-64-v2). Its
 * functions are proved to keep their rules for every number that they are given. They allocate nothing, keep nothing between
 * calls and end for every input; calls from several threads do not disturb each other. A call needs at most 2,048 bytes of the
 * stack, its arguments included: that is measured (hosts/c/stack.c) and not proved.
 *
 * What a caller owes of the numbers: that each fits the type of its parameter before the call. C makes it fit without a word,
 * and the call never sees what it was: from long age = 4294967346 it gets 50, which is priced, and from -1 it gets 4294967295.
 * A mark of 257 becomes 1, a paid month; a fraction is cut off. So compare a number that may be negative or too large with 0
 * and UINT32_MAX (or UINT64_MAX, UINT8_MAX), in the type in which it was read or computed, before it is cast;
 * hosts/c/example.c does. The compiler flag -Wconversion, in C++ with -Wsign-conversion, names each place where C would
 * convert without a cast. Every number that fits has an answer, and what the scheme does not allow is refused.
 *
 * What a caller owes of the memory is what every C function is owed: a pointer stands for as many bytes as the length beside it
 * says, nothing else writes them during the call, and the pieces lent to one call do not overlap. A piece needs no alignment. A
 * pointer is not null, also where its length is 0.
 *
 * Money in the results is in whole pence, each rounding to the nearest. An exact half goes to the even penny in a contribution,
 * a whole-year credit, the value at a month and the combined credits of two tables; it goes up in the increased pension and
 * the cost of a pay-off, and in the B of a reduction limit.
 */
#ifndef ADDITIONAL_PENSION_H
#define ADDITIONAL_PENSION_H

#include <stddef.h>
#include <stdint.h>

#ifdef __cplusplus
extern "C" {
#endif

/* The archive that this header goes with. A host compares both with ap_interface() and ap_rules() at its start. */
#define AP_INTERFACE 1u  /* one more each time a call that was there changes its parameters, or a name goes */
#define AP_RULES 5u      /* the last request that is in the part; hosts/README.md says which results each one moved */

/* Option: what is bought. */
#define AP_OPTION_PERSONAL 1u
#define AP_OPTION_WITH_DEPENDANT 2u

/* Payer. An employer pays by lump sum. */
#define AP_PAYER_MEMBER 1u
#define AP_PAYER_EMPLOYER 2u

/* A term of 0 stands for a lump sum, any other for its years of monthly payments. */
#define AP_TERM_LUMP_SUM 0u

/*
 * Marks stand in the order of the months. After a 2 stand only 2s.
 *
 * A monthly contract has one for each elapsed month, so up to 12 for each year of its term. The first is not 0; directly before a 1
 * stand at most eleven 0s.
 *
 * A lump sum has up to 12, those of its first year, and may have none: a 1 for each elapsed month, then 2s from the month in which the
 * member died, became entitled to an ill-health pension or left with no pension, neither at once nor deferred. A first mark 2 is
 * lawful, a 0 nowhere. A member who left with a pension is not marked 2. No marks say the same as up to twelve 1s, and after twelve
 * marks a host adds no more: a later leaving gives nothing back.
 */
#define AP_MARK_MISSED 0u
#define AP_MARK_PAID 1u   /* of a lump sum: a month that has elapsed */
#define AP_MARK_ENDED 2u  /* ended by notice; of a lump sum: it goes back, as above */

/* Refusals. A call gives the first that applies, in the order that stands with its function; not all go by the numbers. */
#define AP_REFUSED_NOTHING 0u
#define AP_REFUSED_OPTION 1u         /* the option is not 1 or 2 */
#define AP_REFUSED_PENSION_AGE 2u    /* the pension age is not from 65 years 0 months to 68 years 0 months, or months exceed 11 */
#define AP_REFUSED_TERM 3u           /* the term is above 20 */
#define AP_REFUSED_PAYER 4u          /* the payer is not 1 or 2, or an employer has a term above 0 */
#define AP_REFUSED_NO_RATE 5u        /* no printed lump sum at a needed pension age, or no rate in the only or lower monthly table;
                                      * ap_pay_off: or no printed lump sum for the age now at a needed pension age */
#define AP_REFUSED_NO_UPPER_RATE 6u  /* no printed rate for this age and term in the upper monthly table */
#define AP_REFUSED_AMOUNT 7u         /* the amount is 0 or not a multiple of 250 pounds */
#define AP_REFUSED_CAP 8u            /* existing pension and the new amount exceed 6,500 pounds a year */
#define AP_REFUSED_LAST_NUMBER 9u    /* ap_quote: the last number is 999,999 or more */
#define AP_REFUSED_MARK_COUNT 10u    /* more than 12 marks for each year of the term, or more than 12 for a lump sum */
#define AP_REFUSED_MARK_VALUE 11u    /* the mark at the place is above 2 */
#define AP_REFUSED_MARK_ORDER 12u    /* the mark at the place is not lawful after those before it; for a lump sum any 0, and a 1
                                      * after a 2 */
#define AP_REFUSED_SHORT_BUFFER 14u  /* the buffer is too short; it keeps its bytes */
#define AP_REFUSED_NOTHING_TO_PAY_OFF 16u  /* ap_pay_off: the status is 0, 5 or 6; so for every lump sum, refunded or not */
#define AP_REFUSED_INCREASE 17u      /* ap_pay_off: the increase is not from 1,000 to 9,999 */
#define AP_REFUSED_APPLICATION 18u   /* ap_reduction_limit: a number is outside the range that stands with the function */

/* Statuses of a settled contract. */
#define AP_STATUS_NOT_STARTED 0u  /* monthly, no marks */
#define AP_STATUS_PAYING 1u       /* the last month is paid, the term is not over */
#define AP_STATUS_IN_GAP 2u       /* one to eleven missed months at the end, the term is not over */
#define AP_STATUS_COMPLETE 3u     /* every month of the term is paid */
#define AP_STATUS_CEASED 4u       /* stopped, the last paid month being the twelfth or later: the credit stays */
#define AP_STATUS_REFUNDED 5u     /* stopped earlier, or a lump sum with a mark 2: what was paid goes back, the credit is 0 */
#define AP_STATUS_LUMP_SUM 6u     /* a lump sum without a mark 2, credited in full */

/* A quote's result: three numbers of 8 bytes, low byte first, at these offsets. */
#define AP_QUOTE_REFUSAL 0u
#define AP_QUOTE_CONTRIBUTION 8u  /* pence, by the month or as a lump sum */
#define AP_QUOTE_NEXT_NUMBER 16u
#define AP_QUOTE_BYTES 24u

/* A settlement's result: six numbers of 8 bytes, low byte first, at these offsets. */
#define AP_SETTLE_REFUSAL 0u
#define AP_SETTLE_PLACE 8u          /* index from 0 of the mark refused with 11 or 12, else 0 */
#define AP_SETTLE_CONTRIBUTION 16u  /* pence, by the month or as a lump sum */
#define AP_SETTLE_STATUS 24u
#define AP_SETTLE_CREDIT 32u        /* pence of pension a year */
#define AP_SETTLE_REFUND 40u        /* pence: at status 5 the contribution for each paid month, or a lump sum once; else 0 */
#define AP_SETTLE_BYTES 48u

/* A pay-off's result: five numbers of 8 bytes, low byte first, at these offsets. */
#define AP_PAY_OFF_REFUSAL 0u
#define AP_PAY_OFF_PLACE 8u       /* index from 0 of the mark refused with 11 or 12, else 0 */
#define AP_PAY_OFF_REMAINING 16u  /* pence of pension a year: the amount less the credit */
#define AP_PAY_OFF_INCREASED 24u  /* pence of pension a year: the same after the increase */
#define AP_PAY_OFF_COST 32u       /* pence, as a lump sum */
#define AP_PAY_OFF_BYTES 40u

/* A reduction limit's result: five numbers of 8 bytes, low byte first, at these offsets. */
#define AP_REDUCTION_LIMIT_REFUSAL 0u
#define AP_REDUCTION_LIMIT_AGE 8u        /* the candidate that is taken, 0 for no scope */
#define AP_REDUCTION_LIMIT_B_FIRST 16u   /* pence of pension a year: B of the first candidate */
#define AP_REDUCTION_LIMIT_B_SECOND 24u  /* the same of the second, 0 if it was not tried */
#define AP_REDUCTION_LIMIT_B_THIRD 32u   /* the same of the third, 0 if it was not tried */
#define AP_REDUCTION_LIMIT_BYTES 40u

/*
 * The AP_INTERFACE and the AP_RULES of the archive that is linked. Where the first differs, the other functions may not be
 * called; where the second does, results may differ, and a refusal may have a number that is not in this header.
 */
uint32_t ap_interface(void);
uint32_t ap_rules(void);

/*
 * Quotes an election.
 *
 *   age             last birthday, whole years
 *   pnpa_years      pension age: whole years
 *   pnpa_months     pension age: odd months
 *   option, payer   as above
 *   term            0 for a lump sum, else years
 *   amount          pension to buy, whole pounds a year
 *   existing_pence  what counts towards the cap already, in one sum, pence a year: Additional Pension that the member has, and what
 *                   reduction already bought out is worth; what a contract that is still being paid counts for is the host's to say
 *   last_number     the last quote number that the caller's register holds
 *   out, out_len    where the result goes
 *
 * If out_len is below 24, the value is 14 and nothing is written. Otherwise the value is the refusal (0 to 9), and exactly the
 * first 24 bytes of out are written: the refusal, the contribution and the next number, which is last_number + 1. A refusal
 * gives 0 for both of them. The caller keeps the register: it stores the next number after a success and nothing after a
 * refusal.
 *
 * Order of refusals: 14, then 1 to 9 as they are numbered.
 */
uint32_t ap_quote(uint32_t age, uint32_t pnpa_years, uint32_t pnpa_months, uint32_t option, uint32_t payer,
                  uint32_t term, uint32_t amount, uint64_t existing_pence, uint32_t last_number,
                  uint8_t *out, size_t out_len);

/*
 * Settles a contract as its marks stand.
 *
 *   age to amount     as for ap_quote
 *   marks, marks_len  one byte for each elapsed month, the first month first, at most 12 for each year of the term; for a lump sum
 *                     those of its first year, 0 to 12 bytes. They are read only
 *   out, out_len      where the result goes
 *
 * A lump sum with a mark 2 is refunded once, whoever paid it and however many months are marked. To whom it is paid is for the host
 * to say, and whether the leaving was within the year. A monthly contract that lost its term is a lump sum to this call.
 *
 * If out_len is below 48, the value is 14 and nothing is written. Otherwise the value is the refusal (0 to 8, 10 to 12), and
 * exactly the first 48 bytes of out are written: the refusal, its place, the contribution, the status, the credit and the
 * refund. A refusal gives 0 for all after the place. The cap is looked at as if nothing else were held.
 *
 * Order of refusals: 14, then 1 to 8 and 10 as they are numbered, then 11 or else 12 for the bad mark furthest left.
 */
uint32_t ap_settle(uint32_t age, uint32_t pnpa_years, uint32_t pnpa_months, uint32_t option, uint32_t payer,
                   uint32_t term, uint32_t amount, const uint8_t *marks, size_t marks_len,
                   uint8_t *out, size_t out_len);

/*
 * Prices the rest of a contract as its marks stand: the lump sum that buys what is missing of its amount.
 *
 *   age to marks_len  as for ap_settle
 *   age_now           last birthday on the day of paying off, whole years; the cost goes by its printed lump sum
 *   increase          of pension since the election, in thousandths: 1,000 for none, 1,011 for 1.1 per cent
 *   out, out_len      where the result goes
 *
 * If out_len is below 40, the value is 14 and nothing is written. Otherwise the value is the refusal (0 to 8, 10 to 12, 16 or
 * 17), and exactly the first 40 bytes of out are written: the refusal, its place, the remaining pension, the increased pension
 * and the cost. A refusal gives 0 for all after the place. A complete contract costs 0. The age now is not compared with the
 * age at election.
 *
 * Order of refusals: 14, then those of ap_settle in its order and with its place, then 16, 17, 5. So 5 comes twice: among those
 * of ap_settle for the election, and last for the age now, of a complete contract too.
 */
uint32_t ap_pay_off(uint32_t age, uint32_t pnpa_years, uint32_t pnpa_months, uint32_t option, uint32_t payer,
                    uint32_t term, uint32_t amount, const uint8_t *marks, size_t marks_len,
                    uint32_t age_now, uint32_t increase, uint8_t *out, size_t out_len);

/*
 * Finds the earliest reduced retirement age that a member may choose when buying out the reduction of an early pension.
 *
 *   npa                     normal pension age, whole years: 66 to 70
 *   age                     last birthday, whole years: 24 to 64
 *   pay                     whole-time pay, whole pounds a year: 1 to 200,000
 *   erf_first to erf_third  early-retirement factor of each candidate: what a pension keeps that is taken then and not at npa, in
 *                           thousandths: 0 to 1,000 (896 keeps 89.6%, 1,000 is no reduction)
 *   existing_pence          A, the Additional Pension that the member has, with increases so far and with contracts that are
 *                           still being paid as if completed, pence a year: up to 1,000,000 pounds
 *   limit_pence             L, the limit on Additional Pension and buy-outs together, pence a year: up to 1,000,000 pounds
 *   out, out_len            where the result goes
 *
 * The first candidate is npa - 3, but at least 65; the other two follow a year apart. B of a candidate is the greatest value, in
 * pension a year, that a buy-out up to it could come to: the years to it, times pay, times 1.015 to the power of those years,
 * times 1 less its factor, divided by 54. The power is a number of billionths, rounded each year; B is rounded to the penny at
 * the end, and is at most 2 pence off its exact value.
 *
 * Where A is 0, the first candidate is taken, whatever L is. Otherwise the first one below npa is taken whose B is below C, that
 * is, B - A or L - A, whichever is greater, even if negative; where B and C are equal, the next is tried. There is no scope where
 * the next candidate is at npa, or where all three have failed.
 *
 * All three factors are looked at, also where a candidate is not tried. For a candidate at or past npa (the second and third of
 * 66, the third of 67) any number up to 1,000 does.
 *
 * If out_len is below 40, the value is 14 and nothing is written. Otherwise the value is the refusal (0 or 18), and exactly the
 * first 40 bytes of out are written: the refusal, the age, and B of the first, second and third candidate. The age is 0 for no
 * scope, which is not a refusal. B is 0 for a candidate that is not tried (one after the one taken, at npa or past it), and
 * also where it comes to less than half a penny, as with a factor of 1,000. A refusal gives 0 for all after it.
 *
 * Order of refusals: 14, then 18.
 */
uint32_t ap_reduction_limit(uint32_t npa, uint32_t age, uint32_t pay, uint32_t erf_first, uint32_t erf_second, uint32_t erf_third,
                            uint64_t existing_pence, uint64_t limit_pence, uint8_t *out, size_t out_len);

#ifdef __cplusplus
}
#endif

#endif
