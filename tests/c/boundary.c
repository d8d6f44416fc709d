/*
 * Calls nimovalsa_check, nimovalsa_cost, nimovalsa_price, nimovalsa_plan,
 * nimovalsa_budget and nimovalsa_factor from C on good, damaged, short and long
 * sheets and plans, on arcs with and without fault, with buffers of many
 * lengths, and at many rates and years. Compares each answer with the refusal
 * table, the costs and the totals of document 01 and the factors of document
 * 02, and what is written with the chains and words of the one and the budget
 * of the other. harness.c says how the memory around a call is watched.
 *
 * Status: 0 if all is as expected, 1 if not, 2 for wrong use.
 */
#include "boundary.h"

#include <stdio.h>

int main(int argc, char **argv)
{
    if (argc != 1) {
        fprintf(stderr, "c boundary: takes no argument, got %s\n", argv[1]);
        return 2;
    }
    start_harness();
    start_lending();
    start_ledgers();
    test_checking();
    test_costing();
    test_chains();
    test_pricing();
    test_planning();
    test_budgets();
    test_budgeting();
    test_factors();
    test_stack(&checking);
    test_stack(&costing);
    test_stack(&pricing);
    test_stack(&planning);
    test_stack(&budgeting);
    test_stack(&factoring);
    printf("c boundary: %lu calls as expected, stack %zu bytes for "
           "nimovalsa_check, %zu for nimovalsa_cost, %zu for "
           "nimovalsa_price, %zu for nimovalsa_plan, %zu for "
           "nimovalsa_budget, %zu for nimovalsa_factor\n",
           calls, checking.stack_used, costing.stack_used, pricing.stack_used,
           planning.stack_used, budgeting.stack_used, factoring.stack_used);
    return 0;
}
