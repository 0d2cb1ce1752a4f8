/* A list of length 0 may be null, in every function that takes one: compare/linking runs it. It ends with 0 where each is answered as it
   must be. */
#include "cephlouk.h"

static struct cephlouk_plan plan;

/* Gives the plan a command, whose number is answered. */
static uint8_t give(uint8_t byte, uint16_t steps, uint16_t step)
{
    uint8_t bytes[CEPHLOUK_MOST_COMMAND_BYTES];
    uint16_t starts[CEPHLOUK_LEAST_STARTS];
    struct cephlouk_command command = {0, 0, 0, 0, 0, 0, 0, 0};
    command.byte = byte;
    command.stations = 1;
    command.steps = steps;
    command.step = step;
    struct cephlouk_wrote wrote = cephlouk_encode(command, bytes, sizeof bytes);
    return cephlouk_plan_command(&plan, bytes, wrote.count, 0, starts, CEPHLOUK_LEAST_STARTS).number;
}

int main(void)
{
    uint16_t starts[CEPHLOUK_LEAST_STARTS];
    struct cephlouk_command begin = {CEPHLOUK_BEGIN, 0, 0, 0, 0, 0, 0, 0};
    uint8_t byte = CEPHLOUK_BEGIN;
    int wrong = 0;
    cephlouk_plan_empty(&plan);
    wrong |= cephlouk_plan_command(&plan, NULL, 0, 0, starts, CEPHLOUK_LEAST_STARTS).number != CEPHLOUK_CUT_SHORT;
    wrong |= cephlouk_plan_command(&plan, &byte, 1, 0, NULL, 0).number != CEPHLOUK_FEW_STARTS;
    wrong |= cephlouk_encode(begin, NULL, 0).number != CEPHLOUK_SHORT_LIST;
    wrong |= cephlouk_decode(NULL, 0, 0).number != CEPHLOUK_CUT_SHORT;
    wrong |= cephlouk_records_peak(NULL, 0, NULL, 0, &plan).number != CEPHLOUK_OUTSIDE_LIMITS;
    /* a plan that would be written, and for which an order would be found, were there a list */
    wrong |= give(CEPHLOUK_PLAN, 1, 0) | give(CEPHLOUK_STEP, 0, 0) | give(CEPHLOUK_ACTIVATION, 0, 1) | give(CEPHLOUK_EXECUTION, 0, 1);
    wrong |= cephlouk_plan_write(&plan, NULL, 0).number != CEPHLOUK_SHORT_LIST;
    wrong |= cephlouk_plan_find_order(&plan, NULL, 0).number != CEPHLOUK_SHORT_LIST;
    return wrong;
}
