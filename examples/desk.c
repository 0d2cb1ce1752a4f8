/* The planners' desk, from C:

       rt staticlib cephlouk
       cc -Iinclude examples/desk.c target/staticlib/libcephlouk.a -o target/desk && target/desk

   It asks how many places a plan needs at its peak and which step needs them, in one activation order and in another. The lists are only
   read. */
#include "cephlouk.h"
#include <stdio.h>

enum { TASKS = 3 };

/* parent, work, out: 1 and 2 feed 3, the last one. */
static const struct cephlouk_record records[TASKS] = {{3, 5, 1}, {3, 1, 4}, {0, 0, 1}};

static const uint16_t orders[][TASKS] = {
    {1, 2, 3}, /* much work first, with nothing else in the cold room: each step needs as much, and the first is told */
    {2, 1, 3}, /* much out first, which is still there meanwhile */
    {1, 2, 2}, /* 2 twice */
    {1, 3, 2}, /* 3 stands ahead of 2, which feeds it */
    {1, 2, 4}, /* there is no 4 */
};

/* a plan to work in */
static struct cephlouk_plan room;

static void tell(const uint16_t *order, size_t length)
{
    struct cephlouk_desk_answer answer = cephlouk_records_peak(records, TASKS, order, length, &room);
    for (size_t i = 0; i < length; i++)
        printf("%d ", order[i]);
    if (answer.number == CEPHLOUK_ACCEPTED)
        printf("peak %llu by step %d\n", (unsigned long long)answer.peak, answer.by);
    else
        printf("refused %d\n", answer.number);
}

int main(void)
{
    for (size_t k = 0; k < sizeof orders / sizeof *orders; k++)
        tell(orders[k], TASKS);
    tell(orders[0], TASKS - 1); /* an order that is too short */
}
