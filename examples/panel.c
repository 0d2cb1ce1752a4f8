/* A door panel in C: how full the cold room is, drawn as a bar.

       rt staticlib cephlouk
       cc -Iinclude examples/panel.c target/staticlib/libcephlouk.a -o target/panel && target/panel

   The panel has no plan: it is told the trays booked, as cephlouk_plan_booked answers them, and the places, as PLAN gave them, a line each
   time. What it draws with has no number wider than 32 bits, and neither has cephlouk_thousandths. */
#include "cephlouk.h"
#include <inttypes.h>
#include <stdio.h>

enum { BAR = 20, FULL = 1000 };

static void draw(uint32_t booked, uint32_t places)
{
    uint32_t full = cephlouk_thousandths(booked, places);
    uint32_t filled = full * BAR / FULL;
    for (uint32_t k = 0; k < BAR; k++)
        putchar(k < filled ? '#' : '.');
    printf(" %4" PRIu32 " thousandths: %" PRIu32 " of %" PRIu32 "\n", full, booked, places);
}

int main(void)
{
    uint32_t booked, places;
    while (scanf("%" SCNu32 "%" SCNu32, &booked, &places) == 2)
        draw(booked, places);
    return 0;
}
