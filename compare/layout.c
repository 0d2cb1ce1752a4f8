/* The sizes and places of what include/cephlouk.h declares, a line each: compare/layout compares them with those that are recorded. */
#include "cephlouk.h"
#include <stdio.h>

#define STRUCT(name) printf("struct " #name " of %lu bytes\n", (unsigned long)sizeof(struct cephlouk_##name))
#define FIELD(name, field)                                                                                                                 \
    printf("field " #name "." #field " at %lu, of %lu bytes\n", (unsigned long)offsetof(struct cephlouk_##name, field),                    \
           (unsigned long)sizeof((struct cephlouk_##name *)0)->field)

int main(void)
{
    printf("number %d\n", CEPHLOUK_ABI);
    STRUCT(plan);
    FIELD(plan, words);
    STRUCT(command);
    FIELD(command, byte);
    FIELD(command, stations);
    FIELD(command, steps);
    FIELD(command, step);
    FIELD(command, parent);
    FIELD(command, work);
    FIELD(command, out);
    FIELD(command, places);
    STRUCT(decoded);
    FIELD(decoded, number);
    FIELD(decoded, used);
    FIELD(decoded, command);
    STRUCT(answer);
    FIELD(answer, number);
    FIELD(answer, used);
    FIELD(answer, starts);
    FIELD(answer, peak);
    FIELD(answer, by);
    FIELD(answer, offers);
    STRUCT(counts);
    FIELD(counts, waiting);
    FIELD(counts, activated);
    FIELD(counts, running);
    FIELD(counts, finished);
    STRUCT(reason);
    FIELD(reason, number);
    FIELD(reason, kind);
    FIELD(reason, task);
    FIELD(reason, lack);
    STRUCT(wrote);
    FIELD(wrote, number);
    FIELD(wrote, count);
    STRUCT(record);
    FIELD(record, parent);
    FIELD(record, work);
    FIELD(record, out);
    STRUCT(desk_answer);
    FIELD(desk_answer, number);
    FIELD(desk_answer, peak);
    FIELD(desk_answer, by);
    return 0;
}
