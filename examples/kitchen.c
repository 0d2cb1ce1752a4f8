/* A kitchen in C: commands typed as text, one after another, and a plan that is kept between them.

       rt staticlib cephlouk
       cc -Iinclude examples/kitchen.c target/staticlib/libcephlouk.a -o target/kitchen && target/kitchen

   The words are those of plan texts (see examples/plan-a.plan). Beside them, "ask" asks the plan how the day stands, "why" asks why steps
   are not starting, "find" tells a good activation order, "write" tells the bytes of the plan, written back out, and "if" ahead of a
   command gives it to a copy of the plan, to see what would come of it. What is refused changes nothing, and the kitchen goes on. */
#include "cephlouk.h"
#include <stdio.h>
#include <stdlib.h>
#include <string.h>

enum { LINE = 1000, FIELDS = 3 };

/* How many steps of an order are told on one line, so that none is too long to be typed back. */
enum { PER_LINE = 16 };

/* A number of a command: the word ahead of it, none in a list, and where it stands. */
struct field {
    const char *word;
    size_t place, width;
};

#define FIELD(word, name) {word, offsetof(struct cephlouk_command, name), sizeof((struct cephlouk_command *)0)->name}
#define NO_FIELD {NULL, 0, 0}

/* A command as a line of text. In a list each number is a command. */
struct form {
    const char *word, *pattern;
    int is_list;
    uint8_t byte;
    struct field fields[FIELDS];
};

static const struct form forms[] = {
    {"plan", "plan steps N stations N places N", 0, CEPHLOUK_PLAN,
     {FIELD("steps", steps), FIELD("stations", stations), FIELD("places", places)}},
    {"step", "step [N:] parent N work N out N", 0, CEPHLOUK_STEP,
     {FIELD("parent", parent), FIELD("work", work), FIELD("out", out)}},
    {"activation", "activation N ...", 1, CEPHLOUK_ACTIVATION, {FIELD(NULL, step)}},
    {"execution", "execution N ...", 1, CEPHLOUK_EXECUTION, {FIELD(NULL, step)}},
    {"begin", "begin", 0, CEPHLOUK_BEGIN, {NO_FIELD}},
    {"done", "done N ...", 1, CEPHLOUK_DONE, {FIELD(NULL, step)}},
    {"fetch", "fetch", 0, CEPHLOUK_FETCH, {NO_FIELD}},
    {"places", "places N", 0, CEPHLOUK_PLACES, {FIELD(NULL, places)}},
    {NULL, NULL, 0, 0, {NO_FIELD}},
};

static const char *const grounds[] = {
    "", "cut short", "no such command", "not in turn", "a number outside its limits", "already in that order", "that step is not running",
    "not exactly one last step", "a step ahead of one that feeds it", "fewer places than the peak", "too short a start list",
    "too short a list", "a step that leads to no last step", "fewer places than trays are booked",
};

static const char *const phases[] = {"empty", "steps missing", "orders", "running", "over", "ready"};

static char *next_word(void)
{
    return strtok(NULL, " \t\r\n");
}

/* Whether an answer has the number of a refusal, which is told. */
static int is_refused(uint8_t number)
{
    if (number == CEPHLOUK_ACCEPTED)
        return 0;
    printf("refused %d: %s\n", number, grounds[number]);
    return 1;
}

/* Gives a plan one command and tells what comes of it. */
static void give(struct cephlouk_plan *plan, struct cephlouk_command command)
{
    uint8_t bytes[CEPHLOUK_MOST_COMMAND_BYTES];
    uint16_t starts[CEPHLOUK_LEAST_STARTS];
    struct cephlouk_wrote wrote = cephlouk_encode(command, bytes, sizeof bytes);
    struct cephlouk_answer answer = cephlouk_plan_command(plan, bytes, wrote.count, 0, starts, CEPHLOUK_LEAST_STARTS);
    if (is_refused(answer.number))
        return;
    if (command.byte == CEPHLOUK_BEGIN)
        printf("peak %lu by step %d, ", (unsigned long)answer.peak, answer.by);
    if (command.byte == CEPHLOUK_BEGIN || command.byte == CEPHLOUK_DONE || command.byte == CEPHLOUK_PLACES) {
        printf("start");
        for (size_t k = 0; k < answer.starts; k++)
            printf(" %d", starts[k]);
        printf(answer.starts == 0 ? " nothing\n" : "\n");
    }
}

static void tell(const struct cephlouk_plan *plan)
{
    struct cephlouk_counts counts = cephlouk_plan_standing(plan);
    printf("%s: %lu trays booked, %lu in use, %lu thousandths full; steps: %lu wait, %lu booked, %lu run, %lu ended\n",
           phases[cephlouk_plan_phase(plan)], (unsigned long)cephlouk_plan_booked(plan), (unsigned long)cephlouk_plan_in_use(plan),
           (unsigned long)cephlouk_plan_fullness(plan), (unsigned long)counts.waiting, (unsigned long)counts.activated,
           (unsigned long)counts.running, (unsigned long)counts.finished);
}

/* Tells why a step is not starting. */
static void explain(const struct cephlouk_plan *plan, uint16_t step)
{
    struct cephlouk_reason reason = cephlouk_plan_why(plan, step);
    if (is_refused(reason.number))
        return;
    printf("step %d ", step);
    switch (reason.kind) {
    case CEPHLOUK_REASON_ENDED:
        printf("has ended\n");
        break;
    case CEPHLOUK_REASON_RUNNING:
        printf("is running\n");
        break;
    case CEPHLOUK_REASON_NOT_BOOKED:
        printf("is not booked: step %d is next, and %lu places are lacking\n", reason.task, (unsigned long)reason.lack);
        break;
    case CEPHLOUK_REASON_UNFED:
        printf("waits for step %d\n", reason.task);
        break;
    case CEPHLOUK_REASON_NO_PROCESSOR:
        printf("waits for a station\n");
    }
}

/* Tells a good activation order. */
static void find(const struct cephlouk_plan *plan)
{
    uint16_t order[CEPHLOUK_MAX_TASKS];
    struct cephlouk_wrote wrote = cephlouk_plan_find_order(plan, order, CEPHLOUK_MAX_TASKS);
    if (is_refused(wrote.number))
        return;
    for (size_t k = 0; k < wrote.count; k++) {
        if (k % PER_LINE == 0)
            printf(k == 0 ? "activation" : "\nactivation");
        printf(" %d", order[k]);
    }
    printf("\n");
}

/* Tells the bytes of the plan, written back out. */
static void write_out(const struct cephlouk_plan *plan)
{
    static uint8_t bytes[CEPHLOUK_MOST_BYTES];
    struct cephlouk_wrote wrote = cephlouk_plan_write(plan, bytes, sizeof bytes);
    if (is_refused(wrote.number))
        return;
    printf("%lu bytes:", (unsigned long)wrote.count);
    for (size_t k = 0; k < wrote.count; k++)
        printf(" %02x", bytes[k]);
    printf("\n");
}

/* Reads a number of so many bytes; a dash is 0. It fails where the word is no such number. */
static int read_number(uint32_t *number, size_t width, const char *word)
{
    unsigned long long read = 0;
    if (word == NULL || (strcmp(word, "-") != 0 && word[strspn(word, "0123456789")] != '\0'))
        return 0;
    if (strcmp(word, "-") != 0)
        read = strtoull(word, NULL, 10);
    *number = (uint32_t)read;
    return read >> (8 * width) == 0;
}

/* Puts a number into a field of a command. */
static void put_number(struct cephlouk_command *command, const struct field *field, uint32_t number)
{
    unsigned char *place = (unsigned char *)command + field->place;
    uint16_t half = (uint16_t)number;
    if (field->width == sizeof number)
        memcpy(place, &number, sizeof number);
    else if (field->width == sizeof half)
        memcpy(place, &half, sizeof half);
    else
        *place = (unsigned char)number;
}

/* Reads one command, `word` being the next word of its line. It fails where a word is wrong. */
static int read_command(const struct form *form, char **word, struct cephlouk_command *command)
{
    memset(command, 0, sizeof *command);
    command->byte = form->byte;
    for (size_t k = 0; k < FIELDS && form->fields[k].width > 0; k++) {
        const struct field *field = &form->fields[k];
        uint32_t number;
        if (field->word != NULL) {
            if (*word == NULL || strcmp(*word, field->word) != 0)
                return 0;
            *word = next_word();
        }
        if (!read_number(&number, field->width, *word))
            return 0;
        put_number(command, field, number);
        *word = next_word();
    }
    return 1;
}

/* The commands of a line, whose first word was read. */
static void obey(struct cephlouk_plan *plan, const char *first)
{
    struct cephlouk_command command;
    const struct form *form = forms;
    char *word = next_word();
    while (form->word != NULL && strcmp(first, form->word) != 0)
        form++;
    if (form->word == NULL) {
        printf("'%s' is no command\n", first);
        return;
    }
    if (form->byte == CEPHLOUK_STEP && word != NULL && strchr(word, ':') != NULL)
        word = next_word(); /* a step may say its number, for whoever reads it */
    do {
        if (!read_command(form, &word, &command) || (word != NULL && !form->is_list)) {
            printf("write: %s\n", form->pattern);
            return;
        }
        give(plan, command);
    } while (word != NULL);
}

/* The questions of a line, each about a step. */
static void explain_all(const struct cephlouk_plan *plan)
{
    uint32_t step;
    char *word = next_word();
    do {
        if (!read_number(&step, sizeof(uint16_t), word)) {
            printf("write: why N ...\n");
            return;
        }
        explain(plan, (uint16_t)step);
        word = next_word();
    } while (word != NULL);
}

int main(void)
{
    static struct cephlouk_plan plan, copy;
    char line[LINE];
    cephlouk_plan_empty(&plan);
    while (fgets(line, sizeof line, stdin) != NULL) {
        char *word;
        if (strchr(line, '\n') == NULL && !feof(stdin)) {
            printf("a line is too long\n");
            return 1;
        }
        line[strcspn(line, "#")] = '\0';
        word = strtok(line, " \t\r\n");
        if (word != NULL && strcmp(word, "ask") == 0) {
            tell(&plan);
        } else if (word != NULL && strcmp(word, "why") == 0) {
            explain_all(&plan);
        } else if (word != NULL && strcmp(word, "find") == 0) {
            find(&plan);
        } else if (word != NULL && strcmp(word, "write") == 0) {
            write_out(&plan);
        } else if (word != NULL && strcmp(word, "if") == 0 && (word = next_word()) != NULL) {
            copy = plan;
            obey(&copy, word);
        } else if (word != NULL) {
            obey(&plan, word);
        }
        fflush(stdout);
    }
    return 0;
}
