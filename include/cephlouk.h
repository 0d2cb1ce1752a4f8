/* Cephlouk for C and C++: which steps of a clinic kitchen to start, each time one ends, so that the cold room never overfills and the
   day never sticks. docs/PLANNERS.md has the meaning of every answer.

   The plan is a struct of words that the caller keeps, anywhere: on the heap, in a static variable, in a file mapped to memory.
   cephlouk_plan_empty makes it an empty plan, and cephlouk_plan_command then gives it one command after another; nothing else may write
   to it. Nothing is kept outside it and nothing is allocated, so plans are free of one another: different threads may work on different
   plans, and one plan may be asked by many threads while none gives it a command.

   A plan may be copied, stored and taken up again, all of it being words. Words that did not come from these functions, or that were
   damaged on the way, are not checked, and whatever is done with them is undefined: keep a checksum beside a plan that you store.

   A list is a pointer and a length, counted in entries, and its pointer may be null where the length is 0; a list that is written to is no
   part of the plan or of another list. A call needs at most 32 KB of stack. */
#ifndef CEPHLOUK_H
#define CEPHLOUK_H

#include <stddef.h>
#include <stdint.h>

#ifdef __cplusplus
extern "C" {
#endif

/* The number of these declarations. It is raised by every change after which a program that was compiled before could read a wrong
   number. */
#define CEPHLOUK_ABI 1

/* The same as the library has it, for whoever loads a library at run time. */
uint32_t cephlouk_abi(void);

/* It has it in a name too. Every unit that includes this header refers to that name, whether it calls anything or not, so that a program
   and a library of different numbers do not link: an undefined reference to cephlouk_abi_ and a number says that the library is not the
   one that came with this header. Where the compiler cannot keep the reference (GCC before 11, Clang before 13), a linker that is told to
   drop what nothing uses drops it too. */
#define CEPHLOUK_JOINED(name, number) name##number
#define CEPHLOUK_NUMBERED(name, number) CEPHLOUK_JOINED(name, number)
uint32_t CEPHLOUK_NUMBERED(cephlouk_abi_, CEPHLOUK_ABI)(void);
#ifdef __has_attribute
#if __has_attribute(retain)
__attribute__((retain))
#endif
#endif
#ifdef __GNUC__
__attribute__((used))
#endif
static uint32_t (*const cephlouk_linked)(void) = CEPHLOUK_NUMBERED(cephlouk_abi_, CEPHLOUK_ABI);

/* A plan: its words have no meaning but to these functions. */
#define CEPHLOUK_PLAN_WORDS 18497
struct cephlouk_plan {
    uint32_t words[CEPHLOUK_PLAN_WORDS];
};

/* Limits: the most tasks (steps) and processors (stations) of a plan, and the fewest entries of a start list. A work or out count is any
   16-bit number, a memory bound (tray places) any 32-bit number. */
#define CEPHLOUK_MAX_TASKS 1024
#define CEPHLOUK_MAX_PROCESSORS 64
#define CEPHLOUK_LEAST_STARTS 64

/* The most bytes of a plan that is written out, 8 and 13 for each step, and of one command. */
#define CEPHLOUK_MOST_BYTES 13320
#define CEPHLOUK_MOST_COMMAND_BYTES 8

/* The first byte of a command, and its operands, lowest byte first. */
enum {
    CEPHLOUK_PLAN = 0x01,       /* n (2 bytes), p (1), M (4): drops the old plan and opens a new one */
    CEPHLOUK_STEP = 0x02,       /* parent (2, 0 for the last step), work (2), out (2): the next step */
    CEPHLOUK_ACTIVATION = 0x03, /* step (2): the next in the activation order */
    CEPHLOUK_EXECUTION = 0x04,  /* step (2): the next in the execution order: n of them, or none at all */
    CEPHLOUK_BEGIN = 0x05,      /* no operands: the day begins; where no 04 was given, the activation order is used for both */
    CEPHLOUK_DONE = 0x06,       /* step (2): this step has ended */
    CEPHLOUK_FETCH = 0x07,      /* no operands: the trolley is fetched, and the out of the last step is free */
    CEPHLOUK_PLACES = 0x08      /* M (4): from now on the cold room has these places; in turn while the day runs */
};

/* The number of an answer. */
enum {
    CEPHLOUK_ACCEPTED = 0,
    CEPHLOUK_CUT_SHORT = 1,          /* no byte is left at the place, or operands are cut short */
    CEPHLOUK_UNKNOWN_BYTE = 2,       /* the byte is none of 01 to 08 */
    CEPHLOUK_OUT_OF_TURN = 3,        /* the command, or what the plan is asked, is not in turn */
    CEPHLOUK_OUTSIDE_LIMITS = 4,     /* n, p, a parent or a step number is outside its limits */
    CEPHLOUK_REPEATED = 5,           /* the step is already in that order */
    CEPHLOUK_NOT_RUNNING = 6,        /* DONE for a step that is not running */
    CEPHLOUK_NOT_ONE_ROOT = 7,       /* BEGIN, and an order that is to be found: the steps with parent 0 are not exactly one */
    CEPHLOUK_PARENT_FIRST = 8,       /* BEGIN: some step does not stand before its parent in the activation order */
    CEPHLOUK_PEAK_ABOVE_BOUND = 9,   /* BEGIN and 08: fewer places than the peak, which one step after another needs */
    CEPHLOUK_FEW_STARTS = 10,        /* the start list has fewer than CEPHLOUK_LEAST_STARTS entries */
    CEPHLOUK_SHORT_LIST = 11,        /* the lent list is too short for what is to be written */
    CEPHLOUK_ROOT_UNREACHED = 12,    /* an order that is to be found: some step's chain of parents never reaches the one with parent 0 */
    CEPHLOUK_BOUND_BELOW_BOOKED = 13 /* 08: fewer places are given than trays are booked */
};

/* The phases of a plan. */
enum {
    CEPHLOUK_PHASE_EMPTY = 0,   /* no plan was opened */
    CEPHLOUK_PHASE_STEPS = 1,   /* steps are missing */
    CEPHLOUK_PHASE_ORDERS = 2,  /* entries of the orders, or BEGIN, are missing */
    CEPHLOUK_PHASE_RUNNING = 3, /* the day runs: at least one step is running */
    CEPHLOUK_PHASE_OVER = 4,    /* the last step has ended, and its trolley has been fetched */
    CEPHLOUK_PHASE_READY = 5    /* the last step has ended, and its out stands in the cold room until it is fetched */
};

/* The answer to a command; in a refusal all but the number is 0. */
struct cephlouk_answer {
    uint8_t number; /* CEPHLOUK_ACCEPTED, or the ground of refusal */
    size_t used;    /* the bytes of the command */
    size_t starts;  /* how many steps start now: they stand at the front of the start list, in order */
    uint64_t peak;  /* of BEGIN: the most trays that the activation order needs, one step after another */
    uint16_t by;    /* of BEGIN: the step that sets the peak, the earliest in the activation order where several are equal; else 0 */
    size_t offers;  /* of DONE: to how many steps freed trays were offered */
};

/* How many steps wait, are booked, run and have ended. */
struct cephlouk_counts {
    uint32_t waiting, activated, running, finished;
};

/* Why a step is not starting: the first that is true, in this order. */
enum {
    CEPHLOUK_REASON_REFUSED = 0,      /* none: see the number */
    CEPHLOUK_REASON_ENDED = 1,        /* it has ended */
    CEPHLOUK_REASON_RUNNING = 2,      /* it is running */
    CEPHLOUK_REASON_NOT_BOOKED = 3,   /* it is not booked: the first waiting step in the activation order, it or another, lacks trays */
    CEPHLOUK_REASON_UNFED = 4,        /* it waits for a feeder */
    CEPHLOUK_REASON_NO_PROCESSOR = 5  /* all stations are taken */
};

struct cephlouk_reason {
    uint8_t number; /* CEPHLOUK_ACCEPTED; OUT_OF_TURN outside running; then OUTSIDE_LIMITS for a number that is no step's */
    uint8_t kind;   /* CEPHLOUK_REASON_... */
    uint16_t task;  /* of NOT_BOOKED the first waiting step, of UNFED the lowest-numbered child that has not ended; else 0 */
    uint32_t lack;  /* of NOT_BOOKED: with so many more places that first step would be booked now, with one fewer not; else 0 */
};

/* What is answered by a function that writes to the front of a lent list. */
struct cephlouk_wrote {
    uint8_t number; /* CEPHLOUK_ACCEPTED, or the ground of refusal */
    size_t count;   /* how many entries were written; 0 in a refusal */
};

/* A command by its names: its first byte, and the operands that it has. The others are not looked at, and 0 where a command is told. */
struct cephlouk_command {
    uint8_t byte;     /* CEPHLOUK_PLAN to CEPHLOUK_PLACES */
    uint8_t stations; /* of PLAN */
    uint16_t steps;   /* of PLAN */
    uint16_t step;    /* of ACTIVATION, EXECUTION and DONE */
    uint16_t parent;  /* of STEP, like the next two */
    uint16_t work;
    uint16_t out;
    uint32_t places; /* of PLAN and PLACES */
};

/* What stands at a place of some bytes; in a refusal all but the number is 0. */
struct cephlouk_decoded {
    uint8_t number; /* CEPHLOUK_ACCEPTED; CUT_SHORT or UNKNOWN_BYTE */
    size_t used;    /* the bytes of the command */
    struct cephlouk_command command;
};

/* Writes the bytes of a command to the front of a list of `length` bytes, of which CEPHLOUK_MOST_COMMAND_BYTES are enough for any:
   UNKNOWN_BYTE where its byte is none of 01 to 08, then SHORT_LIST where the list has fewer bytes than the command. Bytes behind those
   written are not touched, and a refusal touches none. Whether the command is in turn and within its limits is for the plan to say. */
struct cephlouk_wrote cephlouk_encode(struct cephlouk_command command, uint8_t *list, size_t length);

/* The command at `place` of `length` bytes, which are only read. */
struct cephlouk_decoded cephlouk_decode(const uint8_t *bytes, size_t length, size_t place);

/* Makes it the empty plan, whatever was in it: all its words are 0 then. */
void cephlouk_plan_empty(struct cephlouk_plan *plan);

/* Gives a plan the command at `place` of `length` bytes, which are only read, with a start list of `room` entries. A place at or behind
   the end is a place with no byte. An accepted BEGIN, DONE or 08 writes the steps that start to the front of the start list and touches no
   later entry; all other commands leave the list as it was. A refusal leaves the list and every word of the plan as they were. */
struct cephlouk_answer cephlouk_plan_command(struct cephlouk_plan *plan, const uint8_t *bytes, size_t length, size_t place,
                                             uint16_t *starts, size_t room);

/* Questions, at any time. A plan that is asked is only read. */
uint32_t cephlouk_plan_phase(const struct cephlouk_plan *plan);    /* CEPHLOUK_PHASE_... */
uint32_t cephlouk_plan_booked(const struct cephlouk_plan *plan);   /* trays booked; 0 outside running and ready */
uint32_t cephlouk_plan_in_use(const struct cephlouk_plan *plan);   /* trays in use; 0 outside running and ready */
uint32_t cephlouk_plan_fullness(const struct cephlouk_plan *plan); /* trays booked, in thousandths of places; 0 outside these too */
/* how the day stands; four zeros outside running, ready and over */
struct cephlouk_counts cephlouk_plan_standing(const struct cephlouk_plan *plan);
/* why a step is not starting */
struct cephlouk_reason cephlouk_plan_why(const struct cephlouk_plan *plan, uint16_t task);

/* Fullness of `booked` trays in `places`, in thousandths, rounded down, of any two numbers and no plan: 0 where there is no place, and 1000
   where there are at least as many trays. No number in it is wider than 32 bits, for panels that admit no wider one. */
uint32_t cephlouk_thousandths(uint32_t booked, uint32_t places);

/* Writes what was given of a plan back out, to the front of a list of `length` bytes: PLAN, the steps, the activation order and the
   execution order, without BEGIN; M is the one in force, that of the last 08. OUT_OF_TURN until both orders are complete; then
   SHORT_LIST where the list has fewer than 8 bytes and 13 for each step. From BEGIN on an execution order that was left out is complete,
   with the entries of the activation order. Bytes behind those written are not touched, and a refusal touches none. The same plan gives
   the same bytes, however its orders came, and cephlouk_plan_command on them restores it in an empty plan. */
struct cephlouk_wrote cephlouk_plan_write(const struct cephlouk_plan *plan, uint8_t *list, size_t length);

/* Finds a good activation order from the steps alone, whatever orders were given, and writes its step numbers to the front of a list of
   `length` entries: each step once, before its parent, and each subtree finished before its neighbour, children by falling (peak of the
   child's subtree less its out), equal ones by lower number. No order that finishes each subtree before its neighbour has a lower peak:
   where BEGIN refuses this one with PEAK_ABOVE_BOUND, it would refuse each of them. Orders that hop between subtrees may do better.
   OUT_OF_TURN until all steps are given; then NOT_ONE_ROOT; then ROOT_UNREACHED; then SHORT_LIST where the list has fewer entries than
   there are steps. Entries behind those written are not touched, and a refusal touches none. 03 for its entries is taken where no 03 was
   given yet; an order that was given stays, after a refused BEGIN too, until the plan is opened anew. */
struct cephlouk_wrote cephlouk_plan_find_order(const struct cephlouk_plan *plan, uint16_t *list, size_t length);

/* The planners' desk: the peak of the caller's own records in an activation order and the step that sets it, with no plan. A record stands
   for a step: the first is step 1. */
struct cephlouk_record {
    uint16_t parent, work, out;
};

struct cephlouk_desk_answer {
    uint8_t number; /* CEPHLOUK_ACCEPTED, OUTSIDE_LIMITS (also lists of unequal lengths, none or too many), REPEATED, NOT_ONE_ROOT or
                       PARENT_FIRST */
    uint64_t peak;  /* 0 in a refusal */
    uint16_t by;    /* the step that sets the peak, the earliest in the order where several are equal; 0 in a refusal */
};

/* Both lists are only read. `room` is a plan to work in: it may hold anything, and is left an empty plan. */
struct cephlouk_desk_answer cephlouk_records_peak(const struct cephlouk_record *records, size_t records_length,
                                                  const uint16_t *activation, size_t activation_length, struct cephlouk_plan *room);

#ifdef __cplusplus
}
#endif

#endif
