// A day of two salads that go into one bowl, in C++: commands by their names.
//
//     rt staticlib cephlouk
//     c++ -Iinclude examples/salads.cpp target/staticlib/libcephlouk.a -o target/salads && target/salads
#include "cephlouk.h"
#include <cstdio>
#include <memory>

// A plan that is kept, and what it answers to one command after another.
class Kitchen {
public:
    Kitchen() : plan(new cephlouk_plan) { cephlouk_plan_empty(plan.get()); }

    void open(uint16_t steps, uint8_t stations, uint32_t places)
    {
        cephlouk_command command = {};
        command.byte = CEPHLOUK_PLAN;
        command.steps = steps;
        command.stations = stations;
        command.places = places;
        give("plan", command);
    }

    void step(uint16_t parent, uint16_t work, uint16_t out)
    {
        cephlouk_command command = {};
        command.byte = CEPHLOUK_STEP;
        command.parent = parent;
        command.work = work;
        command.out = out;
        give("step", command);
    }

    // A command that has a step or nothing.
    void give(const char *name, uint8_t byte, uint16_t step = 0)
    {
        cephlouk_command command = {};
        command.byte = byte;
        command.step = step;
        give(name, command);
    }

private:
    void give(const char *name, const cephlouk_command &command)
    {
        uint8_t bytes[CEPHLOUK_MOST_COMMAND_BYTES];
        uint16_t starts[CEPHLOUK_LEAST_STARTS];
        const cephlouk_wrote wrote = cephlouk_encode(command, bytes, sizeof bytes);
        const cephlouk_answer answer = cephlouk_plan_command(plan.get(), bytes, wrote.count, 0, starts, CEPHLOUK_LEAST_STARTS);
        std::printf("%s:", name);
        if (answer.number != CEPHLOUK_ACCEPTED)
            std::printf(" refused %d", answer.number);
        for (size_t k = 0; k < answer.starts; k++)
            std::printf(" start %d", starts[k]);
        std::printf("\n");
    }

    std::unique_ptr<cephlouk_plan> plan;
};

int main()
{
    Kitchen kitchen;
    kitchen.open(3, 2, 7);
    kitchen.step(3, 5, 1);
    kitchen.step(3, 5, 1);
    kitchen.step(0, 0, 1);
    for (uint16_t step = 1; step <= 3; step++)
        kitchen.give("activation", CEPHLOUK_ACTIVATION, step);
    kitchen.give("begin", CEPHLOUK_BEGIN);
    kitchen.give("done 2", CEPHLOUK_DONE, 2);
    kitchen.give("done 1", CEPHLOUK_DONE, 1);
    kitchen.give("done 2", CEPHLOUK_DONE, 2);
    kitchen.give("done 3", CEPHLOUK_DONE, 3);
    kitchen.give("fetch", CEPHLOUK_FETCH);
}
