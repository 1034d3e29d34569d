// A table, its data regions and its leases as objects: each ends with the block that has it, also where an exception
// leaves that block. It makes the calls that a compiler would make its runtime do for
//
//     double a[4] = {1, 2, 3, 4}, b[4];
//     #pragma acc enter data create(zero: b[0:4])
//     #pragma acc data copyin(a[0:4])
//     {
//         #pragma acc parallel loop present(a, b)
//         for (int i = 0; i < 4; i++) {
//             b[i] += 10 * a[i];
//         }
//     }
//     #pragma acc update self(b[0:2]) async(3)
//     #pragma acc wait(3)
//     #pragma acc exit data copyout(b[0:4])
#include "lamwiest.hpp"
#include <cstdlib>
#include <exception>
#include <iostream>

namespace {

typedef lamwiest::Span<double> Doubles;

// Adds ten times a to b on the device.
void add_ten_times(lamwiest::Region &region, Doubles a, Doubles b)
{
    lamwiest::Lease<double> on_a(region, a);
    lamwiest::Lease<double> on_b(region, b);

    for (std::size_t i = 0; i < on_b.size(); i++) {
        on_b[i] += 10 * on_a[i];
    }
}

// Shows what a call is refused for.
template <class Call> void show_refusal(Call call)
{
    try {
        call();
    } catch (const lamwiest::Refused &refused) {
        std::cout << "refused " << refused.what() << '\n';
    }
}

// A kernel that fails: its lease comes back and its region is exited on the way out.
void fail_in_region(lamwiest::Table &table, Doubles b)
{
    lamwiest::Region region(table, {lamwiest::present(b)});
    lamwiest::Lease<double> on_b(region, b);

    throw std::runtime_error("the kernel failed");
}

// A copy goes its own way: what is done on it is not seen in the table.
void end_on_a_copy(lamwiest::Table &table, Doubles b)
{
    lamwiest::Table copy(table);

    std::cout << "the same: " << copy.is_same_as(table);
    copy.exit_data({lamwiest::delete_(b)});
    std::cout << ", and then: " << copy.is_same_as(table) << '\n';
}

// Elements that lie where the machine wants none: the kernel has a copy of them, which comes back.
void add_at_an_odd_address(lamwiest::Region &region, Doubles odd)
{
    lamwiest::Lease<double> on_odd(region, odd);

    on_odd[0] += on_odd[1];
}

// A lease that came back has no elements, and leaves what another one changes.
void gather_twice(lamwiest::Region &region, Doubles odd)
{
    lamwiest::Lease<double> spent(region, odd);

    spent.gather();
    std::cout << "spent: " << spent.size() << " elements, at none: " << (spent.data() == nullptr) << '\n';
    add_at_an_odd_address(region, odd);
    show_refusal([&] { spent.gather(); });
}

// Elements of more bytes than 64 bits count, a quarter of them, and one as far behind the first: no memory has them.
void reach_too_far(lamwiest::Table &table, lamwiest::Region &region, Doubles near)
{
    const std::size_t too_many = (std::size_t(1) << 61) + 1;

    show_refusal([&] { table.array<double>(too_many); });
    for (Doubles far : {Doubles{near.start, too_many}, near.part(0, too_many / 4), near.part(too_many - 1, 1)}) {
        show_refusal([&] { lamwiest::Lease<double> on_far(region, far); });
        show_refusal([&] { table.update({lamwiest::self(far)}); });
        show_refusal([&] { table.read(far); });
        show_refusal([&] { table.read_device(far); });
    }
}

void show(const char *name, const std::vector<double> &elements)
{
    std::cout << name << ':';
    for (double element : elements) {
        std::cout << ' ' << element;
    }
    std::cout << '\n';
}

// The text that a script prints is longer than 4,096 bytes; then a line is at fault.
void run_scripts()
{
    std::string script = "array a 64\n", printed;

    for (int i = 0; i < 100; i++) {
        script += "show a\n";
    }
    lamwiest::run_script(script, printed);
    std::cout << "printed: " << printed.size() << " bytes\n";
    try {
        lamwiest::run_script("array a 2\nshow a\nshow b\n", printed);
    } catch (const lamwiest::Refused &refused) {
        std::cout << "printed: " << printed << refused.what() << '\n';
    }
}

// What stands in braces is elements, also where it could be a null pointer.
void write_in_braces(lamwiest::Table &table)
{
    const double plain[] = {7, 8, 9};
    Doubles few = table.array<double>(3);

    table.write(few, plain);
    table.write(few, {});
    show("none in braces", table.read(few));
    table.write(few, {0});
    show("a zero in braces", table.read(few));
    table.write(few, {1});
    show("a one in braces", table.read(few));
}

// Events that tell of more items, or of more bytes, than there are: none is made.
void run_too_few(lamwiest::Table &table, lw_stored_event update, Doubles b)
{
    lw_stored_event written = {};
    uint64_t made = 1;

    written.kind = LW_WRITTEN;
    written.start = b.start;
    written.len = 4;
    show_refusal([&] { table.run({update, written, update}, {lamwiest::self(b)}, {1, 2, 3, 4}, made); });
    show_refusal([&] { table.run({update, written, written}, {lamwiest::self(b)}, {1, 2, 3, 4, 5, 6, 7}, made); });
    written.len = UINT64_MAX;
    show_refusal([&] { table.run({update, written}, {lamwiest::self(b)}, {1, 2, 3, 4}, made); });
    std::cout << "made " << made << '\n';
}

void run()
{
    lamwiest::Table table;
    Doubles a = table.array<double>(4);
    Doubles b = table.array<double>(4);

    table.write(a, {1, 2, 3, 4});
    table.enter_data({lamwiest::create_zero(b)});
    {
        lamwiest::Region region(table, {lamwiest::copyin(a)});
        add_ten_times(region, a, b);
        std::cout << table.report();
    }
    table.update({lamwiest::self(b.part(0, 2))}, lw_queue(3));
    std::cout << "copies made: " << table.wait(3) << '\n';
    show("half of b", table.read(b));
    end_on_a_copy(table, b);
    try {
        fail_in_region(table, b);
    } catch (const std::runtime_error &failure) {
        std::cout << failure.what() << '\n' << table.report();
    }
    show_refusal([&] { lamwiest::Region region(table, {lamwiest::present(a)}); });
    lw_stored_event update = {};
    update.kind = LW_UPDATED;
    update.queue = LW_NO_QUEUE_GIVEN;
    for (Doubles doubles : {a, b}) {
        std::cout << "judged " << lw_status_name(table.judge(update, {lamwiest::self(doubles)}).status) << '\n';
    }
    std::cout << "carried out " << table.carry_out(update, {lamwiest::self(b)}) << '\n';
    update.count = 1;
    uint64_t made = 0;
    try {
        lw_stored_event gathered = {};
        gathered.kind = LW_GATHERED;
        table.run({update, update, gathered}, {lamwiest::self(b), lamwiest::self(b)}, {}, made);
    } catch (const lamwiest::Refused &refused) {
        std::cout << "made " << made << ", then " << refused.what() << '\n';
    }
    run_too_few(table, update, b);
    table.exit_data({lamwiest::copyout(b)});
    show("b", table.read(b));
    std::cout << table.report();

    lamwiest::Span<char> bytes = table.array<char>(1 + 2 * sizeof(double));
    Doubles odd = {bytes.start + 1, 2};
    table.write(odd, {1, 2});
    {
        lamwiest::Region region(table, {lamwiest::copy(bytes)});
        gather_twice(region, odd);
        reach_too_far(table, region, odd);
    }
    show("odd", table.read(odd));
    write_in_braces(table);
}

} // namespace

int main()
{
    try {
        run();
        run_scripts();
    } catch (const std::exception &failure) {
        std::cerr << "regions: " << failure.what() << '\n';
        return EXIT_FAILURE;
    }
    return EXIT_SUCCESS;
}
