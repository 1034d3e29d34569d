// Lamwiest for C++11 and later, over lamwiest.h, which tells what each call does. A table, a region and a lease are
// objects that end with their block. A call that is refused throws lamwiest::Refused, and changes nothing.
#ifndef LAMWIEST_HPP
#define LAMWIEST_HPP

#include "lamwiest.h"
#include <cstddef>
#include <cstdint>
#include <cstring>
#include <stdexcept>
#include <string>
#include <type_traits>
#include <vector>

namespace lamwiest {

// A call was refused, and changed nothing; or a script ended at a fault.
class Refused : public std::runtime_error {
public:
    explicit Refused(const lw_fault &fault) : std::runtime_error(text(fault)), fault(fault) {}

    const lw_fault fault;

private:
    static std::string text(const lw_fault &fault)
    {
        char text[LW_FAULT_TEXT_SIZE];
        return lw_fault_text(&fault, text, sizeof text, nullptr);
    }
};

// Throws where a call was refused.
inline void must(uint32_t status, const lw_fault &fault)
{
    if (status != LW_DONE) {
        throw Refused(fault);
    }
}

// So many elements of T in host memory, from a host address on. A length or an address that does not fit in 64 bits is
// told as UINT64_MAX, which no table has.
template <class T> struct Span {
    static_assert(std::is_trivially_copyable<T>::value, "elements are copied byte by byte");
    static_assert(!std::is_same<T, bool>::value, "not every byte is a bool");

    uint64_t start;
    std::size_t count;

    uint64_t len() const { return count <= UINT64_MAX / sizeof(T) ? count * sizeof(T) : UINT64_MAX; }

    // The first host address behind these.
    uint64_t behind() const { return len() <= UINT64_MAX - start ? start + len() : UINT64_MAX; }

    // The elements [first:count] of these.
    Span part(std::size_t first, std::size_t count) const { return Span{Span{start, first}.behind(), count}; }
};

// ---- Items of data clauses. pointer: the host address of the pointer to the section's data, or 0 ----

template <class T> lw_item item(uint32_t clause, Span<T> section, uint64_t pointer)
{
    lw_item item = {clause, section.start, section.len(), pointer};
    return item;
}

template <class T> lw_item copy(Span<T> a, uint64_t pointer = 0) { return item(LW_COPY, a, pointer); }
template <class T> lw_item copyin(Span<T> a, uint64_t pointer = 0) { return item(LW_COPYIN, a, pointer); }
template <class T> lw_item copyout(Span<T> a, uint64_t pointer = 0) { return item(LW_COPYOUT, a, pointer); }
template <class T> lw_item copyout_zero(Span<T> a, uint64_t pointer = 0) { return item(LW_COPYOUT_ZERO, a, pointer); }
template <class T> lw_item create(Span<T> a, uint64_t pointer = 0) { return item(LW_CREATE, a, pointer); }
template <class T> lw_item create_zero(Span<T> a, uint64_t pointer = 0) { return item(LW_CREATE_ZERO, a, pointer); }
template <class T> lw_item no_create(Span<T> a, uint64_t pointer = 0) { return item(LW_NO_CREATE, a, pointer); }
template <class T> lw_item present(Span<T> a, uint64_t pointer = 0) { return item(LW_PRESENT, a, pointer); }
template <class T> lw_item delete_(Span<T> a, uint64_t pointer = 0) { return item(LW_DELETE, a, pointer); }
template <class T> lw_item self(Span<T> a) { return item(LW_SELF, a, 0); }
template <class T> lw_item device(Span<T> a) { return item(LW_DEVICE, a, 0); }

// attach and detach name the pointer itself.
inline lw_item attach(uint64_t pointer) { return item(LW_ATTACH, Span<char>{pointer, 0}, 0); }
inline lw_item detach(uint64_t pointer) { return item(LW_DETACH, Span<char>{pointer, 0}, 0); }

typedef std::vector<lw_item> Items;

// Host memory and the memories of devices, with what is mapped between them. It is used by one thread at a time.
class Table {
public:
    // All limits as by default.
    Table() { begin(nullptr); }
    explicit Table(const lw_limits &limits) { begin(&limits); }
    // A copy, with the trace, which goes its own way from then on. A region that is open in it is exited by lw_exit. It
    // throws with LW_LENT while a Lease of the table is there.
    explicit Table(Table &from)
    {
        lw_fault fault;
        must(lw_table_copy(&from.table, &table, &fault), fault);
    }
    Table(const Table &) = delete;
    Table &operator=(const Table &) = delete;
    ~Table() { lw_table_end(&table); }

    // For the calls of lamwiest.h that have no method here.
    lw_table *get() { return &table; }

    // Host addresses for an array.
    template <class T> Span<T> array(std::size_t count)
    {
        Span<T> array = {0, count};
        lw_fault fault;
        must(lw_array(&table, array.len(), &array.start, &fault), fault);
        return array;
    }

    // As many elements as the span has, from the first on. What stands in braces is no pointer, as {} or {0} would be.
    template <class T, class Element> void write(Span<T> to, const Element *elements)
    {
        static_assert(std::is_same<Element, T>::value, "the elements are not those of the span");
        lw_fault fault;
        must(lw_host_write(&table, to.start, elements, to.len(), &fault), fault);
    }

    // As many elements as the vector has, from the first on.
    template <class T> void write(Span<T> to, const std::vector<T> &elements)
    {
        write(to.part(0, elements.size()), elements.data());
    }

    // What the host has. The last byte is asked for first: where it is refused, no room is made for the elements.
    template <class T> std::vector<T> read(Span<T> from)
    {
        char last;
        lw_fault fault;
        must(lw_host_read(&table, from.behind() - 1, &last, from.count != 0, &fault), fault);
        std::vector<T> elements(from.count);
        must(lw_host_read(&table, from.start, elements.data(), from.len(), &fault), fault);
        return elements;
    }

    // What a device has of them, likewise.
    template <class T> std::vector<T> read_device(Span<T> from, uint64_t device = 0)
    {
        char last;
        lw_fault fault;
        must(lw_device_read(&table, device, from.behind() - 1, &last, from.count != 0, &fault), fault);
        std::vector<T> elements(from.count);
        must(lw_device_read(&table, device, from.start, elements.data(), from.len(), &fault), fault);
        return elements;
    }

    void enter_data(const Items &items, lw_async async = LW_ASYNC_SYNC, uint64_t device = 0)
    {
        lw_fault fault;
        must(lw_enter_data(&table, device, items.data(), items.size(), async, &fault), fault);
    }

    void exit_data(const Items &items, lw_async async = LW_ASYNC_SYNC, uint64_t device = 0)
    {
        lw_fault fault;
        must(lw_exit_data(&table, device, items.data(), items.size(), 0, async, &fault), fault);
    }

    void exit_data_finalize(const Items &items, lw_async async = LW_ASYNC_SYNC, uint64_t device = 0)
    {
        lw_fault fault;
        must(lw_exit_data(&table, device, items.data(), items.size(), 1, async, &fault), fault);
    }

    void update(const Items &items, lw_async async = LW_ASYNC_SYNC, uint64_t device = 0)
    {
        lw_fault fault;
        must(lw_update(&table, device, items.data(), items.size(), 0, async, &fault), fault);
    }

    void update_if_present(const Items &items, lw_async async = LW_ASYNC_SYNC, uint64_t device = 0)
    {
        lw_fault fault;
        must(lw_update(&table, device, items.data(), items.size(), 1, async, &fault), fault);
    }

    // Makes all copies of all queues of a device, or of one, and returns how many they were.
    uint64_t wait(uint64_t queue = LW_NO_QUEUE_GIVEN, uint64_t device = 0)
    {
        uint64_t made = 0;
        lw_fault fault;
        must(lw_wait(&table, device, queue, &made, &fault), fault);
        return made;
    }

    // The fault that a directive would get, LW_DONE where none. asked names it as lw_event does. It is not carried out.
    lw_fault judge(const lw_stored_event &asked, const Items &items = Items())
    {
        lw_fault fault;
        lw_judge(&table, &asked, items.data(), items.size(), &fault);
        return fault;
    }

    // Carries a directive out, and returns the number that lw_do tells.
    uint64_t carry_out(const lw_stored_event &asked, const Items &items = Items())
    {
        uint64_t number = 0;
        lw_fault fault;
        must(lw_do(&table, &asked, items.data(), items.size(), &number, &fault), fault);
        return number;
    }

    // Makes what events tell, as lw_run. done: how many were made, also where one is refused. These stay. Where events
    // tell of more items or bytes than there are, it throws with LW_BAD_LENGTH, and none is made.
    void run(const std::vector<lw_stored_event> &asked, const Items &items, const std::vector<uint8_t> &bytes,
             uint64_t &done)
    {
        uint64_t named = 0, written = 0;
        done = 0;
        for (const lw_stored_event &event : asked) {
            add(named, has_items(event.kind) ? event.count : 0, items.size());
            add(written, event.kind == LW_WRITTEN ? event.len : 0, bytes.size());
        }
        lw_fault fault;
        must(lw_run(&table, asked.data(), asked.size(), items.data(), bytes.data(), &done, &fault), fault);
    }

    template <class T> bool is_present(Span<T> section, uint64_t device = 0)
    {
        uint64_t present = 0;
        lw_is_present(&table, device, section.start, section.len(), &present);
        return present != 0;
    }

    // Whether another table has the same limits, and the same in all memories and on record. Their traces may differ.
    bool is_same_as(Table &other)
    {
        if (&other == this) {
            return true;
        }
        uint64_t same = 0;
        lw_fault fault;
        must(lw_table_same(&table, &other.table, &same, &fault), fault);
        return same != 0;
    }

    // Makes room in the trace again, and returns how many events it had.
    uint64_t rebase()
    {
        uint64_t folded = 0;
        lw_fault fault;
        must(lw_rebase(&table, &folded, &fault), fault);
        return folded;
    }

    // Begins anew, with the limits that it has. No region and no lease of it is there then: a lease would write where
    // its bytes lay. Spans of before have no addresses.
    void reset()
    {
        lw_fault fault;
        must(lw_table_reset(&table, &fault), fault);
    }

    // The report that accrun prints.
    std::string report()
    {
        uint64_t len = 0;
        lw_fault fault;
        lw_report(&table, nullptr, 0, &len, &fault);
        std::vector<char> text(len + 1);
        must(lw_report(&table, text.data(), text.size(), &len, &fault), fault);
        return std::string(text.data(), len);
    }

private:
    // Whether lw_run takes items for an event of this kind.
    static bool has_items(uint32_t kind)
    {
        return kind == LW_ENTERED || kind == LW_ENTERED_DATA || kind == LW_EXITED_DATA || kind == LW_UPDATED;
    }

    // Adds to what is wanted, and throws where there is not as much.
    static void add(uint64_t &wanted, uint64_t more, uint64_t there)
    {
        if (more > there - wanted) {
            lw_fault fault = {LW_BAD_LENGTH, 0, more <= UINT64_MAX - wanted ? wanted + more : UINT64_MAX};
            throw Refused(fault);
        }
        wanted += more;
    }

    void begin(const lw_limits *limits)
    {
        lw_fault fault;
        must(lw_table_new(&table, limits, &fault), fault);
    }

    lw_table table = LW_NO_TABLE;
};

// A data construct (OpenACC 3.3, section 2.6.5), entered where it is made and exited at the end of its block.
class Region {
public:
    Region(Table &table, const Items &items, uint64_t device = 0) : table(table)
    {
        lw_fault fault;
        must(lw_enter(table.get(), device, items.data(), items.size(), &number, &fault), fault);
    }
    Region(const Region &) = delete;
    Region &operator=(const Region &) = delete;

    // A destructor can't throw: a region whose exit is refused, as while a block is lent that ends with it, stays open.
    ~Region()
    {
        if (is_open) {
            lw_exit(table.get(), number, nullptr);
        }
    }

    // The end of the construct, which tells where it is refused. The region is open still then.
    void exit()
    {
        lw_fault fault;
        must(lw_exit(table.get(), number, &fault), fault);
        is_open = false;
    }

    Table &table;
    uint64_t number = 0;

private:
    bool is_open = true;
};

// The device's elements of a section, lent to a kernel (section 2.5). They are reached where they lie, or in a copy
// where they are not aligned as elements are. While a thread is in a call on the table, no other one reads or writes
// them. At the end of its block the device has them again, as the kernel left them.
template <class T> class Lease {
public:
    Lease(Region &region, Span<T> section) : table(region.table)
    {
        uint64_t len = 0;
        lw_fault fault;
        must(lw_lend(table.get(), region.number, section.start, section.len(), &number, &fault), fault);
        lw_lease_bytes(table.get(), number, &bytes, &len, nullptr);
        count = len / sizeof(T);
        if (reinterpret_cast<std::uintptr_t>(bytes) % alignof(T) != 0) {
            take_copy();
        }
        elements = copy.empty() ? static_cast<T *>(bytes) : copy.data();
    }
    Lease(const Lease &) = delete;
    Lease &operator=(const Lease &) = delete;

    // A destructor can't throw: a lease that is refused stays out until its table ends or begins anew.
    ~Lease()
    {
        if (is_out) {
            put_back();
            lw_gather(table.get(), number, nullptr);
        }
    }

    // Brings it back, and it has no elements any more. It tells where that is refused: the lease is out still then.
    void gather()
    {
        lw_fault fault;
        put_back();
        must(lw_gather(table.get(), number, &fault), fault);
        is_out = false;
        copy.clear();
        elements = nullptr;
        count = 0;
    }

    T &operator[](std::size_t place) { return elements[place]; }
    T *data() { return elements; }
    std::size_t size() const { return count; }
    T *begin() { return elements; }
    T *end() { return elements + count; }

private:
    // Without memory for the copy the lease is brought back.
    void take_copy()
    {
        try {
            copy.resize(count);
        } catch (...) {
            lw_gather(table.get(), number, nullptr);
            throw;
        }
        std::memcpy(copy.data(), bytes, count * sizeof(T));
    }

    void put_back()
    {
        if (!copy.empty()) {
            std::memcpy(bytes, copy.data(), copy.size() * sizeof(T));
        }
    }

    std::vector<T> copy;
    T *elements = nullptr;
    std::size_t count = 0;
    void *bytes = nullptr;
    Table &table;
    uint64_t number = 0;
    bool is_out = true;
};

// Runs a script on a new table of these limits, as lw_script. printed: what it prints, also where a line is at fault.
inline void run_script(const std::string &script, std::string &printed, const lw_limits *limits = nullptr)
{
    std::vector<char> text(4096);
    lw_fault fault;
    uint64_t len = 0;
    while (lw_script(limits, script.data(), script.size(), text.data(), text.size(), &len, &fault) == LW_BAD_LENGTH) {
        text.resize(fault.value);
        len = 0;
    }
    printed.assign(text.data(), len);
    must(fault.status, fault);
}

} // namespace lamwiest

#endif
