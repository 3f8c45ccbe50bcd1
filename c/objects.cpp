// The C++ header: a keyboard is opened, run, copied, moved and closed, and what fails is thrown.
#include "kbd48.hpp"
#include <cstdio>
#include <fstream>
#include <iterator>

static int failed(int line) {
    std::fprintf(stderr, "c/objects.cpp:%d failed\n", line);
    return 1;
}

#define CHECK(x) \
    do { \
        if (!(x)) return failed(__LINE__); \
    } while (0)

int main() {
    std::ifstream file("examples/us84.toml");
    std::string text((std::istreambuf_iterator<char>(file)), std::istreambuf_iterator<char>());
    Kbd48 first = Kbd48::of_layout(text);
    CHECK(first.run(400000, true) && first.interrupt() && first.rises() == 1);
    CHECK(first.registers().status == 0x15 && first.registers().output == 0xaa);
    Kbd48 copy = first;
    CHECK(first.read60() == 0xaa && !first.interrupt() && copy.interrupt());
    Kbd48 moved = std::move(copy);
    copy = first;
    CHECK(moved.read60() == 0xaa && moved.cycle() == first.cycle());
    std::vector<uint8_t> saved = moved.save();
    Kbd48 loaded = Kbd48::of_saved(saved);
    CHECK(saved.size() == KBD48_SAVED && loaded.save() == saved && loaded.cycle() == moved.cycle());
    saved[7]++;
    try {
        Kbd48::of_saved(saved);
        return failed(__LINE__);
    } catch (const Kbd48::Error &thrown) {
        CHECK(thrown.status == KBD48_OTHER_VERSION);
    }
    kbd48_item item;
    CHECK(moved.next(item) && item.kind == KBD48_ITEM_SENT && item.value == 0xaa);
    CHECK(moved.next(item) && item.kind == KBD48_ITEM_READ && item.value == 0xaa && !moved.next(item));
    CHECK(moved.key(34, true) && moved.run(400000, true) && moved.read60() == 0x23 && !copy.run(4000, true));
    Kbd48 sample = Kbd48::of_sample();
    uint8_t h = Kbd48::place_of("h"), shift = Kbd48::place_of(text, "lshift");
    CHECK(sample.run(400000, true) && sample.read60() == 0xaa && h == 34 && shift == 41);
    CHECK(sample.queue_key(shift, true) && sample.queue_key(h, true) && sample.queue_key(h, true));
    sample.release_all();
    CHECK(sample.queued() == 4);
    std::vector<uint8_t> kept = sample.save_queue();
    copy = sample;
    for (uint8_t byte : {0x2a, 0x23, 0xa3, 0xaa})
        CHECK(copy.run_keys(400000, true).rose && copy.read60() == byte);
    CHECK(copy.queued() == 0 && sample.queued() == 4 && sample.run_keys(40000).rises == 1);
    copy.load_queue(kept);
    CHECK(kept.size() == KBD48_SAVED_KEYS && copy.queued() == 4 && copy.save_queue() == kept);
    kept[0]++;
    try {
        copy.load_queue(kept);
        return failed(__LINE__);
    } catch (const Kbd48::Error &thrown) {
        CHECK(thrown.status == KBD48_NOT_SAVED && copy.queued() == 4);
    }
    Kbd48 ready = Kbd48::ready_of_layout(text);
    ready.flip(9);
    CHECK(ready.pulls().controller == 1 && !ready.wires().clock && ready.wires().data);
    CHECK(Kbd48::version() == KBD48_VERSION_NUMBER && ready.waiting().edges == 0 && ready.waiting().words == 0);
    CHECK(ready.column(11) == 0xff && ready.cell(127) == 0);
    try {
        ready.cell(128);
        return failed(__LINE__);
    } catch (const Kbd48::Error &thrown) {
        CHECK(thrown.status == KBD48_NO_SUCH_CELL);
    }
    CHECK(ready.interrupt() && ready.lost() == 0 && ready.run_to(0, 400000, 1) == 0);
    CHECK(ready.run_to(KBD48_STOP_COUNTER, 4096, UINT64_MAX, KBD48_TICK) == KBD48_STOP_COUNTER);
    CHECK(ready.processor().counter == KBD48_TICK);
    CHECK(ready.queue_key(h, true) && ready.queued() == 1);
    CHECK(Kbd48::ready_of_sample().interrupt());
    ready.power_on(0xff);
    CHECK(ready.queued() == 0 && ready.cycle() < 4099 && ready.run(400000, true) && ready.read60() == 0xaa);
    try {
        Kbd48::of_layout("format = ");
        return failed(__LINE__);
    } catch (const Kbd48::TextFault &thrown) {
        CHECK(thrown.status == KBD48_BAD_TEXT && thrown.fault.number == 1);
    }
}
