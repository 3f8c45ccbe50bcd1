// The keyboard for C++11 and later: an object that opens, copies, moves and closes it. The calls are those of kbd48.h,
// which has their units and ranges. A status after which no caller can go on is thrown as Kbd48::Error.
#ifndef KBD48_HPP
#define KBD48_HPP
#include "kbd48.h"
#include <cstdint>
#include <stdexcept>
#include <string>
#include <utility>
#include <vector>

class Kbd48 {
public:
    struct Error : std::runtime_error {
        int32_t status;
        explicit Error(int32_t why) : std::runtime_error(kbd48_text(why)), status(why) {}
    };

    // A text has a fault: the entry or line, and the rule that it breaks.
    struct TextFault : Error {
        kbd48_fault fault;
        TextFault(int32_t why, kbd48_fault where) : Error(why), fault(where) {}
    };

    static Kbd48 of_layout(const std::string &text) { return opened(kbd48_open_layout, text); }
    static Kbd48 of_hex(const std::string &text) { return opened(kbd48_open_hex, text); }
    static Kbd48 ready_of_layout(const std::string &text) { return opened(kbd48_open_ready_layout, text); }
    static Kbd48 ready_of_hex(const std::string &text) { return opened(kbd48_open_ready_hex, text); }
    static Kbd48 of_sample() { return opened(kbd48_open_sample); }
    static Kbd48 ready_of_sample() { return opened(kbd48_open_ready_sample); }

    // The state as bytes, and a keyboard in that state. Its queue of edges is not among them: `save_queue` has that.
    std::vector<uint8_t> save() const {
        std::vector<uint8_t> bytes(KBD48_SAVED);
        need(kbd48_save(&handle, bytes.data(), bytes.size()));
        return bytes;
    }
    static Kbd48 of_saved(const std::vector<uint8_t> &bytes) {
        Kbd48 keyboard;
        need(kbd48_load(&keyboard.handle, bytes.data(), bytes.size()));
        return keyboard;
    }
    std::vector<uint8_t> save_queue() const {
        std::vector<uint8_t> bytes(KBD48_SAVED_KEYS);
        need(kbd48_save_keys(&keys, bytes.data(), bytes.size()));
        return bytes;
    }
    void load_queue(const std::vector<uint8_t> &bytes) { need(kbd48_load_keys(&keys, bytes.data(), bytes.size())); }
    const kbd48_keys &queue() const { return keys; }
    void set_queue(const kbd48_keys &other) { keys = other; }

    // The place of a key by its name, in a layout's text or in the sample layout.
    static uint8_t place_of(const std::string &layout, const std::string &name) {
        uint8_t place;
        need(kbd48_layout_key(bytes(layout), layout.size(), bytes(name), name.size(), &place));
        return place;
    }
    static uint8_t place_of(const std::string &name) {
        uint8_t place;
        need(kbd48_sample_key(bytes(name), name.size(), &place));
        return place;
    }

    // 10,000 times the first part of the library's version, 100 times the second, and the third.
    static int32_t version() { return kbd48_version(); }

    // How a run with the queue ended: how many cycles passed, how often the line rose, and whether that ended it.
    struct Ran {
        uint64_t passed, rises;
        bool rose;
    };

    Kbd48(const Kbd48 &other) : keys(other.keys) { need(kbd48_copy(&other.handle, &handle)); }
    Kbd48(Kbd48 &&other) noexcept : keys(other.keys) { std::swap(handle.at, other.handle.at); }
    Kbd48 &operator=(Kbd48 other) noexcept {
        std::swap(handle.at, other.handle.at);
        std::swap(keys, other.keys);
        return *this;
    }
    ~Kbd48() { kbd48_close(&handle); }

    // Off and on again, with this byte in data memory, the accumulator and the timer at power-on; the queue begins anew.
    void power_on(uint8_t fill = 0) {
        need(kbd48_power_on(&handle, fill));
        keys = kbd48_keys();
    }

    // Steps. A write and a key return whether there was room; a run returns whether the line rose.
    bool key(uint8_t place, bool down) { return roomy(kbd48_key(&handle, place, down)); }
    bool write(uint8_t port, uint8_t byte) { return roomy(kbd48_write(&handle, port, byte)); }
    uint8_t read60() { return shown<uint8_t>(kbd48_read60); }
    uint8_t status() { return shown<uint8_t>(kbd48_status); }
    void bios(bool on) { need(kbd48_bios(&handle, on)); }
    void flip(uint8_t bit) { need(kbd48_flip(&handle, bit)); }
    bool run(uint64_t cycles, bool watched = false) {
        uint64_t passed;
        kbd48_spot spot;
        int32_t why = kbd48_run(&handle, cycles, watched, &passed, &spot);
        return why == KBD48_ROSE || (need(why), false);
    }

    // Keys by the queue of this keyboard, which hands each edge over when it can be seen. A key that is already down, or
    // already up, changes nothing. False if a key goes down and there is no room.
    bool queue_key(uint8_t place, bool down) {
        int32_t status = kbd48_queue_key(&keys, cycle(), place, down);
        return status == KBD48_REPEATED || roomy(status);
    }
    void release_all() { need(kbd48_release_all(&keys, cycle())); }
    unsigned queued() {
        uint8_t count;
        need(kbd48_queued(&keys, &count));
        return count;
    }
    Ran run_keys(uint64_t cycles, bool watched = false) {
        Ran ran = {0, 0, false};
        int32_t status = KBD48_KEY_DUE;
        while (status == KBD48_KEY_DUE) {
            uint64_t passed;
            kbd48_spot spot;
            status = kbd48_run_keys(&handle, &keys, cycles - ran.passed, watched, &passed, &spot);
            ran.passed += passed;
            ran.rises += rises();
        }
        ran.rose = status == KBD48_ROSE;
        if (!ran.rose) need(status);
        return ran;
    }

    // What the last step did of that which the mask asks for (KBD48_STOP_...); 0 if a limit was reached.
    uint8_t run_to(uint8_t mask, uint64_t cycles, uint64_t steps = UINT64_MAX, uint16_t at = 0) {
        uint8_t met;
        uint64_t passed;
        kbd48_spot spot;
        need(kbd48_run_to(&handle, mask, at, cycles, steps, &met, &passed, &spot));
        return met;
    }

    // The next word or item; false if there is none. KBD48_LOST is thrown.
    bool take(uint16_t &word) { return is_there(kbd48_take(&handle, &word), KBD48_NO_WORD); }
    bool next(kbd48_item &item) { return is_there(kbd48_next(&handle, &item), KBD48_NOTHING_SAID); }

    // Looks, which make no step. They are const, but a keyboard may be in one call at a time only.
    bool interrupt() const { return shown<bool>(kbd48_interrupt); }
    uint64_t rises() const { return shown<uint64_t>(kbd48_rises); }
    uint64_t lost() const { return shown<uint64_t>(kbd48_lost); }
    uint64_t cycle() const { return shown<uint64_t>(kbd48_cycle); }
    uint8_t lights() const { return shown<uint8_t>(kbd48_lights); }
    // The levels of the wires, true for high; and which of them each side pulls: 1 the clock, 2 data.
    struct Wires {
        bool clock, data;
    };
    Wires wires() const {
        Wires wires;
        need(kbd48_wires(&handle, &wires.clock, &wires.data));
        return wires;
    }
    struct Pulls {
        uint8_t keyboard, controller;
    };
    Pulls pulls() const {
        Pulls pulls;
        need(kbd48_pulls(&handle, &pulls.keyboard, &pulls.controller));
        return pulls;
    }
    // The edges that wait for a step, and the words in the buffer of INT 09h.
    struct Waiting {
        uint8_t edges, words;
    };
    Waiting waiting() const {
        Waiting waiting;
        need(kbd48_waiting(&handle, &waiting.edges, &waiting.words));
        return waiting;
    }
    // The keys of a column, 0 to 11, and a byte of data memory, 0 to 127.
    uint8_t column(uint8_t number) const { return numbered(kbd48_column, number); }
    uint8_t cell(uint8_t number) const { return numbered(kbd48_cell, number); }
    kbd48_registers registers() const { return shown<kbd48_registers>(kbd48_look); }
    kbd48_processor processor() const { return shown<kbd48_processor>(kbd48_inside); }

private:
    mutable kbd48 handle = KBD48_EMPTY; // a look goes through it too, and leaves it as it was
    mutable kbd48_keys keys = KBD48_NO_KEYS; // and so does a save of the queue

    Kbd48() = default;

    static void need(int32_t status) {
        if (status != KBD48_DONE) throw Error(status);
    }
    static bool is_there(int32_t status, int32_t none) { return status != none && (need(status), true); }
    static const uint8_t *bytes(const std::string &text) { return reinterpret_cast<const uint8_t *>(text.data()); }
    static bool roomy(int32_t status) { return is_there(status, KBD48_FULL); }

    uint8_t numbered(int32_t (*call)(kbd48 *, uint8_t, uint8_t *), uint8_t number) const {
        uint8_t value;
        need(call(&handle, number, &value));
        return value;
    }

    template <class T> T shown(int32_t (*call)(kbd48 *, T *)) const {
        T value;
        need(call(&handle, &value));
        return value;
    }

    static Kbd48 opened(int32_t (*open)(kbd48 *)) {
        Kbd48 keyboard;
        need(open(&keyboard.handle));
        return keyboard;
    }

    static Kbd48 opened(int32_t (*open)(const uint8_t *, size_t, kbd48 *, kbd48_fault *), const std::string &text) {
        Kbd48 keyboard;
        kbd48_fault fault = {0, 0};
        int32_t status = open(bytes(text), text.size(), &keyboard.handle, &fault);
        if (status == KBD48_BAD_TEXT) throw TextFault(status, fault);
        need(status);
        return keyboard;
    }
};

#endif
