// The keyboard and the keyboard controller of DOSBox 0.74-3, made of the library: this file takes the place of DOSBox's
// src/hardware/keyboard.cpp. The environment says:
//     KBD48_LAYOUT  the layout file of the keyboard
//     KBD48_LOG     a file that gets the bytes of both ports, the lights, A20 and the reset, if it is named
//     KBD48_IRQ     `level` for an IRQ 1 that follows the line; without it each rise of the line asks for an interrupt
#include "dosbox.h"
#include "inout.h"
#include "keyboard.h"
#include "mem.h"
#include "mixer.h"
#include "pic.h"
#include "timer.h"

#include "kbd48.hpp"

#include <cstdio>
#include <cstdlib>
#include <cstring>
#include <fstream>
#include <map>
#include <memory>
#include <sstream>
#include <stdexcept>
#include <string>

void TIMER_SetGate2(bool in); // DOSBox has it in no header

namespace {

const unsigned CYCLES_PER_MS = 400;
const uint64_t WRITE_AGAIN = 64; // cycles until a byte that found no room is written again
const int WRITES = 256;          // 41 ms, longer than a byte to the keyboard takes
const unsigned IRQ = 1, ADDRESS_LINE_20 = 0x02, RESET_LINE = 0x01;

// A key's name in DOSBox and in a layout file. The board of 84 keys has no grey keys: those of its keypad send the same.
struct Name {
    KBD_KEYS key;
    const char *name;
};

const Name NAMES[] = {
    {KBD_grave, "grave"}, {KBD_1, "1"}, {KBD_2, "2"}, {KBD_3, "3"}, {KBD_4, "4"}, {KBD_5, "5"}, {KBD_6, "6"},
    {KBD_7, "7"}, {KBD_8, "8"}, {KBD_9, "9"}, {KBD_0, "0"}, {KBD_minus, "minus"}, {KBD_equals, "equal"},
    {KBD_backslash, "backslash"}, {KBD_backspace, "backspace"}, {KBD_tab, "tab"},
    {KBD_q, "q"}, {KBD_w, "w"}, {KBD_e, "e"}, {KBD_r, "r"}, {KBD_t, "t"}, {KBD_y, "y"}, {KBD_u, "u"}, {KBD_i, "i"},
    {KBD_o, "o"}, {KBD_p, "p"}, {KBD_leftbracket, "lbracket"}, {KBD_rightbracket, "rbracket"},
    {KBD_a, "a"}, {KBD_s, "s"}, {KBD_d, "d"}, {KBD_f, "f"}, {KBD_g, "g"}, {KBD_h, "h"}, {KBD_j, "j"}, {KBD_k, "k"},
    {KBD_l, "l"}, {KBD_semicolon, "semicolon"}, {KBD_quote, "quote"}, {KBD_enter, "enter"},
    {KBD_z, "z"}, {KBD_x, "x"}, {KBD_c, "c"}, {KBD_v, "v"}, {KBD_b, "b"}, {KBD_n, "n"}, {KBD_m, "m"},
    {KBD_comma, "comma"}, {KBD_period, "period"}, {KBD_slash, "slash"}, {KBD_space, "space"},
    {KBD_leftshift, "lshift"}, {KBD_rightshift, "rshift"}, {KBD_leftctrl, "ctrl"}, {KBD_rightctrl, "ctrl"},
    {KBD_leftalt, "alt"}, {KBD_rightalt, "alt"},
    {KBD_capslock, "caps"}, {KBD_numlock, "num"}, {KBD_scrolllock, "scroll"}, {KBD_esc, "esc"},
    {KBD_f1, "f1"}, {KBD_f2, "f2"}, {KBD_f3, "f3"}, {KBD_f4, "f4"}, {KBD_f5, "f5"}, {KBD_f6, "f6"}, {KBD_f7, "f7"},
    {KBD_f8, "f8"}, {KBD_f9, "f9"}, {KBD_f10, "f10"},
    {KBD_kp7, "kp7"}, {KBD_kp8, "kp8"}, {KBD_kp9, "kp9"}, {KBD_kp4, "kp4"}, {KBD_kp5, "kp5"}, {KBD_kp6, "kp6"},
    {KBD_kp1, "kp1"}, {KBD_kp2, "kp2"}, {KBD_kp3, "kp3"}, {KBD_kp0, "kp0"}, {KBD_kpperiod, "kpdot"},
    {KBD_kpminus, "kpminus"}, {KBD_kpplus, "kpplus"}, {KBD_kpmultiply, "prtsc"}, {KBD_printscreen, "prtsc"},
    {KBD_kpdivide, "slash"}, {KBD_kpenter, "enter"},
    {KBD_home, "kp7"}, {KBD_up, "kp8"}, {KBD_pageup, "kp9"}, {KBD_left, "kp4"}, {KBD_right, "kp6"}, {KBD_end, "kp1"},
    {KBD_down, "kp2"}, {KBD_pagedown, "kp3"}, {KBD_insert, "kp0"}, {KBD_delete, "kpdot"},
};

std::string text_of(const char *path) {
    std::ifstream file(path, std::ios::binary);
    std::ostringstream text;
    if (!(text << file.rdbuf())) throw std::runtime_error(std::string("no text in ") + path);
    return text.str();
}

// The place of each of DOSBox's keys that this layout has.
std::map<KBD_KEYS, uint8_t> places_of(const std::string &layout) {
    std::map<KBD_KEYS, uint8_t> places;
    for (const Name &name : NAMES) {
        try {
            places[name.key] = Kbd48::place_of(layout, name.name);
        } catch (const Kbd48::Error &fault) {
            if (fault.status != KBD48_NO_SUCH_KEY) throw;
        }
    }
    return places;
}

class Keyboard {
public:
    // DOSBox has no power-on: the guest gets a keyboard that has tested itself, and whose AA was read.
    Keyboard(const std::string &layout, bool level, std::FILE *log)
        : board(Kbd48::ready_of_layout(layout)), level(level), log(log), place_of(places_of(layout)) {
        board.read60();
        for (kbd48_item item; board.next(item);) {}
        start = board.cycle();
    }

    uint8_t in64() {
        advance();
        return board.registers().status;
    }

    uint8_t in60() {
        advance();
        kbd48_registers registers = board.registers();
        if (registers.status & 1) {
            registers.output = board.read60();
            stepped(board.rises());
        }
        return registers.output;
    }

    // A byte that finds no room is written again some cycles later: the guest doesn't look, so it waits.
    void out(uint8_t port, uint8_t byte) {
        advance();
        say("out", port, byte);
        for (int i = 0; i < WRITES; i++) {
            bool done = board.write(port, byte);
            stepped(done ? board.rises() : board.run_keys(WRITE_AGAIN).rises);
            if (done) return;
        }
        say("lost", port, byte);
    }

    // The queue of edges sees to order and time, and leaves out the repeats of the window system.
    void key(KBD_KEYS key, bool down) {
        auto found = place_of.find(key);
        if (found == place_of.end()) return;
        advance();
        if (!board.queue_key(found->second, down)) say("no room", 0, found->second);
    }

    void release_all() {
        advance();
        board.release_all();
    }

    // Once in a millisecond. DOSBox has no reset: it ends, as it does at its own key for that.
    void tick() {
        advance();
        if (was_reset) throw 1;
    }

private:
    Kbd48 board;
    bool level;
    std::FILE *log;
    std::map<KBD_KEYS, uint8_t> place_of;
    uint64_t start; // the keyboard's cycle at DOSBox's time 0
    bool was_reset = false;

    // The keyboard goes on to DOSBox's time, and gets each edge that is due. What a call runs too far is taken off the next.
    void advance() {
        uint64_t now = board.cycle();
        uint64_t goal = start + uint64_t(PIC_FullIndex() * CYCLES_PER_MS);
        if (now < goal) stepped(board.run_keys(goal - now).rises);
    }

    // After each call that makes a step: the interrupt line, which rose so often in it, and what happened.
    void stepped(uint64_t rises) {
        if (!board.interrupt()) {
            PIC_DeActivateIRQ(IRQ);
        } else if (level || rises > 0) {
            PIC_ActivateIRQ(IRQ);
            CPU_CycleLeft += CPU_Cycles; // the processor looks at its interrupts after this instruction
            CPU_Cycles = 0;
        }
        for (kbd48_item item; board.next(item);) heed(item);
    }

    void heed(const kbd48_item &item) {
        switch (item.kind) {
        case KBD48_ITEM_READ: say("in", 0x60, item.value); break;
        case KBD48_ITEM_LIGHTS: say("lights", 0, item.value); break;
        case KBD48_ITEM_OUTPUT:
            say("output port", 0, item.value);
            MEM_A20_Enable(item.value & ADDRESS_LINE_20);
            was_reset = was_reset || !(item.value & RESET_LINE);
            break;
        case KBD48_ITEM_PULSE:
            say("pulse", 0, item.value);
            was_reset = was_reset || !(item.value & RESET_LINE);
            break;
        }
    }

    void say(const char *what, unsigned port, unsigned value) {
        if (!log) return;
        if (port) std::fprintf(log, "%.2f %s %02X %02X\n", PIC_FullIndex(), what, port, value);
        else std::fprintf(log, "%.2f %s %02X\n", PIC_FullIndex(), what, value);
        std::fflush(log);
    }
};

std::unique_ptr<Keyboard> keyboard;

Bitu in60(Bitu, Bitu) { return keyboard->in60(); }
Bitu in64(Bitu, Bitu) { return keyboard->in64(); }
void out(Bitu port, Bitu byte, Bitu) { keyboard->out(uint8_t(port), uint8_t(byte)); }
void tick() { keyboard->tick(); }

// Port 61h isn't the keyboard's, but DOSBox expects it of the same file: the gate of timer 2 and the speaker, which are
// written, and the refresh and the timer, whose bits change from one read to the next.
const unsigned GATE = 0x01, SPEAKER = 0x02, REFRESH = 0x10, TIMER = 0x20;
unsigned port61;

Bitu in61(Bitu, Bitu) { return port61 ^= REFRESH | TIMER; }

void out61(Bitu, Bitu byte, Bitu) {
    unsigned changed = port61 ^ unsigned(byte);
    port61 = unsigned(byte);
    if (changed & GATE) TIMER_SetGate2(byte & GATE);
    if (changed & (GATE | SPEAKER)) PCSPEAKER_SetType(byte & (GATE | SPEAKER));
}

} // namespace

void KEYBOARD_AddKey(KBD_KEYS key, bool down) {
    if (keyboard) keyboard->key(key, down);
}

// DOSBox calls this when its window loses the keys.
void KEYBOARD_ClrBuffer() {
    if (keyboard) keyboard->release_all();
}

void KEYBOARD_Init(Section *) {
    const char *layout = std::getenv("KBD48_LAYOUT"), *log = std::getenv("KBD48_LOG"), *irq = std::getenv("KBD48_IRQ");
    try {
        if (!layout) throw std::runtime_error("KBD48_LAYOUT names no layout");
        std::FILE *file = log ? std::fopen(log, "w") : nullptr;
        keyboard.reset(new Keyboard(text_of(layout), irq && !std::strcmp(irq, "level"), file));
    } catch (const std::exception &fault) {
        E_Exit("kbd48: %s", fault.what());
    }
    IO_RegisterReadHandler(0x60, in60, IO_MB);
    IO_RegisterReadHandler(0x61, in61, IO_MB);
    IO_RegisterReadHandler(0x64, in64, IO_MB);
    IO_RegisterWriteHandler(0x60, out, IO_MB);
    IO_RegisterWriteHandler(0x61, out61, IO_MB);
    IO_RegisterWriteHandler(0x64, out, IO_MB);
    TIMER_AddTickHandler(tick);
}
