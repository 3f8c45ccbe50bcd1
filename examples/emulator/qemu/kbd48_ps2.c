/* The keyboard alone at QEMU 7.2's own keyboard controller: this file takes the place of QEMU's hw/input/ps2.c, which must be
   beside it as qemu_ps2.c. QEMU's controller gets whole bytes, so the two wires end here (host_end.h). The environment says:
       KBD48_LAYOUT  the layout file of the keyboard, for the places of its keys
       KBD48_IMAGE   its program memory, 2,048 bytes
       KBD48_HELP    `seabios`: the byte after F0 is acknowledged. What the guest sees then isn't the machine's */
#include "qemu/osdep.h"
#include "hw/input/ps2.h"

/* QEMU's file has the queue of bytes, their translation, and the mouse. Its keyboard gets another name, and no bytes. */
#undef TYPE_PS2_KBD_DEVICE
#define TYPE_PS2_KBD_DEVICE "qemu-ps2-kbd"
#define ps2_write_keyboard qemu_write_keyboard
#include "qemu_ps2.c"
#undef ps2_write_keyboard

#include "qapi/error.h"

#include "host_end.h"
#include "kbd48.h"
#include "kbd48_clock.h"
#include "kbd48_halves.h"
#include "kbd48_names.h"
#include "key_edges.h"

enum {
    SELF_TEST_CYCLES = 400000, /* more than the test at power-on takes */
    NO_PLACE = 0xFF,
    CHOOSE_SCAN_SET = 0xF0,    /* commands of the keyboard */
    NO_EFFECT = 0xEF,
    RESEND = 0xFE
};

typedef struct {
    PS2KbdState *port; /* QEMU's end: the queue of bytes */
    uint8_t places[Q_KEY_CODE__MAX];
    bool help_seabios;

    kbd48_keyboard board;
    host_end end;
    key_edges edges;
    kbd48_clock clock;
    uint64_t now; /* the cycle */
    uint8_t last_byte;
    kbd48_keyboard_saved saved;
} Kbd48Keyboard;

/* A PC has one keyboard. */
static Kbd48Keyboard keyboard = {.board = KBD48_NO_KEYBOARD, .end = HOST_END};

static uint32_t wires(Kbd48Keyboard *k)
{
    return kbd48_keyboard_drive(&k->board) & host_end_drive(&k->end);
}

/* One cycle at the host's end. While a byte waits for the guest, the keyboard is held off. */
static void host_cycle(Kbd48Keyboard *k)
{
    uint32_t levels = wires(k);
    int came;

    host_end_hold(&k->end, !ps2_queue_empty(PS2_DEVICE(k->port)));
    came = host_end_look(&k->end, levels);
    if (came == HOST_END_DAMAGED) {
        host_end_send(&k->end, RESEND);
    } else if (came != HOST_END_NOTHING) {
        ps2_put_keycode(k->port, came);
    }
    if (levels != KBD48_RELEASED) {
        k->clock.last = k->now;
    }
    k->now++;
}

/* One step of the keyboard's processor. Returns false if it is stuck. */
static bool step(Kbd48Keyboard *k)
{
    key_edge edge;
    uint32_t cycles;

    if (key_edges_take(&k->edges, k->now, &edge)) {
        kbd48_keyboard_key(&k->board, edge.place, edge.down);
    }
    cycles = kbd48_keyboard_step(&k->board, wires(k));
    for (uint32_t i = 0; i < cycles; i++) {
        host_cycle(k);
    }
    return cycles > 0;
}

static void run_to(Kbd48Keyboard *k, uint64_t goal)
{
    while (k->now < goal && step(k)) {
    }
}

static void timer_due(void *opaque)
{
    Kbd48Keyboard *k = opaque;

    run_to(k, kbd48_clock_goal(&k->clock, k->now));
    kbd48_clock_later(&k->clock, k->now, key_edges_idle(&k->edges));
}

/* The controller has a byte for the keyboard. */
void ps2_write_keyboard(PS2KbdState *port, int byte)
{
    Kbd48Keyboard *k = &keyboard;

    run_to(k, kbd48_clock_goal(&k->clock, k->now));
    if (k->help_seabios && k->last_byte == CHOOSE_SCAN_SET) {
        byte = NO_EFFECT;
    }
    k->last_byte = byte;
    host_end_send(&k->end, byte);
    kbd48_clock_acted(&k->clock, k->now);
}

static void key_event(DeviceState *device, QemuConsole *console, InputEvent *event)
{
    Kbd48Keyboard *k = &keyboard;
    InputKeyEvent *key = event->u.key.data;
    uint8_t place = k->places[qemu_input_key_value_to_qcode(key->key)];

    if (place != NO_PLACE) {
        run_to(k, kbd48_clock_goal(&k->clock, k->now));
        key_edges_push(&k->edges, place, key->down);
        kbd48_clock_acted(&k->clock, k->now);
    }
}

static QemuInputHandler handler = { .name = "kbd48", .mask = INPUT_EVENT_MASK_KEY, .event = key_event };

static int pre_save(void *opaque)
{
    Kbd48Keyboard *k = opaque;

    kbd48_keyboard_save(&k->board, &k->saved);
    return 0;
}

static int post_load(void *opaque, int version)
{
    Kbd48Keyboard *k = opaque;

    if (!host_end_is_sound(&k->end) || !key_edges_are_sound(&k->edges) || !kbd48_keyboard_load(&k->board, &k->saved)) {
        return -EINVAL;
    }
    kbd48_clock_later(&k->clock, k->now, false);
    return 0;
}

static const VMStateDescription vmstate = {
    .name = "kbd48-keyboard",
    .version_id = 1,
    .minimum_version_id = 1,
    .pre_save = pre_save,
    .post_load = post_load,
    .fields = (VMStateField[]) {
        VMSTATE_BUFFER_UNSAFE(saved, Kbd48Keyboard, 0, sizeof(kbd48_keyboard_saved)),
        VMSTATE_BUFFER_UNSAFE(end, Kbd48Keyboard, 0, sizeof(host_end)),
        VMSTATE_BUFFER_UNSAFE(edges, Kbd48Keyboard, 0, sizeof(key_edges)),
        VMSTATE_UINT64(clock.start, Kbd48Keyboard),
        VMSTATE_UINT64(clock.last, Kbd48Keyboard),
        VMSTATE_UINT64(now, Kbd48Keyboard),
        VMSTATE_UINT8(last_byte, Kbd48Keyboard),
        VMSTATE_END_OF_LIST()
    }
};

/* Finds the keys, and switches the keyboard on. Returns false if a file is missing or has a fault. */
static bool open_board(Kbd48Keyboard *k, const char *layout, const char *image)
{
    g_autofree char *text = NULL, *bytes = NULL;
    gsize length = 0, size = 0;
    kbd48_program program;

    if (!layout || !image || !g_file_get_contents(layout, &text, &length, NULL) ||
        !g_file_get_contents(image, &bytes, &size, NULL) || size != sizeof program.bytes) {
        return false;
    }
    memset(k->places, NO_PLACE, sizeof k->places);
    for (size_t i = 0; i < ARRAY_SIZE(KBD48_NAMES); i++) {
        const char *name = KBD48_NAMES[i].name;
        kbd48_layout_key((const uint8_t *)text, length, (const uint8_t *)name, strlen(name), &k->places[KBD48_NAMES[i].code]);
    }
    memcpy(program.bytes, bytes, size);
    kbd48_keyboard_open(&k->board, &program, 0);
    return true;
}

static void realize(DeviceState *device, Error **errp)
{
    Kbd48Keyboard *k = &keyboard;
    const char *help = getenv("KBD48_HELP");

    k->port = (PS2KbdState *)device;
    k->help_seabios = help && !strcmp(help, "seabios");
    if (!open_board(k, getenv("KBD48_LAYOUT"), getenv("KBD48_IMAGE"))) {
        error_setg(errp, "kbd48: KBD48_LAYOUT names no layout, or KBD48_IMAGE no program memory");
        return;
    }
    run_to(k, SELF_TEST_CYCLES); /* QEMU has no power-on: the test is over. QEMU's reset clears the queue, and so the AA */
    kbd48_clock_open(&k->clock, k->now, timer_due, k);
    qemu_input_handler_register(device, &handler);
    vmstate_register(NULL, 0, &vmstate, k);
}

static void kbd48_class_init(ObjectClass *class, void *data)
{
    DEVICE_CLASS(class)->realize = realize;
}

static const TypeInfo kbd48_info = {
    .name = "ps2-kbd",
    .parent = "qemu-ps2-kbd",
    .class_init = kbd48_class_init
};

static void kbd48_register_types(void)
{
    type_register_static(&kbd48_info);
}

type_init(kbd48_register_types)
