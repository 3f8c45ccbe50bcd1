/* The keyboard and the keyboard controller of QEMU 7.2's PC, made of the library: this file takes the place of QEMU's
   hw/input/pckbd.c. The environment says:
       KBD48_LAYOUT  the layout file of the keyboard
       KBD48_LOG     a file that gets the bytes of both ports, the lights, A20 and the reset, if it is named
       KBD48_HELP    the BIOS that gets help, `seabios` or `bochs`. What the guest sees then isn't the machine's */
#include "qemu/osdep.h"
#include "qapi/error.h"
#include "migration/vmstate.h"

#include "kbd48.h"
#include "kbd48_clock.h"
#include "kbd48_isa.h"
#include "kbd48_names.h"

enum {
    SECOND = 400000,           /* in cycles */
    WRITE_COMMAND_BYTE = 0x60, /* commands of the controller with a parameter */
    WRITE_OUTPUT_PORT = 0xD1,
    CHOOSE_SCAN_SET = 0xF0,    /* commands of the keyboard, and its answer */
    SELF_TEST = 0xFF,
    NO_EFFECT = 0xEF,
    ACKNOWLEDGED = 0xFA,
    NO_PLACE = 0xFF
};

typedef struct {
    ISADevice parent_obj;
    MemoryRegion data, command;
    qemu_irq irq, a20;
    uint8_t places[Q_KEY_CODE__MAX];
    FILE *log;
    bool help_seabios, help_bochs;

    kbd48 board;
    kbd48_keys keys;
    kbd48_clock clock;
    bool parameter;    /* the controller takes the next byte for port 60h */
    uint8_t last_byte; /* the last byte for the keyboard */
    uint8_t saved[KBD48_SAVED], saved_keys[sizeof(kbd48_keys)];
} Kbd48State;

DECLARE_INSTANCE_CHECKER(Kbd48State, KBD48, TYPE_I8042)

static uint64_t cycle(Kbd48State *k)
{
    uint64_t at = 0;

    kbd48_cycle(&k->board, &at);
    return at;
}

static kbd48_registers registers(Kbd48State *k)
{
    kbd48_registers r = {0};

    kbd48_look(&k->board, &r);
    return r;
}

static void heed(Kbd48State *k, const kbd48_item *item)
{
    k->clock.last = item->cycle;
    switch (item->kind) {
    case KBD48_ITEM_READ:
        kbd48_say(k->log, "in 60", item->value);
        break;
    case KBD48_ITEM_LIGHTS:
        kbd48_say(k->log, "lights", item->value);
        break;
    case KBD48_ITEM_OUTPUT:
        kbd48_say(k->log, "output port", item->value);
        qemu_set_irq(k->a20, (item->value & ADDRESS_LINE_20) != 0);
        kbd48_reset_if_low(item->value);
        break;
    case KBD48_ITEM_PULSE:
        kbd48_say(k->log, "pulse", item->value);
        kbd48_reset_if_low(item->value);
        break;
    }
}

/* After each call that makes a step: the interrupt line, which may have fallen and risen in it, and what happened. */
static void stepped(Kbd48State *k)
{
    bool up = false;
    uint64_t rises = 0;
    kbd48_item item;

    kbd48_interrupt(&k->board, &up);
    kbd48_rises(&k->board, &rises);
    if (rises > 0) {
        qemu_irq_lower(k->irq);
    }
    qemu_set_irq(k->irq, up);
    for (int32_t status; (status = kbd48_next(&k->board, &item)) != KBD48_NOTHING_SAID;) {
        if (status == KBD48_DONE) {
            heed(k, &item);
        }
    }
}

/* Runs the keyboard, which gets each edge that is due. */
static void run(Kbd48State *k, uint64_t cycles)
{
    int32_t status = KBD48_KEY_DUE;
    uint64_t passed = 0;
    kbd48_spot spot;

    for (; status == KBD48_KEY_DUE; cycles -= passed) {
        status = kbd48_run_keys(&k->board, &k->keys, cycles, false, &passed, &spot);
        stepped(k);
    }
}

/* The keyboard goes on to QEMU's time. What a call runs too far is taken off the next. */
static void advance(Kbd48State *k)
{
    uint64_t now = cycle(k), goal = kbd48_clock_goal(&k->clock, now);

    if (now < goal) {
        run(k, goal - now);
    }
}

static void acted(Kbd48State *k)
{
    kbd48_clock_acted(&k->clock, cycle(k));
}

static void run_later(Kbd48State *k)
{
    uint8_t count = 0;

    kbd48_queued(&k->keys, &count);
    kbd48_clock_later(&k->clock, cycle(k), count == 0 && !memchr(k->keys.down, true, sizeof k->keys.down));
}

static void timer_due(void *opaque)
{
    advance(opaque);
    run_later(opaque);
}

static uint64_t in64(void *opaque, hwaddr address, unsigned size)
{
    advance(opaque);
    return registers(opaque).status;
}

/* The keyboard's self-test after FF takes the guest no time. */
static void end_self_test(Kbd48State *k)
{
    uint64_t passed = 0;
    kbd48_spot spot;

    kbd48_run(&k->board, SECOND, true, &passed, &spot);
    k->clock.start += passed;
    stepped(k);
}

static uint64_t in60(void *opaque, hwaddr address, unsigned size)
{
    Kbd48State *k = opaque;
    kbd48_registers shown;

    advance(k);
    shown = registers(k);
    if (shown.status & OUTPUT_FULL) {
        kbd48_read60(&k->board, &shown.output);
        stepped(k);
        if (k->help_bochs && k->last_byte == SELF_TEST && shown.output == ACKNOWLEDGED) {
            end_self_test(k);
        }
        acted(k);
    }
    return shown.output;
}

/* A byte that finds no room is written again some cycles later: the guest doesn't look, so it waits. */
static void out(Kbd48State *k, uint8_t port, uint8_t byte)
{
    for (int i = 0; i < WRITES; i++) {
        if (kbd48_write(&k->board, port, byte) == KBD48_DONE) {
            stepped(k);
            acted(k);
            return;
        }
        run(k, WRITE_AGAIN);
    }
    kbd48_say(k->log, "lost", byte);
}

static void out60(void *opaque, hwaddr address, uint64_t value, unsigned size)
{
    Kbd48State *k = opaque;
    uint8_t byte = value;

    advance(k);
    kbd48_say(k->log, "out 60", byte);
    if (!k->parameter) {
        if (k->help_seabios && k->last_byte == CHOOSE_SCAN_SET) {
            byte = NO_EFFECT;
        }
        k->last_byte = byte;
    }
    k->parameter = false;
    out(k, DATA_PORT, byte);
}

static void out64(void *opaque, hwaddr address, uint64_t value, unsigned size)
{
    Kbd48State *k = opaque;

    advance(k);
    kbd48_say(k->log, "out 64", value);
    k->parameter = value == WRITE_COMMAND_BYTE || value == WRITE_OUTPUT_PORT;
    out(k, COMMAND_PORT, value);
}

/* The queue of edges sees to order and time, and leaves out the repeats of the window system. */
static void key_event(DeviceState *device, QemuConsole *console, InputEvent *event)
{
    Kbd48State *k = KBD48(device);
    InputKeyEvent *key = event->u.key.data;
    uint8_t place = k->places[qemu_input_key_value_to_qcode(key->key)];

    if (place != NO_PLACE) {
        advance(k);
        if (kbd48_queue_key(&k->keys, cycle(k), place, key->down) == KBD48_FULL) {
            kbd48_say(k->log, "no room", place);
        }
        acted(k);
    }
}

static QemuInputHandler handler = { .name = "kbd48", .mask = INPUT_EVENT_MASK_KEY, .event = key_event };

static int pre_save(void *opaque)
{
    Kbd48State *k = opaque;

    memcpy(k->saved_keys, &k->keys, sizeof k->keys);
    return kbd48_save(&k->board, k->saved, sizeof k->saved) == KBD48_DONE ? 0 : -EINVAL;
}

/* Whether the queue is one that its calls make. */
static bool keys_are_sound(const kbd48_keys *keys)
{
    bool sound = keys->count <= ARRAY_SIZE(keys->edges);

    for (size_t i = 0; i < ARRAY_SIZE(keys->edges); i++) {
        sound = sound && keys->edges[i].place < ARRAY_SIZE(keys->down);
    }
    return sound;
}

static int post_load(void *opaque, int version)
{
    Kbd48State *k = opaque;

    memcpy(&k->keys, k->saved_keys, sizeof k->keys);
    if (!keys_are_sound(&k->keys) || kbd48_load(&k->board, k->saved, sizeof k->saved) != KBD48_DONE) {
        return -EINVAL;
    }
    run_later(k);
    return 0;
}

static const VMStateDescription vmstate = {
    .name = "kbd48",
    .version_id = 1,
    .minimum_version_id = 1,
    .pre_save = pre_save,
    .post_load = post_load,
    .fields = (VMStateField[]) {
        VMSTATE_UINT8_ARRAY(saved, Kbd48State, KBD48_SAVED),
        VMSTATE_UINT8_ARRAY(saved_keys, Kbd48State, sizeof(kbd48_keys)),
        VMSTATE_UINT64(clock.start, Kbd48State),
        VMSTATE_UINT64(clock.last, Kbd48State),
        VMSTATE_BOOL(parameter, Kbd48State),
        VMSTATE_UINT8(last_byte, Kbd48State),
        VMSTATE_END_OF_LIST()
    }
};

/* QEMU has no power-on: the guest gets a keyboard that has tested itself, and whose AA was read. */
static bool open_board(Kbd48State *k, const uint8_t *text, size_t length)
{
    kbd48_fault fault;
    uint8_t byte;

    if (kbd48_open_ready_layout(text, length, &k->board, &fault) != KBD48_DONE) {
        return false;
    }
    memset(k->places, NO_PLACE, sizeof k->places);
    for (size_t i = 0; i < ARRAY_SIZE(KBD48_NAMES); i++) {
        const char *name = KBD48_NAMES[i].name;
        kbd48_layout_key(text, length, (const uint8_t *)name, strlen(name), &k->places[KBD48_NAMES[i].code]);
    }
    kbd48_read60(&k->board, &byte);
    stepped(k);
    return true;
}

static void realize(DeviceState *device, Error **errp)
{
    Kbd48State *k = KBD48(device);
    const char *layout = getenv("KBD48_LAYOUT"), *help = getenv("KBD48_HELP");
    g_autofree char *text = NULL;
    gsize length = 0;

    if (!layout || !g_file_get_contents(layout, &text, &length, NULL) || !open_board(k, (const uint8_t *)text, length)) {
        error_setg(errp, "kbd48: KBD48_LAYOUT names no layout");
        return;
    }
    k->log = kbd48_open_log();
    k->help_seabios = help && !strcmp(help, "seabios");
    k->help_bochs = help && !strcmp(help, "bochs");
    isa_connect_gpio_out(ISA_DEVICE(device), 0, IRQ);
    isa_register_ioport(ISA_DEVICE(device), &k->data, DATA_PORT);
    isa_register_ioport(ISA_DEVICE(device), &k->command, COMMAND_PORT);
    qemu_input_handler_register(device, &handler);
    kbd48_clock_open(&k->clock, cycle(k), timer_due, k);
}

static const MemoryRegionOps data_port = {
    .read = in60, .write = out60, .impl = { .min_access_size = 1, .max_access_size = 1 }
};
static const MemoryRegionOps command_port = {
    .read = in64, .write = out64, .impl = { .min_access_size = 1, .max_access_size = 1 }
};

static void init(Object *object)
{
    Kbd48State *k = KBD48(object);

    memory_region_init_io(&k->data, object, &data_port, k, "kbd48-data", 1);
    memory_region_init_io(&k->command, object, &command_port, k, "kbd48-command", 1);
    qdev_init_gpio_out_named(DEVICE(object), &k->a20, I8042_A20_LINE, 1);
    qdev_init_gpio_out(DEVICE(object), &k->irq, 1);
}

static void class_init(ObjectClass *class, void *data)
{
    DeviceClass *device = DEVICE_CLASS(class);

    device->realize = realize;
    device->vmsd = &vmstate;
    set_bit(DEVICE_CATEGORY_INPUT, device->categories);
    ACPI_DEV_AML_IF_CLASS(class)->build_dev_aml = kbd48_build_aml;
}

static const TypeInfo info = {
    .name = TYPE_I8042,
    .parent = TYPE_ISA_DEVICE,
    .instance_size = sizeof(Kbd48State),
    .instance_init = init,
    .class_init = class_init,
    .interfaces = (InterfaceInfo[]) {{TYPE_ACPI_DEV_AML_IF}, {}}
};

static void register_types(void)
{
    type_register_static(&info);
}

type_init(register_types)
