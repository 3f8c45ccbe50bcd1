/* The keyboard controller alone, with QEMU 7.2's own keyboard: this file takes the place of QEMU's hw/input/pckbd.c. QEMU's
   keyboard gives and takes whole bytes, so it gets an end of the two wires here (keyboard_end.h). The environment says:
       KBD48_LOG  a file that gets the bytes of both ports, A20 and the reset, if it is named */
#include "qemu/osdep.h"
#include "qapi/error.h"
#include "migration/vmstate.h"

#include "kbd48_clock.h"
#include "kbd48_halves.h"
#include "kbd48_isa.h"
#include "keyboard_end.h"

enum { RESEND = 0xFE }; /* the keyboard's answer to a byte that came wrong */

typedef struct {
    ISADevice parent_obj;
    MemoryRegion data, command;
    PS2KbdState keyboard;
    qemu_irq irq, a20;
    FILE *log;

    kbd48_controller controller;
    keyboard_end end;
    kbd48_clock clock;
    uint64_t now;  /* the cycle */
    int16_t later; /* a byte that a byte of the host broke off: it is sent after the answer. Or KEYBOARD_END_NOTHING */
    kbd48_controller_saved saved;
} Kbd48State;

DECLARE_INSTANCE_CHECKER(Kbd48State, KBD48, TYPE_I8042)

/* The next byte of QEMU's keyboard. Answers to commands come first, then a byte that was broken off. */
static int next_byte(Kbd48State *k)
{
    PS2State *port = PS2_DEVICE(&k->keyboard);
    int byte = k->later;

    if (byte != KEYBOARD_END_NOTHING && port->queue.cwptr == -1) {
        k->later = KEYBOARD_END_NOTHING;
        return byte;
    }
    return ps2_queue_empty(port) ? KEYBOARD_END_NOTHING : (int)ps2_read_data(port);
}

/* One cycle at the keyboard's end. */
static void keyboard_cycle(Kbd48State *k, uint32_t levels)
{
    int taken = keyboard_end_look(&k->end, levels);

    if (taken != KEYBOARD_END_NOTHING) {
        int broken = keyboard_end_take_back(&k->end);
        if (broken != KEYBOARD_END_NOTHING) {
            k->later = broken;
        }
        if (taken == KEYBOARD_END_DAMAGED) {
            keyboard_end_send(&k->end, RESEND);
        } else {
            ps2_write_keyboard(&k->keyboard, taken);
        }
    }
    if (k->end.waiting == KEYBOARD_END_NOTHING) {
        int byte = next_byte(k);
        if (byte != KEYBOARD_END_NOTHING) {
            keyboard_end_send(&k->end, byte);
        }
    }
}

/* What the input that the controller took did. */
static void heed(Kbd48State *k, int32_t did)
{
    uint8_t byte = KBD48_DID_BYTE(did);

    switch (KBD48_DID(did)) {
    case KBD48_DID_OUTPUT:
        kbd48_say(k->log, "output port", byte);
        qemu_set_irq(k->a20, (byte & ADDRESS_LINE_20) != 0);
        break;
    case KBD48_DID_PULSE:
        kbd48_say(k->log, "pulse", byte);
        break;
    default:
        return;
    }
    kbd48_reset_if_low(byte);
}

static uint32_t wires(Kbd48State *k)
{
    return keyboard_end_drive(&k->end) & kbd48_controller_drive(&k->controller);
}

/* The first half of a cycle: both look at the wires. Then the host acts. */
static void look(Kbd48State *k)
{
    uint32_t levels = wires(k);

    keyboard_cycle(k, levels);
    levels = wires(k);
    kbd48_controller_look(&k->controller, k->now, levels);
    if (levels != KBD48_RELEASED) {
        k->clock.last = k->now;
    }
}

/* The second half. The interrupt line may have fallen when the host read, and risen again. */
static void settle(Kbd48State *k)
{
    int32_t did = kbd48_controller_settle(&k->controller, k->now++);

    qemu_set_irq(k->irq, kbd48_controller_interrupt(&k->controller));
    heed(k, did);
}

static void run_to(Kbd48State *k, uint64_t goal)
{
    while (k->now < goal) {
        look(k);
        settle(k);
    }
}

static void advance(Kbd48State *k)
{
    run_to(k, kbd48_clock_goal(&k->clock, k->now));
}

static void timer_due(void *opaque)
{
    Kbd48State *k = opaque;

    advance(k);
    kbd48_clock_later(&k->clock, k->now, true);
}

static kbd48_controller_shown shown(Kbd48State *k)
{
    kbd48_controller_shown registers;

    kbd48_controller_registers(&k->controller, &registers);
    return registers;
}

static uint64_t in64(void *opaque, hwaddr address, unsigned size)
{
    advance(opaque);
    return shown(opaque).status;
}

static uint64_t in60(void *opaque, hwaddr address, unsigned size)
{
    Kbd48State *k = opaque;
    uint8_t byte;

    advance(k);
    if (!(shown(k).status & OUTPUT_FULL)) {
        return shown(k).output;
    }
    look(k);
    byte = kbd48_controller_read60(&k->controller);
    qemu_set_irq(k->irq, kbd48_controller_interrupt(&k->controller));
    settle(k);
    kbd48_say(k->log, "in 60", byte);
    kbd48_clock_acted(&k->clock, k->now);
    return byte;
}

/* A byte that finds no room is written again some cycles later: the guest doesn't look, so it waits. */
static void out(Kbd48State *k, bool command, uint8_t byte)
{
    advance(k);
    kbd48_say(k->log, command ? "out 64" : "out 60", byte);
    for (int i = 0; i < WRITES; i++) {
        bool done;
        look(k);
        done = kbd48_controller_write(&k->controller, command, byte);
        settle(k);
        if (done) {
            kbd48_clock_acted(&k->clock, k->now);
            return;
        }
        run_to(k, k->now + WRITE_AGAIN);
    }
    kbd48_say(k->log, "lost", byte);
}

static void out60(void *opaque, hwaddr address, uint64_t value, unsigned size)
{
    out(opaque, false, value);
}

static void out64(void *opaque, hwaddr address, uint64_t value, unsigned size)
{
    out(opaque, true, value);
}

/* QEMU's keyboard has a byte. */
static void keyboard_irq(void *opaque, int number, int level)
{
    Kbd48State *k = opaque;

    if (level) {
        kbd48_clock_acted(&k->clock, k->now);
    }
}

static int pre_save(void *opaque)
{
    Kbd48State *k = opaque;

    kbd48_controller_save(&k->controller, &k->saved);
    return 0;
}

static int post_load(void *opaque, int version)
{
    Kbd48State *k = opaque;

    if (!keyboard_end_is_sound(&k->end) || !kbd48_controller_load(&k->controller, &k->saved)) {
        return -EINVAL;
    }
    kbd48_clock_later(&k->clock, k->now, false);
    return 0;
}

static const VMStateDescription vmstate = {
    .name = "kbd48-controller",
    .version_id = 1,
    .minimum_version_id = 1,
    .pre_save = pre_save,
    .post_load = post_load,
    .fields = (VMStateField[]) {
        VMSTATE_BUFFER_UNSAFE(saved, Kbd48State, 0, sizeof(kbd48_controller_saved)),
        VMSTATE_BUFFER_UNSAFE(end, Kbd48State, 0, sizeof(keyboard_end)),
        VMSTATE_UINT64(clock.start, Kbd48State),
        VMSTATE_UINT64(clock.last, Kbd48State),
        VMSTATE_UINT64(now, Kbd48State),
        VMSTATE_INT16(later, Kbd48State),
        VMSTATE_END_OF_LIST()
    }
};

static void realize(DeviceState *device, Error **errp)
{
    Kbd48State *k = KBD48(device);

    k->log = kbd48_open_log();
    k->end = (keyboard_end) KEYBOARD_END;
    k->later = KEYBOARD_END_NOTHING;
    kbd48_controller_reset(&k->controller);
    if (!sysbus_realize(SYS_BUS_DEVICE(&k->keyboard), errp)) {
        return;
    }
    qdev_connect_gpio_out(DEVICE(&k->keyboard), PS2_DEVICE_IRQ, qdev_get_gpio_in(device, 0));
    isa_connect_gpio_out(ISA_DEVICE(device), 0, IRQ);
    isa_register_ioport(ISA_DEVICE(device), &k->data, DATA_PORT);
    isa_register_ioport(ISA_DEVICE(device), &k->command, COMMAND_PORT);
    kbd48_clock_open(&k->clock, k->now, timer_due, k);
}

static const MemoryRegionOps data_port = {
    .read = in60, .write = out60, .impl = { .min_access_size = 1, .max_access_size = 1 }
};
static const MemoryRegionOps command_port = {
    .read = in64, .write = out64, .impl = { .min_access_size = 1, .max_access_size = 1 }
};

static void init(Object *object)
{
    Kbd48State *k = KBD48(object);

    memory_region_init_io(&k->data, object, &data_port, k, "kbd48-data", 1);
    memory_region_init_io(&k->command, object, &command_port, k, "kbd48-command", 1);
    object_initialize_child(object, "ps2kbd", &k->keyboard, TYPE_PS2_KBD_DEVICE);
    qdev_init_gpio_out_named(DEVICE(object), &k->a20, I8042_A20_LINE, 1);
    qdev_init_gpio_out(DEVICE(object), &k->irq, 1);
    qdev_init_gpio_in(DEVICE(object), keyboard_irq, 1);
}

static void class_init(ObjectClass *class, void *data)
{
    DeviceClass *device = DEVICE_CLASS(class);

    device->realize = realize;
    device->vmsd = &vmstate;
    set_bit(DEVICE_CATEGORY_INPUT, device->categories);
    ACPI_DEV_AML_IF_CLASS(class)->build_dev_aml = kbd48_build_aml;
}

static const TypeInfo info = {
    .name = TYPE_I8042,
    .parent = TYPE_ISA_DEVICE,
    .instance_size = sizeof(Kbd48State),
    .instance_init = init,
    .class_init = class_init,
    .interfaces = (InterfaceInfo[]) {{TYPE_ACPI_DEV_AML_IF}, {}}
};

static void register_types(void)
{
    type_register_static(&info);
}

type_init(register_types)
