/* What both of our keyboard controllers for QEMU's PC share: numbers, the log, the reset, the entry in the ACPI tables, and the two
   functions that QEMU expects of the file that they replace. */
#ifndef KBD48_ISA_H
#define KBD48_ISA_H
#include "hw/acpi/acpi_aml_interface.h"
#include "hw/input/i8042.h"
#include "hw/irq.h"
#include "hw/isa/isa.h"
#include "qemu/timer.h"
#include "sysemu/runstate.h"

enum {
    WRITE_AGAIN = 64,       /* cycles until a byte that found no room is written again */
    WRITES = 256,           /* 41 ms, longer than a byte to the keyboard takes */
    DATA_PORT = 0x60,
    COMMAND_PORT = 0x64,
    IRQ = 1,
    OUTPUT_FULL = 0x01,     /* of the status */
    ADDRESS_LINE_20 = 0x02, /* of the output port */
    RESET_LINE = 0x01
};

/* The log of the environment's KBD48_LOG, or NULL. */
static inline FILE *kbd48_open_log(void)
{
    const char *name = getenv("KBD48_LOG");

    return name ? fopen(name, "w") : NULL;
}

static inline void kbd48_say(FILE *log, const char *what, unsigned value)
{
    if (log) {
        fprintf(log, "%.2f %s %02X\n", qemu_clock_get_ns(QEMU_CLOCK_VIRTUAL) / 1e6, what, value);
        fflush(log);
    }
}

static inline void kbd48_reset_if_low(unsigned lines)
{
    if (!(lines & RESET_LINE)) {
        qemu_system_reset_request(SHUTDOWN_CAUSE_GUEST_RESET);
    }
}

/* By this entry SeaBIOS and Linux find the keyboard in QEMU's PCI machines. */
static void kbd48_build_aml(AcpiDevAmlIf *device, Aml *scope)
{
    Aml *resources = aml_resource_template(), *keyboard = aml_device("KBD");

    aml_append(resources, aml_io(AML_DECODE16, DATA_PORT, DATA_PORT, 1, 1));
    aml_append(resources, aml_io(AML_DECODE16, COMMAND_PORT, COMMAND_PORT, 1, 1));
    aml_append(resources, aml_irq_no_flags(IRQ));
    aml_append(keyboard, aml_name_decl("_HID", aml_eisaid("PNP0303")));
    aml_append(keyboard, aml_name_decl("_STA", aml_int(0x0F)));
    aml_append(keyboard, aml_name_decl("_CRS", resources));
    aml_append(scope, keyboard);
}

void i8042_setup_a20_line(ISADevice *device, qemu_irq a20)
{
    qdev_connect_gpio_out_named(DEVICE(device), I8042_A20_LINE, 0, a20);
}

/* The board has no mouse. */
void i8042_isa_mouse_fake_event(ISAKBDState *isa)
{
}

#endif
