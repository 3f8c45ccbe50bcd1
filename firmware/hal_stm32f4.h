/* Where the ports of an STM32F401 or F411 are. */
#define GPIO 0x40020000u
#define GPIO_SIZE 0x400u
#define GPIO_IN 0x10u
#define GPIO_PUT 0x18u
#include "hal_stm32.h"
