/* Where the ports of an STM32F103 are. */
#define GPIO 0x40010800u
#define GPIO_SIZE 0x400u
#define GPIO_IN 0x08u
#define GPIO_PUT 0x10u
#include "hal_stm32.h"
