/* The program's place in the file, still empty. Compiled apart from main.c, which so can't rely on what it holds. */
#include "image.h"
#include "pins.h"

__attribute__((section(".image"), used)) const kbd48_image image = {.mark = {'k', 'b', 'd', '4', '8', 'i', 'm', 'g'},
    .form = IMAGE_FORM, .is_kernel = 1, .board = BOARD_NAME};
