/* The program of the 8049, as it is in a finished file: `firmware/make` finds it by its first eight bytes, and puts a layout's
   there. So a layout is changed without a compiler. */
#ifndef IMAGE_H
#define IMAGE_H
#include <stdint.h>

#include "kbd48_chip.h"

#define IMAGE_FORM 1
typedef struct {
    char mark[8];        /* kbd48img */
    uint32_t form;       /* IMAGE_FORM; a file of another form is refused */
    uint32_t is_kernel;  /* 1: it selects columns in each tick, as the image of a layout does; the watchdog relies on it */
    char board[16];      /* the board's name */
    char layout[96];     /* where the program is from */
    kbd48_program program;
} kbd48_image;

extern const kbd48_image image;
#endif
