/* A key's name in QEMU and in a layout file. The board of 84 keys has no grey keys: those of its keypad send the same. */
#ifndef KBD48_NAMES_H
#define KBD48_NAMES_H

#include "ui/input.h"

static const struct {
    QKeyCode code;
    const char *name;
} KBD48_NAMES[] = {
    {Q_KEY_CODE_GRAVE_ACCENT, "grave"}, {Q_KEY_CODE_1, "1"}, {Q_KEY_CODE_2, "2"}, {Q_KEY_CODE_3, "3"},
    {Q_KEY_CODE_4, "4"}, {Q_KEY_CODE_5, "5"}, {Q_KEY_CODE_6, "6"}, {Q_KEY_CODE_7, "7"}, {Q_KEY_CODE_8, "8"},
    {Q_KEY_CODE_9, "9"}, {Q_KEY_CODE_0, "0"}, {Q_KEY_CODE_MINUS, "minus"}, {Q_KEY_CODE_EQUAL, "equal"},
    {Q_KEY_CODE_BACKSLASH, "backslash"}, {Q_KEY_CODE_BACKSPACE, "backspace"}, {Q_KEY_CODE_TAB, "tab"},
    {Q_KEY_CODE_Q, "q"}, {Q_KEY_CODE_W, "w"}, {Q_KEY_CODE_E, "e"}, {Q_KEY_CODE_R, "r"}, {Q_KEY_CODE_T, "t"},
    {Q_KEY_CODE_Y, "y"}, {Q_KEY_CODE_U, "u"}, {Q_KEY_CODE_I, "i"}, {Q_KEY_CODE_O, "o"}, {Q_KEY_CODE_P, "p"},
    {Q_KEY_CODE_BRACKET_LEFT, "lbracket"}, {Q_KEY_CODE_BRACKET_RIGHT, "rbracket"},
    {Q_KEY_CODE_A, "a"}, {Q_KEY_CODE_S, "s"}, {Q_KEY_CODE_D, "d"}, {Q_KEY_CODE_F, "f"}, {Q_KEY_CODE_G, "g"},
    {Q_KEY_CODE_H, "h"}, {Q_KEY_CODE_J, "j"}, {Q_KEY_CODE_K, "k"}, {Q_KEY_CODE_L, "l"},
    {Q_KEY_CODE_SEMICOLON, "semicolon"}, {Q_KEY_CODE_APOSTROPHE, "quote"}, {Q_KEY_CODE_RET, "enter"},
    {Q_KEY_CODE_Z, "z"}, {Q_KEY_CODE_X, "x"}, {Q_KEY_CODE_C, "c"}, {Q_KEY_CODE_V, "v"}, {Q_KEY_CODE_B, "b"},
    {Q_KEY_CODE_N, "n"}, {Q_KEY_CODE_M, "m"}, {Q_KEY_CODE_COMMA, "comma"}, {Q_KEY_CODE_DOT, "period"},
    {Q_KEY_CODE_SLASH, "slash"}, {Q_KEY_CODE_SPC, "space"},
    {Q_KEY_CODE_SHIFT, "lshift"}, {Q_KEY_CODE_SHIFT_R, "rshift"}, {Q_KEY_CODE_CTRL, "ctrl"}, {Q_KEY_CODE_CTRL_R, "ctrl"},
    {Q_KEY_CODE_ALT, "alt"}, {Q_KEY_CODE_ALT_R, "alt"},
    {Q_KEY_CODE_CAPS_LOCK, "caps"}, {Q_KEY_CODE_NUM_LOCK, "num"}, {Q_KEY_CODE_SCROLL_LOCK, "scroll"},
    {Q_KEY_CODE_ESC, "esc"}, {Q_KEY_CODE_SYSRQ, "sysreq"},
    {Q_KEY_CODE_F1, "f1"}, {Q_KEY_CODE_F2, "f2"}, {Q_KEY_CODE_F3, "f3"}, {Q_KEY_CODE_F4, "f4"}, {Q_KEY_CODE_F5, "f5"},
    {Q_KEY_CODE_F6, "f6"}, {Q_KEY_CODE_F7, "f7"}, {Q_KEY_CODE_F8, "f8"}, {Q_KEY_CODE_F9, "f9"}, {Q_KEY_CODE_F10, "f10"},
    {Q_KEY_CODE_KP_7, "kp7"}, {Q_KEY_CODE_KP_8, "kp8"}, {Q_KEY_CODE_KP_9, "kp9"}, {Q_KEY_CODE_KP_4, "kp4"},
    {Q_KEY_CODE_KP_5, "kp5"}, {Q_KEY_CODE_KP_6, "kp6"}, {Q_KEY_CODE_KP_1, "kp1"}, {Q_KEY_CODE_KP_2, "kp2"},
    {Q_KEY_CODE_KP_3, "kp3"}, {Q_KEY_CODE_KP_0, "kp0"}, {Q_KEY_CODE_KP_DECIMAL, "kpdot"},
    {Q_KEY_CODE_KP_SUBTRACT, "kpminus"}, {Q_KEY_CODE_KP_ADD, "kpplus"}, {Q_KEY_CODE_KP_MULTIPLY, "prtsc"},
    {Q_KEY_CODE_PRINT, "prtsc"}, {Q_KEY_CODE_KP_DIVIDE, "slash"}, {Q_KEY_CODE_KP_ENTER, "enter"},
    {Q_KEY_CODE_HOME, "kp7"}, {Q_KEY_CODE_UP, "kp8"}, {Q_KEY_CODE_PGUP, "kp9"}, {Q_KEY_CODE_LEFT, "kp4"},
    {Q_KEY_CODE_RIGHT, "kp6"}, {Q_KEY_CODE_END, "kp1"}, {Q_KEY_CODE_DOWN, "kp2"}, {Q_KEY_CODE_PGDN, "kp3"},
    {Q_KEY_CODE_INSERT, "kp0"}, {Q_KEY_CODE_DELETE, "kpdot"},
};

#endif
