"""The two wires between an AT keyboard and its PC, in both directions: bytes of the keyboard and of the PC, the PC's holds of
the clock, its requests to send, and what is wrong with a frame."""

from .pd import Decoder
