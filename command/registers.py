"""The registers: names, the bits that a write can change, bytes after power, and the fields that are followed here."""
import collections

Register = collections.namedtuple("Register", "name mask reset")
CHANNELS = ("local", "remote 1", "remote 2")
CONFIG1, CONFIG2, STATUS = 0x00, 0x01, (0x02, 0x03)
OFFSETS = (0x0D, 0x0E, 0x0F)  # of the channels
TACH_LIMIT, CHARACTERISTICS = (0x10, 0x11), (0x20, 0x21)  # of fan 1, fan 2
HIGH, LOW, THERM = (0x14, 0x18, 0x1C), (0x15, 0x19, 0x1D), (0x16, 0x1A, 0x1E)  # limits of the channels
LIMITS = (*HIGH, *LOW, *THERM)
SPIN_UP = (2, 4, 6, 8, 10, 20, 40, 80)  # clock events, by bits 2:0 of the characteristics
RESET_BIT = 0x80  # of Configuration 2

REGISTERS = {
    0x00: Register("Configuration 1", 0xFF, 0x90),
    0x01: Register("Configuration 2", 0x7F, 0x7F),
    0x02: Register("Status 1", 0x00, 0x00),
    0x03: Register("Status 2", 0x00, 0x00),
    0x06: Register("Extended resolution", 0x00, 0x00),
    0x07: Register("Test", 0xFF, 0x00),
    0x08: Register("Fan 1 speed", 0xFF, 0x00),
    0x09: Register("Fan 2 speed", 0xFF, 0x00),
    0x0A: Register("Local temperature", 0x00, 0x00),
    0x0B: Register("Remote 1 temperature", 0x00, 0x00),
    0x0C: Register("Remote 2 temperature", 0x00, 0x00),
    0x0D: Register("Local offset", 0xFF, 0x00),
    0x0E: Register("Remote 1 offset", 0x8F, 0x00),
    0x0F: Register("Remote 2 offset", 0x8F, 0x00),
    0x10: Register("Fan 1 tach limit", 0xFF, 0xFF),
    0x11: Register("Fan 2 tach limit", 0xFF, 0xFF),
    0x14: Register("Local high limit", 0xFF, 60),
    0x15: Register("Local low limit", 0xFF, 0),
    0x16: Register("Local THERM limit", 0xFF, 70),
    0x18: Register("Remote 1 high limit", 0xFF, 80),
    0x19: Register("Remote 1 low limit", 0xFF, 0),
    0x1A: Register("Remote 1 THERM limit", 0xFF, 100),
    0x1C: Register("Remote 2 high limit", 0xFF, 80),
    0x1D: Register("Remote 2 low limit", 0xFF, 0),
    0x1E: Register("Remote 2 THERM limit", 0xFF, 100),
    0x20: Register("Fan 1 characteristics", 0xFF, 0x5D),
    0x21: Register("Fan 2 characteristics", 0xFF, 0x5D),
    0x22: Register("Fan speeds", 0xFF, 0x55),
    0x23: Register("Fan filter", 0xFF, 0x50),
    0x24: Register("Local Tmin/range", 0xFF, 0x41),
    0x25: Register("Remote 1 Tmin/range", 0xFF, 0x61),
    0x26: Register("Remote 2 Tmin/range", 0xFF, 0x61),
    0x3D: Register("Device ID", 0x00, 0x31),
    0x3E: Register("Company ID", 0x00, 0x41),
    0x3F: Register("THERM behaviour", 0xF0, 0x80),
}


def degrees(byte):
    """A limit's byte, in two's complement."""
    return byte - 256 if byte > 127 else byte


def offset_degrees(byte):
    """An offset's byte: 0 to 15 in bits 3:0, subtracted where bit 7 is set; no two's complement, and bits 6:4 are no part of it."""
    return -(byte & 0x0F) if byte & 0x80 else byte & 0x0F


def tach_enabled(fan, byte):
    return byte >> 2 + fan & 1


def channel_enabled(channel, byte):
    return byte >> 4 + channel & 1
