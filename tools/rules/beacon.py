"""A decoded frame as the ground station gets it, battery first, with some forty keys; tools/make/samples.py writes it to samples/beacon.bson."""
import struct

from .documents import ARRAY, DOCUMENT, INT32, NULL, doc, element, le, text, with_scope

HEARD = 1794715680000  # when the frame was heard, in milliseconds


def int32(key, n):
    return element(INT32, key, le(n))


def int64(key, n):
    return element(0x12, key, le(n, 8))


def double(key, x):
    return element(0x01, key, struct.pack("<d", x))


def string(key, t):
    return element(0x02, key, text(t))


def boolean(key, b):
    return element(0x08, key, bytes([b]))


def datetime(key, ms):
    return element(0x09, key, le(ms, 8))


def timestamp(key, seconds, increment):
    return element(0x11, key, le(increment) + le(seconds))


def binary(key, subtype, data):
    return element(0x05, key, le(len(data)) + bytes([subtype]) + data)


def inside(key, *elements):
    return element(DOCUMENT, key, doc(*elements))


def array(key, of, values):
    return element(ARRAY, key, doc(*(of(str(i), v) for i, v in enumerate(values))))


def reading(key, heard):
    station, decibel, errors = heard
    return inside(key, string("station", station), double("snr", decibel), int32("errors", errors))


def head():
    return [
        int32("battery", 7412),
        string("call", "DP0FWL"),
        element(0x07, "frame", bytes.fromhex("6af8f3e04657454c00002a17")),
        datetime("heard", HEARD),
        datetime("sent", HEARD - 1840),
        timestamp("pass", HEARD // 1000 - 311, 3),
        int64("uptime", 8640017),
        int32("sequence", 10775),
        boolean("safe", 0),
        element(NULL, "fault"),
    ]


def housekeeping():
    power = [
        int32("battery", 7412),
        int32("current", -310),
        int32("load", 2310),
        array("panels", int32, (1180, 0, 1175, 12)),
        boolean("heater", 1),
    ]
    return [
        inside("power", *power),
        int32("bus_current", 402),
        int32("solar_current", 1236),
        double("temp_battery", 4.5),
        double("temp_board", 21.25),
        double("temp_radio", 38.0),
        array("temp_panels", double, (-31.5, 56.25, -28.0, 12.5)),
        int32("mode", 2),
        string("mode_name", "nominal"),
        int32("resets", 7),
        datetime("last_reset", HEARD - 8640017000),
    ]


def attitude():
    quaternion = array("quaternion", double, (0.5, -0.5, 0.5, 0.5))
    return [
        inside("attitude", quaternion, array("rates", double, (0.0625, -0.125, 0.0)), boolean("locked", 1)),
        int32("sun_angle", 1407),
        array("magnetometer", int32, (21874, -3310, 40112)),
        element(0x13, "orbit_minutes", bytes.fromhex("41720100000000000000000000003a30")),
        int32("altitude", 520113),
        double("latitude", 53.109375),
        double("longitude", 8.859375),
    ]


def radio():
    heard = (("Bremen", 11.5, 0), ("Tromsø", 7.25, 3), ("Hōfu", -1.75, 41))
    return [
        int64("frequency", 437_425_000),
        int32("doppler", -7312),
        int32("rssi", -109),
        int32("received", 60211),
        int32("rejected", 18),
        int64("sent_bytes", 5_368_709_121),
        array("receivers", reading, heard),
        element(0x0B, "accepts", b"^DP0(FWL|GVN)$\0i\0"),
        element(0x0E, "coding", text("rs255")),
        element(0x0F, "decoder", with_scope("volts(raw)", doc(int32("scale", 1000)))),
        binary("payload", 0x00, bytes(range(0, 240, 5))),
        binary("signature", 0x80, bytes((7 * i + 3) % 256 for i in range(64))),
        string("note", "Grüße aus 520 km"),
    ]


def beacon():
    return doc(*head(), *housekeeping(), *attitude(), *radio())
