#!/usr/bin/env python3
"""make_take.py SECONDS: a raw file on standard output, a packet for each second, laid out as a camera of the HERO10 kind does it.

The take is made up; every number follows from what stands here."""
import pathlib
import random
import sys

sys.dont_write_bytecode = True  # nothing is left in samples/
sys.path.insert(0, str(pathlib.Path(__file__).resolve().parent.parent / "samples"))
from make import container, numbers, text  # noqa: E402

SEED = 1


def scale(*divisors):
    return numbers("SCAL", "s", 1, divisors)


# ---- the take

class Camera:
    def __init__(self):
        self.chance = random.Random(SEED)
        self.totals = {}

    def between(self, low, high):
        """Drawn by random() alone: what the other methods of that class draw may differ between versions of Python."""
        return low + (high - low) * self.chance.random()

    def stream(self, second, name, key, letter, columns, rate, low, high, *about):
        """A stream of about `rate` readings, with the items that tell about them in front."""
        count = rate + int(self.between(-1, 2))
        total = self.totals[key] = self.totals.get(key, 0) + count
        values = [self.between(low, high) for _ in range(count * columns)]
        readings = numbers(key, letter, columns, values if letter == "f" else [int(value) for value in values])
        stamp = numbers("STMP", "J", 1, [second * 1_001_000 + int(self.between(0, 900))])
        return container("STRM", stamp, numbers("TSMP", "L", 1, [total]), text("STNM", name), *about, readings, size=4)

    def packet(self, second):
        axes = (numbers("MTRX", "f", 9, [0, 1, 0, 0, 0, -1, 1, 0, 0]), text("ORIN", "YxZ"), text("ORIO", "ZXY"))
        gps_scale = numbers("SCAL", "l", 1, [10000000, 10000000, 1000, 1000, 100])
        streams = (
            ("Accelerometer", "ACCL", "s", 3, 200, -9000, 9000, text("SIUN", "m/s\xb2"), scale(417), *axes),
            ("Gyroscope", "GYRO", "s", 3, 200, -9000, 9000, text("SIUN", "rad/s"), scale(939), *axes),
            ("Exposure time (shutter speed)", "SHUT", "f", 1, 30, 0.0002, 0.02, text("SIUN", "s")),
            ("White Balance temperature (Kelvin)", "WBAL", "S", 1, 30, 3000, 7000),
            ("White Balance RGB gains", "WRGB", "f", 3, 30, 0.5, 3.0),
            ("Sensor ISO", "ISOE", "S", 1, 30, 100, 3200),
            ("Image uniformity", "UNIF", "f", 1, 30, 0.0, 1.0),
            ("CameraOrientation", "CORI", "s", 4, 30, -32767, 32767, scale(32767)),
            ("ImageOrientation", "IORI", "s", 4, 30, -32767, 32767, scale(32767)),
            ("Gravity Vector", "GRAV", "s", 3, 30, -32767, 32767, scale(32767)),
            ("Wind Processing", "WNDM", "B", 2, 10, 0, 2),
            ("Microphone Wet", "MWET", "B", 3, 10, 0, 101),
            ("AGC audio level", "AALP", "b", 2, 10, -60, 0, text("SIUN", "dBFS"), scale(1, 1)),
            ("GPS (Lat., Long., Alt., 2D speed, 3D speed)", "GPS5", "l", 5, 18, -900000000, 900000000, gps_scale),
        )
        device = (numbers("DVID", "L", 1, [1]), text("DVNM", "Hero10 Black"))
        return container("DEVC", *device, *(self.stream(second, *stream) for stream in streams), size=4)


def main():
    camera = Camera()
    for second in range(int(sys.argv[1])):
        sys.stdout.buffer.write(camera.packet(second))


if __name__ == "__main__":
    main()
