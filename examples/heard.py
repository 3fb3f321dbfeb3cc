#!/usr/bin/env python3
"""Draws what is to be heard in a file of samples, as text: python3 examples/heard.py OUT.PCM [RATE]

The file is what pdplay writes: 16-bit little-endian samples, left then right. A line stands for 100 ms: when they begin, the greatest
sample in decibels below full scale (a bar has a mark for each 3 dB above -60), `<` or `>` where one channel is louder than the other by
more than 3 dB, and the strongest partials in whole hertz round the loudest place, the strongest first, at most three and none that is
12 dB below the first. `noise` stands where the spectrum is flat. Python's own library is all that it needs.
"""
import cmath
import math
import struct
import sys

STEP_MS = 100
POINTS = 4096
FLOOR = -60
# The share of a flat spectrum: the geometric mean of its powers by their mean. White noise has about 0.56, a tone next to nothing.
FLAT = 0.1


def transform(values):
    """The discrete Fourier transform of a list whose length is a power of two."""
    if len(values) == 1:
        return values
    half = len(values) // 2
    even, odd = transform(values[0::2]), transform(values[1::2])
    turned = [cmath.exp(-2j * math.pi * i / len(values)) * odd[i] for i in range(half)]
    return [even[i] + turned[i] for i in range(half)] + [even[i] - turned[i] for i in range(half)]


def partials(values, rate):
    """The strongest partials in hertz, or the word `noise`."""
    window = [v * (0.5 - 0.5 * math.cos(2 * math.pi * i / POINTS)) for i, v in enumerate(values)]
    power = [abs(z) ** 2 + 1 for z in transform(window)[: POINTS // 2]]
    if math.exp(sum(map(math.log, power)) / len(power)) * len(power) > FLAT * sum(power):
        return 'noise'
    peaks = [i for i in range(2, POINTS // 2 - 1) if power[i - 1] < power[i] >= power[i + 1]]
    peaks.sort(key=lambda i: -power[i])
    found = []
    for i in peaks[:3]:
        if power[i] * 16 < power[peaks[0]]:
            break
        # The top of the parabola through three logarithms lies between two points of the transform.
        a, b, c = (math.log(power[k]) for k in (i - 1, i, i + 1))
        found.append(round((i + 0.5 * (a - c) / (a - 2 * b + c)) * rate / POINTS))
    return ' '.join(map(str, found))


def around(values, place):
    """As many values as a transform takes, with the one at the place in their middle, and zeros beyond the ends."""
    first = place - POINTS // 2
    cut = values[max(0, first):max(0, first + POINTS)]
    return [0] * max(0, -first) + cut + [0] * max(0, first + POINTS - len(values))


def decibels(values):
    """The greatest of the values, in decibels below full scale."""
    top = max(map(abs, values), default=0)
    return 20 * math.log10(top / 32767) if top else -math.inf


def figure(data, rate):
    """The lines of the figure."""
    samples = struct.unpack('<%dh' % (len(data) // 2), data)
    left, right = list(samples[0::2]), list(samples[1::2])
    both = [l + r for l, r in zip(left, right)]
    step = rate * STEP_MS // 1000
    yield '   ms   level  %-20s  partials, Hz' % 'from -60 to 0 dB'
    for start in range(0, len(both) - step // 10, step):
        sides = decibels(left[start:start + step]), decibels(right[start:start + step])
        level, begins = max(sides), start * 1000 // rate
        if level < FLOOR:
            yield '%5d       -' % begins
            continue
        side = ' ' if abs(sides[0] - sides[1]) <= 3 else '<' if sides[0] > sides[1] else '>'
        loudest = max(range(start, min(start + step, len(both))), key=lambda i: abs(both[i]))
        tones = partials(around(both, loudest), rate)
        yield '%5d  %3d dB %s%-20s  %s' % (begins, round(level), side, '#' * round((level - FLOOR) / 3), tones)


if __name__ == '__main__':
    with open(sys.argv[1], 'rb') as file:
        for line in figure(file.read(), int(sys.argv[2]) if len(sys.argv) > 2 else 44100):
            print(line.rstrip())
