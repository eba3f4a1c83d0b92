#!/usr/bin/env python3
"""Makes examples/recording.bin: input for the program track, three seconds at 16 kHz, 4 subframes, complexity 2.

A whitened, speech-like signal with nothing of a speaker in it: a train of pulses whose period glides from 130 to 80
samples and back, with small noise between them; silence and plain noise stand at the start and the end. The numbers
come from a fixed generator, so that a run gives the same bytes.
"""
import math, pathlib, struct

state = 12345

def noise(top):
    global state
    state = (state * 1103515245 + 12345) % 2**31
    return state % (2 * top + 1) - top

rate, nb, complexity, thres1, thres2 = 16, 4, 2, 45875, 2458
count = 3 * 16000
samples, next_pulse = [], 8000
for n in range(count):
    if n < 6400:
        samples.append(0)
    elif n < 8000 or n >= 42000:
        samples.append(noise(700))
    else:
        x = noise(150)
        if n >= next_pulse:
            x += 9000
            next_pulse += round(105 - 25 * math.cos(2 * math.pi * (n - 8000) / 17000))
        elif n == next_pulse - 1:
            x -= 4000
        samples.append(x)
head = struct.pack('<3B2i', rate, nb, complexity, thres1, thres2)
pathlib.Path(__file__).with_name('recording.bin').write_bytes(head + struct.pack(f'<{count}h', *samples))
