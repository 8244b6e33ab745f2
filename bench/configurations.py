#!/usr/bin/env python3
"""bench/configurations.py [PROGRAM]: how long a configuration of 4,194,304 bytes takes to be loaded, by what it is full of:
entries of lists, interfaces, static routes, pools, static or dynamic entries of translation. Each takes its best of three."""
import os
import subprocess
import sys
import tempfile
import time

MOST = 4_194_304
PROGRAM = os.path.abspath(sys.argv[1] if len(sys.argv) > 1 else 'margrave')


def address(number):
    return '.'.join(str(number >> shift & 255) for shift in (24, 16, 8, 0))


def lists(k):
    if k % 5001 == 0:
        return f'ip access-list extended L{k // 5001}\n'
    return f' permit tcp host {address(0x0a000000 + k)} any eq {k % 65535}\n'


def interfaces(k):
    if k >= 65536:
        return None
    return f'interface E{k}\n ip address {address(0x0a000000 + 4 * k + 1)} 255.255.255.252\n'


def routes(k):
    if k == 0:
        return 'interface E0\n ip address 10.0.0.1 255.0.0.0\n'
    return f'ip route {address(0x20000000 + 256 * k)} 255.255.255.0 10.{k >> 16 & 255}.{k >> 8 & 255}.{k & 255}\n'


def pools(k):
    return f'ip nat pool P{k} {address(0x20000000 + k)} {address(0x20000000 + k)} prefix-length 24\n'


def statics(k):
    return f'ip nat inside source static tcp {address(0x0a000000 + k)} 80 {address(0x20000000 + k)} 80\n'


def dynamics(k):
    if k < 20000:
        return pools(k)
    return f'ip nat inside source list {k % 99 + 1} pool P{k % 20000}\n'


def config(line):
    text, k = [], 0
    size = 0
    while (one := line(k)) is not None and size + len(one) <= MOST:
        text.append(one)
        size += len(one)
        k += 1
    return ''.join(text).ljust(MOST, '\n'), k


for line in (lists, interfaces, routes, pools, statics, dynamics):
    text, count = config(line)
    with tempfile.TemporaryDirectory() as folder:
        with open(os.path.join(folder, 'c'), 'w') as file:
            file.write(text)
        with open(os.path.join(folder, 's'), 'w') as file:
            file.write('LOAD IOS "c" AS r;')
        best = None
        for _ in range(3):
            began = time.time()
            done = subprocess.run([PROGRAM, 's'], cwd=folder, capture_output=True, text=True)
            took = time.time() - began
            best = took if best is None else min(best, took)
        print(f'{line.__name__}: {count} lines or so, {best:.2f} s, {done.stdout.strip()}')
