#!/usr/bin/env python3
"""Writes the drawing of the README: a boat in a harbour at sunset, 64 columns and 18 lines.

    python3 ../../tools/pictures/draw_harbour.py data/harbour.ans
"""
import math
import struct
import sys
W, H = 63, 18
BLACK, RED, GREEN, BROWN, BLUE, MAGENTA, CYAN, GREY = range(8)
cells = [[(" ", GREY, BLACK)] * W for _ in range(H)]
SHADES = " ░▒▓"
# The sky: from night blue over magenta and red to brown, by shades of one colour on the next.
HORIZON = 12
for y in range(HORIZON):
    t = y / (HORIZON - 1) * 5.99
    steps = [(BLACK, BLUE), (BLUE, BLUE), (BLUE, MAGENTA), (MAGENTA, RED), (RED, BROWN), (BROWN, BROWN), (BROWN, BROWN)]
    i = int(t); f = t - i
    a, b = steps[i]
    for x in range(W):
        if a == b: cells[y][x] = (" ", GREY, a)
        else: cells[y][x] = (SHADES[min(3, int(f * 4 + (0.35 if (x + y) % 2 else 0)))], b, a)
for x, y, c in ((4, 0, "."), (11, 1, "·"), (19, 0, "·"), (27, 1, "."), (36, 0, "·"), (44, 1, "·"), (52, 0, "."), (59, 1, "·"), (8, 2, "·"), (31, 2, "·")):
    cells[y][x] = (c, GREY + 8, cells[y][x][2])
# The sun on the horizon.
cx, r = 23, 6.4
for y in range(HORIZON):
    for x in range(W):
        top = math.hypot((x - cx), (2 * y + .5 - 2 * HORIZON) * 1.0) < r
        low = math.hypot((x - cx), (2 * y + 1.5 - 2 * HORIZON) * 1.0) < r
        bg = cells[y][x][2]
        if top and low: cells[y][x] = ("█", BROWN + 8, BROWN)
        elif low: cells[y][x] = ("▄", BROWN + 8, bg)
# The sea, with ripples and the sun's light on it.
for y in range(HORIZON, H):
    d = y - HORIZON
    for x in range(W):
        ch, fg = " ", CYAN
        k = (x * 7 + y * 13 + (x * y) % 5) % 11
        if k == 0: ch = "▀"
        elif k == 4: ch = "▄"; fg = BLUE + 8
        elif d == 0: ch = "░"; fg = MAGENTA
        glow = abs(x - cx) < 6 - d * .7 + (2 if (x + y) % 3 == 0 else 0)
        if glow and (x + d) % 2 == 0: ch, fg = ("▀" if d % 2 else "▄"), BROWN + 8
        cells[y][x] = (ch, fg, BLUE)
# The headland and the lighthouse.
for x in range(45, W):
    h = 1.2 + 2.2 * math.sin((x - 45) / 18 * 1.7)
    for y in range(HORIZON + 1):
        edge = HORIZON + .6 - h
        if y >= math.ceil(edge): cells[y][x] = ("▒" if (x * 3 + y) % 5 == 0 else "█", BLACK + 8 if (x * 3 + y) % 5 == 0 else BLACK, BLACK)
        elif y == math.floor(edge) and edge - y < .5: cells[y][x] = ("▄", BLACK, cells[y][x][2])
for y in range(4, 10):
    for x in range(54, 58):
        stripe = (y - 4) // 2 % 2 == 0
        cells[y][x] = ("█", (GREY + 8) if stripe else (RED + 8), BLACK)
for x in range(53, 59): cells[3][x] = ("▄", BLACK + 8, cells[3][x][2])
cells[2][54] = ("▐", BLACK + 8, cells[2][54][2])
for x in (55, 56): cells[2][x] = ("█", BROWN + 8, BROWN)
cells[2][57] = ("▌", BLACK + 8, cells[2][57][2])
for x in (54, 55, 56, 57): cells[1][x] = ("▄", RED, cells[1][x][2])
for i, x in enumerate(range(53, 41, -1)):
    if i % 2 == 0 or i < 5: cells[2][x] = ("▒" if i < 4 else "░", BROWN + 8, cells[2][x][2])
# The boat: two sails, a mast and a hull.
mast = 36
for y in range(3, 13):
    n = int((y - 3) * 1.05) + 1
    for i in range(n):
        x = mast - 1 - i
        cells[y][x] = ("█", GREY + 8 if i < n - 2 else GREY, BLACK)
    if n > 1: cells[y][mast - 1 - n] = ("▄", GREY, cells[y][mast - 1 - n][2])
    cells[y][mast] = ("│", BROWN, cells[y][mast][2])
    if y > 4:
        m = int((y - 4) * .62)
        for i in range(m): cells[y][mast + 1 + i] = ("█" if i < m - 1 else "▌", CYAN + 8 if i < m - 1 else CYAN, cells[y][mast + 1 + i][2] if i == m - 1 else BLACK)
cells[2][mast] = ("▀", RED + 8, cells[2][mast][2]); cells[2][mast + 1] = ("▀", RED + 8, cells[2][mast + 1][2])
for x in range(24, 48):
    cells[13][x] = ("█", RED, BLACK) if 25 < x < 46 else ("▀", RED, BLUE)
for x in range(27, 45): cells[14][x] = ("▀", BROWN, BLUE) if x % 2 else ("▀", RED, BLUE)
for x in range(26, 46): cells[15][x] = ("▀" if x % 3 else " ", GREY + 8, BLUE) if 28 < x < 43 and x % 2 else cells[15][x]
# A gull or two.
for x, y in ((10, 4), (15, 5)):
    cells[y][x] = ("~", GREY + 8, cells[y][x][2]); cells[y][x + 1] = ("v", GREY + 8, cells[y][x + 1][2]); cells[y][x + 2] = ("~", GREY + 8, cells[y][x + 2][2])
text = "h a r b o u r"
for i, c in enumerate(text): cells[16][3 + i] = (c, (GREY + 8) if c != " " else GREY, BLUE)

out = bytearray()
now = None
def colours(fg, bg):
    # attribute order here is ANSI's: 0 black 1 red 2 green 3 brown 4 blue 5 magenta 6 cyan 7 white
    global now
    if now == (fg, bg): return b""
    bold, was = fg >= 8, now is not None and now[0] >= 8
    p = []
    if now is None or (was and not bold): p = ["0"]; base = (None, 0)
    else: base = (now[0] % 8, now[1])
    if bold and (now is None or not was): p.append("1")
    if fg % 8 != base[0]: p.append(str(30 + fg % 8))
    if bg != base[1]: p.append(str(40 + bg))
    now = (fg, bg)
    return ("\x1b[" + ";".join(p) + "m").encode() if p else b""
for y in range(H):
    for x in range(W):
        ch, fg, bg = cells[y][x]
        if ch == " " and now is not None: fg = now[0]
        out += colours(fg, bg) + ch.encode("cp437")
    if y < H - 1: out += b"\r\n"
out += b"\x1b[0m"
content = bytes(out)
def field(s, n): return s.encode("cp437").ljust(n)
sauce = b"SAUCE00" + field("Harbour", 35) + field("anscheck", 20) + field("", 20) + b"20261125" + struct.pack("<I", len(content)) + bytes([1, 1]) + struct.pack("<HHHH", 64, 18, 0, 0) + bytes([0, 0]) + b"IBM VGA".ljust(22, b"\0")
open(sys.argv[1], "wb").write(content + b"\x1a" + sauce)
print(len(content))
