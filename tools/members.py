#!/usr/bin/env python3
"""Writes made lines of members: tools/members.py HOW_MANY. Always the same ones, a longer file beginning with a shorter."""
import random
import sys

FIRST = """Ada Albin Alma Anton Asta Birger Britta Carl Cecil Dagny David Edit Einar Elin Emil Erna Ester Evert Fanny Frida Georg Greta
Gunnar Hanna Harald Hedda Helmi Hugo Ida Ines Ivar Jory Jakob Karin Karl Klara Lars Lea Linus Lotta Magda Maren Marten Mona Nils Oda
Olga Oskar Otto Paula Pelle Ragna Rolf Rut Selma Signe Sten Svea Tavo Tora Ulf Vera Viktor Vilma Yngve""".split()
LAST = """Alm Berg Bjork Blom Brandt Dahl Ek Ekman Falk Fisk Fors Frost Gran Grip Hagen Hall Hed Holm Juhl Kall Kjell Krok Kvist Lind
Ljung Lund Malm Mark Mohr Nord Nyman Olin Palm Quist Rask Rehn Ros Rydell Sand Sjo Skog Skold Stark Storm Strand Sund Svan Thorn
Torp Vall Vik Vill Wahl Wiik Ydren Zander Ahlgren Bergstrand Ekholm Fagerlund Grankvist Hellberg Lindroos Nordgren Sandell
Westerlund""".split()

rng = random.Random(1)
pan = 0
for _ in range(int(sys.argv[1])):
    pan += rng.choice((1, 1, 1, 2, 3))
    print(f"pan {pan} {rng.choice(FIRST)} {rng.choice(LAST)} 0{rng.choice((18, 40, 44, 50))}{rng.randrange(10 ** 7):07}")
