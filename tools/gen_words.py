#!/usr/bin/env python3
"""Prints the words behind `gen` of one call, for tools/compare_programs.py.

    tools/gen_words.py SIZES NUMBER
    tools/compare_programs.py 0 900 gen 'tools/gen_words.py 1,2,7,32,100,256,any' OTHER [MINE]

SIZES are taken by turns, and `any` stands for a random one from 1 to 256. Each three numbers one behind
another have the shapes copy, list and grid with the same size; so 900 numbers have 300 seeds of each shape.
Seeds and options are random, and a number always gives the same words. Half of the calls have a limit of
steps, so that some end with exit 11.
"""
import random
import sys

SHAPES = ("copy", "list", "grid")
ENDS = (0, 1, 4_294_967_295)


def options(draw, size):
    words = []
    if draw.random() < 0.6:
        words += ["--workers", draw.choice((1, 2, 3, 4, 7, 16, 64))]
    if draw.random() < 0.6:
        words += ["--chunk", draw.choice((1, 2, 5, 16, 33, 100, 256, 1024) if size < 64 else (16, 33, 100, 256, 1024))]
    if draw.random() < 0.5:
        words += ["--sample", draw.choice((2, 3, 4, 5, 8, 17, 64))]
    if draw.random() < 0.5:
        words += ["--steps", draw.choice((0, 1, draw.randrange(100), draw.randrange(10_000), draw.randrange(1_000_000), ENDS[2]))]
    return words


def main():
    sizes, number = sys.argv[1].split(","), int(sys.argv[2])
    draw = random.Random(number)
    size = sizes[number // 3 % len(sizes)]
    size = draw.randint(1, 256) if size == "any" else int(size)
    seed = ENDS[number // 3] if number // 3 < len(ENDS) else draw.randrange(2**32)
    words = options(draw, size) or ["--"]
    print("#", *words, seed, SHAPES[number % 3], size)


if __name__ == "__main__":
    main()
