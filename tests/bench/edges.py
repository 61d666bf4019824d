#!/usr/bin/env python3
"""Runs the bench program on edge inputs: edges.py PROGRAM. Exits with 1 at the first that prints something else."""
import subprocess
import sys

HEADER = b"T,0,21\n"


def refused(number):
    return b"d,\nend,%d,0,0000\n" % number


CASES = [
    ("empty", b"", b"bad,1\n"),
    ("a line feed alone", b"\n", b"bad,1\n"),
    ("one byte too long", HEADER + b"W,\n" * 21843 + b"\n", b"bad,0\n"),
    ("as long as allowed", HEADER + b"W,\n" * 21843, refused(13)),
    ("header without its line feed", b"T,0,21", b"bad,1\n"),
    ("last line without its line feed", HEADER + b"W,", b"bad,2\n"),
    ("header alone", HEADER, b"d,\nend,0,0,0000\n"),
    ("chip 4", b"T,4,21\n", b"bad,1\n"),
    ("chip 3", b"T,3,21\n", b"d,\nend,0,0,0000\n"),
    ("address in one digit", b"T,0,2\n", b"bad,1\n"),
    ("address above 127", b"T,0,80\nW,\n", refused(9)),
    ("upper case hex in the header", b"T,0,2A\n", b"bad,1\n"),
    ("upper case hex in a write", HEADER + b"W,0A\n", b"bad,2\n"),
    ("upper case hex in a length", HEADER + b"R,000A\n", b"bad,2\n"),
    ("upper case hex in an answer", HEADER + b"A,000A\n", b"bad,2\n"),
    ("an odd digit", HEADER + b"W,0a1\n", b"bad,2\n"),
    ("a length of three digits", HEADER + b"R,001\n", b"bad,2\n"),
    ("a comma at the end of answers", HEADER + b"A,0001,\n", b"bad,2\n"),
    ("no answers in an A line", HEADER + b"A,\n", b"bad,2\n"),
    ("an operation behind answers", HEADER + b"A,0001\nW,\n", b"bad,3\n"),
    ("two headers", HEADER + HEADER, b"bad,2\n"),
    ("the first bad line counts", HEADER + b"W,\nX\nY\n", b"bad,3\n"),
    ("a space", HEADER + b"W, \n", b"bad,2\n"),
    ("a carriage return", b"T,0,21\r\n", b"bad,1\n"),
    ("an empty line at the end", HEADER + b"\n", b"bad,2\n"),
    ("an empty read", HEADER + b"R,0000\n", refused(6)),
    ("a total above 65,535", HEADER + b"R,ffff\nW,00\n", refused(8)),
    ("a total of 65,535", HEADER + b"R,ffff\n", b"d,\nend,open,0,0000\n"),
    ("many long reads", HEADER + b"R,ffff\n" * 200, refused(8)),
    ("256 operations", HEADER + b"W,\n" * 256, b"d,\nend,open,0,0000\n"),
    ("257 operations", HEADER + b"W,\n" * 257, refused(13)),
    ("21,000 operations", HEADER + b"W,\n" * 21000, refused(13)),
    ("257 operations, then a bad line", HEADER + b"W,\n" * 257 + b"w,\n", b"bad,259\n"),
    ("4,096 answers and no operation", HEADER + b"A,0001" + b",0001" * 4095 + b"\n", b"d,\nend,0,0,0000\n"),
    ("4,097 answers in one line", HEADER + b"A,0001" + b",0001" * 4096 + b"\n", b"bad,2\n"),
    ("4,097 answers in lines", HEADER + b"A,0001\n" * 4097, b"bad,4098\n"),
    ("two flags", HEADER + b"W,\nA,0001,0001,0000,0001,0a00,1f08,0001,0002\n",
     b"r,CTLR1,0001\nr,CTLR1,0001\nr,STAR1,0000\nr,CTLR1,0001\nw,CTLR1,0101\nr,STAR1,0a00\nw,STAR1,f5ff\n"
     b"r,CTLR2,1f08\nw,CTLR2,0008\nr,CTLR1,0001\nr,STAR2,0002\nd,\nend,2,8,0a00\n"),
    ("flags, and the call still open", HEADER + b"W,\nA,0001,0001,0000,0001,0a00\n",
     b"r,CTLR1,0001\nr,CTLR1,0001\nr,STAR1,0000\nr,CTLR1,0001\nw,CTLR1,0101\nr,STAR1,0a00\nw,STAR1,f5ff\n"
     b"d,\nend,open,5,0000\n"),
    ("every answer used", HEADER + b"W,\nA,0200" + b",0000,0200" * 2047 + b",0000\n",
     b"r,CTLR1,0200\nc,clock,0000\n" * 2048 + b"d,\nend,open,4096,0000\n"),
]


def main():
    program = sys.argv[1]
    for name, given, wanted in CASES:
        got = subprocess.run([program], input=given, stdout=subprocess.PIPE, check=True).stdout
        if got != wanted:
            print(f"bench, {name}: wanted {wanted[:80]!r}, got {got[:80]!r}")
            return 1
    print(f"bench: {len(CASES)} edge inputs, 0 differences")
    return 0


sys.exit(main())
