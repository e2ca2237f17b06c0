"""Prints what every call answers of each message on standard input, lines `tc HEX` and `action HEX`."""

import sys

import vtc


def tried(call, *arguments):
    """What a call returns, or the status for which it raises."""
    try:
        return call(*arguments), 0
    except vtc.Refused as refused:
        return refused, int(refused.status)
    except vtc.DoesNotFit:
        return None, 12
    except vtc.MakeError as error:
        return str(error).encode(), int(error.status)


def answer(message, action):
    verdict, status = tried(vtc.check, message, action)
    if status:
        text = f"fault {status} {verdict.first} {verdict.second} {verdict.offset}"
    else:
        text = f"check {verdict.fits:d} {verdict.settled:d} {verdict.canonical:d} {verdict.length}"
    text += f"; canonical {vtc.is_canonical(message, action):d}"
    written, status = tried(vtc.rewrite, message, action)
    text += f"; rewrite {status} {'' if status else written.hex()}"
    settled, status = tried(vtc.settle, message, action)
    text += f"; settle {status} " + ("" if status else f"{settled[1]} {settled[0].hex()}")
    text += "; index"
    for it in vtc.index(message, action):
        text += f" {it.offset}:{len(it.value)}:{it.word}:{it.table:d}:{it.depth}"
    text += "; list"
    end = 14
    try:
        for it in vtc.attributes(message, 4 if action else 20):
            text += f" {it.offset}:{len(it.value)}:{it.word}"
    except vtc.Refused as refused:
        end = int(refused.status)
    text += f" {end}"
    shown, status = tried(vtc.json, message, action)
    shown = "" if status else shown
    for name, call in ("make", vtc.make), ("given", vtc.make_as_given):
        made, ended = tried(call, shown, action)
        text += f"; {name} {ended} {made.hex()}"
    return text + f"; json {status} {shown}"


for line in sys.stdin:
    mode, _, digits = line.rstrip("\n").partition(" ")
    print(answer(bytes.fromhex(digits), mode == "action"))
