#!/usr/bin/env python3
"""Writes the workload of `make` as a script of lines, made from the rules alone and not by the program.

    bench/workload/script.py MINUTES SEED ground     what the ground is given, and the turns
    bench/workload/script.py MINUTES SEED link       the same with the hearings and the pictures
    bench/workload/script.py MINUTES SEED receive    the frames as they are heard, and the pictures
    bench/workload/script.py --check                 compares a few steps with ones that were worked out by hand
    bench/workload/script.py --checks                what the tests of the crate `workload` expect

A hearing adds bytes without carry to those on the air, and a line tells the byte that is heard. So the last two
forms need the frames: `./fisb ground` is run on the first form and its `sent` lines are read. FISB names another
program than ./fisb. The first hour is 60 minutes, as in

    bench/workload/script.py 60 1 link > hour.txt && ./fisb link < hour.txt
"""
import os
import subprocess
import sys
import zlib

START = 1_700_000_040
MULTIPLIER = 6_364_136_223_846_793_005
INCREMENT = 1_442_695_040_888_963_407
BLOCK = "63 0 n"  # product, scale, and north
PROGRAM = os.environ.get("FISB", os.path.join(os.path.dirname(os.path.abspath(__file__)), "..", "..", "fisb"))


class Draws:
    def __init__(self, seed):
        self.state = seed

    def below(self, limit):
        self.state = (self.state * MULTIPLIER + INCREMENT) % 2**64
        return self.state // 2**33 % limit


def words(draws, count):
    return "".join(" %05d" % draws.below(100_000) for _ in range(count))


def changes(draws):
    """The changes of a frame: the byte that is added at each place of it."""
    added = {}
    for block in range(6):
        count, first, byte = draws.below(11), draws.below(92), 1 + draws.below(255)
        for t in range(count):
            added[6 * ((first + 9 * t) % 92) + block] = byte
    return added


def steps(minutes, seed):
    """Each step as its word and its parts."""
    draws = Draws(seed)
    for i in range(minutes):
        moment = START + 60 * i
        for station in range(40):
            if station % 30 == i % 30:
                yield "text", moment, "METAR K%02dX" % station + words(draws, 4 + draws.below(8))
        if i % 60 < 40:
            yield "text", moment, "TAF K%02dX" % (i % 60) + words(draws, 40 + draws.below(60))
        if i % 5 == 0:
            blank = []
            for number in range(99_900, 100_800):
                if draws.below(2) == 0:
                    cells = "".join(str(draws.below(8)) * 8 for _ in range(16))
                    yield "radar", moment, number, cells
                else:
                    blank.append(number)
            if blank:
                yield "blank", moment, blank
        for second in range(60):
            yield "turn", moment + second, second % 32
            if draws.below(5) != 0:
                yield "hear", moment + second, changes(draws)
        yield "show", moment + 59


def update(step):
    """The line of a step that the ground takes."""
    word, moment = step[0], step[1]
    if word == "text":
        return f"text {moment} {moment} {step[2]}"
    if word == "radar":
        return f"radar {moment} {moment} {BLOCK} {step[2]} {step[3]}"
    if word == "blank":
        return f"blank {moment} {moment} {BLOCK} {','.join(map(str, step[2]))}"
    return f"turn {moment} {step[2]}"


def ground_lines(minutes, seed):
    yield "---"
    for step in steps(minutes, seed):
        if step[0] not in ("hear", "show"):
            yield update(step)


def frames(minutes, seed):
    """The bytes of each frame on the air, from the program."""
    script = "".join(line + "\n" for line in ground_lines(minutes, seed))
    run = subprocess.run([PROGRAM, "ground"], input=script, capture_output=True, text=True)
    sent = [line.split(" ") for line in run.stdout.splitlines()]
    if run.returncode != 0 or any(fields[0] != "sent" for fields in sent):
        sys.exit(f"{PROGRAM} ground ended with {run.returncode}: {run.stdout[-200:]}{run.stderr[-200:]}")
    if [int(fields[1]) for fields in sent] != list(range(60 * minutes)):
        sys.exit(f"{PROGRAM} ground sent {len(sent)} frames, which are not numbered from 0 to {60 * minutes - 1}")
    return [bytes.fromhex(fields[6]) for fields in sent]


def link_lines(minutes, seed):
    sent = frames(minutes, seed)
    index = -1
    yield "---"
    for step in steps(minutes, seed):
        if step[0] == "turn":
            index += 1
        if step[0] == "hear":
            wrong = "".join(" %d=%02x" % (place, sent[index][place] ^ byte) for place, byte in sorted(step[2].items()))
            yield f"hear {step[1]} {index}{wrong}"
        elif step[0] == "show":
            yield f"show {step[1]}"
        else:
            yield update(step)


def receive_lines(minutes, seed):
    sent = frames(minutes, seed)
    index = -1
    yield "---"
    for step in steps(minutes, seed):
        if step[0] == "turn":
            index += 1
        elif step[0] == "hear":
            heard = bytearray(sent[index])
            for place, byte in step[2].items():
                heard[place] ^= byte
            yield f"rx {step[1]} {heard.hex()}"
        elif step[0] == "show":
            yield f"show {step[1]}"


def check():
    """A few steps by hand: the first draws of seed 1 are 908834774 and 1093944153."""
    draws = Draws(1)
    assert [draws.below(2**31), draws.below(2**31)] == [908_834_774, 1_093_944_153]
    made = list(steps(1, 1))
    # 908834774 modulo 8 is 6, so ten words; the first is 1093944153 modulo 100000
    assert made[0][2].split(" ")[:3] == ["METAR", "K00X", "44153"] and len(made[0][2].split(" ")) == 12
    assert [step[2][:10] for step in made[:3]] == ["METAR K00X", "METAR K30X", "TAF K00X 2"]
    radar = [step for step in made if step[0] == "radar"]
    blank = [step for step in made if step[0] == "blank"]
    assert len(radar) + len(blank[0][2]) == 900 and all(len(step[3]) == 128 for step in radar)
    turns = [step for step in made if step[0] == "turn"]
    assert [step[2] for step in turns] == [c % 32 for c in range(60)]
    for step in made:
        if step[0] == "hear":
            for block in range(6):
                assert sum(place % 6 == block for place in step[2]) <= 10
    assert made[-1] == ("show", START + 59)
    hour = list(steps(60, 1))
    stations = [sum(step[0] == "text" and step[2].startswith("METAR K%02dX" % s) for step in hour) for s in range(41)]
    assert stations == 40 * [2] + [0]
    assert sum(step[0] == "text" and step[2].startswith("TAF") for step in hour) == 40
    assert sum(step[0] in ("radar",) for step in hour) + sum(len(step[2]) for step in hour if step[0] == "blank") == 12 * 900
    print("the workload is as its rules say")


def line_of_tests(step):
    """A step as the tests of the crate `workload` write it."""
    word, moment = step[0], step[1]
    if word == "radar":
        return f"block {moment} {step[2]} {step[3]}\n"
    if word == "blank":
        return f"blanks {moment} {' '.join(map(str, step[2]))}\n"
    if word == "hear":
        return f"hear {moment}" + "".join(" %d^%02x" % change for change in step[2].items()) + "\n"
    return " ".join(map(str, step)) + "\n"


def checks():
    """Of some workloads the number of steps, and both halves of the Adler-32 checksum of their lines."""
    for minutes, seed in ((1, 1), (2, 7), (6, 2**64 - 1)):
        lines = [line_of_tests(step) for step in steps(minutes, seed)]
        whole = zlib.adler32("".join(lines).encode())
        print(f"({minutes}, {seed}, {len(lines)}, ({whole % 2**16}, {whole // 2**16})),")


def main(arguments):
    forms = {"ground": ground_lines, "link": link_lines, "receive": receive_lines}
    if arguments == ["--check"]:
        check()
    elif arguments == ["--checks"]:
        checks()
    elif len(arguments) == 3 and arguments[2] in forms and 1 <= int(arguments[0]) <= 1000:
        for line in forms[arguments[2]](int(arguments[0]), int(arguments[1])):
            print(line)
    else:
        sys.exit(__doc__)


if __name__ == "__main__":
    main(sys.argv[1:])
