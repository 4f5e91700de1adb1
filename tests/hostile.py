"""Volumes that a workload has filled, with one byte changed at places all over their metadata: a check says that they are whole or what is wrong, and
never anything else; and a script is run on just those that are whole.

usage: hostile.py PROGRAM FOLDER [VOLUMES]
One volume is changed at each seventh byte of its metadata, the others at a dozen places each.
"""
import os
import random
import subprocess
import sys

program, folder = sys.argv[1], sys.argv[2]
volumes = int(sys.argv[3]) if len(sys.argv) > 3 else 200
image = os.path.join(folder, "volume.img")
BLOCKS, SIZE, LOG = 600, 1024, range(2, 514)


def run(words, text=""):
    done = subprocess.run([program, image] + words, input=text.encode(), capture_output=True, timeout=60)
    return done.returncode, done.stdout.decode(errors="replace")


def metadata(data):
    """The bytes of the superblock, the bitmap, and of each used block behind the log that begins as an inode or a page of a tree, or holds one."""
    places = list(range(512, 700)) + list(range(SIZE, SIZE + BLOCKS // 8))
    for block in range(514, BLOCKS):
        if data[SIZE + block // 8] >> block % 8 & 1 and any(data[block * SIZE: block * SIZE + SIZE]):
            places += range(block * SIZE, block * SIZE + SIZE)
    return places


def answers(data, place, byte, mounts):
    """What is wrong with the answer on the volume with this byte, if anything is."""
    with open(image, "r+b") as file:
        file.seek(place)
        file.write(bytes([byte]))
    before = run(["check"])
    wrong = None
    first = before[1].split(" ")[0]
    if (before[0], first) not in ((0, "whole"), (3, "finding"), (8, "finding")) or before[1].count("\n") != 1:
        wrong = f"check: {before}"
    elif mounts:
        told = run(["sh"], "1 ls /\n")
        if (told[0] == 0) != (before[0] == 0) or told[0] not in (0, 3) or (told[0] == 3 and told[1] != before[1]):
            wrong = f"check: {before}, sh: {told}"
    # (a check and a list of a whole volume change no byte but where the log was replayed)
    with open(image, "r+b") as file:
        file.write(data)
    return before[0], wrong


def main():
    failed = passed = 0
    seen = {0: 0, 3: 0, 8: 0}
    for seed in range(1, volumes + 1):
        with open(image, "wb") as file:
            file.truncate(BLOCKS * SIZE)
        made = run(["mk", "--blocks", str(BLOCKS)])
        ran = run(["soak", str(seed), "40"])
        whole = run(["check"])
        if made[0] != 0 or ran[0] != 0 or whole[0] != 0 or whole[1].split()[2] != ran[1].split()[-1]:
            failed += 1
            print(f"failed: seed {seed}: {made}, {ran}, {whole}")
            continue
        with open(image, "rb") as file:
            data = file.read()
        places = metadata(data)
        numbers = random.Random(seed)
        chosen = places[::7] if seed == 1 else [numbers.choice(places) for _ in range(12)]
        for place in chosen:
            byte = numbers.choice([data[place] ^ 1 << numbers.randrange(8), 0, 0xFF])
            status, wrong = answers(data, place, byte, numbers.randrange(4) == 0)
            if wrong is None:
                passed += 1
                seen[status] += 1
            else:
                failed += 1
                print(f"failed: seed {seed}, byte {place} ({place // SIZE} block) as {byte}: {wrong}")
    if not all(seen.values()):
        failed += 1
        print(f"failed: some answer was never met: {seen}")
    print(f"{passed} passed, {failed} failed")
    return failed > 0


sys.exit(main())
