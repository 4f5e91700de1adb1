"""Changes one byte of a volume's metadata after the other, and lets the program check what comes of it.

usage: bytes.py PROGRAM IMAGE STEP
Every STEP-th byte of the blocks in use is tried, but for the log and the data of files, each with another value that the place decides.
The answer must be a summary at status 0, or a finding at 8, or at 3 where the superblock or the log is refused, and the image is as it
was with the byte, unless its log was replayed. Prints how many changes were found and how many weren't, and ends with 1 on another answer.
"""
import subprocess
import sys

from fill import Volume


def checked(program, path):
    done = subprocess.run([program, path, "check"], stdin=subprocess.DEVNULL, capture_output=True)
    return done.returncode, done.stdout


def is_answer(status, said):
    if said.count(b"\n") != 1 or not said.endswith(b"\n"):
        return False
    if status == 0:
        return said.startswith(b"whole nodes ")
    return status in (3, 8) and said.startswith(b"finding ")


def main():
    program, path, step = sys.argv[1], sys.argv[2], int(sys.argv[3])
    with open(path, "r+b", buffering=0) as image:
        volume = Volume(image)
        image.seek(0)
        whole = bytearray(image.read())
        log = range(1 + volume.bitmap_blocks, 1 + volume.bitmap_blocks + log_length(whole))
        places = [p for p in range(512, 1024)]
        for block in range(1, volume.blocks):
            data = whole[block * volume.size : block * volume.size + 1]
            if volume.is_marked(block) and block not in log and data != b"z":
                places += range(block * volume.size, (block + 1) * volume.size)
        found = missed = 0
        for place in places[::step]:
            old = whole[place]
            new = (old + 1 + place % 255) % 256
            image.seek(place)
            image.write(bytes([new]))
            status, said = checked(program, path)
            if not is_answer(status, said):
                print(f"byte {place}, {old} to {new}: status {status}, {said!r}")
                sys.exit(1)
            found += status != 0
            missed += status == 0
            image.seek(0)
            now = image.read()
            if 608 <= place < 624:
                image.seek(0)
                image.write(whole)
                continue
            if now[place] != new or now[:place] != whole[:place] or now[place + 1 :] != whole[place + 1 :]:
                print(f"byte {place}: the image was changed")
                sys.exit(1)
            image.seek(place)
            image.write(bytes([old]))
    print(f"found {found} not {missed}")


def log_length(whole):
    return int.from_bytes(whole[512 + 94 : 512 + 96], "little")


if __name__ == "__main__":
    main()
