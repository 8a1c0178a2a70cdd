"""A sheet program: what is drawn at stage times 24, 25, .., read from a baked track alone. The same as sheet.c, through the Python package."""

import sys
from pathlib import Path

sys.path.insert(0, str(Path(__file__).resolve().parent.parent / "bindings/python"))
import tavitrozy  # noqa: E402

STARTS = [(20, 0), (28, 1)]
KNOTS = [(20, 10), (28, 0), (36, 8)]
# Each clip's samples: clip time and value, None for a block.
CLIPS = [[(0, 1.0), (10, 2.0)], [(0, 3.0), (2, None)]]


def print_set(standing):
    starts = " ".join(f"{time:g} (clip {clip})" for time, clip in standing.starts)
    knots = " ".join(f"{x:g}->{y:g}" for x, y in standing.knots)
    print(f"set: {standing.clips} clips, starts {starts}, knots {knots}")


def print_clips(clips):
    for number, samples in enumerate(clips):
        print(f"clip {number}:", " ".join(f"{time:g}->" + ("block" if value is None else f"{value:g}") for time, value in samples))


def draw(track):
    print(f"{len(track)} changes")
    for frame in range(24, 33):
        answer = track.read(frame)
        drawn = f"drawn at {answer.value:g}" if isinstance(answer, tavitrozy.Value) else "not drawn"
        print(f"{frame}: {drawn}")


def main():
    if not tavitrozy.environment_is_exact():
        sys.exit("doubles are not computed as the library needs it")
    resolver = tavitrozy.Resolver()
    resolver.accept(2, STARTS, KNOTS)
    print_set(resolver.standing)
    print_clips(CLIPS)
    draw(resolver.bake(tavitrozy.Samples.of_clips(CLIPS)))


main()
