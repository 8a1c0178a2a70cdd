"""The shared library: where it is found, and its calls and structs as ctypes has them (include/tavitrozy.h)."""

import ctypes
import ctypes.util
import os
from ctypes import POINTER, Structure, c_bool, c_double, c_size_t, c_uint8, c_uint64
from pathlib import Path

MAX_CLIPS = 256
MAX_STARTS = 256
MAX_KNOTS = 512
MAX_BLOCKS = 256
MAX_SAMPLES = 4096
MAX_TEMPLATE_BYTES = 255
MAX_NAME_BYTES = 268
MAX_TIME = 2.0**40
MAX_SETS = 16
MAX_SET_NAME_BYTES = 255
MAX_LISTED_NAMES = 255

VALUE, BLOCK, NONE = 0, 1, 2

# Another minor version has other structs.
SONAME = "libtavitrozy.so.0.7"


class StageTime(Structure):
    _fields_ = [("value", c_double)]


class ClipTime(Structure):
    _fields_ = [("value", c_double)]


class Default(Structure):
    _fields_ = [("mark", c_uint8), ("value", c_double)]


class TemplateTimes(Structure):
    _fields_ = [("start", c_double), ("end", c_double), ("stride", c_double), ("offset", c_double)]


class LayerOffset(Structure):
    _fields_ = [("offset", c_double), ("scale", c_double)]


class Counts(Structure):
    _fields_ = [("starts", c_size_t), ("knots", c_size_t), ("blocks", c_size_t)]


class Manifest(Structure):
    _fields_ = [("fallback", Default), ("interpolate", c_bool)]


class Shape(Structure):
    _fields_ = [("stands", c_bool), ("clips", c_uint64), ("counts", Counts), ("manifest", Manifest)]


class Start(Structure):
    _fields_ = [("time", c_double), ("clip", c_uint64)]


class Knot(Structure):
    _fields_ = [("x", c_double), ("y", c_double)]


class Starts(Structure):
    _fields_ = [("items", Start * MAX_STARTS), ("count", c_size_t)]


class Knots(Structure):
    _fields_ = [("items", Knot * MAX_KNOTS), ("count", c_size_t)]


class Blocks(Structure):
    _fields_ = [("items", c_double * MAX_BLOCKS), ("count", c_size_t)]


class Prepared(Structure):
    _fields_ = [("clips", c_uint64), ("active", Starts), ("knots", Knots), ("blocks", Blocks), ("fallback", Default), ("interpolate", c_bool)]


class Dispatcher(Structure):
    _fields_ = [("numbers", c_double * 24592), ("counts", c_uint64 * 4177), ("bytes", c_uint8 * 4144)]


class Examined(Structure):
    _fields_ = [("number", c_uint8), ("set", Prepared)]


class Settled(Structure):
    _fields_ = [("number", c_uint8), ("shape", Shape)]


class ClipReply(Structure):
    _fields_ = [("number", c_uint8), ("found", c_bool), ("clip", c_uint64)]


class TimeReply(Structure):
    _fields_ = [("number", c_uint8), ("time", ClipTime)]


class ValueReply(Structure):
    _fields_ = [("number", c_uint8), ("mark", c_uint8), ("sampled", c_bool), ("value", c_double), ("clip", c_uint64), ("place", c_uint64)]


class UntimedReply(Structure):
    _fields_ = [("number", c_uint8), ("state", c_uint8)]


class Counted(Structure):
    _fields_ = [("number", c_uint8), ("count", c_size_t)]


class Baked(Structure):
    _fields_ = [("number", c_uint8), ("mark", c_uint8), ("value", c_double), ("count", c_size_t)]


class PlacedValue(Structure):
    _fields_ = [("reply", ValueReply), ("placed", c_bool), ("set", c_uint64)]


class PlacedBaked(Structure):
    _fields_ = [("reply", Baked), ("placed", c_bool), ("set", c_uint64)]


class Entry(Structure):
    _fields_ = [("value", c_double), ("mark", c_uint8)]


_DOUBLES = [POINTER(c_double), c_size_t]
_BYTES = [POINTER(c_uint8), c_size_t]
_NUMBERS = [POINTER(c_uint64), c_size_t]
_SET = [Shape, *_DOUBLES, *_NUMBERS, *_DOUBLES, *_DOUBLES, *_DOUBLES]
_SAMPLES = [*_DOUBLES, *_DOUBLES, *_BYTES, *_NUMBERS]
_PAGES = [*_DOUBLES, *_NUMBERS, *(_DOUBLES * 4), *_NUMBERS, *_BYTES]
_ORDER = [c_bool, *_BYTES, *_NUMBERS]
_SET_SAMPLES = [*_NUMBERS, *_NUMBERS, *_DOUBLES, *_DOUBLES, *_BYTES]

# name: what it gives, what it takes
_CALLS = {
    "tavitrozy_lent_fresh": (Shape, []),
    "tavitrozy_lent_accept": (Settled, [*_SET, c_uint64, *(_DOUBLES * 5), Default, c_bool]),
    "tavitrozy_lent_accept_template": (Settled, [*_SET, *_BYTES, TemplateTimes, c_bool, *_DOUBLES, Default, c_bool]),
    "tavitrozy_examine": (Examined, [c_uint64, *(_DOUBLES * 5), Default, c_bool]),
    "tavitrozy_examine_template": (Examined, [*_BYTES, TemplateTimes, c_bool, *_DOUBLES, Default, c_bool]),
    "tavitrozy_lent_install": (Shape, [*_SET, Prepared]),
    "tavitrozy_lent_retime": (Settled, [*_SET, LayerOffset]),
    "tavitrozy_lent_active_clip": (ClipReply, [*_SET, StageTime]),
    "tavitrozy_lent_clip_time": (TimeReply, [*_SET, StageTime]),
    "tavitrozy_lent_value": (ValueReply, [*_SET, *_SAMPLES, StageTime]),
    "tavitrozy_lent_untimed": (UntimedReply, [*_SET, *_SAMPLES]),
    "tavitrozy_lent_stage_sample_count": (Counted, [*_SET, *_SAMPLES]),
    "tavitrozy_lent_stage_sample_times": (Counted, [*_SET, *_SAMPLES, *_DOUBLES]),
    "tavitrozy_lent_stage_samples": (Counted, [*_SET, *_SAMPLES, *_DOUBLES, *_BYTES]),
    "tavitrozy_lent_change_count": (Counted, [*_SET, *_SAMPLES]),
    "tavitrozy_lent_bake": (Baked, [*_SET, *_SAMPLES, *_DOUBLES, *_DOUBLES, *_BYTES]),
    "tavitrozy_sets_fresh": (c_bool, _PAGES),
    "tavitrozy_sets_accept": (c_uint8, [*_PAGES, *_BYTES, c_bool, c_uint64, *(_DOUBLES * 5), Default, c_bool]),
    "tavitrozy_sets_accept_template": (c_uint8, [*_PAGES, *_BYTES, c_bool, *_BYTES, TemplateTimes, c_bool, *_DOUBLES, Default, c_bool]),
    "tavitrozy_sets_install": (c_uint8, [*_PAGES, *_BYTES, c_bool, Prepared]),
    "tavitrozy_sets_retime": (c_uint8, [*_PAGES, *_BYTES, LayerOffset]),
    "tavitrozy_sets_value": (PlacedValue, [*_PAGES, *_ORDER, *_SET_SAMPLES, StageTime]),
    "tavitrozy_sets_bake": (PlacedBaked, [*_PAGES, *_ORDER, *_SET_SAMPLES, *_DOUBLES, *_DOUBLES, *_BYTES]),
    "tavitrozy_read": (Entry, [Entry, *_DOUBLES, *_DOUBLES, *_BYTES, StageTime]),
    "tavitrozy_name": (Counted, [*_BYTES, ClipTime, *_BYTES]),
    "tavitrozy_template_clip_times": (Counted, [TemplateTimes, c_bool, *_DOUBLES]),
    "tavitrozy_normalize": (Counted, [*_DOUBLES, *_DOUBLES, *_BYTES, *_DOUBLES, *_DOUBLES, *_BYTES]),
    "tavitrozy_total_key": (c_uint64, [c_uint64]),
}


def find() -> str:
    """Where the library is: TAVITROZY_LIBRARY, else beside this package, else the repository's target/lib, else as the system finds it."""
    named = os.environ.get("TAVITROZY_LIBRARY")
    if named:
        return named
    here = Path(__file__).resolve().parent
    repository = here.parent.parent.parent
    for place in [*sorted(here.glob("libtavitrozy.so*")), repository / "target/lib/libtavitrozy.so"]:
        if place.exists():
            return str(place)
    found = ctypes.util.find_library("tavitrozy")
    if found != SONAME:
        raise ImportError(f"{SONAME} is not found: run 'make' in the repository, or set TAVITROZY_LIBRARY to its path")
    return found


def load(path: str) -> ctypes.CDLL:
    """The library at this path, with the types of its calls."""
    try:
        library = ctypes.CDLL(path)
        for name, (gives, takes) in _CALLS.items():
            call = getattr(library, name)
            call.restype, call.argtypes = gives, takes
    except (OSError, AttributeError) as error:
        raise ImportError(f"{path} is no Tavitrozy library of this version: {error}") from error
    return library


calls = load(find())
