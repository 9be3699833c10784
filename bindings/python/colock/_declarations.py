"""The structs, codes and calls of libcolock. Made by bindings/declare of bindings/c/colock.h."""
import ctypes
from typing import Any, Dict

VERSION = 3
PLACES = 256
LONGEST_NAME = 32

OK = 0
NOT_OPEN = 1
NO_OBJECT = 2
NO_CALL = 3
TOO_MANY_OPEN = 4
HISTORY_FULL = 5
NO_MEMORY = 6
BAD_ROLLBACK = 7
NOT_HELD = 8
IN_USE = 9
BAD_TEXT = 10
REFUSED = 11
BAD_KIND = 12
NO_OBJECTS = 13
TOO_MANY_OBJECTS = 14
NOT_FRESH = 15
BAD_MAX = 16
STILL_OPEN = 17
NOT_MADE = 18
FORGOTTEN = 19
BAD_PARAMETER = 20
TOO_LARGE = 21
NO_STATE = 22
NO_OPERATION = 23
NOT_LEGAL = 24
NO_ROOM = 25
NEEDS_ESCROW = 26
CHANGES = 27

_P = ctypes.POINTER
_TEXT = ctypes.c_char_p
_SIZE = ctypes.c_size_t
_8, _32, _64 = ctypes.c_uint8, ctypes.c_uint32, ctypes.c_uint64


class Handle(ctypes.Structure):
    _fields_ = [
        ("live", ctypes.c_bool),
        ("at", ctypes.c_void_p),
    ]


class Answer(ctypes.Structure):
    _fields_ = [
        ("kind", _64),
        ("number", _64),
    ]


class Fault(ctypes.Structure):
    _fields_ = [
        ("line", _64),
        ("kind", _64),
        ("first", _64),
        ("second", _64),
        ("third", _64),
    ]


class Shape(ctypes.Structure):
    _fields_ = [
        ("states", _64),
        ("initial", _64),
        ("ops", _64),
        ("kind", _64),
    ]


class Outcome(ctypes.Structure):
    _fields_ = [
        ("kind", _64),
        ("at", _64),
        ("number", _64),
    ]


class Event(ctypes.Structure):
    _fields_ = [
        ("transaction", _64),
        ("other", _64),
        ("op", _64),
        ("object", _32),
        ("kind", _32),
        ("worker", _32),
        ("reserved", _32),
    ]


_H = _P(Handle)

# What each call takes, by its name without `colock_`. Each returns a code, of 32 bits.
SIGNATURES: Dict[str, Any] = {
    "version": (),
    "type_read": (_H, _32, _TEXT, _SIZE, _P(Fault)),
    "type_tables": (_H, _32, _TEXT, _SIZE, _P(Fault)),
    "type_account": (_H, _32, _64, _P(_64), _SIZE, _P(Fault)),
    "type_counter": (_H, _32, _64, _P(_64), _SIZE, _P(Fault)),
    "type_stock": (_H, _32, _64, _P(_64), _SIZE, _P(Fault)),
    "type_set": (_H, _32, _TEXT, _SIZE, _P(Fault)),
    "type_semiqueue": (_H, _32, _TEXT, _SIZE, _64, _P(Fault)),
    "type_queue": (_H, _32, _TEXT, _SIZE, _64, _P(Fault)),
    "type_seats": (_H, _32, _64, _P(Fault)),
    "type_number": (_H, _32, _32, _P(_32), _SIZE, _P(Fault)),
    "type_shape": (_H, _P(Shape)),
    "type_name": (_H, _TEXT, _SIZE, _P(_64)),
    "type_call": (_H, _64, _TEXT, _SIZE, _P(_64)),
    "type_reply": (_H, _64, _TEXT, _SIZE, _P(_64)),
    "type_step": (_H, _64, _64, _P(_64)),
    "type_conflict": (_H, _64, _64, _P(_32)),
    "store_new": (_H,),
    "store_add": (_H, _H),
    "store_open": (_H, _64),
    "store_open_with": (_H, _64, _32, _32),
    "begin": (_H, _8, _P(_64)),
    "call": (_H, _8, _64, _32, _TEXT, _SIZE, _P(Answer)),
    "call_op": (_H, _8, _64, _32, _64, _P(Answer)),
    "call_number": (_H, _32, _TEXT, _SIZE, _P(_64)),
    "would": (_H, _64, _32, _TEXT, _SIZE, _P(Answer)),
    "would_op": (_H, _64, _32, _64, _P(Answer)),
    "attempt": (_H, _8, _P(_32), _SIZE, _TEXT, _SIZE, _P(_64), _SIZE, _P(Outcome)),
    "attempt_op": (_H, _8, _P(_32), _SIZE, _P(_64), _SIZE, _P(_64), _SIZE, _P(Outcome)),
    "commit": (_H, _8, _64),
    "abort": (_H, _8, _64),
    "rollback": (_H, _8, _64, _64),
    "kept": (_H, _32, _P(_64)),
    "open_count": (_H, _P(_64)),
    "abort_all": (_H,),
    "peek": (_H, _32, _TEXT, _SIZE, _P(Answer), _P(_64)),
    "committed": (_H, _32, _P(_64), _P(_64)),
    "snapshot": (_H, _P(_64), _SIZE, _P(_64)),
    "commit_count": (_H, _P(_64)),
    "events": (_H, _64, _P(Event), _SIZE, _P(_64)),
    "event_count": (_H, _P(_64), _P(_64)),
    "forget": (_H, _64),
    "follow": (_H, _P(Event), _SIZE, _P(_64)),
    "renew": (_H,),
    "store_extend": (_H, _H),
    "close": (_H,),
}
