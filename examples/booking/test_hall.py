"""The types, the board and the transactions of the hall, over a store in memory."""
import threading
import unittest
from functools import partial
from typing import Callable, List, Optional, Sequence
from unittest import mock

import colock
import hall
from board import Board, SeatState, Shown, Turn
from hall import COUNT, MOST_AT_ONCE, OBJECTS, SEAT, SEAT_OPERATIONS, SEATS, SOLD, Denied, Disagree, Hall, NoSeat

FREE, HELD, BOOKED = SeatState.FREE, SeatState.HELD, SeatState.BOOKED


def in_memory() -> colock.Store:
    return colock.Store.with_limits(OBJECTS, colock.Limits(objects=len(OBJECTS)))


def in_threads(acts: Sequence[Callable[[], None]]) -> None:
    """Does all of them, each in a thread of its own."""
    threads = [threading.Thread(target=act) for act in acts]
    for thread in threads:
        thread.start()
    for thread in threads:
        thread.join()


class TypesTest(unittest.TestCase):
    def test_each_call_has_one_reply_in_each_state(self) -> None:
        self.assertEqual(list(SEAT.labels or ()), [FREE, HELD, BOOKED])
        for state in range(3):
            legal = [SEAT_OPERATIONS[k][0] for k in range(len(SEAT_OPERATIONS)) if SEAT.step(state, k) is not None]
            self.assertEqual(legal, ["hold", "book", "release", "look"])

    def test_what_the_calls_do(self) -> None:
        ok = [[SEAT.step(state, SEAT_OPERATIONS.index((call, "ok"))) for state in range(3)] for call in ("hold", "book", "release")]
        # free is 0, held 1, booked 2
        self.assertEqual(ok, [[1, None, None], [None, 2, None], [None, 0, None]])
        for k, (call, reply) in enumerate(SEAT_OPERATIONS):
            if reply != "ok":
                at = [FREE, HELD, BOOKED].index(SeatState(reply))
                self.assertEqual(SEAT.step(at, k), at, f"{call} {reply}")

    def test_the_hall(self) -> None:
        self.assertEqual((len(SEATS), len(set(SEATS)), len(OBJECTS)), (3_000, 3_000, 3_001))
        self.assertEqual([SEATS[place] for place in (0, 74, 75, 2_924, 2_925, 2_999)], ["A1", "A75", "B1", "AM75", "AN1", "AN75"])
        self.assertEqual((COUNT.states - 1, COUNT.kind), (3_000, colock.Kind.ESCROW))

    def test_who_finds_a_seat_held_finds_it_settled(self) -> None:
        """What the holds in memory rest on: none of these runs beside an open transaction that changes the seat."""
        for requested in ("book", "ok"), ("release", "ok"), ("hold", "held"):
            self.assertTrue(SEAT.conflicts(requested, ("hold", "ok")), requested)
        for requested in ("book", "ok"), ("release", "ok"):
            self.assertTrue(SEAT.conflicts(requested, ("hold", "held")), requested)


class BoardTest(unittest.TestCase):
    def setUp(self) -> None:
        self.board = Board({"a": FREE, "b": FREE, "c": BOOKED}, 1, 60.0)

    def test_what_a_guest_is_shown(self) -> None:
        for count, (seat, guest) in enumerate([("a", "ann"), ("b", "bob")], 1):
            hold = self.board.put(seat, guest, Turn(count))
            self.assertIs(self.board.seen_by(guest).seats[seat], Shown.FREE)
            self.board.show(seat, HELD, hold.turn)
        seen = self.board.seen_by("ann")
        self.assertEqual((seen.seats, list(seen.left), seen.sold), ({"a": Shown.MINE, "b": Shown.HELD, "c": Shown.BOOKED}, ["a"], 1))
        self.assertTrue(55.0 < seen.left["a"] <= 60.0, seen.left)
        self.board.show("a", BOOKED, Turn(3))
        self.assertEqual(self.board.seen_by("ann"), ({"a": Shown.BOOKED, "b": Shown.HELD, "c": Shown.BOOKED}, {}, 2))

    def test_the_later_turn_stays(self) -> None:
        self.board.show("a", BOOKED, Turn(2))
        self.board.show("a", HELD, Turn(1))
        self.assertEqual(self.board.seen_by("ann"), ({"a": Shown.BOOKED, "b": Shown.FREE, "c": Shown.BOOKED}, {}, 2))

    def test_a_release_lets_go_of_older_holds_alone(self) -> None:
        self.board.put("a", "ann", Turn(1))
        bobs = self.board.put("a", "bob", Turn(3))
        self.board.show("a", FREE, Turn(2))
        self.assertIs(self.board.hold_of("a"), bobs)
        self.board.show("a", FREE, Turn(4))
        self.assertIsNone(self.board.hold_of("a"))

    def test_what_is_overdue(self) -> None:
        board = Board({"a": FREE}, 0, 1e-9)
        hold = board.put("a", "ann", Turn(1))
        while hold.left() > 0:
            pass
        self.assertEqual(board.overdue(), [hold])
        self.assertEqual(self.board.overdue(), [])


class HallTest(unittest.TestCase):
    def setUp(self) -> None:
        self.store = in_memory()
        self.addCleanup(self.store.close)
        self.hall = Hall(self.store, 60.0)

    def shown(self, name: str, guest: str) -> Shown:
        return self.hall.seen_by(guest).seats[name]

    def denied(self, act: Callable[[Sequence[str], str], object], name: str, guest: str) -> str:
        with self.assertRaises(Denied) as caught:
            act([name], guest)
        return str(caught.exception)

    def test_a_seat_is_held_and_booked(self) -> None:
        self.hall.hold(["C7"], "ann")
        self.assertEqual((self.shown("C7", "ann"), self.shown("C7", "bob")), (Shown.MINE, Shown.HELD))
        self.hall.book(["C7"], "ann")
        self.assertEqual((self.shown("C7", "ann"), self.hall.seen_by("bob").sold), (Shown.BOOKED, 1))
        self.assertEqual((self.store.kept("C7"), self.store.kept(SOLD), self.store.open_count()), (2, 1, 0))

    def test_a_seat_is_held_and_released(self) -> None:
        self.hall.hold(["C7"], "ann")
        self.hall.release(["C7"], "ann")
        self.assertIs(self.shown("C7", "ann"), Shown.FREE)
        self.hall.hold(["C7"], "bob")
        self.assertIs(self.shown("C7", "bob"), Shown.MINE)

    def test_holding_again_changes_nothing(self) -> None:
        first, again = self.hall.hold(["C7"], "ann"), self.hall.hold(["C8", "C7"], "ann")
        self.assertEqual([hold.seat for hold in again], ["C7", "C8"])
        self.assertIs(again[0], first[0])

    def test_what_others_have_is_denied(self) -> None:
        self.hall.hold(["C7"], "ann")
        self.assertEqual(self.denied(self.hall.hold, "C7", "bob"), "Somebody else holds C7.")
        self.assertEqual(self.denied(self.hall.book, "C7", "bob"), "Somebody else holds C7.")
        self.assertEqual(self.denied(self.hall.release, "C7", "bob"), "You don't hold C7.")
        self.assertEqual(self.denied(self.hall.book, "C8", "ann"), "Nobody holds C8.")
        self.hall.book(["C7"], "ann")
        for guest in "ann", "bob":
            self.assertEqual(self.denied(self.hall.hold, "C7", guest), "C7 is booked.")
            self.assertEqual(self.denied(self.hall.book, "C7", guest), "C7 is booked.")
            self.assertEqual(self.denied(self.hall.release, "C7", guest), "You don't hold C7.")
        self.assertEqual((self.store.kept(SOLD), self.store.open_count()), (1, 0))

    def test_several_seats_are_one_transaction(self) -> None:
        self.hall.hold(["C7", "A1", "AN75", "A1"], "ann")
        self.hall.hold(["C8"], "bob")
        states = ["C7", "A1", "AN75", "C6", "C8"]
        count = self.store.event_count()
        for act, names in (self.hall.hold, ["C6", "C8"]), (self.hall.book, ["A1", "C8"]), (self.hall.book, ["C6", "C7"]), (self.hall.release, ["C7", "C8"]):
            with self.assertRaises(Denied):
                act(names, "ann")
            self.assertEqual(([self.store.kept(name) for name in states], self.store.kept(SOLD)), ([1, 1, 1, 0, 1], 0))
        self.assertIs(self.shown("C6", "ann"), Shown.FREE)
        self.hall.hold(["C6"], "bob")
        self.assertGreater(self.store.event_count(), count)
        self.hall.release(["A1"], "ann")
        self.hall.book(["AN75", "C7"], "ann")
        self.assertEqual(([self.store.kept(name) for name in states], self.store.kept(SOLD)), ([2, 0, 2, 1, 1], 2))
        self.assertEqual([self.shown(name, "bob") for name in states], [Shown.BOOKED, Shown.FREE, Shown.BOOKED, Shown.MINE, Shown.MINE])

    def test_guests_at_the_same_seats(self) -> None:
        """Each wants three seats of which others want some: whoever books has all of them."""
        names, booked = SEATS[:12], []

        def trying(guest: int) -> None:
            mine = [names[(guest * 5 + n * 7) % 12] for n in range(3)]
            try:
                self.hall.hold(mine, str(guest))
                self.hall.book(mine, str(guest))
                booked.extend(mine)
            except Denied:
                pass

        in_threads([partial(trying, guest) for guest in range(24)])
        self.assertEqual((len(set(booked)), self.store.kept(SOLD)), (len(booked), len(booked)))
        self.assertGreater(len(booked), 2)
        self.assertEqual({name for name in SEATS if self.store.kept(name) == 2}, set(booked))
        self.assertEqual(self.hall.stats().deadlocks, 0)

    def test_there_are_other_seats(self) -> None:
        for name in "C76", "AO1", "c7", SOLD, "":
            for act in self.hall.hold, self.hall.book, self.hall.release:
                with self.assertRaises(NoSeat):
                    act(["C7", name], "ann")
        self.assertEqual(self.store.event_count(), len(SEATS) + 2)

    def test_nothing_is_shown_before_it_is_durable(self) -> None:
        commit, seen = colock.Transaction.commit, []

        def watched(t: colock.Transaction, *, key: Optional[str] = None) -> None:
            seen.append((self.shown("C7", "ann"), self.hall.seen_by("ann").sold))
            commit(t, key=key)
            seen.append((self.shown("C7", "ann"), self.hall.seen_by("ann").sold))

        with mock.patch.object(colock.Transaction, "commit", watched):
            self.hall.hold(["C7"], "ann")
            self.hall.book(["C7"], "ann")
        self.assertEqual(seen, [(Shown.FREE, 0)] * 2 + [(Shown.MINE, 0)] * 2)
        self.assertEqual((self.shown("C7", "ann"), self.hall.seen_by("ann").sold), (Shown.BOOKED, 1))

    def test_what_nobody_knows_is_not_shown(self) -> None:
        self.hall.hold(["C7"], "ann")
        lost = mock.Mock(side_effect=colock.OutcomeUnknown("1.1"))
        with mock.patch.object(colock.Transaction, "commit", lost), self.assertRaises(colock.OutcomeUnknown):
            self.hall.book(["C7"], "ann")
        self.assertEqual(lost.call_count, 1)
        self.assertEqual((self.shown("C7", "ann"), self.hall.seen_by("ann").sold), (Shown.MINE, 0))

    def test_one_of_many_gets_a_seat(self) -> None:
        got: List[str] = []

        def trying(guest: str) -> None:
            try:
                self.hall.hold(["C7"], guest)
                self.hall.book(["C7"], guest)
                got.append(guest)
            except Denied:
                pass

        in_threads([partial(trying, f"guest {n}") for n in range(16)])
        self.assertEqual((len(got), self.store.kept(SOLD), self.store.open_count()), (1, 1, 0))

    def test_nobody_is_busy_at_the_counter(self) -> None:
        def booking(row: str) -> None:
            mine = [f"{row}{place}" for place in range(1, hall.SEATS_IN_ROW + 1)]
            for first in range(0, len(mine), MOST_AT_ONCE):
                self.hall.hold(mine[first : first + MOST_AT_ONCE], row)
                self.hall.book(mine[first : first + MOST_AT_ONCE], row)

        in_threads([partial(booking, row) for row in hall.ROWS])
        self.assertEqual((self.hall.seen_by("ann").sold, self.store.kept(SOLD)), (3_000, 3_000))
        self.assertEqual(self.hall.stats().busy[self.store.find(SOLD)], 0)

    def test_a_booking_that_cannot_count_leaves_the_seat_held(self) -> None:
        self.hall.hold(["A1", "A2"], "ann")
        self.hall.book(["A1"], "ann")
        # somebody who counts bookings of all other seats, as no transaction of the hall does
        other = self.store.begin()
        for _ in range(299):
            other.expect(SOLD, "give:10", "ok")
        other.expect(SOLD, "give:9", "ok")
        with mock.patch.object(hall, "WAIT", 0.01), self.assertRaises(colock.TimedOut):
            self.hall.book(["A2"], "ann")
        other.abort()
        self.assertEqual((self.shown("A2", "ann"), self.store.kept("A2"), self.store.kept(SOLD)), (Shown.MINE, 1, 1))
        self.hall.book(["A2"], "ann")
        self.assertEqual((self.store.kept("A2"), self.store.kept(SOLD)), (2, 2))


class TimeTest(unittest.TestCase):
    """Holds that end, and halls that begin over what is there."""

    def setUp(self) -> None:
        self.store = in_memory()
        self.addCleanup(self.store.close)

    def test_a_hold_ends(self) -> None:
        short = Hall(self.store, 1e-9)
        short.hold(["C7"], "ann")
        short.hold(["C8"], "ann")
        short.book(["C8"], "ann")
        short.sweep()
        self.assertEqual((self.store.kept("C7"), list(short.seen_by("ann").seats.values()).count(Shown.FREE)), (0, 2_999))
        with self.assertRaises(Denied):
            short.book(["C7"], "ann")
        short.hold(["C7"], "bob")
        self.assertIs(short.seen_by("bob").seats["C7"], Shown.MINE)

    def test_a_sweep_leaves_what_is_held_in_time(self) -> None:
        long = Hall(self.store, 60.0)
        long.hold(["C7"], "ann")
        long.sweep()
        self.assertIs(long.seen_by("ann").seats["C7"], Shown.MINE)

    def test_a_sweep_leaves_what_is_held_anew(self) -> None:
        long = Hall(self.store, 60.0)
        (old,) = long.hold(["C7"], "ann")
        long.release(["C7"], "ann")
        (new,) = long.hold(["C7"], "ann")
        # it looked through the holds before the release
        with mock.patch.object(Board, "overdue", return_value=[old]):
            long.sweep()
        self.assertIs(long.hold(["C7"], "ann")[0], new)
        self.assertEqual(self.store.kept("C7"), 1)

    def test_what_was_held_is_free_behind_a_restart(self) -> None:
        before = Hall(self.store, 60.0)
        for name in "C7", "C8":
            before.hold([name], "ann")
        before.book(["C8"], "ann")
        seen = Hall(self.store, 60.0).seen_by("ann")
        self.assertEqual((list(seen.seats.values()).count(Shown.FREE), seen.seats["C8"], seen.sold), (2_999, Shown.BOOKED, 1))
        self.assertEqual((self.store.kept("C7"), self.store.kept("C8")), (0, 2))

    def test_a_counter_that_disagrees_is_refused(self) -> None:
        with self.store.begin() as t:
            t.call("A1", "hold").executed()
            t.call("A1", "book").executed()
        with self.assertRaises(Disagree):
            Hall(self.store, 60.0)


if __name__ == "__main__":
    unittest.main()
