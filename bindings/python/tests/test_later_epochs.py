"""What became of transactions that went over into later epochs, by the cases of bindings/cases/epochs.txt: over a program that answers as a
case says, and archives that are written by hand.

A case is a line of prose, what a store finds, and names of transactions. Behind `->` is what is said of each. `opened` has the life
with which the program greets, how many events it found and how many it aborted; `history` the life of an archived history and its
events, as that of `cut`, which isn't whole; `present` the present life and the events of its epoch; `later` the life in which the
store is once they were read.
"""
import os
import unittest

import support

CASES = os.path.join(os.path.dirname(os.path.abspath(__file__)), "..", "..", "cases", "epochs.txt")
STORE = "5e" * 16
SAID = {"committed": True, "aborted": False, "nothing": None}
PROGRAM = """
events, life, later = {events}, {life}, {later}
sys.stderr.write("colock: a.db: {found} events, {aborted} aborted, 1 ms\\n")
sys.stderr.flush()
for tag, words in opened("colock 5 {greeted}\\n"):
    if words[0] == "committed":
        say(f"{{tag}} seen {{life}}.0 0\\n")
    elif words[0] == "events":
        say("".join(f"{{tag}} {{event}}\\n" for event in events[int(words[1]) :]) + f"{{tag}} ok\\n")
        life = later
    else:
        say(f"{{tag}} ok\\n")
        break
"""


class LaterEpochs(support.Fakes):
    def store_of(self, lines):
        """A store by the lines of a case before those of transactions."""
        folder, said = support.folder_of(self), {}
        for line in lines:
            head, *events = line.split(" | ")
            what, *numbers = head.split()
            if what == "opened":
                said["greeted"], said["found"], said["aborted"] = numbers
            elif what == "present":
                said["life"], said["events"] = numbers[0], events
                said.setdefault("later", numbers[0])
            elif what == "later":
                said["later"] = numbers[0]
            else:
                self.write_history(folder, numbers[0], [*events, *{"history": ["end"], "cut": []}[what]])
        path = os.path.join(folder, "a.db")
        support.write_id(path, STORE)
        return self.open(PROGRAM.format(**said), path=path, archive=folder)

    def write_history(self, folder, life, lines):
        with open(os.path.join(folder, f"{STORE}-{life}.history"), "w", encoding="ascii") as file:
            file.write("object undo 0\n" + "".join(f"{line}\n" for line in lines))

    def test_cases_come_out(self):
        with open(CASES, encoding="ascii") as file:
            cases = file.read().strip().split("\n\n")
        self.assertGreaterEqual(len(cases), 20)
        for case in cases:
            prose, *lines = case.split("\n")
            asked = [line.split(" -> ") for line in lines if " -> " in line]
            self.assertTrue(asked, prose)
            store = self.store_of([line for line in lines if " -> " not in line])
            for name, wanted in asked:
                with self.subTest(prose, name=name):
                    self.assertIs(store.committed(name), SAID[wanted])
            support.closed(store)


if __name__ == "__main__":
    unittest.main()
