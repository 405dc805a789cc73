"""Runs inside gdb, for bench/stages: the processor seconds of each stage of one run, and the greatest resident size in it.

The current folder has `beginnings.json`: for each stage, in order, its name and the functions with which it may begin. It
begins where one of them is called first. `told.json` gets the seconds and the KiB of each stage that began, and under `rest`
those before the first.
"""

import json

import gdb


class Beginning(gdb.Breakpoint):
    """A stop at a function with which the stage at this place may begin."""

    def __init__(self, function, place):
        super().__init__(f"-function '{function}'")
        self.place = place


def greatest():
    """The greatest resident size since the kernel last forgot it."""
    with open(f"/proc/{gdb.selected_inferior().pid}/status", encoding="utf-8") as status:
        return next(int(line.split()[1]) for line in status if line.startswith("VmHWM:"))


def processor_seconds():
    """Those of the program so far, which the kernel counts while it runs, and so without what gdb takes at a stop."""
    with open(f"/proc/{gdb.selected_inferior().pid}/schedstat", encoding="utf-8") as counts:
        return int(counts.read().split()[0]) / 1e9


def forget(waiting, place):
    """Stops no more for the stages up to this place."""
    for past in [it for it in waiting if it.place <= place]:
        past.delete()
        waiting.remove(past)


def main():
    with open("beginnings.json", encoding="utf-8") as file:
        stages = json.load(file)
    places = {function: place for place, (_, functions) in enumerate(stages) for function in functions}
    waiting = [Beginning(function, place) for function, place in places.items()]
    gdb.execute("catch syscall exit_group")
    gdb.execute("run")
    told, name, begun = {}, "rest", 0
    while (function := gdb.newest_frame().name()) in places:
        told[name] = processor_seconds() - begun, greatest()
        name, begun = stages[places[function]][0], processor_seconds()
        forget(waiting, places[function])
        if gdb.convenience_variable("gives_back"):
            gdb.execute("set variable *(int *) &stage_begins = 1")
        gdb.execute("continue")
    told[name] = processor_seconds() - begun, greatest()
    with open("told.json", "w", encoding="utf-8") as file:
        json.dump(told, file)
    gdb.execute("continue")


main()
