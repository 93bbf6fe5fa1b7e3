"""Tries a gathered edit in rounds, until each slip is refused or not in each function that it stands in."""
import judging


def wrong_in(room, edit, passed):
    """What is wrong with an edit's slips."""
    wrong = [f"it does not say in which functions the slip {slip.name} stands" for slip in edit.slips if not slip.places]
    waiting = [(slip.name, place) for slip in edit.slips for place in slip.places]
    room.write(edit.after)
    room.rename(edit.changed)
    wanted, number = set(edit.changed), 0
    while waiting:
        texts = edit.texts(wanted, {slip for slip, _ in waiting})
        room.write(texts)
        room.rename_only(wanted)
        log, number = room.check(), number + 1
        passed.keep(number, log)
        found = [(slip, place, judging.verdict(log, room.crate, place, edit.functions(place), texts)) for slip, place in waiting]
        wrong += [f"the slip {slip} is not refused in {place}: {said}" for slip, place, said in found if said not in (judging.REFUSED, judging.HIDDEN)]
        waiting = [(slip, place) for slip, place, said in found if said == judging.HIDDEN]
        left = wanted & {function for _, place in waiting for function in edit.functions(place)}
        if len(waiting) == len(found) and left == wanted:
            return wrong + [f"the slip {slip} is not tried in {place}: what it calls is not proved" for slip, place in waiting]
        wanted = left
    return wrong
