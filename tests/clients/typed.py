"""The client as typed code uses it. It is looked at by mypy alone, and never run."""
from typing import Dict

import raxunto


class Hotel(raxunto.MemberHandler):
    """A member whose methods answer in each way."""

    @raxunto.complete
    def keep(self, asked: raxunto.Callback) -> None:
        """Is done."""
        print(asked.action_id)

    @raxunto.compensate
    def give_back(self, _: raxunto.Callback) -> str:
        """Answers by the name of a state."""
        return "Compensated"

    @raxunto.status
    def state(self, _: raxunto.Callback) -> raxunto.Result:
        """Answers in any way."""
        return raxunto.AT_IT

    @raxunto.forget
    @raxunto.after
    def end(self, asked: raxunto.Callback) -> raxunto.Answer:
        """Answers without the name of a state."""
        return raxunto.DONE if asked.end else raxunto.AGAIN

    def do_PUT(self) -> None:
        """Has routes of its own beside."""
        if not self.take_callback():
            self.reply(404)


def book(coordinator: raxunto.Coordinator) -> str:
    """Books, and returns how the trip stands."""
    addresses: Dict[str, str] = Hotel.addresses("http://127.0.0.1:8081/", "", work="1")
    with coordinator.start(limit=5) as trip:
        member = trip.join(**addresses)
        try:
            return member.status()
        except raxunto.NotActive as it:
            return it.status + it.name + str(it.code)
        except raxunto.Unreachable as it:
            return str(it.maybe_done)
