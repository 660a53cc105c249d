"""The stored vectors of the room beforehand: each planner of each edition where N or T crosses a bound."""
import reference as ref
import tape

PLANNERS = [(edition, planner) for edition in (ref.PORTS, ref.SECOND_PORTS) for planner in ("exact", "doubled", "quick")]
PORTS = (0, 1, 2, 3, 64, 65, 128, 129, 2**64 - 1)
LONGEST = (0, 1, 2, 1_024, 1_025, 65_535, 65_536, 2**64 - 1)


def room_case(number, n, longest):
    ports, planner = PLANNERS[number]
    title = f"room {planner} of up to {ports} ports, N = {n}, T = {longest}:"
    answer = ref.sufficient(planner, ports, n, longest)
    laid = tape.lay((n.to_bytes(8, "little") + longest.to_bytes(8, "little"), 1))
    return laid + tape.step("m", number, 0, 0, title.encode()), f"{title}{tape.answer_text(answer)}\n"


def cases():
    return [room_case(number, n, longest) for number in range(len(PLANNERS)) for n in PORTS for longest in LONGEST]
