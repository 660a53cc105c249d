"""The tapes that crates/vectors reads, and the lines that it prints: how a case is written down.

A tape is a row of steps. A step is eight bytes: a letter, a small number of one byte, two numbers of two bytes and the number
of bytes that follow, low byte first. `+` lays the bytes that follow it, as often as its first number says, after those laid
already. Any other letter is a call on all that is laid, and the bytes that follow it are the case's name; afterwards nothing is
laid. Tapes may be put one after the other, and so may the lines that they give.

| letter | call | first | second | small | laid |
|---|---|---|---|---|---|
| x, d, e, q, g; X, D, E, Q | exact, doubled, doubled with every rotation, quick, grating | N | whole records of room | bytes of room more | cells |
| k, K | check | N | cells, of those laid the first | 0 | cells, then the plan |
| l, L | length | N | d | 0 | the plan |
| j, J | join | N | whole records of room | bytes of room more | the plan |
| 2, 1 | move to the second edition, to the first; and back | N | whole records of room | bytes of room more | the plan |
| r, R | open, and steps | N | how many steps | 0 | the plan |
| w, W | write one record | N | hold | bytes of room | 64 outputs, or 128 |
| u | quiet | N | whole records of room | bytes of room more | the limit in eight bytes, low byte first, then cells |
| y | the least total within a limit | N | 0 | 0 | the same |
| f | report the wavelengths | N | bytes of room | 0 | the plan |
| b | one wish each | 0 | 0 | 0 | words of 32 bits |
| s, S | a wish list | N | cells lent, each holding 7 before | 0 | the list |
| t | the lister's text | 0 | 0 | 0 | standard input |
| i | the record in force | N | records of tonight's plan | bytes of it more | the slot in 8 bytes, tonight's plan, then standby's |
| c | carry over | N | cells lent, each holding 7 before | 0 | first records in 8 bytes, cells asked and wished in 2 each, those cells, the plan |
| o | open shop | N | whole task records of room | bytes of room more | d in two bytes, then the cells |
| a | read tasks | N | 0 | 0 | the tasks |
| v | rescue | N | whole records of room | bytes of room more | how many cells and the bytes lent for the list, in 2 bytes each, the cells, the plan |
| m | the room beforehand | 0 | 0 | exact, doubled, quick; 3 to 5 those of the second edition | N and T, 8 bytes each |

Capital letters are calls of the second edition. A case's line is its name and what the call answered; planners, joining, the move and the
writer add a checksum of the lent buffer, which is filled with the byte 170 before the call. A short plan of the first edition that a planner or
joining wrote follows record by record. A plan that g or u wrote is reported in the lines after it. What 2 or 1 wrote is moved back into as many
bytes as were read, at most 139,264, with a line of its own. b gives a line for each word, s and c a second line with the lent cells, S a checksum
of them where they are over 4,096. i adds what the answer is about, the part's numbers and a checksum of it. Tasks that o wrote are read again
in the line after them. v adds the records added and dropped, and the checksum of the list behind that of the plan.
"""
BLANK = 170


def step(letter, small=0, first=0, second=0, follow=b""):
    numbers = b"".join(number.to_bytes(2, "little") for number in (first, second, len(follow)))
    return letter.encode() + bytes([small]) + numbers + follow


def lay(*parts):
    """Steps that lay each part, a pair of bytes and how often."""
    return b"".join(step("+", first=times, follow=data) for part in parts for data, times in cut(*part) if data and times)


def cut(data, times):
    """A part as it is, or, where it is laid once and ends with many idle outputs, as what is before them and one of them so often."""
    idle = len(data) - len(data.rstrip(b"\xff"))
    return [(data[:-idle], 1), (b"\xff", idle)] if times == 1 and idle > 16 else [(data, times)]


def lay_cells(cells):
    """Steps that lay cells, runs of a repeated row of cells written once."""
    return lay(*[(b"".join(cell.to_bytes(4, "little") for cell in run), times) for run, times in runs(cells)])


def lay_limit(limit, cells):
    """Steps that lay a limit, and then cells."""
    return lay((limit.to_bytes(8, "little"), 1)) + lay_cells(cells)


def runs(items):
    """Cuts a list into (part, times) pieces: greedily the repetition of up to 129 items that saves most, else single items."""
    pieces, single, at = [], [], 0
    while at < len(items):
        period, times = longest_repeat(items, at)
        if times * period - period >= 8:
            pieces += [(single, 1)] if single else []
            pieces.append((items[at : at + period], times))
            single, at = [], at + period * times
        else:
            single.append(items[at])
            at += 1
    return pieces + ([(single, 1)] if single else [])


def longest_repeat(items, at):
    best = (1, 1)
    for period in (1, 2, 3, 4, 5, 8, 9, 16, 17, 33, 34, 64, 65, 66, 128, 129):
        times = 1
        while items[at + times * period : at + (times + 1) * period] == items[at : at + period] and at + (times + 1) * period <= len(items):
            times += 1
        if (times - 1) * period > (best[1] - 1) * best[0]:
            best = (period, times)
    return best


def checksum(data):
    total = 1
    for byte in data:
        total = (total * 257 + byte + 1) % 4_294_967_291
    return total


def answer_text(answer):
    side = answer.side or "-"
    return (
        f" code {answer.code} place {answer.place} side {side} records {answer.records}"
        f" longest {answer.longest} total {answer.total} length {answer.length} empty {answer.empty}"
    )
