#!/usr/bin/env python3
"""Runs the programs over inputs that come in blocks or fail, and outputs that take little or fail: what they answer, and when
they read and write.

usage: tests/ends.py PROGRAM PAGE

PROGRAM is cnsbook and PAGE is cnspage. `ends.c`, loaded before the C library, stands between them and what they read and write. Prints how
many runs passed, or one line of what failed, and exits with status 1 then.
"""

import os
import subprocess
import sys
import tempfile

HERE = os.path.dirname(os.path.abspath(__file__))
OPEN = ["--open", "2024-06-03"]
REPLAY = ["replay", *OPEN]
USAGE = "usage: cnsbook replay --open DATE | run --open DATE FILE... | statements --open DATE --day DATE --workers N\n"

# The blocks of an input, and how many bytes of replies are due before more is asked for.
BLOCKS = {
    "a record at a time": [("MEMBER,1\n", 3), ("MEMBER,1\n", 13), ("MEMBER,2\n", 16)],
    "a block that ends inside of a record": [("MEMBER,1\nMEMB", 3), ("ER,2\nMEMBER,3\n", 9)],
    "a block that ends inside of CR LF": [("MEMBER,1\r", 3), ("\nMEMBER,2\r\n", 6), ("MEMBER,3\r\n", 9)],
    "a block that begins with the end of a record": [("MEMBER,1", 0), ("\n", 3), ("MEMBER,2\n", 6)],
    "a block that ends inside of a quoted field": [('MEMBER,1\nMEMBER,"2', 3), ('"\nMEMBER,3\n', 9)],
    "a line end in a quoted field": [('MEMBER,1\nMEMBER,"2\n', 3), ("3\n4", 3), ('5"\nMEMBER,6\nMEM', 18)],
    "whole records after a quote": [('"MEMBER",1\nMEMBER,2\nMEMBER,3\nMEM', 9), ("BER,4\n", 12)],
    "a doubled quote in two blocks": [('MEMBER,1\n"A"', 3), ('"\n",1\nMEMBER,2\n', 16), ("MEMBER,3\n", 19)],
    "a field that goes on after its quotes": [('MEMBER,"1"', 0), ('2"\nMEMBER,3\n', 15), ("MEMBER,4\n", 18)],
    "a quote inside of a field": [('MEMBER,1"\nMEMBER,3\n', 15), ("MEMBER,4\n", 18)],
    "a quote at the start of a block": [("MEMBER,", 0), ('"1"\n', 3), ("MEMBER,2\n", 6)],
    "a quote inside of a field at the start of a block": [("MEMBER,1", 0), ('"\nMEMBER,2\n', 15), ('"\n",1\n', 25)],
    "a line end after a block that ends with a quote": [('MEMBER,"1"', 0), ("\nMEMBER,2\n", 6), ("MEMBER,3\n", 9)],
    "blank lines before quotes": [('\n\r\n"MEMBER",1\n\n', 3), ('\n"MEMBER",2\n', 6), ("\n", 6)],
    "a quote that is never closed": [('MEMBER,1\nMEMBER,"2\n', 3), ("MEMBER,3\n", 3), ("MEMBER,4", 3)],
    "a byte order mark in pieces before a quote": [("\ufeff", 0), ('"MEMBER",1\n', 3), ('"\n",1\n', 13)],
    "blank lines": [("\n\nMEMBER,1\n\n\r\n", 3), ("\n", 3), ("\r\nMEMBER,2\n\n", 6)],
    "a byte order mark": [("\ufeffMEMBER,1\n", 3), ("MEMBER,2\n", 6)],
    "invalid records": [("X\nMEMBER,x\n", 22), ("MEMBER\n", 33)],
    "a last record without a line end": [("MEMBER,1\nMEMBER,2", 3)],
}

# Records of one member, each in this form, and the byte that ends a record.
FORMS = [
    ("MEMBER,{}\n", "\n"),
    ("MEMBER,{}\r\n", "\r"),
    ("MEMBER,{}\r", "\r"),
    ('MEMBER,"{}"\n', "\n"),
    ('"MEMBER","{}"\r\n', "\r"),
    ('"MEMBER",{}\r', "\r"),
    ('""MEMBER,""{}\n', "\n"),
]

TRADE = (
    "MEMBER,101\nMEMBER,202\nISSUE,037833100,19500\nTRADE,1,101,202,037833100,100,1950000,2024-06-03\n"
    "POSITION,101,037833100\n"
)
TRADE_REPLIES = "ok\nok\nok\nok\nposition 101 037833100 100 0 -19500.00 0\n"

DAY = (
    "MEMBER,101\nMEMBER,202\nISSUE,037833100,19500\nTRADE,1,101,202,037833100,100,1950000,2024-06-03\n"
    "PRICE,037833100,19600\nCLOSE,2024-06-04\nDELIVER,202,037833100,100\nCLOSE,2024-06-05\n"
)
STATEMENTS = (
    "statement 101 2024-06-03 1 100.00 0.00\nrow 037833100 0 100 0.00 196.00 -19500.00 100.00 0.00\n"
    "statement 202 2024-06-03 1 -100.00 0.00\nrow 037833100 0 -100 0.00 196.00 19500.00 -100.00 0.00\n"
)


class Run:
    """What a program came to: its status and outputs, and its calls, each with the bytes given and taken before."""

    count = 0

    def __init__(self, room, program, words, text, **ends):
        Run.count += 1
        told = os.path.join(room, "told")
        with open(told, "wb") as file, tempfile.TemporaryFile(dir=room) as given:
            given.write(text.encode())
            given.seek(0)
            ended = subprocess.run(
                [program, *words],
                stdin=given,
                capture_output=True,
                env={"LD_PRELOAD": os.path.join(room, "ends.so"), **{name: str(it) for name, it in ends.items()}},
                preexec_fn=lambda: os.dup2(file.fileno(), 9),
                close_fds=False,
                check=False,
            )
        self.status, self.output, self.errors = ended.returncode, ended.stdout, ended.stderr.decode()
        with open(told, encoding="utf-8") as file:
            self.calls = [(call, int(given), int(taken)) for call, given, taken in map(str.split, file)]

    def tells(self, status, output, errors):
        """Whether it ended so, and left alone an end that had failed."""
        is_late = any(call == "late" for call, _, _ in self.calls)
        return (self.status, self.output, self.errors) == (status, output.encode(), errors) and not is_late

    def is_prompt(self, dues):
        """Whether the replies that are due after so many bytes of input were written before more was asked for, and no write
        was made but before a read and at the end."""
        reads = [(given, taken) for call, given, taken in self.calls if call == "read"]
        writes = sum(call == "write" for call, _, _ in self.calls)
        late = [given for given, taken in reads if taken < dues.get(given, 0)]
        return not late and writes <= len(reads) + 1 and set(dues) <= {given for given, _ in reads}


def check(is_so, name):
    if not is_so:
        sys.exit(f"ends: {name}")


def blocks_of(texts):
    """The sizes of blocks, and what is due after each."""
    sizes = [len(text.encode()) for text, _ in texts]
    dues = {sum(sizes[: at + 1]): due for at, (_, due) in enumerate(texts)}
    return ",".join(map(str, sizes)), dues


def replies_come_before_more_is_asked_for(play):
    for name, texts in BLOCKS.items():
        text = "".join(text for text, _ in texts)
        whole = play(REPLAY, text)
        sizes, dues = blocks_of(texts)
        run = play(REPLAY, text, BLOCKS=sizes)
        check(run.tells(0, whole.output.decode(), "") and run.is_prompt(dues), name)


def replies_come_wherever_the_input_is_cut(play):
    for form, ending in FORMS:
        text = "".join(form.format(number) for number in range(10, 20))
        for size in range(1, len(text) + 1):
            cuts = range(size, len(text) + size, size)
            dues = {min(cut, len(text)): 3 * text[:cut].count(ending) for cut in cuts}
            run = play(REPLAY, text, BLOCKS=",".join([str(size)] * len(cuts)))
            check(run.tells(0, "ok\n" * 10, "") and run.is_prompt(dues), f"{form!r} in blocks of {size}")


def what_was_answered_before_a_fault_stands(play):
    for count in range(51):
        text = "".join(f"MEMBER,{number}\n" for number in range(101, 101 + count))
        check(play(REPLAY, text).tells(0, "ok\n" * count, ""), f"{count} records")
        for part in ("", "ISSUE,037833100,19"):
            run = play(REPLAY, text + part, BROKEN=0)
            check(run.tells(1, "ok\n" * count, "fault Read\n"), f"{count} records, '{part}' and a reader that fails")


def small_writes_and_signals_change_nothing(play):
    for step in (1, 2, 3):
        for signals in (0, 1):
            run = play(REPLAY, TRADE, STEP=step, SIGNALS=signals)
            check(run.tells(0, TRADE_REPLIES, ""), f"writes of {step}, signals {signals}")


def a_writer_that_fails_has_what_it_took(play, name, words, text, whole, rooms=None):
    for room in rooms or range(len(whole)):
        for full in (0, 1):
            run = play(words, text, STEP=3, ROOM=room, FULL=full)
            check(run.tells(1, whole[:room], "fault Write\n"), f"{name}: room for {room} bytes, full {full}")


def replies_longer_than_a_buffer_fail_likewise(play):
    """A block of records with replies of some 27 KB, so that writes fail before the block is answered."""
    text = DAY + "STATEMENT,101,2024-06-03\n" * 300
    whole = play(REPLAY, text, STEP=1000).output.decode()
    check(len(whole) > 25_000 and whole == play(REPLAY, text).output.decode(), "long replies")
    rooms = [0, 100, 8_191, 8_192, 8_193, 16_384, 20_000, len(whole) - 1]
    a_writer_that_fails_has_what_it_took(play, "long replies", REPLAY, text, whole, rooms)


def a_worker_that_ends_early_is_told_with_the_tally(play, room):
    files = [os.path.join(room, name) for name in ("one", "two")]
    for name, text in zip(files, ("MEMBER,101\nMEMBER,x\nMEMBER,202\n", "MEMBER,303\n")):
        with open(name, "w", encoding="utf-8") as file:
            file.write(text)
    tally = '{"closes":0,"commands":3,"counts":[2,1],"dividends":"0.00","lines":1,"marks":"0.00"}\n'
    words = ["run", *OPEN, *files]
    for worker, broken in ((1, 3), (2, 4)):
        check(play(words, "", BROKEN=broken).tells(1, tally, f"worker {worker} Read\n"), f"worker {worker} ends early")
    for at in range(len(tally)):
        for broken in (-1, 3):
            run = play(words, "", BROKEN=broken, ROOM=at)
            check(run.tells(1, tally[:at], "fault Write\n"), f"a tally with room for {at} bytes")


def errors_that_cannot_be_written_change_no_status(play):
    for words, status, line in ((["--open"], 2, USAGE), (REPLAY, 1, "fault Read\n")):
        for room in (0, 5):
            run = play(words, "", BROKEN=0, ERRORS=room)
            check(run.tells(status, "", line[:room]), f"'{line[:5]}' with room for {room} bytes")


def a_page_ends_likewise(play, page):
    text = "MEMBER,1\nCLOSE,2024-06-04\nMEMBER,1\n"
    for what, words in (("a page", OPEN), ("an account's page", [*OPEN, "--account", "1"])):
        whole = page(words, text).output.decode()
        check(whole.endswith("</html>\n") and page(words, text, STEP=7, SIGNALS=1).tells(0, whole, ""), f"{what} in small writes")
        check(page(words, text, BROKEN=0).tells(1, "", "fault Read\n"), f"{what} of records that cannot be read")
        for room in (0, 1, 3000, len(whole) - 1):
            run = page(words, text, ROOM=room)
            check(run.tells(1, whole[:room], "fault Write\n"), f"{what} with room for {room} bytes")


def main(program, page):
    with tempfile.TemporaryDirectory() as room:
        library = ["-O2", "-shared", "-fPIC", "-o", os.path.join(room, "ends.so"), os.path.join(HERE, "ends.c")]
        subprocess.run([os.environ.get("CC", "cc"), *library], check=True)

        def player(name):
            name = os.path.abspath(name)
            return lambda words, text, **ends: Run(room, name, words, text, **ends)

        play = player(program)
        replies_come_before_more_is_asked_for(play)
        replies_come_wherever_the_input_is_cut(play)
        what_was_answered_before_a_fault_stands(play)
        small_writes_and_signals_change_nothing(play)
        a_writer_that_fails_has_what_it_took(play, "replay", REPLAY, TRADE, TRADE_REPLIES)
        words = ["statements", *OPEN, "--day", "2024-06-03", "--workers", "2"]
        a_writer_that_fails_has_what_it_took(play, "statements", words, DAY, STATEMENTS)
        replies_longer_than_a_buffer_fail_likewise(play)
        a_worker_that_ends_early_is_told_with_the_tally(play, room)
        errors_that_cannot_be_written_change_no_status(play)
        a_page_ends_likewise(play, player(page))
    print(f"ends: {Run.count} runs")


if __name__ == "__main__":
    main(*sys.argv[1:])
