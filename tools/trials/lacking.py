"""Runs of a script that lack memory.

Such a run does not come to its first reply, or each reply is that of the script without the lines that are answered
`no E40 out of memory`, and so are the files. Such a reply never stands for a line that takes no memory."""
from __future__ import annotations

from typing import Any, Optional, Sequence

from .lines import Script, marked, replies_of
from .runs import Files, Part, Ran, Runner, shown

Numbers = tuple[int, ...]

LACK = "no E40 out of memory"
E40 = LACK.encode() + b"\n"
STOPPED = Ran(3, b"", b"bench: out of memory\n")
NEVER = (b"no E01 ", b"no E02 ", b"no E06 ", b"no E26 ")
# A list of more items than these takes memory as the line is read, before a name is looked up.
IN_PLACE = 1


class Lacking:
    """A script, run again and again with too little memory; of its lines so many at most may lack it."""

    def __init__(self, runner: Runner, part: Part, name: str, script: Script, most: Optional[int] = None) -> None:
        self.runner, self.part, self.name, self.script = runner, part, name, script
        self.lines, self.most = script.lines, len(script.lines) if most is None else most
        self.words = [] if script.depth is None else ["--undo", str(script.depth)]
        self.without: dict[Numbers, tuple[list[bytes], Files]] = {}

    def run(self, lines: Sequence[bytes], **bounds: Any) -> tuple[Ran, Files]:
        """What a run comes to, and the files that it leaves."""
        return self.runner.over(self.script.files, marked(lines), self.words, **bounds)

    def expected(self, refused: Numbers = ()) -> tuple[list[bytes], Files]:
        """Replies and files of the script without some lines, in a run with all memory."""
        if refused not in self.without:
            lines = [line for k, line in enumerate(self.lines) if k not in refused]
            ran, files = self.run(lines)
            self.without[refused] = replies_of(ran.out, lines) or [], files
        return self.without[refused]

    def judged(self, ran: Ran, files: Files) -> tuple[str, Optional[str]]:
        """What a run comes to: a word for the count, and what should have happened, or none."""
        if not ran.out and ran.status not in (0, 1):
            word = "stopped at the start" if ran == STOPPED else "ended at the start" if ran.status < 0 else "not started"
            return word, None if files == self.script.files else "the files as before"
        if ran.status != 1 or ran.err:
            return "ended otherwise", "status 1 and nothing on standard error"
        replies = replies_of(ran.out, self.lines)
        if replies is None:
            return "replies", "a reply to each line"
        refused = tuple(k for k, reply in enumerate(replies) if reply == E40)
        own, left = self.expected(refused)
        kept = [reply for k, reply in enumerate(replies) if k not in refused]
        word = "with E40" if refused else "without effect"
        if kept != own:
            which = next(k for k, (one, other) in enumerate(zip(kept, own)) if one != other)
            return word, f"{shown(own[which])} and not {shown(kept[which])}, as without lines {refused}"
        if files != left or len(refused) > self.most:
            return word, f"the files of the script without lines {refused}, of which there are {self.most} at most"
        return word, next((told for k in refused if (told := self.never(k, refused))), None)

    def never(self, number: int, refused: Numbers) -> Optional[str]:
        """Of a line that takes no memory, and so is never answered by E40, what it should have been answered."""
        line, words = self.lines[number], self.lines[number].split()
        before = tuple(k for k in refused if k < number)
        reply = self.expected(before)[0][number - len(before)]
        is_long = reply.startswith(b"no E06 ") and line.count(b",") >= IN_PLACE
        is_free = words[:1] == [b"undo"] or words[:1] == [b"del"] and self.script.depth == 0 and reply.startswith(b"ok del")
        return f"never E40 for {shown(line)}, but {shown(reply)}" if is_free or reply.startswith(NEVER) and not is_long else None

    def trial(self, where: str, may: Sequence[str] = (), **bounds: Any) -> str:
        """A run that lacks memory, which is counted; beside stopping, it may end before its first reply by these words."""
        ran, files = self.run(self.lines, **bounds)
        word, should = self.judged(ran, files)
        self.part.count(word)
        if word in ("ended at the start", "not started") and word not in may:
            should = "a run that starts, or says that it is out of memory"
        if should:
            happened = f"status {ran.status}, {shown(ran.err)}, replies {shown(ran.out)}, files {shown(list(files))}"
            self.part.fault(f"{self.name}, {where}", happened, should)
        return word
