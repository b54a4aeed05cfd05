"""A lesson in ten questions, typed as lines of NumPy at the prompt, in a notebook and on the page. Lines that are offered are taken as they
are, and the last line gives NumPy's answer."""
import contextlib
import io
import unittest

from trials.companion_trials import TOOL, InFolder, needs_program, numpy_or_none, share
from trials.notebooks import Notebook
from trials.terminals import AT_PROMPT, Terminal
from test_page import RAN

np = numpy_or_none()
# Of each question the lines, of which the last one asks, and what NumPy 1.24 prints.
LESSON = {
    "Is a slice a view?": ("a = np.arange(6); s = a[1:3]; s[0] = 99; print(a)", "[ 0 99  2  3  4  5]"),
    "Is an array picked by a list a view?": ("a = np.arange(6); s = a[[1, 2]]; s[0] = 99; print(a)", "[0 1 2 3 4 5]"),
    "Is the ravel of a transpose a view?": ("m = np.arange(6).reshape(2, 3); r = m.T.ravel(); r[1] = 99; print(m)", "[[0 1 2]\n [3 4 5]]"),
    "Is a reshape one?": ("a = np.arange(6); m = a.reshape(2, 3); m[1, 0] = 99; print(a)", "[ 0  1  2 99  4  5]"),
    "What are (2, 1) and (3,) together?": ("a = np.array([[10], [20]]); b = np.array([1, 2, 3]); c = a + b; print(c)", "[[11 12 13]\n [21 22 23]]"),
    "What does an overlapping assignment leave?": ("a = np.arange(6); a[1:] = a[:-1]; print(a)", "[0 0 1 2 3 4]"),
    "Is an item that is named twice increased twice?": ("a = np.zeros(3, int); i = np.array([0, 0, 1]); a[i] += 1; print(a)", "[1 1 0]"),
    "What sees a write through a mask?": ("a = np.arange(6); b = a[::2]; a[a > 3] = 0; print(b)", "[0 2 0]"),
    "Does += make a new array?": ("a = np.arange(3); b = a; a += 1; a = a * 10; print(b)", "[1 2 3]"),
    "What is 250 + 10 in a byte?": ("u = np.array([250, 5], 'u1'); v = u + np.array([10, 10], 'u1'); print(v)", "[ 4 15]"),
    "Do two halves share items?": ("a = np.arange(6); b = a[:3]; c = a[3:]; np.shares_memory(b, c)", "False"),
}
SAID = {"True": "shares yes", "False": "shares no"}


def asked(question):
    """The lines of a question, and what the last one prints here."""
    lines, answer = LESSON[question]
    return lines.split("; "), SAID.get(answer, answer)


class Lesson(InFolder):
    @unittest.skipUnless(np, "NumPy is not installed")
    def test_by_numpy(self):
        for question, (lines, answer) in LESSON.items():
            said, names = io.StringIO(), {"np": np}
            *before, last = lines.split("; ")
            with self.subTest(question), contextlib.redirect_stdout(said):
                exec("\n".join(before), names)
                value = eval(last, names)
                self.assertEqual(answer, str(value) if value is not None else said.getvalue().removesuffix("\n"))

    @needs_program
    def test_at_the_prompt(self):
        """Enter on the empty line takes what is offered."""
        terminal = Terminal(self.folder, [str(TOOL), "shell"])
        self.addCleanup(terminal.close)
        terminal.until(AT_PROMPT)
        for question in LESSON:
            with self.subTest(question):
                lines, answer = asked(question)
                for line in lines:
                    said = terminal.line(line.encode())
                    if said.startswith("no E"):
                        self.assertIn("(Enter runs", said)
                        said = terminal.line(b"")
                    self.assertNotIn("no E", said)
                self.assertEqual(said.split(lines[-1][:5], 1)[-1].partition("\n")[2].removesuffix("\n"), answer)

    @needs_program
    def test_in_a_notebook(self):
        """`--take` takes what is offered; without it, it is in the next cell."""
        notebook = Notebook()
        self.addCleanup(notebook.close)
        for question in LESSON:
            lines, answer = asked(question)
            with self.subTest(question):
                said = notebook.cell("\n".join(["%%bench --take", *lines]))
                self.assertNotIn("no E", said)
                self.assertTrue(said.endswith(f"\n{answer}\n"), said)
            with self.subTest(question, next=True):
                said, cells = notebook.cell("\n".join(["%%bench", *lines])), 0
                while notebook.next:
                    said, cells = notebook.cell(notebook.next), cells + 1
                self.assertTrue(said.endswith(f"{answer}\n"), said)
                self.assertGreater(cells, 0)


class OnThePage:
    """The page in a browser, with one script for all questions: tools/test_browsers.py has the browsers. (A short run asks each in one of them.)"""

    OFFER = "(!take.hidden && document.querySelectorAll('#shown .l.no').length)"
    ACCEPTED = "(!document.querySelector('#shown .l.no') && Boolean(document.querySelector('#shown .l.here .r')))"

    def asked(self, page, line, take):
        """Types a line behind the script, and takes what is offered for it; nothing of the script stays refused."""
        page.type(line)
        text = f"script.value.endsWith({line!r}) && {RAN} && ({self.OFFER} || {self.ACCEPTED})"
        page.wait(text)
        if page.ask(self.OFFER):
            take(page)
        page.wait(f"{RAN} && {self.ACCEPTED}")

    def test_the_lesson(self):
        """The Tab key takes the lines that are offered, and the button does so in every other question."""
        takes = (lambda page: page.key("Tab"), lambda page: page.ask("take.querySelector('button').click()"))
        page = self.page()
        page.ask("script.focus(), script.select()")
        for number, question in enumerate(list(LESSON)[self.FIRST::share(2, 1)]):
            lines, answer = asked(question)
            with self.subTest(question):
                for line in lines:
                    self.asked(page, line, takes[number % 2])
                    self.assertEqual(page.ask("document.activeElement.id"), "script")
                    said = page.wait("line.textContent.endsWith(script.value.split('\\n').at(-1)) && reply.textContent")
                    page.key("Enter")
                self.assertEqual(said, answer)
        self.assertEqual(self.browser.faults, [])

    def test_without_waiting(self):
        """Tab that is pressed before the line has its answer takes what is offered as soon as that is there."""
        page = self.page()
        page.ask("script.focus(), script.select()")
        page.ask("""document.execCommand('insertText', false, 'a = np.arange(6)'),
            script.dispatchEvent(new KeyboardEvent('keydown', { key: 'Tab', bubbles: true, cancelable: true }))""")
        page.wait("script.value === 'a = arange <i8 0 6 1'")
        self.assertEqual(page.ask("document.activeElement.id"), "script")


if __name__ == "__main__":
    unittest.main()
