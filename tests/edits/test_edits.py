"""The prover refuses each wrong body in crates/NAME/must-fail: a class for each crate, whose check is shared by its
cases, and a case for each edit. What the check says goes to out/edits-NAME.log."""
from tests.edits import copies
from tests.support import needs
from tests.support.case import Case


class Edits:
    """The edits of a crate; each crate has a class of its own, with a case for each edit, below."""

    @classmethod
    def setUpClass(cls):
        if below := copies.unproved_below(cls.crate):
            raise AssertionError(copies.LACKING.format(", ".join(below)))
        cls.edits, cls.problems = {}, {}
        for name in cls.names:
            try:
                cls.edits[name] = copies.read_edits(cls.crate, name)
            except ValueError as problem:
                cls.problems[name] = f"BAD EDIT: {problem}"
        cls.results, cls.others = copies.try_edits(cls.crate, [edit for some in cls.edits.values() for edit in some])

    def refused(self, name):
        """Fails for each function that the edit changes and whose body isn't refused."""
        self.assertNotIn(name, self.problems, self.problems.get(name))
        for edit in self.edits[name]:
            is_refused, said = self.results[edit.name]
            self.sound(edit.name, None if is_refused else said)

    def test_nothing_else_is_refused(self):
        self.assertEqual(self.others, [])

    def test_each_goal_is_of_an_edit(self):
        self.assertLessEqual(set(copies.goals_of(self.crate)), {it.name for some in self.edits.values() for it in some})


def case_of(name):
    def test(self):
        self.refused(name)
    return test


def class_of(crate, names):
    cases = {f"test_{name}": case_of(name) for name in names}
    return needs.toolchain(type(crate, (Edits, Case),
                                {"__module__": __name__, "crate": crate, "names": names, **cases}))


globals().update({crate: class_of(crate, names) for crate, names in copies.crates_with_edits().items()})
