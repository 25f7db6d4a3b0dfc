"""Random calls on both sides, single and in lists with their book; half of the lists also as their mirror image."""

import collections
import time

import bounds
import mirror
from book import Book
from draws import Draws, is_known, same_size_grids, to_bits
from instrument import D, KINDS, LINE_KINDS, moving
from library import Overwritten, Reference
from refusals import beyond
from step import one_step
from tables import BUILT_IN

REFERENCE = Reference()
# The share of sizes around 64 points and a few times as many.
LONG = 0.2
# The share of lists that are also played as their mirror image.
MIRRORED = 0.5


class Difference(Exception):
    """The library and the reference, a call and its mirror image, or the book and the bound, do not agree."""


def written(name, arguments):
    """A call with all arguments, floats with their bits."""
    listed = [f"{x!r} ({to_bits(x):#x})" if isinstance(x, float) else repr(x) for x in arguments]
    return f"{name}({', '.join(listed)})"


def shown(name, arguments, expected, found, sides=("reference", "library  ")):
    """A call and both outcomes."""
    return f"{written(name, arguments)}\n{sides[0]} {expected}\n{sides[1]} {found}"


def without_work(arguments):
    """The arguments of a block for the block in place."""
    return *arguments[:8], *arguments[9:]


def left_without_work(outcome):
    """The outcome of a block in the form of the block in place."""
    return *outcome[:5], outcome[6]


def work_alone_is_wrong(arguments):
    """Whether work, and neither older nor newer, has a wrong length."""
    _, columns, rows, *_ = arguments
    older, newer, work = (len(level) == columns * rows for level in arguments[6:9])
    return older and newer and not work


def tell(book, name, arguments, outcome, *each_step):
    """A call of a list, told to a book; the outcome of a block is without work."""
    if name in mirror.PLUCKS:
        getattr(book, name)(*arguments)
    else:
        *_, hit, point, force = arguments
        book.block(*arguments[:8], (point, force) if hit else None, *outcome[1:3], *each_step)


class WatchedBook(Book):
    """A book that looks at its energy at every step."""

    steps_watched = 0

    def step(self, hit):
        before = self.energy()
        super().step(hit)
        after, divisor = self.energy(), D + self.last[1][2]
        if before < 0 or after < 0:
            raise Difference(f"negative energy: {self.last}")
        if hit is None and after > before * divisor**2:
            raise Difference(f"energy raised: {self.last}")
        if hit is None and divisor == D and after != before * divisor**2:
            raise Difference(f"energy not kept: {self.last}")
        WatchedBook.steps_watched += 1


class Run:
    """Random calls from one seed to one library."""

    def __init__(self, library, seed, progress, stop_at=None):
        self.library, self.draw, self.progress, self.stop_at = library, Draws(seed), progress, stop_at
        self.draw.long = LONG
        self.counts = collections.Counter()
        # The book of the mirror image of the list that is played, None where that list is not mirrored.
        self.image = None

    def agreed(self, name, arguments):
        """One call on both sides; the reference's outcome."""
        expected = getattr(REFERENCE, name)(*arguments)
        self.progress.value += 1
        if self.progress.value == self.stop_at:
            raise Difference(shown(name, arguments, expected, "ended the process"))
        try:
            found = getattr(self.library, name)(*arguments)
        except Overwritten:
            raise Difference(shown(name, arguments, expected, "wrote outside a buffer")) from None
        if found != expected:
            raise Difference(shown(name, arguments, expected, found))
        self.counts[name, expected[0]] += 1
        if name in ("block", "block_in_place") and expected[0] in (0, 13):
            kind, _, _, _, m = arguments[:5]
            self.counts[f"kind {kind}{', stiff' if m else ''}"] += 1
            self.counts["inexact points"] += expected[2]
            self.counts["inexact blocks"] += expected[2] > 0
        return expected

    def call(self, name, *arguments):
        """One call on both sides, and its mirror image in a list that is mirrored; the reference's outcome."""
        outcome = self.agreed(name, arguments)
        if self.image:
            self.call_image(name, arguments, outcome)
        return outcome

    def call_image(self, name, arguments, outcome):
        """The mirror image of a call, also on both sides; where there is none, the mirror image of the list ends.

        It takes the levels that the image's last call left: this check held there, so they are the list's own negated.
        """
        image = mirror.of_arguments(name, arguments)
        if image is None:
            self.image = None
            self.counts["mirror images ended"] += 1
            return
        found = self.agreed(name, image)
        if not mirror.is_image(name, outcome, found):
            raise Difference(f"not the mirror image\n{written(name, arguments)}\n" + shown(
                name, image, outcome, found, ("the first ", "the second")))
        self.count_image(name, arguments, outcome)

    def count_image(self, name, arguments, outcome):
        """What became of a call and its mirror image."""
        refusal = outcome[0]
        self.counts["mirrored calls"] += 1
        self.counts["mirrored, refused"] += refusal not in (0, 13)
        if name in mirror.PLUCKS:
            self.counts["mirrored plucks"] += refusal == 0
            self.counts["mirrored plucks by lent tables"] += refusal == 0 and name == "pluck_with"
            return
        steps, hit = outcome[1], arguments[-3]
        self.counts["mirrored hits"] += hit > 0 and steps > 0
        if refusal == 13:
            self.counts["mirrored, 13 later" if steps else "mirrored, 13 first"] += 1

    def block_arguments(self, grid, settings, older, newer):
        """Those of a block, with drawn work, samples, pick-up and hit."""
        draw = self.draw
        size = len(newer)
        work = [draw.randint(-9, 9)] * size
        if draw.rarely(draw.odds / 2):
            work = draw.level(grid)
        if draw.rarely():
            work = [draw.randint(-9, 9)] * draw.wrong_length(size)
        hit, point, force = 0, draw.wild(), draw.wild_signed()
        if draw.rarely(0.6):
            hit, point, force = draw.choice((1, 1, draw.wild() or 1)), draw.point(grid, True), draw.force()
        return *grid, *settings, older, newer, work, self.samples(size), draw.point(grid), hit, point, force

    def both_blocks(self, arguments):
        """Both blocks on the same input; the outcome, without work."""
        three = self.call("block", *arguments)
        two = self.call("block_in_place", *without_work(arguments))
        if work_alone_is_wrong(arguments):
            self.counts["both, work of a wrong length"] += 1
            three = REFERENCE.block(*arguments[:8], arguments[6], *arguments[9:])
        if two != left_without_work(three):
            raise Difference(shown("both blocks", arguments, three, two, ("three levels", "in place    ")))
        self.counts["both"] += 1
        if two[0] == 13:
            self.count_thirteen(arguments, two)
        return two

    def count_thirteen(self, arguments, outcome):
        """13 in the first step or later, and where the last moving point alone would pass the ceiling."""
        grid, settings, (hit, *given) = arguments[:3], arguments[3:6], arguments[11:]
        _, steps, _, older, newer, _ = outcome
        following, _ = one_step(grid, settings, older, newer, given if hit and steps == 0 else None)
        passing = [point for point, value in enumerate(following) if beyond(value)]
        self.counts["both, 13 later" if steps else "both, 13 first"] += 1
        self.counts["both, 13 last point"] += passing == [moving(*grid)[-1][0]]

    def either_block(self, arguments):
        """One block of the two, now and then both; the outcome, without work."""
        share = self.draw.random()
        if share < 0.2:
            return self.both_blocks(arguments)
        if share < 0.6:
            return self.call("block_in_place", *without_work(arguments))
        return left_without_work(self.call("block", *arguments))

    def samples(self, size):
        """Few on large grids; now and then very many on the smallest."""
        if size <= 5 and self.draw.rarely(0.001):
            return [0] * self.draw.randint(500, 1500)
        samples = self.draw.samples()
        return samples if size <= 62 else samples[:5]

    def pluck_arguments(self, grid, older, newer):
        draw = self.draw
        return (*grid, older, newer, draw.point(grid, True), draw.half_width(grid[1]), draw.force())

    def pluck_by_table(self, arguments):
        """A pluck by a lent table, the last argument, and where that is a copy of T the built-in one on the same input; the outcome."""
        outcome = self.call("pluck_with", *arguments)
        if arguments[-1] == BUILT_IN:
            built_in = self.call("pluck", *arguments[:-1])
            if outcome[:3] != built_in:
                raise Difference(shown("both plucks", arguments, built_in, outcome, ("built-in  ", "copy of T ")))
            self.counts["copies of T"] += 1
        return outcome

    def pluck_beside(self, book, grid, older, newer):
        """A pluck by T or by a lent table with its book; the outcome."""
        arguments = self.pluck_arguments(grid, older, newer)
        if self.draw.rarely(0.5):
            name, arguments = "pluck_with", (*arguments, self.draw.table())
            outcome = self.pluck_by_table(arguments)
        else:
            name, outcome = "pluck", self.call("pluck", *arguments)
        self.tell_books(book, name, arguments, outcome)
        return outcome

    def block_beside(self, book, grid, settings, older, newer):
        """A block with its book, every sample beside the book after as many steps; the outcome."""
        arguments = self.block_arguments(grid, settings, older, newer)
        pick_up, outcome = arguments[10], self.either_block(arguments)

        def heard(number):
            sample = outcome[5][number]
            passed = bounds.sample_passed(book, pick_up, sample)
            if passed:
                raise Difference(f"sample beyond {passed[0]}: n {book.n}, last step {book.last}\n"
                                 f"sample {sample}\nbook {book.newer[pick_up]}\nscale {book.scale}")
            self.counts["samples beside the book"] += 1

        self.tell_books(book, "block", arguments, outcome, heard)
        return outcome

    def tell_books(self, book, name, arguments, outcome, *each_step):
        """A call of a list, told to its book; its mirror image, whose counts are the same, to the image's book."""
        tell(book, name, arguments, outcome, *each_step)
        if self.image:
            tell(self.image, name, mirror.of_arguments(name, arguments), outcome)

    def settings(self, kind):
        return self.draw.even_settings(kind) if self.draw.rarely(0.3) else self.draw.settings(kind)

    def start(self):
        """A grid, settings and two levels; often the steps from there are exact for a while."""
        draw = self.draw
        kind = draw.kind()
        grid, settings = (kind, *draw.size(kind)), self.settings(kind)
        draw.unit = draw.unit_of(settings) if draw.rarely(0.4) else 1
        return grid, settings, *draw.levels(grid)

    def counted(self, book, older, newer):
        """Checks that levels whose counts were 0 are the book's; whether there was something to check."""
        if not book.as_counted(older, newer):
            raise Difference(f"no inexact point counted: n {book.n}, last step {book.last}\n"
                             f"older {older}\nnewer {newer}\nbook {book.older}\n{book.newer}\nscale {book.scale}")
        return book.count_tells(older, newer)

    def compare_books(self, book, newer):
        """Checks the book of the mirror image of a list beside the list's own."""
        if not mirror.is_image_book(book, newer, self.image):
            raise Difference(f"not the book of the mirror image\nnewer {newer}\n"
                             f"book  {vars(book)}\nimage {vars(self.image)}")

    def one_list(self):
        """A list of calls with its book; bound and counts are checked at every call, the bound at every sample too.

        MIRRORED of the lists are played as their mirror image too, call by call.
        """
        draw = self.draw
        grid, settings, older, newer = self.start()
        used, exact = [(grid, settings)], 0
        book = (WatchedBook if draw.rarely(0.25) else Book)(older, newer)
        self.image = Book(mirror.negated(older), mirror.negated(newer)) if draw.rarely(MIRRORED) else None
        hits_before = self.counts["mirrored hits"]
        length = draw.randint(1, 10) if draw.rarely(0.95) else draw.randint(10, 50)
        for _ in range(length):
            grid, settings = draw.choice(used)
            if draw.rarely(0.15) and len(newer) < 1025:
                grid = draw.choice(same_size_grids((1, len(newer), 1)) or [grid])
                settings = self.settings(grid[0])
                used = [used[-1], (grid, settings)]
            if draw.rarely(0.18):
                outcome = self.pluck_beside(book, grid, older, newer)
                older, newer = outcome[1:3]
            else:
                outcome = self.block_beside(book, grid, settings, older, newer)
                older, newer = outcome[3:5]
            passed = [] if book.within_bound(newer) else ["the bound"]
            if book.n and not passed:
                passed = bounds.passed(book, newer)
            if passed:
                raise Difference(f"distance beyond {passed[0]}: n {book.n}, last step {book.last}\n"
                                 f"newer {newer}\nbook {book.newer}\nscale {book.scale}")
            self.counts["far"] += book.n > 0 and book.distance(newer) > 0
            exact += self.counted(book, older, newer)
            if self.image:
                self.compare_books(book, newer)
        if self.image:
            self.counts["mirrored lists"] += 1
            self.counts["mirrored lists with hits"] += self.counts["mirrored hits"] > hits_before
            self.image = None
        self.counts["lists"] += 1
        self.counts["calls in lists"] += length
        self.counts["exact lists"] += exact > 0
        self.counts["exact calls"] += exact
        draw.unit = 1

    def start_of_block(self, grid):
        """Settings and two levels of a single block; now and then newer alone has a wrong length."""
        draw = self.draw
        if is_known(grid) and draw.rarely(0.1):
            return draw.loud_at_the_end(grid)
        settings, (older, newer) = draw.settings(grid[0]), draw.levels(grid)
        if draw.rarely(draw.odds / 2):
            newer = draw.level(grid, draw.wrong_length(len(newer)))
        return settings, older, newer

    def one_call(self):
        """A single call outside a list."""
        draw = self.draw
        name = draw.choice(("block", "block", "pluck", "pluck_with", "reading", "sheet", "sheet", "sheet"))
        kind = draw.kind(LINE_KINDS if name in mirror.PLUCKS else KINDS)
        grid = (kind, *draw.size(kind))
        if name == "sheet":
            record = draw.sheet(kind, grid[1])
            speed_kind = 0 if record.speed[0] == "hertz" else draw.choice((1, 1, draw.wild() or 1))
            density = record.speed[2] if speed_kind else draw.float(-3, 3)
            loss_kind = 0 if record.loss[0] == "per second" else draw.choice((1, 1, draw.wild() or 1))
            self.call("sheet", *grid, record.rate, record.length, record.bending, speed_kind,
                      record.speed[1], density, loss_kind, record.loss[1])
        elif name == "block":
            self.both_blocks(self.block_arguments(grid, *self.start_of_block(grid)))
        elif name == "pluck":
            self.call("pluck", *self.pluck_arguments(grid, *draw.levels(grid)))
        elif name == "pluck_with":
            self.pluck_by_table((*self.pluck_arguments(grid, *draw.levels(grid)), draw.table()))
        else:
            self.call("reading", *grid, draw.level(grid), draw.point(grid))

    def go(self, calls, seconds):
        """Until so many calls or seconds."""
        end = time.monotonic() + seconds
        while self.progress.value < calls and time.monotonic() < end:
            self.draw.odds = self.draw.choice((0.0, 0.01, 0.01, 0.03, 0.3 if self.draw.rarely(0.1) else 0.02))
            if self.draw.rarely(0.3):
                self.one_list()
            else:
                for _ in range(5):
                    self.one_call()
        self.counts["energy watched"] = WatchedBook.steps_watched
        return self.counts
