"""Tests of simulate.py: case 13, the runs of the examples, bounds over random jobs, what it says, and arguments."""

import contextlib
import io
import pathlib
import random
import subprocess
import sys
import unittest

import sheet as sheets
import simulate

HERE = pathlib.Path(__file__).resolve().parent


def example(name, index=0):
    return sheets.parse((HERE.parent / "examples" / f"{name}.sheet").read_bytes()).tasks[index]


def run_of(task, shares, lengths, virtual=None, switch_after=None):
    """The tick after which the job ended, and the tick of its switch."""
    if virtual is None:
        virtual = simulate.virtual_deadline(task, shares[0])
    run = simulate.simulate(task, shares, lengths, virtual, switch_after)
    return run.last, run.switch


def ticks_of(run):
    """Each tick of a run: whether the state was critical, the running nodes, which of them ended, how the state turned."""
    for stretch in run.stretches:
        for tick in range(stretch.first, stretch.last + 1):
            last = tick == stretch.last
            yield stretch.critical, stretch.running, stretch.ended if last else [], stretch.turned if last else ""


def one_by_one(task, shares, lengths, virtual, switch_after, return_after):
    """The same, a tick at a time: S8.3, S8.5, S8.6, S8.9."""
    left, critical, ticks = list(lengths), switch_after == 0, []
    while any(left) and not (critical and len(shares) == 1):
        waits = [any(left[j] for j in range(v) if mask >> j & 1) for v, mask in enumerate(task.predecessors)]
        running = [v for v, ticks_left in enumerate(left) if ticks_left and not waits[v]][: shares[critical]]
        for node in running:
            left[node] -= 1
        age, turned = len(ticks) + 1, ""
        if critical and (not any(left) if task.high else age == return_after):
            turned = "returned"
        if not critical and (age == switch_after or task.high and any(left) and age >= virtual):
            turned = "switched"
        ticks.append((critical, running, [node for node in running if not left[node]], turned))
        critical = not critical if turned else critical
    return ticks


def random_job(rng):
    """Masks, lengths, their work and their longest chain."""
    count = rng.randrange(1, 9)
    masks = [sum(1 << j for j in range(v) if rng.random() < 0.3) for v in range(count)]
    lengths = [rng.randrange(1, 8) for _ in range(count)]
    task = sheets.Task("", 1, masks)
    return masks, lengths, sum(lengths), simulate.longest_chain(task, lengths)


class Examples(unittest.TestCase):
    def test_case_13(self):
        task = example("case-13")
        self.assertEqual(run_of(task, (1, 2), (4, 3, 2)), (9, None))
        self.assertEqual(run_of(task, (1, 2), (4, 3, 3))[1], 9)

    def test_a_node_that_ends_early(self):
        task = example("early-end")
        self.assertEqual(run_of(task, (3,), (2, 1, 2, 1, 3, 4)), (5, None))
        self.assertEqual(run_of(task, (3,), (1, 1, 2, 1, 3, 4)), (6, None))

    def test_rounding(self):
        task = example("rounding")
        self.assertEqual(simulate.virtual_deadline(task, 2), 6)
        self.assertEqual(run_of(task, (2, 2), (1, 1, 1, 1, 1, 4)), (6, None))
        self.assertEqual(run_of(task, (2, 2), (1, 1, 1, 1, 1, 5)), (7, 6))
        self.assertEqual(run_of(task, (2, 2), (1, 1, 1, 1, 1, 5), 7), (7, None))

    def test_a_neighbour_at_any_tick(self):
        task, lengths = example("neighbour", 1), (11, 4, 9, 4, 5, 5, 42)
        ends = [run_of(task, (3, 4), lengths, switch_after=after)[0] for after in range(7)]
        self.assertEqual(ends, [51, 50, 49, 48, 47, 48, 49])

    def test_a_low_job_that_is_not_kept_is_dropped(self):
        camera = example("shuttle-lamp", 2)
        for after in range(12):
            run = simulate.simulate(camera, (4,), (4,) * 12, 0, after)
            self.assertEqual((run.last, run.dropped, run.critically), (after, True, after == 0))

    def test_a_low_job_that_is_kept_takes_no_notice_of_the_switch(self):
        lamp, lengths = example("shuttle-lamp", 1), (4,) * 6
        alone = [running for _, running, _, _ in ticks_of(simulate.simulate(lamp, (2, 2), lengths, 0))]
        self.assertEqual(len(alone), 16)
        for after in range(18):
            run = simulate.simulate(lamp, (2, 2), lengths, 0, after)
            self.assertFalse(run.dropped)
            self.assertEqual([running for _, running, _, _ in ticks_of(run)], alone)
            self.assertEqual([critical for critical, *_ in ticks_of(run)], [tick > after for tick in range(1, 17)])

    def test_the_loom_of_the_shuttle_lamp(self):
        brake = example("shuttle-lamp")
        self.assertEqual(simulate.virtual_deadline(brake, 2), 8)
        self.assertEqual(run_of(brake, (2, 5), (1, 2, 2, 2, 2, 2, 1))[1], None)
        self.assertEqual(run_of(brake, (2, 5), (2, 9, 9, 9, 9, 9, 1)), (18, 8))

    def test_the_loom_that_turns_back_to_typical(self):
        brake, lamp = example("back-to-typical"), example("back-to-typical", 1)
        self.assertEqual(simulate.virtual_deadline(brake, 1), 8)
        self.assertEqual(run_of(brake, (1, 3), (1,) * 8), (8, None))
        for lengths, end in (((2, 12, 12, 12, 12, 12, 12, 2), 34), ((4,) * 8, 20)):
            run = simulate.simulate(brake, (1, 3), lengths, 8)
            self.assertEqual((run.last, run.switch, run.back), (end, 8, end))
        run = simulate.simulate(lamp, (2,), (4,) * 5, 0, 8, 20)
        self.assertEqual((run.last, run.dropped, run.back), (8, True, 20))
        self.assertEqual(run_of(lamp, (2,), (4,) * 5), (12, None))

    def test_a_low_job_that_is_kept_takes_no_notice_of_the_return(self):
        lamp, lengths = example("shuttle-lamp", 1), (4,) * 6
        alone = [running for _, running, _, _ in ticks_of(simulate.simulate(lamp, (2, 2), lengths, 0))]
        for after in range(16):
            for back in range(after + 1, 18):
                run = simulate.simulate(lamp, (2, 2), lengths, 0, after, back)
                self.assertEqual([running for _, running, _, _ in ticks_of(run)], alone)
                states = [critical for critical, *_ in ticks_of(run)]
                self.assertEqual(states, [after < tick <= back for tick in range(1, 17)])
                self.assertEqual(run.back, back if back <= 16 else None)

    def test_a_high_job_holds_the_return_back_until_it_ends(self):
        task, lengths = example("neighbour", 1), (11, 4, 9, 4, 5, 5, 42)
        for after in range(52):
            run = simulate.simulate(task, (3, 4), lengths, 100, after)
            returned = [tick for tick, (*_, turned) in enumerate(ticks_of(run), 1) if turned == "returned"]
            self.assertEqual(returned, [run.last] if after < run.last else [])
            self.assertEqual(run.back, run.last if after < run.last else None)

    def test_the_dye_line(self):
        pump, camera = example("dye-line"), example("dye-line", 2)
        nominal, overload = (35_000, *[45_000] * 5, 30_000), (40_000, *[112_000] * 5, 30_000)
        self.assertEqual(simulate.budget(pump, nominal), "work 290000, longest chain 110000: keeps the nominal budget")
        over = "work 630000, longest chain 182000: keeps the overload budget"
        self.assertEqual(simulate.budget(pump, overload), over)
        self.assertEqual(simulate.virtual_deadline(pump, 2), 200_000)
        self.assertEqual(run_of(pump, (2, 3), nominal), (200_000, None))
        self.assertEqual(run_of(pump, (2, 3), overload), (342_000, 200_000))
        for after in range(0, 200_000, 1000):
            self.assertLessEqual(run_of(pump, (2, 3), overload, switch_after=after)[0], pump.deadline)
        self.assertEqual(run_of(camera, (2, 2), (12_000,) * 4, switch_after=15_000), (24_000, 15_000))


class Stretches(unittest.TestCase):
    def test_a_stretch_is_its_ticks(self):
        rng, levels, turns = random.Random(6), set(), set()
        for _ in range(400):
            masks, lengths, work, span = random_job(rng)
            task = sheets.Task("", rng.choice((0, 1, 16, 17)), masks, 10_000, work, work, span, span)
            typical = rng.randrange(1, 4)
            shares = (typical, typical + rng.randrange(3)) if task.high or rng.random() < 0.5 else (typical,)
            virtual = rng.randrange(1, work + 2)
            after = rng.choice((None, rng.randrange(work + 2)))
            back = None if task.high or after is None else after + rng.randrange(1, work + 2)
            run = simulate.simulate(task, shares, lengths, virtual, after, back)
            self.assertEqual(list(ticks_of(run)), one_by_one(task, shares, lengths, virtual, after, back))
            self.assertTrue(all(stretch.ended or stretch.turned for stretch in run.stretches))
            levels.add((task.level, run.dropped))
            turns |= {(task.high, stretch.turned) for stretch in run.stretches}
        self.assertEqual(levels, {(0, False), (0, True), (1, False), (16, False), (16, True), (17, False)})
        self.assertEqual(turns, {(high, turned) for high in (False, True) for turned in ("", "switched", "returned")})


class Bounds(unittest.TestCase):
    def test_a_job_within_its_nominal_budget_ends_by_the_virtual_deadline(self):
        rng = random.Random(3)
        for _ in range(300):
            masks, lengths, work, span = random_job(rng)
            typical = rng.randrange(1, 5)
            task = sheets.Task("", 1, masks, 10_000, work, work, span, span)
            end, switch = run_of(task, (typical, typical), lengths)
            self.assertLessEqual(end, simulate.virtual_deadline(task, typical))
            self.assertIsNone(switch)

    def test_a_job_within_its_overload_budget_ends_by_the_deadline_of_the_share_test(self):
        rng = random.Random(4)
        for _ in range(300):
            masks, lengths, work, span = random_job(rng)
            nominal_span = rng.randrange(1, span + 1)
            nominal_work = rng.randrange(nominal_span, work - span + nominal_span + 1)
            a = rng.randrange(1, 4)
            b = rng.randrange(a, 6)
            growth = (work - nominal_work) - (span - nominal_span)
            demand = (nominal_work - nominal_span) * b + growth * a + span * a * b
            demand += min(nominal_span * a, growth) * (b - a)
            task = sheets.Task("", 1, masks, -(-demand // (a * b)), nominal_work, work, nominal_span, span)
            for after in range(simulate.virtual_deadline(task, a) + 1):
                self.assertLessEqual(run_of(task, (a, b), lengths, switch_after=after)[0], task.deadline)

    def test_a_kept_job_within_its_budget_ends_by_its_deadline_at_whatever_tick_the_switch_comes(self):
        rng = random.Random(5)
        for _ in range(300):
            masks, lengths, work, span = random_job(rng)
            share = rng.randrange(1, 5)
            deadline = span - (span - work) // share  # the least with this share (S4.1)
            task = sheets.Task("", 0, masks, deadline, work, work, span, span)
            for after in range(deadline + 1):
                self.assertLessEqual(run_of(task, (share, share), lengths, switch_after=after)[0], deadline)


class Program(unittest.TestCase):
    def ran(self, name, *arguments):
        command = [sys.executable, HERE / "simulate.py", HERE.parent / "examples" / f"{name}.sheet", *arguments]
        return subprocess.run(command, capture_output=True, text=True, check=False)

    def refuse(self, message, *arguments, name="neighbour"):
        done = self.ran(name, *arguments)
        self.assertEqual((done.returncode, done.stdout), (2, ""))
        self.assertIn(message, done.stderr)

    def test_arguments_that_do_not_suit_the_task(self):
        self.refuse("--task: expected a number below 2", "--task", "2", "--shares", "1", "--lengths", "1")
        self.refuse("--shares: expected 2", "--shares", "1", "--lengths", "1")
        self.refuse("--lengths: expected 7", "--task", "1", "--shares", "3", "4", "--lengths", "1")

    def test_shares_that_no_low_task_has(self):
        lamp = ("--task", "1", "--lengths", *"444444", "--shares")
        self.refuse("--shares: expected 1 for a low task", *lamp, "2", "2", "2", name="shuttle-lamp")
        self.refuse("--shares: expected the same share twice", *lamp, "2", "3", name="shuttle-lamp")

    def test_what_is_said_of_a_switch(self):
        lamp = ("--task", "1", "--lengths", *"444444", "--shares", "2", "2")
        camera = ("--task", "2", "--lengths", *"444444444444", "--shares", "4")
        brake = ("--lengths", *"2999991", "--shares", "2", "5")
        for task, after, said in (
            (lamp, "8", "ended after tick 16, deadline 18, kept over the switch after tick 8"),
            (lamp, "15", "ended after tick 16, deadline 18, kept over the switch after tick 15"),
            (lamp, "16", "ended after tick 16, deadline 18, switched after tick 16"),
            (lamp, "17", "ended after tick 16, deadline 18, no switch"),
            (lamp, "0", "ended after tick 16, deadline 18, critical from the start"),
            (camera, "8", "dropped after tick 8, switched after tick 8"),
            (camera, "12", "ended after tick 12, deadline 16, switched after tick 12"),
            (camera, "0", "not released, refusal 12, critical from the start"),
            (brake, "3", "ended after tick 13, deadline 24, switched after tick 3, returned after tick 13"),
            (brake, "0", "ended after tick 12, deadline 24, critical from the start, returned after tick 12"),
        ):
            done = self.ran("shuttle-lamp", *task, "--switch-after", after)
            self.assertEqual((done.returncode, done.stderr), (0, ""))
            self.assertEqual(done.stdout.splitlines()[-1], said)

    def test_what_is_said_of_a_return(self):
        lamp = ("--task", "1", "--lengths", *"444444", "--shares", "2", "2")
        camera = ("--task", "2", "--lengths", *"444444444444", "--shares", "4")
        kept, start = "kept over the switch after tick 8", "critical from the start"
        dropped = "dropped after tick 8, switched after tick 8"
        for task, after, back, said in (
            (lamp, "8", "9", f"ended after tick 16, deadline 18, {kept}, returned after tick 9"),
            (lamp, "8", "16", f"ended after tick 16, deadline 18, {kept}, returned after tick 16"),
            (lamp, "8", "17", f"ended after tick 16, deadline 18, {kept}"),
            (lamp, "0", "5", f"ended after tick 16, deadline 18, {start}, returned after tick 5"),
            (camera, "0", "5", f"not released, refusal 12, {start}, returned after tick 5, may be released after tick 5"),
            (camera, "12", "13", "ended after tick 12, deadline 16, switched after tick 12"),
            (camera, "8", "9", f"{dropped}, returned after tick 9, may be released after tick 16"),
            (camera, "8", "16", f"{dropped}, returned after tick 16, may be released after tick 16"),
            (camera, "8", "18", f"{dropped}, returned after tick 18, may be released after tick 18"),
        ):
            done = self.ran("shuttle-lamp", *task, "--switch-after", after, "--return-after", back)
            self.assertEqual((done.returncode, done.stderr), (0, ""))
            self.assertEqual(done.stdout.splitlines()[-1], said)

    def test_the_row_of_a_return(self):
        lamp = ("--task", "1", "--lengths", *"444444", "--shares", "2", "2", "--switch-after", "5", "--return-after", "7")
        rows = [line.split() for line in self.ran("shuttle-lamp", *lamp).stdout.splitlines()[6:10]]
        states = [["5", "typical"], ["6", "critical"], ["7", "critical"], ["8", "typical"]]
        marks = [["switched"], [], ["returned"], ["1", "2"]]
        self.assertEqual(rows, [[*state, "1", "2", *mark] for state, mark in zip(states, marks)])
        brake = self.ran("shuttle-lamp", "--lengths", *"2999991", "--shares", "2", "5").stdout.splitlines()
        self.assertEqual(brake[-2].split(), ["18", "critical", "6", "6", "returned"])

    def test_a_return_that_no_job_has(self):
        lamp = ("--task", "1", "--lengths", *"444444", "--shares", "2", "2", "--return-after", "7")
        brake = ("--lengths", *"2999991", "--shares", "2", "5", "--switch-after", "3", "--return-after", "7")
        beside = "--switch-after beside it, and no --switch-each"
        for expected, arguments in (
            ("a low task", brake),
            (beside, lamp),
            (beside, (*lamp, "--switch-each")),
            (beside, (*lamp, "--switch-after", "3", "--switch-each")),
            ("a number above 7, the tick of the switch, got 7", (*lamp, "--switch-after", "7")),
        ):
            self.refuse(f"--return-after: expected {expected}", *arguments, name="shuttle-lamp")

    def test_each_switch_of_a_low_task(self):
        done = self.ran("shuttle-lamp", "--task", "2", "--lengths", *"444444444444", "--shares", "4", "--switch-each")
        first, *dropped, last = done.stdout.splitlines()[1:]
        self.assertEqual(first, "switch after tick 0: not released, refusal 12")
        self.assertEqual(dropped, [f"switch after tick {t}: dropped after tick {t}" for t in range(1, 12)])
        self.assertEqual(last, "no switch: ended after tick 12, deadline 16")

    def test_a_task_in_the_wide_form_has_a_line_for_a_stretch(self):
        done = self.ran("dye-line", "--shares", "2", "3", "--lengths", "40000", *["112000"] * 5, "30000")
        self.assertEqual((done.returncode, done.stderr), (0, ""))
        rows = [line.split() for line in done.stdout.splitlines()[2:-1]]
        self.assertEqual(rows[:2], [["1-40000", "typical", "0", "0"], ["40001-152000", "typical", "1", "2", "1", "2"]])
        self.assertEqual(rows[2], ["152001-200000", "typical", "3", "4", "switched"])
        self.assertEqual(rows[-1], ["312001-342000", "critical", "6", "6", "returned"])
        self.assertEqual(len(rows), 6)
        done = self.ran("dye-line", "--shares", "2", "3", "--lengths", *"1111111")
        self.assertEqual([line.split()[0] for line in done.stdout.splitlines()[2:-1]], list("12345"))

    def test_a_task_in_the_wide_form_has_longer_lengths(self):
        for option, values in (
            ("--lengths", ["1000001", *"111111"]),
            ("--virtual-deadline", ["1000001"]),
            ("--switch-after", ["32000001"]),
            ("--return-after", ["32000001"]),
        ):
            rest = ("--shares", "2", "3", "--lengths", *["1000000"] * 7)
            self.assertEqual(self.ran("dye-line", *rest).returncode, 0)
            self.refuse(f"{option}: expected a number from", *rest, option, *values, name="dye-line")

    def test_arguments_out_of_range(self):
        huge = "9" * 6000
        for option, values in (
            ("--shares", ("0 2", "65 2", "-1 2", f"{huge} 2", "two 2", "1_0 2", "１ 2")),
            ("--lengths", ("0", "10001", "-2", huge, "2.5")),
            ("--task", ("-1", "2", huge)),
            ("--virtual-deadline", ("0", "-1", "10001", huge)),
            ("--switch-after", ("-1", "320001", huge)),
            ("--return-after", ("-1", "0", "320001", huge)),
        ):
            for value in values:
                with self.subTest(f"{option} {value[:20]}"):
                    path = HERE.parent / "examples" / "neighbour.sheet"
                    said = io.StringIO()
                    with self.assertRaises(SystemExit) as ended, contextlib.redirect_stderr(said):
                        rest = ["--shares", "1", "2", "--lengths", "5", option, *value.split()]
                        simulate.main([str(path), *rest])
                    self.assertEqual(ended.exception.code, 2)
                    self.assertRegex(said.getvalue().splitlines()[-1], f"{option}: expected")
                    self.assertLess(len(said.getvalue()), 600)


if __name__ == "__main__":
    unittest.main()
