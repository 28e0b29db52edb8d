"""Times runs of many steps, their traces and `selfrun`, and prints what is found beside what is asked.

    python3 bench/steps.py KERNEL_BENCH MACHINE_BENCH FLAME DATA [ROUNDS [N [BLOCK]]]

All times are user and system times, the best of alternating rounds; the output isn't kept. From that of a job that of the
same job without its statements is taken off, so that reading the text doesn't count, and from that of `selfrun` what it
takes where it is refused for too many parts, so that making the job doesn't. From that of a machine what it takes to make the
job and list its steps. What the program prints isn't looked at, but for the number of a machine's steps.
"""

import os
import random
import subprocess
import sys
from pathlib import Path

MODULUS = 4294967291
SIDE, TIMES = 32, 8
STEPS = TIMES * SIDE**3
# Asked: the seconds of listing and analysing, the megabytes beside it, the rate of a trace, the microseconds of a step and of an
# event, and the share of the kernels' rates.
ANALYSED_SECONDS, ANALYSED_MEGABYTES = 0.5, 400
TRACE_RATE = 50
STEP_MICROSECONDS = 2
EVENT_MICROSECONDS = 1
SHARE = 0.8
REFUSED = 3

MUL = ("operation mul\ndims m n k\nwork W general m n\nknown A general m k\nknown B general k n\n"
       "equation X = W + A * B\nend\n")
# The variants by which the steps are listed: none named, so 1, which goes along the rows; one along the inner dimension; one
# along two dimensions.
VARIANTS = (None, 5, 54)


def job_text(statements):
    """The text of a job with so many products."""
    rng = random.Random(1)
    text = f"flame 1\nmodulus {MODULUS}\n{MUL}"
    for name in "WAB":
        rows = (" ".join(str(rng.randrange(MODULUS)) for _ in range(SIDE)) for _ in range(SIDE))
        text += f"matrix {name} {SIDE} {SIDE}\n" + "\n".join(rows) + "\nend\n"
    return text + "do mul W A B\n" * statements + "print W\n"


def run_words(number=None, trace=False):
    """The words of a run on blocks of one entry."""
    words = ["run", "--block", "1", "--workers", "1"]
    words += ["--variants", ",".join([str(number)] * TIMES)] if number else []
    return words + (["--trace"] if trace else [])


def self_words(n, block):
    """The words of a run of the generated job."""
    return ["selfrun", str(n), str(MODULUS), "1", "--block", str(block), "--workers", "1"]


def used(program, words, source=os.devnull, status=0):
    """The seconds and the peak memory, in bytes, of a run. A process counts the memory of the one that it was forked from,
    so a small one of this script starts it: less than its 20 MB are not seen."""
    command = [sys.executable, __file__, "one", str(source), str(status), program, *words]
    seconds, memory = subprocess.run(command, stdout=subprocess.PIPE, text=True, check=True).stdout.split()
    return float(seconds), int(memory)


def print_used(source, due, program, *words):
    """Runs the program, and prints its user and system seconds and its peak memory, in bytes."""
    with open(source, "rb") as given:
        running = subprocess.Popen([program, *words], stdin=given, stdout=subprocess.DEVNULL)
        _, status, usage = os.wait4(running.pid, 0)
    running.returncode = os.waitstatus_to_exitcode(status)
    if running.returncode != int(due):
        sys.exit(f"{program} {' '.join(words)} < {source} ended with status {running.returncode}")
    print(usage.ru_utime + usage.ru_stime, usage.ru_maxrss * 1024)


def best_of(rounds, runs):
    """For each named run its least seconds, in rounds in which each goes once, and its greatest memory."""
    seconds, memory = dict.fromkeys(runs, float("inf")), dict.fromkeys(runs, 0)
    for _ in range(rounds):
        for name, run in runs.items():
            took, held = used(*run)
            seconds[name], memory[name] = min(seconds[name], took), max(memory[name], held)
    return seconds, memory


def kernel_calls(parts):
    """The kernels that the four statements of the generated job call, each with how often, on so many parts."""
    p, pairs = parts, parts * (parts - 1) // 2
    inner = p * (p - 1) * (2 * p - 1) // 6
    return {
        "update": 2 * inner + 2 * pairs * p, "update unitlower general": pairs, "update general upper": pairs,
        "update unitlower upper": p, "factor_lu": p, "solve_left unitlower": pairs + p * p, "solve_right upper": pairs,
        "solve_left upper": p * p,
    }


def repeats_of(block):
    """How often a kernel goes in a run, so that it takes some tenths of a second."""
    return max(2, round(1e9 / block**3))


def runs_of(bench, machine, flame, data, n, block):
    """All runs by what they are for."""
    runs = {"idle": (flame, run_words(), data / "steps-idle.flame")}
    for number in VARIANTS:
        for trace in (False, True):
            runs["steps", number, trace] = (flame, run_words(number, trace), data / "steps.flame")
    for kernel in kernel_calls(-(-n // block)):
        name, *rest = kernel.split()
        for repeats in (0, repeats_of(block)):
            runs[kernel, repeats] = (bench, [name, str(block), str(MODULUS), str(repeats), *rest])
    for way in ("machine", "replay", "list"):
        runs[way] = (machine, [way, str(SIDE)])
    runs["selfrun"] = (flame, self_words(n, block))
    if (n - 1) // 32:
        runs["made"] = (flame, self_words(n, (n - 1) // 32), os.devnull, REFUSED)
    return runs


def asked(found, limit, unit, least):
    """What is asked, and whether it is met."""
    met = found >= limit if least else found <= limit
    return f"at {'least' if least else 'most'} {limit:g} {unit}: {'yes' if met else 'NO'}"


def printed_bytes(flame, words, source):
    """How many bytes a run prints."""
    with open(source, "rb") as given:
        return len(subprocess.run([flame, *words], stdin=given, stdout=subprocess.PIPE, check=True).stdout)


def print_steps(seconds, memory, flame, source):
    """For each variant what a run takes without and with its trace."""
    text = source.stat().st_size / 1e3
    print(f"{STEPS} steps of {TIMES} products of {SIDE} by {SIDE} by {SIDE} parts of one entry, beyond reading {text:.0f} "
          f"kB, which takes {seconds['idle']:.2f} s")
    heads = (("variant", 8), ("listed, run", 13), ("a step", 10), ("analysed, traced", 18), ("trace", 9), ("rate", 11),
             ("peak", 9), ("traced", 9))
    print("".join(f"{head:>{width}}" for head, width in heads))
    for number in VARIANTS:
        plain, traced = (seconds["steps", number, trace] - seconds["idle"] for trace in (False, True))
        size = printed_bytes(flame, run_words(number, True), source) / 1e6
        rest, rate = max(traced - plain, 1e-9), size / max(traced - plain, 1e-9)
        peaks = [memory["steps", number, trace] / 1e6 for trace in (False, True)]
        step = plain / STEPS * 1e6
        print(f"{number or 'none':>8}{plain:11.3f} s{step:7.2f} us{rest:16.3f} s{size:6.1f} MB{rate:6.1f} MB/s"
              f"{peaks[0]:6.0f} MB{peaks[1]:6.0f} MB")
        if number is None:
            whole = seconds["steps", None, True]
            print(f"{'':8}whole {whole:.2f} s, {size / whole:.1f} MB/s; {asked(rate, TRACE_RATE, 'MB/s', True)}; a step "
                  + asked(step, STEP_MICROSECONDS, "us", False))
            print(f"{'':8}listing and analysing take less than {traced:.2f} s, asked: {ANALYSED_SECONDS} s; peak "
                  + asked(peaks[1], ANALYSED_MEGABYTES, "MB", False))


def print_machine(seconds, machine):
    """What the events of a machine take, its kernels on blocks of one entry among them, beside a replay."""
    steps = int(subprocess.run([machine, "machine", str(SIDE)], stdout=subprocess.PIPE, check=True).stdout)
    event, step = ((seconds[way] - seconds["list"]) / steps * 1e6 for way in ("machine", "replay"))
    print(f"a machine with {steps} steps on blocks of one entry: {event / 2:.2f} us an event, its kernels among it, "
          f"{asked(event / 2, EVENT_MICROSECONDS, 'us', False)}; a replay {step:.2f} us a step")


def print_selfrun(seconds, memory, n, block):
    """What `selfrun` takes beside the same calls of the kernels."""
    parts, repeats = -(-n // block), repeats_of(block)
    calls = kernel_calls(parts)
    each = {kernel: max(seconds[kernel, repeats] - seconds[kernel, 0], 0) / repeats for kernel in calls}
    print(f"selfrun {n} {MODULUS} 1 --block {block}, on {parts} by {parts} parts")
    print(f"{'kernel':28}{'calls':>7}{'ms a call':>11}{'seconds':>10}")
    for kernel, count in calls.items():
        print(f"{kernel:28}{count:7}{each[kernel] * 1e3:11.3f}{each[kernel] * count:10.3f}")
    kernels, whole, made = sum(each[kernel] * calls[kernel] for kernel in calls), seconds["selfrun"], seconds.get("made", 0)
    share = kernels / max(whole - made, 1e-9)
    print(f"kernels {kernels:.3f} s, selfrun {whole:.3f} s, of which the job is made in {made:.3f} s, "
          f"peak {memory['selfrun'] / 1e6:.0f} MB")
    print(f"share of the kernels' rates {share:.2f}, {asked(share, SHARE, 'of them', True)} "
          f"(with the making of the job {kernels / whole:.2f})")


def main():
    bench, machine, flame, data = sys.argv[1:4] + [Path(sys.argv[4])]
    rounds, n, block = [int(given) for given in sys.argv[5:]] + [5, 1024, 128][len(sys.argv[5:]):]
    (data / "steps.flame").write_text(job_text(TIMES))
    (data / "steps-idle.flame").write_text(job_text(0))
    print(f"best of {rounds} rounds, load {os.getloadavg()[0]:.1f}")
    seconds, memory = best_of(rounds, runs_of(bench, machine, flame, data, n, block))
    print_steps(seconds, memory, flame, data / "steps.flame")
    print_machine(seconds, machine)
    print_selfrun(seconds, memory, n, block)


if __name__ == "__main__":
    if sys.argv[1] == "one":
        print_used(*sys.argv[2:])
    else:
        main()
