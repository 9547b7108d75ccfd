"""From start to first reply: at most as long as twice what starting a small program of the system takes.

The script breaks its form, so that the reply waits for no sync. `/bin/true` is what starting any program takes, and
`/bin/echo` writes a line too. A run that makes a database is shown beside them, where the first reply waits for the disk.
The runs take turns, so that other work on the machine slows each alike; what is judged is the ratio of the medians.
"""

import statistics
import subprocess
import time

from common import CREATE, Folder, program, report

RUNS, MOST = 200, 2.0


def milliseconds(folder, words):
    """The time until the first line of output, or until the end where there is none."""
    began = time.perf_counter()
    running = folder.start(words, stderr=subprocess.DEVNULL)
    running.stdout.readline()
    took = (time.perf_counter() - began) * 1000
    running.stdout.read()
    running.stdout.close()
    running.wait()
    return took


def main():
    path = program()
    with Folder() as folder:
        folder.write_script("create", [CREATE])
        folder.write_script("broken", ["1: read 7"])
        jobs = {
            "/bin/true": ["/bin/true"],
            "/bin/echo": ["/bin/echo", "1: ok"],
            "reply": [path, "run", "broken"],
            "create": [path, "run", "create"],
        }
        times = {name: [] for name in jobs}
        for _ in range(RUNS):
            subprocess.run(["rm", "-f", folder.file("x.db")], check=True)
            for name, words in jobs.items():
                times[name].append(milliseconds(folder, words))
    medians = {name: statistics.median(taken) for name, taken in times.items()}
    ratio = medians["reply"] / max(medians["/bin/true"], medians["/bin/echo"])
    shown = ", ".join(f"{name} {taken:.2f} ms" for name, taken in medians.items())
    report("start", ratio <= MOST, f"{ratio:.2f} times starting a small program ({shown})")


if __name__ == "__main__":
    main()
