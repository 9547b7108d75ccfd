"""How the time of a script grows with its statements: 10,000 of them, over 16 sessions and a schedule of 4,096 numbers, take at most
1.5 times as long for each as 2,500 do.

The statements are reads, so that no sync is waited for. The time of a run is that of the script less that of one that only opens the
database. The runs take turns, and what is judged is the ratio of the shortest times, which other work disturbs least.
"""

import subprocess
import time

from common import CREATE, FIRST_RAW, RAW, Folder, program, report

COUNTS, ROUNDS, MOST = (2_500, 10_000), 9, 1.5
SESSIONS, NUMBERS = 16, 4_096
OPEN = "1: open 'x.db'"


def script(count):
    """So many statements with the first, dealt out to the sessions in turn."""
    schedule = "schedule " + " ".join(str(1 + 7 * index % SESSIONS) for index in range(NUMBERS))
    reads = [f"{1 + index % SESSIONS}: read {FIRST_RAW + index % RAW}" for index in range(count - 1)]
    return [OPEN, schedule] + reads


def seconds(folder, path, name, count):
    """How long a run takes that says so many lines."""
    began = time.perf_counter()
    output, _ = folder.start([path, "run", name]).communicate()
    took = time.perf_counter() - began
    if output.count(b": ok") != count:
        report("turns", False, f"{name}: {output.count(b': ok')} of {count} statements were done")
    return took


def main():
    path = program()
    with Folder() as folder:
        folder.write_script("create", [CREATE])
        folder.write_script("open", [OPEN])
        subprocess.run([path, "run", "create"], cwd=folder.path, check=True, stdout=subprocess.DEVNULL)
        scripts = {"open": 1}
        for count in COUNTS:
            folder.write_script(f"{count}", script(count))
            scripts[f"{count}"] = count
        times = {name: [] for name in scripts}
        for _ in range(ROUNDS):
            for name, count in scripts.items():
                times[name].append(seconds(folder, path, name, count))
    opening = min(times["open"])
    few, many = ((min(times[f"{count}"]) - opening) / count for count in COUNTS)
    report("turns", many <= few * MOST, f"{many * 1e6:.1f} µs a statement of {COUNTS[1]}, {few * 1e6:.1f} µs of {COUNTS[0]}, {many / few:.2f} times")


if __name__ == "__main__":
    main()
