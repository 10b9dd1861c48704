"""What `bench_calls` gives, and the seconds that its calls take."""
import subprocess, time

def given(program, what, size):
    """What one call gives."""
    done = subprocess.run([program, what, str(size), "1"], stdout=subprocess.PIPE, check=True)
    return int(done.stdout)

def seconds(program, what, size, times):
    start = time.perf_counter()
    done = subprocess.run([program, what, str(size), str(times)], stdout=subprocess.DEVNULL)
    taken = time.perf_counter() - start
    assert done.returncode == 0, (what, size, times, done.returncode)
    return taken

def in_turn(program, whats, size, times, runs):
    """Of one call of many, without the program's start: the least of so many runs of each. They run in turn,
    so that what slows the machine down slows all of them."""
    least = {}
    for _ in range(runs):
        for what in whats:
            for count in (0, times):
                taken = seconds(program, what, size, count)
                least[what, count] = min(taken, least.get((what, count), taken))
    return [(least[what, times] - least[what, 0]) / times for what in whats]
