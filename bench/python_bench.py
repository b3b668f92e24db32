"""What bench/python.sh measures: reports as frames beside the program, Dask's share, and the memory of pieces."""

import os
import resource
import subprocess
import sys
import time

ROUNDS = int(os.environ.get("ROUNDS", "3"))
TICKS = os.sysconf("SC_CLK_TCK")


def cpu():
    """Processor seconds of this process and of its ended children."""
    both = resource.getrusage(resource.RUSAGE_SELF), resource.getrusage(resource.RUSAGE_CHILDREN)
    return sum(one.ru_utime + one.ru_stime for one in both)


def timed(call):
    """Wall and processor seconds of a call."""
    wall, used = time.perf_counter(), cpu()
    call()
    return time.perf_counter() - wall, cpu() - used


def least(calls):
    """By name, the least wall and the least processor time of some calls, whose runs alternate."""
    found = {name: [] for name in calls}
    for _ in range(ROUNDS):
        for name, call in calls.items():
            found[name].append(timed(call))
    return {name: (min(wall for wall, _ in times), min(used for _, used in times)) for name, times in found.items()}


def printed(report, files, *options):
    """The program's text, through a pipe that is drained."""
    words = [os.environ["BGP_REPLAY"], report, "--workers=1", *options, *files]
    with subprocess.Popen(words, stdout=subprocess.PIPE, stderr=subprocess.DEVNULL) as child:
        while child.stdout.read(1 << 16):
            pass
    assert child.returncode == 0, words


def frames_beside_the_program(rib, updates):
    import bgp_replay

    prefix = bgp_replay.visibility(rib).iloc[0]["prefix"]
    print(f"{'report':<32} {'rows':>8} {'program':>8} {'frame':>8} {'ratio':>6}   and processor seconds")
    cases = [("visibility", [rib], {}), ("seen", [rib], {}), ("origins", [rib, updates], {}), ("churn", [updates], {}),
             ("tables", [rib], {}), ("history", [rib, updates], {"prefixes": prefix}), ("history", [updates], {})]
    for report, files, options in cases:
        words, rows = [f"--prefix={prefix}"] if options else [], []

        def frame():
            rows[:] = [len(getattr(bgp_replay, report)(files, workers=1, **options))]

        times = least({"program": lambda: printed(report, files, *words), "frame": frame})
        name = f"{report}, {'one prefix' if options else 'all'}, {len(files)} file{'s' * (len(files) > 1)}"
        (wall, used), (wall_here, used_here) = times["program"], times["frame"]
        print(f"{name:<32} {rows[0]:>8} {wall:>8.2f} {wall_here:>8.2f} {wall_here / wall:>6.2f}   {used:.2f} {used_here:.2f}")


def packed_files(updates):
    """`churn` of a dump by its packing: gzip and bzip2 by the program, xz and zstd ahead of it."""
    import bgp_replay

    calls = {kind or "plain": (lambda name: lambda: bgp_replay.churn(name, workers=1))(updates + kind)
             for kind in ("", ".gz", ".bz2", ".xz", ".zst") if os.path.exists(updates + kind)}
    for name, (wall, used) in least(calls).items():
        print(f"churn of the messages, {name:<6} {os.path.getsize(updates) / 1e6:.0f} MB: wall {wall:.2f}, processor {used:.2f}")


def of_process(number):
    """Processor seconds of a process and of its ended children."""
    with open(f"/proc/{number}/stat") as file:
        return sum(map(int, file.read().rpartition(")")[2].split()[11:15])) / TICKS


def dask_share(files):
    """Processor seconds of four collectors on two workers of Dask, beside those of the same on threads without it."""
    import distributed
    from bgp_replay.collectors import Collectors

    many = {f"rrc{number:02}": files for number in range(4)}
    options = dict(n_workers=2, threads_per_worker=1, processes=True, dashboard_address=None)
    with distributed.LocalCluster(**options) as local, distributed.Client(local) as client:
        pids = [os.getpid(), *client.run(os.getpid).values()]
        for report in ("visibility", "churn"):
            with_dask, without, walls = [], [], []
            for _ in range(ROUNDS + 1):
                before, start = sum(map(of_process, pids)), time.perf_counter()
                getattr(Collectors(many, client=client), report)()
                walls.append(time.perf_counter() - start)
                with_dask.append(sum(map(of_process, pids)) - before)
                without.append(timed(getattr(Collectors(many), report))[1])
            used, bare = min(with_dask[1:]), min(without[1:])  # the first round imports
            print(f"four collectors' {report}: {used:.2f} s with Dask (wall {min(walls[1:]):.2f}), {bare:.2f} s on threads: "
                  f"share {max(0, used - bare) / used:.0%}")


PIECES = """
import resource, sys, bgp_replay
rows = 0
for piece in bgp_replay.Replay("tables", sys.argv[1], workers=1):
    rows += len(piece)
print(rows, resource.getrusage(resource.RUSAGE_SELF).ru_maxrss // 1024)
"""


def memory_of_pieces(dumps):
    for dump in dumps:
        run = subprocess.run([sys.executable, "-c", PIECES, dump], capture_output=True, text=True, check=True)
        rows, peak = run.stdout.split()
        print(f"tables in pieces: {rows} rows, at most {peak} MB in Python")


def main():
    rib, updates, small, large = sys.argv[1:]
    chosen = os.environ.get("PARTS", "frames packed dask memory").split()
    if "frames" in chosen:
        frames_beside_the_program(rib, updates)
    if "packed" in chosen:
        packed_files(updates)
    if "dask" in chosen:
        dask_share([small, updates])
    if "memory" in chosen:
        memory_of_pieces([small, rib, large])


if __name__ == "__main__":
    main()
