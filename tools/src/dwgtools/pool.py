"""Work on many things by several processes, in order."""

from __future__ import annotations

import collections
import itertools
import os
import signal
import threading
import time
from typing import TYPE_CHECKING, Any, Callable, Deque, Generator, Iterable, Iterator, List
from typing import NoReturn, Tuple, TypeVar

if TYPE_CHECKING:
    from concurrent.futures import Future

Item = TypeVar("Item")
Result = TypeVar("Result")

# How many things a process gets at once where each takes less than so many seconds, and for how
# many processes' turns things are taken ahead.
AT_ONCE, SHORT, AHEAD = 16, 0.02, 4
# How many seconds lie between the times that a process is told to end, and how many times there
# are until it is killed.
EVERY, PATIENT = 0.05, 60


def processors() -> int:
    """How many processors this process may use."""
    try:
        return len(os.sched_getaffinity(0))
    except AttributeError:
        return os.cpu_count() or 1


def in_order(
    work: Callable[[Item], Result], items: Iterable[Item], jobs: int, lost: Callable[[Item], Result]
) -> Generator[Result, None, None]:
    """What work gives for each item, in their order, by so many processes. `lost` gives what
    stands for an item by which a process ended, as where there was no memory."""
    left = iter(items)
    first = list(itertools.islice(left, 2))
    left = itertools.chain(first, left)
    if jobs < 2 or len(first) < 2:
        yield from map(work, left)
        return
    with _Pool(jobs, work) as pool:
        yield from _through(pool, left, lost)


def _through(
    pool: "_Pool", items: Iterator[Item], lost: Callable[[Item], Result]
) -> Iterator[Result]:
    from concurrent.futures.process import BrokenProcessPool

    ahead: Deque[Tuple[List[Item], "Future[Tuple[List[Result], float]]"]] = collections.deque()
    count = 1
    while True:
        while len(ahead) < AHEAD * pool.jobs:
            some = list(itertools.islice(items, count))
            if not some:
                break
            ahead.append((some, pool.submit(some)))
        if not ahead:
            return
        some, future = ahead.popleft()
        try:
            results, seconds = future.result()
        except BrokenProcessPool:
            todo = [some, *(more for more, _ in ahead)]
            ahead.clear()
            yield from _one_by_one(itertools.chain(*todo), lost, pool)
            continue
        count = AT_ONCE if seconds < SHORT * len(results) else 1
        yield from results


def _one_by_one(
    items: Iterable[Item], lost: Callable[[Item], Result], pool: "_Pool"
) -> Iterator[Result]:
    """What work gives for each of few items, of which one ended a process."""
    from concurrent.futures.process import BrokenProcessPool

    pool.begin_anew()
    for item in items:
        try:
            yield pool.submit([item]).result()[0][0]
        except BrokenProcessPool:
            pool.begin_anew()
            yield lost(item)


# What a process does with each item, which it has from the tool as it begins.
_work: List[Callable[[Any], Any]] = []


def _worked(items: List[Any]) -> Tuple[List[Any], float]:
    begin = time.monotonic()
    try:
        return [_work[0](item) for item in items], time.monotonic() - begin
    except SystemExit:
        # (the pool would go on with the next items)
        os._exit(1)


class _Pool:
    """Processes of the standard library's pool, and how they end before their work does."""

    def __init__(self, jobs: int, work: Callable[[Any], Any]) -> None:
        self.jobs, self._work = jobs, work
        self._begin()

    def _begin(self) -> None:
        from concurrent.futures import ProcessPoolExecutor
        from multiprocessing import get_context

        self._pool = ProcessPoolExecutor(
            self.jobs, get_context("fork"), _begin, (os.getpid(), self._work)
        )

    def begin_anew(self) -> None:
        """Begins with other processes, where one ended."""
        self.end()
        self._begin()

    def submit(self, items: List[Any]) -> "Future[Tuple[List[Any], float]]":
        """Has a process work on some items."""
        return self._pool.submit(_worked, items)

    def __enter__(self) -> "_Pool":
        return self

    def __exit__(self, kind: object, *_: object) -> None:
        """Ends the processes, where nothing went wrong once they have done all."""
        if kind:
            self.end()
        else:
            self._pool.shutdown()

    def end(self) -> None:
        """Ends the processes with what they run. One may begin to wait just as it is told so, and
        is told again."""
        all_processes = list((self._pool._processes or {}).values())
        for times in itertools.count():
            alive = [one for one in all_processes if one.is_alive()]
            if not alive:
                break
            for one in alive:
                one.kill() if times > PATIENT else one.terminate()
            time.sleep(EVERY)
        self._pool.shutdown(wait=False)


def _begin(parent: int, work: Callable[[Any], Any]) -> None:
    """Has a process end with what it runs when it is told to, or when the tool is gone."""
    _work[:] = [work]
    signal.signal(signal.SIGINT, signal.SIG_IGN)
    signal.signal(signal.SIGTERM, _told_to_end)

    def watch() -> None:
        while True:
            time.sleep(1)
            if os.getppid() != parent:
                os.kill(os.getpid(), signal.SIGTERM)

    threading.Thread(target=watch, daemon=True).start()


def _told_to_end(number: int, _: object) -> NoReturn:
    signal.signal(number, signal.SIG_IGN)
    raise SystemExit(1)
