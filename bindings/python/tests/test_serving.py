"""Serving: loops of one's own, real time, threads, asyncio, and how a process ends."""

import asyncio
import os
import signal
import subprocess
import sys
import threading
import time

import pytest

import cbs

TWO = {"a": cbs.Server(2, 5), "b": cbs.Server(1, 10, "throttled")}
TICK = cbs.milliseconds(1)


def steps(count):
    for step in range(count):
        yield step
    return count


def test_a_loop_of_ones_own_sees_each_unit():
    with cbs.House(TWO) as house:
        house["a"].submit(lambda: 1, units=3)
        house["b"].submit(lambda: 1)
        seen = []
        for unit in house.units():
            seen.append((unit.server, unit.last))
            unit()
        assert sorted(seen) == [("a", False), ("a", False), ("a", True), ("b", True)]


def test_a_long_unit_is_charged():
    with cbs.House({"a": cbs.Server(1, 4)}) as house:
        slow = house["a"].submit(time.sleep, 0.01)
        house.end()
        house.serve(TICK)
        assert slow.result(0) is None
        assert house.counts.overruns == 1
        assert house.charges("a").total == house.counts.charged >= 9
        assert house.view("a").closed


def test_a_thread_serves_within_a_block():
    with cbs.House(TWO) as house:
        with house.serving(TICK):
            future = house["a"].submit(steps, 3)
            assert future.result(5) == 3
            waits = house["b"].submit(lambda: 2)
        assert waits.result(0) == 2
        with pytest.raises(cbs.Ended):
            house["a"].submit(int)


def test_a_block_that_raises_stops_the_thread():
    with cbs.House(TWO) as house:
        with pytest.raises(KeyError):
            with house.serving(TICK):
                house["a"].submit(int, units=1_000_000)
                raise KeyError


def test_a_unit_may_stop_its_house_and_not_close_it():
    with cbs.House(TWO) as house:
        closes = house["a"].submit(house.close)
        stops = house["a"].submit(house.stop)
        after = house["a"].submit(int)
        house.serve(TICK)
        assert isinstance(closes.exception(0), cbs.CbsError)
        assert stops.done() and not after.done()
        house.end()
        house.serve(TICK)
        assert after.done()


def test_a_house_is_served_once_at_a_time():
    with cbs.House(TWO) as house:
        units = house.units()
        house["a"].submit(int)
        next(units)
        with pytest.raises(cbs.CbsError):
            house.run()
        units.close()


def test_senders_wait_for_room():
    with cbs.House(TWO, ring=4) as house, house.serving(cbs.milliseconds(0.01)):
        futures = []

        def sends(name):
            for _ in range(200):
                futures.append(house[name].submit(int, "4", timeout=20))

        threads = [threading.Thread(target=sends, args=(name,)) for name in "aabb"]
        for thread in threads:
            thread.start()
        for thread in threads:
            thread.join()
        assert sum(future.result(20) for future in futures) == 4 * 800


def test_an_end_waits_for_room_and_nobody_for_it():
    with cbs.House({"a": cbs.Server(1, 5)}, ring=2) as house:
        futures = [house["a"].submit(int), house["a"].submit(int)]
        house.end()
        house.end()
        with pytest.raises(cbs.Ended):
            house["a"].submit(int)
        house.run()
        assert [future.result(0) for future in futures] == [0, 0]
        assert house.view("a").closed


def test_a_block_ends_if_its_thread_ended_with_a_full_ring():
    with cbs.House({"a": cbs.Server(1, 5)}, ring=1) as house:
        with pytest.raises(SystemExit):
            with house.serving(TICK):
                ends = house["a"].submit(sys.exit, 3)
                assert isinstance(ends.exception(5), SystemExit)
                house["a"].submit(int, timeout=5)


def test_who_waits_for_room_is_told_that_the_house_is_closed():
    house = cbs.House({"a": cbs.Server(1, 5)}, ring=1)
    house["a"].submit(int)
    told = []

    def waits():
        try:
            house["a"].submit(int, timeout=None)
        except cbs.HouseClosed as error:
            told.append(error)

    thread = threading.Thread(target=waits)
    thread.start()
    time.sleep(0.05)
    house.close()
    thread.join(5)
    assert not thread.is_alive() and told


def test_a_job_is_awaited():
    async def main():
        async with cbs.House(TWO).serving(TICK) as house:
            futures = [house["a"].submit(steps, 3) for _ in range(5)]
            with pytest.raises(ZeroDivisionError):
                await house["b"].submit(lambda: 1 / 0)
            with pytest.raises(asyncio.TimeoutError):
                await asyncio.wait_for(house["b"].submit(lambda: None, units=1000), 0.05)
            house.stop()
            return await asyncio.gather(*futures)

    assert asyncio.run(main()) == [3] * 5


def child(code, interrupted=False):
    """Runs code in an interpreter of its own, and returns what it printed, and its status. It may be interrupted a little
    after it printed a first line, which is left out."""
    env = {**os.environ, "PYTHONPATH": os.pathsep.join(path for path in sys.path if path)}
    words = [sys.executable, "-c", "import cbs, os, sys, threading, time\n" + code]
    with subprocess.Popen(
        words, env=env, stdout=subprocess.PIPE, stderr=subprocess.STDOUT, text=True
    ) as process:
        if interrupted:
            process.stdout.readline()
            time.sleep(0.3)
            process.send_signal(signal.SIGINT)
        out = process.communicate(timeout=20)[0]
    return out.strip(), process.returncode


HOUSE = "h = cbs.House({'a': cbs.Server(1, 5)}); tick = cbs.milliseconds(1)\n"


@pytest.mark.parametrize(
    "code",
    [
        "h['a'].submit(print)",
        "threading.Thread(target=h.serve, args=(tick,), daemon=True).start()\n"
        "h['a'].submit(lambda: 1, units=10**5); time.sleep(.1)",
        "threading.Thread(target=h.serve, args=(tick,)).start()\n"
        "h['a'].submit(lambda: 1, units=10**5); time.sleep(.1)",
        "i = h.units(); h['a'].submit(int); next(i)",
    ],
)
def test_an_interpreter_ends_with_a_house_open(code):
    assert child(HOUSE + code) == ("", 0)


@pytest.mark.parametrize("idle", [False, True])
def test_an_interrupt_ends_the_serving(idle):
    busy = "" if idle else "h['a'].submit(lambda: 1, units=10**5)\n"
    serves = "print('ready', flush=True)\ntry: h.serve(tick)\nexcept KeyboardInterrupt: print('over')"
    assert child(HOUSE + busy + serves, interrupted=True) == ("over", 0)


def test_a_child_has_no_house_of_its_parent():
    code = HOUSE + (
        "pid = os.fork()\n"
        "if pid == 0:\n"
        "    try: h.run()\n"
        "    except cbs.HouseClosed: os._exit(7)\n"
        "    os._exit(1)\n"
        "f = h['a'].submit(lambda: 5); h.run()\n"
        "print(os.waitstatus_to_exitcode(os.waitpid(pid, 0)[1]), f.result(0))"
    )
    assert child(code) == ("7 5", 0)


def test_out_of_memory_is_an_exception():
    code = (
        "import resource\n"
        "resource.setrlimit(resource.RLIMIT_AS, (300 << 20, 300 << 20))\n"
        "houses = []\n"
        "try:\n"
        "    while True: houses.append(cbs.House({str(i): cbs.Server(1, 64) for i in range(64)}, ring=1024))\n"
        "except MemoryError: print('no memory', len(houses) > 0)"
    )
    assert child(code) == ("no memory True", 0)
