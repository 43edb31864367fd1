"""Jobs: results, early ends, exceptions, cancelling, and what is refused."""

import pickle
import sys

import pytest

import cbs

TWO = {"a": cbs.Server(2, 5), "b": cbs.Server(1, 10, "throttled")}


def steps(count):
    for step in range(count):
        yield step
    return count


def test_a_result_is_what_a_job_returns():
    with cbs.House(TWO) as house:
        futures = [
            house["a"].submit(steps, 3),
            house["a"].submit(steps(2)),
            house["a"].submit(max, 3, 4),
            house["b"].submit(lambda: 7, units=2),
            house["b"].submit(iter([1, 2])),
        ]
        house.run()
        assert [future.result(0) for future in futures] == [3, 2, 4, 7, None]


def test_a_job_takes_the_units_that_it_does():
    # A generator of two yields takes three steps, and the server has 2 ticks in every 5, with nobody beside it.
    with cbs.House({"a": cbs.Server(2, 5)}) as house:
        house["a"].submit(steps, 2)
        house["a"].submit(lambda: None, units=4)
        house.run()
        assert house.clock == 7
        assert house.view("a").finished == 2
        assert house.promised("a") is None


def test_a_job_that_raises_ends_and_tells():
    with cbs.House(TWO) as house:
        bad = house["a"].submit(lambda: 1 / 0, units=1000)
        good = house["a"].submit(lambda: 1)
        house.run()
        assert isinstance(bad.exception(0), ZeroDivisionError)
        assert good.result(0) == 1
        assert house.clock == 2


def test_an_exit_ends_the_run_and_the_house_goes_on():
    with cbs.House(TWO) as house:
        out = house["a"].submit(sys.exit, 3)
        after = house["a"].submit(lambda: 1)
        with pytest.raises(SystemExit):
            house.run()
        assert isinstance(out.exception(0), SystemExit)
        house.run()
        assert after.result(0) == 1


def test_a_job_of_more_units_than_it_asked_for_is_closed():
    closed = []

    def endless():
        try:
            while True:
                yield
        finally:
            closed.append(True)

    with cbs.House(TWO) as house:
        future = house["a"].submit(endless, units=2)
        house.run()
        assert isinstance(future.exception(0), cbs.Unfinished)
        assert closed and house.clock == 2


def test_a_cancelled_job_takes_one_unit():
    with cbs.House(TWO) as house:
        first, second = house["a"].submit(steps, 9), house["a"].submit(lambda: 2)
        assert first.cancel()
        house.run()
        assert first.cancelled() and second.result(0) == 2
        assert house.clock == 2


def test_a_closed_house_cancels_what_waits():
    house = cbs.House(TWO)
    future = house["a"].submit(lambda: 3)
    house.close()
    house.close()
    assert future.cancelled()
    with pytest.raises(cbs.HouseClosed):
        house["a"].submit(lambda: 3)


def test_a_begun_job_of_a_closed_house_is_told_so():
    house = cbs.House(TWO)
    future = house["a"].submit(steps, 5)
    for unit in house.units():
        unit()
        break
    house.close()
    assert isinstance(future.exception(0), cbs.Unfinished)


@pytest.mark.parametrize(
    "servers",
    [
        {"a": cbs.Server(6, 5)},
        {"a": cbs.Server(0, 5)},
        {"a": cbs.Server(2, 3), "b": cbs.Server(2, 3)},
    ],
)
def test_servers_that_do_not_fit_are_refused(servers):
    with pytest.raises(cbs.Refused) as told:
        cbs.House(servers)
    again = pickle.loads(pickle.dumps(told.value))
    assert (str(again), again.status) == (str(told.value), told.value.status)


@pytest.mark.parametrize(
    "wrong, error",
    [
        (lambda: cbs.Server(1.5, 5), TypeError),
        (lambda: cbs.Server(True, 5), TypeError),
        (lambda: cbs.Server(-1, 5), ValueError),
        (lambda: cbs.Server(1, 5, "hard"), ValueError),
        (lambda: cbs.House({"a b": cbs.Server(1, 5)}), ValueError),
        (lambda: cbs.House({"a": (1, 5)}), TypeError),
        (lambda: cbs.House(TWO, backlog=0), cbs.Refused),
        (lambda: cbs.House(TWO, ring=1025), cbs.Refused),
        (lambda: pickle.dumps(cbs.House(TWO)), TypeError),
        (lambda: cbs.House(TWO)["c"], cbs.NoServer),
        (lambda: cbs.House(TWO).serve(0.001), TypeError),
        (lambda: cbs.House(TWO).serve(cbs.milliseconds(0)), ValueError),
    ],
)
def test_what_is_wrong_is_told(wrong, error):
    with pytest.raises(error):
        wrong()


def test_jobs_that_cannot_be_sent_are_refused():
    with cbs.House(TWO, ring=2) as house:
        for units in (0, 1_000_001):
            with pytest.raises(cbs.Refused):
                house["a"].submit(print, units=units)
        with pytest.raises(TypeError):
            house["a"].submit(steps(2), 3)
        house["a"].submit(int)
        house["a"].submit(int)
        with pytest.raises(cbs.RingFull):
            house["a"].submit(int)
        with pytest.raises(cbs.RingFull):
            house["a"].submit(int, timeout=0.02)
        assert house["a"].waiting == 2
        house.run()
        assert house["a"].waiting == 0
        house["a"].end()
        house["a"].end()
        with pytest.raises(cbs.Ended):
            house["a"].submit(int)


def test_a_unit_does_not_wait_for_its_own_house():
    with cbs.House(TWO, ring=1) as house:

        def sends():
            house["b"].submit(int)
            with pytest.raises(cbs.RingFull):
                house["b"].submit(int, timeout=None)
            return True

        future = house["a"].submit(sends)
        house.run()
        assert future.result(0)


def test_what_would_fit_is_told():
    assert cbs.greatest_budget({}, 10) == 10
    assert cbs.greatest_budget(TWO, 10) == 5
    assert cbs.greatest_budget([cbs.Server(1, 1)], 10) == 0
    with pytest.raises(cbs.Refused):
        cbs.greatest_budget([cbs.Server(6, 5)], 10)
