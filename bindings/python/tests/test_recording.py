"""Recordings: the bytes of a file, by hand, and what is refused."""

import zlib

import pytest

import cbs

HEAD = b"""record = 1
tick = "1000000 ns"
bound = [1, 1]
backlog = 4
server = [
  { name = "a", mode = "soft", budget = 2, period = 5 },
  { name = "b", mode = "throttled", budget = 1, period = 10 },
]
\3"""

TWO = {"a": cbs.Server(2, 5), "b": cbs.Server(1, 10, "throttled")}


def steps_of(file):
    """The steps that the blocks of a file have. Each has to be right."""
    at = file.index(3) + 1
    steps, total = b"", zlib.crc32(file[:at])
    while at < len(file):
        low, middle, high, check = file[at : at + 4]
        end = at + 4 + low + 256 * middle + 65536 * high
        total = zlib.crc32(file[at:end], total)
        assert low ^ middle ^ high ^ check == 255 and file[end : end + 4] == total.to_bytes(4, "little")
        steps, at = steps + file[at + 4 : end], end + 4
    return steps


def test_a_recording_has_each_step(tmp_path):
    file = tmp_path / "run.tape"
    with cbs.House(TWO, backlog=4) as house:
        house.record(file, tick=cbs.milliseconds(1))
        house["a"].submit(int, units=2)
        house.run()
        house["b"].submit(int)
        house.run()
        house.end()
        house.run()
        recorder = house.recorder
    # A job of 2 units for server 0, which run in a row; one of 1 unit for server 1, and it; both close; the end.
    steps = bytes([0x40, 2, 0xC1, 0x41, 1, 0xC0, 3, 0, 3, 1, 4])
    assert file.read_bytes().startswith(HEAD + b"\0\0\0\xff") and steps_of(file.read_bytes()) == steps
    assert recorder.is_whole and recorder.error is None


def test_a_job_that_ends_early_ends_the_recording(tmp_path):
    file = tmp_path / "run.tape"
    with cbs.House(TWO) as house:
        house.record(file)
        house["a"].submit(iter([1]))
        house.run()
        recorder = house.recorder
    assert not recorder.is_whole and recorder.error is None
    assert b"tick" not in file.read_bytes()


def test_an_error_of_the_file_never_stops_the_house():
    with cbs.House(TWO) as house:
        with pytest.raises(OSError):
            house.record("/dev/full")
        future = house["a"].submit(lambda: 1)
        house.run()
        assert future.result(0) == 1


def test_too_much_room_is_refused(tmp_path):
    with cbs.House(TWO) as house:
        with pytest.raises(ValueError):
            house.record(tmp_path / "run.tape", room=16777185)
        house.record(tmp_path / "run.tape", room=16777184)


def test_a_late_recording_is_refused(tmp_path):
    with cbs.House(TWO) as house:
        house["a"].submit(int)
        house.run()
        with pytest.raises(cbs.CbsError):
            house.record(tmp_path / "run.tape")
        with pytest.raises(OSError):
            cbs.House(TWO).record(tmp_path / "none" / "run.tape")
