"""A store of measurements that forgets everything before a date by one call.

usage: measurements.py READINGS [KEEP_FROM]

Each line of READINGS is 'YYYY-MM-DDTHH:MM SENSOR VALUE', in any order. The store keeps the latest reading of a minute of
each sensor. It prints how many there are, the hottest of each day, and what is left from KEEP_FROM on.
"""
import sys
from datetime import datetime, timedelta, timezone

from tree_index import TreeIndex

EPOCH = datetime(1970, 1, 1, tzinfo=timezone.utc)
SENSORS = 1 << 10


def key_of(moment, sensor=0):
    """The minute and then the sensor, in one number."""
    return (moment - EPOCH) // timedelta(minutes=1) * SENSORS + sensor


def moment_of(key):
    return EPOCH + timedelta(minutes=key // SENSORS)


def read(path):
    store = TreeIndex()
    with open(path, encoding="utf-8") as lines:
        for line in lines:
            if line.strip() and not line.startswith("#"):
                moment, sensor, value = line.split()
                store[key_of(datetime.fromisoformat(moment).replace(tzinfo=timezone.utc), int(sensor))] = float(value)
    return store


def hottest_by_day(store):
    """One walk over each day, which ends at the next one's first key."""
    at = store.at_or_above(-(2**63))
    while at is not None:
        day = moment_of(at[0]).replace(hour=0, minute=0)
        end = key_of(day + timedelta(days=1))
        key, value = max(store.irange_items(key_of(day), end, (True, False)), key=lambda item: item[1])
        yield day.date(), value, key % SENSORS, moment_of(key).time()
        at = store.at_or_above(end)


def main(path, keep_from=None):
    store = read(path)
    first, last = store.peekitem(0), store.peekitem()
    print(f"{len(store)} readings from {moment_of(first[0]):%Y-%m-%d %H:%M} to {moment_of(last[0]):%Y-%m-%d %H:%M}")
    for day, value, sensor, time in hottest_by_day(store):
        print(f"{day}: {value:.1f} at {time:%H:%M}, sensor {sensor}")
    if keep_from:
        gone = store.pop_range(maximum=key_of(datetime.fromisoformat(keep_from).replace(tzinfo=timezone.utc)), inclusive=(True, False))
        print(f"forgot {len(gone)} readings before {keep_from}, kept {len(store)}")
        if store:
            print(f"the oldest is now of {moment_of(store.peekitem(0)[0]):%Y-%m-%d %H:%M}")


if __name__ == "__main__":
    main(*sys.argv[1:])
