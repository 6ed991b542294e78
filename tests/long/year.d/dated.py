"""Runs a script of update/ as at another time: dated.py YYYY-MM-DDTHH:MM:SS SCRIPT OPTION.."""
import datetime, os, runpy, sys, time

MOMENT = datetime.datetime.fromisoformat(sys.argv[1]).replace(tzinfo=datetime.timezone.utc)
START = time.monotonic()


def now():
    return MOMENT + datetime.timedelta(seconds=time.monotonic() - START)


class Date(datetime.date):
    @classmethod
    def today(cls):
        return cls.fromordinal(now().toordinal())


class DateTime(datetime.datetime):
    @classmethod
    def now(cls, tz=None):
        return cls.fromtimestamp(now().timestamp(), tz)


datetime.date, datetime.datetime = Date, DateTime
sys.argv = sys.argv[2:]
sys.path[0] = os.path.dirname(os.path.realpath(sys.argv[0]))  # as Python does for a script
runpy.run_path(sys.argv[0], run_name="__main__")
