"""A wait for what comes soon, by the name that tests know it by."""

from drivers.wait import until as until
