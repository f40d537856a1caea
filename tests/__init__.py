"""The rooms of tests/ are imported from here, as `tests.support.parts`, and from no other package of that name."""
