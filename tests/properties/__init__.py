"""Properties that hold for every case: hypothesis makes a thousand for each. What it finds becomes an example in a
test of the package that the fault is in."""
