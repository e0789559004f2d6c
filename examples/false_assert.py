# The second assert is false, so `check` reports it: 5:5.
def main() -> None:
    x = 40
    assert x + 2 == 42
    assert x - 2 == 42
    print(x)
