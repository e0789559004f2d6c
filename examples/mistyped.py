# The name `total` is assigned nowhere, so `check` refuses the module: 4:11.
def main() -> None:
    count = 40
    print(total)
